# What the programs of this folder share, for them to source: the programs that they run, and what is measured of one run.
#
#   counting       whether --count is the first option; it is taken away then
#   ours, plain    the proved program, as `examples/prove bench` builds it or BENCH names it, and the plain C version
#   made           the folder of what is made here
#
# shellcheck shell=bash
here=$(cd "$(dirname "${BASH_SOURCE[0]}")" && pwd)
counting=false
[ "${1:-}" = --count ] && { counting=true; shift; }
kit=$(dirname "$(dirname "$(readlink -f "$(command -v rt)")")")
made=$here/../target/bench
ours=${BENCH:-$here/../crates/bench/out/bench}
plain=$made/space_c
TIMEFORMAT=%U

must_be_there() { # FILE COMMAND
    [ -f "$1" ] || { echo "bench/$(basename "$0"): there is no $1: build it by '$2'" >&2; exit 2; }
}

# The proved program is there; the plain C version, and what counts instructions if that is asked for.
compile() {
    must_be_there "$ours" 'examples/prove bench'
    mkdir -p "$made"
    compile_c space
    if $counting; then compile_counter; fi
}

# A program of this folder, NAME_c of NAME.c and libraries.
compile_c() { # NAME LIBRARIES..
    "$kit/toolchain/bin/clang" --target=x86_64-unknown-linux-gnu -march=x86-64 -std=c11 -O2 -Wall -Wextra -Werror -ffreestanding -fPIE \
        -I "$here/headers" -c "$here/$1.c" -o "$made/$1_c.o"
    link_program "$made/$1_c" "$made/$1_c.o" "${@:2}"
}

link_program() { # PROGRAM OBJECTS..
    "$kit/bin/rattle-link" --target x86_64-unknown-linux-gnu --toolchain "$kit/toolchain" -o "$@" >"$made/link" 2>&1 || { cat "$made/link" >&2; exit 2; }
}

# What counts instructions: the emulator, and its plugin.
compile_counter() {
    { command -v qemu-x86_64 && command -v gcc; } >/dev/null ||
        { apt-get update && apt-get install -y --no-install-recommends qemu-user gcc libc6-dev; } >"$made/install" 2>&1 ||
        { cat "$made/install" >&2; exit 2; }
    gcc -shared -fPIC -O2 -Wall -Wextra -Werror -o "$made/count.so" "$here/count.c"
}

# Seconds of one run, with what it wrote in the file `said`.
seconds() { # PROGRAM ASKED
    { time "$1" >"$made/said" <<<"$2"; } 2>&1
}

# Instructions of one run, its loader's among them, with what it wrote there too. The C library's `memset` and `memcpy` are to go without `rep`,
# whose every step would count as one.
instructions() { # PROGRAM ASKED
    qemu-x86_64 -E GLIBC_TUNABLES=glibc.cpu.x86_rep_stosb_threshold=1000000000:glibc.cpu.x86_rep_movsb_threshold=1000000000 \
        -plugin "$made/count.so" "$1" 2>&1 >"$made/said" <<<"$2"
}

# Of several runs each must have written what the first one did, which is kept in the file `first`.
same_as_first() { # FIRST THIS CASE
    [ "$1" = "$2" ] && { mv "$made/said" "$made/first"; return; }
    cmp -s "$made/first" "$made/said" && return
    {
        echo "The answers differ, $1 and $2, in the case $3:"
        diff "$made/first" "$made/said" || true
    } >&2
    exit 1
}

machine() {
    echo "machine: $(uname -m), $(nproc) processors; $(date -u +%Y-%m-%d); $(head -n 1 "$kit/KIT-ID")"
}
