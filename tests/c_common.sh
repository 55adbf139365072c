# What the tests in C share, for them to source from the folder of the repository: the static library, and compilers for it.
#
#   need_library                            sets `library`: what LIBAREA names, or what `examples/prove area_c` writes, which is made where it is
#                                           missing, or older than a source
#   need_compiler                           sets `cc` and `cxx`, and installs what is missing
#   compile_c OUT SOURCES.. -- FLAGS..      a program in C99 from sources, header and library; a warning is an error. A later flag holds: -std=c11
#   compile_cxx OUT SOURCES.. -- FLAGS..    the same in C++17
#
# shellcheck shell=sh
need_library() {
    library=${LIBAREA:-target/staticlib/libarea.a}
    [ -n "${LIBAREA:-}" ] || examples/prove area_c
    [ -f "$library" ] || { echo "there is no $library" >&2; exit 2; }
}

need_compiler() {
    cc=gcc cxx=g++
    if compilers_work; then return; fi
    installed=$(mktemp)
    { apt-get update && apt-get install -y --no-install-recommends gcc g++ libc6-dev; } >"$installed" 2>&1 || { cat "$installed" >&2; exit 2; }
    rm -f "$installed"
}

# Both are there, with their headers.
compilers_work() {
    { echo '#include <stdio.h>' | "$cc" -x c -fsyntax-only - && echo '#include <cstdio>' | "$cxx" -x c++ -fsyntax-only -; } 2>/dev/null
}

compile_c() { compile "$cc" -std=c99 -Wstrict-prototypes -o "$@"; }
compile_cxx() { compile "$cxx" -std=c++17 -o "$@"; }

compile() { # COMPILER WORDS.. -- FLAGS..
    for word in "$@"; do
        shift
        [ "$word" = -- ] || set -- "$@" "$word"
    done
    "$@" -Wall -Wextra -Wpedantic -Wconversion -Wshadow -Werror -Iinclude "$library"
}
