//! Scripts that change a good table, state, summary or message in each place in turn, lend each number of bytes for a message, go through all
//! small tables at a page's edges and sections at each decade's edges, name a piece at each address of small files and each entry of files
//! with up to the most entries, fill the largest table, and try lines at the edges of the script language.
//!
//!   scripts    all of them; they are the same in every run
//!   names      those of them that name a piece at each address
//!   counts     those of them that name each entry of files with few and with many entries
//!   messages   the good messages

use crate::message::{bytes_of, Fields, ABSENT, FULL_LENGTH, HEAD_LENGTH, UNDEFINED};
use crate::model::{entries_of, table_of, Entry, State, ENTRY_WORDS, FREE_LARGE, LARGEST_LIMIT, LARGEST_TABLE, LIVE_LARGE};
use crate::script::{fresh, read_line, show_summary, show_words, six, state_line, summary_line, words_line, write_line, LONGEST_LINE, MOST_WORDS};
use crate::summary::{Summary, Totals, COUNTS, TOTALS};

/// Document 01's state and table after step 5.
const STATE: State = State { page: 512, limit: 5_120, end: 2_560, count: 8 };
const ENTRIES: [Entry; 8] = [
    Entry { address: 0, size: 96, kind: 1 },
    Entry { address: 96, size: 416, kind: 1 },
    Entry { address: 512, size: 100, kind: 2 },
    Entry { address: 612, size: 412, kind: 5 },
    Entry { address: 1_024, size: 700, kind: 3 },
    Entry { address: 1_724, size: 324, kind: 6 },
    Entry { address: 2_048, size: 10, kind: 1 },
    Entry { address: 2_058, size: 502, kind: 4 },
];

fn table() -> Vec<u64> {
    table_of(&ENTRIES, 12 * ENTRY_WORDS)
}

pub fn scripts() -> Vec<Vec<String>> {
    let damaged = [each_word(), each_number_of_the_state(), each_length_of_a_table(), each_number_of_the_summary()];
    let tables = [each_small_table(512), each_small_table(1_000), each_decade(512), each_decade(1_000), largest_table(), names(), counts()];
    let read = [each_byte_of_a_message(), each_length_of_a_message()];
    let written = [each_room_for_a_message(), each_address_without_persistence()];
    let lines = [edges_of_lines(), edges_of_summary_lines()];
    damaged.into_iter().chain(tables).chain(read).chain(written).chain(lines).collect()
}

fn opening() -> String {
    "open 512 5120 12".to_string()
}

/// A script of these lines.
fn opened(lines: impl IntoIterator<Item = String>) -> Vec<String> {
    [opening()].into_iter().chain(lines).collect()
}

/// What a word is changed to.
fn changes(word: u64) -> [u64; 9] {
    [word.wrapping_sub(1), word.wrapping_add(1), 0, 1, 3, 6, 7, word.wrapping_add(512), word | 1 << 63]
}

/// Calls that a damaged space gets: one that writes nothing, and one that would.
fn probes() -> [String; 4] {
    ["list large 100".to_string(), "release 96 416".to_string(), show_words(), show_summary()]
}

/// A state and a table with the summary of its entries, as far as it has entries, so that what is refused is refused for state and table. It
/// is worked out afresh before that.
fn set(state: &State, table: &[u64]) -> [String; 5] {
    let totals = Totals::of(&entries_of(table, state.count).unwrap_or_default());
    [state_line(state), words_line(table), fresh(), show_summary(), summary_line(&Summary { totals, moved: 0 })]
}

/// The numbers with each of them changed in turn.
fn each_change(numbers: &[u64]) -> Vec<Vec<u64>> {
    let changed = |i: usize, to: u64| (0..numbers.len()).map(|k| if k == i { to } else { numbers[k] }).collect();
    (0..numbers.len()).flat_map(|i| changes(numbers[i]).map(|to| changed(i, to))).collect()
}

/// Each state with its table, probed.
fn probed(spaces: impl IntoIterator<Item = (State, Vec<u64>)>) -> Vec<String> {
    let mut lines = vec![opening()];
    for (state, table) in spaces {
        lines.extend(set(&state, &table));
        lines.extend(probes());
    }
    lines
}

fn each_word() -> Vec<String> {
    probed(each_change(&table()).into_iter().map(|table| (STATE, table)))
}

fn each_number_of_the_state() -> Vec<String> {
    probed(each_change(&STATE.numbers()).into_iter().map(|s| (State::of([s[0], s[1], s[2], s[3]]), table())))
}

/// The table cut short or with zero words behind it: sound from its entries on, where the words are those of whole entries.
fn each_length_of_a_table() -> Vec<String> {
    let most = LARGEST_TABLE;
    let lengths = (0..16 * ENTRY_WORDS).chain([most - ENTRY_WORDS, most - ENTRY_WORDS + 1, most, most + 1, most + ENTRY_WORDS, MOST_WORDS]);
    probed(lengths.map(|length| {
        let mut table = table();
        table.resize(length, 0);
        (STATE, table)
    }))
}

/// A good summary with each of its numbers changed in turn, over a good state and table: only the signed number may be any.
fn each_number_of_the_summary() -> Vec<String> {
    let good = Totals::of(&ENTRIES);
    let damaged = each_change(&good.numbers()).into_iter().map(|numbers| Summary { totals: Totals::with(&numbers), moved: 0 });
    let signed = [0, 1, -1, 512, -512, i64::MAX, i64::MIN].map(|moved| Summary { totals: good, moved });
    let probe = |summary| [state_line(&STATE), words_line(&table()), summary_line(&summary)].into_iter().chain(probes());
    opened(damaged.chain(signed).flat_map(probe))
}

/// Each way to choose `count` of these.
fn choices(of: &[u64], count: usize) -> Vec<Vec<u64>> {
    if count == 0 {
        return vec![vec![]];
    }
    let with = |rest: Vec<u64>| of.iter().map(move |one| [&rest[..], &[*one]].concat()).collect::<Vec<_>>();
    choices(of, count - 1).into_iter().flat_map(with).collect()
}

/// Entries of these sizes and kinds, one behind the other, and the end of the last one. Sums go round at 2^64.
fn tiled(sizes: &[u64], kinds: &[u64]) -> (Vec<Entry>, u64) {
    let mut entries = Vec::new();
    let mut end: u64 = 0;
    for (size, kind) in sizes.iter().zip(kinds) {
        entries.push(Entry { address: end, size: *size, kind: *kind });
        end = end.wrapping_add(*size);
    }
    (entries, end)
}

/// Entries in a row, set in a table of 4, and a call on them.
fn in_a_row(page: u64, sizes: &[u64], kinds: &[u64], call: String) -> Vec<String> {
    let (entries, end) = tiled(sizes, kinds);
    let table = table_of(&entries, 4 * ENTRY_WORDS);
    let state = State { page, limit: LARGEST_LIMIT, end, count: sizes.len() as u64 };
    set(&state, &table).into_iter().chain([call, show_words(), show_summary()]).collect()
}

/// Each table of up to three entries of any kinds, with sizes at a page's edges, whose end is a page's border: few are sound, and some
/// others break one rule alone.
fn each_small_table(page: u64) -> Vec<String> {
    let edges = [1, page - 1, page, page + 1, 1 << 63];
    let mut lines = vec![opening()];
    for count in 1..=3 {
        let ends_at_a_border = |sizes: &Vec<u64>| sizes.iter().fold(0u64, |end, size| end.wrapping_add(*size)) % page == 0;
        for sizes in choices(&edges, count).into_iter().filter(ends_at_a_border) {
            let released = |kinds: &Vec<u64>| in_a_row(page, &sizes, kinds, format!("release 0 {}", sizes[0]));
            lines.extend(choices(&[1, 2, 3, 4, 5, 6], count).iter().flat_map(released));
        }
    }
    lines
}

/// A free large section of each size at a decade's edges, between two live pieces, the first of which makes it end at a border: a byte more
/// by a shorten of that piece, and a byte less by an extend.
fn each_decade(page: u64) -> Vec<String> {
    let row = |size: u64, call: &str| {
        let first = 2 * page - size % page;
        in_a_row(page, &[first, size, page], &[LIVE_LARGE, FREE_LARGE, LIVE_LARGE], format!("{call} 0 {first} 1"))
    };
    let edges = (0..COUNTS as u32).map(|decade| 10u64.pow(decade));
    let sizes = edges.flat_map(|edge| [edge - 1, edge, edge + 1]).filter(|size| *size > 0);
    opened(sizes.flat_map(|size| [row(size, "shorten"), row(size, "extend")].concat()))
}

/// A file with entries of every kind, live and free ones of 1 byte among them, that ends with a live piece; a file that ends with a free entry;
/// and a file that has no entry.
pub fn names() -> Vec<String> {
    let sizes = [1, 1, 1, 507, 1, 1, 513, 511, 1, 1, 100, 310, 100];
    let live_last = tiled(&sizes, &[1, 4, 1, 1, 4, 1, 3, 6, 2, 5, 2, 5, 2]);
    let free_last = tiled(&[1, 300, 1, 210], &[2, 5, 2, 5]);
    opened([live_last, free_last, tiled(&[], &[])].iter().flat_map(|(entries, end)| each_name(entries, *end)))
}

/// Each address of a file, a few behind its end and a few more up to the last one, named with each size at an edge of the entry there. A call
/// that names a live piece may be accepted, so the file is then set anew.
fn each_name(entries: &[Entry], end: u64) -> Vec<String> {
    let state = State { end, count: entries.len() as u64, ..STATE };
    let anew = set(&state, &table_of(entries, 16 * ENTRY_WORDS));
    let mut lines = anew.to_vec();
    for address in (0..end + 4).chain([1 << 63, u64::MAX - 1, u64::MAX]) {
        let holder = entries.iter().find(|entry| entry.holds(address));
        for size in sizes_to_name(address, holder) {
            let is_live = holder.is_some_and(|entry| entry.is_live() && (entry.address, entry.size) == (address, size));
            for call in calls_that_name(address, size) {
                lines.push(call);
                if is_live {
                    lines.extend([&[show_words(), show_summary()], &anew[..]].concat());
                }
            }
        }
        lines.extend([show_words(), show_summary()]);
    }
    lines
}

/// The sizes with which an address is named: around the size of the entry that holds it, and what the entry has from there on.
fn sizes_to_name(address: u64, holder: Option<&Entry>) -> Vec<u64> {
    let around = holder.map_or(vec![STATE.page], |entry| {
        let from_there_on = entry.address + entry.size - address;
        vec![entry.size - 1, entry.size, entry.size + 1, from_there_on]
    });
    let mut sizes = [&[0, 1, u64::MAX], &around[..]].concat();
    sizes.sort();
    sizes.dedup();
    sizes
}

fn calls_that_name(address: u64, size: u64) -> [String; 3] {
    [format!("release {address} {size}"), format!("extend {address} {size} 1"), format!("shorten {address} {size} 1")]
}

/// Files of up to 17 entries, and of as many as a power of two up to the most, one more and one less: where a search by halves would miss one.
/// An entry is named at its start, with its size and with another, behind its start and at its last byte. No call is accepted, so a file is set
/// once; a shorten by all bytes is refused 9 where the piece was found.
pub fn counts() -> Vec<String> {
    let most = (LARGEST_TABLE / ENTRY_WORDS) as u64;
    let edges = (5..=10).flat_map(|power| [(1 << power) - 1, 1 << power, (1 << power) + 1]).filter(|count| *count <= most);
    opened((0..=17).chain(edges).flat_map(each_entry))
}

/// Live and free entries of a page each, so many of them, all named.
fn each_entry(count: u64) -> Vec<String> {
    let page = STATE.page;
    let is_free = |i: u64| i % 3 == 1 && i + 1 < count;
    let entry = |i: u64| Entry { address: i * page, size: page, kind: if is_free(i) { FREE_LARGE } else { LIVE_LARGE } };
    let entries: Vec<Entry> = (0..count).map(entry).collect();
    let state = State { page, limit: LARGEST_LIMIT, end: count * page, count };
    let table = table_of(&entries, entries.len().max(4) * ENTRY_WORDS);
    let named = |at: u64| {
        let releases = [(at, page + 1), (at + 1, page), (at + page - 1, 1)].map(|(address, size)| format!("release {address} {size}"));
        releases.into_iter().chain([format!("shorten {at} {page} {page}")])
    };
    let calls = (0..=count).flat_map(|i| named(i * page)).chain([show_words(), show_summary()]);
    set(&state, &table).into_iter().chain(calls).collect()
}

/// The largest table with all entries taken, 512 pages of a small piece and a free rest: calls that need an entry more, and calls that need
/// none.
fn largest_table() -> Vec<String> {
    let page = |at: u64| [Entry { address: at, size: 300, kind: 1 }, Entry { address: at + 300, size: 212, kind: 4 }];
    let entries: Vec<Entry> = (0..512).flat_map(|i| page(512 * i)).collect();
    let table = table_of(&entries, LARGEST_TABLE);
    let calls = [
        "allocate metadata 213",
        "allocate metadata 211",
        "allocate raw 1",
        "allocate raw 512",
        "shorten 0 300 1",
        "extend 0 299 1",
        "allocate metadata 212",
        "shorten 300 212 1",
        "release 512 300",
        "allocate raw 1024",
        "extend 262144 1024 1",
        "extend 262144 1024 512",
        "allocate raw 513",
        "allocate raw 512",
        "list metadata 1020",
        "list metadata 1019",
    ];
    let mut lines = vec!["open 512 1048576 1024".to_string()];
    lines.extend(set(&State::of([512, 1_048_576, 262_144, 1_024]), &table));
    lines.extend(calls.iter().flat_map(|call| [call.to_string(), show_words(), show_summary()]));
    lines
}

/// So many bytes are lent for a message at the most.
const MOST_LENT: usize = FULL_LENGTH + 10;
const ONES: u8 = u8::MAX;

/// Good messages, one with addresses and one without persistence.
pub fn messages() -> [Fields; 2] {
    let (small, large) = ([4_096, UNDEFINED, 635, 0, 1, 49_152], [2, 81_920, UNDEFINED, 0, 3, 1_771]);
    let persistent = Fields { strategy: 1, persist: 1, threshold: 1, page: 4_096, page_end: 7, eoa: 40_960, small, large };
    let plain = Fields { persist: 0, small: ABSENT, large: ABSENT, ..persistent.clone() };
    [persistent, plain]
}

/// A message in lent bytes, followed by others.
fn followed(fields: &Fields, behind: u8) -> Vec<u8> {
    let mut bytes = bytes_of(fields);
    bytes.resize(MOST_LENT, behind);
    bytes
}

/// What a byte of a message is changed to: the version, the strategy and persist to anything.
fn byte_changes(i: usize, byte: u8) -> Vec<u8> {
    if i < 3 { (0..=255).collect() } else { vec![byte ^ 1, byte ^ 0x80, !byte] }
}

/// The lent bytes, read with each of them changed in turn.
fn each_byte(lent: &[u8]) -> Vec<String> {
    let changed = |i: usize, to: u8| read_line(&[&lent[..i], &[to], &lent[i + 1..]].concat());
    (0..lent.len()).flat_map(|i| byte_changes(i, lent[i]).into_iter().map(move |to| changed(i, to))).collect()
}

/// A head alone, a head with a part of the addresses, and more than the longer message.
fn each_byte_of_a_message() -> Vec<String> {
    let messages = messages().map(|fields| followed(&fields, ONES));
    opened([HEAD_LENGTH, 60, MOST_LENT].iter().flat_map(|length| messages.iter().flat_map(|lent| each_byte(&lent[..*length]))))
}

/// With ones behind the message, as absent addresses read, and with bytes that are no ones.
fn each_length_of_a_message() -> Vec<String> {
    let messages = messages().into_iter().flat_map(|fields| [followed(&fields, ONES), followed(&fields, 0xaa)]);
    opened(messages.flat_map(|lent| (0..=MOST_LENT).map(move |length| read_line(&lent[..length]))))
}

/// Both messages written into each room, and one that has addresses without persistence.
fn each_room_for_a_message() -> Vec<String> {
    let [persistent, plain] = messages();
    let broken = Fields { persist: 0, ..persistent.clone() };
    opened([persistent, plain, broken].iter().flat_map(|fields| (0..=MOST_LENT as u64).map(|room| write_line(fields, room))))
}

fn each_address_without_persistence() -> Vec<String> {
    let [_, plain] = messages();
    let with = |addresses: &[u64]| Fields { small: six(&addresses[..6]), large: six(&addresses[6..]), ..plain.clone() };
    opened(each_change(&[ABSENT, ABSENT].concat()).iter().map(|addresses| write_line(&with(addresses), FULL_LENGTH as u64)))
}

/// The longest line and one byte more; the most words and one more. A line that is refused changes nothing.
fn edges_of_lines() -> Vec<String> {
    let call = "allocate raw 1";
    let padded = |length: usize| call.to_string() + &" ".repeat(length - call.len());
    let zeros = |count: usize| words_line(&vec![0; count]);
    let padded_lines = [LONGEST_LINE, LONGEST_LINE + 1, 3 * LONGEST_LINE].map(padded);
    let edges = padded_lines.into_iter().chain([zeros(MOST_WORDS), zeros(MOST_WORDS + 1), "words".to_string()]);
    opened(edges.flat_map(|line| [line, show_words()]).chain([opening()]))
}

/// One number more and one less than a summary has, each number in turn too large, negative or none, and the signed number at its edges.
fn edges_of_summary_lines() -> Vec<String> {
    let line = |count: usize, place: usize, word: &str| {
        let words: Vec<&str> = (0..count).map(|i| if i == place { word } else { "7" }).collect();
        format!("summary {}", words.join(" "))
    };
    let counts = [TOTALS, TOTALS + 1, TOTALS + 2].map(|count| line(count, 0, "8"));
    let wrong = ["18446744073709551616", "-1", "x", "18446744073709551615"];
    let places = (0..TOTALS).flat_map(|place| wrong.map(|word| line(TOTALS + 1, place, word)));
    let edges = ["9223372036854775807", "9223372036854775808", "-9223372036854775808", "-9223372036854775809", "18446744073709551616"];
    let forms = ["-0", "-", "--1", "+1", "1-", "-18446744073709551616"];
    let signed = edges.iter().chain(&forms).map(|word| line(TOTALS + 1, TOTALS, word));
    opened(counts.into_iter().chain(places).chain(signed).flat_map(|line| [line, show_summary()]).chain([opening(), show_summary()]))
}
