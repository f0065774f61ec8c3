//! The inputs that are compared in every run, whatever its seed.

use sampling::layout::frame;

use crate::case::Case;
use crate::draft::{Draft, LONGEST};
use crate::heads;
use crate::walks::{BEGIN_END, OVERWRITTEN, SMALL};

const WORKED_FRAMES: &[u8] = include_bytes!("../../../examples/worked.frames");
const WORKED_LOG: &[u8] = include_bytes!("../../../examples/worked.log");
const WORKED_STEPS: &[u8] = include_bytes!("../../../examples/worked.steps");

/// What a log program prints for an input above 32,768 bytes, and nothing
/// else.
const TOO_LONG: &str = "input too long\n";

/// All fixed cases.
pub fn cases() -> Vec<Case> {
    let mut cases = vec![
        Case::new("the worked example", WORKED_FRAMES, WORKED_LOG),
        Case::new("situation K", situation_k(), SITUATION_K_LOG),
        Case::new("situation J", situation_j(), SITUATION_J_LOG),
        Case::new("own writes", own_writes(), OWN_WRITES_LOG),
        Case::new("own writes of 4,096 bytes", whole_part(), WHOLE_PART_LOG),
        Case::new("the empty input", [], ""),
        Case::new("situation B", situation_b(), SITUATION_B_LOG),
        Case::new(
            "a descriptor in eight loads",
            eight_loads(),
            EIGHT_LOADS_LOG,
        ),
        Case::new("spans without a byte that touch", no_bytes(), NO_BYTES_LOG),
        Case::new("every byte", every_byte(), every_byte_log()),
    ];
    cases.extend(about_64_records());
    cases.extend(about_the_longest_input());
    cases.extend(text());
    cases.extend(heads::cases());
    cases.extend(cuts("the worked example", WORKED_FRAMES));
    cases.extend(cuts("a journal of begins and ends", &begins_and_ends()));
    cases.extend(cuts("a journal with writes", &writes()));
    cases
}

/// Situation K of 01 (the agreed scope; docs/RULES.md has its rules) for
/// command 6: fetch, host write, end, begin, fetch.
fn situation_k() -> Vec<u8> {
    let begin = frame(0, 6, 0, 0, &[]);
    let fetch = frame(1, 6, 40, 3, &[]);
    let end = frame(2, 6, 0, 0, &[]);
    let host_write = frame(3, 0, 40, 3, b"new");
    [&begin, &fetch, &host_write, &end, &begin, &fetch]
        .map(Vec::as_slice)
        .concat()
}

/// The second fetch gets the new bytes.
const SITUATION_K_LOG: &str = "1 B ok\n\
                               2 F ok 3 0 000000\n\
                               3 H ok 3\n\
                               4 E ok 1 3\n\
                               5 B ok\n\
                               6 F ok 3 0 6e6577\n";

/// Every byte in the window, and a fetch of them all.
fn every_byte() -> Vec<u8> {
    let bytes: Vec<u8> = (0..=255).collect();
    [
        frame(3, 0, 0, 256, &bytes),
        frame(0, 1, 0, 0, &[]),
        fetch(0, 256),
    ]
    .concat()
}

/// The two characters of each byte.
fn every_byte_log() -> String {
    let pairs: String = (0..=255).map(|byte: u8| format!("{byte:02x}")).collect();
    format!("1 H ok 256\n2 B ok\n3 F ok 256 0 {pairs}\n")
}

/// A fetch by command 1.
fn fetch(address: u64, length: u64) -> Vec<u8> {
    frame(1, 1, address, length, &[])
}

/// An own write by command 1.
fn own_write(address: u64, data: &[u8]) -> Vec<u8> {
    frame(4, 1, address, data.len() as u64, data)
}

/// Begin of command 1, these frames, and its end.
fn begun_and_ended(frames: &[Vec<u8>]) -> Vec<u8> {
    [
        frame(0, 1, 0, 0, &[]),
        frames.concat(),
        frame(2, 1, 0, 0, &[]),
    ]
    .concat()
}

/// The same with fetches of these spans.
fn fetches(spans: &[(u64, u64)]) -> Vec<u8> {
    let frames = spans
        .iter()
        .map(|&(address, length)| fetch(address, length));
    begun_and_ended(&frames.collect::<Vec<_>>())
}

/// Situation J as F-3 of 02 (the agreed changes) has it: fetch, own write,
/// fetch, with a host write before the last one.
fn situation_j() -> Vec<u8> {
    begun_and_ended(&[
        fetch(16, 2),
        own_write(16, b"ab"),
        frame(3, 0, 16, 2, b"zz"),
        fetch(16, 2),
    ])
}

/// The second fetch gets what the command wrote.
const SITUATION_J_LOG: &str = "1 B ok\n\
                               2 F ok 2 0 0000\n\
                               3 W ok 2 0\n\
                               4 H ok 2\n\
                               5 F ok 0 2 6162\n\
                               6 E ok 1 2\n";

/// Own writes of what is held, of what is not and of both, and of no bytes, with
/// another command beside that sees the window alone.
fn own_writes() -> Vec<u8> {
    [
        begun_and_ended(&[
            own_write(16_384, b""),
            own_write(16, b"abcd"),
            fetch(14, 4),
            own_write(18, b"wxyz"),
            own_write(40, b""),
            frame(0, 2, 0, 0, &[]),
            frame(3, 0, 14, 8, b"........"),
            fetch(14, 10),
            frame(1, 2, 14, 10, &[]),
            own_write(15, b"!"),
            fetch(14, 3),
            frame(1, 2, 14, 3, &[]),
        ]),
        fetch(14, 3),
    ]
    .concat()
}

/// The numbers of a write are its bytes and the addresses that were not held.
const OWN_WRITES_LOG: &str = "1 B ok\n\
                              2 W ok 0 0\n\
                              3 W ok 4 4\n\
                              4 F ok 2 2 00006162\n\
                              5 W ok 4 2\n\
                              6 W ok 0 0\n\
                              7 B ok\n\
                              8 H ok 8\n\
                              9 F ok 2 8 000061627778797a0000\n\
                              10 F ok 10 0 2e2e2e2e2e2e2e2e0000\n\
                              11 W ok 1 0\n\
                              12 F ok 0 3 002161\n\
                              13 F ok 0 3 2e2e2e\n\
                              14 E ok 1 10\n\
                              15 F no 21\n";

/// All that a command may hold in one write, and then some more.
fn whole_part() -> Vec<u8> {
    begun_and_ended(&[
        own_write(100, &[7; 4_096]),
        own_write(4_196, b"8"),
        own_write(4_195, b"89"),
        own_write(99, b"8"),
        own_write(4_195, b"9"),
        fetch(4_194, 2),
        fetch(4_194, 3),
    ])
}

/// What is held can be written over, and no more is held.
const WHOLE_PART_LOG: &str = "1 B ok\n\
                              2 W ok 4096 4096\n\
                              3 W no 23\n\
                              4 W no 23\n\
                              5 W no 23\n\
                              6 W ok 1 0\n\
                              7 F ok 0 2 0739\n\
                              8 F no 23\n\
                              9 E ok 1 4096\n";

/// Situation B as F-1 of 02 has it, ended after its second
/// fetch, and whole.
fn situation_b() -> Vec<u8> {
    let touching = [(0, 4), (4, 4), (2, 4)];
    [fetches(&touching[..2]), fetches(&touching)].concat()
}

/// There is one record at both ends.
const SITUATION_B_LOG: &str = "1 B ok\n\
                               2 F ok 4 0 00000000\n\
                               3 F ok 4 0 00000000\n\
                               4 E ok 1 8\n\
                               5 B ok\n\
                               6 F ok 4 0 00000000\n\
                               7 F ok 4 0 00000000\n\
                               8 F ok 0 4 00000000\n\
                               9 E ok 1 8\n";

/// 64 bytes, eight at a time.
fn eight_loads() -> Vec<u8> {
    let loads: Vec<(u64, u64)> = (0..8).map(|load| (64 + 8 * load, 8)).collect();
    fetches(&loads)
}

/// They are one record.
const EIGHT_LOADS_LOG: &str = "1 B ok\n\
                               2 F ok 8 0 0000000000000000\n\
                               3 F ok 8 0 0000000000000000\n\
                               4 F ok 8 0 0000000000000000\n\
                               5 F ok 8 0 0000000000000000\n\
                               6 F ok 8 0 0000000000000000\n\
                               7 F ok 8 0 0000000000000000\n\
                               8 F ok 8 0 0000000000000000\n\
                               9 F ok 8 0 0000000000000000\n\
                               10 E ok 1 64\n";

/// A span of no bytes between two records, and at the ends of one.
fn no_bytes() -> Vec<u8> {
    fetches(&[(8, 2), (11, 2), (10, 0), (11, 0), (13, 0), (8, 0)])
}

/// Nothing is joined.
const NO_BYTES_LOG: &str = "1 B ok\n\
                            2 F ok 2 0 0000\n\
                            3 F ok 2 0 0000\n\
                            4 F ok 0 0 -\n\
                            5 F ok 0 0 -\n\
                            6 F ok 0 0 -\n\
                            7 F ok 0 0 -\n\
                            8 E ok 2 4\n";

/// Journals of 64 single bytes, two addresses apart, with fetches and own writes
/// of one byte behind them and the answers to those and to the end. A row has the
/// letters and the addresses.
fn about_64_records() -> Vec<Case> {
    let fresh = "F ok 1 0 00";
    let closed: Vec<(char, u64)> = (0..63).rev().map(|gap| ('F', 21 + 2 * gap)).collect();
    let closing = [vec![fresh; 63], vec!["E ok 1 127"]].concat();
    vec![
        of_64_records("one apart", &[('F', 148)], &["F no 24", "E ok 64 64"]),
        of_64_records("one above", &[('F', 147)], &[fresh, "E ok 64 65"]),
        of_64_records("one below", &[('F', 19)], &[fresh, "E ok 64 65"]),
        of_64_records("one gap closed", &[('F', 81)], &[fresh, "E ok 63 65"]),
        of_64_records(
            "one gap closed and two apart",
            &[('F', 81), ('F', 148), ('F', 150)],
            &[fresh, fresh, "F no 24", "E ok 64 66"],
        ),
        of_64_records(
            "a touching one and one apart",
            &[('F', 147), ('F', 149), ('F', 150), ('F', 148)],
            &[fresh, "F no 24", "F no 24", fresh, "E ok 64 66"],
        ),
        of_64_records("all gaps closed", &closed, &closing),
        of_64_records(
            "written over and apart",
            &[('W', 148), ('W', 146), ('W', 147), ('W', 81), ('W', 150)],
            &[
                "W no 24",
                "W ok 1 0",
                "W ok 1 1",
                "W ok 1 1",
                "W ok 1 1",
                "E ok 64 67",
            ],
        ),
    ]
}

/// One of these cases, with the answers behind those to the 64 bytes.
fn of_64_records(name: &str, behind: &[(char, u64)], answers: &[&str]) -> Case {
    let singles = (0..64).map(|place| fetch(20 + 2 * place, 1));
    let behind = behind.iter().map(|(letter, address)| match letter {
        'W' => own_write(*address, &[7]),
        _ => fetch(*address, 1),
    });
    let frames: Vec<Vec<u8>> = singles.chain(behind).collect();
    let all = [&["B ok"], &["F ok 1 0 00"; 64][..], answers].concat();
    let numbered = all.iter().enumerate();
    let log: String = numbered
        .map(|(place, answer)| format!("{} {answer}\n", place + 1))
        .collect();
    let journal = begun_and_ended(&frames);
    Case::new(&format!("64 records, {name}"), journal, log)
}

/// Inputs of 32,768 bytes, which are run, and of more, which are not.
fn about_the_longest_input() -> Vec<Case> {
    let full = full_journal();
    let mut cut = frame(0, 0, 0, 0, &[]).repeat(LONGEST / 5);
    cut.resize(LONGEST, 0);
    let one_more = [&full[..], &[0]].concat();
    vec![
        Case::of_reference("32,768 bytes", full),
        Case::of_reference("32,768 bytes with 3 for the last frame", cut),
        Case::new("32,769 bytes", one_more, TOO_LONG),
        Case::new("32,769 zeros", [0; LONGEST + 1], TOO_LONG),
        Case::new("100,000 bytes", [0xff; 100_000], TOO_LONG),
    ]
}

/// Text, which mostly is no journal.
fn text() -> Vec<Case> {
    let marked = |mark: &[u8]| [mark, WORKED_STEPS].concat();
    vec![
        Case::of_reference("steps", WORKED_STEPS),
        Case::of_reference("steps behind a mark", marked(b"\xef\xbb\xbf")),
        Case::of_reference("steps behind a mark of UTF-16", marked(b"\xff\xfe")),
        Case::of_reference("steps behind the other mark", marked(b"\xfe\xff")),
        Case::of_reference("steps behind half a mark", marked(b"\xef\xbb")),
        Case::of_reference("steps and a zero", [WORKED_STEPS, &[0]].concat()),
        Case::new("spaces", *b"     ", "1 F no 21\n"),
        Case::new("spaces and a step", *b"     B 1\n", "1 F no 21\n2 ? no 1\n"),
        Case::new("a newline", *b"\n", "1 ? no 1\n"),
    ]
}

/// A journal of exactly 32,768 bytes, every frame of which can be read.
fn full_journal() -> Vec<u8> {
    let mut draft = Draft::new(0, LONGEST);
    SMALL.stretch(&mut draft, 2_000);
    draft.fill_up();
    draft.into_bytes()
}

/// A short journal in which commands come and go.
fn begins_and_ends() -> Vec<u8> {
    let mut draft = Draft::new(1, 160);
    BEGIN_END.stretch(&mut draft, 60);
    draft.into_bytes()
}

/// A short journal in which a good part is data.
fn writes() -> Vec<u8> {
    let mut draft = Draft::new(2, 400);
    OVERWRITTEN.stretch(&mut draft, 60);
    draft.into_bytes()
}

/// The input cut at every length, from none of it to the whole.
fn cuts(name: &str, input: &[u8]) -> Vec<Case> {
    (0..=input.len())
        .map(|length| {
            let name = format!("{name}, the first {length} bytes");
            Case::of_reference(&name, &input[..length])
        })
        .collect()
}
