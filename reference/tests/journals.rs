//! Journals on buffers of other lengths than those of the log program, and the
//! counts of a run.

use reference::journal::{replay, Lent, Run};
use sampling::layout::frame;

/// The run of a journal on zeroes of these lengths: store, window and
/// destination.
fn run(journal: &[u8], [store, window, destination]: [usize; 3]) -> Run {
    let lent = Lent {
        store: &mut vec![0; store],
        window: &mut vec![0; window],
        destination: &mut vec![0; destination],
    };
    replay(journal, lent)
}

/// Begin, a fetch of four bytes and a host write of one, on the last byte of a
/// window of 20 bytes, and an own write of two of them.
fn four_frames() -> Vec<u8> {
    [
        frame(0, 2, 0, 0, &[]),
        frame(1, 2, 16, 4, &[]),
        frame(3, 0, 19, 1, &[9]),
        frame(4, 2, 16, 2, &[7, 8]),
    ]
    .concat()
}

#[test]
fn the_counts_are_those_of_the_lines() {
    let done = run(&four_frames(), [32_768, 20, 4]);
    let lines = "1 B ok\n2 F ok 4 0 00000000\n3 H ok 1\n4 W ok 2 0\n";
    assert_eq!(done.log, lines);
    assert_eq!((done.carried, done.refused, done.early), (4, 0, false));
    assert_eq!(run(&[], [0, 0, 0]), Run::default());
}

#[test]
fn a_buffer_of_another_length_is_refused_by_the_calls_that_take_it() {
    for (lengths, log) in [
        ([32_767, 20, 4], "1 B no 8\n2 F no 8\n3 H ok 1\n4 W no 8\n"),
        (
            [32_768, 65_537, 4],
            "1 B ok\n2 F no 7\n3 H no 7\n4 W no 7\n",
        ),
        ([32_768, 19, 4], "1 B ok\n2 F no 9\n3 H no 9\n4 W ok 2 2\n"),
        ([32_768, 17, 4], "1 B ok\n2 F no 9\n3 H no 9\n4 W no 9\n"),
        ([32_768, 20, 3], "1 B ok\n2 F no 10\n3 H ok 1\n4 W ok 2 2\n"),
    ] {
        assert_eq!(run(&four_frames(), lengths).log, log);
    }
}

#[test]
fn an_unreadable_frame_is_neither_carried_out_nor_refused() {
    let journal = [four_frames(), vec![0xff; 5], four_frames()].concat();
    let done = run(&journal, [32_768, 20, 3]);
    let lines = "1 B ok\n2 F no 10\n3 H ok 1\n4 W ok 2 2\n5 ? no 2\n";
    assert_eq!(done.log, lines);
    assert_eq!((done.carried, done.refused, done.early), (3, 1, true));
}
