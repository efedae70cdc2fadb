//! Document 01's own run and its readings of whole maps, on each side of the mark, with the
//! readings that a fresh start can show (numbers 1 to 8 and 10 of the list of readings).

use judge::desk::{Desk, Pools};
use judge::play::play;
use judge::record::{Answer, Operation, Record};

/// A desk, asked in few words. Every insert stores the length as its value.
struct Bench(Desk);

impl Bench {
    fn new(nodes: usize, cells: usize) -> Bench {
        Bench(Desk::new(Pools { nodes, cells }))
    }

    fn ask(&mut self, operation: Operation, key: u32, length: u8) -> Answer {
        let value = if operation == Operation::Insert {
            length.into()
        } else {
            0
        };
        self.0.call(Record {
            operation,
            length,
            key,
            value,
        })
    }

    fn insert(&mut self, key: u32, length: u8) -> u8 {
        self.ask(Operation::Insert, key, length).number
    }

    fn remove(&mut self, key: u32, length: u8) -> u8 {
        self.ask(Operation::Remove, key, length).number
    }

    /// Number, found length and node count.
    fn longest(&mut self, key: u32, length: u8) -> (u8, u8, u8) {
        let answer = self.ask(Operation::Longest, key, length);
        (answer.number, answer.length, answer.count)
    }

    fn shortest(&mut self, key: u32, length: u8) -> (u8, u8, u8) {
        let answer = self.ask(Operation::Shortest, key, length);
        (answer.number, answer.length, answer.count)
    }
}

fn played(input: &[u8]) -> Vec<u8> {
    let mut output = Vec::new();
    play(&mut Desk::new(Pools::BENCH), input, &mut output).expect("memory can be read and written");
    output
}

#[test]
fn the_whole_run() {
    let input = [
        0x01, 0x1b, 0, 0, 0x0a, 0, 0x01, 0x13, 0, 0, 0, 0x07, //
        0x04, 0x20, 0, 0, 0x0a, 0, 0x01, 0x12, 0, 0, 0, 0, //
        0x05, 0x20,
    ];
    let output = [
        0x00, 0x1b, 0, 0, 0x0a, 0, 0x01, 0, 0, 0, 0, 0, //
        0x00, 0x1b, 0x06, 0, 0x0a, 0, 0x01, 0, 0, 0, 0, 0x07, //
        0x07, 0, 0, 0, 0, 0, 0, 0, 0, 0, 0, 0,
    ];
    assert_eq!(played(&input), output);
}

#[test]
fn one_rule_alone_and_a_cell_of_its_own() {
    let mut bench = Bench::new(1024, 2048);
    assert_eq!(bench.longest(0x0a00_0113, 32), (2, 0, 1));
    bench.insert(0x0a00_0100, 27);
    assert_eq!(bench.longest(0x0a00_0100, 26).0, 2);
    assert_eq!(bench.longest(0x0a00_0100, 27).1, 27);
    bench.insert(0x0a00_0113, 32);
    assert_eq!(bench.longest(0x0a00_0113, 32).1, 32);
    assert_eq!(bench.longest(0x0a00_0112, 32).1, 27);
}

#[test]
fn a_first_32_needs_seven_nodes() {
    assert_eq!(Bench::new(6, 1).insert(0x0a00_0113, 32), 4);
    assert_eq!(Bench::new(7, 1).insert(0x0a00_0113, 32), 0);
}

#[test]
fn a_next_32_needs_thirteen_nodes() {
    for (nodes, number) in [(12, 4), (13, 0)] {
        let mut bench = Bench::new(nodes, 2);
        assert_eq!(bench.insert(0, 32), 0);
        assert_eq!(bench.insert(0x8000_0000, 32), number);
    }
}

#[test]
fn a_second_32_under_the_same_30_bits_needs_three_cells() {
    for (cells, number) in [(2, 4), (3, 0)] {
        let mut bench = Bench::new(7, cells);
        assert_eq!(bench.insert(0, 32), 0);
        assert_eq!(bench.insert(1, 32), number);
    }
}

#[test]
fn length_32_is_taken_and_33_gives_1() {
    let mut bench = Bench::new(7, 1);
    assert_eq!(bench.insert(0, 32), 0);
    for operation in Operation::ALL {
        assert_eq!(bench.ask(operation, 0, 33), Answer::bare(1));
    }
}

#[test]
fn bad_records_come_before_long_ones() {
    let number = |bytes: [u8; 12]| played(&bytes)[0];
    assert_eq!(number([9, 33, 0, 0, 0, 0, 0, 0, 0, 0, 0, 0]), 6);
    assert_eq!(number([0, 33, 0, 0, 0, 0, 0, 0, 0, 0, 0, 0]), 6);
    assert_eq!(number([3, 33, 0, 1, 0, 0, 0, 0, 0, 0, 0, 0]), 6);
    assert_eq!(number([3, 33, 1, 0, 0, 0, 0, 0, 0, 0, 0, 0]), 6);
    assert_eq!(number([3, 33, 0, 0, 0, 0, 0, 0, 0, 0, 0, 1]), 6);
    assert_eq!(number([3, 33, 0, 0, 0, 0, 0, 0, 0, 0, 0, 0]), 1);
    assert_eq!(number([1, 33, 0, 0, 0, 0, 0, 0, 0, 0, 0, 1]), 1);
}

#[test]
fn a_tail_gives_one_7_and_nothing_gives_nothing() {
    assert_eq!(played(&[]), []);
    for length in 1..12 {
        let output = played(&[0xff; 11][..length]);
        assert_eq!((output.len(), output[0]), (12, 7));
    }
}

#[test]
fn the_node_count_runs_to_the_querys_length() {
    let mut bench = Bench::new(1024, 2048);
    bench.insert(0, 0);
    bench.insert(0, 32);
    assert_eq!(bench.longest(0, 31), (0, 0, 7));
    assert_eq!(bench.shortest(0, 31), (0, 0, 1));
    assert_eq!(bench.longest(0x8000_0000, 31), (0, 0, 1));
    assert_eq!(bench.ask(Operation::Exact, 0, 29).count, 6);
    bench.remove(0, 0);
    assert_eq!(bench.shortest(0, 31), (2, 0, 7));
    assert_eq!(bench.shortest(0, 32), (0, 32, 7));
    assert_eq!(bench.ask(Operation::Remove, 0, 31), Answer::bare(2));
}

#[test]
fn a_removal_refused_for_nodes() {
    let mut bench = Bench::new(4, 4);
    for (key, length) in [(0, 5), (0x0800_0000, 5), (0, 10)] {
        assert_eq!(bench.insert(key, length), 0);
    }
    assert_eq!(bench.remove(0x0800_0000, 5), 4);
    assert_eq!(bench.longest(0x0800_0000, 5), (0, 5, 2));
}

#[test]
fn a_removal_refused_for_cells() {
    let mut bench = Bench::new(2, 7);
    for length in [0, 1, 2, 5, 6] {
        assert_eq!(bench.insert(0, length), 0);
    }
    assert_eq!(bench.remove(0, 1), 4);
    assert_eq!(bench.longest(0, 1), (0, 1, 1));
}

#[test]
fn a_replacement_needs_no_room() {
    let mut bench = Bench::new(7, 1);
    assert_eq!(bench.insert(0, 32), 0);
    assert_eq!(bench.insert(1, 32), 4);
    assert_eq!(bench.insert(0, 32), 8);
}

#[test]
fn singles_returned_lower_down_serve_the_shrink() {
    let mut bench = Bench::new(13, 2);
    bench.insert(0, 32);
    bench.insert(0x8000_0000, 32);
    assert_eq!(bench.remove(0x8000_0000, 32), 0);
    // The child of the root that stays now stands in the single that was returned last.
    let image = bench.0.image();
    assert_eq!(image.nodes[0].children_idx, Some(1));
    assert_eq!(image.node_books.free[0], [12, 11, 10, 9]);
    assert_eq!(image.node_books.free[1], [7]);
}

#[test]
fn the_single_that_growth_returns_is_the_next_new_node() {
    let mut bench = Bench::new(13, 2);
    bench.insert(0, 32);
    assert_eq!(bench.0.image().nodes[0].children_idx, Some(1));
    bench.insert(0x8000_0000, 32);
    let image = bench.0.image();
    assert_eq!(image.nodes[0].children_idx, Some(7));
    let grown = image.nodes.iter().find(|node| node.position == 8);
    assert_eq!(grown.expect("the second child").children_idx, Some(1));
    assert_eq!(image.node_books.mark, 13);
    assert_eq!(image.node_books.free[0], []);
}
