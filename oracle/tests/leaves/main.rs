//! The crate's leaf functions beside their meaning, document 01's readings of them, and their edges.

mod naive;

use judge::leaves::{answer_all, op, reply, Reply, Request};
use judge::requests::{requests, Lengths};

fn ask(op: u32, args: [u32; 4]) -> Reply {
    let [a, b, c, d] = args;
    reply(Request { op, a, b, c, d })
}

#[test]
fn every_request_gets_what_the_function_means() {
    for request in requests(1, 6, Lengths::Inside) {
        assert_eq!(reply(request), naive::reply(request), "{request:x?}");
    }
}

#[test]
fn requests_ask_every_function_inside_its_inputs() {
    let all = requests(1, 0, Lengths::Inside);
    for op in 1..=28 {
        assert!(all.iter().any(|request| request.op == op), "op {op}");
    }
    for request in all.into_iter().chain(requests(1, 0, Lengths::Past)) {
        assert_ne!(reply(request), Reply::Outside, "{request:x?}");
    }
}

#[test]
fn readings() {
    let one = |op: u32, args: [u32; 4], x: u32| assert_eq!(ask(op, args), Reply::One(x));
    one(op::DATA_BIT, [0x0a00_0113, 32, 0, 0], 6);
    one(op::DATA_LPM_MASK, [30, 0x0a00_0113, 32, 0], 69);
    one(op::DATA_BIT, [0x0a00_0100, 27, 0, 0], 3);
    one(op::CHILD_BIT, [25, 0x0a00_0113, 0, 0], 4);
    one(op::PATTERN, [0, 4, 8, 0], 8_390_693);
    one(op::PATTERN, [2, 1, 8, 0], 0xffff_0000);
    one(op::DATA_TIER, [24, 0, 0, 0], 5);
    one(op::DATA_TIER, [25, 0, 0, 0], 6);
    one(op::DATA_TIER, [2, 0, 0, 0], 1);
}

/// Past the node the crate clamps the level to 4: a /10 seems to cover the /4 above it and both
/// children below that /4. The port gives nothing there.
#[test]
fn cover_functions_clamp_past_the_node() {
    let slash_ten = [0, 0x0a00_0000, 10, 0];
    assert_eq!(ask(op::DATA_COVER_MASK, slash_ten), Reply::One(1 << 15));
    assert_eq!(ask(op::CHILD_COVER_MASK, slash_ten), Reply::One(0b11));
    // At the very next length covering itself would name one child: the node that the length is in.
    let slash_five = [0, 0x0a00_0000, 5, 0];
    assert_eq!(ask(op::CHILD_COVER_MASK, slash_five), Reply::One(0b11));
    let [a, b, c, d] = slash_five;
    let op = op::CHILD_COVER_MASK;
    assert_eq!(naive::reply(Request { op, a, b, c, d }), Reply::One(0b10));
}

#[test]
fn nothing_past_the_next_depth_is_covered() {
    for request in requests(1, 6, Lengths::Past) {
        let (depth, length) = match request.op {
            op::DATA_COVER_MASK | op::CHILD_COVER_MASK => (request.a, request.c),
            _ => (request.b, request.d),
        };
        if length > depth + 5 {
            assert_eq!(naive::reply(request), Reply::One(0), "{request:x?}");
        }
    }
}

#[test]
fn outside_a_functions_inputs() {
    for (op, args) in [
        (0, [0; 4]),
        (29, [0; 4]),
        (op::COMPUTE_SLOT, [0, 32, 0, 0]),
        (op::DATA_TIER, [32, 0, 0, 0]),
        (op::CHILD_TIER, [33, 0, 0, 0]),
        (op::DATA_SPACING, [7, 0, 0, 0]),
        (op::CHILD_SPACING, [7, 0, 0, 0]),
        (op::DATA_BIT, [0, 33, 0, 0]),
        (op::CHILD_BIT, [30, 0, 0, 0]),
        (op::CHILD_BIT, [4, 0, 0, 0]),
        (op::DATA_LPM_MASK, [5, 0, 4, 0]),
        (op::DATA_LPM_MASK, [0, 0, 33, 0]),
        (op::DATA_COVER_MASK, [35, 0, 35, 0]),
        (op::CHILD_COVER_MASK, [30, 0, 30, 0]),
        (op::PATTERN, [3, 0, 0, 0]),
        (op::PATTERN, [0, 5, 0, 0]),
        (op::PATTERN, [0, 0, 16, 0]),
        (op::DATA_LPM_LOC, [1 << 31, 0, 0, 0]),
        (op::DATA_SPM_LOC, [1, 10, 0, 9]),
        (op::DATA_COVER_LOCS, [1, 3, 0, 9]),
        (op::CHILD_COVER_LOCS, [1, 30, 0, 30]),
        (op::LEX_ORDER, [63, 0, 0, 0]),
        (op::LEX_AFTER_DATA, [31, 0, 0, 0]),
        (op::LEX_AFTER_CHILD, [32, 0, 0, 0]),
        (op::DATA_BIT_TO_PREFIX, [31, 0, 0, 0]),
        (op::EXTEND_REPR, [0, 35, 0, 0]),
        (op::EXTEND_REPR, [0, 0, 32, 0]),
        (op::MASKED, [0, 33, 0, 0]),
        (op::RECONSTRUCT_PREFIX, [30, 0, 7, 0]),
        (op::RECONSTRUCT_PREFIX, [25, 0, 31, 0]),
        (op::HAS_DATA_BIT, [0, 31, 0, 0]),
        (op::SET_CHILD_BIT, [0, 32, 0, 0]),
    ] {
        assert_eq!(ask(op, args), Reply::Outside, "{op} {args:?}");
    }
}

#[test]
fn bytes_both_ways() {
    let request = Request {
        op: op::LEX_ORDER,
        a: 5,
        b: 0,
        c: 0,
        d: 0,
    };
    assert_eq!(Request::decode(&request.encode()), request);
    let answers = answer_all(&[request.encode(), [0; 20]].concat()).expect("whole requests");
    // The sixth element of the order is child 0; there is no function 0.
    assert_eq!(answers[..12], [0, 0, 0, 1, 0, 0, 0, 1, 0, 0, 0, 0]);
    assert_eq!(answers[12..], [0, 0, 0, 3, 0, 0, 0, 0, 0, 0, 0, 0]);
    assert!(answer_all(&[0; 21])
        .unwrap_err()
        .contains("1 bytes into request 1"));
}
