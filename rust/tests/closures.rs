//! Functions over variables from outside (document 02, 6/12): what a host sees of them in values, in a state, and in what is put
//! away.

mod common;

use common::{at, image, integer, output, Random, BUDGET};
use deletion_machine::{Answer, Image, Machine, Outcome, State, Value};

const RETURN: &str = "c00c00000000";

/// A variable, 10; prototype 1 adds 1 to it and returns it, prototype 2 returns it. After a call the variable is closed, and its register
/// becomes 10 again, which neither sees; then each is called once. Returns the register, both functions, and what the calls gave.
fn counter() -> Image {
    image(&[
        "a00600",
        &integer(10),
        "c00100000000",
        "c01100010100",
        "c01100020200",
        "c00000030100",
        "c00a00030001",
        "c00e00000000",
        "c00100000000",
        "c00000040100",
        "c00a00040001",
        "c00000050200",
        "c00a00050001",
        "c00c00000600",
        "a00100",
        "d10000",
        &integer(1),
        "c01800000000",
        "c02102000000",
        "c01900000000",
        "c00c00000100",
        "a00100",
        "d10000",
        "c01800000000",
        "c00c00000100",
        "e003",
    ])
}

const COUNTED: [Value; 6] = [
    Value::Integer(10),
    Value::Function {
        prototype: 1,
        entry: 0,
    },
    Value::Function {
        prototype: 2,
        entry: 1,
    },
    Value::Integer(11),
    Value::Integer(12),
    Value::Integer(12),
];

/// The machine after so many instructions.
fn after(image: &Image, count: u32) -> Machine<&Image> {
    let mut machine = Machine::start(image, &[]).unwrap();
    assert_eq!(machine.run(count).count, count);
    machine
}

#[test]
fn a_variable_is_shared() {
    let image = counter();
    let mut machine = Machine::start(&image, &[]).unwrap();
    let finished = Answer {
        outcome: Outcome::Finished,
        count: 22,
        place: at(0, 11),
    };
    assert_eq!(machine.run(BUDGET), finished);
    assert_eq!(machine.values(), COUNTED);
    let lines = output(&finished, &machine);
    assert!(lines.contains("\nb00501\nb00502\n"), "{lines}");
}

/// As the table of `State::frames` has it.
#[test]
fn where_it_stands_in_a_state() {
    let image = counter();
    // in the first call
    let state = after(&image, 5).into_state();
    assert_eq!(state.frames[..6], [70, 2, 0, 5, 1, 0]);
    assert_eq!(state.frames[34..36], [0, 1]);
    assert_eq!(state.frames[50..52], [2, 1]);
    assert_eq!(state.frames[59..61], [3, 1]);
    assert_eq!(state.frames[626..628], [2, 0], "open on register 0");
    assert_eq!((state.kinds[1], state.words[1]), (5, 0));
    assert_eq!((state.kinds[2], state.words[2]), (5, 1));
    // just before and after it is closed
    let state = after(&image, 9).into_state();
    assert_eq!((state.frames[626], state.kinds[2_308]), (2, 0));
    let state = after(&image, 10).into_state();
    assert_eq!(state.frames[626], 1);
    assert_eq!((state.kinds[2_308], state.words[2_308]), (2, 11));
    let used = |frames: &[u64]| frames.iter().filter(|frame| **frame != 0).count();
    assert_eq!(used(&state.frames[50..]), 5);
}

#[test]
fn functions_are_equal_where_they_are_one() {
    // two functions of one prototype, a copy of the first, and what the rule finds of the first and the copy, the first and the second
    let image = image(&[
        "a00500",
        "c01100000100",
        "c01100010100",
        "c00000020000",
        "c00200030000",
        "c01b00000002",
        "c00200030100",
        "c00200040000",
        "c01b00000001",
        "c00200040100",
        "c00c00000500",
        "a00100",
        RETURN,
        "e002",
    ]);
    let mut machine = Machine::start(&image, &[]).unwrap();
    assert_eq!(machine.run(BUDGET).outcome, Outcome::Finished);
    match machine.values()[..] {
        [first, second, copy, same, other] => {
            assert_eq!(same, (first == copy).into());
            assert_eq!(other, (first == second).into());
            assert_eq!((first == copy, first == second), (true, false));
            assert_eq!(first.to_string(), second.to_string());
        }
        ref other => panic!("{other:?}"),
    }
}

#[test]
fn put_away_after_each_instruction() {
    let image = counter();
    let whole = after(&image, 22);
    let mut random = Random::new(5);
    for count in 0..=22 {
        let mut machine = after(&image, count);
        loop {
            let bytes = machine.to_bytes();
            machine = Machine::from_bytes(&image, &bytes).unwrap();
            assert_eq!(machine.to_bytes(), bytes);
            if machine.run(random.up_to(4)).outcome != Outcome::Paused {
                break;
            }
        }
        assert_eq!(machine.state(), whole.state());
        assert_eq!(machine.values(), COUNTED);
    }
}

/// The 65th function, and the cells that are too few: nothing is changed but the mark.
#[test]
fn what_a_failed_closure_leaves() {
    for (descriptors, made, number) in [(0, 64, 53), (3, 42, 54)] {
        let mut lines = vec!["a00400", "c01100000100", "c00e0000fffe", RETURN, "a00100"];
        lines.extend(&["d10001", "d10002", "d10003"][..descriptors]);
        lines.extend([RETURN, "e002"]);
        let image = image(&lines);
        let mut machine = after(&image, 2 * made);
        let mut before = machine.state().clone();
        let answer = machine.run(BUDGET);
        assert_eq!((answer.outcome.number(), answer.count), (number, 1));
        assert_eq!((answer.place, answer.outcome.operand()), (at(0, 0), None));
        before.frames[0] = number.into();
        assert_eq!(machine.state(), &before);
    }
}

type Change = fn(&mut State);

/// In the first call of `counter`: two activations, of 6 registers and 1; entries 0 and 1 over cell 0, which is open on register 0.
#[test]
fn states_that_are_unfit() {
    let image = counter();
    let good = after(&image, 5).into_state();
    let changes: [(&str, Change); 19] = [
        ("an entry of no prototype", |s| s.frames[59] = 4),
        ("an entry that lacks a cell", |s| s.frames[60] = 0),
        ("an entry of a cell too many", |s| s.frames[61] = 1),
        ("an entry over a free cell", |s| s.frames[60] = 2),
        ("an entry over no cell", |s| s.frames[60] = 129),
        ("open on a dead register", |s| s.frames[627] = 2 + 7),
        ("open on no register", |s| s.frames[627] = u64::MAX),
        ("open on a register twice", |s| s.frames[627] = 2),
        ("closed over no kind", |s| {
            s.frames[627] = 1;
            s.kinds[2_309] = 6
        }),
        ("closed over a boolean of 2", |s| {
            s.frames[627] = 1;
            s.kinds[2_309] = 1;
            s.words[2_309] = 2
        }),
        ("closed over a function that is free", |s| {
            s.frames[627] = 1;
            s.kinds[2_309] = 5;
            s.words[2_309] = 2
        }),
        ("a function that is free", |s| s.words[1] = 2),
        ("a function that isn't there", |s| s.words[1] = 64),
        ("a function for the outermost", |s| s.frames[34] = 1),
        ("no function for another", |s| s.frames[35] = 0),
        ("another prototype's function", |s| s.frames[35] = 2),
        ("a free function", |s| s.frames[35] = 3),
        ("a function beyond them", |s| s.frames[35] = 65),
        ("an outermost with descriptors", |s| {
            s.frames[1] = 1;
            s.frames[2] = 1;
            s.frames[3] = 0
        }),
    ];
    for (what, change) in changes {
        let mut state = good.clone();
        change(&mut state);
        let mut machine = Machine::resume(&image, state.clone());
        for budget in [0, 1, BUDGET] {
            let fault = Answer {
                outcome: Outcome::Fault,
                count: 0,
                place: at(0, 0),
            };
            assert_eq!(machine.run(budget), fault, "{what}");
        }
        assert_eq!(machine.values(), [], "{what}");
        assert_eq!(machine.state(), &state, "{what}: nothing is touched");
    }
}

#[test]
fn states_that_are_odd_and_fit() {
    let image = counter();
    let good = after(&image, 5).into_state();
    let changes: [(&str, Change); 5] = [
        ("an entry that nothing reaches", |s| {
            s.frames[50 + 9 * 63] = 3;
            s.frames[51 + 9 * 63] = 1
        }),
        ("an open cell that no entry names", |s| {
            s.frames[753] = 2 + 3
        }),
        ("a closed cell that no entry names", |s| s.frames[700] = 1),
        ("what a free entry holds", |s| s.frames[51 + 9 * 5] = 1_000),
        ("what a free cell holds", |s| s.kinds[2_435] = 9),
    ];
    for (what, change) in changes {
        let mut state = good.clone();
        change(&mut state);
        let mut machine = Machine::resume(&image, state);
        assert_eq!(machine.run(BUDGET).outcome, Outcome::Finished, "{what}");
        assert_eq!(machine.values(), COUNTED, "{what}");
    }
}
