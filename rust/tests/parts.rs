//! Pausing and resuming: a run in parts, of any sizes, is one run.

mod common;

use common::{image, integer, output, rules, Random, BUDGET};
use deletion_machine::{Image, Machine, Operand, Outcome, State};

/// Runs an image in random parts, now and then putting the state away, until it ends. Answers the last state and the
/// lines that the program would write, with the counts added up.
fn in_parts(image: &Image, random: &mut Random, most: u32) -> (State, String) {
    let mut machine = Machine::start(image, &[]).unwrap();
    let mut count = 0;
    loop {
        let budget = random.up_to(most);
        let mut answer = machine.run(budget);
        count += answer.count;
        if answer.outcome != Outcome::Paused {
            answer.count = count;
            let lines = output(&answer, &machine);
            return (machine.into_state(), lines);
        }
        assert_eq!(answer.count, budget, "a pause only on a used budget");
        assert_eq!(machine.standing().place, answer.place);

        // one run to the same point
        let mut whole = Machine::start(image, &[]).unwrap();
        let one = whole.run(count);
        assert_eq!(one.outcome, answer.outcome);
        assert_eq!(one.count, count);
        assert_eq!(one.place, answer.place);
        assert_eq!(whole.state(), machine.state());

        if random.up_to(1) == 0 {
            let State {
                frames,
                kinds,
                words,
            } = machine.into_state();
            let back = State {
                frames,
                kinds,
                words,
            };
            machine = Machine::resume(image, back);
        }
    }
}

#[test]
fn the_rules_in_random_parts() {
    let mut random = Random::new(20_250_101);
    for (name, text, result) in rules() {
        let image = Image::read(&text).unwrap();
        let mut whole = Machine::start(&image, &[]).unwrap();
        let answer = whole.run(BUDGET);
        assert_eq!(output(&answer, &whole), result, "{name}");
        // parts of about a fiftieth of the run up to all of it
        for divisor in [50, 10, 3, 1] {
            for _ in 0..10 {
                let most = answer.count / divisor + 1;
                let (state, lines) = in_parts(&image, &mut random, most);
                assert_eq!(&state, whole.state(), "{name}");
                assert_eq!(lines, result, "{name}");
            }
        }
    }
}

#[test]
fn one_instruction_at_a_time() {
    for (name, text, result) in rules() {
        let image = Image::read(&text).unwrap();
        let mut machine = Machine::start(&image, &[]).unwrap();
        let mut count = 0;
        let last = loop {
            let answer = machine.run(1);
            assert_eq!(answer.count, 1);
            count += 1;
            if answer.outcome != Outcome::Paused {
                break answer;
            }
        };
        let mut all = last;
        all.count = count;
        assert_eq!(output(&all, &machine), result, "{name}");
    }
}

#[test]
fn failing_runs_in_random_parts() {
    // calls itself until there are 16 activations
    let deep = image(&[
        "a00100",
        "c01100000000",
        "c00a00000000",
        "c00c00000000",
        "e001",
    ]);
    // a loop from 1 to 9, then 9 // nil
    let unfit = image(&[
        "a00500",
        &integer(1),
        &integer(9),
        "c00100000000",
        "c00100010001",
        "c00100020000",
        "c01200000000",
        "c0130000ffff",
        "c02500000104",
        "c00c00000000",
        "e001",
    ]);
    for (image, number, count, operand) in
        [(deep, 51, 32, None), (unfit, 34, 15, Some(Operand::Second))]
    {
        let mut whole = Machine::start(&image, &[]).unwrap();
        let answer = whole.run(BUDGET);
        assert_eq!((answer.outcome.number(), answer.count), (number, count));
        assert_eq!(answer.outcome.operand(), operand);
        let mut random = Random::new(7);
        for most in 1..=40 {
            let (state, lines) = in_parts(&image, &mut random, most);
            assert_eq!(&state, whole.state());
            assert_eq!(lines, output(&answer, &whole));
        }
    }
}

#[test]
fn an_end_is_answered_again() {
    for (_, text, _) in rules() {
        let image = Image::read(&text).unwrap();
        let mut machine = Machine::start(&image, &[]).unwrap();
        let mut first = machine.run(BUDGET);
        let state = machine.state().clone();
        let values = machine.state().values(&image);
        first.count = 0;
        for budget in [0, 1, BUDGET] {
            assert_eq!(machine.run(budget), first);
            assert_eq!(machine.standing(), first);
            assert_eq!(machine.state(), &state);
            assert_eq!(machine.values(), values);
        }
    }
}
