//! Every chunk number, each once (document 02, 4/12; docs/LOOPS.md): what a loop's variable holds at the starts of its
//! passes, looked at between two instructions, against the list worked out in 128 bits.

mod common;

use common::{image, rules, Random};
use deletion_machine::{Image, Machine, Outcome, Value};

/// A loop of prototype 0: where its NumericForLoop stands, where that jumps to, and the register of its variable.
struct Loop {
    place: usize,
    body: usize,
    variable: usize,
}

/// A pass: how many instructions had been carried out when it began, and the integer in the loop's variable then.
#[derive(Debug, PartialEq)]
struct Pass {
    count: u32,
    number: i64,
}

/// The passes of a loop up to the `most`th, and the count at which it was left. One instruction at a time.
fn passes(
    image: &Image,
    arguments: &[Value<'_>],
    found: &Loop,
    most: usize,
) -> (Vec<Pass>, Option<u32>) {
    let mut machine = Machine::start(image, arguments).unwrap();
    let mut seen = Vec::new();
    let mut count = 0;
    while seen.len() < most {
        let before = machine.standing().place;
        assert_eq!(machine.run(1).outcome, Outcome::Paused);
        count += 1;
        if before.instruction != found.place {
            continue;
        }
        if machine.standing().place.instruction != found.body {
            return (seen, Some(count));
        }
        assert_eq!(machine.state().kinds[found.variable], 2, "an integer");
        let number = machine.state().words[found.variable] as i64;
        seen.push(Pass { count, number });
    }
    (seen, None)
}

/// The list: start, start + step, .. up to the last that is not past the limit, or the first `most` of them.
fn list(start: i64, limit: i64, step: i64, most: usize) -> Vec<i64> {
    let past = |x: i128| {
        if step < 0 {
            x < limit as i128
        } else {
            x > limit as i128
        }
    };
    (0..most as i128)
        .map(|i| start as i128 + i * step as i128)
        .take_while(|&x| !past(x))
        .map(|x| x as i64)
        .collect()
}

/// Prep and its NumericForLoop, which jumps to itself, over three parameters.
fn bare() -> (Image, Loop) {
    let image = image(&[
        "a00403",
        "c01200000000",
        "c0130000ffff",
        "c00c00000000",
        "e001",
    ]);
    let found = Loop {
        place: 1,
        body: 1,
        variable: 3,
    };
    (image, found)
}

fn numbers(passes: &[Pass]) -> Vec<i64> {
    passes.iter().map(|pass| pass.number).collect()
}

fn integers(controls: [i64; 3]) -> [Value<'static>; 3] {
    controls.map(Value::Integer)
}

#[test]
fn every_number_of_the_list_each_once() {
    let (image, found) = bare();
    let ends = [
        i64::MIN,
        i64::MIN + 1,
        i64::MIN + 7,
        -8,
        -1,
        0,
        1,
        2,
        8,
        i64::MAX - 7,
        i64::MAX - 1,
        i64::MAX,
    ];
    let most = 40;
    let (mut told, mut without) = (0, 0);
    for start in ends {
        for limit in ends {
            for step in ends.into_iter().filter(|&step| step != 0) {
                if limit.checked_add(step).is_none() {
                    continue;
                }
                let (seen, left) = passes(&image, &integers([start, limit, step]), &found, most);
                let expected = list(start, limit, step, most);
                assert_eq!(numbers(&seen), expected, "for {start}, {limit}, {step}");
                assert_eq!(
                    left.is_some(),
                    expected.len() < most,
                    "for {start}, {limit}, {step}"
                );
                told += 1;
                without += expected.is_empty() as usize;
            }
        }
    }
    assert!(
        told > 1000 && without > 100 && told - without > 400,
        "{told} loops, {without} of them without a pass"
    );
}

#[test]
fn a_sum_that_wraps() {
    let (image, found) = bare();
    let (seen, left) = passes(&image, &integers([1, 1, i64::MAX]), &found, 10);
    assert_eq!(numbers(&seen), [1, i64::MIN, -1]);
    assert_eq!(left, Some(5));
}

#[test]
fn the_sundays_in_random_parts() {
    let (_, text, _) = rules()
        .into_iter()
        .find(|(name, ..)| *name == "sundays")
        .unwrap();
    let image = Image::read(&text).unwrap();
    let found = Loop {
        place: 11,
        body: 8,
        variable: 7,
    };
    let (seen, left) = passes(&image, &[], &found, 100);
    let table = [(9, 119), (13, 112), (17, 105), (21, 98), (25, 91), (29, 84)];
    assert_eq!(seen, table.map(|(count, number)| Pass { count, number }));
    assert_eq!(left, Some(33));

    // by whatever budgets, after so many instructions the variable holds the same
    let mut random = Random::new(20_261_117);
    for _ in 0..50 {
        for (count, number) in table.into_iter().chain([(33, 84)]) {
            let mut machine = Machine::start(&image, &[]).unwrap();
            let mut rest = count;
            while rest > 0 {
                let budget = random.up_to(rest);
                assert_eq!(machine.run(budget).count, budget);
                rest -= budget;
            }
            assert_eq!(machine.state().words[7] as i64, number);
        }
    }
}
