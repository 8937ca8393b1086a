//! How a machine holds its image: borrowed, shared or its own; and what it shows of itself.

mod common;

use common::{at, image, integer, output, rules, BUDGET};
use deletion_machine::{Image, Machine, Outcome, State, Value};
use std::rc::Rc;
use std::sync::Arc;
use std::thread;

#[test]
fn images_and_machines_cross_threads() {
    fn sent<T: Send + Sync>() {}
    fn kept<T: Send + Sync + 'static>() {}
    kept::<Image>();
    kept::<State>();
    sent::<Machine<&Image>>();
    kept::<Machine<Image>>();
    kept::<Machine<Arc<Image>>>();
}

/// Runs a machine, however it holds its image, and answers what the program would write.
fn run<I: AsRef<Image>>(image: I) -> String {
    let mut machine = Machine::start(image, &[]).unwrap();
    let answer = machine.run(BUDGET);
    output(&answer, &machine)
}

#[test]
fn every_way_to_hold_an_image() {
    for (name, text, result) in rules() {
        let image = Image::read(&text).unwrap();
        let shared = Arc::new(image.clone());
        assert_eq!(run(&image), result, "{name}");
        assert_eq!(run(&shared), result, "{name}");
        assert_eq!(run(shared), result, "{name}");
        assert_eq!(run(Rc::new(image.clone())), result, "{name}");
        assert_eq!(run(Box::new(image.clone())), result, "{name}");
        assert_eq!(run(image), result, "{name}");
    }
}

/// A queue of a host's: machines of several rules, each run a part at a time by whichever thread has it.
struct Job {
    name: &'static str,
    result: String,
    count: u32,
    machine: Machine<Arc<Image>>,
}

#[test]
fn machines_in_a_queue() {
    let mut queue: Vec<Job> = rules()
        .into_iter()
        .map(|(name, text, result)| Job {
            name,
            result,
            count: 0,
            machine: Machine::start(Arc::new(Image::read(&text).unwrap()), &[]).unwrap(),
        })
        .collect();
    let (mut left, mut turns) = (queue.len(), 0);
    while let Some(mut job) = queue.pop() {
        turns += 1;
        let (job, mut answer) = thread::spawn(move || {
            let answer = job.machine.run(100);
            job.count += answer.count;
            (job, answer)
        })
        .join()
        .unwrap();
        if answer.outcome == Outcome::Paused {
            queue.insert(0, job);
            continue;
        }
        left -= 1;
        answer.count = job.count;
        assert_eq!(output(&answer, &job.machine), job.result, "{}", job.name);
    }
    assert_eq!(left, 0);
    assert!(turns > 10, "in parts: {turns}");
}

#[test]
fn the_image_is_handed_back() {
    let image = Arc::new(image(&["a00100", "c00c00000100", "e001"]));
    let machine = Machine::start(Arc::clone(&image), &[]).unwrap();
    assert!(Arc::ptr_eq(machine.image(), &image));
    let other = Machine::start(Arc::clone(machine.image()), &[]).unwrap();
    assert_eq!(other.state(), machine.state());
    let copy = machine.clone();
    assert_eq!(Arc::strong_count(&image), 4);
    drop((machine, other, copy));
    assert_eq!(Arc::strong_count(&image), 1);

    let machine = Machine::start(&*image, &[]).unwrap();
    let borrowed: &Image = machine.image();
    assert!(std::ptr::eq(borrowed, &*image));
}

#[test]
fn a_machine_shows_itself_in_a_line() {
    let image = image(&[
        "a00200",
        &integer(7),
        "c00100000000",
        "c02300000001",
        "c00c00000100",
        "e001",
    ]);
    let mut machine = Machine::start(&image, &[]).unwrap();
    machine.run(1);
    let paused = "Machine { prototype 0, instruction 1: running }";
    assert_eq!(format!("{machine:?}"), paused);
    assert_eq!(format!("{machine:#?}"), paused);
    machine.run(1);
    assert_eq!(
        format!("{machine:?}"),
        "Machine { prototype 0, instruction 1: the right operand of `*` is not a number, nor a string that reads as one }"
    );
    let mut state = machine.into_state();
    assert_eq!(
        format!("{state:?}"),
        "State { mark: 544, activations: 1, .. }"
    );
    state.frames.clear();
    assert_eq!(format!("{state:?}"), "State { .. }");
    assert_eq!(
        format!("{:?}", Machine::resume(Arc::new(image), state)),
        "Machine { prototype 0, instruction 0: machine fault, the state doesn't fit the image }"
    );
}

#[test]
fn values_of_a_state_need_no_machine() {
    let image = image(&["a00101", "b00461", "c00100000000", "c00c00000100", "e001"]);
    let mut machine = Machine::start(&image, &[]).unwrap();
    assert_eq!(machine.state().values(&image), []);
    machine.run(BUDGET);
    assert_eq!(machine.standing().place, at(0, 1));
    let state = machine.into_state();
    let values = state.values(&image);
    drop(state);
    assert_eq!(values, [Value::String(b"a")]);
}
