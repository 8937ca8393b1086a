//! A state in bytes: it comes back as it was, on its own rule alone; whatever is damaged is refused; and C (the program
//! `stored`, of `stored.c`, and the example `state`) reads and writes the same.

mod common;
// for bytes that nobody writes, under a right checksum
#[path = "../src/digest.rs"]
mod digest;

use common::{c_program, file, image, repository, rules, text, Random, BUDGET};
use deletion_machine::{Image, Machine, Outcome, State, StateError, Value, STATE_BYTES};
use digest::sha256;
use std::io::{BufRead, BufReader, BufWriter, Write};
use std::path::PathBuf;
use std::process::{Command, Stdio};
use std::thread;

const RULE: &str = "examples/seven-years.image";

/// A machine's state after some instructions of the example, and its bytes.
fn paused(image: &Image) -> (State, Vec<u8>) {
    let mut machine = Machine::start(image, &[]).unwrap();
    assert_eq!(machine.run(100).outcome, Outcome::Paused);
    let bytes = machine.to_bytes();
    (machine.into_state(), bytes)
}

/// The number that is answered for bytes: 0 where they are taken; then they are written back as they were.
fn number(image: &Image, bytes: &[u8]) -> u8 {
    match State::from_bytes(image, bytes) {
        Ok(state) => {
            assert_eq!(state.to_bytes(image), bytes);
            0
        }
        Err(error) => {
            assert_eq!(Machine::from_bytes(image, bytes).unwrap_err(), error);
            error.number()
        }
    }
}

/// Sees that each of these is answered with its number, in Rust and in C.
fn answered(image: &Image, states: impl Iterator<Item = (Vec<u8>, u8)>) {
    let mut c = c_program("stored").map(|program| {
        let mut c = Command::new(program)
            .arg("states")
            .arg(repository(RULE))
            .stdin(Stdio::piped())
            .stdout(Stdio::piped())
            .spawn()
            .unwrap();
        let to = BufWriter::new(c.stdin.take().unwrap());
        let from = BufReader::new(c.stdout.take().unwrap());
        let said = thread::spawn(move || from.lines().map(Result::unwrap).collect::<Vec<String>>());
        (c, to, said)
    });
    let mut expected = Vec::new();
    for (i, (bytes, refusal)) in states.enumerate() {
        if let Some((_, to, _)) = &mut c {
            to.write_all(&(bytes.len() as u32).to_le_bytes()).unwrap();
            to.write_all(&bytes).unwrap();
        }
        let found = State::from_bytes(image, &bytes).map_or_else(|error| error.number(), |_| 0);
        assert_eq!(found, refusal, "the {i}th, of {} bytes", bytes.len());
        expected.push(refusal.to_string());
    }
    if let Some((mut c, to, said)) = c {
        drop(to);
        assert_eq!(said.join().unwrap(), expected, "in C");
        assert!(c.wait().unwrap().success(), "in C");
    }
}

fn rule() -> Image {
    Image::read(&file(RULE)).unwrap()
}

fn hex(bytes: &[u8]) -> String {
    bytes.iter().map(|byte| format!("{byte:02x}")).collect()
}

#[test]
fn the_layout() {
    // a loop from 1 to 3
    let image = image(&[
        "a00400",
        "b0020000000000000001",
        "b0020000000000000003",
        "c00100000000",
        "c00100010001",
        "c00100020000",
        "c01200000000",
        "c0130000ffff",
        "c00c00000400",
        "e001",
    ]);
    let mut machine = Machine::start(&image, &[]).unwrap();
    machine.run(8);
    let bytes = machine.to_bytes();
    assert_eq!((bytes.len(), STATE_BYTES), (28_052, 28_052));
    assert_eq!(&bytes[..8], b"DMSTATE\n");
    assert_eq!(hex(&bytes[8..16]), "02000000946d0000");
    // what sha256sum prints for the image
    let digest = "ccd776ebb0995be237066dc1726b3c4f91f83c59ac3c7a1fed5b09d2352e94c7";
    assert_eq!(hex(&bytes[16..48]), digest);
    assert_eq!(hex(&image.digest()), digest);
    assert_eq!(hex(&bytes[48..64]), "f2020000840900008409000000000000");
    // 70, one activation, prototype 0, instruction 5; then the kinds, and the words
    assert_eq!(
        hex(&bytes[64..96]),
        "4600000000000000010000000000000000000000000000000500000000000000"
    );
    assert!(bytes[96..6_096].iter().all(|byte| *byte == 0));
    assert_eq!(hex(&bytes[6_096..6_101]), "0202020200");
    assert_eq!(
        hex(&bytes[8_532..8_564]),
        "0400000000000000030000000000000001000000000000000300000000000000"
    );
    // what it prints for the bytes before
    let sum = "093cbe8ff18a41acd0e9b9dcd1265b05a2bee7ec8a21e43145877f1e00a50ba9";
    assert_eq!(hex(&bytes[28_020..]), sum);
}

#[test]
fn a_paused_machine_goes_on() {
    let mut random = Random::new(11);
    for (name, text, result) in rules() {
        let image = Image::read(&text).unwrap();
        for _ in 0..5 {
            let mut machine = Machine::start(&image, &[]).unwrap();
            let mut count = 0;
            loop {
                let mut answer = machine.run(random.up_to(200));
                count += answer.count;
                if answer.outcome != Outcome::Paused {
                    answer.count = count;
                    assert_eq!(common::output(&answer, &machine), result, "{name}");
                    break;
                }
                let bytes = machine.to_bytes();
                let back = Machine::from_bytes(&image, &bytes).unwrap();
                assert_eq!(back.state(), machine.state());
                machine = back;
            }
            // an ended one is put away too
            let back = Machine::from_bytes(&image, &machine.to_bytes()).unwrap();
            assert_eq!(back.standing(), machine.standing());
            assert_eq!(back.values(), machine.values());
        }
    }
}

/// The finding behind this: a rule's list worked out with another rule's years.
#[test]
fn another_rules_state_is_refused() {
    let seven = rule();
    let text = String::from_utf8(file(RULE)).unwrap();
    let years = "b0020000000000000007\n";
    assert_eq!(text.matches(years).count(), 1);
    let seventy = text.replace(years, "b0020000000000000046\n");
    let seventy = Image::read(seventy.as_bytes()).unwrap();

    let list = |image: &Image| {
        let mut machine = Machine::start(image, &[]).unwrap();
        machine.run(BUDGET);
        match machine.values()[0] {
            Value::Integer(list) => list,
            ref other => panic!("{other}"),
        }
    };
    assert_eq!(list(&seven), 2043);
    assert_eq!(list(&seventy), 0);

    let (state, bytes) = paused(&seven);
    // as it is, it fits: the old list
    let mut machine = Machine::resume(&seventy, state);
    assert_eq!(machine.run(BUDGET).outcome, Outcome::Finished);
    assert_eq!(machine.values()[0], Value::Integer(2043));
    // in bytes it doesn't
    let error = Machine::from_bytes(&seventy, &bytes).unwrap_err();
    let other = StateError::OtherRule {
        state: seven.digest(),
        image: seventy.digest(),
    };
    assert_eq!(error, other);
}

#[test]
fn every_byte_damaged_once() {
    let image = rule();
    let (_, good) = paused(&image);
    // each byte otherwise than the one before it, so that all changes come
    let damaged = (0..good.len()).map(|i| {
        let mut bytes = good.clone();
        bytes[i] ^= (i % 255) as u8 + 1;
        let refusal = match i {
            0..=7 => 1,
            8..=11 => 2,
            12..=15 => 3,
            _ => 4,
        };
        (bytes, refusal)
    });
    answered(&image, damaged.chain([(good.clone(), 0)]));
}

#[test]
fn every_bit_of_the_head_and_of_the_checksum() {
    let image = rule();
    let (_, good) = paused(&image);
    let places = (0..64).chain(good.len() - 32..good.len());
    let damaged = places
        .flat_map(|i| (0..8).map(move |bit| (i, bit)))
        .map(|(i, bit)| {
            let mut bytes = good.clone();
            bytes[i] ^= 1 << bit;
            let refusal = match i {
                0..=7 => 1,
                8..=11 => 2,
                12..=15 => 3,
                _ => 4,
            };
            (bytes, refusal)
        });
    answered(&image, damaged);
}

#[test]
fn every_truncation_and_some_more() {
    let image = rule();
    let (_, good) = paused(&image);
    let shorter = (0..good.len()).map(|n| (good[..n].to_vec(), if n < 8 { 1 } else { 3 }));
    let longer = [1, 2, 31, 32, 1_000, STATE_BYTES].map(|n| {
        let mut bytes = good.clone();
        bytes.resize(good.len() + n, 0);
        (bytes, 3)
    });
    let mut twice = good.clone();
    twice.extend(&good);
    answered(&image, shorter.chain(longer).chain([(twice, 3)]));
}

/// The bytes with a change, and the length and the checksum that they then should have.
fn changed(good: &[u8], change: impl FnOnce(&mut Vec<u8>)) -> Vec<u8> {
    let mut bytes = good[..good.len() - 32].to_vec();
    change(&mut bytes);
    let length = (bytes.len() + 32) as u32;
    if let Some(place) = bytes.get_mut(12..16) {
        place.copy_from_slice(&length.to_le_bytes());
    }
    let sum = sha256(&bytes);
    bytes.extend(sum);
    bytes
}

fn put(bytes: &mut [u8], place: usize, number: u32) {
    bytes[place..place + 4].copy_from_slice(&number.to_le_bytes());
}

#[test]
fn a_right_checksum_is_not_enough() {
    let image = rule();
    let (_, good) = paused(&image);
    let with = |change: &dyn Fn(&mut Vec<u8>)| changed(&good, |bytes| change(bytes));
    let states = vec![
        (with(&|_| {}), 0),
        // other states, in the registers alone
        (with(&|bytes| bytes[64] = 71), 0),
        (with(&|bytes| bytes[21_000] ^= 1), 0),
        (with(&|bytes| bytes[0] = b'd'), 1),
        (with(&|bytes| put(bytes, 8, 0)), 2),
        (with(&|bytes| put(bytes, 8, 1)), 2),
        (with(&|bytes| put(bytes, 8, 3)), 2),
        (with(&|bytes| put(bytes, 8, u32::MAX)), 2),
        // lengths that don't add up, what should be 0, and nothing at all between head and checksum
        (with(&|bytes| put(bytes, 48, 753)), 4),
        (with(&|bytes| put(bytes, 52, 2_437)), 4),
        (with(&|bytes| put(bytes, 56, u32::MAX)), 4),
        (with(&|bytes| put(bytes, 60, 1)), 4),
        (with(&|bytes| bytes.push(0)), 4),
        (with(&|bytes| bytes.truncate(64)), 4),
        (with(&|bytes| bytes.truncate(63)), 4),
        (with(&|bytes| bytes.truncate(16)), 4),
        // 755 * 8 + 2,428 + 2,436 * 8 are as many as 754 * 8 + 2,436 + 2,436 * 8
        (
            with(&|bytes| {
                put(bytes, 48, 755);
                put(bytes, 52, 2_428)
            }),
            6,
        ),
        (with(&|bytes| bytes[20] ^= 1), 5),
        // another rule's, and of other sizes
        (
            with(&|bytes| {
                bytes[47] ^= 128;
                bytes.truncate(64);
                bytes[48..60].fill(0)
            }),
            5,
        ),
        (
            with(&|bytes| {
                bytes.truncate(64);
                bytes[48..60].fill(0)
            }),
            6,
        ),
    ];
    answered(&image, states.into_iter());
}

/// The first that holds is answered.
#[test]
fn the_order() {
    let image = rule();
    let (_, good) = paused(&image);
    let mut bytes = changed(&good, |bytes| {
        bytes[0] = 0; // 1
        put(bytes, 8, 7); // 2
        bytes[16] ^= 1; // 5
        bytes.drain(64..72);
        put(bytes, 48, 753); // 6
    });
    let length = bytes.len();
    put(&mut bytes, 12, 3); // 3
    bytes[length - 1] ^= 1; // 4
    let mut states = vec![(bytes.clone(), 1)];
    bytes[0] = b'D';
    states.push((bytes.clone(), 2));
    put(&mut bytes, 8, 2);
    states.push((bytes.clone(), 3));
    put(&mut bytes, 12, length as u32);
    states.push((bytes.clone(), 4));
    // what was changed in the head moved the checksum
    let sum = sha256(&bytes[..length - 32]);
    bytes[length - 32..].copy_from_slice(&sum);
    states.push((bytes.clone(), 5));
    bytes = changed(&bytes, |bytes| bytes[16] ^= 1);
    states.push((bytes, 6));
    // a version can be told of 12 bytes
    let mut short = good[..12].to_vec();
    states.push((short.clone(), 3));
    short[8] = 1;
    states.push((short, 2));
    states.push((good, 0));
    answered(&image, states.into_iter());
}

/// A state of random numbers, which need not be one that a machine can have.
fn random_state(random: &mut Random, sizes: [usize; 3]) -> State {
    let mut long = || u64::from(random.up_to(u32::MAX)) << 32 | u64::from(random.up_to(u32::MAX));
    let [frames, kinds, words] = sizes;
    State {
        frames: (0..frames).map(|_| long()).collect(),
        kinds: (0..kinds).map(|_| long() as u8).collect(),
        words: (0..words).map(|_| long()).collect(),
    }
}

#[test]
fn random_states_come_back() {
    let image = rule();
    let mut random = Random::new(23);
    let states: Vec<State> = (0..40)
        .map(|_| random_state(&mut random, [754, 2_436, 2_436]))
        .collect();
    for state in &states {
        let back = State::from_bytes(&image, &state.to_bytes(&image)).unwrap();
        assert_eq!(
            (&back.frames, &back.kinds, &back.words),
            (&state.frames, &state.kinds, &state.words)
        );
    }
    answered(
        &image,
        states.iter().map(|state| (state.to_bytes(&image), 0)),
    );
}

#[test]
fn states_of_other_sizes_are_written_and_refused() {
    let image = rule();
    let mut random = Random::new(29);
    let mut states = Vec::new();
    for sizes in [
        [0, 0, 0],
        [753, 2_436, 2_436],
        [755, 2_436, 2_436],
        [754, 2_435, 2_436],
        [754, 2_436, 2_437],
        [754, 0, 0],
        [755, 2_428, 2_436],
        // those of version 1
        [34, 2_308, 2_308],
        [100, 5_000, 5_000],
    ] {
        let bytes = random_state(&mut random, sizes).to_bytes(&image);
        let [frames, kinds, words] = sizes;
        assert_eq!(bytes.len(), 96 + 8 * frames + kinds + 8 * words);
        let error = State::from_bytes(&image, &bytes).unwrap_err();
        let [frames, kinds, words] = sizes.map(|size| size as u32);
        assert_eq!(
            error,
            StateError::Sizes {
                frames,
                kinds,
                words
            }
        );
        states.push((bytes, 6));
    }
    answered(&image, states.into_iter());
}

#[test]
fn digests_are_of_the_bytes() {
    for (_, text, _) in rules() {
        assert_eq!(Image::read(&text).unwrap().digest(), sha256(&text));
    }
    let none = text(&["e000"]);
    assert_eq!(image(&["e000"]).digest(), sha256(&none));
}

/// Every length around which the last block, or one more, has to be.
#[test]
fn digests_are_the_same_in_c() {
    let program = match c_program("stored") {
        Some(program) => program,
        None => return,
    };
    let output = Command::new(program).arg("digests").output().unwrap();
    assert!(output.status.success());
    let bytes: Vec<u8> = (0..300).map(|i| i as u8).collect();
    let expected: String = (0..=300)
        .map(|length| hex(&sha256(&bytes[..length])) + "\n")
        .collect();
    assert_eq!(String::from_utf8(output.stdout).unwrap(), expected);
}

#[test]
fn texts() {
    let image = rule();
    let (_, good) = paused(&image);
    let said = |bytes: &[u8]| State::from_bytes(&image, bytes).unwrap_err().to_string();
    assert_eq!(said(b""), "no stored state: it doesn't begin with DMSTATE");
    let mut bytes = good.clone();
    bytes[8] = 1;
    assert_eq!(
        said(&bytes),
        "a stored state of version 1, which 0.2.0 wrote, and version 2 is the one that is read here"
    );
    bytes[8] = 3;
    assert_eq!(
        said(&bytes),
        "a stored state of version 3, and version 2 is the one that is read here"
    );
    assert_eq!(
        said(&good[..15]),
        "a stored state that is cut off: 15 bytes, too few to say its length"
    );
    assert_eq!(
        said(&good[..16]),
        "a stored state that is cut off: 16 bytes, and it says 28052"
    );
    let mut bytes = good.clone();
    bytes.push(b'\n');
    assert_eq!(
        said(&bytes),
        "a stored state that is longer than it says: 28053 bytes, and it says 28052"
    );
    let mut bytes = good.clone();
    bytes[16] = 0;
    assert_eq!(
        said(&bytes),
        "a stored state that is damaged: its checksum is not that of its bytes"
    );
    assert_eq!(
        said(&changed(&good, |bytes| bytes[16] = 0xab)),
        "a stored state of another rule: its image's digest begins with abd5681a, this one's with 04d5681a"
    );
    let mut state = State::from_bytes(&image, &good).unwrap();
    state.words.pop();
    assert_eq!(
        said(&state.to_bytes(&image)),
        "a stored state of other sizes than a machine's: 754 frames, 2436 kinds, 2435 words, and not 754, 2436, 2436"
    );
    assert_eq!(number(&image, &good), 0);
    assert_eq!(number(&image, &good[1..]), 1);
}

/// What the example in C prints of a register that holds a value: its kind and its word. Of a string the word is the number of a
/// constant, which is looked up among the lines of the image.
fn register(value: &Value<'_>, image: &[u8]) -> String {
    let (kind, word) = match *value {
        Value::Nil => (0, 0),
        Value::Boolean(b) => (1, b.into()),
        Value::Integer(i) => (2, i as u64),
        Value::Number(x) => (3, x.to_bits()),
        Value::String(_) => {
            let line = common::b0(value);
            let constants = std::str::from_utf8(image).unwrap().lines();
            let mut constants = constants.filter(|line| line.starts_with("b0"));
            let place = constants.position(|constant| constant == line.trim_end());
            (4, place.expect("no example makes strings") as u64)
        }
        other => panic!("no example returns {other}"),
    };
    format!("{kind} {word:016x}\n")
}

/// The example in C: what it puts away is what Rust does after as many instructions; and each goes on with the other's.
#[test]
fn c_puts_away_the_same_and_goes_on() {
    let program = match c_program("state") {
        Some(program) => program,
        None => return,
    };
    let run = |words: &[&str], path: &PathBuf, rule: &PathBuf| {
        let mut command = Command::new(&program);
        command.arg(words[0]).arg(rule).args(&words[1..]).arg(path);
        let output = command.output().unwrap();
        let said = [output.stdout, output.stderr].concat();
        (output.status.code(), String::from_utf8(said).unwrap())
    };
    let path = std::env::temp_dir().join(format!("stored-{}", std::process::id()));
    for (name, text, _) in rules() {
        let rule = repository(&format!("examples/{name}.image"));
        let image = Image::read(&text).unwrap();
        let mut whole = Machine::start(&image, &[]).unwrap();
        let all = whole.run(BUDGET).count;
        let mut end = format!("{}: {}\n", whole.standing().place, whole.standing().outcome);
        end.extend(whole.values().iter().map(|value| register(value, &text)));
        for count in [0, 1, all / 3, all / 2, all - 1, all, all + 1] {
            let mut machine = Machine::start(&image, &[]).unwrap();
            let answer = machine.run(count);
            let (status, said) = run(&["put", &count.to_string()], &path, &rule);
            assert_eq!(status, Some(0), "{said}");
            assert!(said.starts_with(&format!("{}: {}\n", answer.place, answer.outcome)));
            let bytes = std::fs::read(&path).unwrap();
            assert!(bytes == machine.to_bytes(), "{name} after {count}");

            // Rust goes on with C's, and C with Rust's
            let mut on = Machine::from_bytes(&image, &bytes).unwrap();
            on.run(BUDGET);
            assert_eq!(on.state(), whole.state());
            std::fs::write(&path, machine.to_bytes()).unwrap();
            assert_eq!(run(&["go"], &path, &rule), (Some(0), end.clone()));
        }
        // another rule
        let other = repository(match name {
            "sundays" => RULE,
            _ => "examples/sundays.image",
        });
        let refusal = format!("{}: a stored state of another rule\n", path.display());
        assert_eq!(run(&["go"], &path, &other), (Some(2), refusal));
    }
    std::fs::remove_file(&path).unwrap();
}
