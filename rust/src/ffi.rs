//! The static library's functions (`include/deletion_machine.h`), each with a safe function over it. All unsafe code of
//! the package is here.
//!
//! Why the calls are sound. A function takes each slice as a pointer and a length in elements. It is proved to read and
//! write within them alone, whatever they contain: no function has a requirement on the contents or on a length
//! (`docs/PROMISES.md`). It doesn't unwind, and keeps neither a pointer nor anything else between calls. What is left to
//! its caller is what every Rust reference gives: a pointer that isn't null, aligned, to as many initialised elements as
//! the length says, which nobody else writes during the call, nor reads where the function writes. Here all of them come
//! from references that live as long as the call does.

use crate::state::State;
use crate::storage::Storage;

/// The published size of the answer, in elements. Those of what else is lent are with it, in `storage.rs` and `state.rs`.
const ANSWER: usize = 8;

/// What `answer` holds before a call; no function answers it.
const UNTOLD: u32 = u32::MAX;

mod c {
    extern "C" {
        pub fn dm_read(
            image: *const u8,
            image_length: usize,
            table: *mut u64,
            table_length: usize,
            code: *mut u64,
            code_length: usize,
            const_kinds: *mut u8,
            const_kinds_length: usize,
            const_words: *mut u64,
            const_words_length: usize,
            texts: *mut u8,
            texts_length: usize,
            answer: *mut u32,
            answer_length: usize,
        ) -> u32;

        pub fn dm_write(
            table: *const u64,
            table_length: usize,
            code: *const u64,
            code_length: usize,
            const_kinds: *const u8,
            const_kinds_length: usize,
            const_words: *const u64,
            const_words_length: usize,
            texts: *const u8,
            texts_length: usize,
            out: *mut u8,
            out_length: usize,
            answer: *mut u32,
            answer_length: usize,
        ) -> u32;

        pub fn dm_check(
            table: *const u64,
            table_length: usize,
            code: *const u64,
            code_length: usize,
            const_kinds: *const u8,
            const_kinds_length: usize,
            const_words: *const u64,
            const_words_length: usize,
            texts: *const u8,
            texts_length: usize,
            answer: *mut u32,
            answer_length: usize,
        ) -> u32;

        pub fn dm_start(
            table: *const u64,
            table_length: usize,
            code: *const u64,
            code_length: usize,
            const_kinds: *const u8,
            const_kinds_length: usize,
            const_words: *const u64,
            const_words_length: usize,
            texts: *const u8,
            texts_length: usize,
            frames: *mut u64,
            frames_length: usize,
            kinds: *mut u8,
            kinds_length: usize,
            words: *mut u64,
            words_length: usize,
            arg_kinds: *const u8,
            arg_kinds_length: usize,
            arg_words: *const u64,
            arg_words_length: usize,
            answer: *mut u32,
            answer_length: usize,
        ) -> u32;

        pub fn dm_run(
            table: *const u64,
            table_length: usize,
            code: *const u64,
            code_length: usize,
            const_kinds: *const u8,
            const_kinds_length: usize,
            const_words: *const u64,
            const_words_length: usize,
            texts: *const u8,
            texts_length: usize,
            frames: *mut u64,
            frames_length: usize,
            kinds: *mut u8,
            kinds_length: usize,
            words: *mut u64,
            words_length: usize,
            budget: u32,
            answer: *mut u32,
            answer_length: usize,
        ) -> u32;

        pub fn dm_returned(
            table: *const u64,
            table_length: usize,
            code: *const u64,
            code_length: usize,
            const_kinds: *const u8,
            const_kinds_length: usize,
            const_words: *const u64,
            const_words_length: usize,
            texts: *const u8,
            texts_length: usize,
            frames: *const u64,
            frames_length: usize,
            kinds: *const u8,
            kinds_length: usize,
            words: *const u64,
            words_length: usize,
            answer: *mut u32,
            answer_length: usize,
        ) -> u32;

        pub fn dm_text(
            table: *const u64,
            table_length: usize,
            code: *const u64,
            code_length: usize,
            const_kinds: *const u8,
            const_kinds_length: usize,
            const_words: *const u64,
            const_words_length: usize,
            texts: *const u8,
            texts_length: usize,
            word: u64,
            answer: *mut u32,
            answer_length: usize,
        ) -> u32;

        pub fn dm_version() -> u32;
    }
}

/// Calls a function with the storage's five slices, to be read, and what comes after them.
macro_rules! lend {
    ($function:ident, $storage:expr, $($rest:expr),* $(,)?) => {
        c::$function(
            $storage.table.as_ptr(),
            $storage.table.len(),
            $storage.code.as_ptr(),
            $storage.code.len(),
            $storage.const_kinds.as_ptr(),
            $storage.const_kinds.len(),
            $storage.const_words.as_ptr(),
            $storage.const_words.len(),
            $storage.texts.as_ptr(),
            $storage.texts.len(),
            $($rest),*
        )
    };
}

/// What a function answers. `first` and `second` are what it tells besides; of one that tells nothing they mean nothing.
pub(crate) struct Told {
    pub number: u32,
    pub count: u32,
    pub prototype: usize,
    /// or the line
    pub instruction: usize,
    pub first: usize,
    pub second: usize,
    /// 0 where nothing is named
    pub operand: u32,
}

fn told(number: u32, answer: [u32; ANSWER]) -> Told {
    Told {
        number,
        count: answer[1],
        prototype: answer[2] as usize,
        instruction: answer[3] as usize,
        first: answer[4] as usize,
        second: answer[5] as usize,
        operand: answer[6],
    }
}

/// Reads an image into the storage.
pub(crate) fn read(image: &[u8], storage: &mut Storage) -> Told {
    let mut answer = [UNTOLD; ANSWER];
    // SAFETY: see the head of this file; the storage's five slices and the answer are borrowed alone.
    let number = unsafe {
        c::dm_read(
            image.as_ptr(),
            image.len(),
            storage.table.as_mut_ptr(),
            storage.table.len(),
            storage.code.as_mut_ptr(),
            storage.code.len(),
            storage.const_kinds.as_mut_ptr(),
            storage.const_kinds.len(),
            storage.const_words.as_mut_ptr(),
            storage.const_words.len(),
            storage.texts.as_mut_ptr(),
            storage.texts.len(),
            answer.as_mut_ptr(),
            answer.len(),
        )
    };
    told(number, answer)
}

/// Writes the storage's image; `first` is how many bytes.
pub(crate) fn write(storage: &Storage, out: &mut [u8]) -> Told {
    let mut answer = [UNTOLD; ANSWER];
    // SAFETY: see the head of this file; `out` and the answer are borrowed alone.
    let number = unsafe {
        lend!(
            dm_write,
            storage,
            out.as_mut_ptr(),
            out.len(),
            answer.as_mut_ptr(),
            answer.len(),
        )
    };
    told(number, answer)
}

/// Whether the machine can carry the image out.
pub(crate) fn check(storage: &Storage) -> Told {
    let mut answer = [UNTOLD; ANSWER];
    // SAFETY: see the head of this file; the answer is borrowed alone.
    let number = unsafe { lend!(dm_check, storage, answer.as_mut_ptr(), answer.len(),) };
    told(number, answer)
}

/// Starts a machine with arguments, each the kind and the word at its place.
pub(crate) fn start(
    storage: &Storage,
    state: &mut State,
    arg_kinds: &[u8],
    arg_words: &[u64],
) -> Told {
    let mut answer = [UNTOLD; ANSWER];
    // SAFETY: see the head of this file; the state's three slices and the answer are borrowed alone.
    let number = unsafe {
        lend!(
            dm_start,
            storage,
            state.frames.as_mut_ptr(),
            state.frames.len(),
            state.kinds.as_mut_ptr(),
            state.kinds.len(),
            state.words.as_mut_ptr(),
            state.words.len(),
            arg_kinds.as_ptr(),
            arg_kinds.len(),
            arg_words.as_ptr(),
            arg_words.len(),
            answer.as_mut_ptr(),
            answer.len(),
        )
    };
    told(number, answer)
}

/// Carries out at most `budget` instructions.
pub(crate) fn run(storage: &Storage, state: &mut State, budget: u32) -> Told {
    let mut answer = [UNTOLD; ANSWER];
    // SAFETY: see the head of this file; the state's three slices and the answer are borrowed alone.
    let number = unsafe {
        lend!(
            dm_run,
            storage,
            state.frames.as_mut_ptr(),
            state.frames.len(),
            state.kinds.as_mut_ptr(),
            state.kinds.len(),
            state.words.as_mut_ptr(),
            state.words.len(),
            budget,
            answer.as_mut_ptr(),
            answer.len(),
        )
    };
    told(number, answer)
}

/// What a run on no budget would answer; of a finished machine, `first` is the first register that is returned and
/// `second` how many are; of any other both are 0.
pub(crate) fn returned(storage: &Storage, state: &State) -> Told {
    let mut answer = [UNTOLD; ANSWER];
    // SAFETY: see the head of this file; the answer is borrowed alone.
    let number = unsafe {
        lend!(
            dm_returned,
            storage,
            state.frames.as_ptr(),
            state.frames.len(),
            state.kinds.as_ptr(),
            state.kinds.len(),
            state.words.as_ptr(),
            state.words.len(),
            answer.as_mut_ptr(),
            answer.len(),
        )
    };
    told(number, answer)
}

/// Where a string's bytes are in the storage's texts: `first` is the first, `second` how many.
pub(crate) fn text(storage: &Storage, word: u64) -> Told {
    let mut answer = [UNTOLD; ANSWER];
    // SAFETY: see the head of this file; the answer is borrowed alone.
    let number = unsafe { lend!(dm_text, storage, word, answer.as_mut_ptr(), answer.len(),) };
    told(number, answer)
}

/// The library's version: 10000 times its major number, 100 times its minor one, and its patch.
pub(crate) fn version() -> u32 {
    // SAFETY: it takes nothing.
    unsafe { c::dm_version() }
}

/// The refusals that the package's own types rule out, and the sizes.
#[cfg(test)]
mod tests {
    use super::*;
    use crate::state::{FRAMES, REGISTERS};
    use crate::storage::{CODE, CONSTANTS, TABLE, TEXTS};

    const IMAGE: &[u8] = b"a00100\nb00461\nc00100000000\nc00c00000100\ne001\n";

    fn filled() -> Storage {
        let mut storage = Storage::empty();
        assert_eq!(read(IMAGE, &mut storage).number, 0);
        storage
    }

    /// The storage without the last element of one of its slices.
    fn shortened(storage: &Storage, which: usize) -> Storage {
        let mut short = storage.clone();
        match which {
            0 => short.table.truncate(TABLE - 1),
            1 => short.code.truncate(CODE - 1),
            2 => short.const_kinds.truncate(CONSTANTS - 1),
            3 => short.const_words.truncate(CONSTANTS - 1),
            _ => short.texts.truncate(TEXTS - 1),
        }
        short
    }

    fn shortened_state(state: &State, which: usize) -> State {
        let mut short = state.clone();
        match which {
            0 => short.frames.truncate(FRAMES - 1),
            1 => short.kinds.truncate(REGISTERS - 1),
            _ => short.words.truncate(REGISTERS - 1),
        }
        short
    }

    #[test]
    fn five_where_the_storage_is_one_element_too_short() {
        let storage = filled();
        for which in 0..5 {
            let mut short = shortened(&Storage::empty(), which);
            let before = short.clone();
            assert_eq!(read(IMAGE, &mut short).number, 5);
            assert!(short == before, "storage is untouched");

            let short = shortened(&storage, which);
            let mut out = [7; 100];
            assert_eq!(write(&short, &mut out).number, 5);
            assert_eq!(out, [7; 100]);
            assert_eq!(check(&short).number, 5);
            assert_eq!(start(&short, &mut State::empty(), &[], &[]).number, 5);
            assert_eq!(text(&short, 0).number, 5);
            assert_eq!(returned(&short, &State::empty()).number, 60);
            assert_eq!(run(&short, &mut State::empty(), 1).number, 60);
        }
    }

    #[test]
    fn five_where_the_state_or_the_output_is_too_short() {
        let storage = filled();
        let mut started = State::empty();
        assert_eq!(start(&storage, &mut started, &[], &[]).number, 0);
        for which in 0..3 {
            let mut short = shortened_state(&State::empty(), which);
            let before = short.clone();
            assert_eq!(start(&storage, &mut short, &[], &[]).number, 5);
            assert_eq!(short, before);

            let mut short = shortened_state(&started, which);
            let before = short.clone();
            assert_eq!(run(&storage, &mut short, 1).number, 60);
            assert_eq!(short, before);
        }
        let mut out = vec![7; IMAGE.len() - 1];
        assert_eq!(write(&storage, &mut out).number, 5);
        assert_eq!(out, vec![7; IMAGE.len() - 1]);
        let mut out = vec![7; IMAGE.len()];
        let told = write(&storage, &mut out);
        assert_eq!((told.number, told.first), (0, IMAGE.len()));
        assert_eq!(out, IMAGE);
    }

    #[test]
    fn six_where_no_image_reads_to_the_storage() {
        let good = filled();
        let mut bad = good.clone();
        bad.const_kinds[0] = 6;
        let mut state = State::empty();
        let before = state.clone();
        assert_eq!(write(&bad, &mut [0; 100]).number, 6);
        assert_eq!(check(&bad).number, 6);
        assert_eq!(start(&bad, &mut state, &[], &[]).number, 6);
        assert_eq!(state, before);
        assert_eq!(text(&bad, 0).number, 6);
        assert_eq!(start(&good, &mut state, &[], &[]).number, 0);
        let before = state.clone();
        assert_eq!(run(&bad, &mut state, 1).number, 60);
        assert_eq!(state, before);
    }

    #[test]
    fn every_function_tells_its_operand() {
        let mut storage = filled();
        let mut state = State::empty();
        let mut out = [0; 100];
        for told in [
            read(IMAGE, &mut storage),
            write(&storage, &mut out),
            check(&storage),
            start(&storage, &mut state, &[], &[]),
            run(&storage, &mut state, 2),
            returned(&storage, &state),
            text(&storage, 0),
        ] {
            assert_eq!((told.number, told.operand), (0, 0));
        }
        let short = shortened(&storage, 0);
        for (told, number) in [
            (read(b"", &mut storage), 4),
            (write(&short, &mut out), 5),
            (check(&short), 5),
            (start(&short, &mut state, &[], &[]), 5),
            (run(&short, &mut state, 2), 60),
            (returned(&short, &state), 60),
            (text(&short, 0), 5),
        ] {
            assert_eq!((told.number, told.operand), (number, 0));
        }
        // 36, of nil
        let fails = b"a00100\nc01f00000000\nc00c00000000\ne001\n";
        assert_eq!(read(fails, &mut storage).number, 0);
        assert_eq!(start(&storage, &mut state, &[], &[]).number, 0);
        for told in [run(&storage, &mut state, 1), returned(&storage, &state)] {
            assert_eq!((told.number, told.operand), (36, 1));
        }
    }

    /// The window, the activation, all entries and cells, and nothing else.
    #[test]
    fn what_a_start_writes() {
        let mut state = State {
            frames: vec![7; FRAMES + 1],
            kinds: vec![7; REGISTERS + 1],
            words: vec![7; REGISTERS + 1],
        };
        let mut expected = state.clone();
        expected.frames[..4].copy_from_slice(&[70, 1, 0, 0]);
        expected.frames[34] = 0;
        expected.frames[50..FRAMES].fill(0);
        expected.kinds[0] = 0;
        expected.kinds[2_308..REGISTERS].fill(0);
        expected.words[0] = 0;
        expected.words[2_308..REGISTERS].fill(0);
        assert_eq!(start(&filled(), &mut state, &[], &[]).number, 0);
        assert_eq!(state.frames, expected.frames);
        assert_eq!(state.kinds, expected.kinds);
        assert_eq!(state.words, expected.words);
    }

    #[test]
    fn a_start_keeps_no_operand() {
        let mut state = State::empty();
        state.frames[0] = 31 + 256 * 3;
        assert_eq!(start(&filled(), &mut state, &[], &[]).number, 0);
        assert_eq!(state.frames[0], 70);
    }

    #[test]
    fn a_running_or_finished_machine_names_no_kept_operand() {
        let storage = filled();
        let mut state = State::empty();
        start(&storage, &mut state, &[], &[]);
        run(&storage, &mut state, 1);
        for number in [70, 0] {
            for kept in 0..4 {
                state.frames[0] = number + 256 * kept;
                for told in [run(&storage, &mut state, 0), returned(&storage, &state)] {
                    assert_eq!((u64::from(told.number), told.operand), (number, 0));
                }
                assert_eq!(state.frames[0], number + 256 * kept);
            }
        }
    }

    #[test]
    fn twenty_where_a_word_is_no_string() {
        let storage = filled();
        let told = text(&storage, 0);
        assert_eq!((told.number, told.first, told.second), (0, 0, 1));
        assert_eq!(text(&storage, 1).number, 20);
        assert_eq!(text(&storage, u64::MAX).number, 20);
    }

    #[test]
    fn twenty_where_a_kind_or_a_word_is_missing() {
        let storage = filled();
        assert_eq!(start(&storage, &mut State::empty(), &[2], &[]).number, 20);
        assert_eq!(start(&storage, &mut State::empty(), &[], &[2]).number, 20);
        assert_eq!(start(&storage, &mut State::empty(), &[1], &[2]).number, 20);
    }
}
