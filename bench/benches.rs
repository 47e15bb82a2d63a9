//! The benches on replies: for either side, a pass over the same inputs.

use crate::agree::Agreed;
use crate::calls::{library_decode, library_reading};
use crate::calls::{original_decode, original_decode_gcr, original_reading};
use crate::exports::kuzhenga_decode_gcr;
use crate::inputs::{self, MASK};
use crate::spoil::{pass_part, ANY};
use crate::{library, original};
use ferrowasp_output::dshot_reply::DshotReplyError;
use std::hint::black_box;
use std::rc::Rc;

pub struct Bench {
    pub name: &'static str,
    /// Calls in a pass.
    pub calls: usize,
    /// A pass of the original, and one of the library.
    pub sides: [Box<dyn Fn()>; 2],
}

/// A pass gives every input and takes every answer through `black_box`. So the compiler can neither
/// leave out a call nor work it out beforehand. The library writes into the slots.
pub fn pass<T: 'static, S: Copy + 'static, A>(
    inputs: &Rc<[T]>,
    slots: S,
    call: impl Fn(&T, &mut S) -> A + 'static,
) -> Box<dyn Fn()> {
    let inputs = inputs.clone();
    Box::new(move || {
        let mut slots = slots;
        for input in inputs.iter() {
            black_box(call(black_box(input), black_box(&mut slots)));
        }
    })
}

type Window = Vec<u16>;

fn readings(name: &'static str, windows: Vec<Window>) -> Bench {
    let windows: Rc<[Window]> = Rc::from(windows);
    let original = |window: &Window, _: &mut [u16; 3]| {
        original_reading(window, black_box(MASK), black_box(false))
    };
    let library = |window: &Window, slots: &mut [u16; 3]| {
        library_reading(window, black_box(MASK), black_box(false), slots)
    };
    Bench {
        name,
        calls: windows.len(),
        sides: [
            pass(&windows, [0; 3], original),
            pass(&windows, [0; 3], library),
        ],
    }
}

/// The whole list of words is one input, and its loop is the side's own.
fn decodings(name: &'static str, words: Vec<u32>) -> Bench {
    let calls = words.len();
    let lists: Rc<[Vec<u32>]> = Rc::from([words]);
    let original = |words: &Vec<u32>, _: &mut [u16; 0]| original_decode(words);
    let library = |words: &Vec<u32>, _: &mut [u16; 0]| library_decode(words);
    Bench {
        name,
        calls,
        sides: [
            pass(&lists, [0; 0], original),
            pass(&lists, [0; 0], library),
        ],
    }
}

/// One call for each word, each side as it is offered to a caller. On both sides the value ends up
/// in the caller's slot, and the refusal in a number.
fn single_decodings(name: &'static str, words: Vec<u32>) -> Bench {
    let words: Rc<[u32]> = Rc::from(words);
    let original = |word: &u32, slot: &mut [u16; 1]| match original_decode_gcr(*word) {
        Ok(value) => {
            slot[0] = value;
            0
        }
        Err(DshotReplyError::InvalidSymbol) => 9,
        Err(_) => 10,
    };
    let library = |word: &u32, slot: &mut [u16; 1]| unsafe {
        kuzhenga_decode_gcr(*word, slot.as_mut_ptr(), 1)
    };
    Bench {
        name,
        calls: words.len(),
        sides: [
            pass(&words, [0; 1], original),
            pass(&words, [0; 1], library),
        ],
    }
}

pub fn all() -> [Bench; 6] {
    [
        readings("exact reply, lead 10", inputs::exact_replies()),
        readings("jittered reply, lead 85", inputs::late_replies()),
        readings("window without a reply", inputs::windows_without_reply()),
        decodings("decode_gcr, reply words", inputs::words()),
        decodings("decode_gcr, half damaged", inputs::damaged_words()),
        single_decodings("decode_gcr, a word a call", inputs::words()),
    ]
}

fn same_reading(window: &Window) -> bool {
    let original = original::decode_sampled_reply(window, MASK.into(), 0);
    original == library::decode_sampled_reply(window, MASK.into(), 0, library::READING)
}

fn same_sum(words: &[u32]) -> bool {
    let mut sum = [library_decode(words)];
    pass_part(ANY, 0, &mut sum);
    [original_decode(words)] == sum
}

pub fn agreed() -> [Agreed; 5] {
    // The refusal and four slots.
    let readings = |name, windows: Vec<Window>| (name, 5, windows.iter().all(same_reading));
    let sums = |name, words: Vec<u32>| (name, 1, same_sum(&words));
    [
        readings("exact replies", inputs::exact_replies()),
        readings("late replies", inputs::late_replies()),
        readings("no reply", inputs::windows_without_reply()),
        sums("words", inputs::words()),
        sums("damaged words", inputs::damaged_words()),
    ]
}
