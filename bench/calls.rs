//! The calls on replies that are measured. Each side goes through one function that is not inlined.
//! The library writes into slots that its host keeps and lends again and again. The source returns
//! its answer.

use crate::exports::kuzhenga_decode_sampled_reply;
use ferrowasp_output::dshot_reply::{self, DshotReply, DshotReplyError};

#[inline(never)]
pub fn original_reading(
    samples: &[u16],
    mask: u16,
    edt: bool,
) -> Result<DshotReply, DshotReplyError> {
    dshot_reply::decode_sampled_reply(samples, mask, edt)
}

/// The refusal's number.
#[inline(never)]
pub fn library_reading(samples: &[u16], mask: u16, edt: bool, reading: &mut [u16; 3]) -> u32 {
    let (from, n) = (samples.as_ptr(), samples.len());
    let to = reading.as_mut_ptr();
    unsafe { kuzhenga_decode_sampled_reply(from, n, mask.into(), edt.into(), to, 3) }
}

extern "C" {
    fn bench_decode_gcr(words: *const u32, n: usize) -> u32;
}

/// The sum of what the words decode to: a value as it is, a refusal's number above sixteen bits. A
/// call takes few nanoseconds, so each side repeats it in a loop of its own. If not, the way from
/// this program to the library would be measured.
#[inline(never)]
pub fn original_decode(words: &[u32]) -> u32 {
    let packed = |&word: &u32| match dshot_reply::decode_gcr(word) {
        Ok(value) => value.into(),
        Err(DshotReplyError::InvalidSymbol) => 9 << 16,
        Err(_) => 10 << 16,
    };
    words.iter().map(packed).fold(0, u32::wrapping_add)
}

#[inline(never)]
pub fn library_decode(words: &[u32]) -> u32 {
    unsafe { bench_decode_gcr(words.as_ptr(), words.len()) }
}

/// One word, as the source offers it: the answer is the function's result.
#[inline(never)]
pub fn original_decode_gcr(word: u32) -> Result<u16, DshotReplyError> {
    dshot_reply::decode_gcr(word)
}
