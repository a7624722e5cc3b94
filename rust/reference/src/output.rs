//! What a converter (document 02, ask 7) and a field-wise form (ask 13) write to: "a
//! refusal leaves the output unchanged and a longer output keeps its rest".

use crate::questions::{ask, ACCEPTED};

/// The bytes at the start of the output, or the first question that failed, of which
/// this number, whether the output is long enough, is the last.
pub fn put(bytes: Result<Vec<u8>, u32>, too_short: u32, output: &mut [u8]) -> u32 {
    let fitting = bytes.and_then(|bytes| {
        ask(too_short, bytes.len() <= output.len())?;
        Ok(bytes)
    });
    match fitting {
        Ok(bytes) => {
            output[..bytes.len()].copy_from_slice(&bytes);
            ACCEPTED
        }
        Err(number) => number,
    }
}
