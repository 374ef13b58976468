//! The C entries of the proved code. Each wants some MiB of stack (see [`crate::threads`]).

use crate::Asked;
use second::Answer;

type Entry = unsafe extern "C" fn(*const u8, usize, *const u8, usize) -> u64;

extern "C" {
    fn desk_read_proof(
        obligation: *const u8,
        obligation_len: usize,
        proof: *const u8,
        proof_len: usize,
    ) -> u64;
    fn desk_read_derivation(
        obligation: *const u8,
        obligation_len: usize,
        derivation: *const u8,
        derivation_len: usize,
    ) -> u64;
    fn desk_check_proof(
        obligation: *const u8,
        obligation_len: usize,
        proof: *const u8,
        proof_len: usize,
    ) -> u64;
    fn desk_check_derivation(
        obligation: *const u8,
        obligation_len: usize,
        derivation: *const u8,
        derivation_len: usize,
    ) -> u64;
    fn desk_translate(
        obligation: *const u8,
        obligation_len: usize,
        proof: *const u8,
        proof_len: usize,
        buffer: *mut u8,
        buffer_len: usize,
        length: *mut u64,
    ) -> u64;
}

/// The proved code's answer.
pub fn answer(asked: Asked, obligation: &[u8], second: &[u8]) -> Answer {
    match asked {
        Asked::ReadProof => call(desk_read_proof, obligation, second),
        Asked::ReadDerivation => call(desk_read_derivation, obligation, second),
        Asked::CheckProof => call(desk_check_proof, obligation, second),
        Asked::CheckDerivation => call(desk_check_derivation, obligation, second),
    }
}

fn call(entry: Entry, obligation: &[u8], second: &[u8]) -> Answer {
    // SAFETY: both areas are lent for the call, each with its own length.
    let packed = unsafe {
        entry(
            obligation.as_ptr(),
            obligation.len(),
            second.as_ptr(),
            second.len(),
        )
    };
    unpack(packed)
}

/// The proved code's answer and the length of what it wrote at the buffer's beginning.
pub fn translate(obligation: &[u8], proof: &[u8], buffer: &mut [u8]) -> (Answer, u64) {
    // No length that is right, so that one that is left as it was is found.
    let mut length = u64::MAX;
    // SAFETY: the two areas are lent for the call and the buffer is lent for writing, each with its own length.
    let packed = unsafe {
        desk_translate(
            obligation.as_ptr(),
            obligation.len(),
            proof.as_ptr(),
            proof.len(),
            buffer.as_mut_ptr(),
            buffer.len(),
            &mut length,
        )
    };
    (unpack(packed), length)
}

/// Refusal in bits 56 to 63, file in 48 to 55, record in 24 to 47, nodes in 0 to 23.
pub fn unpack(packed: u64) -> Answer {
    Answer::new(
        packed >> 56,
        packed >> 48 & 0xff,
        packed >> 24 & 0xff_ffff,
        packed & 0xff_ffff,
    )
}
