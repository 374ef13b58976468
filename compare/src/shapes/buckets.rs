//! Names made against the proved code's search by keys: how it makes keys and buckets (`reader_names`, `reader_equality`), written
//! again, and names found by trying that all share one bucket.

use super::{Shape, Sheet, LETTERS};
use second::kinds::*;
use second::reader::Second;

const LOW: u64 = 0xffff_ffff;
/// Constants and functions, beside given types.
const NAME_SPACE: u64 = 2;
/// É as its two bytes and as its character.
const ACCENTED: [u8; 2] = [0xc3, 0x89];
const ACCENTED_CHARACTER: u8 = 0xc9;
/// What all names end with.
const TAIL: &[u8; 24] = b"aaaaaaaaaaaaaaaaaaaaaaaa";

/// The characters dealt out in turn to four numbers.
fn dealt(characters: impl Iterator<Item = u8>) -> [u64; 4] {
    characters.fold([0; 4], |[a, b, c, d], character| {
        [b, c, d, a << 8 | u64::from(character)]
    })
}

fn stirred(h: u64, w: u64) -> u64 {
    (((h + w) & LOW) * 2_654_435_769) >> 16 & LOW
}

fn mixture(parts: [u64; 4]) -> u64 {
    let halves = parts.iter().flat_map(|part| [part & LOW, part >> 32]);
    halves.clone().chain(halves).fold(0, stirred)
}

/// The slot at which the search for a name starts.
fn bucket(parts: [u64; 4]) -> u64 {
    let h = mixture(parts);
    let kind = (NAME_SPACE + 4 * h) % 4096 * 1031;
    let factors = [2777, 797, 3061, 397];
    let others = (0..4).map(|at| {
        let shifted = (parts[at] & !0xff) + ((parts[at] + (h >> (8 * at))) & 0xff);
        shifted % 4096 * factors[at]
    });
    (kind + others.sum::<u64>()) % 4096
}

/// The letters of a number, the last ones first.
fn letters<const N: usize>(mut number: usize) -> [u8; N] {
    let mut out = [b'a'; N];
    for letter in out.iter_mut().rev() {
        *letter = LETTERS[number % 52];
        number /= 52;
    }
    out
}

/// The first eight bytes of a name, of letters or with an accent, and its bucket.
fn candidate(number: usize, accented: bool) -> ([u8; 8], u64) {
    let mut bytes = letters::<8>(number);
    let mut characters = bytes.to_vec();
    if accented {
        bytes[..2].copy_from_slice(&ACCENTED);
        characters.splice(..2, [ACCENTED_CHARACTER]);
    }
    let parts = dealt(characters.into_iter().chain(*TAIL));
    (bytes, bucket(parts))
}

/// Constants whose names share a bucket and all but their first eight bytes.
pub fn names_in_one_bucket(kind: Second, most: u32, accented: bool) -> Shape {
    let mut sheet = Sheet::new(kind);
    sheet.end_obligation();
    let (given, end) = (sheet.given, sheet.end(1));
    let tail = sheet.w.name(TAIL);
    let wanted = candidate(0, accented).1;
    let mut symbols = 0;
    for number in 0.. {
        if symbols == most || !sheet.is_before(end - 2) {
            break;
        }
        let (bytes, at) = candidate(number, accented);
        if at == wanted {
            let [low, high] = [0, 4].map(|from| {
                u32::from_le_bytes([
                    bytes[from],
                    bytes[from + 1],
                    bytes[from + 2],
                    bytes[from + 3],
                ])
            });
            let name = sheet.w.push(NAME, low, high, tail);
            sheet.w.push(CONSTANT, given, name, 0);
            symbols += 1;
        }
    }
    let letters = if accented { "accented names" } else { "names" };
    sheet.close(&format!("(c) {symbols} {letters} made against the key"))
}
