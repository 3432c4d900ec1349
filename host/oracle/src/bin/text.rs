//! All strings of three bytes, 16,777,216 of them, against Rust's own test of text (`std::str::from_utf8`): opened and appended as char of width
//! 3 and as string. (The wrapper's tests do so with those of up to two bytes, and of up to four over the ends of the table's ranges.)
use idzulgar::calls::{self, Areas};

const CHAR: usize = 8;
const STRING: usize = 10;

/// The number of an append to a builder with nothing in it.
fn appended(kind: usize, width: usize, bytes: &[u8]) -> u8 {
    let (mut items, mut ends, mut lens) = ([0; 3], [0; 1], [0; 1]);
    let areas = Areas { items: &mut items, ends: &mut ends, flags: &mut [], counts: &mut [], keys: &mut [], lens: &mut lens };
    calls::append(calls::create(kind, 0, width, 0).builder, areas, true, 0, bytes).number
}

fn main() {
    let (mut tried, mut texts, mut chars, mut wrong) = (0u64, 0u64, 0u64, 0u64);
    for number in 0..1u32 << 24 {
        let [_, bytes @ ..] = number.to_be_bytes();
        let is_text = std::str::from_utf8(&bytes).is_ok();
        let cut = bytes.iter().position(|byte| *byte == 0).unwrap_or(3);
        let is_char = std::str::from_utf8(&bytes[..cut]).is_ok();
        let [a, b, c] = bytes;
        let found = [
            calls::open(STRING, 0, 0, 1, &[3, 0, 0, 0, a, b, c]).number,
            calls::open(CHAR, 0, 3, 1, &bytes).number,
            appended(STRING, 0, &bytes),
            appended(CHAR, 3, &bytes),
        ];
        let due =
            [if is_text { 0 } else { 17 }, if is_char { 0 } else { 17 }, if is_text { 0 } else { 2 }, if is_text { 0 } else { 2 }];
        if found != due {
            wrong += 1;
            println!("{bytes:02X?}: {found:?}, not {due:?}");
        }
        tried += 1;
        texts += is_text as u64;
        chars += is_char as u64;
    }
    println!("{tried} strings of three bytes, {texts} of them text and {chars} up to the first NUL: {wrong} otherwise than std::str::from_utf8");
    std::process::exit((wrong > 0) as i32);
}
