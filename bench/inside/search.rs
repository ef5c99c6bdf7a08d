//! Times a plain loop that looks for a letter and a digit in the text of search.rt.txt.
//! Each line printed is PART PROGRAM NANOSECONDS PLACE, where a place of 18446744073709551615 is none.
use std::hint::black_box;
use std::time::Instant;

const SIZE: usize = 16 << 20;
const TURNS: usize = 7;

fn made() -> Vec<u8> {
    let mut seed = 12345u32;
    let mut text = Vec::new();
    for _ in 0..SIZE {
        seed = seed.wrapping_mul(1664525).wrapping_add(1013904223);
        let letter = (seed >> 24) % 23;
        text.push(if letter < 20 { b'a' + letter as u8 } else { b' ' });
    }
    text.extend_from_slice(b"needle!!");
    text
}

fn is_hit(pair: &[u8]) -> bool {
    pair[0].is_ascii_alphabetic() && pair[1].is_ascii_digit()
}

fn timed(part: &str, search: impl Fn(&[u8]) -> Option<usize>) {
    let text = made();
    let mut best = u128::MAX;
    let mut found = None;
    for _ in 0..TURNS {
        let start = Instant::now();
        found = black_box(search(black_box(&text)));
        best = best.min(start.elapsed().as_nanos());
    }
    println!("{part} loop {best} {}", found.unwrap_or(usize::MAX));
}

fn main() {
    timed("class_forward", |text| text.windows(2).position(is_hit));
    timed("class_backward", |text| text.windows(2).rposition(is_hit));
}
