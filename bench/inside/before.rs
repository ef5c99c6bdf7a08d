//! Inserts so many bytes before a text, one at a time, in a gap buffer, and writes the text.
use std::env;
use std::io::{self, Read, Write};

struct GapBuffer {
    block: Vec<u8>,
    gap: usize,
    tail: usize,
}

impl GapBuffer {
    fn reserve(&mut self, more: usize) {
        if self.tail - self.gap >= more {
            return;
        }
        let after = self.block.len() - self.tail;
        let grown = (self.block.len() * 2).max(self.block.len() + more);
        let old = self.block.len();
        self.block.resize(grown, 0);
        self.block.copy_within(old - after..old, grown - after);
        self.tail = grown - after;
    }

    fn insert(&mut self, byte: u8) {
        self.reserve(1);
        self.block[self.gap] = byte;
        self.gap += 1;
    }
}

fn main() -> io::Result<()> {
    let count: usize = env::args().nth(1).and_then(|word| word.parse().ok()).unwrap_or(0);
    let mut text = Vec::new();
    io::stdin().lock().read_to_end(&mut text)?;
    let mut buffer = GapBuffer { block: text, gap: 0, tail: 0 };
    for _ in 0..count {
        buffer.insert(b'x');
    }
    let mut out = io::stdout().lock();
    out.write_all(&buffer.block[..buffer.gap])?;
    out.write_all(&buffer.block[buffer.tail..])
}
