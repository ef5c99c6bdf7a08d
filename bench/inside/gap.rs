//! The twin of gap.rt.txt in Rust: the same gap buffer, the same calls, the same clock.
use std::alloc::{alloc, dealloc, realloc, Layout};
use std::ptr;
use std::slice;
use std::time::Instant;

/// A text with a gap in one block of raw memory, none of it written before a text is.
struct GapBuffer {
    block: *mut u8,
    cap: usize,
    gap: usize,
    tail: usize,
}

impl Drop for GapBuffer {
    fn drop(&mut self) {
        if self.cap > 0 {
            unsafe { dealloc(self.block, Layout::from_size_align_unchecked(self.cap, 1)) }
        }
    }
}

impl GapBuffer {
    fn new() -> GapBuffer {
        GapBuffer { block: ptr::null_mut(), cap: 0, gap: 0, tail: 0 }
    }

    fn len(&self) -> usize {
        self.gap + (self.cap - self.tail)
    }

    fn halves(&self) -> (&[u8], &[u8]) {
        if self.cap == 0 {
            return (&[], &[]);
        }
        unsafe {
            (
                slice::from_raw_parts(self.block, self.gap),
                slice::from_raw_parts(self.block.add(self.tail), self.cap - self.tail),
            )
        }
    }

    fn reserve(&mut self, n: usize) -> Result<(), ()> {
        if n <= self.cap {
            return Ok(());
        }
        if n > isize::MAX as usize {
            return Err(());
        }
        let cap = n.max(self.cap.saturating_mul(2).min(isize::MAX as usize));
        unsafe {
            let block = if self.cap == 0 {
                alloc(Layout::from_size_align_unchecked(cap, 1))
            } else {
                realloc(self.block, Layout::from_size_align_unchecked(self.cap, 1), cap)
            };
            if block.is_null() {
                return Err(());
            }
            let after = self.cap - self.tail;
            ptr::copy(block.add(self.tail), block.add(cap - after), after);
            self.block = block;
            self.cap = cap;
            self.tail = cap - after;
        }
        Ok(())
    }

    fn splice(&mut self, at: usize, del: usize, ins: &[u8]) {
        assert!(at + del <= self.len() && self.len() - del + ins.len() <= self.cap);
        if self.cap == 0 {
            return;
        }
        unsafe {
            if at < self.gap {
                let moved = self.gap - at;
                ptr::copy(self.block.add(at), self.block.add(self.tail - moved), moved);
                self.tail -= moved;
            } else if at > self.gap {
                let moved = at - self.gap;
                ptr::copy(self.block.add(self.tail), self.block.add(self.gap), moved);
                self.tail += moved;
            }
            ptr::copy_nonoverlapping(ins.as_ptr(), self.block.add(at), ins.len());
            self.gap = at + ins.len();
            self.tail += del;
        }
    }
}

const TEXT: usize = 10_000_000;
const INSERTS: usize = 1_000_000;
const MOVES: usize = 100;

fn filled(text: &[u8]) -> Result<GapBuffer, ()> {
    let mut buffer = GapBuffer::new();
    buffer.reserve(text.len())?;
    buffer.splice(0, 0, text);
    Ok(buffer)
}

fn inserts(buffer: &mut GapBuffer, from: usize) -> Result<(), ()> {
    for k in 0..INSERTS {
        let len = buffer.len();
        if from + k > len {
            return Err(());
        }
        buffer.reserve(len + 1)?;
        buffer.splice(from + k, 0, b"x");
    }
    Ok(())
}

fn moves(buffer: &mut GapBuffer) {
    for _there_and_back in 0..MOVES / 2 {
        let len = buffer.len();
        buffer.splice(len, 0, b"");
        buffer.splice(0, 0, b"");
    }
}

fn told(what: &str, start: Instant, buffer: &GapBuffer) {
    let spent = start.elapsed().as_nanos();
    let (before, after) = buffer.halves();
    println!("{what} rust {spent} {},{}", before.len(), after.len());
}

fn main() -> Result<(), ()> {
    let text = vec![b'a'; TEXT];
    let mut buffer = filled(&text)?;
    let start = Instant::now();
    inserts(&mut buffer, TEXT)?;
    told("end", start, &buffer);

    let mut buffer = filled(&text)?;
    buffer.splice(TEXT / 2, 0, b"");
    let start = Instant::now();
    inserts(&mut buffer, TEXT / 2)?;
    told("middle", start, &buffer);

    let mut buffer = filled(&text)?;
    buffer.splice(0, TEXT / 10, b"");
    let start = Instant::now();
    moves(&mut buffer);
    told("moves", start, &buffer);
    Ok(())
}
