//! Decimal numbers as text that is made once and copied often, and the lines made of it.

use std::io::{Result, Write};

/// The bytes that are copied for a text, however short it is: copies of a fixed size are quick.
const TEXT_BYTES: usize = 16;

/// Enough for the three texts of a line.
const LINE_BYTES: usize = 3 * TEXT_BYTES;

const BLOCK_BYTES: usize = 64 * 1024;

/// The two digits of every number below 100.
const PAIRS: [[u8; 2]; 100] = {
    let mut pairs = [[0; 2]; 100];
    let mut number = 0;
    while number < 100 {
        pairs[number] = [b'0' + number as u8 / 10, b'0' + number as u8 % 10];
        number += 1;
    }
    pairs
};

/// The digits of a number and one byte behind them, at the start of the bytes.
#[derive(Clone, Copy)]
pub struct Text {
    bytes: [u8; TEXT_BYTES],
    length: u8,
}

impl Text {
    pub fn new(number: u32, then: u8) -> Text {
        const MOST_DIGITS: usize = 10;
        let mut bytes = [0; MOST_DIGITS + TEXT_BYTES];
        bytes[MOST_DIGITS] = then;
        let mut start = MOST_DIGITS;
        let mut rest = number as usize;
        while rest >= 10 {
            start -= 2;
            bytes[start..start + 2].copy_from_slice(&PAIRS[rest % 100]);
            rest /= 100;
        }
        if rest > 0 || start == MOST_DIGITS {
            start -= 1;
            bytes[start] = b'0' + rest as u8;
        }
        let mut text = [0; TEXT_BYTES];
        text.copy_from_slice(&bytes[start..start + TEXT_BYTES]);
        Text {
            bytes: text,
            length: (MOST_DIGITS + 1 - start) as u8,
        }
    }

    /// At most 11. Taking it modulo 16 changes nothing, but shows the compiler that the text fits
    /// into a line.
    #[inline]
    fn length(&self) -> usize {
        self.length as usize % TEXT_BYTES
    }
}

/// Lines on their way out, which they take in blocks.
pub struct Lines<'a, W> {
    out: &'a mut W,
    block: Vec<u8>,
    filled: usize,
}

impl<'a, W: Write> Lines<'a, W> {
    pub fn new(out: &'a mut W) -> Lines<'a, W> {
        Lines {
            out,
            block: vec![0; BLOCK_BYTES],
            filled: 0,
        }
    }

    /// Puts a line of three texts.
    #[inline]
    pub fn put(&mut self, texts: [&Text; 3]) -> Result<()> {
        if self.filled + LINE_BYTES > self.block.len() {
            self.flush()?;
        }
        let line = &mut self.block[self.filled..self.filled + LINE_BYTES];
        let mut end = 0;
        for text in texts {
            // What is beyond the text's own length is overwritten by the next one.
            line[end..end + TEXT_BYTES].copy_from_slice(&text.bytes);
            end += text.length();
        }
        self.filled += end;
        Ok(())
    }

    #[cold]
    pub fn flush(&mut self) -> Result<()> {
        self.out.write_all(&self.block[..self.filled])?;
        self.filled = 0;
        Ok(())
    }
}
