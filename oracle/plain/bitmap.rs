//! The dots of a page.

use crate::fonts::Glyph;
use crate::plan::{self, Rows};
use crate::settings::Size;
use std::io::{self, Write};

/// Rows of whole bytes, the left dot of each eight in the highest bit, 1 black.
pub struct Bitmap {
    pub size: Size,
    pub width: usize,
    height: usize,
    row_bytes: usize,
    dots: Vec<u8>,
}

impl Bitmap {
    /// A white page.
    pub fn new(size: Size, dpi: u32) -> Bitmap {
        let (width, height) = size.dots_at(dpi);
        let row_bytes = width.div_ceil(8);
        Bitmap {
            size,
            width,
            height,
            row_bytes,
            dots: vec![0; row_bytes * height],
        }
    }

    /// Makes all dots white.
    pub fn clear(&mut self) {
        self.dots.fill(0);
    }

    /// Inks the squares of the set bits of `bytes`, `scale` dots wide and high, the first at dot `left` of row `top`.
    /// What lies off the page is left out.
    pub fn paint_row(&mut self, left: usize, top: usize, scale: usize, bytes: &[u8]) {
        if left >= self.width || top >= self.height {
            return;
        }
        let count = (self.width - left).div_ceil(8 * scale).min(bytes.len());
        let spread;
        let line = if scale == 1 {
            &bytes[..count]
        } else {
            spread = spread_bytes(&bytes[..count], scale);
            &spread
        };
        for y in top..(top + scale).min(self.height) {
            let row = &mut self.dots[y * self.row_bytes..][..self.row_bytes];
            or_bits(&mut row[left / 8..], left % 8, line);
            row[self.row_bytes - 1] &= 0xFF << (8 * self.row_bytes - self.width);
        }
    }

    /// Inks the set bits of a pattern, each a square of `scale` dots, the first at a dot that may lie off the page.
    /// What lies off it is left out.
    pub fn paint_pattern(&mut self, left: i64, top: i64, scale: usize, glyph: &Glyph) {
        if glyph.width == 0 || left >= self.width as i64 {
            return;
        }
        let row_bytes = glyph.width.div_ceil(8);
        let last_bits = 0xFF << (8 * row_bytes - glyph.width);
        let mut line = Vec::with_capacity(row_bytes * scale);
        for (number, bytes) in glyph.pattern.chunks_exact(row_bytes).enumerate() {
            let y = top + (number * scale) as i64;
            if y + (scale as i64) <= 0 || y >= self.height as i64 {
                continue;
            }
            line.clear();
            line.extend_from_slice(bytes);
            line[row_bytes - 1] &= last_bits;
            if scale > 1 {
                line = spread_bytes(&line, scale);
            }
            if left < 0 {
                drop_bits(&mut line, left.unsigned_abs() as usize);
            }
            for y in y.max(0)..(y + scale as i64).min(self.height as i64) {
                self.ink_line(left.max(0) as usize, y as usize, &line);
            }
        }
    }

    /// Inks the set bits of a line, the first at a dot of the page.
    fn ink_line(&mut self, left: usize, y: usize, line: &[u8]) {
        let row = &mut self.dots[y * self.row_bytes..][..self.row_bytes];
        or_bits(&mut row[left / 8..], left % 8, line);
        row[self.row_bytes - 1] &= 0xFF << (8 * self.row_bytes - self.width);
    }

    /// Makes the dots of a rectangle black or white, what of it lies on the page.
    pub fn fill(&mut self, left: usize, top: usize, width: usize, height: usize, is_black: bool) {
        let right = (left + width).min(self.width);
        if left >= right {
            return;
        }
        let (first, last) = (left / 8, (right - 1) / 8);
        for y in top..(top + height).min(self.height) {
            let row = &mut self.dots[y * self.row_bytes..][..self.row_bytes];
            for (place, byte) in row.iter_mut().enumerate().take(last + 1).skip(first) {
                let from = if place == first { 0xFF >> (left % 8) } else { 0xFF };
                let to = if place == last { 0xFF_u8 << (7 - (right - 1) % 8) } else { 0xFF };
                *byte = if is_black { *byte | (from & to) } else { *byte & !(from & to) };
            }
        }
    }

    /// Appends the page as a raster of its rows, by a least body.
    pub fn rewrite(&self, dpi: u32, copies: u32, text: &mut Vec<u8>) {
        text.extend_from_slice(start_of(self.size, copies as usize, dpi).as_bytes());
        plan::append_body(&self.rows(), text);
        text.extend_from_slice(b"\x1b*rC\x0c");
    }

    pub fn rows(&self) -> Rows<'_> {
        Rows::new(&self.dots, self.row_bytes)
    }

    pub fn write(&self, out: &mut impl Write) -> io::Result<()> {
        write!(out, "P4\n{} {}\n", self.width, self.height)?;
        out.write_all(&self.dots)?;
        out.flush()
    }
}

/// What stands before the body of a page text.
pub fn start_of(size: Size, copies: usize, dpi: u32) -> String {
    let (width, _) = size.dots_at(dpi);
    format!("\x1b&l{copies}x{}a0E\x1b*p0x0Y\x1b*t{dpi}R\x1b*r{width}s0A", size as u32)
}

/// Each bit of the bytes, `scale` times.
fn spread_bytes(bytes: &[u8], scale: usize) -> Vec<u8> {
    let square = 0xFF_u64 >> (8 - scale);
    let mut line = Vec::with_capacity(bytes.len() * scale);
    for &byte in bytes {
        let mut wide = 0_u64;
        for bit in 0..8 {
            if byte >> bit & 1 == 1 {
                wide |= square << (scale * bit);
            }
        }
        line.extend_from_slice(&wide.to_be_bytes()[8 - scale..]);
    }
    line
}

/// Sets the bits of `row`, from bit `shift` of its first byte on, where `bytes` has one set.
fn or_bits(row: &mut [u8], shift: usize, bytes: &[u8]) {
    if shift == 0 {
        for (dots, byte) in row.iter_mut().zip(bytes) {
            *dots |= byte;
        }
        return;
    }
    let mut carried = 0;
    for (dots, byte) in row.iter_mut().zip(bytes) {
        *dots |= carried | byte >> shift;
        carried = byte << (8 - shift);
    }
    if let Some(dots) = row.get_mut(bytes.len()) {
        *dots |= carried;
    }
}

/// Drops the first bits of a line.
fn drop_bits(line: &mut Vec<u8>, count: usize) {
    line.drain(..(count / 8).min(line.len()));
    let shift = count % 8;
    if shift > 0 {
        for place in 0..line.len() {
            let next = line.get(place + 1).copied().unwrap_or(0);
            line[place] = line[place] << shift | next >> (8 - shift);
        }
    }
}
