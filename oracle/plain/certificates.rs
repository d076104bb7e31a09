//! The bytes of certificates (docs/CERTIFICATE.md, "The bytes"): reading them, and writing those of a job, in plain Rust over std alone.

use crate::bitmap::Bitmap;
use crate::commands::Profile;
use crate::linear;
use crate::performing::{Task, perform};
use crate::plan;
use crate::refusals::Refusal;
use crate::settings::Size;

const FORMATS: [&[u8]; 2] = [b"PCLCERT1", b"PCLCERT2"];

/// What a certificate says of a page.
pub struct Claim<'a> {
    pub text_length: usize,
    pub height: usize,
    nodes: &'a [u8],
    /// In the second format the numbers of places, for each row and each method.
    pub lists: Option<Vec<&'a [u8]>>,
}

impl Claim<'_> {
    pub fn node(&self, row: usize, method: usize, is_open: bool) -> u64 {
        let at = 32 * row + 8 * method + 4 * usize::from(is_open);
        u64::from(number_of(&self.nodes[at..at + 4]))
    }
}

fn number_of(bytes: &[u8]) -> u32 {
    bytes.iter().fold(0, |number, byte| number << 8 | u32::from(*byte))
}

/// The numbers of a list.
pub fn numbers_of(list: &[u8]) -> impl Iterator<Item = u32> {
    list.chunks_exact(2).map(number_of)
}

/// Why bytes are no certificate; it prints as its name.
#[derive(Debug)]
pub enum Malformed {
    BadMagic,
    Short,
    Rows,
    Places,
    Extra,
}

/// The bytes that are left.
struct Fields<'a>(&'a [u8]);

impl<'a> Fields<'a> {
    fn take(&mut self, count: usize) -> Result<&'a [u8], Malformed> {
        let (taken, behind) = self.0.split_at_checked(count).ok_or(Malformed::Short)?;
        self.0 = behind;
        Ok(taken)
    }

    fn number(&mut self, bytes: usize) -> Result<usize, Malformed> {
        self.take(bytes).map(|taken| number_of(taken) as usize)
    }

    /// A list for rows of this many bytes.
    fn list(&mut self, row_bytes: usize) -> Result<&'a [u8], Malformed> {
        let count = self.number(2)?;
        if count > row_bytes {
            return Err(Malformed::Places);
        }
        let list = self.take(2 * count)?;
        match numbers_of(list).last() {
            Some(0) => Err(Malformed::Places),
            _ => Ok(list),
        }
    }

    fn claim(&mut self, has_lists: bool, dpi: u32) -> Result<Claim<'a>, Malformed> {
        let text_length = self.number(4)?;
        let height = self.number(2)?;
        let sizes = Size::ALL.map(|size| size.dots_at(dpi));
        let (width, _) = sizes.into_iter().find(|size| size.1 == height).ok_or(Malformed::Rows)?;
        let nodes = self.take(32 * (height + 1))?;
        let lists = if has_lists {
            Some((0..4 * height).map(|_| self.list(width.div_ceil(8))).collect::<Result<_, _>>()?)
        } else {
            None
        };
        Ok(Claim {
            text_length,
            height,
            nodes,
            lists,
        })
    }
}

/// What a certificate says of each page, or the first fault of its bytes.
pub fn read(bytes: &[u8], dpi: u32) -> Result<Vec<Claim<'_>>, Malformed> {
    let mut fields = Fields(bytes);
    let magic = fields.take(8).map_err(|_| Malformed::BadMagic)?;
    let format = FORMATS.into_iter().position(|format| format == magic).ok_or(Malformed::BadMagic)?;
    let count = fields.number(4)?;
    let mut claims = Vec::new();
    for _ in 0..count {
        claims.push(fields.claim(format == 1, dpi)?);
    }
    if fields.0.is_empty() { Ok(claims) } else { Err(Malformed::Extra) }
}

/// The certificate of a job that is written again: the numbers of its plans and, in the second format, the least lengths of data.
pub fn write(job: &[u8], has_lists: bool, dpi: u32) -> Result<Vec<u8>, Refusal> {
    let mut pages = Vec::new();
    let mut see = |bitmap: &Bitmap, copies| append_page(bitmap, copies, has_lists, dpi, &mut pages);
    let count = perform(job, Task::Visit(&mut see), dpi, Profile::Stated)?.pages as u32;
    Ok([FORMATS[usize::from(has_lists)], &count.to_be_bytes(), &pages].concat())
}

fn append_page(bitmap: &Bitmap, copies: u32, has_lists: bool, dpi: u32, out: &mut Vec<u8>) {
    let mut text = Vec::new();
    bitmap.rewrite(dpi, copies, &mut text);
    let rows = bitmap.rows();
    out.extend((text.len() as u32).to_be_bytes());
    out.extend((rows.count() as u16).to_be_bytes());
    for numbers in plan::table_of(&rows) {
        for (outside, inside) in numbers.outside.into_iter().zip(numbers.inside) {
            out.extend(outside.to_be_bytes());
            out.extend(inside.to_be_bytes());
        }
    }
    if !has_lists {
        return;
    }
    for row in 0..rows.count() {
        for method in 0..4 {
            let list = linear::numbers(method as u32, rows.old(method, row), rows.row(row));
            out.extend((list.len() as u16).to_be_bytes());
            out.extend(list.into_iter().flat_map(u16::to_be_bytes));
        }
    }
}
