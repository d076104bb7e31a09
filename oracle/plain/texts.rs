//! Reading page texts (docs/OUTPUT.md), in plain Rust over std alone.

use crate::bitmap::start_of;
use crate::settings::Size;

const END: &[u8] = b"\x1b*rC\x0c";

/// What a page text prints.
pub struct Text {
    pub size: Size,
    pub copies: u32,
    pub dots: Vec<u8>,
    pub body_length: u64,
}

impl Text {
    /// Reads a page text; none where it isn't of the grammar.
    pub fn read(text: &[u8], dpi: u32) -> Option<Text> {
        let (copies, _) = number(text.strip_prefix(b"\x1b&l")?);
        if !(1..=99).contains(&copies) {
            return None;
        }
        let body_of = |size| Some((size, text.strip_prefix(start_of(size, copies, dpi).as_bytes())?));
        let (size, body) = Size::ALL.into_iter().find_map(body_of)?;
        let (width, height) = size.dots_at(dpi);
        let row_bytes = width.div_ceil(8);
        let mut dots = vec![0; row_bytes * height];
        let (mut rest, mut printed, mut method, mut is_open) = (body, 0, 0, false);
        while is_open || rest != END {
            if !is_open {
                rest = rest.strip_prefix(b"\x1b*b")?;
            }
            let (count, behind) = number(rest);
            let (&letter, behind) = behind.split_first()?;
            rest = behind;
            match letter {
                b'm' | b'M' if count <= 3 => method = count,
                b'y' | b'Y' if count >= 1 && printed + count <= height => printed += count,
                b'W' if count <= 65535 && printed < height => {
                    let (data, behind) = rest.split_at_checked(count)?;
                    let (above, below) = dots.split_at_mut(row_bytes * printed);
                    let row = &mut below[..row_bytes];
                    if method == 3 && printed > 0 {
                        row.copy_from_slice(&above[row_bytes * (printed - 1)..]);
                    }
                    decode_whole(method, data, row)?;
                    if u32::from(row[row_bytes - 1]) % (1 << (8 * row_bytes - width)) > 0 {
                        return None;
                    }
                    rest = behind;
                    printed += 1;
                }
                _ => return None,
            }
            is_open = letter.is_ascii_lowercase();
        }
        Some(Text {
            size,
            copies: copies as u32,
            dots,
            body_length: (body.len() - END.len()) as u64,
        })
    }
}

/// The number of the digits that come first, 0 where there are none, and what stands behind them. Those past a million are all one.
fn number(bytes: &[u8]) -> (usize, &[u8]) {
    let count = bytes.iter().take_while(|byte| byte.is_ascii_digit()).count();
    let (digits, behind) = bytes.split_at(count);
    let number = digits.iter().fold(0, |number, digit| (10 * number + usize::from(digit - b'0')).min(1_000_000));
    (number, behind)
}

/// Puts whole data on a row, which is the seed row of method 3, and white for the others. None where an element is cut or goes past it.
fn decode_whole(method: usize, mut data: &[u8], row: &mut [u8]) -> Option<()> {
    let mut place = 0;
    while !data.is_empty() {
        let mut take = |count| {
            let (taken, behind) = data.split_at_checked(count)?;
            data = behind;
            Some(taken)
        };
        let first = take(1)?[0];
        let new = match (method, first) {
            (0, _) => vec![first],
            (1, _) => vec![take(1)?[0]; usize::from(first) + 1],
            (2, 128) => Vec::new(),
            (2, 129..) => vec![take(1)?[0]; 257 - usize::from(first)],
            (2, _) => take(usize::from(first) + 1)?.to_vec(),
            _ => {
                place += usize::from(first % 32);
                let mut goes_on = first % 32 == 31;
                while goes_on {
                    let more = take(1)?[0];
                    place += usize::from(more);
                    goes_on = more == 255;
                }
                take(usize::from(first / 32) + 1)?.to_vec()
            }
        };
        row.get_mut(place..place + new.len())?.copy_from_slice(&new);
        place += new.len();
    }
    Some(())
}
