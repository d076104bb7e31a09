//! Soft fonts.

use std::borrow::Cow;

use crate::commands::Profile;

/// The dots to an inch of a font whose header doesn't say them, and of the page at the lower resolution.
const COARSE: u32 = 300;

/// The most bytes of a pattern that runs give.
const EXPANDED_LIMIT: usize = 65_536;

/// A character: a pattern of whole rows, and where it lies about the cursor.
pub struct Glyph<'a> {
    pub left: i16,
    pub top: i16,
    pub width: usize,
    /// In quarter dots of the font.
    pub advance: i16,
    pub pattern: Cow<'a, [u8]>,
}

impl<'a> Glyph<'a> {
    /// The character of data, if the profile takes them.
    pub fn read(data: &'a [u8], profile: Profile) -> Option<Glyph<'a>> {
        let (head, rows) = data.split_at_checked(16)?;
        let signed = |place| i16::from_be_bytes([head[place], head[place + 1]]);
        let count = |place| usize::from(u16::from_be_bytes([head[place], head[place + 1]]));
        let (width, height) = (count(10), count(12));
        let pattern = match (&head[..5], profile) {
            ([4, 0, 14, 1, 0], _) => Cow::Borrowed(rows.get(..width.div_ceil(8) * height)?),
            ([4, 0, 14, 2, 0], Profile::Drivers) => Cow::Owned(expanded(width, height, rows)?),
            _ => return None,
        };
        Some(Glyph {
            left: signed(6),
            top: signed(8),
            width,
            advance: signed(14),
            pattern,
        })
    }
}

/// The pattern that runs give, white and black in turn in each row, behind a byte that says how many copies of the row follow it.
fn expanded(width: usize, height: usize, data: &[u8]) -> Option<Vec<u8>> {
    let row_bytes = width.div_ceil(8);
    if row_bytes * height > EXPANDED_LIMIT {
        return None;
    }
    let mut values = data.iter().copied().map(usize::from);
    let mut pattern = Vec::with_capacity(row_bytes * height);
    let mut left = height;
    while left > 0 {
        left = left.checked_sub(values.next()? + 1)?;
        let mut row = vec![0; row_bytes];
        let (mut column, mut is_black) = (0, false);
        while column < width {
            let end = column + values.next()?;
            if end > width {
                return None;
            }
            if is_black {
                (column..end).for_each(|column| row[column / 8] |= 0x80 >> (column % 8));
            }
            (column, is_black) = (end, !is_black);
        }
        while pattern.len() < row_bytes * (height - left) {
            pattern.extend_from_slice(&row);
        }
    }
    Some(pattern)
}

pub struct Font<'a> {
    kind: u8,
    pub is_proportional: bool,
    pub is_permanent: bool,
    /// To an inch.
    dots: u32,
    /// In quarter dots of the font.
    pitch: u16,
    pub glyphs: Vec<Option<Glyph<'a>>>,
}

impl<'a> Font<'a> {
    /// The font of a header, without characters, for pages of a resolution.
    pub fn read(data: &[u8], dpi: u32, profile: Profile) -> Option<Font<'a>> {
        let (length, dots) = match (data.get(2)?, profile) {
            (0, _) => (64, COARSE),
            (20, Profile::Drivers) => (68, resolution(data)?),
            _ => return None,
        };
        let head = data.get(..length)?;
        let size = usize::from(u16::from_be_bytes([head[0], head[1]]));
        let is_known = head[3] <= 2 && head[12] == 0 && head[13] <= 1 && (dots == COARSE || dots == dpi);
        if !is_known || !(length..=data.len()).contains(&size) {
            return None;
        }
        Some(Font {
            kind: head[3],
            is_proportional: head[13] == 1,
            is_permanent: false,
            dots,
            pitch: u16::from_be_bytes([head[16], head[17]]),
            glyphs: (0..256).map(|_| None).collect(),
        })
    }

    /// The dots of a page of a resolution that a bit is wide and high.
    pub fn scale(&self, dpi: u32) -> usize {
        (dpi / self.dots) as usize
    }

    /// The units of a quarter dot.
    pub fn quarter_dot(&self) -> u32 {
        1800 / self.dots
    }

    /// The pitch in units.
    pub fn column_width(&self) -> u64 {
        u64::from(self.pitch) * u64::from(self.quarter_dot())
    }

    /// The character that a code prints.
    pub fn glyph(&self, code: u8) -> Option<&Glyph<'a>> {
        let is_printed = match self.kind {
            0 => matches!(code, 32..=127),
            1 => matches!(code, 32..=127 | 160..=255),
            _ => true,
        };
        self.glyphs[usize::from(code)].as_ref().filter(|_| is_printed)
    }
}

/// The dots to an inch that a header says, where they are as many across as down.
fn resolution(header: &[u8]) -> Option<u32> {
    let fields = header.get(64..68)?;
    let (across, down) = fields.split_at(2);
    (across == down).then(|| u32::from(fields[0]) << 8 | u32::from(fields[1]))
}
