//! What commands set, the sizes of pages, and the cursor. Lengths and positions are in units of 1/7200 inch.

use crate::commands::{Axis, Measure, Slot};

const LOWER_MARGIN: u64 = 3600;
const DECIPOINT: u64 = 10;
const STACK_LIMIT: usize = 20;

#[derive(Clone, Copy, PartialEq)]
pub enum Size {
    Executive = 1,
    Letter = 2,
    Legal = 3,
    A4 = 26,
}

impl Size {
    pub const ALL: [Size; 4] = [Size::Executive, Size::Letter, Size::Legal, Size::A4];

    pub fn with_code(code: u32) -> Option<Size> {
        Size::ALL.into_iter().find(|&size| size as u32 == code)
    }

    /// The width and the height in dots at 300 per inch.
    pub fn dots(self) -> (u32, u32) {
        match self {
            Size::Executive => (2025, 3150),
            Size::Letter => (2400, 3300),
            Size::Legal => (2400, 4200),
            Size::A4 => (2338, 3507),
        }
    }

    /// The width and the height in dots at a resolution.
    pub fn dots_at(self, dpi: u32) -> (usize, usize) {
        let (width, height) = self.dots();
        ((width * dpi / 300) as usize, (height * dpi / 300) as usize)
    }

    pub fn units_wide(self) -> u64 {
        u64::from(self.dots().0) * 24
    }

    pub fn units_high(self) -> u64 {
        u64::from(self.dots().1) * 24
    }

    /// The bottom margin, where no text length is set.
    pub fn bottom(self) -> u64 {
        self.units_high() - LOWER_MARGIN
    }
}

/// What a reset sets, and what the end of a call puts back.
#[derive(Clone, Copy)]
pub struct Settings {
    pub copies: u32,
    pub pcl_unit: u64,
    pub column_width: u64,
    pub line_height: u64,
    pub top_margin: u64,
    pub bottom: u64,
    pub left_margin: u64,
    pub skips_perforation: bool,
    pub line_termination: u32,
    pub macro_id: u32,
    pub font_id: u32,
    pub code: u8,
    /// The IDs of the primary and the secondary font.
    pub selected: [Option<u32>; 2],
    pub in_use: Slot,
    /// The width and the height.
    pub rectangle: [u64; 2],
    pub resolution: u32,
    pub raster_width: Option<usize>,
    pub raster_height: Option<usize>,
    pub method: u32,
    /// The left and the top offset in ten-thousandths of a decipoint.
    pub offsets: [i64; 2],
}

impl Settings {
    pub const DEFAULTS: Settings = Settings {
        copies: 1,
        pcl_unit: 24,
        column_width: 720,
        line_height: 1200,
        top_margin: 3600,
        bottom: 3300 * 24 - LOWER_MARGIN,
        left_margin: 0,
        skips_perforation: true,
        line_termination: 0,
        macro_id: 0,
        font_id: 0,
        code: 0,
        selected: [None; 2],
        in_use: Slot::Primary,
        rectangle: [0; 2],
        resolution: 75,
        raster_width: None,
        raster_height: None,
        method: 0,
        offsets: [0; 2],
    };

    /// The margins of a page size.
    pub fn set_margins(&mut self, size: Size) {
        self.top_margin = Settings::DEFAULTS.top_margin;
        self.bottom = size.bottom();
        self.left_margin = 0;
    }

    /// Where the first line of a page stands.
    pub fn first_line(&self) -> u64 {
        self.top_margin + self.line_height * 3 / 4
    }

    pub fn unit(&self, axis: Axis, measure: Measure) -> u64 {
        match (measure, axis) {
            (Measure::PclUnit, _) => self.pcl_unit,
            (Measure::Decipoint, _) => DECIPOINT,
            (Measure::Cell, Axis::X) => self.column_width,
            (Measure::Cell, Axis::Y) => self.line_height,
        }
    }

    /// Whether a line feed also returns to the left margin.
    pub fn feed_returns(&self) -> bool {
        self.line_termination >= 2
    }

    /// Whether a carriage return also feeds a line.
    pub fn return_feeds(&self) -> bool {
        self.line_termination % 2 == 1
    }
}

/// A position, held on a page of some size.
pub struct Cursor {
    pub size: Size,
    pub x: u64,
    pub y: u64,
    stack: Vec<(u64, u64)>,
}

impl Cursor {
    pub fn new() -> Cursor {
        Cursor {
            size: Size::Letter,
            x: 0,
            y: Settings::DEFAULTS.first_line(),
            stack: Vec::new(),
        }
    }

    pub fn move_x(&mut self, x: u64) {
        self.x = x.min(self.size.units_wide());
    }

    pub fn move_y(&mut self, y: u64) {
        self.y = y.min(self.size.units_high());
    }

    /// Goes to the right, or to the left.
    pub fn advance(&mut self, amount: i64) {
        self.move_x(self.x.saturating_add_signed(amount));
    }

    pub fn push(&mut self) {
        if self.stack.len() < STACK_LIMIT {
            self.stack.push((self.x, self.y));
        }
    }

    pub fn pop(&mut self) {
        if let Some((x, y)) = self.stack.pop() {
            self.move_x(x);
            self.move_y(y);
        }
    }
}
