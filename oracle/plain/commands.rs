//! The commands of the language, by their names.

use crate::refusals::{Kind, Name, Refusal};

/// Which commands there are, and what those of the printer take. By no profile does what is asked of the printer move a dot.
#[derive(Clone, Copy)]
pub enum Profile {
    /// That of `min`, `check` and `pbm`, which takes an offset of 0 alone.
    Stated,
    /// That of `shrink`, `same`, `pages` and `explain`, which has more names and fonts, and takes any offset on an unmarked page.
    Drivers,
}

#[derive(Clone, Copy)]
pub enum Axis {
    X,
    Y,
}

/// What a move or a side of the rectangle is counted in.
#[derive(Clone, Copy)]
pub enum Measure {
    PclUnit,
    Decipoint,
    /// Columns along the line, and rows down the page.
    Cell,
}

/// One of the two fonts that are selected.
#[derive(Clone, Copy)]
pub enum Slot {
    Primary,
    Secondary,
}

/// What a command does.
#[derive(Clone, Copy)]
pub enum Operation {
    Reset,
    UniversalExit,
    Print,
    Tab,
    LineFeed,
    HalfLineFeed,
    FormFeed,
    CarriageReturn,
    UseFont(Slot),
    PageSize,
    Copies,
    LineHeight,
    LinesPerInch,
    TopMargin,
    TextLength,
    PerforationSkip,
    LeftMargin,
    ClearMargins,
    ColumnWidth,
    LineTermination,
    UnitOfMeasure,
    Move(Axis, Measure),
    CursorStack,
    EjectMarked,
    /// How far the logical page lies from its place on the sheet.
    Offset(Axis),
    MacroId,
    MacroControl,
    RectangleSide(Axis, Measure),
    FillRectangle,
    FontId,
    CharacterCode,
    FontControl,
    FontHeader,
    Character,
    SelectFont(Slot),
    Resolution,
    RasterWidth,
    RasterHeight,
    Presentation,
    StartRaster,
    EndRaster,
    EndRasterAndMethod,
    Method,
    SeedRowSource,
    SkipRows,
    Row,
    /// Takes 0, and does nothing.
    OnlyZero,
    /// Takes any value, and does nothing.
    Nothing,
}

impl Operation {
    /// What the command of a name does, where the profile has one.
    pub fn named(name: Name, profile: Profile) -> Option<Operation> {
        match (Operation::stated(name), profile) {
            (None, Profile::Drivers) => Operation::of_drivers(name),
            (stated, _) => stated,
        }
    }

    /// What drivers send besides: nothing of it shows on a page.
    fn of_drivers(name: Name) -> Option<Operation> {
        Some(match &name.0 {
            b"&lT" | b"&kW" | b"*oM" | b"*oQ" | b"*oD" | b"*rQ" => Operation::Nothing,
            b"*bS" => Operation::SeedRowSource,
            _ => return None,
        })
    }

    fn stated(name: Name) -> Option<Operation> {
        use {Axis::*, Measure::*, Operation::*, Slot::*};
        Some(match &name.0 {
            b" \0\0" | b"&pX" => Print,
            b"\t\0\0" => Tab,
            b"\n\0\0" => LineFeed,
            b"\x0c\0\0" => FormFeed,
            b"\r\0\0" => CarriageReturn,
            b"\x0e\0\0" => UseFont(Secondary),
            b"\x0f\0\0" => UseFont(Primary),
            b"E\0\0" => Reset,
            b"9\0\0" => ClearMargins,
            b"=\0\0" => HalfLineFeed,
            b"%X\0" => UniversalExit,
            b"%A\0" => Nothing,
            b"(X\0" => SelectFont(Primary),
            b")X\0" => SelectFont(Secondary),
            [b'(' | b')', 64..=94, 0] => Nothing,
            b")sW" => FontHeader,
            b"(sW" => Character,
            [b'(' | b')', b's', b'P' | b'H' | b'V' | b'S' | b'B' | b'T'] => Nothing,
            b"&lA" => PageSize,
            b"&lX" => Copies,
            b"&lC" => LineHeight,
            b"&lD" => LinesPerInch,
            b"&lE" => TopMargin,
            b"&lF" => TextLength,
            b"&lL" => PerforationSkip,
            b"&lU" => Offset(X),
            b"&lZ" => Offset(Y),
            b"&lO" | b"&aP" | b"*vN" | b"*vT" => OnlyZero,
            b"&lH" | b"&aG" => EjectMarked,
            b"&lS" | b"&lG" | b"&lM" | b"&lP" | b"&aM" | b"&sC" | b"&d@" | b"*vO" | b"*cG" => Nothing,
            b"&uD" => UnitOfMeasure,
            b"&kH" => ColumnWidth,
            b"&kG" => LineTermination,
            b"&aL" => LeftMargin,
            b"*pX" => Move(X, PclUnit),
            b"*pY" => Move(Y, PclUnit),
            b"&aH" => Move(X, Decipoint),
            b"&aV" => Move(Y, Decipoint),
            b"&aC" => Move(X, Cell),
            b"&aR" => Move(Y, Cell),
            b"&fS" => CursorStack,
            b"&fY" => MacroId,
            b"&fX" => MacroControl,
            b"*cA" => RectangleSide(X, PclUnit),
            b"*cB" => RectangleSide(Y, PclUnit),
            b"*cH" => RectangleSide(X, Decipoint),
            b"*cV" => RectangleSide(Y, Decipoint),
            b"*cP" => FillRectangle,
            b"*cD" => FontId,
            b"*cE" => CharacterCode,
            b"*cF" => FontControl,
            b"*tR" => Resolution,
            b"*rS" => RasterWidth,
            b"*rT" => RasterHeight,
            b"*rF" => Presentation,
            b"*rA" => StartRaster,
            b"*rB" => EndRaster,
            b"*rC" => EndRasterAndMethod,
            b"*bM" => Method,
            b"*bY" => SkipRows,
            b"*bW" => Row,
            _ => return None,
        })
    }
}

#[derive(Clone, Copy, PartialEq)]
pub enum Sign {
    Missing,
    Plus,
    Minus,
}

/// The value of a parameter.
#[derive(Clone, Copy)]
pub struct Number {
    pub sign: Sign,
    /// The whole part without the sign.
    pub magnitude: u32,
    /// In ten-thousandths.
    pub decimals: u32,
}

impl Number {
    pub const ZERO: Number = Number {
        sign: Sign::Missing,
        magnitude: 0,
        decimals: 0,
    };

    pub fn is_in_range(self) -> bool {
        let greatest = if self.sign == Sign::Minus { 32767 } else { 65535 };
        self.magnitude < greatest || self.magnitude == greatest && self.decimals == 0
    }

    pub fn whole(self) -> i32 {
        let magnitude = self.magnitude as i32;
        if self.sign == Sign::Minus { -magnitude } else { magnitude }
    }

    /// The whole part, from 0.
    pub fn count(self) -> Result<u32, Kind> {
        u32::try_from(self.whole()).map_err(|_| Kind::UnsupportedValue)
    }

    /// The whole part, where it is taken.
    pub fn taken(self, is_taken: impl Fn(u32) -> bool) -> Result<u32, Kind> {
        self.count().ok().filter(|&count| is_taken(count)).ok_or(Kind::UnsupportedValue)
    }

    /// In ten-thousandths, with the sign; 0 where the whole part is.
    pub fn unless_whole_part_is_zero(self) -> i64 {
        let parts = i64::from(self.magnitude) * 10_000 + i64::from(self.decimals);
        match self.whole() {
            0 => 0,
            whole => parts * i64::from(whole.signum()),
        }
    }

    /// A number of units, without the sign, rounded down.
    pub fn times(self, unit: u64) -> u64 {
        u64::from(self.magnitude) * unit + u64::from(self.decimals) * unit / 10_000
    }

    /// Where a move by a number of units ends.
    pub fn moved(self, origin: u64, cursor: u64, unit: u64) -> u64 {
        let amount = self.times(unit);
        match self.sign {
            Sign::Missing => origin + amount,
            Sign::Plus => cursor + amount,
            Sign::Minus => cursor.saturating_sub(amount),
        }
    }
}

/// A command with its place in the job, and the data that came with it.
#[derive(Clone, Copy)]
pub struct Command<'a> {
    pub place: usize,
    pub name: Name,
    pub operation: Operation,
    pub value: Number,
    pub data: &'a [u8],
}

impl Command<'_> {
    pub fn refused(&self, kind: Kind) -> Refusal {
        Refusal {
            kind,
            place: self.place,
            name: self.name,
        }
    }
}
