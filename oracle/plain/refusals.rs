//! Why a job is refused: the kind, the place and the name of docs/LANGUAGE.md.

use std::fmt;

/// A kind of refusal; it prints as its name.
#[derive(Clone, Copy, Debug)]
pub enum Kind {
    Truncated,
    BadSequence,
    ValueRange,
    UnsupportedCommand,
    UnsupportedValue,
    FontHeader,
    CharacterData,
    NoFont,
    MacroOpen,
    MacroControl,
    MacroDepth,
    TooManyCommands,
    TooManyPages,
    NotPcl,
}

/// What was read of a command's name: at most three bytes, and zeros behind them.
#[derive(Clone, Copy)]
pub struct Name(pub [u8; 3]);

impl Name {
    pub const EMPTY: Name = Name([0; 3]);
    pub const TEXT: Name = Name(*b" \0\0");

    pub const fn one(byte: u8) -> Name {
        Name([byte, 0, 0])
    }
}

impl fmt::Display for Name {
    fn fmt(&self, out: &mut fmt::Formatter) -> fmt::Result {
        match self.0 {
            [0, ..] => out.write_str("-"),
            [8, ..] => out.write_str("BS"),
            [9, ..] => out.write_str("HT"),
            [10, ..] => out.write_str("LF"),
            [12, ..] => out.write_str("FF"),
            [13, ..] => out.write_str("CR"),
            [14, ..] => out.write_str("SO"),
            [15, ..] => out.write_str("SI"),
            [b' ', ..] => out.write_str("text"),
            bytes => bytes
                .iter()
                .take_while(|byte| **byte > 0)
                .try_for_each(|&byte| write!(out, "{}", char::from(byte))),
        }
    }
}

#[derive(Clone, Copy)]
pub struct Refusal {
    pub kind: Kind,
    pub place: usize,
    pub name: Name,
}

impl fmt::Display for Refusal {
    fn fmt(&self, out: &mut fmt::Formatter) -> fmt::Result {
        write!(out, "{:?} at {} {}", self.kind, self.place, self.name)
    }
}
