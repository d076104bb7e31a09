//! Reading: the commands of a job in turn, or its first fault.

use crate::commands::{Command, Number, Operation, Profile, Sign};
use crate::refusals::{Kind, Name, Refusal};

pub struct Reader<'a> {
    profile: Profile,
    length: usize,
    rest: &'a [u8],
    /// What the names of a sequence that goes on at `rest` begin with.
    group: Option<Prefix>,
}

/// What stands between ESC and a value field: the parameterized character, and a group character or 0.
type Prefix = [u8; 2];

/// What begins outside sequences.
enum Start<'a> {
    Complete(Command<'a>),
    /// A parameter, whose place is that of its ESC.
    Parameter(usize, Prefix),
    End,
}

/// Whether a byte outside sequences is printed.
fn is_text(byte: u8) -> bool {
    !matches!(byte, 0 | 7..=15 | 27)
}

fn refused<T>(kind: Kind, place: usize, name: Name) -> Result<T, Refusal> {
    Err(Refusal { kind, place, name })
}

/// The names of a job's commands, each on a line.
pub fn names(job: &[u8], profile: Profile) -> Result<String, Refusal> {
    let mut reader = Reader::new(job, profile);
    let mut names = String::new();
    while let Some(command) = reader.next_command()? {
        names += &format!("{}\n", command.name);
    }
    Ok(names)
}

impl<'a> Reader<'a> {
    pub fn new(job: &'a [u8], profile: Profile) -> Reader<'a> {
        Reader {
            profile,
            length: job.len(),
            rest: job,
            group: None,
        }
    }

    /// The next command, none at the job's end.
    pub fn next_command(&mut self) -> Result<Option<Command<'a>>, Refusal> {
        let (place, prefix) = match self.group {
            Some(prefix) => (self.place(), prefix),
            None => match self.start()? {
                Start::Parameter(place, prefix) => (place, prefix),
                Start::Complete(command) => return Ok(Some(command)),
                Start::End => return Ok(None),
            },
        };
        self.parameter(place, prefix).map(Some)
    }

    /// What stands behind the bytes that mean nothing.
    fn start(&mut self) -> Result<Start<'a>, Refusal> {
        while let Some(&byte) = self.rest.first() {
            if is_text(byte) {
                return Ok(Start::Complete(self.text()));
            }
            let place = self.place();
            self.byte();
            match byte {
                0 | 7 | 11 => {}
                27 => return self.sequence(place),
                _ => return self.bare(place, byte),
            }
        }
        Ok(Start::End)
    }

    /// Reads on to the job's end, for a fault.
    pub fn read_out(&mut self) -> Result<(), Refusal> {
        while self.next_command()?.is_some() {}
        Ok(())
    }

    /// The place of the byte that stands next.
    fn place(&self) -> usize {
        self.length - self.rest.len()
    }

    /// The next byte, if one is left.
    fn byte(&mut self) -> Option<u8> {
        let (&first, after) = self.rest.split_first()?;
        self.rest = after;
        Some(first)
    }

    fn text(&mut self) -> Command<'a> {
        let place = self.place();
        let end = self.rest.iter().position(|&byte| !is_text(byte)).unwrap_or(self.rest.len());
        let (data, rest) = self.rest.split_at(end);
        self.rest = rest;
        Command {
            place,
            name: Name::TEXT,
            operation: Operation::Print,
            value: Number::ZERO,
            data,
        }
    }

    /// A command of one byte, which has neither value nor data.
    fn bare(&self, place: usize, code: u8) -> Result<Start<'a>, Refusal> {
        let name = Name::one(code);
        let Some(operation) = Operation::named(name, self.profile) else {
            return refused(Kind::UnsupportedCommand, place, name);
        };
        Ok(Start::Complete(Command {
            place,
            name,
            operation,
            value: Number::ZERO,
            data: &[],
        }))
    }

    /// The start of a sequence, behind its ESC.
    fn sequence(&mut self, place: usize) -> Result<Start<'a>, Refusal> {
        match *self.rest {
            [parameterized @ 33..=47, group @ 96..=126, ref rest @ ..] => {
                self.rest = rest;
                Ok(Start::Parameter(place, [parameterized, group]))
            }
            [parameterized @ (b'(' | b')' | b'%'), ref rest @ ..] if !rest.is_empty() => {
                self.rest = rest;
                Ok(Start::Parameter(place, [parameterized, 0]))
            }
            [code @ 48..=126, ref rest @ ..] => {
                self.rest = rest;
                self.bare(place, code)
            }
            [] => refused(Kind::Truncated, place, Name::EMPTY),
            [parameterized @ 33..=47] => refused(Kind::Truncated, place, Name::one(parameterized)),
            [parameterized @ 33..=47, ..] => refused(Kind::BadSequence, place, Name::one(parameterized)),
            _ => refused(Kind::BadSequence, place, Name::EMPTY),
        }
    }

    fn parameter(&mut self, place: usize, prefix: Prefix) -> Result<Command<'a>, Refusal> {
        let value = self.value();
        let [parameterized, group] = prefix;
        let read = Name([parameterized, group, 0]);
        let Some(letter) = self.byte() else {
            return refused(Kind::Truncated, place, read);
        };
        let (letter, goes_on) = match letter {
            64..=94 => (letter, false),
            96..=126 if group > 0 => (letter - 32, true),
            _ => return refused(Kind::BadSequence, place, read),
        };
        self.group = goes_on.then_some(prefix);
        let name = if group > 0 {
            Name([parameterized, group, letter])
        } else {
            Name([parameterized, letter, 0])
        };
        if !value.is_in_range() {
            return refused(Kind::ValueRange, place, name);
        }
        let Some(operation) = Operation::named(name, self.profile) else {
            return refused(Kind::UnsupportedCommand, place, name);
        };
        let mut command = Command {
            place,
            name,
            operation,
            value,
            data: &[],
        };
        match operation {
            Operation::Row | Operation::FontHeader | Operation::Character | Operation::Print => {
                command.data = self.data(value, goes_on).map_err(|kind| command.refused(kind))?;
            }
            Operation::UniversalExit if value.whole() == -12345 => self.skip_lines(name)?,
            _ => {}
        }
        Ok(command)
    }

    /// As many bytes as the value says.
    fn data(&mut self, value: Number, goes_on: bool) -> Result<&'a [u8], Kind> {
        let length = usize::try_from(value.whole()).map_err(|_| Kind::ValueRange)?;
        if goes_on && length > 0 {
            return Err(Kind::BadSequence);
        }
        let (data, rest) = self.rest.split_at_checked(length).ok_or(Kind::Truncated)?;
        self.rest = rest;
        Ok(data)
    }

    /// Skips the lines of the job language behind a universal exit, up to one that asks for PCL.
    fn skip_lines(&mut self, name: Name) -> Result<(), Refusal> {
        while self.rest.starts_with(b"@PJL") {
            let place = self.place();
            let feed = self.rest.iter().position(|&byte| byte == b'\n');
            let (line, rest) = self.rest.split_at(feed.map_or(self.rest.len(), |at| at + 1));
            let mut said: Vec<u8> = line.iter().copied().filter(|byte| !b" \t\r\n".contains(byte)).collect();
            said.make_ascii_uppercase();
            match said.strip_prefix(b"@PJLENTERLANGUAGE=") {
                Some(b"PCL") => {
                    self.rest = rest;
                    return Ok(());
                }
                Some(_) => return refused(Kind::NotPcl, place, name),
                None => self.rest = rest,
            }
        }
        Ok(())
    }

    /// A value field. Four decimals are kept, and a number out of range stays out of range.
    fn value(&mut self) -> Number {
        let (sign, mut rest) = match self.rest {
            [b'+', rest @ ..] => (Sign::Plus, rest),
            [b'-', rest @ ..] => (Sign::Minus, rest),
            rest => (Sign::Missing, rest),
        };
        let mut magnitude = 0;
        while let [digit @ b'0'..=b'9', after @ ..] = rest {
            magnitude = (magnitude * 10 + u32::from(digit - b'0')).min(1 << 20);
            rest = after;
        }
        let mut decimals = 0;
        if let [b'.', after @ ..] = rest {
            rest = after;
            let mut scale = 1000;
            while let [digit @ b'0'..=b'9', after @ ..] = rest {
                decimals += u32::from(digit - b'0') * scale;
                scale /= 10;
                rest = after;
            }
        }
        self.rest = rest;
        Number { sign, magnitude, decimals }
    }
}
