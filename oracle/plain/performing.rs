//! Performing: the commands of a job in turn, on the bitmap of a page.

use crate::bitmap::Bitmap;
use crate::commands::{Axis, Command, Measure, Number, Operation, Profile, Slot};
use crate::fonts::{Font, Glyph};
use crate::macros::{Macros, Step};
use crate::raster::Raster;
use crate::reading::Reader;
use crate::refusals::{Kind, Name, Refusal};
use crate::settings::{Cursor, Settings, Size};
use std::collections::HashMap;

const COMMAND_LIMIT: u32 = 100_000_000;
const PAGE_LIMIT: usize = 256;
const GREATEST_ID: u32 = 32767;

/// What becomes of the pages.
pub enum Task<'a> {
    /// The page of this number, from 1, is kept.
    Preview { wanted: usize, kept: Option<Bitmap> },
    /// Each is written again, behind these bytes.
    Rewrite(Vec<u8>),
    /// Each is shown to this, with its copies.
    Visit(&'a mut dyn FnMut(&Bitmap, u32)),
}

/// What came of a job: how many pages it has, and the task with them.
pub struct Done<'a> {
    pub pages: usize,
    pub task: Task<'a>,
}

/// Performs a job as it is read. A fault of the reading comes before every refusal of the performing.
pub fn perform<'a>(job: &'a [u8], task: Task<'a>, dpi: u32, profile: Profile) -> Result<Done<'a>, Refusal> {
    let mut performer = Performer::new(task, dpi, profile);
    let mut reader = Reader::new(job, profile);
    loop {
        match reader.next_command() {
            // Borrowed where the reader leaves it: to move each command would take a part of the time that a row takes.
            Ok(Some(ref command)) => {
                if let Err(refusal) = performer.perform(command) {
                    return Err(reader.read_out().err().unwrap_or(refusal));
                }
            }
            Ok(None) => break,
            Err(fault) => return Err(fault),
        }
    }
    performer.end().map_err(|kind| Refusal {
        kind,
        place: job.len(),
        name: Name::EMPTY,
    })
}

struct Performer<'a> {
    dpi: u32,
    profile: Profile,
    task: Task<'a>,
    settings: Settings,
    cursor: Cursor,
    fonts: HashMap<u32, Font<'a>>,
    macros: Macros<'a>,
    raster: Option<Raster>,
    bitmap: Bitmap,
    is_marked: bool,
    ejected: usize,
    performed: u32,
}

impl<'a> Performer<'a> {
    fn new(task: Task<'a>, dpi: u32, profile: Profile) -> Performer<'a> {
        Performer {
            dpi,
            profile,
            task,
            settings: Settings::DEFAULTS,
            cursor: Cursor::new(),
            fonts: HashMap::new(),
            macros: Macros::default(),
            raster: None,
            bitmap: Bitmap::new(Size::Letter, dpi),
            is_marked: false,
            ejected: 0,
            performed: 0,
        }
    }

    /// Performs a command of the job, and those of the macros that it runs.
    fn perform(&mut self, command: &Command<'a>) -> Result<(), Refusal> {
        self.perform_one(command)?;
        while let Some(step) = self.macros.step() {
            match step {
                Step::Perform(command) => self.perform_one(&command)?,
                Step::End(saved) => self.put_back(saved),
            }
        }
        Ok(())
    }

    /// What is done at the end of the job.
    fn end(mut self) -> Result<Done<'a>, Kind> {
        if self.macros.is_defining() {
            return Err(Kind::MacroOpen);
        }
        self.end_raster();
        self.eject_marked()?;
        Ok(Done {
            pages: self.ejected,
            task: self.task,
        })
    }

    fn perform_one(&mut self, command: &Command<'a>) -> Result<(), Refusal> {
        self.keep_or_act(command).map_err(|kind| command.refused(kind))
    }

    fn keep_or_act(&mut self, command: &Command<'a>) -> Result<(), Kind> {
        if self.macros.is_defining() && self.macros.keep(command)? {
            return Ok(());
        }
        if self.performed == COMMAND_LIMIT {
            return Err(Kind::TooManyCommands);
        }
        self.performed += 1;
        use Operation::*;
        match command.operation {
            Resolution | Presentation | RasterWidth | RasterHeight | StartRaster if self.raster.is_some() => return Ok(()),
            Method | SeedRowSource | SkipRows | Row => {}
            _ => self.end_raster(),
        }
        self.act(command)
    }

    fn act(&mut self, command: &Command<'a>) -> Result<(), Kind> {
        let Command {
            operation, value, data, ..
        } = *command;
        let settings = &mut self.settings;
        match operation {
            Operation::Row => self.send_row(data),
            Operation::SkipRows => {
                let count = value.count()?;
                if let Some(raster) = &mut self.raster {
                    raster.skip(count as usize);
                }
            }
            Operation::SeedRowSource => drop(value.taken(|source| source == 0)?),
            Operation::Method => settings.method = value.taken(|method| method <= 3)?,

            Operation::Print => self.print(data)?,
            Operation::Move(axis, measure) => self.move_cursor(axis, measure, value),
            Operation::UseFont(slot) => settings.in_use = slot,
            Operation::SelectFont(slot) => self.select_font(slot, value.count()?),
            Operation::FontId => settings.font_id = value.taken(|id| id <= GREATEST_ID)?,
            Operation::CharacterCode => settings.code = value.taken(|code| code <= 255)? as u8,
            Operation::FontControl => self.control_fonts(value.count()?)?,
            Operation::FontHeader if !data.is_empty() => {
                let font = Font::read(data, self.dpi, self.profile).ok_or(Kind::FontHeader)?;
                self.fonts.insert(settings.font_id, font);
            }
            Operation::Character if !data.is_empty() => {
                if let Some(font) = self.fonts.get_mut(&settings.font_id) {
                    let glyph = Glyph::read(data, self.profile).ok_or(Kind::CharacterData)?;
                    font.glyphs[usize::from(settings.code)] = Some(glyph);
                }
            }
            Operation::FontHeader | Operation::Character => {}

            Operation::CarriageReturn => {
                self.cursor.move_x(settings.left_margin);
                if settings.return_feeds() {
                    self.feed(self.settings.line_height)?;
                }
            }
            Operation::LineFeed => {
                self.return_before_feed();
                self.feed(self.settings.line_height)?;
            }
            Operation::HalfLineFeed => self.feed(self.settings.line_height / 2)?,
            Operation::FormFeed => {
                self.return_before_feed();
                self.eject()?;
            }
            Operation::Tab => self.tab(),
            Operation::CursorStack => match value.count()? {
                0 => self.cursor.push(),
                1 => self.cursor.pop(),
                _ => return Err(Kind::UnsupportedValue),
            },

            Operation::RectangleSide(axis, measure) => {
                value.count()?;
                settings.rectangle[axis as usize] = value.times(settings.unit(axis, measure));
            }
            Operation::FillRectangle => {
                let ink = value.taken(|ink| matches!(ink, 0 | 1 | 5))?;
                self.fill(ink != 1);
            }

            Operation::Resolution => {
                let is_taken = |dpi| matches!(dpi, 75 | 100 | 150 | 300) || self.dpi == 600 && matches!(dpi, 200 | 600);
                settings.resolution = value.taken(is_taken)?;
            }
            Operation::RasterWidth => settings.raster_width = Some(value.count()? as usize).filter(|&width| width > 0),
            Operation::RasterHeight => settings.raster_height = Some(value.count()? as usize).filter(|&height| height > 0),
            Operation::Presentation => drop(value.taken(|way| matches!(way, 0 | 3))?),
            Operation::StartRaster => {
                let at_cursor = value.taken(|start| start <= 1)? == 1;
                let x = if at_cursor { self.cursor.x } else { 0 };
                self.raster = Some(self.raster_from(x));
            }
            Operation::EndRaster => {}
            Operation::EndRasterAndMethod => settings.method = 0,

            Operation::Copies => settings.copies = value.taken(|copies| matches!(copies, 1..=99))?,
            Operation::PageSize => self.set_size(value)?,
            Operation::EjectMarked => self.eject_marked()?,
            Operation::Offset(axis) => self.set_offset(axis, value)?,
            Operation::Reset => self.reset()?,
            Operation::UniversalExit if value.whole() == -12345 => self.reset()?,
            Operation::UniversalExit => return Err(Kind::UnsupportedValue),

            Operation::UnitOfMeasure => settings.pcl_unit = 7200 / u64::from(value.taken(is_unit_of_measure)?),
            Operation::ColumnWidth => {
                value.count()?;
                settings.column_width = value.times(60);
            }
            Operation::LineHeight => {
                value.count()?;
                settings.line_height = value.times(150);
            }
            Operation::LinesPerInch => {
                let lines = value.taken(|lines| matches!(lines, 1..=4 | 6 | 8 | 12 | 16 | 24 | 48))?;
                settings.line_height = 7200 / u64::from(lines);
            }
            Operation::TopMargin => self.set_top_margin(value.count()?),
            Operation::TextLength => {
                let lines = value.taken(|lines| lines >= 1)?;
                let bottom = settings.top_margin + u64::from(lines) * settings.line_height;
                if bottom <= self.cursor.size.units_high() {
                    settings.bottom = bottom;
                }
            }
            Operation::PerforationSkip => settings.skips_perforation = value.taken(|skip| skip <= 1)? == 1,
            Operation::LeftMargin => {
                let left = u64::from(value.count()?) * settings.column_width;
                if left < self.cursor.size.units_wide() {
                    settings.left_margin = left;
                    self.cursor.x = self.cursor.x.max(left);
                }
            }
            Operation::ClearMargins => settings.left_margin = 0,
            Operation::LineTermination => settings.line_termination = value.taken(|way| way <= 3)?,

            Operation::MacroId => settings.macro_id = value.taken(|id| id <= GREATEST_ID)?,
            Operation::MacroControl => self.control_macros(value.count()?)?,

            Operation::OnlyZero => drop(value.taken(|only| only == 0)?),
            Operation::Nothing => {}
        }
        Ok(())
    }

    // ---- text

    /// Prints codes in the font that is selected and in use.
    fn print(&mut self, codes: &[u8]) -> Result<(), Kind> {
        let unit = self.unit();
        let settings = &self.settings;
        let font = settings.selected[settings.in_use as usize].and_then(|id| self.fonts.get(&id));
        if font.is_none() && codes.iter().any(|&code| code > 32) {
            return Err(Kind::NoFont);
        }
        for &code in codes {
            if let Some((font, glyph)) = font.and_then(|font| Some((font, font.glyph(code)?))) {
                let scale = font.scale(self.dpi);
                let left = (self.cursor.x / unit) as i64 + i64::from(glyph.left) * scale as i64;
                let top = (self.cursor.y / unit) as i64 - i64::from(glyph.top) * scale as i64;
                self.bitmap.paint_pattern(left, top, scale, glyph);
                self.is_marked = true;
                if font.is_proportional {
                    self.cursor.advance(i64::from(glyph.advance) * i64::from(font.quarter_dot()));
                } else {
                    self.cursor.advance(settings.column_width as i64);
                }
            } else if code == 32 {
                self.cursor.advance(settings.column_width as i64);
            }
        }
        Ok(())
    }

    fn control_fonts(&mut self, control: u32) -> Result<(), Kind> {
        let id = self.settings.font_id;
        match control {
            0 => self.fonts.clear(),
            1 => self.delete_temporary_fonts(),
            2 => drop(self.fonts.remove(&id)),
            3..=5 => {
                if let Some(font) = self.fonts.get_mut(&id) {
                    match control {
                        3 => font.glyphs[usize::from(self.settings.code)] = None,
                        _ => font.is_permanent = control == 5,
                    }
                }
            }
            _ => return Err(Kind::UnsupportedValue),
        }
        Ok(())
    }

    fn delete_temporary_fonts(&mut self) {
        self.fonts.retain(|_, font| font.is_permanent);
    }

    /// Selects a font, if it is there.
    fn select_font(&mut self, slot: Slot, id: u32) {
        if let Some(font) = self.fonts.get(&id) {
            self.settings.selected[slot as usize] = Some(id);
            self.settings.column_width = font.column_width();
        }
    }

    // ---- macros

    fn control_macros(&mut self, control: u32) -> Result<(), Kind> {
        let id = self.settings.macro_id;
        match control {
            0 => self.macros.begin(id),
            1 => self.macros.end()?,
            2 => self.macros.run(id, None)?,
            3 => self.macros.run(id, Some(self.settings))?,
            6 => self.macros.delete_all(),
            7 => self.macros.delete_temporary(),
            8 => self.macros.delete(id),
            9 | 10 => self.macros.set_permanent(id, control == 10),
            _ => return Err(Kind::UnsupportedValue),
        }
        Ok(())
    }

    /// What the end of a call puts back; the end of an execution puts back nothing.
    fn put_back(&mut self, saved: Option<Settings>) {
        if let Some(settings) = saved {
            self.end_raster();
            self.settings = settings;
        }
    }

    // ---- the cursor and the margins

    fn move_cursor(&mut self, axis: Axis, measure: Measure, value: Number) {
        let unit = self.settings.unit(axis, measure);
        match (axis, measure) {
            (Axis::X, _) => self.cursor.move_x(value.moved(0, self.cursor.x, unit)),
            (Axis::Y, Measure::Cell) => self.cursor.move_y(value.moved(self.settings.first_line(), self.cursor.y, unit)),
            (Axis::Y, _) => self.cursor.move_y(value.moved(self.settings.top_margin, self.cursor.y, unit)),
        }
    }

    fn return_before_feed(&mut self) {
        if self.settings.feed_returns() {
            self.cursor.move_x(self.settings.left_margin);
        }
    }

    /// Moves down, or ejects the page where the cursor would be below the limit.
    fn feed(&mut self, amount: u64) -> Result<(), Kind> {
        let lower_edge = self.cursor.size.units_high();
        let limit = if self.settings.skips_perforation {
            self.settings.bottom.min(lower_edge)
        } else {
            lower_edge
        };
        let y = self.cursor.y + amount;
        if y > limit {
            return self.eject();
        }
        self.cursor.y = y;
        Ok(())
    }

    fn tab(&mut self) {
        let left = self.settings.left_margin;
        let stops = 8 * self.settings.column_width;
        if self.cursor.x < left {
            self.cursor.move_x(left);
        } else if stops > 0 {
            self.cursor.move_x(left + ((self.cursor.x - left) / stops + 1) * stops);
        }
    }

    fn set_top_margin(&mut self, lines: u32) {
        let top = u64::from(lines) * self.settings.line_height;
        if top > self.cursor.size.units_high() {
            return;
        }
        self.settings.top_margin = top;
        self.settings.bottom = self.cursor.size.bottom();
        if !self.is_marked {
            self.go_to_first_line();
        }
    }

    fn go_to_first_line(&mut self) {
        self.cursor.move_y(self.settings.first_line());
    }

    // ---- pages

    fn set_size(&mut self, value: Number) -> Result<(), Kind> {
        let size = Size::with_code(value.count()?).ok_or(Kind::UnsupportedValue)?;
        self.eject_marked()?;
        self.cursor.size = size;
        self.settings.set_margins(size);
        self.cursor.x = 0;
        self.go_to_first_line();
        self.fit_bitmap();
        Ok(())
    }

    fn reset(&mut self) -> Result<(), Kind> {
        self.eject_marked()?;
        self.settings = Settings::DEFAULTS;
        self.cursor = Cursor::new();
        self.delete_temporary_fonts();
        self.macros.delete_temporary();
        self.fit_bitmap();
        Ok(())
    }

    /// Sets an offset. The marks of a page lie at one, so that a marked page keeps its own.
    fn set_offset(&mut self, axis: Axis, value: Number) -> Result<(), Kind> {
        let offset = value.unless_whole_part_is_zero();
        let stands = &mut self.settings.offsets[axis as usize];
        let is_taken = match self.profile {
            Profile::Stated => offset == 0,
            Profile::Drivers => !self.is_marked || offset == *stands,
        };
        if !is_taken {
            return Err(Kind::UnsupportedValue);
        }
        *stands = offset;
        Ok(())
    }

    /// Makes the bitmap of an unmarked page as large as the page.
    fn fit_bitmap(&mut self) {
        if self.bitmap.size != self.cursor.size {
            self.bitmap = Bitmap::new(self.cursor.size, self.dpi);
        }
    }

    fn eject_marked(&mut self) -> Result<(), Kind> {
        if self.is_marked { self.eject() } else { Ok(()) }
    }

    /// Ends the page: keeps it if it is the one that is wanted, or writes it again.
    fn eject(&mut self) -> Result<(), Kind> {
        if self.ejected == PAGE_LIMIT {
            return Err(Kind::TooManyPages);
        }
        self.ejected += 1;
        self.is_marked = false;
        self.go_to_first_line();
        match &mut self.task {
            Task::Preview { wanted, kept } if self.ejected == *wanted => {
                let white = Bitmap::new(self.bitmap.size, self.dpi);
                *kept = Some(std::mem::replace(&mut self.bitmap, white));
                return Ok(());
            }
            Task::Preview { .. } => {}
            Task::Rewrite(text) => self.bitmap.rewrite(self.dpi, self.settings.copies, text),
            Task::Visit(see) => see(&self.bitmap, self.settings.copies),
        }
        self.bitmap.clear();
        Ok(())
    }

    // ---- rectangles and rasters

    fn fill(&mut self, is_black: bool) {
        let (left, top) = (self.dot(self.cursor.x), self.dot(self.cursor.y));
        let [width, height] = self.settings.rectangle.map(|units| units.div_ceil(self.unit()) as usize);
        self.bitmap.fill(left, top, width, height, is_black);
        self.is_marked = true;
    }

    fn raster_from(&self, x: u64) -> Raster {
        let (left, top) = (self.dot(x), self.dot(self.cursor.y));
        Raster::start(left, top, self.dpi, self.bitmap.width, &self.settings)
    }

    fn send_row(&mut self, data: &[u8]) {
        if self.raster.is_none() {
            self.raster = Some(self.raster_from(0));
        }
        if let Some(raster) = &mut self.raster {
            raster.send(self.settings.method, data, &mut self.bitmap);
        }
        self.is_marked = true;
    }

    /// Puts the cursor below the raster's last row.
    fn end_raster(&mut self) {
        if let Some(raster) = self.raster.take() {
            let unit = self.unit();
            self.cursor.move_x(raster.left as u64 * unit);
            self.cursor.move_y(raster.below() as u64 * unit);
        }
    }

    /// The dot of a position.
    fn dot(&self, position: u64) -> usize {
        (position / self.unit()) as usize
    }

    /// The units in a dot.
    fn unit(&self) -> u64 {
        7200 / u64::from(self.dpi)
    }
}

/// Whether PCL units can be this many to an inch.
fn is_unit_of_measure(count: u32) -> bool {
    matches!(count, 96..=7200) && 7200 % count == 0
}
