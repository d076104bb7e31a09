//! Macros: their definitions, and those that run.

use crate::commands::Command;
use crate::commands::Operation::{MacroControl, Reset, UniversalExit};
use crate::refusals::Kind;
use crate::settings::Settings;
use std::collections::HashMap;
use std::ops::Range;

const MOST_RUNNING: usize = 3;

#[derive(Default)]
pub struct Macros<'a> {
    /// The commands of all definitions, one behind the other. It only grows, so that what runs isn't changed.
    kept: Vec<Command<'a>>,
    by_id: HashMap<u32, Macro>,
    open: Option<Definition>,
    /// The macros that run, the innermost last.
    running: Vec<Frame>,
}

struct Macro {
    commands: Range<usize>,
    is_permanent: bool,
}

/// A definition that is open.
struct Definition {
    id: u32,
    start: usize,
}

struct Frame {
    left: Range<usize>,
    /// What a call puts back.
    saved: Option<Settings>,
}

/// What comes next where macros run.
pub enum Step<'a> {
    Perform(Command<'a>),
    /// A macro ends, and what is given is put back.
    End(Option<Settings>),
}

impl<'a> Macros<'a> {
    pub fn is_defining(&self) -> bool {
        self.open.is_some()
    }

    /// Keeps a command for the definition that is open. Answers no where it ends the definition, and so is performed.
    pub fn keep(&mut self, command: &Command<'a>) -> Result<bool, Kind> {
        match (command.operation, command.value.whole()) {
            (Reset | UniversalExit, _) => Err(Kind::MacroOpen),
            (MacroControl, 1) => Ok(false),
            (MacroControl, control) if !matches!(control, 2 | 3) => Err(Kind::MacroControl),
            _ => {
                self.kept.push(*command);
                Ok(true)
            }
        }
    }

    pub fn begin(&mut self, id: u32) {
        let start = self.kept.len();
        self.open = Some(Definition { id, start });
    }

    pub fn end(&mut self) -> Result<(), Kind> {
        let Definition { id, start } = self.open.take().ok_or(Kind::MacroControl)?;
        let commands = start..self.kept.len();
        let is_permanent = false;
        self.by_id.insert(id, Macro { commands, is_permanent });
        Ok(())
    }

    /// Begins to run a macro, if it is there; its commands come as the next steps.
    pub fn run(&mut self, id: u32, saved: Option<Settings>) -> Result<(), Kind> {
        if let Some(found) = self.by_id.get(&id) {
            if self.running.len() == MOST_RUNNING {
                return Err(Kind::MacroDepth);
            }
            let left = found.commands.clone();
            self.running.push(Frame { left, saved });
        }
        Ok(())
    }

    /// The next step, none where no macro runs. The last command of a macro is performed before its end comes.
    pub fn step(&mut self) -> Option<Step<'a>> {
        let frame = self.running.last_mut()?;
        match frame.left.next() {
            Some(place) => Some(Step::Perform(self.kept[place])),
            None => self.running.pop().map(|frame| Step::End(frame.saved)),
        }
    }

    pub fn delete_all(&mut self) {
        self.by_id.clear();
    }

    pub fn delete_temporary(&mut self) {
        self.by_id.retain(|_, found| found.is_permanent);
    }

    pub fn delete(&mut self, id: u32) {
        self.by_id.remove(&id);
    }

    pub fn set_permanent(&mut self, id: u32, is_permanent: bool) {
        if let Some(found) = self.by_id.get_mut(&id) {
            found.is_permanent = is_permanent;
        }
    }
}
