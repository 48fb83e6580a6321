//! The walk over the words.
use super::error::{Error, ErrorKind};
use super::matches::{ArgMatches, Found};
use super::{refusals, Arg, ArgAction, Command};
use crate::library::{AllocError, Vec};

/// What the words say to a command, and to the one under it that they name.
pub(super) fn read<'a>(command: &Command<'a>, words: &[&'a str]) -> Result<ArgMatches<'a>, Error> {
    let mut reader = Reader {
        command,
        found: Vec::new(command.alloc),
        waiting: None,
        place: 0,
        is_trailing: false,
    };
    let mut below = Vec::new(command.alloc);
    for (number, word) in words.iter().enumerate() {
        let rest = &words[number + 1..];
        if let Some(named) = reader.subcommand(word) {
            below.push(read(named, rest)?)?;
            break;
        }
        reader.take(word, rest)?;
    }
    reader.end(below.is_empty())?;
    Ok(ArgMatches {
        name: command.name,
        found: reader.found,
        below,
    })
}

struct Reader<'c, 'a> {
    command: &'c Command<'a>,
    found: Vec<Found<'a>>,
    /// The argument of which values were read, and these: what becomes of them is known at its end.
    waiting: Option<(&'c Arg<'a>, Vec<&'a str>)>,
    /// The place of the argument that takes the next word.
    place: usize,
    /// A `--` was read.
    is_trailing: bool,
}

impl<'c, 'a> Reader<'c, 'a> {
    fn subcommand(&self, word: &str) -> Option<&'c Command<'a>> {
        match self.is_trailing {
            true => None,
            false => self.command.find_subcommand(word),
        }
    }

    fn take(&mut self, word: &'a str, rest: &[&str]) -> Result<(), Error> {
        if self.is_trailing {
            return self.take_value(word);
        }
        if word == "--" {
            self.is_trailing = true;
            return Ok(());
        }
        match (word.strip_prefix("--"), word.strip_prefix('-')) {
            (Some(long), _) => self.take_long(long, rest),
            (None, Some("")) | (None, None) => self.take_value(word),
            (None, Some(shorts)) => self.take_shorts(shorts),
        }
    }

    fn take_long(&mut self, long: &'a str, rest: &[&str]) -> Result<(), Error> {
        let (name, value) = match long.split_once('=') {
            Some((name, value)) => (name, Some(value)),
            None => (long, None),
        };
        let flag = self.command.args.iter().find(|arg| arg.long == Some(name));
        let Some(flag) = flag else {
            self.settle_anyway()?;
            return Err(refusals::unknown_long(self.command, name, rest)?);
        };
        if flag.is_option() {
            return self.take_option(flag, value);
        }
        if let Some(value) = value {
            self.settle_anyway()?;
            return Err(refusals::too_many(self.command, flag, value)?);
        }
        self.take_flag(flag)
    }

    /// Takes an option, whose word is this, or else the next one.
    fn take_option(&mut self, option: &'c Arg<'a>, value: Option<&'a str>) -> Result<(), Error> {
        self.settle()?;
        let mut values = Vec::new(self.command.alloc);
        if let Some(value) = value {
            values.push(value)?;
        }
        self.waiting = Some((option, values));
        Ok(())
    }

    fn take_shorts(&mut self, shorts: &str) -> Result<(), Error> {
        for short in shorts.chars() {
            let flag = self.command.args.iter().find(|arg| arg.short == Some(short));
            let Some(flag) = flag else {
                self.settle_anyway()?;
                return Err(refusals::unknown_short(self.command, short)?);
            };
            self.take_flag(flag)?;
        }
        Ok(())
    }

    fn take_flag(&mut self, flag: &'c Arg<'a>) -> Result<(), Error> {
        self.settle()?;
        match flag.action {
            ArgAction::Help => return Err(Error::bare(ErrorKind::DisplayHelp)),
            ArgAction::Version => return Err(Error::bare(ErrorKind::DisplayVersion)),
            _ => {}
        }
        if self.found.iter().any(|known| known.name == flag.name) {
            return Err(refusals::repeated(self.command, flag)?);
        }
        let mut values = Vec::new(self.command.alloc);
        values.push("true")?;
        self.found.push(Found {
            name: flag.name,
            values,
        })?;
        Ok(())
    }

    fn take_value(&mut self, word: &'a str) -> Result<(), Error> {
        if let Some((option, values)) = &mut self.waiting {
            if option.is_option() && values.is_empty() && !self.is_trailing {
                values.push(word)?;
                return Ok(());
            }
        }
        let Some(arg) = self.command.at_place(self.place) else {
            self.settle_anyway()?;
            return Err(refusals::unknown_word(self.command, word, self.is_trailing)?);
        };
        match &mut self.waiting {
            Some((waiting, values)) if waiting.name == arg.name && arg.takes_several() => {
                values.push(word)?;
            }
            _ => {
                self.settle()?;
                let mut values = Vec::new(self.command.alloc);
                values.push(word)?;
                self.waiting = Some((arg, values));
            }
        }
        if !arg.takes_several() {
            self.place += 1;
        }
        Ok(())
    }

    /// Takes the values that wait.
    fn settle(&mut self) -> Result<(), Error> {
        let Some((arg, values)) = self.waiting.take() else {
            return Ok(());
        };
        if values.len() > arg.most {
            let last = values.last().copied().unwrap_or("");
            return Err(refusals::too_many(self.command, arg, last)?);
        }
        if values.is_empty() {
            return Err(refusals::no_value(self.command, arg)?);
        }
        let known = self.found.iter().position(|known| known.name == arg.name);
        match known {
            Some(_) if arg.is_option() && arg.action == ArgAction::Set => {
                return Err(refusals::repeated(self.command, arg)?);
            }
            Some(number) => self.found[number].values.extend_from_slice(&values)?,
            None => self.found.push(Found {
                name: arg.name,
                values,
            })?,
        }
        Ok(())
    }

    /// Takes them before another fault is told: of what is wrong with them only want of memory is.
    fn settle_anyway(&mut self) -> Result<(), AllocError> {
        match self.settle() {
            Err(error) if error.kind == ErrorKind::OutOfMemory => Err(AllocError),
            _ => Ok(()),
        }
    }

    /// Ends the walk: what is required must be there.
    fn end(&mut self, is_alone: bool) -> Result<(), Error> {
        self.settle()?;
        let command = self.command;
        if is_alone && !command.subcommands.is_empty() {
            return Err(refusals::wordless(command)?);
        }
        let mut missing = Vec::new(command.alloc);
        for arg in command.args.iter().filter(|arg| arg.required) {
            if !self.found.iter().any(|known| known.name == arg.name) {
                missing.push(arg)?;
            }
        }
        if !missing.is_empty() {
            return Err(refusals::missing(command, &missing)?);
        }
        Ok(())
    }
}
