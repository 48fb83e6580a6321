//! The words of the command line, read and refused as the kit's `clap` does it, as far as the
//! program asks for it: commands with positional arguments, flags, and options with a word behind
//! them.
pub mod error;
mod matches;
mod reader;
mod refusals;
mod usage;

pub use error::Error;
pub use matches::ArgMatches;

use super::{AllocError, Global, String, Vec};
use std::ops::{RangeFrom, RangeInclusive};

/// What becomes of an argument's value.
#[derive(Clone, Copy, PartialEq, Eq)]
pub enum ArgAction {
    /// There is one.
    Set,
    /// Each is added to those before.
    Append,
    /// It is that the flag is given.
    SetTrue,
    /// The help is asked for.
    Help,
    /// The version is asked for.
    Version,
}

/// How many values an argument takes.
pub trait Count {
    fn bounds(self) -> (usize, usize);
}

impl Count for RangeFrom<usize> {
    fn bounds(self) -> (usize, usize) {
        (self.start, usize::MAX)
    }
}

impl Count for RangeInclusive<usize> {
    fn bounds(self) -> (usize, usize) {
        self.into_inner()
    }
}

/// An argument: a flag or an option where it has a long name, else one by its place.
pub struct Arg<'a> {
    name: &'a str,
    long: Option<&'a str>,
    short: Option<char>,
    required: bool,
    least: usize,
    most: usize,
    action: ArgAction,
}

impl<'a> Arg<'a> {
    pub fn new(_: Global, name: &'a str) -> Arg<'a> {
        Arg {
            name,
            long: None,
            short: None,
            required: false,
            least: 1,
            most: 1,
            action: ArgAction::Set,
        }
    }

    pub fn required(mut self, yes: bool) -> Arg<'a> {
        self.required = yes;
        self
    }

    pub fn num_args(mut self, count: impl Count) -> Arg<'a> {
        (self.least, self.most) = count.bounds();
        self
    }

    pub fn action(mut self, action: ArgAction) -> Arg<'a> {
        self.action = action;
        self
    }

    pub fn long(mut self, long: &'a str) -> Arg<'a> {
        self.long = Some(long);
        self
    }

    /// Whether several words in a row are values of it.
    fn takes_several(&self) -> bool {
        self.least != self.most
    }

    /// Whether it is an option with a word behind it.
    fn is_option(&self) -> bool {
        let takes_word = matches!(self.action, ArgAction::Set | ArgAction::Append);
        self.long.is_some() && takes_word
    }

    /// How usage and errors name it.
    fn shown(&self, alloc: Global) -> Result<String, AllocError> {
        if let Some(long) = self.long {
            return match self.is_option() {
                true => format_in!(alloc; "--{long} <{}>", self.name),
                false => format_in!(alloc; "--{long}"),
            };
        }
        let more = match self.action == ArgAction::Append {
            true => "...",
            false => "",
        };
        match self.required {
            true => format_in!(alloc; "<{}>{more}", self.name),
            false => format_in!(alloc; "[{}]{more}", self.name),
        }
    }
}

/// A command, with its arguments and the commands under it.
pub struct Command<'a> {
    alloc: Global,
    name: &'a str,
    above: Option<&'a str>,
    about: &'a str,
    usage: Option<&'a str>,
    has_version: bool,
    args: Vec<Arg<'a>>,
    subcommands: Vec<Command<'a>>,
}

impl<'a> Command<'a> {
    pub fn new(alloc: Global, name: &'a str) -> Command<'a> {
        Command {
            alloc,
            name,
            above: None,
            about: "",
            usage: None,
            has_version: false,
            args: Vec::new(alloc),
            subcommands: Vec::new(alloc),
        }
    }

    pub fn about(mut self, about: &'a str) -> Command<'a> {
        self.about = about;
        self
    }

    pub fn override_usage(mut self, usage: &'a str) -> Command<'a> {
        self.usage = Some(usage);
        self
    }

    pub fn version(mut self, _version: &'a str) -> Command<'a> {
        self.has_version = true;
        self
    }

    /// As the program asks for it: `help` is a command of its own.
    pub fn disable_help_subcommand(self, _yes: bool) -> Command<'a> {
        self
    }

    /// As the program asks for it: a command that has commands under it requires one.
    pub fn subcommand_required(self, _yes: bool) -> Command<'a> {
        self
    }

    /// As the program asks for it: and it prints its help where there is no word.
    pub fn arg_required_else_help(self, _yes: bool) -> Command<'a> {
        self
    }

    /// As the program asks for it: its name.
    pub fn bin_name(self, _name: &'a str) -> Result<Command<'a>, AllocError> {
        Ok(self)
    }

    pub fn arg(mut self, arg: Arg<'a>) -> Result<Command<'a>, AllocError> {
        self.args.push(arg)?;
        Ok(self)
    }

    pub fn subcommand(mut self, mut subcommand: Command<'a>) -> Result<Command<'a>, AllocError> {
        subcommand.above = Some(self.name);
        self.subcommands.push(subcommand)?;
        Ok(self)
    }

    pub fn get_name(&self) -> &'a str {
        self.name
    }

    pub fn find_subcommand(&self, name: &str) -> Option<&Command<'a>> {
        self.subcommands.iter().find(|known| known.name == name)
    }

    /// Reads the words, of which the first is the program's name.
    pub fn try_get_matches_from_mut(
        &mut self,
        words: &'a [&'a str],
    ) -> Result<ArgMatches<'a>, Error> {
        self.build()?;
        reader::read(self, words.get(1..).unwrap_or(&[]))
    }

    pub fn render_usage(&mut self) -> Result<String, AllocError> {
        self.build()?;
        usage::with_title(self, None)
    }

    /// Adds the flags that each command has.
    fn build(&mut self) -> Result<(), AllocError> {
        if self.args.iter().any(|known| known.action == ArgAction::Help) {
            return Ok(());
        }
        let mut help = Arg::new(self.alloc, "help").long("help").action(ArgAction::Help);
        help.short = Some('h');
        self.args.push(help)?;
        if self.has_version {
            let mut version = Arg::new(self.alloc, "version").long("version");
            version.short = Some('V');
            self.args.push(version.action(ArgAction::Version))?;
        }
        for subcommand in self.subcommands.as_mut_slice() {
            subcommand.build()?;
        }
        Ok(())
    }

    /// The argument with this place among those that are no flags.
    fn at_place(&self, place: usize) -> Option<&Arg<'a>> {
        self.args.iter().filter(|arg| arg.long.is_none()).nth(place)
    }

    fn has_places(&self) -> bool {
        self.at_place(0).is_some()
    }
}
