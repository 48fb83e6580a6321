//! What was found in the words.
use crate::library::Vec;

/// The values of an argument.
pub(super) struct Found<'a> {
    pub(super) name: &'a str,
    pub(super) values: Vec<&'a str>,
}

/// What was found for a command: and for the one under it that the words name, in a list that has
/// that one alone.
pub struct ArgMatches<'a> {
    pub(super) name: &'a str,
    pub(super) found: Vec<Found<'a>>,
    pub(super) below: Vec<ArgMatches<'a>>,
}

impl<'a> ArgMatches<'a> {
    pub fn subcommand_matches(&self, name: &str) -> Option<&ArgMatches<'a>> {
        self.below.iter().find(|below| below.name == name)
    }

    /// The values of an argument, where there are any.
    pub fn get_strs(&self, name: &str) -> Option<&[&'a str]> {
        let found = self.found.iter().find(|found| found.name == name)?;
        Some(&found.values)
    }

    /// The first value of an argument, where there are any.
    pub fn get_str(&self, name: &str) -> Option<&'a str> {
        self.get_strs(name)?.first().copied()
    }
}
