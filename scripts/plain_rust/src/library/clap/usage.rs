//! The usage and the help.
use super::{Arg, Command};
use crate::library::{AllocError, String};

/// `Usage: ..`, for the flag that was meant where there is one.
pub(super) fn with_title(command: &Command, meant: Option<&Arg>) -> Result<String, AllocError> {
    let mut text = String::from_str(command.alloc, "Usage: ")?;
    if let Some(usage) = command.usage {
        text.push_str(usage)?;
        return Ok(text);
    }
    if let Some(above) = command.above {
        text.push_str(above)?;
        text.push_str(" ")?;
    }
    text.push_str(command.name)?;
    if let Some(meant) = meant {
        text.push_str(" ")?;
        text.push_str(&meant.shown(command.alloc)?)?;
    }
    if !command.subcommands.is_empty() {
        text.push_str(" <COMMAND>")?;
    }
    Ok(text)
}

/// The help of a command that has commands under it.
pub(super) fn help(command: &Command) -> Result<String, AllocError> {
    let mut text = with_title(command, None)?;
    text.push_str("\n\nCommands:\n")?;
    let names = command.subcommands.iter().map(|known| known.name.len());
    let width = names.max().unwrap_or(0);
    for known in &command.subcommands {
        let row = format_in!(command.alloc; "  {:width$}  {}\n", known.name, known.about)?;
        text.push_str(&row)?;
    }
    text.push_str("\nOptions:\n  -h, --help     Print help\n")?;
    if command.has_version {
        text.push_str("  -V, --version  Print version\n")?;
    }
    Ok(text)
}
