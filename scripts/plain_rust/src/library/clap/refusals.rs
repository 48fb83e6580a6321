//! The texts of what is said of words that aren't understood.
use super::error::{Error, ErrorKind};
use super::{usage, Arg, Command};
use crate::library::{jaro, AllocError, Global, String, Vec};

/// An error that says this, and the usage.
fn told(
    command: &Command,
    kind: ErrorKind,
    what: &str,
    meant: Option<&Arg>,
) -> Result<Error, AllocError> {
    let usage = usage::with_title(command, meant)?;
    let text = format_in!(command.alloc;
        "error: {what}\n\n{}\n\nFor more information, try '--help'.\n", usage.as_str())?;
    Ok(Error {
        kind,
        text: Some(text),
    })
}

/// Puts a name among those that are near a word, from the worst to the best.
fn add_near<'a>(
    alloc: Global,
    near: &mut Vec<(f64, &'a str)>,
    word: &str,
    name: &'a str,
) -> Result<(), AllocError> {
    let likeness = jaro(alloc, word, name)?;
    if likeness > 0.7 {
        let place = near.iter().filter(|known| known.0 <= likeness).count();
        near.push((likeness, name))?;
        near[place..].rotate_right(1);
    }
    Ok(())
}

/// The name of the flag of a command that is nearest to a word.
fn near_flag<'a>(command: &Command<'a>, word: &str) -> Result<Option<&'a str>, AllocError> {
    let mut near = Vec::new(command.alloc);
    for long in command.args.iter().filter_map(|arg| arg.long) {
        add_near(command.alloc, &mut near, word, long)?;
    }
    Ok(near.last().map(|best| best.1))
}

/// The flag near a word that a command further on has, and that command: the one that comes first.
fn near_flag_below<'a>(
    command: &Command<'a>,
    word: &str,
    rest: &[&str],
) -> Result<Option<(&'a str, &'a str)>, AllocError> {
    let mut best = None;
    let mut first = usize::MAX;
    for below in &command.subcommands {
        let place = rest.iter().position(|other| *other == below.name);
        if let (Some(flag), Some(place)) = (near_flag(below, word)?, place) {
            if place < first {
                first = place;
                best = Some((flag, below.name));
            }
        }
    }
    Ok(best)
}

/// No flag has this long name; `rest` are the words after it.
pub(super) fn unknown_long(
    command: &Command,
    name: &str,
    rest: &[&str],
) -> Result<Error, AllocError> {
    let alloc = command.alloc;
    let kind = ErrorKind::UnknownArgument;
    let mut text = format_in!(alloc; "unexpected argument '--{name}' found")?;
    if let Some(flag) = near_flag(command, name)? {
        let meant = command.args.iter().find(|arg| arg.long == Some(flag));
        text.push_str(&format_in!(alloc; "\n\n  tip: a similar argument exists: '--{flag}'")?)?;
        return told(command, kind, &text, meant);
    }
    if let Some((flag, below)) = near_flag_below(command, name, rest)? {
        text.push_str(&format_in!(alloc; "\n\n  tip: '{below} --{flag}' exists")?)?;
    } else if command.has_places() {
        push_tip(alloc, &mut text, "--", name)?;
    }
    told(command, kind, &text, None)
}

/// No flag has this short name.
pub(super) fn unknown_short(command: &Command, name: char) -> Result<Error, AllocError> {
    let mut text = format_in!(command.alloc; "unexpected argument '-{name}' found")?;
    if command.has_places() {
        let mut bytes = [0; 4];
        push_tip(command.alloc, &mut text, "-", name.encode_utf8(&mut bytes))?;
    }
    told(command, ErrorKind::UnknownArgument, &text, None)
}

/// The advice to pass an unknown flag as a value.
fn push_tip(alloc: Global, text: &mut String, dashes: &str, name: &str) -> Result<(), AllocError> {
    let flag = format_in!(alloc; "{dashes}{name}")?;
    let flag = flag.as_str();
    text.push_str(&format_in!(alloc;
        "\n\n  tip: to pass '{flag}' as a value, use '-- {flag}'")?)
}

/// A word that is neither a flag nor a value nor a command.
pub(super) fn unknown_word(
    command: &Command,
    word: &str,
    is_trailing: bool,
) -> Result<Error, AllocError> {
    let alloc = command.alloc;
    if is_trailing && command.find_subcommand(word).is_some() {
        let text = format_in!(alloc; "unexpected argument '{word}' found\n\n  tip: subcommand \
            '{word}' exists; to use it, remove the '--' before it")?;
        return told(command, ErrorKind::UnknownArgument, &text, None);
    }
    if command.subcommands.is_empty() {
        let text = format_in!(alloc; "unexpected argument '{word}' found")?;
        return told(command, ErrorKind::UnknownArgument, &text, None);
    }
    let mut text = format_in!(alloc; "unrecognized subcommand '{word}'")?;
    push_near_commands(command, &mut text, word)?;
    told(command, ErrorKind::InvalidSubcommand, &text, None)
}

/// The names of commands that are near a word.
fn push_near_commands(
    command: &Command,
    text: &mut String,
    word: &str,
) -> Result<(), AllocError> {
    let mut near = Vec::new(command.alloc);
    for below in &command.subcommands {
        add_near(command.alloc, &mut near, word, below.name)?;
    }
    match near.len() {
        0 => return Ok(()),
        1 => text.push_str("\n\n  tip: a similar subcommand exists: ")?,
        _ => text.push_str("\n\n  tip: some similar subcommands exist: ")?,
    }
    for (number, (_, name)) in near.iter().enumerate() {
        let between = if number > 0 { ", " } else { "" };
        text.push_str(&format_in!(command.alloc; "{between}'{name}'")?)?;
    }
    Ok(())
}

/// A value too many, of an argument or a flag.
pub(super) fn too_many(
    command: &Command,
    arg: &Arg,
    value: &str,
) -> Result<Error, AllocError> {
    let shown = arg.shown(command.alloc)?;
    let text = format_in!(command.alloc;
        "unexpected value '{value}' for '{}' found; no more were expected", shown.as_str())?;
    let meant = arg.long.is_some().then_some(arg);
    told(command, ErrorKind::TooManyValues, &text, meant)
}

/// An option with no word behind it.
pub(super) fn no_value(command: &Command, arg: &Arg) -> Result<Error, AllocError> {
    let shown = arg.shown(command.alloc)?;
    let text = format_in!(command.alloc;
        "error: a value is required for '{}' but none was supplied\n\n\
        For more information, try '--help'.\n", shown.as_str())?;
    Ok(Error {
        kind: ErrorKind::InvalidValue,
        text: Some(text),
    })
}

/// A flag or an option that is given twice.
pub(super) fn repeated(command: &Command, arg: &Arg) -> Result<Error, AllocError> {
    let shown = arg.shown(command.alloc)?;
    let text = format_in!(command.alloc;
        "the argument '{}' cannot be used multiple times", shown.as_str())?;
    told(command, ErrorKind::ArgumentConflict, &text, None)
}

/// What these arguments want isn't given.
pub(super) fn missing(command: &Command, args: &[&Arg]) -> Result<Error, AllocError> {
    let mut text = String::from_str(
        command.alloc,
        "the following required arguments were not provided:",
    )?;
    for arg in args {
        text.push_str("\n  ")?;
        text.push_str(&arg.shown(command.alloc)?)?;
    }
    told(command, ErrorKind::MissingRequiredArgument, &text, None)
}

/// The help, where there is no word.
pub(super) fn wordless(command: &Command) -> Result<Error, AllocError> {
    Ok(Error {
        kind: ErrorKind::DisplayHelpOnMissingArgumentOrSubcommand,
        text: Some(usage::help(command)?),
    })
}
