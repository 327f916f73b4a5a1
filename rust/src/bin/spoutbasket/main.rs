//! `spoutbasket`: sheets, chains and control figures for scripts. Everything that matters is decided by the proved library.
#![forbid(unsafe_code)]

mod args;
mod commands;
mod documents;
mod help;
mod input;
mod json;
mod kinds;
mod messages;
mod options;
mod output;
mod packed;
mod wanted;

use messages::Failure;
use std::ffi::OsString;
use std::process::ExitCode;

fn main() -> ExitCode {
    match dispatch(std::env::args_os().skip(1).collect()) {
        Ok(()) => ExitCode::SUCCESS,
        Err(failure) => {
            messages::say(&failure.line());
            ExitCode::from(failure.status())
        }
    }
}

/// Does what the first word says.
fn dispatch(mut words: Vec<OsString>) -> Result<(), Failure> {
    if words.is_empty() {
        return Err(wrong("a command is wanted"));
    }
    let rest = words.split_off(1);
    match words[0].to_str() {
        Some("--help" | "-h") => alone(&rest, help::OVERVIEW),
        Some("--version" | "-V") => alone(
            &rest,
            concat!("spoutbasket ", env!("CARGO_PKG_VERSION"), "\n"),
        ),
        Some("help") => show_help(&rest),
        Some(name) => match commands::ALL
            .iter()
            .find(|command| command.form.name == name)
        {
            Some(command) if asks_for_help(&rest) => show(command.form.name),
            Some(command) => command.run(rest),
            None if name.starts_with('-') => Err(wrong(&args::unknown(&words[0]))),
            None => Err(wrong("no such command")),
        },
        None => Err(wrong("no such command")),
    }
}

/// A text that is asked for without any word more.
fn alone(rest: &[OsString], text: &str) -> Result<(), Failure> {
    match rest {
        [] => output::print(text.as_bytes()),
        _ => Err(wrong("too many words")),
    }
}

fn show_help(words: &[OsString]) -> Result<(), Failure> {
    match words {
        [] => output::print(help::OVERVIEW.as_bytes()),
        [name] => show(&name.to_string_lossy()),
        _ => Err(wrong("too many words")),
    }
}

fn show(name: &str) -> Result<(), Failure> {
    match help::COMMANDS.iter().find(|(known, _)| *known == name) {
        Some((_, text)) => output::print(text.as_bytes()),
        None => Err(wrong("no such command")),
    }
}

/// Whether `--help` is among the options.
fn asks_for_help(words: &[OsString]) -> bool {
    let mut options = words.iter().take_while(|word| *word != "--");
    options.any(|word| word == "--help" || word == "-h")
}

fn wrong(why: &str) -> Failure {
    Failure::Usage(format!("{why}; see `spoutbasket --help`"))
}
