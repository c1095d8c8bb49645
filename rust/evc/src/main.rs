//! `evc`: predicts, replays and flips pictures with the proved calls of libevc_inter.a.

mod args;
mod call;
mod camera;
mod coded;
mod colour;
mod commands;
mod flip;
mod folder;
mod general;
mod json;
mod laws;
mod material;
mod moved;
mod output;
mod png;
mod predict;
mod predicted;
mod progress;
mod random;
mod replay;
mod report;
mod scene;
mod search;
mod shell;
mod splits;
mod turns;
mod y4m;

use args::Given;
use commands::{command, Command, COMMANDS};
use report::{Console, Exit};
use std::ffi::OsString;
use std::io::{self, Write};
use std::process::ExitCode;

/// Prints a page.
fn page(text: &str) -> Result<Exit, String> {
    let mut console = Console::new(false);
    console.say(text.trim_end());
    Ok(console.exit())
}

fn known(name: &str) -> Result<&'static Command, String> {
    command(name).ok_or_else(|| {
        let names: Vec<_> = COMMANDS.iter().map(|command| command.name).collect();
        format!("no such command: {name}; there are {}", names.join(", "))
    })
}

/// The run's end, or why the words make no sense.
fn run(words: Vec<OsString>) -> Result<Exit, String> {
    let mut words = words.into_iter();
    let Some(name) = words.next() else {
        return page(&commands::help());
    };
    let name = name.to_string_lossy();
    let words: Vec<_> = words.collect();
    let command = match &name[..] {
        "-h" | "--help" | "help" => {
            let Some(asked) = words.first().map(|word| word.to_string_lossy()) else {
                return page(&commands::help());
            };
            return page(&known(&asked)?.help());
        }
        "-V" | "--version" => return page(&commands::version()),
        name => known(name)?,
    };
    let about = |said: String| format!("{name}: {said}; see evc {name} --help");
    let Some(given) = Given::read(command, words).map_err(about)? else {
        return page(&command.help());
    };
    let mut console = Console::new(given.has("--json"));
    output::tidy_when_interrupted();
    (command.run)(&given, &mut console).map_err(about)?;
    Ok(console.exit())
}

fn main() -> ExitCode {
    match run(std::env::args_os().skip(1).collect()) {
        Ok(exit) => exit.into(),
        Err(said) => {
            let _ = writeln!(io::stderr(), "evc: {said}");
            Exit::Usage.into()
        }
    }
}
