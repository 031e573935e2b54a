//! Writes the completions of the programs for bash, zsh and fish into a folder: `cargo run --example completions FOLDER`.
use clap::{Arg, ArgAction, Command, ValueHint};
use clap_complete::{Shell, generate_to};
use ether_tools::{ether_capture, ether_make};
use std::{env, fs::OpenOptions, io, io::Write};

/// The words of `ether_tool`.
const MODES: [&str; 6] = ["eth", "fcs", "sll", "type", "feed", "limit"];

fn main() -> io::Result<()> {
    let folder = env::args_os().nth(1).unwrap_or_else(|| ".".into());
    for shell in [Shell::Bash, Shell::Zsh, Shell::Fish] {
        generate_to(shell, &mut capture(), "ether_capture", &folder)?;
        generate_to(shell, &mut make(), "ether_make", &folder)?;
        let path = generate_to(shell, &mut tool(), "ether_tool", &folder)?;
        if shell == Shell::Fish {
            // clap_complete writes nothing for words that are no options
            let mut file = OpenOptions::new().append(true).open(path)?;
            writeln!(file, "complete -c ether_tool -f -a \"{}\"", MODES.join(" "))?;
        }
    }
    Ok(())
}

/// The words of `ether_capture`, with the values of its options.
fn capture() -> Command {
    let rows = ether_capture::option_table::OPTIONS.iter();
    let values = rows.filter_map(|row| Some((row.name, row.value?)));
    values.fold(ether_capture::options::command(), |known, (name, value)| known.mut_arg(name, |arg| valued(arg, value)))
}

/// The same of `ether_make`.
fn make() -> Command {
    let rows = ether_make::option_table::OPTIONS.iter();
    let values = rows.filter_map(|row| Some((row.name, row.value?)));
    values.fold(ether_make::options::command(), |known, (name, value)| known.mut_arg(name, |arg| valued(arg, value)))
}

/// An option with its values, if its word lists them. Only names of files are completed otherwise.
fn valued(arg: Arg, value: &'static str) -> Arg {
    match value {
        "FILE" | "COPY" => arg,
        value if value.contains('|') => arg.value_parser(value.split('|').collect::<Vec<_>>()),
        _ => arg.value_hint(ValueHint::Other),
    }
}

/// The words of `ether_tool`, which reads them without `clap`.
fn tool() -> Command {
    Command::new("ether_tool")
        .version(env!("CARGO_PKG_VERSION"))
        .disable_help_flag(true)
        .disable_version_flag(true)
        .arg(Arg::new("words").num_args(0..).value_parser(MODES))
        .arg(Arg::new("help").long("help").action(ArgAction::SetTrue).help("Print help"))
        .arg(Arg::new("version").long("version").action(ArgAction::SetTrue).help("Print version"))
}
