//! What the arguments ask for, by their words, which `clap` reads. Written by hand, not proved.
use crate::ether_make::option_table::{OPTIONS, OptionRow, Spelling};
use crate::ether_make::request::{Job, NumberOption, Request, RequestError, Usage};
use crate::ether_make::settings::{Form, Settings};
use crate::ether_make::wrong_words::usage_of;
use clap::error::ErrorKind;
use clap::{Arg, ArgAction, ArgMatches, Command, ValueHint};

/// The program's arguments.
pub fn command() -> Command {
    let file = Arg::new("file").value_hint(ValueHint::FilePath).action(ArgAction::Append);
    let rows = OPTIONS.iter().filter(|row| !row.spelling.is_added());
    Command::new("ether_make").version("3.0.0").args(rows.map(argument)).arg(file)
}

/// The argument of an option, with what the completions of shells say of it.
fn argument(row: &'static OptionRow<&str>) -> Arg {
    let arg = Arg::new(row.name).help(row.help);
    let arg = match row.spelling {
        Spelling::Name => arg.long(row.name),
        Spelling::Letter(letter) => arg.short(letter),
        Spelling::Both(letter) => arg.short(letter).long(row.name),
    };
    match row.value {
        Some("FILE") => arg.action(ArgAction::Set).value_hint(ValueHint::FilePath),
        Some(_) => arg.action(ArgAction::Set),
        None => arg.action(ArgAction::SetTrue),
    }
}

/// What the program's arguments ask for. The first of them is its own name.
pub fn request_of_words(words: &[String]) -> Result<Request<'_>, RequestError<'_>> {
    match command().try_get_matches_from(words) {
        Ok(matches) => Ok(Request::Make(job_of(&matches, words).map_err(RequestError::Usage)?)),
        Err(error) => match error.kind() {
            ErrorKind::DisplayHelp => Ok(Request::Help),
            ErrorKind::DisplayVersion => Ok(Request::Version),
            _ => Err(RequestError::Usage(usage_of(words))),
        },
    }
}

/// The frames that options ask for.
fn job_of<'a>(matches: &ArgMatches, words: &'a [String]) -> Result<Job<'a>, Usage<'a>> {
    let count = number_of(NumberOption::Count, text_of(matches, words, "count"))?;
    let seed = number_of(NumberOption::Seed, text_of(matches, words, "seed"))?;
    let rate = number_of(NumberOption::Rate, text_of(matches, words, "rate"))?;
    let form = if matches.get_flag("hex") { Form::Hex } else { Form::Capture };
    let (pad, fcs, seed) = (matches.get_flag("pad"), matches.get_flag("fcs"), seed.unwrap_or(0));
    Ok(Job {
        settings: Settings { pad, fcs, form, count, seed, rate },
        output: text_of(matches, words, "output"),
        files: texts_of(matches, words, "file"),
    })
}

/// The value of an option that has a number, if it is there.
fn number_of<'a>(option: NumberOption, text: Option<&'a str>) -> Result<Option<u64>, Usage<'a>> {
    let Some(text) = text else {
        return Ok(None);
    };
    match text.parse::<u64>() {
        Ok(0) if option == NumberOption::Rate => Err(Usage::Value(option, text)),
        Ok(number) => Ok(Some(number)),
        Err(_) => Err(Usage::Value(option, text)),
    }
}

/// The value of an option, if it is there.
fn text_of<'a>(matches: &ArgMatches, words: &'a [String], name: &str) -> Option<&'a str> {
    texts_of(matches, words, name).first().copied()
}

/// The values of an option, each as it ends one of the words.
fn texts_of<'a>(matches: &ArgMatches, words: &'a [String], name: &str) -> Vec<&'a str> {
    let values = matches.get_many::<String>(name).into_iter().flatten();
    let word_of = |value: &String| words.iter().find_map(|word| word.ends_with(value.as_str()).then(|| &word[word.len() - value.len()..]));
    values.filter_map(word_of).collect()
}
