//! What the arguments ask for, by their words, which `clap` reads. Written by hand, not proved.
use crate::ether_capture::option_table::{OPTIONS, OptionRow, Spelling};
use crate::ether_capture::heading::counted_of;
use crate::ether_capture::request::{Asked, Request, RequestError, first_of};
use crate::ether_capture::wrong_words::usage_of;
use crate::ether_stream::{Usage, ValueOption, count_of, edit_of_words, fields_of, format_of, limit_of, status_on_fault_of, undecided_of};
use crate::ether_capture::memory::Global;
use clap::error::ErrorKind;
use clap::{Arg, ArgAction, ArgMatches, Command, ValueHint};

/// The program's arguments.
pub fn command() -> Command {
    let file = Arg::new("file").value_hint(ValueHint::FilePath).action(ArgAction::Append);
    let rows = OPTIONS.iter().filter(|row| !row.spelling.is_added());
    Command::new("ether_capture").version("3.0.0").args(rows.map(argument)).arg(file)
}

/// The argument of an option, with what the completions of shells say of it.
fn argument(row: &'static OptionRow<&str>) -> Arg {
    let arg = Arg::new(row.name).help(row.help);
    let arg = match row.spelling {
        Spelling::Name => arg.long(row.name),
        Spelling::Letter(letter) => arg.short(letter),
        Spelling::Both(letter) => arg.short(letter).long(row.name),
    };
    match row.value {
        Some("FILE" | "COPY") => arg.action(ArgAction::Set).value_hint(ValueHint::FilePath),
        Some(_) => arg.action(ArgAction::Set),
        None => arg.action(ArgAction::SetTrue),
    }
}

/// What the program's arguments ask for. The first of them is its own name.
pub fn request_of_words(words: &[String], _alloc: Global) -> Result<Request<'_>, RequestError<'_>> {
    match command().try_get_matches_from(words) {
        Ok(matches) => asked(&matches, words)?.request(),
        Err(error) => match error.kind() {
            ErrorKind::DisplayHelp => Ok(Request::Help),
            ErrorKind::DisplayVersion => Ok(Request::Version),
            _ => Err(RequestError::Usage(usage_of(words))),
        },
    }
}

/// What options ask for.
fn asked<'a>(matches: &ArgMatches, words: &'a [String]) -> Result<Asked<'a>, Usage<'a>> {
    let (cuts, pops) = (matches.get_flag("cut-to-headers"), matches.get_flag("pop-vlan"));
    let (push, set) = (text_of(matches, words, "push-vlan"), text_of(matches, words, "set-vlan"));
    let is_counted = matches.get_flag("stats");
    let fields = fields_of(ValueOption::Fields, text_of(matches, words, "fields"))?;
    let by = fields_of(ValueOption::By, text_of(matches, words, "by"))?;
    Ok(Asked {
        is_plain: matches.get_flag("plain"),
        is_write: matches.get_flag("write"),
        is_shown: matches.get_flag("progress"),
        has_bytes: matches.get_flag("bytes"),
        has_header: matches.get_flag("header"),
        is_counted,
        is_merge: matches.get_flag("merge"),
        edit: edit_of_words(cuts, pops, push, set)?,
        text: text_of(matches, words, "select"),
        undecided: undecided_of(text_of(matches, words, "undecided"))?,
        status_on_fault: status_on_fault_of(text_of(matches, words, "status-on-fault"))?,
        count: count_of(ValueOption::Count, text_of(matches, words, "count"))?,
        jobs: count_of(ValueOption::Jobs, text_of(matches, words, "jobs"))?,
        limit: limit_of(text_of(matches, words, "limit"))?,
        format: format_of(text_of(matches, words, "format"))?,
        fields,
        by,
        counted: counted_of(is_counted, &first_of(by, fields)),
        input: text_of(matches, words, "read"),
        output: text_of(matches, words, "output"),
        files: texts_of(matches, words, "file"),
    })
}

/// The value of an option, if it is there.
fn text_of<'a>(matches: &ArgMatches, words: &'a [String], name: &str) -> Option<&'a str> {
    texts_of(matches, words, name).first().copied()
}

/// The values of an option, each as it ends one of the words.
fn texts_of<'a>(matches: &ArgMatches, words: &'a [String], name: &str) -> Vec<&'a str> {
    let values = matches.get_many::<String>(name).into_iter().flatten();
    let word_of = |value: &String| words.iter().find_map(|word| word.ends_with(value.as_str()).then(|| &word[word.len() - value.len()..]));
    values.filter_map(word_of).collect()
}
