//! The second program: `second help` says what it can be asked for.

use second::rules::Rule;
use second::{bundle, count, joinfeed, make, text};
use std::io::{self, Read, Write};
use std::process::ExitCode;

const USAGE: &str = "\
second join [--rule RULE] [LIMIT]
                         a feed -> what must be printed of it, joined by equal
                         keys, as joinfeed joins, or by a RULE: equal, near:2
                         (keys on a circle of 36000 at most 2 apart) or every;
                         read up to LIMIT bytes
second feed              text lines -> a feed
second text              a feed -> text lines
second make SEED COUNT   a bundle of COUNT feeds made from SEED, each with a rule
second long SEED COUNT   one feed of COUNT records and both closes made from SEED
second example           the feed that document 01 gives
second joinall           a bundle -> what must be printed of each of its feeds
second count SEED COUNT  the feeds of `make SEED COUNT` by last line and by rule

Feeds, text and bundles come from standard input and go to standard output.
A text line is one of: entry A 10 50 7 100 (journal, start, end, key, value),
mark B 30, close A, note some text, raw 08 00 02 (bytes), # a comment.
";

/// Why a command did not do its work, with what to do about it.
enum Fault {
    /// The command is not known, or its arguments are wrong.
    Usage(String),
    /// What it was given to work on is wrong.
    Input(String),
}

fn main() -> ExitCode {
    let arguments: Vec<String> = std::env::args_os()
        .skip(1)
        .map(|argument| argument.to_string_lossy().into_owned())
        .collect();
    let words: Vec<&str> = arguments.iter().map(String::as_str).collect();
    match answer(&words).and_then(|output| put_out(&output)) {
        Ok(()) => ExitCode::SUCCESS,
        Err(Fault::Usage(told)) => {
            eprint!("second: {told}\n\n{USAGE}");
            ExitCode::from(2)
        }
        Err(Fault::Input(told)) => {
            eprintln!("second: {told}");
            ExitCode::FAILURE
        }
    }
}

/// What a command puts out.
fn answer(words: &[&str]) -> Result<Vec<u8>, Fault> {
    match words {
        ["join", "--rule", rule, rest @ ..] if rest.len() < 2 => join(rule_of(rule)?, rest),
        ["join", rest @ ..] if rest.len() < 2 => join(Rule::Equal, rest),
        ["example"] => Ok(make::example_of_the_document()),
        ["long", seed, count] => Ok(make::long_feed(number(seed)?, number(count)?)),
        ["feed"] => text::feed_of_text(&all_input()?).map_err(Fault::Input),
        ["text"] => Ok(text::text_of_feed(&all_input()?).into_bytes()),
        ["make", seed, count] => {
            let made: Vec<make::Made> = make::feeds(number(seed)?, number(count)?).collect();
            let feeds = made.iter().map(|made| (made.rule, made.feed.as_slice()));
            Ok(bundle::bundle_of(feeds))
        }
        ["joinall"] => {
            let printed = bundle::printed_of_all(&all_input()?);
            printed.map(String::into_bytes).map_err(Fault::Input)
        }
        ["count", seed, count] => Ok(count::table(number(seed)?, number(count)?).into_bytes()),
        ["help" | "--help" | "-h"] => Ok(USAGE.as_bytes().to_vec()),
        [] => Err(usage("no command is given; give one of these")),
        ["join", ..] => Err(usage(
            "`join` takes a rule, a limit, both or nothing; write join --rule near:2 and give it a feed with <",
        )),
        [command @ ("feed" | "text" | "joinall" | "example"), ..] => Err(usage(&format!(
            "`{command}` takes no arguments; give it its input with <"
        ))),
        [command @ ("make" | "count" | "long"), ..] => Err(usage(&format!(
            "`{command}` takes a seed and a count; write {command} 1 3000"
        ))),
        [command, ..] => Err(usage(&format!(
            "`{command}` is no command; give one of these"
        ))),
    }
}

/// What is printed of the feed on standard input, read up to a limit if one is
/// given.
fn join(rule: Rule, limit: &[&str]) -> Result<Vec<u8>, Fault> {
    let limit = match limit {
        [limit, ..] => number(limit)?,
        [] => joinfeed::READ_LIMIT,
    };
    let feed = input(joinfeed::READ_LIMIT)?;
    Ok(joinfeed::printed_watched(rule, &feed, limit, |_| ()).into_bytes())
}

fn rule_of(word: &str) -> Result<Rule, Fault> {
    let width = word.strip_prefix("near:").map(str::parse);
    match (word, width) {
        ("equal", _) => Ok(Rule::Equal),
        ("every", _) => Ok(Rule::Every),
        (_, Some(Ok(width))) => Ok(Rule::Near(width)),
        _ => Err(usage(&format!(
            "`{word}` is no rule; write equal, every, or near: and a width from 0 to 4294967295, as near:2"
        ))),
    }
}

fn usage(told: &str) -> Fault {
    Fault::Usage(told.to_string())
}

fn number(word: &str) -> Result<u64, Fault> {
    word.parse().map_err(|_| {
        usage(&format!(
            "`{word}` is no whole number; give the seed and the count in digits, as 1 3000"
        ))
    })
}

fn all_input() -> Result<Vec<u8>, Fault> {
    input(u64::MAX)
}

/// Standard input up to so many bytes.
fn input(limit: u64) -> Result<Vec<u8>, Fault> {
    let mut bytes = Vec::new();
    match io::stdin().lock().take(limit).read_to_end(&mut bytes) {
        Ok(_) => Ok(bytes),
        Err(error) => Err(Fault::Input(format!(
            "standard input cannot be read ({error}); give it a file or a pipe"
        ))),
    }
}

fn put_out(output: &[u8]) -> Result<(), Fault> {
    let mut standard_output = io::stdout().lock();
    let put = standard_output.write_all(output);
    put.and_then(|()| standard_output.flush()).map_err(|error| {
        Fault::Input(format!(
            "standard output cannot be written ({error}); give it a file or a pipe that is read"
        ))
    })
}
