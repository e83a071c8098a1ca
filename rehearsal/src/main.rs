//! `rehearsal check|report|chart --program PATH [options] [FILE]`: the script `kivdrag` calls it, and names the proved event program as PATH.
//! Statuses: 0 all accepted, 1 something refused, 2 could not run.

use rehearsal::{chart, check, report, Status};
use std::path::Path;
use std::process::ExitCode;

fn main() -> ExitCode {
    match run() {
        Ok(Status::Accepted) => ExitCode::from(0),
        Ok(Status::Refused) => ExitCode::from(1),
        Err(line) => {
            rehearsal::say(&line);
            ExitCode::from(2)
        }
    }
}

fn run() -> Result<Status, String> {
    let words = std::env::args_os().skip(1).map(|word| word.into_string());
    let words: Vec<String> = words.collect::<Result<_, _>>().map_err(|word| format!("{} is not UTF-8 text; rename the file", word.display()))?;
    let [command, option, program, words @ ..] = &words[..] else { return Err(usage()) };
    if option != "--program" {
        return Err(usage());
    }
    let program = Path::new(program);
    match &command[..] {
        "check" => check::run(program, words),
        "report" => report::run(program, words),
        "chart" => chart::run(program, words),
        _ => Err(usage()),
    }
}

fn usage() -> String {
    "usage: rehearsal check|report|chart --program PATH [options] [FILE]".to_string()
}
