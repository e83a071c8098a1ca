//! What `kivdrag check`, `kivdrag report` and `kivdrag chart` do. The proved event program judges every record; these feed it and read what it
//! prints.

use std::io::{self, BufWriter, ErrorKind, IsTerminal, Read, Write};
use std::path::Path;

pub mod arguments;
pub mod chart;
pub mod chart_svg;
pub mod chart_text;
pub mod check;
pub mod colours;
pub mod event;
pub mod explain;
pub mod feed;
pub mod figures;
pub mod grid;
pub mod measure;
pub mod record;
pub mod refusals;
pub mod replace;
pub mod report;
pub mod shown;
pub mod switch;
pub mod table;
pub mod text;
pub mod verdict;

/// How a command that could run ended.
#[derive(Clone, Copy, Debug, PartialEq, Eq)]
pub enum Status {
    /// everything was accepted
    Accepted,
    /// something was refused
    Refused,
}

/// The event text of a file, or of standard input where there is no name or the name is `-`.
pub fn read_file(name: Option<&str>) -> Result<text::Text, String> {
    let bytes = match name.filter(|&name| name != "-") {
        None => read_standard_input().map_err(|error| format!("standard input cannot be read: {}", reason(&error)))?,
        Some(name) => std::fs::read(name).map_err(|error| unreadable(name, &error))?,
    };
    text::Text::read(bytes).map_err(|line| format!("{}: {line}", name.unwrap_or("standard input")))
}

fn read_standard_input() -> io::Result<Vec<u8>> {
    let (mut input, mut bytes) = (io::stdin().lock(), Vec::new());
    let typed = input.is_terminal();
    if typed {
        say("type a heading (any line), then records, as start,2,3,0; each line gets its CR LF; Ctrl-D in an empty line ends the input");
    }
    input.read_to_end(&mut bytes)?;
    Ok(if typed { bytes.split(|&byte| byte == b'\n').collect::<Vec<_>>().join(&b"\r\n"[..]) } else { bytes })
}

fn unreadable(name: &str, error: &io::Error) -> String {
    match error.kind() {
        _ if !Path::new(name).exists() => {
            format!("{}: no such file, or in a folder that you may not enter", if name.is_empty() { "''" } else { name })
        }
        ErrorKind::IsADirectory => format!("{name} is a directory; name a file in it"),
        ErrorKind::PermissionDenied => format!("{name} cannot be read: no permission"),
        _ => format!("{name} cannot be read: {}", reason(error)),
    }
}

/// The system's words for an error, without its number.
pub fn reason(error: &io::Error) -> String {
    let words = error.to_string();
    words.split(" (os error").next().unwrap_or_default().to_lowercase()
}

/// Says a line on standard error; where that is lost, the status still tells.
pub fn say(line: &str) {
    let _ = writeln!(io::stderr(), "kivdrag: {line}");
}

/// Standard output, buffered. A reader that is gone (`| head`) ends the process quietly with status 141; any other failure is an error line.
pub struct Output(BufWriter<io::Stdout>);

impl Output {
    #[allow(clippy::new_without_default)]
    pub fn new() -> Output {
        Output(BufWriter::with_capacity(1 << 16, io::stdout()))
    }

    pub fn write(&mut self, bytes: &[u8]) -> Result<(), String> {
        self.0.write_all(bytes).map_err(|error| lost(&error))
    }

    pub fn line(&mut self, line: &str) -> Result<(), String> {
        self.write(line.as_bytes()).and_then(|()| self.write(b"\n"))
    }

    /// To be called at the end: what is not flushed may be lost unseen.
    pub fn flush(&mut self) -> Result<(), String> {
        self.0.flush().map_err(|error| lost(&error))
    }
}

fn lost(error: &io::Error) -> String {
    if error.kind() == ErrorKind::BrokenPipe {
        std::process::exit(141);
    }
    format!("the output could not be written: {}", reason(error))
}
