//! The program: its words to a command, and the outcome to the outside.

#![forbid(unsafe_code)]

use std::borrow::Cow;
use std::env;
use std::ffi::OsString;
use std::io::{self, BufWriter, IsTerminal, Write};
use std::process::ExitCode;

use cli::advice::of_writing;
use cli::excerpt::excerpts;
use cli::outcome::{Failure, Status};

fn main() -> ExitCode {
    let words: Vec<OsString> = env::args_os().skip(1).collect();
    let outcome = cli::commands::begin(&words);
    // Where standard error is closed there is nobody to tell.
    let messages = match io::stderr().is_terminal() {
        true => Cow::Owned(excerpts(&outcome.messages)),
        false => Cow::Borrowed(outcome.messages.as_str()),
    };
    let _ = io::stderr().write_all(messages.as_bytes());
    let mut out = io::stdout();
    let is_verdict = outcome.status == Status::Refused && out.is_terminal();
    let told = match std::str::from_utf8(&outcome.out) {
        Ok(text) if is_verdict => Cow::Owned(excerpts(text).into_bytes()),
        _ => Cow::Borrowed(outcome.out.as_slice()),
    };
    let written = out.write_all(&told).and_then(|()| {
        let Some(stream) = &outcome.stream else {
            return Ok(String::new());
        };
        let mut out = BufWriter::new(&mut out);
        let messages = stream.write(&mut out)?;
        out.flush().map(|()| messages)
    });
    match written.and_then(|messages| out.flush().map(|()| messages)) {
        // A reader that has gone away needs no more.
        Err(error) if error.kind() != io::ErrorKind::BrokenPipe => {
            let (changed, advice, status) = match &outcome.written {
                Some(written) => {
                    let advice = "do not give the command again: the change counts";
                    (format!("; {written}"), advice, Status::Untold)
                }
                None => (String::new(), of_writing(error.kind()), Status::Misuse),
            };
            let reason = format!("cannot be written: {error}{changed}");
            let told = Failure::file("standard output", reason, advice);
            let _ = writeln!(io::stderr(), "{}", told.message());
            ExitCode::from(status.code())
        }
        written => {
            let messages = written.unwrap_or_default();
            let _ = io::stderr().write_all(messages.as_bytes());
            ExitCode::from(outcome.status.code())
        }
    }
}
