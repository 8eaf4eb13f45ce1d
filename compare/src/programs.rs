//! The program `calls`, run on a text, beside what the reference says that it prints.

mod met;

pub use met::Met;

use crate::texts::Text;
use crate::{differences, reference};
use std::io::{self, ErrorKind, Write};
use std::path::{Path, PathBuf};
use std::process::{Command, Stdio};
use std::thread;

/// What came of a run of the program.
struct Ran {
    status: Option<i32>,
    output: Vec<u8>,
    error: Vec<u8>,
}

/// Says so if the program is not there.
pub fn ready() -> Result<(), String> {
    let program = program();
    if program.is_file() {
        return Ok(());
    }
    Err(format!(
        "the program {} is not there: ./calls builds it",
        program.display()
    ))
}

fn program() -> PathBuf {
    Path::new(env!("CARGO_MANIFEST_DIR")).join("../crates/calls/out/calls")
}

/// Runs the program on a text, and says what differs from what the reference prints.
pub fn hold(text: &Text, met: &mut Met) -> Result<(), String> {
    let ran = run(&text.bytes).map_err(|error| format!("the program: {error}"))?;
    let printed = reference::printed(&text.bytes);
    let (status, output, error) = match &printed {
        Ok(answers) => (0, answers.as_str(), ""),
        Err(line) => (1, "", line.as_str()),
    };
    match differs(&ran, status, output, error) {
        Some(differs) => Err(differs),
        None => {
            met.note(text, &printed);
            Ok(())
        }
    }
}

fn run(text: &[u8]) -> io::Result<Ran> {
    let mut child = Command::new(program())
        .stdin(Stdio::piped())
        .stdout(Stdio::piped())
        .stderr(Stdio::piped())
        .spawn()?;
    let mut input = child.stdin.take().expect("the standard input is piped");
    thread::scope(|scope| {
        // A program that has read enough need not read on.
        let feeding = scope.spawn(move || match input.write_all(text) {
            Err(error) if error.kind() == ErrorKind::BrokenPipe => Ok(()),
            written => written,
        });
        let ended = child.wait_with_output()?;
        feeding.join().expect("feeding does not panic")?;
        Ok(Ran {
            status: ended.status.code(),
            output: ended.stdout,
            error: ended.stderr,
        })
    })
}

/// The first thing that differs from this status and what else is printed.
fn differs(ran: &Ran, status: i32, output: &str, error: &str) -> Option<String> {
    let line = |stream, printed: &[u8], expected: &str| {
        differences::line(stream, "program", printed, expected.as_bytes())
    };
    line("standard output", &ran.output, output)
        .or_else(|| line("standard error", &ran.error, error))
        .or_else(|| match ran.status {
            Some(other) if other == status => None,
            other => Some(format!("status {other:?} instead of {status}")),
        })
}

#[cfg(test)]
mod tests {
    use super::*;

    #[test]
    fn each_difference_is_told() {
        for (status, output, error, told) in [
            (Some(0), "empty\n", "", ""),
            (Some(0), "", "", "standard output, line 1"),
            (Some(0), "empty\n", "done\n", "standard error, line 1"),
            (Some(1), "empty\n", "", "status Some(1)"),
            (None, "empty\n", "", "status None"),
        ] {
            let ran = Ran {
                status,
                output: output.into(),
                error: error.into(),
            };
            let differs = differs(&ran, 0, "empty\n", "");
            assert_eq!(differs.is_none(), told.is_empty());
            assert!(differs.unwrap_or_default().starts_with(told));
        }
    }
}
