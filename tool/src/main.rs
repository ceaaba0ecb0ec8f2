//! The program `rvf`: its words go to the library part, what comes back goes out.

use rvf_tool::failure::{DONE, NO_OUTPUT};
use std::io::{self, ErrorKind, Write};
use std::process::ExitCode;

fn main() -> ExitCode {
    let words = std::env::args_os().skip(1).collect();
    let outcome = rvf_tool::run(words, &mut io::stdin().lock());
    // Nothing can be said where standard error itself is closed.
    let _ = io::stderr().write_all(outcome.messages.as_bytes());
    match print(&outcome.output) {
        Ok(()) => ExitCode::from(outcome.status),
        // Whoever reads has seen enough (`rvf list f | head -1`): that is no failure.
        Err(error) if error.kind() == ErrorKind::BrokenPipe => ExitCode::from(outcome.status),
        Err(error) => {
            // What was to be done is done; a status that says that something was wrong stays.
            let _ = writeln!(io::stderr(), "rvf: standard output: {error}");
            ExitCode::from(if outcome.status == DONE { NO_OUTPUT } else { outcome.status })
        }
    }
}

fn print(output: &[u8]) -> io::Result<()> {
    let mut stdout = io::stdout().lock();
    stdout.write_all(output)?;
    stdout.flush()
}
