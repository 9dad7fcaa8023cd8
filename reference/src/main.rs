//! Serves a script from standard input on standard output.

use std::fs::File;
use std::io::{self, Write};
use std::os::unix::io::AsFd;
use std::process::ExitCode;

use reference::script;

fn main() -> ExitCode {
    match serve() {
        Ok(()) => ExitCode::SUCCESS,
        Err(error) => {
            // Nothing is left to be done where standard error fails too.
            let _ = writeln!(io::stderr(), "reference_desk: {error}");
            ExitCode::FAILURE
        }
    }
}

/// Writes to standard output as a file, since `Stdout` buffers by lines and keeps silent about a bad descriptor.
fn serve() -> io::Result<()> {
    let output = File::from(io::stdout().as_fd().try_clone_to_owned()?);
    script::run(io::stdin().lock(), output)
}
