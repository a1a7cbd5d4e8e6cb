//! The oracle: the published Rust on the jobs and scripts of this repository.

use std::io::{self, Read, Write};
use std::process::ExitCode;

const USAGE: &str = "usage: oracle sheet|batch|script|scripts|time|count|count-scripts < input";

fn main() -> ExitCode {
    let Some(mode) = std::env::args().nth(1) else {
        eprintln!("{USAGE}");
        return ExitCode::FAILURE;
    };
    let mut input = Vec::new();
    let read = io::stdin()
        .lock()
        .read_to_end(&mut input)
        .map_err(|error| error.to_string());
    let done = read
        .and_then(|_| regalloc3::modes::answer(&mode, &input))
        .and_then(|output| {
            io::stdout()
                .lock()
                .write_all(&output)
                .map_err(|error| error.to_string())
        });
    match done {
        Ok(()) => ExitCode::SUCCESS,
        Err(message) => {
            eprintln!("oracle: {message}\n{USAGE}");
            ExitCode::FAILURE
        }
    }
}
