//! "The listing program reads standard input as lower-case hexadecimal, one
//! event a line".

use std::io;
use std::process::ExitCode;

fn main() -> ExitCode {
    match reference::listing::run(io::stdin().lock(), io::stdout().lock()) {
        Ok(()) => ExitCode::SUCCESS,
        Err(error) => {
            eprintln!("listing: {error}");
            ExitCode::FAILURE
        }
    }
}
