//! The oracle: a script on standard input, one answer of the crate a line on standard output.

use std::{
    io::{BufWriter, stdin, stdout},
    process::ExitCode,
};

fn main() -> ExitCode {
    if std::env::args().len() > 1 {
        eprintln!("usage: oracle < SCRIPT");
        return ExitCode::from(2);
    }
    // Panics are answers; what they say is not.
    std::panic::set_hook(Box::new(|_| {}));
    match aya_obj::driver::run(stdin().lock(), BufWriter::new(stdout().lock())) {
        Ok(()) => ExitCode::SUCCESS,
        Err(bad) => {
            eprintln!("oracle: line {}: {}", bad.line, bad.what);
            ExitCode::from(1)
        }
    }
}
