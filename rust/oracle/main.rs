//! Answers framed inputs by the oracle. README.md has the forms.

use std::process::ExitCode;

fn main() -> ExitCode {
    if std::env::args().len() > 1 {
        eprintln!("usage: oracle <FRAMES");
        return ExitCode::from(2);
    }

    let work = std::thread::Builder::new()
        .stack_size(oracle::STACK)
        .spawn(oracle::run)
        .expect("a thread");

    match work.join() {
        Ok(Ok(())) => ExitCode::SUCCESS,
        Ok(Err(message)) => {
            eprintln!("oracle: {message}");
            ExitCode::FAILURE
        }
        Err(_) => ExitCode::FAILURE,
    }
}
