//! The command line `phd`. It opens files, allocates memory, calls the proved library and prints; everything about the format is
//! decided by the library.

mod args;
mod capacity;
mod classes;
mod convert;
mod dump;
mod error;
mod info;
mod input;
mod memory;
mod messages;
mod output;
mod progress;
mod rows;
mod stack;

use args::Request;
use convert::Format;
use error::{Error, Status};
use std::process::ExitCode;

fn main() -> ExitCode {
    let status = match args::parse(std::env::args_os().skip(1)) {
        Ok(request) => run(request).unwrap_or_else(|error| error.report()),
        Err(wrong) => {
            error::print_line(&format!("{wrong} ('phd --help' shows the usage)"));
            Status::Failed
        }
    };
    ExitCode::from(status as u8)
}

/// Carries out a request and returns the exit status.
fn run(request: Request) -> Result<Status, Error> {
    match request {
        Request::Help => output::print(args::HELP).map(|_| Status::Done),
        Request::Version => {
            let version = concat!("phd ", env!("CARGO_PKG_VERSION"), "\n");
            output::print(version).map(|_| Status::Done)
        }
        Request::Classes(source, target, options) => classes::run(&source, &target, &options),
        Request::Info { sources, rows } => info::run(&sources, rows),
        Request::Text(source, target) => convert::run(&source, &target, Format::Text),
        Request::Copy(source, target) => convert::run(&source, &target, Format::Dump),
    }
}
