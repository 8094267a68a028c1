//! The command `dokphalun`: tangent frames of a scanned mesh to a card, a report and a picture; and a partner's lists examined.
use command::options::{self, Task};
use command::{demo, examine, frames, links, read, stop::Stop};
use std::io::{Write, stderr};
use std::process::ExitCode;

fn main() -> ExitCode {
    let done = options::task(std::env::args_os().skip(1)).and_then(|task| match task {
        Task::Frames(asked) => frames::run(&asked),
        Task::Read(asked) => read::run(&asked),
        Task::Links(asked) => links::run(&asked),
        Task::Examine(asked) => examine::run(&asked),
        Task::Demo(folder) => demo::run(&folder),
        Task::Help => Ok(options::help()),
    });
    let status = done.unwrap_or_else(|Stop { status, what }| {
        let _ = writeln!(
            stderr(),
            "dokphalun: {what}\n(exit status {})",
            status as u8
        );
        status
    });
    ExitCode::from(status as u8)
}
