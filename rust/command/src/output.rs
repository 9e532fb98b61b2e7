//! Standard output, messages, and how a run ends.

use std::fmt;
use std::fs::File;
use std::io::{self, BufWriter, Write};
use std::os::fd::AsFd;

use puddockle::Refusal;

/// How a call ended: the status of the command.
#[derive(Clone, Copy, Debug, PartialEq, Eq, PartialOrd, Ord)]
pub enum Status {
    /// Nothing is refused.
    Held = 0,
    /// A bundle, record, sample or byte stream is refused.
    Refused = 1,
    /// Wrong use, or a file that cannot be read or written.
    Failed = 2,
}

impl Status {
    /// The status for an answer of the library.
    pub fn of<T>(answer: &Result<T, Refusal>) -> Status {
        match answer {
            Ok(_) => Status::Held,
            Err(_) => Status::Refused,
        }
    }
}

/// The end of a run before its call has ended.
#[derive(Debug)]
pub enum Stop {
    /// Nobody reads standard output any more.
    Closed,
    /// [`Status::Failed`], with a message.
    Failed(String),
}

/// What a shell says of a program that SIGPIPE has ended.
const CLOSED: u8 = 128 + 13;

/// A message why a file cannot be read.
impl From<String> for Stop {
    fn from(message: String) -> Stop {
        Stop::Failed(message)
    }
}

impl Stop {
    pub fn failed(message: impl Into<String>) -> Stop {
        Stop::Failed(message.into())
    }

    /// Says why, and gives the status of the command.
    pub fn status(self) -> u8 {
        match self {
            Stop::Closed => CLOSED,
            Stop::Failed(message) => {
                say(message);
                Status::Failed as u8
            }
        }
    }
}

/// A message on standard error. Where that cannot be written, nobody can be told.
pub fn say(message: impl fmt::Display) {
    let _ = io::stderr().write_all(format!("puddockle: {message}\n").as_bytes());
}

/// Standard output, buffered. Not `std::io::Stdout`, which takes a descriptor that cannot be written for written.
pub struct Output {
    to: BufWriter<File>,
}

impl Output {
    pub fn standard() -> Result<Output, Stop> {
        let descriptor = io::stdout().as_fd().try_clone_to_owned().map_err(not_written)?;
        Ok(Output { to: BufWriter::with_capacity(1 << 16, File::from(descriptor)) })
    }

    /// For `write!` and `writeln!`.
    pub fn write_fmt(&mut self, text: fmt::Arguments) -> Result<(), Stop> {
        self.to.write_fmt(text).map_err(not_written)
    }

    /// For what writes bytes.
    pub fn with(&mut self, write: impl FnOnce(&mut dyn Write) -> io::Result<()>) -> Result<(), Stop> {
        write(&mut self.to).map_err(not_written)
    }

    pub fn flush(&mut self) -> Result<(), Stop> {
        self.to.flush().map_err(not_written)
    }
}

fn not_written(error: io::Error) -> Stop {
    match error.kind() {
        io::ErrorKind::BrokenPipe => Stop::Closed,
        _ => Stop::failed(format!("standard output cannot be written: {error}")),
    }
}
