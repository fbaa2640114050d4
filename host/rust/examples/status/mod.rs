//! How a program ends: with a status that reports whether it printed all of the kernel's answer, and a line on stderr
//! if not.
#![allow(dead_code, reason = "not every program lists")]

use neli::err::{RouterError, SocketError};
use neli::router::synchronous::{Dump, Verdict};
use std::error::Error;
use std::process::ExitCode;

/// The answer is complete.
pub const COMPLETE: u8 = 0;

/// The words of the call, the socket or memory; no answer is known.
pub const NOT_BEGUN: u8 = 1;

/// The listed objects changed meanwhile, however often they were requested.
pub const INTERRUPTED: u8 = 2;

/// The kernel refused, or ended a list with an error.
pub const FAILED: u8 = 3;

/// The link failed, or a message is no answer: a part is missing.
pub const LOST: u8 = 4;

/// Why a program ends before its work is done.
pub type Result<T> = std::result::Result<T, Box<dyn Error>>;

/// That of a list, and the line that reports why it is incomplete.
pub fn of_dump<T, P>(program: &str, dump: &Dump<T, P>) -> u8 {
    match (dump.verdict, &dump.error) {
        (Verdict::Complete, _) => return COMPLETE,
        (Verdict::Interrupted, _) => eprintln!("{program}: what was listed changed meanwhile"),
        (_, Some(error)) => eprintln!("{program}: {error}"),
        (verdict, None) => eprintln!("{program}: {verdict:?}"),
    }
    match dump.verdict {
        Verdict::Complete => COMPLETE,
        Verdict::Interrupted => INTERRUPTED,
        Verdict::Failed(_) => FAILED,
        Verdict::Pending | Verdict::Lost(_) => LOST,
    }
}

/// That of an error.
fn of_error(error: &(dyn Error + 'static)) -> u8 {
    match (error.downcast_ref::<RouterError>(), error.downcast_ref::<SocketError>()) {
        (Some(RouterError::Nlmsgerr(_)), _) => FAILED,
        (Some(RouterError::Memory | RouterError::Ser(_) | RouterError::SeqInUse | RouterError::Msg(_)), _) => NOT_BEGUN,
        (Some(_), _) | (_, Some(_)) => LOST,
        (None, None) => NOT_BEGUN,
    }
}

/// An error before the work began, whatever it is.
pub fn not_begun(error: impl Error) -> Box<dyn Error> {
    error.to_string().into()
}

/// Ends the program.
pub fn end(program: &str, result: Result<u8>) -> ExitCode {
    ExitCode::from(result.unwrap_or_else(|error| {
        eprintln!("{program}: {error}");
        of_error(error.as_ref())
    }))
}
