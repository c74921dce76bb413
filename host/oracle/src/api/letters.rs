//! Outcomes as single characters, for tables that are read without Rust.

use core::task::Poll;

use crate::i2c::master::{AcknowledgeCheckFailedReason::*, Error};

/// `.` success, `?` pending, `I` incomplete, `A` `D` `U` not acknowledged
/// (address, data, unknown), `L` arbitration lost, `T` timeout.
pub fn letter(outcome: Poll<Result<(), Error>>) -> char {
    match outcome {
        Poll::Pending => '?',
        Poll::Ready(Ok(())) => '.',
        Poll::Ready(Err(Error::ExecutionIncomplete)) => 'I',
        Poll::Ready(Err(Error::AcknowledgeCheckFailed(Address))) => 'A',
        Poll::Ready(Err(Error::AcknowledgeCheckFailed(Data))) => 'D',
        Poll::Ready(Err(Error::AcknowledgeCheckFailed(Unknown))) => 'U',
        Poll::Ready(Err(Error::ArbitrationLost)) => 'L',
        Poll::Ready(Err(Error::Timeout)) => 'T',
        Poll::Ready(Err(other)) => panic!("no outcome of a list: {other:?}"),
    }
}
