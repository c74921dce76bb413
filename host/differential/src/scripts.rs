//! Scripts as document 01 tells them: how one is written, and which are refused.

use oracle::{Op, Timeout};

use crate::{question::Question, told::Told, transactions::Transaction};

/// No body is longer, and no more bytes are read in all.
const MOST: usize = 4096;

fn length_bytes(length: usize) -> [u8; 2] {
    u16::try_from(length)
        .expect("a length of two bytes")
        .to_be_bytes()
}

/// A script with this body, whose field tells its length.
pub fn with_body(body: &[u8]) -> Vec<u8> {
    [&[1], &length_bytes(body.len())[..], body].concat()
}

/// The script of these operations.
pub fn written(operations: &[Op]) -> Vec<u8> {
    let mut body = Vec::new();
    for operation in operations {
        match operation {
            Op::Write(bytes) => {
                body.extend(length_bytes(bytes.len()));
                body.push(0);
                body.extend(bytes);
            }
            Op::Read(length) => {
                body.extend(length_bytes(*length));
                body.push(1);
            }
        }
    }
    with_body(&body)
}

/// "A record cut short or another kind is bad": none.
fn records(mut body: &[u8]) -> Option<Vec<Op>> {
    let mut operations = Vec::new();
    while let [high, low, kind, rest @ ..] = body {
        let length = u16::from_be_bytes([*high, *low]).into();
        body = match kind {
            0 => {
                let (bytes, rest) = rest.split_at_checked(length)?;
                operations.push(Op::Write(bytes.to_vec()));
                rest
            }
            1 => {
                operations.push(Op::Read(length));
                rest
            }
            _ => return None,
        };
    }
    body.is_empty().then_some(operations)
}

pub fn read_total(operations: &[Op]) -> usize {
    let reads = operations.iter().map(|operation| match operation {
        Op::Write(_) => 0,
        Op::Read(length) => *length,
    });
    reads.sum()
}

/// The operations of a script, or the number of the refusal, "Script order".
pub fn operations(address: u64, script: &[u8]) -> Result<Vec<Op>, u8> {
    if address > 127 {
        return Err(1);
    }
    let [version, high, low, body @ ..] = script else {
        return Err(5);
    };
    if *version != 1 {
        return Err(4);
    }
    let field: usize = u16::from_be_bytes([*high, *low]).into();
    if field > MOST {
        return Err(6);
    }
    if field != body.len() {
        return Err(5);
    }
    let operations = records(body).ok_or(5)?;
    if read_total(&operations) > MOST {
        return Err(6);
    }
    Ok(operations)
}

/// What begin makes of a script: besides that, the room and the range of a fixed deadline.
pub fn accepted(
    address: u64,
    script: &[u8],
    room: usize,
    timeout: Timeout,
    now: u64,
) -> Result<Vec<Op>, u8> {
    let operations = operations(address, script)?;
    if room < read_total(&operations) {
        return Err(7);
    }
    if let Timeout::Transaction(duration) = timeout
        && now.checked_add(duration).is_none()
    {
        return Err(13);
    }
    Ok(operations)
}

/// Begin alone, on every script of three bytes that starts with this one.
#[derive(Clone, Copy, Debug)]
pub struct Starts(pub u8);

impl Question for Starts {
    fn line(&self) -> String {
        let asked = Transaction {
            script: vec![self.0],
            ..Transaction::default()
        };
        asked.line_in(2)
    }

    fn oracle(&self) -> u64 {
        let Transaction {
            address,
            room,
            timeout,
            start,
            ..
        } = Transaction::default();
        let mut told = Told::default();
        for rest in 0..=u16::MAX {
            let [second, third] = rest.to_be_bytes();
            let script = [self.0, second, third];
            let answer = accepted(address, &script, room, timeout, start);
            told.tell(answer.err().unwrap_or(0).into());
        }
        told.answer([0, 0], 0)
    }
}
