//! The request stream: loads and writes over program files, and the line that
//! answers each.
//!
//! A stream is the number of requests in 2 bytes, then the requests: call in 1
//! byte (0 load, 1 write), room in 2, length of the input in 2, the input.
//! Numbers are low byte first.

use crate::cases::check;
use crate::file::{load, write, BLOCK};
use crate::words::word_at;

/// The longest input and the most room a stream holds: 66 blocks.
pub const MOST: usize = 66 * BLOCK;
/// Bytes of a request before its input.
const HEADER: usize = 5;
/// What every byte of the lent output holds before a call.
const FILL: u8 = 0xA5;

#[derive(Clone, Copy, Debug, PartialEq, Eq)]
pub enum Call {
    Load = 0,
    Write = 1,
}

#[derive(Clone, Debug, PartialEq, Eq)]
pub struct Request {
    pub call: Call,
    /// The length of the lent output.
    pub room: u16,
    /// The program file of a load, the operations of a write.
    pub input: Vec<u8>,
}

impl Request {
    fn bytes(&self) -> Vec<u8> {
        let mut bytes = vec![self.call as u8];
        bytes.extend(self.room.to_le_bytes());
        bytes.extend((self.input.len() as u16).to_le_bytes());
        bytes.extend(&self.input);
        bytes
    }

    /// The answer `N B C`: the refusal's number or 0, the bytes written, the
    /// check of the whole lent output after the call.
    pub fn answer(&self) -> String {
        let mut out = vec![FILL; self.room.into()];
        let answer = match self.call {
            Call::Load => load(&self.input, &mut out),
            Call::Write => write(&self.input, &mut out),
        };
        let (number, bytes) = match answer {
            Ok(bytes) => (0, bytes),
            Err(number) => (number, 0),
        };
        let check = check(out.iter().map(|&byte| byte.into())) % 65_536;
        format!("{number} {bytes} {check}")
    }
}

/// The stream of at most 65,535 requests.
pub fn stream_of(requests: &[Request]) -> Vec<u8> {
    let mut stream = (requests.len() as u16).to_le_bytes().to_vec();
    stream.extend(requests.iter().flat_map(Request::bytes));
    stream
}

/// The requests of a stream; nothing where it breaks off, goes on after the
/// last one, asks for more than `MOST` or holds another call.
pub fn requests_of(stream: &[u8]) -> Option<Vec<Request>> {
    let (count, mut rest) = stream.split_at_checked(2)?;
    let mut requests = Vec::new();
    for _ in 0..word_at(count, 0) {
        let (request, after) = next_request(rest)?;
        requests.push(request);
        rest = after;
    }
    rest.is_empty().then_some(requests)
}

fn next_request(stream: &[u8]) -> Option<(Request, &[u8])> {
    let (header, rest) = stream.split_at_checked(HEADER)?;
    let call = match header[0] {
        0 => Call::Load,
        1 => Call::Write,
        _ => return None,
    };
    let (room, length) = (word_at(header, 1), usize::from(word_at(header, 3)));
    if usize::from(room) > MOST || length > MOST {
        return None;
    }
    let (input, rest) = rest.split_at_checked(length)?;
    let input = input.to_vec();
    Some((Request { call, room, input }, rest))
}

/// The answers of a stream, a line each.
pub fn answers(requests: &[Request]) -> String {
    let line = |request: &Request| request.answer() + "\n";
    requests.iter().map(line).collect()
}
