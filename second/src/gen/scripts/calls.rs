//! The calls of a script, their answers, and the tables that take them.

use crate::table::{self, Form, Standing, Table, Verdict};

/// A call on a table.
#[derive(Clone, Debug, PartialEq, Eq)]
#[allow(missing_docs)]
pub enum Call {
    /// A share with its challenges.
    Share {
        message: Vec<u8>,
        r: u64,
        s: u64,
        room: usize,
    },
    /// Round one's joined messages for an id.
    RoundOne {
        id: u32,
        joined: Vec<u8>,
        room: usize,
    },
    /// Round two's joined messages for an id.
    RoundTwo { id: u32, joined: Vec<u8> },
    /// An entry of an id.
    Enter { id: u32 },
    /// A drop of an id.
    Drop { id: u32 },
    /// A close.
    Close { room: usize },
}

/// The answer to a call.
#[derive(Clone, Debug, PartialEq, Eq)]
pub enum Answer {
    /// The message that was written.
    Message(Vec<u8>),
    /// Round two's verdict.
    Verdict(Verdict),
    /// An entry was taken.
    Entered,
    /// A drop was taken.
    Dropped,
    /// The refusal's number.
    Refused(u32),
}

impl Answer {
    /// A message of so many bytes.
    fn of<const N: usize>(message: [u8; N]) -> Answer {
        Answer::Message(message.to_vec())
    }
}

/// One call at one server, with the plain form's answer.
#[derive(Clone, Debug, PartialEq, Eq)]
pub struct Step {
    /// The server's number.
    pub server: u32,
    /// The call.
    pub call: Call,
    /// The plain form's answer.
    pub answer: Answer,
    /// Where the server's pool stands afterwards, by the plain form.
    pub standing: Standing,
}

/// A table that takes the calls of a script.
pub trait Server {
    /// Carries out one call.
    fn call(&mut self, call: &Call) -> Answer;
}

/// Tables of the plain and the fast form.
impl<F: Form> Server for Table<F> {
    fn call(&mut self, call: &Call) -> Answer {
        let answer = match call {
            Call::Share {
                message,
                r,
                s,
                room,
            } => table::share(self, message, *r, *s, *room).map(Answer::of),
            Call::RoundOne { id, joined, room } => {
                table::round_one(self, *id, joined, *room).map(Answer::of)
            }
            Call::RoundTwo { id, joined } => {
                table::round_two(self, *id, joined).map(Answer::Verdict)
            }
            Call::Enter { id } => table::enter(self, *id).map(|()| Answer::Entered),
            Call::Drop { id } => table::drop(self, *id).map(|()| Answer::Dropped),
            Call::Close { room } => table::close(self, *room).map(Answer::Message),
        };
        answer.unwrap_or_else(Answer::Refused)
    }
}
