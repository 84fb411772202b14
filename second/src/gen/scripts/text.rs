//! Scripts as text.

use std::fmt;

use super::{Answer, Call, Script};
use crate::gen::{Case, CaseAnswer, Exchange, Hex};
use crate::joining::Joined;
use crate::line::Line;
use crate::table::Verdict;

impl fmt::Display for Call {
    fn fmt(&self, f: &mut fmt::Formatter) -> fmt::Result {
        match self {
            Call::Share {
                message,
                r,
                s,
                room,
            } => write!(f, "share {r} {s} {room} {}", Hex(message)),
            Call::RoundOne { id, joined, room } => write!(f, "one {id} {room} {}", Hex(joined)),
            Call::RoundTwo { id, joined } => write!(f, "two {id} {}", Hex(joined)),
            Call::Enter { id } => write!(f, "enter {id}"),
            Call::Drop { id } => write!(f, "drop {id}"),
            Call::Close { room } => write!(f, "close {room}"),
        }
    }
}

impl fmt::Display for Answer {
    fn fmt(&self, f: &mut fmt::Formatter) -> fmt::Result {
        match self {
            Answer::Message(message) => write!(f, "message {}", Hex(message)),
            Answer::Verdict(Verdict::Accepted) => f.write_str("accepted"),
            Answer::Verdict(Verdict::Rejected) => f.write_str("rejected"),
            Answer::Entered => f.write_str("entered"),
            Answer::Dropped => f.write_str("dropped"),
            Answer::Refused(number) => write!(f, "refused {number}"),
        }
    }
}

/// One line for each call, and one for each answer:
///
/// ```text
/// open <S> <N> <Q> <sheet>
/// try <S> <own> <N> <Q> <sheet>
/// = refused <number>
/// at <server> share <r> <s> <room> <message> | one <id> <room> <joined> | two <id> <joined>
///     | enter <id> | drop <id> | close <room>
/// = message <bytes> | accepted | rejected | entered | dropped | refused <number>
/// join <S> <N> <room> <sheet> <joined>
/// = joined <count> <totals> | refused <number>
/// line <S> <N> <column> <sheet> <joined>
/// = line <determinant> <slope> <intercept> | refused <number>
/// ```
impl fmt::Display for Script {
    fn fmt(&self, f: &mut fmt::Formatter) -> fmt::Result {
        writeln!(
            f,
            "open {} {} {} {}",
            self.servers,
            self.limit,
            self.least,
            Hex(&self.sheet)
        )?;
        for exchange in &self.openings {
            tell(f, exchange)?;
        }
        for step in &self.steps {
            writeln!(f, "at {} {}\n= {}", step.server, step.call, step.answer)?;
        }
        for exchange in &self.joins {
            tell(f, exchange)?;
        }
        Ok(())
    }
}

/// An opening, a join or a line with its answer; nothing for the text of recount.
fn tell(f: &mut fmt::Formatter, exchange: &Exchange) -> fmt::Result {
    match &exchange.case {
        Case::Open {
            servers,
            own,
            sheet,
            limit,
            least,
        } => writeln!(f, "try {servers} {own} {limit} {least} {}", Hex(sheet))?,
        Case::Join {
            servers,
            sheet,
            limit,
            joined,
            room,
        } => {
            let (sheet, joined) = (Hex(sheet), Hex(joined));
            writeln!(f, "join {servers} {limit} {room} {sheet} {joined}")?;
        }
        Case::Line(x) => {
            write!(f, "line {} {} {} ", x.servers, x.limit, x.column)?;
            writeln!(f, "{} {}", Hex(&x.sheet), Hex(&x.joined))?;
        }
        _ => return Ok(()),
    }
    tell_answer(f, &exchange.answer)
}

fn tell_answer(f: &mut fmt::Formatter, answer: &CaseAnswer) -> fmt::Result {
    match answer {
        CaseAnswer::Joined(Joined { count, totals }) => {
            writeln!(f, "= joined {count} {}", Hex(totals))
        }
        CaseAnswer::Line(Line {
            determinant,
            slope,
            intercept,
        }) => writeln!(f, "= line {determinant} {slope} {intercept}"),
        CaseAnswer::Refused(number) => writeln!(f, "= refused {number}"),
        _ => Ok(()),
    }
}
