//! Scripts under demand 3's conditions.

use super::builder::Builder;
use super::{Answer, Call};
use crate::gen::any::any_room;
use crate::gen::pair;
use crate::judging::{ROUND_ONE, ROUND_ONE_LENGTH, ROUND_TWO, ROUND_TWO_LENGTH};
use crate::table::{Table, Verdict};

/// A return on its way through the pool.
struct Course {
    number: usize,
    phase: Phase,
    /// The servers that this phase has still to call.
    left: Vec<u32>,
    /// The servers that took their share.
    reached: Vec<u32>,
    /// The r and s that each server uses.
    pairs: Vec<(u64, u64)>,
    /// Whether a server refused round one, for challenges that differ.
    refused: bool,
    /// Whether a server rejected it, as all do then.
    rejected: bool,
}

/// The calls that a return meets at the servers, one phase after the other.
#[derive(Clone, Copy, PartialEq)]
enum Phase {
    Share,
    One,
    Two,
    Enter,
    Drop,
}

impl Course {
    /// Notes what a server answered. A share may be refused: 13 past N, 11 where eight wait.
    /// Round one may be refused 16.
    fn note(&mut self, server: u32, answer: &Answer) {
        let taken = matches!(answer, Answer::Message(_));
        match self.phase {
            Phase::Share if taken => self.reached.push(server),
            Phase::One => self.refused |= !taken,
            Phase::Two => self.rejected |= *answer == Answer::Verdict(Verdict::Rejected),
            _ => {}
        }
    }
}

impl Builder {
    /// Takes the planned returns through the pool, then closes. While too few are entered, more
    /// returns come, and another close.
    pub fn orderly(&mut self) {
        // So many are under way at once. With nine, a server may meet one too many.
        let most = self.rng.pick([1, 3, 8, 8, 9, 10]);
        self.take(self.planned, most);
        while !self.close_all() && self.goes_on() {
            let more = self.rng.between(1, 3);
            self.take(more, most);
        }
    }

    /// Takes so many new returns through the pool, their calls mixed.
    fn take(&mut self, planned: u64, most: usize) {
        let mut courses: Vec<Course> = Vec::new();
        let mut started = 0;
        while started < planned || !courses.is_empty() {
            let more = started < planned && courses.len() < most;
            if more && (courses.is_empty() || self.rng.chance(40)) {
                courses.push(self.start());
                started += 1;
            }
            let at = self.rng.index(courses.len());
            if !self.advance(&mut courses[at]) {
                courses.swap_remove(at);
            }
        }
        self.catch_up();
    }

    /// The servers that stopped between verdict and entry go on.
    fn catch_up(&mut self) {
        let mut late = std::mem::take(&mut self.late);
        self.rng.shuffle(&mut late);
        for (server, id) in late {
            self.noise(server);
            self.call(server, Call::Enter { id });
        }
    }

    /// Closes at every server; tells whether the tables are closed.
    fn close_all(&mut self) -> bool {
        for server in self.order() {
            self.noise(server);
            let room = any_room(&mut self.rng, self.sheet.closing_length(), 0);
            self.call(server, Call::Close { room });
            self.noise(server);
        }
        self.tables.iter().all(Table::closed)
    }

    /// A new return. Now and then some servers never get their share.
    fn start(&mut self) -> Course {
        let number = self.new_return();
        let mut left = self.order();
        if self.rng.chance(8) {
            left.retain(|_| self.rng.chance(50));
        }
        Course {
            number,
            phase: Phase::Share,
            left,
            reached: Vec::new(),
            pairs: self.pairs(number),
            refused: false,
            rejected: false,
        }
    }

    /// The r and s that each server uses for a return: all the same; now and then another r or
    /// s, or both, at one server; now and then any at each.
    fn pairs(&mut self, number: usize) -> Vec<(u64, u64)> {
        let (r, s) = (self.returns[number].r, self.returns[number].s);
        let gates = self.sheet.multiplications();
        let rng = &mut self.rng;
        let mut pairs = vec![(r, s); self.servers as usize];
        match rng.below(20) {
            0 | 1 => {
                let other = pair(rng, gates);
                let slip = rng.index(pairs.len());
                pairs[slip] = rng.pick([(other.0, s), (r, other.1), other]);
            }
            2 => pairs.fill_with(|| pair(rng, gates)),
            _ => {}
        }
        pairs
    }

    /// Makes a return's next call; tells whether more are to come.
    fn advance(&mut self, course: &mut Course) -> bool {
        if course.phase == Phase::Enter && self.rng.chance(5) {
            // The servers that have still to enter it stop, and go on before the close.
            let id = self.returns[course.number].id;
            self.late
                .extend(course.left.drain(..).map(|server| (server, id)));
        }
        if let Some(server) = course.left.pop() {
            self.noise(server);
            let call = self.next_call(course, server);
            let answer = self.call(server, call);
            course.note(server, &answer);
        }
        let round = matches!(course.phase, Phase::One | Phase::Two);
        let broken_off = round && self.rng.chance(1);
        if !course.left.is_empty() && !broken_off {
            return true;
        }
        let Some(phase) = self.next_phase(course) else {
            return false;
        };
        course.phase = phase;
        course.left = self.order();
        course.left.retain(|server| course.reached.contains(server));
        !course.left.is_empty()
    }

    /// The phase after one that every server was called in, or that was broken off, after which
    /// all drop the return: "no id dropped at one server is entered at another, whatever its
    /// verdict there". "With unaltered messages the return keeps waiting, and only dropping ends
    /// it", where the challenges differ: some servers try once more.
    fn next_phase(&mut self, course: &Course) -> Option<Phase> {
        let whole = course.reached.len() == self.servers as usize && course.left.is_empty();
        let drop = !whole || self.rng.chance(4);
        match course.phase {
            Phase::Enter | Phase::Drop => None,
            Phase::Two if whole && course.rejected => None,
            Phase::One if whole && course.refused && self.rng.chance(20) => Some(Phase::One),
            _ if drop || course.refused => Some(Phase::Drop),
            Phase::Share => Some(Phase::One),
            Phase::One => Some(Phase::Two),
            Phase::Two => Some(Phase::Enter),
        }
    }

    /// The call of a return's phase at a server.
    fn next_call(&mut self, course: &Course, server: u32) -> Call {
        let given = &self.returns[course.number];
        let id = given.id;
        let message = given.shares[server as usize].clone();
        let (r, s) = course.pairs[server as usize];
        match course.phase {
            Phase::Share => Call::Share {
                message,
                r,
                s,
                room: any_room(&mut self.rng, ROUND_ONE_LENGTH, 0),
            },
            Phase::One => Call::RoundOne {
                id,
                joined: self.joined(id, ROUND_ONE),
                room: any_room(&mut self.rng, ROUND_TWO_LENGTH, 0),
            },
            Phase::Two => Call::RoundTwo {
                id,
                joined: self.joined(id, ROUND_TWO),
            },
            Phase::Enter => Call::Enter { id },
            Phase::Drop => Call::Drop { id },
        }
    }
}
