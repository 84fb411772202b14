//! What a table knows, its refusals and its rounds: the same for every form.

use super::{Stage, Standing, Verdict, Worked, CLOSING, PLACES};
use crate::field::{self, P};
use crate::judging::{
    check_challenges, round_one_message, round_one_sums, round_two_message, round_two_sums,
    share_parts, sigma, Findings, Held, ROUND_ONE_LENGTH, ROUND_TWO_LENGTH,
};
use crate::limits::{check_opening, check_servers};
use crate::refusal;
use crate::sheet::Sheet;

/// All that a table knows, apart from how it works on a share.
#[derive(Clone, Debug, PartialEq, Eq)]
pub(super) struct State {
    servers: u32,
    own: u32,
    pub sheet: Sheet,
    limit: u32,
    /// Q.
    least: u32,
    pub decided: Vec<u32>,
    pub entered: u32,
    /// Sums of the published entries over the entered returns. At most 1,024 elements
    /// meet in a sum, so it is reduced only when it is written.
    totals: Vec<u64>,
    /// The returns that wait, each at its place. A share goes to the first free one.
    places: [Option<Waiting>; PLACES],
    pub closed: bool,
}

/// A return that waits.
#[derive(Clone, Debug, PartialEq, Eq)]
pub(super) struct Waiting {
    pub id: u32,
    findings: Findings,
    published: Vec<u64>,
    progress: Progress,
}

/// What a return waits for: a round, with the message that this server wrote for it, or entry.
#[derive(Clone, Debug, PartialEq, Eq)]
enum Progress {
    One([u8; ROUND_ONE_LENGTH]),
    Two([u8; ROUND_TWO_LENGTH]),
    Accepted,
}

impl Waiting {
    pub fn stage(&self) -> Stage {
        match self.progress {
            Progress::One(_) => Stage::AwaitsRoundOne,
            Progress::Two(_) => Stage::AwaitsRoundTwo,
            Progress::Accepted => Stage::AwaitsEntry,
        }
    }

    pub fn message(&self) -> Option<&[u8]> {
        match &self.progress {
            Progress::One(message) => Some(message),
            Progress::Two(message) => Some(message),
            Progress::Accepted => None,
        }
    }
}

impl State {
    pub fn open(
        servers: u32,
        own: u32,
        sheet: &[u8],
        limit: u32,
        least: u32,
    ) -> Result<State, u32> {
        check_servers(servers)?;
        if own >= servers {
            return Err(refusal::LIMIT);
        }
        let sheet = Sheet::read(sheet)?;
        check_opening(sheet.largest(), limit, least)?;
        Ok(State {
            servers,
            own,
            limit,
            least,
            decided: Vec::new(),
            entered: 0,
            totals: vec![0; sheet.published()],
            places: Default::default(),
            closed: false,
            sheet,
        })
    }

    pub fn standing(&self) -> Standing {
        Standing {
            servers: self.servers,
            own: self.own,
            limit: self.limit,
            least: self.least,
            closed: self.closed,
            decided: self.decided.len() as u32,
            entered: self.entered,
            waiting: self.waiting().count() as u32,
        }
    }

    /// The returns that wait, in the order of their places.
    pub fn waiting(&self) -> impl Iterator<Item = &Waiting> {
        self.places.iter().flatten()
    }

    /// The place of the return that waits under an id.
    fn place(&self, id: u32) -> Option<usize> {
        let waits = |place: &Option<Waiting>| place.as_ref().is_some_and(|own| own.id == id);
        self.places.iter().position(waits)
    }

    /// The first free place.
    fn free(&self) -> Option<usize> {
        self.places.iter().position(Option::is_none)
    }

    /// Whether this is server 0, the only one that adds constants.
    pub fn first(&self) -> bool {
        self.own == 0
    }

    /// A share's refusals: 11, 13, 7, 8, 10, 9, 14. Gives the id and the bytes of
    /// L + 2M + 6 elements, all below p, or their seed.
    pub fn check_share<'a>(
        &self,
        message: &'a [u8],
        r: u64,
        s: u64,
        room: usize,
    ) -> Result<(u32, Held<'a>), u32> {
        // "A ninth return, an id not waiting, or a close while any waits is refused 11."
        if self.closed || self.free().is_none() {
            return Err(refusal::STAGE);
        }
        // "Decided and waiting together never exceed N, and 13 is given when they reach it."
        if self.decided.len() + self.waiting().count() >= self.limit as usize {
            return Err(refusal::FULL);
        }
        let (id, held) = share_parts(&self.sheet, self.own, message)?;
        // What comes of a seed is below p.
        if matches!(held, Held::Elements(bytes) if !field::all_elements(bytes)) {
            return Err(refusal::ELEMENT);
        }
        // "An id that waits is refused 10."
        if self.decided.contains(&id) || self.place(id).is_some() {
            return Err(refusal::DECIDED);
        }
        check_challenges(self.sheet.multiplications(), r, s)?;
        if room < ROUND_ONE_LENGTH {
            return Err(refusal::ROOM);
        }
        Ok((id, held))
    }

    /// "A share leads to the first wait." Gives the round one message. Refusal 11 where no
    /// place is free, which a share's refusals leave out.
    pub fn note_share(
        &mut self,
        id: u32,
        r: u64,
        s: u64,
        worked: Worked,
    ) -> Result<[u8; ROUND_ONE_LENGTH], u32> {
        let Worked {
            findings,
            published,
        } = worked;
        let free = self.free().ok_or(refusal::STAGE)?;
        let message = round_one_message(id, self.own, [findings.d, findings.e], [r, s]);
        self.places[free] = Some(Waiting {
            id,
            findings,
            published,
            progress: Progress::One(message),
        });
        Ok(message)
    }

    /// The place of the return that waits under an id, and what it waits for. Refusal 11.
    fn progress(&self, id: u32) -> Result<(usize, &Progress), u32> {
        let place = self.place(id).ok_or(refusal::STAGE)?;
        let waiting = self.places[place].as_ref().ok_or(refusal::STAGE)?;
        Ok((place, &waiting.progress))
    }

    /// The return at a place where one waits.
    fn waiting_at(&mut self, place: usize) -> Result<&mut Waiting, u32> {
        self.places[place].as_mut().ok_or(refusal::STAGE)
    }

    pub fn round_one(
        &mut self,
        id: u32,
        joined: &[u8],
        room: usize,
    ) -> Result<[u8; ROUND_TWO_LENGTH], u32> {
        let (place, Progress::One(written)) = self.progress(id)? else {
            return Err(refusal::STAGE);
        };
        let (d, e) = round_one_sums(self.servers, written, joined)?;
        if room < ROUND_TWO_LENGTH {
            return Err(refusal::ROOM);
        }
        // "Round one [leads] to the second [wait]."
        let (own, first) = (self.own, self.first());
        let waiting = self.waiting_at(place)?;
        let sigma = sigma(&waiting.findings, first, d, e);
        let message = round_two_message(id, own, sigma, waiting.findings.tau);
        waiting.progress = Progress::Two(message);
        Ok(message)
    }

    pub fn round_two(&mut self, id: u32, joined: &[u8]) -> Result<Verdict, u32> {
        let (place, Progress::Two(written)) = self.progress(id)? else {
            return Err(refusal::STAGE);
        };
        let sums = round_two_sums(self.servers, written, joined)?;
        // "Accepted when both sums are 0 modulo p." "A rejected one is decided straight away."
        if sums != (0, 0) {
            self.decide(place)?;
            return Ok(Verdict::Rejected);
        }
        // "An accepted return then waits until it is entered or dropped."
        self.waiting_at(place)?.progress = Progress::Accepted;
        Ok(Verdict::Accepted)
    }

    pub fn enter(&mut self, id: u32) -> Result<(), u32> {
        // "Entering a return that has no accepted verdict ... is refused 11."
        let (place, Progress::Accepted) = self.progress(id)? else {
            return Err(refusal::STAGE);
        };
        // "Entering adds it exactly once": its published entries, to the totals.
        let waiting = self.decide(place)?;
        for (total, &entry) in self.totals.iter_mut().zip(&waiting.published) {
            *total += entry;
        }
        self.entered += 1;
        Ok(())
    }

    pub fn drop(&mut self, id: u32) -> Result<(), u32> {
        // "Dropping is allowed while a return waits, and its id stays used." "A return accepted
        // but dropped is in none" of the totals.
        let place = self.place(id).ok_or(refusal::STAGE)?;
        self.decide(place).map(|_| ())
    }

    /// The return at a place is decided: its place is free and its id used.
    fn decide(&mut self, place: usize) -> Result<Waiting, u32> {
        let waiting = self.places[place].take().ok_or(refusal::STAGE)?;
        self.decided.push(waiting.id);
        Ok(waiting)
    }

    pub fn close(&mut self, room: usize) -> Result<Vec<u8>, u32> {
        // No close while any waits, for a round or for entry.
        if self.closed || self.waiting().next().is_some() {
            return Err(refusal::STAGE);
        }
        // "Closing with fewer than Q accepted gives no totals, and the pool stays open for
        // more, up to N decided." "Too few accepted is refused 15, between 11 and 14." There
        // "accepted now reads entered".
        if self.entered < self.least {
            return Err(refusal::FEW);
        }
        let length = self.sheet.closing_length();
        if room < length {
            return Err(refusal::ROOM);
        }
        // "Closing writes byte 36, server, accepted count (4 bytes), published totals." "The
        // accepted count is of entered returns."
        let mut message = Vec::with_capacity(length);
        message.push(CLOSING);
        message.push(self.own as u8);
        message.extend_from_slice(&self.entered.to_le_bytes());
        for &total in &self.totals {
            field::put(&mut message, total % P);
        }
        self.closed = true;
        Ok(message)
    }
}
