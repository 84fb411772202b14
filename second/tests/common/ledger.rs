//! What a plain ledger notes of one server, read off the calls of a script and their answers.

use std::collections::{BTreeMap, BTreeSet};

use super::{challenges_of, closing, each_message, id_of, sums, ONE_BYTES, TWO_BYTES};
use second::field;
use second::gen::{elements_of, Answer, Call, Script};
use second::{Sheet, Verdict};

const STAGE: Answer = Answer::Refused(11);

/// The shares that a server took, by id, the ids that wait, and what became of the others.
#[derive(Default)]
pub struct Ledger {
    pub taken: BTreeMap<u32, (Vec<u64>, u64, u64)>,
    /// What an id waits for: 1 and 2 for that round, 3 for entry.
    pub waiting: BTreeMap<u32, u32>,
    /// How many waited at most, and how many of them for entry.
    pub most: usize,
    pub most_accepted: usize,
    /// The ids with an accepted verdict, entered since or not.
    pub accepted: BTreeSet<u32>,
    pub entered: Vec<u32>,
    pub rejected: Vec<u32>,
    pub dropped: Vec<u32>,
    pub closing: Option<Vec<u8>>,
    /// A close was refused 15.
    pub few: bool,
    /// The ids of which a round one was refused 16.
    pub unequal: BTreeSet<u32>,
}

impl Ledger {
    /// The ledgers of a script's servers.
    pub fn all(script: &Script) -> Vec<Ledger> {
        let mut ledgers: Vec<Ledger> = (0..script.servers).map(|_| Ledger::default()).collect();
        for step in &script.steps {
            ledgers[step.server as usize].note(script, &step.call, &step.answer);
        }
        ledgers
    }

    /// How many returns are decided.
    pub fn decided(&self) -> usize {
        self.entered.len() + self.rejected.len() + self.dropped.len()
    }

    /// Notes a call with its answer. Which calls are refused 11 is told from the ledger.
    fn note(&mut self, script: &Script, call: &Call, answer: &Answer) {
        let open = self.closing.is_none();
        let waits = |id: &u32| self.waiting.get(id).copied().filter(|_| open);
        let takes = match call {
            Call::Share { .. } => open && self.waiting.len() < 8,
            Call::RoundOne { id, .. } => waits(id) == Some(1),
            Call::RoundTwo { id, .. } => waits(id) == Some(2),
            Call::Enter { id } => waits(id) == Some(3),
            Call::Drop { id } => waits(id).is_some(),
            Call::Close { .. } => open && self.waiting.is_empty(),
        };
        assert_eq!(*answer != STAGE, takes, "{call}");
        match call {
            _ if !takes => {}
            Call::Share { message, r, s, .. } => self.share(script, message, (*r, *s), answer),
            Call::RoundOne { id, joined, .. } => self.round_one(*id, joined, answer),
            Call::RoundTwo { id, joined } => self.round_two(*id, joined, answer),
            Call::Enter { id } => {
                assert_eq!(*answer, Answer::Entered);
                self.waiting.remove(id);
                self.entered.push(*id);
            }
            Call::Drop { id } => {
                assert_eq!(*answer, Answer::Dropped);
                self.waiting.remove(id);
                self.dropped.push(*id);
            }
            Call::Close { .. } => self.close(script.least, answer),
        }
    }

    /// 13 with N decided and waiting; 10 only for an id that is, or was, one of them.
    fn share(&mut self, script: &Script, message: &[u8], (r, s): (u64, u64), answer: &Answer) {
        let full = self.decided() + self.waiting.len() >= script.limit as usize;
        assert_eq!(*answer == Answer::Refused(13), full);
        if *answer == Answer::Refused(10) {
            assert!(self.taken.contains_key(&id_of(message)));
        }
        let Answer::Message(written) = answer else {
            return;
        };
        assert_eq!(written.len(), ONE_BYTES);
        assert_eq!(challenges_of(written), (r, s));
        let id = id_of(message);
        let sheet = Sheet::read(&script.sheet).unwrap();
        let elements = elements_of(&sheet, message).unwrap();
        assert!(self.taken.insert(id, (elements, r, s)).is_none());
        self.waiting.insert(id, 1);
        self.most = self.most.max(self.waiting.len());
    }

    /// Taken with the challenges of the share in all messages, refused 16 with others in some.
    fn round_one(&mut self, id: u32, joined: &[u8], answer: &Answer) {
        if !matches!(answer, Answer::Message(_) | Answer::Refused(16)) {
            return;
        }
        let (_, r, s) = self.taken[&id];
        let same = each_message(joined).all(|message| challenges_of(message) == (r, s));
        assert_eq!(*answer == Answer::Refused(16), !same);
        match answer {
            Answer::Message(written) => {
                assert_eq!(written.len(), TWO_BYTES);
                self.waiting.insert(id, 2);
            }
            _ => {
                self.unequal.insert(id);
            }
        }
    }

    /// Rejected, an id is decided; accepted, it waits.
    fn round_two(&mut self, id: u32, joined: &[u8], answer: &Answer) {
        let Answer::Verdict(verdict) = answer else {
            return;
        };
        let accepted = *verdict == Verdict::Accepted;
        assert_eq!(sums(joined) == (0, 0), accepted);
        if accepted {
            self.waiting.insert(id, 3);
            self.accepted.insert(id);
            let waits = self.waiting.values().filter(|&&stage| stage == 3).count();
            self.most_accepted = self.most_accepted.max(waits);
        } else {
            self.waiting.remove(&id);
            self.rejected.push(id);
        }
    }

    /// Done with Q entered or more, 15 with fewer, and 14 only with Q or more.
    fn close(&mut self, least: u32, answer: &Answer) {
        let few = self.entered.len() < least as usize;
        assert_eq!(*answer == Answer::Refused(15), few);
        self.few |= few;
        if let Answer::Message(message) = answer {
            self.closing = Some(message.clone());
        }
    }

    /// The closing message that the ledger comes to.
    pub fn expected_closing(&self, sheet: &Sheet, server: usize) -> Vec<u8> {
        let totals: Vec<u32> = sheet
            .published_entries()
            .map(|entry| {
                let shares = self.entered.iter().map(|id| self.taken[id].0[entry]);
                field::sum(shares) as u32
            })
            .collect();
        closing(server as u8, self.entered.len() as u32, &totals)
    }
}
