//! The end of a script: its joins, and what must come out.

use super::builder::Builder;
use super::{Answer, Call, Script};
use crate::field;
use crate::gen::any::wrong_least;
use crate::gen::closings::{closing, damage_closings, recount_input};
use crate::gen::sheets::with_point;
use crate::gen::{added_up, Case, Exchange, Fit};
use crate::joining::Joined;
use crate::table::Table;

impl Builder {
    /// Openings of the same pool with a Q outside 1 to N, in half of the scripts.
    fn openings(&mut self) -> Vec<Exchange> {
        let count = self.rng.pick([0, 0, 1, 3]);
        let servers = 0..self.servers;
        let opening = |own| {
            Exchange::of(Case::Open {
                servers: self.servers,
                own,
                sheet: self.bytes.clone(),
                limit: self.limit,
                least: wrong_least(&mut self.rng, self.limit),
            })
        };
        servers.cycle().take(count).map(opening).collect()
    }

    /// Joins at the end: the closing messages as they are, then damaged ones.
    fn joins(&mut self) -> Vec<Exchange> {
        let published = self.sheet.published();
        let mut joined = Vec::new();
        for server in 0..self.servers {
            match self.closings.get(&server) {
                Some(message) => joined.extend_from_slice(message),
                None => {
                    let entered = self.tables[server as usize].entered();
                    joined.extend(closing(&mut self.rng, server, entered, published));
                }
            }
        }
        let join = |limit: u32, joined: Vec<u8>, room: usize| {
            Exchange::of(Case::Join {
                servers: self.servers,
                sheet: self.bytes.clone(),
                limit,
                joined,
                room,
            })
        };
        let needed = field::WIDTH * published;
        let mut joins = vec![
            join(self.limit, joined.clone(), needed),
            join(self.limit, joined.clone(), needed - 1),
            join(self.tables[0].entered(), joined.clone(), needed),
        ];
        for _ in 0..2 {
            let mut damaged = joined.clone();
            damage_closings(&mut self.rng, &mut damaged, published, self.limit);
            joins.push(join(self.limit, damaged, needed));
        }
        let input = recount_input(self.servers, &self.bytes, self.limit, &joined);
        joins.push(Exchange::of(Case::Recount { input }));
        joins.extend(self.line(joined));
        joins
    }

    /// The line of a column of kind 21, if there is one.
    fn line(&mut self, joined: Vec<u8>) -> Option<Exchange> {
        let number = with_point(&mut self.rng, &self.sheet)?;
        Some(Exchange::of(Case::Line(Fit {
            servers: self.servers,
            sheet: self.bytes.clone(),
            limit: self.limit,
            joined,
            column: number as u32 + 1,
        })))
    }

    /// The count and the totals of the returns that were entered.
    fn truth(&self) -> Joined {
        let mut count = 0;
        let mut totals = vec![0; self.sheet.published()];
        // All servers enter the same ones: server 0 is asked.
        for step in self.steps.iter().filter(|step| step.server == 0) {
            let (Call::Enter { id }, Answer::Entered) = (&step.call, &step.answer) else {
                continue;
            };
            count += 1;
            let given = self.returns.iter().find(|given| given.id == *id);
            let whole = given.and_then(|given| added_up(&self.sheet, &given.shares));
            let whole = whole.unwrap_or_default();
            for (total, entry) in totals.iter_mut().zip(self.sheet.published_entries()) {
                *total = field::add(*total, whole.get(entry).copied().unwrap_or(0));
            }
        }
        let totals = totals.into_iter().flat_map(field::bytes).collect();
        Joined { count, totals }
    }

    /// The finished script.
    pub fn finish(mut self, orderly: bool) -> Script {
        let openings = self.openings();
        let joins = self.joins();
        let closed = self.tables.iter().all(Table::closed);
        let truth = (orderly && closed).then(|| self.truth());
        Script {
            seed: self.seed,
            servers: self.servers,
            sheet: self.bytes,
            limit: self.limit,
            least: self.least,
            openings,
            returns: self.returns,
            steps: self.steps,
            joins,
            truth,
        }
    }
}
