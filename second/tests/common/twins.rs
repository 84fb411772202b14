//! A table in the plain and in the lent form, which must agree at every call.

use super::lent_table::Lent;
use second::gen::{Answer, Call, Script, Server};
use second::{lent, open, standing, Stage, Table};

/// A table in both forms.
#[derive(Clone, Debug, PartialEq)]
pub struct Twins {
    pub plain: Table,
    pub lent: Lent,
}

impl Twins {
    pub fn open(servers: u32, own: u32, sheet: &[u8], limit: u32, least: u32) -> Twins {
        Twins {
            plain: open(servers, own, sheet, limit, least).unwrap(),
            lent: Lent::open(servers, own, sheet, limit, least).unwrap(),
        }
    }

    /// S tables opened alike.
    pub fn open_all(servers: u32, sheet: &[u8], limit: u32, least: u32) -> Vec<Twins> {
        let open = |own| Twins::open(servers, own, sheet, limit, least);
        (0..servers).map(open).collect()
    }

    /// The tables of a script.
    pub fn of_script(script: &Script) -> Vec<Twins> {
        Twins::open_all(script.servers, &script.sheet, script.limit, script.least)
    }
}

impl Server for Twins {
    fn call(&mut self, call: &Call) -> Answer {
        let before = self.plain.clone();
        let answer = self.plain.call(call);
        assert_eq!(self.lent.call(call), answer, "{call}");
        if let Answer::Refused(_) = answer {
            assert_eq!(self.plain, before);
        }
        // The records that wait are those of the plain form, in its order.
        let waits = self.lent.slots.iter().filter(|slot| slot.stage != 0);
        let records: Vec<(u32, u32)> = waits.map(|slot| (slot.id, slot.stage)).collect();
        let waiting = self.plain.waiting();
        let waiting: Vec<(u32, u32)> = waiting
            .into_iter()
            .map(|(id, stage)| match stage {
                Stage::AwaitsRoundOne => (id, 1),
                Stage::AwaitsRoundTwo => (id, 2),
                Stage::AwaitsEntry => (id, 3),
            })
            .collect();
        assert_eq!(records, waiting);
        let mut copy = self.lent.clone();
        let told = lent::standing(&mut copy.bytes, &mut copy.slots, &mut copy.numbers);
        assert_eq!(told, Ok(standing(&self.plain)));
        answer
    }
}
