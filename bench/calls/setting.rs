// What the calls are given: a sheet, S and N, one honest return, a pair, and every message of its way to the totals.
// The second program makes all of it, so both sides get the same.
use second::gen::{self, Rng};
use second::{fast, field::P, Column, Sheet};

// The returns that a series takes one after another, and the N of its tables: there is room for others that wait.
pub const RETURNS: u32 = 64;
pub const LIMIT: u32 = RETURNS + 7;
// The Q of the tables: one entered return closes them.
pub const LEAST: u32 = 1;
pub const ROOM: usize = 32768;
// The bytes of a round-one and of a round-two message.
pub const ONE_BYTES: usize = 22;
pub const TWO_BYTES: usize = 14;
// The bytes of a seed, and of the random elements that are drawn beside seeds.
pub const SEED: usize = 32;
pub const FREE: usize = 16;

pub struct Setting {
    pub name: &'static str,
    pub sheet: Vec<u8>,
    pub servers: u32,
    pub entries: usize,
    pub gates: usize,
    pub tests: usize,
    pub published: usize,
    pub values: Vec<u8>,
    pub random: Vec<u8>,
    // S - 1 seeds, one after another
    pub seeds: Vec<u8>,
    pub r: u64,
    pub s: u64,
    // the share messages, one after another
    pub shares: Vec<u8>,
    // the joined messages of the rounds, and of closing
    pub ones: Vec<u8>,
    pub twos: Vec<u8>,
    pub closings: Vec<u8>,
    // the first column of points, from 1; 0 without one
    pub points: u32,
    // the joined messages of closing, told to be of two returns: one has no line
    pub lines: Vec<u8>,
}

pub const ID: u32 = 7;

impl Setting {
    pub fn new(name: &'static str, sheet: Vec<u8>, servers: u32) -> Setting {
        let read = Sheet::read(&sheet).expect("a sheet");
        let mut rng = Rng::new(u64::from(servers));
        let values = gen::values(&mut rng, &read);
        let random = gen::elements(&mut rng, (servers as usize - 1) * read.share_elements() + 4);
        let seeds = rng.bytes(SEED * (servers as usize - 1));
        let (r, s) = (rng.between(read.multiplications() as u64 + 1, P - 1), rng.below(P));
        let shares = fast::make(&sheet, servers, ID, &values, &random, ROOM).expect("a return");
        let mut tables: Vec<fast::Table> =
            (0..servers).map(|own| fast::open(servers, own, &sheet, LIMIT, LEAST).expect("a table")).collect();
        let messages = shares.chunks(read.share_length());
        let ones = tables.iter_mut().zip(messages).flat_map(|(t, m)| fast::share(t, m, r, s, ROOM).expect("round one"));
        let ones: Vec<u8> = ones.collect();
        let twos = tables.iter_mut().flat_map(|t| fast::round_one(t, ID, &ones, ROOM).expect("round two"));
        let twos: Vec<u8> = twos.collect();
        let closings = tables.iter_mut().flat_map(|t| {
            fast::round_two(t, ID, &twos).expect("a verdict");
            fast::enter(t, ID).expect("accepted");
            fast::close(t, ROOM).expect("totals")
        });
        let closings: Vec<u8> = closings.collect();
        Setting {
            points: first_points(&read),
            lines: of_two(&closings, read.closing_length()),
            closings,
            entries: read.entries(),
            gates: read.multiplications(),
            tests: read.tests(),
            published: read.published(),
            name,
            sheet,
            servers,
            values,
            random,
            seeds,
            r,
            s,
            shares,
            ones,
            twos,
        }
    }

    pub fn share_bytes(&self) -> usize {
        6 + 4 * (self.entries + 2 * self.gates + 6)
    }

    pub fn table_bytes(&self, returns: usize) -> usize {
        14 + self.sheet.len() + 4 * self.published + 4 * returns
    }

    // The numbers beside the eight records of a table.
    pub fn numbers(&self) -> usize {
        8 * (self.entries + 2 * self.gates + 8)
    }

    pub fn totals_bytes(&self) -> usize {
        6 + 4 * self.published
    }

    // What making from seeds writes.
    pub fn seeded_bytes(&self) -> usize {
        self.share_bytes() + (6 + SEED) * (self.servers as usize - 1)
    }

    // The seed message of server `own`, not 0.
    pub fn seed_message(&self, own: u32) -> Vec<u8> {
        let seed = &self.seeds[SEED * (own as usize - 1)..][..SEED];
        [&[38], &ID.to_le_bytes()[..], &[own as u8], seed].concat()
    }

    // The share message of server `own`.
    pub fn share(&self, own: u32) -> &[u8] {
        &self.shares[own as usize * self.share_bytes()..][..self.share_bytes()]
    }
}

fn first_points(sheet: &Sheet) -> u32 {
    let mut columns = (1..).zip(sheet.columns());
    columns.find(|(_, column)| matches!(column, Column::Point(_))).map_or(0, |(number, _)| number)
}

// Messages of closing with 2 in the place of their counts.
fn of_two(closings: &[u8], length: usize) -> Vec<u8> {
    let mut messages = closings.to_vec();
    messages.chunks_mut(length).for_each(|message| message[2] = 2);
    messages
}

// The sheets that are measured: M = 1, 24, 26, 256, and mixtures near 256, one of them with tops, one with points.
pub fn settings() -> Vec<Setting> {
    let sheets = [
        ("one yes/no", vec![17]),
        ("number of 24", vec![19, 24]),
        ("point of 12", vec![21, 12]),
        ("256 yes/no", vec![17; 256]),
        ("large mixture", [17, 18, 5, 19, 9, 17, 19, 3, 18, 2].repeat(11)),
        ("mixture, tops", [17, 18, 5, 19, 9, 20, 200, 0, 0, 0, 20, 1, 0, 0, 0].repeat(7)),
        ("with points", [17, 21, 11, 18, 5, 21, 3, 19, 9].repeat(4)),
    ];
    let with = |servers| sheets.clone().map(|(name, sheet)| Setting::new(name, sheet, servers));
    [2, 8].into_iter().flat_map(with).collect()
}
