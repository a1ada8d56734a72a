//! One case at a time: the library and the reference on the same input, with guards around all that is lent.

use crate::abi::{self, Columns, Reply};
use crate::changes::{self, Answer, Dump};
use crate::graphs::Tables;
use crate::lent::Yard;
use crate::random::Random;
use crate::reference::{self, Low, Refusal};
use crate::solving;
use crate::tallying::{self, Seen};
use crate::texts::{Case, Table};

/// The memory that is lent, and the generator for old contents and places.
pub struct Bench {
    text: Yard,
    code: Yard,
    columns: Vec<Yard>,
    list: Yard,
    seen: [Yard; 2],
    low: [Yard; 3],
    random: Random,
}

/// The reply of an answer: number 0 with its values, or the number and the place with values 0.
fn reply(answer: Result<(i64, u64), Refusal>) -> Reply {
    match answer {
        Ok((value, more)) => Reply { number: 0, place: 0, value, more },
        Err(refusal) => Reply { number: refusal.number, place: refusal.place, value: 0, more: 0 },
    }
}

fn agree(wanted: Reply, given: Reply) -> Result<Reply, String> {
    if wanted == given {
        Ok(given)
    } else {
        Err(format!("the reference says {wanted:?}, the library {given:?}"))
    }
}

/// `old` with `rows` over its first places.
fn filled<T: Copy>(old: &[T], rows: &[T]) -> Vec<T> {
    let mut filled = old.to_vec();
    filled[..rows.len()].copy_from_slice(rows);
    filled
}

fn unchanged(ok: bool, what: &str) -> Result<(), String> {
    if ok { Ok(()) } else { Err(format!("{what}: other contents than wanted, or a byte around it has changed")) }
}

impl Bench {
    pub fn new(seed: u64) -> Bench {
        let column = || Yard::new(64 * 1024);
        Bench {
            text: Yard::new(512 * 1024),
            code: Yard::new(64 * 1024),
            columns: (0..9).map(|_| column()).collect(),
            list: Yard::new(2 * 1_048_600),
            seen: [column(), column()],
            low: [column(), column(), column()],
            random: Random::new(seed),
        }
    }

    pub fn read(&mut self, case: &Case) -> Result<Reply, String> {
        match case.table {
            Table::Blocks => self.read_blocks(case),
            Table::Loops => self.read_loops(case),
        }
    }

    fn read_blocks(&mut self, case: &Case) -> Result<Reply, String> {
        let Bench { text, columns, random, .. } = self;
        let [a, b, c, d, e] = case.lengths;
        let cost: Vec<u32> = (0..a).map(|_| random.next() as u32).collect();
        let inner: Vec<u16> = (0..b).map(|_| random.next() as u16).collect();
        let first: Vec<u16> = (0..c).map(|_| random.next() as u16).collect();
        let second: Vec<u16> = (0..d).map(|_| random.next() as u16).collect();
        let figure: Vec<i64> = (0..e).map(|_| random.next() as i64).collect();
        let wanted = reference::read_blocks(&case.text, case.header_row, a.min(b).min(c).min(d).min(e));
        let given = abi::read_blocks(
            text.lend(&case.text, random),
            case.header_row,
            columns[0].lend(&cost, random),
            columns[1].lend(&inner, random),
            columns[2].lend(&first, random),
            columns[3].lend(&second, random),
            columns[4].lend(&figure, random),
        );
        let rows = wanted.clone().map(|(rows, _)| rows).unwrap_or_default();
        unchanged(text.holds(&case.text), "the text")?;
        unchanged(columns[0].holds(&filled(&cost, &rows.cost)), "column cost")?;
        unchanged(columns[1].holds(&filled(&inner, &rows.inner)), "column loop")?;
        unchanged(columns[2].holds(&filled(&first, &rows.first)), "column first")?;
        unchanged(columns[3].holds(&filled(&second, &rows.second)), "column second")?;
        unchanged(columns[4].holds(&filled(&figure, &rows.figure)), "column figure")?;
        agree(reply(wanted.map(|(rows, first_end)| (rows.cost.len() as i64, first_end as u64))), given)
    }

    fn read_loops(&mut self, case: &Case) -> Result<Reply, String> {
        let Bench { text, columns, random, .. } = self;
        let [a, b, c, d, _] = case.lengths;
        let parent: Vec<u16> = (0..a).map(|_| random.next() as u16).collect();
        let header: Vec<u16> = (0..b).map(|_| random.next() as u16).collect();
        let limit: Vec<u32> = (0..c).map(|_| random.next() as u32).collect();
        let multiplier: Vec<u64> = (0..d).map(|_| random.next()).collect();
        let wanted = reference::read_loops(&case.text, case.header_row, a.min(b).min(c).min(d));
        let given = abi::read_loops(
            text.lend(&case.text, random),
            case.header_row,
            columns[5].lend(&parent, random),
            columns[6].lend(&header, random),
            columns[7].lend(&limit, random),
            columns[8].lend(&multiplier, random),
        );
        let rows = wanted.clone().map(|(rows, _)| rows).unwrap_or_default();
        unchanged(text.holds(&case.text), "the text")?;
        unchanged(columns[5].holds(&filled(&parent, &rows.parent)), "column parent")?;
        unchanged(columns[6].holds(&filled(&header, &rows.header)), "column header")?;
        unchanged(columns[7].holds(&filled(&limit, &rows.limit)), "column limit")?;
        unchanged(columns[8].holds(&filled(&multiplier, &rows.multiplier)), "column multiplier")?;
        agree(reply(wanted.map(|(rows, first_end)| (rows.parent.len() as i64, first_end as u64))), given)
    }

    fn lend(&mut self, tables: &Tables) -> Columns<'static> {
        let Bench { columns, random, .. } = self;
        let Tables { blocks, loops } = tables;
        Columns {
            cost: columns[0].lend(&blocks.cost, random),
            inner: columns[1].lend(&blocks.inner, random),
            first: columns[2].lend(&blocks.first, random),
            second: columns[3].lend(&blocks.second, random),
            figure: columns[4].lend(&blocks.figure, random),
            parent: columns[5].lend(&loops.parent, random),
            header: columns[6].lend(&loops.header, random),
            limit: columns[7].lend(&loops.limit, random),
            multiplier: columns[8].lend(&loops.multiplier, random),
        }
    }

    fn kept(&mut self, tables: &Tables) -> Result<(), String> {
        let Tables { blocks, loops } = tables;
        let columns = &mut self.columns;
        unchanged(columns[0].holds(&blocks.cost), "column cost")?;
        unchanged(columns[1].holds(&blocks.inner), "column loop")?;
        unchanged(columns[2].holds(&blocks.first), "column first")?;
        unchanged(columns[3].holds(&blocks.second), "column second")?;
        unchanged(columns[4].holds(&blocks.figure), "column figure")?;
        unchanged(columns[5].holds(&loops.parent), "column parent")?;
        unchanged(columns[6].holds(&loops.header), "column header")?;
        unchanged(columns[7].holds(&loops.limit), "column limit")?;
        unchanged(columns[8].holds(&loops.multiplier), "column multiplier")
    }

    pub fn check(&mut self, tables: &Tables) -> Result<Reply, String> {
        let wanted = reference::check(&tables.blocks, &tables.loops).map(|bound| (bound, 0));
        let columns = self.lend(tables);
        let given = abi::check(columns);
        self.kept(tables)?;
        agree(reply(wanted), given)
    }

    pub fn walk(&mut self, tables: &Tables, list: &[u16]) -> Result<Reply, String> {
        let wanted = reference::walk(&tables.blocks, &tables.loops, list);
        let columns = self.lend(tables);
        let given = abi::walk(columns, self.list.lend(list, &mut self.random));
        self.kept(tables)?;
        unchanged(self.list.holds(list), "the walk")?;
        agree(reply(wanted), given)
    }

    /// The reply, and the tables as they are then: with the two columns that the solver made, or as they were.
    pub fn solve(&mut self, tables: &Tables) -> Result<(Reply, Tables), String> {
        let made = solving::solve(&tables.blocks, &tables.loops);
        let wanted = made.as_ref().map(|made| (made.bound, 0)).map_err(|refusal| *refusal);
        let mut after = tables.clone();
        if let Ok(made) = made {
            (after.blocks.figure, after.loops.multiplier) = (made.figure, made.multiplier);
        }
        let Bench { columns, random, .. } = self;
        let Tables { blocks, loops } = tables;
        let given = abi::solve(
            columns[0].lend(&blocks.cost, random),
            columns[1].lend(&blocks.inner, random),
            columns[2].lend(&blocks.first, random),
            columns[3].lend(&blocks.second, random),
            columns[4].lend(&blocks.figure, random),
            columns[5].lend(&loops.parent, random),
            columns[6].lend(&loops.header, random),
            columns[7].lend(&loops.limit, random),
            columns[8].lend(&loops.multiplier, random),
        );
        agree(reply(wanted), given)?;
        self.kept(&after)?;
        Ok((given, after))
    }

    /// The reply, and what it says of the walk. The lent columns have these lengths and other numbers in them, which a refusal leaves there.
    pub fn tally(&mut self, tables: &Tables, list: &[u16], lengths: [usize; 2]) -> Result<(Reply, Result<Seen, Refusal>), String> {
        let wanted = tallying::tally(&tables.blocks, &tables.loops, list, lengths);
        let columns = self.lend(tables);
        let Bench { list: walk, seen: [stays, greatest], random, .. } = self;
        let old = lengths.map(|length| (0..length).map(|_| random.next() as u32).collect::<Vec<u32>>());
        let given = abi::tally(columns, walk.lend(list, random), stays.lend(&old[0], random), greatest.lend(&old[1], random));
        let after = wanted.as_ref().map_or([&old[0], &old[1]], |seen| [&seen.stays, &seen.greatest]);
        agree(reply(wanted.as_ref().map(|seen| (seen.steps as i64, 0)).map_err(|refusal| *refusal)), given)?;
        unchanged(walk.holds(list), "the walk")?;
        unchanged(stays.holds(after[0]), "column stays")?;
        unchanged(greatest.holds(after[1]), "column greatest")?;
        self.kept(tables)?;
        Ok((given, wanted))
    }

    /// The reply, and what it says of the recording. The lent buffer has other numbers in it, which stay where no value is put.
    pub fn vcd(&mut self, tables: &Tables, dump: &Dump) -> Result<(Reply, Answer), String> {
        let wanted = changes::vcd(&tables.blocks, &tables.loops, dump);
        let columns = self.lend(tables);
        let Bench { text, code, list, random, .. } = self;
        let old: Vec<u16> = (0..dump.places).map(|_| random.next() as u16).collect();
        let given = abi::vcd(columns, text.lend(&dump.text, random), code.lend(&dump.code, random), list.lend(&old, random));
        let values = wanted.as_ref().map_or(&[][..], |changes| &changes.values);
        agree(reply(wanted.as_ref().map(|changes| (changes.values.len() as i64, 0)).map_err(|(refusal, _)| *refusal)), given)?;
        unchanged(text.holds(&dump.text), "the text")?;
        unchanged(code.holds(&dump.code), "the code")?;
        unchanged(list.holds(&filled(&old, values)), "the buffer")?;
        self.kept(tables)?;
        Ok((given, wanted))
    }

    pub fn shortest(&mut self, tables: &Tables, low: &Low) -> Result<Reply, String> {
        let wanted = reference::shortest(&tables.blocks, &tables.loops, low).map(|number| (number, 0));
        let columns = self.lend(tables);
        let Bench { low: [figure, multiplier, least], random, .. } = self;
        let given = abi::shortest(columns, figure.lend(&low.figure, random), multiplier.lend(&low.multiplier, random), least.lend(&low.least, random));
        unchanged(figure.holds(&low.figure), "column low_figure")?;
        unchanged(multiplier.holds(&low.multiplier), "column low_multiplier")?;
        unchanged(least.holds(&low.least), "column least")?;
        self.kept(tables)?;
        agree(reply(wanted), given)
    }

    /// The program of the tables as MPS, in a lent buffer of this length that has other bytes in it. What is wanted is the text, or a refusal.
    /// (For tests/mps.rs.)
    #[allow(dead_code)]
    pub fn mps(&mut self, tables: &Tables, length: usize, wanted: Result<&[u8], Refusal>) -> Result<Reply, String> {
        let columns = self.lend(tables);
        let Bench { text, random, .. } = self;
        let old: Vec<u8> = (0..length).map(|_| random.next() as u8).collect();
        let given = abi::mps(columns, text.lend(&old, random));
        let written = wanted.unwrap_or_default();
        agree(reply(wanted.map(|text| (text.len() as i64, 0))), given)?;
        self.kept(tables)?;
        unchanged(self.text.holds(&filled(&old, written)), "the buffer")?;
        Ok(given)
    }
}
