//! Recordings as VCD: what request 8 promises of them, tried on the library; and what the comparison counts, so that the cases are known to reach it.

use crate::changes::{self, Answer, Changes, Dump, Kind, Reason};
use crate::compare::Bench;
use crate::dumps;
use crate::graphs::Tables;
use crate::named;
use crate::random::Random;
use crate::reference;
use crate::{shorter, show_tables, show_text, Score, TALLY, VCD};

/// What is tried with values that are written.
pub const TRIED: [&str; 4] = [
    "values read back",
    "433 for the last value",
    "an accepted walk read back and tallied",
    "431 for an accepted walk, since a block names itself",
];
const VALUES: usize = 0;
const NO_PLACE: usize = 1;
const WALK: usize = 2;
const TO_ITSELF: usize = 3;

/// The kinds of recordings that are wanted: first those that are read, then those that are refused.
pub const KINDS: [(&str, fn(&Dumped) -> bool); 32] = [
    ("no change at all", |d| d.is_read(|c| c.written == 0)),
    ("no change and no place", |d| d.is_read(|c| c.written == 0) && d.dump.places == 0),
    ("a place for each value", |d| d.is_read(|c| c.written > 0 && c.values.len() == d.dump.places)),
    ("more places than values", |d| d.is_read(|c| c.written > 0 && c.values.len() < d.dump.places)),
    ("a value written again", |d| d.is_read(|c| c.written > c.values.len())),
    ("the value 65,534", |d| d.is_read(|c| c.values.contains(&65_534))),
    ("a value that is no block", |d| d.is_read(|c| c.values.iter().any(|v| usize::from(*v) >= d.tables.blocks.cost.len()))),
    ("1,000 values and more", |d| d.is_read(|c| c.values.len() >= 1000)),
    ("65,536 bytes", |d| d.is_read(|_| d.dump.text.len() == dumps::MOST_BYTES)),
    ("a code of several bytes", |d| d.is_read(|c| c.written > 0) && d.dump.code.len() > 1),
    ("a code of 60 bytes and more", |d| d.is_read(|c| c.written > 0) && d.dump.code.len() >= 60),
    ("a keyword as code", |d| d.is_read(|c| c.written > 0) && [&b"$var"[..], b"$comment", b"$enddefinitions"].contains(&&d.dump.code[..])),
    ("a comment after the declarations", |d| d.has(Kind::Comment)),
    ("a time", |d| d.has(Kind::Time)),
    ("a dump", |d| d.has(Kind::Dump)),
    ("a scalar change", |d| d.has(Kind::Scalar)),
    ("a real change", |d| d.has(Kind::Real)),
    ("a vector change of another code", |d| d.is_read(|c| c.commands.iter().filter(|kind| **kind == Kind::Vector).count() > c.written)),
    ("no blank at the end", |d| d.is_read(|_| d.dump.text.last().is_some_and(|byte| !byte.is_ascii_whitespace()))),
    ("432 at the first byte", |d| d.is_at(432, 0) && !d.dump.text.is_empty()),
    ("432 at 65,536", |d| d.is_at(432, dumps::MOST_BYTES)),
    ("432 with an empty code", |d| d.is(432) && d.dump.code.is_empty()),
    ("432 at $enddefinitions with a code that no text can declare", |d| d.because(Reason::Undeclared) && !changes::is_code(&d.dump.code)),
    ("432 at $enddefinitions with another code", |d| d.because(Reason::Undeclared) && changes::is_code(&d.dump.code)),
    ("433 with no place at all", |d| d.is(433) && d.dump.places == 0),
    ("433 where 432 comes later", |d| d.is(433) && d.with_places().is_err()),
    ("101 by one byte", |d| d.is(101) && d.dump.text.len() == dumps::MOST_BYTES + 1),
    ("431 at the first successor", |d| d.names_itself().is_some_and(|u| d.is_at(431, u) && usize::from(d.tables.blocks.first[u]) == u)),
    ("431 at the second successor", |d| d.names_itself().is_some_and(|u| d.is_at(431, u) && usize::from(d.tables.blocks.second[u]) == u)),
    ("431 and a text that is too long", |d| d.is(431) && d.dump.text.len() > dumps::MOST_BYTES),
    ("431 and a text that is refused", |d| d.is(431) && d.without_tables().is_err()),
    ("202 to 207 and a block that names itself", |d| (202..=207).any(|number| d.is(number)) && d.names_itself().is_some()),
];

/// A recording beside its tables, and what is read.
pub struct Dumped<'a> {
    tables: &'a Tables,
    dump: &'a Dump,
    answer: &'a Answer,
}

impl Dumped<'_> {
    fn is_read(&self, is: impl Fn(&Changes) -> bool) -> bool {
        self.answer.as_ref().is_ok_and(is)
    }

    fn has(&self, kind: Kind) -> bool {
        self.is_read(|changes| changes.commands.contains(&kind))
    }

    fn is(&self, number: u32) -> bool {
        self.answer.as_ref().is_err_and(|(refusal, _)| refusal.number == number)
    }

    fn is_at(&self, number: u32, place: usize) -> bool {
        self.is(number) && self.answer.as_ref().is_err_and(|(refusal, _)| refusal.place as usize == place)
    }

    fn because(&self, reason: Reason) -> bool {
        self.answer.as_ref().is_err_and(|(_, why)| *why == Some(reason))
    }

    /// The lowest block with an edge to itself.
    fn names_itself(&self) -> Option<usize> {
        let blocks = &self.tables.blocks;
        (0..blocks.first.len().min(blocks.second.len())).find(|u| reference::successors(blocks, *u).contains(u))
    }

    /// The answer with places for all values.
    fn with_places(&self) -> Answer {
        let dump = Dump { places: self.dump.text.len(), ..self.dump.clone() };
        changes::vcd(&self.tables.blocks, &self.tables.loops, &dump)
    }

    /// The answer with tables that keep every rule.
    fn without_tables(&self) -> Answer {
        let Tables { blocks, loops } = named::straight(2);
        changes::vcd(&blocks, &loops, self.dump)
    }
}

/// Reads a recording, where `holds` says whether the answer is the one that is wanted beside the reference's.
fn vcd(bench: &mut Bench, score: &mut Score, tables: &Tables, dump: &Dump, holds: impl Fn(&Answer) -> bool) -> bool {
    let outcome = bench.vcd(tables, dump);
    if let Ok((_, answer)) = &outcome {
        let dumped = Dumped { tables, dump, answer };
        for (count, (_, is)) in score.dumps.iter_mut().zip(KINDS) {
            *count += u64::from(is(&dumped));
        }
        for (count, (reason, _)) in score.reasons.iter_mut().zip(changes::REASONS) {
            *count += u64::from(dumped.because(reason));
        }
    }
    let mut text = dump.text.clone();
    if outcome.is_err() && score.failed < 5 {
        text = shorter(&text, |text| bench.vcd(tables, &Dump { text: text.to_vec(), ..dump.clone() }).is_err());
    }
    let outcome = outcome.and_then(|(reply, answer)| if holds(&answer) { Ok(reply) } else { Err(format!("{answer:?}, which was not written")) });
    let held = outcome.is_ok();
    score.count(VCD, outcome, || {
        format!("{}\n  code \"{}\", {} places, text \"{}\"", show_tables(tables), show_text(&dump.code), dump.places, show_text(&text))
    });
    held
}

/// Recordings of all kinds: over tables that keep every rule and over these ones; and values that are written, which read back.
pub fn any(bench: &mut Bench, score: &mut Score, random: &mut Random, tables: &Tables) {
    let plain = named::straight(2);
    for _ in 0..4 {
        for dump in [dumps::dump(random), dumps::noise(random)] {
            vcd(bench, score, &plain, &dump, |_| true);
        }
    }
    let mut dump = dumps::dump(random);
    if random.once_in(8) {
        dumps::fill(random, &mut dump.text, dumps::MOST_BYTES + 1);
    }
    vcd(bench, score, tables, &dump, |_| true);
    let (code, values) = (dumps::code(random), dumps::values(random));
    let text = dumps::written(random, &code, &values);
    if text.len() <= dumps::MOST_BYTES {
        let places = values.len() + random.pick(&[0, 0, 1, 20]);
        let dump = Dump { text, code, places };
        let is_written = |answer: &Answer| answer.as_ref().is_ok_and(|changes| changes.values == values);
        score.read_back[VALUES] += u64::from(vcd(bench, score, &plain, &dump, is_written));
        if !values.is_empty() {
            let short = Dump { places: values.len() - 1, ..dump };
            let is_short = |answer: &Answer| answer.as_ref().is_err_and(|(refusal, _)| refusal.number == 433);
            score.read_back[NO_PLACE] += u64::from(vcd(bench, score, &plain, &short, is_short));
        }
    }
}

/// A walk that is accepted, written as a recording: over tables without an edge to itself it reads back as that walk and is tallied.
pub fn walk(bench: &mut Bench, score: &mut Score, random: &mut Random, tables: &Tables, list: &[u16]) {
    let code = dumps::code(random);
    let text = dumps::written(random, &code, list);
    if text.len() > dumps::MOST_BYTES {
        return;
    }
    let dump = Dump { text, code, places: list.len() + random.below(3) };
    let itself = (0..tables.blocks.cost.len()).any(|u| reference::successors(&tables.blocks, u).contains(&u));
    let wanted = |answer: &Answer| match answer {
        Ok(changes) => !itself && changes.values == list,
        Err((refusal, _)) => itself && refusal.number == 431,
    };
    let held = vcd(bench, score, tables, &dump, wanted);
    score.read_back[TO_ITSELF] += u64::from(held && itself);
    if held && !itself {
        let tallied = bench.tally(tables, list, [tables.loops.parent.len(); 2]).map(|(reply, _)| reply);
        let outcome = tallied.and_then(|reply| if reply.number == 0 { Ok(reply) } else { Err(format!("{reply:?}, where the walk is accepted")) });
        score.read_back[WALK] += u64::from(outcome.is_ok());
        score.count(TALLY, outcome, || format!("{}\n  walk {list:?}", show_tables(tables)));
    }
}
