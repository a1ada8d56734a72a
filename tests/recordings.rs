//! Recordings for the tally of request 7: what the request promises of the limits that one shows, tried on the library; and what the comparison
//! counts, so that the cases are known to reach it.

use crate::compare::Bench;
use crate::graphs::Tables;
use crate::random::Random;
use crate::reference::{self, Refusal};
use crate::tallying::{self, Seen};
use crate::{show_tables, Score, TALLY};

/// What is tried with the limits that a recording shows.
pub const TRIED: [&str; 3] = ["the limits seen put in", "a limit of 2 or more lowered by one", "a limit of 3 or more lowered to 1"];
const PUT_IN: usize = 0;
const BY_ONE: usize = 1;
const TO_ONE: usize = 2;

/// The kinds of recordings that are wanted: first those that are tallied, then those that are refused.
pub const KINDS: [(&str, fn(&Recording) -> bool); 25] = [
    ("where 208 is not kept", |r| r.is_tallied() && r.checked == 208),
    ("where 209 is not kept", |r| r.is_tallied() && r.checked == 209),
    ("64 loops", |r| r.is_tallied() && r.m() == 64),
    ("16 loops around a block of the walk", |r| r.any_block(|around| around.len() == 16)),
    ("1,000 blocks and more", |r| r.is_tallied() && r.list.len() >= 1000),
    ("a loop that is never entered", |r| r.any_loop(|l, _| l.stays == 0)),
    ("a loop with one stay", |r| r.any_loop(|l, _| l.stays == 1)),
    ("a loop with several stays", |r| r.any_loop(|l, _| l.stays > 1)),
    ("several stays of an inner loop in one of the outer loop", |r| r.any_loop(|l, outer| outer.number > 0 && l.stays > outer.stays)),
    ("more visits in a later stay than in the first", |r| r.any_visits(|visits| visits.iter().any(|count| *count > visits[0]))),
    ("fewer visits in a later stay than in the first", |r| r.any_visits(|visits| visits.iter().any(|count| *count < visits[0]))),
    ("a greatest number over the limit", |r| r.any_loop(|l, _| l.greatest > l.limit)),
    ("a greatest number below the limit", |r| r.any_loop(|l, _| l.greatest > 0 && l.greatest < l.limit)),
    ("a stay under way at the end", |r| r.is_tallied() && r.tables.blocks.inner.last() != Some(&0)),
    ("the exit as a header", |r| r.is_tallied() && r.tables.loops.header[1..].contains(&(r.tables.blocks.cost.len() as u16 - 1))),
    ("421 by the first column alone", |r| r.is(421) && r.lengths[1] == r.m()),
    ("421 by the second column alone", |r| r.is(421) && r.lengths[0] == r.m()),
    ("421 by two columns of equal length", |r| r.is(421) && r.lengths[0] == r.lengths[1]),
    ("421 by an empty column", |r| r.is(421) && r.lengths.contains(&0)),
    ("421 by a column that is one place short", |r| r.is(421) && r.lengths.contains(&(r.m() - 1))),
    ("421 by a column that has one place more", |r| r.is(421) && r.lengths.contains(&(r.m() + 1))),
    ("421 by a column of 64 places", |r| r.is(421) && r.lengths.contains(&64) && r.m() != 64),
    ("421 by a column of 65 places", |r| r.is(421) && r.lengths.contains(&65)),
    ("421 where the walk would be refused", |r| r.is(421) && r.with_places().is_err()),
    ("201 to 207 and columns of another length", |r| r.lengths != [r.m(); 2] && (201..=207).any(|number| r.is(number))),
];

/// A walk over its tables, the number of the checker's reply to these, the lengths of the lent columns, and what the tally says.
pub struct Recording<'a> {
    tables: &'a Tables,
    list: &'a [u16],
    checked: u32,
    lengths: [usize; 2],
    answer: Result<Seen, Refusal>,
}

/// What is seen of a loop, and its limit in the table.
struct Loop {
    number: usize,
    stays: u32,
    greatest: u32,
    limit: u32,
}

impl Recording<'_> {
    fn m(&self) -> usize {
        self.tables.loops.parent.len()
    }

    fn is_tallied(&self) -> bool {
        self.answer.is_ok()
    }

    fn is(&self, number: u32) -> bool {
        self.answer.as_ref().is_err_and(|refusal| refusal.number == number)
    }

    /// The answer with columns of the right length.
    fn with_places(&self) -> Result<Seen, Refusal> {
        tallying::tally(&self.tables.blocks, &self.tables.loops, self.list, [self.m(); 2])
    }

    /// Whether a walk that is tallied has a loop from 1 up of which `is` holds, with the loop around it.
    fn any_loop(&self, is: impl Fn(Loop, Loop) -> bool) -> bool {
        let Ok(seen) = &self.answer else {
            return false;
        };
        let of = |l: usize| Loop { number: l, stays: seen.stays[l], greatest: seen.greatest[l], limit: self.tables.loops.limit[l] };
        (1..self.m()).any(|l| is(of(l), of(usize::from(self.tables.loops.parent[l]))))
    }

    /// Whether a walk that is tallied has a loop with stays of which `is` holds, by the header visits in each.
    fn any_visits(&self, is: impl Fn(&[usize]) -> bool) -> bool {
        let Ok(around) = reference::shape(&self.tables.blocks, &self.tables.loops) else {
            return false;
        };
        self.any_loop(|l, _| l.stays > 1) && (1..self.m()).any(|l| {
            let visits = tallying::visits(&self.tables.loops, &around, l, self.list);
            visits.len() > 1 && is(&visits)
        })
    }

    /// Whether a walk that is tallied has a block of which `is` holds, by the loops around it.
    fn any_block(&self, is: impl Fn(&[usize]) -> bool) -> bool {
        self.is_tallied() && self.m() >= 16 && {
            let around = reference::shape(&self.tables.blocks, &self.tables.loops).expect("good tables");
            self.list.iter().any(|v| is(&around[usize::from(*v)]))
        }
    }
}

/// The lengths of the two lent columns: most often the number of loops.
fn lengths(random: &mut Random, m: usize) -> [usize; 2] {
    let mut other = || random.pick(&[0, 1, m.saturating_sub(1), m + 1, m + 1, 2 * m, 64, 65, 1024]);
    let (one, two) = (other(), other());
    match random.below(16) {
        0 => [one, m],
        1 => [m, two],
        2 => [one, one],
        3 => [one, two],
        _ => [m, m],
    }
}

/// Tallies a walk, with columns of any lengths, and then tries the limits that it shows. `checked` is the number of the checker's reply.
pub fn tally(bench: &mut Bench, score: &mut Score, random: &mut Random, tables: &Tables, list: &[u16], checked: u32) {
    let lengths = lengths(random, tables.loops.parent.len());
    let outcome = bench.tally(tables, list, lengths).and_then(|(reply, answer)| {
        if let Ok(seen) = &answer {
            promised(bench, score, tables, list, seen)?;
        }
        let recording = Recording { tables, list, checked, lengths, answer };
        for (count, (_, is)) in score.recorded.iter_mut().zip(KINDS) {
            *count += u64::from(is(&recording));
        }
        Ok(reply)
    });
    score.count(TALLY, outcome, || format!("{}\n  walk {list:?}\n  lengths {lengths:?}", show_tables(tables)));
}

/// What request 7 promises of a walk that is tallied: with the limits that it shows it is accepted, with any of them lowered it is 313, and the
/// limits in the table play no part in the tally.
pub fn promised(bench: &mut Bench, score: &mut Score, tables: &Tables, list: &[u16], seen: &Seen) -> Result<(), String> {
    if (seen.stays[0], seen.greatest[0]) != (1, 1) {
        return Err(format!("loop 0 has {} and {}", seen.stays[0], seen.greatest[0]));
    }
    let Some(limits) = tallying::limits(seen) else {
        return Ok(());
    };
    let mut shown = tables.clone();
    shown.loops.limit = limits;
    let walked = bench.walk(&shown, list)?;
    let cost: i64 = list.iter().map(|v| i64::from(tables.blocks.cost[usize::from(*v)])).sum();
    if (walked.number, walked.value, walked.more) != (0, cost, seen.steps) {
        return Err(format!("{walked:?}, where the limits seen are put in"));
    }
    score.put_in[PUT_IN] += 1;
    if bench.tally(&shown, list, [seen.stays.len(); 2])?.1.as_ref() != Ok(seen) {
        return Err("another tally where the limits seen are put in".to_string());
    }
    for (l, greatest) in seen.greatest.iter().enumerate().filter(|(_, greatest)| **greatest >= 2) {
        for lower in if *greatest > 2 { vec![greatest - 1, 1] } else { vec![1] } {
            shown.loops.limit[l] = lower;
            let walked = bench.walk(&shown, list)?;
            if walked.number != 313 {
                return Err(format!("{walked:?}, where the limit {greatest} of loop {l} is lowered to {lower}"));
            }
        }
        shown.loops.limit[l] = *greatest;
        score.put_in[BY_ONE] += 1;
        score.put_in[TO_ONE] += u64::from(*greatest > 2);
    }
    Ok(())
}
