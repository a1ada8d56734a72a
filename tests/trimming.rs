//! Trimmed tables: what request 9 promises of them, tried on the library; and what the comparison counts, so that the cases are known to reach it.

use crate::abi::Reply;
use crate::compare::Bench;
use crate::graphs::{self, Tables};
use crate::random::Random;
use crate::{show_tables, Score, CHECK, WALK};

/// What is tried with trimmed tables, and with numbers that no trimming makes.
pub const TRIED: [&str; 10] = [
    "trimmed twice, and the bound less each time",
    "a walk of both that costs the same",
    "a walk of both that costs less by the trimmed tables",
    "a walk of both where 208 is not kept",
    "a walk of both where 209 is not kept",
    "313 for a walk that the old tables accept",
    "313 for a walk that the old tables refuse at a later block",
    "208 for a cost raised by one where the solver made the tables",
    "208 for a limit raised by one where the solver made the tables",
    "202 for a limit lowered to 0",
];
const TWICE: usize = 0;
const SAME: usize = 1;
const LESS: usize = 2;
const OVER_208: usize = 3;
const OVER_209: usize = 4;
const REFUSED: usize = 5;
const EARLIER: usize = 6;
const COST_RAISED: usize = 7;
const LIMIT_RAISED: usize = 8;
const NO_LIMIT: usize = 9;

/// Tables, and the checker's reply to them.
type Checked<'a> = (&'a Tables, Reply);

/// The kinds of trimmed tables that are wanted, all from accepted ones.
pub const KINDS: [(&str, fn(&Trim) -> bool); 20] = [
    ("tables that the solver made", |t| t.made),
    ("only costs lowered", |t| !t.costs.is_empty() && t.limits.is_empty()),
    ("only limits lowered", |t| t.costs.is_empty() && !t.limits.is_empty()),
    ("costs and limits lowered", |t| !t.costs.is_empty() && !t.limits.is_empty()),
    ("nothing lowered", |t| t.is_only(&[], &[])),
    ("numbers lowered, and the bound the same", |t| !t.is_only(&[], &[]) && t.saved() == 0),
    ("the cost of block 0 lowered, and the bound less", |t| t.costs.contains(&0) && t.saved() > 0),
    ("only the cost of block 0 lowered", |t| t.is_only(&[0], &[])),
    ("the cost of one block lowered by one", |t| t.costs.len() == 1 && t.is_only(&t.costs, &[]) && t.cost_by_one(t.costs[0])),
    ("the cost of each block lowered by one", |t| t.costs.len() == t.old.blocks.cost.len() && t.costs.iter().all(|u| t.cost_by_one(*u))),
    ("several costs lowered, all to 0", |t| t.costs.len() > 1 && t.new.blocks.cost.iter().all(|cost| *cost == 0)),
    ("a cost of 1,000,000 lowered", |t| t.costs.iter().any(|u| t.old.blocks.cost[*u] == 1_000_000)),
    ("a limit lowered to 1", |t| t.any_limit(|_, new| new == 1)),
    ("a limit lowered that stays over 1", |t| t.any_limit(|_, new| new > 1)),
    ("the limit of one loop lowered by one", |t| t.limits.len() == 1 && t.is_only(&[], &t.limits) && t.any_limit(|old, new| old - new == 1)),
    ("several limits lowered, all to 1", |t| t.limits.len() > 1 && t.new.loops.limit.iter().all(|limit| *limit == 1)),
    ("a limit of 65,535 lowered", |t| t.any_limit(|old, _| old == 65_535)),
    ("the limits of a loop and of the one around it lowered", |t| t.limits.iter().any(|l| t.limits.contains(&t.parent(*l)))),
    ("64 loops, some limits lowered", |t| t.old.loops.parent.len() == 64 && !t.limits.is_empty()),
    ("500 blocks and more, some costs lowered", |t| t.old.blocks.cost.len() >= 500 && !t.costs.is_empty()),
];

/// Accepted tables, whether the solver made them, trimmed ones and the replies to both.
pub struct Trim<'a> {
    old: &'a Tables,
    made: bool,
    new: &'a Tables,
    before: Reply,
    after: Reply,
    /// The blocks whose costs are lower, and the loops whose limits are.
    costs: Vec<usize>,
    limits: Vec<usize>,
}

impl<'a> Trim<'a> {
    fn new((old, before): Checked<'a>, made: bool, (new, after): Checked<'a>) -> Trim<'a> {
        let lower = |old: &[u32], new: &[u32]| (0..old.len()).filter(|i| new[*i] < old[*i]).collect();
        let (costs, limits) = (lower(&old.blocks.cost, &new.blocks.cost), lower(&old.loops.limit, &new.loops.limit));
        Trim { old, made, new, before, after, costs, limits }
    }

    fn is_only(&self, costs: &[usize], limits: &[usize]) -> bool {
        self.costs == costs && self.limits == limits
    }

    /// What the bound is lower by.
    fn saved(&self) -> i64 {
        self.before.value - self.after.value
    }

    fn cost_by_one(&self, u: usize) -> bool {
        self.old.blocks.cost[u] - self.new.blocks.cost[u] == 1
    }

    /// Whether a limit is lower of which `is` holds, by what it was and what it is.
    fn any_limit(&self, is: impl Fn(u32, u32) -> bool) -> bool {
        self.limits.iter().any(|l| is(self.old.loops.limit[*l], self.new.loops.limit[*l]))
    }

    fn parent(&self, l: usize) -> usize {
        usize::from(self.old.loops.parent[l])
    }
}

/// Lowers some numbers of a column, or none, and none below `least`.
fn lower(random: &mut Random, column: &mut [u32], least: u32) {
    let above: Vec<usize> = (0..column.len()).filter(|i| column[*i] > least).collect();
    if above.is_empty() {
        return;
    }
    let any = |random: &mut Random, number: u32| random.range(least as usize, number as usize) as u32;
    let one = random.pick(&above);
    match random.below(7) {
        0 => {}
        1 => column[one] = any(random, column[one]),
        2 => column[one] -= 1,
        3 => column[0] = any(random, column[0]),
        4 => column.fill(least),
        5 => above.iter().for_each(|i| column[*i] -= 1),
        _ => column.iter_mut().for_each(|number| *number = any(random, *number)),
    }
}

/// These tables with any costs and any limits of loops from 1 up lower.
fn trimmed(random: &mut Random, old: &Tables) -> Tables {
    let mut new = old.clone();
    lower(random, &mut new.blocks.cost, 0);
    lower(random, &mut new.loops.limit[1..], 1);
    new
}

/// Whether the replies to tables and to trimmed ones are as promised: accepted tables stay accepted with no greater bound. It is lower by what
/// block 0 costs less, since the figures are the same. 208 may go, and 209 stays, which reads neither costs nor limits.
fn promised((old, before): Checked, (new, after): Checked) -> Result<(), String> {
    let saved = i64::from(old.blocks.cost[0]) - i64::from(new.blocks.cost[0]);
    let stays = match before.number {
        0 => after.number == 0 && after.value <= before.value && after.value == before.value - saved,
        208 => matches!(after.number, 0 | 208),
        209 => after.number == 209,
        _ => true,
    };
    if stays {
        Ok(())
    } else {
        Err(format!("{after:?} for trimmed tables, {before:?} for the old ones"))
    }
}

fn show_both(old: &Tables, new: &Tables) -> String {
    format!("{}\n  trimmed cost {:?}\n  trimmed limit {:?}", show_tables(old), new.blocks.cost, new.loops.limit)
}

/// Checks tables that are trimmed from others. Gives back the reply to them, if it is as promised.
fn check(bench: &mut Bench, score: &mut Score, old: Checked, new: &Tables) -> Option<Reply> {
    let outcome = bench.check(new).and_then(|after| promised(old, (new, after)).map(|()| after));
    let reply = outcome.clone().ok();
    score.count(CHECK, outcome, || show_both(old.0, new));
    reply
}

/// Walks over tables that keep 201 to 207 and over trimmed ones. A walk that these accept has the same steps in the old tables and costs no less
/// there. Where it passes a lower limit it is a run of the old tables at least as far, and every other refusal is the same.
fn walk(bench: &mut Bench, score: &mut Score, (old, checked): Checked, new: &Tables, list: &[u16]) {
    let outcome = bench.walk(old, list).and_then(|before| {
        let after = bench.walk(new, list)?;
        let as_promised = match (after.number, before.number) {
            (0, 0) => after.more == before.more && after.value <= before.value,
            (313, 0) => true,
            (313, _) if after.place < before.place => true,
            _ => after == before,
        };
        if !as_promised {
            return Err(format!("{after:?} by trimmed tables, {before:?} by the old ones"));
        }
        let accepted = after.number == 0;
        score.compared[SAME] += u64::from(accepted && after.value == before.value);
        score.compared[LESS] += u64::from(accepted && after.value < before.value);
        score.compared[OVER_208] += u64::from(accepted && checked.number == 208);
        score.compared[OVER_209] += u64::from(accepted && checked.number == 209);
        score.compared[REFUSED] += u64::from(after.number == 313 && before.number == 0);
        score.compared[EARLIER] += u64::from(after.number == 313 && before.number != 0 && after.place < before.place);
        Ok(after)
    });
    score.count(WALK, outcome, || format!("{}\n  walk {list:?}", show_both(old, new)));
}

/// Numbers that no trimming makes: a cost and a limit raised by one, and a limit of 0, which is refused. If tables with a raised number are
/// accepted, the old ones are trimmed tables of these.
fn others(bench: &mut Bench, score: &mut Score, random: &mut Random, (old, before): Checked, made: bool) {
    let (n, m) = (old.blocks.cost.len(), old.loops.parent.len());
    let mut dearer = old.clone();
    dearer.blocks.cost[random.below(n)] += 1;
    let mut cases = vec![(COST_RAISED, dearer)];
    if m > 1 {
        let mut looser = old.clone();
        looser.loops.limit[random.range(1, m - 1)] += 1;
        cases.push((LIMIT_RAISED, looser));
    }
    for (tried, raised) in cases {
        let outcome = bench.check(&raised).and_then(|reply| promised((&raised, reply), (old, before)).map(|()| reply));
        score.compared[tried] += u64::from(made && outcome.as_ref().is_ok_and(|reply| reply.number == 208));
        score.count(CHECK, outcome, || show_both(&raised, old));
    }
    if m > 1 {
        let l = random.range(1, m - 1);
        let mut none = old.clone();
        none.loops.limit[l] = 0;
        let outcome = bench.check(&none).and_then(|reply| match (reply.number, reply.place as usize) {
            (202, place) if place == l => Ok(reply),
            _ => Err(format!("{reply:?}, where the limit of loop {l} is 0")),
        });
        score.compared[NO_LIMIT] += u64::from(outcome.is_ok());
        score.count(CHECK, outcome, || show_tables(&none));
    }
}

/// Trims tables that keep 201 to 207, and walks over them and over the trimmed ones. Accepted tables are trimmed twice, and then changed as no
/// trimming does.
pub fn any(bench: &mut Bench, score: &mut Score, random: &mut Random, (old, before): Checked, made: bool) {
    if (201..208).contains(&before.number) {
        return;
    }
    let once = trimmed(random, old);
    let Some(after) = check(bench, score, (old, before), &once) else {
        return;
    };
    for tables in [old, &once] {
        let list = graphs::walk(random, tables);
        walk(bench, score, (old, before), &once, &list);
    }
    if before.number != 0 {
        return;
    }
    let trim = Trim::new((old, before), made, (&once, after));
    for (count, (_, is)) in score.trimmed.iter_mut().zip(KINDS) {
        *count += u64::from(is(&trim));
    }
    let twice = trimmed(random, &once);
    let last = check(bench, score, (&once, after), &twice);
    score.compared[TWICE] += u64::from(last.is_some_and(|last| last.value < after.value && after.value < before.value));
    others(bench, score, random, (old, before), made);
}
