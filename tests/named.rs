//! Named tests: the marked cases of document 01, each sentence of its "Plausible and wrong", the edges of its rules, and of document 02 the
//! line ends of request 1, the closed walks of request 2, the solver of request 3, for request 4 numbers at the ends of every width, the
//! order of request 6, the recordings of request 7, those of request 8 as VCD, and the second certificates of request 10.

use crate::certificates::plain;
use crate::changes::Dump;
use crate::cycles::Graph;
use crate::compare::Bench;
use crate::dumps::MOST_BYTES;
use crate::graphs::{edges, finished, Tables};
use crate::random::Random;
use crate::recordings;
use crate::reference::{self, Low, MISSING};
use crate::shortest;
use crate::solving;
use crate::texts::{mixtures, Case, Table};
use crate::Score;

/// The wanted reply: value and more, or number and place.
#[derive(Clone, Copy, Debug, PartialEq)]
enum Want {
    Accepted(i64, u64),
    Refused(u32, u32),
}

use Want::{Accepted, Refused};

/// What a reader says of an accepted text beside the row count: how record 1 ends.
const CR_LF: u64 = 0;
const LF: u64 = 1;
const TEXT: u64 = 2;

struct Tester<'a> {
    bench: Bench,
    score: &'a mut Score,
}

impl Tester<'_> {
    fn expect(&mut self, name: &str, wanted: Want, outcome: Result<crate::abi::Reply, String>) {
        let outcome = outcome.and_then(|reply| {
            let given = if reply.number == 0 { Accepted(reply.value, reply.more) } else { Refused(reply.number, reply.place) };
            if given == wanted { Ok(()) } else { Err(format!("wanted {wanted:?}, got {given:?}")) }
        });
        self.score.test(name, outcome);
    }

    /// Reads a text into columns of the given length.
    fn read(&mut self, name: &str, table: Table, header_row: bool, text: &[u8], length: usize, wanted: Want) {
        let case = Case { table, text: text.to_vec(), header_row, lengths: [length; 5] };
        let outcome = self.bench.read(&case);
        self.expect(name, wanted, outcome);
    }

    fn check(&mut self, name: &str, tables: &Tables, wanted: Want) {
        let outcome = self.bench.check(tables);
        self.expect(name, wanted, outcome);
    }

    fn walk(&mut self, name: &str, tables: &Tables, list: &[u16], wanted: Want) {
        let outcome = self.bench.walk(tables, list);
        self.expect(name, wanted, outcome);
    }

    /// A walk that is tallied, with the stays and the greatest numbers by loop. What request 7 promises of the limits that it shows is tried too.
    fn tally(&mut self, name: &str, tables: &Tables, list: &[u16], stays: &[u32], greatest: &[u32]) {
        let outcome = self.bench.tally(tables, list, [tables.loops.parent.len(); 2]);
        let seen = outcome.as_ref().ok().and_then(|(_, answer)| answer.clone().ok());
        self.expect(name, Accepted(list.len() as i64 - 1, 0), outcome.map(|(reply, _)| reply));
        let columns = match &seen {
            Some(seen) if seen.stays == stays && seen.greatest == greatest => Ok(()),
            _ => Err(format!("{seen:?}")),
        };
        self.score.test(&format!("{name}, its columns"), columns);
        if let Some(seen) = seen {
            let outcome = recordings::promised(&mut self.bench, self.score, tables, list, &seen);
            self.score.test(&format!("{name}, the limits that it shows"), outcome);
        }
    }

    /// A walk that is refused, with lent columns of these lengths.
    fn untallied(&mut self, name: &str, tables: &Tables, list: &[u16], lengths: [usize; 2], number: u32, place: u32) {
        let outcome = self.bench.tally(tables, list, lengths).map(|(reply, _)| reply);
        self.expect(name, Refused(number, place), outcome);
    }

    /// A recording as VCD: the values that are read of it, or the number and the place.
    fn vcd(&mut self, name: &str, tables: &Tables, dump: &Dump, wanted: Result<&[u16], (u32, u32)>) {
        let outcome = self.bench.vcd(tables, dump);
        let values = outcome.as_ref().ok().and_then(|(_, answer)| answer.as_ref().ok()).map(|changes| changes.values.clone());
        let reply = wanted.map_or_else(|(number, place)| Refused(number, place), |values| Accepted(values.len() as i64, 0));
        self.expect(name, reply, outcome.map(|(reply, _)| reply));
        if let Ok(wanted) = wanted {
            let read = if values.as_deref() == Some(wanted) { Ok(()) } else { Err(format!("{values:?}")) };
            self.score.test(&format!("{name}, its values"), read);
        }
    }

    fn shortest(&mut self, name: &str, tables: &Tables, low: &Low, wanted: Want) {
        let outcome = self.bench.shortest(tables, low);
        self.expect(&format!("shortest: {name}"), wanted, outcome);
    }

    /// A table that the solver refuses, also with other figures and multipliers where the given ones are not the reason.
    fn unsolved(&mut self, name: &str, tables: &Tables, number: u32, place: u32) {
        let outcome = self.bench.solve(tables).map(|(reply, _)| reply);
        self.expect(name, Refused(number, place), outcome);
        if number >= 204 {
            let mut other = tables.clone();
            other.blocks.figure.iter_mut().zip(1..).for_each(|(figure, new)| *figure = new);
            other.loops.multiplier.iter_mut().skip(1).zip(1..).for_each(|(multiplier, new)| *multiplier = new);
            let outcome = self.bench.solve(&other).map(|(reply, _)| reply);
            self.expect(&format!("{name}, with other figures and multipliers"), Refused(number, place), outcome);
        }
    }

    /// A table with the bound, the figures and the multipliers that the solver makes. What it made is accepted, and unless it is too long for a
    /// walk some run costs the bound.
    fn solve(&mut self, name: &str, tables: &Tables, bound: i64, figures: &[i64], multipliers: &[u64]) {
        let outcome = self.bench.solve(tables);
        let made = outcome.as_ref().map_or_else(|_| tables.clone(), |(_, made)| made.clone());
        self.expect(name, Accepted(bound, 0), outcome.map(|(reply, _)| reply));
        let columns = if made.blocks.figure == figures && made.loops.multiplier == multipliers {
            Ok(())
        } else {
            Err(format!("figures {:?}, multipliers {:?}", made.blocks.figure, made.loops.multiplier))
        };
        self.score.test(&format!("{name}, its columns"), columns);
        self.check(&format!("{name}, checked"), &made, Accepted(bound, 0));
        if let Some(run) = solving::costly_run(&made.blocks, &made.loops, 1_048_576) {
            self.walk(&format!("{name}, a run that costs the bound"), &made, &run, Accepted(bound, run.len() as u64 - 1));
        }
    }
}

pub fn all(score: &mut Score) {
    let mut tester = Tester { bench: Bench::new(1), score };
    marked(&mut tester);
    plausible_and_wrong(&mut tester);
    texts(&mut tester);
    widths(&mut tester);
    line_ends(&mut tester);
    sizes(&mut tester);
    tables(&mut tester);
    cycles(&mut tester);
    large_cycles(&mut tester);
    small_graphs(&mut tester);
    walks(&mut tester);
    cycle_walks(&mut tester);
    solver(&mut tester);
    solver_limits(&mut tester);
    solver_order(&mut tester);
    solver_columns(&mut tester);
    solver_small_graphs(&mut tester);
    recorded(&mut tester);
    recorded_past_limits(&mut tester);
    recorded_wrongly(&mut tester);
    lent_to_tally(&mut tester);
    recorded_long(&mut tester);
    recorded_small_graphs(&mut tester);
    dumped(&mut tester);
    dumped_codes(&mut tester);
    dumped_order(&mut tester);
    dumped_tables(&mut tester);
    dumped_sizes(&mut tester);
    dumped_small_texts(&mut tester);
    shortest_by_hand(&mut tester);
    shortest_of_a(&mut tester);
    shortest_towers(&mut tester);
    shortest_entries(&mut tester);
    shortest_largest(&mut tester);
    shortest_order(&mut tester);
    shortest_columns(&mut tester);
    shortest_small_graphs(&mut tester);
}

/// Records written with '|' for CR LF.
fn lines(text: &str) -> Vec<u8> {
    text.replace('|', "\r\n").into_bytes()
}

const A_BLOCKS: &str = "0,2,0,1,,28|1,3,1,2,3,1|2,5,1,1,,-4|3,1,0,,,0|";
const A_LOOPS: &str = "0,0,0,1,0|1,0,1,4,8|";
/// The last marked case with costs 1 0 0 1.
const CYCLE_BLOCKS: &str = "0,1,0,1,,1|1,0,0,2,,1|2,0,0,1,3,1|3,1,0,,,0|";

fn tables_of(blocks: &str, loops: &str) -> Tables {
    Tables {
        blocks: reference::read_blocks(&lines(blocks), false, 1024).expect("a good block table").0,
        loops: reference::read_loops(&lines(loops), false, 64).expect("a good loop table").0,
    }
}

/// Routine A with a change.
fn a(change: impl FnOnce(&mut Tables)) -> Tables {
    let mut tables = tables_of(A_BLOCKS, A_LOOPS);
    change(&mut tables);
    tables
}

fn marked(t: &mut Tester) {
    t.read("marked: blocks of A", Table::Blocks, false, &lines(A_BLOCKS), 4, Accepted(4, CR_LF));
    t.read("marked: loops of A", Table::Loops, false, &lines(A_LOOPS), 2, Accepted(2, CR_LF));
    let plain = a(|_| ());
    let m = MISSING;
    let by_hand = plain.blocks.cost == [2, 3, 5, 1]
        && plain.blocks.inner == [0, 1, 1, 0]
        && plain.blocks.first == [1, 2, 1, m]
        && plain.blocks.second == [m, 3, m, m]
        && plain.blocks.figure == [28, 1, -4, 0]
        && plain.loops.parent == [0, 0]
        && plain.loops.header == [0, 1]
        && plain.loops.limit == [1, 4]
        && plain.loops.multiplier == [0, 8];
    t.score.test("marked: columns of A", if by_hand { Ok(()) } else { Err("other columns".to_string()) });
    t.check("marked: A", &plain, Accepted(30, 0));
    t.check("marked: A, figure of block 0 is 27", &a(|x| x.blocks.figure[0] = 27), Refused(208, 0));
    t.check("marked: A, multiplier 7", &a(|x| x.loops.multiplier[1] = 7), Refused(208, 2));
    t.check("marked: A, limit 65,535", &a(|x| x.loops.limit[1] = 65_535), Refused(208, 0));
    t.check("marked: A, limit 0", &a(|x| x.loops.limit[1] = 0), Refused(202, 1));
    t.check("marked: A, limit 65,536", &a(|x| x.loops.limit[1] = 65_536), Refused(202, 1));
    t.check("marked: A, block 2 in loop 0", &a(|x| x.blocks.inner[2] = 0), Refused(209, 0));
    t.check("marked: A, edge from 0 to 2", &a(|x| x.blocks.second[0] = 2), Refused(207, 0));
    t.walk("marked: walk 0 1 2 1 2 1 2 1 3", &plain, &[0, 1, 2, 1, 2, 1, 2, 1, 3], Accepted(30, 8));
    t.walk("marked: walk 0 1 2 1 2 1 2 1 2 1", &plain, &[0, 1, 2, 1, 2, 1, 2, 1, 2, 1], Refused(313, 9));
    t.walk("marked: walk 0 1", &plain, &[0, 1], Refused(314, 2));
    t.check("marked: two blocks, no edges", &tables_of("0,7,0,,,-10|1,9,0,,,0", "0,0,0,1,0"), Accepted(-3, 0));
    let cycle = tables_of("0,1,0,1,,3|1,1,0,2,,2|2,1,0,1,3,1|3,1,0,,,0", "0,0,0,1,0");
    t.check("marked: a cycle of no loop that costs", &cycle, Refused(209, 0));
    t.read("marked: a cycle of no loop that costs nothing (its file still reads)", Table::Blocks, false, &lines(CYCLE_BLOCKS), 4, Accepted(4, CR_LF));
    t.check("marked: a cycle of no loop that costs nothing", &tables_of(CYCLE_BLOCKS, "0,0,0,1,0"), Refused(209, 0));
}

/// An outer loop 1 (blocks 1, 3) of limit 3 around an inner loop 2 (block 2, which names itself) of limit 2.
fn nested() -> Tables {
    tables_of(
        "0,1,0,1,,13|1,1,1,2,,4|2,1,2,2,3,2|3,1,1,1,4,1|4,1,0,,,0",
        "0,0,0,1,0|1,0,1,3,4|2,1,2,2,1",
    )
}

fn plausible_and_wrong(t: &mut Tester) {
    let blocks = |first: &str| lines(&format!("{first}|{A_BLOCKS}"));
    let odd = "number,cost,loop,first,second,figure";
    t.read("wrong: record 1 dropped because it looks odd", Table::Blocks, false, &blocks(odd), 9, Refused(104, 1));
    t.read("wrong: record 1 dropped because it looks odd (loops)", Table::Loops, false, b"a,b,c,d,e", 9, Refused(104, 1));
    t.read("wrong: record 1 dropped always", Table::Blocks, false, &lines(A_BLOCKS), 9, Accepted(4, CR_LF));
    t.read("wrong: record 1 dropped always (loops)", Table::Loops, false, &lines(A_LOOPS), 9, Accepted(2, CR_LF));
    t.read("wrong: record 1 kept because it looks like a row", Table::Blocks, true, &lines(A_BLOCKS), 9, Refused(105, 2));
    t.read("wrong: record 1 kept because it looks like a row (row 0 twice)", Table::Blocks, true, &blocks("0,2,0,1,,28"), 9, Accepted(4, CR_LF));
    let two = nested();
    t.check("wrong: visits over the whole run (the tables)", &two, Accepted(14, 0));
    t.walk("wrong: visits over the whole run", &two, &[0, 1, 2, 2, 3, 1, 2, 2, 3, 4], Accepted(10, 9));
    t.walk("wrong: visits over the whole run (a third visit in one stay)", &two, &[0, 1, 2, 2, 3, 1, 2, 2, 2], Refused(313, 8));
    t.check("wrong: rounds of the body in place of header visits", &a(|_| ()), Accepted(30, 0));
    t.walk("wrong: rounds of the body (four visits)", &a(|_| ()), &[0, 1, 2, 1, 2, 1, 2, 1, 3], Accepted(30, 8));
    t.walk("wrong: rounds of the body (five visits)", &a(|_| ()), &[0, 1, 2, 1, 2, 1, 2, 1, 2, 1, 3], Refused(313, 9));
    t.read("wrong: a negative figure refused by the reader", Table::Blocks, false, b"0,0,0,,,-4", 1, Accepted(1, TEXT));
    t.check("wrong: a negative figure refused by the check", &a(|x| x.blocks.figure[2] = -4), Accepted(30, 0));
    let outer: &[u16] = &[0, 1, 2, 3, 1, 2, 3, 1, 2, 3];
    t.walk("wrong: outer count cleared by leaving the inner loop (kept)", &two, &[outer, &[4]].concat(), Accepted(11, 10));
    t.walk("wrong: outer count cleared by leaving the inner loop (passed)", &two, &[outer, &[1]].concat(), Refused(313, 10));
}

fn texts(t: &mut Tester) {
    let row = |text: &str| lines(text);
    let cases: &[(&str, &str, Want)] = &[
        ("no text", "", Accepted(0, TEXT)),
        ("no last line end", "0,1,2,3,4,5", Accepted(1, TEXT)),
        ("a line end alone", "|", Refused(103, 1)),
        ("one more line end", "0,1,2,3,4,5||", Refused(103, 2)),
        ("102 before 103", "0,2,0,1,,28,\"", Refused(102, 1)),
        ("102 at the end of a bad record", "x,y,\"", Refused(102, 1)),
        ("104 in a record before 102", "0,1,2,3,4,5|1,x,,,,|2,\"", Refused(104, 2)),
        ("a lone CR", "0,1,2,3,4,5\r1,1,2,3,4,5", Refused(102, 1)),
        ("a lone CR at the end", "0,1,2,3,4,5\r", Refused(102, 1)),
        ("a lone CR after the last line end", "0,1,2,3,4,5|\r", Refused(102, 2)),
        ("CR CR LF", "0,1,2,3,4,5\r\r\n", Refused(102, 1)),
        ("text after a closing quote", "\"0\"x,1,2,3,4,5", Refused(102, 1)),
        ("a space after a closing quote", "\"0\" ,1,2,3,4,5", Refused(102, 1)),
        ("CR after a closing quote", "0,1,2,3,4,\"5\"\r", Refused(102, 1)),
        ("a quote in a plain field", " \"0\",1,2,3,4,5", Refused(102, 1)),
        ("a quote inside a plain field", "0,1\"1\",2,3,4,5", Refused(102, 1)),
        ("a quote never closed", "0,1,2,3,4,\"5", Refused(102, 1)),
        ("a quote never closed after a doubled one", "0,1,2,3,4,\"5\"\"", Refused(102, 1)),
        ("quoted numbers", "\"0\",\"1\",\"2\",\"3\",\"4\",\"-5\"", Accepted(1, TEXT)),
        ("quoted numbers and a line end", "\"0\",\"1\",\"2\",\"3\",\"4\",\"-5\"|", Accepted(1, CR_LF)),
        ("missing successors", "0,1,2,,,5", Accepted(1, TEXT)),
        ("missing successors in quotes", "0,1,2,\"\",\"\",5", Accepted(1, TEXT)),
        ("an empty number", ",1,2,3,4,5", Refused(104, 1)),
        ("an empty cost", "0,,2,3,4,5", Refused(104, 1)),
        ("an empty quoted cost", "0,\"\",2,3,4,5", Refused(104, 1)),
        ("an empty loop", "0,1,,3,4,5", Refused(104, 1)),
        ("an empty figure", "0,1,2,3,4,", Refused(104, 1)),
        ("one quote mark as a successor", "0,1,2,\"\"\"\",4,5", Refused(104, 1)),
        ("a space as a successor", "0,1,2, ,4,5", Refused(104, 1)),
        ("a quoted space as a successor", "0,1,2,\" \",4,5", Refused(104, 1)),
        ("a comma in quotes", "0,1,2,\"3,4\",5,6", Refused(104, 1)),
        ("a line end in quotes", "0,1,2,\"|\",4,5|1,1,2,3,4,5", Refused(104, 1)),
        ("a leading zero", "0,01,2,3,4,5", Refused(104, 1)),
        ("a quoted leading zero", "0,\"01\",2,3,4,5", Refused(104, 1)),
        ("two zeros", "0,00,2,3,4,5", Refused(104, 1)),
        ("minus zero", "0,1,2,3,4,-0", Refused(104, 1)),
        ("quoted minus zero", "0,1,2,3,4,\"-0\"", Refused(104, 1)),
        ("minus alone", "0,1,2,3,4,-", Refused(104, 1)),
        ("minus and a leading zero", "0,1,2,3,4,-01", Refused(104, 1)),
        ("two minus signs", "0,1,2,3,4,--1", Refused(104, 1)),
        ("a plus sign", "0,1,2,3,4,+1", Refused(104, 1)),
        ("a minus sign in a cost", "0,-1,2,3,4,5", Refused(104, 1)),
        ("minus zero in a successor", "0,1,2,-0,4,5", Refused(104, 1)),
        ("an exponent", "0,1e3,2,3,4,5", Refused(104, 1)),
        ("the byte before 0", "0,/,2,3,4,5", Refused(104, 1)),
        ("the byte after 9", "0,:,2,3,4,5", Refused(104, 1)),
        ("the largest cost", "0,4294967295,2,3,4,5", Accepted(1, TEXT)),
        ("a cost too wide", "0,4294967296,2,3,4,5", Refused(104, 1)),
        ("the largest loop", "0,1,65535,3,4,5", Accepted(1, TEXT)),
        ("a loop too wide", "0,1,65536,3,4,5", Refused(104, 1)),
        ("the largest successor", "0,1,2,65534,65534,5", Accepted(1, TEXT)),
        ("65,535 as a successor", "0,1,2,65535,4,5", Refused(104, 1)),
        ("65,535 as the second successor", "0,1,2,3,65535,5", Refused(104, 1)),
        ("the largest figure", "0,1,2,3,4,9223372036854775807", Accepted(1, TEXT)),
        ("a figure too large", "0,1,2,3,4,9223372036854775808", Refused(104, 1)),
        ("the least figure", "0,1,2,3,4,-9223372036854775808", Accepted(1, TEXT)),
        ("a figure too small", "0,1,2,3,4,-9223372036854775809", Refused(104, 1)),
        ("a figure that wraps to 5", "0,1,2,3,4,18446744073709551621", Refused(104, 1)),
        ("five fields", "0,1,2,3,4", Refused(103, 1)),
        ("seven fields", "0,1,2,3,4,5,6", Refused(103, 1)),
        ("103 before 104", "x,1,2,3,4", Refused(103, 1)),
        ("104 before 105", "1,x,2,3,4,5", Refused(104, 1)),
        ("a first row 1", "1,1,2,3,4,5", Refused(105, 1)),
        ("row 0 twice", "0,1,2,3,4,5|0,1,2,3,4,5", Refused(105, 2)),
        ("row 65,535 out of turn", "65535,1,2,3,4,5", Refused(105, 1)),
        ("row 65,536", "65536,1,2,3,4,5", Refused(104, 1)),
        ("bytes over 127", "0,1,2,3,4,\u{e9}", Refused(104, 1)),
        ("a mark before the first row", "\u{feff}0,1,2,3,4,5", Refused(104, 1)),
        ("NUL in a field", "0,1\0,2,3,4,5", Refused(104, 1)),
    ];
    for (name, text, wanted) in cases {
        t.read(&format!("blocks: {name}"), Table::Blocks, false, &row(text), 5, *wanted);
    }
    let cases: &[(&str, &str, Want)] = &[
        ("no record", "", Refused(103, 1)),
        ("a header alone", "a,b,c,d,e", Accepted(0, TEXT)),
        ("a header alone with its line end", "a,b,c,d,e|", Accepted(0, CR_LF)),
        ("a header of four fields", "a,b,c,d|0,0,0,1,0", Refused(103, 1)),
        ("a broken header", "a,b\",c,d,e|", Refused(102, 1)),
        ("an empty line as a header", "|0,0,0,1,0", Refused(103, 1)),
        ("a header of empty fields", ",,,,|0,0,0,1,0", Accepted(1, CR_LF)),
        ("a header with a line end in quotes", "\"a|b\",,,,|0,0,0,1,0|2", Refused(103, 3)),
        ("a header with a mark before it", "\u{feff}number,,,,|0,0,0,1,0", Accepted(1, CR_LF)),
        ("row 1 below a header", "a,b,c,d,e|1,0,0,1,0", Refused(105, 2)),
        ("the largest multiplier", ",,,,|0,65535,65535,4294967295,18446744073709551615", Accepted(1, CR_LF)),
        ("a multiplier too wide", ",,,,|0,0,0,1,18446744073709551616", Refused(104, 2)),
        ("a parent too wide", ",,,,|0,65536,0,1,0", Refused(104, 2)),
        ("a header block too wide", ",,,,|0,0,65536,1,0", Refused(104, 2)),
        ("a limit too wide", ",,,,|0,0,0,4294967296,0", Refused(104, 2)),
        ("a negative multiplier", ",,,,|0,0,0,1,-1", Refused(104, 2)),
        ("an empty parent", ",,,,|0,,0,1,0", Refused(104, 2)),
    ];
    for (name, text, wanted) in cases {
        t.read(&format!("loops with a header: {name}"), Table::Loops, true, &row(text), 5, *wanted);
    }
    t.read("blocks: a header on an empty text", Table::Blocks, true, b"", 5, Refused(103, 1));
}

/// Digits around 2^16, 2^32, 2^63 and 2^64, some with zeros before or after them, some that a word of 16, 32 or 64 bits would wrap to a small number, and
/// the least and the greatest number of each count of digits.
fn digit_texts() -> Vec<String> {
    let mut texts = Vec::new();
    for bits in [16, 32, 63, 64] {
        for number in (1u128 << bits) - 3..=(1 << bits) + 4 {
            texts.extend(["", "0", "00"].map(|zeros| format!("{zeros}{number}")));
            texts.extend([1, 2, 10, 43, 44, 45, 54, 55].map(|more| format!("{number}{:0>more$}", "")));
            texts.extend([42, 43, 44, 45, 52, 53, 54, 55].map(|zeros| format!("{:0>zeros$}{number}", "")));
        }
        texts.extend((1..=9u128).map(|turns| ((turns << bits) + turns - 1).to_string()));
    }
    for count in 1..=65 {
        texts.push("9".repeat(count));
        texts.push(format!("1{}", "0".repeat(count - 1)));
    }
    texts.push(String::from("0"));
    texts
}

/// Whether digits are a number of at most `most`, which is written in digits as well: nothing is gathered here.
fn is_within(digits: &str, most: &str) -> bool {
    !(digits.len() > 1 && digits.starts_with('0')) && (digits.len(), digits) <= (most.len(), most)
}

/// Every field of both tables with such digits: in a plain record, between quote marks, and plain beside a quoted field.
fn widths(t: &mut Tester) {
    let blocks = ["65535", "4294967295", "65535", "65534", "65534", "9223372036854775807"];
    let loops = ["65535", "65535", "65535", "4294967295", "18446744073709551615"];
    for (table, most) in [(Table::Blocks, &blocks[..]), (Table::Loops, &loops[..])] {
        for digits in digit_texts() {
            for (field, most) in most.iter().enumerate() {
                width(t, table, field, &digits, is_within(&digits, most));
            }
            if table == Table::Blocks {
                width(t, table, 5, &format!("-{digits}"), digits != "0" && is_within(&digits, "9223372036854775808"));
            }
        }
    }
}

/// One field with a text that is a number within its width or not, in the three forms.
fn width(t: &mut Tester, table: Table, field: usize, text: &str, within: bool) {
    let quoted = format!("\"{text}\"");
    for (form, written, beside) in [("plain", text, "1"), ("quoted", &quoted, "1"), ("beside a quoted field", text, "\"1\"")] {
        let count = if table == Table::Blocks { 6 } else { 5 };
        let mut fields = vec![beside; count];
        fields[0] = "0";
        fields[field] = written;
        let wanted = match written.len() {
            65.. => Refused(102, 1),
            _ if !within => Refused(104, 1),
            _ if field == 0 && text != "0" => Refused(105, 1),
            _ => Accepted(1, TEXT),
        };
        t.read(&format!("width: {table:?}, field {field}, {text}, {form}"), table, false, fields.join(",").as_bytes(), 5, wanted);
    }
}

/// Request 1 of document 02. In these texts '|' is CR LF, H a header, Q one with line ends of all kinds in quotes, # a row after its number,
/// and @ the same with its last field quoted.
fn line_ends(t: &mut Tester) {
    let lf = |text: &str| text.replace('|', "\n").into_bytes();
    t.read("line ends: blocks of A with LF", Table::Blocks, false, &lf(A_BLOCKS), 4, Accepted(4, LF));
    t.read("line ends: loops of A with LF", Table::Loops, false, &lf(A_LOOPS), 2, Accepted(2, LF));
    let cases: &[(&str, usize, Want)] = &[
        // the first record's line end beside the row count
        ("", 5, Accepted(0, TEXT)),
        ("0#", 5, Accepted(1, TEXT)),
        ("0#|", 5, Accepted(1, CR_LF)),
        ("0#\n", 5, Accepted(1, LF)),
        ("0#|1#|2#|", 3, Accepted(3, CR_LF)),
        ("0#\n1#\n2#\n", 3, Accepted(3, LF)),
        // the last record may end with the text
        ("0#|1#", 5, Accepted(2, CR_LF)),
        ("0#\n1#", 5, Accepted(2, LF)),
        ("0#|1#|2#", 3, Accepted(3, CR_LF)),
        ("0#\n1#\n2#", 3, Accepted(3, LF)),
        // all the others must end as record 1 does
        ("0#|1#\n", 5, Refused(108, 2)),
        ("0#\n1#|", 5, Refused(108, 2)),
        ("0#|1#\n2#\n", 5, Refused(108, 2)),
        ("0#\n1#|2#|", 5, Refused(108, 2)),
        ("0#|1#\n2#", 5, Refused(108, 2)),
        ("0#\n1#|2#", 5, Refused(108, 2)),
        ("0#|1#\n2#|", 5, Refused(108, 2)),
        ("0#\n1#|2#\n", 5, Refused(108, 2)),
        ("0#|1#|2#\n", 5, Refused(108, 3)),
        ("0#\n1#\n2#|", 5, Refused(108, 3)),
        ("0#|1#|2#\n3#\n", 5, Refused(108, 3)),
        // a lone CR is still no line end
        ("0#\r1#\n", 5, Refused(102, 1)),
        ("0#\n1#\r2#\n", 5, Refused(102, 2)),
        ("0#\n1#\r", 5, Refused(102, 2)),
        ("0#\n\r", 5, Refused(102, 2)),
        ("0#\r\r\n", 5, Refused(102, 1)),
        ("0#\n1#\r\r\n", 5, Refused(102, 2)),
        ("0#\n\r1#\n\r", 5, Refused(102, 2)),
        // LF ends a record wherever it stands outside quotes, and an empty line is a record
        ("\n", 5, Refused(103, 1)),
        ("0\n#", 5, Refused(103, 1)),
        ("0#\n\n", 5, Refused(103, 2)),
        ("0#\n1#\n\n", 5, Refused(103, 3)),
        // after a closing quote
        ("0@\n", 5, Accepted(1, LF)),
        ("0@\n1@\n", 5, Accepted(2, LF)),
        ("0@\n1@", 5, Accepted(2, LF)),
        ("0@|1@|", 5, Accepted(2, CR_LF)),
        ("0@|1@\n", 5, Refused(108, 2)),
        ("0@\n1@|", 5, Refused(108, 2)),
        ("0@\n1@\r", 5, Refused(102, 2)),
        ("0@\n1@\r\r\n", 5, Refused(102, 2)),
        ("0@x\n", 5, Refused(102, 1)),
        ("0@ \n", 5, Refused(102, 1)),
        // in quotes
        ("\"0\n\"#\n", 5, Refused(104, 1)),
        ("\"0|\"#\n", 5, Refused(104, 1)),
        ("\"0\r\"#\n", 5, Refused(104, 1)),
        ("0#|\"1\n\"#|", 5, Refused(104, 2)),
        ("0#\n\"1|\"#\n", 5, Refused(104, 2)),
        ("0#\n1#,\"\n2#\n", 5, Refused(102, 2)),
        // 108 is the last number of a record
        ("0#|1#\"\n", 5, Refused(102, 2)),
        ("0@|1@x\n", 5, Refused(102, 2)),
        ("0#|1#,\n", 5, Refused(103, 2)),
        ("0#\n1|", 5, Refused(103, 2)),
        ("0#|\n", 5, Refused(103, 2)),
        ("0#\n|", 5, Refused(103, 2)),
        ("0#|x#\n", 5, Refused(104, 2)),
        ("0#\nx#|", 5, Refused(104, 2)),
        ("0#|2#\n", 5, Refused(105, 2)),
        ("0#\n2#|", 5, Refused(105, 2)),
        ("0#|1#\n", 1, Refused(106, 2)),
        ("0#\n1#|", 1, Refused(106, 2)),
        ("0#\n1#\n2#|", 2, Refused(106, 3)),
        // the lowest record decides
        ("0#|1#\n\"", 5, Refused(108, 2)),
        ("0#|1#\nx", 5, Refused(108, 2)),
        ("0#|1#\nx#", 5, Refused(108, 2)),
        ("0#|1#\n1#", 5, Refused(108, 2)),
        ("0#\n1#|2#\n", 2, Refused(108, 2)),
        ("0#|1#\"|2#\n", 5, Refused(102, 2)),
        ("0#|1|2#\n", 5, Refused(103, 2)),
        ("0#|x#|2#\n", 5, Refused(104, 2)),
        ("0#|0#|2#\n", 5, Refused(105, 2)),
        ("0#|1#|2#\n", 1, Refused(106, 2)),
    ];
    let cases_with_header: &[(&str, usize, Want)] = &[
        ("", 5, Refused(103, 1)),
        ("H", 0, Accepted(0, TEXT)),
        ("H|", 0, Accepted(0, CR_LF)),
        ("H\n", 0, Accepted(0, LF)),
        ("H|0#", 1, Accepted(1, CR_LF)),
        ("H\n0#", 1, Accepted(1, LF)),
        ("H|0#|1#|", 2, Accepted(2, CR_LF)),
        ("H\n0#\n1#\n", 2, Accepted(2, LF)),
        // its line end is the first record's
        ("H|0#\n", 5, Refused(108, 2)),
        ("H\n0#|", 5, Refused(108, 2)),
        ("H|0#\n1#\n", 5, Refused(108, 2)),
        ("H\n0#|1#|", 5, Refused(108, 2)),
        ("H|0#|1#\n", 5, Refused(108, 3)),
        ("H\n0#\n1#|", 5, Refused(108, 3)),
        ("H|0#\n", 0, Refused(106, 2)),
        ("H\n0#|", 0, Refused(106, 2)),
        ("H|\n", 5, Refused(103, 2)),
        ("H\n|", 5, Refused(103, 2)),
        ("H\nx#|", 5, Refused(104, 2)),
        ("H\n1#|", 5, Refused(105, 2)),
        ("H\r0#\n", 5, Refused(102, 1)),
        ("H\n0#\r", 5, Refused(102, 2)),
        ("H\n\r0#\n", 5, Refused(102, 2)),
        ("H\r\r\n0#\n", 5, Refused(102, 1)),
        ("\nH\n0#\n", 5, Refused(103, 1)),
        // line ends in quotes neither end a record nor count as the first
        ("Q", 5, Accepted(0, TEXT)),
        ("Q|", 5, Accepted(0, CR_LF)),
        ("Q\n", 5, Accepted(0, LF)),
        ("Q|0#|1#|", 5, Accepted(2, CR_LF)),
        ("Q\n0#\n1#\n", 5, Accepted(2, LF)),
        ("Q|0#\n", 5, Refused(108, 2)),
        ("Q\n0#|", 5, Refused(108, 2)),
    ];
    for (table, header, rest) in [(Table::Blocks, "a,b,c,d,e,", "1,2,3,4,5"), (Table::Loops, "a,b,c,d,", "0,0,1,5")] {
        let whole = |text: &str| {
            let quoted = rest.replace('5', "\"5\"");
            let text = text.replace('H', &format!("{header}f")).replace('Q', &format!("{header}\"|\n\r\"\"\n\""));
            lines(&text.replace('#', &format!(",{rest}")).replace('@', &format!(",{quoted}")))
        };
        for (header_row, cases) in [(false, cases), (true, cases_with_header)] {
            for (text, places, wanted) in cases {
                let name = format!("line ends: {table:?}, header row {header_row}, {places} places, {text:?}");
                t.read(&name, table, header_row, &whole(text), *places, *wanted);
            }
        }
        for (length, wanted) in [(64, Accepted(0, LF)), (65, Refused(102, 1))] {
            let text = format!("{header}{}\n", "h".repeat(length));
            t.read(&format!("line ends: {table:?}, a field of {length} bytes and LF"), table, true, text.as_bytes(), 5, wanted);
        }

        let most = if table == Table::Blocks { 1024 } else { 64 };
        let last = most as u32;
        for (usual, other, first_end) in [("|", "\n", CR_LF), ("\n", "|", LF)] {
            let rows = |count: usize, end: &str| {
                let rows: String = (0..count - 1).map(|row| format!("{row}#{usual}")).collect();
                whole(&format!("{rows}{}#{end}", count - 1))
            };
            let mut full = |name: &str, count: usize, end: &str, places: usize, wanted: Want| {
                t.read(&format!("line ends: {table:?}, {usual:?}, {name}"), table, false, &rows(count, end), places, wanted);
            };
            full("all rows", most, usual, most, Accepted(most as i64, first_end));
            full("all rows, the last one open", most, "", most, Accepted(most as i64, first_end));
            full("the last row with the other line end", most, other, most, Refused(108, last));
            full("the last row with the other line end and without a place", most, other, most - 1, Refused(106, last));
            full("one row more with the other line end", most + 1, other, 2000, Refused(106, last + 1));
        }

        let mut text = whole("0#|1#\n");
        text.resize(65_536, b'x');
        t.read(&format!("line ends: {table:?}, mixed in 65,536 bytes"), table, false, &text, 5, Refused(108, 2));
        text.push(b'x');
        t.read(&format!("line ends: {table:?}, mixed in 65,537 bytes"), table, false, &text, 5, Refused(101, 0));

        for case in mixtures(table) {
            let outcome = t.bench.read(&case).map(|_| ());
            t.score.test(&format!("line ends, all mixtures: {}", crate::show_case(&case)), outcome);
        }
    }
    let by_lf = reference::read_blocks(&lf(A_BLOCKS), false, 4).map(|(blocks, _)| blocks) == Ok(a(|_| ()).blocks)
        && reference::read_loops(&lf(A_LOOPS), false, 2).map(|(loops, _)| loops) == Ok(a(|_| ()).loops);
    t.score.test("line ends: columns of A with LF", if by_lf { Ok(()) } else { Err("other columns".to_string()) });
}

/// The edges of lengths: fields, rows, texts and columns.
fn sizes(t: &mut Tester) {
    let first = |field: &str| format!("{field},1,2,3,4,5").into_bytes();
    t.read("a field of 64 digits", Table::Blocks, false, &first(&"1".repeat(64)), 5, Refused(104, 1));
    t.read("a field of 65 digits", Table::Blocks, false, &first(&"1".repeat(65)), 5, Refused(102, 1));
    t.read("a quoted field of 64 bytes", Table::Blocks, false, &first(&format!("\"{}\"", "1".repeat(62))), 5, Refused(104, 1));
    t.read("a quoted field of 65 bytes", Table::Blocks, false, &first(&format!("\"{}\"", "1".repeat(63))), 5, Refused(102, 1));
    t.read("64 quote marks", Table::Blocks, false, &first(&"\"".repeat(64)), 5, Refused(104, 1));
    t.read("66 quote marks", Table::Blocks, false, &first(&"\"".repeat(66)), 5, Refused(102, 1));
    t.read("a header of 64 bytes", Table::Loops, true, format!("{},,,,", "h".repeat(64)).as_bytes(), 5, Accepted(0, TEXT));
    t.read("a header of 65 bytes", Table::Loops, true, format!("{},,,,", "h".repeat(65)).as_bytes(), 5, Refused(102, 1));
    t.read("a last field of 64 bytes", Table::Loops, true, format!(",,,,{}", "h".repeat(64)).as_bytes(), 5, Accepted(0, TEXT));
    t.read("a last field of 65 bytes", Table::Loops, true, format!(",,,,{}", "h".repeat(65)).as_bytes(), 5, Refused(102, 1));

    let rows = |count: usize, rest: &str| (0..count).map(|i| format!("{i},{rest}\r\n")).collect::<String>();
    for (table, rest, most) in [(Table::Blocks, "1,2,3,4,5", 1024), (Table::Loops, "0,0,1,0", 64)] {
        let over = most as u32 + 1;
        let full = rows(most, rest);
        t.read(&format!("{table:?}: all rows"), table, false, full.as_bytes(), 2000, Accepted(most as i64, CR_LF));
        t.read(&format!("{table:?}: all rows, all places"), table, false, full.as_bytes(), most, Accepted(most as i64, CR_LF));
        t.read(&format!("{table:?}: one place short"), table, false, full.as_bytes(), most - 1, Refused(106, over - 1));
        t.read(&format!("{table:?}: no places"), table, false, full.as_bytes(), 0, Refused(106, 1));
        t.read(&format!("{table:?}: one row more"), table, false, rows(most + 1, rest).as_bytes(), 2000, Refused(106, over));
        let header = format!("{}\r\n", ",".repeat(rest.matches(',').count() + 1));
        t.read(&format!("{table:?}: header and all rows"), table, true, (header.clone() + &full).as_bytes(), 2000, Accepted(most as i64, CR_LF));
        t.read(&format!("{table:?}: header and one row more"), table, true, (header + &rows(most + 1, rest)).as_bytes(), 2000, Refused(106, over + 1));
        for (name, last, number) in [
            ("empty line", "\r\n".to_string(), 103),
            ("bad number", format!("x,{rest}"), 104),
            ("wrong row", format!("0,{rest}"), 105),
            ("broken record", format!("{most},{rest}\""), 102),
        ] {
            let text = full.clone() + &last;
            t.read(&format!("{table:?}: {name} after all rows"), table, false, text.as_bytes(), 2000, Refused(number, over));
            t.read(&format!("{table:?}: {name} without a place"), table, false, text.as_bytes(), most, Refused(number, over));
        }
        for (name, text, number) in [
            ("empty line", "\r\n".to_string(), 103),
            ("bad number", format!("x,{rest}"), 104),
            ("wrong row", format!("1,{rest}"), 105),
            ("good row", format!("0,{rest}"), 106),
            ("broken record", format!("0,{rest}\""), 102),
        ] {
            t.read(&format!("{table:?}: {name} with no place at all"), table, false, text.as_bytes(), 0, Refused(number, 1));
        }
        let case = |lengths| Case { table, text: format!("0,{rest}\r\n1,{rest}\r\n2,{rest}").into_bytes(), header_row: false, lengths };
        for short in 0..rest.matches(',').count() + 1 {
            for (length, place) in [(0, 1), (1, 2), (2, 3)] {
                let mut lengths = [5; 5];
                lengths[short] = length;
                let outcome = t.bench.read(&case(lengths));
                t.expect(&format!("{table:?}: column {short} of length {length}"), Refused(106, place), outcome);
            }
        }
    }

    // texts at the length limit: good rows of some length and a header that fills up
    let rest = "\"4294967295\",\"65535\",\"65534\",\"65534\",\"-9223372036854775808\"";
    for (length, usual, end, wanted) in [
        (65_535, "\r\n", "\r\n", Accepted(1008, CR_LF)),
        (65_536, "\r\n", "\r\n", Accepted(1008, CR_LF)),
        (65_537, "\r\n", "\r\n", Refused(101, 0)),
        (65_535, "\r\n", "", Accepted(1008, CR_LF)),
        (65_536, "\r\n", "", Accepted(1008, CR_LF)),
        (65_537, "\r\n", "", Refused(101, 0)),
        (65_536, "\r\n", "\n", Refused(108, 1009)),
        (65_535, "\n", "\n", Accepted(1023, LF)),
        (65_536, "\n", "\n", Accepted(1023, LF)),
        (65_537, "\n", "\n", Refused(101, 0)),
        (65_535, "\n", "", Accepted(1023, LF)),
        (65_536, "\n", "", Accepted(1023, LF)),
        (65_537, "\n", "", Refused(101, 0)),
        (65_536, "\n", "\r\n", Refused(108, 1024)),
    ] {
        let count = if usual == "\n" { 1023 } else { 1008 };
        let body = rows(count, rest).replace("\r\n", usual);
        let body = &body[..body.len() - usual.len()];
        let mut left = length - body.len() - end.len() - 5 - usual.len();
        let mut fields = Vec::new();
        for _ in 0..6 {
            fields.push("h".repeat(left.min(64)));
            left -= left.min(64);
        }
        assert!(left == 0);
        let text = format!("{}{usual}{body}{end}", fields.join(","));
        assert!(text.len() == length);
        t.read(&format!("a text of {length} bytes, line ends {usual:?}, the last {end:?}"), Table::Blocks, true, text.as_bytes(), 1024, wanted);
    }
    t.read("65,536 bytes of no form", Table::Blocks, false, &[b'x'; 65_536], 5, Refused(102, 1));
    t.read("65,537 bytes of no form", Table::Blocks, false, &[b'x'; 65_537], 5, Refused(101, 0));
    t.read("a long text", Table::Loops, true, &[b'"'; 400_000], 5, Refused(101, 0));
    t.read("65,536 quote marks", Table::Loops, true, &[b'"'; 65_536], 5, Refused(102, 1));
    t.read("65,536 commas", Table::Loops, true, &[b','; 65_536], 5, Refused(103, 1));
    t.read("65,536 bytes of line ends", Table::Loops, true, &b"\r\n".repeat(32_768), 5, Refused(103, 1));
    t.read("65,536 line feeds", Table::Loops, true, &[b'\n'; 65_536], 5, Refused(103, 1));
    t.read("65,536 carriage returns", Table::Loops, true, &[b'\r'; 65_536], 5, Refused(102, 1));
}

/// `n` blocks in a row and loop 0 only.
pub fn straight(n: usize) -> Tables {
    let mut tables = Tables::default();
    let blocks = &mut tables.blocks;
    blocks.cost = vec![1; n];
    blocks.inner = vec![0; n];
    blocks.first = (1..=n).map(|next| if next < n { next as u16 } else { MISSING }).collect();
    blocks.second = vec![MISSING; n];
    blocks.figure = (0..n).map(|u| (n - 1 - u) as i64).collect();
    tables.loops.parent = vec![0];
    tables.loops.header = vec![0];
    tables.loops.limit = vec![1];
    tables.loops.multiplier = vec![0];
    tables
}

/// A row of blocks, block l the header of loop l for l up to m − 1; nested one in another or side by side.
fn headed(m: usize, nested: bool) -> Tables {
    let mut tables = straight(m + 1);
    for l in 1..m {
        tables.blocks.inner[l] = l as u16;
        tables.loops.parent.push(if nested { l as u16 - 1 } else { 0 });
        tables.loops.header.push(l as u16);
        tables.loops.limit.push(65_535);
        tables.loops.multiplier.push(0);
    }
    tables
}

/// Each column of routine A made longer or shorter by one.
const COLUMNS: [(&str, fn(&mut Tables, bool)); 9] = [
    ("cost", |x, more| if more { x.blocks.cost.push(0) } else { x.blocks.cost.truncate(3) }),
    ("loop", |x, more| if more { x.blocks.inner.push(0) } else { x.blocks.inner.truncate(3) }),
    ("first", |x, more| if more { x.blocks.first.push(0) } else { x.blocks.first.truncate(3) }),
    ("second", |x, more| if more { x.blocks.second.push(0) } else { x.blocks.second.truncate(3) }),
    ("figure", |x, more| if more { x.blocks.figure.push(0) } else { x.blocks.figure.truncate(3) }),
    ("parent", |x, more| if more { x.loops.parent.push(0) } else { x.loops.parent.truncate(1) }),
    ("header", |x, more| if more { x.loops.header.push(0) } else { x.loops.header.truncate(1) }),
    ("limit", |x, more| if more { x.loops.limit.push(0) } else { x.loops.limit.truncate(1) }),
    ("multiplier", |x, more| if more { x.loops.multiplier.push(0) } else { x.loops.multiplier.truncate(1) }),
];

fn tables(t: &mut Tester) {
    t.check("n 2", &straight(2), Accepted(2, 0));
    t.check("n 1024", &straight(1024), Accepted(1024, 0));
    t.check("n 1025", &straight(1025), Refused(201, 0));
    t.check("n 1", &straight(1), Refused(201, 0));
    t.check("n 0", &Tables { blocks: Default::default(), ..straight(2) }, Refused(201, 0));
    t.check("m 0", &Tables { loops: Default::default(), ..straight(2) }, Refused(201, 0));
    t.check("all empty", &Tables::default(), Refused(201, 0));
    t.check("m 64", &headed(64, false), Accepted(65, 0));
    t.check("m 65", &headed(65, false), Refused(201, 0));
    t.check("depth 16", &headed(16, true), Accepted(17, 0));
    t.check("depth 17", &headed(17, true), Refused(205, 16));
    t.check("depth 64", &headed(64, true), Refused(205, 16));
    for (name, change) in COLUMNS {
        for more in [false, true] {
            let tables = a(|x| change(x, more));
            t.check(&format!("column {name} {} by one", if more { "longer" } else { "shorter" }), &tables, Refused(201, 0));
            t.walk(&format!("a walk with column {name} {}", if more { "longer" } else { "shorter" }), &tables, &[0], Refused(201, 0));
        }
    }
    let cases: &[(&str, fn(&mut Tables), Want)] = &[
        ("loop 0 with limit 2", |x| x.loops.limit[0] = 2, Refused(202, 0)),
        ("loop 0 with limit 0", |x| x.loops.limit[0] = 0, Refused(202, 0)),
        ("loop 0 with header 1", |x| x.loops.header[0] = 1, Refused(202, 0)),
        ("loop 0 with parent 1", |x| x.loops.parent[0] = 1, Refused(202, 0)),
        ("loop 0 with multiplier 1", |x| x.loops.multiplier[0] = 1, Refused(202, 0)),
        ("a loop its own parent", |x| x.loops.parent[1] = 1, Refused(202, 1)),
        ("a header n", |x| x.loops.header[1] = 4, Refused(202, 1)),
        ("a header 65,535", |x| x.loops.header[1] = 65_535, Refused(202, 1)),
        ("limit 2^32 - 1", |x| x.loops.limit[1] = u32::MAX, Refused(202, 1)),
        ("limit 1", |x| x.loops.limit[1] = 1, Accepted(30, 0)),
        ("multiplier 2^40", |x| x.loops.multiplier[1] = 1 << 40, Refused(208, 0)),
        ("multiplier 2^40 + 1", |x| x.loops.multiplier[1] = (1 << 40) + 1, Refused(202, 1)),
        ("multiplier 2^64 - 1", |x| x.loops.multiplier[1] = u64::MAX, Refused(202, 1)),
        ("cost 1,000,000", |x| x.blocks.cost[0] = 1_000_000, Accepted(1_000_028, 0)),
        ("cost 1,000,001", |x| x.blocks.cost[0] = 1_000_001, Refused(203, 0)),
        ("a block's loop m", |x| x.blocks.inner[3] = 2, Refused(203, 3)),
        ("a successor n", |x| x.blocks.second[0] = 4, Refused(203, 0)),
        ("a successor 65,534", |x| x.blocks.first[0] = 65_534, Refused(203, 0)),
        ("a figure 2^60", |x| x.blocks.figure[0] = 1 << 60, Accepted((1 << 60) + 2, 0)),
        ("a figure 2^60 + 1", |x| x.blocks.figure[0] = (1 << 60) + 1, Refused(203, 0)),
        ("a figure -2^60", |x| x.blocks.figure[3] = -(1 << 60), Accepted((1 << 60) + 30, 0)),
        ("a figure -2^60 - 1", |x| x.blocks.figure[3] = -(1 << 60) - 1, Refused(203, 3)),
        ("a figure -2^63", |x| x.blocks.figure[3] = i64::MIN, Refused(203, 3)),
        ("202 before 203", |x| (x.blocks.cost[0], x.loops.limit[1]) = (1_000_001, 0), Refused(202, 1)),
        ("a header in another loop", |x| x.loops.header[1] = 3, Refused(204, 1)),
        ("block 0 in loop 1", |x| x.blocks.inner[0] = 1, Refused(204, 0)),
        ("an edge into block 0", |x| x.blocks.second[2] = 0, Refused(206, 2)),
        ("block 0 names itself", |x| x.blocks.second[0] = 0, Refused(206, 0)),
        ("an edge out of the exit", |x| x.blocks.first[3] = 1, Refused(206, 3)),
        ("a second edge out of the exit", |x| x.blocks.second[3] = 3, Refused(206, 3)),
        ("206 before 207", |x| (x.blocks.second[0], x.blocks.first[3]) = (2, 1), Refused(206, 3)),
        ("both successors the same", |x| x.blocks.second[0] = 1, Accepted(30, 0)),
        ("the header names itself", |x| x.blocks.second[1] = 1, Accepted(30, 0)),
        ("a block that is no header names itself", |x| x.blocks.second[2] = 2, Refused(209, 0)),
        ("and costs nothing", |x| (x.blocks.second[2], x.blocks.cost[2]) = (2, 0), Refused(209, 0)),
        ("the exit in a loop", |x| x.blocks.inner[3] = 1, Accepted(30, 0)),
    ];
    for (name, change, wanted) in cases {
        t.check(name, &a(*change), *wanted);
    }
    // largest differences of figures
    let far = |first: i64, last: i64| tables_of(&format!("0,1000000,0,1,,{first}|1,1000000,0,,,{last}"), "0,0,0,1,0");
    t.check("figures 2^60 and -2^60", &far(1 << 60, -(1 << 60)), Accepted((1 << 61) + 1_000_000, 0));
    t.check("figures -2^60 and 2^60", &far(-(1 << 60), 1 << 60), Refused(208, 0));
    let no_edge = |first: i64, last: i64| {
        let mut tables = far(first, last);
        tables.blocks.first[0] = MISSING;
        tables
    };
    t.check("figures -2^60 and 2^60 without an edge", &no_edge(-(1 << 60), 1 << 60), Accepted(1_000_000 - (1 << 61), 0));
    // the largest entry: 2^40 x 65,534
    let entry = |first: i64| tables_of(&format!("0,0,0,1,,{first}|1,0,1,2,,0|2,0,0,,,0"), "0,0,0,1,0|1,0,1,65535,1099511627776");
    t.check("the largest entry, just kept", &entry(65_534 << 40), Accepted(65_534 << 40, 0));
    t.check("the largest entry, just broken", &entry((65_534 << 40) - 1), Refused(208, 0));
    // two loops entered at once, at the inner one's header
    let mut two = headed(3, true);
    two.blocks.second[0] = 2;
    t.check("an edge that enters two loops", &two, Refused(207, 0));
    let mut side = headed(3, false);
    side.blocks.second[0] = 2;
    t.check("an edge past a loop into another", &side, Accepted(4, 0));
    // a return to the outer header from inside the inner loop
    let mut back = headed(3, true);
    back.blocks.second[2] = 1;
    t.check("a return from the inner loop to the outer header, broken", &back, Refused(208, 2));
    // block 1 enters loop 1 from outside at (limit - 1) x multiplier and inside it returns at cost - multiplier
    back.loops.multiplier[1] = 2;
    back.loops.limit[1] = 2;
    back.blocks.figure[0] = 5;
    t.check("a return from the inner loop to the outer header, kept", &back, Accepted(6, 0));
    t.walk("that return counts for the outer loop", &back, &[0, 1, 2, 1, 2, 3], Accepted(6, 5));
    t.walk("that return is held to the outer limit", &back, &[0, 1, 2, 1, 2, 1], Refused(313, 5));
}

/// A loop from 1 up: its parent, its header, and the other blocks that it is the innermost loop of.
type Loop<'a> = (u16, u16, &'a [usize]);

/// `n` blocks with these edges that cost nothing: with figures and multipliers 0 every inequality is kept, and the bound is 0.
fn free(n: usize, edges: impl IntoIterator<Item = (usize, usize)>, loops: &[Loop]) -> Tables {
    let mut tables = straight(n);
    let blocks = &mut tables.blocks;
    blocks.cost.fill(0);
    blocks.figure.fill(0);
    blocks.first.fill(MISSING);
    for (u, v) in edges {
        let place = if blocks.first[u] == MISSING { &mut blocks.first[u] } else { &mut blocks.second[u] };
        assert!(std::mem::replace(place, v as u16) == MISSING, "two edges at most");
    }
    for (l, (parent, header, others)) in loops.iter().enumerate() {
        for u in others.iter().copied().chain([usize::from(*header)]) {
            blocks.inner[u] = l as u16 + 1;
        }
        tables.loops.parent.push(*parent);
        tables.loops.header.push(*header);
        tables.loops.limit.push(1);
        tables.loops.multiplier.push(0);
    }
    tables
}

/// The edges that a row of digits writes: one from each digit to the next. After a blank another row starts.
fn ways(rows: &str) -> Vec<(usize, usize)> {
    let digit = |byte: u8| usize::from(byte - b'0');
    rows.split(' ').flat_map(|row| row.as_bytes().windows(2).map(move |pair| (digit(pair[0]), digit(pair[1])))).collect()
}

const GOOD: Want = Accepted(0, 0);
const UNDECLARED: Want = Refused(209, 0);

/// Request 2 of document 02: small graphs of blocks that cost nothing, with the loops that are declared. The highest block is the exit.
const CYCLES: &[(&str, &str, &[Loop], Want)] = &[
    ("a block that names itself", "0112", &[], UNDECLARED),
    ("a block that names itself, the loop declared", "0112", &[(0, 1, &[])], GOOD),
    ("a block that names itself twice", "011 11 02", &[], UNDECLARED),
    ("a block that names itself twice, the loop declared", "011 11 02", &[(0, 1, &[])], GOOD),
    ("two blocks", "0121 23", &[], UNDECLARED),
    ("two blocks, the loop declared", "0121 23", &[(0, 1, &[2])], GOOD),
    ("two blocks, the loop declared at the higher one", "0212 13", &[(0, 2, &[1])], GOOD),
    ("three blocks", "01231 34", &[], UNDECLARED),
    ("three blocks, the loop declared", "01231 34", &[(0, 1, &[2, 3])], GOOD),
    ("three blocks downwards", "03213 14", &[], UNDECLARED),
    ("three blocks downwards, the loop declared", "03213 14", &[(0, 3, &[1, 2])], GOOD),
    ("two cycles", "0121 232 34", &[], UNDECLARED),
    ("two cycles, the first declared", "0121 232 34", &[(0, 1, &[2, 3])], UNDECLARED),
    ("two cycles, both declared", "0121 232 34", &[(0, 1, &[]), (1, 2, &[3])], GOOD),
    ("a cycle that is never left", "0121 03", &[], UNDECLARED),
    ("a cycle at the end of a long way", "01234565 67", &[], UNDECLARED),
    // unreachable blocks
    ("an unreachable block that names itself", "11 02", &[], UNDECLARED),
    ("an unreachable block that names itself, the loop declared", "11 02", &[(0, 1, &[])], GOOD),
    ("two unreachable blocks", "121 03", &[], UNDECLARED),
    ("two unreachable blocks, the loop declared", "121 03", &[(0, 1, &[2])], GOOD),
    ("two unreachable blocks that lead to the others", "2321 014 34", &[], UNDECLARED),
    ("two unreachable blocks and nothing else", "121 13", &[], UNDECLARED),
    // through the header of a loop that is entered from outside
    ("through the loop of its first block", "0121 23", &[(0, 1, &[])], UNDECLARED),
    ("through the loop of its second block", "0121 23", &[(0, 2, &[])], UNDECLARED),
    ("through the loops of both", "0121 23", &[(0, 1, &[]), (0, 2, &[])], UNDECLARED),
    ("through two headers that name themselves", "01122 21 03", &[(0, 1, &[]), (0, 2, &[])], UNDECLARED),
    ("two headers that name themselves, one loop in the other", "01122 21 03", &[(0, 1, &[]), (1, 2, &[])], GOOD),
    ("two headers that name themselves and no way back", "01122 23", &[(0, 1, &[]), (0, 2, &[])], GOOD),
    ("through a loop of two blocks", "01231 21 34", &[(0, 1, &[2])], UNDECLARED),
    ("through a loop of two blocks, left and entered by its header", "01213 31 34", &[(0, 1, &[2])], UNDECLARED),
    ("through an inner loop, past the outer header", "01232 31 14", &[(0, 1, &[3]), (1, 2, &[])], UNDECLARED),
    ("through the loop of an unreachable block", "121 03", &[(0, 1, &[])], UNDECLARED),
    // in a declared loop, past its header
    ("a block in a loop that names itself", "01221 13", &[(0, 1, &[2])], UNDECLARED),
    ("a block in a loop that names itself, its loop declared too", "01221 13", &[(0, 1, &[]), (1, 2, &[])], GOOD),
    ("two blocks in a loop", "01232 31 14", &[(0, 1, &[2, 3])], UNDECLARED),
    ("two blocks in a loop, their loop declared too", "01232 31 14", &[(0, 1, &[]), (1, 2, &[3])], GOOD),
    ("two blocks in an inner loop", "012343 42 15", &[(0, 1, &[]), (1, 2, &[3, 4])], UNDECLARED),
    ("two blocks in an inner loop, their loop declared too", "012343 42 15", &[(0, 1, &[]), (1, 2, &[]), (2, 3, &[4])], GOOD),
    // returns to an outer header, and edges out of an inner loop that are none
    ("a return to the outer header", "0121 23", &[(0, 1, &[]), (1, 2, &[])], GOOD),
    ("a return past the header between", "01231 34", &[(0, 1, &[]), (1, 2, &[]), (2, 3, &[])], GOOD),
    ("out of the inner loop to a block that is no header", "01232 34", &[(0, 1, &[2]), (1, 3, &[])], UNDECLARED),
    ("out of the inner loop to the header of another one", "01232 34", &[(0, 1, &[]), (1, 2, &[]), (1, 3, &[])], UNDECLARED),
    // both successors the same
    ("doubled edges in a row", "01 01 12 12 23 23", &[], GOOD),
    ("doubled edges in a cycle", "01 03 12 12 21 21", &[], UNDECLARED),
    ("doubled edges in a cycle, the loop declared", "01 03 12 12 21 21", &[(0, 1, &[2])], GOOD),
    ("a doubled edge forwards in a cycle", "012 12 21 23", &[], UNDECLARED),
    ("a doubled edge forwards, the loop declared", "012 12 21 23", &[(0, 1, &[2])], GOOD),
    ("a doubled edge back", "0121 21 13", &[], UNDECLARED),
    ("a doubled edge back, the loop declared", "0121 21 13", &[(0, 1, &[2])], GOOD),
    ("a doubled edge back that enters a loop", "0121 21 13", &[(0, 1, &[])], UNDECLARED),
    ("a doubled edge to a loop", "0121 01 23", &[(0, 1, &[2])], GOOD),
    // no closed walk
    ("a branch", "013 023", &[], GOOD),
    ("all edges upwards", "0123 02 13", &[], GOOD),
    ("a row downwards", "03214 24", &[], GOOD),
    ("a way past a loop", "01213 03", &[(0, 1, &[2])], GOOD),
    ("the exit heads a loop", "012", &[(0, 2, &[])], GOOD),
    // 206 and 207 come first
    ("the exit heads a loop and names itself", "0122", &[(0, 2, &[])], Refused(206, 2)),
    ("through block 0", "010 02", &[], Refused(206, 1)),
    ("206 before 209", "0112 22", &[], Refused(206, 2)),
    ("207 before 209", "01221 02 13", &[(0, 1, &[2])], Refused(207, 0)),
];

fn cycles(t: &mut Tester) {
    for (name, rows, loops, wanted) in CYCLES {
        let edges = ways(rows);
        let n = edges.iter().map(|(_, v)| v + 1).max().unwrap();
        t.check(&format!("cycle: {name}"), &free(n, edges, loops), *wanted);
    }
    let with = |rows: &str, loops: &[Loop], change: fn(&mut Tables)| {
        let mut tables = free(4, ways(rows), loops);
        change(&mut tables);
        tables
    };
    // 209 comes ahead of 208; with the cycle declared the same fault is 208
    let both: &[(&str, &str, &[Loop], fn(&mut Tables), u32)] = &[
        ("on the cycle", "0121 23", &[(0, 1, &[2])], |x| x.blocks.figure[2] = 1, 1),
        ("into the cycle", "0121 23", &[(0, 1, &[2])], |x| x.blocks.figure[0] = -1, 0),
        ("out of the cycle", "0121 23", &[(0, 1, &[2])], |x| x.blocks.cost[3] = 1, 2),
        ("at every block", "0121 23", &[(0, 1, &[2])], |x| x.blocks.cost.fill(1), 0),
        ("by the edge back", "0121 23", &[(0, 1, &[2])], |x| x.blocks.figure[..2].fill(1), 2),
        ("unreachable", "03 121", &[(0, 1, &[2])], |x| x.blocks.cost[1] = 1, 2),
        ("at a block before an unreachable cycle", "03 121", &[(0, 1, &[2])], |x| x.blocks.cost[3] = 1, 0),
        ("from a block to itself", "01223", &[(0, 2, &[])], |x| { x.blocks.cost[2] = 1; x.blocks.figure[..2].fill(1) }, 2),
    ];
    for (name, rows, declared, change, place) in both {
        t.check(&format!("cycle: 209 before 208, {name}"), &with(rows, &[], *change), UNDECLARED);
        t.check(&format!("cycle: 208, declared, {name}"), &with(rows, declared, *change), Refused(208, *place));
    }
    t.check("cycle: the way to it costs", &with("0121 23", &[], |x| (x.blocks.cost[0], x.blocks.figure[0]) = (5, 9)), UNDECLARED);
    // an entry costs multiplier x (limit - 1)
    let header: &[Loop] = &[(0, 1, &[])];
    t.check("cycle: limit 1, multiplier 2^40", &with("0121 23", header, |x| x.loops.multiplier[1] = 1 << 40), UNDECLARED);
    t.check("cycle: limit 65,535, multiplier 0", &with("0121 23", header, |x| x.loops.limit[1] = 65_535), UNDECLARED);
    t.check("cycle: limit 2, multiplier 1, which breaks 208 too", &with("0121 23", header, |x| (x.loops.limit[1], x.loops.multiplier[1]) = (2, 1)), UNDECLARED);
    t.check("cycle: no edges", &free(4, [], &[]), GOOD);
}

/// The largest graphs. Block 0 and the exit are on no closed walk (206), so 1,022 blocks are the most in one cycle.
fn large_cycles(t: &mut Tester) {
    const N: usize = 1024;
    let last = N - 2;
    let up = |to: usize| (0..to).map(|u| (u, u + 1));
    // from the entry to the last block but one and from there down
    let down = || [(0, last)].into_iter().chain((1..last).map(|u| (u + 1, u)));
    let all: Vec<usize> = (2..=last).collect();
    let both = |u: usize, v: usize| [(u, v), (u, v)];
    let cases: [(&str, Tables, Want); 15] = [
        ("a row", free(N, up(N - 1), &[]), GOOD),
        ("a row in a cycle", free(N, up(N - 1).chain([(last, 1)]), &[]), UNDECLARED),
        ("a row in a cycle, the loop declared", free(N, up(N - 1).chain([(last, 1)]), &[(0, 1, &all)]), GOOD),
        ("a row in a cycle that enters the loop of its first block", free(N, up(N - 1).chain([(last, 1)]), &[(0, 1, &[])]), UNDECLARED),
        ("a row in a cycle that is never left", free(N, up(last).chain([(last, 1)]), &[]), UNDECLARED),
        ("a row in a cycle that nothing leads to", free(N, up(last).skip(1).chain([(last, 1)]), &[]), UNDECLARED),
        ("a row and a block that names itself", free(N, up(N - 1).chain([(last, last)]), &[]), UNDECLARED),
        ("a row downwards", free(N, down().chain([(1, N - 1)]), &[]), GOOD),
        ("a row downwards in a cycle", free(N, down().chain([(1, N - 1), (1, last)]), &[]), UNDECLARED),
        ("a row of doubled edges", free(N, (0..=last).flat_map(|u| both(u, u + 1)), &[]), GOOD),
        ("doubled edges in a cycle", free(N, (1..=last).flat_map(|u| both(u, if u < last { u + 1 } else { 1 })), &[]), UNDECLARED),
        ("2,046 edges to one block", free(N, (0..=last).flat_map(|u| both(u, N - 1)), &[]), GOOD),
        ("2,044 edges to one block, and one from it to itself", free(N, (0..last).flat_map(|u| both(u, last)).chain([(last, last)]), &[]), UNDECLARED),
        ("1,022 blocks that name themselves", free(N, (1..=last).map(|u| (u, u)), &[]), UNDECLARED),
        ("no edges", free(N, [], &[]), GOOD),
    ];
    for (name, tables, wanted) in &cases {
        t.check(&format!("large cycle: {name}"), tables, *wanted);
    }
    // the work marks are cleared before each check: a small table and a large one, each after every one of these
    let (small, large) = (a(|_| ()), &cases[0].1);
    for (name, tables, wanted) in &cases {
        t.check(&format!("cycle: {name}, before A"), tables, *wanted);
        t.check(&format!("cycle: A after {name}"), &small, Accepted(30, 0));
        t.check(&format!("cycle: {name}, after A"), tables, *wanted);
        t.check(&format!("cycle: a row after {name}"), large, GOOD);
    }
}

/// The figure 1 at one block, or none: every edge to that block from another one breaks its inequality, and a closed walk comes ahead of it.
fn small_graph(t: &mut Tester, name: &str, tables: &mut Tables, closed: bool, raised: Option<usize>) {
    tables.blocks.figure = (0..4).map(|u| i64::from(raised == Some(u))).collect();
    let broken = edges(&tables.blocks).into_iter().find(|(u, v)| u != v && raised == Some(*v));
    let wanted = match broken {
        _ if closed => (209, 0, 0),
        Some((u, _)) => (208, u as u32, 0),
        None => (0, 0, tables.blocks.figure[0] - tables.blocks.figure[3]),
    };
    let outcome = t.bench.check(tables).and_then(|reply| match (reply.number, reply.place, reply.value) {
        (207, _, _) => Ok(()),
        got if got == wanted => Ok(()),
        _ => Err(format!("{reply:?}, not {wanted:?}")),
    });
    t.score.test(&format!("{name}, figure 1 at {raised:?}"), outcome);
}

/// Every graph of four blocks with some ways to declare loops in it: its name, and tables with these costs and with this limit for all loops but 0.
fn four_blocks(cost: [u32; 4], limit: u32) -> impl Iterator<Item = (String, Tables)> {
    let declared: [&[Loop]; 5] = [&[], &[(0, 1, &[])], &[(0, 1, &[2])], &[(0, 1, &[]), (0, 2, &[])], &[(0, 1, &[]), (1, 2, &[])]];
    declared.into_iter().flat_map(|loops| (0..1 << 12).map(move |code| (loops, code))).map(move |(loops, code)| {
        let mut tables = free(4, [], loops);
        tables.blocks.cost = cost.to_vec();
        tables.loops.limit[1..].fill(limit);
        for u in 0..3 {
            let end = |bits: usize| if bits == 0 { MISSING } else { bits as u16 };
            tables.blocks.first[u] = end(code >> (4 * u) & 3);
            tables.blocks.second[u] = end(code >> (4 * u + 2) & 3);
        }
        (format!("small graph {code:#x}, loops {loops:?}"), tables)
    })
}

/// Every graph of four blocks beside a third way to find a closed walk.
fn small_graphs(t: &mut Tester) {
    for (name, mut tables) in four_blocks([0; 4], 1) {
        let closed = Graph::new(&tables).undeclared(|_| true);
        for raised in [None, Some(0), Some(1), Some(2), Some(3)] {
            small_graph(t, &name, &mut tables, closed, raised);
        }
    }
}

/// Walks that routine A refuses, whatever its limit.
const WRONG_WALKS: &[(&str, &[u16], (u32, u32))] = &[
    ("of length 0", &[], (301, 0)),
    ("of block 0 alone", &[0], (314, 1)),
    ("that starts at 1", &[1], (303, 0)),
    ("that starts at the exit", &[3], (303, 0)),
    ("that starts at n", &[4], (302, 0)),
    ("that starts at 65,535", &[65_535], (302, 0)),
    ("with block n", &[0, 1, 4], (302, 2)),
    ("past the exit", &[0, 1, 3, 1], (311, 3)),
    ("past the exit to the exit", &[0, 1, 3, 3], (311, 3)),
    ("past the exit to no block", &[0, 1, 3, 4], (302, 3)),
    ("past the exit to 65,535", &[0, 1, 3, 65_535], (302, 3)),
    ("without an edge", &[0, 2], (312, 1)),
    ("that stays at block 0", &[0, 0], (312, 1)),
    ("without an edge, later", &[0, 1, 2, 3], (312, 3)),
    ("that ends in the loop", &[0, 1, 2], (314, 3)),
];

/// An outer loop 1 (block 1) around block 2, which heads loop 2 and names itself; both limits 65,535.
fn deep() -> Tables {
    tables_of(
        "0,1000000,0,1,,0|1,1000000,1,2,3,0|2,1000000,2,2,1,0|3,1000000,0,,,0",
        "0,0,0,1,0|1,0,1,65535,0|2,1,2,65535,0",
    )
}

fn walks(t: &mut Tester) {
    let plain = a(|_| ());
    for (name, list, (number, place)) in WRONG_WALKS {
        t.walk(&format!("a walk {name}"), &plain, list, Refused(*number, *place));
    }
    t.walk("the shortest walk", &plain, &[0, 1, 3], Accepted(6, 2));
    t.walk("a walk where 208 applies", &a(|x| x.blocks.figure[0] = 27), &[0, 1, 3], Accepted(6, 2));
    t.walk("a walk of length 0 where 202 applies", &a(|x| x.loops.limit[1] = 0), &[], Refused(202, 1));
    t.walk("a walk where a figure is out of range", &a(|x| x.blocks.figure[0] = i64::MAX), &[0, 1, 3], Refused(203, 0));
    t.walk("a walk where 207 applies", &a(|x| x.blocks.second[0] = 2), &[0, 1, 3], Refused(207, 0));
    // 65,535 is no block, though it stands for a missing successor
    t.walk("a walk to a missing successor", &plain, &[0, 65_535], Refused(302, 1));

    let deep = deep();
    let long = |length: usize, stay: usize| {
        let mut list = vec![0u16, 1];
        let mut left = stay;
        while list.len() + 2 < length {
            if left > 0 {
                list.push(2);
                left -= 1;
            } else {
                list.push(1);
                left = stay;
            }
        }
        if list[list.len() - 1] == 2 {
            list.push(1);
        } else {
            list.push(2);
        }
        list.push(3);
        list
    };
    let most = 1_048_576;
    // 60,000 visits in one stay; the last blocks are 2 1 3
    let full = long(most, 60_000);
    assert!(full.len() == most && full[most - 3..] == [2, 1, 3]);
    t.walk("a walk of 1,048,576 blocks", &deep, &full, Accepted(1_000_000 * most as i64, most as u64 - 1));
    t.walk("a walk of 1,048,576 blocks, the last no block", &deep, &[&full[..most - 1], &[4]].concat(), Refused(302, most as u32 - 1));
    t.walk("a walk of 1,048,576 blocks, the last without an edge", &deep, &[&full[..most - 1], &[0]].concat(), Refused(312, most as u32 - 1));
    t.walk("a walk of 1,048,576 blocks before the exit", &deep, &[&full[..most - 1], &[2]].concat(), Refused(314, most as u32));
    t.walk("a walk of 1,048,577 blocks", &deep, &[&full[..], &[3]].concat(), Refused(301, 0));
    t.walk("a walk of 1,048,575 blocks", &deep, &full[..most - 1], Refused(314, most as u32 - 1));
    t.walk("a walk of 1,048,577 blocks that are none", &deep, &vec![65_535; most + 1], Refused(301, 0));
    // the limit 65,535 itself
    let stay = |visits: usize| [&[0, 1][..], &vec![2; visits], &[1, 3]].concat();
    t.walk("65,535 visits", &deep, &stay(65_535), Accepted(65_539_000_000, 65_538));
    t.walk("65,536 visits", &deep, &stay(65_536), Refused(313, 65_537));
    let twice = [&stay(65_535)[..65_538], &stay(65_535)[2..]].concat();
    t.walk("65,535 visits twice", &deep, &twice, Accepted(131_075_000_000, 131_074));
    let outer = |visits: usize| [&[0u16][..], &[1, 2].repeat(visits - 1), &[1, 3]].concat();
    t.walk("65,535 visits of the outer loop", &deep, &outer(65_535), Accepted(131_071_000_000, 131_070));
    t.walk("65,536 visits of the outer loop", &deep, &outer(65_536), Refused(313, 131_071));
}

/// Neither 208 nor 209 stops a walk.
fn cycle_walks(t: &mut Tester) {
    let cycle = tables_of(CYCLE_BLOCKS, "0,0,0,1,0");
    t.walk("cycle: a walk", &cycle, &[0, 1, 2, 3], Accepted(2, 3));
    t.walk("cycle: a walk round it", &cycle, &[0, 1, 2, 1, 2, 1, 2, 3], Accepted(2, 7));
    t.walk("cycle: a walk that ends on it", &cycle, &[0, 1, 2, 1], Refused(314, 4));
    t.walk("cycle: a walk that stays at one of its blocks", &cycle, &[0, 1, 2, 2], Refused(312, 3));
    let costs = tables_of("0,1,0,1,,3|1,1,0,2,,2|2,1,0,1,3,1|3,1,0,,,0", "0,0,0,1,0");
    t.walk("cycle: a walk round one that costs", &costs, &[0, 1, 2, 1, 2, 1, 2, 3], Accepted(8, 7));
    let itself = free(3, ways("0112"), &[]);
    t.walk("cycle: a walk that stays at a block which names itself", &itself, &[0, 1, 1, 1, 2], Accepted(0, 4));
    t.walk("cycle: a walk past an unreachable one", &free(4, ways("121 03"), &[]), &[0, 3], Accepted(0, 1));
    // each entry from outside is a new stay, the return within one is counted
    let header = free(4, ways("01121 23"), &[(0, 1, &[])]);
    t.walk("cycle: a walk through a header of limit 1", &header, &[0, 1, 2, 1, 2, 1, 2, 3], Accepted(0, 7));
    t.walk("cycle: a walk through a header past its limit", &header, &[0, 1, 2, 1, 1], Refused(313, 4));
    let most = 1_048_576;
    let mut long = [&[0][..], &[1, 2].repeat(most / 2 - 1), &[3]].concat();
    t.walk("cycle: a walk of 1,048,576 blocks round it", &cycle, &long, Accepted(2, most as u64 - 1));
    long[most - 1] = 1;
    t.walk("cycle: a walk of 1,048,576 blocks that ends on it", &cycle, &long, Refused(314, most as u32));
}

/// A loop as above, with its limit.
type Limited<'a> = (Loop<'a>, u32);

/// A routine by the costs of its blocks, its edges and its loops. Figures and multipliers are 0.
fn routine(cost: &[u32], rows: &str, loops: &[Limited]) -> Tables {
    let declared: Vec<Loop> = loops.iter().map(|(declared, _)| *declared).collect();
    let mut tables = free(cost.len(), ways(rows), &declared);
    tables.blocks.cost = cost.to_vec();
    for (l, (_, limit)) in loops.iter().enumerate() {
        tables.loops.limit[l + 1] = *limit;
    }
    tables
}

/// Request 3 of document 02, worked out by hand: costs, edges and loops, then the bound, the figures and the multipliers.
const SOLVED: &[(&str, &[u32], &str, &[Limited], i64, &[i64], &[u64])] = &[
    ("A", &[2, 3, 5, 1], "0121 13", &[((0, 1, &[2]), 4)], 30, &[28, 1, -4, 0], &[0, 8]),
    // from block 2 there is a path to the exit, though no run can follow it
    ("A, limit 1", &[2, 3, 5, 1], "0121 13", &[((0, 1, &[2]), 1)], 6, &[4, 1, -4, 0], &[0, 8]),
    ("A, limit 65,535", &[2, 3, 5, 1], "0121 13", &[((0, 1, &[2]), 65_535)], 524_278, &[524_276, 1, -4, 0], &[0, 8]),
    ("A, doubled edges", &[2, 3, 5, 1], "0121 01 21 13", &[((0, 1, &[2]), 4)], 30, &[28, 1, -4, 0], &[0, 8]),
    ("A, blocks that cost nothing", &[0, 0, 0, 0], "0121 13", &[((0, 1, &[2]), 4)], 0, &[0, 0, 0, 0], &[0, 0]),
    ("two blocks", &[7, 9], "01", &[], 16, &[9, 0], &[0]),
    ("a branch", &[1, 2, 5, 3], "013 023", &[], 9, &[8, 3, 3, 0], &[0]),
    ("a branch, the way of fewer blocks costs more", &[1, 9, 1, 1, 1], "014 0234", &[], 11, &[10, 1, 2, 1, 0], &[0]),
    // rounds
    ("no round", &[1, 2, 3, 4], "0123", &[((0, 1, &[2]), 9)], 10, &[9, 7, 4, 0], &[0, 0]),
    ("a header that names itself", &[1, 2, 3], "0112", &[((0, 1, &[]), 5)], 14, &[13, 3, 0], &[0, 2]),
    ("a header that names itself, limit 1", &[1, 2, 3], "0112", &[((0, 1, &[]), 1)], 6, &[5, 3, 0], &[0, 2]),
    ("a header that names itself, and a longer round", &[1, 2, 5, 1], "0112 21 23", &[((0, 1, &[2]), 3)], 23, &[22, 6, 1, 0], &[0, 7]),
    ("two rounds of equal cost", &[1, 2, 5, 5, 1], "0121 131 24", &[((0, 1, &[2, 3]), 3)], 23, &[22, 6, 1, 1, 0], &[0, 7]),
    (
        "two rounds, the one of fewer blocks costs more",
        &[1, 1, 9, 1, 1, 1],
        "0121 1341 45",
        &[((0, 1, &[2, 3, 4]), 3)],
        25,
        &[24, 3, -6, 2, 1, 0],
        &[0, 10],
    ),
    ("a block that cannot return", &[1, 1, 2, 50, 1], "0121 134", &[((0, 1, &[2, 3]), 4)], 62, &[61, 51, 49, 1, 0], &[0, 3]),
    ("a block that the header does not lead to", &[1, 1, 9, 1], "013 21", &[((0, 1, &[2]), 4)], 3, &[2, 1, 2, 0], &[0, 0]),
    // loops in loops
    ("through an inner loop, limit 1", &[1; 5], "01223 31 34", &[((0, 1, &[3]), 3), ((1, 2, &[]), 1)], 11, &[10, 3, 2, 1, 0], &[0, 3, 1]),
    ("through an inner loop, limit 2", &[1; 5], "01223 31 34", &[((0, 1, &[3]), 3), ((1, 2, &[]), 2)], 14, &[13, 4, 2, 1, 0], &[0, 4, 1]),
    (
        "through an inner loop, limit 65,535",
        &[1; 5],
        "01223 31 34",
        &[((0, 1, &[3]), 3), ((1, 2, &[]), 65_535)],
        196_613,
        &[196_612, 65_537, 2, 1, 0],
        &[0, 65_537, 1],
    ),
    ("back to the outer header from the inner one", &[1; 4], "0121 23", &[((0, 1, &[]), 2), ((1, 2, &[]), 7)], 6, &[5, 2, 1, 0], &[0, 2, 0]),
    (
        "back to the outer header from the inner one, which names itself",
        &[0, 1, 1, 0],
        "01221 13",
        &[((0, 1, &[]), 3), ((1, 2, &[]), 4)],
        11,
        &[11, 0, -4, 0],
        &[0, 5, 1],
    ),
    (
        "two inner loops in one round",
        &[0, 1, 2, 3, 0],
        "012233 31 14",
        &[((0, 1, &[]), 2), ((1, 2, &[]), 3), ((1, 3, &[]), 4)],
        20,
        &[20, 0, -6, -18, 0],
        &[0, 19, 2, 3],
    ),
    ("out by both headers only", &[0, 1, 1, 1, 0], "0123 21 32 14", &[((0, 1, &[]), 2), ((1, 2, &[3]), 3)], 7, &[7, 0, -5, -6, 0], &[0, 6, 2]),
    ("out of both loops at once", &[1, 2, 3, 4], "01223", &[((0, 1, &[]), 5), ((1, 2, &[]), 2)], 13, &[12, 10, 4, 0], &[0, 0, 3]),
    ("out of one loop into the next", &[1, 2, 3, 4], "011223", &[((0, 1, &[]), 3), ((0, 2, &[]), 2)], 17, &[16, 10, 4, 0], &[0, 2, 3]),
    // unreachable loops
    ("an unreachable loop", &[1, 2, 3, 4], "03 121 23", &[((0, 1, &[2]), 4)], 5, &[4, 7, 4, 0], &[0, 5]),
    ("an unreachable loop that a block leads to", &[1, 1, 2, 3, 4], "04 1232 34", &[((0, 2, &[3]), 4)], 5, &[4, 24, 7, 4, 0], &[0, 5]),
    // the exit
    ("the exit inside a loop", &[2, 3, 5, 1], "0121 13", &[((0, 1, &[2, 3]), 4)], 30, &[28, 1, -4, 0], &[0, 8]),
    ("the exit as a header", &[1, 2, 3], "012", &[((0, 2, &[]), 7)], 6, &[5, 3, 0], &[0, 0]),
    ("the exit as a header, with another block", &[1, 2, 3, 4], "013 23", &[((0, 3, &[2]), 7)], 7, &[6, 4, 4, 0], &[0, 0]),
    ("the exit as an inner header", &[1, 2, 3, 4], "0121 13", &[((0, 1, &[2]), 3), ((1, 3, &[]), 7)], 17, &[16, 4, 1, 0], &[0, 5, 0]),
];

/// Routines that the solver refuses with 401, and the block.
const STUCK: &[(&str, usize, &str, &[Loop], u32)] = &[
    ("no edges", 2, "", &[], 0),
    ("a block that leads nowhere", 4, "013 02", &[], 2),
    ("an unreachable block that leads nowhere", 3, "02", &[], 1),
    ("a loop that is never left", 4, "0121 03", &[(0, 1, &[2])], 1),
    ("an unreachable loop that is never left", 4, "121 03", &[(0, 1, &[2])], 1),
    ("a header that names itself twice", 3, "011 11 02", &[(0, 1, &[])], 1),
    ("the lowest of three", 6, "015 34", &[], 2),
    ("the lowest of three, the entry among them", 5, "012 34", &[], 0),
    ("the last block but one", 5, "0124 03", &[], 3),
];

fn solver(t: &mut Tester) {
    for (name, cost, rows, loops, bound, figures, multipliers) in SOLVED {
        let mut tables = routine(cost, rows, loops);
        t.solve(&format!("solver: {name}"), &tables, *bound, figures, multipliers);
        // whatever is given
        tables.blocks.figure.fill(1 << 60);
        tables.loops.multiplier[1..].fill(1 << 40);
        t.solve(&format!("solver: {name}, by the greatest figures and multipliers"), &tables, *bound, figures, multipliers);
        tables.blocks.figure.fill(-(1 << 60));
        tables.loops.multiplier.fill(0);
        t.solve(&format!("solver: {name}, by the least figures and multipliers"), &tables, *bound, figures, multipliers);
    }
    for (name, n, rows, loops, place) in STUCK {
        t.unsolved(&format!("solver: {name}"), &free(*n, ways(rows), loops), 401, *place);
    }
    let row: Vec<i64> = (0..1024).rev().collect();
    t.solve("solver: 1,024 blocks", &straight(1024), 1024, &row, &[0]);
    t.solve("solver: 64 loops", &headed(64, false), 65, &row[1024 - 65..], &[0; 64]);
    t.solve("solver: depth 16", &headed(16, true), 17, &row[1024 - 17..], &[0; 16]);
}

/// Blocks 0 and 1 and then one tower after another, three loops deep: its first header leads to the next tower and to its second header, the
/// second to the third and back, the third names itself and leads back. A round of the first loop costs 2^40. The limits are of these loops.
fn towers(limits: &[u32]) -> Tables {
    let exit = 3 * limits.len() + 2;
    let mut edges = vec![(0, 1), (1, 2)];
    let mut loops: Vec<Loop> = Vec::new();
    for i in 0..limits.len() {
        let h = 3 * i + 2;
        edges.extend([(h, h + 1), (h, h + 3), (h + 1, h + 2), (h + 1, h), (h + 2, h + 2), (h + 2, h + 1)]);
        loops.extend([(0, h as u16, &[][..]), (h as u16 - 1, h as u16 + 1, &[]), (h as u16, h as u16 + 2, &[])]);
    }
    let mut tables = free(exit + 1, edges, &loops);
    for (i, limit) in limits.iter().enumerate() {
        // 2^19 x 2^15 x 2^6
        tables.blocks.cost[3 * i + 4] = 1 << 19;
        tables.loops.limit[3 * i + 1] = *limit;
        tables.loops.limit[3 * i + 2] = 65;
        tables.loops.limit[3 * i + 3] = 1 << 15;
    }
    tables
}

/// The figures and the multipliers of towers. To enter one costs 2^40 x (limit - 1), from its first header on nothing.
fn tower_columns(limits: &[u32]) -> (Vec<i64>, Vec<u64>) {
    let (mut figures, mut multipliers) = (Vec::new(), vec![0]);
    let mut left: i64 = limits.iter().map(|limit| i64::from(limit - 1) << 40).sum();
    figures.extend([left, left]);
    for limit in limits {
        left -= i64::from(limit - 1) << 40;
        figures.extend([left, left - (1 << 40), left - (1 << 40) - (1 << 34)]);
        multipliers.extend([1 << 40, 1 << 34, 1 << 19]);
    }
    figures.push(0);
    (figures, multipliers)
}

/// The towers whose first figure is 2^60: 16 x 65,534 + 32 is 2^20.
fn highest() -> Vec<u32> {
    [vec![65_535; 16], vec![33]].concat()
}

/// Towers with a change, `first` their first header and `last` the exit.
fn changed(limits: &[u32], change: impl FnOnce(&mut Tables, usize, usize)) -> Tables {
    let mut tables = towers(limits);
    let last = tables.blocks.cost.len() - 1;
    change(&mut tables, 2, last);
    tables
}

/// 15 loops in one another. Each header leads to the next and back, the first one to the exit too, the last one to itself.
fn deepest(cost: u32, limit: u32) -> Tables {
    let edges = (1..15).flat_map(|l| [(l, l + 1), (l, if l == 1 { 16 } else { l - 1 })]).chain([(0, 1), (15, 15), (15, 14)]);
    let numbers: Vec<u16> = (1..16).collect();
    let loops: Vec<Loop> = numbers.iter().map(|l| (*l - 1, *l, &[][..])).collect();
    let mut tables = free(17, edges, &loops);
    tables.blocks.cost.fill(cost);
    tables.loops.limit[1..].fill(limit);
    tables
}

/// The limits of 402 and 403.
fn solver_limits(t: &mut Tester) {
    for limits in [&[1][..], &[2], &[65_535], &[65_535, 1, 2], &highest()] {
        let (figures, multipliers) = tower_columns(limits);
        t.solve(&format!("solver: towers of 2^40, {limits:?}"), &towers(limits), figures[0], &figures, &multipliers);
    }
    let (figures, multipliers) = tower_columns(&highest());
    assert!(figures[0] == 1 << 60);
    let entry = changed(&highest(), |x, _, _| x.blocks.cost[0] = 1_000_000);
    t.solve("solver: a figure of 2^60, and the entry costs as well", &entry, (1 << 60) + 1_000_000, &figures, &multipliers);
    t.unsolved("solver: a figure of 2^60 + 1", &changed(&highest(), |x, _, last| x.blocks.cost[last] = 1), 403, 0);
    t.unsolved("solver: a figure of 2^60 + 1, by a block before the first tower", &changed(&highest(), |x, _, _| x.blocks.cost[1] = 1), 403, 0);
    t.unsolved("solver: a figure of 2^60 + 2^40", &towers(&[highest(), vec![2]].concat()), 403, 0);
    t.unsolved("solver: 21 towers", &towers(&[65_535; 21]), 403, 0);
    // block 0 leads to the exit, block 1 to the towers
    let past = |x: &mut Tables, last: usize| x.blocks.first[0] = last as u16;
    let figures = [&[0][..], &figures[1..]].concat();
    t.solve("solver: a figure of 2^60 in an unreachable block", &changed(&highest(), |x, _, last| past(x, last)), 0, &figures, &multipliers);
    let over = changed(&highest(), |x, _, last| {
        past(x, last);
        x.blocks.cost[last] = 1;
    });
    t.unsolved("solver: a figure of 2^60 + 1 in an unreachable block", &over, 403, 0);

    t.unsolved("solver: a multiplier of 2^40 + 1", &changed(&[1], |x, first, _| x.blocks.cost[first] = 1), 402, 0);
    t.unsolved("solver: a multiplier of 2^40 + 65", &changed(&[1], |x, first, _| x.blocks.cost[first + 1] = 1), 402, 0);
    t.unsolved("solver: a multiplier of 2^40 + 1 in the last loop", &changed(&[1, 1], |x, first, _| x.blocks.cost[first + 3] = 1), 402, 0);
    let unreachable = changed(&[1], |x, first, last| {
        past(x, last);
        x.blocks.cost[first] = 1;
    });
    t.unsolved("solver: a multiplier of 2^40 + 1 in an unreachable loop", &unreachable, 402, 0);
    let apart = changed(&[1], |x, first, last| {
        past(x, last);
        x.blocks.first[1] = last as u16;
        x.blocks.cost[first] = 1;
    });
    t.unsolved("solver: a multiplier of 2^40 + 1 in a loop that no edge enters", &apart, 402, 0);
    t.unsolved("solver: a multiplier over 2^240", &deepest(1_000_000, 65_535), 402, 0);
    t.unsolved("solver: a multiplier over 2^128", &deepest(1, 1000), 402, 0);
    t.unsolved("solver: a multiplier over 2^64", &deepest(1 << 18, 16), 402, 0);
    t.solve("solver: depth 16, blocks that cost nothing", &deepest(0, 65_535), 0, &[0; 17], &[0; 16]);
}

/// Which refusal comes first.
fn solver_order(t: &mut Tester) {
    // block 1 leads nowhere, and nothing leads to it
    let stuck = |x: &mut Tables| (x.blocks.first[0], x.blocks.first[1]) = (2, MISSING);
    let cases: &[(&str, Tables, u32, u32)] = &[
        ("401 before 402", changed(&[1], |x, first, _| { stuck(x); x.blocks.cost[first] = 1 }), 401, 1),
        ("401 before 403", changed(&highest(), |x, _, last| { stuck(x); x.blocks.cost[last] = 1 }), 401, 1),
        ("401 before 402 and 403", changed(&highest(), |x, first, last| { stuck(x); (x.blocks.cost[first], x.blocks.cost[last]) = (1, 1) }), 401, 1),
        ("402 before 403", changed(&highest(), |x, first, last| (x.blocks.cost[first], x.blocks.cost[last]) = (1, 1)), 402, 0),
        ("209 before 401", free(3, ways("11 02"), &[]), 209, 0),
        ("209 before 401, in a loop", free(4, ways("01221 03"), &[(0, 1, &[2])]), 209, 0),
        ("209 before 402", changed(&[1], |x, first, _| (x.blocks.second[1], x.blocks.cost[first]) = (1, 1)), 209, 0),
        ("209 before 403", changed(&highest(), |x, _, last| (x.blocks.second[1], x.blocks.cost[last]) = (1, 1)), 209, 0),
        ("209, an undeclared loop that costs", tables_of("0,1,0,1,,3|1,1,0,2,,2|2,1,0,1,3,1|3,1,0,,,0", "0,0,0,1,0"), 209, 0),
        ("209, an undeclared loop that costs nothing", tables_of(CYCLE_BLOCKS, "0,0,0,1,0"), 209, 0),
        ("207 before 209", free(4, ways("01221 02 13"), &[(0, 1, &[2])]), 207, 0),
        ("206 before 401", free(3, ways("01 22"), &[]), 206, 2),
        ("205 before 401", headed(17, true), 205, 16),
        ("202 before 401", { let mut x = free(3, ways("02"), &[(0, 1, &[])]); x.loops.limit[1] = 0; x }, 202, 1),
        ("two blocks, no edges", tables_of("0,7,0,,,-10|1,9,0,,,0", "0,0,0,1,0"), 401, 0),
        ("A, block 2 in loop 0", a(|x| x.blocks.inner[2] = 0), 209, 0),
        ("A, edge from 0 to 2", a(|x| x.blocks.second[0] = 2), 207, 0),
        ("A, limit 0", a(|x| x.loops.limit[1] = 0), 202, 1),
        ("A, limit 65,536", a(|x| x.loops.limit[1] = 65_536), 202, 1),
        ("A, cost 1,000,001", a(|x| x.blocks.cost[3] = 1_000_001), 203, 3),
        ("A, the header names itself and leads nowhere else", a(|x| (x.blocks.first[1], x.blocks.second[1]) = (1, 1)), 401, 0),
        // what is given is held to 202 and 203
        ("a given multiplier of 2^40 + 1", a(|x| x.loops.multiplier[1] = (1 << 40) + 1), 202, 1),
        ("a given multiplier of 2^64 - 1", a(|x| x.loops.multiplier[1] = u64::MAX), 202, 1),
        ("a given multiplier of loop 0", a(|x| x.loops.multiplier[0] = 1), 202, 0),
        ("a given figure of 2^60 + 1", a(|x| x.blocks.figure[2] = (1 << 60) + 1), 203, 2),
        ("a given figure of -2^60 - 1", a(|x| x.blocks.figure[3] = -(1 << 60) - 1), 203, 3),
        ("a given figure of -2^63", a(|x| x.blocks.figure[0] = i64::MIN), 203, 0),
        ("a given multiplier and a given figure", a(|x| (x.loops.multiplier[1], x.blocks.figure[0]) = (1 << 41, 1 << 61)), 202, 1),
    ];
    for (name, tables, number, place) in cases {
        t.unsolved(&format!("solver: {name}"), tables, *number, *place);
    }
    let cases: &[(&str, Tables)] = &[
        ("208 is not asked for, figure 27", a(|x| x.blocks.figure[0] = 27)),
        ("208 is not asked for, multiplier 7", a(|x| x.loops.multiplier[1] = 7)),
        ("given multiplier 2^40", a(|x| x.loops.multiplier[1] = 1 << 40)),
        ("given figures 2^60 and -2^60", a(|x| (x.blocks.figure[0], x.blocks.figure[3]) = (1 << 60, -(1 << 60)))),
    ];
    for (name, tables) in cases {
        t.solve(&format!("solver: {name}"), tables, 30, &[28, 1, -4, 0], &[0, 8]);
    }
}

/// Columns that are longer or shorter than the others of their table.
fn solver_columns(t: &mut Tester) {
    for (name, change) in COLUMNS {
        for more in [false, true] {
            let tables = a(|x| change(x, more));
            t.unsolved(&format!("solver: column {name} {} by one", if more { "longer" } else { "shorter" }), &tables, 201, 0);
        }
    }
    for (name, tables) in [
        ("n 1", straight(1)),
        ("n 1025", straight(1025)),
        ("m 65", headed(65, false)),
        ("no blocks", Tables { blocks: Default::default(), ..straight(2) }),
        ("no loops", Tables { loops: Default::default(), ..straight(2) }),
        ("all empty", Tables::default()),
    ] {
        t.unsolved(&format!("solver: {name}"), &tables, 201, 0);
    }
}

/// Every graph of four blocks: the bound and the multipliers beside a search through all runs and rounds.
fn solver_small_graphs(t: &mut Tester) {
    for (name, tables) in four_blocks([1, 2, 4, 8], 3) {
        let outcome = t.bench.solve(&tables).and_then(|(reply, made)| match reply.number {
            0 => crate::promised(t.score, &made, reply.value, None),
            207 | 209 | 401 => Ok(()),
            _ => Err(format!("{reply:?}")),
        });
        t.score.test(&format!("solver: {name}"), outcome);
    }
}

/// Request 7 of document 02, counted by hand: edges and loops as above, a walk, then stays and greatest numbers by loop.
const RECORDED: &[(&str, &str, &[Loop], &str, &[u32], &[u32])] = &[
    ("loop 0 alone", "0123", &[], "0123", &[1], &[1]),
    ("two blocks", "01", &[], "01", &[1], &[1]),
    ("one visit", "0121 13", &[(0, 1, &[2])], "013", &[1, 1], &[1, 1]),
    ("three visits", "0121 13", &[(0, 1, &[2])], "0121213", &[1, 1], &[1, 3]),
    ("a loop that is never entered", "0121 03 23", &[(0, 1, &[2])], "03", &[1, 0], &[1, 0]),
    ("an unreachable loop", "03 121 23", &[(0, 1, &[2])], "03", &[1, 0], &[1, 0]),
    ("an inner loop that is never entered", "01221 13", &[(0, 1, &[]), (1, 2, &[])], "013", &[1, 1, 0], &[1, 1, 0]),
    // a header that names itself
    ("a header that names itself, one visit", "0112", &[(0, 1, &[])], "012", &[1, 1], &[1, 1]),
    ("a header that names itself, four visits", "0112", &[(0, 1, &[])], "011112", &[1, 1], &[1, 4]),
    // several stays, by a closed walk that no loop declares
    ("two stays, one visit each", "01121 23", &[(0, 1, &[])], "012123", &[1, 2], &[1, 1]),
    ("the first of two stays has most visits", "01121 23", &[(0, 1, &[])], "01112123", &[1, 2], &[1, 3]),
    ("the last of two stays has most visits", "01121 23", &[(0, 1, &[])], "01211123", &[1, 2], &[1, 3]),
    ("the second of three stays has most visits", "01121 23", &[(0, 1, &[])], "011211121123", &[1, 3], &[1, 3]),
    // loops in loops
    ("an inner loop in each round", "01223 31 34", &[(0, 1, &[3]), (1, 2, &[])], "0122312231234", &[1, 1, 3], &[1, 3, 2]),
    ("an inner loop in one round", "012 15 23 24 31 41", &[(0, 1, &[2, 4]), (1, 3, &[])], "012412312415", &[1, 1, 1], &[1, 4, 1]),
    ("back to the outer header from the inner loop", "0121 23", &[(0, 1, &[]), (1, 2, &[])], "01212123", &[1, 1, 3], &[1, 3, 1]),
    ("back past the header between", "01231 34", &[(0, 1, &[]), (1, 2, &[]), (2, 3, &[])], "01231234", &[1, 1, 2, 2], &[1, 2, 1, 1]),
    ("back to the middle header", "012332 24", &[(0, 1, &[]), (1, 2, &[]), (2, 3, &[])], "012332324", &[1, 1, 1, 2], &[1, 1, 3, 2]),
    ("out of both loops at once", "01223", &[(0, 1, &[]), (1, 2, &[])], "012223", &[1, 1, 1], &[1, 1, 3]),
    ("out of one loop into the next", "011223", &[(0, 1, &[]), (0, 2, &[])], "0112223", &[1, 1, 1], &[1, 2, 3]),
    ("from one inner loop to another and back", "01232 34", &[(0, 1, &[]), (1, 2, &[]), (1, 3, &[])], "012323234", &[1, 1, 3, 3], &[1; 4]),
    // a stay under way at the end
    ("the exit inside a loop", "0121 13", &[(0, 1, &[2, 3])], "01213", &[1, 1], &[1, 2]),
    ("the exit inside a loop, at the second stay", "012 13 21 31 34", &[(0, 1, &[3, 4])], "01213134", &[1, 2], &[1, 2]),
    ("the exit inside two loops", "01223", &[(0, 1, &[]), (1, 2, &[3])], "012223", &[1, 1, 1], &[1, 1, 3]),
    ("the exit as a header", "012", &[(0, 2, &[])], "012", &[1, 1], &[1, 1]),
    ("the exit as an inner header", "0121 13", &[(0, 1, &[2]), (1, 3, &[])], "0121213", &[1, 1, 1], &[1, 3, 1]),
    // 209 is not asked for
    ("doubled edges", "01 01 12 12 21 23", &[(0, 1, &[2])], "012123", &[1, 1], &[1, 2]),
    ("a closed walk that no loop declares", "0121 23", &[], "012123", &[1], &[1]),
    ("a closed walk in a loop that no loop declares", "01221 13", &[(0, 1, &[2])], "01222213", &[1, 1], &[1, 2]),
];

/// The walk that a row of digits writes.
fn digits(row: &str) -> Vec<u16> {
    row.bytes().map(|byte| u16::from(byte - b'0')).collect()
}

fn recorded(t: &mut Tester) {
    for (name, rows, loops, walk, stays, greatest) in RECORDED {
        let edges = ways(rows);
        let n = edges.iter().map(|(_, v)| v + 1).max().unwrap();
        let mut tables = free(n, edges, loops);
        tables.blocks.cost.iter_mut().zip(0..).for_each(|(cost, u)| *cost = 1 << u);
        // the limits play no part
        for limit in [1, 2, 65_535] {
            tables.loops.limit[1..].fill(limit);
            t.tally(&format!("recorded: {name}, limits {limit}"), &tables, &digits(walk), stays, greatest);
        }
    }
    let row: Vec<u16> = (0..=64).collect();
    t.tally("recorded: 1,024 blocks", &straight(1024), &(0..1024).collect::<Vec<u16>>(), &[1], &[1]);
    t.tally("recorded: 64 loops", &headed(64, false), &row, &[1; 64], &[1; 64]);
    t.tally("recorded: depth 16", &headed(16, true), &row[..=16], &[1; 16], &[1; 16]);
    // each header names itself: header l is visited l times
    let mut itself = headed(64, false);
    (1..64).for_each(|l| itself.blocks.second[l] = l as u16);
    let walk: Vec<u16> = (0..=64).flat_map(|u| vec![u; if u == 64 { 1 } else { usize::from(u).max(1) }]).collect();
    let visits: Vec<u32> = (0..64).map(|l| l.max(1)).collect();
    t.tally("recorded: 64 loops whose headers name themselves", &itself, &walk, &[1; 64], &visits);
}

/// Routine A and walks past its limit; what the limit, the figures and the multipliers have to do with it.
fn recorded_past_limits(t: &mut Tester) {
    let rounds = |visits: usize| [&[0][..], &[1, 2].repeat(visits - 1), &[1, 3]].concat();
    for visits in 1..8 {
        for limit in [1, 2, 3, 4, 5, 6, 7, 65_535] {
            let name = format!("recorded: A, {visits} visits, limit {limit}");
            t.tally(&name, &a(|x| x.loops.limit[1] = limit), &rounds(visits), &[1, 1], &[1, visits as u32]);
        }
    }
    let two = nested();
    t.tally("recorded: two stays at their limits", &two, &[0, 1, 2, 2, 3, 1, 2, 2, 3, 4], &[1, 1, 2], &[1, 2, 2]);
    t.tally("recorded: a third visit in one stay", &two, &[0, 1, 2, 2, 3, 1, 2, 2, 2, 3, 4], &[1, 1, 2], &[1, 2, 3]);
    for limit in [0, 65_536, u32::MAX] {
        t.untallied(&format!("recorded: A, limit {limit}"), &a(|x| x.loops.limit[1] = limit), &rounds(2), [2, 2], 202, 1);
    }
    t.untallied("recorded: limit 2 for loop 0", &a(|x| x.loops.limit[0] = 2), &rounds(2), [2, 2], 202, 0);
    let cases: &[(&str, fn(&mut Tables))] = &[
        ("208 applies at block 0", |x| x.blocks.figure[0] = 27),
        ("208 applies at block 2", |x| x.loops.multiplier[1] = 7),
        ("209 applies", |x| x.blocks.inner[2] = 0),
        ("a figure of 2^60", |x| x.blocks.figure[2] = 1 << 60),
        ("a multiplier of 2^40", |x| x.loops.multiplier[1] = 1 << 40),
    ];
    for (name, change) in cases {
        // with block 2 in loop 0 each visit is a stay
        let tables = a(*change);
        let (stays, greatest) = if tables.blocks.inner[2] == 0 { (3, 1) } else { (1, 3) };
        t.tally(&format!("recorded: A where {name}"), &tables, &rounds(3), &[1, stays], &[1, greatest]);
    }
}

/// Tables that break 201 to 207, with the number and the place.
fn broken_tables() -> Vec<(&'static str, Tables, u32, u32)> {
    vec![
        ("no blocks", Tables { blocks: Default::default(), ..straight(2) }, 201, 0),
        ("no loops", Tables { loops: Default::default(), ..straight(2) }, 201, 0),
        ("1,025 blocks", straight(1025), 201, 0),
        ("65 loops", headed(65, false), 201, 0),
        ("a multiplier of 2^40 + 1", a(|x| x.loops.multiplier[1] = (1 << 40) + 1), 202, 1),
        ("cost 1,000,001", a(|x| x.blocks.cost[3] = 1_000_001), 203, 3),
        ("a figure of -2^60 - 1", a(|x| x.blocks.figure[3] = -(1 << 60) - 1), 203, 3),
        ("a header in another loop", a(|x| x.loops.header[1] = 3), 204, 1),
        ("depth 17", headed(17, true), 205, 16),
        ("an edge out of the exit", a(|x| x.blocks.first[3] = 1), 206, 3),
        ("an edge past the header", a(|x| x.blocks.second[0] = 2), 207, 0),
    ]
}

/// Walks and tables that are refused as in document 01, and in which order.
fn recorded_wrongly(t: &mut Tester) {
    for (name, list, (number, place)) in WRONG_WALKS {
        for limit in [1, 65_535] {
            let tables = a(|x| x.loops.limit[1] = limit);
            t.untallied(&format!("recorded: a walk {name}, limit {limit}"), &tables, list, [2, 2], *number, *place);
        }
        // 421 comes before all of these
        for lengths in [[1, 2], [2, 3], [0, 0]] {
            t.untallied(&format!("recorded: a walk {name}, lengths {lengths:?}"), &a(|_| ()), list, lengths, 421, 0);
        }
    }
    // where rolkeyda_walk says 313
    let past = [0, 1, 2, 1, 2, 1, 2, 1, 2, 1];
    for (name, more, number, place) in [
        ("ends in the loop", &[][..], 314, 10),
        ("goes to no block", &[4], 302, 10),
        ("has no edge", &[0], 312, 10),
        ("goes past the exit", &[3, 1], 311, 11),
    ] {
        let list = [&past[..], more].concat();
        t.walk(&format!("a walk past the limit that {name}"), &a(|_| ()), &list, Refused(313, 9));
        t.untallied(&format!("recorded: a walk past the limit that {name}"), &a(|_| ()), &list, [2, 2], number, place);
    }
    for (name, tables, number, place) in broken_tables() {
        let m = tables.loops.parent.len();
        for (list, lengths) in [(&[0, 1, 3][..], [m, m]), (&[], [m, m]), (&[0, 1, 3], [m, m + 1]), (&[], [0, 0]), (&[65_535], [m + 1, m])] {
            t.untallied(&format!("recorded: {name}, walk {list:?}, lengths {lengths:?}"), &tables, list, lengths, number, place);
        }
    }
    for (name, change) in COLUMNS {
        for (more, lengths) in [(false, [2, 2]), (true, [2, 2]), (false, [1, 1]), (true, [3, 3])] {
            let tables = a(|x| change(x, more));
            t.untallied(&format!("recorded: column {name}, longer {more}, lengths {lengths:?}"), &tables, &[0, 1, 3], lengths, 201, 0);
        }
    }
}

/// Lent columns of all lengths.
fn lent_to_tally(t: &mut Tester) {
    for (name, m, tables) in [("one loop", 1, straight(3)), ("two loops", 2, headed(2, false)), ("64 loops", 64, headed(64, false))] {
        let walk: Vec<u16> = (0..tables.blocks.cost.len() as u16).collect();
        let lengths = [0, 1, 2, m - 1, m, m + 1, 63, 64, 65, 2 * m, 1024, 4096];
        for stays in lengths {
            for greatest in lengths {
                let name = format!("tally: {name}, lengths {stays} and {greatest}");
                if (stays, greatest) == (m, m) {
                    t.tally(&name, &tables, &walk, &vec![1; m], &vec![1; m]);
                } else {
                    t.untallied(&name, &tables, &walk, [stays, greatest], 421, 0);
                }
            }
        }
    }
}

/// The longest recordings, and numbers around and over 65,535.
fn recorded_long(t: &mut Tester) {
    let most = 1_048_576;
    let deep = deep();
    let stay = |visits: usize| [&[0, 1][..], &vec![2; visits], &[1, 3]].concat();
    let outer = |visits: usize| [&[0u16][..], &[1, 2].repeat(visits - 1), &[1, 3]].concat();
    for visits in [65_534, 65_535, 65_536, 65_537, 131_072, most - 4] {
        let seen = visits as u32;
        t.tally(&format!("recorded: {visits} visits in one stay"), &deep, &stay(visits), &[1, 1, 1], &[1, 2, seen]);
    }
    for visits in [65_535, 65_536, 65_537, most / 2 - 1] {
        let seen = visits as u32;
        t.tally(&format!("recorded: {visits} visits and as many stays but one"), &deep, &outer(visits), &[1, 1, seen - 1], &[1, seen, 1]);
    }
    // a number over 65,535 is no limit
    for limit in [65_536, most as u32 - 4] {
        let tables = { let mut x = deep.clone(); x.loops.limit[2] = limit; x };
        t.walk(&format!("recorded: the limit {limit} put in"), &tables, &stay(limit as usize), Refused(202, 2));
        t.untallied(&format!("recorded: the limit {limit} in the table"), &tables, &stay(limit as usize), [3, 3], 202, 2);
    }
    // the greatest number once at the first, once at the last and once at a stay between
    let stays = |visits: [usize; 3]| [&[0][..], &visits.map(|count| [vec![1], vec![2; count]].concat()).concat(), &[1, 3]].concat();
    for visits in [[65_535, 2, 1], [3, 65_535, 65_534], [1, 70_000, 65_535], [65_536, 1, 65_537]] {
        let greatest = visits.into_iter().max().unwrap() as u32;
        t.tally(&format!("recorded: stays of {visits:?} visits"), &deep, &stays(visits), &[1, 1, 3], &[1, 4, greatest]);
    }
    let full = stay(most - 4);
    t.untallied("recorded: 1,048,577 blocks", &deep, &stay(most - 3), [3, 3], 301, 0);
    t.untallied("recorded: 1,048,577 blocks, a column too short", &deep, &stay(most - 3), [3, 2], 421, 0);
    t.untallied("recorded: 1,048,576 blocks, a column too long", &deep, &full, [4, 3], 421, 0);
    t.untallied("recorded: 1,048,576 blocks, the last no block", &deep, &[&full[..most - 1], &[4]].concat(), [3, 3], 302, most as u32 - 1);
    t.untallied("recorded: 1,048,576 blocks, the last without an edge", &deep, &[&full[..most - 1], &[0]].concat(), [3, 3], 312, most as u32 - 1);
    t.untallied("recorded: 1,048,576 blocks before the exit", &deep, &[&full[..most - 1], &[2]].concat(), [3, 3], 314, most as u32);
    t.untallied("recorded: 1,048,575 blocks", &deep, &full[..most - 1], [3, 3], 314, most as u32 - 1);
    // nothing of a recording is left for the next
    let outermost = outer(most / 2 - 1);
    for (name, list, stays, greatest) in [
        ("the longest stay", &full[..], [1, 1, 1], [1, 2, most as u32 - 4]),
        ("the most stays after it", &outermost, [1, 1, most as u32 / 2 - 2], [1, most as u32 / 2 - 1, 1]),
        ("a short one after both", &[0, 1, 3], [1, 1, 0], [1, 1, 0]),
    ] {
        t.tally(&format!("recorded: {name}"), &deep, list, &stays, &greatest);
    }
}

/// Every graph of four blocks, and all walks through it of at most six blocks.
fn recorded_small_graphs(t: &mut Tester) {
    for (name, tables) in four_blocks([1, 2, 4, 8], 1) {
        let mut walks = Vec::new();
        finished(&tables, &mut vec![0], 5, &mut walks);
        let lengths = [tables.loops.parent.len(); 2];
        let outcome = walks.iter().try_for_each(|walk| match t.bench.tally(&tables, walk, lengths)? {
            (_, Ok(seen)) => recordings::promised(&mut t.bench, t.score, &tables, walk, &seen),
            (reply, _) if reply.number == 207 => Ok(()),
            (reply, _) => Err(format!("{reply:?}, walk {walk:?}")),
        });
        t.score.test(&format!("recorded: {name}"), outcome);
    }
}

/// The declarations of a recording of the vector "!", before its commands.
const DECLARED: &str = "$var wire 16 ! block $end $enddefinitions $end ";

/// Request 8 of document 02: commands after these declarations, and the values that are read.
const DUMPED: &[(&str, &str, &[u16])] = &[
    ("no change", "", &[]),
    ("one value", "b1 !", &[1]),
    ("0", "b0 !", &[0]),
    ("B in upper case", "B101 !", &[5]),
    ("zeros before", "b0000000000000000000000000000000000000000000000000000000000000000000000000000000101 !", &[5]),
    ("65,534", "b1111111111111110 !", &[65_534]),
    ("65,534 with zeros before", "B000000000000000001111111111111110 !", &[65_534]),
    ("32,768", "b1000000000000000 !", &[32_768]),
    ("a value again", "b1 ! b1 ! B01 ! b0001 !", &[1]),
    ("a value again in another form", "b10 ! #5 $comment b11 ! $end B0010 ! b11 \" b010 !", &[2]),
    ("back to a value", "b1 ! b0 ! b1 !", &[1, 0, 1]),
    ("0 again at the start", "b0 ! b00 ! b1 !", &[0, 1]),
    // blanks
    ("blanks of four kinds", "\t\r\n b1\r\n\t !\tb10\r!\nb11\n\n!\r\n", &[1, 2, 3]),
    ("no blank at the end", "b1 ! b10 !", &[1, 2]),
    // times
    ("times that fall", "#5 b1 ! #5 #4 b10 ! #0", &[1, 2]),
    ("a long time", "#000099999999999999999999999999999999999999 b1 !", &[1]),
    // comments
    ("comments", "$comment b1 ! $end b10 ! $comment $end", &[2]),
    ("a comment with keywords in it", "$comment $var $enddefinitions $dumpvars $comment # b $END $endx $end b1 !", &[1]),
    ("a comment with vertical tabs in it", "$comment $end\x0b \x0c$end $end b1 !", &[1]),
    // dumps
    ("each dump", "$dumpvars b1 ! $end $dumpoff b10 ! $end $dumpon b11 ! $end $dumpall b100 ! $end", &[1, 2, 3, 4]),
    ("empty dumps", "$dumpvars $end $dumpall $end", &[]),
    ("a value again in a dump", "b1 ! $dumpall b1 ! $end b1 ! $dumpoff b10 ! $end b10 !", &[1, 2]),
    ("changes of all forms in a dump", "$dumpvars 0\" bx # r1 $ b1 ! $end", &[1]),
    // other codes
    ("scalars of other codes", "0\" 1\" x\" X\" z\" Z\" 0!! 0!0 1b1 b1 !", &[1]),
    ("scalars whose codes look like keywords", "0$end! 1$en x$comment z$var 0#1 b1 !", &[1]),
    ("vectors of other codes", "bx \" B01xXzZ !! b11111111111111111111 \"! b1 !", &[1]),
    ("reals of other codes", "r \" R \" r1.5 \" Rnan !! r$end \" r\x01\x7f \" b1 !", &[1]),
    ("keywords as codes", "b1 $comment b1 $dumpvars bx $enddefinitions r1 $var b0 $scope b1 #1 b1 b1 b1 !", &[1]),
    ("the code of the vector as a value of another", "b1 \" r! \" b10 !0", &[]),
];

/// Commands that are refused with 432 at the mark ^.
const UNDUMPED: &[(&str, &str)] = &[
    ("$end for a code", "b1 ^$end"),
    ("$end for a code after an x digit", "bx ^$end"),
    ("$end for a code after a real", "r1 ^$end"),
    ("no code", "b1^"),
    ("no code after a blank", "b1 ^"),
    ("no code after an x digit", "bx ^"),
    ("no code after a real", "r1\n^"),
    ("a byte that no code has", "b1 ^\x7f"),
    ("a byte after the code that no code has", "b1 ^!\x0b b10 !"),
    ("a low byte in a code of a real", "r1 ^\x1f!"),
    // values
    ("no digits", "^b !"),
    ("no digits in upper case", "^B \""),
    ("a digit 2", "^b12 \""),
    ("a vertical tab after the digits", "^b1\x0b!"),
    ("a digit u", "^bu \""),
    ("a sign", "^b-1 !"),
    ("no digits and no code", "^b $end"),
    ("a decimal number", "^5 !"),
    ("a vector in another letter", "^h1 !"),
    // changes of the vector
    ("an x digit", "^bx !"),
    ("an X digit", "b1 ! ^B1X !"),
    ("a z digit", "^b0z !"),
    ("a Z digit", "^bZ !"),
    ("65,535", "^b1111111111111111 !"),
    ("65,536", "b1 ! ^b10000000000000000 !"),
    ("65,537", "^b10000000000000001 !"),
    ("2^32 + 1", "^b100000000000000000000000000000001 !"),
    ("2^64 + 1", "^b10000000000000000000000000000000000000000000000000000000000000001 !"),
    ("65,535 with zeros before", "^b0000000000000000000000000001111111111111111 !"),
    ("a scalar", "^0!"),
    ("a scalar x", "^x!"),
    ("a scalar after values", "b1 ! ^1!"),
    ("a real", "^r1.5 !"),
    ("a real without a number", "^R !"),
    ("a refused value in a dump", "$dumpoff ^bx ! $end"),
    // scalars
    ("a scalar without a code", "^0 !"),
    ("a scalar of $end", "^0$end"),
    ("a scalar of a byte that no code has", "^1!\x7f"),
    // times
    ("a time without digits", "^#"),
    ("a time parted from its digits", "^# 5"),
    ("a time with a letter", "^#5s"),
    ("a negative time", "^#-5"),
    // other words
    ("$end", "^$end"),
    ("a second $end", "$dumpvars $end ^$end"),
    ("a code", "b1 ! ^!"),
    ("$enddefinitions again", "^$enddefinitions $end"),
    ("$var", "b1 ! ^$var wire 16 # block $end"),
    ("$date", "^$date $end"),
    ("$upscope", "^$upscope $end"),
    ("$dumpports", "^$dumpports $end"),
    ("$vcdclose", "^$vcdclose #5 $end"),
    ("a keyword in upper case", "^$COMMENT $end"),
    ("a keyword with a byte more", "^$dumpvarsx $end"),
    ("a keyword with a vertical tab", "^$comment\x0b $end"),
    ("a byte order mark", "^\u{feff}b1 !"),
    // dumps
    ("a comment in a dump", "$dumpvars ^$comment $end $end"),
    ("a time in a dump", "$dumpvars b1 ! ^#5 $end"),
    ("a dump in a dump", "$dumpvars ^$dumpall $end"),
    ("a declaration in a dump", "$dumpvars ^$scope $end"),
    ("a dump without an end", "$dumpvars b1 ! ^"),
    ("an empty dump without an end", "$dumpall^"),
    ("a dump whose end is taken for a code", "$dumpall b1 ^$end"),
    ("a comment without an end", "$comment b1 ! ^"),
    ("an empty comment without an end", "b1 ! $comment^"),
    ("a comment with $END", "$comment $END $endx^"),
];

/// Whole texts, and the values that are read.
const DEFINED: &[(&str, &str, &[u16])] = &[
    ("$var without a name", "$var wire 16 ! $end $enddefinitions $end b1 !", &[1]),
    ("blanks before", "\n\t $var wire 16 ! $end $enddefinitions $end b1 !", &[1]),
    ("scopes", "$timescale 1 ns $end $scope module top $end $var reg 16 ! $end $upscope $end $enddefinitions $end b1 !", &[1]),
    ("the other declarations", "$date x $end $version $end $comment $end $var reg 16 ! $end $enddefinitions $end b1 !", &[1]),
    ("unbalanced scopes", "$upscope $end $var wire 16 ! $end $scope $end $scope $end $enddefinitions $end", &[]),
    ("a code declared twice", "$var wire 16 ! $end $var real 1 ! x $end $enddefinitions $end b1 !", &[1]),
    ("the code after others", "$var wire 16 \" $end $var wire 16 !! $end $var wire 1 ! $end $enddefinitions $end b1 !", &[1]),
    ("keywords for type and size", "$var $var $comment ! $end $enddefinitions $end b1 !", &[1]),
    ("any bytes for type and size", "$var \x01 \x7f ! $end $enddefinitions $end b1 !", &[1]),
    ("keywords in a name", "$var wire 16 ! $var $enddefinitions $comment $end $enddefinitions $end b1 !", &[1]),
    ("words before the end of $enddefinitions", "$var wire 16 ! $end $enddefinitions b1 ! $var $comment $end b10 !", &[2]),
    ("$enddefinitions in a comment", "$comment $enddefinitions $end $var wire 16 ! $end $enddefinitions $end b1 !", &[1]),
];

/// Whole texts that are refused with 432 at the mark ^.
const UNDEFINED: &[(&str, &str)] = &[
    ("the empty text", "^"),
    ("blanks", " \t\r\n^"),
    ("no $enddefinitions", "$var wire 16 ! $end^"),
    ("no $enddefinitions after a blank", "$var wire 16 ! $end ^"),
    ("$enddefinitions without an end", "$var wire 16 ! $end $enddefinitions ^"),
    ("$enddefinitions with words and without an end", "$var wire 16 ! $end $enddefinitions b1 ! ^"),
    ("a change first", "^b1 !"),
    ("a time among declarations", "$var wire 16 ! $end ^#0 $enddefinitions $end"),
    ("a dump among declarations", "$var wire 16 ! $end ^$dumpvars $end $enddefinitions $end"),
    ("$end first", "^$end"),
    ("$end twice", "$var wire 16 ! $end ^$end $enddefinitions $end"),
    ("a word after $end", "$var wire 16 ! $end ^x $enddefinitions $end"),
    ("a keyword in upper case", "^$VAR wire 16 ! $end"),
    ("a keyword with a byte more", "$var wire 16 ! $end ^$enddefinitionsx $end"),
    ("a keyword that is cut", "$var wire 16 ! $end ^$enddefinition $end"),
    ("a byte order mark", "^\u{feff}$var wire 16 ! $end $enddefinitions $end"),
    ("a NUL at the end", "$var wire 16 ! $end $enddefinitions $end ^\0"),
    ("$end for a type", "$var ^$end wire 16 ! $end $enddefinitions $end"),
    ("$end for a size", "$var wire ^$end ! $end $enddefinitions $end"),
    ("$end for a code", "$var wire 16 ^$end $end $enddefinitions $end"),
    ("a byte that no code has", "$var wire 16 ^!\x7f $end $var wire 16 ! $end $enddefinitions $end"),
    ("a vertical tab in a code", "$var wire 16 ^\x0b! $end $enddefinitions $end"),
    ("$var alone", "$var^"),
    ("$var without a code", "$var wire 16 ^"),
    ("$var without an end", "$var wire 16 ! block ^"),
    ("no declaration", "^$enddefinitions $end b1 !"),
    ("another code declared", "$var wire 16 \" $end ^$enddefinitions $end b1 !"),
    ("a longer code declared", "$var wire 16 !! $end ^$enddefinitions $end b1 !"),
    ("the code for a size", "$var wire ! \" ! $end ^$enddefinitions $end"),
    ("the code for a name", "$var wire 16 \" ! $end ^$enddefinitions $end"),
    ("$var in a comment", "$comment $var wire 16 ! $end ^$enddefinitions $end"),
    ("$var in $enddefinitions", "^$enddefinitions $var wire 16 ! $end b1 !"),
    ("$var after $enddefinitions", "^$enddefinitions $end $var wire 16 ! $end"),
    ("undeclared, and a text that ends too soon", "^$enddefinitions"),
];

/// A text with a mark, without it, and the place of the mark.
fn marked_text(text: &str) -> (Vec<u8>, u32) {
    let place = text.find('^').expect("a mark");
    (text.replacen('^', "", 1).into_bytes(), place as u32)
}

/// A text with blanks after it.
fn padded(text: &str, length: usize) -> String {
    format!("{text}{}", " ".repeat(length - text.len()))
}

/// A recording of the vector "!".
fn dump(text: impl Into<Vec<u8>>, places: usize) -> Dump {
    Dump { text: text.into(), code: b"!".to_vec(), places }
}

fn dumped(t: &mut Tester) {
    let tables = straight(2);
    let texts = DUMPED.iter().map(|(name, commands, values)| (*name, format!("{DECLARED}{commands}"), *values));
    for (name, text, values) in texts.chain(DEFINED.iter().map(|(name, text, values)| (*name, text.to_string(), *values))) {
        // values are not compared with the number of blocks
        for places in values.len()..values.len() + 3 {
            t.vcd(&format!("dumped: {name}, {places} places"), &tables, &dump(&text[..], places), Ok(values));
        }
        t.vcd(&format!("dumped: {name}, 1,024 blocks"), &straight(1024), &dump(&text[..], values.len()), Ok(values));
        let cut = text.trim_end();
        t.vcd(&format!("dumped: {name}, without blanks at the end"), &tables, &dump(cut, values.len()), Ok(values));
    }
    let texts = UNDUMPED.iter().map(|(name, commands)| (*name, format!("{DECLARED}{commands}")));
    for (name, text) in texts.chain(UNDEFINED.iter().map(|(name, text)| (*name, text.to_string()))) {
        let (text, place) = marked_text(&text);
        for places in [2, 9] {
            t.vcd(&format!("dumped: {name}, {places} places"), &tables, &dump(&text[..], places), Err((432, place)));
        }
    }
    // routine A's walk with the greatest cost
    let walk = [0, 1, 2, 1, 2, 1, 2, 1, 3];
    let text = format!("{DECLARED}{}", walk.map(|block| format!("#{block} b{block:b} !\n")).concat());
    t.vcd("dumped: a walk of routine A", &a(|_| ()), &dump(text, 9), Ok(&walk));
}

/// Codes of all kinds: what a text declares is read, and no text can declare some.
fn dumped_codes(t: &mut Tester) {
    let long = "!".repeat(20_000);
    let short = ["\"", "~", "!!", "!\"", "0", "b", "b1", "r", "#", "#1", "$", "$en", "$endx", "x$end", "$END"];
    let keywords = ["$var", "$comment", "$enddefinitions", "$dumpvars"];
    for code in short.into_iter().chain(keywords).chain([&long[..]]) {
        let text = format!("$var wire 16 {code} $end $enddefinitions $end b1 {code} b10 !x b11 {code}");
        t.vcd(&format!("dumped: the code {code}"), &straight(2), &Dump { code: code.into(), ..dump(text, 9) }, Ok(&[1, 3]));
    }
    // the same code but for its last, its first or one byte more
    for other in [&long[1..], &format!("{long}!"), &format!("{}\"", &long[1..]), &format!("\"{}", &long[1..])] {
        let (text, place) = marked_text(&format!("$var wire 16 {other} $end ^$enddefinitions $end b1 {other}"));
        t.vcd("dumped: a long code near another", &straight(2), &Dump { code: long.clone().into(), ..dump(text, 9) }, Err((432, place)));
        let text = format!("{DECLARED}b1 ! b10 {other} 0{other} b11 !");
        t.vcd("dumped: a long code beside the vector's", &straight(2), &dump(text, 9), Ok(&[1, 3]));
    }
    for code in [&b""[..], b"$end", b" ", b"! ", b" !", b"!\"\n!", b"\x00", b"!\x1f", b"\x7f", b"!\x80", b"\xff"] {
        let name = format!("dumped: the code {code:?}, which no text can declare");
        let (text, place) = marked_text(&DECLARED.replace("$enddef", "^$enddef"));
        t.vcd(&name, &straight(2), &Dump { code: code.to_vec(), ..dump(text, 9) }, Err((432, place)));
        t.vcd(&format!("{name}, no text"), &straight(2), &Dump { code: code.to_vec(), ..dump("", 9) }, Err((432, 0)));
    }
}

/// Of 432 and 433 the one at the lowest byte.
fn dumped_order(t: &mut Tester) {
    // the mark is at 433, where the buffer has so many places
    let full: &[(&str, &str, usize)] = &[
        ("no place at all", "^b1 !", 0),
        ("one place", "b1 ! ^b10 !", 1),
        ("two places", "b1 ! b10 ! ^b1 !", 2),
        ("a value again", "b1 ! b01 ! ^b10 ! b10 !", 1),
        ("a value in a dump", "b1 ! $dumpall b1 ! ^b10 ! $end", 1),
        ("432 by the next word", "b1 ! ^b10 ! bx !", 1),
        ("432 by a later word", "^b1 ! #1 #2 $end", 0),
        ("the text ends too soon later", "$dumpvars ^b1 !", 0),
    ];
    for (name, commands, places) in full {
        let (text, place) = marked_text(&format!("{DECLARED}{commands}"));
        t.vcd(&format!("dumped: {name}"), &straight(2), &dump(text, *places), Err((433, place)));
    }
    // the mark is at 432, where a value has no place either
    let wrong: &[(&str, &str, usize)] = &[
        ("a value that is too large, and no place", "^b1111111111111111 !", 0),
        ("an x digit, and no place", "b1 ! ^bx !", 1),
        ("432 before a value without a place", "b1 ! ^bx ! b10 !", 1),
        ("a value without a place and without a code", "b1 ^", 0),
        ("a value without a place, $end for its code", "b1 ^$end b1 !", 0),
        ("a value again, and then $end", "b1 ! b1 ! ^$end", 1),
        ("a value of another code, and then $end", "b1 ! b10 \" ^$end b10 !", 1),
    ];
    for (name, commands, places) in wrong {
        let (text, place) = marked_text(&format!("{DECLARED}{commands}"));
        t.vcd(&format!("dumped: {name}"), &straight(2), &dump(text, *places), Err((432, place)));
    }
}

/// 201 to 207, then 431, then 101, whatever the text has. 208 and 209 are not asked.
fn dumped_tables(t: &mut Tester) {
    let good = format!("{DECLARED}b1 !");
    let long = padded(&good, MOST_BYTES + 1);
    let texts = [("a good text", &good[..], 1), ("no place", &good, 0), ("a word that is not allowed", "x", 1), ("a text that is too long", &long, 1)];
    let itself = [
        ("each of blocks 1 and 2", "011223", &[][..], 1),
        ("block 2", "0122 23", &[], 2),
        ("a header", "01123", &[(0, 1, &[][..])], 1),
        ("an unreachable block", "03 122", &[], 2),
        ("block 1 by its second edge", "0121 11 23", &[(0, 1, &[2])], 1),
    ];
    for (text_name, text, places) in texts {
        for (name, tables, number, place) in broken_tables() {
            t.vcd(&format!("dumped: {name}, {text_name}"), &tables, &dump(text, places), Err((number, place)));
        }
        for (name, rows, loops, place) in itself {
            let name = format!("dumped: {name} names itself, {text_name}");
            t.vcd(&name, &free(4, ways(rows), loops), &dump(text, places), Err((431, place)));
        }
    }
    for (name, text, places) in [("a good text", "", 1), ("no place", "", 0), ("a word that is not allowed", "x", 1)] {
        let text = padded(&format!("{text}{good}"), MOST_BYTES + 1);
        t.vcd(&format!("dumped: {name}, too long"), &straight(2), &dump(text, places), Err((101, 0)));
    }
    let rounds: &[u16] = &[0, 1, 2, 1, 2, 3];
    let text = format!("{DECLARED}{}", rounds.iter().map(|block| format!("b{block:b} ! ")).collect::<String>());
    t.vcd("dumped: where 209 is not kept", &free(4, ways("0121 23"), &[]), &dump(&text[..], 6), Ok(rounds));
    t.vcd("dumped: where 208 is not kept", &a(|x| x.blocks.figure[0] = 27), &dump(&text[..], 6), Ok(rounds));
}

/// The longest words and the most of them: what stands in the middle is repeated up to the limit. Then the values, or 432 at the mark ^.
const LONGEST: &[(&str, &str, &str, &str, Result<&[u16], ()>)] = &[
    ("blanks", "$var 0 0 ! $end $enddefinitions $end", " ", "", Ok(&[])),
    ("zeros", "$var 0 0 ! $end $enddefinitions $end b", "0", "101 !", Ok(&[5])),
    ("digits of a time", "$var 0 0 ! $end $enddefinitions $end #", "9", " b1 !", Ok(&[1])),
    ("a comment", "$comment ", "x", " $end $var 0 0 ! $end $enddefinitions $end b1 !", Ok(&[1])),
    ("a comment of short words", "$var 0 0 ! $end $enddefinitions $end $comment", " x", " $end b1 !", Ok(&[1])),
    ("a real", "$var 0 0 ! $end $enddefinitions $end r", "1", " \" b1 !", Ok(&[1])),
    ("a vector of another code", "$var 0 0 ! $end $enddefinitions $end b", "x", " \" b1 !", Ok(&[1])),
    ("another code", "$var 0 0 ! $end $enddefinitions $end b1 ", "!", " b1 !", Ok(&[1])),
    ("a name", "$var 0 0 ! ", "n", " $end $enddefinitions $end b1 !", Ok(&[1])),
    ("scalars", "$var 0 0 ! $end $enddefinitions $end", " 0\"", "  b1 !", Ok(&[1])),
    ("a value at the end", "$var 0 0 ! $end $enddefinitions $end", " ", "b1 !", Ok(&[1])),
    ("a number that is too large", "$var 0 0 ! $end $enddefinitions $end ^b", "1", " !", Err(())),
    ("letters after b", "$var 0 0 ! $end $enddefinitions $end ^", "b", "", Err(())),
    ("a comment without an end", "$var 0 0 ! $end $enddefinitions $end $comment ", "x", "^", Err(())),
    ("a missing code", "$var 0 0 ! $end $enddefinitions $end", "\n", "b1^", Err(())),
    ("a wrong word at the end", "$var 0 0 ! $end $enddefinitions $end", "\t", "^x", Err(())),
    ("one word", "^", "$", "", Err(())),
];

/// Texts at the limit of their length, with the most values and the longest words.
fn dumped_sizes(t: &mut Tester) {
    let tables = straight(2);
    let declared = "$var 0 0 ! $end $enddefinitions $end ";
    let count = (MOST_BYTES + 1 - declared.len()) / 5;
    let values: Vec<u16> = (0..count).map(|k| (k % 2) as u16).collect();
    let text = format!("{declared}{}", values.iter().map(|value| format!("b{value} ! ")).collect::<String>());
    let last = (text.trim_end().len() - 4) as u32;
    let text = padded(text.trim_end(), MOST_BYTES);
    for places in [count, count + 1, 13_107, 65_536] {
        t.vcd(&format!("dumped: {count} values, {places} places"), &tables, &dump(&text[..], places), Ok(&values));
    }
    t.vcd("dumped: one place short of the most", &tables, &dump(&text[..], count - 1), Err((433, last)));
    t.vcd("dumped: no place for the most", &tables, &dump(&text[..], 0), Err((433, declared.len() as u32)));
    t.vcd("dumped: the most values and a byte more", &tables, &dump(format!("{text} "), count), Err((101, 0)));
    t.vcd("dumped: one value written 13,000 times", &tables, &dump(text.replace("b0", "b1"), 1), Ok(&[1]));
    let wide = format!("{DECLARED}{}", (0..4000).map(|k| format!("b{:b} !\n", 32_768 + k)).collect::<String>());
    t.vcd("dumped: 4,000 wide values are too long", &tables, &dump(wide, 13_107), Err((101, 0)));
    for (name, before, middle, after, wanted) in LONGEST {
        let marks = usize::from(wanted.is_err());
        let repeated: String = middle.chars().cycle().take(MOST_BYTES + marks - before.len() - after.len()).collect();
        let text = format!("{before}{repeated}{after}");
        let (text, place) = if wanted.is_err() { marked_text(&text) } else { (text.into_bytes(), 0) };
        t.vcd(&format!("dumped: {} bytes, {name}", text.len()), &tables, &dump(&text[..], 9), wanted.map_err(|()| (432, place)));
        let longer = [&text[..], b" "].concat();
        t.vcd(&format!("dumped: {} bytes, {name}", longer.len()), &tables, &dump(longer, 9), Err((101, 0)));
    }
}

/// Every text of some words after good declarations, for buffers of no place, one and many; and every text of some words of declarations.
fn dumped_small_texts(t: &mut Tester) {
    let commands = ["b0", "b1", "bx", "!", "\"", "$end", "$comment", "$dumpvars", "#1", "r1", "1!"];
    let declarations = ["$var", "!", "$end", "$comment", "$enddefinitions"];
    let tables = straight(2);
    for (before, words, most, all_places) in [(DECLARED, &commands[..], 4, &[0, 1, 9][..]), ("", &declarations, 7, &[9])] {
        for count in 0..=most {
            for choice in 0..words.len().pow(count) {
                let rest: Vec<&str> = (0..count).map(|k| words[choice / words.len().pow(k) % words.len()]).collect();
                for places in all_places {
                    let text = format!("{before}{}", rest.join(" "));
                    let outcome = t.bench.vcd(&tables, &dump(&text[..], *places)).map(|_| ());
                    t.score.test(&format!("dumped: \"{text}\", {places} places"), outcome);
                }
            }
        }
    }
}

/// A second certificate as one row of a table: costs, edges and loops as above, then figures, multipliers and least visits.
type Lowered<'a> = (&'a [u32], &'a str, &'a [Loop<'a>], &'a [i64], &'a [u64], &'a [u32]);

/// Request 10 of document 02, worked out by hand: the number, and a run with the least visits that costs as much, where there is one.
const LOWERED: &[(&str, Lowered, i64, &str)] = &[
    ("two blocks", (&[7, 9], "01", &[], &[9, 0], &[0], &[1]), 16, "01"),
    ("a branch", (&[1, 2, 5, 3], "013 023", &[], &[5, 3, 3, 0], &[0], &[1]), 6, "013"),
    ("a branch, the way of more blocks costs less", (&[1, 9, 1, 1, 1], "014 0234", &[], &[3, 1, 2, 1, 0], &[0], &[1]), 4, "0234"),
    (
        "two rounds, the one of more blocks costs less",
        (&[1, 1, 9, 1, 1, 1], "0121 1341 45", &[(0, 1, &[2, 3, 4])], &[10, 3, 1, 2, 1, 0], &[0, 3], &[1, 3]),
        11,
        "01341341345",
    ),
    (
        "through an inner loop",
        (&[1; 5], "01223 31 34", &[(0, 1, &[3]), (1, 2, &[])], &[13, 4, 2, 1, 0], &[0, 4, 1], &[1, 3, 2]),
        14,
        "01223122312234",
    ),
    (
        "through an inner loop of least 0",
        (&[1; 5], "01223 31 34", &[(0, 1, &[3]), (1, 2, &[])], &[7, 3, 2, 1, 0], &[0, 3, 0], &[1, 2, 0]),
        8,
        "01231234",
    ),
    (
        "through an inner loop of least 0 that has a multiplier",
        (&[1; 5], "01223 31 34", &[(0, 1, &[3]), (1, 2, &[])], &[5, 2, 2, 1, 0], &[0, 2, 1], &[1, 2, 0]),
        6,
        "",
    ),
    (
        "back to the outer header from the inner one",
        (&[1; 4], "0121 23", &[(0, 1, &[]), (1, 2, &[])], &[5, 2, 1, 0], &[0, 2, 5], &[1, 2, 1]),
        6,
        "012123",
    ),
    (
        "out of both loops at once",
        (&[1, 2, 3, 4], "01223", &[(0, 1, &[]), (1, 2, &[])], &[12, 10, 4, 0], &[0, 7, 3], &[1, 1, 2]),
        13,
        "01223",
    ),
    (
        "out of one loop into the next",
        (&[1, 2, 3, 4], "011223", &[(0, 1, &[]), (0, 2, &[])], &[16, 10, 4, 0], &[0, 2, 3], &[1, 3, 2]),
        17,
        "0111223",
    ),
    ("an unreachable loop", (&[1, 2, 3, 4], "03 121 23", &[(0, 1, &[2])], &[4, 7, 4, 0], &[0, 5], &[1, 65_535]), 5, "03"),
    ("the exit inside a loop", (&[2, 3, 5, 1], "0121 13", &[(0, 1, &[2, 3])], &[28, 1, -4, 0], &[0, 8], &[1, 4]), 30, "012121213"),
    ("the exit as a header", (&[1, 2, 3], "012", &[(0, 2, &[])], &[5, 3, 0], &[0, 9], &[1, 1]), 6, "012"),
    ("the exit as a header, and a least that no run keeps", (&[1, 2, 3], "012", &[(0, 2, &[])], &[14, 12, 0], &[0, 9], &[1, 2]), 15, ""),
];

/// With the figure of block 0 one higher its edge breaks its inequality, and with the figure one lower the number is one lower.
fn shortest_by_hand(t: &mut Tester) {
    for (name, (cost, rows, loops, figure, multiplier, least), number, run) in LOWERED {
        let limits: Vec<Limited> = loops.iter().map(|declared| (*declared, 65_535)).collect();
        let tables = routine(cost, rows, &limits);
        let mut low = Low { figure: figure.to_vec(), multiplier: multiplier.to_vec(), least: least.to_vec() };
        t.shortest(name, &tables, &low, Accepted(*number, 0));
        low.figure[0] += 1;
        t.shortest(&format!("{name}, the first figure one higher"), &tables, &low, Refused(453, 0));
        low.figure[0] -= 2;
        t.shortest(&format!("{name}, the first figure one lower"), &tables, &low, Accepted(number - 1, 0));
        if !run.is_empty() {
            t.walk(&format!("shortest: {name}, a run that costs the number"), &tables, &digits(run), Accepted(*number, run.len() as u64 - 1));
        }
    }
}

/// A second certificate of routine A: its own figures and multiplier, and four visits at least.
fn low_a(change: impl FnOnce(&mut Low)) -> Low {
    let mut low = Low { figure: vec![28, 1, -4, 0], multiplier: vec![0, 8], least: vec![1, 4] };
    change(&mut low);
    low
}

/// Changes of that certificate.
const LOWERED_A: &[(&str, fn(&mut Low), Want)] = &[
    ("no change", |_| (), Accepted(30, 0)),
    ("least 1", |x| (x.figure[0], x.least[1]) = (4, 1), Accepted(6, 0)),
    ("least 1, the figure one higher", |x| (x.figure[0], x.least[1]) = (5, 1), Refused(453, 0)),
    ("least 0", |x| (x.figure[0], x.least[1]) = (-4, 0), Accepted(-2, 0)),
    ("least 0, the figure one higher", |x| (x.figure[0], x.least[1]) = (-3, 0), Refused(453, 0)),
    ("least 0, multiplier 0", |x| (x.figure[0], x.multiplier[1], x.least[1]) = (4, 0, 0), Accepted(6, 0)),
    ("least 0, multiplier 0, the figure one higher", |x| (x.figure[0], x.multiplier[1], x.least[1]) = (5, 0, 0), Refused(453, 0)),
    ("least 3", |x| x.least[1] = 3, Refused(453, 0)),
    ("least 5", |x| x.least[1] = 5, Accepted(30, 0)),
    ("least 65,535", |x| x.least[1] = 65_535, Accepted(30, 0)),
    ("least 65,535, its own number", |x| (x.figure[0], x.least[1]) = (524_276, 65_535), Accepted(524_278, 0)),
    ("least 65,535, the figure one higher", |x| (x.figure[0], x.least[1]) = (524_277, 65_535), Refused(453, 0)),
    ("multiplier 7", |x| x.multiplier[1] = 7, Refused(453, 0)),
    ("multiplier 7, its own number", |x| (x.figure[0], x.multiplier[1]) = (25, 7), Accepted(27, 0)),
    ("multiplier 9", |x| x.multiplier[1] = 9, Refused(453, 2)),
    ("multiplier 0", |x| (x.figure[0], x.multiplier[1]) = (4, 0), Accepted(6, 0)),
    ("multiplier 2^40", |x| x.multiplier[1] = 1 << 40, Refused(453, 2)),
    ("multiplier 2^40, a figure that keeps it", |x| (x.figure[2], x.multiplier[1]) = (4 - (1 << 40), 1 << 40), Refused(453, 1)),
    ("figure 2 at block 1", |x| x.figure[1] = 2, Refused(453, 1)),
    ("figure 0 at block 1", |x| x.figure[1] = 0, Refused(453, 0)),
    ("figure -3 at block 2", |x| x.figure[2] = -3, Refused(453, 2)),
    ("figure -5 at block 2", |x| x.figure[2] = -5, Refused(453, 1)),
    ("figure -1 at the exit", |x| x.figure[3] = -1, Refused(453, 1)),
    ("figure 1 at the exit", |x| x.figure[3] = 1, Accepted(29, 0)),
    // the ranges
    ("figure -2^60", |x| x.figure[0] = -(1 << 60), Accepted(2 - (1 << 60), 0)),
    ("figure -2^60 - 1", |x| x.figure[0] = -(1 << 60) - 1, Refused(452, 0)),
    ("figure -2^63", |x| x.figure[0] = i64::MIN, Refused(452, 0)),
    ("figure 2^60 at the exit", |x| x.figure[3] = 1 << 60, Accepted(30 - (1 << 60), 0)),
    ("figure 2^60 + 1 at the exit", |x| x.figure[3] = (1 << 60) + 1, Refused(452, 3)),
    ("figure 2^63 - 1 at the exit", |x| x.figure[3] = i64::MAX, Refused(452, 3)),
    ("figures -2^60 and 2^60", |x| (x.figure[0], x.figure[3]) = (-(1 << 60), 1 << 60), Accepted(2 - (1 << 61), 0)),
    ("figures 2^60 and -2^60", |x| (x.figure[0], x.figure[3]) = (1 << 60, -(1 << 60)), Refused(453, 0)),
    ("multiplier 2^40 + 1", |x| x.multiplier[1] = (1 << 40) + 1, Refused(451, 1)),
    ("multiplier 2^64 - 1", |x| x.multiplier[1] = u64::MAX, Refused(451, 1)),
    ("least 65,536", |x| x.least[1] = 65_536, Refused(451, 1)),
    ("least 2^32 - 1", |x| x.least[1] = u32::MAX, Refused(451, 1)),
    ("least 0 of loop 0", |x| x.least[0] = 0, Refused(451, 0)),
    ("least 2 of loop 0", |x| x.least[0] = 2, Refused(451, 0)),
    ("least 2^32 - 1 of loop 0", |x| x.least[0] = u32::MAX, Refused(451, 0)),
    ("multiplier 1 of loop 0", |x| x.multiplier[0] = 1, Refused(451, 0)),
    ("multiplier 2^40 of loop 0", |x| x.multiplier[0] = 1 << 40, Refused(451, 0)),
    ("multiplier 1 and least 0 of loop 0", |x| (x.multiplier[0], x.least[0]) = (1, 0), Refused(451, 0)),
    // the lowest number, then the lowest place
    ("a least of loop 0 and one of loop 1", |x| x.least = vec![0, 65_536], Refused(451, 0)),
    ("a multiplier of loop 0 and a least of loop 1", |x| (x.multiplier[0], x.least[1]) = (1, 65_536), Refused(451, 0)),
    ("a least of loop 0 and a multiplier of loop 1", |x| (x.multiplier[1], x.least[0]) = (1 << 41, 2), Refused(451, 0)),
    ("451 by a least before 452", |x| (x.figure[0], x.least[1]) = ((1 << 60) + 1, 65_536), Refused(451, 1)),
    ("451 by a multiplier before 452", |x| (x.figure[0], x.multiplier[1]) = ((1 << 60) + 1, 1 << 41), Refused(451, 1)),
    ("451 before 453", |x| (x.figure[0], x.multiplier[1]) = (1 << 60, 1 << 41), Refused(451, 1)),
    ("452 before 453", |x| (x.figure[0], x.figure[3]) = (29, (1 << 60) + 1), Refused(452, 3)),
    ("452 at two blocks", |x| (x.figure[1], x.figure[3]) = (1 << 61, 1 << 61), Refused(452, 1)),
    ("453 at two blocks", |x| (x.figure[0], x.multiplier[1]) = (32, 9), Refused(453, 0)),
];

/// Routine A: the ranges and the inequalities of its second certificate, and what of the tables counts.
fn shortest_of_a(t: &mut Tester) {
    for (name, change, wanted) in LOWERED_A {
        t.shortest(&format!("A, {name}"), &a(|_| ()), &low_a(*change), *wanted);
    }
    let cases: &[(&str, fn(&mut Tables), Want)] = &[
        ("208 is not asked, figure 27", |x| x.blocks.figure[0] = 27, Accepted(30, 0)),
        ("208 is not asked, multiplier 7", |x| x.loops.multiplier[1] = 7, Accepted(30, 0)),
        ("208 is not asked, figures at the ends", |x| x.blocks.figure = vec![-(1 << 60), 1 << 60, -(1 << 60), 1 << 60], Accepted(30, 0)),
        ("the limit is no least", |x| x.loops.limit[1] = 1, Accepted(30, 0)),
        ("both successors the same", |x| x.blocks.second[0] = 1, Accepted(30, 0)),
        ("two returns", |x| x.blocks.second[2] = 1, Accepted(30, 0)),
        ("the header names itself, which costs too little", |x| x.blocks.first[1] = 1, Refused(453, 1)),
        ("block 0 costs 1,000,000", |x| x.blocks.cost[0] = 1_000_000, Accepted(1_000_028, 0)),
        ("block 1 costs less", |x| x.blocks.cost[1] = 2, Refused(453, 0)),
        ("block 2 costs less", |x| x.blocks.cost[2] = 4, Refused(453, 1)),
        ("the exit costs less", |x| x.blocks.cost[3] = 0, Refused(453, 1)),
        ("every block costs more", |x| x.blocks.cost = vec![3, 4, 6, 2], Accepted(31, 0)),
        ("202 by the tables' own multiplier", |x| x.loops.multiplier[1] = (1 << 40) + 1, Refused(202, 1)),
        ("202 by the tables' own multiplier of loop 0", |x| x.loops.multiplier[0] = 1, Refused(202, 0)),
        ("202 by the limit", |x| x.loops.limit[1] = 0, Refused(202, 1)),
        ("203 by the tables' own figure", |x| x.blocks.figure[2] = (1 << 60) + 1, Refused(203, 2)),
    ];
    for (name, change, wanted) in cases {
        t.shortest(&format!("A, {name}"), &a(*change), &low_a(|_| ()), *wanted);
    }
    let long = [&[0][..], &[1, 2].repeat(65_534), &[1, 3]].concat();
    t.walk("shortest: A, a run of 65,535 visits", &a(|x| x.loops.limit[1] = 65_535), &long, Accepted(524_278, long.len() as u64 - 1));
}

/// Multipliers of 2^40 and figures up to 2^60: the solver's columns of the towers, where every round costs the same, with their limits as least visits.
fn shortest_towers(t: &mut Tester) {
    let cases: &[(&str, fn(&mut Low), Want)] = &[
        ("a figure of 2^60", |_| (), Accepted(1 << 60, 0)),
        ("a figure of 2^60 + 1", |x| x.figure[0] += 1, Refused(452, 0)),
        ("figures below -2^60", |x| x.figure.iter_mut().for_each(|figure| *figure -= 1 << 60), Refused(452, 51)),
        ("the figure of block 1 one lower", |x| x.figure[1] -= 1, Refused(453, 0)),
        ("the figure of the first header one lower", |x| x.figure[2] -= 1, Refused(453, 1)),
        ("the first least one lower", |x| x.least[1] -= 1, Refused(453, 1)),
        ("the first multiplier one lower", |x| x.multiplier[1] -= 1, Refused(453, 1)),
        ("the first multiplier one higher", |x| x.multiplier[1] += 1, Refused(451, 1)),
        ("the second multiplier one higher", |x| x.multiplier[2] += 1, Refused(453, 4)),
        ("the third multiplier one higher", |x| x.multiplier[3] += 1, Refused(453, 4)),
        ("the first least of the last tower one lower", |x| x.least[49] -= 1, Refused(453, 47)),
    ];
    let tables = towers(&highest());
    let (figure, multiplier) = tower_columns(&highest());
    for (name, change, wanted) in cases {
        let mut low = Low { figure: figure.clone(), multiplier: multiplier.clone(), least: tables.loops.limit.clone() };
        change(&mut low);
        t.shortest(&format!("towers of 2^40, {name}"), &tables, &low, *wanted);
    }
}

/// 63 loops one after another, each entered once: 2^40 x 65,534 at each entry, so that figures fall from 2^60 to -2^60; and least 0.
fn shortest_entries(t: &mut Tester) {
    let row = headed(64, false);
    let multiplier = [vec![0], vec![1 << 40; 63]].concat();
    let low = |figure: Vec<i64>, least: u32| Low { figure, multiplier: multiplier.clone(), least: [vec![1], vec![least; 63]].concat() };
    let fall = (65_534 << 40) + 1;
    let down = |first: i64| low((0..=64).map(|u: i64| (first - u.min(33) * fall).max(-(1 << 60))).collect(), 65_535);
    t.shortest("64 loops, figures 2^60 and -2^60", &row, &down(1 << 60), Accepted((1 << 61) + 1, 0));
    t.shortest("64 loops, figures 2^60 + 1 and -2^60", &row, &down((1 << 60) + 1), Refused(452, 0));
    let up = low((0..=64).map(|u: i64| u.min(63) * ((1 << 40) - 1)).collect(), 0);
    t.shortest("64 loops of least 0", &row, &up, Accepted(1 - 63 * ((1 << 40) - 1), 0));
    for (name, low) in [("least 65,535", down(1 << 60)), ("least 0", up)] {
        for (by, place) in [(-1, 6), (1, 7)] {
            let mut broken = low.clone();
            broken.figure[7] += by;
            t.shortest(&format!("64 loops, {name}, an entry broken by one at {place}"), &row, &broken, Refused(453, place));
        }
    }
}

/// A certificate without multipliers, with the tables' own figures.
fn own(tables: &Tables) -> Low {
    Low { figure: tables.blocks.figure.clone(), ..plain(tables) }
}

/// The figure of each block one higher, and over its range. The exit has no edge.
fn shortest_blocks(t: &mut Tester, name: &str, tables: &Tables, number: i64) {
    let n = tables.blocks.cost.len();
    for u in 0..n {
        let mut low = own(tables);
        low.figure[u] += 1;
        let wanted = if u == n - 1 { Accepted(number - 1, 0) } else { Refused(453, u as u32) };
        t.shortest(&format!("{name}, the figure of block {u} one higher"), tables, &low, wanted);
        low.figure[u] = (1 << 60) + 1;
        t.shortest(&format!("{name}, a figure of 2^60 + 1 at block {u}"), tables, &low, Refused(452, u as u32));
    }
}

/// The multiplier and the least of each loop over their ranges.
fn shortest_loops(t: &mut Tester, name: &str, tables: &Tables) {
    for l in 0..tables.loops.parent.len() {
        let mut low = own(tables);
        low.multiplier[l] = (1 << 40) + 1;
        t.shortest(&format!("{name}, a multiplier of 2^40 + 1 at loop {l}"), tables, &low, Refused(451, l as u32));
        (low.multiplier[l], low.least[l]) = (0, 65_536);
        t.shortest(&format!("{name}, a least of 65,536 at loop {l}"), tables, &low, Refused(451, l as u32));
    }
}

/// The most blocks and loops, and the deepest.
fn shortest_largest(t: &mut Tester) {
    for (name, tables, number) in [("1,024 blocks", straight(1024), 1024), ("64 loops", headed(64, false), 65), ("depth 16", headed(16, true), 17)] {
        t.shortest(name, &tables, &own(&tables), Accepted(number, 0));
        shortest_blocks(t, name, &tables, number);
        shortest_loops(t, name, &tables);
    }
}

/// The tables' rules come first, whatever the second certificate has; but a column of another length is 201.
fn shortest_order(t: &mut Tester) {
    let undeclared = [
        ("a cycle", free(4, ways("0121 23"), &[])),
        ("a cycle that costs", tables_of("0,1,0,1,,3|1,1,0,2,,2|2,1,0,1,3,1|3,1,0,,,0", "0,0,0,1,0")),
        ("an unreachable cycle", free(4, ways("121 03"), &[])),
        ("a cycle through a header", free(4, ways("0121 23"), &[(0, 1, &[])])),
        ("A, block 2 in loop 0", a(|x| x.blocks.inner[2] = 0)),
    ];
    let changes: &[(&str, fn(&mut Low))] = &[
        ("no other rule broken", |_| ()),
        ("451 broken", |x| x.least.fill(65_536)),
        ("452 broken", |x| x.figure.fill(1 << 61)),
        ("453 broken", |x| x.figure.iter_mut().zip(1..).for_each(|(figure, u)| *figure = -1_000_001 * u)),
        ("451, 452 and 453 broken", |x| {
            x.multiplier.fill(u64::MAX);
            x.figure.iter_mut().zip(1..).for_each(|(figure, u)| *figure = i64::MAX - u);
        }),
    ];
    for (name, tables, number, place) in broken_tables().into_iter().chain(undeclared.map(|(name, tables)| (name, tables, 209, 0))) {
        for (broken, change) in changes {
            let mut low = plain(&tables);
            change(&mut low);
            t.shortest(&format!("{name}, {broken}"), &tables, &low, Refused(number, place));
            low.least.push(1);
            t.shortest(&format!("{name}, {broken}, a column too long"), &tables, &low, Refused(201, 0));
        }
    }
}

/// Columns of all lengths.
fn shortest_columns(t: &mut Tester) {
    for (name, change) in COLUMNS {
        for more in [false, true] {
            let tables = a(|x| change(x, more));
            t.shortest(&format!("column {name}, longer {more}"), &tables, &low_a(|_| ()), Refused(201, 0));
            // new columns as long as the first one of their table
            t.shortest(&format!("column {name}, longer {more}, and the new ones"), &tables, &plain(&tables), Refused(201, 0));
        }
    }
    let routines = [("one loop", straight(3)), ("two loops", headed(2, false)), ("64 loops", headed(64, false)), ("1,024 blocks", straight(1024))];
    for (name, tables) in routines {
        let (n, m) = (tables.blocks.cost.len(), tables.loops.parent.len());
        let lengths = |right: usize| [0, 1, 2, right - 1, right, right + 1, 2 * right, 64, 65, 1024, 1025];
        let pairs = lengths(m).into_iter().flat_map(|multipliers| lengths(m).map(|leasts| [n, multipliers, leasts]));
        for [figures, multipliers, leasts] in lengths(n).map(|figures| [figures, m, m]).into_iter().chain(pairs) {
            let low = Low { figure: vec![0; figures], multiplier: vec![0; multipliers], least: vec![1; leasts] };
            let wanted = if [figures, multipliers, leasts] == [n, m, m] { Accepted(1, 0) } else { Refused(201, 0) };
            t.shortest(&format!("{name}, lengths {figures}, {multipliers} and {leasts}"), &tables, &low, wanted);
        }
    }
    t.shortest("all empty", &Tables::default(), &Low::default(), Refused(201, 0));
}

/// Every graph of four blocks, and what the numbers of some second certificates promise of its runs.
fn shortest_small_graphs(t: &mut Tester) {
    let mut random = Random::new(1);
    for (_, tables) in four_blocks([1, 2, 4, 8], 3) {
        let bound = solving::solve(&tables.blocks, &tables.loops).ok().map(|made| made.bound);
        shortest::small(&mut t.bench, t.score, &mut random, &tables, bound);
    }
}
