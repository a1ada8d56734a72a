//! Texts of both tables: good ones up to the limits, then damaged in a field, in the records, in a line end or in a byte.

use crate::random::Random;

#[derive(Clone, Copy, Debug, PartialEq, Eq)]
pub enum Table {
    Blocks,
    Loops,
}

/// A text to read: the lengths of the lent columns beside it (five, or the first four).
#[derive(Clone, Debug)]
pub struct Case {
    pub table: Table,
    pub text: Vec<u8>,
    pub header_row: bool,
    pub lengths: [usize; 5],
}

/// The largest number of a field, and whether it may be empty or negative.
#[derive(Clone, Copy)]
struct Kind {
    most: u128,
    missing: bool,
    signed: bool,
}

const fn kind(most: u128) -> Kind {
    Kind { most, missing: false, signed: false }
}

const SUCCESSOR: Kind = Kind { most: 65_534, missing: true, signed: false };
const FIGURE: Kind = Kind { most: (1 << 63) - 1, missing: false, signed: true };
const BLOCK_KINDS: [Kind; 6] = [kind(65_535), kind((1 << 32) - 1), kind(65_535), SUCCESSOR, SUCCESSOR, FIGURE];
const LOOP_KINDS: [Kind; 5] = [kind(65_535), kind(65_535), kind(65_535), kind((1 << 32) - 1), kind((1 << 64) - 1)];

impl Table {
    fn kinds(self) -> &'static [Kind] {
        match self {
            Table::Blocks => &BLOCK_KINDS,
            Table::Loops => &LOOP_KINDS,
        }
    }

    fn most(self) -> usize {
        match self {
            Table::Blocks => 1024,
            Table::Loops => 64,
        }
    }
}

/// A number up to `most`: small, near the top, near a power of two, or of any length.
fn size(random: &mut Random, most: u128) -> u128 {
    let any = u128::from(random.next());
    match random.below(6) {
        0 | 1 => any % 100 % (most + 1),
        2 => most - any % 3,
        3 => ((1u128 << random.below(64)) - any % 2).min(most),
        4 => (any >> random.below(64)).min(most),
        _ => any % (most + 1),
    }
}

/// A good field of a kind.
fn good(random: &mut Random, kind: Kind) -> Vec<u8> {
    if kind.missing && random.once_in(3) {
        return if random.once_in(4) { b"\"\"".to_vec() } else { Vec::new() };
    }
    let negative = kind.signed && random.once_in(2);
    let text = match size(random, if negative { kind.most + 1 } else { kind.most }) {
        0 => "0".to_string(),
        size if negative => format!("-{size}"),
        size => size.to_string(),
    };
    if random.once_in(6) { quoted(text.as_bytes()) } else { text.into_bytes() }
}

fn quoted(text: &[u8]) -> Vec<u8> {
    let mut result = vec![b'"'];
    for byte in text {
        result.push(*byte);
        if *byte == b'"' {
            result.push(b'"');
        }
    }
    result.push(b'"');
    result
}

/// A text of `length` bytes that is a field, quoted or plain (a quoted one has two bytes at least).
fn filler(random: &mut Random, length: usize) -> Vec<u8> {
    let quotes = length >= 2 && random.once_in(3);
    let inside = if quotes { length - 2 } else { length };
    let letters: &[u8] = if quotes { b"ab,\r\n 0" } else { b"ab 0-\x00\xEF" };
    let letter = random.pick(letters);
    let mut text = vec![letter; inside];
    if quotes && inside >= 2 && random.once_in(3) {
        text[inside - 2] = b'"';
        text[inside - 1] = b'"';
    }
    if quotes {
        text.insert(0, b'"');
        text.push(b'"');
    }
    text
}

/// A field that is, most often, no good field of its kind.
fn bad(random: &mut Random, kind: Kind) -> Vec<u8> {
    let fine = good(random, Kind { missing: false, ..kind });
    let joined = |before: &[u8], after: &[u8]| [before, after].concat();
    let text = match random.below(24) {
        0 => joined(b"0", &fine),
        1 => b"-0".to_vec(),
        2 => joined(b"-", &fine),
        3 => (kind.most + 1 + random.below(3) as u128).to_string().into_bytes(),
        4 => joined(&fine, b"0000"),
        5 => (1u128 << random.pick(&[16, 32, 63, 64, 65])).to_string().into_bytes(),
        6 => Vec::new(),
        7 => b"-".to_vec(),
        8 => b"--1".to_vec(),
        9 => b"-01".to_vec(),
        10 => joined(b"+", &fine),
        11 => joined(b" ", &fine),
        12 => joined(&fine, b" "),
        13 => joined(&fine, &[random.pick(b"/:.x\x00\xEF\xB2")]),
        14 => joined(b"\xEF\xBB\xBF", &fine),
        15 => b"00".to_vec(),
        16 => vec![random.pick(b"019"); random.range(60, 66)],
        17 => {
            let length = random.range(62, 67);
            return filler(random, length);
        }
        18 => b"65535".to_vec(),
        19 => b"-9223372036854775809".to_vec(),
        20 => b"\"".to_vec(),
        21 => vec![b'"'; random.range(1, 32)],
        22 => {
            let before: &[u8] = if random.once_in(2) { &fine } else { b"" };
            joined(before, random.pick::<&[u8]>(&[b"\r\n", b"\n", b"\r"]))
        }
        _ => (u128::from(random.next()) * u128::from(random.next())).to_string().into_bytes(),
    };
    if random.once_in(3) { quoted(&text) } else { text }
}

/// A field of a header: any text, now and then of 64 or 65 bytes.
fn heading(random: &mut Random) -> Vec<u8> {
    let length = if random.once_in(6) { random.range(62, 64) } else { random.below(8) };
    match random.below(8) {
        0 => filler(random, length),
        1 => b"figure".to_vec(),
        2 => b"\xEF\xBB\xBFnumber".to_vec(),
        3 => quoted(b"a \"b\""),
        4 => b"0".to_vec(),
        5 if random.once_in(8) => filler(random, 65),
        6 => quoted(random.pick::<&[u8]>(&[b"a\r\nb", b"a\nb", b"a\rb", b"\n", b"\r\n", b"\r\n,\n"])),
        _ => filler(random, length),
    }
}

fn join(records: &[Vec<Vec<u8>>], ends: &[Vec<u8>]) -> Vec<u8> {
    let mut text = Vec::new();
    for (fields, end) in records.iter().zip(ends) {
        text.extend(fields.join(&b','));
        text.extend(end);
    }
    text
}

/// The line end of a text, and the other one.
fn two_line_ends(random: &mut Random) -> [&'static [u8]; 2] {
    random.pick(&[[b"\r\n", b"\n"], [b"\n", b"\r\n"]])
}

/// The line ends of `count` records: all alike, the last one open in every second text. Then, now and then, one or more are changed.
fn line_ends(random: &mut Random, count: usize) -> Vec<Vec<u8>> {
    if count == 0 {
        return Vec::new();
    }
    let [usual, other] = two_line_ends(random);
    let mut ends = vec![usual; count];
    if random.once_in(2) {
        ends[count - 1] = b"";
    }
    let at = if random.once_in(4) { count - 1 } else { random.below(count) };
    match random.below(16) {
        0 | 1 => ends[at] = other,
        2 => ends[0] = other,
        3 => ends[at..].fill(other),
        4 => ends = ends.iter().map(|_| random.pick(&[usual, other])).collect(),
        5 => ends[at] = random.pick::<&[u8]>(&[b"\r", b"\n\r", b"\r\r\n", b"\r\n\n", b"\r\n\r", b"\r\n\r\n", b"\n\n", b"\n\r\n", b","]),
        _ => {}
    }
    ends.into_iter().map(<[u8]>::to_vec).collect()
}

/// Good records of `count` rows, under a header or not.
fn records(random: &mut Random, table: Table, header_row: bool, count: usize) -> Vec<Vec<Vec<u8>>> {
    let kinds = table.kinds();
    let mut records = Vec::new();
    if header_row {
        records.push(kinds.iter().map(|_| heading(random)).collect());
    }
    for row in 0..count {
        let mut fields = vec![row.to_string().into_bytes()];
        if random.once_in(8) {
            fields[0] = quoted(&fields[0]);
        }
        fields.extend(kinds[1..].iter().map(|kind| good(random, *kind)));
        records.push(fields);
    }
    records
}

/// One change to a field or to the order and number of records.
fn damage_records(random: &mut Random, table: Table, header_row: bool, records: &mut Vec<Vec<Vec<u8>>>) {
    let kinds = table.kinds();
    if records.is_empty() {
        records.push(vec![Vec::new(); random.below(8)]);
        return;
    }
    let at = if random.once_in(3) { records.len() - 1 } else { random.below(records.len()) };
    let fields = &mut records[at];
    match random.below(12) {
        0..=4 if !fields.is_empty() => {
            let field = random.below(fields.len());
            fields[field] = bad(random, kinds[field.min(kinds.len() - 1)]);
        }
        5 | 6 if !fields.is_empty() => {
            let row = (at - usize::from(header_row && at > 0)) as i64;
            let other = [row - 1, row + 1, 0, row + 256, row + 65_536, 65_535, 65_536, row * 10, 1023, 1024];
            fields[0] = random.pick(&other).to_string().into_bytes();
        }
        7 => {
            fields.pop();
        }
        8 => {
            let field = good(random, SUCCESSOR);
            fields.insert(random.below(fields.len() + 1), field);
        }
        9 => {
            let copy = fields.clone();
            records.insert(at, copy);
        }
        10 => {
            records.remove(at);
        }
        _ => records.insert(at + random.below(2), vec![Vec::new()]),
    }
}

/// The bytes that matter in a table's text.
const BYTES: &[u8] = b"\"\"\",,\r\n\n\r-0019 \x00";

/// One change to the bytes of a text: new ones are most often some of these.
pub fn damage_bytes(random: &mut Random, text: &mut Vec<u8>, bytes: &[u8]) {
    let byte = if random.once_in(4) { random.next() as u8 } else { random.pick(bytes) };
    let at = random.below(text.len() + 1);
    match random.below(7) {
        0 | 1 if at < text.len() => text[at] = byte,
        2 | 3 => text.insert(at, byte),
        4 if at < text.len() => {
            text.remove(at);
        }
        5 => text.truncate(at),
        _ => {
            let to = (at + random.below(12)).min(text.len());
            let part = text[at..to].to_vec();
            let place = random.below(text.len() + 1);
            text.splice(place..place, part);
        }
    }
}

/// The lengths of the columns for a text of some `count` rows.
fn lengths(random: &mut Random, count: usize) -> [usize; 5] {
    let mut lengths = [count + random.below(4); 5];
    match random.below(10) {
        0 => lengths = [count; 5],
        1 => lengths[random.below(5)] = random.below(count + 1),
        2 => lengths = [random.below(count + 2); 5],
        3 => lengths = [0; 5].map(|_| random.below(2 * count + 3)),
        4 if random.once_in(3) => lengths[random.below(5)] = 0,
        5 => lengths[random.below(5)] = count.saturating_sub(1),
        6 => lengths = [0; 5].map(|_| count + random.below(3)),
        7 if random.once_in(4) => lengths = [1024 + random.below(9); 5],
        _ => {}
    }
    lengths
}

/// A text whose length is near the limit of 65,536 bytes; the header's fields make up the exact length.
fn near_limit(random: &mut Random, table: Table) -> Case {
    let wide = |kind: &Kind| quoted(&if kind.signed { format!("-{}", kind.most) } else { kind.most.to_string() }.into_bytes());
    let kinds = table.kinds();
    let target = 65_530 + random.below(12);
    let [usual, other] = two_line_ends(random);
    let header_fields = kinds.len();
    let mut rows: Vec<Vec<Vec<u8>>> = Vec::new();
    let mut length = 0;
    while length + 65 * header_fields + 1 < target {
        let mut fields = vec![rows.len().to_string().into_bytes()];
        fields.extend(kinds[1..].iter().map(wide));
        // rows past the last are wanted too: they need not be in turn, but must have the form
        if rows.len() >= table.most() {
            fields = kinds.iter().map(|_| filler(random, 64)).collect();
        }
        length += fields.join(&b',').len() + usual.len();
        rows.push(fields);
    }
    let mut rest = (target - length).saturating_sub(header_fields - 1 + usual.len());
    let mut heading = Vec::new();
    for _ in 0..header_fields {
        let part = rest.min(64);
        heading.push(vec![b'h'; part]);
        rest -= part;
    }
    rows.insert(0, heading);
    let mut ends = vec![usual.to_vec(); rows.len()];
    if random.once_in(4) {
        ends[rows.len() - 1].clear();
    }
    if random.once_in(4) {
        ends[random.below(rows.len())] = other.to_vec();
    }
    let mut text = join(&rows, &ends);
    if random.once_in(4) {
        damage_bytes(random, &mut text, BYTES);
    }
    Case { table, text, header_row: !random.once_in(8), lengths: [table.most() + random.below(3); 5] }
}

/// A case for a table's reader.
pub fn case(random: &mut Random, table: Table) -> Case {
    let most = table.most();
    let count = match random.below(400) {
        0..=3 => return near_limit(random, table),
        4 | 5 => random.range(most - 3, most + 3),
        6..=15 if table == Table::Loops => random.range(most - 3, most + 3),
        6..=11 => random.range(100, 300),
        12..=80 => random.range(5, 40),
        _ => random.below(6),
    };
    let header_row = random.once_in(2);
    let mut records = records(random, table, header_row, count);
    let mut lengths = lengths(random, count);
    let kind = random.below(10);
    if (4..8).contains(&kind) {
        for _ in 0..random.pick(&[1, 1, 1, 2, 3]) {
            damage_records(random, table, header_row, &mut records);
        }
    }
    let ends = line_ends(random, records.len());
    let other = ends.iter().position(|end| !end.is_empty() && *end != ends[0]);
    if let Some(at) = other.filter(|_| random.once_in(3)) {
        // a place less than the first row with another line end needs, or just enough
        lengths[random.below(4)] = at - usize::from(header_row) + random.below(2);
    }
    let mut text = join(&records, &ends);
    if kind >= 8 || random.once_in(20) {
        for _ in 0..random.pick(&[1, 1, 1, 2, 4]) {
            damage_bytes(random, &mut text, BYTES);
        }
    }
    // the setting may be wrong for the text
    let header_row = if random.once_in(12) { !header_row } else { header_row };
    Case { table, text, header_row, lengths }
}

/// A short text of the bytes that matter, without a plan.
pub fn noise(random: &mut Random, table: Table) -> Case {
    let length = random.below(24);
    let text = (0..length).map(|_| random.pick(b"\"\"\",,,,,\r\n\r\n0011-x")).collect();
    let mut text: Vec<u8> = text;
    if random.once_in(3) {
        // whole line ends, and a field that runs on
        let at = random.below(text.len() + 1);
        text.splice(at..at, random.pick::<&[u8]>(&[b"\r\n", b"\n"]).to_vec());
    }
    if random.once_in(6) {
        let at = random.below(text.len() + 1);
        let count = random.range(58, 67);
        text.splice(at..at, vec![random.pick(b"1\",a"); count]);
    }
    Case { table, text, header_row: random.once_in(2), lengths: [random.below(3); 5] }
}

/// Every text of up to three rows whose line ends are some of these, under a header or not, for columns of up to three places. In every second
/// text the last fields are quoted, and that of the header has both line ends in it.
pub fn mixtures(table: Table) -> Vec<Case> {
    const ENDS: [&[u8]; 6] = [b"\r\n", b"\n", b"", b"\r", b"\r\r\n", b"\n\r"];
    let mut cases = Vec::new();
    for (count, quotes, header_row) in (0..16).map(|k| (k / 4, k % 2 == 1, k / 2 % 2 == 1)) {
        for choice in 0..ENDS.len().pow(count) {
            let mut text = Vec::new();
            for record in 0..count {
                let last = match (quotes, header_row && record == 0) {
                    (false, _) => "0",
                    (true, false) => "\"0\"",
                    (true, true) => "\"\r\n\n\"",
                };
                let row = record.saturating_sub(u32::from(header_row));
                text.extend(format!("{row}{},{last}", ",0".repeat(table.kinds().len() - 2)).into_bytes());
                text.extend(ENDS[choice / ENDS.len().pow(record) % ENDS.len()]);
            }
            cases.extend((0..4).map(|places| Case { table, text: text.clone(), header_row, lengths: [places; 5] }));
        }
    }
    cases
}
