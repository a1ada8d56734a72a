//! Recordings as VCD for request 8: values written with all the freedom of the syntax, then damaged in a word or in a byte; and texts of any words.

use crate::changes::{is_code, Dump};
use crate::random::Random;
use crate::texts::damage_bytes;

type Word = Vec<u8>;

/// The longest text.
pub const MOST_BYTES: usize = 65_536;
/// More values than any text holds: a change takes five bytes.
const MOST_VALUES: usize = 13_107;

const DECLARATIONS: [&[u8]; 6] = [b"$comment", b"$date", b"$scope", b"$timescale", b"$upscope", b"$version"];
const DUMPS: [&[u8]; 4] = [b"$dumpall", b"$dumpoff", b"$dumpon", b"$dumpvars"];
/// Words that are, or look like, some part of the syntax. None of them is $end.
const WORDS: [&[u8]; 34] = [
    b"$comment", b"$enddefinitions", b"$var", b"$scope", b"$upscope", b"$date", b"$dumpvars", b"$dumpon", b"$dumpports", b"$vcdclose", b"$END", b"$en",
    b"$end$end", b"$endx", b"x$end", b"$end\x0b", b"\x0c$end", b"$end\x00", b"$", b"b1", b"B0", b"bx", b"b", b"0!", b"1", b"r1.5", b"r", b"#", b"#10",
    b"wire", b"16", b"!", b"[15:0]", b"ns",
];
/// Values of changes that the syntax does not allow, or not for the named vector.
const WRONG_VALUES: [&[u8]; 21] = [
    b"b", b"B", b"b2", b"b1_0", b"b-1", b"b+1", b"b1\x00", b"bx", b"BZ", b"b1X0", b"b0z", b"b1111111111111111", b"b01111111111111111",
    b"b10000000000000000", b"B100000000000000000000000000000001", b"b10000000000000000000000000000000000000000000000000000000000000001", b"r1", b"R",
    b"r\xff", b"1", b"c1",
];
/// Words that are wrong in most places.
const ODD_WORDS: [&[u8]; 26] = [
    b"$end", b"$end", b"$end", b"$end", b"$enddefinitions", b"$enddefinitions", b"$comment", b"$var", b"$dumpall", b"$dumpoff", b"$dumpports",
    b"$vcdclose", b"$END", b"#", b"#1", b"#1x", b"#-1", b"0", b"0$end", b"x!", b"b1", b"r", b"\x7f", b"\x80!", b"!\x0b", b"\xff",
];
/// The bytes that matter in a recording's text.
const BYTES: &[u8] = b"  \t\r\n\x0b\x0c\x00\x7f!#$$01bBxXzZrRden";

/// A byte that may stand in a word.
fn byte_of_word(random: &mut Random) -> u8 {
    match random.next() as u8 {
        b' ' | b'\t' | b'\r' | b'\n' => b'_',
        byte => byte,
    }
}

/// A word of the text of a declaration or a comment: any but $end.
fn any_word(random: &mut Random) -> Word {
    let count = random.range(1, 6);
    match random.below(4) {
        0 => (0..count).map(|_| byte_of_word(random)).collect(),
        1 => (0..count).map(|_| random.range(97, 122) as u8).collect(),
        _ => random.pick(&WORDS).to_vec(),
    }
}

fn any_words(random: &mut Random, most: usize) -> Vec<Word> {
    (0..random.below(most + 1)).map(|_| any_word(random)).collect()
}

/// A code that a text can declare.
pub fn code(random: &mut Random) -> Word {
    let count = match random.below(8) {
        0..=3 => 1,
        4 | 5 => random.range(2, 4),
        6 if random.once_in(8) => random.range(60, 300),
        _ => {
            let word = random.pick(&WORDS);
            return if is_code(word) { word.to_vec() } else { b"$dumpall".to_vec() };
        }
    };
    let code: Word = (0..count).map(|_| random.range(33, 126) as u8).collect();
    if is_code(&code) { code } else { b"$ene".to_vec() }
}

/// A code that no text can declare.
fn no_code(random: &mut Random) -> Word {
    let mut code = code(random);
    match random.below(4) {
        0 => Vec::new(),
        1 => b"$end".to_vec(),
        2 => {
            code.push(random.pick(b" \t\r\n\x00\x0b\x0c\x1f\x7f\x80\xff"));
            code
        }
        _ => {
            code[0] = random.pick(b" \t\r\n\x00\x0b\x0c\x1f\x7f\x80\xff");
            code
        }
    }
}

/// Another code than this one, most often near it.
fn other_code(random: &mut Random, named: &[u8]) -> Word {
    loop {
        let mut other = named.to_vec();
        match random.below(5) {
            0 => other.push(random.range(33, 126) as u8),
            1 => other.truncate(named.len().saturating_sub(1)),
            2 if !other.is_empty() => {
                let at = random.below(other.len());
                other[at] = random.range(33, 126) as u8;
            }
            3 => other.insert(0, random.pick(b"01xb#$!")),
            _ => other = code(random),
        }
        if is_code(&other) && other != named {
            return other;
        }
    }
}

/// Values with none twice in a row.
pub fn values(random: &mut Random) -> Vec<u16> {
    let count = match random.below(400) {
        0 | 1 => random.range(1000, 4500),
        2..=4 => random.range(100, 1000),
        5..=80 => random.range(6, 40),
        _ => random.below(6),
    };
    let habit = random.below(4);
    let mut values: Vec<u16> = (0..count).map(|_| value(random, habit)).collect();
    values.dedup();
    values
}

fn value(random: &mut Random, habit: usize) -> u16 {
    match random.below(8) {
        _ if habit == 0 => random.below(3) as u16,
        0 => 65_534 - random.below(2) as u16,
        1 => ((1usize << random.below(17)) - random.below(2)).min(65_534) as u16,
        2 | 3 => random.below(8) as u16,
        _ => ((random.next() >> 48) as u16 >> random.below(15)).min(65_534),
    }
}

/// A value of the named vector, in b or B form.
fn number(random: &mut Random, value: u16) -> Word {
    let digits = format!("{value:b}");
    let zeros = match random.below(12) {
        0 | 1 => 16 - digits.len(),
        2 => random.below(20),
        3 if random.once_in(20) => random.range(48, 300),
        _ => 0,
    };
    [&[random.pick(b"bB")][..], &vec![b'0'; zeros], digits.as_bytes()].concat()
}

/// A change of a code other than the named one, in any form.
fn other_change(random: &mut Random, named: &[u8]) -> Vec<Word> {
    let mut code = other_code(random, named);
    let count = random.range(1, 20);
    let mut word = match random.below(4) {
        0 => {
            code.insert(0, random.pick(b"01xXzZ"));
            return vec![code];
        }
        1 => [&[random.pick(b"rR")][..], random.pick::<&[u8]>(&[b"", b"1.5", b"-2e9", b"nan", b"1", b"\x00", b"$end", b"b0"])].concat(),
        2 => vec![random.pick(b"bB"), b'1'],
        _ => vec![random.pick(b"bB")],
    };
    if b"bB".contains(&word[0]) {
        word.extend((0..count).map(|_| random.pick(b"01xXzZ")));
    }
    vec![word, code]
}

/// $var with a code.
fn variable(random: &mut Random, code: &[u8]) -> Vec<Word> {
    let kind = if random.once_in(4) { any_word(random) } else { b"wire".to_vec() };
    let size = if random.once_in(4) { any_word(random) } else { b"16".to_vec() };
    let name = any_words(random, 3);
    [vec![b"$var".to_vec(), kind, size, code.to_vec()], name, vec![b"$end".to_vec()]].concat()
}

/// A keyword with a text and its $end.
fn with_text(random: &mut Random, keyword: &[u8]) -> Vec<Word> {
    [vec![keyword.to_vec()], any_words(random, 4), vec![b"$end".to_vec()]].concat()
}

/// Declarations with the code among them: most often once and among others.
fn declarations(random: &mut Random, code: &[u8]) -> Vec<Word> {
    let mut parts = vec![variable(random, code)];
    for _ in 0..random.pick(&[0, 0, 1, 2, 3, 6]) {
        let other = if random.once_in(8) { code.to_vec() } else { other_code(random, code) };
        let keyword = random.pick(&DECLARATIONS);
        parts.push(if random.once_in(2) { variable(random, &other) } else { with_text(random, keyword) });
    }
    random.shuffle(&mut parts);
    let words = random.pick(&[0, 0, 0, 2]);
    parts.push([vec![b"$enddefinitions".to_vec()], any_words(random, words), vec![b"$end".to_vec()]].concat());
    parts.concat()
}

/// Changes of the code to these values. Once in `between` times something else stands between two of them, or a value is written again.
fn changes(random: &mut Random, code: &[u8], values: &[u16], between: usize) -> Vec<Word> {
    let mut words = Vec::new();
    let mut in_dump = false;
    for k in 0..=values.len() {
        while random.once_in(between) {
            match random.below(6) {
                0 | 1 => words.extend(other_change(random, code)),
                2 if k > 0 => words.extend([number(random, values[k - 1]), code.to_vec()]),
                3 => {
                    words.push(if in_dump { b"$end".to_vec() } else { random.pick(&DUMPS).to_vec() });
                    in_dump = !in_dump;
                }
                4 if !in_dump => words.push(format!("#{:0>1$}", random.next() >> random.below(64), random.below(30)).into_bytes()),
                5 if !in_dump => words.extend(with_text(random, b"$comment")),
                _ => {}
            }
        }
        words.extend(values.get(k).into_iter().flat_map(|value| [number(random, *value), code.to_vec()]));
    }
    if in_dump {
        words.push(b"$end".to_vec());
    }
    words
}

/// The words with blanks between them, and perhaps before and after.
fn join(random: &mut Random, words: &[Word]) -> Vec<u8> {
    const MIXED: &[&[u8]] = &[b" ", b" ", b"\t", b"\r", b"\n", b"\r\n", b"  ", b" \n\t\r "];
    let blanks: &[&[u8]] = random.pick(&[&[b" "], &[b"\n"], &[b"\r\n"], &[b" ", b"\n"], MIXED, MIXED]);
    let mut text = if random.once_in(4) { random.pick(MIXED).to_vec() } else { Vec::new() };
    for word in words {
        text.extend(word);
        text.extend(random.pick(blanks));
    }
    if random.once_in(3) {
        text.truncate(text.trim_ascii_end().len());
    }
    text
}

/// A text with these values of the code, which a text can declare: the more values, the less there is between them.
pub fn written(random: &mut Random, code: &[u8], values: &[u16]) -> Vec<u8> {
    let words = words(random, code, values);
    join(random, &words)
}

fn words(random: &mut Random, code: &[u8], values: &[u16]) -> Vec<Word> {
    let between = random.pick(if values.len() < 100 { &[2, 3, 5, 1 << 30] } else { &[40, 1000, 1 << 30, 1 << 30] });
    [declarations(random, code), changes(random, code, values, between)].concat()
}

/// One change to the words of a text.
fn damage_words(random: &mut Random, code: &[u8], words: &mut Vec<Word>) {
    let count = words.len().max(1);
    let other = random.below(count);
    // most often in the later half
    let at = random.below(count).max(random.below(count));
    let odd = if random.once_in(3) { any_word(random) } else { random.pick(&ODD_WORDS).to_vec() };
    match random.below(13) {
        _ if words.is_empty() => words.push(odd),
        0 => {
            words.remove(at);
        }
        1 => words.insert(at, words[at].clone()),
        2 if at > 0 => words.swap(at - 1, at),
        3 => words.swap(at, other),
        4 | 5 => words[at] = odd,
        6 | 7 => words.insert(at, odd),
        8 => words.truncate(at),
        9 => words.insert(at, [&[random.pick(b"01xXzZ")], code].concat()),
        _ => {
            // a wrong change of the vector, where the text has changes of it or between any two words
            let is_vector = |word: &Word| word.first().is_some_and(|byte| b"bB".contains(byte));
            let changed: Vec<usize> = (1..words.len()).filter(|k| words[*k] == code && is_vector(&words[k - 1])).collect();
            let at = if changed.is_empty() { at } else { random.pick(&changed) + 1 };
            words.splice(at..at, [random.pick(&WRONG_VALUES).to_vec(), code.to_vec()]);
        }
    }
}

/// The places of a buffer for a text of some `count` values.
fn places(random: &mut Random, count: usize) -> usize {
    match random.below(10) {
        0..=3 => count,
        4 => count.saturating_sub(1),
        5 => count + 1,
        6 => 0,
        7 => random.below(count + 1),
        8 if random.once_in(20) => random.pick(&[MOST_VALUES, MOST_VALUES + 1, 65_535, 65_536]),
        _ => count + random.below(20),
    }
}

/// Fills a text up to so many bytes: with blanks at its end, or with a comment before it.
pub fn fill(random: &mut Random, text: &mut Vec<u8>, length: usize) {
    let (before, after) = (b"$comment ", b" $end ");
    let left = length.saturating_sub(text.len() + before.len() + after.len());
    if left > 0 && random.once_in(2) {
        let byte = random.pick(b"a\xff ");
        text.splice(..0, [&before[..], &vec![byte; left], after].concat());
    }
    let blank = random.pick(b" \t\r\n");
    text.resize(length.max(text.len()), blank);
}

/// A recording: good or damaged, now and then with another code than it was written for.
pub fn dump(random: &mut Random) -> Dump {
    let mut code = if random.once_in(10) { no_code(random) } else { code(random) };
    let values = values(random);
    let mut words = words(random, &code, &values);
    let kind = random.below(10);
    if (2..7).contains(&kind) {
        for _ in 0..random.pick(&[1, 1, 1, 2, 3]) {
            damage_words(random, &code, &mut words);
        }
    }
    let mut text = join(random, &words);
    text.truncate(2 * MOST_BYTES);
    if kind >= 7 {
        for _ in 0..random.pick(&[1, 1, 1, 2, 4]) {
            damage_bytes(random, &mut text, BYTES);
        }
    }
    if random.once_in(30) {
        let length = MOST_BYTES - 1 + random.pick(&[0, 1, 1, 1, 2, 2, 3]);
        fill(random, &mut text, length);
    }
    if random.once_in(12) {
        code = other_code(random, &code);
    }
    Dump { text, code, places: places(random, values.len()) }
}

/// A short text of words that matter, without a plan: after good declarations or not.
pub fn noise(random: &mut Random) -> Dump {
    let code = random.pick::<&[u8]>(&[b"!", b"!", b"!!", b"b1"]).to_vec();
    let mut words = match random.below(6) {
        0 => Vec::new(),
        1 => variable(random, &code),
        _ => declarations(random, &code),
    };
    for _ in 0..random.below(12) {
        let value = random.below(3) as u16;
        match random.below(9) {
            0 | 1 => words.extend([number(random, value), code.clone()]),
            2 => words.push(number(random, value)),
            3 => words.push(code.clone()),
            4 => words.push(random.pick(&ODD_WORDS).to_vec()),
            5 => words.push(b"$end".to_vec()),
            6 => words.extend(other_change(random, &code)),
            7 => words.push(random.pick(&DUMPS).to_vec()),
            _ => words.push(any_word(random)),
        }
    }
    let text = join(random, &words);
    Dump { text, code, places: random.below(4) }
}
