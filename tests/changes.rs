//! Request 8 of document 02, written from the papers alone: the text is split into words, the words are cut into declarations and commands, and every
//! fault of these is collected. The lowest one decides at the end. What the cuts make of the words behind the first fault does not matter.

use crate::reference::{self, Blocks, Loops, Refusal};

/// A recording as VCD, the code of the vector that is read, and the places of the lent buffer.
#[derive(Clone, Debug)]
pub struct Dump {
    pub text: Vec<u8>,
    pub code: Vec<u8>,
    pub places: usize,
}

/// Why a text is refused. All but the last are 432.
#[derive(Clone, Copy, Debug, PartialEq, Eq, PartialOrd, Ord)]
pub enum Reason {
    NoDeclaration,
    EndInVar,
    CodeInVar,
    Undeclared,
    NoEndOfDefinitions,
    OpenDeclaration,
    OpenComment,
    OpenDump,
    MissingCode,
    NoCommand,
    EndOutsideDump,
    NoChangeInDump,
    Time,
    Digits,
    ScalarCode,
    Code,
    NamedScalar,
    NamedReal,
    Unknown,
    TooLarge,
    NoPlace,
}

pub const REASONS: [(Reason, &str); 21] = [
    (Reason::NoDeclaration, "a word that is no keyword of a declaration"),
    (Reason::EndInVar, "$end among the three words after $var"),
    (Reason::CodeInVar, "a third word after $var that is no code"),
    (Reason::Undeclared, "$enddefinitions with the vector undeclared"),
    (Reason::NoEndOfDefinitions, "the end of the text before $enddefinitions"),
    (Reason::OpenDeclaration, "the end of the text in a declaration"),
    (Reason::OpenComment, "the end of the text in a comment"),
    (Reason::OpenDump, "the end of the text in a dump"),
    (Reason::MissingCode, "the end of the text before a code"),
    (Reason::NoCommand, "a word that starts no command"),
    (Reason::EndOutsideDump, "$end outside a dump"),
    (Reason::NoChangeInDump, "something else than a change in a dump"),
    (Reason::Time, "a time that is not one or more digits"),
    (Reason::Digits, "no digits after b or B, or others"),
    (Reason::ScalarCode, "no code in a scalar change"),
    (Reason::Code, "a word after a value that is no code"),
    (Reason::NamedScalar, "a scalar change of the vector"),
    (Reason::NamedReal, "a real change of the vector"),
    (Reason::Unknown, "an x or z digit in a change of the vector"),
    (Reason::TooLarge, "a value over 65,534"),
    (Reason::NoPlace, "a changed value with no place left"),
];

/// A fault of the text; of two at one place the lower number counts.
#[derive(Clone, Copy, PartialEq, Eq, PartialOrd, Ord)]
struct Fault {
    place: usize,
    number: u32,
    reason: Reason,
}

/// What a command after the declarations is, by its first word.
#[derive(Clone, Copy, Debug, PartialEq, Eq)]
pub enum Kind {
    Comment,
    Time,
    Dump,
    End,
    Scalar,
    Vector,
    Real,
    Other,
}

/// What a text says: the changed values, how many changes of the vector are written, and the commands.
#[derive(Clone, Debug, PartialEq, Eq)]
pub struct Changes {
    pub values: Vec<u16>,
    pub written: usize,
    pub commands: Vec<Kind>,
}

pub type Answer = Result<Changes, (Refusal, Option<Reason>)>;

/// A word of the text and the place of its first byte.
#[derive(Clone, Copy)]
struct Word<'a> {
    place: usize,
    bytes: &'a [u8],
}

/// A command: its first word, and the words after it that belong to it.
struct Command<'a> {
    kind: Kind,
    word: Word<'a>,
    rest: &'a [Word<'a>],
}

const DECLARATIONS: [&[u8]; 8] =
    [b"$comment", b"$date", b"$enddefinitions", b"$scope", b"$timescale", b"$upscope", b"$var", b"$version"];

/// The changed values of a recording, or 201 to 207, 431, 101, and 432 or 433 in this order.
pub fn vcd(blocks: &Blocks, loops: &Loops, dump: &Dump) -> Answer {
    let tables = reference::shape(blocks, loops)
        .and_then(|_| reference::lowest(431, blocks.cost.len(), |u| reference::successors(blocks, u).contains(&u)))
        .and_then(|()| if dump.text.len() > 65_536 { reference::refuse(101, 0) } else { Ok(()) });
    tables.map_err(|refusal| (refusal, None))?;
    read(dump).map_err(|fault| (Refusal { number: fault.number, place: fault.place as u32 }, Some(fault.reason)))
}

fn read(dump: &Dump) -> Result<Changes, Fault> {
    let length = dump.text.len();
    let words = words(&dump.text);
    let (declarations, rest) = declarations(&words);
    let commands = commands(rest);
    let mut faults: Vec<Fault> = definition_fault(&declarations, &dump.code, length).into_iter().collect();
    faults.extend(declarations.iter().flat_map(|part| declaration_faults(part, length)));
    faults.extend(commands.iter().flat_map(|command| command_faults(command, length)));
    faults.extend(dump_faults(&commands, length));
    let mut values = Vec::new();
    let named = commands.iter().filter(|command| code_of(command) == Some(&dump.code));
    for command in named {
        match value(command) {
            Ok(value) => values.push((value, command.word.place)),
            Err(reason) => faults.push(refused(command.word.place, reason)),
        }
    }
    let written = values.len();
    values.dedup_by_key(|(value, _)| *value);
    faults.extend(values.get(dump.places).map(|(_, place)| Fault { place: *place, number: 433, reason: Reason::NoPlace }));
    match faults.into_iter().min() {
        Some(fault) => Err(fault),
        None => Ok(Changes {
            values: values.into_iter().map(|(value, _)| value).collect(),
            written,
            commands: commands.iter().map(|command| command.kind).collect(),
        }),
    }
}

fn refused(place: usize, reason: Reason) -> Fault {
    Fault { place, number: 432, reason }
}

fn words(text: &[u8]) -> Vec<Word<'_>> {
    let mut place = 0;
    let pieces = text.split(|byte| matches!(byte, b' ' | b'\t' | b'\r' | b'\n'));
    let words = pieces.map(|bytes| {
        let word = Word { place, bytes };
        place += bytes.len() + 1;
        word
    });
    words.filter(|word| !word.bytes.is_empty()).collect()
}

fn is_end(word: &Word) -> bool {
    word.bytes == b"$end"
}

/// "A code is one or more of bytes 33 to 126 and never $end."
pub fn is_code(bytes: &[u8]) -> bool {
    !bytes.is_empty() && bytes != b"$end" && bytes.iter().all(|byte| (33..=126).contains(byte))
}

/// The declarations, each with its $end, and the words after $enddefinitions and its $end. Nothing else than $end ends a declaration, so they are the
/// parts between one $end and the next.
fn declarations<'a>(words: &'a [Word<'a>]) -> (Vec<&'a [Word<'a>]>, &'a [Word<'a>]) {
    let mut parts: Vec<&[Word]> = words.split_inclusive(is_end).collect();
    if let Some(last) = parts.iter().position(|part| part[0].bytes == b"$enddefinitions") {
        parts.truncate(last + 1);
    }
    let count = parts.iter().map(|part| part.len()).sum();
    (parts, &words[count..])
}

/// "$enddefinitions once and last, and a text without it ends too soon"; 432 is "$enddefinitions with that vector undeclared".
fn definition_fault(declarations: &[&[Word]], code: &[u8], length: usize) -> Option<Fault> {
    let declares = |part: &&[Word]| part[0].bytes == b"$var" && part.get(3).is_some_and(|word| word.bytes == code);
    match declarations {
        [before @ .., [word, ..]] if word.bytes == b"$enddefinitions" => {
            let declared = before.iter().any(declares);
            (!declared).then(|| refused(word.place, Reason::Undeclared))
        }
        _ => Some(refused(length, Reason::NoEndOfDefinitions)),
    }
}

fn declaration_faults(part: &[Word], length: usize) -> Vec<Fault> {
    let mut faults = Vec::new();
    if !DECLARATIONS.contains(&part[0].bytes) {
        faults.push(refused(part[0].place, Reason::NoDeclaration));
    }
    if part[0].bytes == b"$var" {
        // "the code is the third word after $var, and a $end among those three is not allowed"
        faults.extend(part.iter().take(4).filter(|word| is_end(word)).map(|word| refused(word.place, Reason::EndInVar)));
        faults.extend(part.get(3).filter(|word| !is_code(word.bytes) && !is_end(word)).map(|word| refused(word.place, Reason::CodeInVar)));
    }
    if !part.last().is_some_and(is_end) {
        faults.push(refused(length, Reason::OpenDeclaration));
    }
    faults
}

fn kind(word: &[u8]) -> Kind {
    match word {
        b"$comment" => Kind::Comment,
        b"$dumpall" | b"$dumpoff" | b"$dumpon" | b"$dumpvars" => Kind::Dump,
        b"$end" => Kind::End,
        [b'#', ..] => Kind::Time,
        [b'0' | b'1' | b'x' | b'X' | b'z' | b'Z', ..] => Kind::Scalar,
        [b'b' | b'B', ..] => Kind::Vector,
        [b'r' | b'R', ..] => Kind::Real,
        _ => Kind::Other,
    }
}

/// Cuts words into commands: a comment with all up to its $end, a vector or real value with the word after it, any other word alone.
fn commands<'a>(mut words: &'a [Word<'a>]) -> Vec<Command<'a>> {
    let mut commands = Vec::new();
    while let [word, after @ ..] = words {
        let kind = kind(word.bytes);
        let count = match kind {
            Kind::Comment => after.iter().position(is_end).map_or(after.len(), |end| end + 1),
            Kind::Vector | Kind::Real => after.len().min(1),
            _ => 0,
        };
        let (rest, next) = after.split_at(count);
        commands.push(Command { kind, word: *word, rest });
        words = next;
    }
    commands
}

/// The faults of a command by itself.
fn command_faults(command: &Command, length: usize) -> Vec<Fault> {
    let Command { kind, word, rest } = command;
    let inside = &word.bytes[1..];
    let is_wrong = |wrong: bool, reason: Reason| wrong.then(|| refused(word.place, reason));
    let first = match kind {
        Kind::Comment => (!rest.last().is_some_and(is_end)).then(|| refused(length, Reason::OpenComment)),
        Kind::Time => is_wrong(inside.is_empty() || !inside.iter().all(u8::is_ascii_digit), Reason::Time),
        Kind::Scalar => is_wrong(!is_code(inside), Reason::ScalarCode),
        Kind::Vector => is_wrong(inside.is_empty() || !inside.iter().all(|digit| b"01xXzZ".contains(digit)), Reason::Digits),
        Kind::Other => is_wrong(true, Reason::NoCommand),
        Kind::Dump | Kind::End | Kind::Real => None,
    };
    let code = match (kind, rest) {
        (Kind::Vector | Kind::Real, []) => Some(refused(length, Reason::MissingCode)),
        (Kind::Vector | Kind::Real, [code, ..]) if !is_code(code.bytes) => Some(refused(code.place, Reason::Code)),
        _ => None,
    };
    first.into_iter().chain(code).collect()
}

/// "A dump keyword and its $end are passed over; only changes may stand between": the commands are cut at each of the two, and a part stands in a dump
/// if the part before it ends with a dump keyword.
fn dump_faults(commands: &[Command], length: usize) -> Vec<Fault> {
    let is_mark = |command: &Command| matches!(command.kind, Kind::Dump | Kind::End);
    let parts: Vec<&[Command]> = commands.split_inclusive(is_mark).collect();
    let opens = |part: &[Command]| part.last().is_some_and(|command| command.kind == Kind::Dump);
    let mut faults = Vec::new();
    for (k, part) in parts.iter().enumerate() {
        let inside = k > 0 && opens(parts[k - 1]);
        faults.extend(part.iter().filter_map(|command| match command.kind {
            Kind::Comment | Kind::Time | Kind::Dump if inside => Some(refused(command.word.place, Reason::NoChangeInDump)),
            Kind::End if !inside => Some(refused(command.word.place, Reason::EndOutsideDump)),
            _ => None,
        }));
    }
    // no $end comes after the last dump keyword
    if commands.iter().rev().find(|command| is_mark(command)).is_some_and(|command| command.kind == Kind::Dump) {
        faults.push(refused(length, Reason::OpenDump));
    }
    faults
}

/// The code of a change.
fn code_of<'a>(command: &Command<'a>) -> Option<&'a [u8]> {
    match command.kind {
        Kind::Scalar => Some(&command.word.bytes[1..]),
        Kind::Vector | Kind::Real => command.rest.first().map(|code| code.bytes),
        _ => None,
    }
}

/// The value that a change gives the named vector.
fn value(command: &Command) -> Result<u16, Reason> {
    let digits = &command.word.bytes[1..];
    match command.kind {
        Kind::Scalar => Err(Reason::NamedScalar),
        Kind::Real => Err(Reason::NamedReal),
        _ if digits.iter().any(|digit| !b"01".contains(digit)) => Err(Reason::Unknown),
        _ => {
            let digits: String = digits.iter().skip_while(|digit| **digit == b'0').map(|digit| char::from(*digit)).collect();
            let value = u16::from_str_radix(&format!("0{digits}"), 2).ok();
            value.filter(|value| *value <= 65_534).ok_or(Reason::TooLarge)
        }
    }
}
