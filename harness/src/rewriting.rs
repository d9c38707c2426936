//! Books without STEP (document 02, wish 10): what must hold of a book that the library has rewritten, and edges of the stricter
//! reading and of rewriting. Of each edge it is said here what both answer.

use crate::calls::{accepted, expected, refused, Answer, Call, Operation, Outcome};
use crate::edges::Add;
use crate::library::{Against, Library};
use crate::reference::{self as paper, Refusal, BOOK_BYTES, RULE_MOVES};

/// How many calls were repeated by a rewritten book, and how many have a book that rewriting leaves as it is.
#[derive(Clone, Copy, Default)]
pub struct Tried {
    pub repeated: u64,
    pub same: u64,
}

impl Tried {
    pub fn add(&mut self, other: Tried) {
        self.repeated += other.repeated;
        self.same += other.same;
    }
}

/// The laws of rewritten books. The calls of a case share a book, so that the last one is kept.
#[derive(Default)]
pub struct Laws {
    book: Vec<u8>,
    rewritten: Rewritten,
    pub tried: Tried,
}

/// What the library makes of a book.
#[derive(Default)]
enum Rewritten {
    #[default]
    Refused,
    Same,
    Other(Vec<u8>),
}

impl Laws {
    /// Says how the library breaks a law with the book of a call, which leaves `outcome` by the library and the second alike.
    pub fn check(&mut self, library: &mut Library, call: &Call, outcome: &Outcome) -> Result<(), String> {
        if matches!(call.operation, Operation::LexBuiltin | Operation::Compile) {
            return Ok(());
        }
        let mut wanted = outcome.answer;
        if call.operation == Operation::ReadBookStrict {
            wanted = answer(library, &Call::read_book(&call.book))?;
            let strict = Answer(outcome.answer);
            if strict.0 != wanted && strict.number() != 33 {
                return Err(format!("read strictly: {strict}; read: {}", Answer(wanted)));
            }
        }
        if self.book != call.book {
            self.rewritten = rewritten(library, &call.book)?;
            self.book = call.book.clone();
        }
        let book = match &self.rewritten {
            Rewritten::Refused => return Ok(()),
            Rewritten::Same => {
                self.tried.same += 1;
                return Ok(());
            }
            Rewritten::Other(bytes) => bytes.clone(),
        };
        self.tried.repeated += 1;
        let again = library.run(&Call { book, ..call.clone() }, Against::Back)?;
        if again.answer != wanted {
            return Err(format!("by the rewritten book: {}; by the book: {}", Answer(again.answer), Answer(wanted)));
        }
        if again.buffers[1..] != outcome.buffers[1..] {
            return Err("by the rewritten book other bytes are written".to_string());
        }
        Ok(())
    }
}

/// Rewrites a book, and says where that breaks a law.
fn rewritten(library: &mut Library, book: &[u8]) -> Result<Rewritten, String> {
    let ordinary = Answer(answer(library, &Call::read_book(book))?);
    // a STEP of four bytes becomes five
    let mut outcome = library.run(&Call::rewrite_book(book, vec![0; book.len() / 4 * 5 + 3]), Against::Back)?;
    let rewriting = Answer(outcome.answer);
    if rewriting.number() != 0 {
        let too_long = ordinary.number() == 0 && rewriting.0 == 1 << 56;
        let as_read = rewriting == ordinary || too_long;
        return if as_read { Ok(Rewritten::Refused) } else { Err(format!("rewriting: {rewriting}; read: {ordinary}")) };
    }
    let mut bytes = outcome.buffers.swap_remove(1);
    bytes.truncate(rewriting.first() as usize);
    if paper::has_step(&bytes) {
        return Err("the rewritten book has a STEP".to_string());
    }
    if !paper::has_step(book) {
        return if bytes == book { Ok(Rewritten::Same) } else { Err("a book without STEP is changed".to_string()) };
    }
    for call in [Call::read_book(&bytes), Call::read_book_strict(&bytes)] {
        let said = Answer(answer(library, &call)?);
        if said != ordinary {
            return Err(format!("{} of the rewritten book: {said}; read: {ordinary}", call.operation.name()));
        }
    }
    for (index, rule) in paper::rules(book).into_iter().enumerate() {
        let named = accepted(paper::tag_of(rule) as usize, paper::is_separator(rule) as usize);
        if answer(library, &Call::rule(&bytes, index as u32))? != named {
            return Err(format!("rule {index} has another tag or kind in the rewritten book"));
        }
    }
    Ok(Rewritten::Other(bytes))
}

fn answer(library: &mut Library, call: &Call) -> Result<u64, String> {
    Ok(library.run(call, Against::Back)?.answer)
}

/// Lengths of an output for a rewritten book: just enough, more, a byte too few and none.
pub fn rooms(book: &[u8]) -> Vec<usize> {
    match paper::rewrite_book(book, usize::MAX) {
        Ok(bytes) => vec![bytes.len(), bytes.len() + 3, bytes.len() - 1, 0],
        Err(Refusal { number: 1, .. }) => vec![book.len() / 4 * 5 + 3, BOOK_BYTES, 100, 0],
        Err(_) => vec![book.len() + 8],
    }
}

/// The rewriting of a book with each room, and its stricter reading.
pub fn calls(book: &[u8]) -> Vec<Call> {
    let rewriting = rooms(book).into_iter().map(|room| Call::rewrite_book(book, vec![0xEE; room]));
    rewriting.chain([Call::read_book_strict(book)]).collect()
}

// ---- Edges

pub fn books(add: Add) {
    limits(add);
    too_long(add);
    orders(add);
    own_faults(add);
    codes(add);
    each_byte(add);
    sequences(add);
    lengths(add);
}

type Commands = Vec<Vec<u8>>;

fn refusal<T>(number: u8, place: usize) -> Result<T, Refusal> {
    Err(Refusal { number, place })
}

fn spanned(commands: &[Vec<u8>]) -> Vec<u8> {
    let span = |c: &Vec<u8>| match c[..] {
        [paper::STEP, from, byte, to] => vec![paper::SPAN, from, byte, byte, to],
        _ => c.clone(),
    };
    commands.iter().flat_map(span).collect()
}

/// The place of a command.
fn place(commands: &[Vec<u8>], at: usize) -> usize {
    commands[..at].iter().map(|c| c.len()).sum()
}

/// Adds both calls of a book, of which the second implementation must say this: read strictly its number of rules, rewritten these
/// bytes.
fn add_held(
    add: Add,
    name: &str,
    book: &[u8],
    strict: Result<usize, Refusal>,
    rewritten: Option<Result<&[u8], Refusal>>,
) {
    for call in calls(book) {
        let second = expected(&call);
        let said = match (call.operation, rewritten) {
            (Operation::ReadBookStrict, _) => strict.map(|rules| accepted(rules, 0)),
            (_, None) => Ok(second.answer),
            (_, Some(Ok(bytes))) if call.out.len() < bytes.len() => refusal(22, bytes.len()),
            (_, Some(Ok(bytes))) => {
                assert!(second.buffers[1].starts_with(bytes), "{name}");
                Ok(accepted(bytes.len(), 0))
            }
            (_, Some(Err(r))) => Err(r),
        };
        assert_eq!(second.answer, said.unwrap_or_else(refused), "{name}: {}", Answer(second.answer));
        add(name, call);
    }
}

/// Adds a book that the ordinary reading accepts: strictly it is refused at its first STEP.
fn add_accepted(add: Add, name: &str, commands: &[Vec<u8>]) {
    let rules = commands.iter().filter(|c| c[0] == paper::RULE).count();
    let first = commands.iter().position(|c| c[0] == paper::STEP);
    let strict = first.map_or(Ok(rules), |at| refusal(33, place(commands, at)));
    let bytes = spanned(commands);
    let rewritten = if bytes.len() > BOOK_BYTES { refusal(1, 0) } else { Ok(&bytes[..]) };
    add_held(add, name, &commands.concat(), strict, Some(rewritten));
}

fn head(tag: u8) -> Commands {
    vec![vec![paper::RULE, 0, tag, 0], vec![paper::START, 0], vec![paper::ERROR, 255]]
}

fn closed(mut commands: Commands, more: Commands) -> Commands {
    commands.extend(more);
    commands.push(vec![paper::CLOSE]);
    commands
}

/// A book of just so many bytes with so many STEPs, in rules before or behind one that is filled up by FINALs, and by a SPAN or a
/// wide FINAL where their number is odd.
fn sized(length: usize, steps: usize, before: bool) -> Commands {
    let all: Commands =
        (0..steps).map(|i| i % RULE_MOVES).map(|i| vec![paper::STEP, (i % 99) as u8, i as u8, 1]).collect();
    let parts = all.chunks(RULE_MOVES).enumerate();
    let with: Commands = parts.flat_map(|(k, part)| closed(head(k as u8 + 2), part.to_vec())).collect();
    // the rule that is filled up has nine bytes else, END one
    let left = length - place(&with, with.len()) - 9 - 1;
    let odd = if before { vec![paper::SPAN, 0, 0, 255, 1] } else { vec![paper::WIDE_FINAL, 15, 254] };
    let mut filling = if left % 2 == 1 { vec![odd] } else { Vec::new() };
    filling.extend(vec![vec![paper::FINAL, 1]; (left - filling.concat().len()) / 2]);
    let filled = closed(head(1), filling);
    let mut rules = if before { [with, filled] } else { [filled, with] }.concat();
    rules.push(vec![paper::END]);
    assert_eq!(place(&rules, rules.len()), length);
    rules
}

/// Books that rewriting makes as long as a book may be, and a byte or two on either side of it.
fn limits(add: Add) {
    for steps in [0, 1, 2, 511, 512, 513, 4_095, 4_096, 4_097, 13_000] {
        for grown in BOOK_BYTES - 2..=BOOK_BYTES + 2 {
            if grown - steps > BOOK_BYTES {
                continue;
            }
            for before in [false, true] {
                let name = format!("{steps} STEPs in a book that is rewritten to {grown} bytes");
                add_accepted(add, &name, &sized(grown - steps, steps, before));
            }
        }
        if steps > 0 {
            let name = format!("{steps} STEPs in a book of {BOOK_BYTES} bytes");
            add_accepted(add, &name, &sized(BOOK_BYTES, steps, true));
        }
    }
}

/// Books that are too long as they are, and refusals at the end of books that rewriting would make too long.
fn too_long(add: Add) {
    for steps in [0, 1, 13_000] {
        let book = sized(BOOK_BYTES + 1, steps, true).concat();
        let name = format!("{steps} STEPs in a book of {} bytes", book.len());
        add_held(add, &name, &book, refusal(1, 0), Some(refusal(1, 0)));
    }
    for (length, number) in [(BOOK_BYTES, 3), (BOOK_BYTES + 1, 1)] {
        let name = format!("nothing but STEP's code, {length} bytes");
        add_held(add, &name, &vec![paper::STEP; length], refusal(number, 0), Some(refusal(number, 0)));
    }
    let commands = sized(BOOK_BYTES - 2, 13_000, true);
    let (close, end) = (commands.len() - 2, commands.len() - 1);
    let bytes = place(&commands, end) + 1;
    let first = place(&commands, 3);
    let faults: [(&str, usize, Vec<u8>, u8, usize); 4] = [
        ("no END", end, vec![], 2, bytes - 1),
        ("a byte behind END", end, vec![paper::END, 0], 4, bytes),
        ("a final start", close, vec![paper::FINAL, 0, paper::CLOSE, paper::END], 12, bytes),
        ("a command that is none", close, vec![0, paper::CLOSE, paper::END], 3, bytes - 2),
    ];
    for (name, kept, tail, number, place) in faults {
        let book = [commands[..kept].concat(), tail].concat();
        let name = format!("{name} in a book that rewriting would make too long");
        add_held(add, &name, &book, refusal(33, first), Some(refusal(number, place)));
    }
}

/// A book without STEP, and what the ordinary reading says of it at which command.
struct Base {
    name: &'static str,
    commands: Commands,
    number: u8,
    at: usize,
}

/// Two rules, of short commands and of wide ones, and the refusals that can be made of them.
fn bases() -> Vec<Base> {
    use paper::{CLOSE, END, ERROR, FINAL, RULE, SPAN, START, WIDE_ERROR, WIDE_FINAL, WIDE_SPAN, WIDE_START};
    let sound: Commands = vec![
        vec![RULE, 0, 1, 0],
        vec![START, 0],
        vec![ERROR, 9],
        vec![FINAL, 1],
        vec![SPAN, 0, b'a', b'a', 1],
        vec![CLOSE],
        vec![RULE, 0, 2, 1],
        vec![WIDE_SPAN, 0, 0, b'b', b'c', 5, 5],
        vec![WIDE_START, 0, 0],
        vec![WIDE_FINAL, 5, 5],
        vec![WIDE_ERROR, 1, 9],
        vec![CLOSE],
        vec![END],
    ];
    let end = sound.len() - 1;
    let mut all = vec![Base { name: "no refusal", commands: sound.clone(), number: 0, at: end }];
    // with another command in front of the one of that number
    let mut more = |name, before: usize, command: &[u8], number, at| {
        let mut commands = sound.clone();
        commands.insert(before, command.to_vec());
        all.push(Base { name, commands, number, at });
    };
    more("no command", 4, &[0], 3, 4);
    more("no command", 4, &[13], 3, 4);
    more("no command between rules", 6, &[255], 3, 6);
    more("RULE in a rule", 4, &[RULE, 0, 3, 0], 3, 4);
    more("END in a rule", 4, &[END], 3, 4);
    more("START outside a rule", 6, &[START, 0], 3, 6);
    more("SPAN outside a rule", 6, &[SPAN, 0, b'z', b'z', 1], 3, 6);
    more("CLOSE outside a rule", 12, &[CLOSE], 3, 12);
    more("wide START outside a rule", 6, &[WIDE_START, 0, 0], 3, 6);
    more("wide SPAN outside a rule", 12, &[WIDE_SPAN, 0, 0, b'z', b'z', 0, 1], 3, 12);
    more("tag 0", 6, &[RULE, 0, 0, 0], 6, 6);
    more("a kind above 1", 6, &[RULE, 0, 3, 2], 6, 6);
    more("low above high", 4, &[SPAN, 0, 2, 1, 1], 6, 4);
    more("low above high in a wide SPAN", 4, &[WIDE_SPAN, 0, 0, 2, 1, 0, 1], 6, 4);
    more("a final state above 4,095", 4, &[WIDE_FINAL, 16, 0], 6, 4);
    more("a second START above 4,095", 4, &[WIDE_START, 16, 0], 6, 4);
    more("a move to a state above 4,095", 11, &[WIDE_SPAN, 0, 0, b'z', b'z', 255, 255], 6, 11);
    more("a tag again", 6, &[RULE, 0, 1, 0], 7, 6);
    more("a second START", 4, &[START, 0], 8, 4);
    more("a second ERROR", 4, &[ERROR, 9], 8, 4);
    more("a second START, a wide one", 4, &[WIDE_START, 0, 0], 8, 4);
    more("a second ERROR, a short one", 11, &[ERROR, 9], 8, 11);
    more("moves that overlap", 5, &[SPAN, 0, 0, 255, 1], 9, 6);
    more("a move from the error state", 5, &[SPAN, 9, b'a', b'a', 1], 10, 6);
    more("moves of both widths that overlap", 11, &[SPAN, 0, 0, 255, 1], 9, 12);
    more("a wide move from the error state", 5, &[WIDE_SPAN, 0, 9, b'a', b'a', 9, 9], 10, 6);
    more("a final error state of two bytes", 10, &[WIDE_FINAL, 1, 9], 11, 12);
    more("a final start, once wide", 11, &[FINAL, 0], 12, 12);
    more("a final error state", 4, &[FINAL, 9], 11, 6);
    more("a final start", 4, &[FINAL, 0], 12, 6);
    more("END before any rule", 0, &[END], 13, 0);
    more("a byte behind END", 13, &[0], 4, 12);
    more("a rule behind END", 13, &[RULE, 0, 3, 0], 4, 12);
    // without a command
    let mut fewer = |name, without: usize, number, at| {
        let mut commands = sound.clone();
        commands.remove(without);
        all.push(Base { name, commands, number, at });
    };
    fewer("no START", 1, 8, 4);
    fewer("no ERROR", 10, 8, 10);
    fewer("no CLOSE", 5, 3, 5);
    fewer("no CLOSE at the end", 11, 3, 11);
    fewer("no END", end, 2, end);
    // cut off within a command
    for (at, command) in sound.iter().enumerate() {
        for kept in 1..command.len() {
            let commands = [&sound[..at], &[command[..kept].to_vec()]].concat();
            all.push(Base { name: "a command cut off", commands, number: 2, at });
        }
    }
    let mut many: Commands = (1..=32).flat_map(|tag| closed(head(tag), Vec::new())).collect();
    many.push(vec![RULE, 0, 33, 0]);
    let at = many.len() - 1;
    all.push(Base { name: "a 33rd rule", commands: many, number: 5, at });
    all
}

/// A STEP, and each beginning of it, in front of each command: inside a rule it is 33, outside 3, but not behind a refusal.
fn orders(add: Add) {
    let step = [paper::STEP, 200, b'z', 201];
    for Base { name, commands, number, at } in bases() {
        // behind a command that is cut off there is none
        let last = if number == 2 { at } else { at + 1 };
        for i in (0..=last).filter(|&i| i < 16 || i + 16 > last) {
            let p = place(&commands, i);
            let opened = commands[..i].iter().rev().find(|c| matches!(c[0], paper::RULE | paper::CLOSE));
            let inside = opened.is_some_and(|c| c[0] == paper::RULE);
            let answered = place(&commands, at) + (number == 4) as usize;
            let behind = match (i > at, number) {
                (true, 0) => Some((4, p)),
                (true, _) => Some((number, answered)),
                (false, _) if !inside => Some((3, p)),
                _ => None,
            };
            for n in 1..=4 {
                for cut in [true, false] {
                    let begun = [&commands[..i], &[step[..n].to_vec()]].concat();
                    let whole = if cut { begun.clone() } else { [&begun, &commands[i..]].concat() };
                    let book = whole.concat();
                    let rest = if cut { "and no more" } else { "and the rest" };
                    let name = format!("{name}, {n} bytes of a STEP before command {i} {rest}");
                    if let Some((number, place)) = behind {
                        add_held(add, &name, &book, refusal(number, place), Some(refusal(number, place)));
                        continue;
                    }
                    let bytes = spanned(&whole);
                    let ordinary = match (n, cut) {
                        (4, true) => Some(refusal(2, book.len())),
                        (4, false) if number == 0 => Some(Ok(&bytes[..])),
                        (4, false) => Some(refusal(number, answered + 4)),
                        (_, true) => Some(refusal(2, p)),
                        // what follows is read as operands
                        (_, false) => None,
                    };
                    add_held(add, &name, &book, refusal(33, p), ordinary);
                }
            }
        }
    }
}

/// A STEP that the ordinary reading refuses, there or at CLOSE; the first of several.
fn own_faults(add: Add) {
    let step = |from: usize, byte: usize| vec![paper::STEP, from as u8, byte as u8, 1];
    let span = |from: usize, byte: usize| vec![paper::SPAN, from as u8, byte as u8, byte as u8, 1];
    let spans = |count: usize| -> Commands { (0..count).map(|i| span(i / 256, i)).collect() };
    let wide = |from: usize, byte: usize| vec![paper::WIDE_SPAN, 0, from as u8, byte as u8, byte as u8, 15, 1];
    // what stands in the rule, and the numbers of the commands that are refused
    let (many, last) = (RULE_MOVES, RULE_MOVES / 256);
    let faults: [(&str, Commands, u8, usize, usize); 9] = [
        ("a STEP that overlaps a SPAN", vec![span(0, 7), step(0, 7)], 9, 4, 5),
        ("a SPAN that overlaps a STEP", vec![step(0, 7), span(0, 7)], 9, 3, 5),
        ("a STEP that overlaps a wide SPAN", vec![wide(0, 7), step(0, 7)], 9, 4, 5),
        ("a wide SPAN that overlaps a STEP", vec![step(0, 7), wide(0, 7)], 9, 3, 5),
        ("a STEP twice", vec![span(1, 1), step(0, 7), step(0, 7)], 9, 4, 6),
        ("a STEP from the error state", vec![step(255, 7)], 10, 3, 4),
        ("a STEP as the 4,097th move", [spans(many), vec![step(last, 0)]].concat(), 5, 3 + many, 3 + many),
        (
            "a SPAN as the 4,097th move",
            [spans(many - 2), vec![step(last, 0)], spans(2)].concat(),
            5,
            1 + many,
            3 + many,
        ),
        (
            "a wide SPAN as the 4,097th move",
            [spans(many - 1), vec![step(last, 0), wide(last, 1)]].concat(),
            5,
            2 + many,
            3 + many,
        ),
    ];
    for (name, more, number, strict, ordinary) in faults {
        let mut commands = closed(head(1), more);
        commands.push(vec![paper::END]);
        let (strict, ordinary) = (place(&commands, strict), place(&commands, ordinary));
        add_held(add, name, &commands.concat(), refusal(33, strict), Some(refusal(number, ordinary)));
    }
    for n in 1..4 {
        let book = [closed(head(1), vec![])[..3].concat(), spans(many).concat(), step(last, 0)[..n].to_vec()].concat();
        let at = book.len() - n;
        add_held(add, "the 4,097th move, a STEP that is cut off", &book, refusal(33, at), Some(refusal(2, at)));
    }
    let mut full = closed(head(1), [spans(many - 1), vec![step(last, 0)]].concat());
    full.push(vec![paper::END]);
    add_accepted(add, "a STEP as the 4,096th move", &full);
}

/// The codes of commands as operands.
fn codes(add: Add) {
    use paper::{CLOSE, END, ERROR, FINAL, RULE, SPAN, START, STEP, WIDE_ERROR, WIDE_FINAL, WIDE_SPAN, WIDE_START};
    for code in RULE..=WIDE_SPAN {
        let other = code ^ 8;
        let commands = vec![
            vec![RULE, code, code, 1],
            vec![FINAL, other],
            vec![START, code],
            vec![SPAN, code, code, code, other],
            vec![ERROR, 255],
            vec![SPAN, other, code, code + 3, code],
            vec![CLOSE],
            vec![END],
        ];
        add_accepted(add, &format!("operands of {code:02X}, no STEP"), &commands);
        let mut stepped = commands.clone();
        stepped[3] = vec![STEP, code, code, other];
        add_accepted(add, &format!("operands of {code:02X}, a STEP"), &stepped);
        stepped.insert(4, vec![STEP, other, code + 4, code]);
        add_accepted(add, &format!("operands of {code:02X}, two STEPs"), &stepped);
        for step in [STEP, code] {
            let start = other.max(1);
            let wide = vec![
                vec![RULE, code, step, 1],
                vec![WIDE_FINAL, code, step],
                vec![WIDE_SPAN, step, code, code, code, code, step],
                vec![WIDE_START, start, code],
                vec![WIDE_SPAN, start, code, step, step, code, step],
                vec![WIDE_ERROR, 0, code],
                vec![WIDE_FINAL, step, 200],
            ];
            for at in 0..=wide.len() {
                let mut commands = wide.clone();
                if at > 0 {
                    commands.insert(at, vec![STEP, 200, step, code]);
                }
                commands.extend([vec![CLOSE], vec![END]]);
                add_accepted(add, &format!("wide operands of {code:02X} and {step:02X}"), &commands);
            }
        }
    }
}

/// Each byte as each operand of a STEP, and in wide commands.
fn each_byte(add: Add) {
    for byte in 0..=255u8 {
        let [a, b, c, d] = [0, 1, 2, 3].map(|n| byte.wrapping_add(n));
        for (from, at, to) in [(a, b, c), (b, c, a), (c, a, b)] {
            let more = vec![vec![paper::STEP, from, at, to], vec![paper::FINAL, to]];
            let rule = vec![vec![paper::RULE, 0, 1, 0], vec![paper::START, from], vec![paper::ERROR, d]];
            let mut commands = closed(rule, more);
            commands.push(vec![paper::END]);
            add_accepted(add, &format!("a STEP of {from:02X} {at:02X} {to:02X}"), &commands);
        }
        // and of the wide commands, a high byte up to 15
        for high in [0, byte % 16] {
            let [start, error, end] = [0, 5, 10].map(|n| [(high + n) % 16, byte]);
            let commands = vec![
                vec![paper::RULE, 0, 1, 0],
                vec![paper::WIDE_START, start[0], start[1]],
                vec![paper::STEP, 1, byte ^ 16, 2],
                vec![paper::WIDE_ERROR, error[0], error[1]],
                vec![paper::WIDE_SPAN, start[0], start[1], byte, byte | 15, end[0], end[1]],
                vec![paper::STEP, 3, byte ^ 16, 4],
                vec![paper::WIDE_FINAL, end[0], end[1]],
                vec![paper::CLOSE],
                vec![paper::END],
            ];
            add_accepted(add, &format!("wide commands of {byte:02X}"), &commands);
        }
    }
}

/// Every sequence of up to five of FINAL, STEP and SPAN, and of up to four of these and the wide ones, as one rule and over two.
fn sequences(add: Add) {
    let command = |kind: usize, k: usize| match kind {
        0 => vec![paper::FINAL, 1],
        1 => vec![paper::STEP, 0, 8 * k as u8, 1],
        2 => vec![paper::SPAN, 0, 8 * k as u8, 8 * k as u8 + 5, 1],
        3 => vec![paper::WIDE_FINAL, 5, 1],
        _ => vec![paper::WIDE_SPAN, 0, 0, 8 * k as u8, 8 * k as u8 + 5, 5, 1],
    };
    for (kinds, lengths) in [(3usize, 5..=5), (5, 0..=4)] {
        for length in lengths {
            for number in 0..kinds.pow(length) {
                let all: Commands = (0..length).map(|k| command(number / kinds.pow(k) % kinds, k as usize)).collect();
                let half = all.len() / 2;
                for rules in [vec![&all[..]], vec![&all[..half], &all[half..]]] {
                    let tags = 1..=rules.len() as u8;
                    let closed = tags.zip(rules).flat_map(|(tag, rule)| closed(head(tag), rule.to_vec()));
                    let commands: Commands = closed.chain([vec![paper::END]]).collect();
                    add_accepted(add, &format!("a sequence of {length} commands"), &commands);
                }
            }
        }
    }
}

/// So many bytes between two STEPs, and behind them.
fn lengths(add: Add) {
    for count in (0..=140).filter(|n| ![1, 3].contains(n)) {
        let run = |from: u8| -> Commands {
            let odd = count % 2;
            let mut run = vec![vec![paper::FINAL, 1]; (count - 5 * odd) / 2];
            run.extend(vec![vec![paper::SPAN, from, 0, 9, 1]; odd]);
            run
        };
        // seven bytes for a wide SPAN where they are there, and three for a wide FINAL
        let wide_run = |from: u8| -> Commands {
            let spans = (count >= 7 && count != 8) as usize;
            let left = count - 7 * spans;
            let mut run = vec![vec![paper::WIDE_SPAN, 15, from, 0, 9, 4, 5]; spans];
            run.extend(vec![vec![paper::WIDE_FINAL, 5, 5]; if left % 3 == 1 { left / 3 - 1 } else { left / 3 }]);
            run.extend(vec![vec![paper::FINAL, 1]; [0, 2, 1][left % 3]]);
            run
        };
        let step = |byte| vec![vec![paper::STEP, 0, byte, 1]];
        for (one, other) in [(run(1), run(2)), (wide_run(1), wide_run(2))] {
            let more = [step(b'a'), one, step(b'b'), other].concat();
            let mut commands = closed(head(1), more);
            commands.push(vec![paper::END]);
            add_accepted(add, &format!("{count} bytes between STEPs"), &commands);
        }
    }
}
