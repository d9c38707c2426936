//! Rules of expressions (document 02, wish 9): what must hold of the library's other calls on a rule that it has made, and random
//! expressions.

use crate::calls::{accepted, refused, Answer, Call, Operation, Outcome};
use crate::expressions::{self, is_listed, is_ordinary, Tree, SETS, SPECIAL};
use crate::library::{Against, Library};
use crate::random::Random;
use crate::reference::{self as paper, Reading, Record, BOOK_BYTES, RULE_MOVES};

/// How many rules were read as a book, and cut a text with how many tokens; how many were refused for their bytes, for their moves
/// and for the empty string.
#[derive(Clone, Copy, Default)]
pub struct Tried {
    pub rules: u64,
    pub tokens: u64,
    pub too_long: u64,
    pub too_many: u64,
    pub empty: u64,
}

impl Tried {
    pub fn add(&mut self, other: Tried) {
        self.rules += other.rules;
        self.tokens += other.tokens;
        self.too_long += other.too_long;
        self.too_many += other.too_many;
        self.empty += other.empty;
    }

    /// Says how the library breaks a law with the rule of an accepted call.
    pub fn check(&mut self, library: &mut Library, call: &Call, outcome: &Outcome) -> Result<(), String> {
        let answer = Answer(outcome.answer);
        if call.operation != Operation::Compile || answer.number() != 0 {
            return Ok(());
        }
        let mut book = outcome.buffers[1][..answer.first() as usize].to_vec();
        book.push(paper::END);
        let tree = expressions::tree(&call.text).expect("it is accepted");
        let number = if book.len() > BOOK_BYTES {
            self.too_long += 1;
            1
        } else if paper::moves(&book).len() > RULE_MOVES {
            self.too_many += 1;
            5
        } else if expressions::matches(&tree, b"") {
            self.empty += 1;
            12
        } else {
            self.rules += 1;
            0
        };
        let due = paper::read_book(&book, Reading::Ordinary).map_or_else(refused, |rules| accepted(rules, 0));
        if Answer(due).number() != number || (number == 0 && due != accepted(1, 0)) {
            return Err(format!("the second implementation reads it as {}, where {number} is due", Answer(due)));
        }
        for reading in [Call::read_book(&book), Call::read_book_strict(&book)] {
            let said = library.run(&reading, Against::Back)?.answer;
            if said != due {
                let name = reading.operation.name();
                return Err(format!("{name} of the rule: {}, where {} is due", Answer(said), Answer(due)));
            }
        }
        if number != 0 {
            return Ok(());
        }
        let named = library.run(&Call::rule(&book, 0), Against::Back)?.answer;
        if named != accepted(call.tag as usize, call.kind as usize) {
            return Err(format!("its tag and kind: {}", Answer(named)));
        }
        let mut r =
            Random::of(call.text.iter().fold(0, |sum, &b| sum * 31 % 0xFFFF_FFFB + b as u64), book.len() as u64);
        (0..3).try_for_each(|_| self.cuts(library, call, &book, &text(&mut r, &tree), &tree))
    }

    /// A text by the rule is cut as the tree says: at each place the longest string that it matches.
    fn cuts(
        &mut self,
        library: &mut Library,
        call: &Call,
        book: &[u8],
        text: &[u8],
        tree: &Tree,
    ) -> Result<(), String> {
        let mut due: Vec<u8> = Vec::new();
        let (mut place, mut tokens) = (0, 0);
        while let Some(length) = expressions::longest(tree, &text[place..]).filter(|&n| n > 0) {
            due.extend(Record { tag: call.tag, place: place as u32, length: length as u32 }.to_bytes());
            tokens += 1;
            place += length;
        }
        let lent = Call::lex(book, text, vec![0; due.len()], vec![0; tokens * paper::MASK_BYTES]);
        let cut = library.run(&lent, Against::Back)?;
        let (records, masks) = cut.cut();
        if cut.answer != accepted(tokens, place) || records != due || *masks != [0, 0, 0, 1].repeat(tokens) {
            let due = Answer(accepted(tokens, place));
            return Err(format!("{text:?} by the rule: {}, where {due} is due, or other tokens", Answer(cut.answer)));
        }
        self.tokens += tokens as u64;
        Ok(())
    }
}

/// A string that an expression matches.
fn word(r: &mut Random, tree: &Tree, into: &mut Vec<u8>) {
    match tree {
        Tree::Position(_, bytes) => {
            let all: Vec<u8> = (0..=255).filter(|&b| bytes[b as usize]).collect();
            into.push(*r.pick(&all));
        }
        Tree::Sequence(pieces) => pieces.iter().for_each(|piece| word(r, piece, into)),
        Tree::Alternatives(sequences) => {
            let sequence = r.pick(sequences);
            word(r, sequence, into)
        }
        Tree::Repeated(piece, how) => {
            let times = match how {
                b'?' => r.from(0, 1),
                b'+' => r.from(1, 3),
                _ => r.from(0, 3),
            };
            (0..times).for_each(|_| word(r, piece, into));
        }
    }
}

/// Words of an expression and stray bytes.
fn text(r: &mut Random, tree: &Tree) -> Vec<u8> {
    let mut text = Vec::new();
    for _ in 0..r.from(1, 4) {
        word(r, tree, &mut text);
        text.truncate(200);
        if r.once_in(4) && !text.is_empty() {
            let at = r.below(text.len());
            text[at] = if r.once_in(2) { r.byte() } else { *r.pick(b"abc\n") };
        }
    }
    text
}

// ---- Random expressions

/// The calls of a case: a right expression, one that is damaged, and now and then one around a limit.
pub fn calls(r: &mut Random) -> Vec<Call> {
    let right = expression(r);
    let wrong = damaged(r, &right);
    let mut texts = vec![right, wrong];
    if r.once_in(12) {
        let around = around_a_limit(r);
        texts.push(if r.once_in(3) { damaged(r, &around) } else { around });
    }
    texts.into_iter().map(|text| call(r, &text)).collect()
}

fn call(r: &mut Random, text: &[u8]) -> Call {
    let any = r.from(1, 65_535) as u16;
    let tag = if r.once_in(20) { 0 } else { *r.pick(&[1, 2, 255, 256, 65_535, any]) };
    let kind = if r.once_in(20) { *r.pick(&[2, 255, 256, 1 << 16, u32::MAX]) } else { r.below(2) as u32 };
    let need = match expressions::compile(tag, kind, text, usize::MAX) {
        Ok(bytes) => bytes.len(),
        Err(_) => r.below(40),
    };
    let room = match r.below(8) {
        0..=3 => need,
        4 => need.saturating_sub(1),
        5 => r.from(0, need),
        _ => need + r.from(0, 20),
    };
    Call::compile(tag, kind, text, r.bytes(room))
}

/// A right expression of any shape.
pub fn expression(r: &mut Random) -> Vec<u8> {
    let mut letters: Vec<u8> = b"ab".to_vec();
    for _ in 0..r.below(3) {
        let byte = r.byte();
        letters.push(if is_ordinary(byte) { byte } else { b'c' });
    }
    let depth = if r.once_in(8) { r.from(2, 4) } else { r.below(2) };
    alternatives(r, &letters, depth)
}

fn alternatives(r: &mut Random, letters: &[u8], depth: usize) -> Vec<u8> {
    let count = if r.once_in(3) { r.from(2, 3) } else { 1 };
    let sequences: Vec<Vec<u8>> = (0..count).map(|_| sequence(r, letters, depth)).collect();
    sequences.join(&b'|')
}

fn sequence(r: &mut Random, letters: &[u8], depth: usize) -> Vec<u8> {
    let mut text = Vec::new();
    for _ in 0..r.from(1, 3) {
        text.extend(piece(r, letters, depth));
        if r.once_in(3) {
            text.push(*r.pick(b"*+?"));
        }
    }
    text
}

fn piece(r: &mut Random, letters: &[u8], depth: usize) -> Vec<u8> {
    match r.below(16) {
        0 | 1 => {
            let byte = r.from(1, 255) as u8;
            if SPECIAL.contains(&byte) {
                vec![b'\\', byte]
            } else {
                vec![byte]
            }
        }
        2 => vec![b'\\', *r.pick(SPECIAL)],
        3 => vec![b'.'],
        4..=6 => list(r, letters),
        7..=9 if depth > 0 => [b"(", &alternatives(r, letters, depth - 1)[..], b")"].concat(),
        _ => vec![*r.pick(letters)],
    }
}

fn list(r: &mut Random, letters: &[u8]) -> Vec<u8> {
    let mut text = vec![b'['];
    for _ in 0..r.from(1, 4) {
        let mut byte = || loop {
            let byte = if r.once_in(2) { *r.pick(letters) } else { r.byte() };
            if is_listed(byte) {
                return byte;
            }
        };
        let (one, other) = (byte(), byte());
        if r.once_in(3) {
            text.extend([one.min(other), b'-', one.max(other)]);
        } else {
            text.push(one);
        }
    }
    text.push(b']');
    text
}

/// An expression with a byte or two changed, lost, doubled or put in.
fn damaged(r: &mut Random, text: &[u8]) -> Vec<u8> {
    const TELLING: &[u8] = b"()[]|*+?.\\-^${}a\0\n";
    let mut text = text.to_vec();
    for _ in 0..r.from(1, 2) {
        let byte = if r.once_in(4) { r.byte() } else { *r.pick(TELLING) };
        let at = r.below(text.len() + 1);
        match r.below(5) {
            0 => text.insert(at, byte),
            1 if at < text.len() => text.insert(at, text[at]),
            2 if at < text.len() => {
                text.remove(at);
            }
            3 if r.once_in(2) => text.truncate(at),
            _ if at < text.len() => text[at] = byte,
            _ => text.push(byte),
        }
    }
    text
}

/// Around 64 positions, a depth of 16, 512 bytes, 254 sets, 4,096 moves or a book of 65,536 bytes.
fn around_a_limit(r: &mut Random) -> Vec<u8> {
    match r.below(20) {
        0..=4 => {
            let one: [&[u8]; 6] = [b"a", b"b", b".", b"[a-c]", b"\\.", b"(a)"];
            let count = r.from(62, 67);
            let mut pieces: Vec<&[u8]> = (0..count).map(|_| *r.pick(&one)).collect();
            let at = r.below(count - 1);
            let both = [pieces[at], b"|", pieces[at + 1]].concat();
            pieces.splice(at..at + 2, [&both[..]]);
            pieces.concat()
        }
        5..=9 => {
            let depth = r.from(14, 18);
            let mut text = b"a".to_vec();
            for _ in 0..depth {
                text = [b"(", &text[..], b")"].concat();
                match r.below(4) {
                    0 => text.push(*r.pick(b"*+?")),
                    1 => text.extend(b"|b"),
                    2 => text.insert(0, b'c'),
                    _ => (),
                }
            }
            text
        }
        10..=13 => {
            let length = r.from(509, 515);
            let mut text = [b"[", &listed(b'!', 120)[..], b"]"].concat();
            while text.len() < length {
                let front = r.once_in(2);
                text = if front { [b"(", &text[..], b")"].concat() } else { [&text[..], b"[aaaaaaaaaaaaaa]"].concat() };
            }
            text.truncate(length - 1);
            text.push(b'a');
            text
        }
        14..=17 => {
            let count = r.from(SETS - 3, SETS + 3);
            let mut parts = parts_of_sets(count);
            r.shuffle(&mut parts);
            parts.join(&b'|')
        }
        18 => with_moves(r.from(RULE_MOVES - 3, RULE_MOVES + 3)),
        _ => as_long_as(r.from(BOOK_BYTES - 3, BOOK_BYTES + 3)),
    }
}

/// So many list bytes no two of which follow each other, from one on.
fn listed(first: u8, count: usize) -> Vec<u8> {
    (first..=255).step_by(2).filter(|&b| is_listed(b)).take(count).collect()
}

/// Alternatives with so many sets together. They begin with different bytes, so that no set has positions of two of them; each
/// but the last has two to some power: all sets of the bytes behind an a among the last few.
pub fn parts_of_sets(count: usize) -> Vec<Vec<u8>> {
    let mut parts = Vec::new();
    for power in (1..9).filter(|power| count >> power & 1 == 1) {
        let (a, b) = (b'a' + 2 * power as u8, b'b' + 2 * power as u8);
        let either = [b'[', a, b, b']'];
        let behind = either.repeat(power - 1);
        parts.push([&either[..], b"*", &[a], &behind].concat());
    }
    parts.extend((count & 1 == 1).then(|| b"!".to_vec()));
    parts
}

/// An expression with many moves from each of its sets, and with so many others that come from 0A alone, some of them in a chain
/// of bytes whose last few may be left out.
struct Broad {
    base: Vec<u8>,
    moves: usize,
    finals: usize,
}

impl Broad {
    /// Every other byte of so many as the one that stands so many places before the last.
    fn of(count: usize, places: usize) -> Broad {
        let base = [b".*[", &listed(0x0C, count)[..], b"]", &vec![b'.'; places]].concat();
        let table = expressions::table(1, 0, &base).expect("it is no larger than an expression may be");
        let finals = table.finals.iter().filter(|f| **f).count();
        Broad { moves: table.spans().len(), finals, base }
    }

    /// One with fewer moves than wanted, but not by more than can be added.
    fn below(moves: usize, places: usize) -> Broad {
        // two moves for each of the bytes, from each of the sets
        let most = moves / (4 << places) + 1;
        let fits = |broad: &Broad| broad.moves + 10 <= moves;
        (0..=most.min(118)).rev().map(|count| Broad::of(count, places)).find(fits).expect("few moves")
    }

    /// So many moves, and the last `optional` bytes of the chain as ones that may be left out.
    fn text(&self, moves: usize, optional: usize) -> Vec<u8> {
        let more = moves - self.moves - 1 - optional;
        let listed = listed(0x0C, more.min(118));
        let mut tail = b"|\n".to_vec();
        if !listed.is_empty() {
            tail.extend([b"[", &listed[..], b"]"].concat());
        }
        tail.extend(vec![b'a'; more - listed.len()]);
        tail.extend(b"(b".repeat(optional));
        tail.extend(b")?".repeat(optional));
        [&self.base[..], &tail].concat()
    }
}

/// An expression whose rule has so many moves, about 4,096.
pub fn with_moves(moves: usize) -> Vec<u8> {
    Broad::below(moves, 3).text(moves, 0)
}

/// One whose rule is a book of so many bytes, about 65,536.
pub fn as_long_as(book: usize) -> Vec<u8> {
    // RULE, START, ERROR, CLOSE and END take ten bytes, a FINAL two, a SPAN five
    let most = (book - 10) / 5;
    let broad = Broad::below(most - 30, 5);
    let fits = |optional: &usize| (book - 10 - 2 * (broad.finals + 1 + optional)) % 5 == 0;
    let optional = (0..5).find(fits).expect("two has no divisor in common with five");
    broad.text((book - 10 - 2 * (broad.finals + 1 + optional)) / 5, optional)
}
