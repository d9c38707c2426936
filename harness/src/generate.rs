//! Random books, texts, lists and buffers, valid and damaged.

use crate::calls::{self, Answer, Call, Operation};
use crate::compiling;
use crate::random::Random;
use crate::reference::{self as paper, Command, Move, Record, Width};
use crate::rewriting;
use std::collections::{BTreeMap, BTreeSet};

/// A rule as its parts, from which its commands are written.
#[derive(Clone)]
pub struct Rule {
    pub tag: u16,
    pub kind: u8,
    pub start: u16,
    pub error: u16,
    pub finals: Vec<u16>,
    pub moves: Vec<Move>,
}

/// The shortest command of a move.
pub fn move_command((from, low, high, to): Move) -> Command {
    match (u8::try_from(from), u8::try_from(to)) {
        (Ok(from), Ok(to)) if low == high => Command::Step { from, byte: low, to },
        (Ok(_), Ok(_)) => Command::Span { width: Width::Short, from, low, high, to },
        _ => Command::Span { width: Width::Wide, from, low, high, to },
    }
}

impl Rule {
    /// Its commands, the short ones wherever they serve.
    fn parts(&self) -> Vec<Command> {
        let width = |s: u16| if s < 256 { Width::Short } else { Width::Wide };
        let mut all = vec![
            Command::Rule { tag: self.tag, kind: self.kind },
            Command::Start(width(self.start), self.start),
            Command::Error(width(self.error), self.error),
        ];
        all.extend(self.finals.iter().map(|&s| Command::Final(width(s), s)));
        all.extend(self.moves.iter().copied().map(move_command));
        all.push(Command::Close);
        all
    }

    pub fn commands(&self) -> Vec<Vec<u8>> {
        self.parts().into_iter().map(Command::bytes).collect()
    }

    /// The states under other names.
    pub fn renamed(mut self, name: impl Fn(u16) -> u16) -> Rule {
        self.start = name(self.start);
        self.error = name(self.error);
        self.finals.iter_mut().for_each(|s| *s = name(*s));
        self.moves.iter_mut().for_each(|m| (m.0, m.3) = (name(m.0), name(m.3)));
        self
    }

    fn target(&self, state: u16, byte: u8) -> u16 {
        self.moves.iter().find(|m| m.0 == state && m.1 <= byte && byte <= m.2).map_or(self.error, |m| m.3)
    }

    /// A byte string that the rule matches, found by walking at random; often the walk finds none.
    pub fn word(&self, r: &mut Random, longest: usize) -> Option<Vec<u8>> {
        let mut state = self.start;
        let mut word = Vec::new();
        let mut best = None;
        for _ in 0..longest {
            let leaving: Vec<_> = self.moves.iter().filter(|m| m.0 == state && m.3 != self.error).collect();
            if leaving.is_empty() {
                break;
            }
            let m = r.pick(&leaving);
            word.push(r.from(m.1 as usize, m.2 as usize) as u8);
            state = m.3;
            if self.finals.contains(&state) {
                best = Some(word.clone());
                if r.once_in(3) {
                    break;
                }
            }
        }
        best
    }
}

/// A book as its rules.
#[derive(Clone)]
pub struct Book {
    pub rules: Vec<Rule>,
}

impl Book {
    pub fn commands(&self) -> Vec<Vec<u8>> {
        let mut all: Vec<Vec<u8>> = self.rules.iter().flat_map(|r| r.commands()).collect();
        all.push(vec![paper::END]);
        all
    }

    pub fn bytes(&self) -> Vec<u8> {
        self.commands().concat()
    }
}

/// The bytes that the rules of a book are about.
pub struct Alphabet {
    plain: Vec<u8>,
    separators: Vec<u8>,
}

impl Alphabet {
    fn random(r: &mut Random) -> Alphabet {
        let (plain, separators): (Vec<u8>, Vec<u8>) = match r.below(6) {
            0..=2 => (b"abcd"[..r.from(1, 4)].to_vec(), b" _"[..r.from(1, 2)].to_vec()),
            3 => (vec![0, 1, 2, 255], vec![127, 128]),
            4 => (vec![b'a', b'b', b' '], vec![b' ', b'_']),
            _ => (r.bytes(3), r.bytes(2)),
        };
        Alphabet { plain, separators }
    }

    fn of(&self, kind: u8) -> Vec<u8> {
        let mut bytes = if kind == 1 { self.separators.clone() } else { self.plain.clone() };
        bytes.sort_unstable();
        bytes.dedup();
        bytes
    }

    fn any(&self, r: &mut Random) -> u8 {
        if r.once_in(4) {
            *r.pick(&self.separators)
        } else {
            *r.pick(&self.plain)
        }
    }
}

// ---- Rules

/// A rule that matches a few words: its states are their beginnings, so that walks go on through states that are not final.
fn words_rule(r: &mut Random, letters: &[u8]) -> Rule {
    let mut rule = empty_rule();
    let mut states: Vec<Vec<u8>> = vec![Vec::new()];
    for _ in 0..r.from(1, 4) {
        let word: Vec<u8> = (0..r.from(1, 5)).map(|_| *r.pick(letters)).collect();
        for n in 1..=word.len() {
            if states.iter().any(|s| s == &word[..n]) {
                continue;
            }
            let from = states.iter().position(|s| s == &word[..n - 1]).expect("its beginning is there");
            rule.moves.push((from as u16, word[n - 1], word[n - 1], states.len() as u16));
            states.push(word[..n].to_vec());
        }
        let end = states.iter().position(|s| *s == word).expect("the word is there");
        rule.finals.push(end as u16);
    }
    rule.error = states.len() as u16;
    if r.once_in(3) {
        let state = r.from(1, states.len() - 1) as u16;
        let byte = *r.pick(letters);
        if rule.target(state, byte) == rule.error {
            rule.moves.push((state, byte, byte, r.from(1, states.len() - 1) as u16));
        }
    }
    rule
}

/// A rule with moves at random.
fn wild_rule(r: &mut Random, letters: &[u8]) -> Rule {
    let mut rule = empty_rule();
    let count = r.from(2, 6);
    rule.error = r.below(count) as u16;
    rule.start = r.below(count) as u16;
    for state in 0..count as u16 {
        if state == rule.error {
            continue;
        }
        if state != rule.start && r.once_in(2) {
            rule.finals.push(state);
        }
        let mut i = 0;
        while i < letters.len() {
            let end = r.from(i, letters.len() - 1);
            if !r.once_in(4) {
                rule.moves.push((state, letters[i], letters[end], r.below(count) as u16));
            }
            i = end + 1;
        }
    }
    rule
}

/// A rule that matches one or more of the letters.
fn run_rule(r: &mut Random, letters: &[u8]) -> Rule {
    let mut rule = empty_rule();
    rule.error = 2;
    rule.finals.push(1);
    for &letter in letters {
        if letters.len() == 1 || !r.once_in(3) {
            rule.moves.push((0, letter, letter, 1));
            rule.moves.push((1, letter, letter, 1));
        }
    }
    rule
}

/// A rule with states from which no final one is reached, and states that are not reached. Moves at `letters` join the others,
/// moves at `letters` and `strange` lead to the first and leave the second. One time in two there is a final state or a move
/// more, which may make some of these live.
fn branched_rule(r: &mut Random, letters: &[u8], strange: &[u8]) -> Rule {
    let mut rule = empty_rule();
    // from `dead` on they lead nowhere, from `unreached` on they are not reached
    let dead = r.from(2, 4);
    let unreached = dead + r.from(0, 3);
    let count = unreached + r.from(0, 3);
    rule.error = count as u16;
    for state in 0..count {
        if (state > 0 && state < dead && r.once_in(2)) || (state >= unreached && r.once_in(3)) {
            rule.finals.push(state as u16);
        }
        for &byte in letters {
            if state < dead && !r.once_in(3) {
                rule.moves.push((state as u16, byte, byte, r.below(dead) as u16));
            }
        }
        for &byte in letters.iter().chain(strange) {
            let (low, high) = if state < unreached { (dead, unreached) } else { (0, count) };
            if low < high && r.once_in(3) {
                join(&mut rule, state, byte, r.from(low, high - 1));
            }
        }
    }
    match r.below(4) {
        0 => rule.finals.push(r.from(1, count - 1) as u16),
        1 => {
            let byte = if r.once_in(2) { *r.pick(letters) } else { *r.pick(strange) };
            join(&mut rule, r.below(count), byte, r.below(count + 1));
        }
        _ => {}
    }
    rule
}

/// Adds a move, where none leaves the state at the byte.
fn join(rule: &mut Rule, from: usize, byte: u8, to: usize) {
    if rule.moves.iter().all(|m| m.0 != from as u16 || byte < m.1 || m.2 < byte) {
        rule.moves.push((from as u16, byte, byte, to as u16));
    }
}

/// A rule that matches all or some of the strings of one of these, or more: the same one, one with another final state, or a word
/// of it.
fn echo(r: &mut Random, these: &[&Rule]) -> Rule {
    let of = *r.pick(these);
    let mut rule = of.clone();
    match r.below(4) {
        0 | 1 => {}
        2 => {
            let state = r.pick(&rule.moves).3;
            if rule.finals.contains(&state) {
                rule.finals.retain(|s| *s != state);
            } else if state != rule.start && state != rule.error {
                rule.finals.push(state);
            }
        }
        _ => {
            if let Some(word) = of.word(r, 5) {
                rule = empty_rule();
                rule.moves = (0..).zip(&word).map(|(i, &b)| (i, b, b, i + 1)).collect();
                rule.finals.push(word.len() as u16);
                rule.error = word.len() as u16 + 1;
                rule.kind = of.kind;
            }
        }
    }
    rule
}

fn empty_rule() -> Rule {
    Rule { tag: 0, kind: 0, start: 0, error: 0, finals: Vec::new(), moves: Vec::new() }
}

/// Numbers of states at which something changes: those around 256, and the last ones.
const EDGES: [std::ops::Range<u16>; 3] = [0..8, 248..264, 4_080..4_096];

/// Renames the states at random: below 256, around the edges, or to any.
fn rename(r: &mut Random, rule: &Rule) -> Rule {
    let edges: Vec<u16> = EDGES.into_iter().flatten().collect();
    let states: BTreeSet<u16> = rule.parts().into_iter().flat_map(Command::states).collect();
    let choice = match states.len() {
        0..=32 => r.below(4),
        33..=256 => *r.pick(&[0, 3]),
        _ => 3,
    };
    let mut taken = BTreeSet::new();
    let mut name = || loop {
        let name = match choice {
            0 | 1 => r.below(256) as u16,
            2 => *r.pick(&edges),
            _ => r.from(0, paper::LAST_STATE as usize) as u16,
        };
        if taken.insert(name) {
            break name;
        }
    };
    let names: BTreeMap<u16, u16> = states.into_iter().map(|state| (state, name())).collect();
    rule.clone().renamed(|s| names[&s])
}

/// Gives a rule a tag that no other has; then its states have other names, its moves another order, a final state is named twice.
fn finish(r: &mut Random, rule: &mut Rule, others: &[Rule]) {
    rule.tag = loop {
        let tag = if r.once_in(4) { r.next() as u16 } else { r.from(1, 60) as u16 };
        if tag != 0 && others.iter().all(|other| other.tag != tag) {
            break tag;
        }
    };
    if r.once_in(2) {
        *rule = rename(r, rule);
    }
    r.shuffle(&mut rule.moves);
    if !rule.finals.is_empty() && r.once_in(5) {
        let again = *r.pick(&rule.finals);
        rule.finals.push(again);
    }
}

/// A book that is accepted, and what its texts are made of.
pub fn book(r: &mut Random) -> (Book, Alphabet) {
    let alphabet = Alphabet::random(r);
    // once in how many times a rule is like an earlier one of its kind; where that is 0, all are the same
    let (count, echoes) = if r.once_in(40) {
        (*r.pick(&[9, 17, 25, 30, 31, 32, 32, 32]), *r.pick(&[0, 1, 2, 8]))
    } else {
        (r.from(2, 6) - r.once_in(4) as usize, 4)
    };
    // most books have both kinds
    let separator = if r.once_in(8) { count } else { r.below(count) };
    let mut rules: Vec<Rule> = Vec::new();
    for k in 0..count {
        let kind = (k == separator || r.once_in(5)) as u8;
        let letters = alphabet.of(kind);
        let before: Vec<&Rule> = rules.iter().filter(|other| other.kind == kind && !other.moves.is_empty()).collect();
        let mut rule = match r.below(4) {
            _ if echoes == 0 && k > 0 => rules[0].clone(),
            _ if echoes > 0 && !before.is_empty() && r.once_in(echoes) => echo(r, &before),
            0 | 1 => words_rule(r, &letters),
            2 => wild_rule(r, &letters),
            _ => run_rule(r, &letters),
        };
        rule.kind = if echoes == 0 && k > 0 { rules[0].kind } else { kind };
        finish(r, &mut rule, &rules);
        rules.push(rule);
    }
    (Book { rules }, alphabet)
}

/// A book with a run of letters for each kind, and rules with branches at bytes of the other kind.
fn branched_book(r: &mut Random) -> (Book, Alphabet) {
    let alphabet = Alphabet::random(r);
    let count = if r.once_in(60) { r.from(28, 32) } else { r.from(3, 5) };
    let runs = r.below(count);
    let mut rules: Vec<Rule> = Vec::new();
    for k in 0..count {
        let after = (k + count - runs) % count;
        let kind = if after < 2 { after as u8 } else { r.below(2) as u8 };
        let (letters, strange) = (alphabet.of(kind), alphabet.of(1 - kind));
        let mut rule = if after < 2 { run_rule(r, &letters) } else { branched_rule(r, &letters, &strange) };
        rule.kind = kind;
        finish(r, &mut rule, &rules);
        rules.push(rule);
    }
    (Book { rules }, alphabet)
}

/// How the commands of a book are written: once in how many times a STEP as a SPAN, and a short command as a wide one; never where
/// that is 0.
#[derive(Clone, Copy)]
struct Spelling {
    spans: usize,
    wide: usize,
}

fn spelling(r: &mut Random) -> Spelling {
    Spelling { spans: *r.pick(&[0, 0, 1, 2]), wide: *r.pick(&[0, 0, 0, 1, 2]) }
}

fn spell(r: &mut Random, commands: &mut [Vec<u8>], spelling: Spelling) {
    let mut once = |n: usize| n > 0 && r.once_in(n);
    for command in commands {
        if let [paper::STEP, from, byte, to] = command[..] {
            if once(spelling.spans) {
                *command = vec![paper::SPAN, from, byte, byte, to];
            }
        }
        let wide = match command[..] {
            [code @ paper::START..=paper::FINAL, state] => vec![code + paper::WIDE_START - paper::START, 0, state],
            [paper::SPAN, from, low, high, to] => vec![paper::WIDE_SPAN, 0, from, low, high, 0, to],
            _ => continue,
        };
        if once(spelling.wide) {
            *command = wide;
        }
    }
}

/// The commands of a rule may stand in any order between RULE and CLOSE.
pub fn shuffled(r: &mut Random, book: &Book) -> Vec<u8> {
    let spelling = spelling(r);
    let mut bytes = Vec::new();
    for rule in &book.rules {
        let mut commands = rule.commands();
        spell(r, &mut commands, spelling);
        let last = commands.len() - 1;
        r.shuffle(&mut commands[1..last]);
        bytes.extend(commands.concat());
    }
    bytes.push(paper::END);
    bytes
}

/// A book of rules with up to 4,096 moves, filled up by FINALs until its rewritten form is about as long as a book may be.
fn long_book(r: &mut Random) -> Vec<u8> {
    let length = paper::BOOK_BYTES - 2 + if r.once_in(4) { r.from(5, 12_000) } else { r.below(5) };
    // a move takes up to seven bytes
    let mut most = 9_000;
    let mut rules = Vec::new();
    for tag in 2..=r.from(2, 13) {
        let count = r.from(1, paper::RULE_MOVES.min(most));
        let far = if r.once_in(3) { r.from(150, 4_000) as u16 } else { 0 };
        let moves = (0..count).map(|i| ((i % 90) as u16 + far, i as u8, i as u8, (i % 90) as u16 + 1));
        let error = if far > 0 { paper::LAST_STATE } else { 255 };
        rules.push(Rule { tag: tag as u16, error, finals: vec![1], moves: moves.collect(), ..empty_rule() });
        most -= count.min(most - 1);
    }
    let mut bytes = shuffled(r, &Book { rules });
    bytes.pop();
    let grown = paper::spanned(paper::placed(&bytes).map(|(_, command)| command)).len();
    // END and the commands of the rule that is filled up take ten bytes
    let mut left = length - grown - 10;
    let mut filled = vec![paper::RULE, 0, 1, 0, paper::START, 0, paper::ERROR, 255];
    if left % 2 == 1 {
        filled.extend([paper::SPAN, 0, 0, 255, 1]);
        left -= 5;
    }
    while left >= 6 && r.once_in(2) {
        filled.extend([paper::WIDE_FINAL, 1, 0, paper::WIDE_FINAL, 0, 1]);
        left -= 6;
    }
    filled.extend([paper::FINAL, 1].repeat(left / 2));
    filled.push(paper::CLOSE);
    let parts = if r.once_in(2) { [bytes, filled] } else { [filled, bytes] };
    [parts.concat(), vec![paper::END]].concat()
}

/// A book of both kinds with hundreds or thousands of states and moves: a chain, joined by moves at random.
fn large_book(r: &mut Random) -> (Book, Alphabet) {
    let alphabet = Alphabet::random(r);
    let mut rules: Vec<Rule> = Vec::new();
    // a move takes up to seven bytes
    let mut most = 9_000;
    for k in 0..r.from(2, 4) {
        let kind = (k % 2) as u8;
        let (letters, strange) = (alphabet.of(kind), alphabet.of(1 - kind));
        let run = most < paper::RULE_MOVES || (k < 2 && r.once_in(2));
        let fits = |other: &&Rule| other.kind == kind && (1..most).contains(&other.moves.len());
        let before: Vec<&Rule> = rules.iter().filter(fits).collect();
        let mut rule = match r.below(2) {
            0 if !before.is_empty() => echo(r, &before),
            _ if run => run_rule(r, &letters),
            _ => large_rule(r, &letters, &strange),
        };
        rule.kind = kind;
        most -= rule.moves.len();
        finish(r, &mut rule, &rules);
        rules.push(rule);
    }
    r.shuffle(&mut rules);
    (Book { rules }, alphabet)
}

/// A chain at the letters whose end is final, and moves from any state to any one. One time in two the chain has a gap, which they
/// do not pass; then they are at letters and at strange bytes, else almost all at letters.
fn large_rule(r: &mut Random, letters: &[u8], strange: &[u8]) -> Rule {
    let mut rule = empty_rule();
    let count = *r.pick(&[200, 255, 256, 257, 300, 600, 1_200, paper::LAST_STATE as usize]);
    let most = *r.pick(&[count, 511, 512, 513, count + 100, paper::RULE_MOVES]);
    let gap = if r.once_in(2) { r.from(1, count - 1) } else { count };
    rule.error = count as u16;
    rule.finals.push(count as u16 - 1);
    let mut taken = BTreeSet::new();
    for state in (0..count - 1).filter(|s| s + 1 != gap) {
        let byte = *r.pick(letters);
        taken.insert((state, byte));
        rule.moves.push((state as u16, byte, byte, state as u16 + 1));
    }
    for _ in rule.moves.len()..most {
        let (from, to) = (r.below(count), r.below(count));
        let byte = if r.once_in(if gap < count { 3 } else { 3_000 }) { *r.pick(strange) } else { *r.pick(letters) };
        if (from >= gap || to < gap) && taken.insert((from, byte)) {
            rule.moves.push((from as u16, byte, byte, to as u16));
        }
    }
    for _ in 0..r.below(4) {
        let low = if r.once_in(4) || gap == count { 1 } else { gap };
        let high = if r.once_in(2) { count - 1 } else { (low + 9).min(count - 1) };
        rule.finals.push(r.from(low, high) as u16);
    }
    rule
}

// ---- Damaged books

/// A state that a rule can have, of either width.
fn state(r: &mut Random) -> u16 {
    if r.once_in(2) {
        r.byte().into()
    } else {
        r.from(0, paper::LAST_STATE as usize) as u16
    }
}

/// A number that is too large for a state.
fn beyond(r: &mut Random) -> u16 {
    match r.below(4) {
        0 | 1 => paper::LAST_STATE + 1,
        2 => *r.pick(&[4_097, 4_351, 4_352, 8_191, 8_192, 32_768, 65_280, 65_535]),
        _ => r.from(4_096, 65_535) as u16,
    }
}

/// A wide command.
fn wide(r: &mut Random) -> Vec<u8> {
    let (one, other) = (state(r), state(r));
    let command = match r.below(4) {
        0 => Command::Start(Width::Wide, one),
        1 => Command::Error(Width::Wide, one),
        2 => Command::Final(Width::Wide, one),
        _ => Command::Span { width: Width::Wide, from: one, low: r.byte(), high: r.byte(), to: other },
    };
    command.bytes()
}

/// A book with one fault put in by design.
pub fn faulty(r: &mut Random, book: &Book) -> Vec<u8> {
    let mut book = book.clone();
    let k = r.below(book.rules.len());
    let other = book.rules[r.below(book.rules.len())].tag;
    let rule = &mut book.rules[k];
    let mut extra: Option<Vec<u8>> = None;
    let mut drop: Option<u8> = None;
    let mut spelling = spelling(r);
    let (mut outside, mut ends) = (false, false);
    match r.below(20) {
        0 => rule.tag = 0,
        1 => rule.tag = other,
        2 => rule.kind = r.from(2, 255) as u8,
        3 => rule.finals.push(rule.error),
        4 => rule.finals.push(rule.start),
        5 => rule.moves.push((rule.error, r.byte(), 255, state(r))),
        6 => {
            if let Some(&m) = rule.moves.first() {
                let byte = r.from(m.1 as usize, m.2 as usize) as u8;
                rule.moves.push((m.0, byte, r.from(byte as usize, 255) as u8, state(r)));
            }
        }
        7 => extra = Some(Command::Start(Width::Wide, rule.start).bytes()),
        8 => extra = Some(vec![paper::ERROR, r.byte()]),
        9 => drop = Some(paper::START),
        10 => drop = Some(paper::ERROR),
        11 => extra = Some(move_command((state(r), 9, 8, state(r))).bytes()),
        12 => extra = Some(vec![*r.pick(&[paper::RULE, paper::END, 0, 13, 255]), 0, 1, 0]),
        13 | 14 => {
            // often the only STEP
            extra = Some(vec![paper::STEP, r.byte(), r.byte(), r.byte()]);
            spelling.spans = *r.pick(&[1, 1, spelling.spans]);
            outside = r.once_in(3);
            ends = r.once_in(2);
        }
        15 => {
            extra = Some(wide(r));
            outside = r.once_in(2);
            ends = r.once_in(2);
        }
        16 => {
            let s = beyond(r);
            match r.below(3) {
                0 => rule.start = s,
                1 => rule.error = s,
                _ => rule.finals.push(s),
            }
        }
        17 if !rule.moves.is_empty() => {
            let at = r.below(rule.moves.len());
            let m = &mut rule.moves[at];
            *(if r.once_in(2) { &mut m.0 } else { &mut m.3 }) = beyond(r);
        }
        17 | 18 => {
            let s = beyond(r);
            extra = Some(
                if r.once_in(2) { Command::Start(Width::Wide, s) } else { Command::Error(Width::Wide, s) }.bytes(),
            );
        }
        _ => drop = Some(*r.pick(&[paper::CLOSE, paper::RULE, paper::END])),
    }
    let mut commands = book.commands();
    spell(r, &mut commands, spelling);
    if let Some(extra) = extra {
        let mut places: Vec<usize> = (1..commands.len()).collect();
        places.retain(|&at| !outside || commands[at - 1][0] == paper::CLOSE);
        let at = *r.pick(&places);
        commands.insert(at, extra);
        if ends {
            commands.truncate(at + 1);
            let length = commands[at].len();
            commands[at].truncate(r.from(1, length));
        }
    }
    if let Some(code) = drop {
        // START and ERROR in either width
        let wide = if code < paper::FINAL { code + paper::WIDE_START - paper::START } else { code };
        let all: Vec<usize> = (0..commands.len()).filter(|&i| [code, wide].contains(&commands[i][0])).collect();
        commands.remove(*r.pick(&all));
    }
    commands.concat()
}

/// Bytes with a few changes at random.
pub fn damaged(r: &mut Random, bytes: &[u8]) -> Vec<u8> {
    let mut bytes = bytes.to_vec();
    for _ in 0..r.from(1, 3) {
        if bytes.is_empty() {
            bytes.push(r.byte());
        }
        let at = r.below(bytes.len());
        match r.below(7) {
            0 => bytes[at] = r.byte(),
            1 => bytes[at] = r.below(14) as u8,
            2 => bytes[at] ^= 1 << r.below(8),
            3 => {
                bytes.remove(at);
            }
            4 => bytes.insert(at, r.below(14) as u8),
            5 => bytes.truncate(at),
            _ => {
                let again = bytes[at..(at + r.from(1, 12)).min(bytes.len())].to_vec();
                bytes.extend(again);
            }
        }
    }
    bytes
}

// ---- Texts and lists

pub fn text(r: &mut Random, book: &Book, alphabet: &Alphabet, longest: usize) -> Vec<u8> {
    let wanted = r.from(0, longest);
    let mut text = Vec::new();
    while text.len() < wanted {
        let rule = r.pick(&book.rules);
        match rule.word(r, 8) {
            Some(word) if !r.once_in(3) => text.extend(word),
            _ => text.push(alphabet.any(r)),
        }
        if r.once_in(40) {
            text.push(r.byte());
        }
    }
    text.truncate(wanted);
    text
}

/// A list of tokens, the pool that holds them, and a separator token in the same pool.
pub struct List {
    pub tokens: Vec<Record>,
    pub pool: Vec<u8>,
    pub separator: Record,
}

/// Adds a token's bytes to a pool, or finds them there.
fn put(r: &mut Random, pool: &mut Vec<u8>, tag: u16, word: &[u8]) -> Record {
    if !word.is_empty() && r.once_in(2) {
        if let Some(place) = pool.windows(word.len()).position(|w| w == word) {
            return Record { tag, place: place as u32, length: word.len() as u32 };
        }
    }
    if r.once_in(4) {
        let junk = r.from(0, 3);
        pool.extend(r.bytes(junk));
    }
    let place = pool.len() as u32;
    pool.extend(word);
    Record { tag, place, length: word.len() as u32 }
}

/// The tag that a word has when it is cut alone; where it has none, and now and then, that of a rule that matches it.
fn tag_alone(r: &mut Random, book: &[u8], word: &[u8], rule: u16) -> u16 {
    match paper::cut(book, word).tokens[..] {
        [only] if only.length as usize == word.len() && !r.once_in(30) => only.tag,
        _ => rule,
    }
}

/// A list for the printers. `plain`: only tokens of plain rules, where there are any.
pub fn list(r: &mut Random, book: &Book, bytes: &[u8], alphabet: &Alphabet, longest: usize, plain: bool) -> List {
    let mut list = if r.once_in(2) {
        let text = text(r, book, alphabet, longest);
        let mut tokens = paper::cut(bytes, &text).tokens;
        if plain {
            let is_plain = |t: &Record| book.rules.iter().any(|rule| rule.tag == t.tag && rule.kind == 0);
            tokens.retain(is_plain);
        }
        List { tokens, pool: text, separator: Record { tag: 0, place: 0, length: 0 } }
    } else {
        let mut list = List { tokens: Vec::new(), pool: Vec::new(), separator: Record { tag: 0, place: 0, length: 0 } };
        for _ in 0..r.from(0, longest / 3) {
            let rule = r.pick(&book.rules);
            if plain && rule.kind == 1 {
                continue;
            }
            if let Some(word) = rule.word(r, 8) {
                let tag = tag_alone(r, bytes, &word, rule.tag);
                let token = put(r, &mut list.pool, tag, &word);
                list.tokens.push(token);
            }
        }
        list
    };
    if r.once_in(3) {
        rearrange(r, &mut list.tokens);
    }
    separator_of(r, book, bytes, &mut list);
    if r.once_in(5) {
        spoil(r, book, &mut list);
    }
    list
}

fn rearrange(r: &mut Random, tokens: &mut Vec<Record>) {
    for _ in 0..r.from(1, 3) {
        if tokens.is_empty() {
            return;
        }
        let at = r.below(tokens.len());
        match r.below(3) {
            0 => {
                tokens.remove(at);
            }
            1 => tokens.insert(at, tokens[r.below(tokens.len())]),
            _ => {
                let to = r.below(tokens.len());
                tokens.swap(at, to);
            }
        }
    }
}

fn separator_of(r: &mut Random, book: &Book, bytes: &[u8], list: &mut List) {
    let kind = if r.once_in(12) { 0 } else { 1 };
    let rules: Vec<&Rule> = book.rules.iter().filter(|rule| rule.kind == kind).collect();
    if rules.is_empty() {
        return;
    }
    for _ in 0..6 {
        let rule = r.pick(&rules);
        if let Some(word) = rule.word(r, 3) {
            let tag = tag_alone(r, bytes, &word, rule.tag);
            list.separator = put(r, &mut list.pool, tag, &word);
            return;
        }
    }
}

/// Makes a token, or the separator token, unfit.
fn spoil(r: &mut Random, book: &Book, list: &mut List) {
    let n = list.tokens.len();
    let rule = r.pick(&book.rules);
    let token = match n {
        0 => &mut list.separator,
        _ if r.once_in(3) => &mut list.separator,
        _ => &mut list.tokens[r.below(n)],
    };
    match r.below(8) {
        0 => token.tag = r.next() as u16,
        1 => token.tag = rule.tag,
        2 => token.length = token.length.wrapping_add(1),
        3 => token.length = token.length.saturating_sub(1),
        4 => token.place = token.place.wrapping_add(1),
        5 => token.place = *r.pick(&[u32::MAX, u32::MAX - 1, 1 << 31, list.pool.len() as u32]),
        6 => token.length = *r.pick(&[u32::MAX, 0, 1 << 31]),
        _ => token.tag = 0,
    }
}

pub fn bytes_of(tokens: &[Record]) -> Vec<u8> {
    tokens.iter().flat_map(|t| t.to_bytes()).collect()
}

// ---- Rooms

/// A length around what is needed.
fn room(r: &mut Random, need: usize) -> usize {
    match r.below(6) {
        0 | 1 => need,
        2 => need.saturating_sub(1),
        3 => r.from(0, need),
        _ => need + r.from(0, 20),
    }
}

/// What a call that has all the room there may be needs of it; where it is refused, a few.
fn need(call: &Call) -> usize {
    let answer = Answer(calls::expected(call).answer);
    if answer.number() == 0 {
        answer.first() as usize
    } else {
        answer.place().min(9) as usize
    }
}

/// The call of a printer with an output around the need.
fn with_output(r: &mut Random, call: Call) -> Call {
    let length = room(r, need(&call));
    Call { out: r.bytes(length), ..call }
}

/// Room for at least so many tokens: just enough, about one for each byte that is cut, or more than that.
fn enough(r: &mut Random, need: usize, text: usize) -> usize {
    match r.below(8) {
        0..=2 => need,
        3 => need + 1,
        4 => need.max((text + r.below(3)).saturating_sub(1)),
        5 | 6 => need + r.from(0, 20),
        _ => need + text + r.from(100, 400),
    }
}

/// Room for fewer, where there are any: one too few, none, or any number of them.
fn too_few(r: &mut Random, need: usize) -> usize {
    match r.below(4) {
        0 | 1 => need.saturating_sub(1),
        2 => 0,
        _ => r.below(need.max(1)),
    }
}

/// The call of a cut with records and masks enough, or with too few of one or of both, and with bytes left over or not.
fn with_tokens(r: &mut Random, call: Call) -> Call {
    let need = need(&call);
    // the bytes that may become tokens
    let text = match call.operation {
        Operation::LexWithin => call.budget.min((call.text.len() as u64).saturating_sub(call.place)) as usize,
        _ => call.text.len(),
    };
    let (records, masks) = match r.below(10) {
        0..=5 => (enough(r, need, text), enough(r, need, text)),
        6 | 7 => (enough(r, need, text), too_few(r, need)),
        8 => (too_few(r, need), enough(r, need, text)),
        _ => (too_few(r, need), too_few(r, need)),
    };
    let mut lent = |count: usize, size: usize| {
        let leftover = if r.once_in(3) { r.below(size) } else { 0 };
        r.bytes(count * size + leftover)
    };
    let (records, masks) = (lent(records, paper::RECORD_BYTES), lent(masks, paper::MASK_BYTES));
    Call { records, masks, ..call }
}

/// The bytes of records and of masks for a text that is all tokens of a byte.
fn all_room(text: &[u8]) -> (Vec<u8>, Vec<u8>) {
    (vec![0; text.len() * paper::RECORD_BYTES], vec![0; text.len() * paper::MASK_BYTES])
}

/// The rewriting of a book with so many of the rooms, of which one is just enough, and its stricter reading.
fn without_step(r: &mut Random, book: &[u8], count: usize) -> Vec<Call> {
    let mut rooms = rewriting::rooms(book);
    r.shuffle(&mut rooms[1..]);
    let mut calls: Vec<Call> =
        rooms.into_iter().take(count).map(|room| Call::rewrite_book(book, r.bytes(room))).collect();
    calls.push(Call::read_book_strict(book));
    calls
}

/// The calls of one case: a book, each operation on it, and writing with separators by another book, which is read strictly and
/// rewritten too; now and then a book that rewriting may make too long, and one with large rules; turns, and expressions.
pub fn case(r: &mut Random) -> Vec<Call> {
    let (rules, alphabet) = book(r);
    let sound = shuffled(r, &rules);
    let bytes = match r.below(5) {
        0 => faulty(r, &rules),
        1 => damaged(r, &sound),
        _ => sound.clone(),
    };
    let longest = if r.once_in(60) { 300 } else { 24 };
    let mut calls = without_step(r, &bytes, 2);
    calls.push(Call::read_book(&bytes));

    let leftover = if r.once_in(4) { r.from(1, 9) } else { 0 };
    calls.extend(uses(r, (&rules, &sound, &alphabet), &bytes, longest, leftover));

    let sheet = sheet(r, longest);
    let (records, masks) = all_room(&sheet);
    calls.push(with_tokens(r, Call::lex_builtin(&sheet, records, masks)));

    let index = if r.once_in(20) { r.next() as u32 } else { r.from(0, rules.rules.len()) as u32 };
    calls.push(Call::rule(&bytes, index));

    let (branched, letters) = branched_book(r);
    let other = shuffled(r, &branched);
    let spaced = list(r, &branched, &other, &letters, 12, true);
    let call = spacing(r, &other, spaced, leftover);
    calls.extend(without_step(r, &other, 1));
    calls.push(with_output(r, call));

    if r.once_in(100) {
        let bytes = long_book(r);
        calls.extend(without_step(r, &bytes, 4));
    }
    if r.once_in(200) {
        let (large, letters) = large_book(r);
        let bytes = shuffled(r, &large);
        calls.extend(without_step(r, &bytes, 1));
        calls.extend(uses(r, (&large, &bytes, &letters), &bytes, 40, leftover));
        calls.extend(turns(r, (&large, &letters), &bytes, 60));
    }
    calls.extend(turns(r, (&rules, &alphabet), &bytes, longest));
    calls.extend(compiling::calls(r));
    calls
}

/// Cutting twice, writing and writing with separators by the bytes of a book; texts and lists come from its sound form.
fn uses(
    r: &mut Random,
    (rules, sound, alphabet): (&Book, &[u8], &Alphabet),
    bytes: &[u8],
    longest: usize,
    leftover: usize,
) -> Vec<Call> {
    let text = text(r, rules, alphabet, longest);
    let (records, masks) = all_room(&text);
    let cut = Call::lex(bytes, &text, records, masks);

    let written = list(r, rules, sound, alphabet, longest, false);
    let mut records = bytes_of(&written.tokens);
    records.extend(r.bytes(leftover));
    let print = Call::print(bytes, records, &written.pool, vec![0; paper::TEXT_BYTES]);

    let only_plain = !r.once_in(6);
    let spaced = list(r, rules, sound, alphabet, longest, only_plain);
    let spaced = spacing(r, bytes, spaced, leftover);
    vec![with_tokens(r, cut.clone()), with_tokens(r, cut), with_output(r, print), with_output(r, spaced)]
}

/// Three turns over a text by the bytes of a book; now and then the text is too long.
fn turns(r: &mut Random, (rules, alphabet): (&Book, &Alphabet), bytes: &[u8], longest: usize) -> Vec<Call> {
    let mut text = text(r, rules, alphabet, longest);
    if r.once_in(200) {
        text.resize(paper::TEXT_BYTES + r.from(1, 3), alphabet.any(r));
    }
    let mut turn = || {
        let place = turn_place(r, text.len() as u64);
        let budget = turn_budget(r, bytes, &text, place);
        let (records, masks) = all_room(&text);
        let numbers = [r.next(), r.next()];
        with_tokens(r, Call::lex_within(bytes, &text, (place, budget), records, masks, numbers))
    };
    vec![turn(), turn(), turn()]
}

/// A place in a text of that length, or past it.
fn turn_place(r: &mut Random, length: u64) -> u64 {
    match r.below(12) {
        0..=4 => 0,
        5..=8 => r.from(0, length as usize) as u64,
        9 => length,
        10 => length + r.from(1, 3) as u64,
        _ => *r.pick(&[u64::MAX, 1 << 63, 1 << 32, (1 << 32) + length / 2, u64::MAX - length]),
    }
}

/// A budget around what the first of the places from there on take, of any size, or larger than any text needs.
fn turn_budget(r: &mut Random, bytes: &[u8], text: &[u8], place: u64) -> u64 {
    let sound = paper::read_book(bytes, paper::Reading::Ordinary).is_ok();
    let reaches = if sound && place <= text.len() as u64 && text.len() <= paper::TEXT_BYTES {
        paper::reaches(bytes, text, place as usize)
    } else {
        vec![r.below(5)]
    };
    let first = r.from(0, reaches.len());
    let sum = reaches[..first].iter().sum::<usize>();
    let budget = match r.below(10) {
        0..=5 => (sum + r.below(3)).saturating_sub(1),
        6 => r.below(4),
        7 => r.from(0, reaches.iter().sum::<usize>() + 2),
        8 => (r.from(1, 3) << 32) + r.below(4),
        _ => return u64::MAX,
    };
    budget as u64
}

/// Writing with separators in some mode, with all the room there may be.
fn spacing(r: &mut Random, book: &[u8], list: List, leftover: usize) -> Call {
    let mode = if r.once_in(20) { *r.pick(&[3, 255, 256, 1 << 16, u32::MAX]) } else { r.below(3) as u32 };
    let mut records = bytes_of(&list.tokens);
    records.extend(r.bytes(leftover));
    Call::print_separated(book, list.separator, mode, records, &list.pool, vec![0; paper::TEXT_BYTES])
}

/// A piece of a timed lyric sheet, with stamps that are whole and stamps that are not.
fn sheet(r: &mut Random, longest: usize) -> Vec<u8> {
    let wanted = r.from(0, longest * 2);
    let mut text = Vec::new();
    while text.len() < wanted {
        match r.below(8) {
            0 | 1 => {
                let stamp = format!("[{:02}:{:02}.{:02}]", r.below(60), r.below(60), r.below(100)).into_bytes();
                let kept = if r.once_in(3) { r.from(1, 10) } else { 10 };
                text.extend(&stamp[..kept]);
            }
            2 | 3 => text.extend(*r.pick(&[&b"oh"[..], b"la", b"x", b"00:1", b"\xC3\xA9"])),
            4 => text.extend(*r.pick(&[&b" "[..], b"  ", b"\t", b"\n", b" \t\n"])),
            5 => text.push(*r.pick(b"[]:.0123456789")),
            6 => text.push(*r.pick(&[b'!', b'~', 0x5A, 0x5C, 0x5E, 0x80, 0xFF])),
            _ => {
                if r.once_in(10) {
                    text.push(r.byte());
                }
            }
        }
    }
    text.truncate(wanted);
    text
}
