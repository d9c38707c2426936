//! The operations a second time, from the text of documents 01 and 02 alone.
//!
//! Nothing here is fast. A match reads the rule's commands in the book's bytes again for every byte, and a cut tries every
//! length from the longest down. There are no tables, so that a mistake in tables cannot be made twice; of long rules the moves
//! are sorted, and of long texts the states of one walk are kept.

use std::collections::{BTreeMap, BTreeSet, VecDeque};

pub const BOOK_BYTES: usize = 65_536;
pub const BOOK_RULES: usize = 32;
pub const RULE_MOVES: usize = 4_096;
pub const LAST_STATE: u16 = 4_095;
pub const TEXT_BYTES: usize = 65_536;
pub const LIST_TOKENS: usize = 65_536;
pub const RECORD_BYTES: usize = 10;
pub const MASK_BYTES: usize = 4;

pub const RULE: u8 = 1;
pub const START: u8 = 2;
pub const ERROR: u8 = 3;
pub const FINAL: u8 = 4;
pub const STEP: u8 = 5;
pub const SPAN: u8 = 6;
pub const CLOSE: u8 = 7;
pub const END: u8 = 8;
pub const WIDE_START: u8 = 9;
pub const WIDE_ERROR: u8 = 10;
pub const WIDE_FINAL: u8 = 11;
pub const WIDE_SPAN: u8 = 12;

#[derive(Clone, Copy, Debug, PartialEq, Eq)]
pub struct Refusal {
    pub number: u8,
    pub place: usize,
}

fn refuse<T>(number: u8, place: usize) -> Result<T, Refusal> {
    Err(Refusal { number, place })
}

/// A record: a tag, and where its bytes are in a pool.
#[derive(Clone, Copy, Debug, PartialEq, Eq)]
pub struct Record {
    pub tag: u16,
    pub place: u32,
    pub length: u32,
}

impl Record {
    pub fn of_bytes(b: &[u8]) -> Record {
        Record {
            tag: u16::from_be_bytes([b[0], b[1]]),
            place: u32::from_be_bytes([b[2], b[3], b[4], b[5]]),
            length: u32::from_be_bytes([b[6], b[7], b[8], b[9]]),
        }
    }

    pub fn to_bytes(self) -> Vec<u8> {
        let mut out = self.tag.to_be_bytes().to_vec();
        out.extend(self.place.to_be_bytes());
        out.extend(self.length.to_be_bytes());
        out
    }

    /// Its bytes, if place plus length does not pass the pool.
    pub fn bytes(self, pool: &[u8]) -> Option<&[u8]> {
        let end = self.place as u64 + self.length as u64;
        if end > pool.len() as u64 {
            return None;
        }
        Some(&pool[self.place as usize..end as usize])
    }
}

/// The list that a buffer holds: a record for every ten bytes of it.
pub fn records_of(buffer: &[u8]) -> Vec<Record> {
    buffer.chunks_exact(RECORD_BYTES).map(Record::of_bytes).collect()
}

/// The masks that a buffer holds.
pub fn masks_of(buffer: &[u8]) -> Vec<u32> {
    let mask = |b: &[u8]| u32::from_be_bytes([b[0], b[1], b[2], b[3]]);
    buffer.chunks_exact(MASK_BYTES).map(mask).collect()
}

// ---- The book

/// A move: from, low, high, to.
pub type Move = (u16, u8, u8, u16);

/// Whether a command's states have one byte or two.
#[derive(Clone, Copy, Debug, PartialEq, Eq)]
pub enum Width {
    Short,
    Wide,
}

use Width::{Short, Wide};

/// A command with its operands.
#[derive(Clone, Copy, Debug, PartialEq, Eq)]
pub enum Command {
    Rule { tag: u16, kind: u8 },
    Start(Width, u16),
    Error(Width, u16),
    Final(Width, u16),
    Step { from: u8, byte: u8, to: u8 },
    Span { width: Width, from: u16, low: u8, high: u8, to: u16 },
    Close,
    End,
}

impl Command {
    /// The command that the bytes begin with, and the bytes behind it; none where they end before its operands do.
    #[inline(always)]
    fn first(bytes: &[u8]) -> Option<(Command, &[u8])> {
        let two = |high, low| u16::from_be_bytes([high, low]);
        Some(match *bytes {
            [RULE, high, low, kind, ref rest @ ..] => (Command::Rule { tag: two(high, low), kind }, rest),
            [START, state, ref rest @ ..] => (Command::Start(Short, state.into()), rest),
            [ERROR, state, ref rest @ ..] => (Command::Error(Short, state.into()), rest),
            [FINAL, state, ref rest @ ..] => (Command::Final(Short, state.into()), rest),
            [STEP, from, byte, to, ref rest @ ..] => (Command::Step { from, byte, to }, rest),
            [SPAN, from, low, high, to, ref rest @ ..] => {
                (Command::Span { width: Short, from: from.into(), low, high, to: to.into() }, rest)
            }
            [CLOSE, ref rest @ ..] => (Command::Close, rest),
            [END, ref rest @ ..] => (Command::End, rest),
            [WIDE_START, a, b, ref rest @ ..] => (Command::Start(Wide, two(a, b)), rest),
            [WIDE_ERROR, a, b, ref rest @ ..] => (Command::Error(Wide, two(a, b)), rest),
            [WIDE_FINAL, a, b, ref rest @ ..] => (Command::Final(Wide, two(a, b)), rest),
            [WIDE_SPAN, a, b, low, high, c, d, ref rest @ ..] => {
                (Command::Span { width: Wide, from: two(a, b), low, high, to: two(c, d) }, rest)
            }
            _ => return None,
        })
    }

    pub fn bytes(self) -> Vec<u8> {
        let named = |width, short, wide, state: u16| match (width, state.to_be_bytes()) {
            (Short, [_, low]) => vec![short, low],
            (Wide, [high, low]) => vec![wide, high, low],
        };
        match self {
            Command::Rule { tag, kind } => [&[RULE], &tag.to_be_bytes()[..], &[kind]].concat(),
            Command::Start(width, state) => named(width, START, WIDE_START, state),
            Command::Error(width, state) => named(width, ERROR, WIDE_ERROR, state),
            Command::Final(width, state) => named(width, FINAL, WIDE_FINAL, state),
            Command::Step { from, byte, to } => vec![STEP, from, byte, to],
            Command::Span { width: Short, from, low, high, to } => vec![SPAN, from as u8, low, high, to as u8],
            Command::Span { width: Wide, from, low, high, to } => {
                [&[WIDE_SPAN], &from.to_be_bytes()[..], &[low, high], &to.to_be_bytes()].concat()
            }
            Command::Close => vec![CLOSE],
            Command::End => vec![END],
        }
    }

    /// The move that the command adds to its rule.
    fn added(self) -> Option<Move> {
        match self {
            Command::Step { from, byte, to } => Some((from.into(), byte, byte, to.into())),
            Command::Span { from, low, high, to, .. } => Some((from, low, high, to)),
            _ => None,
        }
    }

    /// The states that the command names.
    pub fn states(self) -> impl Iterator<Item = u16> {
        let named = match self {
            Command::Start(_, state) | Command::Error(_, state) | Command::Final(_, state) => [Some(state), None],
            Command::Step { from, to, .. } => [Some(from.into()), Some(to.into())],
            Command::Span { from, to, .. } => [Some(from), Some(to)],
            _ => [None, None],
        };
        named.into_iter().flatten()
    }
}

/// Whether a STEP is taken.
#[derive(Clone, Copy, Debug, PartialEq, Eq)]
pub enum Reading {
    Ordinary,
    Strict,
}

/// What a rule that is still open has had so far.
#[derive(Default)]
struct Open {
    starts: Vec<u16>,
    errors: Vec<u16>,
    finals: BTreeSet<u16>,
    moves: Vec<(u16, u8, u8)>,
}

/// Reads a book: its commands.
fn read(book: &[u8], reading: Reading) -> Result<Vec<Command>, Refusal> {
    if book.len() > BOOK_BYTES {
        return refuse(1, 0);
    }
    let mut commands = Vec::new();
    let mut tags: BTreeSet<u16> = BTreeSet::new();
    let mut open: Option<Open> = None;
    let mut rest = book;
    while let Some(&code) = rest.first() {
        let at = book.len() - rest.len();
        let allowed = match code {
            RULE | END => open.is_none(),
            START..=CLOSE | WIDE_START..=WIDE_SPAN => open.is_some(),
            _ => false,
        };
        if !allowed {
            return refuse(3, at);
        }
        if code == STEP && reading == Reading::Strict {
            return refuse(33, at);
        }
        let (command, after) = match Command::first(rest) {
            Some(found) => found,
            None => return refuse(2, at),
        };
        commands.push(command);
        let beyond = command.states().any(|state| state > LAST_STATE);
        match (command, open.as_mut()) {
            (Command::Rule { tag, kind }, _) => {
                if tags.len() == BOOK_RULES {
                    return refuse(5, at);
                }
                if tag == 0 || kind > 1 {
                    return refuse(6, at);
                }
                if !tags.insert(tag) {
                    return refuse(7, at);
                }
                open = Some(Open::default());
            }
            (Command::End, _) => {
                if tags.is_empty() {
                    return refuse(13, at);
                }
                if !after.is_empty() {
                    return refuse(4, at + 1);
                }
                return Ok(commands);
            }
            (Command::Start(..) | Command::Error(..) | Command::Final(..), _) if beyond => return refuse(6, at),
            (Command::Start(_, state), Some(rule)) => {
                if !rule.starts.is_empty() {
                    return refuse(8, at);
                }
                rule.starts.push(state);
            }
            (Command::Error(_, state), Some(rule)) => {
                if !rule.errors.is_empty() {
                    return refuse(8, at);
                }
                rule.errors.push(state);
            }
            (Command::Final(_, state), Some(rule)) => {
                rule.finals.insert(state);
            }
            (Command::Step { .. } | Command::Span { .. }, Some(rule)) => {
                let (from, low, high, _) = command.added().expect("it adds a move");
                if rule.moves.len() == RULE_MOVES {
                    return refuse(5, at);
                }
                if low > high || beyond {
                    return refuse(6, at);
                }
                rule.moves.push((from, low, high));
            }
            (Command::Close, Some(rule)) => {
                if let Some(number) = fault_at_close(rule) {
                    return refuse(number, at);
                }
                open = None;
            }
            _ => unreachable!("the command is allowed here"),
        }
        rest = after;
    }
    refuse(2, book.len())
}

/// Reads a book: the number of its rules.
pub fn read_book(book: &[u8], reading: Reading) -> Result<usize, Refusal> {
    Ok(read(book, reading)?.iter().filter(|c| matches!(c, Command::Rule { .. })).count())
}

fn fault_at_close(rule: &Open) -> Option<u8> {
    let (start, error) = match (rule.starts.first(), rule.errors.first()) {
        (Some(start), Some(error)) => (start, error),
        _ => return Some(8),
    };
    let bytes = |&(from, low, high): &(u16, u8, u8)| (low..=high).map(move |byte| (from, byte));
    let mut covered: Vec<(u16, u8)> = rule.moves.iter().flat_map(bytes).collect();
    covered.sort_unstable();
    if covered.windows(2).any(|pair| pair[0] == pair[1]) {
        return Some(9);
    }
    if rule.moves.iter().any(|m| m.0 == *error) {
        return Some(10);
    }
    if rule.finals.contains(error) {
        return Some(11);
    }
    if rule.finals.contains(start) {
        return Some(12);
    }
    None
}

/// The commands of a part of a book, each with its place there, up to the first that is none or is cut off.
pub fn placed(bytes: &[u8]) -> impl Iterator<Item = (usize, Command)> + '_ {
    let mut rest = bytes;
    std::iter::from_fn(move || {
        let at = bytes.len() - rest.len();
        let (command, after) = Command::first(rest)?;
        rest = after;
        Some((at, command))
    })
}

fn commands(bytes: &[u8]) -> impl Iterator<Item = Command> + '_ {
    placed(bytes).map(|(_, command)| command)
}

/// What the first command gives that gives something.
fn find<T>(bytes: &[u8], of: impl Fn(Command) -> Option<T>) -> Option<T> {
    let mut rest = bytes;
    while let Some((command, after)) = Command::first(rest) {
        if let Some(found) = of(command) {
            return Some(found);
        }
        rest = after;
    }
    None
}

/// The commands of each rule of an accepted book, as parts of its bytes, from its RULE to its CLOSE.
pub fn rules(book: &[u8]) -> Vec<&[u8]> {
    let mut found = Vec::new();
    let mut begin = 0;
    for (at, command) in placed(book) {
        match command {
            Command::Rule { .. } => begin = at,
            Command::Close => found.push(&book[begin..=at]),
            _ => {}
        }
    }
    found
}

pub fn start_of(rule: &[u8]) -> u16 {
    find(rule, |c| if let Command::Start(_, state) = c { Some(state) } else { None }).expect("an accepted rule has it")
}

pub fn error_of(rule: &[u8]) -> u16 {
    find(rule, |c| if let Command::Error(_, state) = c { Some(state) } else { None }).expect("an accepted rule has it")
}

pub fn tag_of(rule: &[u8]) -> u16 {
    u16::from_be_bytes([rule[1], rule[2]])
}

pub fn is_separator(rule: &[u8]) -> bool {
    rule[3] == 1
}

/// The tag and the kind of a rule: the operands of the RULE command of that number.
pub fn rule(book: &[u8], index: usize) -> Result<(u16, u8), Refusal> {
    let named = |c| if let Command::Rule { tag, kind } = c { Some((tag, kind)) } else { None };
    let all: Vec<(u16, u8)> = read(book, Reading::Ordinary)?.into_iter().filter_map(named).collect();
    all.get(index).copied().ok_or(Refusal { number: 18, place: all.len() })
}

/// A rule to walk by.
struct Walker<'b> {
    rule: &'b [u8],
    sorted: Option<Sorted>,
}

/// What a long rule says, sorted: its moves by the state that they leave and their low byte.
struct Sorted {
    start: u16,
    error: u16,
    finals: BTreeSet<u16>,
    moves: BTreeMap<(u16, u8), (u8, u16)>,
}

/// Rules of more bytes are sorted first.
const LONG_RULE: usize = 400;

impl<'b> Walker<'b> {
    fn of(rule: &'b [u8]) -> Walker<'b> {
        let sorted = (rule.len() > LONG_RULE).then(|| Sorted {
            start: start_of(rule),
            error: error_of(rule),
            finals: finals(rule).collect(),
            moves: moves(rule).into_iter().map(|(from, low, high, to)| ((from, low), (high, to))).collect(),
        });
        Walker { rule, sorted }
    }

    fn start(&self) -> u16 {
        self.sorted.as_ref().map_or_else(|| start_of(self.rule), |s| s.start)
    }

    fn error(&self) -> u16 {
        self.sorted.as_ref().map_or_else(|| error_of(self.rule), |s| s.error)
    }

    fn is_final(&self, state: u16) -> bool {
        match &self.sorted {
            Some(sorted) => sorted.finals.contains(&state),
            None => finals(self.rule).any(|s| s == state),
        }
    }

    fn step(&self, state: u16, byte: u8) -> u16 {
        if let Some(sorted) = &self.sorted {
            // no two moves of a state overlap, so that only the last one that begins at the byte or before can cover it
            let last = sorted.moves.range((state, 0)..=(state, byte)).next_back();
            return last.filter(|(_, (high, _))| byte <= *high).map_or(sorted.error, |(_, (_, to))| *to);
        }
        let target = |c| match c {
            Command::Step { from, byte: only, to } if u16::from(from) == state && only == byte => Some(to.into()),
            Command::Span { from, low, high, to, .. } if from == state && low <= byte && byte <= high => Some(to),
            _ => None,
        };
        find(self.rule, target).unwrap_or_else(|| error_of(self.rule))
    }

    /// The state in which the walk from the rule's start over `word` ends.
    fn walk(&self, word: &[u8]) -> u16 {
        word.iter().fold(self.start(), |s, &b| self.step(s, b))
    }

    /// Whether the walk over `word` ends in a final state.
    fn matches(&self, word: &[u8]) -> bool {
        self.is_final(self.walk(word))
    }
}

fn walkers<'b>(rules: &[&'b [u8]]) -> Vec<Walker<'b>> {
    rules.iter().map(|rule| Walker::of(rule)).collect()
}

/// Texts up to this length are tried at every length with a walk for each, longer ones only up to their bound.
const LITERAL: usize = 48;

/// The beginnings of a text, to be matched by rules.
struct Beginnings<'a, 'b> {
    rules: &'a [Walker<'b>],
    text: Vec<u8>,
    /// Of a long text: the states in which the rules stand after each number of bytes.
    states: Option<Vec<u16>>,
}

impl<'a, 'b> Beginnings<'a, 'b> {
    /// Of `front` and `back` joined.
    fn of(rules: &'a [Walker<'b>], front: &[u8], back: &[u8]) -> Beginnings<'a, 'b> {
        let text = front.iter().chain(back);
        if front.len() + back.len() <= LITERAL {
            return Beginnings { rules, text: text.copied().collect(), states: None };
        }
        // how many bytes can take part in a match: after them every rule stands in its error state, which nothing leaves
        let errors: Vec<u16> = rules.iter().map(|r| r.error()).collect();
        let mut now: Vec<u16> = rules.iter().map(|r| r.start()).collect();
        let mut states = now.clone();
        let mut kept = Vec::new();
        for &byte in text {
            if now == errors {
                break;
            }
            for (s, r) in now.iter_mut().zip(rules) {
                *s = r.step(*s, byte);
            }
            states.extend(&now);
            kept.push(byte);
        }
        Beginnings { rules, text: kept, states: Some(states) }
    }

    /// The lengths after that of the first `shortest` bytes, up to the longest that a rule can match.
    fn lengths(&self, shortest: usize) -> std::ops::RangeInclusive<usize> {
        shortest + 1..=self.text.len()
    }

    /// The rank of the earliest rule that matches the beginning of so many bytes.
    fn first_match(&self, length: usize) -> Option<usize> {
        let count = self.rules.len();
        match &self.states {
            Some(states) => (0..count).find(|&k| self.rules[k].is_final(states[length * count + k])),
            None => self.rules.iter().position(|r| r.matches(&self.text[..length])),
        }
    }
}

/// The rank of the earliest rule that matches the longest beginning of `text`, and that beginning's length.
fn choose(rules: &[Walker], text: &[u8]) -> Option<(usize, usize)> {
    let beginnings = Beginnings::of(rules, text, &[]);
    beginnings.lengths(0).rev().find_map(|length| Some((beginnings.first_match(length)?, length)))
}

// ---- Rewriting

/// Whether a book that is accepted has a STEP.
pub fn has_step(book: &[u8]) -> bool {
    commands(book).any(|c| matches!(c, Command::Step { .. }))
}

/// The commands with a SPAN of one byte for each STEP, written again.
pub fn spanned(commands: impl IntoIterator<Item = Command>) -> Vec<u8> {
    let span = |c| match c {
        Command::Step { from, byte, to } => {
            Command::Span { width: Short, from: from.into(), low: byte, high: byte, to: to.into() }
        }
        other => other,
    };
    commands.into_iter().map(span).flat_map(Command::bytes).collect()
}

/// The book without STEP, for `room` bytes.
pub fn rewrite_book(book: &[u8], room: usize) -> Result<Vec<u8>, Refusal> {
    let bytes = spanned(read(book, Reading::Ordinary)?);
    if bytes.len() > BOOK_BYTES {
        return refuse(1, 0);
    }
    if room < bytes.len() {
        return refuse(22, bytes.len());
    }
    Ok(bytes)
}

// ---- Cutting

/// The tokens of a cut with their masks, and the place of the rest.
pub struct Cut {
    pub tokens: Vec<Record>,
    pub masks: Vec<u32>,
    pub rest: usize,
}

/// The rules that match a word as a whole, the first of the book as bit 0. Each is asked on its own, once the word is known.
fn agreeing(rules: &[Walker], word: &[u8]) -> u32 {
    rules.iter().rev().fold(0, |mask, rule| mask << 1 | rule.matches(word) as u32)
}

impl Cut {
    fn from(place: usize) -> Cut {
        Cut { tokens: Vec::new(), masks: Vec::new(), rest: place }
    }

    /// Takes the token that begins at the rest, where one does.
    fn next(&mut self, rules: &[Walker], text: &[u8]) -> bool {
        let (rank, length) = match choose(rules, &text[self.rest..]) {
            Some(found) => found,
            None => return false,
        };
        let token = Record { tag: tag_of(rules[rank].rule), place: self.rest as u32, length: length as u32 };
        let mask = agreeing(rules, token.bytes(text).expect("it is in the text"));
        assert_eq!(mask.trailing_zeros() as usize, rank, "the earliest rule that agrees gives the tag");
        self.tokens.push(token);
        self.masks.push(mask);
        self.rest += length;
        true
    }
}

pub fn cut(book: &[u8], text: &[u8]) -> Cut {
    let walkers = walkers(&rules(book));
    let mut cut = Cut::from(0);
    while cut.next(&walkers, text) {}
    cut
}

/// Cutting with room for `room` records and masks.
pub fn lex(book: &[u8], text: &[u8], room: usize) -> Result<Cut, Refusal> {
    read(book, Reading::Ordinary)?;
    if text.len() > TEXT_BYTES {
        return refuse(14, 0);
    }
    let cut = cut(book, text);
    if room < cut.tokens.len() {
        return refuse(15, cut.tokens.len());
    }
    Ok(cut)
}

// ---- Cutting in turns

/// The fewest bytes of `text` after which all rules stand in their error states, or all of them: the rules that live are walked on
/// together until none is left. Of a short text each number of bytes is tried, from 0 on, with a walk of every rule for each.
fn reach(rules: &[Walker], text: &[u8]) -> usize {
    let lives = |(rule, state): &(&Walker, u16)| *state != rule.error();
    let mut live: Vec<(&Walker, u16)> = rules.iter().map(|rule| (rule, rule.start())).filter(lives).collect();
    let mut count = 0;
    while count < text.len() && !live.is_empty() {
        live.iter_mut().for_each(|(rule, state)| *state = rule.step(*state, text[count]));
        live.retain(lives);
        count += 1;
    }
    if text.len() <= LITERAL {
        let all_stand = |n: &usize| rules.iter().all(|rule| rule.walk(&text[..*n]) == rule.error());
        assert_eq!(count, (0..text.len()).find(all_stand).unwrap_or(text.len()));
    }
    count
}

/// The reach of these rules at the beginning of a text.
pub fn reach_of(rules: &[&[u8]], text: &[u8]) -> usize {
    reach(&walkers(rules), text)
}

/// The reach at `place`, and at each place where a token ends that is cut from there on.
pub fn reaches(book: &[u8], text: &[u8], place: usize) -> Vec<usize> {
    let walkers = walkers(&rules(book));
    let mut cut = Cut::from(place);
    let mut found = vec![reach(&walkers, &text[place..])];
    while cut.next(&walkers, text) {
        found.push(reach(&walkers, &text[cut.rest..]));
    }
    found
}

/// The tokens of a turn, whose rest is the next place, the bytes that it examined, and whether it is finished or spent.
pub struct Turn {
    pub cut: Cut,
    pub examined: u64,
    pub finished: bool,
}

/// A turn of `budget` bytes from `place` on, with room for `room` records and masks.
pub fn lex_within(book: &[u8], text: &[u8], place: u64, budget: u64, room: usize) -> Result<Turn, Refusal> {
    read(book, Reading::Ordinary)?;
    if text.len() > TEXT_BYTES {
        return refuse(14, 0);
    }
    if place > text.len() as u64 {
        return refuse(27, 0);
    }
    let turn = turn(book, text, place as usize, budget);
    if room < turn.cut.tokens.len() {
        return refuse(15, turn.cut.tokens.len());
    }
    Ok(turn)
}

fn turn(book: &[u8], text: &[u8], place: usize, budget: u64) -> Turn {
    let walkers = walkers(&rules(book));
    let mut turn = Turn { cut: Cut::from(place), examined: 0, finished: false };
    loop {
        let examined = turn.examined + reach(&walkers, &text[turn.cut.rest..]) as u64;
        if examined > budget {
            return turn;
        }
        turn.examined = examined;
        if !turn.cut.next(&walkers, text) {
            turn.finished = true;
            return turn;
        }
    }
}

// ---- Writing

/// The rules of a book and how its tags name them.
struct Tags<'a> {
    rules: Vec<&'a [u8]>,
    walkers: Vec<Walker<'a>>,
    ranks: BTreeMap<u16, usize>,
}

impl<'a> Tags<'a> {
    fn of(book: &'a [u8]) -> Tags<'a> {
        let rules = rules(book);
        let ranks = rules.iter().enumerate().map(|(k, r)| (tag_of(r), k)).collect();
        Tags { walkers: walkers(&rules), rules, ranks }
    }

    /// A token's bytes and its rule's rank, or 17, 18, 19 at `place`.
    fn check<'p>(&self, r: Record, pool: &'p [u8], place: usize) -> Result<(&'p [u8], usize), Refusal> {
        let bytes = match r.bytes(pool) {
            Some(bytes) => bytes,
            None => return refuse(17, place),
        };
        let rank = match self.ranks.get(&r.tag) {
            Some(&rank) => rank,
            None => return refuse(18, place),
        };
        let first = self.walkers.iter().position(|rule| rule.matches(bytes));
        if first != Some(rank) {
            return refuse(19, place);
        }
        Ok((bytes, rank))
    }

    /// Whether some rule matches `word` plus a non-empty beginning of `after`.
    fn reads_on(&self, word: &[u8], after: &[u8]) -> bool {
        let beginnings = Beginnings::of(&self.walkers, word, after);
        beginnings.lengths(word.len()).any(|length| beginnings.first_match(length).is_some())
    }
}

/// Plain writing of the list `records` into `room` bytes.
pub fn print(book: &[u8], records: &[Record], pool: &[u8], room: usize) -> Result<Vec<u8>, Refusal> {
    read(book, Reading::Ordinary)?;
    if records.len() > LIST_TOKENS {
        return refuse(16, 0);
    }
    let tags = Tags::of(book);
    let mut tokens = Vec::new();
    for (i, r) in records.iter().enumerate() {
        tokens.push(tags.check(*r, pool, i)?.0);
    }
    let total: usize = tokens.iter().map(|t| t.len()).sum();
    if total > TEXT_BYTES {
        return refuse(20, 0);
    }
    let joined: Vec<u8> = tokens.concat();
    let mut end = 0;
    for (i, word) in tokens.iter().enumerate() {
        end += word.len();
        if tags.reads_on(word, &joined[end..]) {
            return refuse(21, i);
        }
    }
    if room < total {
        return refuse(22, total);
    }
    Ok(joined)
}

pub fn moves(rule: &[u8]) -> Vec<Move> {
    commands(rule).filter_map(Command::added).collect()
}

fn finals(rule: &[u8]) -> impl Iterator<Item = u16> + '_ {
    commands(rule).filter_map(|c| if let Command::Final(_, state) = c { Some(state) } else { None })
}

/// For each state that has one, a string by its last move, or by its first one where the string leads from the state: the rest is
/// the string of the state at that move's other end. No move stands for the empty string.
pub type Strings = Vec<Option<Option<Move>>>;

/// The string of a walk from the start to a state.
pub fn fronts(rule: &[u8]) -> Strings {
    grown(rule, &[start_of(rule)], |m| (m.0, m.3))
}

/// The string of a walk from a state to a final one.
pub fn backs(rule: &[u8]) -> Strings {
    let finals: Vec<u16> = finals(rule).collect();
    grown(rule, &finals, |m| (m.3, m.0))
}

/// The empty string for the states of `first`, and then each move that joins a state with a string to one without gives this one
/// its string. Rules of middle length are gone through in both ways.
fn grown(rule: &[u8], first: &[u16], ends: fn(Move) -> (u16, u16)) -> Strings {
    let moves = moves(rule);
    let last = commands(rule).flat_map(Command::states).max();
    let mut strings: Strings = vec![None; last.map_or(0, |s| s as usize + 1)];
    first.iter().for_each(|&s| strings[s as usize] = Some(None));
    if rule.len() > 2 * LONG_RULE {
        return by_rounds(strings, first, &moves, ends);
    }
    let found = |strings: &Strings| strings.iter().map(|s| s.is_some()).collect::<Vec<bool>>();
    let grown = by_passes(strings.clone(), &moves, ends);
    assert!(rule.len() <= LONG_RULE || found(&by_rounds(strings, first, &moves, ends)) == found(&grown));
    grown
}

/// All moves again and again, as long as one of them gives a string.
fn by_passes(mut strings: Strings, moves: &[Move], ends: fn(Move) -> (u16, u16)) -> Strings {
    let mut changed = true;
    while changed {
        changed = false;
        for &m in moves {
            let (with, without) = ends(m);
            if strings[with as usize].is_some() && strings[without as usize].is_none() {
                strings[without as usize] = Some(Some(m));
                changed = true;
            }
        }
    }
    strings
}

/// Of a long rule: in each round the moves of the states that the round before gave a string.
fn by_rounds(mut strings: Strings, first: &[u16], moves: &[Move], ends: fn(Move) -> (u16, u16)) -> Strings {
    let mut sorted = moves.to_vec();
    sorted.sort_by_key(|&m| ends(m).0);
    let mut round: BTreeSet<u16> = first.iter().copied().collect();
    while !round.is_empty() {
        let mut next = BTreeSet::new();
        for state in round {
            let from = sorted.partition_point(|&m| ends(m).0 < state);
            for &m in sorted[from..].iter().take_while(|&&m| ends(m).0 == state) {
                let without = ends(m).1;
                if strings[without as usize].is_none() {
                    strings[without as usize] = Some(Some(m));
                    next.insert(without);
                }
            }
        }
        round = next;
    }
    strings
}

/// The string of a state that has one, from that state outward.
fn string(strings: &Strings, state: u16, next: fn(Move) -> (u8, u16)) -> Vec<u8> {
    let last = |s: u16| strings[s as usize].expect("it has a string");
    std::iter::successors(last(state), |&m| last(next(m).1)).map(|m| next(m).0).collect()
}

/// The bytes that occur in the strings that the rule matches. Of a short rule each string is tried.
fn used(rule: &[u8]) -> BTreeSet<u8> {
    let (fronts, backs) = (fronts(rule), backs(rule));
    let tried = |from, byte, to| {
        let mut whole = string(&fronts, from, |m| (m.1, m.0));
        whole.reverse();
        whole.push(byte);
        whole.extend(string(&backs, to, |m| (m.2, m.3)));
        Walker::of(rule).matches(&whole)
    };
    let mut bytes = BTreeSet::new();
    for (from, low, high, to) in moves(rule) {
        if fronts[from as usize].is_some() && backs[to as usize].is_some() {
            for byte in low..=high {
                let new = bytes.insert(byte);
                assert!(!new || rule.len() > LITERAL || tried(from, byte, to));
            }
        }
    }
    bytes
}

fn used_by_kind(rules: &[&[u8]], separator: bool) -> BTreeSet<u8> {
    rules.iter().filter(|r| is_separator(r) == separator).flat_map(|r| used(r)).collect()
}

/// Writing with separators.
pub fn print_separated(
    book: &[u8],
    separator: Record,
    mode: u32,
    records: &[Record],
    pool: &[u8],
    room: usize,
) -> Result<Vec<u8>, Refusal> {
    read(book, Reading::Ordinary)?;
    let tags = Tags::of(book);
    let plain = used_by_kind(&tags.rules, false);
    if let Some(&byte) = plain.intersection(&used_by_kind(&tags.rules, true)).next() {
        return refuse(23, byte as usize);
    }
    if mode > 2 {
        return refuse(24, 0);
    }
    let (between, rank) = tags.check(separator, pool, records.len())?;
    if !is_separator(tags.rules[rank]) {
        return refuse(25, records.len());
    }
    if records.len() > LIST_TOKENS {
        return refuse(16, 0);
    }
    let mut tokens = Vec::new();
    for (i, r) in records.iter().enumerate() {
        let (bytes, rank) = tags.check(*r, pool, i)?;
        if is_separator(tags.rules[rank]) {
            return refuse(26, i);
        }
        tokens.push(bytes);
    }
    // from the last token back; `written` holds the text that is so far behind this token
    let mut written: VecDeque<u8> = VecDeque::new();
    for (i, word) in tokens.iter().enumerate().rev() {
        let last = i + 1 == tokens.len();
        if !last && (mode == 1 || tags.reads_on(word, written.make_contiguous())) {
            between.iter().rev().for_each(|&b| written.push_front(b));
        }
        word.iter().rev().for_each(|&b| written.push_front(b));
        // nothing that comes later makes it shorter
        if written.len() > TEXT_BYTES {
            return refuse(20, 0);
        }
    }
    if room < written.len() {
        return refuse(22, written.len());
    }
    Ok(written.into())
}
