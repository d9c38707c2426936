//! Expressions a second time, from the text of document 02, wish 9, alone.
//!
//! A machine takes the text byte by byte, with a stack of what is open, and says at which byte no right expression goes on. The sets
//! of positions are found by simulating: threads stand before positions, and a byte moves those that take it. They are numbered by
//! their strings. What an expression matches is said by its tree alone. For short texts each of the three is held to another: the
//! machine to the grammar, the sets and the final ones to the tree.

use crate::reference::{self as paper, Refusal};
use std::collections::{BTreeMap, BTreeSet};

pub const EXPRESSION_BYTES: usize = 512;
pub const POSITIONS: usize = 64;
pub const DEPTH: usize = 16;
pub const SETS: usize = 254;

/// The bytes that stand for themselves only behind a backslash; 00 never does.
pub const SPECIAL: &[u8; 12] = b"^.[$()|*+?{\\";
/// The bytes that a list cannot name, nor can it 00.
pub const UNLISTED: &[u8; 5] = b"][-\\^";
pub const ERROR_STATE: u8 = 255;

/// The longest text of which all is done in two ways.
const SHORT: usize = 24;

pub fn is_ordinary(byte: u8) -> bool {
    byte != 0 && !SPECIAL.contains(&byte)
}

pub fn is_listed(byte: u8) -> bool {
    byte != 0 && !UNLISTED.contains(&byte)
}

fn by_period(byte: u8) -> bool {
    byte != 0 && byte != b'\n'
}

fn refuse<T>(number: u8, place: usize) -> Result<T, Refusal> {
    Err(Refusal { number, place })
}

// ---- The text

#[derive(Clone, Debug, PartialEq, Eq)]
pub enum Tree {
    /// A position by its number in the text, and the bytes that it takes.
    Position(usize, Vec<bool>),
    Sequence(Vec<Tree>),
    Alternatives(Vec<Tree>),
    /// With * + or ? behind it.
    Repeated(Box<Tree>, u8),
}

/// What the text may go on with.
#[derive(Clone, Copy, Debug, PartialEq, Eq)]
pub enum Expected {
    Piece,
    /// Behind a piece: also what repeats it.
    Repetition,
    /// Behind one that is repeated.
    NoRepetition,
    Escaped,
    ListByte,
    /// Behind a list byte, which may become the first end of a range.
    RangeOrByte(u8),
    RangeEnd(u8),
    /// Behind a range.
    ByteOrClose,
}

/// An open alternative: the sequences before the last |, and the pieces behind it.
#[derive(Clone, Debug, Default)]
struct Open {
    sequences: Vec<Tree>,
    pieces: Vec<Tree>,
}

impl Open {
    fn end_sequence(&mut self) {
        self.sequences.push(Tree::Sequence(std::mem::take(&mut self.pieces)));
    }

    fn tree(mut self) -> Tree {
        self.end_sequence();
        Tree::Alternatives(self.sequences)
    }
}

/// The machine, after some bytes.
pub struct Machine {
    pub expected: Expected,
    /// The outermost alternative and one for each open parenthesis.
    open: Vec<Open>,
    list: Vec<bool>,
    pub positions: usize,
    pub depth: usize,
}

impl Machine {
    pub fn new() -> Machine {
        Machine { expected: Expected::Piece, open: vec![Open::default()], list: Vec::new(), positions: 0, depth: 0 }
    }

    /// Takes the bytes of a text up to the first at which no continuation could be right; its place, or else the text's length
    /// where that is not the end of a right one.
    pub fn read(text: &[u8]) -> (Machine, Option<usize>) {
        let mut machine = Machine::new();
        let fault = text.iter().position(|&byte| !machine.take(byte));
        let unfinished = fault.is_none() && !machine.may_end();
        (machine, fault.or(unfinished.then_some(text.len())))
    }

    fn may_end(&self) -> bool {
        self.open.len() == 1 && matches!(self.expected, Expected::Repetition | Expected::NoRepetition)
    }

    fn innermost(&mut self) -> &mut Open {
        self.open.last_mut().expect("the outermost stays")
    }

    fn piece(&mut self, piece: Tree) -> bool {
        self.innermost().pieces.push(piece);
        self.expected = Expected::Repetition;
        true
    }

    fn position(&mut self, takes: impl Fn(u8) -> bool) -> bool {
        self.positions += 1;
        self.piece(Tree::Position(self.positions, (0..=255).map(takes).collect()))
    }

    fn expect(&mut self, expected: Expected) -> bool {
        self.expected = expected;
        true
    }

    fn list(&mut self, low: u8, high: u8, expected: Expected) -> bool {
        self.list[low as usize..=high as usize].fill(true);
        self.expect(expected)
    }

    /// Takes a byte, where some right expression goes on with it.
    pub fn take(&mut self, byte: u8) -> bool {
        match (self.expected, byte) {
            (Expected::Escaped, _) => SPECIAL.contains(&byte) && self.position(|b| b == byte),
            (Expected::RangeOrByte(low), b'-') => self.expect(Expected::RangeEnd(low)),
            (Expected::RangeOrByte(_) | Expected::ByteOrClose, b']') => {
                let list = std::mem::take(&mut self.list);
                self.position(|b| list[b as usize])
            }
            (Expected::ListByte | Expected::RangeOrByte(_) | Expected::ByteOrClose, _) => {
                is_listed(byte) && self.list(byte, byte, Expected::RangeOrByte(byte))
            }
            (Expected::RangeEnd(low), _) => {
                is_listed(byte) && low <= byte && self.list(low, byte, Expected::ByteOrClose)
            }
            (Expected::Repetition, b'*' | b'+' | b'?') => {
                let piece = self.innermost().pieces.pop().expect("it stands before");
                self.piece(Tree::Repeated(Box::new(piece), byte)) && self.expect(Expected::NoRepetition)
            }
            (Expected::Repetition | Expected::NoRepetition, b'|') => {
                self.innermost().end_sequence();
                self.expect(Expected::Piece)
            }
            (Expected::Repetition | Expected::NoRepetition, b')') if self.open.len() > 1 => {
                let closed = self.open.pop().expect("more than one").tree();
                self.piece(closed)
            }
            (_, b'(') => {
                self.open.push(Open::default());
                self.depth = self.depth.max(self.open.len() - 1);
                self.expect(Expected::Piece)
            }
            (_, b'[') => {
                self.list = vec![false; 256];
                self.expect(Expected::ListByte)
            }
            (_, b'\\') => self.expect(Expected::Escaped),
            (_, b'.') => self.position(by_period),
            _ => is_ordinary(byte) && self.position(|b| b == byte),
        }
    }
}

/// The tree of a right expression, whatever its size; else the place of its fault.
pub fn tree(text: &[u8]) -> Result<Tree, usize> {
    let (mut machine, fault) = Machine::read(text);
    if text.len() <= SHORT {
        assert_eq!(fault, grammar::fault(text), "{text:?}");
    }
    match fault {
        Some(place) => Err(place),
        None => Ok(machine.open.pop().expect("the outermost").tree()),
    }
}

/// The wish's grammar, of which all derivations are followed at once.
pub mod grammar {
    use super::{is_listed, is_ordinary, SPECIAL};
    use std::collections::BTreeSet;

    #[derive(Clone, Copy, PartialEq, Eq, PartialOrd, Ord)]
    enum Symbol {
        Alternatives,
        MoreAlternatives,
        Sequence,
        MorePieces,
        Piece,
        Repetition,
        Items,
        MoreItems,
        /// From here on one byte.
        Is(u8),
        Ordinary,
        Special,
        Listed,
        /// The first end of a range, and a last one that is not below it.
        From,
        To(u8),
    }

    use Symbol::*;

    /// What a symbol can be replaced by; nothing where it stands for a byte.
    fn rules(symbol: Symbol) -> Option<Vec<Vec<Symbol>>> {
        Some(match symbol {
            Alternatives => vec![vec![Sequence, MoreAlternatives]],
            MoreAlternatives => vec![vec![], vec![Is(b'|'), Alternatives]],
            Sequence => vec![vec![Piece, Repetition, MorePieces]],
            MorePieces => vec![vec![], vec![Sequence]],
            Piece => vec![
                vec![Ordinary],
                vec![Is(b'\\'), Special],
                vec![Is(b'.')],
                vec![Is(b'['), Items, Is(b']')],
                vec![Is(b'('), Alternatives, Is(b')')],
            ],
            Repetition => vec![vec![], vec![Is(b'*')], vec![Is(b'+')], vec![Is(b'?')]],
            Items => vec![vec![Listed, MoreItems], vec![From, MoreItems]],
            MoreItems => vec![vec![], vec![Items]],
            Is(_) | Ordinary | Special | Listed | From | To(_) => return None,
        })
    }

    /// What is left of a symbol that stands for a byte, where it can be this one.
    fn taken(symbol: Symbol, byte: u8) -> Option<Vec<Symbol>> {
        let may = match symbol {
            Is(wanted) => byte == wanted,
            Ordinary => is_ordinary(byte),
            Special => SPECIAL.contains(&byte),
            Listed | From => is_listed(byte),
            To(low) => is_listed(byte) && low <= byte,
            _ => false,
        };
        may.then(|| if symbol == From { vec![Is(b'-'), To(byte)] } else { vec![] })
    }

    /// What can be left of a derivation, its first symbol last.
    type Left = Vec<Symbol>;

    /// Symbols replaced until a byte stands in front, or nothing is left.
    fn replaced(all: BTreeSet<Left>) -> BTreeSet<Left> {
        let mut work: Vec<Left> = all.into_iter().collect();
        let mut done = BTreeSet::new();
        while let Some(left) = work.pop() {
            match left.last().and_then(|&symbol| rules(symbol)) {
                Some(rules) => work.extend(rules.into_iter().map(|new| {
                    let rest = &left[..left.len() - 1];
                    rest.iter().copied().chain(new.into_iter().rev()).collect::<Left>()
                })),
                None => {
                    done.insert(left);
                }
            }
        }
        done
    }

    /// The place of the first byte that no derivation has there, or the length where none ends.
    pub fn fault(text: &[u8]) -> Option<usize> {
        let mut all = replaced(BTreeSet::from([vec![Alternatives]]));
        for (place, &byte) in text.iter().enumerate() {
            let mut next = BTreeSet::new();
            for mut left in all {
                if let Some(more) = left.pop().and_then(|symbol| taken(symbol, byte)) {
                    left.extend(more.into_iter().rev());
                    next.insert(left);
                }
            }
            if next.is_empty() {
                return Some(place);
            }
            all = replaced(next);
        }
        (!all.contains(&Vec::new())).then_some(text.len())
    }
}

// ---- What the tree matches

/// Where matches can end that begin at one of these places; `taken` is told each place at which a position takes the byte.
fn ends(tree: &Tree, text: &[u8], starts: &BTreeSet<usize>, taken: &mut dyn FnMut(usize, usize)) -> BTreeSet<usize> {
    match tree {
        Tree::Position(position, bytes) => {
            let here = starts.iter().filter(|&&at| at < text.len() && bytes[text[at] as usize]);
            here.map(|&at| (taken(at, *position), at + 1).1).collect()
        }
        Tree::Sequence(pieces) => pieces.iter().fold(starts.clone(), |places, piece| ends(piece, text, &places, taken)),
        Tree::Alternatives(sequences) => sequences.iter().flat_map(|s| ends(s, text, starts, taken)).collect(),
        Tree::Repeated(piece, b'?') => starts | &ends(piece, text, starts, taken),
        Tree::Repeated(piece, b'+') => {
            let once = ends(piece, text, starts, taken);
            repeated(piece, text, once, taken)
        }
        Tree::Repeated(piece, _) => repeated(piece, text, starts.clone(), taken),
    }
}

/// The places that are reached by a piece any number of times.
fn repeated(
    piece: &Tree,
    text: &[u8],
    mut places: BTreeSet<usize>,
    taken: &mut dyn FnMut(usize, usize),
) -> BTreeSet<usize> {
    loop {
        let more = ends(piece, text, &places, taken);
        if more.is_subset(&places) {
            return places;
        }
        places.extend(more);
    }
}

/// The length of the longest beginning of a text that is matched.
pub fn longest(tree: &Tree, text: &[u8]) -> Option<usize> {
    ends(tree, text, &BTreeSet::from([0]), &mut |_, _| ()).last().copied()
}

pub fn matches(tree: &Tree, word: &[u8]) -> bool {
    longest(tree, word) == Some(word.len())
}

/// The positions that can have matched the last byte of a string.
fn lasts(tree: &Tree, string: &[u8]) -> Set {
    let mut set = BTreeSet::new();
    let mut taken = |place: usize, position: usize| {
        if place + 1 == string.len() {
            set.insert(position);
        }
    };
    ends(tree, string, &BTreeSet::from([0]), &mut taken);
    set.into_iter().collect()
}

// ---- Sets of positions

/// Positions, rising.
type Set = Vec<usize>;

/// Where a thread can be.
enum Node {
    /// Before a position, and where it goes on.
    Before(usize, usize),
    /// At several places at once.
    Split(Vec<usize>),
    End,
}

/// The nodes of an expression, and the bytes of each position.
struct Threads {
    nodes: Vec<Node>,
    bytes: BTreeMap<usize, Vec<bool>>,
    begin: usize,
}

impl Threads {
    fn of(tree: &Tree) -> Threads {
        let mut threads = Threads { nodes: vec![Node::End], bytes: BTreeMap::new(), begin: 0 };
        threads.begin = threads.add(tree, 0);
        threads
    }

    fn push(&mut self, node: Node) -> usize {
        self.nodes.push(node);
        self.nodes.len() - 1
    }

    /// The node at which a tree begins that goes on at `next`.
    fn add(&mut self, tree: &Tree, next: usize) -> usize {
        match tree {
            Tree::Position(position, bytes) => {
                self.bytes.insert(*position, bytes.clone());
                self.push(Node::Before(*position, next))
            }
            Tree::Sequence(pieces) => pieces.iter().rev().fold(next, |next, piece| self.add(piece, next)),
            Tree::Alternatives(sequences) => {
                let all = sequences.iter().map(|s| self.add(s, next)).collect();
                self.push(Node::Split(all))
            }
            Tree::Repeated(piece, how) => {
                let split = self.push(Node::Split(Vec::new()));
                let again = self.add(piece, if *how == b'?' { next } else { split });
                self.nodes[split] = Node::Split(vec![again, next]);
                if *how == b'+' {
                    again
                } else {
                    split
                }
            }
        }
    }

    /// The positions that threads at these nodes can go to without a byte, and whether they can end so.
    fn waiting(&self, from: impl IntoIterator<Item = usize>) -> (BTreeSet<usize>, bool) {
        let mut work: Vec<usize> = from.into_iter().collect();
        let (mut seen, mut before, mut ended) = (BTreeSet::new(), BTreeSet::new(), false);
        while let Some(at) = work.pop() {
            if seen.insert(at) {
                match &self.nodes[at] {
                    Node::Before(position, _) => {
                        before.insert(*position);
                    }
                    Node::Split(all) => work.extend(all),
                    Node::End => ended = true,
                }
            }
        }
        (before, ended)
    }

    /// The nodes behind the positions of a set.
    fn behind<'a>(&'a self, set: &'a [usize]) -> impl Iterator<Item = usize> + 'a {
        self.nodes.iter().filter_map(|node| match node {
            Node::Before(position, next) if set.contains(position) => Some(*next),
            _ => None,
        })
    }

    /// Of a set, or of the beginning, the sets that each byte leads to, and whether it is final.
    fn row(&self, set: Option<&Set>) -> (Vec<Set>, bool) {
        let from: Vec<usize> = set.map_or(vec![self.begin], |set| self.behind(set).collect());
        let (waiting, ended) = self.waiting(from);
        let ready: Vec<(usize, &[bool])> =
            waiting.iter().map(|&position| (position, &self.bytes[&position][..])).collect();
        let takes =
            |byte: usize| ready.iter().filter(|(_, bytes)| bytes[byte]).map(|(position, _)| *position).collect();
        ((0..256).map(takes).collect(), ended)
    }
}

/// Where each byte leads from a set, and whether it is final.
type Row = (Vec<Set>, bool);

/// The sets with their least strings, the order of bytes being the one given, and the rows of all and of the beginning. None where there
/// are more than `most`.
fn reached(
    tree: &Tree,
    most: usize,
    order: &impl Fn(u8) -> u8,
) -> Option<(Vec<(Vec<u8>, Set)>, BTreeMap<Option<Set>, Row>)> {
    let threads = Threads::of(tree);
    let mut bytes: Vec<u8> = (0..=255).collect();
    bytes.sort_by_key(|&byte| order(byte));
    let mut strings: BTreeMap<Set, Vec<u8>> = BTreeMap::new();
    let mut rows = BTreeMap::new();
    let mut layer: Vec<(Vec<u8>, Option<Set>)> = vec![(Vec::new(), None)];
    while !layer.is_empty() {
        let mut next = Vec::new();
        for (string, set) in layer {
            let row = threads.row(set.as_ref());
            let mut before: &[usize] = &[];
            for &byte in &bytes {
                let to = &row.0[byte as usize];
                if to[..] != *before && !strings.contains_key(to) && !to.is_empty() {
                    let longer = [&string[..], &[byte]].concat();
                    strings.insert(to.clone(), longer.clone());
                    next.push((longer, Some(to.clone())));
                }
                before = to;
            }
            rows.insert(set, row);
        }
        if strings.len() > most {
            return None;
        }
        layer = next;
    }
    let mut all: Vec<(Vec<u8>, Set)> = strings.into_iter().map(|(set, string)| (string, set)).collect();
    all.sort_by_key(|(string, _)| (string.len(), string.iter().map(|&b| order(b)).collect::<Vec<u8>>()));
    Some((all, rows))
}

/// How many sets an expression has, whatever their number.
pub fn sets(tree: &Tree) -> usize {
    reached(tree, usize::MAX, &|byte| byte).expect("no limit").0.len()
}

/// What a rule is made of: for each state where each byte leads, and whether it is final.
#[derive(Clone, Debug, PartialEq, Eq)]
pub struct Table {
    pub targets: Vec<Vec<u8>>,
    pub finals: Vec<bool>,
}

impl Table {
    /// State 0 is the beginning; the sets are numbered by their strings. None where there are too many.
    pub fn of(tree: &Tree, order: impl Fn(u8) -> u8) -> Option<Table> {
        let (sets, rows) = reached(tree, SETS, &order)?;
        let numbers: BTreeMap<&Set, u8> = sets.iter().map(|(_, set)| set).zip(1..).collect();
        let mut table = Table { targets: Vec::new(), finals: Vec::new() };
        for state in [None].into_iter().chain(sets.iter().map(|(_, set)| Some(set.clone()))) {
            let (row, ended) = &rows[&state];
            let mut targets: Vec<u8> = Vec::new();
            for (byte, to) in row.iter().enumerate() {
                targets.push(match targets.last() {
                    Some(&target) if *to == row[byte - 1] => target,
                    _ => numbers.get(to).copied().unwrap_or(ERROR_STATE),
                });
            }
            table.targets.push(targets);
            table.finals.push(*ended);
        }
        Some(table)
    }

    /// The SPANs: from, low, high, to.
    pub fn spans(&self) -> Vec<[u8; 4]> {
        let mut spans: Vec<[u8; 4]> = Vec::new();
        for (from, row) in self.targets.iter().enumerate() {
            for (byte, &to) in row.iter().enumerate().filter(|(_, to)| **to != ERROR_STATE) {
                match spans.last_mut() {
                    Some([f, _, high, t]) if (*f as usize, *high as usize + 1, *t) == (from, byte, to) => *high += 1,
                    _ => spans.push([from as u8, byte as u8, byte as u8, to]),
                }
            }
        }
        spans
    }

    pub fn commands(&self, tag: u16, kind: u8, spans: &[[u8; 4]]) -> Vec<u8> {
        let [high, low] = tag.to_be_bytes();
        let mut bytes = vec![paper::RULE, high, low, kind, paper::START, 0, paper::ERROR, ERROR_STATE];
        for (state, _) in self.finals.iter().enumerate().filter(|(_, ended)| **ended) {
            bytes.extend([paper::FINAL, state as u8]);
        }
        for span in spans {
            bytes.push(paper::SPAN);
            bytes.extend(span);
        }
        bytes.push(paper::CLOSE);
        bytes
    }
}

/// Holds the states of a short expression to its tree, each by its least string, and where the bytes at which targets change lead.
fn hold(tree: &Tree, table: &Table) {
    let states = table.targets.len();
    let mut strings: Vec<Option<Vec<u8>>> = vec![None; states];
    strings[0] = Some(Vec::new());
    let mut led = Vec::new();
    for state in 0..states {
        let string = strings[state].clone().expect("a state before it leads to it");
        assert_eq!(matches(tree, &string), table.finals[state], "{string:?}");
        let row = &table.targets[state];
        for byte in (0..=255u8).filter(|&b| b == 0 || row[b as usize - 1] != row[b as usize]) {
            let longer = [&string[..], &[byte]].concat();
            led.push((row[byte as usize], lasts(tree, &longer)));
            if row[byte as usize] != ERROR_STATE {
                strings[row[byte as usize] as usize].get_or_insert(longer);
            }
        }
    }
    assert!(strings
        .windows(2)
        .all(|two| two[0].as_ref().map(|s| (s.len(), s)) < two[1].as_ref().map(|s| (s.len(), s))));
    let mut sets: BTreeMap<u8, Set> = BTreeMap::from([(ERROR_STATE, Vec::new())]);
    for (state, set) in led {
        assert_eq!(*sets.entry(state).or_insert(set.clone()), set, "state {state}");
    }
    assert_eq!(sets.values().collect::<BTreeSet<_>>().len(), states);
}

// ---- The call

/// The table of an expression, after the refusals that come before its output's.
pub fn table(tag: u16, kind: u32, text: &[u8]) -> Result<Table, Refusal> {
    if tag == 0 || kind > 1 {
        return refuse(6, 0);
    }
    if text.len() > EXPRESSION_BYTES {
        return refuse(31, 0);
    }
    let tree = tree(text).or_else(|place| refuse(30, place))?;
    let (machine, _) = Machine::read(text);
    if machine.positions > POSITIONS || machine.depth > DEPTH {
        return refuse(31, 0);
    }
    let table = Table::of(&tree, |byte| byte).map_or_else(|| refuse(32, 0), Ok)?;
    if text.len() <= SHORT && table.targets.len() <= SHORT {
        hold(&tree, &table);
    }
    Ok(table)
}

/// The commands of an expression's rule, for an output of so many bytes.
pub fn compile(tag: u16, kind: u32, text: &[u8], room: usize) -> Result<Vec<u8>, Refusal> {
    let table = table(tag, kind, text)?;
    let bytes = table.commands(tag, kind as u8, &table.spans());
    if bytes.len() > room {
        return refuse(22, bytes.len());
    }
    Ok(bytes)
}
