//! Edges of refusal 23: moves that are on no way from the start to a final state. No string that the rule matches takes such a
//! move, so that it uses no byte. Of each case it is said here whether a byte is shared, and which.

use crate::calls::{expected, Answer, Call};
use crate::edges::{book, letter, record, Add};
use crate::generate::{bytes_of, Rule};
use crate::random::Random;
use crate::reference::{Move, BOOK_BYTES, LAST_STATE, RULE_MOVES};

pub fn branches(add: Add) {
    pairs(add);
    neighbours(add);
    spans(add);
    among_many(add);
    before_the_list(add);
    places(add);
    each_byte(add);
    one_wide(add);
    wide_among_many(add);
    chains(add);
    branching_chains(add);
    stars(add);
    wide_stars(add);
    full_books(add);
}

/// A rule with a byte in some place, whether it uses the byte, and a word that it matches.
struct Shape {
    name: &'static str,
    uses: bool,
    rule: Rule,
    word: Vec<u8>,
}

const ERROR: u16 = 9;

/// A move at one byte: from, byte, to.
type Step = (u16, u8, u16);

fn shape(name: &'static str, uses: bool, word: &[u8], start: u16, finals: &[u16], steps: &[Step]) -> Shape {
    let moves = steps.iter().map(|&(from, byte, to)| (from, byte, byte, to)).collect();
    let rule = Rule { tag: 0, kind: 0, start, error: ERROR, finals: finals.to_vec(), moves };
    Shape { name, uses, rule, word: word.to_vec() }
}

/// The places that a byte `x` can have in a rule whose other moves are at `o`, or where two are needed at one more byte.
fn shapes(o: u8, x: u8) -> Vec<Shape> {
    [used(o, x), dead_ends(o, x), unreached(o, x), nothing_matched(o, x)].into_iter().flatten().collect()
}

fn used(o: u8, x: u8) -> Vec<Shape> {
    let p = o | 0x80;
    let s = |name, word: &[u8], finals: &[u16], steps: &[Step]| shape(name, true, word, 0, finals, steps);
    vec![
        s("the only move", &[x], &[1], &[(0, x, 1)]),
        s("the first move", &[x, o], &[2], &[(0, x, 1), (1, o, 2)]),
        s("a move on the way", &[o, x, o], &[3], &[(0, o, 1), (1, x, 2), (2, o, 3)]),
        s("the last move", &[o, x], &[2], &[(0, o, 1), (1, x, 2)]),
        s("the second move between two states", &[o], &[1], &[(0, o, 1), (0, x, 1)]),
        s("the way to a second final state", &[o], &[1, 2], &[(0, o, 1), (0, x, 2)]),
        s("from one final state to another", &[o], &[1, 2], &[(0, o, 1), (1, x, 2)]),
        s("a loop at the start", &[o], &[1], &[(0, x, 0), (0, o, 1)]),
        s("a loop on the way", &[o, o], &[2], &[(0, o, 1), (1, x, 1), (1, o, 2)]),
        s("a loop at the final state", &[o], &[1], &[(0, o, 1), (1, x, 1)]),
        s("from the final state to the start", &[o], &[1], &[(0, o, 1), (1, x, 0)]),
        s("a round through the start", &[x, o], &[2], &[(0, x, 1), (1, x, 0), (1, o, 2)]),
        s("a round beside the way", &[o, o], &[3], &[(0, o, 1), (1, o, 3), (1, x, 2), (2, o, 1)]),
        s("a way that an unreached state joins", &[x, o], &[2], &[(0, x, 1), (1, o, 2), (5, o, 1)]),
        s("two moves past a final state", &[o], &[1, 3], &[(0, o, 1), (1, o, 2), (2, x, 3)]),
        s("a round through the start to the way", &[o], &[3], &[(0, o, 3), (0, x, 1), (1, o, 2), (2, o, 0)]),
        s("behind one branch", &[o, o, x], &[5], &[(0, o, 1), (0, p, 2), (1, o, 3), (2, o, 4), (3, x, 5), (4, o, 5)]),
        s("behind the other", &[o, o, o], &[5], &[(0, o, 1), (0, p, 2), (1, o, 3), (2, o, 4), (3, o, 5), (4, x, 5)]),
        s("a way that has a dead end", &[x, o], &[2], &[(0, x, 1), (1, o, 2), (1, x, 5), (5, x, 5)]),
        s("the longer way to the final state", &[o], &[1], &[(0, o, 1), (0, p, 2), (2, x, 1)]),
        s("the longer way, written first", &[o], &[1], &[(0, p, 2), (0, o, 1), (2, x, 1)]),
        s("from behind the final state back to it", &[o], &[1], &[(0, o, 1), (1, o, 2), (2, x, 1)]),
        s("a round behind the final state", &[o], &[1], &[(0, o, 1), (1, o, 2), (2, o, 3), (2, p, 1), (3, x, 2)]),
        s("a round on a round", &[o, o], &[4], &[(0, o, 1), (1, o, 4), (1, p, 2), (2, o, 3), (2, p, 1), (3, x, 2)]),
    ]
}

/// From no state behind the byte is a final one reached.
fn dead_ends(o: u8, x: u8) -> Vec<Shape> {
    let p = o | 0x80;
    let s = |name, word: &[u8], finals: &[u16], steps: &[Step]| shape(name, false, word, 0, finals, steps);
    vec![
        s("no move", &[o], &[1], &[(0, o, 1)]),
        s("from the start to the error state", &[o], &[1], &[(0, o, 1), (0, x, ERROR)]),
        s("from the final state to the error state", &[o], &[1], &[(0, o, 1), (1, x, ERROR)]),
        s("from a dead end to the error state", &[o], &[1], &[(0, o, 1), (1, o, 2), (2, x, ERROR)]),
        s("a dead end at the start", &[o], &[1], &[(0, o, 1), (0, x, 2)]),
        s("a dead end on the way", &[o, o], &[2], &[(0, o, 1), (1, o, 2), (1, x, 3)]),
        s("a dead end behind the final state", &[o], &[1], &[(0, o, 1), (1, x, 2)]),
        s("the second move to a dead end", &[o], &[1], &[(0, o, 1), (1, o, 2), (1, x, 2)]),
        s("within a dead end", &[o], &[1], &[(0, o, 1), (1, o, 2), (2, x, 3)]),
        s("behind dead branches", &[o], &[1], &[(0, o, 1), (0, p, 2), (2, o, 3), (2, p, 4), (3, x, 5), (4, x, 6)]),
        s("a dead loop", &[o], &[1], &[(0, o, 1), (0, x, 2), (2, x, 2)]),
        s("a dead round", &[o], &[1], &[(0, o, 1), (1, o, 2), (2, x, 3), (3, x, 4), (4, x, 2)]),
        s("a dead round with two ways in", &[o], &[1], &[(0, o, 1), (0, x, 3), (1, x, 2), (2, x, 3), (3, x, 2)]),
    ]
}

/// The state that the byte's move leaves is not reached from the start.
fn unreached(o: u8, x: u8) -> Vec<Shape> {
    let s = |name, word: &[u8], finals: &[u16], steps: &[Step]| shape(name, false, word, 0, finals, steps);
    vec![
        s("from an unreached state to the error state", &[o], &[1], &[(0, o, 1), (5, x, ERROR), (5, o, 1)]),
        s("from an unreached state to the final state", &[o], &[1], &[(0, o, 1), (5, x, 1)]),
        s("from an unreached state to the start", &[o], &[1], &[(0, o, 1), (5, x, 0)]),
        s("within unreached states on the way", &[o, o], &[2], &[(0, o, 1), (1, o, 2), (5, x, 6), (6, o, 1)]),
        s("to an unreached final state", &[o], &[1, 6], &[(0, o, 1), (5, x, 6)]),
        s("from an unreached final state", &[o], &[1, 5], &[(0, o, 1), (5, x, 1)]),
        s("an unreached loop at a final state", &[o], &[1, 5], &[(0, o, 1), (5, x, 5)]),
        s("an unreached round with a final state", &[o], &[5, 1], &[(0, o, 1), (5, x, 6), (6, x, 5)]),
        s("within unreached states that lead nowhere", &[o], &[1], &[(0, o, 1), (5, x, 6)]),
        s("from an unreached state to a dead end", &[o], &[1], &[(0, o, 1), (1, o, 2), (5, x, 2)]),
    ]
}

/// Rules that match no string.
fn nothing_matched(o: u8, x: u8) -> Vec<Shape> {
    let s = |name, start, finals: &[u16], steps: &[Step]| shape(name, false, &[], start, finals, steps);
    vec![
        s("a loop at the start of a rule without final states", 0, &[], &[(0, x, 0)]),
        s("a round in a rule without final states", 0, &[], &[(0, x, 1), (1, x, 0)]),
        s("a rule whose final state is unreached", 0, &[5], &[(0, x, 1), (1, o, 2), (2, x, 0)]),
        s("both sides of a gap", 0, &[6], &[(0, x, 1), (5, x, 6)]),
        s("a rule whose start nothing leaves", 0, &[2], &[(1, x, 2), (2, x, 0)]),
        s("a rule whose start leads to the error state", 0, &[2], &[(0, x, ERROR), (1, x, 2)]),
        s("a rule that starts in its error state", ERROR, &[1], &[(0, x, 1)]),
        s("a loop in a rule that starts in its error state", ERROR, &[1], &[(0, x, 1), (1, x, 1)]),
    ]
}

/// The rule with the states as they are, or numbered from 255, from a little above it, or from the last one down.
fn turned(rule: Rule, turn: usize) -> Rule {
    match turn % 4 {
        0 => rule,
        1 => rule.renamed(|s| 255 - s),
        2 => rule.renamed(|s| 259 - s),
        _ => rule.renamed(|s| LAST_STATE - s),
    }
}

fn named(rule: &Rule, tag: u16, kind: u8) -> Rule {
    Rule { tag, kind, ..rule.clone() }
}

/// Adds the writing of two words of tag 1, with a separator of tag 2 between them.
fn add_call(add: Add, name: &str, rules: Vec<Rule>, word: &[u8], between: &[u8], shared: Option<u8>) {
    let mut pool = word.to_vec();
    pool.extend(between);
    let token = record(1, 0, word.len());
    let separator = record(2, word.len(), between.len());
    let out = vec![0xEE; 2 * word.len() + between.len()];
    let call = Call::print_separated(&book(rules).bytes(), separator, 2, bytes_of(&[token, token]), &pool, out);
    add_held(add, name, call, shared);
}

/// Adds a call, of which the second implementation must say 23 at `shared`, or not 23.
fn add_held(add: Add, name: &str, call: Call, shared: Option<u8>) {
    let answer = Answer(expected(&call).answer);
    let said = (answer.number() == 23).then(|| answer.place() as u8);
    assert_eq!(said, shared, "{name}: {answer}");
    add(name, call);
}

const X: u8 = b'x';
const Y: u8 = b'y';
const PLAIN: u8 = b'a';
const BLANK: u8 = b' ';

/// Each place of a byte in a plain rule with each in a separator rule.
fn pairs(add: Add) {
    for (i, plain) in shapes(PLAIN, X).iter().enumerate() {
        for (k, separator) in shapes(BLANK, X).iter().enumerate() {
            let shared = (plain.uses && separator.uses).then_some(X);
            let name = format!("the byte x: {} | {}", plain.name, separator.name);
            let mut rules = vec![named(&plain.rule, 1, 0), named(&separator.rule, 2, 1)];
            rules[0] = turned(rules[0].clone(), i + k / 4);
            if i % 4 == 2 {
                rules[1] = turned(rules[1].clone(), k);
            }
            if k % 2 == 1 {
                rules.reverse();
            }
            add_call(add, &name, rules, &plain.word, &separator.word, shared);
        }
    }
}

/// A byte in one rule, and another one in a rule of the same kind that stands before or after it: the states of the one say
/// nothing about the same states of the other.
fn neighbours(add: Add) {
    for (i, other) in shapes(PLAIN, Y).iter().enumerate() {
        for (k, one) in shapes(PLAIN, X).iter().enumerate() {
            for after in [false, true] {
                let shared = one.uses.then_some(X);
                let kind = ((i + k) % 2) as u8;
                let name =
                    format!("the byte x: {}, {} {}", one.name, if after { "after" } else { "before" }, other.name);
                let mut rules = vec![named(&one.rule, 3, kind), named(&other.rule, 4, kind)];
                if after {
                    rules.reverse();
                }
                let (word, between) = if kind == 0 { (b'1', X) } else { (X, b'1') };
                rules.extend([letter(1, 0, word, true), letter(2, 1, between, true)]);
                add_call(add, &name, rules, &[word], &[between], shared);
            }
        }
    }
}

/// A SPAN in each place: the bytes from its low to its high one are used, and those beside it are not.
fn spans(add: Add) {
    for (kind, own) in [(0, PLAIN), (1, BLANK)] {
        for (i, one) in shapes(own, X).iter().enumerate() {
            for (low, high) in [(X - 1, X), (X, X + 1), (X - 1, X + 1), (X - 8, X + 2)] {
                let mut rule = named(&one.rule, 3, kind);
                rule.moves.iter_mut().filter(|m| m.1 == X).for_each(|m| (m.1, m.2) = (low, high));
                rule = turned(rule, i);
                for byte in [low - 1, low, X, high, high + 1] {
                    let used = one.uses && low <= byte && byte <= high;
                    let name = format!("a SPAN from {low:02X} to {high:02X} and the byte {byte:02X}: {}", one.name);
                    let other = letter(4, 1 - kind, byte, true);
                    let rules = vec![other, rule.clone(), letter(1, 0, b'1', true), letter(2, 1, b'2', true)];
                    add_call(add, &name, rules, b"1", b"2", used.then_some(byte));
                }
            }
        }
    }
}

/// A byte in one of 32 rules, the first, the last or one between them, the others with each of the states on a way.
fn among_many(add: Add) {
    let way = |tag: u16, kind: u8, byte: u8| Rule {
        tag,
        kind,
        start: 0,
        error: ERROR,
        finals: (1..ERROR).collect(),
        moves: (0..ERROR).map(|s| (s, byte, byte, (s + 1) % ERROR)).collect(),
    };
    for (kind, own) in [(0, PLAIN), (1, BLANK)] {
        for one in shapes(own, X) {
            for at in [0, 1, 15, 16, 30, 31] {
                let mut rules: Vec<Rule> =
                    (0..30).map(|k| way(k + 1, (k % 2) as u8, [b'1', b'2'][k as usize % 2])).collect();
                rules.insert(if at == 16 { 0 } else { 16 }, letter(50, 1 - kind, X, true));
                rules.insert(at, named(&one.rule, 60, kind));
                let name = format!("the byte x in rule {at} of 32: {}", one.name);
                add_call(add, &name, rules, b"1", b"2", one.uses.then_some(X));
            }
        }
    }
}

/// 23 comes before all else that is refused but the book; where it goes, what comes next is answered.
fn before_the_list(add: Add) {
    let fit = record(2, 1, 1);
    let separators = [fit, record(2, 0, 1), record(3, 0, 1), record(4, 1, 1), record(2, 1, 2), record(2, 2, 1)];
    let lists = [vec![], vec![record(3, 0, 1); 2], vec![record(3, 0, 1), fit]];
    for one in shapes(PLAIN, X) {
        let rules = vec![named(&one.rule, 1, 0), letter(2, 1, X, false), letter(3, 0, b'b', true)];
        let bytes = book(rules).bytes();
        let name = format!("the byte x and other refusals: {}", one.name);
        for mode in [0, 1, 2, 3] {
            for separator in separators {
                for list in &lists {
                    let call = Call::print_separated(&bytes, separator, mode, bytes_of(list), b"bx", vec![0xEE; 2]);
                    add_held(add, &name, call, one.uses.then_some(X));
                }
            }
        }
    }
}

/// A rule with moves at these bytes, to its final state where `live`, else to a dead end or, where `unreached`, from a state that
/// is not reached.
fn at_bytes(tag: u16, kind: u8, ranges: &[(u8, u8, bool)], unreached: bool) -> Rule {
    let place = |live| match (live, unreached) {
        (true, _) => (0, 1),
        (false, false) => (0, 2),
        (false, true) => (2, 1),
    };
    let moves = ranges.iter().map(|&(low, high, live)| (place(live).0, low, high, place(live).1)).collect();
    Rule { tag, kind, start: 0, error: 3, finals: vec![1], moves }
}

/// Three bytes, each of them used or not by each kind: the place is the lowest that both use.
fn places(add: Add) {
    for bytes in [[0, 1, 2], [7, 8, 9], [31, 32, 64], [63, 64, 65], [127, 128, 129], [0, 128, 255], [253, 254, 255]] {
        for set in 0..64 {
            let live = |kind: usize| -> Vec<(u8, u8, bool)> {
                (0..3).map(|i| (bytes[i], bytes[i], set >> (3 * kind + i) & 1 == 1)).collect()
            };
            let shared = (0..3).find(|i| live(0)[*i].2 && live(1)[*i].2).map(|i| bytes[i]);
            let word = |kind: usize| live(kind).iter().find(|r| r.2).map_or(Vec::new(), |r| vec![r.0]);
            for (first, second) in [(false, false), (false, true), (true, false), (true, true)] {
                let rules = vec![at_bytes(1, 0, &live(0), first), at_bytes(2, 1, &live(1), second)];
                add_call(add, "three bytes of both kinds", rules, &word(0), &word(1), shared);
            }
        }
    }
}

/// Each byte as the least one that is on a way, or as the only one that is or is not.
fn each_byte(add: Add) {
    for byte in 0..=255u8 {
        // the bytes below, the byte, the bytes above; and which of them are on a way
        let parts = [byte.checked_sub(1).map(|b| (0, b)), Some((byte, byte)), byte.checked_add(1).map(|b| (b, 255))];
        let ranges = |lives: [bool; 3]| -> Vec<(u8, u8, bool)> {
            let all = parts.iter().zip(lives);
            all.filter_map(|(range, live)| range.map(|(low, high)| (low, high, live))).collect()
        };
        let word = |lives| ranges(lives).iter().find(|r| r.2).map_or(Vec::new(), |r| vec![r.0]);
        let (none, all, only) = ([false; 3], [true; 3], [false, true, false]);
        let (from, others, to) = ([false, true, true], [true, false, true], [true, true, false]);
        for (plain, separators) in [(from, all), (all, from), (to, from), (others, only), (only, others), (none, all)] {
            let shared = (0..3).find_map(|i| parts[i].filter(|_| plain[i] && separators[i])).map(|range| range.0);
            for unreached in [false, true] {
                let rules =
                    vec![at_bytes(2, 1, &ranges(separators), unreached), at_bytes(1, 0, &ranges(plain), !unreached)];
                add_call(add, "each byte on a way or not", rules, &word(plain), &word(separators), shared);
            }
        }
    }
}

/// Each state of each shape alone under a number on either side of 256, or the last one, in the first or the last rule.
fn one_wide(add: Add) {
    for one in shapes(PLAIN, X) {
        for state in [0, 1, 2, 3, 4, 5, 6, ERROR] {
            for number in [255, 256, LAST_STATE] {
                let rule = named(&one.rule, 3, 0).renamed(|s| if s == state { number } else { s });
                let name = format!("the byte x, the state {state} as {number}: {}", one.name);
                let mut rules = vec![rule, letter(1, 0, b'1', true), letter(2, 1, X, true)];
                if (state as usize + name.len()) % 2 == 1 {
                    rules.reverse();
                }
                add_call(add, &name, rules, b"1", &[X], one.uses.then_some(X));
            }
        }
    }
}

/// A rule that is larger than the others, at each end of them, and the byte in it or in another one: a state of two bytes, or more
/// than 512 moves.
fn wide_among_many(add: Add) {
    let broad = |count: usize| -> Vec<Move> {
        (0..count).map(|i| (20 + (i / 100) as u16, (i % 100) as u8 + 150, (i % 100) as u8 + 150, 19)).collect()
    };
    for one in shapes(PLAIN, X) {
        for (at, other) in [(0, 3), (1, 3), (3, 0), (2, 3)] {
            for large in 0..6 {
                let mut rules: Vec<Rule> = (0..4).map(|k| letter(10 + k, 0, b'1', true)).collect();
                rules[at] = named(&one.rule, 3, 0);
                let mark = &mut rules[if large % 2 == 0 { at } else { other }];
                match large {
                    0 | 1 => mark.moves.extend(broad(512 - mark.moves.len())),
                    2 | 3 => mark.moves.extend(broad(513 - mark.moves.len())),
                    _ => mark.moves.push((256, 1, 1, 257)),
                }
                rules.extend([letter(1, 0, b'2', true), letter(2, 1, X, true)]);
                let name = format!("the byte x in rule {at}, number {large} of large rules: {}", one.name);
                add_call(add, &name, rules, b"2", &[X], one.uses.then_some(X));
            }
        }
    }
}

/// A chain through these states: from each to the next at `own`, but at the byte of `odd` in the move of that number.
fn chain(states: &[u16], error: u16, start: usize, finals: &[usize], own: u8, odd: (usize, u8)) -> Rule {
    let byte = |i| if i == odd.0 { odd.1 } else { own };
    Rule {
        tag: 0,
        kind: 0,
        start: states[start],
        error,
        finals: finals.iter().map(|&f| states[f]).collect(),
        moves: (0..states.len() - 1).map(|i| (states[i], byte(i), byte(i), states[i + 1])).collect(),
    }
}

/// States in the order of a chain: numbered upward, downward, or without order; and the error state, which is none of them. The
/// highest number is `last`.
fn numberings(count: usize, last: u16) -> Vec<(&'static str, Vec<u16>, u16)> {
    let up: Vec<u16> = (0..count as u16).collect();
    let down: Vec<u16> = (0..count as u16).map(|s| last - s).collect();
    let mut shuffled: Vec<u16> = (0..=last).filter(|&s| s != 100).collect();
    Random::of(count as u64, 0).shuffle(&mut shuffled);
    shuffled.truncate(count);
    vec![("upward", up, last), ("downward", down, 0), ("without order", shuffled, 100)]
}

/// The moves as they are written in the book.
fn orders(moves: &[Move]) -> Vec<(&'static str, Vec<Move>)> {
    let reversed = moves.iter().rev().copied().collect();
    let mut shuffled = moves.to_vec();
    Random::of(moves.len() as u64, 1).shuffle(&mut shuffled);
    vec![("first to last", moves.to_vec()), ("last to first", reversed), ("without order", shuffled)]
}

/// Chains of up to 4,095 states with the start, the final state and the byte anywhere in it: what is before the start is not
/// reached, what is after the final state is a dead end.
fn chains(add: Add) {
    // the number of states and the highest one: all below 256 or not, and no more than 512 moves or more
    for (count, last) in
        [(9, 255), (9, 260), (255, 255), (256, 256), (512, LAST_STATE), (514, 600), (4_095, LAST_STATE)]
    {
        let end = count - 1;
        for (numbered, states, error) in numberings(count, last) {
            for start in [0, count / 3] {
                for finish in [start + 1, count / 2, end - 1, end] {
                    for at in [0, start.max(1) - 1, start, finish - 1, finish.min(end - 1), end - 1] {
                        // of the longest ones fewer
                        if count > 600 && (finish == end - 1 || at + 1 == start) {
                            continue;
                        }
                        let shared = (start <= at && at < finish).then_some(X);
                        let kind = (start + finish + at) as u8 % 2;
                        let rule = chain(&states, error, start, &[finish], PLAIN, (at, X));
                        for (written, moves) in orders(&rule.moves) {
                            let rule = Rule { tag: 3, kind, moves, ..rule.clone() };
                            let name = format!(
                                "{count} states numbered {numbered}, moves written {written}, start {start}, final {finish}, the byte at {at}"
                            );
                            let rules = vec![
                                letter(4, 1 - kind, X, true),
                                rule,
                                letter(1, 0, b'1', true),
                                letter(2, 1, b'2', true),
                            ];
                            add_call(add, &name, rules, b"1", b"2", shared);
                        }
                    }
                }
            }
        }
    }
}

/// Chains with several moves from each state to the next, on either side of 512 moves and as many as a rule may have, and a dead end
/// or not.
fn branching_chains(add: Add) {
    let sizes = [
        (255, 255, 2, 512),
        (255, 255, 2, 513),
        (256, 256, 2, 512),
        (255, 255, 16, RULE_MOVES),
        (2_047, LAST_STATE, 2, RULE_MOVES),
        (4_095, LAST_STATE, 1, RULE_MOVES),
    ];
    for (count, last, branches, total) in sizes {
        for (numbered, states, error) in numberings(count, last) {
            let top = count - 1;
            for end in [count / 2, top] {
                for at in [0, end - 1, end.min(top - 1), top - 1] {
                    // each branch at a byte of its own, the last one with the odd byte
                    let branch = |b: usize| {
                        let odd = if b + 1 == branches { (at, X) } else { (0, 200 + b as u8) };
                        chain(&states, error, 0, &[end], 200 + b as u8, odd).moves
                    };
                    let mut moves: Vec<Move> = (0..branches).flat_map(branch).collect();
                    let loops = total - moves.len();
                    moves.extend((0..loops as u8).map(|b| (states[top], b, b, states[top])));
                    for (written, moves) in orders(&moves) {
                        let rule = Rule { tag: 3, kind: 0, start: states[0], error, finals: vec![states[end]], moves };
                        let name = format!("{total} moves, {count} states numbered {numbered}, written {written}, final {end}, the byte at {at}");
                        let rules = vec![letter(1, 0, b'1', true), rule, letter(2, 1, X, true)];
                        add_call(add, &name, rules, b"1", &[X], (at < end).then_some(X));
                    }
                }
            }
        }
    }
}

/// A start with 253 states around it, and an end that each of them has a move to, but for one that has a move at the byte: to the
/// end or to itself. That one may be unreached. Either the end is final, or the states around the start are.
fn stars(add: Add) {
    let (way, byte) = (254, 255);
    let wide = numberings(255, 259).into_iter().chain(numberings(255, LAST_STATE));
    for (numbered, states, error) in numberings(255, 255).into_iter().chain(wide) {
        let (start, around, end) = (states[0], &states[1..254], states[254]);
        for at in [0, 126, 252] {
            for (reached, to) in [(true, end), (true, around[at]), (false, end), (false, around[at])] {
                let out = |i| if i == at { (around[i], byte, byte, to) } else { (around[i], way, way, end) };
                let mut moves: Vec<Move> = (0..253).map(|i| (start, i as u8, i as u8, around[i])).collect();
                moves.retain(|m| reached || m.3 != around[at]);
                moves.extend((0..253).map(out));
                for (finals, word) in [(vec![end], &[1, way][..]), (around.to_vec(), &[1])] {
                    let live = reached && finals.contains(&to);
                    for (written, moves) in orders(&moves) {
                        let known = if reached { "reached" } else { "unreached" };
                        let name = format!("a star numbered {numbered}, written {written}, state {at} {known}");
                        let star = Rule { tag: 1, kind: 0, start, error, finals: finals.clone(), moves };
                        let rules = vec![star, letter(2, 1, byte, true)];
                        add_call(add, &name, rules, word, &[byte], live.then_some(byte));
                    }
                }
            }
        }
    }
}

/// A start with eight states around it, each of which has 255 around it, and an end that each of these has a move to, but for one
/// that has a move at the byte: to the end or to itself. That one may be unreached. Either the end is final, or one of its
/// neighbours.
fn wide_stars(add: Add) {
    let (way, byte) = (b'w', 255);
    let (hubs, each) = (8, 255);
    let count = 1 + hubs + hubs * each + 1;
    for (numbered, states, error) in numberings(count, LAST_STATE) {
        let (start, end) = (states[0], states[count - 1]);
        let (centres, around) = (&states[1..=hubs], &states[1 + hubs..count - 1]);
        for at in [0, 1_111, around.len() - 1] {
            for (reached, to) in [(true, end), (true, around[at]), (false, end), (false, around[at])] {
                let mut moves: Vec<Move> = (0..hubs).map(|h| (start, h as u8, h as u8, centres[h])).collect();
                let inward = (0..around.len()).filter(|&i| reached || i != at);
                moves.extend(inward.map(|i| (centres[i / each], (i % each) as u8, (i % each) as u8, around[i])));
                let out = |i| if i == at { (around[i], byte, byte, to) } else { (around[i], way, way, end) };
                moves.extend((0..around.len()).map(out));
                for (finals, word) in [(vec![end], &[0, 1, way][..]), (vec![around[1], around[at]], &[0, 1])] {
                    let live = reached && finals.contains(&to);
                    for (written, moves) in orders(&moves) {
                        let known = if reached { "reached" } else { "unreached" };
                        let name = format!(
                            "a star of {count} states numbered {numbered}, written {written}, state {at} {known}"
                        );
                        let star = Rule { tag: 1, kind: 0, start, error, finals: finals.clone(), moves };
                        let rules = vec![star, letter(2, 1, byte, true)];
                        add_call(add, &name, rules, word, &[byte], live.then_some(byte));
                    }
                }
            }
        }
    }
}

/// Books of 32 chains, as long as a book may be, with the byte in the first, the last or one between them, before or after the
/// last final state: of states below 256, of states beyond, and with one rule of these among those.
fn full_books(add: Add) {
    for (last, far) in [(255, 32), (LAST_STATE, 32), (255, 0), (255, 16), (255, 31)] {
        let count = if last == 255 { 253 } else { 285 };
        for (numbered, states, error) in numberings(count, last) {
            for one in [0, 15, 16, 31] {
                for at in [100, 220] {
                    let mut rules: Vec<Rule> = Vec::new();
                    for k in 0..32 {
                        let (kind, own) = [(0, PLAIN), (1, BLANK)][k % 2];
                        // the other kind uses the byte too
                        let byte = if k == one || k == (one + 17) % 32 { X } else { own };
                        let rule = chain(&states, error, 0, &[1, 200], own, (if k == one { at } else { 50 }, byte));
                        let (_, moves) = orders(&rule.moves).swap_remove(k % 3);
                        let rule = Rule { tag: k as u16 + 1, kind, moves, ..rule };
                        rules.push(if k == far { rule.renamed(|s| LAST_STATE - s) } else { rule });
                    }
                    let bytes = |rules: &[Rule]| book(rules.to_vec()).bytes().len();
                    // an odd number that is left: a SPAN takes five or seven bytes, each FINAL of a state below 256 two
                    if (BOOK_BYTES - bytes(&rules)) % 2 == 1 {
                        rules[31].moves.push((states[count - 1], 0, 1, states[count - 1]));
                    }
                    let before = |s: &u16| states.iter().position(|t| t == s).map_or(true, |i| 0 < i && i < 200);
                    let short = (1..255).find(|s| before(s) && *s != error).expect("there is one");
                    let left = BOOK_BYTES - bytes(&rules);
                    rules[31].finals.extend(vec![short; left / 2]);
                    assert_eq!(bytes(&rules), BOOK_BYTES);
                    let name =
                        format!("32 chains up to {last}, {far}, numbered {numbered}, the byte at {at} of rule {one}");
                    add_call(add, &name, rules, &[PLAIN], &[BLANK], (at < 200).then_some(X));
                }
            }
        }
    }
}
