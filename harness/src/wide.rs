//! Edges of larger rules (document 02, wish 13): states of two bytes, and as many states and moves as a rule may have. Of each book
//! it is said here what its reading answers, and of each text how it is cut.

use crate::calls::{accepted, expected, refused, Answer, Call};
use crate::edges::{self, book, letter, record, Add};
use crate::generate::{bytes_of, Book, Rule};
use crate::random::Random;
use crate::reference::{self as paper, Command, Record, Refusal, Width, LAST_STATE, RULE_MOVES};
use Width::{Short, Wide};

pub fn books(add: Add) {
    numbers(add);
    changed(add);
    both_widths(add);
    twice(add);
    overlaps(add);
    faults_at_close(add);
    cut_off(add);
    many_moves(add);
    orders(add);
    switches(add);
    switches_among_faults(add);
    chains(add);
    every_state(add);
    read_on(add);
}

type Commands = Vec<Vec<u8>>;

const WIDTHS: [Width; 2] = [Short, Wide];

/// Numbers of states on either side of each limit, and those that are such numbers with the bytes turned.
const NUMBERS: [u16; 25] = [
    0, 1, 3, 5, 7, 15, 16, 254, 255, 256, 257, 259, 511, 512, 3_840, 4_094, 4_095, 4_096, 4_097, 4_111, 4_112, 8_192,
    32_768, 65_280, 65_535,
];

fn start(width: Width, state: u16) -> Vec<u8> {
    Command::Start(width, state).bytes()
}

fn error(width: Width, state: u16) -> Vec<u8> {
    Command::Error(width, state).bytes()
}

fn final_state(width: Width, state: u16) -> Vec<u8> {
    Command::Final(width, state).bytes()
}

fn span(width: Width, from: u16, low: u8, high: u8, to: u16) -> Vec<u8> {
    Command::Span { width, from, low, high, to }.bytes()
}

/// A move at one byte in each of the ways to write it.
fn steps(from: u16, byte: u8, to: u16) -> [Vec<u8>; 3] {
    let step = Command::Step { from: from as u8, byte, to: to as u8 };
    [step.bytes(), span(Short, from, byte, byte, to), span(Wide, from, byte, byte, to)]
}

/// The rule of tag 1 with these commands, between a rule for "z" and one for a blank.
fn among(more: Commands) -> Commands {
    let before = letter(3, 0, b'z', true).commands();
    let after = letter(2, 1, b' ', true).commands();
    [before, vec![vec![paper::RULE, 0, 1, 0]], more, vec![vec![paper::CLOSE]], after, vec![vec![paper::END]]].concat()
}

/// The number of the first of these commands.
const FIRST: usize = 7;

fn place(commands: &[Vec<u8>], at: usize) -> usize {
    commands[..at].iter().map(|c| c.len()).sum()
}

/// Adds the reading of a book, of which the second implementation must say this: the number of rules, or a number at a place.
fn add_held(add: Add, name: &str, bytes: &[u8], said: Result<usize, (u8, usize)>) {
    let call = Call::read_book(bytes);
    let answer = expected(&call).answer;
    let said = said.map_or_else(|(number, place)| refused(Refusal { number, place }), |rules| accepted(rules, 0));
    assert_eq!(answer, said, "{name}: {}", Answer(answer));
    add(name, call);
}

/// The same of commands, with the number of the command that is refused.
fn add_book(add: Add, name: &str, commands: &[Vec<u8>], said: Result<usize, (u8, usize)>) {
    add_held(add, name, &commands.concat(), said.map_err(|(number, at)| (number, place(commands, at))));
}

/// The same of a rule among others, with the number of its command, which is that of CLOSE where it is past the last.
fn add_rule(add: Add, name: &str, rule: Commands, said: Result<(), (u8, usize)>) {
    let commands = among(rule);
    add_book(add, name, &commands, said.map(|()| 3).map_err(|(number, at)| (number, FIRST + at)));
}

/// Adds a cut, which must give these tags and lengths.
fn add_cut(add: Add, name: &str, book: &[u8], text: &[u8], said: &[(u16, usize)]) {
    let cut = paper::cut(book, text);
    let tokens: Vec<(u16, usize)> = cut.tokens.iter().map(|t| (t.tag, t.length as usize)).collect();
    assert!(tokens == said, "{name}: {} tokens, {} wanted", tokens.len(), said.len());
    add(name, edges::cut(book, text, said.len() + 1));
}

/// Each number in each operand alone, and as the name of a state wherever that is named.
fn numbers(add: Add) {
    for n in NUMBERS {
        let beyond = n > LAST_STATE;
        for operand in 0..5 {
            let or = |at: usize, usual: u16| if operand == at { n } else { usual };
            let rule = vec![
                start(Wide, or(0, 3)),
                error(Wide, or(1, 7)),
                final_state(Wide, or(2, 5)),
                span(Wide, or(3, 3), b'a', b'a', or(4, 5)),
            ];
            let said = match (operand, n) {
                _ if beyond => Err((6, operand.min(3))),
                (1, 3) | (3, 7) => Err((10, 4)),
                (1, 5) | (2, 7) => Err((11, 4)),
                (0, 5) | (2, 3) => Err((12, 4)),
                _ => Ok(()),
            };
            add_rule(add, &format!("the state {n} as operand {operand}"), rule, said);
        }
        for state in [3, 5, 7].into_iter().filter(|_| ![3, 5, 7].contains(&n)) {
            let name = |s: u16| if s == state { n } else { s };
            let commands = [
                start(Wide, name(3)),
                error(Wide, name(7)),
                final_state(Wide, name(5)),
                span(Wide, name(3), b'a', b'a', name(5)),
            ];
            for turn in 0..4 {
                let mut rule = commands.to_vec();
                rule.rotate_left(turn);
                let named = |c: &Vec<u8>| paper::placed(c).flat_map(|(_, c)| c.states()).any(|s| s == n);
                let first = rule.iter().position(named).expect("it is named");
                let bytes = among(rule.clone()).concat();
                let what = format!("{n} for the state {state}");
                add_rule(add, &what, rule, if beyond { Err((6, first)) } else { Ok(()) });
                if !beyond {
                    add_cut(add, &what, &bytes, b"aazab", &[(1, 1), (1, 1), (3, 1), (1, 1)]);
                }
            }
        }
    }
}

/// The smallest book of wide commands, with each byte changed to each other one.
fn changed(add: Add) {
    let rule = [
        vec![paper::RULE, 0, 1, 0],
        start(Wide, 256),
        error(Wide, 2),
        final_state(Wide, 1),
        span(Wide, 256, b'a', b'a', 1),
    ];
    let bytes = [rule.concat(), vec![paper::CLOSE, paper::END]].concat();
    add_held(add, "a book of wide commands", &bytes, Ok(1));
    for at in 0..bytes.len() {
        for byte in 0..=255 {
            let mut changed = bytes.clone();
            changed[at] = byte;
            add("a book of wide commands with a byte changed", Call::read_book(&changed));
        }
        for code in 0..=13 {
            let cut = [&bytes[..at], &[code]].concat();
            add("a book of wide commands, then another command", Call::read_book(&cut));
            let more = [&cut[..], &[0, 1, 0, 2, 3, 0, 4]].concat();
            add("a book of wide commands, then other commands", Call::read_book(&more));
        }
    }
}

/// Each command of a rule in either width: both name the same states.
fn both_widths(add: Add) {
    for (from, to, err) in [(3, 5, 7), (0, 255, 128), (255, 1, 0), (9, 10, 12)] {
        for set in 0..24 {
            let width = |bit: usize| WIDTHS[set >> bit & 1];
            let first = steps(from, b'a', to)[set / 8].clone();
            let second = steps(to, b'b', from)[(set / 4 + set) % 3].clone();
            let rule = vec![second, final_state(width(2), to), first, start(width(0), from), error(width(1), err)];
            let bytes = among(rule.clone()).concat();
            add_rule(add, "a rule in both widths", rule, Ok(()));
            let text = b"aabaaba z abac";
            let said = [(1, 1), (1, 3), (1, 3), (2, 1), (3, 1), (2, 1), (1, 3)];
            add_cut(add, "a cut by a rule in both widths", &bytes, text, &said);
        }
    }
}

/// A second START or ERROR in either width, of the same state or of another; where that is no state, 6 comes first.
fn twice(add: Add) {
    for one in WIDTHS {
        for other in WIDTHS {
            for state in [3, 4, 4_095, 4_096, 65_535].into_iter().filter(|s| other == Wide || *s < 256) {
                let number = if state > LAST_STATE { 6 } else { 8 };
                for (what, command) in [("START", start as fn(Width, u16) -> Vec<u8>), ("ERROR", error)] {
                    let between = final_state(Wide, 300);
                    let rule = vec![command(one, 3), between, command(other, state), start(Wide, 4_096)];
                    add_rule(add, &format!("a second {what} of {state}"), rule, Err((number, 2)));
                }
                let finals = vec![
                    start(Short, 0),
                    final_state(one, 3),
                    error(one, 9),
                    final_state(other, state),
                    final_state(one, 3),
                ];
                let said = if state > LAST_STATE { Err((6, 3)) } else { Ok(()) };
                add_rule(add, &format!("FINAL of 3 and of {state}"), finals, said);
            }
        }
    }
}

/// Two moves from one state, or from two whose numbers have a byte in common, each in each way to write it.
fn overlaps(add: Add) {
    for state in [3, 259, 768, 4_095] {
        for (i, one) in steps(3, b'a', 5).into_iter().enumerate() {
            for low in [b'`', b'a', b'b'] {
                for (k, width) in WIDTHS.into_iter().enumerate().filter(|(_, w)| *w == Wide || state < 256) {
                    let other = span(width, state, low, b'c', 5);
                    let said = if state == 3 && low <= b'a' { Err((9, 5)) } else { Ok(()) };
                    let rule = [start(Short, 3), one.clone(), error(Wide, 7), final_state(Short, 5), other];
                    for turned in [false, true] {
                        let mut rule = rule.to_vec();
                        if turned {
                            rule.reverse();
                        }
                        add_rule(add, &format!("moves from 3 and from {state}, written {i} and {k}"), rule, said);
                    }
                }
            }
        }
    }
}

/// Every set of faults at CLOSE, in several widths.
fn faults_at_close(add: Add) {
    for widths in [0, 63, 21, 42] {
        for set in 0..64 {
            let has = |bit: usize| set >> bit & 1 == 1;
            let width = |bit: usize| WIDTHS[widths >> bit & 1];
            let mut rule = vec![span(width(1), 0, b'a', b'a', 1)];
            let parts = [
                (!has(0), start(width(0), 0)),
                (!has(1), error(width(1), 2)),
                (has(2), span(width(2), 0, b'Z', b'a', 1)),
                (has(3), span(width(3), 2, b'a', b'b', 1)),
                (has(4), final_state(width(4), 2)),
                (has(5), final_state(width(5), 0)),
            ];
            rule.extend(parts.into_iter().filter(|(there, _)| *there).map(|(_, command)| command));
            let close = rule.len();
            let number = match set {
                0 => 0,
                _ if has(0) || has(1) => 8,
                _ => 9 + (2..6).position(has).expect("one is there") as u8,
            };
            add_rule(
                add,
                "faults at CLOSE in both widths",
                rule,
                if number == 0 { Ok(()) } else { Err((number, close)) },
            );
        }
    }
    // a state with the same low byte, or with the bytes turned, is another one
    for state in [2, 258, 512, 4_095] {
        let said = |number| if state == 2 { Err((number, 4)) } else { Ok(()) };
        let [one, other] = [span(Short, 0, b'a', b'b', 1), span(Wide, state, b'a', b'b', 1)];
        add_rule(
            add,
            "a move from the error state",
            vec![start(Short, 0), error(Short, 2), other, one.clone()],
            said(10),
        );
        add_rule(
            add,
            "a final error state",
            vec![start(Short, 0), error(Short, 2), final_state(Wide, state), one.clone()],
            said(11),
        );
        add_rule(add, "a final start", vec![start(Short, 2), error(Short, 3), final_state(Wide, state), one], said(12));
    }
}

/// Each wide command cut off at each byte, and outside a rule.
fn cut_off(add: Add) {
    for operands in [[0, 3], [15, 255], [16, 0], [255, 255]] {
        let state = u16::from_be_bytes(operands);
        for (code, command) in
            [start(Wide, state), error(Wide, state), final_state(Wide, state), span(Wide, state, 9, 8, state)]
                .into_iter()
                .enumerate()
        {
            let full = code == 3 && operands == [16, 0];
            let moves = if full { RULE_MOVES } else { 1 };
            let spans = (0..moves).map(|i| span(Wide, (i / 256) as u16, i as u8, i as u8, 1));
            let inside: Commands = [vec![paper::RULE, 0, 1, 0]].into_iter().chain(spans).collect();
            let rule = [letter(1, 0, b'a', true).commands(), letter(2, 1, b' ', true).commands()].concat();
            for n in 1..=command.len() {
                let cut = command[..n].to_vec();
                if n < command.len() {
                    let book = [&inside[..], &[cut.clone()]].concat();
                    add_book(add, "a wide command cut off", &book, Err((2, inside.len())));
                    let started = [&inside[..1], &[start(Short, 1), error(Wide, 256), cut.clone()]].concat();
                    add_book(add, "a wide command cut off after others", &started, Err((2, 3)));
                }
                for before in [0, rule.len() / 2, rule.len()] {
                    let outside = [&rule[..before], &[cut.clone()]].concat();
                    add_book(add, "a wide command outside a rule", &outside, Err((3, before)));
                    let more = [&outside[..], &rule[before..], &[vec![paper::END]]].concat();
                    add_book(add, "a wide command outside a rule, and more", &more, Err((3, before)));
                }
            }
        }
    }
    for code in [13, 14, 127, 255] {
        add_rule(add, "no command", vec![start(Wide, 256), vec![code, 0, 1, 0, 2], error(Wide, 1)], Err((3, 1)));
    }
}

/// As many moves as a rule may have, 256 from a state, and one on either side.
fn many_moves(add: Add) {
    for (first, width) in [(0, Short), (0, Wide), (240, Wide), (4_078, Wide)] {
        for count in [RULE_MOVES - 1, RULE_MOVES, RULE_MOVES + 1, RULE_MOVES + 2] {
            let state = |i: usize| first + (i / 256) as u16;
            let moves = (0..count).map(|i| span(width, state(i), i as u8, i as u8, state(i) + 1));
            let rule: Commands =
                moves.chain([start(width, first), error(Wide, 4_000), final_state(width, first + 3)]).collect();
            let said = if count > RULE_MOVES { Err((5, RULE_MOVES)) } else { Ok(()) };
            let bytes = among(rule.clone()).concat();
            let name = format!("{count} moves from the state {first} on");
            add_rule(add, &name, rule, said);
            if said.is_ok() {
                add_cut(add, &name, &bytes, b"abcz a\0\xFF\0z ", &[(1, 3), (1, 3), (1, 3), (3, 1), (2, 1)]);
            }
        }
    }
    // none that overlap but two, which are the first and the last, neighbours, or all
    for (one, other) in [(0, 1), (0, 4_095), (4_094, 4_095), (255, 256), (2_000, 3_000)] {
        let from = |i: usize| if i == other { one } else { i };
        let moves = (0..RULE_MOVES).map(|i| span(Wide, (from(i) / 256) as u16, from(i) as u8, from(i) as u8, 300));
        let rule: Commands = [start(Short, 0), error(Short, 255)].into_iter().chain(moves).collect();
        add_rule(add, &format!("4,096 moves of which {one} and {other} overlap"), rule, Err((9, RULE_MOVES + 2)));
    }
    for (low, high, states) in [(b'a', b'a', 1), (0, 255, 1), (0, 255, 4_095), (7, 200, 16)] {
        for width in [Wide, if states < 256 { Short } else { Wide }] {
            let moves = (0..RULE_MOVES).map(|i| span(width, (i % states) as u16, low, high, 1));
            let rule: Commands = moves.chain([start(width, 0), error(Wide, 4_095)]).collect();
            add_rule(add, "4,096 moves that overlap", rule, Err((9, RULE_MOVES + 2)));
        }
    }
}

/// Several refusals of one command, of which the first in the order is answered.
fn orders(add: Add) {
    let most =
        |count: usize| -> Commands { (0..count).map(|i| span(Short, (i / 256) as u16, i as u8, i as u8, 1)).collect() };
    // a last move, its number as the 4,096th, and as the 4,097th
    let moves = [
        (span(Wide, 17, 1, 1, 1), 0, 5),
        (span(Wide, 4_095, 1, 1, 4_095), 0, 5),
        (span(Wide, 17, 2, 1, 1), 6, 5),
        (span(Wide, 4_096, 1, 1, 1), 6, 5),
        (span(Wide, 17, 1, 1, 4_096), 6, 5),
        (span(Wide, 65_535, 9, 8, 65_535), 6, 5),
        (span(Wide, 0, 1, 1, 1), 9, 5),
        (span(Short, 17, 2, 1, 1), 6, 5),
        (span(Short, 17, 1, 1, 1), 0, 5),
        (vec![paper::STEP, 17, 1, 1], 0, 5),
    ];
    for (command, last, more) in moves {
        for (count, number) in [(RULE_MOVES - 1, last), (RULE_MOVES, more)] {
            let rule = [vec![start(Short, 0), error(Wide, 256)], most(count), vec![command.clone()]].concat();
            let at = match number {
                9 => rule.len(),
                _ => rule.len() - 1,
            };
            let said = if number == 0 { Ok(()) } else { Err((number, at)) };
            add_rule(add, &format!("move {} with other refusals", count + 1), rule, said);
        }
    }
    // a move that is 6 is none of the 4,096; START, ERROR and FINAL are no moves
    let full = [most(RULE_MOVES), vec![start(Wide, 3_000), error(Wide, 4_095), final_state(Wide, 1)]].concat();
    add_rule(add, "4,096 moves, then the others", full.clone(), Ok(()));
    for (command, number) in
        [(start(Wide, 4_096), 6), (start(Wide, 4_095), 8), (error(Short, 3), 8), (final_state(Wide, 4_096), 6)]
    {
        let rule = [full.clone(), vec![command]].concat();
        let at = rule.len() - 1;
        add_rule(add, "4,096 moves and another refusal", rule, Err((number, at)));
    }
    // of several commands the first, whatever their numbers
    let bad = [
        start(Wide, 4_096),
        final_state(Wide, 5_000),
        span(Wide, 4_096, 0, 0, 0),
        error(Wide, 40_000),
        span(Wide, 0, 1, 0, 0),
    ];
    for i in 0..bad.len() {
        for k in (0..bad.len()).filter(|&k| k != i) {
            let rule = vec![start(Short, 0), bad[i].clone(), bad[k].clone(), start(Short, 0)];
            add_rule(add, "two refusals", rule, Err((6, 1)));
        }
    }
}

/// Rules for "ab", "abc", for blanks, and for "b" or "c".
fn three() -> Vec<Rule> {
    let ab = vec![(0, b'a', b'a', 1), (1, b'b', b'b', 2), (2, b'c', b'c', 3)];
    let abc = Rule { tag: 1, kind: 0, start: 0, error: 4, finals: vec![2, 3], moves: ab };
    let one = Rule { tag: 3, kind: 0, start: 0, error: 2, finals: vec![1], moves: vec![(0, b'b', b'c', 1)] };
    vec![abc, letter(2, 1, b' ', false), one]
}

/// The commands of a rule in several orders: what the first wide state is met in, and what stands before it, differ.
fn written(rule: &Rule, order: u64) -> Vec<u8> {
    let mut commands = rule.commands();
    let last = commands.len() - 1;
    let inner = &mut commands[1..last];
    match order {
        0 => {}
        1 => inner.reverse(),
        2 => inner.rotate_left(2),
        _ => Random::of(order, 0).shuffle(inner),
    }
    commands.concat()
}

/// Books in which any of the states of the first rule, and some of the others', are wide: they cut and write as the same book with
/// states below 256.
fn switches(add: Add) {
    let narrow = book(three()).bytes();
    let (text, pool) = (b"ababc  cab bc a", b"abc  b");
    let tokens = [record(1, 0, 2), record(3, 2, 1), record(1, 0, 3), record(3, 5, 1), record(1, 0, 2)];
    let calls = |bytes: &[u8]| {
        let list = bytes_of(&tokens);
        let blank = record(2, 3, 2);
        let mut all = vec![
            edges::cut(bytes, text, 11),
            Call::print(bytes, bytes_of(&tokens[..3]), pool, vec![0xEE; 9]),
            Call::print(bytes, bytes_of(&tokens[2..]), pool, vec![0xEE; 9]),
        ];
        all.extend([0, 1].map(|mode| Call::print_separated(bytes, blank, mode, list.clone(), pool, vec![0xEE; 20])));
        all
    };
    let second: [&[u16]; 4] = [&[], &[0, 1, 2], &[1], &[0]];
    let third: [&[u16]; 2] = [&[], &[0, 1, 2]];
    for set in 0..32u16 {
        for (i, second) in second.iter().enumerate() {
            for (k, third) in third.iter().enumerate() {
                let is_wide = |rule: usize, s: u16| match rule {
                    0 => set >> s & 1 == 1,
                    1 => second.contains(&s),
                    _ => third.contains(&s),
                };
                for order in 0..4 {
                    let far = [256, 4_091][(i + k + order as usize) % 2];
                    let rules = three().into_iter().enumerate();
                    let renamed = rules.map(|(r, rule)| rule.renamed(|s| if is_wide(r, s) { s + far } else { s }));
                    let bytes: Vec<u8> = renamed.flat_map(|rule| written(&rule, order)).chain([paper::END]).collect();
                    add_held(add, "rules of which some have wide states", &bytes, Ok(3));
                    for (call, same) in calls(&bytes).into_iter().zip(calls(&narrow)) {
                        let (one, other) = (expected(&call), expected(&same));
                        assert!(one.answer == other.answer && one.buffers[1..] == other.buffers[1..]);
                        add("a book of which some states are wide", call);
                    }
                }
            }
        }
    }
}

/// Two commands that are a fault together, and the first wide state before, between or behind them.
fn switches_among_faults(add: Add) {
    let faults = [
        (span(Short, 0, b'a', b'c', 1), vec![paper::STEP, 0, b'b', 1], 9),
        (span(Wide, 0, b'a', b'c', 1), span(Short, 0, b'c', b'd', 1), 9),
        (error(Short, 9), span(Short, 9, 0, 255, 1), 10),
        (error(Wide, 9), final_state(Short, 9), 11),
        (start(Short, 8), final_state(Short, 8), 12),
    ];
    let wide = [
        final_state(Wide, 256),
        span(Wide, 256, b'a', b'a', 0),
        span(Wide, 0, b'z', b'z', 256),
        span(Wide, 4_095, b'a', b'a', 4_094),
        start(Wide, 300),
        error(Wide, 300),
    ];
    for (one, other, number) in &faults {
        for wide in &wide {
            let given = |command: &[u8], codes: [u8; 2]| codes.contains(&command[0]);
            let is = |codes| [one, other, wide].iter().filter(|c| given(c, codes)).count();
            let (starts, errors) = ([paper::START, paper::WIDE_START], [paper::ERROR, paper::WIDE_ERROR]);
            // a second START or ERROR is another edge
            if is(starts) > 1 || is(errors) > 1 {
                continue;
            }
            for at in 0..3 {
                for turned in [false, true] {
                    let mut rule =
                        if turned { vec![other.clone(), one.clone()] } else { vec![one.clone(), other.clone()] };
                    rule.insert(at, wide.clone());
                    rule.extend((is(starts) == 0).then(|| start(Short, 0)));
                    rule.extend((is(errors) == 0).then(|| error(Short, 200)));
                    let close = rule.len();
                    add_rule(add, "a fault around the first wide state", rule.clone(), Err((*number, close)));
                    // the rule before has these states too, and says nothing about them
                    let alone: Commands = rule.iter().filter(|c| *c != other).cloned().collect();
                    let mut finals: Commands =
                        vec![start(Short, 10), error(Short, 11), final_state(Short, 0), final_state(Short, 8)];
                    finals.extend([final_state(Short, 9), span(Short, 0, 0, 255, 9), span(Short, 9, 0, 255, 9)]);
                    let first = [vec![vec![paper::RULE, 0, 9, 0]], finals, vec![vec![paper::CLOSE]]].concat();
                    let second = [vec![vec![paper::RULE, 0, 1, 0]], alone, vec![vec![paper::CLOSE], vec![paper::END]]];
                    add_book(add, "a rule behind one with the same states", &[first, second.concat()].concat(), Ok(2));
                }
            }
        }
    }
}

/// States in the order of a chain, as many as there are but for the error state.
fn numberings() -> [(&'static str, Vec<u16>, u16); 3] {
    let mut shuffled: Vec<u16> = (0..=LAST_STATE).filter(|&s| s != 100).collect();
    Random::of(13, 0).shuffle(&mut shuffled);
    [
        ("upward", (0..LAST_STATE).collect(), LAST_STATE),
        ("downward", (1..=LAST_STATE).rev().collect(), 0),
        ("without order", shuffled, 100),
    ]
}

/// A rule that matches a word of this length, of one letter.
fn chain(tag: u16, letter: u8, states: &[u16], error: u16, length: usize) -> Rule {
    let moves = (0..length).map(|i| (states[i], letter, letter, states[i + 1])).collect();
    Rule { tag, kind: 0, start: states[0], error, finals: vec![states[length]], moves }
}

/// Chains through 4,095 states.
fn chains(add: Add) {
    let longest = LAST_STATE as usize - 1;
    for (numbered, states, error) in numberings() {
        let rule = chain(1, b'a', &states, error, longest);
        let run = book(vec![rule.clone(), letter(2, 0, b'b', false)]).bytes();
        let name = |length: usize| format!("4,095 states numbered {numbered} over {length} bytes");
        for (length, said) in [(longest - 1, vec![]), (longest, vec![(1, longest)]), (longest + 1, vec![(1, longest)])]
        {
            add_cut(add, &name(length), &run, &vec![b'a'; length], &said);
            let token = bytes_of(&[record(1, 0, length)]);
            add(&name(length), Call::print(&run, token, &vec![b'a'; length], vec![0xEE; length]));
        }
        for half in [true, false] {
            let mut text = vec![b'a'; if half { longest / 2 } else { longest }];
            text.push(b'b');
            let text = text.repeat(15);
            let said: &[(u16, usize)] = if half { &[] } else { &[(1, longest), (2, 1)] };
            add_cut(add, &name(text.len()), &run, &text, &said.repeat(15));
        }
    }
    // where the walk ends before its word does, the letter alone is a token
    let (_, states, error) = numberings().into_iter().last().expect("there are three");
    let ahead = book(vec![chain(1, b'a', &states, error, 1_500), letter(2, 0, b'a', true)]).bytes();
    for (length, said) in [(1_499, vec![(2, 1); 1_499]), (3_001, vec![(1, 1_500), (1, 1_500), (2, 1)])] {
        add_cut(add, &format!("a word of 1,500 bytes in {length}"), &ahead, &vec![b'a'; length], &said);
    }
    let long = book(vec![chain(1, b'a', &states, error, longest), letter(2, 0, b'a', true)]).bytes();
    let said = [vec![(1, longest); 16], vec![(2, 1); 32]].concat();
    add_cut(add, "a word of 4,094 bytes in 65,536", &long, &vec![b'a'; 65_536], &said);
}

/// A round through 4,095 states of which all but the start are final, with as many moves as a rule may have.
fn every_state(add: Add) {
    for (numbered, states, error) in numberings() {
        let count = states.len();
        // each state has another byte than the next one
        let byte = |i: usize| (i % 251) as u8;
        let mut moves: Vec<paper::Move> =
            (0..count).map(|i| (states[i], byte(i), byte(i), states[(i + 1) % count])).collect();
        moves.push((states[7], 252, 252, states[8]));
        assert_eq!(moves.len(), RULE_MOVES);
        let rule = Rule { tag: 1, kind: 0, start: states[0], error, finals: states[1..].to_vec(), moves };
        let mut rules = vec![rule, letter(2, 1, 255, false)];
        let bytes = book(rules.clone()).bytes();
        rules.reverse();
        let turned = book(rules).bytes();
        let name = format!("all 4,096 states, numbered {numbered}");
        let text: Vec<u8> = (0..9_000).map(|i| byte(i % count)).collect();
        for book in [&bytes, &turned] {
            add_held(add, &name, book, Ok(2));
            // all but the lengths that end in the start
            for (length, said) in [(1, 1), (255, 255), (4_094, 4_094), (4_095, 4_094), (4_096, 4_096), (9_000, 9_000)] {
                if length == said {
                    add_cut(add, &name, book, &text[..length], &[(1, length)]);
                }
                let pool = [&text[..length], &[255]].concat();
                let list = bytes_of(&[record(1, 0, said), record(1, 0, 3)]);
                add(&name, Call::print(book, list.clone(), &pool, vec![0xEE; said + 3]));
                for mode in [1, 2] {
                    let call = Call::print_separated(
                        book,
                        record(2, length, 1),
                        mode,
                        list.clone(),
                        &pool,
                        vec![0xEE; said + 4],
                    );
                    assert_ne!(Answer(expected(&call).answer).number(), 23);
                    add(&name, call);
                }
            }
        }
    }
}

/// Lists in which a token is read on over hundreds of others, to a state of two bytes.
fn read_on(add: Add) {
    let (_, states, error) = numberings().into_iter().last().expect("there are three");
    for length in [255, 256, 257, 600] {
        let rules = vec![chain(1, b'a', &states, error, length), letter(2, 0, b'a', true), letter(3, 1, b' ', true)];
        let bytes = book(rules).bytes();
        let pool = [vec![b'a'; length], vec![b' ']].concat();
        let one = record(2, 0, 1);
        let lists: [(Vec<Record>, Option<u64>); 5] = [
            (vec![one; length - 1], None),
            (vec![one; length], Some(0)),
            (vec![one; length + 1], Some(0)),
            (vec![record(1, 0, length), one, one], None),
            ([vec![one; length - 1], vec![record(1, 0, length)]].concat(), Some(0)),
        ];
        for (list, said) in lists {
            let name = format!("{} tokens before a word of {length} bytes", list.len());
            let out = vec![0xEE; 3 * length];
            let call = Call::print(&bytes, bytes_of(&list), &pool, out.clone());
            let answer = Answer(expected(&call).answer);
            assert_eq!(said, (answer.number() == 21).then(|| answer.place()), "{name}: {answer}");
            add(&name, call);
            for mode in [0, 1] {
                let records = bytes_of(&list);
                add(&name, Call::print_separated(&bytes, record(3, length, 1), mode, records, &pool, out.clone()));
            }
        }
    }
}

/// A book of just so many bytes: the rule for "a", then rules of wide moves alone, filled up by FINALs of both widths.
pub fn crowded(length: usize) -> Vec<u8> {
    let mut bytes = Book { rules: vec![letter(1, 0, b'a', true)] }.bytes();
    bytes.pop();
    let mut tag = 1;
    while bytes.len() + 1 < length {
        tag += 1;
        bytes.extend([vec![paper::RULE, 0, tag, 0], start(Wide, 300), error(Wide, 256)].concat());
        let left = length - bytes.len() - 2;
        // a rule behind it has eleven bytes or more
        let moves = (left / 7).min(RULE_MOVES);
        let rest = left - 7 * moves;
        let moves = if moves == RULE_MOVES && rest > 0 && rest < 13 { moves - 2 } else { moves };
        (0..moves).for_each(|i| {
            let from = 300 + (i / 256) as u16;
            bytes.extend(span(Wide, from, i as u8, i as u8, from + 1));
        });
        let mut rest = left - 7 * moves;
        if moves < RULE_MOVES - 2 {
            // one byte alone is no command: a move less, for eight bytes
            if rest == 1 {
                bytes.truncate(bytes.len() - 7);
                rest = 8;
            }
            while rest > 0 {
                bytes.extend(if rest % 2 == 1 { final_state(Wide, 301) } else { final_state(Short, 1) });
                rest -= if rest % 2 == 1 { 3 } else { 2 };
            }
        }
        bytes.push(paper::CLOSE);
    }
    bytes.push(paper::END);
    assert_eq!(bytes.len(), length);
    bytes
}
