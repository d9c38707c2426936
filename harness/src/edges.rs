//! The sizes at which answers change, each with one byte, record, rule or move on either side.

use crate::calls::{Call, Operation, BUILTIN};
use crate::dead;
use crate::expression_edges;
use crate::fewest;
use crate::generate::{bytes_of, Book, Rule};
use crate::masks;
use crate::reference::{self as paper, Record};
use crate::rewriting;
use crate::turns;
use crate::wide;

/// A rule that matches one or more of `letter`, or exactly one where `once`.
pub fn letter(tag: u16, kind: u8, letter: u8, once: bool) -> Rule {
    let mut moves = vec![(0, letter, letter, 1)];
    if !once {
        moves.push((1, letter, letter, 1));
    }
    Rule { tag, kind, start: 0, error: 2, finals: vec![1], moves }
}

/// A rule with `count` moves of one byte each, 256 from a state.
fn broad(tag: u16, count: usize) -> Rule {
    let moves = (0..count).map(|i| ((i / 256) as u16, i as u8, i as u8, (i / 256 + 1) as u16)).collect();
    Rule { tag, kind: 0, start: 0, error: 255, finals: vec![1], moves }
}

/// A book of just so many bytes, with as many moves as they can hold, and up to `most` in a rule: the rule for "a", then rules of
/// moves alone.
fn crowded(length: usize, most: usize) -> Vec<u8> {
    let mut bytes = book(vec![letter(1, 0, b'a', true)]).bytes();
    bytes.pop();
    let mut tag = 1;
    while bytes.len() + 1 < length {
        // RULE, START, ERROR and CLOSE take nine bytes, a STEP four; what is left over is no less than nine again, or nothing
        let left = length - 1 - bytes.len() - 9;
        let mut moves = (left / 4).min(most);
        if moves == most && left > 4 * most && left < 4 * most + 13 {
            moves -= 8;
        }
        let last = left - 4 * moves < 9;
        let spare = if last { left - 4 * moves } else { 0 };
        tag += 1;
        bytes.extend([paper::RULE, 0, tag, 0, paper::START, 0, paper::ERROR, 255]);
        for i in 0..moves {
            let (from, byte, to) = ((i / 256) as u8, i as u8, (i / 256 + 1) as u8);
            if i < spare {
                bytes.extend([paper::SPAN, from, byte, byte, to]);
            } else {
                bytes.extend([paper::STEP, from, byte, to]);
            }
        }
        bytes.push(paper::CLOSE);
    }
    bytes.push(paper::END);
    assert_eq!(bytes.len(), length);
    bytes
}

/// So many moves in a rule that the largest book has 32 rules.
const FEW: usize = 530;

/// The same with one more command, a wide one, at the end of the last rule.
fn wide_at_last(length: usize, command: &[u8]) -> Vec<u8> {
    let mut bytes = crowded(length - command.len(), FEW);
    let close = bytes.len() - 2;
    bytes.splice(close..close, command.iter().copied());
    bytes
}

pub fn book(rules: Vec<Rule>) -> Book {
    Book { rules }
}

pub fn record(tag: u16, place: usize, length: usize) -> Record {
    Record { tag, place: place as u32, length: length as u32 }
}

/// A buffer of records with a byte pattern that a store would change.
pub fn room(records: usize) -> Vec<u8> {
    vec![0xEE; records * paper::RECORD_BYTES]
}

/// The same for masks.
pub fn mask_room(masks: usize) -> Vec<u8> {
    vec![0xEE; masks * paper::MASK_BYTES]
}

/// A cut with records and masks for so many tokens.
pub fn cut(book: &[u8], text: &[u8], tokens: usize) -> Call {
    Call::lex(book, text, room(tokens), mask_room(tokens))
}

/// The same by the built-in book.
pub fn cut_builtin(text: &[u8], tokens: usize) -> Call {
    Call::lex_builtin(text, room(tokens), mask_room(tokens))
}

/// Every edge call, with a name.
pub fn calls() -> Vec<(String, Call)> {
    let mut all: Vec<(String, Call)> = Vec::new();
    let mut turned = 0;
    let mut add = |name: &str, call: Call| {
        // every operation that takes a book meets the same edges of it
        if call.operation == Operation::ReadBook {
            let record = bytes_of(&[record(1, 0, 1)]);
            let between = Record { tag: 2, place: 1, length: 1 };
            all.extend(rewriting::calls(&call.book).into_iter().map(|c| (format!("{name}, without STEP"), c)));
            all.push((format!("{name}, its first rule"), Call::rule(&call.book, 0)));
            all.push((format!("{name}, cutting"), cut(&call.book, b"abca", 4)));
            // all places and budgets in turn, one place past the text
            let (place, budget) = (turned % 6, turned / 6 % 7);
            turned += 1;
            all.push((format!("{name}, a turn"), turns::turn(&call.book, b"abca", place, budget, 4)));
            all.push((format!("{name}, writing"), Call::print(&call.book, record.clone(), b"a", vec![0xEE; 2])));
            let spacing = Call::print_separated(&call.book, between, 2, record, b"a ", vec![0xEE; 2]);
            all.push((format!("{name}, spacing"), spacing));
        }
        all.push((name.to_string(), call));
    };
    books(&mut add);
    rules(&mut add);
    faults(&mut add);
    cuts(&mut add);
    prints(&mut add);
    separated(&mut add);
    dead::branches(&mut add);
    expression_edges::expressions(&mut add);
    fewest::lists(&mut add);
    masks::cuts(&mut add);
    rewriting::books(&mut add);
    turns::turns(&mut add);
    wide::books(&mut add);
    all
}

pub type Add<'a> = &'a mut dyn FnMut(&str, Call);

fn books(add: Add) {
    add("the empty book", Call::read_book(&[]));
    add("END alone", Call::read_book(&[8]));
    let a = book(vec![letter(1, 0, b'a', true)]).bytes();
    assert_eq!(a.len(), 16);
    for length in [65_534, 65_536, 65_537, 65_538, 80_000] {
        // FINAL may be repeated: it fills a book up by two bytes
        let mut filled = a[..10].to_vec();
        while filled.len() + 6 + 2 <= length {
            filled.extend([paper::FINAL, 1]);
        }
        filled.extend(&a[10..]);
        filled.resize(length, 0);
        add(&format!("a book of {length} bytes"), Call::read_book(&filled));
    }
    // the sizes of books at which a larger table is used
    for size in [1_024, 2_048, 4_096, 8_192, 16_384, 32_768, 65_536] {
        for length in [size - 1, size, size + 1] {
            let books = [
                ("", crowded(length, paper::RULE_MOVES)),
                ("", crowded(length, FEW)),
                ("", wide::crowded(length)),
                (", a wide state at last", wide_at_last(length, &[paper::WIDE_FINAL, 1, 0])),
                (", a wide state at last", wide_at_last(length, &[paper::WIDE_SPAN, 1, 0, 0, 255, 15, 255])),
            ];
            for (what, bytes) in books {
                let name = format!("moves in a book of {length} bytes{what}");
                add(&name, Call::read_book(&bytes));
                add(&format!("{name}, a turn to the finish"), turns::turn(&bytes, b"abca", 0, u64::MAX, 4));
                add(&format!("{name}, a turn in between"), turns::turn(&bytes, b"abca", 1, 2, 3));
            }
        }
    }
    for rules in [31, 32, 33, 34] {
        let many = book((1..=rules).map(|t| letter(t, 0, t as u8, true)).collect()).bytes();
        add(&format!("{rules} rules"), Call::read_book(&many));
        add(&format!("cutting by {rules} rules"), cut(&many, &[1, 31, 32, 33, 2], 5));
        let mut zero = book((1..=rules).map(|t| letter(t, 0, t as u8, true)).collect());
        zero.rules.last_mut().expect("there are rules").tag = 0;
        add(&format!("{rules} rules, the last with tag 0"), Call::read_book(&zero.bytes()));
    }
    for moves in [511, 512, 513, 4_095, 4_096, 4_097, 4_098] {
        let bytes = book(vec![letter(9, 0, b'a', true), broad(1, moves)]).bytes();
        add(&format!("{moves} moves in a rule"), Call::read_book(&bytes));
        let mut bad = book(vec![broad(1, moves)]);
        bad.rules[0].moves.last_mut().expect("there are moves").1 = 255;
        bad.rules[0].moves.last_mut().expect("there are moves").2 = 0;
        add(&format!("{moves} moves, the last with low above high"), Call::read_book(&bad.bytes()));
    }
    // as many moves as a book can hold
    let mut full: Vec<Rule> = (1..=3).map(|t| broad(t, paper::RULE_MOVES)).collect();
    full.push(broad(4, 4_084));
    let bytes = book(full).bytes();
    assert!(bytes.len() > 65_500 && bytes.len() <= paper::BOOK_BYTES);
    add("a book full of moves", Call::read_book(&bytes));
    add("cutting by a book full of moves", cut(&bytes, b"abc\x00\xFF", 5));
    // a chain through every state of one byte
    let chain = Rule {
        tag: 1,
        kind: 0,
        start: 0,
        error: 255,
        finals: vec![254],
        moves: (0..254).map(|s| (s, b'a', b'a', s + 1)).collect(),
    };
    let bytes = book(vec![chain, letter(2, 0, b'a', true)]).bytes();
    for length in [253, 254, 255, 300] {
        add(&format!("a chain of states over {length} bytes"), cut(&bytes, &vec![b'a'; length], length));
    }
    let error_starts = Rule { tag: 1, kind: 0, start: 0, error: 0, finals: vec![1], moves: vec![(2, 0, 255, 1)] };
    let bytes = book(vec![error_starts, letter(2, 0, b'a', true)]).bytes();
    add("a rule that starts in its error state", cut(&bytes, b"aab", 3));
}

/// Each rule of a book by its number, and numbers past the last one.
fn rules(add: Add) {
    for count in [1, 2, 31, 32, 33] {
        // tags that fall, with both bytes in use; kinds that alternate
        let tag = |k: u16| 65_535 - 257 * k;
        let bytes = book((0..count).map(|k| letter(tag(k), (k % 2) as u8, k as u8, true)).collect()).bytes();
        for index in (0..40).chain([255, 256, 65_535, 65_536, 1 << 31, u32::MAX]) {
            add(&format!("rule {index} of {count}"), Call::rule(&bytes, index));
        }
    }
    for index in 0..6 {
        add("a rule of the built-in book", Call::rule(BUILTIN, index));
    }
    // bytes of a rule that are RULE's code, but no command
    let odd =
        Rule { tag: 0x0101, kind: 1, start: 1, error: 0, finals: vec![2], moves: vec![(1, 1, 1, 2), (2, 1, 8, 1)] };
    let bytes = book(vec![odd, letter(0x0100, 0, 1, false), letter(1, 1, 1, true)]).bytes();
    for index in 0..4 {
        add("rules with RULE's code among their operands", Call::rule(&bytes, index));
    }
    let full = crowded(paper::BOOK_BYTES, FEW);
    for index in [0, 1, 15, 16, 17, 31, 32] {
        add("a rule of a book full of moves", Call::rule(&full, index));
    }
}

/// Small books around every refusal: cut off at each byte, changed at each byte, and with several faults at once.
fn faults(add: Add) {
    let a = book(vec![letter(1, 0, b'a', true)]).bytes();
    for n in 0..BUILTIN.len() {
        add("the built-in book cut off", Call::read_book(&BUILTIN[..n]));
    }
    for at in 0..a.len() {
        for byte in 0..=255 {
            let mut changed = a.clone();
            changed[at] = byte;
            add("the book of 16 bytes with a byte changed", Call::read_book(&changed));
        }
        for code in 0..=13 {
            let mut cut = a[..at].to_vec();
            cut.push(code);
            add("the book of 16 bytes, then another command", Call::read_book(&cut));
            cut.extend([0, 1, 0, 2, 3]);
            add("the book of 16 bytes, then other commands", Call::read_book(&cut));
        }
    }
    for tail in [&[0][..], &[8], &[1, 0, 2, 0], &a] {
        add("bytes after END", Call::read_book(&[&a, tail].concat()));
        add("bytes after END and no rule", Call::read_book(&[&[8], tail].concat()));
    }
    // every set of faults at CLOSE
    for set in 0..64 {
        let has = |bit: u8| set >> bit & 1 == 1;
        let mut rule = vec![paper::RULE, 0, 1, 0, paper::STEP, 0, b'a', 1];
        let parts: [(bool, &[u8]); 6] = [
            (!has(0), &[paper::START, 0]),
            (!has(1), &[paper::ERROR, 2]),
            (has(2), &[paper::SPAN, 0, b'Z', b'a', 1]),
            (has(3), &[paper::STEP, 2, b'a', 1]),
            (has(4), &[paper::FINAL, 2]),
            (has(5), &[paper::FINAL, 0]),
        ];
        for (there, bytes) in parts {
            if there {
                rule.extend(bytes);
            }
        }
        rule.extend([paper::CLOSE, paper::END]);
        add("faults at CLOSE", Call::read_book(&rule));
    }
    // every set of faults at RULE
    for rules in [31, 32] {
        let mut many = book((1..=rules).map(|t| letter(t, 0, b'a', true)).collect()).bytes();
        many.pop();
        for (tag, kind) in [(0, 0), (0, 2), (1, 0), (1, 2), (40, 1), (40, 2), (40, 255)] {
            add("faults at RULE", Call::read_book(&[&many[..], &[paper::RULE, 0, tag, kind]].concat()));
        }
    }
    // moves that touch, and moves that just do not
    for low in 0..=6 {
        for high in 0..=6 {
            let rule = Rule {
                tag: 1,
                kind: 0,
                start: 0,
                error: 2,
                finals: vec![1],
                moves: vec![(0, 2, 4, 1), (0, low, high, 1)],
            };
            add("two moves from one state", Call::read_book(&book(vec![rule]).bytes()));
        }
    }
}

fn cuts(add: Add) {
    let once = book(vec![letter(1, 0, b'a', true)]).bytes();
    let run = book(vec![letter(1, 0, b'a', false)]).bytes();
    for length in [65_535, 65_536, 65_537] {
        let text = vec![b'a'; length];
        let name = |what: &str| format!("{what}, {length} bytes");
        add(&name("one token a byte"), cut(&once, &text, length));
        add(&name("one token a byte, a record short"), Call { records: room(length - 1), ..cut(&once, &text, length) });
        add(
            &name("one token a byte, a mask short"),
            Call { masks: mask_room(length - 1), ..cut(&once, &text, length) },
        );
        add(&name("one token a byte, both one short"), cut(&once, &text, length - 1));
        for (records, masks) in [(1, 0), (0, 1), (0, 3), (1, 1)] {
            let mut call = cut(&once, &text, length);
            call.records.truncate(length * paper::RECORD_BYTES - records);
            call.masks.truncate(length * paper::MASK_BYTES - masks);
            add(&name("one token a byte, bytes short"), call);
        }
        add(&name("one token a byte, room left"), cut(&once, &text, length + 2));
        add(&name("one token in all"), cut(&run, &text, 1));
        add(&name("one token in all, no record"), Call { records: vec![0xEE; 9], ..cut(&run, &text, 1) });
        add(&name("one token in all, no mask"), Call { masks: vec![0xEE; 3], ..cut(&run, &text, 1) });
        add(&name("one token in all, room for the text"), cut(&run, &text, length));
        add(&name("one token, then a rest"), {
            let mut text = text.clone();
            text[length - 2] = b'b';
            cut(&run, &text, 3)
        });
        add(&name("by the built-in book"), cut_builtin(&text, 2));
        let sheet: Vec<u8> = b"[00:12.50]oh yes\n[00:1 ".iter().cycle().take(length).copied().collect();
        add(&name("a sheet by the built-in book"), cut_builtin(&sheet, length));
        let tokens = paper::cut(BUILTIN, &sheet).tokens.len();
        add(&name("a sheet, just enough"), cut_builtin(&sheet, tokens));
        add(&name("a sheet, a record short"), Call { records: room(tokens - 1), ..cut_builtin(&sheet, tokens) });
        add(&name("a sheet, a mask short"), Call { masks: mask_room(tokens - 1), ..cut_builtin(&sheet, length) });
        add(&name("a sheet by the command bytes"), cut(BUILTIN, &sheet, length));
    }
    add("nothing lent but the book", cut(&once, b"", 0));
    add("nothing lent", cut(b"", b"", 0));
    add("the empty text, room left", Call::lex(&once, b"", vec![1, 2, 3], vec![4, 5, 6, 7, 8]));
    add("a rest at once, room left", cut(&once, b"ba", 2));
    add("the empty text by the built-in book", cut_builtin(b"", 1));
    let mut ahead = letter(2, 0, b'a', false);
    ahead.finals = vec![3];
    ahead.moves.push((1, b'b', b'b', 3));
    let bytes = book(vec![letter(1, 0, b'a', true), ahead]).bytes();
    for end in [b'a', b'b'] {
        let mut text = vec![b'a'; 120];
        text.push(end);
        add("walks to the end at each token", cut(&bytes, &text, 121));
    }
    for byte in 0..=255u8 {
        add("each byte by the built-in book", cut_builtin(&[byte, b'x', byte], 3));
    }
}

fn prints(add: Add) {
    let once = book(vec![letter(1, 0, b'a', true)]).bytes();
    let run = book(vec![letter(1, 0, b'a', false)]).bytes();
    let out = |n: usize| vec![0xEE; n];
    for count in [2_047, 2_048, 2_049, 65_535, 65_536, 65_537] {
        let list = bytes_of(&vec![record(1, 0, 1); count]);
        let name = |what: &str| format!("{what}, {count} tokens");
        add(&name("writing"), Call::print(&once, list.clone(), b"a", out(count)));
        add(&name("writing, a byte short"), Call::print(&once, list.clone(), b"a", out(count - 1)));
        let mut bad = list.clone();
        bad[10 * (count - 1)] = 1;
        add(&name("writing, the last tag unknown"), Call::print(&once, bad, b"a", out(count)));
        let mut more = list.clone();
        more.extend([7; 9]);
        add(&name("writing, bytes left over"), Call::print(&once, more, b"a", out(count + 9)));
    }
    for length in [2_047, 2_048, 2_049, 65_535, 65_536, 65_537, 70_000] {
        let pool = vec![b'a'; length];
        let name = |what: &str| format!("{what}, {length} bytes");
        let list = bytes_of(&[record(1, 0, length)]);
        add(&name("writing one token"), Call::print(&run, list.clone(), &pool, out(length)));
        add(&name("writing one token, a byte short"), Call::print(&run, list.clone(), &pool, out(length - 1)));
        add(&name("writing one token, no room"), Call::print(&run, list, &pool, out(0)));
        let two = bytes_of(&[record(1, 0, 1), record(1, 1, length - 1)]);
        add(&name("writing two tokens that meet"), Call::print(&run, two, &pool, out(length)));
    }
    let edges = [(0, 4), (1, 3), (3, 1), (4, 0), (0, 5), (4, 1), (5, 0), (2, 3)];
    for (place, length) in edges {
        let list = bytes_of(&[record(1, place, length)]);
        add("at the pool's end", Call::print(&run, list.clone(), b"aaaa", out(8)));
        let sep = record(1, place, length);
        let spaces = book(vec![letter(1, 1, b'a', false), letter(2, 0, b'b', false)]).bytes();
        add("the separator at the pool's end", Call::print_separated(&spaces, sep, 2, vec![], b"aaaa", out(8)));
    }
    for (place, length) in [(u32::MAX, u32::MAX), (u32::MAX, 1), (1, u32::MAX), (u32::MAX, 0), (0, u32::MAX)] {
        let list = bytes_of(&[Record { tag: 1, place, length }]);
        add("a sum past 32 bits", Call::print(&run, list, b"aaaa", out(8)));
    }
    let held = once.iter().position(|&b| b == b'a').expect("the book names its letter");
    add("the pool is the book", Call::print(&once, bytes_of(&[record(1, held, 1)]), &once, out(2)));
    add("the text is the book", cut(&once, &once, 1));
    add("the empty list", Call::print(&once, Vec::new(), b"", Vec::new()));
    add("the empty list, room left", Call::print(&once, vec![1; 9], b"a", out(3)));
    add("the empty list by the empty book", Call::print(b"", Vec::new(), b"", Vec::new()));
}

fn separated(add: Add) {
    let rules = || vec![letter(1, 0, b'a', false), letter(2, 1, b' ', false), letter(3, 0, b'b', true)];
    let bytes = book(rules()).bytes();
    let pool = b"ab      ";
    let out = |n: usize| vec![0xEE; n];
    let one = record(2, 2, 1);
    for mode in [0, 1, 2, 3, 256, u32::MAX] {
        let list = bytes_of(&[record(1, 0, 1), record(1, 0, 1), record(3, 1, 1), record(1, 0, 1)]);
        for n in [0, 4, 5, 6, 7, 8] {
            add("room around the need", Call::print_separated(&bytes, one, mode, list.clone(), pool, out(n)));
        }
        add("the empty list", Call::print_separated(&bytes, one, mode, Vec::new(), pool, out(3)));
        add("nothing but the book", Call::print_separated(&bytes, one, mode, Vec::new(), b"", Vec::new()));
    }
    // 65,536 bytes: 32,769 tokens of a byte with 32,768 separators are 65,537; and the same around 2,048
    let long = [(32_768, 1), (32_769, 1), (21_845, 2), (21_846, 2), (65_536, 1), (65_537, 1)];
    let short = [(1_023, 1), (1_024, 1), (1_025, 1), (682, 2), (683, 2), (2_047, 1), (2_048, 1), (2_049, 1)];
    for (count, sep) in long.into_iter().chain(short) {
        let (a, b) = (record(1, 0, 1), record(3, 1, 1));
        for (token, mode) in [(a, 1), (a, 2), (a, 0), (b, 2), (b, 0)] {
            let list = bytes_of(&vec![token; count]);
            let call = Call::print_separated(&bytes, record(2, 2, sep), mode, list, pool, out(65_536));
            add(&format!("{count} tokens, a separator of {sep}, mode {mode}"), call);
        }
    }
    // the separator's refusals come before 16 and have the list's length as their place
    let many = bytes_of(&vec![record(1, 0, 1); 65_537]);
    for separator in [record(2, 2, 7), record(7, 2, 1), record(2, 0, 1), record(2, 2, 0), record(1, 0, 1), one] {
        let call = Call::print_separated(&bytes, separator, 1, many.clone(), pool, out(4));
        add("65,537 tokens and a separator that may be unfit", call);
        let call = Call::print_separated(&bytes, separator, 1, vec![0; 39], pool, out(4));
        add("a list of three and a separator that may be unfit", call);
    }
    // a separator that passes the limit by itself
    let mut long = b"ab".to_vec();
    long.extend(vec![b' '; 70_000]);
    for (length, tokens) in [(70_000, 0), (70_000, 1), (70_000, 2), (65_534, 2), (65_535, 2)] {
        let list = bytes_of(&vec![record(3, 1, 1); tokens]);
        let call = Call::print_separated(&bytes, record(2, 2, length), 1, list, &long, out(65_536));
        add(&format!("a separator of {length} bytes, {tokens} tokens"), call);
    }
    // used bytes: a move to the error state uses none
    for to in [2, 1] {
        let mut shared = rules();
        shared[1].moves.push((0, b'b', b'b', to));
        shared[1].moves.push((1, b'a', b'b', to));
        let list = bytes_of(&[record(1, 0, 1), record(3, 1, 1)]);
        let call = Call::print_separated(&book(shared).bytes(), one, 2, list, pool, out(4));
        add("a shared byte", call);
    }
    shared_bytes(add);
    lengths(add);
    let no_separator = book(vec![letter(1, 0, b'a', false)]).bytes();
    add("no separator rule", Call::print_separated(&no_separator, record(1, 0, 1), 1, vec![], pool, out(4)));
    let list = bytes_of(&[record(1, 0, 1), record(2, 2, 1)]);
    add("a separator in the list", Call::print_separated(&bytes, one, 1, list, pool, out(8)));
}

/// Tokens and separators of each length that is copied in another way: several bytes at a time, and what is left over.
fn lengths(add: Add) {
    let run = |tag, kind, low, high| {
        let moves = vec![(0, low, high, 1), (1, low, high, 1)];
        Rule { tag, kind, start: 0, error: 2, finals: vec![1], moves }
    };
    let bytes = book(vec![run(1, 0, b'a', b'z'), run(2, 1, b' ', b'/')]).bytes();
    // words in the first half of the pool, separators in the second, no two bytes that follow each other alike
    let half = 200;
    let pool: Vec<u8> =
        (0..half).map(|i| b'a' + (i * 7 % 26) as u8).chain((0..half).map(|i| b' ' + (i * 5 % 16) as u8)).collect();
    for length in 1..=140 {
        let between = record(2, half + length % 5, length);
        let words = [record(1, length % 7, length), record(1, 3, length / 3 + 1), record(1, 0, length)];
        for mode in [1, 2] {
            let call =
                Call::print_separated(&bytes, between, mode, bytes_of(&words), &pool, vec![0xEE; 5 * length + 2]);
            add(&format!("words and separators of {length} bytes, mode {mode}"), call);
        }
        let list = bytes_of(&[words[0], between, words[1], between, words[2]]);
        add(&format!("the same list, {length} bytes"), Call::print(&bytes, list, &pool, vec![0xEE; 5 * length + 2]));
    }
}

/// For each byte: both kinds use it, or one kind uses it and the other all the rest.
fn shared_bytes(add: Add) {
    let rule = |tag: u16, kind: u8, ranges: &[(u8, u8)]| Rule {
        tag,
        kind,
        start: 0,
        error: 2,
        finals: vec![1],
        moves: ranges.iter().map(|&(low, high)| (0, low, high, 1)).collect(),
    };
    for byte in 0..=255u8 {
        let only = [(byte, byte)];
        let next = [(byte ^ 1, byte ^ 1)];
        let mut others: Vec<(u8, u8)> = Vec::new();
        others.extend((byte > 0).then(|| (0, byte.wrapping_sub(1))));
        others.extend((byte < 255).then(|| (byte.wrapping_add(1), 255)));
        let books = [
            vec![rule(1, 0, &only), rule(3, 0, &next), rule(2, 1, &only)],
            vec![rule(1, 0, &next), rule(2, 1, &only)],
            vec![rule(2, 1, &others), rule(1, 0, &only)],
            vec![rule(1, 0, &others), rule(2, 1, &only)],
            vec![rule(1, 0, &others[..1]), rule(3, 0, &others[1..]), rule(2, 1, &only)],
            vec![rule(1, 0, &[(0, 255)]), rule(2, 1, &[(byte, 255)])],
            vec![rule(1, 0, &[(0, byte)]), rule(2, 1, &only)],
        ];
        for rules in books {
            let token = bytes_of(&[record(1, 0, 1)]);
            let pool = [byte, byte ^ 1];
            let call = Call::print_separated(&book(rules).bytes(), record(2, 0, 1), 2, token, &pool, vec![0xEE; 2]);
            add("used bytes", call);
        }
    }
}
