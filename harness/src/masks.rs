//! Edges of masks (document 02, wish 11): rules that agree on a token, in each place among up to 32, rules that match other
//! strings, and room for records and masks on either side of the need. Of each cut it is said here what its masks are.

use crate::calls::{accepted, expected, refused, Answer, Call, BUILTIN};
use crate::edges::{book, cut, cut_builtin, letter, Add};
use crate::generate::Rule;
use crate::random::Random;
use crate::reference::{self as paper, Refusal, BOOK_RULES, LAST_STATE, MASK_BYTES, RECORD_BYTES, TEXT_BYTES};
use std::collections::BTreeSet;

pub fn cuts(add: Add) {
    rooms(add);
    refusals(add);
    places(add);
    patterns(add);
    runs(add);
    shapes_together(add);
    shapes_apart(add);
    hidden(add);
    built_in(add);
    long(add);
}

/// A token by its length and its mask.
type Token = (usize, u32);

/// A cut by a book, or by the built-in one, for each room. It must give these tokens, each with the tag of the earliest rule of its
/// mask.
fn held<'a>(name: &str, book: Option<&'a [u8]>, text: &'a [u8], said: &[Token]) -> impl Fn(usize) -> Call + 'a {
    let bytes = book.unwrap_or(BUILTIN);
    let rules = paper::rules(bytes);
    let second = paper::cut(bytes, text);
    assert_eq!(second.tokens.len(), said.len(), "{name}");
    for ((token, mask), said) in second.tokens.iter().zip(second.masks).zip(said) {
        assert_eq!((token.length as usize, mask), *said, "{name} at {}", token.place);
        assert_eq!(token.tag, paper::tag_of(rules[mask.trailing_zeros() as usize]), "{name} at {}", token.place);
    }
    move |tokens| book.map_or_else(|| cut_builtin(text, tokens), |bytes| cut(bytes, text, tokens))
}

/// Adds it with room for just these tokens, for one more, and for a mask less.
fn add_held(add: Add, name: &str, book: Option<&[u8]>, text: &[u8], said: &[Token]) {
    let lent = held(name, book, text, said);
    add(name, lent(said.len()));
    add(name, lent(said.len() + 1));
    if !said.is_empty() {
        add(name, Call { masks: vec![0xEE; (said.len() - 1) * MASK_BYTES], ..lent(said.len()) });
    }
}

/// A rule with the states as they are, around 256, or from the last one down.
pub fn turned(rule: Rule, turn: usize) -> Rule {
    match turn % 3 {
        0 => rule,
        1 => rule.renamed(|s| s + 254),
        _ => rule.renamed(|s| LAST_STATE - s),
    }
}

/// A rule that matches these words.
pub fn words(words: &[&[u8]]) -> Rule {
    let mut states: Vec<&[u8]> = vec![b""];
    let mut moves = Vec::new();
    for word in words {
        for n in (1..=word.len()).filter(|&n| !states.contains(&&word[..n])).collect::<Vec<_>>() {
            let from = states.iter().position(|s| *s == &word[..n - 1]).expect("its beginning is there");
            moves.push((from as u16, word[n - 1], word[n - 1], states.len() as u16));
            states.push(&word[..n]);
        }
    }
    let end = |word: &&[u8]| states.iter().position(|s| s == word).expect("it is there") as u16;
    let finals = words.iter().map(end).collect();
    Rule { tag: 0, kind: 0, start: 0, error: states.len() as u16, finals, moves }
}

/// A rule that matches one or more bytes from `low` to `high`.
pub fn run(low: u8, high: u8) -> Rule {
    Rule { tag: 0, kind: 0, start: 0, error: 2, finals: vec![1], moves: vec![(0, low, high, 1), (1, low, high, 1)] }
}

/// The rules under tags of their own, of both kinds.
pub fn tagged(rules: Vec<Rule>) -> Vec<u8> {
    let name = |(k, rule): (usize, Rule)| Rule { tag: 700 - 3 * k as u16, kind: (k % 3 == 1) as u8, ..rule };
    book(rules.into_iter().enumerate().map(name).collect()).bytes()
}

/// Records and masks of each length around the need, down to none and up to far more: only where both hold the tokens they are
/// stored.
fn rooms(add: Add) {
    let keyword = tagged(vec![words(&[b"if"]), run(b'a', b'z'), run(b' ', b' ')]);
    let sheet = b"[00:12.50]oh [00:1\n\x7F";
    let cases: [(Option<&[u8]>, &[u8], usize, usize); 9] = [
        (Some(&keyword), b"", 0, 0),
        (Some(&keyword), b"?if", 0, 0),
        (Some(&keyword), b"if", 1, 2),
        (Some(&keyword), b"ifs", 1, 3),
        (Some(&keyword), b"if x?", 3, 4),
        (Some(&keyword), b"if if ifs i", 7, 11),
        (None, b"", 0, 0),
        (None, b"oh", 1, 2),
        (None, sheet, 6, 19),
    ];
    for (bytes, text, tokens, rest) in cases {
        let lengths = |size: usize| -> Vec<usize> {
            let near = (0..=tokens + 1).chain(text.len().saturating_sub(1)..=text.len() + 1).chain([100, 400]);
            let each: BTreeSet<usize> = near.collect();
            each.into_iter().flat_map(|count| (0..size).map(move |left| count * size + left)).collect()
        };
        let few = |length: &usize| [0, 1, RECORD_BYTES - 1].contains(&(length % RECORD_BYTES));
        for records in lengths(RECORD_BYTES).into_iter().filter(few) {
            for masks in lengths(MASK_BYTES) {
                let (records, masks) = (vec![0xEE; records], vec![0xEE; masks]);
                let call = match bytes {
                    Some(bytes) => Call::lex(bytes, text, records, masks),
                    None => Call::lex_builtin(text, records, masks),
                };
                let fits = call.records.len() / RECORD_BYTES >= tokens && call.masks.len() / MASK_BYTES >= tokens;
                let said = if fits { accepted(tokens, rest) } else { refused(Refusal { number: 15, place: tokens }) };
                let answer = expected(&call).answer;
                assert_eq!(answer, said, "{tokens} tokens: {}", Answer(answer));
                add(&format!("room around {tokens} tokens"), call);
            }
        }
    }
}

/// The book's refusals come before 14, and 14 before 15, whatever is lent.
fn refusals(add: Add) {
    let sound = tagged(vec![words(&[b"a"]), run(b'a', b'a')]);
    let many: Vec<Rule> = (1..=33).map(|tag| letter(tag, 0, b'a', true)).collect();
    let last = book(many[..32].to_vec()).bytes().len() - 1;
    let books = [
        (Vec::new(), Some((2, 0))),
        (vec![paper::END], Some((13, 0))),
        (vec![paper::RULE, 0, 1, 2], Some((6, 0))),
        ([&sound[..], &[0]].concat(), Some((4, sound.len()))),
        (book(many).bytes(), Some((5, last))),
        (sound, None),
    ];
    for (bytes, refusal) in books {
        for (length, number) in [(2, 15), (TEXT_BYTES + 1, 14)] {
            let text = [vec![b'a'; 1], vec![b'b'; length - 1]].concat();
            for (records, masks) in [(0, 0), (0, 4), (10, 0), (9, 4), (10, 3), (10, 4), (30, 12)] {
                let call = Call::lex(&bytes, &text, vec![0xEE; records], vec![0xEE; masks]);
                let said = match refusal {
                    Some((number, place)) => refused(Refusal { number, place }),
                    None if number == 14 => refused(Refusal { number, place: 0 }),
                    None if records < 10 || masks < 4 => refused(Refusal { number, place: 1 }),
                    None => accepted(1, 1),
                };
                let answer = expected(&call).answer;
                assert_eq!(answer, said, "{}", Answer(answer));
                add("refusals of a cut", call);
            }
            let call = Call::lex_builtin(&text, vec![0xEE; 10], vec![0xEE; 3]);
            let place = if number == 14 { 0 } else { 1 };
            assert_eq!(expected(&call).answer, refused(Refusal { number, place }));
            add("refusals of a cut by the built-in book", call);
        }
    }
}

/// A book of so many rules, of which those of a set match "a", the others "b".
fn parted(count: usize, set: u32) -> Vec<u8> {
    let of = |k: usize| turned(words(&[if set >> k & 1 == 1 { b"a" } else { b"b" }]), k + count);
    tagged((0..count).map(of).collect())
}

/// Each rule alone and all but each; of 32 rules each two, and all but each two.
fn places(add: Add) {
    for count in 1..=BOOK_RULES {
        let all = u32::MAX >> (BOOK_RULES - count);
        let mut sets: Vec<u32> = (0..count).map(|k| 1 << k).collect();
        sets.extend([all, all & 0x5555_5555, all & 0xFF00_00FF, all & 0x1234_5678]);
        if count == BOOK_RULES {
            sets.extend((0..count).flat_map(|k| (0..k).map(move |other| 1 << k | 1 << other)));
        }
        for set in sets {
            let tokens: Vec<Token> = b"abaab"
                .iter()
                .map(|byte| (1, if *byte == b'a' { set } else { all & !set }))
                .take_while(|(_, mask)| *mask != 0)
                .collect();
            add_held(add, &format!("{set:08X} of {count} rules"), Some(&parted(count, set)), b"abaab", &tokens);
        }
    }
}

/// A book in which each byte is a token with a mask of its own.
fn patterned(masks: &[u32; 256]) -> Vec<u8> {
    let of = |k: usize| {
        let named = (0..=255).filter(|&byte| masks[byte as usize] >> k & 1 == 1);
        let moves = named.map(|byte| (0, byte, byte, 1)).collect();
        turned(Rule { tag: 0, kind: 0, start: 0, error: 2, finals: vec![1], moves }, k / 8)
    };
    tagged((0..BOOK_RULES).map(of).collect())
}

/// Each byte of a mask with each value, and masks without order.
fn patterns(add: Add) {
    let mut all: Vec<[u32; 256]> = Vec::new();
    for shift in [0, 8, 16, 24] {
        all.push(std::array::from_fn(|n| (n as u32) << shift));
        all.push(std::array::from_fn(|n| (n as u32) << shift | 0x0102_0408u32.rotate_left(n as u32)));
    }
    let mut r = Random::of(11, 0);
    all.extend((0..4).map(|_| std::array::from_fn(|_| r.next() as u32 & r.next() as u32)));
    all.extend((0..4).map(|_| std::array::from_fn(|_| r.next() as u32)));
    for masks in all {
        let mut text: Vec<u8> = (0..=255).filter(|&byte| masks[byte as usize] != 0).collect();
        for _ in 0..2 {
            let said: Vec<Token> = text.iter().map(|&byte| (1, masks[byte as usize])).collect();
            add_held(add, "masks of single bytes", Some(&patterned(&masks)), &text, &said);
            r.shuffle(&mut text);
        }
    }
}

/// Books of rules that match some numbers of "a": of a run, the longest beginning that is matched is the token, and those that match a
/// shorter one alone do not agree.
fn runs(add: Add) {
    let mut r = Random::of(11, 1);
    for turn in 0..24 {
        let longest = [3, 9, 40, 100][turn % 4];
        let count = [BOOK_RULES, 5, 17][turn / 4 % 3];
        // few agree, about half, or most; at some lengths none does
        let mut mask = || match turn / 12 {
            0 => r.next() & r.next() & r.next() & r.next(),
            _ => r.next() | r.next(),
        };
        let all = u32::MAX >> (BOOK_RULES - count);
        let mut masks: Vec<u32> = (0..=longest).map(|_| mask() as u32 & all).collect();
        masks[1] |= 1 << (turn % count);
        let of = |k: usize| {
            let finals: Vec<u16> = (1..=longest as u16).filter(|&n| masks[n as usize] >> k & 1 == 1).collect();
            let last = finals.last().copied().unwrap_or(longest as u16 / 2);
            let moves = (0..last).map(|s| (s, b'a', b'a', s + 1)).collect();
            turned(Rule { tag: 0, kind: 0, start: 0, error: 101, finals, moves }, turn + k)
        };
        let mut rules: Vec<Rule> = (0..count).map(of).collect();
        let start = rules[0].start;
        rules[0].moves.push((start, b'b', b'b', LAST_STATE - 150));
        rules[0].finals.push(LAST_STATE - 150);
        let bytes = tagged(rules);
        let (mut text, mut said) = (Vec::new(), Vec::new());
        for length in (1..=longest + 2).chain([2 * longest]) {
            text.extend(vec![b'a'; length]);
            text.push(b'b');
            let mut left = length;
            while left > 0 {
                let matched = (1..=left.min(longest)).rev().find(|&n| masks[n] != 0).expect("one is always matched");
                said.push((matched, masks[matched]));
                left -= matched;
            }
            said.push((1, 1));
        }
        add_held(add, &format!("runs of up to {longest} by {count} rules"), Some(&bytes), &text, &said);
    }
}

/// A rule in what it does with the token "ab", and the words that it matches in the texts below.
struct Shape {
    rule: Rule,
    matched: Vec<&'static [u8]>,
}

const TEXTS: [&[u8]; 4] = [b"ab", b"abc", b"abab", b"aabcab"];

fn shapes() -> Vec<Shape> {
    let listed: [&[&[u8]]; 8] = [
        &[b"ab"],
        // a shorter part of it, and a later one
        &[b"a"],
        &[b"b"],
        // the walk goes on behind it, and comes to nothing
        &[b"abcd"],
        &[b"a", b"abcd"],
        &[b"ab", b"a", b"abcabd"],
        // the walk ends inside it
        &[b"ac"],
        &[b"abab", b"aa"],
    ];
    let mut all: Vec<Shape> = listed.map(|list| Shape { rule: words(list), matched: list.to_vec() }).into();
    let mut nothing = |start: u16, finals: &[u16], moves: &[paper::Move]| {
        let rule = Rule { tag: 0, kind: 0, start, error: 9, finals: finals.to_vec(), moves: moves.to_vec() };
        all.push(Shape { rule, matched: Vec::new() });
    };
    // a start that is the error state, no final state, one that is not reached, no move
    nothing(9, &[1, 2], &[(0, b'a', b'a', 1), (1, b'b', b'b', 2)]);
    nothing(0, &[], &[(0, b'a', b'c', 0)]);
    nothing(0, &[2], &[(0, b'a', b'b', 1), (1, b'a', b'c', 1), (3, b'b', b'b', 2)]);
    nothing(0, &[1], &[]);
    let ab = [&b"a"[..], b"b", b"aa", b"ab", b"ba", b"aab", b"aba", b"bab", b"abab"];
    all.push(Shape { rule: run(b'a', b'b'), matched: ab.to_vec() });
    all
}

/// The tokens that the rules of these words make of a text.
fn tokens(text: &[u8], rules: &[&Shape]) -> Vec<Token> {
    let mut found = Vec::new();
    let mut rest = text;
    loop {
        let mask = |n: usize| (0..).zip(rules).map(|(k, s)| (s.matched.contains(&&rest[..n]) as u32) << k).sum();
        match (1..=rest.len()).rev().map(|n| (n, mask(n))).find(|(_, mask)| *mask != 0) {
            Some((n, mask)) => {
                found.push((n, mask));
                rest = &rest[n..];
            }
            None => return found,
        }
    }
}

/// Each three shapes as a book.
fn shapes_together(add: Add) {
    let shapes = shapes();
    for (i, one) in shapes.iter().enumerate() {
        for (k, two) in shapes.iter().enumerate() {
            for (n, three) in shapes.iter().enumerate() {
                let rules = [one, two, three];
                let turned = rules.iter().zip([i + k, k + n, n + i]).map(|(s, turn)| turned(s.rule.clone(), turn));
                let bytes = tagged(turned.collect());
                let text = TEXTS[(i + k + n) % TEXTS.len()];
                add_held(add, "three shapes of rules", Some(&bytes), text, &tokens(text, &rules));
            }
        }
    }
}

/// Each two shapes, among rules for another byte, on either side of the bytes of a mask and at its ends.
fn shapes_apart(add: Add) {
    let shapes = shapes();
    let other = Shape { rule: words(&[b"z"]), matched: Vec::new() };
    for places in [[0, 31], [7, 8], [15, 16], [23, 24], [30, 31]] {
        for one in &shapes {
            for two in &shapes {
                let mut rules = [&other; BOOK_RULES];
                rules[places[0]] = one;
                rules[places[1]] = two;
                let bytes = tagged(rules.iter().map(|s| s.rule.clone()).collect());
                for text in TEXTS {
                    let name = format!("shapes as rules {places:?}");
                    let said = tokens(text, &rules);
                    add(&name, held(&name, Some(&bytes), text, &said)(said.len()));
                }
            }
        }
    }
}

/// Rules that earlier ones hide, wholly or in part.
fn hidden(add: Add) {
    let word = |letters: u32| {
        [(2, 1 | letters), (1, 4), (3, letters), (1, 4), (1, letters), (1, 4), (2, 1 | letters), (1, 4), (2, letters)]
    };
    let text = b"if ifs i if fi";
    let (keyword, letters, blanks) = (words(&[b"if"]), run(b'a', b'z'), run(b' ', b' '));
    let first = tagged(vec![keyword.clone(), letters.clone(), blanks.clone()]);
    add_held(add, "a keyword before the letters", Some(&first), text, &word(2));
    let second = tagged(vec![letters.clone(), keyword.clone(), blanks.clone()]);
    let swapped = word(2).map(|(n, mask)| (n, [mask, 2, 1, 3][mask as usize % 4]));
    add_held(add, "a keyword behind the letters", Some(&second), text, &swapped);
    let far = [vec![keyword, blanks.clone()], vec![blanks; BOOK_RULES - 3], vec![letters]].concat();
    let said = word(1 << 31).map(|(n, mask)| (n, if mask == 4 { 0x7FFF_FFFE } else { mask }));
    add_held(add, "the letters as the last rule", Some(&tagged(far)), text, &said);
    // the rules of the built-in book several times
    let sheet = b"[00:12.50]oh yes\n[00:1 \t]".repeat(3);
    let once = [(10, 1), (2, 2), (1, 4), (3, 2), (1, 8), (1, 16), (4, 2), (2, 4), (1, 16)].repeat(3);
    for copies in 1..=6 {
        let mut bytes = Vec::new();
        for copy in 0..copies {
            for rule in paper::rules(BUILTIN) {
                let tag = paper::tag_of(rule) + 5 * copy;
                bytes.extend([&[paper::RULE], &tag.to_be_bytes()[..], &rule[3..]].concat());
            }
        }
        bytes.push(paper::END);
        let each = |mask: u32| (0..copies).map(|copy| mask << (5 * copy)).sum();
        let said: Vec<Token> = once.iter().map(|&(n, mask)| (n, each(mask))).collect();
        add_held(add, &format!("{copies} times the built-in rules"), Some(&bytes), &sheet, &said);
    }
    add_held(add, "the built-in book", None, &sheet, &once);
}

/// Each byte by the built-in book, alone and behind a beginning of a time stamp.
fn built_in(add: Add) {
    for byte in 0..=255u8 {
        let mask = match byte {
            b' ' | b'\t' => 4,
            b'\n' => 8,
            b'[' | b']' => 16,
            0x21..=0x7E | 0x80..=0xFF => 2,
            _ => 0,
        };
        let alone: Vec<Token> = if mask == 0 { Vec::new() } else { vec![(1, mask)] };
        add_held(add, "each byte by the built-in book", None, &[byte], &alone);
        for kept in 1..10 {
            let text = [&b"[01:23.45]"[..kept], &[byte]].concat();
            let said = match (kept, mask) {
                (9, 16) if byte == b']' => vec![(10, 1)],
                (1, _) => [vec![(1, 16)], alone.clone()].concat(),
                (_, 2) => vec![(1, 16), (kept, 2)],
                _ => [vec![(1, 16), (kept - 1, 2)], alone.clone()].concat(),
            };
            let name = "each byte behind a beginning of a time stamp";
            add(name, held(name, None, &text, &said)(said.len()));
        }
    }
}

/// As many tokens as there can be, with masks that alternate, and one token of all bytes.
fn long(add: Add) {
    let parted = tagged(vec![words(&[b"a"]), words(&[b"b", b"a"]), words(&[b"a", b"aa"])]);
    let text: Vec<u8> = b"ab".iter().cycle().take(TEXT_BYTES).copied().collect();
    let said: Vec<Token> = [(1, 7), (1, 2)].into_iter().cycle().take(TEXT_BYTES).collect();
    add_held(add, "65,536 masks that alternate", Some(&parted), &text, &said);
    let even = Rule {
        finals: vec![2],
        error: 3,
        moves: vec![(0, b'a', b'a', 1), (1, b'a', b'a', 2), (2, b'a', b'a', 1)],
        ..run(0, 0)
    };
    let bytes = tagged(vec![words(&[b"a"]), run(b'a', b'a'), even, words(&[b"aaa"]), run(b'a', b'b')]);
    for length in [1, 2, 3, 4, 63, 64, TEXT_BYTES - 1, TEXT_BYTES] {
        let mask = (length == 1) as u32 | 2 | ((length % 2 == 0) as u32) << 2 | ((length == 3) as u32) << 3 | 16;
        add_held(add, &format!("one token of {length} bytes"), Some(&bytes), &vec![b'a'; length], &[(length, mask)]);
    }
}
