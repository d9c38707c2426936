//! Edges of cutting in turns (document 02, wish 1): budgets on either side of each reach, from each place of a text, rules that stop
//! in each way, and the order of the refusals. Of each place it is said here what its reach is and which token begins there; from
//! that alone the turns are made that the second implementation is held to.

use crate::calls::{accepted, expected, refused, Answer, Call, BUILTIN};
use crate::edges::{book, letter, mask_room, room, Add};
use crate::generate::Rule;
use crate::masks::{run, tagged, turned, words};
use crate::reference::{
    self as paper, Move, Record, Refusal, BOOK_RULES, LAST_STATE, MASK_BYTES, RECORD_BYTES, TEXT_BYTES,
};

pub fn turns(add: Add) {
    by_hand(add);
    shapes_alone(add);
    shapes_together(add);
    among_many(add);
    long_reaches(add);
    numbers(add);
    rooms(add);
    refusals(add);
    sheets(add);
    long_texts(add);
    itself(add);
}

/// A turn with room for so many tokens; its numbers are lent with bytes that a store would change.
pub fn turn(book: &[u8], text: &[u8], place: u64, budget: u64, tokens: usize) -> Call {
    let numbers = [0xEEEE_EEEE_EEEE_EEEE, 0xEEEE_EEEE_EEEE_EEEE];
    Call::lex_within(book, text, (place, budget), room(tokens), mask_room(tokens), numbers)
}

/// What is said of a place: its reach, and the length and the mask of the token that begins there, or none.
type Stop = (usize, Option<(usize, u32)>);

/// A token's place, length and mask.
type Token = (usize, usize, u32);

/// A text with what is said of each of its places, the end included.
struct Sheet<'a> {
    name: &'a str,
    book: &'a [u8],
    text: &'a [u8],
    said: Vec<Stop>,
}

impl<'a> Sheet<'a> {
    fn new(name: &'a str, book: &'a [u8], text: &'a [u8], said: &[Stop]) -> Sheet<'a> {
        assert_eq!(said.len(), text.len(), "{name}");
        Sheet { name, book, text, said: [said, &[(0, None)]].concat() }
    }

    /// The tokens of a turn, its next place, what it examines, and whether it is finished.
    fn turn(&self, place: usize, budget: u64) -> (Vec<Token>, usize, u64, bool) {
        let (mut at, mut left, mut tokens) = (place, budget, Vec::new());
        loop {
            let (reach, token) = self.said[at];
            if reach as u64 > left {
                return (tokens, at, budget - left, false);
            }
            left -= reach as u64;
            match token {
                None => return (tokens, at, budget - left, true),
                Some((length, mask)) => {
                    tokens.push((at, length, mask));
                    at += length;
                }
            }
        }
    }

    /// Adds a turn, to which the second implementation is held, with room for its tokens and for so many more; and with a record or a
    /// mask too few.
    fn add(&self, add: Add, place: usize, budget: u64, more: usize) {
        let (tokens, next, examined, finished) = self.turn(place, budget);
        let name = format!("{}, from {place} with {budget}", self.name);
        let call = turn(self.book, self.text, place as u64, budget, tokens.len() + more);
        let rules = paper::rules(self.book);
        let mut after = call.clone();
        for (i, &(place, length, mask)) in tokens.iter().enumerate() {
            let tag = paper::tag_of(rules[mask.trailing_zeros() as usize]);
            let token = Record { tag, place: place as u32, length: length as u32 };
            after.records[i * RECORD_BYTES..][..RECORD_BYTES].copy_from_slice(&token.to_bytes());
            after.masks[i * MASK_BYTES..][..MASK_BYTES].copy_from_slice(&mask.to_be_bytes());
        }
        let second = expected(&call);
        assert_eq!(second.answer, accepted(tokens.len(), finished as usize), "{name}: {}", Answer(second.answer));
        assert_eq!(second.cut(), (&after.records[..], &after.masks[..]), "{name}");
        assert_eq!(second.numbers(), [next as u64, examined], "{name}");
        add(&name, call);
        if let Some(fewer) = tokens.len().checked_sub(1) {
            let (records, masks) = if more % 2 == 0 { (fewer, tokens.len()) } else { (tokens.len() + more, fewer) };
            let short = Call { masks: mask_room(masks), ..turn(self.book, self.text, place as u64, budget, records) };
            let answer = expected(&short).answer;
            assert_eq!(answer, refused(Refusal { number: 15, place: tokens.len() }), "{name}: {}", Answer(answer));
            add(&format!("{name}, one too few"), short);
        }
    }

    /// From a place, each budget up to more than all that is examined from there on, or those on either side of where it
    /// makes a difference; and budgets that no text needs.
    fn add_budgets(&self, add: Add, place: usize) {
        let (tokens, _, total, _) = self.turn(place, u64::MAX);
        let mut budgets: Vec<u64> = (0..=total + 1).collect();
        if total > 64 {
            let paid = (1..=tokens.len()).map(|n| tokens[..n].iter().map(|t| self.said[t.0].0 as u64).sum::<u64>());
            let near = paid.chain([0, total]).flat_map(|sum| [sum.saturating_sub(1), sum, sum + 1]);
            budgets = near.collect();
            budgets.sort_unstable();
            budgets.dedup();
        }
        budgets.extend(FAR);
        for (i, budget) in budgets.into_iter().enumerate() {
            self.add(add, place, budget, [0, 1, 0, 3][(i + place) % 4]);
        }
    }

    fn add_all(&self, add: Add) {
        for place in 0..=self.text.len() {
            self.add_budgets(add, place);
        }
        let length = self.text.len() as u64;
        for place in [length + 1, length + 2, length + 256, length + 65_536, length + (1 << 32), 1 << 63, u64::MAX] {
            for budget in [0, u64::MAX] {
                add_refused(add, self.name, turn(self.book, self.text, place, budget, 0), 27, 0);
            }
        }
    }
}

/// Budgets beyond all texts, on either side of 32 bits.
const FAR: [u64; 6] = [(1 << 32) - 1, 1 << 32, (1 << 32) + 1, 1 << 63, u64::MAX - 1, u64::MAX];

fn add_refused(add: Add, name: &str, call: Call, number: u8, place: usize) {
    let answer = expected(&call).answer;
    assert_eq!(answer, refused(Refusal { number, place }), "{name}: {}", Answer(answer));
    add(name, call);
}

fn rule(start: u16, finals: &[u16], moves: &[Move]) -> Rule {
    Rule { tag: 0, kind: 0, start, error: 9, finals: finals.to_vec(), moves: moves.to_vec() }
}

/// A rule that matches "a", and lives on as long as there are more of them, for a "b" at their end.
fn ahead() -> Rule {
    rule(
        0,
        &[1, 3],
        &[(0, b'a', b'a', 1), (1, b'a', b'a', 2), (1, b'b', b'b', 3), (2, b'a', b'a', 2), (2, b'b', b'b', 3)],
    )
}

/// A token of one byte.
fn one(reach: usize, mask: u32) -> Stop {
    (reach, Some((1, mask)))
}

/// Texts of which each place is said by hand.
fn by_hand(add: Add) {
    let mut sheet = |name: &str, rules: Vec<Rule>, text: &[u8], said: &[Stop]| {
        Sheet::new(name, &tagged(rules), text, said).add_all(add);
    };
    let none: Stop = (1, None);
    // document 01's book A
    let a = || vec![words(&[b"a", b"abc"]), words(&[b"b"]), words(&[b"c"]), run(b' ', b' ')];
    let said = [(4, Some((3, 1))), one(2, 2), one(2, 4), one(3, 1), one(2, 2), none, one(2, 8), one(1, 1)];
    sheet("book A", a(), b"abcabd a", &said);
    sheet("the empty text", a(), b"", &[]);
    let ends = vec![words(&[b"a", b"ab"]), words(&[b"b", b"bc"])];
    sheet("a token that ends the text", ends, b"ab", &[(2, Some((2, 1))), one(1, 2)]);
    // a final state that nothing leaves is not the error state, nor is any other: there is a byte more to read, if there is one
    let once = || words(&[b"a"]);
    sheet("a final state that nothing leaves", vec![once()], b"aaab", &[one(2, 1), one(2, 1), one(2, 1), none]);
    sheet("a final state that nothing leaves, at the end", vec![once()], b"aa", &[one(2, 1), one(1, 1)]);
    let stuck = rule(0, &[1], &[(0, b'a', b'a', 1), (0, b'b', b'b', 2)]);
    sheet("a state that nothing leaves", vec![stuck], b"abba", &[one(2, 1), (2, None), (2, None), one(1, 1)]);
    // a move to the error state is as none
    let moved = rule(0, &[1], &[(0, b'a', b'a', 1), (0, b'b', b'b', 9), (1, 0, 255, 9)]);
    sheet("moves to the error state", vec![moved], b"abbca", &[one(2, 1), none, none, none, one(1, 1)]);
    let apart = rule(0, &[1], &[(0, b'b', b'b', 1), (0, b'd', b'd', 1)]);
    sheet("a first byte between others", vec![apart], b"abcde", &[none, one(2, 1), none, one(2, 1), none]);
    // where all rules start in their error states nothing is examined
    let dead = || rule(9, &[1], &[(0, b'a', b'a', 1)]);
    for count in [1, 2, BOOK_RULES] {
        let mut rules: Vec<Rule> = (0..count).map(|k| turned(dead(), k)).collect();
        sheet("rules that start in their error states", rules.clone(), b"aab", &[(0, None); 3]);
        rules[count - 1] = once();
        let mask = 1 << (count - 1);
        sheet("all but one start in their error states", rules, b"aab", &[one(2, mask), one(2, mask), none]);
    }
    // rules that live on: of no use, for a byte that does not come, and for one that does
    let endless = vec![once(), rule(0, &[], &[(0, 0, 255, 0)])];
    sheet("a rule that never ends", endless, b"aabaa", &[one(5, 1), one(4, 1), (3, None), one(2, 1), one(1, 1)]);
    sheet("a byte that does not come", vec![ahead()], b"aaaa", &[one(4, 1), one(3, 1), one(2, 1), one(1, 1)]);
    let said = [(5, Some((4, 1))), (4, Some((3, 1))), (3, Some((2, 1))), none, one(3, 1), one(2, 1), none];
    sheet("a byte that comes, and another", vec![ahead()], b"aaabaac", &said);
    // rules that agree, of which one looks further
    let agree = vec![words(&[b"ab"]), run(b'a', b'z'), words(&[b"ab", b"ab ab"]), run(b' ', b' ')];
    let said = [(5, Some((2, 7))), one(2, 2), one(2, 8), (3, Some((3, 2))), (2, Some((2, 2))), one(1, 2)];
    sheet("rules that agree", agree, b"ab acc", &said);
    // a time stamp, each later part of it as a word, then a beginning of one
    let mut said = vec![(11, Some((10, 1)))];
    said.extend((1..9).map(|at| (10 - at, Some((9 - at, 2)))));
    said.extend([one(2, 16), (3, Some((2, 2))), one(2, 2), one(2, 4), one(6, 16)]);
    said.extend([(5, Some((4, 2))), (4, Some((3, 2))), (3, Some((2, 2))), one(2, 2), one(1, 8)]);
    Sheet::new("the built-in book", BUILTIN, b"[00:12.50]oh [00:1\n", &said).add_all(add);
}

/// A rule by the strings after which it does not stand in its error state, and by those that it matches.
struct Shape {
    rule: Rule,
    lives: fn(&[u8]) -> bool,
    matches: fn(&[u8]) -> bool,
}

fn all_a(word: &[u8]) -> bool {
    word.iter().all(|b| *b == b'a')
}

/// One or more "a", then a "b".
fn closed(word: &[u8]) -> bool {
    matches!(word, [before @ .., b'b'] if !before.is_empty() && all_a(before))
}

fn shapes() -> Vec<Shape> {
    let moved = rule(0, &[1], &[(0, b'a', b'a', 1), (0, b'b', b'c', 9), (1, 0, 255, 9)]);
    let even = rule(0, &[2], &[(0, b'a', b'a', 1), (1, b'a', b'a', 2), (2, b'a', b'a', 1)]);
    let late = rule(0, &[1], &[(0, b'a', b'a', 1), (1, b'b', b'b', 2), (2, b'b', b'b', 3)]);
    let stuck = rule(0, &[1], &[(0, b'a', b'a', 1), (0, b'b', b'b', 2)]);
    let mut all = Vec::new();
    let mut shape = |rule, lives, matches| all.push(Shape { rule, lives, matches });
    shape(words(&[b"a"]), |w| matches!(w, b"" | b"a"), |w| w == b"a");
    shape(words(&[b"ab"]), |w| matches!(w, b"" | b"a" | b"ab"), |w| w == b"ab");
    shape(words(&[b"b", b"ba"]), |w| matches!(w, b"" | b"b" | b"ba"), |w| matches!(w, b"b" | b"ba"));
    shape(run(b'a', b'a'), all_a, all_a);
    shape(even, all_a, |w| all_a(w) && w.len() % 2 == 0);
    shape(ahead(), |w| all_a(w) || closed(w), |w| w == b"a" || closed(w));
    shape(late, |w| matches!(w, b"" | b"a" | b"ab" | b"abb"), |w| w == b"a");
    shape(moved, |w| matches!(w, b"" | b"a"), |w| w == b"a");
    shape(stuck, |w| matches!(w, b"" | b"a" | b"b"), |w| w == b"a");
    // everything, nothing but to the end, nothing at once, and nothing from an error state
    shape(run(0, 255), |_| true, |_| true);
    shape(rule(0, &[], &[(0, 0, 255, 0)]), |_| true, |_| false);
    shape(rule(0, &[1], &[]), |w| w == b"", |_| false);
    shape(rule(9, &[1], &[(0, 0, 255, 1)]), |_| false, |_| false);
    all
}

/// What stands at the beginning of a text by rules of these shapes: each has a reach of its own, and the longest is that of all.
fn stop(shapes: &[&Shape], text: &[u8]) -> Stop {
    let own = |s: &&Shape| (0..text.len()).find(|&n| !(s.lives)(&text[..n])).unwrap_or(text.len());
    let mask = |n: usize| (0..).zip(shapes).map(|(k, s)| ((s.matches)(&text[..n]) as u32) << k).sum();
    let reach = shapes.iter().map(own).max().expect("there are shapes");
    (reach, (1..=text.len()).rev().map(|n| (n, mask(n))).find(|(_, mask)| *mask != 0))
}

/// The sheet of a text by rules of these shapes, with states in several places.
fn with_shapes(shapes: &[&Shape], text: &[u8], shift: usize, then: impl FnOnce(&Sheet)) {
    let rules = shapes.iter().enumerate().map(|(k, s)| turned(s.rule.clone(), k + shift)).collect();
    let said: Vec<Stop> = (0..text.len()).map(|at| stop(shapes, &text[at..])).collect();
    then(&Sheet::new("shapes of rules", &tagged(rules), text, &said));
}

/// Every text of so many letters "a" and "b".
fn letters(count: usize) -> impl Iterator<Item = Vec<u8>> {
    (0..1 << count).map(move |set| (0..count).map(|bit| b'a' + (set >> bit & 1) as u8).collect())
}

/// Each shape alone with every text of up to four letters, and each two with some: from each place, with each budget.
fn shapes_alone(add: Add) {
    let shapes = shapes();
    let every = |sheet: &Sheet, add: Add| {
        for place in 0..=sheet.text.len() {
            for budget in 0..=sheet.turn(place, u64::MAX).2 + 1 {
                sheet.add(add, place, budget, (budget as usize + place) % 3);
            }
        }
    };
    for (i, one) in shapes.iter().enumerate() {
        for text in (1..=4).flat_map(letters).chain([b"acab".to_vec()]) {
            with_shapes(&[one], &text, i, |sheet| every(sheet, add));
        }
        for (k, two) in shapes.iter().enumerate() {
            for text in letters(4).skip((i + 5 * k) % 7).step_by(7) {
                with_shapes(&[one, two], &text, i + k, |sheet| every(sheet, add));
            }
        }
    }
}

/// Each three shapes: all of a text, just so much, a byte less, and about half.
fn shapes_together(add: Add) {
    let shapes = shapes();
    for (i, one) in shapes.iter().enumerate() {
        for (k, two) in shapes.iter().enumerate() {
            for (n, three) in shapes.iter().enumerate() {
                let text = letters(5).nth((11 * i + 7 * k + 3 * n) % 32).expect("there are 32");
                with_shapes(&[one, two, three], &text, i + k + n, |sheet| {
                    let place = (i + 2 * k + 4 * n) % 4;
                    let total = sheet.turn(place, u64::MAX).2;
                    for budget in [total, total.saturating_sub(1), total / 2] {
                        sheet.add(add, place, budget, (i + k) % 3);
                    }
                });
            }
        }
    }
}

/// Of up to 32 rules one that looks further than all others, and one that alone does not start in its error state, each in each place.
fn among_many(add: Add) {
    for count in [2, 8, 9, 16, 17, 31, BOOK_RULES] {
        for k in 0..count {
            let with = |one: Rule, other: Rule| {
                tagged((0..count).map(|i| if i == k { &one } else { &other }.clone()).collect())
            };
            let further = with(ahead(), words(&[b"a"]));
            let all = u32::MAX >> (BOOK_RULES - count);
            let sheet =
                Sheet::new("a rule that looks further", &further, b"aaa", &[one(3, all), one(2, all), one(1, all)]);
            for budget in 2..=6 {
                sheet.add(add, 0, budget, 0);
            }
            let alone = with(words(&[b"a"]), rule(9, &[1], &[(0, 0, 255, 1)]));
            let sheet =
                Sheet::new("a rule that lives alone", &alone, b"aab", &[one(2, 1 << k), one(2, 1 << k), (1, None)]);
            for budget in [0, 1, 2, 4, 5] {
                sheet.add(add, 0, budget, 1);
            }
        }
    }
}

/// A word of many letters, by texts that have it and by one that ends before it does, of which each place is looked at to the end.
fn long_reaches(add: Add) {
    for length in [47, 48, 49, 254, 255, 256, 257, 2_047, 4_094] {
        let moves = (0..length as u16).map(|s| (s, b'a', b'a', s + 1)).collect();
        let chain = Rule { tag: 0, kind: 0, start: 0, error: LAST_STATE, finals: vec![length as u16], moves };
        let book = tagged(vec![chain, words(&[b"a"])]);
        let stop = |rest: usize| if rest < length { one(rest, 2) } else { (rest.min(length + 1), Some((length, 1))) };
        for count in length - 1..=length + 2 {
            let text = vec![b'a'; count];
            let said: Vec<Stop> = (1..=count).rev().map(stop).collect();
            let sheet = Sheet::new("a long word", &book, &text, &said);
            if count < length {
                let two = (2 * count - 1) as u64;
                for budget in [0, 1, count as u64 - 1, count as u64, count as u64 + 1, two - 1, two, two + 1] {
                    sheet.add(add, 0, budget, 0);
                }
                sheet.add_budgets(add, count - 4);
            } else {
                sheet.add_budgets(add, 0);
                sheet.add_budgets(add, count - length);
            }
        }
    }
}

/// Each of these numbers as the error state with each as a state that nothing leaves: as a final one beside a move to the error state, and
/// as the start, which it may be itself.
fn numbers(add: Add) {
    let all = [0, 1, 2, 15, 16, 254, 255, 256, 257, 511, 512, 513, 2_048, 3_840, 4_094, LAST_STATE];
    let tags = [1, 255, 256, 32_767, 65_535];
    for (i, &error) in all.iter().enumerate() {
        for (k, &state) in all.iter().enumerate() {
            let (tag, kind) = (tags[(i + k) % tags.len()], (i % 2) as u8);
            let alone = book(vec![Rule { tag, kind, start: state, error, finals: vec![], moves: vec![] }]).bytes();
            let reach = (state != error) as usize;
            let sheet = Sheet::new("a start without moves", &alone, b"aa", &[(reach, None), (reach, None)]);
            sheet.add(add, 0, 0, 0);
            sheet.add(add, 1, 1, 1);
            if state == error {
                continue;
            }
            let start = [7, 300, 4_000][(i + 2 * k) % 3];
            let moves = vec![(start, b'a', b'a', state), (start, b'c', b'c', error)];
            let beside = book(vec![Rule { tag, kind, start, error, finals: vec![state], moves }]).bytes();
            let said = [one(2, 1), (1, None), (1, None), one(1, 1)];
            let sheet = Sheet::new("a final state beside the error state", &beside, b"acca", &said);
            for (place, budget) in [(0, 1), (0, 2), (0, 3), (1, 0), (1, 1), (3, 1)] {
                sheet.add(add, place, budget, k % 2);
            }
        }
    }
}

/// Records and masks of each number up to more than a turn can have tokens, with bytes left over or not.
fn rooms(add: Add) {
    let book = tagged(vec![words(&[b"a", b"abc"]), words(&[b"b"]), words(&[b"c"])]);
    let one = |reach| one(reach, 1);
    let said =
        [one(2), one(3), (2, Some((1, 2))), one(2), (4, Some((3, 1))), (2, Some((1, 2))), (2, Some((1, 4))), one(1)];
    let sheet = Sheet::new("rooms", &book, b"aabaabca", &said);
    for (place, budget) in
        [(0, 2), (0, 5), (0, 14), (1, 6), (1, 7), (3, 7), (3, u64::MAX), (4, 4), (7, 0), (7, 1), (8, 3)]
    {
        let (tokens, _, _, finished) = sheet.turn(place, budget);
        for records in 0..=10 {
            for masks in 0..=10 {
                let (left, over) = ([0, 1, 9][(records + masks) % 3], [0, 3, 1][(records + 2 * masks) % 3]);
                let mut call = turn(sheet.book, sheet.text, place as u64, budget, 0);
                call.records = vec![0xEE; records * RECORD_BYTES + left];
                call.masks = vec![0xEE; masks * MASK_BYTES + over];
                let said = if records.min(masks) < tokens.len() {
                    refused(Refusal { number: 15, place: tokens.len() })
                } else {
                    accepted(tokens.len(), finished as usize)
                };
                let answer = expected(&call).answer;
                assert_eq!(answer, said, "from {place} with {budget}: {}", Answer(answer));
                add(&format!("room for {records} records and {masks} masks, from {place} with {budget}"), call);
            }
        }
    }
}

/// The book's refusals come first, then 14, 27 and 15, whatever else is lent.
fn refusals(add: Add) {
    let sound = tagged(vec![words(&[b"a"]), run(b'b', b'b')]);
    let many: Vec<Rule> = (1..=33).map(|tag| letter(tag, 0, b'a', true)).collect();
    let last = book(many[..32].to_vec()).bytes().len() - 1;
    let books = [
        (Vec::new(), Some((2, 0))),
        (vec![paper::END], Some((13, 0))),
        (vec![paper::RULE, 0, 1, 2], Some((6, 0))),
        ([&sound[..], &[0]].concat(), Some((4, sound.len()))),
        (book(many).bytes(), Some((5, last))),
        (sound, None),
    ];
    for (bytes, refusal) in books {
        for length in [0, 3, TEXT_BYTES + 1] {
            // tokens of one byte, the first of "a"
            let text: Vec<u8> = b"ab".iter().cycle().take(length).copied().collect();
            let past = length as u64 + 1;
            for place in [0, 1, past - 1, past, past + 1, 1 << 32, 1 << 56, u64::MAX] {
                for budget in [0, 2, u64::MAX] {
                    for (records, masks) in [(0, 0), (10, 0), (0, 4), (9, 3), (10, 4), (29, 12), (30, 11), (30, 12)] {
                        let (records, masks) = (vec![0xEE; records], vec![0xEE; masks]);
                        let room = (records.len() / RECORD_BYTES).min(masks.len() / MASK_BYTES);
                        let call = Call::lex_within(&bytes, &text, (place, budget), records, masks, [7, u64::MAX]);
                        let left = (past - 1).saturating_sub(place) as usize;
                        // each token has a reach of 2, the last one of 1
                        let tokens = if budget == 2 { left.min(1) } else { left.min(budget as usize) };
                        let said = match refusal {
                            Some((number, place)) => Err((number, place)),
                            None if length > TEXT_BYTES => Err((14, 0)),
                            None if place >= past => Err((27, 0)),
                            None if room < tokens => Err((15, tokens)),
                            None => Ok(accepted(tokens, (tokens == left) as usize)),
                        };
                        let said = said.unwrap_or_else(|(number, place)| refused(Refusal { number, place }));
                        let answer = expected(&call).answer;
                        assert_eq!(answer, said, "{}", Answer(answer));
                        add("refusals of a turn", call);
                    }
                }
            }
        }
    }
}

/// Time stamps, words and a beginning of a time stamp, again and again.
fn sheets(add: Add) {
    let part = b"[00:12.50]oh yes\n[00:1 ";
    let word = |from: usize, end: usize| (from..end).map(move |at| (end - at + 1, Some((end - at, 2))));
    let mut once = vec![(11, Some((10, 1)))];
    once.extend(word(1, 9).chain([one(2, 16)]));
    once.extend(word(10, 12).chain([one(2, 4)]));
    once.extend(word(13, 16).chain([one(2, 8), one(6, 16)]));
    once.extend(word(18, 22).chain([one(2, 4)]));
    for copies in [40, TEXT_BYTES / part.len()] {
        let text = part.repeat(copies);
        let mut said = once.repeat(copies);
        said[text.len() - 1] = one(1, 4);
        let sheet = Sheet::new("a sheet", BUILTIN, &text, &said);
        // one part takes 35, and the last one less
        let total = 35 * copies as u64 - 1;
        let middle = copies / 2 * part.len() + 12;
        for (place, budget) in [(0, total), (0, total - 1), (middle, u64::MAX), (middle, 350), (text.len() - 5, 6)] {
            sheet.add(add, place, budget, 1);
        }
        for budget in [0, 10, 11, 13, 14, 34, 35, 36, 64, 349, 350] {
            sheet.add(add, 0, budget, 0);
        }
    }
}

/// Texts as long as can be: as that many tokens, as one, and as tokens of which each is looked for to the end.
fn long_texts(add: Add) {
    let all = TEXT_BYTES;
    let text = vec![b'a'; all];
    let once = tagged(vec![words(&[b"a"])]);
    let said: Vec<Stop> = (1..=all).rev().map(|rest| one(rest.min(2), 1)).collect();
    let sheet = Sheet::new("65,536 tokens", &once, &text, &said);
    let total = 2 * all as u64 - 1;
    for (place, budget) in [(0, total), (0, total - 1), (all / 2, u64::MAX), (all / 2, all as u64 / 2)] {
        sheet.add(add, place, budget, place % 2);
    }
    for (place, budget) in
        [(0, 0), (0, 1), (0, 2), (0, 3), (0, 4), (all - 2, 2), (all - 2, 3), (all - 1, 0), (all - 1, 1)]
    {
        sheet.add(add, place, budget, 1);
    }
    sheet.add(add, all, 0, 0);
    sheet.add(add, all, u64::MAX, 1);
    let run = tagged(vec![run(b'a', b'a')]);
    let said: Vec<Stop> = (1..=all).rev().map(|rest| (rest, Some((rest, 1)))).collect();
    let sheet = Sheet::new("one token of 65,536 bytes", &run, &text, &said);
    for place in [0, 1, all - 1] {
        let rest = (all - place) as u64;
        for budget in [0, rest - 1, rest, rest + 1, u64::MAX] {
            sheet.add(add, place, budget, 1);
        }
    }
    let far = tagged(vec![ahead()]);
    let said: Vec<Stop> = (1..=all).rev().map(|rest| one(rest, 1)).collect();
    let sheet = Sheet::new("65,536 bytes that are looked at again", &far, &text, &said);
    for budget in [1, all - 1, all, all + 1, 2 * all - 2, 2 * all - 1, 2 * all] {
        sheet.add(add, 0, budget as u64, 0);
    }
    sheet.add_budgets(add, all - 5);
    let longer = vec![b'a'; all + 1];
    for place in [0, 1, all as u64, all as u64 + 1, all as u64 + 2, u64::MAX] {
        add_refused(add, "a turn in 65,537 bytes", turn(&once, &longer, place, 2, 1), 14, 0);
        add_refused(add, "a turn in 65,537 bytes, no room", turn(&run, &longer, place, u64::MAX, 0), 14, 0);
        if place > all as u64 {
            add_refused(add, "a turn past 65,536 bytes", turn(&once, &text, place, 2, 1), 27, 0);
            add_refused(add, "a turn past 65,536 bytes, no room", turn(&run, &text, place, u64::MAX, 0), 27, 0);
        }
    }
}

/// The book as its own text, in one buffer.
fn itself(add: Add) {
    let every = tagged(vec![run(0, 255)]);
    let said: Vec<Stop> = (1..=every.len()).rev().map(|rest| (rest, Some((rest, 1)))).collect();
    let sheet = Sheet::new("the text is the book", &every, &every, &said);
    sheet.add_budgets(add, 0);
    sheet.add_budgets(add, every.len() / 2);
}
