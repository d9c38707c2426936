//! Whether a sheet could be tighter (document 02, wish 8). A way puts 0, 1 or 2 copies of the separator into each gap of a
//! list. In modes 0 and 2 no way with fewer copies than the printer put may give the list back; in mode 1 some do.

use crate::calls::{Call, Operation};
use crate::edges::{book, letter, record, Add};
use crate::generate::{bytes_of, Rule};
use crate::library::Library;
use crate::reference::Record;
use crate::round_trip;

/// The longest list of which every way is tried.
const TOKENS: usize = 7;
/// The most copies in one gap.
const COPIES: usize = 2;

/// What was tried in modes 0 and 2, and of mode 1 how many lists have a tighter way.
#[derive(Clone, Copy, Default)]
pub struct Tried {
    pub lists: u64,
    pub ways: u64,
    pub tighter: u64,
}

impl Tried {
    pub fn add(&mut self, other: Tried) {
        self.lists += other.lists;
        self.ways += other.ways;
        self.tighter += other.tighter;
    }

    /// Tries what was written by a call of the spacing printer. Says how it could be tighter where it may not.
    pub fn list(&mut self, library: &mut Library, call: &Call, text: &[u8]) -> Option<String> {
        let given = round_trip::given(call);
        if call.operation != Operation::PrintSeparated || given.len() > TOKENS {
            return None;
        }
        let words: Vec<&[u8]> = given.iter().map(|(_, bytes)| bytes.expect("an accepted token")).collect();
        let separator = call.separator.bytes(&call.text).expect("an accepted separator");
        let added = text.len() - words.concat().len();
        if added % separator.len() != 0 {
            return Some(format!("{added} bytes are not the tokens'; a separator has {}", separator.len()));
        }
        let mut tried = 0;
        let tighter = ways(words.len(), added / separator.len()).into_iter().find(|way| {
            tried += 1;
            let other = joined(&words, separator, way);
            round_trip::cut(library, call, &other).is_some_and(|(_, read)| read == given)
        });
        if call.mode == 1 {
            self.tighter += tighter.is_some() as u64;
            return None;
        }
        self.lists += (tried > 0) as u64;
        self.ways += tried;
        tighter.map(|way| format!("{} separators were put, and {way:?} come back too", added / separator.len()))
    }
}

/// All ways for the gaps of so many tokens with fewer copies than `put`.
fn ways(tokens: usize, put: usize) -> Vec<Vec<usize>> {
    let mut all = if put > 0 { vec![Vec::new()] } else { Vec::new() };
    for _ in 1..tokens {
        all = all
            .into_iter()
            .flat_map(|way| (0..=COPIES).map(move |n| [&way[..], &[n]].concat()))
            .filter(|way| way.iter().sum::<usize>() < put)
            .collect();
    }
    all
}

/// The words with copies of the separator behind each but the last.
fn joined(words: &[&[u8]], separator: &[u8], way: &[usize]) -> Vec<u8> {
    let copies = way.iter().chain([&0]);
    words.iter().zip(copies).flat_map(|(word, &n)| [*word, &separator.repeat(n)].concat()).collect()
}

/// Every list of up to five tokens by books in which a token is read on over several others, in modes 1 and 2.
pub fn lists(add: Add) {
    let word = |tag: u16, word: &[u8], finals: &[u16]| {
        let moves = word.iter().enumerate().map(|(i, &b)| (i as u16, b, b, i as u16 + 1)).collect();
        Rule { tag, kind: 0, start: 0, error: 9, finals: finals.to_vec(), moves }
    };
    let blanks = letter(9, 1, b' ', false);
    let pool = b"abca bcab aaaaa";
    let books = [
        (
            "book A",
            [word(1, b"abc", &[1, 3]), word(2, b"b", &[1]), word(3, b"c", &[1])],
            [record(1, 0, 1), record(1, 0, 3), record(2, 1, 1), record(3, 2, 1)],
        ),
        (
            "words that overlap",
            [word(1, b"abca", &[1, 4]), word(2, b"bcab", &[1, 4]), word(3, b"c", &[1])],
            [record(1, 0, 1), record(2, 5, 1), record(3, 2, 1), record(1, 0, 4)],
        ),
        (
            "words of one letter",
            [word(1, b"aaa", &[1, 3]), word(2, b"aaaaa", &[2, 5]), word(3, b"aab", &[3])],
            [record(1, 10, 1), record(2, 10, 2), record(1, 10, 3), record(2, 10, 5)],
        ),
    ];
    for (name, rules, tokens) in books {
        let rules: Vec<Rule> = rules.into_iter().chain([blanks.clone()]).collect();
        // states below 256, around it, and the last ones
        let wide = rules.iter().map(|r| r.clone().renamed(|s| if s < 3 { 254 + s } else { 4_095 - s })).collect();
        for (what, rules, longest) in [("", rules, 5), (", wide states", wide, 4)] {
            let bytes = book(rules).bytes();
            for list in all_lists(&tokens, longest) {
                for mode in [1, 2] {
                    let call =
                        Call::print_separated(&bytes, record(9, 4, 1), mode, bytes_of(&list), pool, vec![0xEE; 48]);
                    add(&format!("{name}{what}, {} tokens in mode {mode}", list.len()), call);
                }
            }
        }
    }
}

/// Every list of up to `longest` of the tokens.
fn all_lists(tokens: &[Record], longest: usize) -> Vec<Vec<Record>> {
    let mut all: Vec<Vec<Record>> = vec![Vec::new()];
    let mut last = all.clone();
    for _ in 0..longest {
        last = last.iter().flat_map(|list| tokens.iter().map(|t| [&list[..], &[*t]].concat())).collect();
        all.extend(last.clone());
    }
    all
}
