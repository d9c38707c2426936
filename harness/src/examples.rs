//! The examples of document 01, each with what the library and the second implementation answer; of the cuts also the masks
//! (document 02, wish 11), and turns by its book A (wish 1). Those that the document marks ● are proved of the definitions too.

use crate::calls::{self, Answer, Call, Operation, Outcome, BUILTIN};
use crate::generate::{bytes_of, Book, Rule};
use crate::library::{Against, Library};
use crate::reference::{self as paper, Move, Record};

fn rule(tag: u16, kind: u8, finals: &[u16], moves: Vec<Move>) -> Rule {
    Rule { tag, kind, start: 0, error: 9, finals: finals.to_vec(), moves }
}

fn one(tag: u16, byte: u8) -> Rule {
    rule(tag, 0, &[1], vec![(0, byte, byte, 1)])
}

fn book_a() -> Vec<u8> {
    let abc = vec![(0, b'a', b'a', 1), (1, b'b', b'b', 2), (2, b'c', b'c', 3)];
    let blanks = vec![(0, b' ', b' ', 1), (1, b' ', b' ', 1)];
    Book { rules: vec![rule(1, 0, &[1, 3], abc), one(2, b'b'), one(3, b'c'), rule(4, 1, &[1], blanks)] }.bytes()
}

fn book_b() -> Vec<u8> {
    let ab = vec![(0, b'a', b'a', 1), (1, b'b', b'b', 2)];
    let bc = vec![(0, b'b', b'b', 1), (1, b'c', b'c', 2)];
    Book { rules: vec![rule(1, 0, &[1, 2], ab), rule(2, 0, &[2], bc)] }.bytes()
}

fn book_c() -> Vec<u8> {
    let of_if = vec![(0, b'i', b'i', 1), (1, b'f', b'f', 2)];
    let letters = vec![(0, b'a', b'z', 1), (1, b'a', b'z', 1)];
    Book { rules: vec![rule(1, 0, &[2], of_if), rule(2, 0, &[1], letters)] }.bytes()
}

/// A book of one rule with `count` moves, 256 from a state.
fn moves(count: usize) -> Vec<u8> {
    let all = (0..count).map(|i| ((i / 256) as u16, i as u8, i as u8, 3)).collect();
    Book { rules: vec![Rule { error: 99, ..rule(1, 0, &[3], all) }] }.bytes()
}

const SIXTEEN: [u8; 16] = [1, 0, 1, 0, 2, 0, 3, 2, 4, 1, 5, 0, 0x61, 1, 7, 8];

/// A pool and a list of tokens in it, one for each tag and word.
fn listed(words: &[(u16, &str)]) -> (Vec<u8>, Vec<u8>) {
    let mut pool = b" ".to_vec();
    let mut list = Vec::new();
    for (tag, word) in words {
        list.push(Record { tag: *tag, place: pool.len() as u32, length: word.len() as u32 });
        pool.extend(word.as_bytes());
    }
    (pool, bytes_of(&list))
}

fn cut(book: &[u8], text: &[u8]) -> Call {
    Call::lex(book, text, vec![0; text.len() * 10], vec![0; text.len() * 4])
}

fn built_in(text: &[u8]) -> Call {
    Call::lex_builtin(text, vec![0; text.len() * 10], vec![0; text.len() * 4])
}

fn turn(text: &[u8], place: u64, budget: u64) -> Call {
    let (records, masks) = (vec![0; text.len() * 10], vec![0; text.len() * 4]);
    Call::lex_within(&book_a(), text, (place, budget), records, masks, [0, 0])
}

fn plain(book: &[u8], words: &[(u16, &str)]) -> Call {
    let (pool, list) = listed(words);
    Call::print(book, list, &pool, vec![0; 32])
}

fn spaced(mode: u32, words: &[(u16, &str)]) -> Call {
    let (pool, list) = listed(words);
    let blank = Record { tag: 4, place: 0, length: 1 };
    Call::print_separated(&book_a(), blank, mode, list, &pool, vec![0; 32])
}

/// Mark, what is called, what the document says of it, the call.
fn all() -> Vec<(bool, &'static str, &'static str, Call)> {
    let a = &book_a();
    let b = &book_b();
    let c = &book_c();
    let abc: &[(u16, &str)] = &[(1, "a"), (2, "b"), (3, "c")];
    let babc: &[(u16, &str)] = &[(2, "b"), (1, "a"), (2, "b"), (3, "c")];
    let cba: &[(u16, &str)] = &[(3, "c"), (2, "b"), (1, "a")];
    vec![
        (false, "the book of 16 bytes", "1 rule", Call::read_book(&SIXTEEN)),
        (false, "the book of 16 bytes, \"aa\"", "1 \"a\", 1 \"a\", rest 2; masks 1, 1", cut(&SIXTEEN, b"aa")),
        (true, "book A, \"\"", "no token, rest 0", cut(a, b"")),
        (true, "book A, \"abc\"", "1 \"abc\", rest 3; masks 1", cut(a, b"abc")),
        (true, "book A, \"ab\"", "1 \"a\", 2 \"b\", rest 2; masks 1, 2", cut(a, b"ab")),
        (true, "book A, \"d\"", "no token, rest 0", cut(a, b"d")),
        (false, "book A, \"a  c\"", "1 \"a\", 4 \"  \", 3 \"c\", rest 4; masks 1, 8, 4", cut(a, b"a  c")),
        (true, "book A, \"abd\"", "1 \"a\", 2 \"b\", rest 2; masks 1, 2", cut(a, b"abd")),
        (false, "book A, \"abd\", a turn of 2", "no token, next 0, 0 examined, spent", turn(b"abd", 0, 2)),
        (false, "book A, \"abd\", a turn of 3", "1 \"a\", next 1, 3 examined, spent; masks 1", turn(b"abd", 0, 3)),
        (
            false,
            "book A, \"abd\", a turn of 6",
            "1 \"a\", 2 \"b\", next 2, 6 examined, finished; masks 1, 2",
            turn(b"abd", 0, 6),
        ),
        (
            false,
            "book A, \"abd\", a turn of 3 from 1",
            "2 \"b\", next 2, 3 examined, finished; masks 2",
            turn(b"abd", 1, 3),
        ),
        (false, "book A, \"abd\", a turn from 3", "no token, next 3, 0 examined, finished", turn(b"abd", 3, 0)),
        (false, "book A, \"abd\", a turn from 4", "refused 27 at 0", turn(b"abd", 4, 0)),
        (true, "book A, plain a, b, c", "refused 21 at 0", plain(a, abc)),
        (true, "book A, plain c, b, a", "\"cba\"", plain(a, cba)),
        (true, "book A, plain, the empty list", "\"\"", plain(a, &[])),
        (true, "book A, spacing a, b, c in mode 1", "\"a b c\"", spaced(1, abc)),
        (true, "book A, spacing a, b, c in mode 2", "\"a bc\"", spaced(2, abc)),
        (false, "book A, spacing a, b, c in mode 0", "\"a bc\"", spaced(0, abc)),
        (false, "book A, spacing b, a, b, c in mode 2", "\"ba bc\"", spaced(2, babc)),
        (false, "book A, spacing b, a, b, c in mode 0", "\"ba bc\"", spaced(0, babc)),
        (true, "book B, \"abc\"", "1 \"ab\", rest 2; masks 1", cut(b, b"abc")),
        (true, "book B, plain a, bc", "refused 21 at 0", plain(b, &[(1, "a"), (2, "bc")])),
        (true, "book C, \"if\"", "1 \"if\", rest 2; masks 3", cut(c, b"if")),
        (false, "book C, \"ifs\"", "2 \"ifs\", rest 3; masks 2", cut(c, b"ifs")),
        (false, "book C, plain 2 \"if\"", "refused 19 at 0", plain(c, &[(2, "if")])),
        (
            false,
            "built-in, \"[00:12.50]oh\"",
            "1 \"[00:12.50]\", 2 \"oh\", rest 12; masks 1, 2",
            built_in(b"[00:12.50]oh"),
        ),
        (false, "built-in, \"[00:1\"", "5 \"[\", 2 \"00:1\", rest 5; masks 16, 2", built_in(b"[00:1")),
        (
            false,
            "command bytes, \"[00:12.50]oh\"",
            "1 \"[00:12.50]\", 2 \"oh\", rest 12; masks 1, 2",
            cut(BUILTIN, b"[00:12.50]oh"),
        ),
        (false, "command bytes, \"[00:1\"", "5 \"[\", 2 \"00:1\", rest 5; masks 16, 2", cut(BUILTIN, b"[00:1")),
        (false, "a text of 65,536 bytes", "65536 tokens, rest 65536", cut(&SIXTEEN, &vec![b'a'; 65_536])),
        (false, "a text of 65,537 bytes", "refused 14 at 0", cut(&SIXTEEN, &vec![b'a'; 65_537])),
        (false, "built-in, a text of 65,536 bytes", "65536 tokens, rest 65536", built_in(&vec![b'['; 65_536])),
        (false, "built-in, a text of 65,537 bytes", "refused 14 at 0", built_in(&vec![b'['; 65_537])),
        (false, "4096 moves in a rule", "1 rule", Call::read_book(&moves(4_096))),
        (false, "4097 moves in a rule", "refused 5 at 16394", Call::read_book(&moves(4_097))),
        (false, "the empty book", "refused 2 at 0", Call::read_book(b"")),
    ]
}

/// An outcome in the words of the document.
fn said(call: &Call, outcome: &Outcome) -> String {
    let answer = Answer(outcome.answer);
    let count = answer.first() as usize;
    if answer.number() != 0 {
        return format!("refused {} at {}", answer.number(), answer.place());
    }
    match call.operation {
        Operation::ReadBook | Operation::ReadBookStrict => format!("{count} rule"),
        Operation::RewriteBook | Operation::Compile => format!("{count} bytes"),
        Operation::Rule => format!("tag {count}, kind {}", answer.second()),
        Operation::Print | Operation::PrintSeparated => {
            format!("{:?}", String::from_utf8_lossy(&outcome.buffers[3][..count]))
        }
        Operation::Lex | Operation::LexBuiltin => cut_said(call, outcome, &format!("rest {}", answer.second())),
        Operation::LexWithin => {
            let [next, examined] = outcome.numbers();
            let stopped = if answer.second() == 1 { "finished" } else { "spent" };
            cut_said(call, outcome, &format!("next {next}, {examined} examined, {stopped}"))
        }
    }
}

/// The tokens of a cut, where it ended, and their masks.
fn cut_said(call: &Call, outcome: &Outcome, end: &str) -> String {
    let count = Answer(outcome.answer).first() as usize;
    let (records, masks) = outcome.cut();
    let tokens = paper::records_of(&records[..count * 10]);
    let word = |t: &Record| String::from_utf8_lossy(t.bytes(&call.text).unwrap_or(b"?")).to_string();
    match count {
        0 => format!("no token, {end}"),
        1..=9 => {
            let list: Vec<String> = tokens.iter().map(|t| format!("{} {:?}", t.tag, word(t))).collect();
            let masks: Vec<String> = paper::masks_of(masks).iter().take(count).map(u32::to_string).collect();
            format!("{}, {end}; masks {}", list.join(", "), masks.join(", "))
        }
        _ => format!("{count} tokens, {end}"),
    }
}

/// Prints a line for each example. The number of those in which document, library and second implementation differ.
pub fn run(library: &mut Library) -> usize {
    let mut wrong = 0;
    for (proved, name, wanted, call) in all() {
        let second = calls::expected(&call);
        let ours = library.run(&call, Against::Back);
        let library_says = ours.as_ref().map_or_else(|e| e.clone(), |o| said(&call, o));
        let second_says = said(&call, &second);
        let same = ours.as_ref() == Ok(&second) && second_says == wanted;
        let mark = if proved { "●" } else { " " };
        println!("{mark} {name}: library {library_says} | second {second_says}{}", if same { "" } else { " | WRONG" });
        if !same {
            println!("  the documents: {wanted}");
            wrong += 1;
        }
    }
    wrong
}
