//! A call of one of the ten operations, and what it leaves.

use crate::expressions;
use crate::reference::{self, Cut, Reading, Record, Refusal, Turn};

#[derive(Clone, Copy, Debug, PartialEq, Eq, PartialOrd, Ord)]
pub enum Operation {
    ReadBook,
    ReadBookStrict,
    RewriteBook,
    Rule,
    Lex,
    LexBuiltin,
    LexWithin,
    Print,
    PrintSeparated,
    Compile,
}

pub const OPERATIONS: [Operation; 10] = [
    Operation::ReadBook,
    Operation::ReadBookStrict,
    Operation::RewriteBook,
    Operation::Rule,
    Operation::Lex,
    Operation::LexBuiltin,
    Operation::LexWithin,
    Operation::Print,
    Operation::PrintSeparated,
    Operation::Compile,
];

impl Operation {
    pub fn name(self) -> &'static str {
        match self {
            Operation::ReadBook => "zgv_read_book",
            Operation::ReadBookStrict => "zgv_read_book_strict",
            Operation::RewriteBook => "zgv_rewrite_book",
            Operation::Rule => "zgv_rule",
            Operation::Lex => "zgv_lex",
            Operation::LexBuiltin => "zgv_lex_builtin",
            Operation::LexWithin => "zgv_lex_within",
            Operation::Print => "zgv_print",
            Operation::PrintSeparated => "zgv_print_separated",
            Operation::Compile => "zgv_compile",
        }
    }
}

/// What is lent to an operation. A field that the operation does not take is empty.
#[derive(Clone, Debug, PartialEq, Eq)]
pub struct Call {
    pub operation: Operation,
    pub book: Vec<u8>,
    /// The text, the pool or the expression.
    pub text: Vec<u8>,
    pub records: Vec<u8>,
    pub masks: Vec<u8>,
    pub out: Vec<u8>,
    pub separator: Record,
    pub mode: u32,
    /// The number of a rule.
    pub index: u32,
    /// Where a turn begins, and how many bytes it may examine.
    pub place: u64,
    pub budget: u64,
    /// The numbers that are lent to a turn, as the machine holds them.
    pub next: Vec<u8>,
    pub examined: Vec<u8>,
    /// Of the rule that an expression becomes.
    pub tag: u16,
    pub kind: u32,
}

const NO_RECORD: Record = Record { tag: 0, place: 0, length: 0 };

impl Call {
    fn new(operation: Operation) -> Call {
        Call {
            operation,
            book: Vec::new(),
            text: Vec::new(),
            records: Vec::new(),
            masks: Vec::new(),
            out: Vec::new(),
            separator: NO_RECORD,
            mode: 0,
            index: 0,
            place: 0,
            budget: 0,
            next: Vec::new(),
            examined: Vec::new(),
            tag: 0,
            kind: 0,
        }
    }

    pub fn read_book(book: &[u8]) -> Call {
        Call { book: book.to_vec(), ..Call::new(Operation::ReadBook) }
    }

    pub fn read_book_strict(book: &[u8]) -> Call {
        Call { book: book.to_vec(), ..Call::new(Operation::ReadBookStrict) }
    }

    pub fn rewrite_book(book: &[u8], out: Vec<u8>) -> Call {
        Call { book: book.to_vec(), out, ..Call::new(Operation::RewriteBook) }
    }

    pub fn rule(book: &[u8], index: u32) -> Call {
        Call { book: book.to_vec(), index, ..Call::new(Operation::Rule) }
    }

    pub fn lex(book: &[u8], text: &[u8], records: Vec<u8>, masks: Vec<u8>) -> Call {
        Call { book: book.to_vec(), text: text.to_vec(), records, masks, ..Call::new(Operation::Lex) }
    }

    pub fn lex_builtin(text: &[u8], records: Vec<u8>, masks: Vec<u8>) -> Call {
        Call { text: text.to_vec(), records, masks, ..Call::new(Operation::LexBuiltin) }
    }

    /// A turn, whose two numbers are lent with these values.
    pub fn lex_within(
        book: &[u8],
        text: &[u8],
        (place, budget): (u64, u64),
        records: Vec<u8>,
        masks: Vec<u8>,
        numbers: [u64; 2],
    ) -> Call {
        let [next, examined] = numbers.map(|n| n.to_ne_bytes().to_vec());
        Call { place, budget, next, examined, operation: Operation::LexWithin, ..Call::lex(book, text, records, masks) }
    }

    pub fn print(book: &[u8], records: Vec<u8>, pool: &[u8], out: Vec<u8>) -> Call {
        Call { book: book.to_vec(), text: pool.to_vec(), records, out, ..Call::new(Operation::Print) }
    }

    pub fn print_separated(
        book: &[u8],
        separator: Record,
        mode: u32,
        records: Vec<u8>,
        pool: &[u8],
        out: Vec<u8>,
    ) -> Call {
        Call {
            book: book.to_vec(),
            text: pool.to_vec(),
            records,
            out,
            separator,
            mode,
            ..Call::new(Operation::PrintSeparated)
        }
    }

    pub fn compile(tag: u16, kind: u32, regex: &[u8], out: Vec<u8>) -> Call {
        Call { tag, kind, text: regex.to_vec(), out, ..Call::new(Operation::Compile) }
    }

    /// Of a cut: the tokens that both records and masks can hold.
    pub fn room(&self) -> usize {
        (self.records.len() / reference::RECORD_BYTES).min(self.masks.len() / reference::MASK_BYTES)
    }

    /// The buffers lent, with the names of the header.
    pub fn buffers(&self) -> Vec<(&'static str, &Vec<u8>)> {
        match self.operation {
            Operation::ReadBook | Operation::ReadBookStrict | Operation::Rule => vec![("book", &self.book)],
            Operation::RewriteBook => vec![("book", &self.book), ("out", &self.out)],
            Operation::Compile => vec![("regex", &self.text), ("out", &self.out)],
            Operation::Lex => {
                vec![("book", &self.book), ("text", &self.text), ("records", &self.records), ("masks", &self.masks)]
            }
            Operation::LexBuiltin => vec![("text", &self.text), ("records", &self.records), ("masks", &self.masks)],
            Operation::LexWithin => vec![
                ("book", &self.book),
                ("text", &self.text),
                ("records", &self.records),
                ("masks", &self.masks),
                ("next", &self.next),
                ("examined", &self.examined),
            ],
            Operation::Print | Operation::PrintSeparated => {
                vec![("book", &self.book), ("records", &self.records), ("pool", &self.text), ("out", &self.out)]
            }
        }
    }

    pub fn set_buffer(&mut self, name: &str, bytes: Vec<u8>) {
        match name {
            "book" => self.book = bytes,
            "text" | "pool" | "regex" => self.text = bytes,
            "records" => self.records = bytes,
            "masks" => self.masks = bytes,
            "next" => self.next = bytes,
            "examined" => self.examined = bytes,
            _ => self.out = bytes,
        }
    }
}

/// The answer, and every byte of every lent buffer afterwards, in the order of `Call::buffers`.
#[derive(Clone, Debug, PartialEq, Eq)]
pub struct Outcome {
    pub answer: u64,
    pub buffers: Vec<Vec<u8>>,
}

impl Outcome {
    /// Of a cut: the records and the masks.
    pub fn cut(&self) -> (&[u8], &[u8]) {
        match &self.buffers[..] {
            [_, records, masks] | [_, _, records, masks, ..] => (records, masks),
            _ => unreachable!("both are lent"),
        }
    }

    pub fn cut_mut(&mut self) -> (&mut Vec<u8>, &mut Vec<u8>) {
        match &mut self.buffers[..] {
            [_, records, masks] | [_, _, records, masks, ..] => (records, masks),
            _ => unreachable!("both are lent"),
        }
    }

    /// Of a turn: the next place and the bytes examined.
    pub fn numbers(&self) -> [u64; 2] {
        match &self.buffers[..] {
            [.., next, examined] => [next, examined].map(|b| number(b)),
            _ => unreachable!("both are lent"),
        }
    }
}

/// A number that is lent as its bytes.
pub fn number(bytes: &[u8]) -> u64 {
    u64::from_ne_bytes(bytes.try_into().expect("eight bytes"))
}

/// The numbers of an answer, as the header packs them.
#[derive(Clone, Copy, Debug, PartialEq, Eq)]
pub struct Answer(pub u64);

impl Answer {
    pub fn number(self) -> u8 {
        (self.0 >> 56) as u8
    }
    pub fn place(self) -> u64 {
        self.0 & ((1 << 56) - 1)
    }
    pub fn first(self) -> u64 {
        self.0 >> 28 & 0xFFF_FFFF
    }
    pub fn second(self) -> u64 {
        self.0 & 0xFFF_FFFF
    }
}

impl std::fmt::Display for Answer {
    fn fmt(&self, f: &mut std::fmt::Formatter<'_>) -> std::fmt::Result {
        if self.number() == 0 {
            write!(f, "accepted {} {}", self.first(), self.second())
        } else {
            write!(f, "refused {} at {}", self.number(), self.place())
        }
    }
}

pub fn accepted(first: usize, second: usize) -> u64 {
    (first as u64) << 28 | second as u64
}

pub fn refused(r: Refusal) -> u64 {
    (r.number as u64) << 56 | (r.place as u64).min((1 << 56) - 1)
}

/// What documents 01 and 02 ask of a call.
pub fn expected(call: &Call) -> Outcome {
    let mut after = call.clone();
    let list = || reference::records_of(&call.records);
    let room = call.room();
    let answer = match call.operation {
        Operation::ReadBook => reference::read_book(&call.book, Reading::Ordinary).map(|rules| accepted(rules, 0)),
        Operation::ReadBookStrict => reference::read_book(&call.book, Reading::Strict).map(|rules| accepted(rules, 0)),
        Operation::RewriteBook => {
            reference::rewrite_book(&call.book, call.out.len()).map(|bytes| write(bytes, &mut after.out))
        }
        Operation::Rule => {
            let named = reference::rule(&call.book, call.index as usize);
            named.map(|(tag, kind)| accepted(tag as usize, kind as usize))
        }
        Operation::Lex => reference::lex(&call.book, &call.text, room).map(|cut| store(cut, &mut after)),
        Operation::LexBuiltin => reference::lex(BUILTIN, &call.text, room).map(|cut| store(cut, &mut after)),
        Operation::LexWithin => {
            let turn = reference::lex_within(&call.book, &call.text, call.place, call.budget, room);
            turn.map(|turn| store_turn(turn, &mut after))
        }
        Operation::Print => {
            reference::print(&call.book, &list(), &call.text, call.out.len()).map(|bytes| write(bytes, &mut after.out))
        }
        Operation::PrintSeparated => {
            reference::print_separated(&call.book, call.separator, call.mode, &list(), &call.text, call.out.len())
                .map(|bytes| write(bytes, &mut after.out))
        }
        Operation::Compile => expressions::compile(call.tag, call.kind, &call.text, call.out.len())
            .map(|bytes| write(bytes, &mut after.out)),
    };
    Outcome {
        answer: answer.unwrap_or_else(refused),
        buffers: after.buffers().into_iter().map(|(_, b)| b.clone()).collect(),
    }
}

fn store(cut: Cut, call: &mut Call) -> u64 {
    for (i, token) in cut.tokens.iter().enumerate() {
        call.records[i * 10..i * 10 + 10].copy_from_slice(&token.to_bytes());
    }
    for (i, mask) in cut.masks.iter().enumerate() {
        call.masks[i * 4..i * 4 + 4].copy_from_slice(&mask.to_be_bytes());
    }
    accepted(cut.tokens.len(), cut.rest)
}

/// What a turn leaves; its answer has whether it is finished in the place of the rest.
pub fn store_turn(turn: Turn, call: &mut Call) -> u64 {
    let tokens = turn.cut.tokens.len();
    call.next = (turn.cut.rest as u64).to_ne_bytes().to_vec();
    call.examined = turn.examined.to_ne_bytes().to_vec();
    store(turn.cut, call);
    accepted(tokens, turn.finished as usize)
}

fn write(bytes: Vec<u8>, out: &mut [u8]) -> u64 {
    out[..bytes.len()].copy_from_slice(&bytes);
    accepted(bytes.len(), 0)
}

/// The built-in book as command bytes.
pub const BUILTIN: &[u8] = include_bytes!("../../examples/builtin.bin");
