//! Faults of zgv_compile, planted as plant.rs does it: what comes out of a call is what a library with the fault would leave.

use crate::calls::{Answer, Call, Operation, Outcome};
use crate::expressions::{self, is_listed, Expected, Machine, Table, Tree, DEPTH, ERROR_STATE, POSITIONS, SETS};
use crate::library::{Against, Library};
use crate::plant::written;

/// The table of a call whose output alone may be refused.
fn table(call: &Call, sound: &Outcome) -> Option<Table> {
    let accepted = call.operation == Operation::Compile && [0, 22].contains(&Answer(sound.answer).number());
    accepted.then(|| expressions::table(call.tag, call.kind, &call.text).expect("the library accepts it"))
}

/// Where an expression is accepted, the rule that `other` makes of its table and SPANs.
pub fn by_spans(call: &Call, sound: Outcome, other: fn(&mut Table, &mut Vec<[u8; 4]>)) -> Outcome {
    match table(call, &sound) {
        Some(mut table) => {
            let mut spans = table.spans();
            other(&mut table, &mut spans);
            written(call, &table.commands(call.tag, call.kind as u8, &spans))
        }
        None => sound,
    }
}

/// The last SPAN of several bytes ends one earlier.
pub fn span_short(_: &mut Table, spans: &mut Vec<[u8; 4]>) {
    if let Some(span) = spans.iter_mut().rev().find(|[_, low, high, _]| low < high) {
        span[2] -= 1;
    }
}

/// The last SPAN of several bytes becomes two.
pub fn span_split(_: &mut Table, spans: &mut Vec<[u8; 4]>) {
    if let Some(at) = spans.iter().rposition(|[_, low, high, _]| low < high) {
        let [from, _, high, to] = spans[at];
        spans[at][2] -= 1;
        spans.insert(at + 1, [from, high, high, to]);
    }
}

/// SPANs to the error state stand for the bytes that lead there from a state that another byte leaves.
pub fn error_spans(table: &mut Table, spans: &mut Vec<[u8; 4]>) {
    let mut all: Vec<[u8; 4]> = Vec::new();
    for (from, row) in table.targets.iter().enumerate().filter(|(_, row)| row.iter().any(|&to| to != ERROR_STATE)) {
        for (byte, &to) in row.iter().enumerate() {
            match all.last_mut() {
                Some([f, _, high, t]) if *f as usize == from && *t == to => *high = byte as u8,
                _ => all.push([from as u8, byte as u8, byte as u8, to]),
            }
        }
    }
    *spans = all;
}

/// FINAL 0 is not written.
pub fn start_unsaid(table: &mut Table, _: &mut Vec<[u8; 4]>) {
    table.finals[0] = false;
}

/// SPANs stand by state and target.
pub fn by_target(_: &mut Table, spans: &mut Vec<[u8; 4]>) {
    spans.sort_by_key(|&[from, low, _, to]| (from, to, low));
}

/// Where an expression is accepted, the rule of another tree or another order of bytes.
pub fn by_tree(call: &Call, sound: Outcome, tree: fn(Tree) -> Tree, order: fn(u8) -> u8) -> Outcome {
    if table(call, &sound).is_none() {
        return sound;
    }
    let other = tree(expressions::tree(&call.text).expect("the library accepts it"));
    match Table::of(&other, order) {
        Some(table) => written(call, &table.commands(call.tag, call.kind as u8, &table.spans())),
        None => Outcome { answer: 32 << 56, ..sound },
    }
}

/// The period takes 0A.
pub fn line_feed(tree: Tree) -> Tree {
    match tree {
        Tree::Position(position, bytes) => {
            let period = bytes.iter().enumerate().all(|(b, takes)| *takes == !matches!(b, 0 | 10));
            Tree::Position(
                position,
                bytes.into_iter().enumerate().map(|(b, takes)| takes || period && b == 10).collect(),
            )
        }
        Tree::Sequence(pieces) => Tree::Sequence(pieces.into_iter().map(line_feed).collect()),
        Tree::Alternatives(sequences) => Tree::Alternatives(sequences.into_iter().map(line_feed).collect()),
        Tree::Repeated(piece, how) => Tree::Repeated(Box::new(line_feed(*piece)), how),
    }
}

/// + is taken as *.
pub fn plus_is_star(tree: Tree) -> Tree {
    match tree {
        Tree::Sequence(pieces) => Tree::Sequence(pieces.into_iter().map(plus_is_star).collect()),
        Tree::Alternatives(sequences) => Tree::Alternatives(sequences.into_iter().map(plus_is_star).collect()),
        Tree::Repeated(piece, b'+') => Tree::Repeated(Box::new(plus_is_star(*piece)), b'*'),
        Tree::Repeated(piece, how) => Tree::Repeated(Box::new(plus_is_star(*piece)), how),
        position => position,
    }
}

/// A range ends before its last end, where the byte before that can be an end.
pub fn open_range(library: &mut Library, call: &Call, against: Against, sound: Outcome) -> Result<Outcome, String> {
    if table(call, &sound).is_none() {
        return Ok(sound);
    }
    let mut machine = Machine::new();
    let mut text = call.text.clone();
    for (at, &byte) in call.text.iter().enumerate() {
        if matches!(machine.expected, Expected::RangeEnd(low) if low < byte) && is_listed(byte - 1) {
            text[at] = byte - 1;
        }
        machine.take(byte);
    }
    let mut outcome = library.run(&Call { text, ..call.clone() }, against)?;
    outcome.buffers[0] = call.text.clone();
    Ok(outcome)
}

/// 30 is said at the byte behind its place, where there is one.
pub fn fault_late(call: &Call, mut outcome: Outcome) -> Outcome {
    let answer = Answer(outcome.answer);
    if answer.number() == 30 && answer.place() < call.text.len() as u64 {
        outcome.answer += 1;
    }
    outcome
}

/// 31 for positions and depth comes before 30.
pub fn limit_first(call: &Call, mut outcome: Outcome) -> Outcome {
    if Answer(outcome.answer).number() == 30 {
        let (machine, _) = Machine::read(&call.text);
        if machine.positions > POSITIONS || machine.depth > DEPTH {
            outcome.answer = 31 << 56;
        }
    }
    outcome
}

/// 32 is said of the last set that is allowed.
pub fn a_set_less(call: &Call, mut outcome: Outcome) -> Outcome {
    if table(call, &outcome).is_some_and(|table| table.finals.len() == SETS + 1) {
        outcome = Outcome { answer: 32 << 56, buffers: vec![call.text.clone(), call.out.clone()] };
    }
    outcome
}

/// 22 leaves what has room in the output.
pub fn rule_cut_off(call: &Call, mut outcome: Outcome) -> Outcome {
    if Answer(outcome.answer).number() == 22 {
        if let Some(table) = table(call, &outcome) {
            let bytes = table.commands(call.tag, call.kind as u8, &table.spans());
            let room = call.out.len();
            outcome.buffers[1].copy_from_slice(&bytes[..room]);
        }
    }
    outcome
}

/// An accepted call changes the byte behind the rule.
pub fn behind_the_rule(call: &Call, mut outcome: Outcome) -> Outcome {
    let answer = Answer(outcome.answer);
    if call.operation == Operation::Compile && answer.number() == 0 {
        if let Some(byte) = outcome.buffers[1].get_mut(answer.first() as usize) {
            *byte ^= 1;
        }
    }
    outcome
}

/// 6 comes after 31 and 30.
pub fn tag_late(library: &mut Library, call: &Call, against: Against, sound: Outcome) -> Result<Outcome, String> {
    if call.operation != Operation::Compile || Answer(sound.answer).number() != 6 {
        return Ok(sound);
    }
    let other = library.run(&Call { tag: 1, kind: 0, ..call.clone() }, against)?;
    let earlier = matches!(Answer(other.answer).number(), 30 | 31);
    Ok(if earlier { other } else { sound })
}
