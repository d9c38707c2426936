//! Planted faults of turns (document 02, wish 1): other reaches, other ways to spend a budget, and other answers.

use crate::calls::{self, accepted, refused, Answer, Call, Operation, Outcome};
use crate::library::{Against, Library};
use crate::reference::{self, Cut, Record, Refusal, Turn};

/// A place that a turn comes by: what follows it, its reach, and the token that begins there, with its mask.
pub struct Stop<'a> {
    pub rest: &'a [u8],
    pub reach: u64,
    pub token: Option<(Record, u32)>,
}

fn is_turn(call: &Call, outcome: &Outcome, numbers: &[u8]) -> bool {
    call.operation == Operation::LexWithin && numbers.contains(&Answer(outcome.answer).number())
}

/// Every place from that of the call to the finish.
fn stops(call: &Call) -> Vec<Stop<'_>> {
    let turn =
        reference::lex_within(&call.book, &call.text, call.place, u64::MAX, usize::MAX).ok().expect("a sound call");
    let cut = turn.cut;
    let ends = cut.tokens.iter().map(|t| t.place as usize).chain([cut.rest]);
    let tokens = cut.tokens.iter().copied().zip(cut.masks).map(Some).chain([None]);
    let reaches = reference::reaches(&call.book, &call.text, call.place as usize);
    let all = ends.zip(tokens).zip(reaches);
    all.map(|((at, token), reach)| Stop { rest: &call.text[at..], reach: reach as u64, token }).collect()
}

/// What a turn leaves that goes on while a reach fits what is left, as `fits` says; it may pay more than that.
fn spend(call: &Call, stops: &[Stop], fits: impl Fn(u64, u64) -> bool) -> Outcome {
    let mut turn = Turn {
        cut: Cut { tokens: Vec::new(), masks: Vec::new(), rest: call.place as usize },
        examined: 0,
        finished: false,
    };
    for stop in stops {
        if !fits(stop.reach, call.budget.saturating_sub(turn.examined)) {
            break;
        }
        turn.examined += stop.reach;
        match stop.token {
            None => turn.finished = true,
            Some((token, mask)) => {
                turn.cut.tokens.push(token);
                turn.cut.masks.push(mask);
                turn.cut.rest += token.length as usize;
            }
        }
    }
    let mut after = call.clone();
    let tokens = turn.cut.tokens.len();
    let answer = if call.room() < tokens {
        refused(Refusal { number: 15, place: tokens })
    } else {
        calls::store_turn(turn, &mut after)
    };
    Outcome { answer, buffers: after.buffers().into_iter().map(|(_, b)| b.clone()).collect() }
}

/// A turn with another way to spend.
pub fn spending(call: &Call, sound: Outcome, fits: impl Fn(u64, u64) -> bool) -> Outcome {
    if !is_turn(call, &sound, &[0, 15]) {
        return sound;
    }
    spend(call, &stops(call), fits)
}

/// A turn with other reaches.
pub fn reaching(call: &Call, sound: Outcome, other: impl Fn(&[&[u8]], &Stop) -> u64) -> Outcome {
    if !is_turn(call, &sound, &[0, 15]) {
        return sound;
    }
    let rules = reference::rules(&call.book);
    let mut stops = stops(call);
    stops.iter_mut().for_each(|stop| stop.reach = other(&rules, stop));
    spend(call, &stops, |reach, left| reach <= left)
}

/// The reach of the winning rule alone, where there is one.
pub fn winner(rules: &[&[u8]], stop: &Stop) -> u64 {
    match stop.token {
        Some((_, mask)) => reference::reach_of(&[rules[mask.trailing_zeros() as usize]], stop.rest) as u64,
        None => stop.reach,
    }
}

/// The token's length, where there is one.
pub fn length(_: &[&[u8]], stop: &Stop) -> u64 {
    stop.token.map_or(stop.reach, |(token, _)| token.length as u64)
}

/// The longest reach of a rule that is at its end in the states that `ends` names, after so many bytes.
fn by_ends(rules: &[&[u8]], rest: &[u8], ends: impl Fn(&[u8], u16, usize) -> bool) -> u64 {
    let own = |rule: &&[u8]| {
        let moves = reference::moves(rule);
        let (mut state, mut count) = (reference::start_of(rule), 0);
        while count < rest.len() && !ends(rule, state, count) {
            let taken = moves.iter().find(|m| m.0 == state && m.1 <= rest[count] && rest[count] <= m.2);
            count += 1;
            match taken {
                Some(m) => state = m.3,
                None => break,
            }
        }
        count as u64
    };
    rules.iter().map(own).max().expect("a book has rules")
}

/// Up to a state that nothing leaves, as the error state is.
pub fn stuck(rules: &[&[u8]], stop: &Stop) -> u64 {
    by_ends(rules, stop.rest, |rule, state, _| reference::moves(rule).iter().all(|m| m.0 != state))
}

/// Up to the byte behind the one by which a move has led to the error state.
pub fn moved(rules: &[&[u8]], stop: &Stop) -> u64 {
    by_ends(rules, stop.rest, |rule, state, count| count == 0 && state == reference::error_of(rule))
}

/// Up to the first byte where the error state is the start.
pub fn started(rules: &[&[u8]], stop: &Stop) -> u64 {
    by_ends(rules, stop.rest, |rule, state, count| count > 0 && state == reference::error_of(rule))
}

fn set_number(outcome: &mut Outcome, from_last: usize, number: u64) {
    let at = outcome.buffers.len() - from_last;
    outcome.buffers[at] = number.to_ne_bytes().to_vec();
}

fn set_next(outcome: &mut Outcome, number: u64) {
    set_number(outcome, 2, number);
}

fn set_examined(outcome: &mut Outcome, number: u64) {
    set_number(outcome, 1, number);
}

/// An accepted turn, of which something is changed.
fn changed(call: &Call, mut sound: Outcome, change: impl FnOnce(&mut Outcome)) -> Outcome {
    if is_turn(call, &sound, &[0]) {
        change(&mut sound);
    }
    sound
}

/// The reach of the place where no token begins is not counted.
pub fn tokenless_uncounted(call: &Call, sound: Outcome) -> Outcome {
    changed(call, sound, |outcome| {
        let [_, examined] = outcome.numbers();
        if Answer(outcome.answer).second() == 1 {
            let last = stops(call).last().map_or(0, |stop| stop.reach);
            set_examined(outcome, examined - last);
        }
    })
}

/// A turn that is spent is said to be finished: where a token begins there, or where none does.
pub fn finished_at(call: &Call, sound: Outcome, token: bool) -> Outcome {
    changed(call, sound, |outcome| {
        let tokens = Answer(outcome.answer).first() as usize;
        if stops(call)[tokens].token.is_some() == token {
            outcome.answer = accepted(tokens, 1);
        }
    })
}

pub fn from_the_turn(call: &Call, sound: Outcome) -> Outcome {
    changed(call, sound, |outcome| {
        let tokens = Answer(outcome.answer).first() as usize;
        for record in outcome.cut_mut().0.chunks_exact_mut(reference::RECORD_BYTES).take(tokens) {
            let mut token = Record::of_bytes(record);
            token.place -= call.place as u32;
            record.copy_from_slice(&token.to_bytes());
        }
    })
}

pub fn next_from_the_turn(call: &Call, sound: Outcome) -> Outcome {
    changed(call, sound, |outcome| {
        let [next, _] = outcome.numbers();
        set_next(outcome, next - call.place);
    })
}

/// 15 leaves the numbers of the turn.
pub fn numbers_touched(call: &Call, mut sound: Outcome) -> Outcome {
    if is_turn(call, &sound, &[15]) {
        let length = call.text.len();
        let (records, masks) = (vec![0; length * reference::RECORD_BYTES], vec![0; length * reference::MASK_BYTES]);
        let [next, examined] = calls::expected(&Call { records, masks, ..call.clone() }).numbers();
        set_next(&mut sound, next);
        set_examined(&mut sound, examined);
    }
    sound
}

/// A refusal in the place of an answer.
fn refusing(call: &Call, number: u8, place: usize) -> Outcome {
    let buffers = call.buffers().into_iter().map(|(_, b)| b.clone()).collect();
    Outcome { answer: refused(Refusal { number, place }), buffers }
}

/// 27 also at the text's end.
pub fn end_is_past(call: &Call, sound: Outcome) -> Outcome {
    if is_turn(call, &sound, &[0, 15]) && call.place == call.text.len() as u64 {
        return refusing(call, 27, 0);
    }
    sound
}

/// 27 before 14.
pub fn place_first(call: &Call, sound: Outcome) -> Outcome {
    if is_turn(call, &sound, &[14]) && call.place > call.text.len() as u64 {
        return refusing(call, 27, 0);
    }
    sound
}

/// 15 before 27: by the tokens of the whole text.
pub fn room_before_place(call: &Call, sound: Outcome) -> Outcome {
    by_the_cut(call, sound, &[27])
}

/// 15 by the tokens of the whole text.
pub fn room_for_the_cut(call: &Call, sound: Outcome) -> Outcome {
    by_the_cut(call, sound, &[0, 15])
}

fn by_the_cut(call: &Call, sound: Outcome, numbers: &[u8]) -> Outcome {
    if !is_turn(call, &sound, numbers) {
        return sound;
    }
    let tokens = reference::cut(&call.book, &call.text).tokens.len();
    if call.room() < tokens {
        return refusing(call, 15, tokens);
    }
    sound
}

/// The turn of another place and budget.
pub fn by_others(
    library: &mut Library,
    call: &Call,
    against: Against,
    sound: Outcome,
    other: fn(u64, u64) -> (u64, u64),
) -> Result<Outcome, String> {
    let (place, budget) = other(call.place, call.budget);
    if call.operation != Operation::LexWithin || (place, budget) == (call.place, call.budget) {
        return Ok(sound);
    }
    library.run(&Call { place, budget, ..call.clone() }, against)
}
