//! What must hold of the library's turns among themselves and beside its single cut (document 02, wish 1). Of each accepted turn are
//! tried: other bytes outside what it may examine, a smaller budget, larger ones, and turns from its place to the finish, with saving
//! after each of them.

use crate::calls::{Answer, Call, Operation, Outcome};
use crate::library::{Against, Library};
use crate::plant::Fault;
use crate::random::Random;
use crate::reference::{self, MASK_BYTES, RECORD_BYTES};
use crate::saving;

/// How many turns a larger budget gave more tokens; how often turns were repeated to the finish, in how many turns, and how many of
/// these gave no token and were not finished; how often tokens were saved before the finish.
#[derive(Clone, Copy, Default)]
pub struct Tried {
    pub extended: u64,
    pub sequences: u64,
    pub turns: u64,
    pub idle: u64,
    pub saves: u64,
    /// A fault of saving.
    pub planted: Option<Fault>,
}

impl Tried {
    pub fn add(&mut self, other: Tried) {
        self.extended += other.extended;
        self.sequences += other.sequences;
        self.turns += other.turns;
        self.idle += other.idle;
        self.saves += other.saves;
    }

    /// Says how the library breaks a law with a turn that leaves `outcome` by the library and the second alike.
    pub fn check(&mut self, library: &mut Library, call: &Call, outcome: &Outcome) -> Result<(), String> {
        if call.operation != Operation::LexWithin || Answer(outcome.answer).number() != 0 {
            return Ok(());
        }
        let given = Given::of(outcome)?;
        let mut r = Random::of(mixed(call), call.budget);
        outside(library, call, outcome)?;
        just_enough(library, call, &given)?;
        // where the whole cut may take long it is left
        let whole = call.text.len() <= SHORT || (given.finished && given.examined < 4 * call.text.len() as u64);
        let larger = [call.budget.saturating_add(1), call.budget.saturating_add(r.from(2, 40) as u64), u64::MAX];
        for &budget in &larger[..if whole { 3 } else { 2 }] {
            let more = turn(library, call, call.place, budget)?;
            given.extended_by(&more).map_err(|e| format!("budget {budget}: {e}"))?;
            self.extended += (more.tokens > given.tokens) as u64;
        }
        if whole {
            self.to_the_finish(library, call, &mut r)?;
        }
        Ok(())
    }

    /// Turns of any budgets from the place of `call` to the finish, against the single cut of what follows that place.
    fn to_the_finish(&mut self, library: &mut Library, call: &Call, r: &mut Random) -> Result<(), String> {
        let place = call.place as usize;
        let rest = &call.text[place..];
        let room = (vec![0; rest.len() * RECORD_BYTES], vec![0; rest.len() * MASK_BYTES]);
        let single = library.run(&Call::lex(&call.book, rest, room.0, room.1), Against::Back)?;
        let unlimited = turn(library, call, call.place, u64::MAX)?;
        let scale = *r.pick(&[1, 3, 12, unlimited.examined / 3]).max(&(unlimited.examined / 100)) as usize;
        let mut all = Given { next: call.place, ..Given::default() };
        let mut budget = r.from(0, scale) as u64;
        while !all.finished {
            let one = turn(library, call, all.next, budget)?;
            self.turns += 1;
            if one.examined > budget {
                return Err(format!("a turn of {budget} examines {}", one.examined));
            }
            if (one.tokens > 0) != (one.next > all.next) {
                return Err(format!("a turn of {} tokens from {} to {}", one.tokens, all.next, one.next));
            }
            if one.tokens == 0 && !one.finished {
                self.idle += 1;
                if budget == u64::MAX {
                    return Err(format!("no turn gets on from {}", all.next));
                }
                budget = budget.saturating_mul(2).saturating_add(1);
            } else {
                budget = r.from(0, scale) as u64;
            }
            if self.planted == Some(Fault::LastTurnAlone) {
                all.records.clear();
            }
            all.append(one);
            saving::check(library, call, &all.records, place..all.next as usize, r)?;
            self.saves += (all.tokens > 0 && !all.finished) as u64;
        }
        self.sequences += 1;
        if all != unlimited {
            return Err("turns to the finish are not the one without an end to its budget".to_string());
        }
        let answer = Answer(single.answer);
        let (records, masks) = single.cut();
        let moved = reference::records_of(records).into_iter().flat_map(|mut token| {
            token.place += place as u32;
            token.to_bytes()
        });
        let tokens = answer.first() as usize;
        let same = moved.take(tokens * RECORD_BYTES).eq(all.records) && masks[..tokens * MASK_BYTES] == all.masks;
        if tokens != all.tokens || !same || answer.second() + call.place != all.next {
            return Err(format!("turns to the finish: {} tokens up to {}; {answer} at once", all.tokens, all.next));
        }
        Ok(())
    }
}

/// The longest text that is always cut to its end.
const SHORT: usize = 2_048;

/// What one turn gives, or several together.
#[derive(Default, PartialEq, Eq)]
struct Given {
    tokens: usize,
    records: Vec<u8>,
    masks: Vec<u8>,
    next: u64,
    examined: u64,
    finished: bool,
}

impl Given {
    fn of(outcome: &Outcome) -> Result<Given, String> {
        let answer = Answer(outcome.answer);
        let tokens = answer.first() as usize;
        let (records, masks) = outcome.cut();
        if answer.number() != 0 || tokens * RECORD_BYTES > records.len() {
            return Err(format!("a turn with room for all: {answer}"));
        }
        let [next, examined] = outcome.numbers();
        Ok(Given {
            tokens,
            records: records[..tokens * RECORD_BYTES].to_vec(),
            masks: masks[..tokens * MASK_BYTES].to_vec(),
            next,
            examined,
            finished: answer.second() == 1,
        })
    }

    fn append(&mut self, one: Given) {
        self.tokens += one.tokens;
        self.records.extend(one.records);
        self.masks.extend(one.masks);
        self.next = one.next;
        self.examined += one.examined;
        self.finished = one.finished;
    }

    /// Whether the turn from the same place with a larger budget gives the same, and where this one was spent perhaps more.
    fn extended_by(&self, more: &Given) -> Result<(), String> {
        if !more.records.starts_with(&self.records) || !more.masks.starts_with(&self.masks) {
            return Err("other tokens than with a smaller one".to_string());
        }
        let further = more.tokens > self.tokens;
        let fits = match (self.finished, further || more.finished) {
            // what is examined more is the reach of a further token, or of a place where none begins
            (false, true) => more.examined > self.examined && (more.next > self.next) == further,
            _ => more == self,
        };
        if !fits {
            return Err(format!("next {}, examined {}, not so with a smaller one", more.next, more.examined));
        }
        Ok(())
    }
}

/// A turn over the text of a call with room for all.
fn turn(library: &mut Library, call: &Call, place: u64, budget: u64) -> Result<Given, String> {
    let room = call.text.len().saturating_sub(place as usize);
    let (records, masks) = (vec![0; room * RECORD_BYTES], vec![0; room * MASK_BYTES]);
    let lent = Call { place, budget, records, masks, ..call.clone() };
    Given::of(&library.run(&lent, Against::Back)?)
}

/// A turn depends on no byte before its place, and on none past its budget: they may be others, or not be there.
fn outside(library: &mut Library, call: &Call, outcome: &Outcome) -> Result<(), String> {
    let place = call.place as usize;
    let end = call.budget.min((call.text.len() - place) as u64) as usize + place;
    let mut other = call.clone();
    for (at, byte) in other.text.iter_mut().enumerate().filter(|(at, _)| !(place..end).contains(at)) {
        *byte = byte.wrapping_add(1 + at as u8 % 3);
    }
    let again = library.run(&other, Against::Back)?;
    if again.answer != outcome.answer || again.buffers[2..] != outcome.buffers[2..] {
        return Err(format!("with other bytes outside the budget: {}", Answer(again.answer)));
    }
    for against in [Against::Front, Against::Back] {
        let alone = library.run_showing(call, against, place..end)?;
        if alone != *outcome {
            return Err(format!("with no bytes outside the budget: {}", Answer(alone.answer)));
        }
    }
    Ok(())
}

/// A budget of what was examined does as well, and where the turn is finished no smaller one does.
fn just_enough(library: &mut Library, call: &Call, given: &Given) -> Result<(), String> {
    let same = turn(library, call, call.place, given.examined)?;
    if same != *given {
        return Err(format!("a budget of {} does not do as well", given.examined));
    }
    if given.finished && given.examined > 0 {
        let less = turn(library, call, call.place, given.examined - 1)?;
        less.extended_by(given)?;
        if less.finished {
            return Err(format!("finished with {} too", given.examined - 1));
        }
    }
    Ok(())
}

/// A number made of what is lent, so that the same call is always tried in the same way.
fn mixed(call: &Call) -> u64 {
    let bytes = call.text.iter().chain(&call.book).chain(&call.next);
    bytes.fold(call.place, |sum, &b| (sum ^ b as u64).wrapping_mul(0x100_0000_01B3))
}
