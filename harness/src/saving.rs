//! Saving between turns (document 02, wish 2): the records that turns have given, printed with the text as their pool, are the text
//! from where they began to the next place.

use crate::calls::{self, accepted, refused, Answer, Call, Outcome};
use crate::library::{Against, Library};
use crate::random::Random;
use crate::reference::Refusal;
use std::ops::Range;

/// The longest text of which the second implementation saves too.
const SHORT: usize = 256;

/// Says how the library breaks the law with the records of turns over a part of the text of `call`, those of each turn behind those of
/// the turns before it. The output has just room enough, more, or a byte too little.
pub fn check(
    library: &mut Library,
    call: &Call,
    records: &[u8],
    part: Range<usize>,
    r: &mut Random,
) -> Result<(), String> {
    let sheet = &call.text[part];
    let room = match r.below(4) {
        0 => sheet.len().saturating_sub(1),
        1 => sheet.len() + r.from(1, 20),
        _ => sheet.len(),
    };
    let save = Call::print(&call.book, records.to_vec(), &call.text, vec![r.byte(); room]);
    let due = due(&save, sheet);
    let saved = library.run(&save, *r.pick(&[Against::Front, Against::Back]))?;
    let what = || format!("saving {} bytes between turns, with room for {room}", sheet.len());
    if saved.answer != due.answer {
        return Err(format!("{}: {}", what(), Answer(saved.answer)));
    }
    if saved != due {
        return Err(format!("{}: other bytes than the text's", what()));
    }
    if call.text.len() <= SHORT && calls::expected(&save) != due {
        return Err(format!("{}: the second implementation does otherwise", what()));
    }
    Ok(())
}

/// What is due of a call of the printer that has to write this part of the text.
fn due(save: &Call, sheet: &[u8]) -> Outcome {
    let mut after = save.clone();
    let answer = match after.out.get_mut(..sheet.len()) {
        Some(out) => {
            out.copy_from_slice(sheet);
            accepted(sheet.len(), 0)
        }
        None => refused(Refusal { number: 22, place: sheet.len() }),
    };
    Outcome { answer, buffers: after.buffers().into_iter().map(|(_, b)| b.clone()).collect() }
}
