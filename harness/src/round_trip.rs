//! What a printer writes, cut again by the library itself, must be the list that it was given.

use crate::calls::{Answer, Call, Operation};
use crate::library::{Against, Library};
use crate::reference;
use std::collections::BTreeSet;

/// A token's tag and bytes.
pub type Token<'a> = (u16, Option<&'a [u8]>);

/// What an accepted call of a printer writes.
pub fn written(library: &mut Library, call: &Call) -> Option<Vec<u8>> {
    if !matches!(call.operation, Operation::Print | Operation::PrintSeparated) {
        return None;
    }
    let outcome = library.run(call, Against::Back).ok()?;
    let answer = Answer(outcome.answer);
    (answer.number() == 0).then(|| outcome.buffers[3][..answer.first() as usize].to_vec())
}

/// The list that a printer was given.
pub fn given(call: &Call) -> Vec<Token<'_>> {
    reference::records_of(&call.records).into_iter().map(|t| (t.tag, t.bytes(&call.text))).collect()
}

/// How the library answers when it cuts a text by the book of a printer's call, and the tokens without separators.
pub fn cut<'a>(library: &mut Library, call: &Call, text: &'a [u8]) -> Option<(Answer, Vec<Token<'a>>)> {
    let lent = Call::lex(&call.book, text, vec![0; text.len() * 10], vec![0; text.len() * 4]);
    let cut = library.run(&lent, Against::Back).ok()?;
    let answer = Answer(cut.answer);
    let dropped = separators(call);
    let tokens = reference::records_of(&cut.cut().0[..answer.first() as usize * 10]);
    let kept = tokens.into_iter().filter(|t| !dropped.contains(&t.tag)).map(|t| (t.tag, t.bytes(text))).collect();
    (answer.number() == 0).then_some((answer, kept))
}

/// Says how the round trip of what a printer wrote is broken.
pub fn broken(library: &mut Library, call: &Call, text: &[u8]) -> Option<String> {
    let given = given(call);
    match cut(library, call, text) {
        None => Some("the output is not cut".to_string()),
        Some((answer, _)) if answer.second() != text.len() as u64 => Some(format!("cutting the output: {answer}")),
        Some((_, read)) if read != given => {
            Some(format!("{} tokens were given, {} other ones come back", given.len(), read.len()))
        }
        Some(_) => None,
    }
}

/// The tags that are dropped: those of separator rules, where separators were written.
fn separators(call: &Call) -> BTreeSet<u16> {
    if call.operation == Operation::Print {
        return BTreeSet::new();
    }
    reference::rules(&call.book).into_iter().filter(|r| reference::is_separator(r)).map(reference::tag_of).collect()
}
