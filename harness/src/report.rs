//! A difference as small as it can be made, in hexadecimal.

use crate::calls::{self, Answer, Call, Operation, Outcome};
use crate::reference;
use std::time::{Duration, Instant};

/// How long shrinking may take; what is smallest by then is shown.
const PATIENCE: Duration = Duration::from_secs(5);

/// Leaves out parts of the lent buffers as long as the difference stays: whole commands, records and masks first, then
/// bytes.
pub fn shrink(call: &Call, mut differs: impl FnMut(&Call) -> bool) -> Call {
    let end = Instant::now() + PATIENCE;
    let mut best = call.clone();
    loop {
        let before = best.clone();
        shrink_turn(&mut best, end, &mut differs);
        let mut names: Vec<&str> = best.buffers().iter().map(|(name, _)| *name).collect();
        names.retain(|name| !matches!(*name, "next" | "examined"));
        for grain in [Grain::Rules, Grain::Commands, Grain::Bytes] {
            for name in &names {
                shrink_buffer(&mut best, name, grain, end, &mut differs);
            }
        }
        shrink_tokens(&mut best, end, &mut differs);
        if best == before || Instant::now() > end {
            return best;
        }
    }
}

/// What is left out together: whole rules or commands of a book, whole records and masks, or single bytes.
#[derive(Clone, Copy, PartialEq, Eq)]
enum Grain {
    Rules,
    Commands,
    Bytes,
}

fn pieces(name: &str, bytes: &[u8], grain: Grain) -> Vec<Vec<u8>> {
    let mut all: Vec<Vec<u8>> = Vec::new();
    let mut at = 0;
    let mut joined = false;
    while at < bytes.len() {
        let size = match (name, grain) {
            (_, Grain::Bytes) => 1,
            ("book", _) => 1 + [0, 3, 1, 1, 1, 3, 4, 0, 0, 2, 2, 2, 6].get(bytes[at] as usize).unwrap_or(&0),
            ("records", _) => reference::RECORD_BYTES,
            ("masks", _) => reference::MASK_BYTES,
            _ => 1,
        };
        let piece = &bytes[at..(at + size).min(bytes.len())];
        match all.last_mut() {
            Some(last) if joined => last.extend(piece),
            _ => all.push(piece.to_vec()),
        }
        let inside = !matches!(bytes[at], reference::CLOSE | reference::END) && bytes[at] <= reference::WIDE_SPAN;
        joined = name == "book" && grain == Grain::Rules && inside;
        at += size;
    }
    all
}

fn shrink_buffer(best: &mut Call, name: &str, grain: Grain, end: Instant, differs: &mut impl FnMut(&Call) -> bool) {
    let bytes = best.buffers().iter().find(|(n, _)| *n == name).expect("it is lent").1.clone();
    let mut left = pieces(name, &bytes, grain);
    let mut run = left.len();
    while run > 0 {
        let mut at = 0;
        while at < left.len() {
            if Instant::now() > end {
                return;
            }
            let mut fewer = left.clone();
            fewer.drain(at..(at + run).min(left.len()));
            let mut smaller = best.clone();
            smaller.set_buffer(name, fewer.concat());
            if differs(&smaller) {
                *best = smaller;
                left = fewer;
            } else {
                at += run;
            }
        }
        run /= 2;
    }
}

/// Of a cut: a byte of the text and a mask together, which may be a token less.
fn shrink_tokens(best: &mut Call, end: Instant, differs: &mut impl FnMut(&Call) -> bool) {
    for last in [true, false] {
        while !best.text.is_empty() && best.masks.len() >= reference::MASK_BYTES && Instant::now() <= end {
            let mut smaller = best.clone();
            smaller.text.remove(if last { best.text.len() - 1 } else { 0 });
            smaller.masks.drain(..reference::MASK_BYTES);
            if !differs(&smaller) {
                break;
            }
            *best = smaller;
        }
    }
}

/// Of a turn: the bytes before its place, then smaller numbers.
fn shrink_turn(best: &mut Call, end: Instant, differs: &mut impl FnMut(&Call) -> bool) {
    if best.operation != Operation::LexWithin {
        return;
    }
    loop {
        let Call { place, budget, .. } = *best;
        let fewer = |n: u64| (0..64).map(move |k| n - (n >> k)).chain([n - 1]).filter(move |m| *m < n);
        let places = fewer(place.max(1)).map(|place| Call { place, ..best.clone() });
        let budgets = fewer(budget.max(1)).map(|budget| Call { budget, ..best.clone() });
        let shorter = (place > 0 && !best.text.is_empty()).then(|| Call {
            place: place - 1,
            text: best.text[1..].to_vec(),
            ..best.clone()
        });
        let mut smaller = shorter.into_iter().chain(places).chain(budgets);
        match smaller.find(|call| (call.place, call.budget) != (place, budget) && differs(call)) {
            Some(call) if Instant::now() <= end => *best = call,
            _ => return,
        }
    }
}

fn hex(bytes: &[u8]) -> String {
    const SHOWN: usize = 512;
    let mut text: Vec<String> = bytes.iter().take(SHOWN).map(|b| format!("{b:02X}")).collect();
    if bytes.len() > SHOWN {
        text.push("…".to_string());
    }
    format!("{} bytes: {}", bytes.len(), text.join(" "))
}

/// A buffer's bytes, or the number that they are.
fn shown(name: &str, bytes: &[u8]) -> String {
    match name {
        "next" | "examined" => calls::number(bytes).to_string(),
        _ => hex(bytes),
    }
}

pub fn reproduction(call: &Call, ours: &Result<Outcome, String>, second: &Outcome) -> String {
    let mut lines = vec![format!("{} with", call.operation.name())];
    if call.operation == Operation::PrintSeparated {
        let s = call.separator;
        lines.push(format!("  separator tag {} place {} length {}, mode {}", s.tag, s.place, s.length, call.mode));
    }
    if call.operation == Operation::Rule {
        lines.push(format!("  index {}", call.index));
    }
    if call.operation == Operation::Compile {
        lines.push(format!("  tag {}, kind {}", call.tag, call.kind));
    }
    if call.operation == Operation::LexWithin {
        lines.push(format!("  place {}, budget {}", call.place, call.budget));
    }
    for (name, bytes) in call.buffers() {
        lines.push(format!("  {name}, {}", shown(name, bytes)));
    }
    lines.push(format!("second implementation: {}", Answer(second.answer)));
    match ours {
        Err(guard) => lines.push(format!("library: {guard}")),
        Ok(ours) => {
            lines.push(format!("library: {}", Answer(ours.answer)));
            for ((name, _), (a, b)) in call.buffers().iter().zip(ours.buffers.iter().zip(&second.buffers)) {
                if a != b {
                    lines.push(format!("  {name} after the library, {}", shown(name, a)));
                    lines.push(format!("  {name} after the second, {}", shown(name, b)));
                }
            }
        }
    }
    lines.join("\n")
}
