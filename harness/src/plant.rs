//! Faults between the harness and the library, to see that the harness finds them. The library itself is not changed: each
//! fault alters what goes into a call or what comes out of it.

use crate::calls::{Answer, Call, Operation, Outcome, BUILTIN};
use crate::compile_faults;
use crate::library::{Against, Library};
use crate::reference::{self, Command, Reading, Width};
use crate::turn_faults;
use std::collections::BTreeSet;

#[derive(Clone, Copy, Debug, PartialEq, Eq)]
pub enum Fault {
    /// On a tie the latest rule wins.
    Tie,
    /// 15 says one token more than there was room for.
    Need,
    /// An accepted cut changes a byte past its last record.
    PastTheCount,
    /// A refused printing leaves a byte in the output.
    OutputTouched,
    /// A separator is written after the last token too, as 004 does.
    LastSeparator,
    /// The plain printer looks at a token and its neighbour alone.
    Neighbours,
    /// Modes 0 and 2 decide from the front, by a token and its neighbour.
    FromTheFront,
    /// A rule past the last one is answered as the last one.
    LastRule,
    /// Mode 0 puts a separator between all neighbours, as mode 1 does.
    ZeroIsAll,
    /// A rule uses the bytes of all moves from states that are reached, also where they lead to no final state.
    ReachableAlone,
    /// A rule uses the bytes of all moves that lead to a final state, also from states that are not reached.
    FinalAlone,
    /// A state that is reached, or leads to a final one, in a rule counts so in the rules after it too.
    LeftOver,
    /// The stricter reading says 33 of a STEP outside a rule.
    StrictOutside,
    /// The stricter reading says 2 of a STEP whose operands are cut off.
    StrictCutOff,
    /// The stricter reading refuses SPAN too.
    StrictSpan,
    /// Rewriting leaves the last STEP as it is.
    StepKept,
    /// In a rewritten STEP the target stands in the place of low and high, the byte in that of the target.
    StepTurned,
    /// A rewritten book that is too long is 22 where the output is too short for it.
    RoomFirst,
    /// 22 of rewriting names the bytes that would be needed if the book were STEPs alone.
    RoomForAll,
    /// A state of two bytes is read low byte first.
    LowByteFirst,
    /// The high byte of a state plays no part.
    HighByte,
    /// 4,096 is taken as a state.
    TooLarge,
    /// A short and a wide command name different states by the same number.
    WidthsApart,
    /// A second START or ERROR of a state above 4,095 is 8.
    TwiceFirst,
    /// At the first state of two bytes that is final or left by a move, the final states that the rule has had are lost.
    Widening,
    /// A mask has the bit of the winning rule alone.
    WinnerAlone,
    /// The last rule of the book is bit 0.
    BitsTurned,
    /// Rules that match a shorter beginning of the token have their bits too.
    ShorterToo,
    /// A mask has the bits of the tokens before it too.
    BitsLeft,
    /// The 32nd rule has no bit.
    LastBit,
    /// A mask is stored low byte first.
    MaskTurned,
    /// An accepted cut changes a byte past its last mask.
    PastTheMasks,
    /// 15 is forgotten where only the masks are too few.
    MasksUncounted,
    /// Leftover bytes count as a mask.
    RoundedUp,
    /// A cut that is refused by 15 leaves masks.
    MasksTouched,
    /// A reach is a byte less.
    ReachShort,
    /// The reach of a token is that of the rule that takes it.
    ReachOfTheWinner,
    /// The reach of a token is its length.
    ReachIsLength,
    /// A rule is at its end in a state that nothing leaves.
    StuckIsError,
    /// A rule that a move has led to its error state is at its end a byte later.
    MovedToError,
    /// A rule that starts in its error state is at its end a byte later.
    StartedInError,
    /// The reach of the place where no token begins is not counted.
    TokenlessUncounted,
    /// Finished is said where no token begins, also where the reach does not fit.
    TokenlessUnasked,
    /// Spent is said where the reach is all that is left.
    JustFits,
    /// Spent is said where nothing is left, also for a reach of 0.
    NothingLeft,
    /// A turn goes on as long as anything is left.
    Overdrawn,
    /// Finished is said where a token begins whose reach does not fit.
    FinishedAtAToken,
    /// Places in records count from the turn's place.
    FromTheTurn,
    /// The next place counts from the turn's place.
    NextFromTheTurn,
    /// A turn that is refused by 15 leaves its next place and what it examined.
    NumbersTouched,
    /// 27 is said of the text's end.
    EndIsPast,
    /// 27 comes before 14.
    PlaceFirst,
    /// 15 comes before 27.
    RoomBeforePlace,
    /// 15 counts the tokens of the whole text.
    RoomForTheCut,
    /// The high half of a budget plays no part.
    HalfABudget,
    /// The high half of a place plays no part.
    HalfAPlace,
    /// Saved is what the last turn gave.
    LastTurnAlone,
    /// A period takes 0A.
    LineFeed,
    /// + is taken as *.
    PlusIsStar,
    /// A range ends before its last end.
    OpenRange,
    /// Of strings of equal length the highest comes first in the numbering of sets.
    HighestFirst,
    /// The last SPAN of several bytes ends one earlier.
    SpanShort,
    /// The last SPAN of several bytes becomes two.
    SpanSplit,
    /// Moves to the error state have SPANs too.
    ErrorSpans,
    /// The SPANs of a state stand by their target.
    ByTarget,
    /// FINAL 0 is not written.
    StartUnsaid,
    /// 30 is said at the byte behind its place.
    FaultLate,
    /// 31 for positions and depth comes before 30.
    LimitFirst,
    /// 32 is said of 254 sets.
    ASetLess,
    /// 6 comes after 31 and 30.
    TagLate,
    /// 22 leaves the beginning of the rule in the output.
    RuleCutOff,
    /// The byte behind the rule is changed.
    BehindTheRule,
}

pub const FAULTS: [Fault; 72] = [
    Fault::Tie,
    Fault::Need,
    Fault::PastTheCount,
    Fault::OutputTouched,
    Fault::LastSeparator,
    Fault::Neighbours,
    Fault::FromTheFront,
    Fault::LastRule,
    Fault::ZeroIsAll,
    Fault::ReachableAlone,
    Fault::FinalAlone,
    Fault::LeftOver,
    Fault::StrictOutside,
    Fault::StrictCutOff,
    Fault::StrictSpan,
    Fault::StepKept,
    Fault::StepTurned,
    Fault::RoomFirst,
    Fault::RoomForAll,
    Fault::LowByteFirst,
    Fault::HighByte,
    Fault::TooLarge,
    Fault::WidthsApart,
    Fault::TwiceFirst,
    Fault::Widening,
    Fault::WinnerAlone,
    Fault::BitsTurned,
    Fault::ShorterToo,
    Fault::BitsLeft,
    Fault::LastBit,
    Fault::MaskTurned,
    Fault::PastTheMasks,
    Fault::MasksUncounted,
    Fault::RoundedUp,
    Fault::MasksTouched,
    Fault::ReachShort,
    Fault::ReachOfTheWinner,
    Fault::ReachIsLength,
    Fault::StuckIsError,
    Fault::MovedToError,
    Fault::StartedInError,
    Fault::TokenlessUncounted,
    Fault::TokenlessUnasked,
    Fault::JustFits,
    Fault::NothingLeft,
    Fault::Overdrawn,
    Fault::FinishedAtAToken,
    Fault::FromTheTurn,
    Fault::NextFromTheTurn,
    Fault::NumbersTouched,
    Fault::EndIsPast,
    Fault::PlaceFirst,
    Fault::RoomBeforePlace,
    Fault::RoomForTheCut,
    Fault::HalfABudget,
    Fault::HalfAPlace,
    Fault::LastTurnAlone,
    Fault::LineFeed,
    Fault::PlusIsStar,
    Fault::OpenRange,
    Fault::HighestFirst,
    Fault::SpanShort,
    Fault::SpanSplit,
    Fault::ErrorSpans,
    Fault::ByTarget,
    Fault::StartUnsaid,
    Fault::FaultLate,
    Fault::LimitFirst,
    Fault::ASetLess,
    Fault::TagLate,
    Fault::RuleCutOff,
    Fault::BehindTheRule,
];

impl Fault {
    pub fn name(self) -> &'static str {
        match self {
            Fault::Tie => "tie",
            Fault::Need => "need",
            Fault::PastTheCount => "past-the-count",
            Fault::OutputTouched => "output-touched",
            Fault::LastSeparator => "last-separator",
            Fault::Neighbours => "neighbours",
            Fault::FromTheFront => "from-the-front",
            Fault::LastRule => "last-rule",
            Fault::ZeroIsAll => "zero-is-all",
            Fault::ReachableAlone => "reachable-alone",
            Fault::FinalAlone => "final-alone",
            Fault::LeftOver => "left-over",
            Fault::StrictOutside => "strict-outside",
            Fault::StrictCutOff => "strict-cut-off",
            Fault::StrictSpan => "strict-span",
            Fault::StepKept => "step-kept",
            Fault::StepTurned => "step-turned",
            Fault::RoomFirst => "room-first",
            Fault::RoomForAll => "room-for-all",
            Fault::LowByteFirst => "low-byte-first",
            Fault::HighByte => "high-byte",
            Fault::TooLarge => "too-large",
            Fault::WidthsApart => "widths-apart",
            Fault::TwiceFirst => "twice-first",
            Fault::Widening => "widening",
            Fault::WinnerAlone => "winner-alone",
            Fault::BitsTurned => "bits-turned",
            Fault::ShorterToo => "shorter-too",
            Fault::BitsLeft => "bits-left",
            Fault::LastBit => "last-bit",
            Fault::MaskTurned => "mask-turned",
            Fault::PastTheMasks => "past-the-masks",
            Fault::MasksUncounted => "masks-uncounted",
            Fault::RoundedUp => "rounded-up",
            Fault::MasksTouched => "masks-touched",
            Fault::ReachShort => "reach-short",
            Fault::ReachOfTheWinner => "reach-of-the-winner",
            Fault::ReachIsLength => "reach-is-length",
            Fault::StuckIsError => "stuck-is-error",
            Fault::MovedToError => "moved-to-error",
            Fault::StartedInError => "started-in-error",
            Fault::TokenlessUncounted => "tokenless-uncounted",
            Fault::TokenlessUnasked => "tokenless-unasked",
            Fault::JustFits => "just-fits",
            Fault::NothingLeft => "nothing-left",
            Fault::Overdrawn => "overdrawn",
            Fault::FinishedAtAToken => "finished-at-a-token",
            Fault::FromTheTurn => "from-the-turn",
            Fault::NextFromTheTurn => "next-from-the-turn",
            Fault::NumbersTouched => "numbers-touched",
            Fault::EndIsPast => "end-is-past",
            Fault::PlaceFirst => "place-first",
            Fault::RoomBeforePlace => "room-before-place",
            Fault::RoomForTheCut => "room-for-the-cut",
            Fault::HalfABudget => "half-a-budget",
            Fault::HalfAPlace => "half-a-place",
            Fault::LastTurnAlone => "last-turn-alone",
            Fault::LineFeed => "line-feed",
            Fault::PlusIsStar => "plus-is-star",
            Fault::OpenRange => "open-range",
            Fault::HighestFirst => "highest-first",
            Fault::SpanShort => "span-short",
            Fault::SpanSplit => "span-split",
            Fault::ErrorSpans => "error-spans",
            Fault::ByTarget => "by-target",
            Fault::StartUnsaid => "start-unsaid",
            Fault::FaultLate => "fault-late",
            Fault::LimitFirst => "limit-first",
            Fault::ASetLess => "a-set-less",
            Fault::TagLate => "tag-late",
            Fault::RuleCutOff => "rule-cut-off",
            Fault::BehindTheRule => "behind-the-rule",
        }
    }

    pub fn of(name: &str) -> Option<Fault> {
        FAULTS.into_iter().find(|f| f.name() == name)
    }
}

/// Calls the library, with the fault where one is planted.
pub fn run(fault: Option<Fault>, library: &mut Library, call: &Call, against: Against) -> Result<Outcome, String> {
    let sound = library.run(call, against)?;
    let fault = match fault {
        Some(fault) => fault,
        None => return Ok(sound),
    };
    Ok(match fault {
        Fault::Tie => tie(library, call, against, sound)?,
        Fault::Need => need(call, sound),
        Fault::PastTheCount => past_the_count(call, sound),
        Fault::OutputTouched => output_touched(call, sound),
        Fault::LastSeparator => last_separator(call, sound),
        Fault::Neighbours => neighbours(library, call, against, sound)?,
        Fault::FromTheFront => from_the_front(library, call, against, sound)?,
        Fault::LastRule => last_rule(library, call, against, sound)?,
        Fault::ZeroIsAll => zero_is_all(library, call, against, sound)?,
        Fault::ReachableAlone => used_by_marks(call, sound, reachable_alone),
        Fault::FinalAlone => used_by_marks(call, sound, final_alone),
        Fault::LeftOver => used_by_marks(call, sound, left_over),
        Fault::StrictOutside => strictly(call, sound, strict_outside),
        Fault::StrictCutOff => strictly(call, sound, strict_cut_off),
        Fault::StrictSpan => strictly(call, sound, strict_span),
        Fault::StepKept => respelled(call, sound, step_kept),
        Fault::StepTurned => respelled(call, sound, step_turned),
        Fault::RoomFirst => room_first(call, sound),
        Fault::RoomForAll => room_for_all(call, sound),
        Fault::LowByteFirst => by_other_book(library, call, against, sound, low_byte_first)?,
        Fault::HighByte => by_other_book(library, call, against, sound, high_byte)?,
        Fault::TooLarge => by_other_book(library, call, against, sound, too_large)?,
        Fault::WidthsApart => by_other_book(library, call, against, sound, widths_apart)?,
        Fault::TwiceFirst => twice_first(call, sound),
        Fault::Widening => by_other_book(library, call, against, sound, widening)?,
        Fault::WinnerAlone => masked(call, sound, |_, mask| mask & mask.wrapping_neg()),
        Fault::BitsTurned => bits_turned(call, sound),
        Fault::ShorterToo => shorter_too(library, call, against, sound)?,
        Fault::BitsLeft => bits_left(call, sound),
        Fault::LastBit => masked(call, sound, |_, mask| mask & !(1 << 31)),
        Fault::MaskTurned => masked(call, sound, |_, mask| mask.swap_bytes()),
        Fault::PastTheMasks => past_the_masks(call, sound),
        Fault::MasksUncounted => too_few_masks(library, call, against, sound, |_, _| true)?,
        Fault::RoundedUp => too_few_masks(library, call, against, sound, |masks, need| masks > 4 * (need - 1))?,
        Fault::MasksTouched => masks_touched(library, call, against, sound)?,
        Fault::ReachShort => turn_faults::reaching(call, sound, |_, stop| stop.reach.saturating_sub(1)),
        Fault::ReachOfTheWinner => turn_faults::reaching(call, sound, turn_faults::winner),
        Fault::ReachIsLength => turn_faults::reaching(call, sound, turn_faults::length),
        Fault::StuckIsError => turn_faults::reaching(call, sound, turn_faults::stuck),
        Fault::MovedToError => turn_faults::reaching(call, sound, turn_faults::moved),
        Fault::StartedInError => turn_faults::reaching(call, sound, turn_faults::started),
        Fault::TokenlessUncounted => turn_faults::tokenless_uncounted(call, sound),
        Fault::TokenlessUnasked => turn_faults::finished_at(call, sound, false),
        Fault::JustFits => turn_faults::spending(call, sound, |reach, left| reach == 0 || reach < left),
        Fault::NothingLeft => turn_faults::spending(call, sound, |reach, left| 0 < left && reach <= left),
        Fault::Overdrawn => turn_faults::spending(call, sound, |reach, left| 0 < left || reach == 0),
        Fault::FinishedAtAToken => turn_faults::finished_at(call, sound, true),
        Fault::FromTheTurn => turn_faults::from_the_turn(call, sound),
        Fault::NextFromTheTurn => turn_faults::next_from_the_turn(call, sound),
        Fault::NumbersTouched => turn_faults::numbers_touched(call, sound),
        Fault::EndIsPast => turn_faults::end_is_past(call, sound),
        Fault::PlaceFirst => turn_faults::place_first(call, sound),
        Fault::RoomBeforePlace => turn_faults::room_before_place(call, sound),
        Fault::RoomForTheCut => turn_faults::room_for_the_cut(call, sound),
        Fault::HalfABudget => {
            turn_faults::by_others(library, call, against, sound, |place, budget| (place, budget & 0xFFFF_FFFF))?
        }
        Fault::HalfAPlace => {
            turn_faults::by_others(library, call, against, sound, |place, budget| (place & 0xFFFF_FFFF, budget))?
        }
        // in the calls that save, which sequences makes
        Fault::LastTurnAlone => sound,
        Fault::LineFeed => compile_faults::by_tree(call, sound, compile_faults::line_feed, |byte| byte),
        Fault::PlusIsStar => compile_faults::by_tree(call, sound, compile_faults::plus_is_star, |byte| byte),
        Fault::OpenRange => compile_faults::open_range(library, call, against, sound)?,
        Fault::HighestFirst => compile_faults::by_tree(call, sound, |tree| tree, |byte| !byte),
        Fault::SpanShort => compile_faults::by_spans(call, sound, compile_faults::span_short),
        Fault::SpanSplit => compile_faults::by_spans(call, sound, compile_faults::span_split),
        Fault::ErrorSpans => compile_faults::by_spans(call, sound, compile_faults::error_spans),
        Fault::ByTarget => compile_faults::by_spans(call, sound, compile_faults::by_target),
        Fault::StartUnsaid => compile_faults::by_spans(call, sound, compile_faults::start_unsaid),
        Fault::FaultLate => compile_faults::fault_late(call, sound),
        Fault::LimitFirst => compile_faults::limit_first(call, sound),
        Fault::ASetLess => compile_faults::a_set_less(call, sound),
        Fault::TagLate => compile_faults::tag_late(library, call, against, sound)?,
        Fault::RuleCutOff => compile_faults::rule_cut_off(call, sound),
        Fault::BehindTheRule => compile_faults::behind_the_rule(call, sound),
    })
}

fn is_cut(call: &Call) -> bool {
    matches!(call.operation, Operation::Lex | Operation::LexBuiltin | Operation::LexWithin)
}

fn is_print(call: &Call) -> bool {
    matches!(call.operation, Operation::Print | Operation::PrintSeparated)
}

/// The cut by the same rules in the opposite order; which rules agree is the same.
fn tie(library: &mut Library, call: &Call, against: Against, sound: Outcome) -> Result<Outcome, String> {
    let by_book = matches!(call.operation, Operation::Lex | Operation::LexWithin);
    if !by_book || reference::read_book(&call.book, Reading::Ordinary).is_err() {
        return Ok(sound);
    }
    let mut turned = call.clone();
    turned.book = reference::rules(&call.book).into_iter().rev().flatten().copied().collect();
    turned.book.push(reference::END);
    let mut outcome = library.run(&turned, against)?;
    outcome.buffers[0] = call.book.clone();
    outcome.cut_mut().1.copy_from_slice(sound.cut().1);
    Ok(outcome)
}

fn need(call: &Call, mut outcome: Outcome) -> Outcome {
    if Answer(outcome.answer).number() == 15 {
        outcome.answer = 15 << 56 | (call.room() + 1) as u64;
    }
    outcome
}

fn past_the_count(call: &Call, mut outcome: Outcome) -> Outcome {
    let answer = Answer(outcome.answer);
    if is_cut(call) && answer.number() == 0 {
        let records = outcome.cut_mut().0;
        if let Some(byte) = records.get_mut(answer.first() as usize * reference::RECORD_BYTES) {
            *byte ^= 1;
        }
    }
    outcome
}

fn output_touched(call: &Call, mut outcome: Outcome) -> Outcome {
    if is_print(call) && Answer(outcome.answer).number() == 22 {
        if let Some(byte) = outcome.buffers[3].first_mut() {
            *byte ^= 1;
        }
    }
    outcome
}

fn last_separator(call: &Call, outcome: Outcome) -> Outcome {
    let answer = Answer(outcome.answer);
    if call.operation != Operation::PrintSeparated || answer.number() != 0 || answer.first() == 0 {
        return outcome;
    }
    let mut text = outcome.buffers[3][..answer.first() as usize].to_vec();
    text.extend(call.separator.bytes(&call.text).expect("an accepted separator"));
    written(call, &text)
}

/// What a printer leaves that has this text to write.
pub fn written(call: &Call, text: &[u8]) -> Outcome {
    let mut after = call.clone();
    let answer = if call.out.len() < text.len() {
        22 << 56 | text.len() as u64
    } else {
        after.out[..text.len()].copy_from_slice(text);
        (text.len() as u64) << 28
    };
    Outcome { answer, buffers: after.buffers().into_iter().map(|(_, b)| b.clone()).collect() }
}

/// For each token but the last, whether the library refuses it and its neighbour as a list of two.
fn refused_pairs(library: &mut Library, call: &Call, against: Against) -> Result<Vec<bool>, String> {
    let mut pairs = Vec::new();
    for pair in call.records.chunks_exact(reference::RECORD_BYTES).collect::<Vec<_>>().windows(2) {
        let two = Call::print(&call.book, pair.concat(), &call.text, vec![0; reference::TEXT_BYTES]);
        pairs.push(Answer(library.run(&two, against)?.answer).number() == 21);
    }
    Ok(pairs)
}

fn neighbours(library: &mut Library, call: &Call, against: Against, sound: Outcome) -> Result<Outcome, String> {
    if call.operation != Operation::Print || Answer(sound.answer).number() != 21 {
        return Ok(sound);
    }
    if let Some(i) = refused_pairs(library, call, against)?.iter().position(|&refused| refused) {
        return Ok(Outcome { answer: 21 << 56 | i as u64, ..sound });
    }
    let tokens = reference::records_of(&call.records);
    let text: Vec<&[u8]> = tokens.iter().map(|t| t.bytes(&call.text).expect("21 comes after 17")).collect();
    Ok(written(call, &text.concat()))
}

fn from_the_front(library: &mut Library, call: &Call, against: Against, sound: Outcome) -> Result<Outcome, String> {
    let number = Answer(sound.answer).number();
    if call.operation != Operation::PrintSeparated || call.mode == 1 || (number != 0 && number != 22) {
        return Ok(sound);
    }
    let mut parted = refused_pairs(library, call, against)?;
    parted.push(false);
    let between = call.separator.bytes(&call.text).expect("an accepted separator");
    let mut text = Vec::new();
    for (token, apart) in reference::records_of(&call.records).iter().zip(parted) {
        text.extend(token.bytes(&call.text).expect("an accepted token"));
        if apart {
            text.extend(between);
        }
    }
    Ok(written(call, &text))
}

fn last_rule(library: &mut Library, call: &Call, against: Against, sound: Outcome) -> Result<Outcome, String> {
    let answer = Answer(sound.answer);
    if call.operation != Operation::Rule || answer.number() != 18 {
        return Ok(sound);
    }
    library.run(&Call::rule(&call.book, answer.place() as u32 - 1), against)
}

fn zero_is_all(library: &mut Library, call: &Call, against: Against, sound: Outcome) -> Result<Outcome, String> {
    if call.operation != Operation::PrintSeparated || call.mode != 0 {
        return Ok(sound);
    }
    library.run(&Call { mode: 1, ..call.clone() }, against)
}

/// Of each state whether it is reached from the start, and whether it leads to a final one.
type Marks = Vec<(bool, bool)>;

fn marks(rule: &[u8]) -> Marks {
    let (fronts, backs) = (reference::fronts(rule), reference::backs(rule));
    fronts.iter().zip(&backs).map(|(front, back)| (front.is_some(), back.is_some())).collect()
}

/// 23 where the moves from a state of the first mark to one of the second have a byte in both kinds of rules.
fn used_by_marks(call: &Call, sound: Outcome, marks_of: fn(&[&[u8]]) -> Vec<Marks>) -> Outcome {
    if call.operation != Operation::PrintSeparated || (1..=13).contains(&Answer(sound.answer).number()) {
        return sound;
    }
    let rules = reference::rules(&call.book);
    let mut used = [BTreeSet::new(), BTreeSet::new()];
    for (rule, marks) in rules.iter().zip(marks_of(&rules)) {
        for (from, low, high, to) in reference::moves(rule) {
            if marks[from as usize].0 && marks[to as usize].1 {
                used[reference::is_separator(rule) as usize].extend(low..=high);
            }
        }
    }
    let shared = used[0].intersection(&used[1]).next().copied();
    match shared {
        Some(byte) => {
            let buffers = call.buffers().into_iter().map(|(_, b)| b.clone()).collect();
            Outcome { answer: 23 << 56 | byte as u64, buffers }
        }
        None => sound,
    }
}

fn reachable_alone(rules: &[&[u8]]) -> Vec<Marks> {
    let of = |rule: &&[u8]| {
        let mut marks: Marks = marks(rule).into_iter().map(|(reached, _)| (reached, true)).collect();
        marks[reference::error_of(rule) as usize].1 = false;
        marks
    };
    rules.iter().map(of).collect()
}

fn final_alone(rules: &[&[u8]]) -> Vec<Marks> {
    rules.iter().map(|rule| marks(rule).into_iter().map(|(_, leads)| (true, leads)).collect()).collect()
}

fn left_over(rules: &[&[u8]]) -> Vec<Marks> {
    let mut left: Marks = vec![(false, false); reference::LAST_STATE as usize + 1];
    let mut next = |rule: &&[u8]| {
        left.iter_mut().zip(marks(rule)).for_each(|(l, m)| *l = (l.0 || m.0, l.1 || m.1));
        left.clone()
    };
    rules.iter().map(|rule| next(rule)).collect()
}

/// The stricter reading with another refusal, where there is one.
fn strictly(call: &Call, sound: Outcome, other: fn(&[u8], Answer) -> Option<(u64, usize)>) -> Outcome {
    if call.operation != Operation::ReadBookStrict {
        return sound;
    }
    match other(&call.book, Answer(sound.answer)) {
        Some((number, place)) => Outcome { answer: number << 56 | place as u64, ..sound },
        None => sound,
    }
}

fn strict_outside(book: &[u8], answer: Answer) -> Option<(u64, usize)> {
    let place = answer.place() as usize;
    (answer.number() == 3 && book[place] == reference::STEP).then_some((33, place))
}

fn strict_cut_off(book: &[u8], answer: Answer) -> Option<(u64, usize)> {
    let place = answer.place() as usize;
    (answer.number() == 33 && book.len() - place < 4).then_some((2, place))
}

/// The first SPAN before what is answered.
fn strict_span(book: &[u8], answer: Answer) -> Option<(u64, usize)> {
    let read = if answer.number() == 0 { book.len() } else { answer.place() as usize };
    let mut spans = reference::placed(book).filter(|(_, command)| matches!(command, Command::Span { .. }));
    spans.next().filter(|(place, _)| *place < read).map(|(place, _)| (33, place))
}

/// The rewriting of a book of which other bytes are made.
fn respelled(call: &Call, sound: Outcome, other: fn(Vec<Command>) -> Vec<u8>) -> Outcome {
    if call.operation != Operation::RewriteBook || ![0, 22].contains(&Answer(sound.answer).number()) {
        return sound;
    }
    written(call, &other(reference::placed(&call.book).map(|(_, command)| command).collect()))
}

fn step_kept(commands: Vec<Command>) -> Vec<u8> {
    let last = commands.iter().rposition(|c| matches!(c, Command::Step { .. }));
    let bytes = |(i, c): (usize, Command)| if Some(i) == last { c.bytes() } else { reference::spanned([c]) };
    commands.into_iter().enumerate().flat_map(bytes).collect()
}

fn step_turned(commands: Vec<Command>) -> Vec<u8> {
    let turned = |c: Command| match c {
        Command::Step { from, byte, to } => {
            Command::Span { width: Width::Short, from: from.into(), low: to, high: to, to: byte.into() }
        }
        other => other,
    };
    commands.into_iter().flat_map(|c| turned(c).bytes()).collect()
}

fn room_first(call: &Call, sound: Outcome) -> Outcome {
    let accepted = reference::read_book(&call.book, Reading::Ordinary).is_ok();
    if call.operation != Operation::RewriteBook || Answer(sound.answer).number() != 1 || !accepted {
        return sound;
    }
    let need = reference::spanned(reference::placed(&call.book).map(|(_, command)| command)).len();
    if call.out.len() < need {
        return Outcome { answer: 22 << 56 | need as u64, ..sound };
    }
    sound
}

fn room_for_all(call: &Call, mut outcome: Outcome) -> Outcome {
    if call.operation == Operation::RewriteBook && Answer(outcome.answer).number() == 22 {
        outcome.answer = 22 << 56 | (call.book.len() / 4 * 5) as u64;
    }
    outcome
}

/// What the library leaves by another book than the one that is given. Rewriting has that one's bytes to copy.
fn by_other_book(
    library: &mut Library,
    call: &Call,
    against: Against,
    sound: Outcome,
    other: fn(&[u8]) -> Vec<u8>,
) -> Result<Outcome, String> {
    if matches!(call.operation, Operation::LexBuiltin | Operation::RewriteBook | Operation::Compile) {
        return Ok(sound);
    }
    let book = other(&call.book);
    if book == call.book {
        return Ok(sound);
    }
    let mut outcome = library.run(&Call { book, ..call.clone() }, against)?;
    outcome.buffers[0] = call.book.clone();
    Ok(outcome)
}

/// The book with other states in its wide commands.
fn renamed(book: &[u8], name: impl Fn(u16) -> u16) -> Vec<u8> {
    let mut bytes = Vec::new();
    for (_, command) in reference::placed(book) {
        let other = match command {
            Command::Start(Width::Wide, state) => Command::Start(Width::Wide, name(state)),
            Command::Error(Width::Wide, state) => Command::Error(Width::Wide, name(state)),
            Command::Final(Width::Wide, state) => Command::Final(Width::Wide, name(state)),
            Command::Span { width: Width::Wide, from, low, high, to } => {
                Command::Span { width: Width::Wide, from: name(from), low, high, to: name(to) }
            }
            other => other,
        };
        bytes.extend(other.bytes());
    }
    bytes.extend(&book[bytes.len()..]);
    bytes
}

fn low_byte_first(book: &[u8]) -> Vec<u8> {
    renamed(book, u16::swap_bytes)
}

fn high_byte(book: &[u8]) -> Vec<u8> {
    renamed(book, |state| state & 0xFF)
}

/// A state that the book does not name, the last one at or before this.
fn unnamed(book: &[u8], last: u16) -> u16 {
    let named: BTreeSet<u16> = reference::placed(book).flat_map(|(_, command)| command.states()).collect();
    (0..=last).rev().find(|state| !named.contains(state)).unwrap_or(last)
}

fn too_large(book: &[u8]) -> Vec<u8> {
    let other = unnamed(book, reference::LAST_STATE);
    renamed(book, |state| if state == reference::LAST_STATE + 1 { other } else { state })
}

fn widths_apart(book: &[u8]) -> Vec<u8> {
    // a low state and its other name have the same low byte
    let far = |state: u16| (1..16).map(|high| state + 256 * high).find(|&other| unnamed(book, other) == other);
    renamed(book, |state| if state < 256 { far(state).unwrap_or(state) } else { state })
}

fn twice_first(call: &Call, sound: Outcome) -> Outcome {
    let answer = Answer(sound.answer);
    if call.operation == Operation::LexBuiltin || answer.number() != 6 {
        return sound;
    }
    let place = answer.place() as usize;
    let read: Vec<Command> = reference::placed(&call.book[..place]).map(|(_, command)| command).collect();
    let rule = read.rsplit(|c| *c == Command::Close).next().unwrap_or(&read);
    let twice = match reference::placed(&call.book[place..]).next() {
        Some((_, Command::Start(..))) => rule.iter().any(|c| matches!(c, Command::Start(..))),
        Some((_, Command::Error(..))) => rule.iter().any(|c| matches!(c, Command::Error(..))),
        _ => false,
    };
    if twice {
        return Outcome { answer: 8 << 56 | place as u64, ..sound };
    }
    sound
}

fn widening(book: &[u8]) -> Vec<u8> {
    let wide = |c: &Command| match *c {
        Command::Final(_, state) => state > 255,
        Command::Span { from, .. } => from > 255,
        _ => false,
    };
    let all: Vec<Command> = reference::placed(book).map(|(_, command)| command).collect();
    let first = all.iter().position(wide).unwrap_or(0);
    let rule = all[..first].iter().rposition(|c| matches!(c, Command::Rule { .. })).unwrap_or(first);
    // in their place a state that plays no part
    let none = unnamed(book, 255);
    let lost = |(i, c): (usize, &Command)| match *c {
        Command::Final(width, _) if rule < i && i < first => Command::Final(width, none).bytes(),
        other => other.bytes(),
    };
    let mut bytes: Vec<u8> = all.iter().enumerate().flat_map(lost).collect();
    bytes.extend(&book[bytes.len()..]);
    bytes
}

/// An accepted cut with other masks, each made of its number and the mask that is due.
fn masked(call: &Call, mut outcome: Outcome, mut other: impl FnMut(usize, u32) -> u32) -> Outcome {
    let answer = Answer(outcome.answer);
    if is_cut(call) && answer.number() == 0 {
        let masks = outcome.cut_mut().1;
        let due = reference::masks_of(masks).into_iter().take(answer.first() as usize).enumerate();
        let stored: Vec<u8> = due.flat_map(|(i, mask)| other(i, mask).to_be_bytes()).collect();
        masks[..stored.len()].copy_from_slice(&stored);
    }
    outcome
}

/// The rules of a cut that is accepted.
fn rules_of(call: &Call) -> Vec<&[u8]> {
    reference::rules(if call.operation == Operation::LexBuiltin { BUILTIN } else { &call.book })
}

fn bits_turned(call: &Call, sound: Outcome) -> Outcome {
    let count = rules_of(call).len();
    masked(call, sound, |_, mask| mask.reverse_bits() >> (reference::BOOK_RULES - count))
}

fn bits_left(call: &Call, sound: Outcome) -> Outcome {
    let mut left = 0;
    masked(call, sound, |_, mask| {
        left |= mask;
        left
    })
}

/// Each rule is asked, as a book of its own, whether a cut of the token's bytes begins with a token.
fn shorter_too(library: &mut Library, call: &Call, against: Against, sound: Outcome) -> Result<Outcome, String> {
    let answer = Answer(sound.answer);
    if !is_cut(call) || answer.number() != 0 {
        return Ok(sound);
    }
    let mut masks = Vec::new();
    for token in reference::records_of(sound.cut().0).into_iter().take(answer.first() as usize) {
        let word = token.bytes(&call.text).expect("a token of the text");
        let mut mask = 0;
        for (k, rule) in rules_of(call).into_iter().enumerate() {
            let alone = [rule, &[reference::END]].concat();
            let (records, masks) = (vec![0; 10 * word.len()], vec![0; 4 * word.len()]);
            let begun = library.run(&Call::lex(&alone, word, records, masks), against)?;
            mask |= u32::from(Answer(begun.answer).first() > 0) << k;
        }
        masks.push(mask);
    }
    Ok(masked(call, sound, |i, _| masks[i]))
}

fn past_the_masks(call: &Call, mut outcome: Outcome) -> Outcome {
    let answer = Answer(outcome.answer);
    if is_cut(call) && answer.number() == 0 {
        let masks = outcome.cut_mut().1;
        if let Some(byte) = masks.get_mut(answer.first() as usize * reference::MASK_BYTES) {
            *byte ^= 1;
        }
    }
    outcome
}

/// The number of tokens that a cut is refused for by 15, and the cut with room for them.
fn with_room(
    library: &mut Library,
    call: &Call,
    against: Against,
    sound: &Outcome,
) -> Result<(usize, Outcome), String> {
    let need = Answer(sound.answer).place() as usize;
    let (records, masks) = (vec![0; need * reference::RECORD_BYTES], vec![0; need * reference::MASK_BYTES]);
    Ok((need, library.run(&Call { records, masks, ..call.clone() }, against)?))
}

/// A cut that is accepted although there are too few masks; as many of their bytes as there is room for are stored.
fn too_few_masks(
    library: &mut Library,
    call: &Call,
    against: Against,
    sound: Outcome,
    accepts: fn(usize, usize) -> bool,
) -> Result<Outcome, String> {
    if Answer(sound.answer).number() != 15 {
        return Ok(sound);
    }
    let (need, whole) = with_room(library, call, against, &sound)?;
    if call.records.len() / reference::RECORD_BYTES < need || !accepts(call.masks.len(), need) {
        return Ok(sound);
    }
    let mut outcome = Outcome { answer: whole.answer, ..sound };
    let (records, masks) = outcome.cut_mut();
    let (all_records, all_masks) = whole.cut();
    records[..all_records.len()].copy_from_slice(all_records);
    let fit = masks.len();
    masks.copy_from_slice(&all_masks[..fit]);
    Ok(outcome)
}

fn masks_touched(library: &mut Library, call: &Call, against: Against, sound: Outcome) -> Result<Outcome, String> {
    if Answer(sound.answer).number() != 15 {
        return Ok(sound);
    }
    let (_, whole) = with_room(library, call, against, &sound)?;
    let mut outcome = sound;
    let masks = outcome.cut_mut().1;
    let stored = whole.cut().1;
    let fit = (masks.len() / reference::MASK_BYTES * reference::MASK_BYTES).min(stored.len());
    masks[..fit].copy_from_slice(&stored[..fit]);
    Ok(outcome)
}
