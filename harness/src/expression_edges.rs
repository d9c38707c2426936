//! Edges of expressions (document 02, wish 9). Of each it is said here what is answered, but where every byte is tried; the second
//! implementation is held to it.

use crate::calls::{refused, Answer, Call};
use crate::compiling::{as_long_as, parts_of_sets, with_moves};
use crate::edges::Add;
use crate::expressions::{self, is_listed, is_ordinary, Machine, DEPTH, EXPRESSION_BYTES, POSITIONS, SETS, SPECIAL};
use crate::reference::{self as paper, Refusal, BOOK_BYTES, RULE_MOVES};
use std::collections::BTreeSet;

pub fn expressions(add: Add) {
    rules(add);
    faults(add);
    tags(add);
    each_byte(add);
    changed(add);
    every_text(add);
    lengths(add);
    positions(add);
    depths(add);
    many_sets(add);
    many_moves(add);
}

/// Adds an expression with an output just enough, larger, a byte too short and none.
fn add_all(add: Add, name: &str, text: &[u8]) {
    match expressions::compile(1, 0, text, usize::MAX) {
        Ok(bytes) => {
            for room in [bytes.len(), bytes.len() + 3, bytes.len() - 1, 0] {
                add(name, Call::compile(1, 0, text, vec![0xEE; room]));
            }
        }
        Err(_) => {
            for room in [40, 0] {
                add(name, Call::compile(1, 0, text, vec![0xEE; room]));
            }
        }
    }
}

/// Adds one of which this number is answered; where it is not 0 at this place.
fn add_said(add: Add, name: &str, text: &[u8], number: u8, place: usize) {
    let said = expressions::compile(1, 0, text, usize::MAX).map_or_else(refused, |_| 0);
    let due = refused(Refusal { number, place });
    assert_eq!(said, due, "{name}, {}: {}", String::from_utf8_lossy(text), Answer(said));
    add_all(add, name, text);
}

// ---- Rules

/// Expressions with the final states and the SPANs of their rules.
fn rules(add: Add) {
    type Span = (u8, u8, u8, u8);
    let all: [(&[u8], &[u8], &[Span]); 34] = [
        (b"a", &[1], &[(0, b'a', b'a', 1)]),
        (b"]", &[1], &[(0, b']', b']', 1)]),
        (b"}", &[1], &[(0, b'}', b'}', 1)]),
        (b"-", &[1], &[(0, b'-', b'-', 1)]),
        (b"\n", &[1], &[(0, 10, 10, 1)]),
        (b"\xFF", &[1], &[(0, 255, 255, 1)]),
        (b"\\$", &[1], &[(0, b'$', b'$', 1)]),
        (b"\\\\", &[1], &[(0, b'\\', b'\\', 1)]),
        (b".", &[1], &[(0, 1, 9, 1), (0, 11, 255, 1)]),
        (b"[a]", &[1], &[(0, b'a', b'a', 1)]),
        (b"[a-a]", &[1], &[(0, b'a', b'a', 1)]),
        (b"[a-c]", &[1], &[(0, b'a', b'c', 1)]),
        (b"[cab]", &[1], &[(0, b'a', b'c', 1)]),
        (b"[d-eb-ca]", &[1], &[(0, b'a', b'e', 1)]),
        (b"[A-z]", &[1], &[(0, b'A', b'z', 1)]),
        (b"[\x01-\xFF]", &[1], &[(0, 1, 255, 1)]),
        (
            b"[.$()|*+?{]",
            &[1],
            &[(0, b'$', b'$', 1), (0, b'(', b'+', 1), (0, b'.', b'.', 1), (0, b'?', b'?', 1), (0, b'{', b'|', 1)],
        ),
        (b"ab", &[2], &[(0, b'a', b'a', 1), (1, b'b', b'b', 2)]),
        (b"a?", &[0, 1], &[(0, b'a', b'a', 1)]),
        (b"a*", &[0, 1], &[(0, b'a', b'a', 1), (1, b'a', b'a', 1)]),
        (b"a+", &[1], &[(0, b'a', b'a', 1), (1, b'a', b'a', 1)]),
        (b"(a?)*", &[0, 1], &[(0, b'a', b'a', 1), (1, b'a', b'a', 1)]),
        (b"((a*)+)?", &[0, 1], &[(0, b'a', b'a', 1), (1, b'a', b'a', 1)]),
        (b"(a)(b)", &[2], &[(0, b'a', b'a', 1), (1, b'b', b'b', 2)]),
        (b"a|b", &[1, 2], &[(0, b'a', b'a', 1), (0, b'b', b'b', 2)]),
        (b"b|a", &[1, 2], &[(0, b'a', b'a', 1), (0, b'b', b'b', 2)]),
        (b"a|a", &[1], &[(0, b'a', b'a', 1)]),
        (b"[a-b]|[c-d]", &[1, 2], &[(0, b'a', b'b', 1), (0, b'c', b'd', 2)]),
        (b"[a-cx]|b", &[1, 2], &[(0, b'a', b'a', 1), (0, b'b', b'b', 2), (0, b'c', b'c', 1), (0, b'x', b'x', 1)]),
        (b"aa|ba", &[3, 4], &[(0, b'a', b'a', 1), (0, b'b', b'b', 2), (1, b'a', b'a', 3), (2, b'a', b'a', 4)]),
        // longer strings come later, also those that begin lower
        (b"aab|c", &[2, 4], &[(0, b'a', b'a', 1), (0, b'c', b'c', 2), (1, b'a', b'a', 3), (3, b'b', b'b', 4)]),
        (
            b"a.|ab",
            &[2, 3],
            &[(0, b'a', b'a', 1), (1, 1, 9, 2), (1, 11, b'a', 2), (1, b'b', b'b', 3), (1, b'c', 255, 2)],
        ),
        (
            b"(a|b)*b",
            &[2],
            &[
                (0, b'a', b'a', 1),
                (0, b'b', b'b', 2),
                (1, b'a', b'a', 1),
                (1, b'b', b'b', 2),
                (2, b'a', b'a', 1),
                (2, b'b', b'b', 2),
            ],
        ),
        (
            b"(a|b?)+c",
            &[3],
            &[
                (0, b'a', b'a', 1),
                (0, b'b', b'b', 2),
                (0, b'c', b'c', 3),
                (1, b'a', b'a', 1),
                (1, b'b', b'b', 2),
                (1, b'c', b'c', 3),
                (2, b'a', b'a', 1),
                (2, b'b', b'b', 2),
                (2, b'c', b'c', 3),
            ],
        ),
    ];
    for (text, finals, spans) in all {
        let mut due = vec![paper::RULE, 0, 1, 0, paper::START, 0, paper::ERROR, 255];
        due.extend(finals.iter().flat_map(|&state| [paper::FINAL, state]));
        due.extend(spans.iter().flat_map(|&(from, low, high, to)| [paper::SPAN, from, low, high, to]));
        due.push(paper::CLOSE);
        let said = expressions::compile(1, 0, text, due.len());
        assert_eq!(said, Ok(due), "{}", String::from_utf8_lossy(text));
        add_all(add, "an expression", text);
    }
}

/// Texts outside of this part, with the place of 30.
fn faults(add: Add) {
    let all: [(&[u8], usize); 62] = [
        (b"", 0),
        (b"a|", 2),
        (b"|a", 0),
        (b"|", 0),
        (b"a||b", 2),
        (b"a|*", 2),
        (b"()", 1),
        (b"(", 1),
        (b")", 0),
        (b"a)", 1),
        (b"(a", 2),
        (b"((a)", 4),
        (b"(a))", 3),
        (b"(a|)", 3),
        (b"(|a)", 1),
        (b"(a)|", 4),
        (b"*a", 0),
        (b"(*a)", 1),
        (b"a**", 2),
        (b"a*+", 2),
        (b"a+?", 2),
        (b"a?*b", 2),
        (b".**", 2),
        (b"[a]??", 4),
        (b"(a)*?", 4),
        (b"\\.+*", 3),
        (b"(a*)**", 5),
        (b"[", 1),
        (b"[]", 1),
        (b"[]a]", 1),
        (b"[a", 2),
        (b"[a-", 3),
        (b"[a-c", 4),
        (b"[^a]", 1),
        (b"[a^]", 2),
        (b"[-a]", 1),
        (b"[a-]", 3),
        (b"[b-a]", 3),
        (b"[a-c-d]", 4),
        (b"[a-c-]", 4),
        (b"[a--]", 3),
        (b"[a-\0]", 3),
        (b"[a-[]", 3),
        (b"[A-\\]", 3),
        (b"[A-^]", 3),
        (b"[[:alpha:]]", 1),
        (b"[a[:alpha:]]", 2),
        (b"[a\\]", 2),
        (b"[\0]", 1),
        (b"[a\0]", 2),
        (b"[\xFF-\xFE]", 3),
        (b"^a", 0),
        (b"a$", 1),
        (b"a^", 1),
        (b"a{2}", 1),
        (b"{", 0),
        (b"\\", 1),
        (b"\\a", 1),
        (b"\\]", 1),
        (b"\\}", 1),
        (b"\0", 0),
        (b"a\0", 1),
    ];
    for (text, place) in all {
        add_said(add, "outside of this part", text, 30, place);
    }
}

fn tags(add: Add) {
    let long = vec![b'a'; EXPRESSION_BYTES + 1];
    for tag in [0, 1, 2, 255, 256, 0x0102, 65_535] {
        for kind in [0, 1, 2, 255, 256, 1 << 16, u32::MAX] {
            for text in [&b"a"[..], b"a*b|c", b"", b"a(", &long] {
                for room in [0, 15, 60] {
                    let call = Call::compile(tag, kind, text, vec![0xEE; room]);
                    let said = Answer(crate::calls::expected(&call).answer).number();
                    assert_eq!(said == 6, tag == 0 || kind > 1, "tag {tag}, kind {kind}");
                    add("tags and kinds", call);
                }
            }
        }
    }
}

/// Each byte behind the beginnings of expressions, as their end and with a right end behind it.
fn each_byte(add: Add) {
    let fronts: [&[u8]; 17] = [
        b"", b"a", b"a*", b"a|", b"\\", b"[", b"[a", b"[b-", b"[\xF0-", b"[a-b", b"[a]", b"(", b"(a", b"(a)", b"(a*",
        b".", b"a\\*",
    ];
    let ends: [&[u8]; 7] = [b"", b"a", b"]", b"-z]", b")", b"a)", b"]*)"];
    for front in fronts {
        for byte in 0..=255u8 {
            for end in ends {
                let text = [front, &[byte], end].concat();
                add("each byte in an expression", Call::compile(1, 0, &text, vec![0xEE; 60]));
            }
        }
    }
}

/// Expressions with each byte changed to each value, lost and doubled, and cut off at each byte.
fn changed(add: Add) {
    let all: [&[u8]; 5] =
        [b"(a|b)*c+[d-fx]?", b"\\[[0-9][0-9]:.\\]", b"((a?b)|[c-e]*)+.", b"a.b|\\$[!-/]", b"[^]a{2}$"];
    for text in all {
        for at in 0..text.len() {
            for byte in 0..=255u8 {
                let mut other = text.to_vec();
                other[at] = byte;
                add("an expression with a byte changed", Call::compile(2, 1, &other, vec![0xEE; 200]));
            }
            let lost = [&text[..at], &text[at + 1..]].concat();
            let doubled = [&text[..=at], &text[at..]].concat();
            for other in [lost, doubled, text[..at].to_vec(), text[at..].to_vec()] {
                add_all(add, "an expression with a byte lost or doubled, or cut off", &other);
            }
        }
    }
}

/// Every text of up to four bytes of an alphabet; the right ones are those that are made of right parts. A text of two bytes that has its
/// fault in them begins none of up to five, and what stands before the fault begins one.
fn every_text(add: Add) {
    const ALPHABET: &[u8] = b"ab()|*[]-\\.";
    let right = all_right(ALPHABET, 4);
    let longer = all_right(ALPHABET, 5);
    let beginnings: BTreeSet<&[u8]> = longer.iter().flat_map(|e| (0..=2.min(e.len())).map(move |n| &e[..n])).collect();
    let mut texts: Vec<Vec<u8>> = vec![Vec::new()];
    let mut at = 0;
    while at < texts.len() {
        let text = texts[at].clone();
        at += 1;
        let (_, fault) = Machine::read(&text);
        assert_eq!(fault.is_none(), right.contains(&text), "{}", String::from_utf8_lossy(&text));
        if text.len() <= 2 {
            let good = fault.unwrap_or(text.len());
            assert!(beginnings.contains(&text[..good]), "{}", String::from_utf8_lossy(&text));
            assert!(good == text.len() || !beginnings.contains(&text[..=good]), "{}", String::from_utf8_lossy(&text));
        }
        add("every short text", Call::compile(1, 0, &text, vec![0xEE; 60]));
        if text.len() < 4 {
            texts.extend(ALPHABET.iter().map(|&b| [&text[..], &[b]].concat()));
        }
    }
}

type Texts = BTreeSet<Vec<u8>>;

/// Each text of one set before each of the other, with these bytes between them.
fn joined(fronts: &Texts, between: &[u8], backs: &Texts) -> Texts {
    fronts.iter().flat_map(|front| backs.iter().map(move |back| [&front[..], between, back].concat())).collect()
}

/// All right expressions of up to so many bytes of an alphabet that has no + and ?, by what they are made of. What has length n is
/// made of what is shorter, which stands before it.
fn all_right(alphabet: &[u8], length: usize) -> Texts {
    let of = |takes: &dyn Fn(u8) -> bool| alphabet.iter().filter(|b| takes(**b)).map(|&b| vec![b]).collect::<Texts>();
    let listed = of(&is_listed);
    let ranges: Texts = joined(&listed, b"-", &listed).into_iter().filter(|range| range[0] <= range[2]).collect();
    let single = of(&|byte| is_ordinary(byte) || byte == b'.');
    let escaped = joined(&Texts::from([vec![b'\\']]), b"", &of(&|byte| SPECIAL.contains(&byte)));
    let [mut items, mut pieces, mut sequences, mut right] = [(); 4].map(|_| vec![Texts::new(); length + 1]);
    let mut unrepeated = vec![Texts::new(); length + 1];
    for n in 1..=length {
        items[n] = match n {
            1 => listed.clone(),
            3 => ranges.clone(),
            _ => Texts::new(),
        };
        for (size, part) in [(1, &listed), (3, &ranges)] {
            let longer = if n > size { joined(part, b"", &items[n - size]) } else { Texts::new() };
            items[n].extend(longer);
        }
        unrepeated[n] = match n {
            1 => single.clone(),
            2 => escaped.clone(),
            _ => {
                let lists = items[n - 2].iter().map(|list| [b"[", &list[..], b"]"].concat());
                lists.chain(right[n - 2].iter().map(|inner| [b"(", &inner[..], b")"].concat())).collect()
            }
        };
        pieces[n] =
            unrepeated[n].iter().cloned().chain(unrepeated[n - 1].iter().map(|p| [&p[..], b"*"].concat())).collect();
        sequences[n] = pieces[n].clone();
        for k in 1..n {
            let longer = joined(&pieces[k], b"", &sequences[n - k]);
            sequences[n].extend(longer);
        }
        right[n] = sequences[n].clone();
        for k in 1..n.saturating_sub(1) {
            let longer = joined(&sequences[k], b"|", &right[n - k - 1]);
            right[n].extend(longer);
        }
    }
    right.into_iter().flatten().collect()
}

// ---- Limits

/// 511 to 513 bytes, right ones and others.
fn lengths(add: Add) {
    for length in EXPRESSION_BYTES - 1..=EXPRESSION_BYTES + 1 {
        let over = length > EXPRESSION_BYTES;
        let fill = |front: &[u8], byte: u8, back: &[u8]| {
            [front, &vec![byte; length - front.len() - back.len()], back].concat()
        };
        let texts: [(Vec<u8>, u8, usize); 10] = [
            (fill(b"[", b'a', b"]"), 0, 0),
            (fill(b"[a-z", b'b', b"]*b"), 0, 0),
            (fill(b"", b'a', b""), 31, 0),
            (fill(b"(", b'a', b"("), 30, length),
            (fill(b"*", b'a', b""), 30, 0),
            (fill(b"[", b'a', b"\0"), 30, length - 1),
            (fill(b"[", b'a', b"*"), 30, length),
            (fill(b"", b'(', b""), 30, length),
            (fill(b"", b'a', b"|"), 30, length),
            (fill(b"[", b'a', b"]**"), 30, length - 1),
        ];
        for (text, number, place) in texts {
            let (number, place) = if over { (31, 0) } else { (number, place) };
            add_said(add, &format!("{length} bytes"), &text, number, place);
        }
    }
    for length in [1_024, 65_536, 70_000] {
        add_said(add, &format!("{length} bytes"), &vec![b'a'; length], 31, 0);
    }
}

/// 63 to 66 positions of each kind, and of one or several sets.
fn positions(add: Add) {
    for count in POSITIONS - 1..=POSITIONS + 2 {
        let number = if count > POSITIONS { 31 } else { 0 };
        let name = format!("{count} positions");
        let one: [&[u8]; 12] =
            [b"a", b".", b"[ab]", b"\\.", b"(a)", b"a?", b"[a-c]*", b"(a)+", b"]", b"[a-zA]", b"\\*?", b"\xFF"];
        for piece in one {
            let text = piece.repeat(count);
            add_said(add, &name, &text, number, 0);
            // the place of a fault behind it
            for end in [&b"("[..], b"|", b"[", b"\\"] {
                let text = [&text[..], end].concat();
                add_said(add, &name, &text, 30, text.len());
            }
            for end in [&b")"[..], b"a**", b"{1}"] {
                let place = text.len() + if end == b"a**" { 2 } else { 0 };
                add_said(add, &name, &[&text[..], end].concat(), 30, place);
            }
            add_said(add, &name, &[b"*", &text[..]].concat(), 30, 0);
        }
        let different: Vec<Vec<u8>> = (0..count).map(|i| vec![0x80 + i as u8]).collect();
        add_said(add, &name, &different.join(&b'|'), number, 0);
        add_said(add, &name, &[b"(", &different.join(&b'|')[..], b")*"].concat(), number, 0);
        add_said(add, &name, &vec![b"a".to_vec(); count].join(&b'|'), number, 0);
        // the same bytes at the same places: one set for each length
        add_said(add, &name, &[&b"a".repeat(count / 2)[..], b"|", &b"a".repeat(count - count / 2)].concat(), number, 0);
    }
}

/// Parentheses 15 to 18 deep.
fn depths(add: Add) {
    for depth in DEPTH - 1..=DEPTH + 2 {
        let number = if depth > DEPTH { 31 } else { 0 };
        let name = format!("parentheses {depth} deep");
        let nest = |inner: &[u8]| [&b"(".repeat(depth)[..], inner, &b")".repeat(depth)].concat();
        for inner in [&b"a"[..], b"a|b", b"(a", b"[(]", b"\\(", b"a*", b"."] {
            if inner == b"(a" {
                let text = nest(inner);
                add_said(add, &name, &text, 30, text.len());
                continue;
            }
            let text = nest(inner);
            add_said(add, &name, &text, number, 0);
            add_said(add, &name, &[&text[..], &text].concat(), number, 0);
            add_said(add, &name, &[b"b|", &text[..], b"+c"].concat(), number, 0);
            for (end, more) in [(&b")"[..], 0), (b"|", 1), (b"**", 1), (b"(", 1), (b"$", 0)] {
                add_said(add, &name, &[&text[..], end].concat(), 30, text.len() + more);
            }
        }
        let open = [&b"(".repeat(depth)[..], b"a"].concat();
        add_said(add, &name, &open, 30, open.len());
        add_said(add, &name, &b"(".repeat(depth), 30, depth);
        let starred = [&b"(".repeat(depth)[..], b"a", &b")*".repeat(depth)].concat();
        add_said(add, &name, &starred, number, 0);
        // as many parentheses one behind the other are not deep
        add_said(add, &name, &b"(a)".repeat(depth), 0, 0);
        let both = [&nest(b"a")[..], &b"a".repeat(POSITIONS)].concat();
        add_said(add, &name, &both, 31, 0);
    }
}

/// 252 to 258 sets.
fn many_sets(add: Add) {
    for count in SETS - 2..=SETS + 4 {
        let number = if count > SETS { 32 } else { 0 };
        let name = format!("{count} sets");
        let mut parts = parts_of_sets(count);
        for turned in [1, 3] {
            let by = turned % parts.len();
            parts.rotate_left(by);
            let text = parts.join(&b'|');
            assert_eq!(expressions::tree(&text).map(|tree| expressions::sets(&tree)), Ok(count));
            add_said(add, &name, &text, number, 0);
        }
        let text = parts.join(&b'|');
        let group = [b"(", &text[..], b")"].concat();
        add_said(add, &name, &group, number, 0);
        add_said(add, &name, &[&group[..], b"?"].concat(), number, 0);
        add_said(add, &name, &[&text[..], b"|"].concat(), 30, text.len() + 1);
        // 31 before 32, and 32 before 22
        let positions = [&text[..], &b"|\x80".repeat(POSITIONS)].concat();
        add_said(add, &name, &positions, 31, 0);
    }
    for places in [6, 7, 20, 62] {
        let text = [b"[ab]*a", &b"[ab]".repeat(places)[..]].concat();
        add_said(add, "sets by the last bytes", &text, if places > 6 { 32 } else { 0 }, 0);
    }
}

/// 4,095 to 4,098 moves and books of 65,534 to 65,539 bytes; also where the empty string is matched.
fn many_moves(add: Add) {
    for moves in RULE_MOVES - 1..=RULE_MOVES + 2 {
        let text = with_moves(moves);
        let table = expressions::table(1, 0, &text).expect("it is accepted");
        assert_eq!(table.spans().len(), moves);
        add_said(add, &format!("{moves} moves"), &text, 0, 0);
        add_said(add, &format!("{moves} moves, and the empty string"), &[b"(", &text[..], b")?"].concat(), 0, 0);
    }
    for length in BOOK_BYTES - 2..=BOOK_BYTES + 3 {
        let text = as_long_as(length);
        let bytes = expressions::compile(1, 0, &text, usize::MAX).expect("it is accepted");
        assert_eq!(bytes.len() + 1, length);
        add_said(add, &format!("a book of {length} bytes"), &text, 0, 0);
        // with FINAL 0
        add_said(add, &format!("a book of {} bytes", length + 2), &[b"(", &text[..], b")?"].concat(), 0, 0);
    }
}
