//! Where the form of a line breaks (ticket 2 of document 02), by the grammar's sentences as plain rules: each part of a
//! line has its ways to go on, and all ways are followed at once over the bytes as they were typed. Nothing of the
//! reader in `rules.rs` has a share in it.

use Part::*;

/// What a line is made of. The first four stand for one byte, all others for their ways.
#[derive(Clone, Copy, PartialEq, Eq)]
enum Part {
    Byte(u8),
    /// One of these bytes.
    Of(&'static [u8]),
    Digit,
    /// A byte within a comment: "bytes 32–126 or tab but no parenthesis".
    Remark,
    Spelled(&'static [u8]),
    Line,
    Condition,
    /// One digit, or more, but not more than so many.
    DigitsUpTo(u8),
    Items,
    Item,
    Remarks,
    Value,
    Expression,
    Rest,
    Operator,
    Number,
    Sign,
    Fraction,
    Digits,
}

/// The ways of a part, each a row of parts; none for a part that is one byte. Every part has a way to an end, so
/// whatever goes along some way is a beginning of a whole line.
fn ways(part: Part) -> Vec<Vec<Part>> {
    match part {
        // "line: optional `/`, optional N with one to five digits, then any number of items." Ticket 6: "a plain `\`",
        // and a condition after either mark.
        Line => vec![
            vec![Items],
            vec![Byte(b'N'), DigitsUpTo(5), Items],
            vec![Of(b"/\\"), Condition, Items],
            vec![Of(b"/\\"), Condition, Byte(b'N'), DigitsUpTo(5), Items],
        ],
        // Ticket 6: "`/[expression]` .. and `\[expression]`".
        Condition => vec![vec![], vec![Expression]],
        DigitsUpTo(1) => vec![vec![Digit]],
        DigitsUpTo(most) => vec![vec![Digit], vec![Digit, DigitsUpTo(most - 1)]],
        Items => vec![vec![], vec![Item, Items]],
        // "item: a word, a setting or a comment. Word: one of F G I J K L M P S T X Y Z, then a value. Setting: `#`
        // value `=` value." "comment: `(`, bytes 32–126 or tab but no parenthesis, `)`."
        Item => vec![
            vec![Of(b"FGIJKLMPSTXYZ"), Value],
            vec![Byte(b'#'), Value, Byte(b'='), Value],
            vec![Byte(b'('), Remarks, Byte(b')')],
        ],
        Remarks => vec![vec![], vec![Remark, Remarks]],
        _ => ways_of_values(part),
    }
}

fn ways_of_values(part: Part) -> Vec<Vec<Part>> {
    match part {
        // "value: a number; `#` value; ABS, FIX, FUP or ROUND followed by an expression; an expression."
        Value => vec![
            vec![Sign, Number],
            vec![Byte(b'#'), Value],
            vec![Spelled(b"ABS"), Expression],
            vec![Spelled(b"FIX"), Expression],
            vec![Spelled(b"FUP"), Expression],
            vec![Spelled(b"ROUND"), Expression],
            vec![Expression],
        ],
        // "expression: `[` value, then any number of (operator value), `]`. Operators `+ - * / MOD AND OR XOR`."
        Expression => vec![vec![Byte(b'['), Value, Rest, Byte(b']')]],
        Rest => vec![vec![], vec![Operator, Value, Rest]],
        Operator => vec![
            vec![Of(b"+-*/")],
            vec![Spelled(b"MOD")],
            vec![Spelled(b"AND")],
            vec![Spelled(b"OR")],
            vec![Spelled(b"XOR")],
        ],
        Spelled(text) => vec![text.iter().copied().map(Byte).collect()],
        // "number: optional sign, digits with at most one point, at least one digit."
        Sign => vec![vec![], vec![Of(b"+-")]],
        Number => vec![vec![Digit, Digits, Fraction], vec![Byte(b'.'), Digit, Digits]],
        Fraction => vec![vec![], vec![Byte(b'.'), Digits]],
        Digits => vec![vec![], vec![Digit, Digits]],
        _ => vec![],
    }
}

fn is_one_byte(part: Part) -> bool {
    matches!(part, Byte(_) | Of(_) | Digit | Remark)
}

/// Whether a part that is one byte is this one.
fn is(part: Part, byte: u8) -> bool {
    match part {
        Byte(own) => own == byte,
        Of(own) => own.contains(&byte),
        Digit => byte.is_ascii_digit(),
        _ => byte != b'(' && byte != b')' && (byte == b'\t' || (32..=126).contains(&byte)),
    }
}

/// What is still to come along one way, the next part last.
type Due = Vec<Part>;

/// Every way on from here, as far as its next byte or its end.
fn opened(all: Vec<Due>) -> Vec<Due> {
    let (mut waiting, mut opened) = (all, Vec::new());
    while let Some(mut due) = waiting.pop() {
        match due.pop() {
            Some(part) if !is_one_byte(part) => {
                let onward = |way: Vec<Part>| due.iter().copied().chain(way.into_iter().rev()).collect();
                waiting.extend(ways(part).into_iter().map(onward));
            }
            last => {
                due.extend(last);
                if !opened.contains(&due) {
                    opened.push(due);
                }
            }
        }
    }
    opened
}

/// "the number of bytes in the longest beginning of the line that some line of right form, of any length, also begins
/// with"; none for a line of right form. Outside comments blanks go along every way, and letters are raised.
pub fn place(line: &[u8]) -> Option<usize> {
    let (mut all, mut inside) = (opened(vec![vec![Line]]), false);
    for (place, &typed) in line.iter().enumerate() {
        if !inside && (typed == b' ' || typed == b'\t') {
            continue;
        }
        let byte = if inside { typed } else { typed.to_ascii_uppercase() };
        inside = if inside { byte != b')' } else { byte == b'(' };
        all.retain_mut(|due| due.pop().is_some_and(|next| is(next, byte)));
        if all.is_empty() {
            return Some(place);
        }
        all = opened(all);
    }
    let ended = all.iter().any(Vec::is_empty);
    (!ended).then_some(line.len())
}
