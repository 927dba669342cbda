//! Ticket 13, old programs mended: the second program's own way, and programs to try it on. A comment's parentheses
//! are matched by a stack, and each repair makes a new line.

use crate::generate::{self, Dice};
use crate::rules::{self, ACCEPTED, LONGEST_LINE};
use std::io::{self, Write};

/// "It lists the line and the first byte that differs, both from 1, and which of the three."
enum Note {
    Mended { byte: usize, percent: bool, remark: bool, nested: bool },
    Unmended,
}

/// Writes the mended text, and its list in words.
pub fn mend(text: &[u8], out: &mut impl Write, list: &mut impl Write) -> io::Result<()> {
    for (number, (line, end)) in lines(text).into_iter().enumerate() {
        let (new, note) = mend_line(line);
        out.write_all(&new)?;
        out.write_all(end)?;
        if let Some(note) = note {
            writeln!(list, "line {}{}", number + 1, words(&note))?;
        }
    }
    Ok(())
}

fn words(note: &Note) -> String {
    let Note::Mended { byte, percent, remark, nested } = note else {
        return ": unmended".to_string();
    };
    let mut done = Vec::new();
    for (applied, repair) in
        [(percent, "line of one % emptied"), (remark, "remark made a comment"), (nested, "nested comments made one")]
    {
        if *applied {
            done.push(repair);
        }
    }
    format!(", byte {byte}: {}", done.join(", and "))
}

/// Every line with its end: a line feed, with one carriage return before it or without; or nothing, for a last line
/// that has a byte.
fn lines(text: &[u8]) -> Vec<(&[u8], &[u8])> {
    text.split_inclusive(|&byte| byte == b'\n')
        .map(|whole| {
            let end = if whole.ends_with(b"\r\n") {
                2
            } else {
                usize::from(whole.ends_with(b"\n"))
            };
            whole.split_at(whole.len() - end)
        })
        .collect()
}

/// "A line of right form and at most 256 bytes comes out unchanged and unlisted; one whose mended text is still wrong
/// or longer than 256 bytes is kept as it was and listed as unmended."
fn mend_line(line: &[u8]) -> (Vec<u8>, Option<Note>) {
    if rules::form(line).0 == ACCEPTED {
        return (line.to_vec(), None);
    }
    let emptied = without_percent(line);
    let remarked = with_comment(&emptied);
    let new = flat(&remarked);
    if rules::form(&new).0 != ACCEPTED {
        return (line.to_vec(), Some(Note::Unmended));
    }
    let same = line.iter().zip(&new).take_while(|(old, new)| old == new).count();
    let note =
        Note::Mended { byte: same + 1, percent: emptied != line, remark: remarked != emptied, nested: new != remarked };
    (new, Some(note))
}

/// "a line of one `%` and blanks becomes empty".
fn without_percent(line: &[u8]) -> Vec<u8> {
    let rest: Vec<u8> = line.iter().copied().filter(|byte| !b" \t".contains(byte)).collect();
    if rest == b"%" {
        Vec::new()
    } else {
        line.to_vec()
    }
}

/// "outside a comment, nested ones taken whole, `;` gives way to `(`, what follows stays with its parentheses turned
/// to square brackets, and `)` ends the line".
fn with_comment(line: &[u8]) -> Vec<u8> {
    let mut open = 0_usize;
    for (place, byte) in line.iter().enumerate() {
        match byte {
            b';' if open == 0 => {
                let mut new = line[..place].to_vec();
                new.push(b'(');
                new.extend(line[place + 1..].iter().map(|&byte| square(byte)));
                new.push(b')');
                return new;
            }
            b'(' => open += 1,
            b')' => open = open.saturating_sub(1),
            _ => {}
        }
    }
    line.to_vec()
}

/// "inner parentheses of a closed nested comment likewise."
fn flat(line: &[u8]) -> Vec<u8> {
    let (mut new, mut open) = (line.to_vec(), Vec::new());
    for place in 0..line.len() {
        match line[place] {
            b'(' => open.push(place),
            b')' => {
                // The outermost is closed here: all that stands between is inner.
                if let (Some(start), true) = (open.pop(), open.is_empty()) {
                    for byte in &mut new[start + 1..place] {
                        *byte = square(*byte);
                    }
                }
            }
            _ => {}
        }
    }
    new
}

fn square(byte: u8) -> u8 {
    match byte {
        b'(' => b'[',
        b')' => b']',
        _ => byte,
    }
}

// ---------------------------------------------------------------- Programs to mend

/// A program of lines that old archives hold, and of lines near the limits of each rule.
pub fn program(dice: &mut Dice) -> Vec<u8> {
    let mut text = Vec::new();
    for _ in 0..1 + dice.below(60) {
        let mut line = old_line(dice);
        if dice.one_in(4) {
            line = near_limit(dice, line);
        }
        line.retain(|byte| *byte != b'\n');
        text.extend(line);
        let end: &[u8] = if dice.one_in(20) { b"\r\r\n" } else { dice.pick(&[&b"\n"[..], b"\r\n"]) };
        text.extend(end);
    }
    if dice.one_in(3) {
        text.extend(old_line(dice).iter().filter(|byte| **byte != b'\n'));
    }
    text
}

fn old_line(dice: &mut Dice) -> Vec<u8> {
    let front = if dice.one_in(4) {
        generate::line(dice)
    } else {
        dice.pick(&[&b""[..], b"G1 X1", b"N5 G0 X1 (a) Y2", b"/M6", b"\\[#1] X2", b"#1=[2*3]", b"X1.234567"]).to_vec()
    };
    match dice.below(9) {
        0 => front,
        1 => [blanks(dice), b"%".to_vec(), blanks(dice), dice.pick(&[&b""[..], b"", b"", b"%", b"X", b"(a)"]).to_vec()].concat(),
        2 => [front, b";".to_vec(), remark(dice)].concat(),
        3 => [front, comment(dice)].concat(),
        4 => [front, comment(dice), b" ; ".to_vec(), remark(dice)].concat(),
        5 => [comment(dice), front, comment(dice)].concat(),
        6 => [front, b"(".to_vec(), remark(dice)].concat(),
        7 => [front, b"( a ; b )".to_vec(), remark(dice)].concat(),
        _ => (0..dice.below(24)).map(|_| dice.pick(b"((()));;%X1 \t[]a.\r\xFF")).collect(),
    }
}

fn blanks(dice: &mut Dice) -> Vec<u8> {
    let many = if dice.one_in(8) { 250 + dice.below(12) } else { dice.below(3) };
    (0..many).map(|_| dice.pick(b" \t")).collect()
}

/// What follows a `;`: words, with parentheses that need not match.
fn remark(dice: &mut Dice) -> Vec<u8> {
    (0..dice.below(30)).map(|_| dice.pick(b"to the end;() ")).collect()
}

/// A closed comment, nested to any depth, or now and then one that is not closed.
fn comment(dice: &mut Dice) -> Vec<u8> {
    let mut text = if dice.one_in(10) {
        let deep = 1 + dice.below(130);
        [b"(".repeat(deep), b"a".to_vec(), b")".repeat(deep)].concat()
    } else {
        nested(dice, 6)
    };
    if dice.one_in(8) {
        let place = dice.below(text.len());
        text.remove(place);
    }
    text
}

fn nested(dice: &mut Dice, deepest: usize) -> Vec<u8> {
    let mut text = b"(".to_vec();
    for _ in 0..1 + dice.below(3) {
        if deepest > 1 && dice.one_in(2) {
            text.extend(nested(dice, deepest - 1));
        } else {
            text.extend(dice.pick(&[&b""[..], b"a", b" b ", b";", b"c;d", b"[e]", b"\t"]));
        }
    }
    text.push(b')');
    text
}

/// The line made longer, by blanks outside comments, to between 254 and 258 bytes, before it is mended or after.
fn near_limit(dice: &mut Dice, mut line: Vec<u8>) -> Vec<u8> {
    let wanted = LONGEST_LINE - 2 + dice.below(5);
    while line.len() < wanted {
        line.insert(0, dice.pick(b" \t"));
    }
    line
}
