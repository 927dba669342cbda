//! Request 10 of document 02, "An index of N numbers", written from the request: it builds every index afresh.
//!
//! A case is `TEXT K LINE NUMBERS` (text and line in hexadecimal, an empty one `-`): the text is indexed, its line K
//! replaced by LINE, and each of the numbers asked for after either. The answer is
//! `number count entries places number count entries places text`, an empty list `-`.

use crate::generate::Dice;
use crate::rules;
use std::collections::BTreeMap;

const LONGEST_TEXT: usize = 60_000;
const MOST_ENTRIES: usize = 2_000;

/// N number, first line from 1, first byte from 0.
type Index = BTreeMap<u32, (usize, usize)>;

/// "lines as for frames", each with its first byte and its end before the line end.
fn lines(text: &[u8]) -> Vec<(usize, usize)> {
    let (mut found, mut start) = (Vec::new(), 0);
    for (place, &byte) in text.iter().enumerate() {
        if byte == b'\n' {
            let returned = place > start && text[place - 1] == b'\r';
            found.push((start, place - usize::from(returned)));
            start = place + 1;
        }
    }
    if start < text.len() {
        found.push((start, text.len()));
    }
    found
}

/// "each N number on a line of right form and at most 256 bytes".
fn number_on(line: &[u8]) -> Option<u32> {
    if rules::form(line).0 != 0 {
        return None;
    }
    // No comment can stand before N in a line of right form.
    let bytes: Vec<u8> = line.iter().filter(|b| !b" \t".contains(b)).map(u8::to_ascii_uppercase).collect();
    let mut rest = &bytes[..];
    if let Some((b'/' | b'\\', after)) = rest.split_first() {
        rest = after;
        if rest.first() == Some(&b'[') {
            let mut open = 0;
            let end = rest.iter().position(|byte| {
                open += i32::from(*byte == b'[') - i32::from(*byte == b']');
                open == 0
            })?;
            rest = &rest[end + 1..];
        }
    }
    let digits = rest.strip_prefix(b"N")?;
    let many = digits.iter().take_while(|byte| byte.is_ascii_digit()).count();
    std::str::from_utf8(&digits[..many]).ok()?.parse().ok()
}

fn index_of(text: &[u8]) -> Index {
    let mut index = Index::new();
    for (before, &(start, end)) in lines(text).iter().enumerate() {
        if let Some(number) = number_on(&text[start..end]) {
            index.entry(number).or_insert((before + 1, start));
        }
    }
    index
}

/// "Refusals: 30 text too long, 31 more than 2,000 different numbers".
fn build(text: &[u8]) -> Result<Index, u32> {
    if text.len() > LONGEST_TEXT {
        return Err(30);
    }
    let index = index_of(text);
    if index.len() > MOST_ENTRIES {
        return Err(31);
    }
    Ok(index)
}

/// "32 the replacement's line doesn't exist, 33 its length differs or it holds a line feed or carriage return, in
/// the order 30, 32, 33, 31".
fn replace(text: &[u8], k: usize, line: &[u8]) -> Result<(Vec<u8>, Index), u32> {
    if text.len() > LONGEST_TEXT {
        return Err(30);
    }
    let all = lines(text);
    let &(start, end) = k.checked_sub(1).and_then(|before| all.get(before)).ok_or(32_u32)?;
    if line.len() != end - start || line.contains(&b'\n') || line.contains(&b'\r') {
        return Err(33);
    }
    let mut new = text.to_vec();
    new[start..end].copy_from_slice(line);
    let index = build(&new)?;
    Ok((new, index))
}

// ---------------------------------------------------------------- Cases and answers

fn hex(bytes: &[u8]) -> String {
    match bytes {
        [] => "-".to_string(),
        _ => bytes.iter().map(|byte| format!("{byte:02x}")).collect(),
    }
}

fn unhex(text: &str) -> Option<Vec<u8>> {
    if text == "-" {
        return Some(Vec::new());
    }
    (0..text.len()).step_by(2).map(|at| u8::from_str_radix(text.get(at..at + 2)?, 16).ok()).collect()
}

fn said(result: &Result<Index, u32>, asked: &[u32]) -> String {
    let empty = Index::new();
    let (number, index) = match result {
        Ok(index) => (0, index),
        Err(number) => (*number, &empty),
    };
    let entries: Vec<String> = index.iter().map(|(n, (line, start))| format!("{n}:{line}:{start}")).collect();
    let entries = if entries.is_empty() { "-".to_string() } else { entries.join(",") };
    let places = asked.iter().map(|n| index.get(n).copied().unwrap_or((0, 0)));
    let places: Vec<String> = places.map(|(line, start)| format!("{line}:{start}")).collect();
    format!("{number} {} {entries} {}", index.len(), places.join(","))
}

/// The answer of a case, or none if it is not written as one, or asks to bring up to date what has no index.
pub fn answer(case: &str) -> Option<String> {
    let fields: Vec<&str> = case.split(' ').collect();
    let [text, k, line, asked] = fields[..] else { return None };
    let (text, k, line) = (unhex(text)?, k.parse().ok()?, unhex(line)?);
    let asked: Vec<u32> = asked.split(',').map(|n| n.parse().ok()).collect::<Option<_>>()?;
    let built = build(&text);
    let replaced = match (&built, replace(&text, k, &line)) {
        (_, Err(number)) => Err(number),
        (Err(31), _) => return None,
        (_, Ok(both)) => Ok(both),
    };
    let (after, index) = match replaced {
        Ok((after, index)) => (after, Ok(index)),
        Err(number) => (text, Err(number)),
    };
    Some(format!("{} {} {}", said(&built, &asked), said(&index, &asked), hex(&after)))
}

// ---------------------------------------------------------------- Generated cases

/// A number as a label may write it: with noughts before it, blanks within it, in either case.
fn label(dice: &mut Dice, number: u32) -> Vec<u8> {
    let digits = match dice.below(4) {
        0 => format!("{number:05}"),
        1 => format!("{number:03}"),
        _ => format!("{number}"),
    };
    let mut text = vec![dice.pick(b"NNNn")];
    for digit in digits.bytes() {
        if dice.one_in(12) {
            text.push(dice.pick(b" \t"));
        }
        text.push(digit);
    }
    text
}

fn mark(dice: &mut Dice) -> &'static [u8] {
    dice.pick(&[&b""[..], b"", b"", b"", b"/", b" /", b"\\", b"/[1]", b"\\[#1+[2]]", b"/ [ABS[-1]]", b"/[[1]", b"/[1](c)"])
}

fn rest(dice: &mut Dice) -> &'static [u8] {
    dice.pick(&[&b""[..], b"", b"", b" X1", b"G1 X[1+2] Y#3", b" (N7)", b"(a) M5", b" X", b"N9", b" (", b" #1=2", b"G0Z.5.", b"%"])
}

fn line(dice: &mut Dice, range: u32) -> Vec<u8> {
    let mut text = Vec::new();
    if dice.one_in(5) {
        text.extend(dice.pick(&[&b""[..], b"G1 X1", b"(c)N5", b"N", b"N123456", b"N-1", b"X1 N5", b"%", b"N1.5", b"\rN5", b"N5\r"]));
    } else {
        text.extend(mark(dice));
        let number = dice.below(range as usize) as u32;
        text.extend(label(dice, number));
        text.extend(rest(dice));
    }
    if dice.one_in(25) {
        let long = 254 + dice.below(5);
        while text.len() < long {
            text.push(b' ');
        }
    }
    text
}

fn text(dice: &mut Dice) -> Vec<u8> {
    let mut text = Vec::new();
    let range = dice.pick(&[3, 8, 40, 400, 100_000]);
    let many = dice.pick(&[0, 1, 2, 5, 12, 40, 40, 120]);
    for _ in 0..many {
        text.extend(line(dice, range));
        text.extend(dice.pick(&[&b"\n"[..], b"\n", b"\n", b"\r\n", b"\r\n", b"\r\r\n"]));
    }
    if dice.one_in(2) {
        text.extend(line(dice, range));
    }
    text
}

/// As many different numbers as an index may have, or one more; falling, so that each is put in before the others.
fn full_text(dice: &mut Dice, numbers: u32) -> Vec<u8> {
    let turned = dice.one_in(2);
    let mut text = Vec::new();
    for place in 0..numbers {
        let number = if turned { numbers - place } else { 7 * place % 20_011 };
        text.extend(format!("N{number}\n").bytes());
    }
    text.extend(b"N7 (again)\nX1 (spare)\n");
    text
}

/// A text of so many bytes.
fn long_text(dice: &mut Dice, bytes: usize) -> Vec<u8> {
    let mut text = Vec::new();
    while text.len() < bytes {
        text.extend(line(dice, 900));
        text.push(b'\n');
    }
    text.truncate(bytes);
    text
}

/// A line of this length, most often; or one that does not fit.
fn new_line(dice: &mut Dice, long: usize, old: &[u8], range: u32) -> Vec<u8> {
    let mut new = match dice.below(6) {
        0 => old.to_vec(),
        1 => line(dice, range),
        _ => {
            let number = dice.below(range as usize) as u32;
            label(dice, number)
        }
    };
    if !dice.one_in(10) {
        new.truncate(long);
        while new.len() < long {
            new.push(b' ');
        }
    }
    if dice.one_in(15) && !new.is_empty() {
        let place = dice.below(new.len());
        new[place] = dice.pick(b"\n\r");
    }
    new
}

pub fn case(dice: &mut Dice, place: u64) -> String {
    let text = match place % 200 {
        17 | 177 => full_text(dice, 2_000),
        57 => full_text(dice, 2_001),
        97 => long_text(dice, LONGEST_TEXT),
        137 => long_text(dice, LONGEST_TEXT + 1),
        _ => text(dice),
    };
    let all = lines(&text);
    let k = if place % 200 == 177 { all.len() } else { dice.below(all.len() + 2) };
    let (start, end) = k.checked_sub(1).and_then(|before| all.get(before)).copied().unwrap_or((0, 0));
    let range = if all.len() > 500 { 30_000 } else { 40 };
    let new = match place % 200 {
        // a text that has no index has nothing to bring up to date
        57 => b"x\n".to_vec(),
        // one number more than an index may have
        177 => b"N99998    ".to_vec(),
        _ => new_line(dice, end - start, &text[start..end], range),
    };
    let mut asked: Vec<String> = (0..4).map(|_| dice.below(range as usize + 5).to_string()).collect();
    asked.extend(index_of(&text).keys().take(3).map(u32::to_string));
    asked.push("99999".to_string());
    format!("{} {k} {} {}", hex(&text), hex(&new), asked.join(","))
}
