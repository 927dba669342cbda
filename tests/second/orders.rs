//! Ticket 14: "any line of at most 256 bytes made by rearranging its words, with block delete mark, condition and line
//! number staying first and settings keeping their order among themselves, is accepted too, with the same commands,
//! record and table. Comments may move." Pairs of cases: an accepted line, and a line rearranged from it.

use crate::cases::{self, Case};
use crate::examples::{five_items_in_every_order, usual};
use crate::generate::{self, Dice};
use crate::rules::{self, LONGEST_LINE};
use std::io::{self, Write};

#[derive(Clone, Copy, PartialEq)]
enum Kind {
    Word,
    Setting,
    Comment,
}

#[derive(Clone, Copy)]
struct Item<'a> {
    kind: Kind,
    text: &'a [u8],
}

/// What a line of right form is made of, as it was typed: what stays first, and the items.
struct Parts<'a> {
    first: &'a [u8],
    items: Vec<Item<'a>>,
}

// ---------------------------------------------------------------- The parts of a line

struct Typed<'a> {
    line: &'a [u8],
    place: usize,
}

impl<'a> Typed<'a> {
    /// The next byte that is not blank.
    fn next(&mut self) -> Option<u8> {
        while self.line.get(self.place).is_some_and(|byte| b" \t".contains(byte)) {
            self.place += 1;
        }
        self.line.get(self.place).copied()
    }

    /// Passes over bytes as long as they are wanted.
    fn pass(&mut self, wanted: impl Fn(u8) -> bool) {
        while self.next().is_some_and(&wanted) {
            self.place += 1;
        }
    }

    fn expression(&mut self) {
        let mut open = 0;
        while let Some(byte) = self.next() {
            self.place += 1;
            open += i32::from(byte == b'[') - i32::from(byte == b']');
            if open == 0 {
                return;
            }
        }
    }

    fn value(&mut self) {
        self.pass(|byte| byte == b'#');
        if self.next().is_some_and(|byte| byte == b'[' || byte.is_ascii_alphabetic()) {
            self.pass(|byte| byte.is_ascii_alphabetic());
            self.expression();
        } else {
            self.pass(|byte| b"+-.0123456789".contains(&byte));
        }
    }

    fn first(&mut self) -> &'a [u8] {
        if self.next().is_some_and(|byte| b"/\\".contains(&byte)) {
            self.place += 1;
            if self.next() == Some(b'[') {
                self.expression();
            }
        }
        if self.next().is_some_and(|byte| b"Nn".contains(&byte)) {
            self.place += 1;
            self.pass(|byte| byte.is_ascii_digit());
        }
        &self.line[..self.place]
    }

    fn item(&mut self) -> Option<Item<'a>> {
        let (opening, begun) = (self.next()?, self.place);
        self.place += 1;
        let kind = match opening {
            b'(' => {
                self.place += self.line[self.place..].iter().take_while(|byte| **byte != b')').count() + 1;
                Kind::Comment
            }
            b'#' => {
                self.value();
                self.pass(|byte| byte == b'=');
                self.value();
                Kind::Setting
            }
            _ => {
                self.value();
                Kind::Word
            }
        };
        Some(Item { kind, text: &self.line[begun..self.place] })
    }
}

fn parts(line: &[u8]) -> Parts<'_> {
    let mut typed = Typed { line, place: 0 };
    let first = typed.first();
    Parts { first, items: std::iter::from_fn(|| typed.item()).collect() }
}

impl Parts<'_> {
    fn count(&self, kind: Kind) -> usize {
        self.items.iter().filter(|item| item.kind == kind).count()
    }

    fn written(&self, items: &[Item], gap: &[u8]) -> Vec<u8> {
        let mut line = self.first.to_vec();
        for item in items {
            line.extend(gap);
            line.extend(item.text);
        }
        line
    }

    /// The items in any order, but the settings in their own among themselves; sometimes the comments left out, or
    /// one more.
    fn rearranged(&self, dice: &mut Dice) -> Vec<u8> {
        let mut items = self.items.clone();
        dice.shuffle(&mut items);
        let mut settings = self.items.iter().filter(|item| item.kind == Kind::Setting);
        for item in items.iter_mut().filter(|item| item.kind == Kind::Setting) {
            *item = *settings.next().expect("there are as many as before");
        }
        let bare = self.written(&items, b"");
        match dice.below(6) {
            0 => items.retain(|item| item.kind != Kind::Comment),
            1 => items.insert(dice.below(items.len() + 1), Item { kind: Kind::Comment, text: b"(moved)" }),
            _ => {}
        }
        let line = self.written(&items, dice.pick(&[&b""[..], b" ", b"\t", b"  "]));
        if line.len() <= LONGEST_LINE {
            line
        } else {
            bare
        }
    }
}

// ---------------------------------------------------------------- Pairs

/// How many of the pairs have what makes them worth comparing.
#[derive(Default)]
struct Count {
    pairs: usize,
    words: usize,
    settings: usize,
    comments: usize,
    firsts: usize,
}

impl Count {
    fn add(&mut self, parts: &Parts) {
        self.pairs += 1;
        self.words += usize::from(parts.count(Kind::Word) >= 2);
        self.settings += usize::from(parts.count(Kind::Setting) >= 2);
        self.comments += usize::from(parts.count(Kind::Comment) >= 1);
        self.firsts += usize::from(!parts.first.trim_ascii().is_empty());
    }

    /// Three in four must have two words or more, and one in fifty each of the others.
    fn enough(&self) -> bool {
        let others = [self.settings, self.comments, self.firsts];
        4 * self.words >= 3 * self.pairs && others.iter().all(|times| 50 * times >= self.pairs)
    }
}

/// So many pairs from generated lines that are accepted, and how they are made up, on standard error; false if too
/// few of them have two words or more, two settings or more, a comment, or a mark or line number.
pub fn write_pairs(dice: &mut Dice, wanted: usize, out: &mut impl Write) -> io::Result<bool> {
    let mut count = Count::default();
    while count.pairs < wanted {
        let case = generate::case(dice);
        if cases::work(&case).number != u64::from(rules::ACCEPTED) {
            continue;
        }
        let parts = parts(&case.line);
        let line = parts.rearranged(dice);
        if line != case.line {
            count.add(&parts);
            write_pair(&case, line, out)?;
        }
    }
    let Count { pairs, words, settings, comments, firsts } = count;
    let most = format!("{words} of them with two or more words, {settings} with two or more settings");
    eprintln!("orders: {pairs} lines rearranged, {most}, {comments} with a comment, {firsts} with a mark or line number");
    Ok(count.enough())
}

fn write_pair(case: &Case, line: Vec<u8>, out: &mut impl Write) -> io::Result<()> {
    writeln!(out, "{}", case.text())?;
    let (changes, record) = (case.changes.clone(), case.record);
    writeln!(out, "{}", Case { line, changes, record, ..*case }.text())
}

/// NGC's line of five items in its 120 orders, each beside the first; with its G1, which is 10 in all of them, and
/// with G80 in its place, so that it is accepted.
pub fn write_five_items(out: &mut impl Write) -> io::Result<()> {
    for motion in ["g1", "g80"] {
        let lines = five_items_in_every_order(motion);
        for line in &lines {
            write_pair(&usual(lines[0].as_bytes()), line.clone().into_bytes(), out)?;
        }
    }
    Ok(())
}

/// Lines beside what may not be made of them: two settings of one parameter exchanged, a mark, condition or line
/// number not first, more than 256 bytes; and a refused line, of which nothing is promised: the first number that is
/// met in it is another.
const WRONG: [(&str, &str); 8] = [
    ("#1=1 #1=2", "#1=2 #1=1"),
    ("G0 #1=1 X2 #1=[1+1]", "X2 #1=[1+1] #1=1 G0"),
    ("/G0 X1", "G0 X1 /"),
    ("/[1] G0 X1", "G0 X1 /[1]"),
    ("\\[0] G0 X1", "G0 \\[0] X1"),
    ("N10 G0 X1", "G0 N10 X1"),
    ("X[1/0] Y#0", "Y#0 X[1/0]"),
    ("X1.5 Y100000 Z[1/0]", "X1.5 Z[1/0] Y100000"),
];

pub fn write_wrong_pairs(out: &mut impl Write) -> io::Result<()> {
    for (line, other) in WRONG {
        write_pair(&usual(line.as_bytes()), other.as_bytes().to_vec(), out)?;
    }
    let long = [b"M3".to_vec(), vec![b' '; LONGEST_LINE - 3], b"S1".to_vec()].concat();
    write_pair(&usual(b"S1 M3"), long, out)
}
