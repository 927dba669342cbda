//! The rules of document 01, "Build requirements and exact rules", one sentence at a time, with the requests of
//! document 02 that have landed; a sentence of theirs is quoted with its ticket.
//! The order of this file is the order of the document: what the control takes, grammar,
//! arithmetic, codes, the words a line needs, the order within an accepted line, the numbers.
//!
//! Values are ten-thousandths of a program unit, lengths are counts of 10 nm, and a code is held
//! as ten times what is written (G59.1 is 591).

use crate::places;
use std::iter::repeat;

// ---------------------------------------------------------------- What the control takes

/// "Values reach ±99,999.9999", in ten-thousandths.
pub const VALUE_LIMIT: i64 = 999_999_999;
/// "positions, centres, origins and offsets ±1,000,000,000 counts".
pub const REACH: i64 = 1_000_000_000;
/// "more than 256 bytes" is number 2.
pub const LONGEST_LINE: usize = 256;
/// "a table of 5,000 parameter values (entry 0 unused)".
pub const TABLE_LENGTH: usize = 5_000;
/// Ticket 12: "Nesting, of `[` and `#` one within another in the derivation .., is limited to 24."
pub const DEEPEST_NESTING: usize = 24;
/// "Acceptance carries number 0 and a skip 100."
pub const ACCEPTED: u8 = 0;
pub const SKIPPED: u8 = 100;
/// "Commands are eight numbers each".
pub const COMMAND_LENGTH: usize = 8;

/// "feed 0–253,999,999,746": the greatest F under G20.
const FEED_LIMIT: i64 = 253_999_999_746;
/// One, and one half, in ten-thousandths.
const ONE: i64 = 10_000;
const HALF: i64 = 5_000;

const AXIS_LETTERS: [u8; 3] = *b"XYZ";
const OFFSET_LETTERS: [u8; 3] = *b"IJK";
/// "12: 54 55 56 57 58 59 59.1 59.2 59.3", the nine systems in the order of their origins.
const SYSTEMS: [i64; 9] = [540, 550, 560, 570, 580, 590, 591, 592, 593];

/// "position X Y Z; nine origins; G92 offset; motion, plane, distance, units, system; feed; speed;
/// selected tool; spindle 0–2; coolant 0–3 (mist 1, flood 2, added)".
#[derive(Clone, Debug, PartialEq, Eq)]
pub struct Record {
    pub position: [i64; 3],
    pub origins: [i64; 27],
    pub offset: [i64; 3],
    pub motion: i64,
    pub plane: i64,
    pub distance: i64,
    pub units: i64,
    pub system: i64,
    pub feed: i64,
    pub speed: i64,
    pub tool: i64,
    pub spindle: i64,
    pub coolant: i64,
}

impl Record {
    /// "Fresh: zeros, G80 G17 G90 G21 G54."
    pub fn fresh() -> Record {
        let mut numbers = [0; 43];
        numbers[33..38].copy_from_slice(&[800, 170, 900, 210, 540]);
        Record::from_numbers(&numbers)
    }

    pub fn to_numbers(&self) -> [i64; 43] {
        let mut numbers = [0; 43];
        numbers[0..3].copy_from_slice(&self.position);
        numbers[3..30].copy_from_slice(&self.origins);
        numbers[30..33].copy_from_slice(&self.offset);
        numbers[33..38].copy_from_slice(&[self.motion, self.plane, self.distance, self.units, self.system]);
        numbers[38..43].copy_from_slice(&[self.feed, self.speed, self.tool, self.spindle, self.coolant]);
        numbers
    }

    pub fn from_numbers(numbers: &[i64; 43]) -> Record {
        let mut origins = [0; 27];
        origins.copy_from_slice(&numbers[3..30]);
        Record {
            position: [numbers[0], numbers[1], numbers[2]],
            origins,
            offset: [numbers[30], numbers[31], numbers[32]],
            motion: numbers[33],
            plane: numbers[34],
            distance: numbers[35],
            units: numbers[36],
            system: numbers[37],
            feed: numbers[38],
            speed: numbers[39],
            tool: numbers[40],
            spindle: numbers[41],
            coolant: numbers[42],
        }
    }

    /// The origin of the system in force, on one axis.
    pub fn origin(&self, axis: usize) -> i64 {
        self.origins[3 * system_place(self.system) + axis]
    }
}

/// Where a system stands among the nine: G54 is 0, G59 is 5, G59.1 is 6.
pub fn system_place(system: i64) -> usize {
    SYSTEMS.iter().position(|&other| other == system).unwrap_or(0)
}

/// Number 1: "table length is not 5,000, or a record field is outside its range".
fn in_order(record: &Record, table: &[i64]) -> bool {
    let lengths = record.position.iter().chain(&record.origins).chain(&record.offset);
    table.len() == TABLE_LENGTH
        && lengths.copied().all(in_reach)
        && (0..=FEED_LIMIT).contains(&record.feed)
        && (0..=VALUE_LIMIT).contains(&record.speed)
        && (0..=99).contains(&record.tool)
        && (0..=2).contains(&record.spindle)
        && (0..=3).contains(&record.coolant)
        && g_group(record.motion) == Some(1)
        && g_group(record.plane) == Some(2)
        && g_group(record.distance) == Some(3)
        && g_group(record.units) == Some(6)
        && g_group(record.system) == Some(12)
}

fn in_reach(length: i64) -> bool {
    (-REACH..=REACH).contains(&length)
}

/// "one ten-thousandth is 10 counts under G21, 254 under G20".
pub fn counts(value: i64, units: i64) -> i64 {
    value * if units == 200 { 254 } else { 10 }
}

// ---------------------------------------------------------------- Grammar

/// "A byte is in a comment from `(` to the first `)`. Outside comments, spaces and tabs are
/// dropped and letters raised to upper case." A right comment is left as its `(` alone, which
/// nothing else can leave; a wrong one leaves no derivation.
fn what_remains(line: &[u8]) -> Option<Vec<u8>> {
    let mut remains = Vec::new();
    let mut bytes = line.iter().copied();
    while let Some(byte) = bytes.next() {
        match byte {
            b' ' | b'\t' => {}
            b'(' => {
                pass_comment(&mut bytes)?;
                remains.push(b'(');
            }
            _ => remains.push(byte.to_ascii_uppercase()),
        }
    }
    Some(remains)
}

/// "comment: `(`, bytes 32–126 or tab but no parenthesis, `)`."
fn pass_comment(bytes: &mut impl Iterator<Item = u8>) -> Option<()> {
    loop {
        match bytes.next()? {
            b')' => return Some(()),
            b'(' => return None,
            32..=126 | b'\t' => {}
            _ => return None,
        }
    }
}

#[derive(Clone, Copy)]
enum Operator {
    Plus,
    Minus,
    Times,
    Over,
    Mod,
    And,
    Or,
    Xor,
}

#[derive(Clone, Copy)]
enum Function {
    Abs,
    Fix,
    Fup,
    Round,
}

/// "Operators `+ - * / MOD AND OR XOR`."
const OPERATORS: [(&[u8], Operator); 8] = [
    (b"+", Operator::Plus),
    (b"-", Operator::Minus),
    (b"*", Operator::Times),
    (b"/", Operator::Over),
    (b"MOD", Operator::Mod),
    (b"AND", Operator::And),
    (b"OR", Operator::Or),
    (b"XOR", Operator::Xor),
];

/// "ABS, FIX, FUP or ROUND followed by an expression"; the expression's bracket is read with it.
const FUNCTIONS: [(&[u8], Function); 4] =
    [(b"ABS[", Function::Abs), (b"FIX[", Function::Fix), (b"FUP[", Function::Fup), (b"ROUND[", Function::Round)];

/// Ticket 6: "`/[expression]` .. and `\[expression]` .., and a plain `\`".
const MARKS: [(&[u8], Mark); 2] = [(b"/", Mark::Slash), (b"\\", Mark::Backslash)];

/// One place of a derivation. Parts are named by where they stand in the derivation's list, and
/// always stand earlier in it: the list is the tree in working order.
enum Node {
    /// A number: its value in ten-thousandths, its size held at the first one out of range.
    Written(i64),
    /// The value after `#`, judged as a parameter number.
    Judged(usize),
    /// The table's entry under a judged number.
    Entry(usize),
    Applied(Function, usize),
    Worked(Operator, usize, usize),
}

/// Ticket 6: "`/[expression]` (run if not zero) and `\[expression]` (run if zero)".
#[derive(Clone, Copy, PartialEq, Eq)]
enum Mark {
    Slash,
    Backslash,
}

/// A line's derivation: the nodes in working order, those of its condition first, then words and settings in the
/// order written, each naming the nodes of its values; how much work it is, and how deep it nests.
struct Derivation {
    nodes: Vec<Node>,
    condition: Option<(Mark, usize)>,
    words: Vec<(u8, usize)>,
    settings: Vec<(usize, usize)>,
    /// Ticket 12: "one for each value and each operator in its derivation".
    work: usize,
    /// Ticket 12: the most `[` and `#` "one within another in the derivation (a setting's first `#` aside)".
    nesting: usize,
}

/// What is begun and not finished inside a value.
enum Begun {
    Hash,
    Bracket(Option<Function>),
    Operation(Operator, usize),
}

struct Reader {
    remains: Vec<u8>,
    place: usize,
    found: Derivation,
}

/// "What remains must be derived": the derivation of a line, or none.
fn derive(line: &[u8]) -> Option<Derivation> {
    let (nodes, words, settings) = (Vec::new(), Vec::new(), Vec::new());
    let found = Derivation { nodes, condition: None, words, settings, work: 0, nesting: 0 };
    let mut reader = Reader { remains: what_remains(line)?, place: 0, found };
    reader.line()?;
    Some(reader.found)
}

impl Reader {
    /// "line: optional `/`, optional N with one to five digits, then any number of items." Ticket 6: "Demand 3's
    /// grammar gains these": `\` for `/`, and an expression right after either.
    fn line(&mut self) -> Option<()> {
        if let Some(mark) = self.choice(&MARKS) {
            self.condition(mark)?;
        }
        if self.take(b"N") && !(1..=5).contains(&self.digits().len()) {
            return None;
        }
        while self.place < self.remains.len() {
            self.item()?;
        }
        Some(())
    }

    /// Ticket 6: an expression after a mark. It is one of the grammar's expressions and not one of its values, so
    /// ticket 12 counts what stands in it and not the expression itself.
    fn condition(&mut self, mark: Mark) -> Option<()> {
        if self.next() == Some(b'[') {
            let value = self.value()?;
            self.found.condition = Some((mark, value));
            self.found.work -= 1;
        }
        Some(())
    }

    /// "item: a word, a setting or a comment."
    fn item(&mut self) -> Option<()> {
        let first = self.next()?;
        self.place += 1;
        match first {
            b'(' => Some(()),
            b'#' => self.setting(),
            b'F' | b'G' | b'I' | b'J' | b'K' | b'L' | b'M' | b'P' | b'S' | b'T' | b'X' | b'Y' | b'Z' => {
                let value = self.value()?;
                self.found.words.push((first, value));
                Some(())
            }
            _ => None,
        }
    }

    /// "Setting: `#` value `=` value." The `#` is read already.
    fn setting(&mut self) -> Option<()> {
        let after_hash = self.value()?;
        let number = self.note(Node::Judged(after_hash));
        if !self.take(b"=") {
            return None;
        }
        let value = self.value()?;
        self.found.settings.push((number, value));
        Some(())
    }

    /// "value: a number; `#` value; ABS, FIX, FUP or ROUND followed by an expression; an
    /// expression." "expression: `[` value, then any number of (operator value), `]`." What is
    /// begun waits on a stack, so a long line cannot exhaust the machine's own.
    fn value(&mut self) -> Option<usize> {
        let mut begun = Vec::new();
        loop {
            self.begin(&mut begun);
            self.nest(&begun);
            let number = self.number()?;
            self.found.work += 1;
            let mut done = self.end_hashes(&mut begun, number);
            while !begun.is_empty() && self.take(b"]") {
                done = self.end_bracket(&mut begun, done);
            }
            if begun.is_empty() {
                return Some(done);
            }
            let operator = self.choice(&OPERATORS)?;
            self.found.work += 1;
            let left = self.end_operations(&mut begun, done, rank(operator));
            begun.push(Begun::Operation(operator, left));
        }
    }

    /// Everything that may stand before a value's first number: `#`, `[` and a function's `ABS[`.
    fn begin(&mut self, begun: &mut Vec<Begun>) {
        loop {
            if self.take(b"#") {
                begun.push(Begun::Hash);
            } else if self.take(b"[") {
                begun.push(Begun::Bracket(None));
            } else if let Some(function) = self.choice(&FUNCTIONS) {
                begun.push(Begun::Bracket(Some(function)));
            } else {
                return;
            }
        }
    }

    /// Every `#` and `[` that is begun and not finished stands around what comes next. (The `[` of a function is
    /// its expression's; a setting's first `#` is never begun here.)
    fn nest(&mut self, begun: &[Begun]) {
        let around = begun.iter().filter(|begun| !matches!(begun, Begun::Operation(..))).count();
        self.found.nesting = self.found.nesting.max(around);
    }

    /// A value just finished finishes each `#` right before it; that `#` and its value are one value more.
    fn end_hashes(&mut self, begun: &mut Vec<Begun>, mut done: usize) -> usize {
        while let Some(Begun::Hash) = begun.last() {
            begun.pop();
            let number = self.note(Node::Judged(done));
            done = self.note(Node::Entry(number));
            self.found.work += 1;
        }
        done
    }

    /// "an operation is worked out once its right side is": those that bind at least as tightly
    /// as what follows have their right side now; "equals go left to right".
    fn end_operations(&mut self, begun: &mut Vec<Begun>, mut done: usize, least: u8) -> usize {
        while let Some(&Begun::Operation(operator, left)) = begun.last() {
            if rank(operator) < least {
                break;
            }
            begun.pop();
            done = self.note(Node::Worked(operator, left, done));
        }
        done
    }

    /// A `]` finishes the operations since its `[`, then the function before it, then hashes. The expression, or
    /// the function with it, is one value more.
    fn end_bracket(&mut self, begun: &mut Vec<Begun>, done: usize) -> usize {
        let mut done = self.end_operations(begun, done, 0);
        self.found.work += 1;
        if let Some(Begun::Bracket(Some(function))) = begun.pop() {
            done = self.note(Node::Applied(function, done));
        }
        self.end_hashes(begun, done)
    }

    /// "number: optional sign, digits with at most one point, at least one digit."
    fn number(&mut self) -> Option<usize> {
        let negative = self.take(b"-");
        if !negative {
            self.take(b"+");
        }
        let whole = self.digits();
        let decimals = if self.take(b".") { self.digits() } else { Vec::new() };
        if whole.is_empty() && decimals.is_empty() {
            return None;
        }
        let size = ten_thousandths(&whole, &decimals);
        Some(self.note(Node::Written(if negative { -size } else { size })))
    }

    fn digits(&mut self) -> Vec<u8> {
        let unread = self.remains[self.place..].iter().copied();
        let digits: Vec<u8> = unread.take_while(u8::is_ascii_digit).collect();
        self.place += digits.len();
        digits
    }

    fn next(&self) -> Option<u8> {
        self.remains.get(self.place).copied()
    }

    /// Passes over a text if it stands next.
    fn take(&mut self, text: &[u8]) -> bool {
        let stands = self.remains[self.place..].starts_with(text);
        if stands {
            self.place += text.len();
        }
        stands
    }

    fn choice<T: Copy>(&mut self, choices: &[(&[u8], T)]) -> Option<T> {
        choices.iter().find(|(text, _)| self.take(text)).map(|&(_, meant)| meant)
    }

    fn note(&mut self, node: Node) -> usize {
        self.found.nodes.push(node);
        self.found.nodes.len() - 1
    }
}

/// "`* / MOD` bind before the rest".
fn rank(operator: Operator) -> u8 {
    match operator {
        Operator::Times | Operator::Over | Operator::Mod => 1,
        _ => 0,
    }
}

/// The size of a number from its digits, held at the first size out of range: "it is taken to the nearest
/// ten-thousandth, halves away from zero, from all its digits at once" (request 4 of document 02).
fn ten_thousandths(whole: &[u8], decimals: &[u8]) -> i64 {
    let four = decimals.iter().chain(repeat(&b'0')).take(4);
    let cut =
        whole.iter().chain(four).fold(0, |size, digit| (size * 10 + i64::from(digit - b'0')).min(VALUE_LIMIT + 1));
    // What is left is half a ten-thousandth or more if it comes after 5 in the order of texts, or is 5.
    let half = decimals.get(4..).is_some_and(|left| left >= &b"5"[..]);
    (cut + i64::from(half)).min(VALUE_LIMIT + 1)
}

/// "gets one number: 0, 2 or 3, for length and form only." Ticket 2: "The panel gets the place too, as a second
/// number, 0 unless 3."
pub fn form(line: &[u8]) -> (u8, usize) {
    let number = if line.len() > LONGEST_LINE {
        2
    } else if derive(line).is_none() {
        3
    } else {
        ACCEPTED
    };
    (number, place(number, line))
}

/// The place that a line's number carries. That both recognisers of this program take the same lines is seen to here.
fn place(number: u8, line: &[u8]) -> usize {
    if number != 3 {
        return 0;
    }
    places::place(line).expect("a line without a derivation is one that no way goes along to its end")
}

// ---------------------------------------------------------------- Arithmetic

/// What reading a line gives: no derivation, number 16, the first of numbers 5 to 7 or a skip by the condition, or
/// "the tree's words and settings in order, with their values", and the work it was.
pub enum Reading {
    WrongForm,
    Stopped(u8),
    Read { words: Vec<(u8, i64)>, settings: Vec<(usize, i64)>, work: usize },
}

/// Reads a line of any length. Ticket 12: "16 for deeper nesting anywhere on the line, checked after 3 and before
/// 4, and before a condition is worked out".
pub fn read(line: &[u8], table: &[i64]) -> Reading {
    let Some(derivation) = derive(line) else {
        return Reading::WrongForm;
    };
    if derivation.nesting > DEEPEST_NESTING {
        return Reading::Stopped(16);
    }
    match work_out(&derivation, table) {
        Err(number) => Reading::Stopped(number),
        Ok(values) => Reading::Read {
            words: derivation.words.iter().map(|&(letter, node)| (letter, values[node])).collect(),
            settings: derivation
                .settings
                .iter()
                .map(|&(number, node)| (values[number] as usize, values[node]))
                .collect(),
            work: derivation.work,
        },
    }
}

/// Ticket 6: "The condition is worked out first, from the table at entry; if it says no, the line is skipped."
/// "3 to 7 may now come from a condition, before anything else on the line."
fn work_out(derivation: &Derivation, table: &[i64]) -> Result<Vec<i64>, u8> {
    let mut values = Vec::new();
    if let Some((mark, node)) = derivation.condition {
        work_out_nodes(&derivation.nodes[..=node], table, &mut values)?;
        if !says_yes(mark, values[node]) {
            return Err(SKIPPED);
        }
    }
    work_out_nodes(&derivation.nodes[values.len()..], table, &mut values)?;
    Ok(values)
}

/// Ticket 6: "`/[expression]` (run if not zero) and `\[expression]` (run if zero)"; "Zero means at most 0.0001 from
/// zero."
fn says_yes(mark: Mark, value: i64) -> bool {
    let zero = value.abs() <= 1;
    match mark {
        Mark::Slash => !zero,
        Mark::Backslash => zero,
    }
}

/// "All values on a line are worked out left to right from the table as it was at entry"; "Among 4
/// to 7 the first met in working order decides", of which 4 never comes. A judged node's value is the
/// parameter number.
fn work_out_nodes(nodes: &[Node], table: &[i64], values: &mut Vec<i64>) -> Result<(), u8> {
    for node in nodes {
        let value = match *node {
            Node::Written(value) => in_range(value)?,
            Node::Judged(after_hash) => parameter_number(values[after_hash])?,
            Node::Entry(number) => entry(values[number], table)?,
            Node::Applied(function, inner) => in_range(apply(function, values[inner]))?,
            Node::Worked(operator, left, right) => in_range(operate(operator, values[left], values[right])?)?,
        };
        values.push(value);
    }
    Ok(())
}

/// Number 5: "a value written, worked out or read from the table is out of range".
fn in_range(value: i64) -> Result<i64, u8> {
    if (-VALUE_LIMIT..=VALUE_LIMIT).contains(&value) {
        Ok(value)
    } else {
        Err(5)
    }
}

/// Number 7: "parameter number not 1–4,999", "judged as soon as it is worked out".
fn parameter_number(value: i64) -> Result<i64, u8> {
    near_multiple(value, ONE).filter(|number| (1..=4_999).contains(number)).ok_or(7)
}

/// A number a table does not have is number 7 too; a table of 5,000 has them all.
fn entry(number: i64, table: &[i64]) -> Result<i64, u8> {
    in_range(*table.get(number as usize).ok_or(7)?)
}

/// "a value at most 0.0001 from one counts as it": which multiple of the step a value counts as.
fn near_multiple(value: i64, step: i64) -> Option<i64> {
    let nearest = (value + step / 2).div_euclid(step);
    let away = (value - nearest * step).abs();
    (away <= 1).then_some(nearest)
}

/// "FIX goes down, FUP up, ROUND to nearest, halves away from zero."
fn apply(function: Function, value: i64) -> i64 {
    match function {
        Function::Abs => value.abs(),
        Function::Fix => value.div_euclid(ONE) * ONE,
        Function::Fup => -((-value).div_euclid(ONE) * ONE),
        Function::Round => value.signum() * ((value.abs() + HALF) / ONE * ONE),
    }
}

/// "`+ -` are exact. `*` and `/` go to the nearest ten-thousandth"; number 6: "divisor zero in / or
/// MOD".
fn operate(operator: Operator, left: i64, right: i64) -> Result<i64, u8> {
    match operator {
        Operator::Over | Operator::Mod if right == 0 => Err(6),
        Operator::Plus => Ok(left + right),
        Operator::Minus => Ok(left - right),
        Operator::Times => Ok(nearest(left * right, ONE)),
        Operator::Over => Ok(nearest(left * ONE, right)),
        // "MOD lies from 0 to below the divisor's size and differs from the dividend by a whole
        // number of divisors."
        Operator::Mod => Ok(left.rem_euclid(right)),
        Operator::And => Ok(truth(left != 0 && right != 0)),
        Operator::Or => Ok(truth(left != 0 || right != 0)),
        Operator::Xor => Ok(truth((left != 0) != (right != 0))),
    }
}

/// "AND, OR, XOR take non-zero as true and give 1 or 0."
fn truth(holds: bool) -> i64 {
    if holds {
        ONE
    } else {
        0
    }
}

/// The whole number nearest to a quotient, "halves away from zero".
fn nearest(dividend: i64, divisor: i64) -> i64 {
    let (size, by) = (i128::from(dividend).abs(), i128::from(divisor).abs());
    let rounded = ((2 * size + by) / (2 * by)) as i64;
    dividend.signum() * divisor.signum() * rounded
}

// ---------------------------------------------------------------- Codes by modal group

/// "G groups: 0: 4 10 53 92 92.1; 1: 0 1 2 3 80; ..." by ten times the code; none is "not served".
fn g_group(code: i64) -> Option<usize> {
    match code {
        40 | 100 | 530 | 920 | 921 => Some(0),
        0 | 10 | 20 | 30 | 800 => Some(1),
        170 | 180 | 190 => Some(2),
        900 | 910 => Some(3),
        940 => Some(5),
        200 | 210 => Some(6),
        400 => Some(7),
        490 => Some(8),
        540 | 550 | 560 | 570 | 580 | 590 | 591 | 592 | 593 => Some(12),
        _ => None,
    }
}

/// "M groups: 4: 0 1 2 30; 6: 6; 7: 3 4 5; 8: 7 8 9."
fn m_group(code: i64) -> Option<usize> {
    match code {
        0 | 1 | 2 | 30 => Some(4),
        6 => Some(6),
        3 | 4 | 5 => Some(7),
        7 | 8 | 9 => Some(8),
        _ => None,
    }
}

/// Every G code that is served, times ten, and every M code.
pub fn served_g() -> Vec<i64> {
    (0..1_000).filter(|&code| g_group(code).is_some()).collect()
}

pub fn served_m() -> Vec<i64> {
    (0..100).filter(|&code| m_group(code).is_some()).collect()
}

/// A line's content: its G codes (ten times) and M codes by group, its other words by letter.
struct Content {
    g: [Option<i64>; 13],
    m: [Option<i64>; 9],
    words: [Option<i64>; 26],
}

impl Content {
    /// Sorts a line's words, or gives number 8 or 9. "8: code not served" is judged over the whole
    /// line first.
    fn of(words: &[(u8, i64)]) -> Result<Content, u8> {
        let g_codes = codes(words, b'G', 1_000, g_group)?;
        let m_codes = codes(words, b'M', ONE, m_group)?;
        let others: Vec<(u8, i64)> = words.iter().copied().filter(|word| word.0 != b'G' && word.0 != b'M').collect();
        let mut content = Content { g: [None; 13], m: [None; 9], words: [None; 26] };
        if letter_twice(&others) || !one_a_group(&g_codes, &mut content.g) || !one_a_group(&m_codes, &mut content.m) {
            return Err(9);
        }
        for (letter, value) in others {
            content.words[usize::from(letter - b'A')] = Some(value);
        }
        if content.has_g0_to_g3() && content.claims_axis_words() {
            return Err(9);
        }
        Ok(content)
    }

    fn word(&self, letter: u8) -> Option<i64> {
        self.words[usize::from(letter - b'A')]
    }

    fn has(&self, letter: u8) -> bool {
        self.word(letter).is_some()
    }

    fn has_g(&self, code: i64) -> bool {
        self.g.contains(&Some(code))
    }

    fn has_m(&self, code: i64) -> bool {
        self.m.contains(&Some(code))
    }

    fn has_g0_to_g3(&self) -> bool {
        matches!(self.g[1], Some(0 | 10 | 20 | 30))
    }

    fn has_axis_word(&self) -> bool {
        AXIS_LETTERS.iter().any(|&letter| self.has(letter))
    }

    /// "G10 and G92 claim a line's axis words."
    fn claims_axis_words(&self) -> bool {
        self.has_g(100) || self.has_g(920)
    }

    /// "Otherwise axis words make a move".
    fn makes_move(&self) -> bool {
        self.has_axis_word() && !self.claims_axis_words()
    }

    /// A move "by the line's group 1 code or else the record's", being G2 or G3.
    fn makes_arc(&self, record: &Record) -> bool {
        self.makes_move() && matches!(self.motion(record), 20 | 30)
    }

    fn motion(&self, record: &Record) -> i64 {
        self.g[1].unwrap_or(record.motion)
    }

    fn plane(&self, record: &Record) -> i64 {
        self.g[2].unwrap_or(record.plane)
    }
}

/// The codes under G or M with their groups. "A code outside its table, or near no tenth (M: no
/// whole number), is not served."
fn codes(words: &[(u8, i64)], letter: u8, step: i64, group: fn(i64) -> Option<usize>) -> Result<Vec<(usize, i64)>, u8> {
    let meant = words.iter().filter(|word| word.0 == letter).map(|word| {
        let code = near_multiple(word.1, step)?;
        Some((group(code)?, code))
    });
    meant.collect::<Option<Vec<_>>>().ok_or(8)
}

/// "two codes of one G group or one M group, the same code twice too".
fn one_a_group(codes: &[(usize, i64)], groups: &mut [Option<i64>]) -> bool {
    codes.iter().all(|&(group, code)| groups[group].replace(code).is_none())
}

/// "A letter other than G or M is given twice exactly when there are fewer different letters than
/// words among those."
fn letter_twice(words: &[(u8, i64)]) -> bool {
    let mut letters: Vec<u8> = words.iter().map(|word| word.0).collect();
    letters.sort_unstable();
    letters.dedup();
    letters.len() < words.len()
}

// ---------------------------------------------------------------- Words and their values, 10 to 12

/// The axes of a plane in the order X, Y, Z.
pub fn plane_axes(plane: i64) -> [usize; 2] {
    match plane {
        180 => [0, 2],
        190 => [1, 2],
        _ => [0, 1],
    }
}

/// "Needed: P for G4; L and P for G10; an axis word for G92, G53, G0–G3; for an arc move, an axis
/// word of the plane and an offset word of the plane."
fn needed_missing(content: &Content, record: &Record) -> bool {
    let axes = plane_axes(content.plane(record));
    let in_plane = |letters: [u8; 3]| axes.iter().any(|&axis| content.has(letters[axis]));
    let wants_axis = content.has_g(920) || content.has_g(530) || content.has_g0_to_g3();
    (content.has_g(40) && !content.has(b'P'))
        || (content.has_g(100) && !(content.has(b'L') && content.has(b'P')))
        || (wants_axis && !content.has_axis_word())
        || (content.makes_arc(record) && !(in_plane(AXIS_LETTERS) && in_plane(OFFSET_LETTERS)))
}

/// "Idle: P without G4 or G10, L without G10, I J K without an arc move or off its plane."
fn idle_word(content: &Content, record: &Record) -> bool {
    let axes = plane_axes(content.plane(record));
    let of_use = |axis: usize| content.makes_arc(record) && axes.contains(&axis);
    (content.has(b'P') && !content.has_g(40) && !content.has_g(100))
        || (content.has(b'L') && !content.has_g(100))
        || (0..3).any(|axis| content.has(OFFSET_LETTERS[axis]) && !of_use(axis))
}

/// Number 11: "F, S or G4's P below 0; T not whole 0–99; L not 2; G10's P not whole 1–9".
fn wrong_value(content: &Content) -> bool {
    let below_zero = |letter| content.word(letter).is_some_and(|value| value < 0);
    let not_whole = |letter, least, most| {
        let whole = |value| near_multiple(value, ONE).is_some_and(|number| least <= number && number <= most);
        content.word(letter).is_some_and(|value| !whole(value))
    };
    below_zero(b'F')
        || below_zero(b'S')
        || (content.has_g(40) && below_zero(b'P'))
        || not_whole(b'T', 0, 99)
        || not_whole(b'L', 2, 2)
        || (content.has_g(100) && not_whole(b'P', 1, 9))
}

/// Number 12: "move in mode G80; G53 when motion is not G0 or G1; feed 0 on a move by G1–G3". The
/// record is as the line has set it before its motion step.
fn forbidden_move(content: &Content, record: &Record) -> bool {
    let motion = content.motion(record);
    content.makes_move()
        && (motion == 800 || (content.has_g(530) && motion != 0 && motion != 10) || (motion != 0 && record.feed == 0))
}

// ---------------------------------------------------------------- Order within an accepted line

/// What a line makes of the record, and the commands it gives.
struct Effect {
    record: Record,
    commands: Vec<[i64; COMMAND_LENGTH]>,
}

impl Effect {
    /// "Commands are eight numbers each, the kind first, unused ones 0".
    fn give(&mut self, kind: i64, fields: &[i64]) {
        let mut command = [0; COMMAND_LENGTH];
        command[0] = kind;
        for (place, &field) in command[1..].iter_mut().zip(fields) {
            *place = field;
        }
        self.commands.push(command);
    }

    /// "F (units in force before the line), S, T, M6 (spindle becomes 0), spindle, coolant, G4".
    fn before_modes(&mut self, content: &Content) {
        if let Some(value) = content.word(b'F') {
            self.record.feed = counts(value, self.record.units);
            self.give(1, &[self.record.feed]);
        }
        if let Some(value) = content.word(b'S') {
            self.record.speed = value;
            self.give(2, &[value]);
        }
        if let Some(number) = content.word(b'T').and_then(|value| near_multiple(value, ONE)) {
            self.record.tool = number;
            self.give(3, &[number]);
        }
        if content.has_m(6) {
            self.record.spindle = 0;
            self.give(4, &[]);
        }
        self.spindle(content);
        self.coolant(content);
        if let (true, Some(value)) = (content.has_g(40), content.word(b'P')) {
            self.give(7, &[value]);
        }
    }

    /// "5 spindle 0 M5, 1 M3, 2 M4".
    fn spindle(&mut self, content: &Content) {
        if let Some(code) = content.m[7] {
            self.record.spindle = match code {
                3 => 1,
                4 => 2,
                _ => 0,
            };
            self.give(5, &[self.record.spindle]);
        }
    }

    /// "6 coolant 0 M9, 1 M7, 2 M8 (after M7 or M8 the record keeps the other one on)".
    fn coolant(&mut self, content: &Content) {
        if let Some(code) = content.m[8] {
            let field = match code {
                7 => 1,
                8 => 2,
                _ => 0,
            };
            self.record.coolant = if field == 0 { 0 } else { self.record.coolant | field };
            self.give(6, &[field]);
        }
    }

    /// "plane, units, system, distance".
    fn modes(&mut self, content: &Content) {
        let record = &mut self.record;
        record.plane = content.g[2].unwrap_or(record.plane);
        record.units = content.g[6].unwrap_or(record.units);
        record.system = content.g[12].unwrap_or(record.system);
        record.distance = content.g[3].unwrap_or(record.distance);
    }

    /// A word's length in the units in force.
    fn length(&self, content: &Content, letter: u8) -> Option<i64> {
        content.word(letter).map(|value| counts(value, self.record.units))
    }

    /// "then G10, G92 or G92.1".
    fn origins_and_offset(&mut self, content: &Content) -> Result<(), u8> {
        match content.g[0] {
            Some(100) => self.set_origin(content),
            Some(920) => self.set_offset(content),
            Some(921) => {
                self.record.offset = [0; 3];
                Ok(())
            }
            _ => Ok(()),
        }
    }

    /// "G10 L2 Pn sets named axes of origin n (1–9)."
    fn set_origin(&mut self, content: &Content) -> Result<(), u8> {
        let number = content.word(b'P').and_then(|value| near_multiple(value, ONE)).unwrap_or(1);
        for axis in 0..3 {
            if let Some(length) = self.length(content, AXIS_LETTERS[axis]) {
                self.record.origins[3 * (number as usize - 1) + axis] = reached(length)?;
            }
        }
        Ok(())
    }

    /// "G92 sets, for named axes, offset = position − origin − word."
    fn set_offset(&mut self, content: &Content) -> Result<(), u8> {
        for axis in 0..3 {
            if let Some(length) = self.length(content, AXIS_LETTERS[axis]) {
                let offset = self.record.position[axis] - self.record.origin(axis) - length;
                self.record.offset[axis] = reached(offset)?;
            }
        }
        Ok(())
    }

    /// "The line's G0–G3 or G80 becomes the mode at the motion step."
    fn motion(&mut self, content: &Content) -> Result<(), u8> {
        self.record.motion = content.motion(&self.record);
        if !content.makes_move() {
            return Ok(());
        }
        let target = self.target(content)?;
        match self.record.motion {
            0 => self.give(8, &target),
            10 => self.give(9, &target),
            _ => self.arc(content, target)?,
        }
        self.record.position = target;
        Ok(())
    }

    /// "Target: word + origin + G92 offset; under G91 position + word; with G53 the word alone, G91
    /// or not. Axes not named stay."
    fn target(&self, content: &Content) -> Result<[i64; 3], u8> {
        let record = &self.record;
        let mut target = record.position;
        for axis in 0..3 {
            if let Some(length) = self.length(content, AXIS_LETTERS[axis]) {
                target[axis] = reached(if content.has_g(530) {
                    length
                } else if record.distance == 910 {
                    record.position[axis] + length
                } else {
                    length + record.origin(axis) + record.offset[axis]
                })?;
            }
        }
        Ok(target)
    }

    /// "Arc: centre = position + offset words on the plane ... a missing one counts 0". "10 arc: 2
    /// or 3, plane 17–19, X Y Z, two centre numbers in axis order X, Y, Z".
    fn arc(&mut self, content: &Content, target: [i64; 3]) -> Result<(), u8> {
        let axes = plane_axes(self.record.plane);
        let mut centre = [0; 2];
        for (place, axis) in axes.into_iter().enumerate() {
            let word = self.length(content, OFFSET_LETTERS[axis]).unwrap_or(0);
            centre[place] = reached(self.record.position[axis] + word)?;
        }
        let start = axes.map(|axis| self.record.position[axis]);
        let end = axes.map(|axis| target[axis]);
        // "may differ by at most 200 or 508 counts".
        let slack = if self.record.units == 200 { 508 } else { 200 };
        if start == centre || too_unequal(squared(start, centre), squared(end, centre), slack) {
            return Err(14);
        }
        let (direction, plane) = (self.record.motion / 10, self.record.plane / 10);
        self.give(10, &[direction, plane, target[0], target[1], target[2], centre[0], centre[1]]);
        Ok(())
    }

    /// "stop"; "M2 and M30 also set G54, G17, G90, motion G1, spindle and coolant 0, G92 offset
    /// zero."
    fn stop(&mut self, content: &Content) {
        let Some(code) = content.m[4] else {
            return;
        };
        self.give(11, &[code]);
        if code == 2 || code == 30 {
            let record = &mut self.record;
            (record.system, record.plane, record.distance, record.motion) = (540, 170, 900, 10);
            (record.spindle, record.coolant, record.offset) = (0, 0, [0; 3]);
        }
    }
}

/// Number 13: "target, centre, origin or offset out of reach".
fn reached(length: i64) -> Result<i64, u8> {
    if in_reach(length) {
        Ok(length)
    } else {
        Err(13)
    }
}

/// The sum of squares of a way from the centre.
fn squared(point: [i64; 2], centre: [i64; 2]) -> u128 {
    let along = |place: usize| u128::from(point[place].abs_diff(centre[place]));
    along(0).pow(2) + along(1).pow(2)
}

/// "The true distances are to be compared: the roots of the two sums of squares, unrounded, may
/// differ by at most" the slack. The square of their difference is a + b less twice the root of ab;
/// what is squared again is below 2^128, since both places and the centre are in reach.
fn too_unequal(a: u128, b: u128, slack: u128) -> bool {
    match (a + b).checked_sub(slack.pow(2)) {
        None => false,
        Some(rest) => rest.pow(2) > 4 * a * b,
    }
}

// ---------------------------------------------------------------- Numbers a refused line carries

/// What an accepted line does, the settings it makes, and the work it was.
struct Accepted {
    effect: Effect,
    settings: Vec<(usize, i64)>,
    work: usize,
}

/// An accepted line's, or the first number that applies (a skip is 100).
fn judge(line: &[u8], switch: bool, record: &Record, table: &[i64], room: usize) -> Result<Accepted, u8> {
    if !in_order(record, table) {
        return Err(1);
    }
    if line.len() > LONGEST_LINE {
        return Err(2);
    }
    if skips_unread(line, switch) {
        return Err(SKIPPED);
    }
    let (words, settings, work) = match read(line, table) {
        Reading::WrongForm => return Err(3),
        Reading::Stopped(number) => return Err(number),
        Reading::Read { words, settings, work } => (words, settings, work),
    };
    let effect = carry_out(&Content::of(&words)?, record)?;
    if room < COMMAND_LENGTH * effect.commands.len() {
        return Err(15);
    }
    Ok(Accepted { effect, settings, work })
}

/// Numbers 10 to 14, and the order within an accepted line. "Numbers 10 to 14 read modes, units and
/// feed as the order above has set them by then."
fn carry_out(content: &Content, record: &Record) -> Result<Effect, u8> {
    if needed_missing(content, record) || idle_word(content, record) {
        return Err(10);
    }
    if wrong_value(content) {
        return Err(11);
    }
    let mut effect = Effect { record: record.clone(), commands: Vec::new() };
    effect.before_modes(content);
    effect.modes(content);
    if forbidden_move(content, &effect.record) {
        return Err(12);
    }
    effect.origins_and_offset(content)?;
    effect.motion(content)?;
    effect.stop(content);
    Ok(effect)
}

/// "After 2, a line whose first non-blank byte is `/`, with the switch on, is skipped and no later check is made."
/// Ticket 6: "a plain `\` .. runs only with the switch on"; "A mark whose next non-blank byte is `[` ignores the
/// switch ..; others skip unread, as today."
fn skips_unread(line: &[u8], switch: bool) -> bool {
    let mut bytes = line.iter().copied().filter(|&byte| byte != b' ' && byte != b'\t');
    let marked = match bytes.next() {
        Some(b'/') => switch,
        Some(b'\\') => !switch,
        _ => false,
    };
    marked && bytes.next() != Some(b'[')
}

/// What a line is answered with: its number, how many commands it wrote, where its form breaks, and the values and
/// operations worked out.
#[derive(Clone, Copy, PartialEq, Eq)]
pub struct Told {
    pub number: u8,
    pub count: usize,
    pub place: usize,
    pub work: usize,
}

/// One line. "Every refusal and skip returns count 0 and leaves record, table and output unchanged; acceptance
/// leaves output past the commands unchanged." Ticket 12: "Every accepted line reports the values and operations
/// worked out ..; others report 0." Ticket 2: "Refusal 3 also gives a place".
pub fn interpret(line: &[u8], switch: bool, record: &mut Record, table: &mut [i64], out: &mut [i64]) -> Told {
    match judge(line, switch, record, table, out.len()) {
        Err(number) => Told { number, count: 0, place: place(number, line), work: 0 },
        Ok(Accepted { effect, settings, work }) => {
            *record = effect.record;
            // "settings apply afterwards, in order, the last winning."
            for (number, value) in settings {
                table[number] = value;
            }
            for (place, command) in out.chunks_exact_mut(COMMAND_LENGTH).zip(&effect.commands) {
                place.copy_from_slice(command);
            }
            Told { number: ACCEPTED, count: effect.commands.len(), place: 0, work }
        }
    }
}
