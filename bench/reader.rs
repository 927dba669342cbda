//! The yardstick: standard input to frames by document 01's rules, with the requests of document 02 that have landed,
//! as a careful engineer would write it in Rust for speed. One pass over each line, no allocation for a line, safe
//! Rust, no crates. `rustc -O --edition 2021`, for the compiler's default processor (bench/reader.sh);
//! bench/compare.sh holds it to be right.

use std::hint::black_box;
use std::io::{self, Read, Write};

/// A value's reach, in ten-thousandths of a program unit.
const LARGEST_VALUE: i64 = 999_999_999;
/// Digits without end stay here: they must not overflow, and five decimals cannot make a value of them.
const FAR_TOO_LARGE: u64 = 10_000_000_000;
/// A position's, centre's, origin's or offset's reach, in counts of 10 nm.
const REACH: i64 = 1_000_000_000;
const LARGEST_FEED: i64 = 253_999_999_746;
/// The value 1.
const ONE: i64 = 10_000;
/// What a value one tenth larger differs by: G codes go by tenths.
const TENTH: i64 = 1_000;
const LONGEST_LINE: usize = 256;
/// The most `[` and `#` that may stand one within another.
const DEEPEST: usize = 24;
const TABLE_LENGTH: usize = 5_000;
/// "#1=1" has four bytes, so a line holds no more settings.
const MOST_SETTINGS: usize = LONGEST_LINE / 4;
/// More than the frames of any one line: nine commands, the longest of 73 bytes.
const LINE_OF_FRAMES: usize = 1_000;
const BUFFER: usize = 65_536;

/// The numbers that a refused line carries.
type Refusal = u8;
const OUT_OF_ORDER: Refusal = 1;
const TOO_LONG: Refusal = 2;
const WRONG_FORM: Refusal = 3;
// 4, a number with more than four decimals, is kept in the list and never given.
const OUT_OF_RANGE: Refusal = 5;
const DIVISOR_ZERO: Refusal = 6;
const NO_PARAMETER: Refusal = 7;
const NOT_SERVED: Refusal = 8;
const TWICE: Refusal = 9;
const MISSING_OR_IDLE: Refusal = 10;
const WRONG_AMOUNT: Refusal = 11;
const NO_MOTION: Refusal = 12;
const OUT_OF_REACH: Refusal = 13;
const WRONG_ARC: Refusal = 14;
const TOO_DEEP: Refusal = 16;
/// No refusal, but it stops a line as one does, and nothing of it is done.
const SKIPPED: Refusal = 100;

// ---------------------------------------------------------------- Tables

/// What a byte outside a comment stands for, by one look-up: a blank is dropped (0), a letter raised. NUL, which no
/// line of right form holds, becomes another such byte, so that 0 can also stand for the line's end.
static RAISED: [u8; 256] = {
    let mut table = [0; 256];
    let mut byte = 0;
    while byte < 256 {
        table[byte] = match byte as u8 {
            b' ' | b'\t' => 0,
            0 => 1,
            other => other.to_ascii_uppercase(),
        };
        byte += 1;
    }
    table
};

const UNSERVED: u8 = 255;

/// Modal group by ten times the G code.
static G_GROUPS: [u8; 1_000] = {
    let served: [(u8, &[usize]); 9] = [
        (0, &[40, 100, 530, 920, 921]),
        (1, &[0, 10, 20, 30, 800]),
        (2, &[170, 180, 190]),
        (3, &[900, 910]),
        (5, &[940]),
        (6, &[200, 210]),
        (7, &[400]),
        (8, &[490]),
        (12, &[540, 550, 560, 570, 580, 590, 591, 592, 593]),
    ];
    let mut table = [UNSERVED; 1_000];
    let mut row = 0;
    while row < served.len() {
        let (group, codes) = served[row];
        let mut place = 0;
        while place < codes.len() {
            table[codes[place]] = group;
            place += 1;
        }
        row += 1;
    }
    table
};

fn m_group(code: i64) -> u8 {
    match code {
        0 | 1 | 2 | 30 => 4,
        6 => 6,
        3..=5 => 7,
        7..=9 => 8,
        _ => UNSERVED,
    }
}

/// Two digits for each byte: half the steps of one digit at a time.
static HEXADECIMAL: [[u8; 2]; 256] = {
    let digits = b"0123456789ABCDEF";
    let mut table = [[0; 2]; 256];
    let mut byte = 0;
    while byte < 256 {
        table[byte] = [digits[byte >> 4], digits[byte & 15]];
        byte += 1;
    }
    table
};

// ---------------------------------------------------------------- The session's record

struct Record {
    position: [i64; 3],
    origins: [i64; 27],
    offset: [i64; 3],
    // Modes are ten times their codes.
    motion: u16,
    plane: u16,
    distance: u16,
    units: u16,
    system: u16,
    feed: i64,
    speed: i64,
    tool: u8,
    spindle: u8,
    coolant: u8,
}

impl Record {
    fn fresh() -> Record {
        Record {
            position: [0; 3],
            origins: [0; 27],
            offset: [0; 3],
            motion: 800,
            plane: 170,
            distance: 900,
            units: 210,
            system: 540,
            feed: 0,
            speed: 0,
            tool: 0,
            spindle: 0,
            coolant: 0,
        }
    }

    /// Number 1. All is looked at without a branch between, since all of it is nearly always right.
    fn in_order(&self) -> bool {
        let all_in_reach = |lengths: &[i64]| lengths.iter().fold(true, |so_far, &length| so_far & in_reach(length));
        let group = |code: u16| G_GROUPS.get(code as usize).copied().unwrap_or(UNSERVED);
        all_in_reach(&self.position)
            & all_in_reach(&self.origins)
            & all_in_reach(&self.offset)
            & (0..=LARGEST_FEED).contains(&self.feed)
            & (0..=LARGEST_VALUE).contains(&self.speed)
            & (self.tool <= 99)
            & (self.spindle <= 2)
            & (self.coolant <= 3)
            & (group(self.motion) == 1)
            & (group(self.plane) == 2)
            & (group(self.distance) == 3)
            & (group(self.units) == 6)
            & (group(self.system) == 12)
    }
}

/// One comparison instead of two.
fn in_reach(length: i64) -> bool {
    length.wrapping_add(REACH) as u64 <= 2 * REACH as u64
}

// ---------------------------------------------------------------- Arithmetic

/// A value, or which of 5 to 7 was met first in working it out. It is carried and not returned at once, because
/// a wrong form further on goes before it.
#[derive(Clone, Copy)]
struct Value {
    amount: i64,
    refusal: Refusal,
}

fn right(amount: i64) -> Value {
    Value { amount, refusal: 0 }
}

fn refused(refusal: Refusal) -> Value {
    Value { amount: 0, refusal }
}

fn ranged(amount: i64) -> Value {
    if (-LARGEST_VALUE..=LARGEST_VALUE).contains(&amount) {
        right(amount)
    } else {
        refused(OUT_OF_RANGE)
    }
}

impl Value {
    fn then(self, function: impl Fn(i64) -> i64) -> Value {
        if self.refusal != 0 {
            self
        } else {
            ranged(function(self.amount))
        }
    }

    fn parameter(self) -> Value {
        if self.refusal != 0 {
            return self;
        }
        match near(self.amount, ONE) {
            Some(number) if (1..TABLE_LENGTH as i64).contains(&number) => right(number),
            _ => refused(NO_PARAMETER),
        }
    }
}

/// How many steps the amount is, if it is at most 0.0001 from a whole number of them.
fn near(amount: i64, step: i64) -> Option<i64> {
    let count = (amount + step / 2).div_euclid(step);
    if (amount - count * step).abs() <= 1 {
        Some(count)
    } else {
        None
    }
}

/// The nearest whole number to a quotient, halves away from zero.
fn nearest(dividend: i64, divisor: i64) -> i64 {
    let (above, below) = (dividend.unsigned_abs(), divisor.unsigned_abs());
    let (quotient, rest) = (above / below, above % below);
    let size = if rest < below - rest { quotient } else { quotient + 1 } as i64;
    if (dividend < 0) != (divisor < 0) {
        -size
    } else {
        size
    }
}

/// An operator by its first byte, which tells all eight apart.
fn worked(operator: u8, left: Value, right: Value) -> Value {
    if left.refusal != 0 {
        return left;
    }
    if right.refusal != 0 {
        return right;
    }
    let (a, b) = (left.amount, right.amount);
    let truth = |holds: bool| if holds { ONE } else { 0 };
    ranged(match operator {
        b'+' => a + b,
        b'-' => a - b,
        b'*' => nearest(a * b, ONE),
        b'/' | b'M' if b == 0 => return refused(DIVISOR_ZERO),
        b'/' => nearest(a * ONE, b),
        b'M' => a.rem_euclid(b),
        b'A' => truth(a != 0 && b != 0),
        b'O' => truth(a != 0 || b != 0),
        _ => truth((a != 0) != (b != 0)),
    })
}

fn down(amount: i64) -> i64 {
    amount.div_euclid(ONE) * ONE
}

fn up(amount: i64) -> i64 {
    -down(-amount)
}

fn rounded(amount: i64) -> i64 {
    nearest(amount, ONE) * ONE
}

// ---------------------------------------------------------------- Reading values

/// A line and the place reached in it. `None` from any of its functions is a wrong form.
struct Reader<'a> {
    line: &'a [u8],
    place: usize,
    table: &'a [i64; TABLE_LENGTH],
    /// Values and operators so far.
    work: usize,
    /// How many `[` and `#` are around the place, and whether they have ever been too many.
    depth: usize,
    too_deep: bool,
}

impl Reader<'_> {
    /// The next byte that is no blank, raised; 0 at the line's end. The place moves to it but not past it.
    #[inline(always)]
    fn next(&mut self) -> u8 {
        while let Some(&byte) = self.line.get(self.place) {
            let raised = RAISED[byte as usize];
            if raised != 0 {
                return raised;
            }
            self.place += 1;
        }
        0
    }

    #[inline(always)]
    fn spelled(&mut self, letters: &[u8]) -> Option<()> {
        for &letter in letters {
            if self.next() != letter {
                return None;
            }
            self.place += 1;
        }
        Some(())
    }

    /// Digits from here on, put after those of `amount`: the amount, how many there were, and the byte that ended them.
    #[inline(always)]
    fn digits(&mut self, mut amount: u64) -> (u64, usize, u8) {
        let mut count = 0;
        loop {
            let byte = self.next();
            let digit = byte.wrapping_sub(b'0');
            if digit > 9 {
                return (amount, count, byte);
            }
            amount = amount * 10 + digit as u64;
            if amount > FAR_TOO_LARGE {
                amount = FAR_TOO_LARGE;
            }
            count += 1;
            self.place += 1;
        }
    }

    /// The number of more than four decimals that ends here: the fifth decides how four are rounded. They are so seldom
    /// that nothing is kept for them: the digits are looked for backwards, and the blanks between them passed over.
    #[cold]
    #[inline(never)]
    fn fine(&self, negative: bool) -> Value {
        let other = |byte: &u8| !byte.is_ascii_digit() && *byte != b'.' && RAISED[*byte as usize] != 0;
        let text = &self.line[..self.place];
        let text = &text[text.iter().rposition(other).map_or(0, |place| place + 1)..];
        let (whole, decimals) = text.split_at(text.iter().position(|&byte| byte == b'.').unwrap_or(text.len()));
        let digit = |byte: &&u8| byte.is_ascii_digit();
        let five = whole.iter().filter(digit).chain(decimals.iter().filter(digit).take(5));
        let amount = five.fold(0, |amount: u64, byte| (amount * 10 + (byte - b'0') as u64).min(FAR_TOO_LARGE));
        scaled((amount + 5) / 10, 1, negative)
    }

    #[inline(always)]
    fn number(&mut self, first: u8) -> Option<Value> {
        if first == b'-' || first == b'+' {
            self.place += 1;
        }
        let (mut amount, whole, end) = self.digits(0);
        let mut decimals = 0;
        if end == b'.' {
            self.place += 1;
            (amount, decimals, _) = self.digits(amount);
        }
        if whole + decimals == 0 {
            return None;
        }
        let Some(&scale) = SCALES.get(decimals) else {
            return Some(self.fine(first == b'-'));
        };
        Some(scaled(amount, scale, first == b'-'))
    }

    /// A number is by far the most frequent value, so it alone is read where the value is wanted.
    #[inline(always)]
    fn value(&mut self) -> Option<Value> {
        self.work += 1;
        let first = self.next();
        if first.is_ascii_digit() || first == b'-' || first == b'.' || first == b'+' {
            self.number(first)
        } else {
            self.other_value(first)
        }
    }

    #[inline(never)]
    fn other_value(&mut self, first: u8) -> Option<Value> {
        self.place += 1;
        self.depth += 1;
        self.too_deep |= self.depth > DEEPEST;
        let value = match first {
            b'#' => {
                let number = self.value()?.parameter();
                if number.refusal != 0 {
                    number
                } else {
                    ranged(self.table[number.amount as usize])
                }
            }
            b'[' => self.expression()?,
            b'A' => self.function(b"BS[", i64::abs)?,
            b'R' => self.function(b"OUND[", rounded)?,
            b'F' if self.next() == b'I' => self.function(b"IX[", down)?,
            b'F' => self.function(b"UP[", up)?,
            _ => return None,
        };
        self.depth -= 1;
        Some(value)
    }

    #[inline(always)]
    fn function(&mut self, rest_of_name: &[u8], function: impl Fn(i64) -> i64) -> Option<Value> {
        self.spelled(rest_of_name)?;
        Some(self.expression()?.then(function))
    }

    /// After `[`. At most one operation of the lower kind waits, `lower` and its left side `sum`, while the term
    /// on its right grows by * / and MOD.
    fn expression(&mut self) -> Option<Value> {
        let mut lower = 0;
        let mut sum = right(0);
        let mut term = self.value()?;
        loop {
            let first = self.next();
            self.place += 1;
            match first {
                b']' => return Some(if lower == 0 { term } else { worked(lower, sum, term) }),
                b'+' | b'-' | b'*' | b'/' => {}
                b'M' => self.spelled(b"OD")?,
                b'A' => self.spelled(b"ND")?,
                b'O' => self.spelled(b"R")?,
                b'X' => self.spelled(b"OR")?,
                _ => return None,
            }
            self.work += 1;
            let value = self.value()?;
            if matches!(first, b'*' | b'/' | b'M') {
                term = worked(first, term, value);
            } else {
                sum = if lower == 0 { term } else { worked(lower, sum, term) };
                lower = first;
                term = value;
            }
        }
    }

    /// After `(`. Comments keep their blanks and small letters, so their bytes are looked at as they are.
    fn comment(&mut self) -> Option<()> {
        loop {
            let byte = *self.line.get(self.place)?;
            self.place += 1;
            match byte {
                b')' => return Some(()),
                b'(' => return None,
                b' '..=b'~' | b'\t' => {}
                _ => return None,
            }
        }
    }

    /// Mark, condition and line number: what a condition stops the line with, or 0.
    fn head(&mut self) -> Option<Refusal> {
        let mut first = self.next();
        let mut refusal = 0;
        if first == b'/' || first == b'\\' {
            refusal = self.mark(first)?;
            first = self.next();
        }
        if first != b'N' {
            return Some(refusal);
        }
        self.place += 1;
        let (_, count, _) = self.digits(0);
        if (1..=5).contains(&count) {
            Some(refusal)
        } else {
            None
        }
    }

    /// The switch of document 01's program is off: a plain `/` runs, and after a plain `\` nothing is read.
    #[inline(never)]
    fn mark(&mut self, mark: u8) -> Option<Refusal> {
        self.place += 1;
        if self.next() != b'[' {
            if mark == b'/' {
                return Some(0);
            }
            self.place = self.line.len();
            return Some(SKIPPED);
        }
        self.place += 1;
        self.depth += 1;
        let value = self.expression()?;
        self.depth -= 1;
        if value.refusal != 0 {
            return Some(value.refusal);
        }
        let zero = value.amount.abs() <= 1;
        Some(if zero == (mark == b'/') { SKIPPED } else { 0 })
    }
}

/// What the last of no, one, .. four decimals counts.
const SCALES: [i64; 5] = [10_000, 1_000, 100, 10, 1];

/// A number as written: its digits, what the last of them counts, and its sign.
#[inline(always)]
fn scaled(digits: u64, scale: i64, negative: bool) -> Value {
    let size = digits as i64 * scale;
    if size > LARGEST_VALUE {
        return refused(OUT_OF_RANGE);
    }
    right(if negative { -size } else { size })
}

// ---------------------------------------------------------------- Reading a line

/// The bit, and the place, of a letter.
const fn bit(letter: u8) -> u32 {
    1 << place(letter)
}

const fn place(letter: u8) -> usize {
    (letter & 31) as usize
}

const AXES: [u8; 3] = *b"XYZ";
const CENTRES: [u8; 3] = *b"IJK";
const ANY_AXIS: u32 = bit(b'X') | bit(b'Y') | bit(b'Z');
const ANY_CENTRE: u32 = bit(b'I') | bit(b'J') | bit(b'K');
/// Letters of words that are neither G nor M.
const PLAIN: u32 = ANY_AXIS | ANY_CENTRE | bit(b'F') | bit(b'L') | bit(b'P') | bit(b'S') | bit(b'T');

/// What stands on a line, as sets: small enough to stay in the processor's registers.
#[derive(Default)]
struct Seen {
    letters: u32,
    g_groups: u32,
    m_groups: u32,
    settings: usize,
    twice: bool,
    unserved: bool,
    refusal: Refusal,
}

/// The values of what was seen. Kept from line to line and never cleared: an entry is looked at only if the
/// sets say that this line has written it.
struct Spaces {
    values: [i64; 32],
    g_codes: [u16; 16],
    m_codes: [u16; 16],
    settings: [(u16, i64); MOST_SETTINGS],
}

impl Seen {
    fn met(&mut self, refusal: Refusal) {
        if self.refusal == 0 {
            self.refusal = refusal;
        }
    }

    /// Files a code under its group.
    #[inline(always)]
    fn code(groups: &mut u32, codes: &mut [u16; 16], group: u8, code: i64) -> bool {
        let twice = *groups >> group & 1 != 0;
        *groups |= 1 << group;
        codes[group as usize & 15] = code as u16;
        twice
    }

    #[inline(always)]
    fn g_word(&mut self, spaces: &mut Spaces, value: Value) {
        self.met(value.refusal);
        let code = near(value.amount, TENTH).unwrap_or(-1);
        match G_GROUPS.get(code as usize) {
            Some(&group) if group != UNSERVED => {
                self.twice |= Seen::code(&mut self.g_groups, &mut spaces.g_codes, group, code)
            }
            _ => self.unserved = true,
        }
    }

    #[inline(always)]
    fn m_word(&mut self, spaces: &mut Spaces, value: Value) {
        self.met(value.refusal);
        let code = near(value.amount, ONE).unwrap_or(-1);
        match m_group(code) {
            UNSERVED => self.unserved = true,
            group => self.twice |= Seen::code(&mut self.m_groups, &mut spaces.m_codes, group, code),
        }
    }

    #[inline(always)]
    fn plain_word(&mut self, spaces: &mut Spaces, letter: u8, value: Value) {
        self.met(value.refusal);
        self.twice |= self.letters & bit(letter) != 0;
        self.letters |= bit(letter);
        spaces.values[place(letter)] = value.amount;
    }

    fn setting(&mut self, spaces: &mut Spaces, number: Value, value: Value) {
        self.met(number.refusal);
        self.met(value.refusal);
        if self.refusal == 0 {
            spaces.settings[self.settings] = (number.amount as u16, value.amount);
            self.settings += 1;
        }
    }
}

/// Reads the line to its end, since a wrong form anywhere goes before all else that is wrong with it.
#[inline(always)]
fn read_line(reader: &mut Reader, spaces: &mut Spaces) -> Option<Seen> {
    let mut seen = Seen { refusal: reader.head()?, ..Seen::default() };
    loop {
        let first = reader.next();
        if first == 0 {
            if reader.too_deep {
                seen.refusal = TOO_DEEP;
            }
            return Some(seen);
        }
        reader.place += 1;
        match first {
            b'A'..=b'Z' if PLAIN & bit(first) != 0 => seen.plain_word(spaces, first, reader.value()?),
            b'G' => seen.g_word(spaces, reader.value()?),
            b'M' => seen.m_word(spaces, reader.value()?),
            b'(' => reader.comment()?,
            b'#' => {
                let number = reader.value()?.parameter();
                reader.spelled(b"=")?;
                seen.setting(spaces, number, reader.value()?);
            }
            _ => return None,
        }
    }
}

// ---------------------------------------------------------------- Judging a line

/// A line that has been read, and the modes, units and feed as the steps have set them by its motion.
struct Block<'a> {
    seen: Seen,
    spaces: &'a Spaces,
    motion: u16,
    plane: u16,
    distance: u16,
    units: u16,
    system: u16,
    feed: i64,
    /// The group 0 code, or one that is none.
    once: u16,
    moves: bool,
    arc: bool,
}

const NO_CODE: u16 = 9_999;
const G4: u16 = 40;
const G10: u16 = 100;
const G53: u16 = 530;
const G92: u16 = 920;
const G92_1: u16 = 921;
const G20: u16 = 200;
const G91: u16 = 910;
const G80: u16 = 800;

/// Counts of 10 nm in a ten-thousandth of a unit.
fn scale(units: u16) -> i64 {
    if units == G20 {
        254
    } else {
        10
    }
}

impl<'a> Block<'a> {
    #[inline(always)]
    fn new(seen: Seen, spaces: &'a Spaces, record: &Record) -> Block<'a> {
        let code = |group: usize, otherwise: u16| {
            if seen.g_groups & 1 << group != 0 {
                spaces.g_codes[group]
            } else {
                otherwise
            }
        };
        let (once, motion, letters) = (code(0, NO_CODE), code(1, record.motion), seen.letters);
        let moves = letters & ANY_AXIS != 0 && once != G10 && once != G92;
        Block {
            motion,
            plane: code(2, record.plane),
            distance: code(3, record.distance),
            units: code(6, record.units),
            system: code(12, record.system),
            feed: if letters & bit(b'F') != 0 { spaces.values[place(b'F')] * scale(record.units) } else { record.feed },
            once,
            moves,
            arc: moves && (motion == 20 || motion == 30),
            spaces,
            seen,
        }
    }

    fn any(&self, letters: u32) -> bool {
        self.seen.letters & letters != 0
    }

    fn has(&self, letter: u8) -> bool {
        self.any(bit(letter))
    }

    fn value(&self, letter: u8) -> i64 {
        self.spaces.values[place(letter)]
    }

    fn length(&self, letter: u8) -> i64 {
        self.value(letter) * scale(self.units)
    }

    /// G0 to G3 stand on the line.
    fn says_to_move(&self) -> bool {
        self.seen.g_groups & 2 != 0 && self.motion != G80
    }

    /// The plane's axes, in the order X, Y, Z.
    fn plane_axes(&self) -> (usize, usize) {
        match self.plane {
            180 => (0, 2),
            190 => (1, 2),
            _ => (0, 1),
        }
    }

    #[inline(always)]
    fn word_missing_or_idle(&self) -> bool {
        let (first, second) = self.plane_axes();
        let plane_centres = bit(CENTRES[first]) | bit(CENTRES[second]);
        let plane_words = bit(AXES[first]) | bit(AXES[second]);
        let (dwell, origin) = (self.once == G4, self.once == G10);
        let wants_axis = self.once == G92 || self.once == G53 || self.says_to_move();
        (dwell && !self.has(b'P'))
            || (origin && !(self.has(b'L') && self.has(b'P')))
            || (wants_axis && !self.any(ANY_AXIS))
            || (self.arc && !(self.any(plane_words) && self.any(plane_centres)))
            || (self.has(b'P') && !dwell && !origin)
            || (self.has(b'L') && !origin)
            || self.any(if self.arc { ANY_CENTRE & !plane_centres } else { ANY_CENTRE })
    }

    #[inline(always)]
    fn amount_wrong(&self) -> bool {
        let below_zero = |letter| self.has(letter) && self.value(letter) < 0;
        let not_whole = |letter, least, most| {
            self.has(letter) && !near(self.value(letter), ONE).is_some_and(|count| least <= count && count <= most)
        };
        below_zero(b'F')
            || below_zero(b'S')
            || (self.once == G4 && below_zero(b'P'))
            || not_whole(b'T', 0, 99)
            || not_whole(b'L', 2, 2)
            || (self.once == G10 && not_whole(b'P', 1, 9))
    }

    fn no_motion(&self) -> bool {
        (self.moves && (self.motion == G80 || (self.motion != 0 && self.feed == 0)))
            || (self.once == G53 && self.motion != 0 && self.motion != 10)
    }

    /// A skip, and numbers 16 and 4 to 12.
    #[inline(always)]
    fn refusal(&self) -> Refusal {
        if self.seen.refusal != 0 {
            self.seen.refusal
        } else if self.seen.unserved {
            NOT_SERVED
        } else if self.seen.twice || (self.says_to_move() && (self.once == G10 || self.once == G92)) {
            TWICE
        } else if self.word_missing_or_idle() {
            MISSING_OR_IDLE
        } else if self.amount_wrong() {
            WRONG_AMOUNT
        } else if self.no_motion() {
            NO_MOTION
        } else {
            0
        }
    }

    /// Where the three numbers of an origin begin in the record, for the system in force.
    fn origin(&self) -> usize {
        let system = if self.system > 590 { self.system - 591 + 6 } else { self.system / 10 - 54 };
        3 * system as usize
    }

    /// G10's P. It is looked at only once number 11 has been passed over.
    fn origin_named(&self) -> usize {
        3 * (near(self.value(b'P'), ONE).unwrap_or(1) as usize - 1)
    }

    /// The G92 offset after the line.
    #[inline(always)]
    fn offset(&self, record: &Record) -> [i64; 3] {
        let mut offset = record.offset;
        if self.once == G92 {
            for axis in 0..3 {
                if self.has(AXES[axis]) {
                    offset[axis] =
                        record.position[axis] - record.origins[self.origin() + axis] - self.length(AXES[axis]);
                }
            }
        } else if self.once == G92_1 {
            offset = [0; 3];
        }
        offset
    }

    #[inline(always)]
    fn target(&self, record: &Record, offset: &[i64; 3]) -> [i64; 3] {
        let mut target = record.position;
        for axis in 0..3 {
            if self.has(AXES[axis]) {
                let length = self.length(AXES[axis]);
                target[axis] = if self.once == G53 {
                    length
                } else if self.distance == G91 {
                    record.position[axis] + length
                } else {
                    length + record.origins[self.origin() + axis] + offset[axis]
                };
            }
        }
        target
    }

    fn centre(&self, record: &Record) -> [i64; 2] {
        let along =
            |axis: usize| record.position[axis] + if self.has(CENTRES[axis]) { self.length(CENTRES[axis]) } else { 0 };
        let (first, second) = self.plane_axes();
        [along(first), along(second)]
    }

    fn arc_wrong(&self, record: &Record, target: &[i64; 3], centre: &[i64; 2]) -> bool {
        let (first, second) = self.plane_axes();
        let squared = |from: &[i64; 3]| {
            let (a, b) = (from[first] - centre[0], from[second] - centre[1]);
            (a * a) as u64 + (b * b) as u64
        };
        let slack: u64 = if self.units == G20 { 508 } else { 200 };
        let (start, end) = (squared(&record.position), squared(target));
        // The roots differ by more than the slack where what the larger sum exceeds the other and the squared
        // slack by is more than twice the slack times the other's root. The squares of that need 128 bits.
        let more = start.abs_diff(end).saturating_sub(slack * slack);
        let square = |n: u64| u128::from(n) * u128::from(n);
        start == 0 || square(more) > u128::from(start.min(end)) * square(2 * slack)
    }

    fn named_out_of_reach(&self) -> bool {
        AXES.iter().any(|&axis| self.has(axis) && !in_reach(self.length(axis)))
    }
}

/// Where a line takes the tool.
struct Way {
    target: [i64; 3],
    centre: [i64; 2],
    offset: [i64; 3],
}

/// Numbers 13 and 14 are judged on what the steps would leave, so that nothing is worked out twice.
#[inline(always)]
fn way(block: &Block, record: &Record) -> Result<Way, Refusal> {
    let all_in_reach = |lengths: &[i64]| lengths.iter().fold(true, |so_far, &length| so_far & in_reach(length));
    let offset = block.offset(record);
    if block.once == G10 && block.named_out_of_reach() || block.once == G92 && !all_in_reach(&offset) {
        return Err(OUT_OF_REACH);
    }
    let mut way = Way { target: record.position, centre: [0; 2], offset };
    if !block.moves {
        return Ok(way);
    }
    way.target = block.target(record, &offset);
    if block.arc {
        way.centre = block.centre(record);
    }
    if !(all_in_reach(&way.target) && all_in_reach(&way.centre)) {
        return Err(OUT_OF_REACH);
    }
    if block.arc && block.arc_wrong(record, &way.target, &way.centre) {
        return Err(WRONG_ARC);
    }
    Ok(way)
}

// ---------------------------------------------------------------- Frames

/// Text to be written, in a space that is made once.
struct Frames {
    text: Vec<u8>,
    end: usize,
}

impl Frames {
    #[inline(always)]
    fn put(&mut self, kind: u8, fields: &[i64]) {
        let frame = &mut self.text[self.end..self.end + 3 + 10 * fields.len()];
        frame[..2].copy_from_slice(&HEXADECIMAL[kind as usize]);
        let mut at = 2;
        for field in fields {
            let digits = &mut frame[at..at + 10];
            for (pair, byte) in digits.chunks_exact_mut(2).zip(&field.to_be_bytes()[3..]) {
                pair.copy_from_slice(&HEXADECIMAL[*byte as usize]);
            }
            at += 10;
        }
        frame[at] = b'\n';
        self.end += at + 1;
    }

    fn write_out(&mut self, output: &mut impl Write) -> io::Result<()> {
        let text = &self.text[..self.end];
        self.end = 0;
        output.write_all(text)
    }
}

// ---------------------------------------------------------------- Carrying a line out

/// F, S, T, and what the M words but the stop do.
#[inline(always)]
fn start(block: &Block, record: &mut Record, frames: &mut Frames) {
    if block.has(b'F') {
        record.feed = block.feed;
        frames.put(1, &[block.feed]);
    }
    if block.has(b'S') {
        record.speed = block.value(b'S');
        frames.put(2, &[record.speed]);
    }
    if block.has(b'T') {
        record.tool = near(block.value(b'T'), ONE).unwrap_or(0) as u8;
        frames.put(3, &[record.tool as i64]);
    }
    if block.seen.m_groups != 0 {
        machine(block, record, frames);
    }
    if block.once == G4 {
        frames.put(7, &[block.value(b'P')]);
    }
}

#[inline(never)]
fn machine(block: &Block, record: &mut Record, frames: &mut Frames) {
    let groups = block.seen.m_groups;
    if groups & 1 << 6 != 0 {
        record.spindle = 0;
        frames.put(4, &[]);
    }
    if groups & 1 << 7 != 0 {
        record.spindle = match block.spaces.m_codes[7] {
            3 => 1,
            4 => 2,
            _ => 0,
        };
        frames.put(5, &[record.spindle as i64]);
    }
    if groups & 1 << 8 != 0 {
        let coolant = match block.spaces.m_codes[8] {
            7 => 1,
            8 => 2,
            _ => 0,
        };
        // M7 and M8 keep each other on.
        record.coolant = if coolant == 0 { 0 } else { record.coolant | coolant };
        frames.put(6, &[coolant as i64]);
    }
}

#[inline(always)]
fn movement(block: &Block, way: &Way, record: &mut Record, frames: &mut Frames) {
    let [x, y, z] = way.target;
    match block.motion {
        0 => frames.put(8, &[x, y, z]),
        10 => frames.put(9, &[x, y, z]),
        code => {
            let (code, plane) = (code as i64 / 10, block.plane as i64 / 10);
            frames.put(10, &[code, plane, x, y, z, way.centre[0], way.centre[1]]);
        }
    }
    record.position = way.target;
}

fn stop(block: &Block, record: &mut Record, frames: &mut Frames) {
    let code = block.spaces.m_codes[4];
    frames.put(11, &[code as i64]);
    if code == 2 || code == 30 {
        let fresh = Record::fresh();
        record.system = fresh.system;
        record.plane = fresh.plane;
        record.distance = fresh.distance;
        record.motion = 10;
        record.spindle = 0;
        record.coolant = 0;
        record.offset = [0; 3];
    }
}

#[inline(always)]
fn carry_out(block: &Block, way: &Way, record: &mut Record, frames: &mut Frames) {
    start(block, record, frames);
    record.plane = block.plane;
    record.units = block.units;
    record.system = block.system;
    record.distance = block.distance;
    if block.once == G10 {
        for axis in 0..3 {
            if block.has(AXES[axis]) {
                record.origins[block.origin_named() + axis] = block.length(AXES[axis]);
            }
        }
    }
    record.offset = way.offset;
    record.motion = block.motion;
    if block.moves {
        movement(block, way, record, frames);
    }
    if block.seen.m_groups & 1 << 4 != 0 {
        stop(block, record, frames);
    }
}

struct Session {
    record: Record,
    table: Box<[i64; TABLE_LENGTH]>,
    spaces: Spaces,
}

impl Session {
    fn new() -> Session {
        let spaces = Spaces { values: [0; 32], g_codes: [0; 16], m_codes: [0; 16], settings: [(0, 0); MOST_SETTINGS] };
        Session { record: Record::fresh(), table: Box::new([0; TABLE_LENGTH]), spaces }
    }

    /// The frames of one line, and the values and operations worked out for it; or why it is refused or skipped: such a
    /// line changes nothing. The output space of document 01's program is larger than any line's commands, so number 15
    /// cannot come.
    fn line(&mut self, line: &[u8], frames: &mut Frames) -> Result<usize, Refusal> {
        if !self.record.in_order() {
            return Err(OUT_OF_ORDER);
        }
        if line.len() > LONGEST_LINE {
            return Err(TOO_LONG);
        }
        let mut reader = Reader { line, place: 0, table: &self.table, work: 0, depth: 0, too_deep: false };
        let seen = read_line(&mut reader, &mut self.spaces).ok_or(WRONG_FORM)?;
        let work = reader.work;
        let block = Block::new(seen, &self.spaces, &self.record);
        match block.refusal() {
            0 => {}
            refusal => return Err(refusal),
        }
        let way = way(&block, &self.record)?;
        carry_out(&block, &way, &mut self.record, frames);
        for &(number, value) in &self.spaces.settings[..block.seen.settings] {
            self.table[number as usize] = value;
        }
        Ok(work)
    }
}

// ---------------------------------------------------------------- The program

/// Where the first line feed stands. Eight bytes at a time: a byte of `marks` is set where one of `bytes` is 10.
fn line_feed(text: &[u8]) -> Option<usize> {
    const ONES: u64 = u64::from_ne_bytes([1; 8]);
    const FEEDS: u64 = u64::from_ne_bytes([b'\n'; 8]);
    const TOPS: u64 = u64::from_ne_bytes([0x80; 8]);
    let (eights, rest) = text.as_chunks::<8>();
    for (count, &eight) in eights.iter().enumerate() {
        let bytes = u64::from_le_bytes(eight) ^ FEEDS;
        let marks = bytes.wrapping_sub(ONES) & !bytes & TOPS;
        if marks != 0 {
            return Some(8 * count + (marks.trailing_zeros() / 8) as usize);
        }
    }
    rest.iter().position(|&byte| byte == b'\n').map(|place| 8 * eights.len() + place)
}

/// Works the lines that end in `text`, the last one too if nothing is to follow. How many bytes were
/// used, or `None` after a refusal.
fn work_lines(
    session: &mut Session,
    text: &[u8],
    last: bool,
    frames: &mut Frames,
    output: &mut impl Write,
) -> io::Result<Option<usize>> {
    let mut used = 0;
    while used < text.len() {
        let rest = &text[used..];
        let (line, length) = match line_feed(rest) {
            Some(end) => (rest[..end].strip_suffix(b"\r").unwrap_or(&rest[..end]), end + 1),
            // Too long whatever follows: a carriage return and a line feed may still belong to it.
            None if last || rest.len() > LONGEST_LINE + 1 => (rest, rest.len()),
            None => break,
        };
        if frames.text.len() - frames.end < LINE_OF_FRAMES {
            frames.write_out(output)?;
        }
        match session.line(line, frames) {
            // Frames do not tell it; it is counted all the same, as in what is measured beside this.
            Ok(work) => drop(black_box(work)),
            Err(SKIPPED) => {}
            Err(refusal) => {
                frames.put(0xFF, &[refusal as i64]);
                return Ok(None);
            }
        }
        used += length;
    }
    Ok(Some(used))
}

fn main() -> io::Result<()> {
    let (mut input, mut output) = (io::stdin().lock(), io::stdout().lock());
    let mut frames = Frames { text: vec![0; BUFFER + LINE_OF_FRAMES], end: 0 };
    let mut buffer = vec![0; BUFFER];
    let mut session = Session::new();
    let mut held = 0;
    loop {
        let got = input.read(&mut buffer[held..])?;
        let end = held + got;
        let used = work_lines(&mut session, &buffer[..end], got == 0, &mut frames, &mut output)?;
        frames.write_out(&mut output)?;
        match used {
            Some(used) if got > 0 => {
                buffer.copy_within(used..end, 0);
                held = end - used;
            }
            _ => return Ok(()),
        }
    }
}
