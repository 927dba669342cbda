//! Deterministic lines, cases and programs. A draft is a list of words with the values they are
//! meant to have, aimed at a limit of the rules; it is then written with expressions, parameters,
//! comments, blanks and mixed case, and a share of the lines is damaged afterwards.

use crate::cases::Case;
use crate::rules::{self, counts, plane_axes, system_place, Record, LONGEST_LINE, REACH, TABLE_LENGTH, VALUE_LIMIT};
use std::sync::LazyLock;

/// A xorshift generator; equal seeds roll equal numbers.
pub struct Dice(u64);

impl Dice {
    pub fn new(seed: u64) -> Dice {
        let mixed = (seed.wrapping_add(1)).wrapping_mul(0x9E37_79B9_7F4A_7C15);
        let mut dice = Dice((mixed ^ (mixed >> 29)) | 1);
        for _ in 0..8 {
            dice.roll();
        }
        dice
    }

    fn roll(&mut self) -> u64 {
        self.0 ^= self.0 << 13;
        self.0 ^= self.0 >> 7;
        self.0 ^= self.0 << 17;
        self.0.wrapping_mul(0x2545_F491_4F6C_DD1D) >> 16
    }

    pub fn below(&mut self, bound: usize) -> usize {
        (self.roll() % bound.max(1) as u64) as usize
    }

    pub fn one_in(&mut self, bound: usize) -> bool {
        self.below(bound) == 0
    }

    pub fn pick<T: Copy>(&mut self, from: &[T]) -> T {
        from[self.below(from.len())]
    }

    fn between(&mut self, least: i64, most: i64) -> i64 {
        least + (self.roll() % (most - least + 1) as u64) as i64
    }

    pub fn shuffle<T>(&mut self, list: &mut [T]) {
        for place in (1..list.len()).rev() {
            list.swap(place, self.below(place + 1));
        }
    }
}

/// The words a line shall have, finished items beside them, and the record and table it is aimed at.
struct Draft {
    words: Vec<(u8, i64)>,
    items: Vec<Vec<u8>>,
    record: Record,
    changes: Vec<(usize, i64)>,
}

const LETTERS: &[u8; 13] = b"FGIJKLMPSTXYZ";
static SERVED_G: LazyLock<Vec<i64>> = LazyLock::new(rules::served_g);
static SERVED_M: LazyLock<Vec<i64>> = LazyLock::new(rules::served_m);
/// G and M numbers not served, in ten-thousandths.
const WRONG_G: [i64; 14] = [
    50_000, 410_000, 594_000, 595_000, 990_000, 999_000, 999_999, 1_000_000, -10_000, -1_000, 500, 1_500, 922_000,
    382_000,
];
const WRONG_M: [i64; 10] = [100_000, 480_000, 600_000, 990_000, 999_999, 1_000_000, -10_000, 5_000, 1_000, 310_000];
/// Values at and around the limits: range, reach in both units, whole numbers, rounding halves.
const EDGE_VALUES: [i64; 36] = [
    0,
    1,
    -1,
    2,
    -2,
    4_999,
    5_000,
    -5_000,
    5_001,
    9_998,
    9_999,
    10_000,
    10_001,
    10_002,
    20_000,
    -25_000,
    90_000,
    100_000,
    989_999,
    990_001,
    990_002,
    1_000_000,
    999_990_001,
    999_994_999,
    999_995_000,
    -999_990_001,
    999_999_999,
    -999_999_999,
    1_000_000_000,
    -1_000_000_000,
    100_000_000,
    100_000_001,
    3_937_007,
    3_937_008,
    -100_000_001,
    -3_937_008,
];
const EDGE_GOALS: [i64; 6] = [REACH, -REACH, REACH + 1, -REACH - 1, REACH - 1, 1 - REACH];
/// Radius differences around the slack of both units, also in their steps of 10 and 254.
const SLACKS: [i64; 16] = [0, 0, 0, 1, 100, 190, 199, 200, 201, 210, 254, 507, 508, 509, 510, 762];
const MODES: [(&[i64], usize); 5] = [
    (&[0, 10, 20, 30, 800], 1),
    (&[170, 180, 190], 2),
    (&[900, 910], 3),
    (&[200, 210], 6),
    (&[540, 550, 560, 570, 580, 590, 591, 592, 593], 12),
];

// ---------------------------------------------------------------- Records

fn length(dice: &mut Dice) -> i64 {
    match dice.below(8) {
        0 | 1 => 0,
        2 => dice.pick(&[REACH, -REACH, REACH - 1, 1 - REACH]),
        3 => dice.between(-REACH, REACH),
        4 => dice.between(-1_000, 1_000) * 254,
        5 => dice.between(-300, 300),
        _ => dice.between(-100_000, 100_000) * 10,
    }
}

fn record(dice: &mut Dice) -> Record {
    let mut numbers = Record::fresh().to_numbers();
    if dice.one_in(8) {
        return Record::from_numbers(&numbers);
    }
    for (place, number) in numbers.iter_mut().enumerate().take(33) {
        if place < 6 || place >= 30 || dice.one_in(3) {
            *number = length(dice);
        }
    }
    for (place, (codes, _)) in MODES.iter().enumerate() {
        numbers[33 + place] = dice.pick(codes);
    }
    numbers[38] = dice.pick(&[0, 1, 10, 254, 10_000_000, 10_000_000, 253_999_999_746]);
    numbers[39] = dice.pick(&[0, 1, 12_000_000, 999_999_999]);
    numbers[40] = dice.between(0, 99);
    numbers[41] = dice.between(0, 2);
    numbers[42] = dice.between(0, 3);
    Record::from_numbers(&numbers)
}

/// Puts one field of a record just or far outside its range.
fn put_out_of_order(dice: &mut Dice, numbers: &mut [i64; 43]) {
    let place = if dice.one_in(3) { dice.below(33) } else { 33 + dice.below(10) };
    let outside: &[i64] = match place {
        0..=32 => &[REACH + 1, -REACH - 1, i64::MAX, i64::MIN],
        33 => &[-1, 1, 9, 11, 40, 170, 799, 801, 1_000, i64::MIN],
        34 => &[-1, 0, 17, 169, 171, 200, 1_700, i64::MAX],
        35 => &[0, 90, 899, 901, 920, 940],
        36 => &[0, 20, 21, 190, 199, 201, 211],
        37 => &[0, 1, 9, 530, 539, 541, 594, 600, -540],
        38 => &[-1, 253_999_999_747, i64::MIN],
        39 => &[-1, 1_000_000_000, i64::MAX],
        40 => &[-1, 100],
        41 => &[-1, 3],
        _ => &[-1, 4],
    };
    numbers[place] = dice.pick(outside);
}

// ---------------------------------------------------------------- Drafts

impl Draft {
    fn g(&mut self, code: i64) {
        self.words.push((b'G', code * 1_000));
    }

    fn m(&mut self, code: i64) {
        self.words.push((b'M', code * 10_000));
    }

    /// A mode of a group: sometimes the line's own code, sometimes the record's, set or as it is.
    fn mode(&mut self, dice: &mut Dice, group: usize, wanted: &[i64]) -> i64 {
        let held = match group {
            1 => &mut self.record.motion,
            2 => &mut self.record.plane,
            3 => &mut self.record.distance,
            6 => &mut self.record.units,
            _ => &mut self.record.system,
        };
        let code = dice.pick(wanted);
        if dice.one_in(3) {
            *held = code;
        } else if *held != code || dice.one_in(4) {
            self.g(code);
        }
        code
    }

    fn any_mode(&mut self, dice: &mut Dice, group: usize) -> i64 {
        let codes = MODES.iter().find(|mode| mode.1 == group).map_or(&[0][..], |mode| mode.0);
        self.mode(dice, group, codes)
    }
}

fn coordinate(dice: &mut Dice) -> i64 {
    match dice.below(16) {
        0 | 1 => 0,
        2 => dice.pick(&EDGE_VALUES),
        3 => dice.between(-VALUE_LIMIT, VALUE_LIMIT),
        4 | 5 => dice.between(-30, 30),
        _ => dice.between(-200_000, 200_000),
    }
}

/// A whole number, sometimes 0.0001 or 0.0002 off.
fn whole(dice: &mut Dice, number: i64) -> i64 {
    number * 10_000 + if dice.one_in(8) { dice.pick(&[1, 1, 1, -1, -1, -1, 2, -2]) } else { 0 }
}

/// Where a move shall end: mostly near, sometimes at the reach.
fn goal(dice: &mut Dice) -> i64 {
    if dice.one_in(6) {
        dice.pick(&EDGE_GOALS)
    } else {
        length(dice)
    }
}

/// A rapid or feed move; origin or position is set so that it ends at its goal.
fn straight(dice: &mut Dice, draft: &mut Draft) {
    draft.mode(dice, 1, &[0, 10]);
    let units = draft.any_mode(dice, 6);
    let distance = draft.any_mode(dice, 3);
    let system = system_place(draft.any_mode(dice, 12));
    if dice.one_in(5) {
        draft.g(530);
    } else if dice.one_in(8) {
        draft.g(921);
    }
    for axis in 0..3 {
        if dice.one_in(2) {
            let word = coordinate(dice);
            let rest = goal(dice) - counts(word, units);
            let record = &mut draft.record;
            let (held, wanted) = match distance {
                910 => (&mut record.position[axis], rest),
                _ => (&mut record.origins[3 * system + axis], rest - record.offset[axis]),
            };
            if wanted.abs() <= REACH {
                *held = wanted;
            }
            draft.words.push((b"XYZ"[axis], word));
        }
    }
}

/// An arc whose end radius differs from its start radius by about the slack.
fn arc(dice: &mut Dice, draft: &mut Draft) {
    draft.mode(dice, 1, &[20, 30]);
    let units = draft.any_mode(dice, 6);
    let axes = plane_axes(draft.any_mode(dice, 2));
    let distance = draft.any_mode(dice, 3);
    let system = system_place(draft.any_mode(dice, 12));
    if draft.record.feed == 0 && dice.one_in(2) {
        draft.record.feed = 1_000_000;
    }
    let size = dice.pick(&[3, 100, 30_000, 2_000_000]);
    let mut radius = [dice.between(-size, size), dice.between(-size, size)];
    if dice.one_in(2) {
        radius[dice.below(2)] = 0;
    }
    if dice.one_in(10) {
        let (place, centre) = (dice.below(2), dice.pick(&EDGE_GOALS));
        draft.record.position[axes[place]] = (centre - counts(radius[place], units)).clamp(-REACH, REACH);
    }
    let end = arc_end(dice, radius.map(|word| counts(word, units)));
    for place in 0..2 {
        let axis = axes[place];
        if radius[place] != 0 || dice.one_in(3) {
            draft.words.push((b"IJK"[axis], radius[place]));
        }
        let step = counts(radius[place], units) + end[place];
        arc_axis(dice, draft, (axis, units, distance, system), step);
    }
    if dice.one_in(3) {
        draft.words.push((b"XYZ"[3 - axes[0] - axes[1]], coordinate(dice)));
    }
    if dice.one_in(30) {
        draft.g(530);
    }
}

/// An end as seen from the centre, on or near the circle through the start.
fn arc_end(dice: &mut Dice, radius: [i64; 2]) -> [i64; 2] {
    let mut end = radius.map(|part| if dice.one_in(2) { part } else { -part });
    if dice.one_in(3) {
        end.swap(0, 1);
    }
    let longest = usize::from(end[1].abs() > end[0].abs());
    let slack = dice.pick(&SLACKS);
    end[longest] += if dice.one_in(2) { slack } else { -slack };
    end
}

/// An arc whose true radii differ by the slack, to a count or less, from a start that may be as far from the centre as
/// the reach lets it be.
fn limit_arc(dice: &mut Dice, draft: &mut Draft) {
    draft.mode(dice, 1, &[20, 30]);
    let units = draft.any_mode(dice, 6);
    let axes = plane_axes(draft.any_mode(dice, 2));
    let distance = draft.mode(dice, 3, &[900]);
    let system = system_place(draft.any_mode(dice, 12));
    draft.record.feed = draft.record.feed.max(1);
    let size = dice.pick(&[30, 3_000, 2_000_000, REACH / counts(1, units), 2 * REACH / counts(1, units)]);
    let mut centre = [dice.between(-size, size), dice.between(-size, size)];
    if dice.one_in(3) {
        centre[dice.below(2)] = 0;
    }
    let end = limit_end(dice, centre.map(|word| counts(word, units)), if units == 200 { 508 } else { 200 });
    for place in 0..2 {
        let (axis, word) = (axes[place], centre[place]);
        let step = counts(word, units) + end[place];
        move_start(dice, &mut draft.record.position[axis], [counts(word, units), step]);
        draft.words.push((b"IJK"[axis], word));
        arc_axis(dice, draft, (axis, units, distance, system), step);
    }
}

/// An end as seen from the centre: the nearest point that passes or is refused, or one beside it.
fn limit_end(dice: &mut Dice, start: [i64; 2], slack: u128) -> [i64; 2] {
    let square = |part: i64| u128::from(part.unsigned_abs()).pow(2);
    let sum = square(start[0]) + square(start[1]);
    let twice = (4 * slack.pow(2) * sum).isqrt();
    let limit = if dice.one_in(2) { sum + slack.pow(2) + twice } else { sum + slack.pow(2) - twice };
    let longest = limit.isqrt() as i64;
    let first = if dice.one_in(3) { longest - dice.between(0, longest.min(2)) } else { dice.between(0, longest) };
    let second = (limit - square(first)).isqrt() as i64 + dice.between(-1, 2);
    let mut end = [first, second].map(|part| if dice.one_in(2) { part } else { -part });
    if dice.one_in(2) {
        end.swap(0, 1);
    }
    end
}

/// Moves a start on one axis so that the places that lie so far from it are in reach, if they can be.
fn move_start(dice: &mut Dice, start: &mut i64, from_it: [i64; 2]) {
    let least = -REACH - from_it[0].min(from_it[1]).min(0);
    let most = REACH - from_it[0].max(from_it[1]).max(0);
    if least <= most && (dice.one_in(3) || !(least..=most).contains(start)) {
        *start = if dice.one_in(2) { dice.between(least, most) } else { dice.pick(&[least, most]) };
    }
}

/// The axis word of an arc that steps so far from the position.
fn arc_axis(dice: &mut Dice, draft: &mut Draft, (axis, units, distance, system): (usize, i64, i64, usize), step: i64) {
    let unit = counts(1, units);
    if distance == 910 {
        draft.words.push((b"XYZ"[axis], step / unit));
        return;
    }
    let record = &mut draft.record;
    let place = 3 * system + axis;
    let mut from_origin = record.position[axis] + step - record.origins[place] - record.offset[axis];
    if from_origin % unit != 0 || from_origin.abs() > unit * 10_000_000 {
        let word = dice.between(-50_000, 50_000);
        let wanted = record.position[axis] + step - record.offset[axis] - word * unit;
        if wanted.abs() <= REACH {
            record.origins[place] = wanted;
            from_origin = word * unit;
        }
    }
    if step != 0 || dice.one_in(2) {
        draft.words.push((b"XYZ"[axis], (from_origin / unit).clamp(-VALUE_LIMIT, VALUE_LIMIT)));
    }
}

/// G10, G92 or G92.1.
fn origins_and_offset(dice: &mut Dice, draft: &mut Draft) {
    let code = dice.pick(&[100, 100, 920, 920, 921]);
    draft.g(code);
    if dice.one_in(6) {
        draft.g(800);
    }
    let units = draft.any_mode(dice, 6);
    let system = system_place(draft.any_mode(dice, 12));
    if code == 100 {
        let number = dice.pick(&[1, 1, 2, 3, 4, 5, 6, 7, 8, 9, 9, 0, 10]);
        let way = if dice.one_in(6) { dice.pick(&[1, 3]) } else { 2 };
        let (number, way) = (whole(dice, number), whole(dice, way));
        draft.words.extend([(b'P', number), (b'L', way)]);
    }
    for axis in 0..3 {
        if dice.one_in(2) && code != 921 {
            let word = coordinate(dice);
            draft.words.push((b"XYZ"[axis], word));
            let wanted = goal(dice) + counts(word, units) + draft.record.origins[3 * system + axis];
            if code == 920 && wanted.abs() <= REACH {
                draft.record.position[axis] = wanted;
            }
        }
    }
}

/// F, S, T, tool change, spindle, coolant, dwell, stop and the codes that do nothing further.
fn dressing(dice: &mut Dice, draft: &mut Draft, seldom: usize) {
    if dice.one_in(seldom) {
        let feed =
            dice.pick(&[0, 1, 1, -1, 1_000_000, 1_000_000, 30_000, VALUE_LIMIT, VALUE_LIMIT, 250_000, 77, 5_000_000]);
        draft.words.push((b'F', feed));
    }
    if dice.one_in(seldom + 1) {
        let speed = dice.pick(&[0, 0, 1, 1, -1, 12_000_000, 12_000_000, VALUE_LIMIT, VALUE_LIMIT, 5, 3_000_000]);
        draft.words.push((b'S', speed));
    }
    if dice.one_in(seldom + 1) {
        let tool = dice.pick(&[0, 0, 0, 1, 2, 7, 50, 98, 99, 99, 99, 100, -1]);
        draft.words.push((b'T', whole(dice, tool)));
    }
    for (codes, more) in [(&[6][..], 2), (&[3, 4, 5], 1), (&[7, 8, 9], 1), (&[0, 1, 2, 30], 3)] {
        if dice.one_in(seldom + more) {
            draft.m(dice.pick(codes));
        }
    }
    if dice.one_in(2 * seldom) && !draft.words.contains(&(b'G', 530_000)) {
        draft.g(40);
        let time = dice.pick(&[0, 1, -1, 5_000, 20_000, VALUE_LIMIT]);
        draft.words.push((b'P', time));
    }
    for code in [940, 400, 490] {
        if dice.one_in(4 * seldom) {
            draft.g(code);
        }
    }
}

/// All nine commands a line can give at once.
fn everything(dice: &mut Dice, draft: &mut Draft) {
    draft.mode(dice, 1, &[0, 10]);
    draft.g(40);
    draft.words.extend([(b'F', 10_000), (b'S', 20_000), (b'T', 30_000), (b'P', 40_000)]);
    for codes in [&[6][..], &[3, 4, 5], &[7, 8, 9], &[0, 1, 2, 30]] {
        draft.m(dice.pick(codes));
    }
    let distance = dice.between(-500, 500);
    draft.words.push((dice.pick(b"XYZ"), distance));
}

/// Settings of numbers at the edges of the table and around whole numbers.
fn settings(dice: &mut Dice, draft: &mut Draft) {
    for _ in 0..=dice.below(4) {
        let number = match dice.below(20) {
            0 => dice.pick(&[0, 5_000, -1]),
            _ => dice.pick(&[1, 1, 2, 3, 30, 61, 4_998, 4_999, 4_999]),
        };
        let number = whole(dice, number);
        let value = coordinate(dice);
        let depth = dice.below(4);
        let mut item = b"#".to_vec();
        item.extend(value_text(dice, &mut draft.changes, number, depth.min(2)));
        item.push(b'=');
        item.extend(value_text(dice, &mut draft.changes, value, depth));
        draft.items.push(item);
    }
}

/// Words with values of any make, where each of numbers 5 to 7 may be met.
fn free_values(dice: &mut Dice, draft: &mut Draft) {
    draft.changes.extend((1..=12).map(|number| (number, dice.between(1, 12) * 10_000)));
    let other = if dice.one_in(3) { dice.pick(&EDGE_VALUES) } else { 5_000 };
    draft.changes.push((13, other));
    for _ in 0..=dice.below(3) {
        let depth = 1 + dice.below(3);
        let mut item = vec![dice.pick(b"XYZ#FS")];
        if item[0] == b'#' {
            item.extend(any_value(dice, depth - 1));
            item.push(b'=');
        }
        item.extend(any_value(dice, depth));
        draft.items.push(item);
    }
}

/// Any letters with any values.
fn soup(dice: &mut Dice, draft: &mut Draft) {
    for _ in 0..dice.below(6) {
        let word = any_word(dice);
        draft.words.push(word);
    }
}

fn any_word(dice: &mut Dice) -> (u8, i64) {
    let letter = dice.pick(LETTERS);
    match letter {
        b'G' if dice.one_in(8) => (letter, dice.pick(&WRONG_G)),
        b'M' if dice.one_in(8) => (letter, dice.pick(&WRONG_M)),
        b'G' => (letter, dice.pick(&SERVED_G) * 1_000),
        b'M' => (letter, dice.pick(&SERVED_M) * 10_000),
        b'T' | b'L' | b'P' => (letter, dice.between(0, 10) * 10_000),
        _ => (letter, coordinate(dice)),
    }
}

/// Brackets, hashes or operations to the end of the 256 bytes.
fn deep(dice: &mut Dice, draft: &mut Draft) {
    let most = dice.pick(&[124, 125, 126, 126, 127]);
    let item = match dice.below(3) {
        0 => [b"Y".to_vec(), vec![b'['; most], b"1".to_vec(), vec![b']'; most]].concat(),
        1 => {
            draft.changes.push((1, 10_000));
            [b"Y".to_vec(), vec![b'#'; 2 * most], b"1".to_vec()].concat()
        }
        _ => {
            let links = [&b"+1"[..], b"-1", b"*1", b"/1"];
            let mut item = b"Y[1".to_vec();
            (0..most - 1).for_each(|_| item.extend(dice.pick(&links)));
            [item, b"]".to_vec()].concat()
        }
    };
    draft.items.push(item);
}

/// How deep nests go: about the limit of 24.
const NESTINGS: [usize; 9] = [22, 23, 24, 24, 24, 25, 25, 25, 26];
/// What can stand around a value in a nest, before and after it; entry 1 of the table is 1, and none of these makes
/// another value of 1.
const BRACKETS: &[(&[u8], &[u8])] = &[(b"[", b"]")];
const HASHES: &[(&[u8], &[u8])] = &[(b"#", b"")];
const FUNCTIONS: &[(&[u8], &[u8])] = &[(b"ABS[", b"]"), (b"FIX[", b"]"), (b"FUP[", b"]"), (b"ROUND[", b"]")];
const OPERATIONS: &[(&[u8], &[u8])] =
    &[(b"[0+", b"]"), (b"[", b"*1]"), (b"[1 MOD 2*", b"]"), (b"[", b"AND#1]"), (b"[[1]*", b"]"), (b"[", b"-#[1]+1]")];
const MIXED: &[(&[u8], &[u8])] =
    &[(b"[", b"]"), (b"#", b""), (b"#[", b"]"), (b"ABS[", b"]"), (b"#FIX[", b"]"), (b"[1*", b"]"), (b"[", b"+0]")];

/// Nests of brackets, hashes, functions and operations about as deep as the limit, in words and on both sides of
/// settings, alone or two beside each other; sometimes a bracket is missing or one too many, and sometimes one of
/// numbers 5 to 7 stands in the middle or on the same line.
fn nest(dice: &mut Dice, draft: &mut Draft) {
    if draft.changes.iter().all(|change| change.0 != 1) {
        draft.changes.push((1, 10_000));
    }
    let mut value = nested(dice);
    if dice.one_in(4) && value.len() < 90 {
        let beside = nested(dice);
        let between = dice.pick(&[&b"+"[..], b"*", b"MOD", b"AND"]);
        value = joined(&[b"[", &value, between, &beside, b"]"]);
    }
    if dice.one_in(8) {
        let place = dice.below(value.len());
        if dice.one_in(2) {
            value.remove(place);
        } else {
            value.insert(place, dice.pick(b"[]#"));
        }
    }
    draft.items.push(match dice.below(8) {
        0 | 1 => joined(&[b"#", &value, b"=7"]),
        2 | 3 => joined(&[b"#2=", &value]),
        4 => joined(&[b"##1=", &value]),
        5 => joined(&[b"#1=[", &in_a_row(dice), b"]"]),
        _ => joined(&[&[dice.pick(b"XYZFS")], &value]),
    });
    if dice.one_in(4) {
        draft.items.push(stopped_item(dice));
    }
}

/// A value in a nest; a `#` and a `[` in one piece are two levels, so a nest may be one deeper than picked.
fn nested(dice: &mut Dice) -> Vec<u8> {
    let around = dice.pick(&[BRACKETS, HASHES, FUNCTIONS, OPERATIONS, MIXED, MIXED]);
    let (mut before, mut after, mut levels) = (Vec::new(), Vec::new(), dice.pick(&NESTINGS));
    while levels > 0 {
        let (opening, closing) = dice.pick(around);
        before.extend(opening);
        after.splice(0..0, closing.iter().copied());
        levels = levels.saturating_sub(opening.iter().filter(|byte| b"[#".contains(byte)).count().min(2));
    }
    let core = if dice.one_in(8) { dice.pick(&[&b"0"[..], b"5000", b"100000", b"1.00001"]) } else { b"1" };
    joined(&[&before, core, &after])
}

/// More brackets and hashes than the limit, but in a row: none of them is around another.
fn in_a_row(dice: &mut Dice) -> Vec<u8> {
    let values: Vec<&[u8]> = (0..20 + dice.below(10)).map(|_| dice.pick(&[&b"[1]"[..], b"#1", b"#[1]"])).collect();
    values.join(&b"*"[..])
}

/// Changes a draft so that a later number is likely to apply.
fn disturb(dice: &mut Dice, draft: &mut Draft) {
    let extra = any_word(dice);
    let place = dice.below(draft.words.len());
    let Some(&word) = draft.words.get(place) else {
        draft.words.push(extra);
        return;
    };
    match dice.below(8) {
        0 => drop(draft.words.remove(place)),
        1 => draft.words.push(word),
        2 | 3 => draft.words.push(extra),
        4 => draft.g(dice.pick(&SERVED_G)),
        5 => draft.words[place].1 += dice.pick(&[1, -1, 2, -2]),
        6 if dice.one_in(2) => draft.words[place].1 = dice.pick(&EDGE_VALUES),
        6 => draft.items.push(stopped_item(dice)),
        _ if dice.one_in(2) => draft.words.push((b'G', dice.pick(&WRONG_G))),
        _ => draft.words.push((b'M', dice.pick(&WRONG_M))),
    }
}

/// An item whose value stops the line, by one of the numbers 5 to 7.
fn stopped_item(dice: &mut Dice) -> Vec<u8> {
    let values = [
        &b"[1/0]"[..],
        b"[5 MOD 0]",
        b"[1/[0.0001*0.4]]",
        b"[2 MOD [3-3]]",
        b"100000",
        b"[99999+1]",
        b"[-400*400]",
        b"FUP[99999.5]",
        b"[1/0.00004]",
        b"99999.99995",
        b"#5000",
    ];
    let mut item = if dice.one_in(2) { b"#9=".to_vec() } else { vec![dice.pick(LETTERS)] };
    item.extend(dice.pick(&values));
    item
}

fn draft(dice: &mut Dice, record: Record) -> Draft {
    let mut draft = Draft { words: Vec::new(), items: Vec::new(), record, changes: Vec::new() };
    match dice.below(16) {
        0..=3 => straight(dice, &mut draft),
        4 | 5 => arc(dice, &mut draft),
        6 | 7 => limit_arc(dice, &mut draft),
        8 | 9 => origins_and_offset(dice, &mut draft),
        10 => settings(dice, &mut draft),
        11 | 12 => free_values(dice, &mut draft),
        13 => soup(dice, &mut draft),
        14 if dice.one_in(4) => deep(dice, &mut draft),
        14 if dice.one_in(2) => everything(dice, &mut draft),
        _ => dressing(dice, &mut draft, 2),
    }
    if dice.one_in(3) {
        dressing(dice, &mut draft, 4);
    }
    if dice.one_in(8) {
        settings(dice, &mut draft);
    }
    if dice.one_in(24) {
        nest(dice, &mut draft);
    }
    if dice.one_in(5) {
        disturb(dice, &mut draft);
    }
    draft
}

// ---------------------------------------------------------------- Writing values

/// A number for a value, in one of the many ways to write it.
fn number_text(dice: &mut Dice, value: i64) -> Vec<u8> {
    let mut text = String::new();
    if value < 0 || (value == 0 && dice.one_in(20)) {
        text.push('-');
    } else if dice.one_in(12) {
        text.push('+');
    }
    if dice.one_in(12) {
        text.push_str("000");
    }
    if dice.one_in(if value.abs() >= VALUE_LIMIT { 3 } else { 25 }) {
        return (text + &fine_text(dice, value.unsigned_abs())).into_bytes();
    }
    let (whole, decimals) = (value.unsigned_abs() / 10_000, value.unsigned_abs() % 10_000);
    if whole != 0 || decimals == 0 || dice.one_in(2) {
        text.push_str(&whole.to_string());
    }
    let mut after = format!("{decimals:04}");
    if !dice.one_in(6) {
        after = after.trim_end_matches('0').to_string();
    }
    if !after.is_empty() || dice.one_in(8) {
        text.push('.');
    }
    (text + &after).into_bytes()
}

/// A number of five to sixty decimals that goes to this size: from at or just above the half below it to just
/// below the half above it.
fn fine_text(dice: &mut Dice, size: u64) -> String {
    let many = dice.pick(&[0, 0, 1, 1, 2, 5, 6, 15, 40, 54]);
    let any: String = (0..many).map(|_| char::from(dice.pick(b"0123456789"))).collect();
    let (under, fifth) = if size == 0 || dice.one_in(2) {
        (size, dice.pick(&["0", "1", "3", "4", "4", "4"]))
    } else {
        (size - 1, dice.pick(&["5", "5", "5", "6", "9"]))
    };
    let later = match dice.below(4) {
        0 => "0".repeat(many),
        1 => "9".repeat(many),
        2 if many > 0 => "0".repeat(many - 1) + "1",
        _ => any,
    };
    format!("{}.{:04}{fifth}{later}", under / 10_000, under % 10_000)
}

/// A text whose value is the one wanted, given the changes it makes to the table.
fn value_text(dice: &mut Dice, changes: &mut Vec<(usize, i64)>, value: i64, depth: usize) -> Vec<u8> {
    let near = value.abs() < VALUE_LIMIT / 4;
    if depth == 0 || !near || dice.below(10) < 6 {
        return number_text(dice, value);
    }
    let part = dice.between(-90_000, 90_000);
    // Twice the value, or one less in size: its half lies between two and goes away from zero.
    let half = if dice.one_in(2) { value.signum() } else { 0 };
    let mut text = |dice: &mut Dice, inner: i64| value_text(dice, changes, inner, depth - 1);
    match dice.below(12) {
        0 => joined(&[b"[", &text(dice, value), b"]"]),
        1 | 2 => joined(&[b"[", &text(dice, part), b"+", &text(dice, value - part), b"]"]),
        3 => joined(&[b"[", &text(dice, value + part), b"-", &text(dice, part), b"]"]),
        4 => joined(&[b"[", &text(dice, 2 * value - half), b"*", &text(dice, 5_000), b"]"]),
        5 => joined(&[b"[", &text(dice, 2 * value - half), b"/", &text(dice, 20_000), b"]"]),
        6 => joined(&[b"[", &text(dice, value), b"+", &text(dice, part), b"*", &text(dice, 0), b"]"]),
        7 if value >= 0 => {
            let divisor = value + 1 + part.abs();
            joined(&[b"[", &text(dice, value - divisor), b"MOD", &text(dice, sign_of(part) * divisor), b"]"])
        }
        8 if value >= 0 => joined(&[b"ABS[", &text(dice, sign_of(part) * value), b"]"]),
        9 if value % 10_000 == 0 => rounded_text(dice, value),
        _ => entry_text(dice, changes, value, depth),
    }
}

fn sign_of(part: i64) -> i64 {
    if part < 0 {
        -1
    } else {
        1
    }
}

fn joined(parts: &[&[u8]]) -> Vec<u8> {
    parts.concat()
}

/// A rounding that just gives this whole number.
fn rounded_text(dice: &mut Dice, value: i64) -> Vec<u8> {
    let (name, inner): (&[u8], i64) = match dice.below(4) {
        0 => (b"FIX[", value + dice.pick(&[0, 1, 9_999, 5_000])),
        1 => (b"FUP[", value - dice.pick(&[0, 1, 9_999, 5_000])),
        2 if value != 0 => (b"ROUND[", value - 5_000 * value.signum()),
        _ => (b"ROUND[", value + dice.pick(&[0, 4_999, -4_999])),
    };
    joined(&[name, &number_text(dice, inner), b"]"])
}

/// `#` and a parameter number whose entry is this value, sometimes `##` through another entry.
fn entry_text(dice: &mut Dice, changes: &mut Vec<(usize, i64)>, value: i64, depth: usize) -> Vec<u8> {
    let number = if dice.one_in(10) { 4_999 } else { 1 + dice.below(200) };
    if changes.iter().any(|change| change.0 == number) {
        return number_text(dice, value);
    }
    changes.push((number, value));
    let near = number as i64 * 10_000 + dice.pick(&[0, 0, 0, 1, -1]);
    joined(&[b"#", &value_text(dice, changes, near, depth - 1)])
}

/// A value of any make: its own value is not known in advance.
fn any_value(dice: &mut Dice, depth: usize) -> Vec<u8> {
    if depth == 0 || dice.one_in(3) {
        let value = if dice.one_in(4) {
            dice.pick(&EDGE_VALUES)
        } else {
            dice.between(-300, 300) * dice.pick(&[5_000, 1_000, 1])
        };
        return number_text(dice, value);
    }
    let number = if dice.one_in(8) { dice.between(1, 62) } else { dice.between(1, 13) };
    match dice.below(16) {
        0 => joined(&[b"#", &any_value(dice, depth - 1)]),
        1..=3 => joined(&[b"#", number.to_string().as_bytes()]),
        4 => joined(&[b"##", number.to_string().as_bytes()]),
        5..=8 => {
            let name = dice.pick(&[&b"ABS"[..], b"FIX", b"FUP", b"ROUND"]);
            joined(&[name, &any_expression(dice, depth - 1)])
        }
        _ => any_expression(dice, depth),
    }
}

fn any_expression(dice: &mut Dice, depth: usize) -> Vec<u8> {
    let mut text = b"[".to_vec();
    text.extend(any_value(dice, depth));
    for _ in 0..dice.below(5) {
        text.extend(dice.pick(&[&b"+"[..], b"-", b"*", b"*", b"/", b"/", b"MOD", b"MOD", b"AND", b"OR", b"XOR"]));
        if dice.one_in(12) {
            text.extend(number_text(dice, 0));
        } else {
            text.extend(any_value(dice, depth.saturating_sub(1)));
        }
    }
    text.push(b']');
    text
}

// ---------------------------------------------------------------- Writing lines

/// A comment; about one in twelve is a wrong one.
fn comment(dice: &mut Dice) -> Vec<u8> {
    if dice.one_in(30) {
        return vec![b'(', dice.below(256) as u8, b')'];
    }
    if dice.one_in(15) {
        let wrong =
            [&b"(a(b)"[..], b"(a\x07)", b"(\x1f)", b"(\x80)", b"(a\x7f)", b"(a))", b"(", b")", b"(a\r)", b"((a))"];
        return dice.pick(&wrong).to_vec();
    }
    dice.pick(&[&b"()"[..], b"(foo)", b"(G1 X5)", b"(\t)", b"(msg, ~!#/[=)", b"( )", b"(N5 /)"]).to_vec()
}

fn line_number(dice: &mut Dice) -> Vec<u8> {
    let digits = dice.pick(&[1, 2, 3, 4, 5, 5]) + usize::from(dice.one_in(20)) - usize::from(dice.one_in(20));
    let mut text = vec![dice.pick(b"Nn")];
    text.extend((0..digits).map(|_| dice.pick(b"0123456789")));
    text
}

/// A mark, plain or with a condition, which may stand behind a comment; sometimes with something wrong later on the
/// line, which a condition that says no must pass over, unless it is its form.
fn mark(dice: &mut Dice, draft: &mut Draft, items: &mut Vec<Vec<u8>>) -> Vec<u8> {
    let mut mark = vec![dice.pick(b"/\\")];
    if dice.one_in(3) {
        return mark;
    }
    if dice.one_in(16) {
        mark.extend(b"(c)");
    }
    mark.extend(condition(dice, &mut draft.changes));
    if dice.one_in(3) {
        items.push(stopped_item(dice));
    }
    if dice.one_in(12) {
        items.push(dice.pick(&[&b"G"[..], b"X", b")", b"(c", b"#1", b"X[1", b"N1", b"[1]", b"/", b"\\"]).to_vec());
    }
    mark
}

/// A condition: near zero mostly, of any make, one that refuses with 5 to 7, one that nests about as deep as the
/// limit, or one of wrong form.
fn condition(dice: &mut Dice, changes: &mut Vec<(usize, i64)>) -> Vec<u8> {
    let (value, depth) = (dice.pick(&[0, 0, 1, -1, 1, -1, 2, -2, 3, 10_000, -10_000]), dice.below(4));
    match dice.below(16) {
        0 | 1 => any_expression(dice, depth),
        2 | 3 => dice
            .pick(&[&b"[1/0]"[..], b"[5 MOD [1-1]]", b"[100000]", b"[99999+1]", b"[#5000]", b"[##4999]", b"[0*[2/0]]"])
            .to_vec(),
        4 => joined(&[b"[", &nested(dice), b"]"]),
        6 => dice
            .pick(&[&b"[0.00014]"[..], b"[-0.000149]", b"[0.00015]", b"[-.00015]", b"[.00005]", b"[-0.00004]"])
            .to_vec(),
        5 => dice.pick(&[&b"["[..], b"[]", b"[1", b"[1]]", b"[1][2]", b"[=1]", b"[1=1]", b"[(c)1]"]).to_vec(),
        _ => joined(&[b"[", &value_text(dice, changes, value, depth), b"]"]),
    }
}

/// The draft's words and items as a line, sometimes in another order.
fn write_line(dice: &mut Dice, draft: &mut Draft) -> Vec<u8> {
    let depth = dice.pick(&[0, 0, 1, 2, 3]);
    let mut items = std::mem::take(&mut draft.items);
    for (letter, value) in std::mem::take(&mut draft.words) {
        items.push(joined(&[&[letter], &value_text(dice, &mut draft.changes, value, depth)]));
    }
    for _ in 0..dice.pick(&[0, 0, 0, 0, 1, 2]) {
        items.push(comment(dice));
    }
    if dice.one_in(2) {
        dice.shuffle(&mut items);
    }
    if dice.one_in(5) {
        items.insert(0, line_number(dice));
    }
    if dice.one_in(5) {
        let mark = mark(dice, draft, &mut items);
        items.insert(0, mark);
    }
    let gap = dice.pick(&[&b""[..], b" ", b" ", b"\t "]);
    styled(dice, &items.join(gap))
}

/// Upper, lower or mixed case, and blanks anywhere.
fn styled(dice: &mut Dice, line: &[u8]) -> Vec<u8> {
    let (letters, blanks) = (dice.below(3), dice.pick(&[0, 0, 3, 6]));
    let mut styled = Vec::new();
    for &byte in line {
        if blanks > 0 && dice.one_in(blanks) {
            styled.push(dice.pick(b"  \t"));
        }
        let lower = letters == 1 || (letters == 2 && dice.one_in(2));
        styled.push(if lower { byte.to_ascii_lowercase() } else { byte });
    }
    styled
}

fn any_byte(dice: &mut Dice) -> u8 {
    match dice.below(6) {
        0 => dice.below(256) as u8,
        1 => 128 + dice.below(128) as u8,
        2 => dice.below(32) as u8,
        _ => dice.pick(b"GMXYZIJKFSTPLN0123456789.+-*/#=[]()ABSFIXUPRONDMOD \tx/\\%"),
    }
}

/// One to three edits: delete, insert, change, swap, double, cut.
fn damage(dice: &mut Dice, line: &mut Vec<u8>) {
    for _ in 0..dice.pick(&[1, 1, 2, 3]) {
        let (place, byte) = (dice.below(line.len()), any_byte(dice));
        match dice.below(6) {
            _ if line.is_empty() => line.push(byte),
            0 => drop(line.remove(place)),
            1 => line.insert(place, byte),
            2 => line[place] = byte,
            3 => {
                let other = dice.below(line.len());
                line.swap(place, other);
            }
            4 => line.insert(place, line[place]),
            _ if dice.one_in(4) => line.truncate(place),
            _ => line.push(byte),
        }
    }
}

/// Lengthens a line to about 256 bytes: blanks before or after, a comment, or settings.
fn stretch(dice: &mut Dice, line: &mut Vec<u8>) {
    let wanted = LONGEST_LINE - 2 + dice.below(4);
    let missing = wanted.saturating_sub(line.len());
    match dice.below(4) {
        0 => line.resize(line.len().max(wanted), b' '),
        1 => line.splice(0..0, vec![b'\t'; missing]).for_each(drop),
        2 if missing >= 2 => line.extend([vec![b'('], vec![b'c'; missing - 2], vec![b')']].concat()),
        _ => {
            let room = missing / 4 * 4;
            line.extend(b"#1=7".iter().cycle().take(room));
            line.resize(line.len() + missing - room, b'0');
        }
    }
}

/// Pieces of the grammar in any order: most such lines just miss a derivation.
fn pieces(dice: &mut Dice) -> Vec<u8> {
    let few = [
        &b"["[..],
        b"]",
        b"#",
        b"=",
        b"X",
        b"1",
        b"2",
        b".",
        b"-",
        b"+",
        b"MOD",
        b"ABS",
        b"FIX[",
        b"OR",
        b"(c)",
        b"N1",
        b"/",
        b"\\",
    ];
    let mark = dice.pick(&[&b""[..], b"", b"/", b"\\", b"/[", b"\\[1]"]).to_vec();
    let rest = (0..1 + dice.below(9)).flat_map(|_| dice.pick(&few).to_vec());
    mark.into_iter().chain(rest).collect()
}

/// A line from a draft, damaged or stretched at times.
fn finished_line(dice: &mut Dice, draft: &mut Draft) -> Vec<u8> {
    let mut line = write_line(dice, draft);
    if dice.one_in(25) {
        stretch(dice, &mut line);
    }
    if dice.one_in(10) {
        damage(dice, &mut line);
    }
    if dice.one_in(150) {
        line = (0..dice.below(20)).map(|_| any_byte(dice)).collect();
    } else if dice.one_in(40) {
        line = pieces(dice);
    }
    line
}

/// A line feed or carriage return inside a line becomes another control byte.
fn without_ends(line: &mut [u8]) {
    for byte in line.iter_mut().filter(|byte| **byte == b'\n' || **byte == b'\r') {
        *byte = 11;
    }
}

/// One line without line feed or carriage return.
pub fn line(dice: &mut Dice) -> Vec<u8> {
    let record = record(dice);
    let mut draft = draft(dice, record);
    let mut line = finished_line(dice, &mut draft);
    without_ends(&mut line);
    line
}

// ---------------------------------------------------------------- Cases and programs

/// One whole case. The room is chosen around eight times the commands the line gives.
pub fn case(dice: &mut Dice) -> Case {
    let record = record(dice);
    let mut draft = draft(dice, record);
    let line = finished_line(dice, &mut draft);
    let mut changes = draft.changes;
    if dice.one_in(10) {
        let edges = [VALUE_LIMIT, -VALUE_LIMIT, VALUE_LIMIT + 1, -VALUE_LIMIT - 1, i64::MIN, i64::MAX, 10_000];
        changes.retain(|change| change.0 != 3);
        changes.push((3, dice.pick(&edges)));
    }
    let marked = line.iter().find(|byte| !b" \t".contains(byte)).is_some_and(|byte| b"/\\".contains(byte));
    let switch = dice.one_in(if marked { 2 } else { 4 });
    let full = 8 * commands(&line, switch, &draft.record, &changes);
    let room = match dice.below(12) {
        0..=2 => full,
        3 => full.saturating_sub(1),
        4 => full.saturating_sub(1 + dice.below(8)),
        5 => full + dice.below(10),
        6 => 0,
        _ => 72 + dice.below(9),
    };
    let mut numbers = draft.record.to_numbers();
    if dice.one_in(40) {
        put_out_of_order(dice, &mut numbers);
    }
    let table_length = if dice.one_in(80) { dice.pick(&[0, 1, 4_999, 5_001, 6_000]) } else { TABLE_LENGTH };
    changes.retain(|change| change.0 < table_length);
    Case { line, switch, record: numbers, table_length, changes, room }
}

/// How many commands a line gives when there is room for all.
fn commands(line: &[u8], switch: bool, record: &Record, changes: &[(usize, i64)]) -> usize {
    let mut table = vec![0; TABLE_LENGTH];
    for &(number, value) in changes {
        table[number] = value;
    }
    rules::interpret(line, switch, &mut record.clone(), &mut table, &mut [0; 128]).count
}

/// A session as it is written down: the bytes so far and the state they lead to.
struct Session {
    bytes: Vec<u8>,
    record: Record,
    table: Vec<i64>,
}

impl Session {
    /// Adds a line if it is not refused, or anyway.
    fn add(&mut self, dice: &mut Dice, line: &[u8], anyway: bool) -> bool {
        let number = rules::interpret(line, false, &mut self.record, &mut self.table, &mut [0; 128]).number;
        let refused = number != rules::ACCEPTED && number != rules::SKIPPED;
        if !refused || anyway {
            self.bytes.extend(line);
            self.bytes.extend(dice.pick(&[&b"\n"[..], b"\n", b"\n", b"\n", b"\r\n"]));
        }
        !refused
    }

    /// The settings a draft asks of the table, on a line of their own.
    fn prepare(&mut self, dice: &mut Dice, changes: &[(usize, i64)]) {
        for few in changes.chunks(6) {
            let mut line = Vec::new();
            for &(number, value) in few {
                line.extend(joined(&[format!("#{number}=").as_bytes(), &number_text(dice, value)]));
            }
            self.add(dice, &line, false);
        }
    }
}

impl Session {
    fn begun() -> Session {
        Session { bytes: Vec::new(), record: Record::fresh(), table: vec![0; TABLE_LENGTH] }
    }

    /// A drafted line behind the settings it asks for; false if it was refused, and added only if it may be.
    fn draft(&mut self, dice: &mut Dice, anyway: bool) -> bool {
        let mut draft = draft(dice, self.record.clone());
        let mut line = finished_line(dice, &mut draft);
        without_ends(&mut line);
        self.prepare(dice, &draft.changes);
        self.add(dice, &line, anyway)
    }
}

/// A program of at least so many bytes of which no line is refused.
pub fn long_program(dice: &mut Dice, bytes: usize) -> Vec<u8> {
    let mut session = Session::begun();
    while session.bytes.len() < bytes {
        session.draft(dice, false);
    }
    session.bytes
}

/// A whole program for standard input: mostly lines that are not refused, often a refused one towards the end.
pub fn program(dice: &mut Dice) -> Vec<u8> {
    let mut session = Session::begun();
    let tries = dice.between(20, 300);
    let refused_at = dice.between(1, tries + tries / 2);
    for attempt in 0..tries {
        let last = attempt >= refused_at;
        if !session.draft(dice, last) && last {
            break;
        }
    }
    let tail = match dice.below(4) {
        0 => dice.pick(&[&b"G0 X1\r"[..], b"\r", b"M5\r\r\n", b"(end", b"%\n"]),
        _ => dice.pick(&[&b""[..], b"M30", b"M2\n", b"M5\r\n", b"\n\n"]),
    };
    session.bytes.extend(tail);
    session.bytes
}
