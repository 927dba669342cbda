//! A second, independent program for document 01: see README.md for what each subcommand prints.

mod cases;
mod codes;
mod examples;
mod generate;
mod index;
mod mend;
mod orders;
mod places;
mod rules;

use cases::listed;
use generate::Dice;
use rules::{Reading, Record, Told, COMMAND_LENGTH, LONGEST_LINE, TABLE_LENGTH};
use std::fs;
use std::io::{self, BufRead, BufWriter, Error, ErrorKind, Read, Write};
use std::path::Path;
use std::process::ExitCode;

const USAGE: &str = "second frames [--each] | forms | readings | answers | tally | alike | codes, \
or examples [--cases | --answers | --programs DIR], \
or mend (the list to standard error), \
or lines SEED COUNT | blocks SEED COUNT | orders SEED COUNT | orders --wrong | programs SEED COUNT DIR | old SEED COUNT DIR | long SEED BYTES, \
or texts SEED COUNT | indexes";

fn main() -> ExitCode {
    let arguments: Vec<String> = std::env::args().skip(1).collect();
    let mut out = BufWriter::new(io::stdout().lock());
    let done = run(&arguments, &mut out).and_then(|passed| out.flush().map(|()| passed));
    match done {
        Ok(true) => ExitCode::SUCCESS,
        Ok(false) => ExitCode::FAILURE,
        Err(error) if error.kind() == ErrorKind::BrokenPipe => ExitCode::SUCCESS,
        Err(error) => {
            let _ = writeln!(io::stderr(), "second: {error}");
            ExitCode::FAILURE
        }
    }
}

fn run(arguments: &[String], out: &mut impl Write) -> io::Result<bool> {
    let words: Vec<&str> = arguments.iter().map(String::as_str).collect();
    let input = io::stdin().lock();
    match words[..] {
        ["frames"] => frames(input, out, "")?,
        ["frames", "--each"] => frames(input, out, ".\n")?,
        ["forms"] => each_line(input, |line| {
            let (number, place) = rules::form(line);
            writeln!(out, "{number} {place}")
        })?,
        ["readings"] => readings(input, out)?,
        ["answers"] => return answers(input, out),
        ["tally"] => return tally(input, out),
        ["alike"] => return alike(input, out),
        ["examples"] => return examples::run(out),
        ["examples", "--cases"] => examples::write_cases(out)?,
        ["examples", "--answers"] => return examples::hold_answers(input, out),
        ["examples", "--programs", folder] => examples::write_programs(Path::new(folder))?,
        ["codes"] => codes::write_cases(out)?,
        ["mend"] => mend_text(input, out)?,
        ["lines", seed, count] => lines(whole(seed)?, whole(count)?, out)?,
        ["blocks", seed, count] => blocks(whole(seed)?, whole(count)?, out)?,
        ["orders", "--wrong"] => orders::write_wrong_pairs(out)?,
        ["orders", seed, count] => {
            orders::write_five_items(out)?;
            return orders::write_pairs(&mut Dice::new(whole(seed)?), whole(count)? as usize, out);
        }
        ["programs", seed, count, folder] => programs(whole(seed)?, whole(count)?, Path::new(folder), generate::program)?,
        ["old", seed, count, folder] => programs(whole(seed)?, whole(count)?, Path::new(folder), mend::program)?,
        ["texts", seed, count] => texts(whole(seed)?, whole(count)?, out)?,
        ["indexes"] => return indexes(input, out),
        ["long", seed, bytes] => {
            out.write_all(&generate::long_program(&mut Dice::new(whole(seed)?), whole(bytes)? as usize))?
        }
        _ => return Err(Error::new(ErrorKind::InvalidInput, USAGE)),
    }
    Ok(true)
}

fn whole(text: &str) -> io::Result<u64> {
    text.parse().map_err(|_| Error::new(ErrorKind::InvalidInput, format!("not a whole number: {text}")))
}

/// Every line up to its line feed; a last one without a line feed counts if it has a byte.
fn each_line(mut input: impl BufRead, mut work: impl FnMut(&[u8]) -> io::Result<()>) -> io::Result<()> {
    let mut line = Vec::new();
    while input.read_until(b'\n', &mut line)? > 0 {
        work(line.strip_suffix(b"\n").unwrap_or(&line))?;
        line.clear();
    }
    Ok(())
}

// ---------------------------------------------------------------- Frames

/// "A program reads lines from standard input, from a fresh record with an all-zero table, switch off
/// and 8,000 numbers of output space, and writes a frame for each command, one a line". Behind what each line
/// writes comes a text by which a test can tell the lines apart.
fn frames(mut input: impl BufRead, out: &mut impl Write, after_each: &str) -> io::Result<()> {
    let (mut record, mut table, mut space) = (Record::fresh(), vec![0; TABLE_LENGTH], vec![0; 8_000]);
    while let Some(line) = next_line(&mut input)? {
        let Told { number, count, .. } = rules::interpret(&line, false, &mut record, &mut table, &mut space);
        if number != rules::ACCEPTED && number != rules::SKIPPED {
            // "A refusal writes FF and its number in ten hexadecimal digits, and ends the run".
            return write!(out, "FF{number:010X}\n{after_each}");
        }
        for command in space.chunks_exact(COMMAND_LENGTH).take(count) {
            write_frame(command, out)?;
        }
        write!(out, "{after_each}")?;
    }
    Ok(())
}

/// "Lines end at a line feed, one carriage return before it dropped; a last line without a line feed
/// counts if it has a byte." No more is read of a line than shows it has more than 256 bytes, which
/// is refused and ends the run: 256, a carriage return and one more.
fn next_line(input: &mut impl BufRead) -> io::Result<Option<Vec<u8>>> {
    let mut line = Vec::new();
    input.by_ref().take(LONGEST_LINE as u64 + 2).read_until(b'\n', &mut line)?;
    if line.is_empty() {
        return Ok(None);
    }
    if line.ends_with(b"\n") {
        line.pop();
        if line.ends_with(b"\r") {
            line.pop();
        }
    }
    Ok(Some(line))
}

/// "two upper-case hexadecimal digits of kind, then each field that kind uses, ten upper-case
/// digits, two's complement."
fn write_frame(command: &[i64], out: &mut impl Write) -> io::Result<()> {
    write!(out, "{:02X}", command[0])?;
    for field in &command[1..=fields(command[0])] {
        write!(out, "{:010X}", field & 0xFF_FFFF_FFFF)?;
    }
    writeln!(out)
}

/// How many fields a kind uses.
fn fields(kind: i64) -> usize {
    match kind {
        4 => 0,
        8 | 9 => 3,
        10 => 7,
        _ => 1,
    }
}

// ---------------------------------------------------------------- Mending

/// The mended text, and to standard error its list.
fn mend_text(mut input: impl BufRead, out: &mut impl Write) -> io::Result<()> {
    let mut text = Vec::new();
    input.read_to_end(&mut text)?;
    mend::mend(&text, out, &mut BufWriter::new(io::stderr().lock()))
}

// ---------------------------------------------------------------- Readings

/// The table readings are made from.
fn reading_table() -> Vec<i64> {
    let mut table = vec![0; TABLE_LENGTH];
    for number in 1..=60 {
        table[number] = 10_000 * (number as i64 % 7) - 20_000;
    }
    table[61] = 1_000_000_000;
    table
}

fn readings(input: impl BufRead, out: &mut impl Write) -> io::Result<()> {
    let table = reading_table();
    each_line(input, |line| {
        if line.len() > LONGEST_LINE {
            return writeln!(out, "2");
        }
        match rules::read(line, &table) {
            Reading::WrongForm => writeln!(out, "3"),
            Reading::Stopped(number) => writeln!(out, "stopped {number}"),
            Reading::Read { words, settings, .. } => {
                let words = listed(words.iter().map(|&(letter, value)| (char::from(letter), value)), '=');
                let settings = listed(settings, '=');
                writeln!(out, "words{}{words} settings{}{settings}", gap(&words), gap(&settings))
            }
        }
    })
}

fn gap(list: &str) -> &'static str {
    if list.is_empty() {
        ""
    } else {
        " "
    }
}

// ---------------------------------------------------------------- Generated lines, cases, programs

fn lines(seed: u64, count: u64, out: &mut impl Write) -> io::Result<()> {
    let mut dice = Dice::new(seed);
    for _ in 0..count {
        out.write_all(&generate::line(&mut dice))?;
        writeln!(out)?;
    }
    Ok(())
}

fn programs(seed: u64, count: u64, folder: &Path, program: fn(&mut Dice) -> Vec<u8>) -> io::Result<()> {
    fs::create_dir_all(folder)?;
    let mut dice = Dice::new(seed);
    for number in 0..count {
        fs::write(folder.join(format!("{number:04}.ngc")), program(&mut dice))?;
    }
    Ok(())
}

fn blocks(seed: u64, count: u64, out: &mut impl Write) -> io::Result<()> {
    let mut dice = Dice::new(seed);
    (0..count).try_for_each(|_| writeln!(out, "{}", generate::case(&mut dice).text()))
}

/// The answer of each case; false if one of them cannot be read.
fn answers(input: impl BufRead, out: &mut impl Write) -> io::Result<bool> {
    let mut all_read = true;
    each_line(input, |text| match cases::case_of(text) {
        Some(case) => writeln!(out, "{}", cases::work(&case).text()),
        None => {
            all_read = false;
            writeln!(out, "no case")
        }
    })?;
    Ok(all_read)
}

// ---------------------------------------------------------------- Indexes

fn texts(seed: u64, count: u64, out: &mut impl Write) -> io::Result<()> {
    let mut dice = Dice::new(seed);
    (0..count).try_for_each(|place| writeln!(out, "{}", index::case(&mut dice, place)))
}

/// The answer of each case of an index; false if one of them cannot be read.
fn indexes(input: impl BufRead, out: &mut impl Write) -> io::Result<bool> {
    let mut all_read = true;
    each_line(input, |text| match std::str::from_utf8(text).ok().and_then(index::answer) {
        Some(answer) => writeln!(out, "{answer}"),
        None => {
            all_read = false;
            writeln!(out, "no case")
        }
    })?;
    Ok(all_read)
}

// ---------------------------------------------------------------- Counts

/// What each count of a comparison must reach.
const LEAST: u64 = 50;

/// How often each number, and each command kind, occurs among these answers; false if one of them is
/// seen too seldom for a comparison to say much, or if an answer cannot be read.
fn tally(input: impl BufRead, out: &mut impl Write) -> io::Result<bool> {
    let (mut by_number, mut by_kind, mut placed, mut unread) = ([0_u64; 101], [0_u64; 12], 0_u64, 0_u64);
    each_line(input, |text| {
        let Some(answer) = cases::answer_of(text) else {
            unread += 1;
            return Ok(());
        };
        by_number[(answer.number as usize).min(99 + usize::from(answer.number == 100))] += 1;
        placed += u64::from(answer.place > 0);
        for command in answer.output.chunks_exact(COMMAND_LENGTH) {
            by_kind[command[0].clamp(0, 11) as usize] += 1;
        }
        Ok(())
    })?;
    let numbers = by_number.iter().enumerate().filter(|&(number, _)| number <= 16 || number == 100);
    let numbers: Vec<String> = numbers.map(|(number, times)| format!("{number}:{times}")).collect();
    let kinds: Vec<String> = (1..12).map(|kind| format!("{kind}:{}", by_kind[kind])).collect();
    writeln!(out, "numbers {}", numbers.join(" "))?;
    writeln!(out, "kinds {}", kinds.join(" "))?;
    writeln!(out, "places above 0: {placed}")?;
    let often = |times: &u64| *times >= LEAST;
    // "4 is kept in the list and shown never to occur".
    let given = by_number[..=16].iter().enumerate().filter(|&(number, _)| number != 4);
    let seen = given.map(|(_, times)| times).all(often) && often(&by_number[100]) && by_kind[1..].iter().all(often);
    let seen = seen && by_number[4] == 0 && often(&placed);
    if !seen || unread > 0 {
        writeln!(out, "each but 4 must occur at least {LEAST} times, 4 never; {unread} answers cannot be read")?;
    }
    Ok(seen && unread == 0)
}

/// How many of the pairs among these answers, the first and second, the third and fourth, .., are the same in every
/// column, and how many are not; false if one of them is not.
fn alike(input: impl BufRead, out: &mut impl Write) -> io::Result<bool> {
    let (mut first, mut same, mut differ): (Option<Vec<u8>>, u64, u64) = (None, 0, 0);
    each_line(input, |text| {
        match first.take() {
            None => first = Some(text.to_vec()),
            Some(before) if before == text => same += 1,
            Some(_) => {
                differ += 1;
                if differ == 1 {
                    writeln!(out, "answer {} is not as the one before", 2 * (same + differ))?;
                }
            }
        }
        Ok(())
    })?;
    writeln!(out, "{same} pairs the same, {differ} not")?;
    Ok(differ == 0 && first.is_none())
}
