//! The examples of document 01 and of its readings, as tables. `second examples` runs them; each is also a case
//! whose answer, by whatever program, is held to what stands here. Lines worked beforehand are parted by `|`;
//! each must be accepted.

use crate::cases::{self, Answer, Case};
use crate::places;
use crate::rules::{self, Reading, Record, TABLE_LENGTH};
use std::fs;
use std::io::{self, BufRead, Write};
use std::path::Path;

/// Form only: a line and 0 or 3.
const FORMS: &[(&[u8], u8)] = &[
    // Empty line, comments.
    (b"", 0),
    (b" \t ", 0),
    (b"()", 0),
    (b"(c)(d)", 0),
    (b"(a", 3),
    (b"G1 (", 3),
    (b")", 3),
    (b"G1)", 3),
    (b"(a(b)", 3),
    (b"(a(b))", 3),
    (b"(a))", 3),
    (b"(a\tb ~)", 0),
    (b"(\x00)", 3),
    (b"(\x08)", 3),
    (b"(\x0a)", 3),
    (b"(\x1f)", 3),
    (b"(\x7f)", 3),
    (b"(\x80)", 3),
    (b"(\xff)", 3),
    // Blanks are 32 and 9 only.
    (b"M6\r", 3),
    (b"M6\n", 3),
    (b"\x0bM6", 3),
    (b"M\x0c6", 3),
    (b"M6\0", 3),
    (b"M6\xa0", 3),
    // Letters raised, blanks dropped, comments only between items.
    (b"xabs[1]", 0),
    (b"x[7Mod3]", 0),
    (b"n10", 0),
    (b"x[7 M O D 3]", 0),
    (b"N 1 2", 0),
    (b"# 1 = 2", 0),
    (b"g0x +0. 12 34y 7", 0),
    (b"G(c)1", 3),
    (b"X[1(c)]", 3),
    (b"#1(c)=2", 3),
    (b"N(c)1", 3),
    (b"G1(c)X1", 0),
    // Line number and block delete.
    (b"N", 3),
    (b"N0", 0),
    (b"N00000", 0),
    (b"N12345", 0),
    (b"N123456", 3),
    (b"N-1", 3),
    (b"N1.5", 3),
    (b"N1N2", 3),
    (b"N1/", 3),
    (b"/", 0),
    (b"/N1G1", 0),
    (b"//", 3),
    (b"(c)N1", 3),
    (b"(c)/", 3),
    (b"/(c)N1", 3),
    (b"G1N1", 3),
    // Numbers.
    (b"X5.", 0),
    (b"X.5", 0),
    (b"X+.5", 0),
    (b"X-0", 0),
    (b"X", 3),
    (b"X.", 3),
    (b"X+.", 3),
    (b"X1.2.3", 3),
    (b"X--1", 3),
    (b"X1e5", 3),
    (b"X1,5", 3),
    (b"X000000000000000000000000000000000000000000000000000000001", 0),
    // Signs.
    (b"X-#1", 3),
    (b"X-[1]", 3),
    (b"X+ABS[1]", 3),
    (b"X[-#1]", 3),
    (b"X[1--2]", 0),
    (b"X[1+-2]", 0),
    (b"X[-1]", 0),
    (b"X#-1", 0),
    (b"X[1---2]", 3),
    // Parameters, functions, settings.
    (b"X##1", 0),
    (b"X#ABS[1]", 0),
    (b"X###[1+1]", 0),
    (b"##1=5", 0),
    (b"XABS1", 3),
    (b"XABS#1", 3),
    (b"XROUND", 3),
    (b"XSIN[1]", 3),
    (b"#1=2=3", 3),
    (b"X[1=1]", 3),
    (b"#1", 3),
    (b"#=1", 3),
    (b"#1=", 3),
    (b"=1", 3),
    (b"#1=2#3=4X#1", 0),
    // Expressions.
    (b"X[]", 3),
    (b"X[1", 3),
    (b"X1]", 3),
    (b"X[1+]", 3),
    (b"X[1 2]", 0),
    (b"X[1[2]]", 3),
    (b"X[[1][2]]", 3),
    (b"X[2**3]", 3),
    (b"X1+2", 3),
    (b"X1MOD2", 3),
    (b"X1M2", 0),
    (b"XFIX[1]F1", 0),
    (b"FFIX[1]", 0),
    (b"FIX[1]", 3),
    // Letters that are no words.
    (b"A1", 3),
    (b"H1", 3),
    (b"R1", 3),
    (b"O1", 3),
    (b"%", 3),
    // Marks and conditions.
    (b"\\", 0),
    (b" \t\\ N1", 0),
    (b"\\M6", 0),
    (b"/[1]", 0),
    (b"\\[1]", 0),
    (b" / [ 1 ] n 5 g0", 0),
    (b"/[#1-2*[3]]N12345G0X1(c)", 0),
    (b"/[1](c)", 0),
    (b"/[[1] OR ABS[2]]", 0),
    (b"/(c)[1]", 3),
    (b"\\(c)[1]", 3),
    (b"(c)\\", 3),
    (b"(c)/[1]", 3),
    (b"\\\\", 3),
    (b"/\\", 3),
    (b"\\/", 3),
    (b"/[1]/", 3),
    (b"/[1]\\[1]", 3),
    (b"N1/[1]", 3),
    (b"N1\\", 3),
    (b"/[1][2]", 3),
    (b"/[]", 3),
    (b"/[1", 3),
    (b"/[", 3),
    (b"/[1]]", 3),
    (b"/1", 3),
    (b"/-[1]", 3),
    (b"/#1", 3),
    (b"/ABS[1]", 3),
    (b"/[1]N123456", 3),
    (b"/[1(c)]", 3),
    (b"X1\\", 3),
    (b"X[1\\2]", 3),
    (b"[1]", 3),
    // Form is judged over the whole line before any value.
    (b"X1.23456 G", 3),
    (b"X[1/0]", 0),
];

/// A line of wrong form, and where it breaks: "the number of bytes in the longest beginning of the line that some line
/// of right form, of any length, also begins with".
const PLACES: &[(&[u8], usize)] = &[
    (b")", 0),
    (b"  )", 2),
    (b"%", 0),
    (b"A1", 0),
    (b"1", 0),
    (b"[1]", 0),
    (b"\xff", 0),
    (b"M6\r", 2),
    (b"M6 \0", 3),
    // Blanks and comments count, as they were typed.
    (b"X Y1", 2),
    (b"XY1", 1),
    (b" x\t y1", 4),
    (b"X1 Y 2 . 3 . 4", 11),
    (b"(a)(b) X(c)1", 8),
    (b"(a b) N1", 6),
    (b"G1 (c) G(c)1", 8),
    // "A line that only ends too early gives its whole length."
    (b"X", 1),
    (b"X  ", 3),
    (b"X+", 2),
    (b"X.", 2),
    (b"X[1", 3),
    (b"X[1 ", 4),
    (b"X[[[", 4),
    (b"XROUN", 5),
    (b"Xr o", 4),
    (b"#1", 2),
    (b"#1=", 3),
    (b"#1 = #", 6),
    (b"N", 1),
    (b"/N", 2),
    (b"/[1", 3),
    (b"G1 (", 4),
    (b"(a b", 4),
    (b"X[1M", 4),
    (b"X[1 X O", 7),
    // Comments.
    (b"(a(", 2),
    (b"(a(b)", 2),
    (b"(a))", 3),
    (b"(a\x7fb", 2),
    (b"(\x80)", 1),
    (b"N(c)1", 1),
    (b"#1(c)=2", 2),
    (b"X[1(c)]", 3),
    // The mark and the line number.
    (b"//", 1),
    (b"/ \\", 2),
    (b"/(c)[1]", 4),
    (b"/[1][2]", 4),
    (b"/[]", 2),
    (b"/-[1]", 1),
    (b"\\ [1] [2]", 6),
    (b"N123456", 6),
    (b"N 1 2 3 4 5 6", 12),
    (b"N-1", 1),
    (b"N1.5", 2),
    (b"N1N2", 2),
    (b"N1/", 2),
    // Numbers and signs.
    (b"X--1", 2),
    (b"X1.2.3", 4),
    (b"X..", 2),
    (b"X+.A", 3),
    (b"X-#1", 2),
    (b"X-[1]", 2),
    (b"X1e5", 2),
    (b"X1-", 2),
    // Parameters, functions, settings.
    (b"XABS1", 4),
    (b"XABT", 3),
    (b"XFOP[1]", 2),
    (b"XFIP[1]", 3),
    (b"FIX[1]", 1),
    (b"X##=", 3),
    (b"#=1", 1),
    (b"#1=2=3", 4),
    (b"#[1]2=3", 4),
    (b"X#1=2", 3),
    // Expressions.
    (b"X[1XY", 4),
    (b"X[1X1]", 4),
    (b"X[1MO1]", 5),
    (b"X[]", 2),
    (b"X1]", 2),
    (b"X[1]]", 4),
    (b"X[1[2]]", 3),
    (b"X[2**3]", 4),
    (b"X[1=1]", 3),
    (b"X[1---2]", 5),
    (b"X[1+2 A", 7),
    (b"X[1+2 B", 6),
    // Nothing later on the line moves it.
    (b"X1.23456 G", 10),
    (b"X[1/0] Y Z1 )", 9),
];

/// A value written after X, and its ten-thousandths or the number that stops it. Entry 1 is 2,
/// entry 2 is 7, entry 7 is 1, entry 61 is out of range.
const VALUES: &[(&str, Result<i64, u8>)] = &[
    ("[2+3*4]", Ok(140_000)),
    ("[10-4-3]", Ok(30_000)),
    ("[2/3]", Ok(6_667)),
    ("[-0.5*0.0001]", Ok(-1)),
    ("[-7 MOD 3]", Ok(20_000)),
    ("FIX[-2.8]", Ok(-30_000)),
    ("FUP[-2.8]", Ok(-20_000)),
    ("ROUND[-2.5]", Ok(-30_000)),
    ("99999.9999", Ok(999_999_999)),
    ("-99999.9999", Ok(-999_999_999)),
    ("100000", Err(5)),
    ("-100000", Err(5)),
    ("100000000000000000000000000000", Err(5)),
    ("1.2345", Ok(12_345)),
    // Any decimals, from all digits at once, the range after rounding.
    ("1.23456", Ok(12_346)),
    ("1.234567", Ok(12_346)),
    ("1.00000", Ok(10_000)),
    ("1.23455", Ok(12_346)),
    ("-1.23455", Ok(-12_346)),
    ("1.23454999999999999999", Ok(12_345)),
    ("-0.00005", Ok(-1)),
    ("-0.00004", Ok(0)),
    ("0.00004999995", Ok(0)),
    ("99999.99994", Ok(999_999_999)),
    ("99999.9999499999999999999999999999999999999999999999999999999", Ok(999_999_999)),
    ("99999.99995", Err(5)),
    ("-99999.99995", Err(5)),
    ("100000.00000", Err(5)),
    ("1 2", Ok(120_000)),
    ("+0. 12 34", Ok(1_234)),
    ("5.", Ok(50_000)),
    (".5", Ok(5_000)),
    ("-0", Ok(0)),
    ("[1--2]", Ok(30_000)),
    ("[1+-2]", Ok(-10_000)),
    // An operation is worked out once its right side is.
    ("[99999+1-1/0]", Err(5)),
    ("[99999+1*1/0]", Err(6)),
    ("[99999+99999-99999]", Err(5)),
    ("[1 OR 0+5]", Ok(60_000)),
    ("[5+1 OR 0]", Ok(10_000)),
    ("[0 AND 1/0]", Err(6)),
    ("[1+1 AND 0]", Ok(0)),
    ("[2+7 MOD 3]", Ok(30_000)),
    ("[1/0.00000]", Err(6)),
    ("[1/0.00004]", Err(6)),
    ("[1/0.00005]", Ok(100_000_000)),
    ("[1.23456/0]", Err(6)),
    ("[99999*2*1.23456]", Err(5)),
    ("[0.0001*0.5*0.5]", Ok(1)),
    ("[2*3+4*5-6/2]", Ok(230_000)),
    ("[[2+3]*[4-1]]", Ok(150_000)),
    // Out of range along the way.
    ("FUP[99999.0001]", Err(5)),
    ("FUP[99999]", Ok(999_990_000)),
    ("ROUND[99999.5]", Err(5)),
    ("ROUND[99999.4999]", Ok(999_990_000)),
    ("FIX[-99999.0001]", Err(5)),
    ("ABS[-99999.9999]", Ok(999_999_999)),
    ("#61", Err(5)),
    ("[99999.9999*1]", Ok(999_999_999)),
    ("[99999.9999*1.0001]", Err(5)),
    ("[99999.9999/0.9999]", Err(5)),
    // Rounding and divisors.
    ("[0.0001*0.5]", Ok(1)),
    ("[0.0001*0.4]", Ok(0)),
    ("[1/[0.0001*0.4]]", Err(6)),
    ("[1/-0]", Err(6)),
    ("[1 MOD 0]", Err(6)),
    ("[-2/3]", Ok(-6_667)),
    ("[2/-3]", Ok(-6_667)),
    ("[0.0001/2]", Ok(1)),
    ("[-0.0001/2]", Ok(-1)),
    ("[7 MOD -3]", Ok(10_000)),
    ("[-7 MOD -3]", Ok(20_000)),
    ("[5.5 MOD 2]", Ok(15_000)),
    ("FIX[2.8]", Ok(20_000)),
    ("FUP[2.8]", Ok(30_000)),
    ("ROUND[2.5]", Ok(30_000)),
    ("ROUND[2.4999]", Ok(20_000)),
    ("ROUND[-0.5]", Ok(-10_000)),
    ("ABS[-1.5]", Ok(15_000)),
    // Logic: exactly non-zero is true.
    ("[0.0001 AND 5]", Ok(10_000)),
    ("[-1 AND -1]", Ok(10_000)),
    ("[0 OR 0]", Ok(0)),
    ("[2 XOR 3]", Ok(0)),
    ("[2 XOR 0]", Ok(10_000)),
    // Parameters.
    ("#1", Ok(20_000)),
    ("##1", Ok(70_000)),
    ("#ABS[1]", Ok(20_000)),
    ("###[1+1]", Ok(20_000)),
    ("#0.9999", Ok(20_000)),
    ("#1.0001", Ok(20_000)),
    ("#1.0002", Err(7)),
    ("#0.0001", Err(7)),
    ("#4999", Ok(0)),
    ("#4999.0001", Ok(0)),
    ("#4999.9999", Err(7)),
    ("#5000", Err(7)),
    ("#-1", Err(7)),
    ("#100000", Err(5)),
    ("##61", Err(5)),
    ("##3", Err(7)),
    // NGC's printed expressions that document 01 serves.
    ("[2.0 / 3 * 1.5 - 5.5 / 11.0]", Ok(5_001)),
    ("[#1+2]", Ok(40_000)),
    ("#[1+1]", Ok(70_000)),
    ("[2+2]", Ok(40_000)),
    ("-0.8807", Ok(-8_807)),
    ("341", Ok(3_410_000)),
];

/// Lines worked before, a line, its number.
const NUMBERS: &[(&str, &str, u8)] = &[
    // Document 01, either side of each line.
    ("", "#4999=1", 0),
    ("", "#0=1", 7),
    ("", "#5000=1", 7),
    ("", "#1.0001=2", 0),
    ("", "#1.0002=2", 7),
    ("", "X[1/0] G99", 6),
    ("", "G0 X10000", 0),
    ("", "G0 X10000.0001", 13),
    ("F100", "G2 X1.002 I0.5", 0),
    ("F100", "G2 X1.0021 I0.5", 14),
    ("", "G1 G0 X1", 9),
    ("", "G4", 10),
    ("", "G4 P-1", 11),
    ("", "", 0),
    ("", "G0 X99999.9999", 13),
    ("", "S99999.9999", 0),
    ("", "S100000", 5),
    ("", "S1.2345", 0),
    ("", "S1.23456", 0),
    ("", "G59.4", 8),
    // Order among 3 to 7.
    ("", "X1.23456 G", 3),
    ("", "X100000 Y1.23456", 5),
    ("", "X1.23456 Y100000", 5),
    ("", "#0=[1/0]", 7),
    ("", "#0=1.23456", 7),
    ("", "#1.00014=1", 0),
    ("", "#1.00015=1", 7),
    ("F100", "G1.00005 X1", 0),
    ("F100", "G1.00015 X1", 8),
    ("", "#[1/0]=1", 6),
    ("", "#100000=1", 5),
    ("", "#1=100000", 5),
    // Nearness.
    ("", "M5.9999", 0),
    ("", "M5.9998", 8),
    ("", "M-0.0001", 0),
    ("", "T-0.0001", 0),
    ("", "T-0.0002", 11),
    ("", "T99.0001", 0),
    ("", "T99.0002", 11),
    ("", "T99", 0),
    ("", "T100", 11),
    ("", "T0", 0),
    ("", "G10 L1.9999 P1", 0),
    ("", "G10 L2.0002 P1", 11),
    ("", "G10 L2 P9.0001", 0),
    ("", "G10 L2 P9.0002", 11),
    ("", "G10 L2 P0.9999", 0),
    ("", "G10 L2 P0", 11),
    ("", "G10 L2 P10", 11),
    ("", "G10 L1 P1", 11),
    ("", "G10 L3 P1", 11),
    ("", "G-0.0001 X1", 0),
    ("", "G-0.05 X1", 8),
    ("", "G-1", 8),
    ("", "G99.9999", 8),
    ("", "G59.0999", 0),
    ("", "G59.0998", 8),
    ("", "G54.05", 8),
    ("", "F-0.0001", 11),
    ("", "S-0.0001", 11),
    ("", "G4 P-0.0001", 11),
    ("", "F-0", 0),
    ("", "S-0", 0),
    ("", "G4 P-0", 0),
    // Codes.
    ("", "G100000", 5),
    ("", "G1 G1 G5", 8),
    ("", "G93", 8),
    ("", "G41", 8),
    ("", "M10", 8),
    ("", "M100", 8),
    ("", "G40 G40", 9),
    ("", "G94 G40 G49", 0),
    ("", "G4 P1 G53 X1", 9),
    ("", "G92 G92.1 X1", 9),
    ("", "M7 M8", 9),
    ("", "M3 M3", 9),
    ("", "M3 M6 M7 M0", 0),
    ("", "X1 X1", 9),
    ("", "#1=1 #1=1", 0),
    ("", "G0 G10 L2 P1 X1", 9),
    ("", "G3 G92 X1", 9),
    ("", "G0 G10", 9),
    ("", "G80 G92 X1", 0),
    ("", "G80 G10 L2 P1 X1", 0),
    ("", "G0 G92.1 X1", 0),
    ("", "G92.1 X1", 12),
    ("", "G4 P1 X1", 12),
    ("G0 X0", "G4 P1 X1", 0),
    // Needed and idle words.
    ("", "G0", 10),
    ("", "G1 F100", 10),
    ("", "G0 G4 P1", 10),
    ("F100|G1 X1", "M5", 0),
    ("", "g40 g1 #3=15 (foo) #4=-7.0", 10),
    ("", "#4=-7.0 g1 #3=15 g40 (foo)", 10),
    ("", "G10 L2 P1", 0),
    ("", "G10 L2 X1", 10),
    ("", "G10 P1 X1", 10),
    ("", "G92", 10),
    ("", "G53", 10),
    ("F100|G2 X1 I0.5", "G53 X1", 10),
    ("F100|G2 X1 I0.5", "G53 X1 I1", 12),
    ("", "X1 I1", 10),
    ("", "X1", 12),
    ("", "I1", 10),
    ("F100|G2 X1 I0.5", "I1", 10),
    ("F100|G2 X1 I0.5", "G10 L2 P1 X1 I1", 10),
    ("F100|G2 X1 I0.5", "G92 X1 I1", 10),
    ("F100", "G1 X1 I1", 10),
    ("F100", "G2 X1 I0.5 K0", 10),
    ("F100", "G2 Z1 I0.5", 10),
    ("F100", "G2 X1", 10),
    ("F100", "G18 G2 X1 I0.5 K0", 0),
    ("F100", "G18 G2 X1 I0.5 J0", 10),
    ("", "P1", 10),
    ("", "L2", 10),
    ("", "G4 P1 L2", 10),
    ("", "G92.1 P1", 10),
    ("", "G53 G0 X1 P1", 10),
    ("", "G92 X1 P1", 10),
    // Moves.
    ("", "G80 X1", 12),
    ("", "G53 X1", 12),
    ("", "G53 G80 X1", 12),
    ("", "G1 X1", 12),
    ("F100|G1 X1", "F0 X1", 12),
    ("", "F100 G1 X1", 0),
    ("", "F0.0001 G1 X1", 0),
    ("F0", "G0 X1", 0),
    ("", "G2 X1 I0.5", 12),
    ("F100|G3 X1 I0.5", "G53 X1 I1", 12),
    ("F100", "G53 G2 X1 I0.5", 12),
    ("F100", "G53 G1 X1", 0),
    // Reach and arcs.
    ("", "G20 G0 X393.7007", 0),
    ("", "G20 G0 X393.7008", 13),
    ("", "G10 L2 P1 X10000.0001", 13),
    ("G0 X10000", "G92 X0.0001", 0),
    ("G0 X10000", "G92 X-0.0001", 13),
    ("G0 X5000|G92 X0|G10 L2 P1 X9000", "G0 X-5000", 0),
    ("F100|G0 X10000", "G2 X10000 I0.0001", 13),
    ("F100", "G2 X99999 I0", 13),
    ("F100", "G2 X1 I0", 14),
    ("F100", "G2 X0.001 I0", 14),
    ("F100", "G2 X0 I0", 14),
    ("F100", "G2 X0 I1", 0),
    ("F100", "G2 X1.002 Y0.0001 I0.5", 14),
    ("F100", "G2 X1.0019 Y0.01 I0.5", 0),
    ("F100", "G2 X1.0019 Y0.0101 I0.5", 14),
    ("F100", "G3 X0.002 Y0 I0.5", 0),
    ("F100", "G3 X0.0021 Y0.01 I0.5", 0),
    ("F100", "G3 X0.0021 Y0.0099 I0.5", 14),
    ("F100", "G20 G2 X1.0002 Y0.0001 I0.5", 14),
    ("F100", "G20 G2 X1.0001 Y0.01 I0.5", 0),
    ("F100", "G20 G2 X1.0001 Y0.0101 I0.5", 14),
    ("F100", "G2 X0.02 I0.02", 14),
    ("F100", "G2 X0.001 I0.001", 0),
    ("F100", "G20 G2 X1.0002 I0.5", 0),
    ("F100", "G20 G2 X1.0003 I0.5", 14),
];

/// Lines worked before, a line, its commands.
const COMMANDS: &[(&str, &str, &[[i64; 8]])] = &[
    ("", "g0x +0. 12 34y 7", &[[8, 12_340, 700_000, 0, 0, 0, 0, 0]]),
    ("#3=1", "G0 #3=15 X#3", &[[8, 100_000, 0, 0, 0, 0, 0, 0]]),
    ("#3=15|F1", "#3=6 G1 x#3", &[[9, 1_500_000, 0, 0, 0, 0, 0, 0]]),
    ("", "G20 G0 X1", &[[8, 2_540_000, 0, 0, 0, 0, 0, 0]]),
    ("", "", &[]),
    ("", "G94 G40 G49 G54 G17", &[]),
    ("", "G20 F1", &[[1, 100_000, 0, 0, 0, 0, 0, 0]]),
    ("G20", "G21 F1", &[[1, 2_540_000, 0, 0, 0, 0, 0, 0]]),
    ("", "M9", &[[6, 0, 0, 0, 0, 0, 0, 0]]),
    ("M7", "M8", &[[6, 2, 0, 0, 0, 0, 0, 0]]),
    ("", "M0", &[[11, 0, 0, 0, 0, 0, 0, 0]]),
    ("M3", "M30", &[[11, 30, 0, 0, 0, 0, 0, 0]]),
    ("M3", "M6", &[[4, 0, 0, 0, 0, 0, 0, 0]]),
    (
        "G0 X0",
        "X1 M1 G4 P2 M8 M4 M6 T7 S3 F2",
        &[
            [1, 200_000, 0, 0, 0, 0, 0, 0],
            [2, 30_000, 0, 0, 0, 0, 0, 0],
            [3, 7, 0, 0, 0, 0, 0, 0],
            [4, 0, 0, 0, 0, 0, 0, 0],
            [5, 2, 0, 0, 0, 0, 0, 0],
            [6, 2, 0, 0, 0, 0, 0, 0],
            [7, 20_000, 0, 0, 0, 0, 0, 0],
            [8, 100_000, 0, 0, 0, 0, 0, 0],
            [11, 1, 0, 0, 0, 0, 0, 0],
        ],
    ),
    ("G0 X5|G91", "G53 X1", &[[8, 100_000, 0, 0, 0, 0, 0, 0]]),
    ("G0 X5|G91", "X1 Z2", &[[8, 600_000, 0, 200_000, 0, 0, 0, 0]]),
    ("G10 L2 P7 X1 Y1", "G59.1 G0 X1", &[[8, 200_000, 0, 0, 0, 0, 0, 0]]),
    ("G10 L2 P6 X3|G10 L2 P7 X1", "G59 G0 X1", &[[8, 400_000, 0, 0, 0, 0, 0, 0]]),
    ("G0 X4|G92 X7", "G0 X9", &[[8, 600_000, 0, 0, 0, 0, 0, 0]]),
    ("G0 X4|G92 X7", "G0 G92.1 X9", &[[8, 900_000, 0, 0, 0, 0, 0, 0]]),
    ("G0 X1|G91", "X1 M2", &[[8, 200_000, 0, 0, 0, 0, 0, 0], [11, 2, 0, 0, 0, 0, 0, 0]]),
    // NGC's printed arc: from X7 Y7 to X10 Y16 about X10 Y11.
    (
        "F1|G0 X7 Y7 Z9",
        "G17 G2 x 10 y 16 i 3 j 4 z 9",
        &[[10, 2, 17, 1_000_000, 1_600_000, 900_000, 1_000_000, 1_100_000]],
    ),
    ("F1|G0 X1 Y2 Z3", "G18 G3 X1 K1", &[[10, 3, 18, 100_000, 200_000, 300_000, 100_000, 400_000]]),
    ("F1|G0 X1 Y2 Z3", "G19 G91 G2 Y0 J1", &[[10, 2, 19, 100_000, 200_000, 300_000, 300_000, 300_000]]),
    ("#100=2", "G[2*5] L[1+1] P#100 X1", &[]),
];

/// Lines worked before, a line, a place in the record, its number there afterwards.
const FIELDS: &[(&str, &str, usize, i64)] = &[
    ("", "G0 X1", 33, 0),
    ("", "G59", 37, 590),
    ("", "G59.1", 37, 591),
    ("", "T99.0001", 40, 99),
    ("", "T-0.0001", 40, 0),
    ("", "M5.9999", 41, 0),
    ("M3", "M6", 41, 0),
    ("M3", "M6 M4", 41, 2),
    ("M7", "M8", 42, 3),
    ("M8", "M7", 42, 3),
    ("M7|M8", "M9", 42, 0),
    ("", "G80 G92 X1", 33, 800),
    ("", "G80 G92 X1", 30, -100_000),
    ("G0 X1", "G80 G10 L2 P1 X1", 33, 800),
    ("G0 X4", "G92 X7", 30, -300_000),
    ("G0 X4|G92 X7", "G92 X9", 30, -500_000),
    ("G0 X4|G92 X7", "G92.1", 30, 0),
    ("G0 X1|G91", "G92 X1", 30, 0),
    ("G10 L2 P2 X1", "G55 G92 X0", 30, -100_000),
    ("G0 X1|G91", "G10 L2 P1 X1", 3, 100_000),
    ("G0 X1|G91", "G10 L2 P1 X1", 0, 100_000),
    ("", "G20 G10 L2 P9 Z1", 29, 2_540_000),
    ("", "G10 L2 P6 X1", 18, 100_000),
    ("", "G10 L2 P7 X1", 21, 100_000),
    ("", "G0 X-0", 0, 0),
    ("", "F99999.9999", 38, 9_999_999_990),
    ("G20", "F99999.9999", 38, 253_999_999_746),
    ("", "M2 G80", 33, 10),
    ("", "M30 G55", 37, 540),
    ("", "M30 G19 G91", 34, 170),
    ("", "M30 G19 G91", 35, 900),
    ("", "M2 G20", 36, 200),
    ("M3 M7", "M2", 41, 0),
    ("M3 M7", "M2", 42, 0),
    ("G0 X1", "M2 G92 X0", 30, 0),
    ("F7|S5|T3", "M2", 38, 700_000),
    ("F7|S5|T3", "M2", 39, 50_000),
    ("F7|S5|T3", "M2", 40, 3),
    ("G10 L2 P2 X1", "M2", 6, 100_000),
    ("G0 X1", "M0", 33, 0),
    ("G0 X1", "G1 X0.5", 33, 0),
];

/// Lines worked before, a line, a parameter, its value afterwards. A refused line changes nothing.
const ENTRIES: &[(&str, &str, usize, i64)] = &[
    ("", "#3=15 #3=6", 3, 60_000),
    ("", "#3=6 #3=15", 3, 150_000),
    ("", "#1.0001=2", 1, 20_000),
    ("", "#4999=1", 4_999, 10_000),
    ("#1=2", "##1=5", 2, 50_000),
    ("#1=2", "##1=5", 1, 20_000),
    ("#1=4", "#1=2 #2=#1", 2, 40_000),
    ("#3=1", "G0 #3=15 X#3", 3, 150_000),
    ("#3=1", "#3=15 G4", 3, 10_000),
    ("", "#3 = 15", 3, 150_000),
];

/// Lines worked before, a line, and the work it reports: "one for each value and each operator in its derivation".
const WORKS: &[(&str, &str, usize)] = &[
    ("", "", 0),
    ("", "N5 (a comment [1+1])", 0),
    ("", "G21", 1),
    ("", "S[1]", 2),
    ("", "SABS[1]", 2),
    ("#1=1", "S#1", 2),
    ("", "S[1+2]", 4),
    ("", "S[1+2*3]", 6),
    ("", "S[[1]+ROUND[2]]", 6),
    ("#1=1", "S##1", 3),
    ("#1=1", "S#[1]", 3),
    ("", "#1=2", 2),
    ("", "#[1]=2", 3),
    ("#1=1", "##1=2", 3),
    ("#1=1", "#1=#1", 3),
    ("", "#1=2 #3=[4-5] G21", 8),
    ("", "g0x +0. 12 34y 7", 3),
    // A condition is an expression and no value.
    ("", "/[1+1]", 3),
    ("", "/[1]", 1),
    ("", "\\[0]M6", 2),
    ("", "/[[1]]", 2),
    // Refused and skipped lines report none.
    ("", "/[0]M6", 0),
    ("", "\\M6", 0),
    ("", "S[1/0]", 0),
    ("", "X[1", 0),
    ("", "G59.4", 0),
];

/// Lines worked before, a line, the switch, its number.
const MARKS: &[(&str, &str, bool, u8)] = &[
    // Plain marks: `/` runs with the switch off, `\` with the switch on, and else they skip unread.
    ("", "/M6", false, 0),
    ("", "/M6", true, 100),
    ("", "\\M6", true, 0),
    ("", "\\M6", false, 100),
    ("", "\\)(", false, 100),
    ("", "\\)(", true, 3),
    ("", "\\X[1/0]", true, 6),
    ("", "/(c)[1]", true, 100),
    ("", "/(c)[1]", false, 3),
    ("", "\\(c)[1]", false, 100),
    ("", "\\(c)[1]", true, 3),
    ("", "/", true, 100),
    ("", "\\", false, 100),
    // A mark whose next non-blank byte is `[` ignores the switch.
    ("", "/[1]M6", true, 0),
    ("", "/[1]M6", false, 0),
    ("", "/ \t[1]M6", true, 0),
    ("", "\\[0]M6", true, 0),
    ("", "\\[0]M6", false, 0),
    ("", "/[0]M6", false, 100),
    ("", "\\[1]M6", true, 100),
    // "Zero means at most 0.0001 from zero."
    ("", "/[0.0001]M6", false, 100),
    ("", "/[-0.0001]M6", false, 100),
    ("", "/[0.0002]M6", false, 0),
    ("", "/[-0.0002]M6", false, 0),
    ("", "\\[0.0001]M6", false, 0),
    ("", "\\[-0.0001]M6", false, 0),
    ("", "\\[0.0002]M6", false, 100),
    ("", "/[0.01*0.01]M6", false, 100),
    ("", "/[0.00014]M6", false, 100),
    ("", "/[0.00015]M6", false, 0),
    ("", "\\[-0.00014999]M6", false, 0),
    ("", "\\[-0.00015]M6", false, 100),
    // The right form first, then 16, then the condition's own numbers, and nothing else if it says no.
    ("", "/[0]X", false, 3),
    ("", "/[0]X", true, 3),
    ("", "/[0", true, 3),
    ("", "/[1/0]X", true, 3),
    ("", "/[1/0]", true, 6),
    ("", "/[1/0]X100000", false, 6),
    ("", "/[99999+1]X[1/0]", false, 5),
    ("", "\\[#5000]X[1/0]", false, 7),
    ("", "\\[#0]X[1/0]", true, 7),
    ("", "/[0]X[1/0]", false, 100),
    ("", "/[0]#0=1", false, 100),
    ("", "/[0]G99 G99 X1 X1", false, 100),
    ("", "/[1]X[1/0]", false, 6),
    ("", "/[1]G99", false, 8),
    // From the table at entry.
    ("", "/[#1]#1=1 M6", false, 100),
    ("", "\\[#1]#1=1 M6", false, 0),
    ("#1=1", "/[#1]#1=0 M6", false, 0),
    ("#1=0.0001", "/[#1]M6", false, 100),
];

/// Nests: an opening, how often its last piece is repeated, what stands within, what closes each piece, the rest of
/// the line, and its number. Entry 1 is 1.
const NESTS: &[(&str, usize, &str, &str, &str, u8)] = &[
    // 24 passes.
    ("S[", 24, "1", "]", "", 0),
    ("S[", 25, "1", "]", "", 16),
    ("S#", 24, "1", "", "", 0),
    ("S#", 25, "1", "", "", 16),
    ("SABS[", 24, "1", "]", "", 0),
    ("SABS[", 25, "1", "]", "", 16),
    ("S#[", 12, "1", "]", "", 0),
    ("S#[", 13, "1", "]", "", 16),
    ("S#[", 12, "#1", "]", "", 16),
    // A setting's first `#` aside, and both of its sides.
    ("##", 24, "1", "", "=2", 0),
    ("##", 25, "1", "", "=2", 16),
    ("#2=[", 24, "1", "]", "", 0),
    ("#2=[", 25, "1", "]", "", 16),
    // A condition's own bracket counts, and its numbers and its skip come later.
    ("/[", 24, "1", "]", "", 0),
    ("/[", 25, "1", "]", "", 16),
    ("/[", 25, "0", "]", "M6", 16),
    ("/[", 25, "1/0", "]", "", 16),
    ("/[0]S[", 25, "1", "]", "", 16),
    ("/[1/0]S[", 25, "1", "]", "", 16),
    ("\\[", 25, "1", "]", "X", 3),
    ("/S[", 25, "1", "]", "", 16),
    ("\\S[", 25, "1", "]", "", 100),
    // After 3, before 5 to 7, anywhere on the line.
    ("S[", 25, "1", "]", " X", 3),
    ("S[", 25, "1", "]", "]", 3),
    ("S[", 25, "1/0", "]", "", 16),
    ("S[", 25, "1.00001", "]", "", 16),
    ("X100000 S[", 25, "1", "]", "", 16),
    ("#0=1 S[", 25, "1", "]", "", 16),
    ("S[", 25, "1", "]", " X[1/0] G99", 16),
    ("S[", 24, "1/0", "]", "", 6),
    ("S[", 26, "100000", "]", "", 16),
    ("S[", 127, "1", "]", "", 16),
    ("S#", 254, "1", "", "", 16),
    ("S[", 128, "", "", "", 3),
];

/// A nest as a line. What is repeated is the opening's last byte, but ABS and # go with their brackets.
fn nest_line((opening, times, within, closing, rest): (&str, usize, &str, &str, &str)) -> String {
    let (first, again) = match opening {
        "SABS[" => ("S", "ABS["),
        "S#[" => ("S", "#["),
        _ => opening.split_at(opening.len() - 1),
    };
    [first, &again.repeat(times), within, &closing.repeat(times), rest].concat()
}

/// Standard input and the frames it gives.
const FRAMES: &[(&str, &str)] = &[
    (
        "G21 G90 F100\nG1 X1 Y-0.5\nM5\nG59.4\n",
        "010000989680\n0900000186A0FFFFFF3CB00000000000\n050000000000\nFF0000000008\n",
    ),
    ("", ""),
    ("\n\n", ""),
    ("M6", "04\n"),
    ("M6\n", "04\n"),
    ("M6\r\n", "04\n"),
    ("M6\r", "FF0000000003\n"),
    ("M6\r\r\n", "FF0000000003\n"),
    ("\r", "FF0000000003\n"),
    ("\r\n", ""),
    ("M2\nM30\nM5", "0B0000000002\n0B000000001E\n050000000000\n"),
    ("/M6\n", "04\n"),
    ("\\M6\nM9\n", "060000000000\n"),
    ("/[0]M6\n\\[0]M9\n/[1]M5\n\\[1]M5\n", "060000000000\n050000000000\n"),
    ("\\[1]X\nM9\n", "FF0000000003\n"),
    ("G4\nM6\n", "FF000000000A\n"),
    ("G20\nF99999.9999\nS1\n", "013B23946B02\n020000002710\n"),
    ("F100\nG3 X1 I0.5\n", "010000989680\n0A0000000003000000001100000186A000000000000000000000000000C3500000000000\n"),
];

// ---------------------------------------------------------------- Held to the rules alone

fn form_holds(&(line, number): &(&[u8], u8)) -> bool {
    let (told, place) = rules::form(line);
    // A right line goes along to its end, and only a right one does.
    told == number && places::place(line).is_none() == (number == 0) && (number == 3 || place == 0)
}

fn value_holds((text, expected): &(&str, Result<i64, u8>)) -> bool {
    let mut table = vec![0; TABLE_LENGTH];
    (table[1], table[2], table[7], table[61]) = (20_000, 70_000, 10_000, 1_000_000_000);
    match rules::read(format!("X{text}").as_bytes(), &table) {
        Reading::WrongForm => false,
        Reading::Stopped(number) => *expected == Err(number),
        Reading::Read { words, settings, .. } => {
            settings.is_empty() && expected.is_ok_and(|value| words == [(b'X', value)])
        }
    }
}

fn frames_hold(&(input, expected): &(&str, &str)) -> bool {
    let mut written = Vec::new();
    crate::frames(input.as_bytes(), &mut written, "").is_ok() && written == expected.as_bytes()
}

// ---------------------------------------------------------------- Held as cases

/// What an answer must be, and else that a refused or skipped line leaves everything as it was.
enum Expected {
    /// The form alone is told: 3 or anything later.
    Form(u8),
    Number(u8),
    Commands(&'static [[i64; 8]]),
    Field(usize, i64),
    Entry(usize, i64),
    /// A wrong form, and where it breaks.
    Place(usize),
    Work(usize),
}

/// One example: the table it stands in, its case, and what the case must give.
struct Example {
    table: &'static str,
    case: Case,
    expected: Expected,
}

impl Example {
    fn holds(&self, answer: &Answer) -> bool {
        let Answer { number, count, place, work, ref record, ref changes, ref output, kept } = *answer;
        let unchanged = *record == self.case.record && changes.is_empty() && output.is_empty();
        let entry_after = |number: usize| {
            let held = changes.iter().chain(self.case.changes.iter()).find(|change| change.0 == number);
            held.map_or(0, |change| change.1)
        };
        let as_told = match self.expected {
            Expected::Form(form) => (number == 3) == (form == 3) && number != 1 && number != 2,
            Expected::Number(wanted) => number == u64::from(wanted),
            Expected::Commands(commands) => number == 0 && *output == commands.concat(),
            Expected::Field(place, wanted) => record[place] == wanted,
            Expected::Entry(number, wanted) => entry_after(number) == wanted,
            Expected::Place(wanted) => number == 3 && place == wanted,
            Expected::Work(wanted) => work == wanted,
        };
        let bounded = work <= bare_bytes(&self.case.line) && (number == 0 || work == 0);
        let placed = if number == 3 { place <= self.case.line.len() } else { place == 0 };
        as_told && bounded && placed && kept && output.len() == 8 * count && (number == 0 || unchanged)
    }
}

/// "the line's bytes that are neither blank nor in a comment".
fn bare_bytes(line: &[u8]) -> usize {
    let (mut bare, mut inside) = (0, false);
    for &byte in line {
        inside |= byte == b'(';
        bare += usize::from(!inside && byte != b' ' && byte != b'\t');
        inside &= byte != b')';
    }
    bare
}

/// A line for the fresh record and an all-zero table.
pub fn usual(line: &[u8]) -> Case {
    let record = Record::fresh().to_numbers();
    Case { line: line.to_vec(), switch: false, record, table_length: TABLE_LENGTH, changes: Vec::new(), room: 80 }
}

/// The lines before, each as an example that is accepted, and the line after them.
fn session(table: &'static str, before: &str, line: &str, expected: Expected) -> Vec<Example> {
    let (mut examples, mut state) = (Vec::new(), usual(b""));
    for earlier in before.split('|') {
        let case = Case { record: state.record, changes: state.changes.clone(), ..usual(earlier.as_bytes()) };
        let answer = cases::work(&case);
        state.record = answer.record;
        for (number, value) in answer.changes {
            state.changes.retain(|change| change.0 != number);
            state.changes.push((number, value));
        }
        examples.push(Example { table, case, expected: Expected::Number(0) });
    }
    let case = Case { line: line.as_bytes().to_vec(), ..state };
    examples.push(Example { table, case, expected });
    examples
}

/// A value as the setting of entry 100, which holds something else before.
fn value_example((text, value): &(&str, Result<i64, u8>)) -> Example {
    let changes = vec![(1, 20_000), (2, 70_000), (7, 10_000), (61, 1_000_000_000), (100, 7)];
    let case = Case { changes, ..usual(format!("#100={text}").as_bytes()) };
    let expected = value.map_or_else(Expected::Number, |value| Expected::Entry(100, value));
    Example { table: "value", case, expected }
}

/// Record fields at the end of their range; one more is number 1.
const INSIDE: [(usize, i64); 7] =
    [(0, 1_000_000_000), (29, -1_000_000_000), (38, 253_999_999_746), (39, 999_999_999), (40, 99), (41, 2), (42, 3)];
/// More fields outside their range.
const OUTSIDE: [(usize, i64); 7] = [(33, 40), (34, 0), (35, 920), (36, 190), (37, 594), (38, -1), (30, i64::MIN)];

/// Lines with the switch, records and tables about their limits, and too little room; with their numbers.
fn lent_cases() -> Vec<(Case, u8)> {
    let field = |(place, number): (usize, i64), line: &[u8]| {
        let mut case = usual(line);
        case.record[place] = number;
        case
    };
    let switched = |line: &[u8]| Case { switch: true, ..usual(line) };
    let of_length = |table_length, line: &[u8]| Case { table_length, ..usual(line) };
    let with_entry = |number, value, line: &[u8]| Case { changes: vec![(number, value)], ..usual(line) };
    let in_room = |room, line: &[u8]| Case { room, ..usual(line) };
    let mut cases = vec![
        (usual(&[b' '; 256]), 0),
        (usual(&[b' '; 257]), 2),
        (usual(&[b')'; 257]), 2),
        (switched(b"/)("), 100),
        (switched(b" \t/ M6"), 100),
        (switched(b"(c)/"), 3),
        (switched(&[b'/'; 257]), 2),
        (Case { table_length: 4_999, ..switched(b"/") }, 1),
        (usual(b"/)("), 3),
        (usual(b"/M6"), 0),
        (of_length(4_999, b""), 1),
        (of_length(5_001, b""), 1),
        (with_entry(1, 1_000_000_000, b"#1=2"), 0),
        (with_entry(1, 1_000_000_000, b"G0 X#1"), 5),
        (with_entry(0, i64::MIN, b"G0 X1"), 0),
        (in_room(0, b"G21"), 0),
        (in_room(0, b"M6"), 15),
        (in_room(7, b"M6"), 15),
        (in_room(8, b"M6"), 0),
        (in_room(15, b"#1=2 M6 M3"), 15),
        (in_room(16, b"#1=2 M6 M3"), 0),
    ];
    cases.extend(INSIDE.map(|at_limit| (field(at_limit, b""), 0)));
    let outside = INSIDE.map(|(place, number)| (place, if number < 0 { number - 1 } else { number + 1 }));
    cases.extend(outside.map(|beyond| (field(beyond, b""), 1)));
    cases.extend(OUTSIDE.map(|wrong| (field(wrong, b")"), 1)));
    cases
}

/// NGC prints a line of five items, with the motion g1, that means the same in all of its 120 orders; here it is 10.
pub fn five_items_in_every_order(motion: &str) -> Vec<String> {
    let mut orders = vec![String::new()];
    for (placed, item) in ["g40", motion, "#3=15", "(foo)", "#4=-7.0"].iter().enumerate() {
        orders = orders.iter().flat_map(|order| (0..=placed).map(move |place| with_item(order, place, item))).collect();
    }
    orders
}

fn with_item(order: &str, place: usize, item: &str) -> String {
    let mut items: Vec<&str> = order.split_whitespace().collect();
    items.insert(place, item);
    items.join(" ")
}

/// Every example that is a case, in one order.
fn examples() -> Vec<Example> {
    let mut all = Vec::new();
    let form = |&(line, form): &(&[u8], u8)| {
        // A plain `\` is read with the switch on.
        let switch = line.trim_ascii_start().first() == Some(&b'\\');
        Example { table: "form", case: Case { switch, ..usual(line) }, expected: Expected::Form(form) }
    };
    all.extend(FORMS.iter().map(form));
    let place = |&(line, place): &(&[u8], usize)| {
        let switch = line.trim_ascii_start().first() == Some(&b'\\');
        Example { table: "place", case: Case { switch, ..usual(line) }, expected: Expected::Place(place) }
    };
    all.extend(PLACES.iter().map(place));
    all.extend(VALUES.iter().map(value_example));
    for &(before, line, number) in NUMBERS {
        all.extend(session("number", before, line, Expected::Number(number)));
    }
    for &(before, line, commands) in COMMANDS {
        all.extend(session("commands", before, line, Expected::Commands(commands)));
    }
    for &(before, line, place, number) in FIELDS {
        all.extend(session("field", before, line, Expected::Field(place, number)));
    }
    for &(before, line, number, value) in ENTRIES {
        all.extend(session("entry", before, line, Expected::Entry(number, value)));
    }
    for &(before, line, work) in WORKS {
        all.extend(session("work", before, line, Expected::Work(work)));
    }
    for &(before, line, switch, number) in MARKS {
        let mut examples = session("mark", before, line, Expected::Number(number));
        examples.iter_mut().for_each(|example| example.case.switch = switch);
        all.extend(examples);
    }
    for &(opening, times, within, closing, rest, number) in NESTS {
        let line = nest_line((opening, times, within, closing, rest));
        all.extend(session("nest", "#1=1", &line, Expected::Number(number)));
    }
    for line in five_items_in_every_order("g1") {
        all.extend(session("order", "", &line, Expected::Number(10)));
    }
    let lent = lent_cases().into_iter();
    all.extend(lent.map(|(case, number)| Example { table: "lent", case, expected: Expected::Number(number) }));
    all
}

/// The examples as cases, one a line.
pub fn write_cases(out: &mut impl Write) -> io::Result<()> {
    examples().iter().try_for_each(|example| writeln!(out, "{}", example.case.text()))
}

/// The programs among the examples, NNNN.ngc, and the frames that each gives, NNNN.frames.
pub fn write_programs(folder: &Path) -> io::Result<()> {
    fs::create_dir_all(folder)?;
    for (place, (input, frames)) in FRAMES.iter().enumerate() {
        fs::write(folder.join(format!("{place:04}.ngc")), input)?;
        fs::write(folder.join(format!("{place:04}.frames")), frames)?;
    }
    Ok(())
}

// ---------------------------------------------------------------- Running them

/// How many examples hold and how many do not.
struct Count {
    passed: usize,
    failed: usize,
}

impl Count {
    fn add(&mut self, holds: bool, name: &str, place: usize, out: &mut impl Write) -> io::Result<()> {
        if holds {
            self.passed += 1;
            return Ok(());
        }
        self.failed += 1;
        writeln!(out, "failed: {name} {place}")
    }

    fn all<T>(&mut self, name: &str, table: &[T], holds: fn(&T) -> bool, out: &mut impl Write) -> io::Result<()> {
        (0..table.len()).try_for_each(|place| self.add(holds(&table[place]), name, place, out))
    }

    fn told(&self, out: &mut impl Write) -> io::Result<bool> {
        writeln!(out, "examples: {} passed, {} failed", self.passed, self.failed)?;
        Ok(self.failed == 0 && self.passed > 0)
    }
}

/// Runs every example by the rules of this program; true if all hold.
pub fn run(out: &mut impl Write) -> io::Result<bool> {
    let mut count = Count { passed: 0, failed: 0 };
    count.all("form alone", FORMS, form_holds, out)?;
    count.all("value alone", VALUES, value_holds, out)?;
    count.all("frames", FRAMES, frames_hold, out)?;
    for (place, example) in examples().iter().enumerate() {
        count.add(example.holds(&cases::work(&example.case)), example.table, place, out)?;
    }
    count.told(out)
}

/// Holds the answers of another program, in the order of the cases, to the examples; true if all hold.
pub fn hold_answers(input: impl BufRead, out: &mut impl Write) -> io::Result<bool> {
    let (examples, mut answers) = (examples(), Vec::new());
    crate::each_line(input, |text| Ok(answers.push(cases::answer_of(text))))?;
    let mut count = Count { passed: 0, failed: 0 };
    for (place, example) in examples.iter().enumerate() {
        let answer = answers.get(place).and_then(Option::as_ref);
        count.add(answer.is_some_and(|answer| example.holds(answer)), example.table, place, out)?;
    }
    count.add(answers.len() == examples.len(), "number of answers", answers.len(), out)?;
    count.told(out)
}
