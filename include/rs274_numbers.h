/*
 * What a control and its panel say in common: the version, the longest line, and the numbers that a line
 * carries, with their texts. rs274.h and rs274_panel.h include it.
 */
#ifndef RS274_NUMBERS_H
#define RS274_NUMBERS_H

#include <stdint.h>

/* Hundreds go up when something that a firmware relies on changes its meaning, ones when something is added.
   The headers and the libraries of one checkout belong together. */
#define RS274_VERSION 401

enum {
    RS274_LINE = 256,  /* the most bytes that a line may have, without its end marker */
    RS274_NESTING = 24 /* the most [ and # that may stand one within another, the first # of a setting aside */
};

/* The number that a line carries. Where several apply it is the lowest, but 16 comes after 3 and before 4, and of 5
   to 7 it is the first that is met while the line's values are worked out, those of its condition first.

   A line that begins with / is skipped where block delete is on, one that begins with \ where it is off; that is
   decided after 2, and what else is wrong with the line is not looked for. But /[..] and \[..] are conditions, and
   block delete is nothing to them: such a line must be of right form (3, 16), then the condition is worked out (5 to
   7), and the line is skipped where it says no, whatever else is wrong with it. /[..] says yes where its value is not
   zero, \[..] where it is zero, which is at most 0.0001 from zero.

   With RS274_REFUSED_FORM comes a place in the line, so that nobody has to count brackets: the number of bytes in
   the longest beginning of the line, as it was typed, that some line of right form, however long, also begins with.
   The byte at that place, counted from 0, is the first with which no right line can go on: put the cursor on it. A
   line that only ends too early gives its whole length: put the cursor behind its last byte, where more is to be
   typed. With every other number the place is 0, and it may be 0 with this one: X Y1 has 2, X[1 has 3, ) has 0. */
enum {
    RS274_ACCEPTED = 0,
    RS274_REFUSED_OUT_OF_ORDER = 1,
    RS274_REFUSED_LENGTH = 2,
    RS274_REFUSED_FORM = 3,
    RS274_REFUSED_DECIMALS = 4, /* kept in the list, never given: a number may have any decimals */
    RS274_REFUSED_RANGE = 5,
    RS274_REFUSED_DIVISOR = 6,
    RS274_REFUSED_PARAMETER = 7,
    RS274_REFUSED_CODE = 8,
    RS274_REFUSED_TWICE = 9,
    RS274_REFUSED_WORDS = 10,
    RS274_REFUSED_WORD_VALUE = 11,
    RS274_REFUSED_MOVE = 12,
    RS274_REFUSED_REACH = 13,
    RS274_REFUSED_ARC = 14,
    RS274_REFUSED_ROOM = 15,
    RS274_REFUSED_NESTING = 16,
    RS274_SKIPPED = 100
};

/* Why a line carries its number, as words that can follow a colon. Never null. */
static inline const char *rs274_why(uint32_t number) {
    switch (number) {
    case RS274_ACCEPTED: return "the line is accepted";
    case RS274_REFUSED_OUT_OF_ORDER: return "the session's record or the parameter table is out of order";
    case RS274_REFUSED_LENGTH: return "the line has more than 256 bytes";
    case RS274_REFUSED_FORM: return "the line is of wrong form";
    case RS274_REFUSED_DECIMALS: return "no line carries it any more: a number may have any digits after its point";
    case RS274_REFUSED_RANGE: return "a value written, worked out or read from a parameter is beyond 99999.9999";
    case RS274_REFUSED_DIVISOR: return "a divisor of / or MOD is zero";
    case RS274_REFUSED_PARAMETER: return "a parameter number is not a whole number from 1 to 4999";
    case RS274_REFUSED_CODE: return "a G or M code is not served";
    case RS274_REFUSED_TWICE:
        return "a letter stands twice, two codes are of one group, or G0 to G3 stands beside G10 or G92";
    case RS274_REFUSED_WORDS: return "a word that is needed is missing, or a word has no use on this line";
    case RS274_REFUSED_WORD_VALUE: return "F, S, P, T or L has a value that it cannot have";
    case RS274_REFUSED_MOVE: return "a move in mode G80, a move by G1 to G3 at feed 0, or G53 without G0 or G1";
    case RS274_REFUSED_REACH: return "a target, centre, origin or offset is beyond 1000000000 counts, which are 10 m";
    case RS274_REFUSED_ARC: return "an arc starts at its centre, or its end is not as far from the centre as its start";
    case RS274_REFUSED_ROOM: return "the output space is too short for the line's commands";
    case RS274_REFUSED_NESTING: return "more than 24 of [ and # stand one within another";
    case RS274_SKIPPED: return "the line is skipped, by its mark and the block delete switch or by its condition";
    default: return "no line carries this number";
    }
}

/* What whoever wrote the program, or the firmware, can do about a refusal. Never null. */
static inline const char *rs274_remedy(uint32_t number) {
    switch (number) {
    case RS274_REFUSED_OUT_OF_ORDER:
        return "begin the record with RS274_FRESH, keep its fields in their ranges, and lend a table of 5000 entries";
    case RS274_REFUSED_LENGTH: return "write it as two lines";
    case RS274_REFUSED_FORM:
        return "look for a letter that begins no word, a bracket or comment left open, a sign before a bracket or a"
               " parameter, or a line end handed over with the line";
    case RS274_REFUSED_RANGE: return "keep every value, and every step of an expression, from -99999.9999 to 99999.9999";
    case RS274_REFUSED_DIVISOR: return "see that what stands after / or MOD cannot come to zero";
    case RS274_REFUSED_PARAMETER: return "use parameters 1 to 4999";
    case RS274_REFUSED_CODE: return "use a code that this control serves";
    case RS274_REFUSED_TWICE: return "write it as two lines";
    case RS274_REFUSED_WORDS:
        return "G4 needs P; G10 needs L and P; G92, G53 and G0 to G3 need an axis word; an arc needs an axis word and"
               " one of I J K, of its plane; take out what none of these uses";
    case RS274_REFUSED_WORD_VALUE:
        return "F, S and the P of G4 are not below 0, T is whole from 0 to 99, L is 2, the P of G10 is whole from 1 to 9";
    case RS274_REFUSED_MOVE: return "give G0, G1 or a feed by F first; use G53 with G0 or G1";
    case RS274_REFUSED_REACH: return "look at the units, the origin and the G92 offset in force";
    case RS274_REFUSED_ARC: return "the two radii may differ by 0.002 mm, under G20 by 0.0002 inch: look at I J K and the end";
    case RS274_REFUSED_ROOM: return "lend RS274_COMMANDS times RS274_COMMAND numbers of output space";
    case RS274_REFUSED_NESTING: return "work out the inner part first, by a setting on a line of its own";
    default: return "nothing is to be done";
    }
}

#endif
