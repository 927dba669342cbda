/*
 * One line of an RS-274/NGC program at a time, for a control's firmware. For C99 and C++11, and later.
 *
 * The library is proved to leave what document 01, "Build requirements and exact rules", says, whatever
 * the bytes, the record, the table and the output space hold. It keeps no state of its own, so sessions that
 * share no space may run at the same time, and it allocates nothing. Of the C library it needs no more than any
 * compiled code may: memcpy, memmove, memset and memcmp.
 *
 *     tools/build.sh embed                               (proves it, and writes target/staticlib/libembed.a)
 *     gcc -Iinclude x.c target/staticlib/libembed.a      (g++ likewise; examples/session.c is an x.c)
 *
 * The library holds objects for x86-64 Linux, and links into nothing else.
 *
 * A refused line means that the program must not go on: the lines after it were written for a machine that
 * has worked this one. Stop, as examples/session.c does.
 */
#ifndef RS274_H
#define RS274_H

#include <stdbool.h>
#include <stddef.h>
#include <stdint.h>

#include "rs274_numbers.h"

/* ---- the session's record and the parameter table */

/* Units. A length is a whole number of counts of 10 nm; a value, as a parameter holds it, one of ten-thousandths. */
enum {
    RS274_ONE = 10000,           /* ten-thousandths in 1: after #3=6 entry 3 of the table is 60000 */
    RS274_MILLIMETRE = 100000,   /* counts in one */
    RS274_INCH = 2540000,        /* counts in one */
    RS274_REACH = 1000000000     /* positions, centres, origins and offsets are from minus this to this */
};

/* Where the record's 43 numbers stand. A mode is ten times its code. */
enum {
    RS274_POSITION = 0,  /* X, Y, Z, in counts */
    RS274_ORIGINS = 3,   /* nine times X, Y, Z, in counts: G54, G55, .. G59, G59.1, G59.2, G59.3 */
    RS274_OFFSET = 30,   /* the G92 offset: X, Y, Z, in counts */
    RS274_MOTION = 33,   /* RS274_MODE_G0, G1, G2, G3 or G80 */
    RS274_PLANE = 34,    /* RS274_MODE_G17, G18 or G19 */
    RS274_DISTANCE = 35, /* RS274_MODE_G90 or G91 */
    RS274_UNITS = 36,    /* RS274_MODE_G20 or G21 */
    RS274_SYSTEM = 37,   /* RS274_MODE_G54 .. G59, G59_1, G59_2 or G59_3 */
    RS274_FEED = 38,     /* counts a minute, 0 to 253,999,999,746 */
    RS274_SPEED = 39,    /* ten-thousandths of a revolution a minute, 0 to 999,999,999 */
    RS274_TOOL = 40,     /* the tool selected, 0 to 99 */
    RS274_SPINDLE = 41,  /* RS274_SPINDLE_OFF, CLOCKWISE or COUNTERCLOCKWISE */
    RS274_COOLANT = 42,  /* RS274_COOLANT_OFF, or MIST and FLOOD added */
    RS274_RECORD = 43    /* how many numbers a record has */
};

/* The modes that a record can hold. */
enum {
    RS274_MODE_G0 = 0,
    RS274_MODE_G1 = 10,
    RS274_MODE_G2 = 20,
    RS274_MODE_G3 = 30,
    RS274_MODE_G17 = 170,
    RS274_MODE_G18 = 180,
    RS274_MODE_G19 = 190,
    RS274_MODE_G20 = 200,
    RS274_MODE_G21 = 210,
    RS274_MODE_G54 = 540,
    RS274_MODE_G55 = 550,
    RS274_MODE_G56 = 560,
    RS274_MODE_G57 = 570,
    RS274_MODE_G58 = 580,
    RS274_MODE_G59 = 590,
    RS274_MODE_G59_1 = 591,
    RS274_MODE_G59_2 = 592,
    RS274_MODE_G59_3 = 593,
    RS274_MODE_G80 = 800,
    RS274_MODE_G90 = 900,
    RS274_MODE_G91 = 910
};

/* A fresh record, G80 G17 G90 G21 G54 and zeros: int64_t rec[RS274_RECORD] = RS274_FRESH;
   A record of nothing but zeros is no fresh one: it is out of order, number 1. */
#define RS274_FRESH \
    {0, 0, 0, \
     0, 0, 0, 0, 0, 0, 0, 0, 0, 0, 0, 0, 0, 0, 0, 0, 0, 0, 0, 0, 0, 0, 0, 0, 0, 0, 0, \
     0, 0, 0, \
     RS274_MODE_G80, RS274_MODE_G17, RS274_MODE_G90, RS274_MODE_G21, RS274_MODE_G54, 0, 0, 0, 0, 0}

enum {
    RS274_TABLE = 5000 /* how many entries the parameter table has; fresh: zeros; entry 0 is unused */
};

/* Makes a record fresh, when a session begins anew. */
static inline void rs274_fresh(int64_t *rec) {
    static const int64_t fresh[RS274_RECORD] = RS274_FRESH;
    for (int i = 0; i < RS274_RECORD; i++) rec[i] = fresh[i];
}

/* ---- the commands of an accepted line */

enum {
    RS274_COMMAND = 8,  /* how many numbers a command has: its kind, its fields, and zeros */
    RS274_COMMANDS = 9, /* no line gives more commands */
    RS274_KIND = 0      /* where a command's kind stands */
};

/* The kinds, and where the fields of each stand in its eight numbers. Lengths are counts, all of them where the
   machine is to be, with origin and G92 offset added, G90 or G91: a firmware adds nothing to them. */
enum {
    RS274_KIND_FEED = 1, /* from now on feed moves and arcs go */
    RS274_FEED_RATE = 1, /* so many counts a minute */

    RS274_KIND_SPEED = 2, /* the spindle's speed, whether it turns or not */
    RS274_SPEED_RATE = 1, /* ten-thousandths of a revolution a minute */

    RS274_KIND_SELECT_TOOL = 3, /* the tool that the next change takes */
    RS274_SELECT_TOOL = 1,      /* its number, 0 to 99 */

    RS274_KIND_CHANGE_TOOL = 4, /* no field; it also stops the spindle: no command of kind 5 says so */

    RS274_KIND_SPINDLE = 5,
    RS274_SPINDLE_TURN = 1, /* RS274_SPINDLE_OFF, CLOCKWISE or COUNTERCLOCKWISE */

    RS274_KIND_COOLANT = 6,
    RS274_COOLANT_SWITCH = 1, /* RS274_COOLANT_OFF: both off; MIST or FLOOD: that one on, the other as it was */

    RS274_KIND_DWELL = 7,
    RS274_DWELL_TIME = 1, /* ten-thousandths of a second */

    RS274_KIND_RAPID = 8,     /* a straight line, as fast as the machine can */
    RS274_KIND_FEED_MOVE = 9, /* a straight line at the feed */
    RS274_MOVE_X = 1,         /* where either ends */
    RS274_MOVE_Y = 2,
    RS274_MOVE_Z = 3,

    RS274_KIND_ARC = 10,    /* a circular arc at the feed, a whole circle where its end in the plane is its start; */
                            /* the axis off the plane goes along evenly (NGC) */
    RS274_ARC_TURN = 1,     /* RS274_ARC_CLOCKWISE or COUNTERCLOCKWISE */
    RS274_ARC_PLANE = 2,    /* RS274_ARC_XY, XZ or YZ: 17, 18 or 19, and not 170, 180 or 190 as in the record */
    RS274_ARC_X = 3,        /* where it ends */
    RS274_ARC_Y = 4,
    RS274_ARC_Z = 5,
    RS274_ARC_CENTRE_1 = 6, /* where its centre is (not how far from the start), in the order X, Y, Z: */
    RS274_ARC_CENTRE_2 = 7, /* X and Y in plane 17, X and Z in plane 18, Y and Z in plane 19 */

    RS274_KIND_STOP = 11, /* the machine waits for the operator, once all before it is done */
    RS274_STOP_CODE = 1   /* RS274_STOP_M0, M1, M2 or M30 */
};

/* What those fields, and the record's spindle and coolant, hold. */
enum {
    RS274_SPINDLE_OFF = 0,              /* M5 */
    RS274_SPINDLE_CLOCKWISE = 1,        /* M3 */
    RS274_SPINDLE_COUNTERCLOCKWISE = 2, /* M4 */

    RS274_COOLANT_OFF = 0,   /* M9 */
    RS274_COOLANT_MIST = 1,  /* M7 */
    RS274_COOLANT_FLOOD = 2, /* M8 */

    RS274_ARC_CLOCKWISE = 2,        /* G2, seen from the positive end of the axis off the plane */
    RS274_ARC_COUNTERCLOCKWISE = 3, /* G3 */

    RS274_ARC_XY = 17, /* G17 */
    RS274_ARC_XZ = 18, /* G18 */
    RS274_ARC_YZ = 19, /* G19 */

    RS274_STOP_M0 = 0,
    RS274_STOP_M1 = 1,  /* by NGC only where the operator's switch for optional stops is on, which the firmware asks */
    RS274_STOP_M2 = 2,  /* the program's end: it also stops the spindle and the coolant, */
    RS274_STOP_M30 = 30 /* and no command of kind 5 or 6 says so; likewise */
};

/* ---- the call */

/* Bytes of stack to keep free for a call. Measured, on a painted stack (tests/headers/stack.c): 4,224 for a plain line,
   and 19,544 at most, for the deepest of 256 bytes, right or wrong (docs/STACK.md).
   The libraries call memcpy and memset. A program that is linked statically, or with -z now, has them from its start.
   In any other the system may look each up at its first call, on the caller's stack: that is not in the figures
   here or in the other headers, and took some 3,300 bytes where it was measured. Keep them free besides, or link so. */
enum {
    RS274_STACK = 24576
};

struct rs274_answer {
    uint32_t number; /* RS274_ACCEPTED, RS274_SKIPPED, or a refusal, 1 to 16: rs274_why and rs274_remedy tell */
    uint64_t count;  /* commands written to out, eight numbers each; 0 unless accepted */
    uint64_t place;  /* where the form breaks, in bytes of the line as it was handed over (rs274_numbers.h): put the */
                     /* cursor there; 0 unless number is RS274_REFUSED_FORM */
    uint64_t work;   /* values and operations worked out, one for each value and each operator of the line: never more */
                     /* than its bytes that are neither blank nor in a comment; 0 unless accepted */
};

#ifdef __cplusplus
extern "C" {
#endif

/*
 * Works one line, handed over without its end marker (line feed, or carriage return and line feed). Where
 * block_delete is on, lines that begin with / are skipped; where it is off, those that begin with \. A condition, as
 * in /[#5]G0X1, decides for itself (rs274_numbers.h).
 *
 * A refused or skipped line leaves rec, table and out as they were. An accepted one leaves in rec the state once
 * its commands are done: where a move is broken off, put the true position into rec before the next line. Where a
 * firmware has set a number of the record that its field cannot hold, or lends one of another length than
 * RS274_RECORD, that is number 1.
 *
 * Each pointer is valid for its length, and not null, not even for length 0; rec, table and out are aligned as
 * int64_t is; the four spaces do not overlap. This the library cannot see, and relies on.
 */
struct rs274_answer rs274_line(const uint8_t *line, size_t line_length, bool block_delete,
                               int64_t *rec, size_t rec_length,
                               int64_t *table, size_t table_length,
                               int64_t *out, size_t out_length);

#ifdef __cplusplus
}
#endif

#endif
