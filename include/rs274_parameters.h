/*
 * Parameter files of the NGC kind (.var), read into a session's record and table and written from them. The two
 * functions are in the library of rs274.h, and everything that is said there of the library is true of them.
 *
 * A file has a line for each parameter: its number, one or more blanks or tabs, its value. Numbers rise. 1 to 4999 are
 * the table's entries, up to four decimals; 5211 to 5213 the G92 offset, and 5221 to 5223, 5241 to 5243, .. 5381 to 5383
 * the origins of G54 to G59.3, in millimetres, up to five decimals; 5220 is the work system, 1 (G54) to 9 (G59.3). Other
 * numbers to 5399 are passed over. Zeros at the end of decimals do not count.
 */
#ifndef RS274_PARAMETERS_H
#define RS274_PARAMETERS_H

#include "rs274.h"

enum {
    RS274_FILE = 84393,     /* the most bytes that a written file has */
    RS274_FILE_STACK = 2048 /* bytes of stack to keep free for a call, measured as those of rs274.h are, and with what
                               is said there of a first call */
};

/* What a file is refused with. Of a file that is read it is the first line's that has one, and the lowest of that line. */
enum {
    RS274_FILE_TAKEN = 0,
    RS274_FILE_OUT_OF_ORDER = 1, /* as RS274_REFUSED_OUT_OF_ORDER */
    RS274_FILE_FORM = 20,
    RS274_FILE_NOT_RISING = 21,
    RS274_FILE_NUMBER = 22,
    RS274_FILE_VALUE = 23,
    RS274_FILE_ROOM = 24
};

/* Why, as words that can follow a colon. Never null. */
static inline const char *rs274_file_why(uint32_t number) {
    switch (number) {
    case RS274_FILE_TAKEN: return "the file is read or written";
    case RS274_FILE_OUT_OF_ORDER: return "the session's record or the parameter table is out of order";
    case RS274_FILE_FORM: return "a line is no parameter number, blanks and a value";
    case RS274_FILE_NOT_RISING: return "a line's parameter number is not above that of the line before it";
    case RS274_FILE_NUMBER: return "a parameter number is not from 1 to 5399";
    case RS274_FILE_VALUE: return "a value is out of its range, or has more decimals than its parameter takes";
    case RS274_FILE_ROOM: return "the output space is too short for the file";
    default: return "no file carries this number";
    }
}

struct rs274_file {
    uint32_t number; /* RS274_FILE_TAKEN, or why nothing was written: 1, 23 or 24 */
    uint64_t count;  /* bytes of the file, at the beginning of out; 0 unless it was written */
};

#ifdef __cplusplus
extern "C" {
#endif

/*
 * Reads a file's bytes. RS274_FILE_TAKEN, or 1 or 20 to 23: then rec and table are as they were. An accepted file sets
 * entries 1 to 4999, the offset, the origins and the system; what it does not say becomes zero, and the system 1. Entry 0
 * and the rest of the record are kept.
 *
 * The pointers are as for rs274_line; the three spaces do not overlap.
 */
uint32_t rs274_parameters_read(const uint8_t *text, size_t text_length,
                               int64_t *rec, size_t rec_length,
                               int64_t *table, size_t table_length);

/*
 * Writes the file of a record and a table at the beginning of out, in shortest decimals, each line ended by a line feed.
 * What is written reads back to the same entries 1 to 4999, offset, origins and system. Where it is refused nothing is
 * written.
 */
struct rs274_file rs274_parameters_write(const int64_t *rec, size_t rec_length,
                                         const int64_t *table, size_t table_length,
                                         uint8_t *out, size_t out_length);

#ifdef __cplusplus
}
#endif

#endif
