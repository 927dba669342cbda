/*
 * The index of N numbers of a program text, for a control that restarts at a line. For C99 and C++11, and later.
 *
 * The library is proved to leave what request 10 of document 02 says, whatever the bytes of the text and of the
 * line are. It keeps no state, so calls that share no space may run at the same time, and it allocates nothing. Of
 * the C library it needs no more than any compiled code may: memcpy, memmove, memset and memcmp.
 *
 *     tools/build.sh lookup                              (proves it, and writes target/staticlib/liblookup.a)
 *     gcc -Iinclude x.c target/staticlib/liblookup.a     (g++ likewise; tests/index/index.c is an x.c)
 *
 * The library holds objects for x86-64 Linux, and links into nothing else. It may stand beside libembed.a.
 */
#ifndef RS274_INDEX_H
#define RS274_INDEX_H

#include <stddef.h>
#include <stdint.h>

enum {
    RS274_TEXT = 60000,        /* the most bytes that a text may have */
    RS274_INDEX_ENTRIES = 2000, /* the most entries that an index may have */
    RS274_INDEX = 6000         /* how many numbers the space of an index has: three an entry */
};

/* Bytes of stack to keep free for a call, measured as those of rs274.h are, and with what is said there of a first call:
   some 24,500 to build an index or to replace a line, whatever the text, since both work in a space of their own, so
   that a refusal alters nothing; to find a number takes next to nothing. */
enum {
    RS274_INDEX_STACK = 32768
};

/* Why a text or a replacement is refused. Of several that apply to a replacement it is the first in the order 30, 32,
   33, 31. None alters text or index. */
enum {
    RS274_INDEXED = 0,
    RS274_REFUSED_TEXT = 30,        /* the text has more than RS274_TEXT bytes */
    RS274_REFUSED_NUMBERS = 31,     /* it has more than RS274_INDEX_ENTRIES different N numbers */
    RS274_REFUSED_LINE_MISSING = 32, /* it has no line k */
    RS274_REFUSED_REPLACEMENT = 33  /* the new line has another length, or holds a line feed or a carriage return */
};

/* 0 and how many entries the index has now; or the number of a refusal, and 0. */
typedef struct {
    uint32_t number;
    uint64_t count;
} rs274_indexed;

/* A number's first line, from 1, and that line's first byte in the text, from 0. Line 0: no line bears the number. */
typedef struct {
    uint32_t line;
    uint32_t start;
} rs274_place;

#ifdef __cplusplus
extern "C" {
#endif

/*
 * Builds the index of a text: an entry for each N number on a line of right form and at most 256 bytes, three
 * numbers each, the N number, its first line and that line's first byte, in rising order of the N numbers. N010 and
 * N10 are one number. Lines end at a line feed, one carriage return before it is no part of the line, and a last line
 * without a line feed counts if it has a byte.
 *
 * `text` points to `length` bytes that can be read, and is not null; `index` to RS274_INDEX numbers, of which
 * those past the entries stay as they were.
 */
rs274_indexed rs274_index_build(const uint8_t *text, size_t length, uint32_t *index);

/*
 * The place of an N number, by an index of `count` entries as rs274_index_build or rs274_index_replace has left it.
 */
rs274_place rs274_index_find(const uint32_t *index, size_t count, uint32_t number);

/*
 * Replaces line k of a text, from 1, by another of equal length without a line end, and brings the index of that
 * text, of `count` entries, up to date: it then equals one built afresh.
 */
rs274_indexed rs274_index_replace(uint8_t *text, size_t length, uint32_t *index, size_t count, uint32_t k,
                                  const uint8_t *line, size_t line_length);

#ifdef __cplusplus
}
#endif

#endif
