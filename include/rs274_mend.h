/*
 * Old RS-274/NGC programs mended: lines of one %, ; remarks, and comments within comments. For C99 and C++11, and later.
 *
 * The library is proved to leave what request 13 of document 02 says, whatever the bytes and the spaces hold. It keeps
 * no state, so any number of calls may run at the same time, and it allocates nothing. Of the C library it needs no
 * more than any compiled code may: memcpy, memmove, memset and memcmp.
 *
 *     tools/build.sh mend                                (proves it, and writes target/staticlib/libmend.a)
 *     gcc -Iinclude x.c target/staticlib/libmend.a       (g++ likewise; tests/mend/mend.c is an x.c)
 *
 * The library holds objects for x86-64 Linux, and links into nothing else. It may stand beside libembed.a and libpanel.a.
 */
#ifndef RS274_MEND_H
#define RS274_MEND_H

#include <stddef.h>
#include <stdint.h>

/* The number of a call. */
enum {
    RS274_MENDED = 0,   /* the mended text is written, and its list as far as there was room */
    RS274_MEND_ROOM = 40 /* the space is too small for the mended text: nothing is written */
};

/* An entry of the list: three numbers. The byte and the repairs are 0 where the line cannot be mended. */
enum {
    RS274_ENTRY_LINE = 0,    /* the line, from 1 */
    RS274_ENTRY_BYTE = 1,    /* the first byte of the line that differs, from 1 */
    RS274_ENTRY_REPAIRS = 2, /* those of the repairs below that changed it, added */
    RS274_ENTRY = 3          /* how many numbers an entry has */
};

enum {
    RS274_REPAIR_PERCENT = 1, /* a line of one % and blanks was emptied */
    RS274_REPAIR_REMARK = 2,  /* a ; remark was made a comment */
    RS274_REPAIR_NESTED = 4   /* the parentheses within a comment were made square brackets */
};

/* Bytes of stack to keep free for a call, measured as those of rs274.h are, and with what is said there of a first call:
   some 1,600, whatever the text (docs/STACK.md). */
enum {
    RS274_MEND_STACK = 3072
};

typedef struct {
    uint32_t number; /* RS274_MENDED or RS274_MEND_ROOM; with the latter all else is 0 */
    size_t filled;   /* how many bytes of the space are the mended text */
    size_t lines;    /* how many lines the text has */
    size_t listed;   /* how many of them are listed, also those that found no room in the list */
} rs274_mending;

#ifdef __cplusplus
extern "C" {
#endif

/*
 * Mends a text, line by line, its line ends kept. `text` points to `length` bytes that can be read, `out` to `room`
 * bytes and `list` to `numbers` numbers that can be written; none of them is null, not even for no bytes, and none
 * overlaps another. A text grows by one byte at most for each of its lines.
 *
 * What stands in `out` behind the mended text, and in `list` behind the last entry that found room, stays as it was.
 */
rs274_mending rs274_mend(const uint8_t *text, size_t length, uint8_t *out, size_t room, size_t *list, size_t numbers);

#ifdef __cplusplus
}
#endif

#endif
