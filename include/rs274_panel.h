/*
 * The form check of RS-274/NGC lines, for a panel written in C. For C99 and C++11, and later.
 *
 * The library is proved to answer what document 01 says, whatever the bytes are. It keeps no state, so any
 * number of calls may run at the same time, and it allocates nothing. Of the C library it needs no more than any
 * compiled code may: memcpy, memmove, memset and memcmp.
 *
 *     tools/build.sh panel                               (proves it, and writes target/staticlib/libpanel.a)
 *     gcc -Iinclude x.c target/staticlib/libpanel.a      (g++ likewise; tests/panel/panel.c is an x.c)
 *
 * The library holds objects for x86-64 Linux, and links into nothing else. It may stand beside libembed.a.
 */
#ifndef RS274_PANEL_H
#define RS274_PANEL_H

#include <stddef.h>
#include <stdint.h>

#include "rs274_numbers.h"

/* The number that rs274_form answers: one of the control's own, so that rs274_why and rs274_remedy tell an operator. */
enum {
    RS274_RIGHT = RS274_ACCEPTED,          /* 0: of right form */
    RS274_TOO_LONG = RS274_REFUSED_LENGTH, /* 2: more than RS274_LINE bytes */
    RS274_WRONG = RS274_REFUSED_FORM       /* 3: of wrong form */
};

/* Bytes of stack to keep free for a call, a first one also, since this library calls nothing of the C library. Measured,
   on a painted stack (tests/headers/stack.c): some 330, whatever the line: a value within a value is no call within a
   call here (docs/STACK.md). */
enum {
    RS274_FORM_STACK = 1024
};

struct rs274_form_answer {
    uint32_t number; /* RS274_RIGHT, RS274_TOO_LONG or RS274_WRONG */
    uint64_t place;  /* where the form breaks, in bytes of the line as it was typed, blanks and comments too */
                     /* (rs274_numbers.h): put the cursor there; 0 unless number is RS274_WRONG */
};

#ifdef __cplusplus
extern "C" {
#endif

/*
 * Looks at a line as it was typed, without its end marker, for length and form only. The values in it
 * are not judged: the control may still refuse a line of right form, with a number from 5 up.
 *
 * `line` points to `length` bytes that can be read, and is not null, not even for an empty line. They may
 * be any bytes. They are not changed, and nothing of them is kept.
 */
struct rs274_form_answer rs274_form(const uint8_t *line, size_t length);

#ifdef __cplusplus
}
#endif

#endif
