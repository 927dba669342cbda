/*
 * Mends standard input at once, by the library: the mended text to standard output, its list in words to standard error,
 * as rs274_mend does. Before that the same text is mended into spaces that are too small, just large enough and none,
 * and each must be left as the header says.
 */
#include <stdio.h>
#include <stdlib.h>
#include <string.h>

#include "rs274_mend.h"

enum { MOST = 1 << 22, PAINT = 0x5A, SPARE = 64 };

static uint8_t text[MOST], out[2 * MOST + SPARE], want[2 * MOST];
static size_t list[RS274_ENTRY * MOST + SPARE], wanted[RS274_ENTRY * MOST];
static size_t length, filled, listed;

static void fail(const char *what) {
    fprintf(stderr, "mend: %s\n", what);
    exit(1);
}

/* Whether all of a space from a place on is as it was before the call. */
static int painted(const void *space, size_t from, size_t size) {
    for (const unsigned char *at = space; from < size; from++)
        if (at[from] != PAINT) return 0;
    return 1;
}

static rs274_mending call(size_t room, size_t numbers) {
    memset(out, PAINT, filled + SPARE);
    memset(list, PAINT, (RS274_ENTRY * listed + SPARE) * sizeof *list);
    return rs274_mend(text, length, out, room, list, numbers);
}

/* A space of so many bytes, and of so many numbers for the list. */
static void hold(size_t room, size_t numbers) {
    rs274_mending got = call(room, numbers);
    size_t out_size = filled + SPARE, list_size = (RS274_ENTRY * listed + SPARE) * sizeof *list;
    if (room < filled) {
        if (got.number != RS274_MEND_ROOM || got.filled || got.lines || got.listed) fail("no 40");
        if (!painted(out, 0, out_size) || !painted(list, 0, list_size)) fail("something is written at 40");
        return;
    }
    size_t entries = numbers / RS274_ENTRY < listed ? numbers / RS274_ENTRY : listed;
    if (got.number != RS274_MENDED || got.filled != filled || got.listed != listed) fail("another answer");
    if (memcmp(out, want, filled) || !painted(out, filled, out_size)) fail("another text, or more than it");
    if (memcmp(list, wanted, RS274_ENTRY * entries * sizeof *list)) fail("another list");
    if (!painted(list, RS274_ENTRY * entries * sizeof *list, list_size)) fail("more than the list");
}

static void say(const size_t *entry) {
    static const char *const names[] = {"line of one % emptied", "remark made a comment", "nested comments made one"};
    const char *gap = ": ";
    fprintf(stderr, "line %zu", entry[RS274_ENTRY_LINE]);
    if (entry[RS274_ENTRY_BYTE] == 0) {
        fprintf(stderr, ": unmended\n");
        return;
    }
    fprintf(stderr, ", byte %zu", entry[RS274_ENTRY_BYTE]);
    for (int i = 0; i < 3; i++) {
        if (!(entry[RS274_ENTRY_REPAIRS] >> i & 1)) continue;
        fprintf(stderr, "%s%s", gap, names[i]);
        gap = ", and ";
    }
    fprintf(stderr, "\n");
}

int main(void) {
    length = fread(text, 1, MOST, stdin);
    rs274_mending whole = rs274_mend(text, length, want, sizeof want, wanted, sizeof wanted / sizeof *wanted);
    if (whole.number != RS274_MENDED) fail("40 where there is room");
    filled = whole.filled, listed = whole.listed;
    hold(filled, RS274_ENTRY * listed);
    hold(filled + 7, RS274_ENTRY * listed + 7);
    hold(filled, 0);
    if (listed) hold(filled, RS274_ENTRY * listed - 1), hold(filled, RS274_ENTRY + 2);
    if (filled) hold(filled - 1, RS274_ENTRY * listed), hold(0, 0);
    fwrite(want, 1, filled, stdout);
    for (size_t i = 0; i < listed; i++) say(wanted + RS274_ENTRY * i);
    return 0;
}
