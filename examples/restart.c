/*
 * Where to restart: finds an N number in a program text, and says which line that is.
 *
 *     tools/build.sh lookup
 *     gcc -Iinclude examples/restart.c target/staticlib/liblookup.a -o target/restart
 *     target/restart 400 <program.ngc
 */
#include <stdio.h>
#include <stdlib.h>

#include "rs274_index.h"

/* One byte more than a text may have, so that too long a text is seen. */
static uint8_t text[RS274_TEXT + 1];
static uint32_t entries[RS274_INDEX];

int main(int argc, char **argv) {
    size_t length = fread(text, 1, sizeof text, stdin);
    uint32_t number = argc > 1 ? (uint32_t)strtoul(argv[1], NULL, 10) : 0;
    rs274_indexed indexed = rs274_index_build(text, length, entries);
    if (indexed.number != RS274_INDEXED) {
        fprintf(stderr, "restart: %s\n", indexed.number == RS274_REFUSED_TEXT ? "the text is too long" : "the text has too many N numbers");
        return 1;
    }
    rs274_place place = rs274_index_find(entries, (size_t)indexed.count, number);
    if (place.line == 0) {
        fprintf(stderr, "restart: no line of right form bears N%u\n", (unsigned)number);
        return 1;
    }
    printf("N%u is line %u:\n", (unsigned)number, (unsigned)place.line);
    for (size_t at = place.start; at < length && text[at] != '\n'; at++) putchar(text[at]);
    putchar('\n');
    return 0;
}
