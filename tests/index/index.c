/*
 * The cases on standard input by the library, and their answers on standard output: see tests/second/index.rs.
 * A case: `TEXT K LINE NUMBERS`, text and line in hexadecimal, an empty one `-`, the numbers parted by commas.
 * Its answer, first of the text built, then of the line replaced: `number count entries places`, and for the
 * replacement the text too. What must stay as it was and did not is `altered`.
 */
#include <stdio.h>
#include <stdlib.h>
#include <string.h>

#include "rs274_index.h"

enum { MOST = 70000, PAINT = 0x5A5A5A5A };

static uint8_t text[MOST], before[MOST], line[MOST];
static uint32_t entries[RS274_INDEX], earlier[RS274_INDEX];
static char field[4][2 * MOST + 2];

static size_t bytes(const char *hex, uint8_t *to) {
    size_t n = 0;
    if (strcmp(hex, "-") == 0) return 0;
    for (; hex[0] && hex[1]; hex += 2, n++) {
        unsigned value;
        if (sscanf(hex, "%2x", &value) != 1) exit(2);
        to[n] = (uint8_t)value;
    }
    return n;
}

static void say(rs274_indexed answer, const char *numbers) {
    uint64_t count = answer.number == RS274_INDEXED ? answer.count : 0;
    printf("%u %llu ", (unsigned)answer.number, (unsigned long long)answer.count);
    for (uint64_t i = 0; i < count; i++)
        printf("%s%u:%u:%u", i ? "," : "", (unsigned)entries[3 * i], (unsigned)entries[3 * i + 1], (unsigned)entries[3 * i + 2]);
    printf("%s ", count ? "" : "-");
    for (const char *at = numbers; *at;) {
        char *end;
        uint32_t number = (uint32_t)strtoul(at, &end, 10);
        rs274_place place = rs274_index_find(entries, count, number);
        printf("%s%u:%u", at == numbers ? "" : ",", (unsigned)place.line, (unsigned)place.start);
        at = *end == ',' ? end + 1 : end;
    }
    /* past the entries, or all of it after a refusal, the space is as it was */
    uint64_t from = answer.number == RS274_INDEXED ? 3 * count : 0;
    printf("%s", memcmp(entries + from, earlier + from, (RS274_INDEX - from) * sizeof *entries) == 0 ? "" : " altered");
}

int main(void) {
    while (scanf("%140001s %140001s %140001s %140001s", field[0], field[1], field[2], field[3]) == 4) {
        size_t length = bytes(field[0], text), line_length = bytes(field[2], line);
        uint32_t k = (uint32_t)strtoul(field[1], NULL, 10);
        for (size_t i = 0; i < RS274_INDEX; i++) entries[i] = PAINT + (uint32_t)i;
        memcpy(earlier, entries, sizeof entries);
        memcpy(before, text, sizeof text);
        rs274_indexed built = rs274_index_build(text, length, entries);
        say(built, field[3]);
        memcpy(earlier, entries, sizeof entries);
        rs274_indexed replaced = rs274_index_replace(text, length, entries, built.count, k, line, line_length);
        printf(" ");
        say(replaced, field[3]);
        printf(" ");
        for (size_t i = 0; i < length; i++) printf("%02x", text[i]);
        printf("%s", length ? "" : "-");
        if (replaced.number != RS274_INDEXED && memcmp(before, text, sizeof text) != 0) printf(" altered");
        printf("\n");
    }
    return 0;
}
