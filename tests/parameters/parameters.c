/*
 * Cases of parameter files on standard input, one a line, worked by the library that a control links; for each, what
 * it answers and what the spaces hold afterwards, one a line.
 *
 *     read TEXT RECORD LENGTH ENTRIES            NUMBER RECORD ENTRIES
 *     write RECORD LENGTH ENTRIES ROOM           NUMBER COUNT OUTPUT
 *
 * TEXT and OUTPUT are bytes in hexadecimal behind a dot, RECORD numbers with commas between, LENGTH that of the table, and
 * ENTRIES its entries that are not zero, `place=value` with commas between, or `-`. The output space has ROOM bytes, and
 * holds 165 in each before the call.
 */
#include <inttypes.h>
#include <stdbool.h>
#include <stddef.h>
#include <stdint.h>
#include <stdio.h>
#include <stdlib.h>
#include <string.h>

#include "rs274_parameters.h"

enum { LINE = 1 << 20, RECORD = 64, TABLE = 6000, ROOM = 1 << 18 };

static char line[LINE];
static uint8_t text[LINE / 2], out[ROOM];
static int64_t rec[RECORD], table[TABLE];
static size_t text_length, rec_length, table_length;

static bool get_text(const char *word) {
    text_length = 0;
    if (*word++ != '.') return false;
    for (unsigned byte; sscanf(word, "%2x", &byte) == 1; word += 2) text[text_length++] = (uint8_t)byte;
    return *word == 0;
}

static bool get_record(char *word) {
    rec_length = 0;
    for (char *end = word; *word != 0; word = end + (*end == ',')) {
        if (rec_length == RECORD) return false;
        rec[rec_length++] = strtoll(word, &end, 10);
        if (end == word) return false;
    }
    return true;
}

static bool get_table(const char *length, char *word) {
    table_length = strtoull(length, NULL, 10);
    if (table_length > TABLE) return false;
    memset(table, 0, sizeof table);
    if (strcmp(word, "-") == 0) return true;
    while (*word != 0) {
        char *end;
        size_t place = strtoull(word, &end, 10);
        if (*end != '=' || place >= table_length) return false;
        table[place] = strtoll(end + 1, &word, 10);
        if (*word == ',') word++;
        else if (*word != 0) return false;
    }
    return true;
}

static void put_session(uint32_t number) {
    printf("%" PRIu32 " ", number);
    for (size_t i = 0; i < rec_length; i++) printf("%s%" PRId64, i == 0 ? "" : ",", rec[i]);
    bool any = false;
    putchar(' ');
    for (size_t i = 0; i < table_length; i++) {
        if (table[i] != 0) printf("%s%zu=%" PRId64, any ? "," : "", i, table[i]);
        any = any || table[i] != 0;
    }
    puts(any ? "" : "-");
}

static bool reads(char **words) {
    if (!get_text(words[1]) || !get_record(words[2]) || !get_table(words[3], words[4])) return false;
    put_session(rs274_parameters_read(text, text_length, rec, rec_length, table, table_length));
    return true;
}

static bool writes(char **words) {
    size_t room = strtoull(words[4], NULL, 10);
    if (!get_record(words[1]) || !get_table(words[2], words[3]) || room > ROOM) return false;
    memset(out, 165, sizeof out);
    struct rs274_file file = rs274_parameters_write(rec, rec_length, table, table_length, out, room);
    printf("%" PRIu32 " %" PRIu64 " .", file.number, file.count);
    for (size_t i = 0; i < room; i++) printf("%02x", out[i]);
    putchar('\n');
    return true;
}

int main(void) {
    while (fgets(line, LINE, stdin) != NULL) {
        char *words[5];
        int many = 0;
        line[strcspn(line, "\n")] = 0;
        for (char *word = strtok(line, " "); word != NULL && many < 5; word = strtok(NULL, " ")) words[many++] = word;
        bool known = many == 5 && (strcmp(words[0], "read") == 0 ? reads(words) : strcmp(words[0], "write") == 0 && writes(words));
        if (!known) {
            puts("no case");
            return 1;
        }
    }
    return 0;
}
