/*
 * A session of a control: the lines of a program on standard input, worked from a fresh record, and what each
 * has the machine do. Where a firmware would drive the machine, this prints.
 *
 *     session [FILE.var]
 *
 * With a parameter file the session begins with its parameters, origins, offset and system, and once the program is
 * worked to its end they are written to it again.
 *
 * The first refused line ends the session, since the lines after it were written for a machine that has worked
 * it: after G1 Z-3, a refused G0 Z100000 and then G0 X0 Y0 would be a rapid through the work. Which line it is,
 * counted from 1, and why, is told on standard error, for a wrong form with the line and a caret under the place
 * where it breaks; and the exit status is 1.
 */
#include <inttypes.h>
#include <stdbool.h>
#include <stddef.h>
#include <stdint.h>
#include <stdio.h>

#include "rs274_parameters.h"

static int64_t rec[RS274_RECORD] = RS274_FRESH;
static int64_t table[RS274_TABLE];
static int64_t out[RS274_COMMANDS * RS274_COMMAND];
static bool block_delete; /* the operator's switch */
static uint8_t file[1 << 20];

/* ---- what the machine is to do */

static void spindle(int64_t turn) {
    if (turn == RS274_SPINDLE_OFF) printf("spindle off\n");
    else printf("spindle %s\n", turn == RS274_SPINDLE_CLOCKWISE ? "clockwise" : "counterclockwise");
}

/* Mist and flood are switched on each by itself, and off together. */
static void coolant(int64_t which) {
    if (which == RS274_COOLANT_OFF) printf("coolant off\n");
    else printf("coolant %s on\n", which == RS274_COOLANT_MIST ? "mist" : "flood");
}

static void move(const char *how, const int64_t *command) {
    printf("%s to X%" PRId64 " Y%" PRId64 " Z%" PRId64 "\n", how,
           command[RS274_MOVE_X], command[RS274_MOVE_Y], command[RS274_MOVE_Z]);
}

static void arc(const int64_t *command) {
    int64_t plane = command[RS274_ARC_PLANE];
    char first = plane == RS274_ARC_YZ ? 'Y' : 'X';
    char second = plane == RS274_ARC_XY ? 'Y' : 'Z';
    printf("arc %s to X%" PRId64 " Y%" PRId64 " Z%" PRId64 " around %c%" PRId64 " %c%" PRId64 "\n",
           command[RS274_ARC_TURN] == RS274_ARC_CLOCKWISE ? "clockwise" : "counterclockwise",
           command[RS274_ARC_X], command[RS274_ARC_Y], command[RS274_ARC_Z],
           first, command[RS274_ARC_CENTRE_1], second, command[RS274_ARC_CENTRE_2]);
}

/* The end of a program stops spindle and coolant too: no other command says so. */
static void stop(int64_t code) {
    bool ends = code == RS274_STOP_M2 || code == RS274_STOP_M30;
    printf("stop M%" PRId64 "%s\n", code, ends ? ", spindle and coolant off" : "");
}

/* One command. False where this control does not know its kind, and so must not go on. */
static bool act(const int64_t *command) {
    switch (command[RS274_KIND]) {
    case RS274_KIND_FEED: printf("feed %" PRId64 "\n", command[RS274_FEED_RATE]); return true;
    case RS274_KIND_SPEED: printf("speed %" PRId64 "\n", command[RS274_SPEED_RATE]); return true;
    case RS274_KIND_SELECT_TOOL: printf("select tool %" PRId64 "\n", command[RS274_SELECT_TOOL]); return true;
    case RS274_KIND_CHANGE_TOOL: printf("change tool, spindle off\n"); return true;
    case RS274_KIND_SPINDLE: spindle(command[RS274_SPINDLE_TURN]); return true;
    case RS274_KIND_COOLANT: coolant(command[RS274_COOLANT_SWITCH]); return true;
    case RS274_KIND_DWELL: printf("dwell %" PRId64 "\n", command[RS274_DWELL_TIME]); return true;
    case RS274_KIND_RAPID: move("rapid", command); return true;
    case RS274_KIND_FEED_MOVE: move("feed", command); return true;
    case RS274_KIND_ARC: arc(command); return true;
    case RS274_KIND_STOP: stop(command[RS274_STOP_CODE]); return true;
    default: return false;
    }
}

/* ---- the lines */

/* A byte as it is shown, each as wide as any other: a tab is a blank, and what is no character a question mark. */
static char shown(uint8_t byte) {
    if (byte == '\t') return ' ';
    return ' ' <= byte && byte <= '~' ? (char)byte : '?';
}

/* The line, and a caret under the first byte with which no right line goes on, or behind the last byte where the line
   only ends too early. */
static void point(const uint8_t *line, size_t length, uint64_t place) {
    for (size_t i = 0; i < length; i++) fputc(shown(line[i]), stderr);
    fputc('\n', stderr);
    for (uint64_t i = 0; i < place; i++) fputc(' ', stderr);
    fputs("^\n", stderr);
}

static bool refuse(unsigned long which, const uint8_t *line, size_t length, struct rs274_answer answer) {
    fprintf(stderr, "session: line %lu is refused with number %" PRIu32 ": %s; %s\n", which, answer.number,
            rs274_why(answer.number), rs274_remedy(answer.number));
    if (answer.number == RS274_REFUSED_FORM) point(line, length, answer.place);
    return false;
}

/* One line, with its number in the program. False where the session must end. */
static bool work(unsigned long which, const uint8_t *line, size_t length) {
    struct rs274_answer answer = rs274_line(line, length, block_delete, rec, RS274_RECORD,
                                            table, RS274_TABLE, out, sizeof out / sizeof *out);
    if (answer.number != RS274_ACCEPTED && answer.number != RS274_SKIPPED) return refuse(which, line, length, answer);
    for (size_t i = 0; i < answer.count; i++) {
        if (act(out + RS274_COMMAND * i)) continue;
        fprintf(stderr, "session: line %lu has a command of a kind that is not known here\n", which);
        return false;
    }
    if (fflush(stdout) == 0) return true;
    fprintf(stderr, "session: what line %lu does could not be written\n", which);
    return false;
}

/* ---- the parameter file */

static bool fail(const char *path, const char *why) {
    fprintf(stderr, "session: %s: %s\n", path, why);
    return false;
}

static bool load(const char *path) {
    FILE *from = fopen(path, "rb");
    if (from == NULL) return fail(path, "it cannot be read");
    size_t length = fread(file, 1, sizeof file, from);
    bool whole = ferror(from) == 0 && fgetc(from) == EOF;
    fclose(from);
    if (!whole) return fail(path, "it cannot be read whole");
    uint32_t number = rs274_parameters_read(file, length, rec, RS274_RECORD, table, RS274_TABLE);
    return number == RS274_FILE_TAKEN || fail(path, rs274_file_why(number));
}

static bool save(const char *path) {
    struct rs274_file made = rs274_parameters_write(rec, RS274_RECORD, table, RS274_TABLE, file, sizeof file);
    if (made.number != RS274_FILE_TAKEN) return fail(path, rs274_file_why(made.number));
    FILE *to = fopen(path, "wb");
    if (to == NULL) return fail(path, "it cannot be written");
    bool whole = fwrite(file, 1, (size_t)made.count, to) == made.count;
    return (fclose(to) == 0 && whole) || fail(path, "it cannot be written whole");
}

/* Lines end at a line feed, and one carriage return before it is dropped. A last line without a line feed
   counts if it has a byte. What is cut off a long line is past the bytes that make it too long. */
static bool run(void) {
    static uint8_t line[RS274_LINE + 2]; /* a byte too many, and a carriage return */
    size_t length = 0;
    unsigned long which = 1;
    for (int byte = getchar(); byte != EOF; byte = getchar()) {
        if (byte != '\n') {
            if (length < sizeof line) line[length++] = (uint8_t)byte;
            continue;
        }
        if (length > 0 && line[length - 1] == '\r') length--;
        if (!work(which++, line, length)) return false;
        length = 0;
    }
    if (ferror(stdin)) {
        fprintf(stderr, "session: line %lu could not be read\n", which);
        return false;
    }
    return length == 0 || work(which, line, length);
}

int main(int argc, char **argv) {
    const char *path = argc > 1 ? argv[1] : NULL;
    if (path != NULL && !load(path)) return 1;
    return run() && (path == NULL || save(path)) ? 0 : 1;
}
