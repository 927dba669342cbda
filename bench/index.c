#define _POSIX_C_SOURCE 200809L /* clock_gettime */
/*
 * How long the index of N numbers takes: to build it for a text of 60,000 bytes, to find a number, and to replace
 * a line, the middle one and the last, by one that bears the same number, and by one that bears another. The least of many
 * runs of each.
 */
#include <stdio.h>
#include <string.h>
#include <time.h>

#include "rs274_index.h"

enum { RUNS = 300 };

static uint8_t text[RS274_TEXT];
static uint32_t entries[RS274_INDEX];
static size_t length;

static double now(void) {
    struct timespec t;
    clock_gettime(CLOCK_MONOTONIC, &t);
    return (double)t.tv_sec * 1e6 + (double)t.tv_nsec / 1e3;
}

/* Lines as a CAM package posts them: with N on each, or on every hundredth. */
static size_t write_text(unsigned every) {
    size_t n = 0;
    unsigned lines = 0;
    for (;; lines++) {
        char line[64];
        int long_ = lines % every == 0 ? snprintf(line, sizeof line, "N%05u G1 X%u.%03u Y%u.%03u\n", lines % 2000, lines % 97, lines % 1000, lines % 89, lines * 7 % 1000)
                                       : snprintf(line, sizeof line, "       G1 X%u.%03u Y%u.%03u\n", lines % 97, lines % 1000, lines % 89, lines * 7 % 1000);
        if (n + (size_t)long_ > sizeof text) break;
        memcpy(text + n, line, (size_t)long_);
        n += (size_t)long_;
    }
    length = n;
    return lines;
}

static double build(void) {
    double least = 1e9;
    for (int i = 0; i < RUNS; i++) {
        double t = now();
        rs274_index_build(text, length, entries);
        t = now() - t;
        if (t < least) least = t;
    }
    return least;
}

/* Line k gets another number in place of its own, and its own again: half of the time of both. */
static double replace(size_t count, uint32_t k, const char *number) {
    uint8_t old[64], new_[64];
    size_t at = 0, end;
    double least = 1e9;
    for (uint32_t i = 1; i < k; i++) at = (size_t)((uint8_t *)memchr(text + at, '\n', length - at) - text) + 1;
    end = (size_t)((uint8_t *)memchr(text + at, '\n', length - at) - text);
    memcpy(old, text + at, end - at);
    memcpy(new_, old, end - at);
    memcpy(new_, number, 6);
    for (int i = 0; i < RUNS; i++) {
        double t = now();
        size_t then = rs274_index_replace(text, length, entries, count, k, new_, end - at).count;
        rs274_index_replace(text, length, entries, then, k, old, end - at);
        t = (now() - t) / 2;
        if (t < least) least = t;
    }
    return least;
}

static double find(size_t count) {
    double least = 1e9;
    volatile uint32_t sum = 0;
    for (int i = 0; i < RUNS; i++) {
        double t = now();
        for (uint32_t n = 0; n < 2000; n++) sum += rs274_index_find(entries, count, n).line;
        t = (now() - t) / 2000;
        if (t < least) least = t;
    }
    return least;
}

int main(void) {
    for (unsigned every = 1; every <= 100; every *= 100) {
        size_t lines = write_text(every), count = rs274_index_build(text, length, entries).count;
        printf("%zu bytes, %zu lines, %zu entries: build %.1f us", length, lines, count, build());
        printf(", replace line %zu %.1f us", lines / 2 / every * every + 1, replace(count, (uint32_t)(lines / 2 / every * every + 1), "N99999"));
        printf(", the last N %.1f us", replace(count, (uint32_t)((lines - 1) / every * every + 1), "N99999"));
        printf(", find %.3f us\n", find(count));
    }
    return 0;
}
