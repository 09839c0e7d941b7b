/*
 * Asks libjp for the answers to cases and compares what it gives with what is wanted: scripts/library writes
 * the cases to standard input. A case is a kind, ten numbers and four texts; a number has eight bytes, the
 * lowest first, and a text stands behind its length.
 *
 * Each answer and each explanation is asked for with room for all of it, for more, for half of it, for a byte
 * less and for none.
 * The last line says how many calls were made; the status is 1 where any gave something else.
 */
#include "jp.h"

#include <stdio.h>
#include <stdlib.h>
#include <string.h>

#define UNTOUCHED 0xa5

typedef struct text {
    uint8_t *bytes;
    size_t length;
} text;

static unsigned long calls, wrong;

static uint64_t number(void) {
    uint64_t value = 0;
    for (int at = 0; at < 8; at++) {
        int byte = getchar();
        if (byte == EOF) {
            fputs("library: a case is cut off\n", stderr);
            exit(2);
        }
        value |= (uint64_t)byte << (8 * at);
    }
    return value;
}

/* A block of just so many bytes, of one byte at least: so a read behind it is seen. */
static uint8_t *block(size_t length) {
    uint8_t *bytes = malloc(length ? length : 1);
    if (!bytes) {
        fputs("library: memory\n", stderr);
        exit(2);
    }
    return bytes;
}

static text read_text(void) {
    text read;
    read.length = (size_t)number();
    read.bytes = block(read.length);
    if (fread(read.bytes, 1, read.length, stdin) != read.length) {
        fputs("library: a case is cut off\n", stderr);
        exit(2);
    }
    return read;
}

static void differs(unsigned long which, const char *what, uint64_t found, uint64_t wanted) {
    fprintf(stderr, "library: case %lu: %s is %llu and not %llu\n", which, what, (unsigned long long)found,
            (unsigned long long)wanted);
    wrong++;
}

static void answer(unsigned long which, const jp_options *options, const uint64_t *wanted, const text *texts,
                   size_t room) {
    const text *query = &texts[0], *filter = &texts[1], *input = &texts[2], *bytes = &texts[3];
    uint8_t *out = block(room);
    memset(out, UNTOUCHED, room);
    jp_report report;
    memset(&report, UNTOUCHED, sizeof report);
    uint32_t status = jp_answer(query->bytes, query->length, filter->bytes, filter->length, options,
                                input->bytes, input->length, out, room, &report);
    calls++;
    if (status != wanted[0]) differs(which, "the status", status, wanted[0]);
    if (report.needed != bytes->length) differs(which, "needed", report.needed, bytes->length);
    if (report.faulty != wanted[1]) differs(which, "faulty", report.faulty, wanted[1]);
    if (report.line != wanted[2]) differs(which, "line", report.line, wanted[2]);
    if (report.fault != wanted[3]) differs(which, "fault", report.fault, wanted[3]);
    for (size_t at = 0; at < room; at++) {
        uint8_t byte = at < bytes->length ? bytes->bytes[at] : UNTOUCHED;
        if (out[at] != byte) {
            differs(which, "a byte", out[at], byte);
            break;
        }
    }
    free(out);
}

static void check(unsigned long which, uint64_t decimals, const uint64_t *wanted, const text *query) {
    size_t place = 12345;
    uint32_t status = jp_check(query->bytes, query->length, (uint32_t)decimals, &place);
    calls++;
    if (status != wanted[0]) differs(which, "the status", status, wanted[0]);
    /* A place that is not known is told so. */
    if (wanted[1] != UINT64_MAX && place != wanted[1]) differs(which, "the place", place, wanted[1]);
    if ((status < JP_TOO_DEEP || status > JP_TYPE) && place) differs(which, "the place", place, 0);
}

static void explain(unsigned long which, uint64_t decimals, uint64_t wanted, const text *query,
                    const text *lines, size_t room) {
    uint8_t *out = block(room);
    memset(out, UNTOUCHED, room);
    size_t needed = 12345;
    uint32_t status = jp_explain(query->bytes, query->length, (uint32_t)decimals, out, room, &needed);
    calls++;
    if (status != wanted) differs(which, "the status", status, wanted);
    if (needed != lines->length) differs(which, "needed", needed, lines->length);
    for (size_t at = 0; at < room; at++) {
        uint8_t byte = at < lines->length ? lines->bytes[at] : UNTOUCHED;
        if (out[at] != byte) {
            differs(which, "a byte", out[at], byte);
            break;
        }
    }
    free(out);
}

int main(void) {
    int kind;
    for (unsigned long which = 1; (kind = getchar()) != EOF; which++) {
        jp_options options = {0};
        options.first = number();
        options.form = (uint32_t)number();
        options.documents = (uint32_t)number();
        options.decimals = (uint32_t)number();
        options.keep_going = (uint32_t)number();
        options.has_filter = (uint32_t)number();
        uint64_t wanted[4];
        for (int at = 0; at < 4; at++) wanted[at] = number();
        text texts[4];
        for (int at = 0; at < 4; at++) texts[at] = read_text();
        if (kind == 'c') {
            check(which, options.decimals, wanted, &texts[0]);
        } else {
            size_t whole = texts[3].length;
            const size_t rooms[] = {whole, whole + 7, whole / 2, whole ? whole - 1 : 0, 0};
            for (size_t at = 0; at < sizeof rooms / sizeof *rooms; at++) {
                if (kind == 'x') {
                    explain(which, options.decimals, wanted[0], &texts[0], &texts[3], rooms[at]);
                } else {
                    answer(which, &options, wanted, texts, rooms[at]);
                }
            }
        }
        for (int at = 0; at < 4; at++) free(texts[at].bytes);
    }
    printf("library: %lu calls\n", calls);
    return wrong || !calls;
}
