/*
 * jp.h: JSONPath queries (RFC 9535) over JSON documents, one on a line or one after another.
 *
 * Three functions: jp_check tells whether a text is a query, jp_explain why it is none, and jp_answer answers
 * an input that stands in memory. All work on the thread that calls them. They start no thread, take no lock,
 * open no file, print nothing, and keep nothing from call to call: there is nothing to begin or to close. Any
 * number of threads may call them at once, each with buffers of its own.
 *
 * What every call owes
 *
 *   - No pointer is NULL, also where its length is 0. Nothing is read or written at a pointer whose length
 *     is 0.
 *   - Each length is that of memory that may be read, or for an output buffer be written, and is at most
 *     SIZE_MAX / 2.
 *   - What is written (out, report, place, needed) overlaps nothing else that is passed to the same call, and no
 *     other thread uses it during the call. What is read does not change during the call.
 *   - malloc, realloc and free are those of one allocator, and blocks are aligned as the C standard says.
 *   - No call is made in a signal handler, or in the child that fork makes of a process with threads.
 *
 * The bytes of the texts and of the input may be any bytes, with zero bytes among them: all lengths are
 * given, and no text ends in a zero byte. Whatever they are, a call returns, and it gives all memory back
 * that it took.
 *
 * Texts are UTF-8. Numbers of lines begin with 1.
 *
 *     cc program.c -ljp
 */
#ifndef JP_H
#define JP_H

#include <stddef.h>
#include <stdint.h>

#ifdef __cplusplus
extern "C" {
#endif

/* The version of this file, and of the command whose answers these are. */
#define JP_VERSION "@VERSION@"

/*
 * What a call gives.
 *
 * Of a query: JP_OK, or the first of the faults 1 to 5 that applies, in this order. A fault of a filter is
 * that of a query and JP_OF_FILTER.
 */
#define JP_OK 0

#define JP_TOO_DEEP 1 /* brackets and parentheses are nested more than 64 deep */
#define JP_SYNTAX 2   /* the text is not well-formed (RFC 9535, 2.1) */
#define JP_FRACTION 3 /* a number has a fraction or an exponent, and decimals is 0 */
#define JP_RANGE 4    /* an index is outside -9007199254740991 to 9007199254740991, or a number is too long */
#define JP_TYPE 5     /* a function is unknown, or not used as its type allows (RFC 9535, 2.4.3) */
#define JP_NOT_UTF8 6 /* the bytes are no UTF-8 */
#define JP_OF_FILTER 16

#define JP_FAULTY_LINE 32 /* the answer ends at a faulty line: report says at which, and why */
#define JP_LIMIT 33       /* a line has a number over 4294967295 */
#define JP_OPTIONS 34     /* options->form is over 4, or options->first over 4294967295 */
#define JP_MEMORY 35      /* a growth of memory was refused */

/*
 * Whether query, of query_length bytes, is a query.
 *
 * With decimals other than 0, number literals may have a fraction and an exponent.
 *
 * Gives JP_OK, JP_TOO_DEEP to JP_NOT_UTF8, or JP_MEMORY. After JP_TOO_DEEP to JP_TYPE, *place is how many
 * characters of the query stand before the place where it goes wrong: some query begins with these. Else
 * *place is 0.
 */
uint32_t jp_check(const uint8_t *query, size_t query_length, uint32_t decimals, size_t *place);

/*
 * Why query, of query_length bytes, is no query: what the command jp shows below the fault. That is a line of
 * the query, a line with a caret under the place where it goes wrong, a line that says what was expected, and
 * often one that says what to write. Each line ends in a line feed.
 *
 * Gives what jp_check gives. After JP_TOO_DEEP to JP_TYPE, *needed is how many bytes the lines have, and the
 * first bytes of out are those of the lines: all of them if *needed is at most out_length, else the first
 * out_length of them. The other bytes of out are as they were. Else *needed is 0, and out is as it was.
 */
uint32_t jp_explain(const uint8_t *query, size_t query_length, uint32_t decimals, uint8_t *out,
                    size_t out_length, size_t *needed);

/* What is written: options->form. */
#define JP_NODES 0  /* for each node a line: the number, a tab, the normalized path, a tab, the value */
#define JP_VALUES 1 /* for each node a line: its value */
#define JP_TEXTS 2  /* the same, but a string stands without its quotes */
#define JP_RAW 3    /* the same, but a string stands as it is, line feeds and all */
#define JP_LINES 4  /* each line, or document, with at least one node, unchanged */

/*
 * How an input is answered. Set all to 0, as by {0}, for what the command jp does without options.
 */
typedef struct jp_options {
    uint64_t first;      /* the number of the first line or document, 1 to 4294967295; 0 is taken as 1 */
    uint32_t form;       /* JP_NODES to JP_LINES */
    uint32_t documents;  /* not 0: JSON texts stand one after another, over lines (--documents) */
    uint32_t decimals;   /* not 0: documents and queries may have every number of JSON (--decimals) */
    uint32_t keep_going; /* not 0: a faulty line is told in the answer and passed (--keep-going) */
    uint32_t has_filter; /* not 0: answer the documents alone of which filter is true (--where) */
} jp_options;

/* What is wrong with a faulty line: report->fault. */
#define JP_LINE_LONG 1        /* it has more than 268435456 bytes */
#define JP_LINE_UNREADABLE 2  /* it is no JSON text (RFC 8259), or nested more than 127 deep */
#define JP_LINE_NOT_WHOLE 3   /* some number is no whole number of 64 bits, and decimals is 0 */
#define JP_LINE_LONG_NUMBER 4 /* some number has over 1000 digits, or over 9 digits of an exponent */
#define JP_LINE_LONG_ARRAY 5  /* some array has more than 16777216 items */

/*
 * What a call tells of an answer, besides its bytes.
 */
typedef struct jp_report {
    size_t needed;   /* how many bytes the answer has */
    uint64_t faulty; /* how many faulty lines it passed: 0 unless it kept going */
    uint64_t line;   /* the number of the faulty line at which it ends, or 0 */
    uint32_t fault;  /* JP_LINE_LONG to JP_LINE_LONG_ARRAY of that line, or 0 */
} jp_report;

/*
 * The answer to the documents of input, to this query, by these options: the bytes that the command jp writes
 * to standard output.
 *
 * filter is an expression, as it may stand after ? in a query, and @ and $ are the document. It counts only
 * where options->has_filter is not 0. Else pass any pointer, and a length of 0.
 *
 * Gives JP_OK or JP_FAULTY_LINE where there is an answer. Then the first bytes of out are those of the
 * answer: all of them if report->needed is at most out_length, else the first out_length of them. The other
 * bytes of out are as they were. Where out is too small, call again with report->needed bytes: the same call
 * gives the same answer. JP_FAULTY_LINE says that the answer ends before the faulty line report->line.
 *
 * Else there is no answer, out is as it was, and all of *report is 0:
 *
 *   JP_OPTIONS                         an option is out of its range
 *   JP_TOO_DEEP to JP_NOT_UTF8         the query is refused
 *   the same and JP_OF_FILTER          the filter is refused, and the query is not
 *   JP_LIMIT, JP_MEMORY
 */
uint32_t jp_answer(const uint8_t *query, size_t query_length, const uint8_t *filter, size_t filter_length,
                   const jp_options *options, const uint8_t *input, size_t input_length, uint8_t *out,
                   size_t out_length, jp_report *report);

#ifdef __cplusplus
}
#endif

#endif
