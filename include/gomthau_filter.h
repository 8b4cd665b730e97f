/* Verified route filters.
 *
 * A filter is opened from its text, or from a code file, and verified once, for routing domains of `size` nodes, 2 to 250. Then it answers routes:
 * no run faults, allocates or waits, and each ends within `budget` instructions.
 *
 * A handle begins as {0}, which holds no filter: its `at` is NULL where it holds none, and only there. It is used by one call at a time, and a copy
 * of it is not used once it was closed. Each thread has a handle of its own, by gomthau_filter_share. A handle goes to another thread by a lock, or
 * by the thread's start or end.
 *
 * What a function requires stands at it: a call where that does not hold is undefined. And of all of them: `malloc`, `realloc` and `free` are those
 * of the program, and of one allocator. No call is made from a signal handler, or in the forked child of a process with threads. A pointer leads to
 * what its type says, for buffers to as many as their length says, and nothing else writes there during the call; it is NULL only for a buffer of
 * length 0, and leads into nothing that another argument leads to. What a call only writes need not have been written before.
 *
 * An address and the length behind it are one argument, whose type says what is there, as in (gomthau_text){text, strlen(text)}. Each argument of a
 * call has a type of its own, so that no compiler takes a call with two of them exchanged. What stands in the braces is checked as anywhere in C:
 * there a compiler may only warn of an address of another type. */
#ifndef GOMTHAU_FILTER_H
#define GOMTHAU_FILTER_H
#include <stdbool.h>
#include <stddef.h>
#include <stdint.h>
#include <string.h>

#define GOMTHAU_FILTER_VERSION "0.1.0"

/* Where a compiler knows how, it wants the fields of such a structure by their names: numbers in another order are other routes. */
#if !defined __cplusplus && defined __has_attribute
#if __has_attribute(designated_init)
#define GOMTHAU_BY_NAME __attribute__((designated_init))
#endif
#endif
#ifndef GOMTHAU_BY_NAME
#define GOMTHAU_BY_NAME
#endif

/* A handle. Nothing but this library reads or writes what `at` leads to. */
typedef struct { void *at; } gomthau_filter;

/* What open and bounds return. After GOMTHAU_NO_MEMORY all is as it was before the call. */
enum { GOMTHAU_DONE = 0, GOMTHAU_REFUSED = 1, GOMTHAU_NO_MEMORY = 2 };

/* Why a source is refused. */
typedef struct {
    uint64_t place;      /* the byte of the text (codes P and Y) or of the code file (C), or the instruction (V); 0 where there is none */
    uint64_t line;       /* of the text, from 1; 0 where there is none */
    uint64_t column;     /* in characters, from 1; 0 where there is no line */
    uint64_t words_size; /* the bytes that the words and their terminating zero take */
    char code[4];        /* a letter and one or two digits, as "V3", and zeros behind them */
} gomthau_refused;

/* A route: to the first `length` bits of an address (10.0.0.0 is 0x0a000000), received with a metric. Any numbers may stand here. */
typedef struct { uint32_t address, metric; uint8_t length; } GOMTHAU_BY_NAME gomthau_route;

/* What is said of a route. There is no such route where its length is over 32, or its metric over the size of the domains. */
enum { GOMTHAU_REJECTED = 0, GOMTHAU_ACCEPTED = 1, GOMTHAU_NO_ROUTE = 2 };

/* The verdict is what the filter means for the route. The metric is that with which it is accepted: at least the one received, and at most the size;
 * otherwise it is 0. `steps` is the number of instructions that were carried out, at most the budget, and 0 where there is no such route. */
typedef struct { uint32_t verdict, metric, steps; } gomthau_answer;

/* What is known of all runs of a filter. Where `reads_metric` is false, the verdict is one for all metrics up to the size, but the answer's metric
 * need not be: `accept;` alone answers the one received. */
typedef struct {
    uint64_t code_size; /* the bytes of its code file */
    uint32_t size;      /* the nodes of the domains that it was verified for */
    uint32_t budget;    /* the most instructions of a run */
    uint32_t depth;     /* the most values on the stack of a run */
    bool reads_prefix;  /* whether an instruction of its code reads the prefix of the route */
    bool reads_metric;  /* whether one reads the metric that was received, or the current one */
} gomthau_bounds;

/* Buffers: a text of a filter, the bytes of a code file, routes; and room for words and for answers, which a call writes. */
typedef struct { const char *at; size_t length; } gomthau_text;
typedef struct { const void *at; size_t length; } gomthau_code;
typedef struct { char *at; size_t length; } gomthau_words;
typedef struct { const gomthau_route *at; size_t length; } gomthau_routes;
typedef struct { gomthau_answer *at; size_t length; } gomthau_answers;

/* What the library exports, for languages that do not read C: a buffer is two arguments, a route three, and no address is NULL, also with length 0.
 * What is written has values of its type before, so a `bool` is 0 or 1. `share` returns GOMTHAU_DONE or GOMTHAU_NO_MEMORY, and requires that `*other`
 * holds no filter; `close` requires that `*filter` holds one. In C the functions below stand in the place of these. */
#ifdef __cplusplus
extern "C" {
#endif
uint32_t gomthau_filter_open(const char *text, size_t length, uint32_t size, gomthau_filter *filter, gomthau_refused *refused, char *words,
                             size_t words_length);
uint32_t gomthau_filter_open_code(const void *bytes, size_t length, uint32_t size, gomthau_filter *filter, gomthau_refused *refused, char *words,
                                  size_t words_length);
gomthau_answer gomthau_filter_run(gomthau_filter *filter, uint32_t address, uint8_t length, uint32_t metric);
void gomthau_filter_run_all(gomthau_filter *filter, const gomthau_route *routes, size_t routes_length, gomthau_answer *answers,
                            size_t answers_length);
uint32_t gomthau_filter_bounds(gomthau_filter *filter, gomthau_bounds *bounds);
uint32_t gomthau_filter_share(gomthau_filter *filter, gomthau_filter *other);
void gomthau_filter_close(gomthau_filter *filter);
#ifdef __cplusplus
}
#endif

/* Verifies the filter of a text, or that of a code file, for domains of `size` nodes.
 * Requires that `*filter` holds no filter. It holds one after GOMTHAU_DONE and only then: its code is the translation of the one filter that the text
 * spells, or is what the file has, and never goes wrong in domains of that size.
 * After GOMTHAU_REFUSED `*refused` says why, and `words` has that in words, in UTF-8, with a terminating zero: all of them where its length is at
 * least `refused->words_size`, and otherwise as many bytes as there is room for. Both are written after GOMTHAU_REFUSED alone. */
static inline uint32_t gomthau_typed_open(gomthau_text text, uint32_t size, gomthau_filter *filter, gomthau_refused *refused, gomthau_words words) {
    gomthau_refused told;
    char none = 0;
    memset(&told, 0, sizeof told);
    uint32_t answer = gomthau_filter_open(text.at ? text.at : "", text.length, size, filter, &told, words.at ? words.at : &none, words.length);
    if (answer == GOMTHAU_REFUSED) *refused = told;
    return answer;
}
#define gomthau_filter_open gomthau_typed_open

static inline uint32_t gomthau_typed_open_code(gomthau_code code, uint32_t size, gomthau_filter *filter, gomthau_refused *refused,
                                               gomthau_words words) {
    gomthau_refused told;
    char none = 0;
    memset(&told, 0, sizeof told);
    uint32_t answer = gomthau_filter_open_code(code.at ? code.at : "", code.length, size, filter, &told, words.at ? words.at : &none, words.length);
    if (answer == GOMTHAU_REFUSED) *refused = told;
    return answer;
}
#define gomthau_filter_open_code gomthau_typed_open_code

/* Takes one route through the filter. Requires that `*filter` holds one. */
static inline gomthau_answer gomthau_typed_run(gomthau_filter *filter, gomthau_route route) {
    return gomthau_filter_run(filter, route.address, route.length, route.metric);
}
#define gomthau_filter_run gomthau_typed_run

/* Takes routes through the filter, as many as there are of both: `answers.at[i]` is what gomthau_filter_run says of `routes.at[i]`. Answers behind
 * these are as they were. Requires that `*filter` holds a filter. */
static inline void gomthau_typed_run_all(gomthau_filter *filter, gomthau_routes routes, gomthau_answers answers) {
    if (routes.length && answers.length) gomthau_filter_run_all(filter, routes.at, routes.length, answers.at, answers.length);
}
#define gomthau_filter_run_all gomthau_typed_run_all

/* Tells the bounds of the filter: GOMTHAU_DONE, or GOMTHAU_NO_MEMORY. Requires that `*filter` holds one. */
static inline uint32_t gomthau_typed_bounds(gomthau_filter *filter, gomthau_bounds *bounds) {
    gomthau_bounds found;
    memset(&found, 0, sizeof found);
    uint32_t answer = gomthau_filter_bounds(filter, &found);
    if (answer == GOMTHAU_DONE) *bounds = found;
    return answer;
}
#define gomthau_filter_bounds gomthau_typed_bounds

/* Hands out a further handle of the same filter, or one that holds none where memory is refused. Requires that `*filter` holds a filter. The two are
 * closed in any order. */
static inline gomthau_filter gomthau_typed_share(gomthau_filter *filter) {
    gomthau_filter other = {NULL};
    (void)gomthau_filter_share(filter, &other);
    return other;
}
#define gomthau_filter_share gomthau_typed_share

/* Closes the handle, which then holds no filter. The last handle of a filter frees it. One that holds none is closed to no effect. */
static inline void gomthau_typed_close(gomthau_filter *filter) {
    if (filter->at) gomthau_filter_close(filter);
}
#define gomthau_filter_close gomthau_typed_close
#endif
