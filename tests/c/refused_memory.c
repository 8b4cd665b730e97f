/* Refuses each allocation of each call that has an answer for it, one at a time: the answer is GOMTHAU_NO_MEMORY, all is as it was before the call,
 * and nothing is left; or the call did without, and answered as ever. Each row is a line that is written; the status is the number of those that failed.
 *
 * It is linked with the archive and `-Wl,--wrap=malloc,--wrap=realloc,--wrap=free`, so that only what the library asks for is refused. */
#include <gomthau_filter.h>
#include <stdio.h>
#include <stdlib.h>
#include <string.h>

void *__real_malloc(size_t size);
void *__real_realloc(void *old, size_t size);
void __real_free(void *at);

/* The allocation that is refused, counted from 1; 0 where none is, or -1 where it was. And how many blocks there are. */
static long nth, live;

static int is_refused(void) {
    int is_this = nth == 1;
    nth = is_this ? -1 : nth > 0 ? nth - 1 : nth;
    return is_this;
}

void *__wrap_malloc(size_t size) {
    void *at = is_refused() ? NULL : __real_malloc(size);
    live += at != NULL;
    return at;
}

void *__wrap_realloc(void *old, size_t size) {
    void *at = is_refused() ? NULL : __real_realloc(old, size);
    live += at != NULL && old == NULL;
    return at;
}

void __wrap_free(void *at) {
    live -= at != NULL;
    __real_free(at);
}

/* What calls are given, and what they write. */
struct given {
    gomthau_filter filter, other;
    gomthau_refused refused;
    gomthau_bounds bounds;
    char words[300];
};

static const char TEXT[] = "filter up { if net ~ [ 10.0.0.0/8+, 192.168.0.0/16{20,24} ] then reject; rip_metric = rip_metric + 2; accept; }";
static const char WRONG[] = "filter low {\n  rip_metric = 1;\n  print 1;\n}";
static const unsigned char CODE[] = {0x4e, 0x43, 0x46, 0x32, 0, 0, 0, 0, 1, 0x70};

static gomthau_words room_in(struct given *it) {
    return (gomthau_words){it->words, sizeof it->words};
}

static uint32_t opens(struct given *it) {
    return gomthau_filter_open((gomthau_text){TEXT, sizeof TEXT - 1}, 16, &it->filter, &it->refused, room_in(it));
}

static uint32_t refuses(struct given *it) {
    return gomthau_filter_open((gomthau_text){WRONG, sizeof WRONG - 1}, 16, &it->filter, &it->refused, room_in(it));
}

static uint32_t opens_code(struct given *it) {
    return gomthau_filter_open_code((gomthau_code){CODE, sizeof CODE}, 16, &it->filter, &it->refused, room_in(it));
}

static uint32_t refuses_code(struct given *it) {
    return gomthau_filter_open_code((gomthau_code){CODE, sizeof CODE - 1}, 16, &it->filter, &it->refused, room_in(it));
}

static uint32_t bounds(struct given *it) {
    return gomthau_filter_bounds(&it->filter, &it->bounds);
}

static uint32_t shares(struct given *it) {
    it->other = gomthau_filter_share(&it->filter);
    return it->other.at ? GOMTHAU_DONE : GOMTHAU_NO_MEMORY;
}

/* Makes a call without its first allocation, without its second, and so on, as long as it makes so many. Where it does without one, as it may for
 * room that it would fill later, its answer is the same. */
static int sweep(const char *name, uint32_t (*call)(struct given *), int is_open, uint32_t wanted) {
    long refused = 0, told = 0, before = live;
    int holds = 1;
    for (int was_refused = 1; was_refused; refused++) {
        struct given given, was;
        memset(&given, 7, sizeof given);
        given.filter = given.other = (gomthau_filter){0};
        if (is_open) holds &= opens(&given) == GOMTHAU_DONE;
        memcpy(&was, &given, sizeof given);
        long blocks = live;
        nth = refused + 1;
        uint32_t answer = call(&given);
        was_refused = nth == -1;
        nth = 0;
        if (answer == GOMTHAU_NO_MEMORY)
            holds &= was_refused && live == blocks && !memcmp(&was, &given, sizeof given);
        else
            holds &= answer == wanted;
        told += answer == GOMTHAU_NO_MEMORY;
        gomthau_filter_close(&given.filter);
        gomthau_filter_close(&given.other);
        holds &= live == before;
    }
    holds &= told > 0;
    printf("%s, without each of %ld allocations, %ld of which it needs: %s\n", name, refused - 1, told, holds ? "ok" : "WRONG");
    return !holds;
}

/* Runs take no memory. */
static int runs(void) {
    static struct given given;
    gomthau_route routes[] = {{.address = 0x08080800, .length = 24, .metric = 3}, {.address = 0x0a000000, .length = 8, .metric = 3}};
    gomthau_answer answers[2];
    int holds = opens(&given) == GOMTHAU_DONE;
    nth = 1;
    gomthau_answer answer = gomthau_filter_run(&given.filter, routes[0]);
    gomthau_filter_run_all(&given.filter, (gomthau_routes){routes, 2}, (gomthau_answers){answers, 2});
    holds &= nth == 1;
    nth = 0;
    gomthau_filter_close(&given.filter);
    holds &= answer.verdict == GOMTHAU_ACCEPTED && answer.metric == 5 && answers[0].metric == 5 && answers[1].verdict == GOMTHAU_REJECTED && !live;
    printf("runs without memory: %s\n", holds ? "ok" : "WRONG");
    return !holds;
}

int main(void) {
    return sweep("a text", opens, 0, GOMTHAU_DONE) + sweep("a text with a mistake", refuses, 0, GOMTHAU_REFUSED)
        + sweep("a code file", opens_code, 0, GOMTHAU_DONE) + sweep("a short code file", refuses_code, 0, GOMTHAU_REFUSED)
        + sweep("bounds", bounds, 1, GOMTHAU_DONE) + sweep("share", shares, 1, GOMTHAU_DONE) + runs();
}
