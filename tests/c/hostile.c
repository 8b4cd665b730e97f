/* Calls within the contract of gomthau_filter.h that a careful caller would not make. Each row is a line that is written; the status is the number
 * of those that failed. */
#include <gomthau_filter.h>
#include <stdio.h>
#include <string.h>

static int failed;

static void row(const char *name, int holds) {
    printf("%s: %s\n", name, holds ? "ok" : "WRONG");
    failed += !holds;
}

static const char UP[] = "filter up { rip_metric = rip_metric + 2; accept; }";
static const char LOWER[] = "filter low {\n  rip_metric = 1;\n  print 1;\n}";

/* A text without the zero at its end, and no room for words. */
#define TEXT(text) ((gomthau_text){text, sizeof text - 1})
static const gomthau_words NOWHERE = {NULL, 0};

static const gomthau_route ROUTE = {.address = 0x0a000000, .length = 8, .metric = 3};

static void wrong_texts(void) {
    struct {
        const char *text;
        size_t length;
        uint32_t size;
        const char *code;
        unsigned place, line, column;
    } rows[] = {
        {"", 0, 16, "P9", 0, 1, 1},
        {NULL, 0, 16, "P9", 0, 1, 1},
        {"\0", 1, 16, "P1", 0, 1, 1},
        {"\xff\xfe", 2, 16, "P1", 0, 1, 1},
        {"filter q { reject", 17, 16, "P9", 17, 1, 18},
        {LOWER, sizeof LOWER - 1, 16, "P10", 33, 3, 3},
        {"filter q { if 1 then accept; }", 30, 16, "Y3", 14, 1, 15},
        {"filter q { zzz = 1; }", 21, 16, "Y1", 11, 1, 12},
        {"filter q { rip_metric = 9 / rip_metric; accept; }", 49, 16, "V3", 2, 1, 27},
        {"filter q { accept; }", 20, 251, "V8", 0, 0, 0},
        {"filter q { accept; }", 20, 0, "V8", 0, 0, 0},
        {"filter q { accept; }", 20, 4294967295u, "V8", 0, 0, 0},
    };
    for (unsigned i = 0; i < sizeof rows / sizeof *rows; i++) {
        gomthau_filter filter = {0};
        gomthau_refused refused;
        char words[300], name[99];
        gomthau_text text = {rows[i].text, rows[i].length};
        uint32_t answer = gomthau_filter_open(text, rows[i].size, &filter, &refused, (gomthau_words){words, sizeof words});
        unsigned place = (unsigned)refused.place, line = (unsigned)refused.line, column = (unsigned)refused.column;
        snprintf(name, sizeof name, "wrong text %u: %u %.4s %u %u:%u", i, answer, refused.code, place, line, column);
        int is_told = !strcmp(refused.code, rows[i].code) && place == rows[i].place && line == rows[i].line && column == rows[i].column;
        row(name, answer == GOMTHAU_REFUSED && !filter.at && is_told && refused.words_size == strlen(words) + 1 && strstr(words, rows[i].code));
    }
}

/* The words in a buffer of each size. */
static void short_buffers(void) {
    gomthau_filter filter = {0};
    gomthau_refused refused, again;
    char whole[300], words[300];
    gomthau_filter_open(TEXT(LOWER), 16, &filter, &refused, (gomthau_words){whole, sizeof whole});
    int holds = refused.words_size > 20 && refused.words_size < sizeof whole;
    for (size_t room = 0; room <= refused.words_size + 1; room++) {
        memset(words, '#', sizeof words);
        size_t kept = room < refused.words_size ? room : refused.words_size;
        holds &= gomthau_filter_open(TEXT(LOWER), 16, &filter, &again, (gomthau_words){room ? words : NULL, room}) == GOMTHAU_REFUSED;
        holds &= again.words_size == refused.words_size && !memcmp(&again.code, &refused.code, 4);
        if (kept) holds &= !memcmp(words, whole, kept - 1) && !words[kept - 1];
        for (size_t i = kept; i < sizeof words; i++) holds &= words[i] == '#';
    }
    row("words in buffers of each size", holds);
}

static void wrong_code(void) {
    gomthau_filter filter = {0};
    gomthau_refused refused = {0};
    char words[200];
    uint32_t answer = gomthau_filter_open_code((gomthau_code){NULL, 0}, 16, &filter, &refused, (gomthau_words){words, sizeof words});
    row("a code file of no bytes", answer == GOMTHAU_REFUSED && refused.code[0] == 'C' && !refused.line && !filter.at);
    answer = gomthau_filter_open_code((gomthau_code){UP, sizeof UP - 1}, 16, &filter, &refused, NOWHERE);
    row("a text as a code file", answer == GOMTHAU_REFUSED && refused.code[0] == 'C' && !filter.at);
}

/* All numbers as routes, and an untouched refusal. */
static void routes(void) {
    gomthau_filter filter = {0};
    gomthau_refused refused;
    char words[10];
    memset(&refused, 7, sizeof refused);
    memset(words, 7, sizeof words);
    gomthau_refused before = refused;
    uint32_t answer = gomthau_filter_open(TEXT(UP), 16, &filter, &refused, (gomthau_words){words, sizeof words});
    row("a filter that opens", answer == GOMTHAU_DONE && filter.at);
    row("leaves what it is not told", !memcmp(&before, &refused, sizeof refused) && words[0] == 7 && words[9] == 7);
    gomthau_route rows[] = {
        ROUTE,
        {.address = 0x0a0000ff, .length = 8, .metric = 3},
        {.address = 0, .length = 33, .metric = 3},
        {.address = 0, .length = 255, .metric = 3},
        {.address = 0, .length = 0, .metric = 17},
        {.address = 0, .length = 0, .metric = 4294967295u},
        {.address = 4294967295u, .length = 32, .metric = 16},
    };
    gomthau_answer want[] = {{1, 5, 5}, {1, 5, 5}, {2, 0, 0}, {2, 0, 0}, {2, 0, 0}, {2, 0, 0}, {1, 16, 5}}, got[8];
    int holds = 1;
    for (unsigned i = 0; i < 7; i++) {
        gomthau_answer one = gomthau_filter_run(&filter, rows[i]);
        holds &= one.verdict == want[i].verdict && one.metric == want[i].metric && (one.steps > 0) == (one.verdict < 2);
        want[i] = one;
    }
    row("all numbers as routes", holds);
    for (size_t routes_length = 0; routes_length <= 7; routes_length++)
        for (size_t answers_length = 0; answers_length <= 7; answers_length++) {
            size_t both = routes_length < answers_length ? routes_length : answers_length;
            memset(got, 9, sizeof got);
            gomthau_routes given = {routes_length ? rows : NULL, routes_length};
            gomthau_filter_run_all(&filter, given, (gomthau_answers){answers_length ? got : NULL, answers_length});
            holds &= !memcmp(got, want, both * sizeof *got);
            for (const char *at = (const char *)(got + both); at < (const char *)(got + 8); at++) holds &= *at == 9;
        }
    row("routes and answers of each length", holds);
    gomthau_filter_close(&filter);
    row("a closed handle holds none", !filter.at);
    gomthau_filter_close(&filter);
    gomthau_filter none = {0};
    gomthau_filter_close(&none);
    row("handles that hold none are closed", !filter.at && !none.at);
}

/* Handles of one filter, made of one another and closed in each order. */
static void closing(void) {
    int holds = 1;
    for (unsigned order = 0; order < 24; order++) {
        gomthau_filter all[4] = {{0}};
        gomthau_refused refused;
        holds &= !gomthau_filter_open(TEXT(UP), 16, &all[0], &refused, NOWHERE);
        for (unsigned i = 1; i < 4; i++) holds &= (all[i] = gomthau_filter_share(&all[i - 1])).at != NULL;
        unsigned left = 4, rest = order;
        for (unsigned place = 4; place > 0; place--) {
            unsigned pick = rest % place, i = 0;
            rest /= place;
            while (!all[i].at || pick--) i++;
            holds &= gomthau_filter_run(&all[i], ROUTE).metric == 5;
            gomthau_filter_close(&all[i]);
            left--;
            for (i = 0; i < 4; i++)
                if (all[i].at) holds &= gomthau_filter_run(&all[i], ROUTE).metric == 5;
        }
        /* A handle that was closed is opened again. */
        holds &= !left && !gomthau_filter_open(TEXT(UP), 16, &all[2], &refused, NOWHERE);
        gomthau_filter_close(&all[2]);
    }
    row("closing in each order", holds);
}

static void bounds(void) {
    static const char PLAIN[] = "filter plain { if net ~ [ 10.0.0.0/8+ ] then accept; reject; }";
    gomthau_filter up = {0}, plain = {0};
    gomthau_refused refused;
    gomthau_bounds of_up, of_plain;
    int holds = !gomthau_filter_open(TEXT(UP), 16, &up, &refused, NOWHERE);
    holds &= !gomthau_filter_open(TEXT(PLAIN), 250, &plain, &refused, NOWHERE);
    holds &= !gomthau_filter_bounds(&up, &of_up) && !gomthau_filter_bounds(&plain, &of_plain);
    row("bounds", holds && of_up.size == 16 && of_plain.size == 250 && of_up.budget >= 5 && of_up.depth == 2);
    row("what is read", of_up.reads_metric && !of_up.reads_prefix && of_plain.reads_prefix && !of_plain.reads_metric);
    /* One verdict for all metrics; but accepted routes keep theirs. */
    for (uint32_t metric = 0; metric <= 250; metric++) {
        gomthau_answer inside = gomthau_filter_run(&plain, (gomthau_route){.address = 0x0a000000, .length = 8, .metric = metric});
        gomthau_answer outside = gomthau_filter_run(&plain, (gomthau_route){.address = 0x0b000000, .length = 8, .metric = metric});
        holds &= inside.verdict == GOMTHAU_ACCEPTED && inside.metric == metric && outside.verdict == GOMTHAU_REJECTED;
    }
    row("what is answered where the metric is not read", holds);
    gomthau_filter_close(&plain);
    gomthau_filter_close(&up);
}

int main(void) {
    wrong_texts();
    short_buffers();
    wrong_code();
    routes();
    closing();
    bounds();
    return failed;
}
