/* What the header hands to the library: values of their types where a program hands over bytes that are none, and no NULL. Each row is a line that is
 * written; the status is the number of those that failed.
 *
 * It is linked with the archive and `-Wl,--wrap=` for each call of the library that is looked at here. */
#include <gomthau_filter.h>
#include <stdio.h>

uint32_t __real_gomthau_filter_open(const char *text, size_t length, uint32_t size, gomthau_filter *filter, gomthau_refused *refused, char *words,
                                    size_t words_length);
uint32_t __real_gomthau_filter_open_code(const void *bytes, size_t length, uint32_t size, gomthau_filter *filter, gomthau_refused *refused,
                                         char *words, size_t words_length);
uint32_t __real_gomthau_filter_bounds(gomthau_filter *filter, gomthau_bounds *bounds);

/* How many calls came to the library, and how many of them had what they should. */
static int calls, right;

static int failed;

static void row(const char *name, int holds) {
    printf("%s: %s\n", name, holds ? "ok" : "WRONG");
    failed += !holds;
}

/* Whether all bytes at a place are zero. */
static int is_zero(const void *at, size_t length) {
    const unsigned char *bytes = at;
    while (length && !bytes[length - 1]) length--;
    return !length;
}

uint32_t __wrap_gomthau_filter_open(const char *text, size_t length, uint32_t size, gomthau_filter *filter, gomthau_refused *refused, char *words,
                                    size_t words_length) {
    calls++;
    right += text && words && is_zero(refused, sizeof *refused);
    return __real_gomthau_filter_open(text, length, size, filter, refused, words, words_length);
}

uint32_t __wrap_gomthau_filter_open_code(const void *bytes, size_t length, uint32_t size, gomthau_filter *filter, gomthau_refused *refused,
                                         char *words, size_t words_length) {
    calls++;
    right += bytes && words && is_zero(refused, sizeof *refused);
    return __real_gomthau_filter_open_code(bytes, length, size, filter, refused, words, words_length);
}

uint32_t __wrap_gomthau_filter_bounds(gomthau_filter *filter, gomthau_bounds *bounds) {
    calls++;
    right += is_zero(bounds, sizeof *bounds);
    return __real_gomthau_filter_bounds(filter, bounds);
}

int main(void) {
    static const char UP[] = "filter up { accept; }";
    gomthau_filter filter = {0};
    gomthau_refused refused;
    gomthau_bounds bounds;
    gomthau_words nowhere = {NULL, 0};
    /* A byte 7 is no `bool`. */
    memset(&refused, 7, sizeof refused);
    memset(&bounds, 7, sizeof bounds);
    row("no text", gomthau_filter_open((gomthau_text){NULL, 0}, 16, &filter, &refused, nowhere) == GOMTHAU_REFUSED && !strcmp(refused.code, "P9"));
    memset(&refused, 7, sizeof refused);
    row("no code", gomthau_filter_open_code((gomthau_code){NULL, 0}, 16, &filter, &refused, nowhere) == GOMTHAU_REFUSED && refused.code[0] == 'C');
    memset(&refused, 7, sizeof refused);
    row("a text", !gomthau_filter_open((gomthau_text){UP, sizeof UP - 1}, 16, &filter, &refused, nowhere) && refused.code[0] == 7);
    row("bounds", !gomthau_filter_bounds(&filter, &bounds) && bounds.size == 16 && !bounds.reads_metric && !bounds.reads_prefix);
    row("what the library is given", calls == 4 && right == 4);
    gomthau_filter_close(&filter);
    return failed;
}
