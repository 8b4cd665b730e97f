/* filter_routes SIZE FILE < ROUTES: answers each line `PREFIX METRIC` by the filter of FILE, as `ncroute filter` does. */
#include "routes.h"
#include <inttypes.h>
#include <stdlib.h>

/* The text of a file, and its length; NULL where it cannot be read. */
static char *read_text(const char *path, size_t *length) {
    FILE *file = fopen(path, "rb");
    if (!file) return NULL;
    size_t room = 1 << 16;
    char *text = malloc(room);
    *length = 0;
    while (text && !feof(file) && !ferror(file)) {
        *length += fread(text + *length, 1, room - *length, file);
        if (*length == room) {
            char *more = realloc(text, room *= 2);
            if (!more) free(text);
            text = more;
        }
    }
    fclose(file);
    return text;
}

/* Opens the filter of a text, or says why not. */
static int open_filter(const char *path, const char *text, size_t length, uint32_t size, gomthau_filter *filter) {
    gomthau_refused refused;
    char words[500];
    switch (gomthau_filter_open((gomthau_text){text, length}, size, filter, &refused, (gomthau_words){words, sizeof words})) {
    case GOMTHAU_DONE:
        return 1;
    case GOMTHAU_REFUSED:
        printf("refused %s %" PRIu64 "\n", refused.code, refused.place);
        if (refused.line)
            fprintf(stderr, "%s:%" PRIu64 ":%" PRIu64 ": %s\n", path, refused.line, refused.column, words);
        else
            fprintf(stderr, "%s: %s\n", path, words);
        return 0;
    default:
        fputs("out of memory\n", stderr);
        return 0;
    }
}

int main(int argc, char **argv) {
    if (argc != 3) {
        fputs("usage: filter_routes SIZE FILE < ROUTES\n", stderr);
        return 2;
    }
    size_t length;
    char *text = read_text(argv[2], &length);
    gomthau_filter filter = {0};
    int is_open = text && open_filter(argv[2], text, length, (uint32_t)strtoul(argv[1], NULL, 10), &filter);
    free(text);
    if (!is_open) return 1;
    char line[200];
    gomthau_route route;
    while (fgets(line, sizeof line, stdin))
        if (read_route(line, &route))
            write_answer(gomthau_filter_run(&filter, route));
        else
            puts("no route");
    gomthau_filter_close(&filter);
    return 0;
}
