/* library SIZE FILE ROUNDS < ROUTES: takes the routes of standard input, a line `PREFIX METRIC` each, through the filter of FILE, ROUNDS times one
 * by one, and ROUNDS times as an array. Prints how many are accepted, and the nanoseconds of processor time that a route took, one by one and in the
 * array: each the least of five. */
#include "../examples/c/routes.h"
#include <stdlib.h>
#include <time.h>

enum { MOST = 1 << 17, TRIES = 5 };

static gomthau_route routes[MOST];
static gomthau_answer answers[MOST];

static double now(void) {
    struct timespec time;
    clock_gettime(CLOCK_PROCESS_CPUTIME_ID, &time);
    return time.tv_sec * 1e9 + time.tv_nsec;
}

int main(int argc, char **argv) {
    static char text[1 << 16];
    FILE *file = argc == 4 ? fopen(argv[2], "rb") : NULL;
    if (!file) return 2;
    size_t length = fread(text, 1, sizeof text, file), count = 0, accepted = 0;
    fclose(file);
    gomthau_filter filter = {0};
    gomthau_refused refused;
    if (gomthau_filter_open((gomthau_text){text, length}, (uint32_t)atoi(argv[1]), &filter, &refused, (gomthau_words){NULL, 0})) return 1;
    char line[200];
    while (count < MOST && fgets(line, sizeof line, stdin)) count += (size_t)read_route(line, &routes[count]);
    unsigned rounds = (unsigned)atoi(argv[3]);
    double one = 1e300, all = 1e300;
    for (int k = 0; k < TRIES; k++) {
        double start = now();
        for (unsigned r = 0; r < rounds; r++) {
            accepted = 0;
            for (size_t i = 0; i < count; i++)
                accepted += gomthau_filter_run(&filter, routes[i]).verdict == GOMTHAU_ACCEPTED;
        }
        double middle = now();
        for (unsigned r = 0; r < rounds; r++) gomthau_filter_run_all(&filter, (gomthau_routes){routes, count}, (gomthau_answers){answers, count});
        double end = now();
        if (middle - start < one) one = middle - start;
        if (end - middle < all) all = end - middle;
    }
    size_t in_array = 0;
    for (size_t i = 0; i < count; i++) in_array += answers[i].verdict == GOMTHAU_ACCEPTED;
    if (in_array != accepted) return 3;
    printf("%zu %.2f %.2f\n", accepted, one / rounds / count, all / rounds / count);
    gomthau_filter_close(&filter);
    return 0;
}
