/* many_threads SIZE FILE THREADS < ROUTES: as filter_routes, but the routes are divided among threads, each with a handle of its own. */
#include "routes.h"
#include <pthread.h>
#include <stdlib.h>

enum { MOST_THREADS = 64, MOST_ROUTES = 1 << 20 };

struct job {
    gomthau_filter filter;
    gomthau_route *routes;
    gomthau_answer *answers;
    size_t count;
};

static void *work(void *given) {
    struct job *job = given;
    gomthau_filter_run_all(&job->filter, (gomthau_routes){job->routes, job->count}, (gomthau_answers){job->answers, job->count});
    gomthau_filter_close(&job->filter);
    return NULL;
}

int main(int argc, char **argv) {
    static char text[1 << 16];
    static gomthau_route routes[MOST_ROUTES];
    static gomthau_answer answers[MOST_ROUTES];
    static struct job jobs[MOST_THREADS];
    pthread_t threads[MOST_THREADS];
    size_t workers = argc == 4 ? strtoul(argv[3], NULL, 10) : 0, count = 0;
    FILE *file = workers && workers <= MOST_THREADS ? fopen(argv[2], "rb") : NULL;
    if (!file) {
        fputs("usage: many_threads SIZE FILE THREADS < ROUTES\n", stderr);
        return 2;
    }
    size_t length = fread(text, 1, sizeof text, file);
    fclose(file);
    gomthau_filter filter = {0};
    gomthau_refused refused;
    uint32_t size = (uint32_t)strtoul(argv[1], NULL, 10);
    if (gomthau_filter_open((gomthau_text){text, length}, size, &filter, &refused, (gomthau_words){NULL, 0})) return 1;
    char line[200];
    while (count < MOST_ROUTES && fgets(line, sizeof line, stdin)) count += (size_t)read_route(line, &routes[count]);
    for (size_t i = 0; i < workers; i++) {
        size_t from = count * i / workers, to = count * (i + 1) / workers;
        jobs[i] = (struct job){gomthau_filter_share(&filter), routes + from, answers + from, to - from};
        if (!jobs[i].filter.at) return 1;
    }
    /* The handles of the threads keep the filter. */
    gomthau_filter_close(&filter);
    for (size_t i = 0; i < workers; i++)
        if (pthread_create(&threads[i], NULL, work, &jobs[i])) return 1;
    for (size_t i = 0; i < workers; i++) pthread_join(threads[i], NULL);
    for (size_t i = 0; i < count; i++) write_answer(answers[i]);
    return 0;
}
