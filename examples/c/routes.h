/* Routes and answers as lines, for the examples. */
#include <gomthau_filter.h>
#include <stdio.h>

/* Reads a line `PREFIX METRIC`, as "10.0.0.0/8 3"; whether it is one. */
static inline int read_route(const char *line, gomthau_route *route) {
    unsigned a, b, c, d, length, metric;
    if (sscanf(line, "%u.%u.%u.%u/%u %u", &a, &b, &c, &d, &length, &metric) != 6 || (a | b | c | d | length) > 255) return 0;
    *route = (gomthau_route){.address = a << 24 | b << 16 | c << 8 | d, .length = (uint8_t)length, .metric = metric};
    return 1;
}

/* Writes an answer as `ncroute filter` does. */
static inline void write_answer(gomthau_answer answer) {
    if (answer.verdict == GOMTHAU_ACCEPTED)
        printf("accept %u\n", answer.metric);
    else
        puts(answer.verdict == GOMTHAU_REJECTED ? "reject" : "no route");
}
