/* Routes a job text from standard input and prints its routes text. A refused job prints X and the refusal's numbers and
 * ends with status 1; arguments that it doesn't take, and input or output that fails, end it with a message and status 2. It lends
 * what the program `router` lends, and prints the same. See include/arvumnao.h.
 *
 *   limit   a run that reaches the job's own limit goes on from its log under this one, 1 to 100
 *   -a      the search that aims is used: the routes are the same, and standard error tells how many nodes it expanded
 *   -l      the log is printed in place of the routes, a line for each record (docs/FORMAT.md, section 4); also that of a run which
 *           log or limit stopped, before the line of the refusal
 *
 *     tools/build capi
 *     cc -Iinclude examples/route.c target/staticlib/libcapi.a -o target/route
 *     target/route < examples/job_b.txt
 *     sed 1s/2$/1/ examples/job_b.txt | target/route 2
 *     target/route -a < examples/job_b.txt
 *     target/route -l < examples/job_b.txt
 *     target/route < examples/timed.txt
 */
#include "arvumnao.h"

#include <inttypes.h>
#include <stdio.h>
#include <stdlib.h>
#include <string.h>

enum { TEXT = 65536, ROUTES = 65536, NODES = 1024, EDGES = 8192, NETS = 512, SINKS = 4096, LOG = 16384 };

/* one byte more than a text may have, to see whether the input is longer */
static uint8_t text[TEXT + 1], kind[NODES], capacity[NODES], criticality[SINKS], routes[ROUTES];
static uint32_t first_edge[NODES + 1], first_sink[NETS + 1], terms[ARVUMNAO_TERMS], log_words[LOG];
static uint16_t edge_target[EDGES], source[NETS], sink[SINKS], delay[NODES];
static uint64_t work[ARVUMNAO_WORK(NODES)], out[ARVUMNAO_OUT];
static size_t nodes, edges, nets, sinks;

/* What the arguments ask for; limit 0 where none is named. */
static int aimed, logged;
static uint32_t limit;

static void fail(const char *name)
{
    perror(name);
    exit(2);
}

static void usage(void)
{
    fprintf(stderr, "usage: route [-a] [-l] [limit] < job: a limit is 1 to %d\n", ARVUMNAO_LIMIT_MOST);
    exit(2);
}

/* A limit is digits alone, and within its bounds. */
static uint32_t limit_of(const char *argument)
{
    char *end;
    unsigned long number = strtoul(argument, &end, 10);
    if (argument[0] < '0' || argument[0] > '9' || *end != '\0' || number < 1 || number > ARVUMNAO_LIMIT_MOST)
        usage();
    return (uint32_t)number;
}

static void take(int count, char **arguments)
{
    int place = 1;
    for (; place < count && arguments[place][0] == '-'; place++) {
        if (strcmp(arguments[place], "-a") == 0)
            aimed = 1;
        else if (strcmp(arguments[place], "-l") == 0)
            logged = 1;
        else
            usage();
    }
    if (place < count)
        limit = limit_of(arguments[place++]);
    if (place < count)
        usage();
}

/* Prints the refusal in `out`, if there is one. */
static int refused(void)
{
    uint64_t number = out[ARVUMNAO_REFUSAL];
    if (number == 0)
        return 0;
    printf("X,%" PRIu64 ",%" PRIu64, number, out[ARVUMNAO_REFUSAL_1]);
    if ((number >= ARVUMNAO_UNREACHABLE && number <= ARVUMNAO_LIMIT_REACHED) || number == ARVUMNAO_TOO_LARGE)
        printf(",%" PRIu64, out[ARVUMNAO_REFUSAL_2]);
    printf("\n");
    return 1;
}

/* Reads a job text: its tables and its terms. */
static void read_job(size_t bytes)
{
    arvumnao_read(text, bytes, kind, NODES, capacity, NODES, first_edge, NODES + 1, edge_target, EDGES,
                  source, NETS, first_sink, NETS + 1, sink, SINKS, delay, NODES, criticality, SINKS, out, ARVUMNAO_OUT);
    nodes = (size_t)out[ARVUMNAO_READ_NODES];
    edges = (size_t)out[ARVUMNAO_READ_EDGES];
    nets = (size_t)out[ARVUMNAO_READ_NETS];
    sinks = (size_t)out[ARVUMNAO_READ_SINKS];
    for (size_t place = 0; place < ARVUMNAO_TERMS; place++)
        terms[place] = (uint32_t)out[ARVUMNAO_READ_LIMIT + place];
}

/* Routes the job, and goes on where that ends at the job's limit and another is named. */
static void route_job(void)
{
    (aimed ? arvumnao_route_aimed : arvumnao_route)(
        kind, nodes, capacity, nodes, first_edge, nodes + 1, edge_target, edges, source, nets, first_sink, nets + 1, sink, sinks,
        delay, nodes, criticality, sinks, terms, ARVUMNAO_TERMS, work, ARVUMNAO_WORK(nodes), log_words, LOG, out, ARVUMNAO_OUT);
    uint64_t expanded = out[ARVUMNAO_ROUTE_EXPANDED];
    if (out[ARVUMNAO_REFUSAL] == ARVUMNAO_LIMIT_REACHED && limit != 0) {
        terms[ARVUMNAO_TERMS_LIMIT] = limit;
        (aimed ? arvumnao_resume_aimed : arvumnao_resume)(
            kind, nodes, capacity, nodes, first_edge, nodes + 1, edge_target, edges, source, nets, first_sink, nets + 1, sink, sinks,
            delay, nodes, criticality, sinks, terms, ARVUMNAO_TERMS, out[ARVUMNAO_ROUTE_WORDS], work, ARVUMNAO_WORK(nodes),
            log_words, LOG, out, ARVUMNAO_OUT);
        expanded += out[ARVUMNAO_RESUME_EXPANDED];
    }
    if (aimed)
        fprintf(stderr, "nodes expanded: %" PRIu64 "\n", expanded);
}

/* Prints the log's records in so many words of it. */
static void print_log(size_t words)
{
    for (size_t first = 0; first < words; first += ARVUMNAO_RECORD(log_words[first + 5])) {
        const uint32_t *record = log_words + first;
        uint64_t cost = (uint64_t)record[4] << 32 | record[3];
        printf("iteration %" PRIu32 ", net %" PRIu32 ", sink %" PRIu32 ", cost %" PRIu64 ", path", record[0], record[1], record[2], cost);
        for (uint32_t place = 0; place < record[5]; place++)
            printf(" %" PRIu32, record[6 + place]);
        printf("\n");
    }
}

/* Prints what a job text of so many bytes comes to; the status. */
static int print_answer(size_t bytes)
{
    if (bytes > TEXT) {
        printf("X,%d,%d\n", ARVUMNAO_LONG_TEXT, TEXT);
        return 1;
    }
    read_job(bytes);
    if (refused())
        return 1;
    route_job();
    size_t words = (size_t)out[ARVUMNAO_ROUTE_WORDS];
    if (logged)
        print_log(words);
    if (refused())
        return 1;
    if (logged)
        return 0;
    arvumnao_write(source, nets, log_words, words, routes, ROUTES, out, ARVUMNAO_OUT);
    if (refused())
        return 1;
    fwrite(routes, 1, (size_t)out[ARVUMNAO_WRITE_BYTES], stdout);
    return 0;
}

int main(int count, char **arguments)
{
    take(count, arguments);
    size_t bytes = fread(text, 1, TEXT + 1, stdin);
    if (ferror(stdin))
        fail("standard input");
    int status = print_answer(bytes);
    if (fflush(stdout) != 0 || ferror(stdout))
        fail("standard output");
    return status;
}
