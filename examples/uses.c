/* The use of wires over many jobs of one block: reads the job texts named, routes each and adds its log to the counts, then prints
 * a line U,kind,uses,capacity for each kind. The first text that can't be taken ends it with a message and status 1, and
 * nothing is printed to standard output. See include/arvumnao.h.
 *
 *     tools/build capi
 *     cc -Iinclude examples/uses.c target/staticlib/libcapi.a -o target/uses
 *     target/uses examples/uses_1.txt examples/uses_2.txt examples/uses_3.txt
 */
#include "arvumnao.h"

#include <inttypes.h>
#include <stdio.h>
#include <stdlib.h>
#include <string.h>

/* no job within the header's bounds has a longer text */
enum { TEXT = 1 << 20 };
enum { NODES = ARVUMNAO_NODES_MOST, EDGES = ARVUMNAO_EDGES_MOST, NETS = ARVUMNAO_NETS_MOST, SINKS = ARVUMNAO_SINKS_MOST };

/* Tables 1 to 4. What is past the counts stays 0, so that equal blocks are equal byte by byte. */
struct block {
    size_t nodes, edges;
    uint8_t kind[NODES], capacity[NODES];
    uint32_t first_edge[NODES + 1];
    uint16_t edge_target[EDGES];
};

static struct block first, block;
static uint8_t text[TEXT + 1], criticality[SINKS], uses[ARVUMNAO_USES_BYTES];
static uint32_t first_sink[NETS + 1], terms[ARVUMNAO_TERMS];
static uint16_t source[NETS], sink[SINKS], delay[NODES];
static uint64_t work[ARVUMNAO_WORK(NODES)], counts[ARVUMNAO_COUNTS], logs, out[ARVUMNAO_OUT];
static size_t nets, sinks, words;
static uint32_t *log_words;

static void fail(const char *path, const char *why)
{
    fprintf(stderr, "%s: %s\n", path, why);
    exit(1);
}

/* Ends with the refusal in `out`, if there is one. */
static void unless_refused(const char *path, const char *call)
{
    uint64_t number = out[ARVUMNAO_REFUSAL];
    if (number == 0)
        return;
    fprintf(stderr, "%s: refused by %s: X,%" PRIu64 ",%" PRIu64, path, call, number, out[ARVUMNAO_REFUSAL_1]);
    if ((number >= ARVUMNAO_UNREACHABLE && number <= ARVUMNAO_LIMIT_REACHED) || number == ARVUMNAO_TOO_LARGE)
        fprintf(stderr, ",%" PRIu64, out[ARVUMNAO_REFUSAL_2]);
    fprintf(stderr, " (docs/FORMAT.md, section 6)\n");
    exit(1);
}

/* The bytes of a file, in `text`. */
static size_t load(const char *path)
{
    FILE *file = fopen(path, "rb");
    if (file == NULL)
        fail(path, "can't be opened");
    size_t bytes = fread(text, 1, sizeof text, file);
    if (ferror(file))
        fail(path, "can't be read");
    fclose(file);
    if (bytes > TEXT)
        fail(path, "longer than any job text");
    return bytes;
}

/* Reads a job: its block, its nets and its terms. */
static void read_job(const char *path)
{
    size_t bytes = load(path);
    memset(&block, 0, sizeof block);
    arvumnao_read(text, bytes, block.kind, NODES, block.capacity, NODES, block.first_edge, NODES + 1, block.edge_target, EDGES,
                  source, NETS, first_sink, NETS + 1, sink, SINKS, delay, NODES, criticality, SINKS, out, ARVUMNAO_OUT);
    unless_refused(path, "the reader");
    block.nodes = (size_t)out[ARVUMNAO_READ_NODES];
    block.edges = (size_t)out[ARVUMNAO_READ_EDGES];
    nets = (size_t)out[ARVUMNAO_READ_NETS];
    sinks = (size_t)out[ARVUMNAO_READ_SINKS];
    for (size_t place = 0; place < ARVUMNAO_TERMS; place++)
        terms[place] = (uint32_t)out[ARVUMNAO_READ_LIMIT + place];
}

/* A log of twice as many words. */
static void lengthen_log(const char *path)
{
    words = words == 0 ? 16384 : 2 * words;
    free(log_words);
    log_words = malloc(words * sizeof log_words[0]);
    if (log_words == NULL)
        fail(path, "not enough memory for its log");
}

/* Routes it in a log of as many words as it needs. */
static void route_job(const char *path)
{
    for (;;) {
        arvumnao_route(block.kind, block.nodes, block.capacity, block.nodes, block.first_edge, block.nodes + 1,
                       block.edge_target, block.edges, source, nets, first_sink, nets + 1, sink, sinks, delay, block.nodes,
                       criticality, sinks, terms, ARVUMNAO_TERMS, work, ARVUMNAO_WORK(block.nodes), log_words, words,
                       out, ARVUMNAO_OUT);
        if (out[ARVUMNAO_REFUSAL] != ARVUMNAO_LOG_FULL)
            break;
        lengthen_log(path);
    }
    unless_refused(path, "the router");
}

/* Adds the log of the job that was routed. */
static void add_log(const char *path)
{
    size_t used = (size_t)out[ARVUMNAO_ROUTE_WORDS];
    arvumnao_uses_add(block.kind, block.nodes, block.capacity, block.nodes, block.first_edge, block.nodes + 1, block.edge_target,
                      block.edges, counts, ARVUMNAO_COUNTS, logs, log_words, used, out, ARVUMNAO_OUT);
    unless_refused(path, "the counts");
    logs = out[ARVUMNAO_USES_ADD_LOGS];
}

int main(int argc, char **argv)
{
    if (argc < 2)
        fail(argv[0], "names of job texts of one block are wanted");
    for (int place = 1; place < argc; place++) {
        read_job(argv[place]);
        if (place == 1)
            memcpy(&first, &block, sizeof block);
        else if (memcmp(&block, &first, sizeof block) != 0)
            fail(argv[place], "its nodes or edges are not those of the first text: uses are counted for one block");
        route_job(argv[place]);
        add_log(argv[place]);
    }
    arvumnao_uses_write(first.kind, first.nodes, first.capacity, first.nodes, first.first_edge, first.nodes + 1, first.edge_target,
                        first.edges, counts, ARVUMNAO_COUNTS, logs, uses, sizeof uses, out, ARVUMNAO_OUT);
    unless_refused(argv[1], "the writer of uses");
    size_t bytes = (size_t)out[ARVUMNAO_USES_WRITE_BYTES];
    if (fwrite(uses, 1, bytes, stdout) != bytes || fflush(stdout) != 0)
        fail("standard output", "can't be written");
    return 0;
}
