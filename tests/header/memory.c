/* What the header says about memory. Empty slices may have no pointer. And the stack: each call runs, on the largest job
 * there is and on the largest timed one, in a thread whose stack was painted; what is no longer painted afterwards was used. Prints
 * the bytes. */
#include "arvumnao.h"

#include <pthread.h>
#include <stdio.h>
#include <stdlib.h>
#include <string.h>

enum {
    NODES = ARVUMNAO_NODES_MOST,
    NETS = ARVUMNAO_NETS_MOST,
    SINKS = ARVUMNAO_SINKS_MOST,
    TIMED_NODES = ARVUMNAO_TIMED_NODES_MOST,
    TIMED_NETS = TIMED_NODES / 4,
    ROW = 8, /* edges a node */
    EACH = SINKS / NETS, /* sinks a net */
    EDGES = ROW * NODES,
    LOG = 1 << 22,
    BYTES = 1 << 20,
    PAINTED = 1 << 20,
    PAINT = 0xA5
};

static uint8_t text[BYTES], kind[NODES], capacity[NODES], criticality[SINKS], routes[16 * BYTES], in_tree[NODES];
static uint32_t first_edge[NODES + 1], first_sink[NETS + 1], log_words[LOG], history[NODES];
static uint16_t edge_target[EDGES], source[NETS], sink[SINKS], delay[NODES], others[NODES];
static uint32_t terms[] = {1, ARVUMNAO_PLAIN_TUNING, ARVUMNAO_RULE_CROWDED, 1, 0};
static uint64_t work[ARVUMNAO_WORK(NODES)], counts[ARVUMNAO_COUNTS], out[ARVUMNAO_OUT];
static size_t nodes, edges, nets, sinks, bytes, words;

/* Each node has switches to the next few; first sources, one a net, then as many sinks, then wires; every source has 8 of the
 * sinks. */
static void make_text(int timed)
{
    char *at = (char *)text;
    int node_count = timed ? TIMED_NODES : NODES, net_count = timed ? TIMED_NETS : NETS;
    nodes = (size_t)node_count;
    nets = (size_t)net_count;
    edges = ROW * nodes - ROW * (ROW + 1) / 2;
    sinks = EACH * nets;
    at += sprintf(at, "F,%d,%d,%d,1\n%s", node_count, (int)edges, net_count, timed ? "W\n" : "");
    for (int v = 0; v < node_count; v++) {
        at += sprintf(at, "N,%d,%d,1", v, v < net_count ? 0 : v < 2 * net_count ? 1 : 4 + v % 50);
        at += timed ? sprintf(at, ",%d\n", v % (ARVUMNAO_DELAY_MOST + 1)) : sprintf(at, "\n");
    }
    for (int v = 0; v < node_count; v++)
        for (int to = v + 1; to <= v + ROW && to < node_count; to++)
            at += sprintf(at, "E,%d,%d\n", v, to);
    for (int net = 0; net < net_count; net++) {
        at += sprintf(at, "S,%d,%d\n", net, net);
        for (int place = 0; place < EACH; place++) {
            at += sprintf(at, "T,%d,%d", net, net_count + (net + 61 * place) % net_count);
            at += timed ? sprintf(at, ",%d\n", (net + place) % (ARVUMNAO_CRITICALITY_MOST + 1)) : sprintf(at, "\n");
        }
    }
    terms[ARVUMNAO_TERMS_TIMED] = (uint32_t)timed;
    bytes = (size_t)(at - (char *)text);
}

static void call_read(void)
{
    arvumnao_read(text, bytes, kind, NODES, capacity, NODES, first_edge, NODES + 1, edge_target, EDGES,
                  source, NETS, first_sink, NETS + 1, sink, SINKS, delay, NODES, criticality, SINKS, out, ARVUMNAO_OUT);
}

static void call_route(void)
{
    terms[ARVUMNAO_TERMS_LIMIT] = 1;
    arvumnao_route(kind, nodes, capacity, nodes, first_edge, nodes + 1, edge_target, edges, source, nets,
                   first_sink, nets + 1, sink, sinks, delay, nodes, criticality, sinks, terms, ARVUMNAO_TERMS,
                   work, ARVUMNAO_WORK(nodes), log_words, LOG, out, ARVUMNAO_OUT);
}

/* Goes on from the log for a second iteration. */
static void call_resume(void)
{
    terms[ARVUMNAO_TERMS_LIMIT] = 2;
    arvumnao_resume(kind, nodes, capacity, nodes, first_edge, nodes + 1, edge_target, edges, source, nets,
                    first_sink, nets + 1, sink, sinks, delay, nodes, criticality, sinks, terms, ARVUMNAO_TERMS, words,
                    work, ARVUMNAO_WORK(nodes), log_words, LOG, out, ARVUMNAO_OUT);
}

/* Audits the same words. */
static void call_audit(void)
{
    terms[ARVUMNAO_TERMS_LIMIT] = 1;
    arvumnao_audit(kind, nodes, capacity, nodes, first_edge, nodes + 1, edge_target, edges, source, nets,
                   first_sink, nets + 1, sink, sinks, delay, nodes, criticality, sinks, terms, ARVUMNAO_TERMS, words,
                   work, ARVUMNAO_WORK(nodes), log_words, LOG, out, ARVUMNAO_OUT);
}

static void call_route_aimed(void)
{
    terms[ARVUMNAO_TERMS_LIMIT] = 1;
    arvumnao_route_aimed(kind, nodes, capacity, nodes, first_edge, nodes + 1, edge_target, edges, source, nets,
                         first_sink, nets + 1, sink, sinks, delay, nodes, criticality, sinks, terms, ARVUMNAO_TERMS,
                         work, ARVUMNAO_WORK(nodes), log_words, LOG, out, ARVUMNAO_OUT);
}

static void call_resume_aimed(void)
{
    terms[ARVUMNAO_TERMS_LIMIT] = 2;
    arvumnao_resume_aimed(kind, nodes, capacity, nodes, first_edge, nodes + 1, edge_target, edges, source, nets,
                          first_sink, nets + 1, sink, sinks, delay, nodes, criticality, sinks, terms, ARVUMNAO_TERMS, words,
                          work, ARVUMNAO_WORK(nodes), log_words, LOG, out, ARVUMNAO_OUT);
}

static void call_write(void)
{
    arvumnao_write(source, nets, log_words, words, routes, sizeof routes, out, ARVUMNAO_OUT);
}

static void call_dot(void)
{
    arvumnao_dot(source, nets, log_words, words, routes, sizeof routes, out, ARVUMNAO_OUT);
}

static void call_uses_add(void)
{
    arvumnao_uses_add(kind, nodes, capacity, nodes, first_edge, nodes + 1, edge_target, edges, counts, ARVUMNAO_COUNTS, 0,
                      log_words, words, out, ARVUMNAO_OUT);
}

static void call_uses_write(void)
{
    arvumnao_uses_write(kind, nodes, capacity, nodes, first_edge, nodes + 1, edge_target, edges, counts, ARVUMNAO_COUNTS, 1,
                        routes, sizeof routes, out, ARVUMNAO_OUT);
}

static void call_search(void)
{
    arvumnao_search(kind, nodes, capacity, nodes, first_edge, nodes + 1, edge_target, edges, 65535,
                    work, ARVUMNAO_WORK(nodes), history, nodes, others, nodes, in_tree, nodes, out, ARVUMNAO_OUT);
}

static void call_timed_search(void)
{
    arvumnao_timed_search(kind, nodes, capacity, nodes, first_edge, nodes + 1, edge_target, edges, delay, nodes, 65535, 5,
                          work, ARVUMNAO_WORK(nodes), history, nodes, others, nodes, in_tree, nodes, out, ARVUMNAO_OUT);
}

static void call_price(void)
{
    arvumnao_price(53, 65535, 511, 1, 101179, out, ARVUMNAO_OUT);
}

static void call_timed_price(void)
{
    arvumnao_timed_price(53, 65535, 511, 1, 101179, 1000, 5, out, ARVUMNAO_OUT);
}

static void expect(const char *what, int held)
{
    if (held)
        return;
    printf("not so: %s\n", what);
    exit(1);
}

struct run {
    void (*call)(void);
    uintptr_t top;
};

static void *begin(void *at)
{
    struct run *run = at;
    volatile uint8_t local = 0;
    run->top = (uintptr_t)&local;
    run->call();
    return NULL;
}

static void measure(const char *name, void (*call)(void), uint64_t refusal)
{
    uint8_t *stack = aligned_alloc(4096, PAINTED);
    pthread_attr_t attributes;
    pthread_t thread;
    struct run run = { call, 0 };
    size_t unused = 0;
    memset(stack, PAINT, PAINTED);
    pthread_attr_init(&attributes);
    if (pthread_attr_setstack(&attributes, stack, PAINTED) || pthread_create(&thread, &attributes, begin, &run)
        || pthread_join(thread, NULL))
        exit(2);
    while (stack[unused] == PAINT)
        unused++;
    size_t used = (size_t)(run.top - (uintptr_t)(stack + unused));
    printf("%-18s %6zu bytes of stack\n", name, used);
    expect("within ARVUMNAO_STACK", used <= ARVUMNAO_STACK);
    expect("the answer", out[0] == refusal);
    pthread_attr_destroy(&attributes);
    free(stack);
}

/* Every slice but `out` empty, and then `out` too. */
static void empty(void)
{
    arvumnao_search(NULL, 0, NULL, 0, NULL, 0, NULL, 0, 0, NULL, 0, NULL, 0, NULL, 0, NULL, 0, out, ARVUMNAO_OUT);
    expect("search of nothing", out[0] == ARVUMNAO_BAD_TABLE && out[1] == 1);
    arvumnao_timed_search(NULL, 0, NULL, 0, NULL, 0, NULL, 0, NULL, 0, 0, 0, NULL, 0, NULL, 0, NULL, 0, NULL, 0, out, ARVUMNAO_OUT);
    expect("timed search of nothing", out[0] == ARVUMNAO_BAD_TABLE && out[1] == 1);
    arvumnao_route(NULL, 0, NULL, 0, NULL, 0, NULL, 0, NULL, 0, NULL, 0, NULL, 0, NULL, 0, NULL, 0, NULL, 0, NULL, 0,
                   NULL, 0, out, ARVUMNAO_OUT);
    expect("route of nothing", out[0] == ARVUMNAO_BAD_TABLE && out[1] == 1);
    arvumnao_resume(NULL, 0, NULL, 0, NULL, 0, NULL, 0, NULL, 0, NULL, 0, NULL, 0, NULL, 0, NULL, 0, NULL, 0, 0, NULL, 0,
                    NULL, 0, out, ARVUMNAO_OUT);
    expect("resume of nothing", out[0] == ARVUMNAO_BAD_TABLE && out[1] == 1);
    arvumnao_audit(NULL, 0, NULL, 0, NULL, 0, NULL, 0, NULL, 0, NULL, 0, NULL, 0, NULL, 0, NULL, 0, NULL, 0, 0, NULL, 0,
                   NULL, 0, out, ARVUMNAO_OUT);
    expect("audit of nothing", out[0] == ARVUMNAO_BAD_TABLE && out[1] == 1);
    arvumnao_route_aimed(NULL, 0, NULL, 0, NULL, 0, NULL, 0, NULL, 0, NULL, 0, NULL, 0, NULL, 0, NULL, 0, NULL, 0, NULL, 0,
                         NULL, 0, out, ARVUMNAO_OUT);
    expect("aimed route of nothing", out[0] == ARVUMNAO_BAD_TABLE && out[1] == 1);
    arvumnao_resume_aimed(NULL, 0, NULL, 0, NULL, 0, NULL, 0, NULL, 0, NULL, 0, NULL, 0, NULL, 0, NULL, 0, NULL, 0, 0, NULL, 0,
                          NULL, 0, out, ARVUMNAO_OUT);
    expect("aimed resume of nothing", out[0] == ARVUMNAO_BAD_TABLE && out[1] == 1);
    arvumnao_read(NULL, 0, NULL, 0, NULL, 0, NULL, 0, NULL, 0, NULL, 0, NULL, 0, NULL, 0, NULL, 0, NULL, 0, out, ARVUMNAO_OUT);
    expect("read of nothing", out[0] == ARVUMNAO_BAD_SHAPE && out[1] == 1);
    arvumnao_read(text, bytes, NULL, 0, NULL, 0, NULL, 0, NULL, 0, NULL, 0, NULL, 0, NULL, 0, NULL, 0, NULL, 0, out, ARVUMNAO_OUT);
    expect("read into nothing", out[0] == ARVUMNAO_SHORT_TABLE && out[1] == 1);
    arvumnao_write(NULL, 0, NULL, 0, NULL, 0, out, ARVUMNAO_OUT);
    expect("write of nothing", out[0] == ARVUMNAO_BAD_TABLE && out[1] == 5);
    arvumnao_write(source, 1, NULL, 0, NULL, 0, out, ARVUMNAO_OUT);
    expect("write of an empty log", out[0] == ARVUMNAO_BAD_RECORD && out[1] == 0);
    arvumnao_uses_add(NULL, 0, NULL, 0, NULL, 0, NULL, 0, counts, ARVUMNAO_COUNTS, 0, NULL, 0, out, ARVUMNAO_OUT);
    expect("uses of nothing", out[0] == ARVUMNAO_BAD_TABLE && out[1] == 1);
    expect("uses without counts", arvumnao_uses_add(NULL, 0, NULL, 0, NULL, 0, NULL, 0, NULL, 0, 0, NULL, 0, out, ARVUMNAO_OUT) == 0
           && arvumnao_uses_write(NULL, 0, NULL, 0, NULL, 0, NULL, 0, NULL, 0, 0, NULL, 0, out, ARVUMNAO_OUT) == 0);
    expect("price without out", arvumnao_price(0, 0, 0, 1, 1, NULL, 0) == 0);
    expect("timed price without out", arvumnao_timed_price(0, 0, 0, 1, 1, 0, 0, NULL, 0) == 0);
    expect("write without out", arvumnao_write(NULL, 0, NULL, 0, NULL, 0, NULL, 0) == 0);
}

/* The calls on the job of the text. */
static void measure_all(int timed)
{
    measure(timed ? "timed read" : "read", call_read, 0);
    /* in one iteration, nets that meet on the last sources don't settle */
    measure(timed ? "timed route" : "route", call_route, ARVUMNAO_LIMIT_REACHED);
    words = (size_t)out[ARVUMNAO_ROUTE_WORDS];
    uint64_t turns = out[ARVUMNAO_ROUTE_TURNS];
    measure(timed ? "timed audit" : "audit", call_audit, 0);
    expect("turns audited", out[ARVUMNAO_AUDIT_TURNS] == turns && out[ARVUMNAO_AUDIT_WHOLE] == 1 && out[ARVUMNAO_AUDIT_OVER] > 0);
    measure(timed ? "timed resume" : "resume", call_resume, ARVUMNAO_LIMIT_REACHED);
    uint64_t both = out[ARVUMNAO_RESUME_TURNS];
    expect("turns of both runs", both > turns);
    measure(timed ? "timed route_aimed" : "route_aimed", call_route_aimed, ARVUMNAO_LIMIT_REACHED);
    expect("turns of either search", out[ARVUMNAO_ROUTE_TURNS] == turns && out[ARVUMNAO_ROUTE_WORDS] == words);
    expect("a turn expands two nodes at least", out[ARVUMNAO_ROUTE_EXPANDED] >= 2 * turns);
    measure(timed ? "timed resume_aimed" : "resume_aimed", call_resume_aimed, ARVUMNAO_LIMIT_REACHED);
    expect("turns of both runs by either search", out[ARVUMNAO_RESUME_TURNS] == both);
}

int main(void)
{
    make_text(0);
    empty();
    for (int v = 0; v < NODES; v++)
        history[v] = 101179, others[v] = 511, in_tree[v] = v == 0;
    measure_all(0);
    measure("write", call_write, 0);
    measure("dot", call_dot, 0);
    measure("uses_add", call_uses_add, 0);
    measure("uses_write", call_uses_write, 0);
    expect("text within ARVUMNAO_USES_BYTES", out[ARVUMNAO_USES_WRITE_BYTES] <= ARVUMNAO_USES_BYTES);
    measure("search", call_search, 0);
    measure("price", call_price, 0);
    make_text(1);
    measure_all(1);
    for (int v = 0; v < TIMED_NODES; v++)
        history[v] = 39859;
    measure("timed search", call_timed_search, 0);
    measure("timed price", call_timed_price, 0);
    return 0;
}
