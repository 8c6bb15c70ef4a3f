/* Calls every function of include/arvumnao.h with answers that are known: worked out by hand, or of the specification's job B.
 * No two arguments of one type are alike, so that any two of them swapped give another answer. Compiled as C and as C++.
 */
#include "arvumnao.h"

#include <stdio.h>
#include <string.h>

#define COUNT(array) (sizeof(array) / sizeof((array)[0]))
#define EXPECT(held) expect((held) ? 1 : 0, #held, __LINE__)

/* One entry more than a call fills. */
enum { OUT = 17 };

/* What stands in every lent entry that a call must leave alone. */
#define OLD 77

static uint64_t out[OUT];
static int faults;

static void expect(int held, const char *what, int line)
{
    if (held)
        return;
    printf("calls.c:%d: not so: %s\n", line, what);
    faults++;
}

static void lend_out(void)
{
    size_t place;
    for (place = 0; place < OUT; place++)
        out[place] = OLD;
}

/* The refusal with its numbers, the call's own numbers, as many as are given, and 0 in the rest of the 16 entries. */
static int told(uint64_t refusal, uint64_t first, uint64_t second, const uint64_t *own, size_t count)
{
    uint64_t expected[OUT];
    memset(expected, 0, sizeof expected);
    expected[0] = refusal;
    expected[1] = first;
    expected[2] = second;
    memcpy(expected + 3, own, count * sizeof own[0]);
    expected[16] = OLD;
    return memcmp(out, expected, sizeof expected) == 0;
}

static int refused(uint64_t refusal, uint64_t first, uint64_t second)
{
    return told(refusal, first, second, out, 0);
}

static void price(void)
{
    /* 11 x 40 x (100 + 7 x (9 + 1 - 3)), and document 003's largest */
    const uint64_t usual = 65560, largest = 3388331423815000u;
    lend_out();
    EXPECT(arvumnao_price(5, 7, 9, 3, 11, out, OUT) == 1);
    EXPECT(told(0, 0, 0, &usual, 1));
    EXPECT(arvumnao_price(53, 65535, 511, 1, 101179, out, OUT) == 1);
    EXPECT(told(0, 0, 0, &largest, 1));
    arvumnao_price(54, 65535, 511, 1, 101179, out, OUT);
    EXPECT(refused(13, 0, 0));
    arvumnao_price(53, 65536, 511, 1, 101179, out, OUT);
    EXPECT(refused(13, 1, 0));
    arvumnao_price(53, 65535, 512, 1, 101179, out, OUT);
    EXPECT(refused(13, 2, 0));
    arvumnao_price(53, 65535, 511, 256, 101179, out, OUT);
    EXPECT(refused(13, 3, 0));
    arvumnao_price(53, 65535, 511, 1, 101180, out, OUT);
    EXPECT(refused(13, 4, 0));
    lend_out();
    EXPECT(arvumnao_price(5, 7, 9, 3, 11, out, 15) == 0);
    EXPECT(out[0] == OLD && out[14] == OLD);
}

static void timed_price(void)
{
    /* 8 x 13 x 100 + 2 x the usual price above; 10 x the largest; 9 x 1,000 x 100 + the largest */
    const uint64_t usual = 141520, uncritical = 33883314238150000u, critical = 3388331424715000u;
    lend_out();
    EXPECT(arvumnao_timed_price(5, 7, 9, 3, 11, 13, 8, out, OUT) == 1);
    EXPECT(told(0, 0, 0, &usual, 1));
    EXPECT(arvumnao_timed_price(53, 65535, 511, 1, 101179, 1000, 0, out, OUT) == 1);
    EXPECT(told(0, 0, 0, &uncritical, 1));
    EXPECT(arvumnao_timed_price(53, 65535, 511, 1, 101179, ARVUMNAO_DELAY_MOST, ARVUMNAO_CRITICALITY_MOST, out, OUT) == 1);
    EXPECT(told(0, 0, 0, &critical, 1));
    arvumnao_timed_price(54, 65535, 511, 1, 101179, 1000, 9, out, OUT);
    EXPECT(refused(13, 0, 0));
    arvumnao_timed_price(53, 65536, 511, 1, 101179, 1000, 9, out, OUT);
    EXPECT(refused(13, 1, 0));
    arvumnao_timed_price(53, 65535, 512, 1, 101179, 1000, 9, out, OUT);
    EXPECT(refused(13, 2, 0));
    arvumnao_timed_price(53, 65535, 511, 0, 101179, 1000, 9, out, OUT);
    EXPECT(refused(13, 3, 0));
    arvumnao_timed_price(53, 65535, 511, 1, 101180, 1001, 10, out, OUT);
    EXPECT(refused(13, 4, 0));
    arvumnao_timed_price(53, 65535, 511, 1, 101179, 1001, 10, out, OUT);
    EXPECT(refused(13, 5, 0));
    arvumnao_timed_price(53, 65535, 511, 1, 101179, 1000, 10, out, OUT);
    EXPECT(refused(13, 6, 0));
    lend_out();
    EXPECT(arvumnao_timed_price(5, 7, 9, 3, 11, 13, 8, out, 15) == 0);
    EXPECT(out[0] == OLD && out[14] == OLD);
}

/* Node 0 is the tree; 1 costs 3 x 20 x (100 + 10 x 3), 2 costs 2 x 40 x 100, 3 costs 5 x 20 x (100 + 10 x 5); no edge leads to 4. */
static void search(void)
{
    const uint8_t kind[] = { 0, 4, 5, 1, 6 };
    const uint8_t capacity[] = { 1, 2, 1, 3, 9 };
    const uint32_t first_edge[] = { 0, 2, 3, 4, 4, 4 };
    const uint16_t edge_target[] = { 1, 2, 3, 3 };
    const uint32_t history[] = { 1, 3, 2, 5, 8, 0 };
    const uint16_t others[] = { 6, 4, 0, 7, 2, 999, 999 };
    const uint8_t in_tree[] = { 1, 0, 0, 0, 0, 5, 5, 5 };
    uint64_t work[41];
    uint64_t expected[41] = { 0, 7800, 8000, 22800, UINT64_MAX };
    work[40] = expected[40] = OLD;
    lend_out();
    EXPECT(arvumnao_search(kind, COUNT(kind), capacity, COUNT(capacity), first_edge, COUNT(first_edge),
                           edge_target, COUNT(edge_target), 10, work, COUNT(work), history, COUNT(history),
                           others, COUNT(others), in_tree, COUNT(in_tree), out, OUT) == 1);
    EXPECT(refused(0, 0, 0));
    EXPECT(memcmp(work, expected, sizeof work) == 0);
    arvumnao_search(kind, 5, capacity, 5, first_edge, 6, edge_target, 4, 10, work, 39, history, 6, others, 7,
                    in_tree, 8, out, OUT);
    EXPECT(refused(6, 40, 0));
    arvumnao_search(kind, 5, capacity, 5, first_edge, 6, edge_target, 4, 10, work, 41, history, 4, others, 7,
                    in_tree, 8, out, OUT);
    EXPECT(refused(13, 4, 0));
    arvumnao_search(kind, 5, capacity, 5, first_edge, 6, edge_target, 4, 10, work, 41, history, 6, others, 3,
                    in_tree, 8, out, OUT);
    EXPECT(refused(13, 3, 0));
    arvumnao_search(kind, 5, capacity, 5, first_edge, 6, edge_target, 4, 10, work, 41, history, 6, others, 7,
                    in_tree, 2, out, OUT);
    EXPECT(refused(13, 2, 0));
    arvumnao_search(kind, 0, capacity, 5, first_edge, 6, edge_target, 4, 10, work, 41, history, 6, others, 7,
                    in_tree, 8, out, OUT);
    EXPECT(refused(5, 1, 0));
    EXPECT(memcmp(work, expected, sizeof work) == 0);
}

/* The same block for a sink of criticality 7: 1 costs 7 x 50 x 100 + 3 x 7,800, 2 costs 7 x 8 x 100 + 3 x 8,000, 3 costs
 * 7 x 20 x 100 + 3 x 15,000, and is nearer by 2, where the search above has it by 1. */
static uint64_t timed_work[41];

static uint32_t timed_search_in(size_t kinds, const uint16_t *delay, size_t delays, uint32_t factor, uint32_t criticality,
                                uint32_t third_history, size_t entries)
{
    const uint8_t kind[] = { 0, 4, 5, 1, 6 };
    const uint8_t capacity[] = { 1, 2, 1, 3, 9 };
    const uint32_t first_edge[] = { 0, 2, 3, 4, 4, 4 };
    const uint16_t edge_target[] = { 1, 2, 3, 3 };
    const uint32_t history[] = { 1, 3, 2, third_history, 39859, 0 };
    const uint16_t others[] = { 6, 4, 0, 7, 2, 999, 999 };
    const uint8_t in_tree[] = { 1, 0, 0, 0, 0, 5, 5, 5 };
    return arvumnao_timed_search(kind, kinds, capacity, COUNT(capacity), first_edge, COUNT(first_edge), edge_target,
                                 COUNT(edge_target), delay, delays, factor, criticality, timed_work, entries, history,
                                 COUNT(history), others, COUNT(others), in_tree, COUNT(in_tree), out, OUT);
}

static void timed_search(void)
{
    const uint16_t delay[] = { 9, 50, 8, 20, 1000, 30 }, slow[] = { 9, 50, 8, 1001, 1000 };
    uint64_t expected[41] = { 0, 58400, 29600, 88600, UINT64_MAX };
    timed_work[40] = expected[40] = OLD;
    lend_out();
    EXPECT(timed_search_in(5, delay, 5, 10, 7, 5, 41) == 1 && refused(0, 0, 0));
    EXPECT(memcmp(timed_work, expected, sizeof expected) == 0);
    EXPECT(timed_search_in(0, delay, 5, 10, 7, 5, 41) == 1 && refused(5, 1, 0));
    EXPECT(timed_search_in(5, delay, 4, 10, 7, 5, 41) == 1 && refused(5, 9, 0));
    EXPECT(timed_search_in(5, delay, 6, 10, 7, 5, 41) == 1 && refused(5, 9, 0));
    EXPECT(timed_search_in(5, slow, 5, 10, 7, 5, 41) == 1 && refused(5, 9, 0));
    EXPECT(timed_search_in(5, delay, 5, 65536, 10, 0, 39) == 1 && refused(6, 40, 0));
    EXPECT(timed_search_in(5, delay, 5, 65536, 10, 39860, 41) == 1 && refused(13, 3, 0));
    EXPECT(timed_search_in(5, delay, 5, 65536, 10, 39859, 41) == 1 && refused(13, 5, 0));
    EXPECT(timed_search_in(5, delay, 5, 65535, 10, 39859, 41) == 1 && refused(13, 6, 0));
    EXPECT(memcmp(timed_work, expected, sizeof expected) == 0);
}

/* A block without edges that has a node more than a timed job's may: 15, after 5 and before 6 and 13, tells the nodes, and no limit
 * in a search. Without that node it is 6. */
enum { MANY = ARVUMNAO_TIMED_NODES_MOST + 1 };

static void too_many_nodes(void)
{
    static uint8_t kind[MANY], capacity[MANY];
    static uint32_t first_edge[MANY + 1];
    static uint16_t delay[MANY];
    const uint16_t source[] = { 0 }, sink[] = { 1 };
    const uint32_t first_sink[] = { 0, 1 }, terms[] = { 40, ARVUMNAO_PLAIN_TUNING, 1, 1, 1 };
    const uint8_t criticality[] = { 0 };
    kind[1] = 1;
    memset(capacity, 1, sizeof capacity);
    lend_out();
    EXPECT(arvumnao_timed_search(kind, MANY, capacity, MANY, first_edge, MANY + 1, NULL, 0, delay, MANY, 65536, 10, NULL, 0,
                                 NULL, 0, NULL, 0, NULL, 0, out, OUT) == 1 && refused(ARVUMNAO_TOO_LARGE, 1025, 0));
    EXPECT(arvumnao_timed_search(kind, MANY, capacity, MANY, first_edge, MANY + 1, NULL, 0, delay, 1024, 65536, 10, NULL, 0,
                                 NULL, 0, NULL, 0, NULL, 0, out, OUT) == 1 && refused(5, 9, 0));
    EXPECT(arvumnao_timed_search(kind, 1024, capacity, 1024, first_edge, 1025, NULL, 0, delay, 1024, 65536, 10, NULL, 0,
                                 NULL, 0, NULL, 0, NULL, 0, out, OUT) == 1 && refused(6, 8192, 0));
    EXPECT(arvumnao_route(kind, MANY, capacity, MANY, first_edge, MANY + 1, NULL, 0, source, 1, first_sink, 2, sink, 1, delay, MANY,
                          criticality, 1, terms, 8, NULL, 0, NULL, 0, out, OUT) == 1 && refused(15, 1025, 40));
    EXPECT(arvumnao_resume(kind, MANY, capacity, MANY, first_edge, MANY + 1, NULL, 0, source, 1, first_sink, 2, sink, 1, delay, MANY,
                           criticality, 1, terms, 8, 0, NULL, 0, NULL, 0, out, OUT) == 1 && refused(15, 1025, 40));
    EXPECT(arvumnao_audit(kind, MANY, capacity, MANY, first_edge, MANY + 1, NULL, 0, source, 1, first_sink, 2, sink, 1, delay, MANY,
                          criticality, 1, terms, 8, 0, NULL, 0, NULL, 0, out, OUT) == 1 && refused(15, 1025, 40));
    EXPECT(arvumnao_route_aimed(kind, MANY, capacity, MANY, first_edge, MANY + 1, NULL, 0, source, 1, first_sink, 2, sink, 1, delay,
                                MANY, criticality, 1, terms, 8, NULL, 0, NULL, 0, out, OUT) == 1 && refused(15, 1025, 40));
    EXPECT(arvumnao_resume_aimed(kind, MANY, capacity, MANY, first_edge, MANY + 1, NULL, 0, source, 1, first_sink, 2, sink, 1, delay,
                                 MANY, criticality, 1, terms, 8, 0, NULL, 0, NULL, 0, out, OUT) == 1 && refused(15, 1025, 40));
    EXPECT(arvumnao_route(kind, 1024, capacity, 1024, first_edge, 1025, NULL, 0, source, 1, first_sink, 2, sink, 1, delay, 1024,
                          criticality, 1, terms, 8, NULL, 0, NULL, 0, out, OUT) == 1 && refused(6, 8192, 0));
    /* of a job that isn't timed neither is measured */
    EXPECT(arvumnao_route(kind, MANY, capacity, MANY, first_edge, MANY + 1, NULL, 0, source, 1, first_sink, 2, sink, 1, NULL, 0,
                          NULL, 0, terms, 7, NULL, 0, NULL, 0, out, OUT) == 1 && refused(6, 8200, 0));
}

/* Two nets that share wire 2 and never settle. It costs history x 20 x (100 + factor), with histories 1, 3, 5, 7 by a step of 2 and
 * factors 0, 100, 233, 543 by 7 / 3; the sinks cost 2,000 and 1,900. Their log, and a word past it. */
static const uint8_t kind_shared[] = { 0, 2, 4, 1, 3 }, capacity_shared[] = { 2, 1, 1, 3, 1 };
static const uint32_t first_edge_shared[] = { 0, 1, 2, 4, 4, 4 }, two_nets[] = { 0, 1, 2 };
static const uint16_t edge_target_shared[] = { 2, 2, 3, 4 }, two_sources[] = { 0, 1 }, sink_shared[] = { 3, 4 };
static const uint32_t limit_4[] = { 4, 100, 7, 3, 2, 1, 9 }, limit_2[] = { 2, 100, 7, 3, 2 };
static const uint32_t log_shared[73] = {
    1, 0, 3, 4000,  0, 3, 0, 2, 3, 1, 1, 4, 3900,  0, 3, 1, 2, 4,
    2, 0, 3, 14000, 0, 3, 0, 2, 3, 2, 1, 4, 13900, 0, 3, 1, 2, 4,
    3, 0, 3, 35300, 0, 3, 0, 2, 3, 3, 1, 4, 35200, 0, 3, 1, 2, 4,
    4, 0, 3, 92020, 0, 3, 0, 2, 3, 4, 1, 4, 91920, 0, 3, 1, 2, 4, OLD,
};
static const uint64_t cleared[40] = { 0 };

/* The words of its first two iterations. */
enum { LENT = 36 };

/* One net alone takes both sinks and settles, and so do two of one source: their log. */
static const uint16_t one_source[] = { 0, 0 };
static const uint32_t one_net[] = { 0, 2 };
static const uint32_t log_joined[] = { 1, 0, 4, 3900, 0, 3, 0, 2, 4, 1, 0, 3, 2000, 0, 2, 2, 3 };

static uint32_t route_in(size_t kinds, const uint16_t *source, size_t nets, const uint32_t *first_sink, size_t count, uint64_t *work,
                         size_t entries, uint32_t *log, size_t words)
{
    return arvumnao_route(kind_shared, kinds, capacity_shared, 5, first_edge_shared, 6, edge_target_shared, 4, source, nets, first_sink,
                          nets + 1, sink_shared, 2, NULL, 0, NULL, 0, limit_4, count, work, entries, log, words, out, OUT);
}

static void route(void)
{
    const uint64_t ended[] = { 4, 8, 72 }, begun[] = { 1, 0, 0 }, settled[] = { 1, 2, 17 };
    uint64_t work[41];
    uint32_t log[73];
    memset(work, 9, sizeof work);
    work[40] = OLD;
    log[72] = OLD;
    lend_out();
    EXPECT(route_in(5, two_sources, 2, two_nets, 7, work, 41, log, 73) == 1 && told(9, 4, 1, ended, 3));
    EXPECT(memcmp(log, log_shared, sizeof log) == 0);
    EXPECT(memcmp(work, cleared, sizeof cleared) == 0 && work[40] == OLD);
    EXPECT(route_in(5, two_sources, 2, two_nets, 6, work, 39, log, 73) == 1 && refused(6, 40, 0));
    EXPECT(route_in(5, two_sources, 2, two_nets, 6, work, 41, log, 8) == 1 && told(8, 1, 0, begun, 3));
    EXPECT(route_in(0, two_sources, 2, two_nets, 6, work, 41, log, 73) == 1 && refused(5, 1, 0));
    EXPECT(route_in(5, two_sources, 1, one_net, 6, work, 41, log, 73) == 1 && told(0, 0, 0, settled, 3));
    EXPECT(memcmp(log, log_joined, sizeof log_joined) == 0);
    memset(log, 9, sizeof log);
    EXPECT(route_in(5, one_source, 2, two_nets, 6, work, 41, log, 73) == 1 && told(0, 0, 0, settled, 3));
    EXPECT(memcmp(log, log_joined, sizeof log_joined) == 0);
}

/* The same two nets, gone on from after two of their four iterations, in a log of this length with so many words used. */
static uint32_t resume_in(const uint16_t *source, size_t nets, const uint32_t *terms, size_t count, uint64_t used, uint64_t *work,
                          size_t entries, uint32_t *log, size_t words)
{
    return arvumnao_resume(kind_shared, 5, capacity_shared, 5, first_edge_shared, 6, edge_target_shared, 4, source, nets,
                           two_nets, 3, sink_shared, 2, NULL, 0, NULL, 0, terms, count, used, work, entries, log, words,
                           out, OUT);
}

/* It ends as the straight run. Under a limit of 2 the log has no iteration below it, a word less cuts its last record, and a cost
 * that is off is the third record's. */
static void resume(void)
{
    const uint64_t ended[] = { 4, 8, 72 }, full[] = { 3, 5, 45 };
    uint64_t work[41];
    uint32_t log[73], before[73];
    memset(work, 9, sizeof work);
    memset(log, 9, sizeof log);
    memcpy(log, log_shared, LENT * sizeof log[0]);
    work[40] = log[72] = OLD;
    memcpy(before, log, sizeof log);
    lend_out();
    EXPECT(resume_in(two_sources, 2, limit_4, 7, 73 * UINT64_C(4294967296), work, 41, log, 73) == 1 && refused(ARVUMNAO_DIVERGES, 73, 0));
    EXPECT(memcmp(work, cleared, sizeof cleared) == 0 && work[40] == OLD);
    EXPECT(resume_in(two_sources, 2, limit_4, 7, 0, work, 41, log, 73) == 1 && refused(14, 0, 0));
    EXPECT(resume_in(two_sources, 2, limit_2, 5, LENT, work, 41, log, 73) == 1 && refused(14, 36, 0));
    EXPECT(resume_in(two_sources, 2, limit_4, 7, 35, work, 41, log, 73) == 1 && refused(14, 27, 0));
    EXPECT(resume_in(two_sources, 2, limit_4, 7, LENT, work, 39, log, 73) == 1 && refused(6, 40, 0));
    EXPECT(resume_in(two_sources, 1, limit_4, 7, LENT, work, 41, log, 73) == 1 && refused(5, 6, 0));
    EXPECT(resume_in(two_sources, 2, limit_4, 0, LENT, work, 41, log, 73) == 1 && refused(5, 8, 0));
    log[21] = before[21] = 14001;
    EXPECT(resume_in(two_sources, 2, limit_4, 7, LENT, work, 41, log, 73) == 1 && refused(14, 18, 0));
    EXPECT(memcmp(log, before, sizeof log) == 0);
    log[21] = 14000;
    EXPECT(resume_in(two_sources, 2, limit_4, 7, LENT, work, 41, log, 53) == 1 && told(8, 3, 5, full, 3));
    EXPECT(resume_in(two_sources, 2, limit_4, 7, LENT, work, 41, log, 73) == 1 && told(9, 4, 1, ended, 3));
    EXPECT(memcmp(log, log_shared, sizeof log) == 0);
    EXPECT(memcmp(work, cleared, sizeof cleared) == 0 && work[40] == OLD);
}

/* The same two nets' log, audited. */
static uint32_t audit_in(const uint32_t *terms, size_t count, uint64_t used, uint64_t *work, size_t entries, const uint32_t *log,
                         size_t words, size_t outs)
{
    return arvumnao_audit(kind_shared, 5, capacity_shared, 5, first_edge_shared, 6, edge_target_shared, 4, two_sources, 2, two_nets, 3,
                          sink_shared, 2, NULL, 0, NULL, 0, terms, count, used, work, entries, log, words, out, outs);
}

/* One net with a short and a long wire to its sink: the long one is no cheapest way. */
static void audit_finding(void)
{
    static const uint8_t kind[] = { 0, 4, 5, 1 }, capacity[] = { 1, 1, 1, 1 };
    static const uint32_t first_edge[] = { 0, 2, 3, 4, 4 }, first_sink[] = { 0, 1 }, limit[] = { 1 };
    static const uint16_t edge_target[] = { 1, 2, 3, 3 }, source[] = { 0 }, sink[] = { 3 };
    static const uint32_t cheap[] = { 1, 0, 3, 4000, 0, 3, 0, 1, 3 }, dear[] = { 1, 0, 3, 6000, 0, 3, 0, 2, 3 };
    const uint64_t sound[] = { 1, 1, 0, 0 }, found[] = { 0, 0, 0, 4000 };
    uint64_t work[32];
    memset(work, 9, sizeof work);
    lend_out();
    EXPECT(arvumnao_audit(kind, 4, capacity, 4, first_edge, 5, edge_target, 4, source, 1, first_sink, 2, sink, 1, NULL, 0, NULL, 0,
                          limit, 1, 9, work, 32, dear, 9, out, OUT) == 1 && told(ARVUMNAO_NOT_CHEAPEST, 0, 6000, found, 4));
    EXPECT(memcmp(work, cleared, sizeof work) == 0);
    EXPECT(arvumnao_audit(kind, 4, capacity, 4, first_edge, 5, edge_target, 4, source, 1, first_sink, 2, sink, 1, NULL, 0, NULL, 0,
                          limit, 1, 9, work, 32, cheap, 9, out, OUT) == 1 && told(0, 0, 0, sound, 4));
}

/* A run's own log is sound, and may end behind any record: after the third one iteration is whole. */
static void audit(void)
{
    const uint64_t ended[] = { 8, 4, 1, 0 }, third[] = { 3, 1, 1, 0 }, none[] = { 0, 0, 0, 0 };
    uint64_t work[41];
    uint32_t log[73];
    memset(work, 9, sizeof work);
    memcpy(log, log_shared, sizeof log);
    work[40] = log[72] = OLD;
    lend_out();
    EXPECT(audit_in(limit_4, 7, 72, work, 41, log, 73, 15) == 0);
    EXPECT(out[0] == OLD && out[14] == OLD && work[0] != 0);
    EXPECT(audit_in(limit_4, 7, 72, work, 41, log, 73, OUT) == 1 && told(0, 0, 0, ended, 4));
    EXPECT(memcmp(work, cleared, sizeof cleared) == 0 && work[40] == OLD);
    EXPECT(audit_in(limit_4, 7, 27, work, 41, log, 73, OUT) == 1 && told(0, 0, 0, third, 4));
    EXPECT(audit_in(limit_4, 7, 0, work, 41, log, 73, OUT) == 1 && told(0, 0, 0, none, 4));
    EXPECT(audit_in(limit_4, 7, 74, work, 41, log, 73, OUT) == 1 && refused(ARVUMNAO_DIVERGES, 73, 0));
    EXPECT(audit_in(limit_4, 7, 35, work, 41, log, 73, OUT) == 1 && refused(14, 27, 0));
    EXPECT(audit_in(limit_2, 5, 72, work, 41, log, 73, OUT) == 1 && refused(14, 36, 0));
    EXPECT(audit_in(limit_4, 7, 72, work, 39, log, 73, OUT) == 1 && refused(6, 40, 0));
    EXPECT(audit_in(limit_4, 0, 72, work, 41, log, 73, OUT) == 1 && refused(5, 8, 0));
    log[21]++;
    EXPECT(audit_in(limit_4, 7, 72, work, 41, log, 73, OUT) == 1 && refused(14, 18, 0));
    log[21]--;
    log[72] = log_shared[72];
    EXPECT(memcmp(log, log_shared, sizeof log) == 0);
    audit_finding();
}

/* The same two nets and the same sinks by the search that aims: outcome, log and work memory are the plain search's. */
static uint32_t route_aimed_in(const uint16_t *source, size_t nets, const uint32_t *first_sink, const uint32_t *terms, size_t count,
                               uint64_t *work, size_t entries, uint32_t *log, size_t words, size_t outs)
{
    return arvumnao_route_aimed(kind_shared, 5, capacity_shared, 5, first_edge_shared, 6, edge_target_shared, 4, source, nets,
                                first_sink, nets + 1, sink_shared, 2, NULL, 0, NULL, 0, terms, count, work, entries, log, words,
                                out, outs);
}

/* Each of the two nets' turns expands the three nodes of its path: from the other net's sink no path leads to its own. One net alone
 * expands three nodes for the nearer sink, which is 3,900 away where the other is 4,000, and then the wire and the other sink: from
 * the source it is 4,000 away, and 2,000 from the wire. */
static void route_aimed(void)
{
    const uint64_t ended[] = { 4, 8, 72, 24 }, full[] = { 1, 1, 9, 3 }, begun[] = { 1, 0, 0, 0 }, settled[] = { 1, 2, 17, 5 };
    uint64_t work[41];
    uint32_t log[73];
    memset(work, 9, sizeof work);
    work[40] = OLD;
    log[0] = log[72] = OLD;
    lend_out();
    EXPECT(route_aimed_in(two_sources, 2, two_nets, limit_4, 7, work, 41, log, 73, 15) == 0);
    EXPECT(out[0] == OLD && out[14] == OLD && log[0] == OLD && work[0] != 0);
    EXPECT(route_aimed_in(two_sources, 2, two_nets, limit_4, 7, work, 41, log, 73, OUT) == 1 && told(9, 4, 1, ended, 4));
    EXPECT(memcmp(log, log_shared, sizeof log) == 0);
    EXPECT(memcmp(work, cleared, sizeof cleared) == 0 && work[40] == OLD);
    EXPECT(route_aimed_in(two_sources, 2, two_nets, limit_4, 6, work, 39, log, 73, OUT) == 1 && refused(6, 40, 0));
    EXPECT(route_aimed_in(two_sources, 2, two_nets, limit_4, 0, work, 41, log, 73, OUT) == 1 && refused(5, 8, 0));
    EXPECT(route_aimed_in(two_sources, 2, two_nets, limit_4, 6, work, 41, log, 8, OUT) == 1 && told(8, 1, 0, begun, 4));
    EXPECT(route_aimed_in(two_sources, 2, two_nets, limit_4, 6, work, 41, log, 17, OUT) == 1 && told(8, 1, 1, full, 4));
    EXPECT(route_aimed_in(two_sources, 1, one_net, limit_4, 6, work, 41, log, 73, OUT) == 1 && told(0, 0, 0, settled, 4));
    EXPECT(memcmp(log, log_joined, sizeof log_joined) == 0);
    memset(log, 9, sizeof log);
    EXPECT(route_aimed_in(one_source, 2, two_nets, limit_4, 6, work, 41, log, 73, OUT) == 1 && told(0, 0, 0, settled, 4));
    EXPECT(memcmp(log, log_joined, sizeof log_joined) == 0);
}

static uint32_t resume_aimed_in(const uint16_t *source, size_t nets, const uint32_t *terms, size_t count, uint64_t used, uint64_t *work,
                                size_t entries, uint32_t *log, size_t words, size_t outs)
{
    return arvumnao_resume_aimed(kind_shared, 5, capacity_shared, 5, first_edge_shared, 6, edge_target_shared, 4, source, nets,
                                 two_nets, 3, sink_shared, 2, NULL, 0, NULL, 0, terms, count, used, work, entries, log, words,
                                 out, outs);
}

/* Four turns are appended to the four lent ones, and expand three nodes each; one where only one more fits; none after a refusal. */
static void resume_aimed(void)
{
    const uint64_t ended[] = { 4, 8, 72, 12 }, full[] = { 3, 5, 45, 3 };
    uint64_t work[41];
    uint32_t log[73];
    memset(work, 9, sizeof work);
    memset(log, 9, sizeof log);
    memcpy(log, log_shared, LENT * sizeof log[0]);
    work[40] = log[72] = OLD;
    lend_out();
    EXPECT(resume_aimed_in(two_sources, 2, limit_4, 7, LENT, work, 41, log, 73, 15) == 0);
    EXPECT(out[0] == OLD && out[14] == OLD && log[36] != 3 && work[0] != 0);
    EXPECT(resume_aimed_in(two_sources, 2, limit_4, 7, 73 * UINT64_C(4294967296), work, 41, log, 73, OUT) == 1 && refused(14, 73, 0));
    EXPECT(resume_aimed_in(two_sources, 2, limit_2, 5, LENT, work, 41, log, 73, OUT) == 1 && refused(14, 36, 0));
    EXPECT(resume_aimed_in(two_sources, 2, limit_4, 7, 35, work, 41, log, 73, OUT) == 1 && refused(14, 27, 0));
    EXPECT(resume_aimed_in(two_sources, 2, limit_4, 7, LENT, work, 39, log, 73, OUT) == 1 && refused(6, 40, 0));
    EXPECT(resume_aimed_in(two_sources, 1, limit_4, 7, LENT, work, 41, log, 73, OUT) == 1 && refused(5, 6, 0));
    EXPECT(resume_aimed_in(two_sources, 2, limit_4, 7, LENT, work, 41, log, 53, OUT) == 1 && told(8, 3, 5, full, 4));
    EXPECT(resume_aimed_in(two_sources, 2, limit_4, 7, LENT, work, 41, log, 73, OUT) == 1 && told(9, 4, 1, ended, 4));
    EXPECT(memcmp(log, log_shared, sizeof log) == 0);
    EXPECT(memcmp(work, cleared, sizeof cleared) == 0 && work[40] == OLD);
}

/* Nets 0 and 1 meet on wire 3, and net 0 gives way to wire 4 in iteration 2; net 2 has wire 5 for itself. With rule 1 it is routed again,
 * with rule 2 not, unless that holds only after iteration 2. A slice without the rule means rule 1, one with the limit alone the plain
 * tuning too, and an empty one no limit; without a factor in iteration 2 net 0 stays. */
static void terms(void)
{
    const uint8_t kind[] = { 0, 0, 0, 4, 5, 4, 1, 1, 1 };
    const uint8_t capacity[] = { 1, 1, 1, 1, 1, 1, 1, 1, 1 };
    const uint32_t first_edge[] = { 0, 2, 3, 4, 6, 7, 8, 8, 8, 8 };
    const uint16_t edge_target[] = { 3, 4, 3, 5, 6, 7, 6, 8 };
    const uint16_t source[] = { 0, 1, 2 }, sink[] = { 6, 7, 8 };
    const uint32_t first_sink[] = { 0, 1, 2, 3 };
    const uint32_t crowded[] = { 2, ARVUMNAO_PLAIN_TUNING, ARVUMNAO_RULE_CROWDED, 1, 0, 100 };
    const uint32_t later[] = { 2, ARVUMNAO_PLAIN_TUNING, ARVUMNAO_RULE_CROWDED, 2 };
    const uint32_t no_factor[] = { 2, 0 }, bad[] = { 2, ARVUMNAO_PLAIN_TUNING, 3 }, bad_until[] = { 2, ARVUMNAO_PLAIN_TUNING, 1, 100 };
    const uint64_t by_all[] = { 2, 6, 54 }, by_crowded[] = { 2, 5, 45 };
    const uint32_t expected[] = {
        1, 0, 6, 4000, 0, 3, 0, 3, 6, 1, 1, 7, 4000, 0, 3, 1, 3, 7, 1, 2, 8, 4000, 0, 3, 2, 5, 8,
        2, 0, 6, 6000, 0, 3, 0, 4, 6, 2, 1, 7, 6000, 0, 3, 1, 3, 7,
    };
    const struct {
        const uint32_t *terms;
        size_t count;
        uint64_t refusal, first, second;
        const uint64_t *own;
        size_t owned;
    } runs[] = {
        { crowded, 9, 0, 0, 0, by_crowded, 3 }, { crowded, 6, 0, 0, 0, by_crowded, 3 }, { crowded, 5, 0, 0, 0, by_all, 3 },
        { crowded, 1, 0, 0, 0, by_all, 3 },     { crowded, 0, 5, 8, 0, by_all, 0 },     { no_factor, 2, 9, 2, 1, by_all, 3 },
        { bad, 6, 5, 8, 0, by_all, 0 },         { bad, 5, 0, 0, 0, by_all, 3 },         { crowded, 7, 0, 0, 0, by_crowded, 3 },
        { later, 7, 0, 0, 0, by_all, 3 },       { later, 6, 0, 0, 0, by_crowded, 3 },   { bad_until, 7, 5, 8, 0, by_all, 0 },
        { bad_until, 6, 0, 0, 0, by_all, 3 },
    };
    uint64_t work[72];
    uint32_t log[54];
    size_t run;
    lend_out();
    for (run = 0; run < COUNT(runs); run++) {
        EXPECT(arvumnao_route(kind, 9, capacity, 9, first_edge, 10, edge_target, 8, source, 3, first_sink, 4, sink, 3,
                              NULL, 0, NULL, 0, runs[run].terms, runs[run].count, work, 72, log, 54, out, OUT) == 1);
        EXPECT(told(runs[run].refusal, runs[run].first, runs[run].second, runs[run].own, runs[run].owned));
        if (run == 0)
            EXPECT(memcmp(log, expected, sizeof expected) == 0);
    }
}

/* A net of three sinks. The one of criticality 9 has its turn first, by wire 2, which is longer than wire 1 and quicker: 9,000 + 6,000,
 * and 2,700 + 2,000 for node 4, a sink that the path passes and that makes no turn, and 900 + 1,900 for the sink itself. Then the one
 * of criticality 2: 12,000 + 16,000 by wire 1, and 400 + 16,000. The same sinks as two nets of one source: where sink 3 stands again
 * it has criticality 9, but its first listing counts. Not timed, all go by wire 1, the nearest first. */
static void timed_route(void)
{
    const uint8_t kind[] = { 0, 4, 6, 1, 1, 3 };
    const uint8_t capacity[] = { 1, 2, 3, 4, 5, 6 };
    const uint32_t first_edge[] = { 0, 2, 4, 5, 5, 6, 6 };
    const uint16_t edge_target[] = { 1, 2, 3, 4, 4, 5 };
    const uint16_t source[] = { 0, 0 }, sink[] = { 3, 4, 5 }, split[] = { 3, 4, 3, 5 };
    const uint32_t first_sink[] = { 0, 3 }, first_split[] = { 0, 1, 4 };
    const uint16_t delay[] = { 700, 60, 10, 2, 3, 1 }, slow[] = { 700, 60, 10, 2, 3, 1001 };
    const uint8_t criticality[] = { 2, 0, 9 }, split_criticality[] = { 2, 0, 9, 9 }, high[] = { 2, 0, 10 };
    const uint32_t terms[] = { 40, 100, 7, 3, 2, 1, 9, 1 }, higher[] = { 41, 100, 7, 3, 2, 1, 9, UINT32_MAX };
    const uint32_t no_limit[] = { 0, 100, 7, 3, 2, 1, 9, 1 };
    const uint64_t settled[] = { 1, 2, 19 }, untimed[] = { 1, 3, 25 }, aimed[] = { 1, 2, 19, 7 }, untimed_aimed[] = { 1, 3, 25, 8 };
    const uint32_t expected[] = { 1, 0, 5, 22500, 0, 4, 0, 2, 4, 5, 1, 0, 3, 44400, 0, 3, 0, 1, 3 };
    const uint32_t nearest[] = { 1, 0, 3, 4000, 0, 3, 0, 1, 3, 1, 0, 4, 2000, 0, 2, 1, 4, 1, 0, 5, 1900, 0, 2, 4, 5 };
    const struct {
        const uint16_t *delay;
        size_t delays;
        const uint8_t *criticality;
        size_t criticalities;
        const uint32_t *terms;
        size_t work;
        uint64_t refusal, first, second;
    } refusals[] = {
        { delay, 5, criticality, 3, terms, 48, 5, 9, 0 },    { slow, 6, criticality, 3, terms, 48, 5, 9, 0 },
        { delay, 6, criticality, 2, terms, 48, 5, 10, 0 },   { delay, 6, high, 3, higher, 48, 5, 10, 0 },
        { slow, 6, high, 3, no_limit, 48, 5, 8, 0 },         { delay, 6, criticality, 3, higher, 47, 15, 6, 41 },
        { delay, 6, criticality, 3, terms, 47, 6, 48, 0 },
    };
    const uint64_t cleared[48] = { 0 };
    uint64_t work[49];
    uint32_t log[26];
    size_t run;
    memset(work, 9, sizeof work);
    work[48] = log[25] = OLD;
    lend_out();
    for (run = 0; run < COUNT(refusals); run++) {
        EXPECT(arvumnao_route(kind, 6, capacity, 6, first_edge, 7, edge_target, 6, source, 1, first_sink, 2, sink, 3,
                              refusals[run].delay, refusals[run].delays, refusals[run].criticality, refusals[run].criticalities,
                              refusals[run].terms, 8, work, refusals[run].work, log, 26, out, OUT) == 1);
        EXPECT(refused(refusals[run].refusal, refusals[run].first, refusals[run].second));
        EXPECT(memcmp(work, cleared, sizeof work[0]) != 0);
    }
    EXPECT(arvumnao_route(kind, COUNT(kind), capacity, COUNT(capacity), first_edge, COUNT(first_edge), edge_target,
                          COUNT(edge_target), source, 1, first_sink, COUNT(first_sink), sink, COUNT(sink), delay, COUNT(delay),
                          criticality, COUNT(criticality), terms, COUNT(terms), work, COUNT(work), log, COUNT(log), out, OUT) == 1);
    EXPECT(told(0, 0, 0, settled, 3));
    EXPECT(memcmp(log, expected, sizeof expected) == 0 && log[25] == OLD);
    EXPECT(memcmp(work, cleared, sizeof cleared) == 0 && work[48] == OLD);
    memset(log, 9, sizeof log);
    arvumnao_route(kind, 6, capacity, 6, first_edge, 7, edge_target, 6, source, 2, first_split, 3, split, 4, delay, 6,
                   split_criticality, 4, terms, 8, work, 49, log, 26, out, OUT);
    EXPECT(told(0, 0, 0, settled, 3));
    EXPECT(memcmp(log, expected, sizeof expected) == 0);
    /* tables 9 and 10 that would be refused, where the eighth term is left out */
    arvumnao_route(kind, 6, capacity, 6, first_edge, 7, edge_target, 6, source, 1, first_sink, 2, sink, 3, slow, 5, high, 2,
                   higher, 7, work, 49, log, 26, out, OUT);
    EXPECT(told(0, 0, 0, untimed, 3));
    EXPECT(memcmp(log, nearest, sizeof nearest) == 0);
    /* By the search that aims. Wire 1 is 56,000 away from the source at the first turn's prices, so that turn expands all nodes but it
     * and sink 3, which leads nowhere; the second expands the three of its path. Not timed, the first turn expands what is within 4,000:
     * the source, wire 1 and sinks 3 and 4; the others the two nodes of their paths. */
    EXPECT(arvumnao_route_aimed(kind, COUNT(kind), capacity, COUNT(capacity), first_edge, COUNT(first_edge), edge_target,
                                COUNT(edge_target), source, 1, first_sink, COUNT(first_sink), sink, COUNT(sink), delay, COUNT(delay),
                                criticality, COUNT(criticality), terms, COUNT(terms), work, COUNT(work), log, COUNT(log), out,
                                OUT) == 1);
    EXPECT(told(0, 0, 0, aimed, 4));
    EXPECT(memcmp(log, expected, sizeof expected) == 0);
    arvumnao_route_aimed(kind, 6, capacity, 6, first_edge, 7, edge_target, 6, source, 1, first_sink, 2, sink, 3, slow, 5, high, 2,
                         higher, 7, work, 49, log, 26, out, OUT);
    EXPECT(told(0, 0, 0, untimed_aimed, 4));
    EXPECT(memcmp(log, nearest, sizeof nearest) == 0);
}

/* Nets 0, with sinks 3 and 4, and 1, with sink 4, on wire 2, which has room for one: two iterations, gone on from after the first.
 * A log of this length with so many words used. */
static uint32_t timed_resume_in(const uint16_t *delay, size_t delays, const uint8_t *criticality, size_t criticalities,
                                const uint32_t *terms, uint64_t used, uint64_t *work, uint32_t *log, size_t words, int aimed)
{
    const uint8_t kind[] = { 0, 2, 4, 1, 3 };
    const uint8_t capacity[] = { 5, 4, 1, 3, 2 };
    const uint32_t first_edge[] = { 0, 1, 2, 4, 5, 5 };
    const uint16_t edge_target[] = { 2, 2, 3, 4, 4 };
    const uint16_t source[] = { 0, 1 }, sink[] = { 3, 4, 4 };
    const uint32_t first_sink[] = { 0, 2, 3 };
    return (aimed ? arvumnao_resume_aimed : arvumnao_resume)(
        kind, COUNT(kind), capacity, COUNT(capacity), first_edge, COUNT(first_edge), edge_target, COUNT(edge_target), source,
        COUNT(source), first_sink, COUNT(first_sink), sink, COUNT(sink), delay, delays, criticality, criticalities, terms, 8, used,
        work, 40, log, words, out, OUT);
}

/* Net 0's sink 4, of criticality 6, is due before 3, of criticality 4. Wire 2 costs 4,200 + 4 x 2,000 for it, and 10 x 2,000 for net 1,
 * of criticality 0; in iteration 2 its price is 12,000. A lent path may pass sink 3 on its way to 4: that is then joined. */
static void timed_resume(void)
{
    const uint16_t delay[] = { 5, 6, 7, 8, 9 };
    const uint8_t criticality[] = { 4, 6, 0 };
    const uint32_t terms[] = { 2, 100, 7, 3, 2, 1, 9, 1 }, higher[] = { 41, 100, 7, 3, 2, 1, 9, 1 };
    const uint64_t ended[] = { 2, 6, 52 }, passed_ended[] = { 2, 5, 45 }, aimed[] = { 2, 6, 52, 8 };
    const uint32_t lent[] = { 1, 0, 4, 25200, 0, 3, 0, 2, 4, 1, 0, 3, 15200, 0, 2, 2, 3, 1, 1, 4, 39000, 0, 3, 1, 2, 4 };
    const uint32_t passing[] = { 1, 0, 4, 38000, 0, 4, 0, 2, 3, 4, 1, 1, 4, 39000, 0, 3, 1, 2, 4 };
    const uint32_t not_due[] = { 1, 0, 3, 30000, 0, 3, 0, 2, 3, 1, 0, 4, 13000, 0, 2, 2, 4, 1, 1, 4, 39000, 0, 3, 1, 2, 4 };
    const uint32_t appended[] = { 2, 0, 4, 65200, 0, 3, 0, 2, 4, 2, 0, 3, 15200, 0, 2, 2, 3, 2, 1, 4, 139000, 0, 3, 1, 2, 4 };
    uint64_t work[40];
    uint32_t log[52];
    memset(log, 9, sizeof log);
    memcpy(log, lent, sizeof lent);
    lend_out();
    EXPECT(timed_resume_in(delay, 4, criticality, 3, terms, 26, work, log, 52, 0) == 1 && refused(5, 9, 0));
    EXPECT(timed_resume_in(delay, 5, criticality, 2, terms, 26, work, log, 52, 0) == 1 && refused(5, 10, 0));
    EXPECT(timed_resume_in(delay, 5, criticality, 3, higher, 26, work, log, 52, 0) == 1 && refused(15, 5, 41));
    EXPECT(timed_resume_in(delay, 5, criticality, 3, terms, 26, work, log, 52, 0) == 1 && told(9, 2, 1, ended, 3));
    EXPECT(memcmp(log, lent, sizeof lent) == 0 && memcmp(log + 26, appended, sizeof appended) == 0);
    /* nodes 0, 2 and 4, then 2 and 3, for net 1 nodes 1, 2 and 4: by 3 it is farther to 4 */
    memset(log + 26, 9, sizeof appended);
    EXPECT(timed_resume_in(delay, 5, criticality, 3, terms, 26, work, log, 52, 1) == 1 && told(9, 2, 1, aimed, 4));
    EXPECT(memcmp(log, lent, sizeof lent) == 0 && memcmp(log + 26, appended, sizeof appended) == 0);
    memcpy(log, passing, sizeof passing);
    EXPECT(timed_resume_in(delay, 5, criticality, 3, terms, 19, work, log, 52, 0) == 1 && told(9, 2, 1, passed_ended, 3));
    EXPECT(memcmp(log, passing, sizeof passing) == 0 && memcmp(log + 19, appended, sizeof appended) == 0);
    memcpy(log, not_due, sizeof not_due);
    EXPECT(timed_resume_in(delay, 5, criticality, 3, terms, 26, work, log, 52, 0) == 1 && refused(14, 0, 0));
}

/* Job B with capacities and terms of its own, and as a timed job, read into tables longer than it needs. */
static const char job[] = "F,6,6,2,9\nP,100,7,3,1\nV,2,5\nN,0,0,2\nN,1,0,3\nN,2,4,1\nN,3,5,4\nN,4,1,5\nN,5,1,6\n"
                          "E,0,2\nE,0,3\nE,1,2\nE,2,4\nE,2,5\nE,3,4\nS,0,0\nT,0,4\nS,1,1\nT,1,5\n";

static const char timed_job[] = "F,6,6,2,9\nP,100,7,3,1\nV,2,5\nW\nN,0,0,2,12\nN,1,0,3,11\nN,2,4,1,1000\nN,3,5,4,0\nN,4,1,5,8\n"
                                "N,5,1,6,7\nE,0,2\nE,0,3\nE,1,2\nE,2,4\nE,2,5\nE,3,4\nS,0,0\nT,0,4,3\nS,1,1\nT,1,5,9\n";

static uint8_t text_read[sizeof timed_job], kind_read[7], capacity_read[8], criticality_read[4];
static uint32_t first_edge_read[9], first_sink_read[5];
static uint16_t edge_target_read[10], source_read[4], sink_read[3], delay_read[11];
static size_t bytes_read;

static void lend_text(const char *text)
{
    bytes_read = strlen(text);
    memcpy(text_read, text, bytes_read);
}

/* Reads it into tables of these lengths. */
static uint32_t read_job(size_t kind, size_t capacity, size_t first_edge, size_t edge_target, size_t source,
                         size_t first_sink, size_t sink, size_t delay, size_t criticality)
{
    return arvumnao_read(text_read, bytes_read, kind_read, kind, capacity_read, capacity, first_edge_read, first_edge,
                         edge_target_read, edge_target, source_read, source, first_sink_read, first_sink, sink_read, sink,
                         delay_read, delay, criticality_read, criticality, out, OUT);
}

static void clear_tables(void)
{
    memset(kind_read, 255, sizeof kind_read);
    memset(capacity_read, 255, sizeof capacity_read);
    memset(first_edge_read, 255, sizeof first_edge_read);
    memset(edge_target_read, 255, sizeof edge_target_read);
    memset(source_read, 255, sizeof source_read);
    memset(first_sink_read, 255, sizeof first_sink_read);
    memset(sink_read, 255, sizeof sink_read);
    memset(delay_read, 255, sizeof delay_read);
    memset(criticality_read, 255, sizeof criticality_read);
}

/* Whether tables 1 to 7 hold the job, and what is past it is as it was. */
static int tables_read(void)
{
    const uint8_t kind[] = { 0, 0, 4, 5, 1, 1, 255 }, capacity[] = { 2, 3, 1, 4, 5, 6, 255, 255 };
    const uint32_t first_edge[] = { 0, 2, 3, 5, 6, 6, 6, UINT32_MAX, UINT32_MAX };
    const uint16_t edge_target[] = { 2, 3, 2, 4, 5, 4, 65535, 65535, 65535, 65535 };
    const uint16_t source[] = { 0, 1, 65535, 65535 }, sink[] = { 4, 5, 65535 };
    const uint32_t first_sink[] = { 0, 1, 2, UINT32_MAX, UINT32_MAX };
    return memcmp(kind_read, kind, sizeof kind) == 0 && memcmp(capacity_read, capacity, sizeof capacity) == 0
           && memcmp(first_edge_read, first_edge, sizeof first_edge) == 0
           && memcmp(edge_target_read, edge_target, sizeof edge_target) == 0
           && memcmp(source_read, source, sizeof source) == 0 && memcmp(first_sink_read, first_sink, sizeof first_sink) == 0
           && memcmp(sink_read, sink, sizeof sink) == 0;
}

static void read_text(void)
{
    const uint64_t counts[] = { 6, 6, 2, 2, 9, 100, 7, 3, 1, 2, 5, 0 };
    lend_text(job);
    clear_tables();
    lend_out();
    EXPECT(read_job(7, 8, 9, 10, 4, 5, 3, 11, 4) == 1);
    EXPECT(told(0, 0, 0, counts, COUNT(counts)));
    EXPECT(tables_read());
    EXPECT(delay_read[0] == 65535 && criticality_read[0] == 255);
    EXPECT(read_job(7, 8, 9, 10, 4, 5, 3, 0, 0) == 1 && told(0, 0, 0, counts, COUNT(counts)));
    EXPECT(read_job(5, 8, 9, 10, 4, 5, 3, 0, 0) == 1 && refused(4, 1, 0));
    EXPECT(read_job(7, 5, 9, 10, 4, 5, 3, 0, 0) == 1 && refused(4, 2, 0));
    EXPECT(read_job(7, 8, 6, 10, 4, 5, 3, 0, 0) == 1 && refused(4, 3, 0));
    EXPECT(read_job(7, 8, 9, 5, 4, 5, 3, 0, 0) == 1 && refused(4, 4, 0));
    EXPECT(read_job(7, 8, 9, 10, 1, 5, 3, 0, 0) == 1 && refused(4, 5, 0));
    EXPECT(read_job(7, 8, 9, 10, 4, 2, 3, 0, 0) == 1 && refused(4, 6, 0));
    EXPECT(read_job(7, 8, 9, 10, 4, 5, 1, 0, 0) == 1 && refused(4, 7, 0));
    text_read[16] = '9';
    EXPECT(read_job(7, 8, 9, 10, 4, 5, 3, 0, 0) == 1 && refused(2, 2, 0));
}

/* Its limit made 49 is beyond a timed job's. */
static void read_timed_text(void)
{
    const uint64_t counts[] = { 6, 6, 2, 2, 9, 100, 7, 3, 1, 2, 5, 1 };
    const uint16_t delay[] = { 12, 11, 1000, 0, 8, 7, 65535, 65535, 65535, 65535, 65535 };
    const uint8_t criticality[] = { 3, 9, 255, 255 };
    const char limit[] = "F,6,6,2,49\n";
    lend_text(timed_job);
    clear_tables();
    lend_out();
    EXPECT(read_job(7, 8, 9, 10, 4, 5, 3, 11, 4) == 1);
    EXPECT(told(0, 0, 0, counts, COUNT(counts)));
    EXPECT(tables_read());
    EXPECT(memcmp(delay_read, delay, sizeof delay) == 0);
    EXPECT(memcmp(criticality_read, criticality, sizeof criticality) == 0);
    EXPECT(read_job(7, 8, 9, 10, 4, 5, 1, 5, 1) == 1 && refused(4, 7, 0));
    EXPECT(read_job(7, 8, 9, 10, 4, 5, 3, 5, 1) == 1 && refused(4, 9, 0));
    EXPECT(read_job(7, 8, 9, 10, 4, 5, 3, 6, 1) == 1 && refused(4, 10, 0));
    memcpy(text_read, limit, sizeof limit - 1);
    memcpy(text_read + sizeof limit - 1, timed_job + 10, sizeof timed_job - 11);
    bytes_read = sizeof timed_job;
    clear_tables();
    EXPECT(read_job(7, 8, 9, 10, 4, 5, 3, 6, 1) == 1 && refused(4, 10, 0));
    EXPECT(read_job(7, 8, 9, 10, 4, 5, 3, 6, 2) == 1 && refused(15, 6, 49));
    EXPECT(kind_read[0] == 255 && delay_read[0] == 65535 && criticality_read[0] == 255);
}

/* Job B's log. */
static const uint32_t job_log[] = {
    1, 0, 4, 4000, 0, 3, 0, 2, 4, 1, 1, 5, 4000, 0, 3, 1, 2, 5,
    2, 0, 4, 6000, 0, 3, 0, 3, 4, 2, 1, 5, 6000, 0, 3, 1, 2, 5,
};

/* The routes of job B's log, with a third net that was joined into the second; then of the log without its last record, where
 * the second net has its branches of iteration 1. */
static void write_routes(void)
{
    const uint16_t source[] = { 0, 1, 1, 4096 };
    const char routes[] = "R,2,4\nB,0,0,3\nB,0,3,4\nB,1,1,2\nB,1,2,5\nJ,2,1\n";
    const char kept[] = "R,2,3\nB,0,0,3\nB,0,3,4\nB,1,1,2\nB,1,2,5\nJ,2,1\n";
    const uint64_t bytes = sizeof routes - 1;
    uint8_t buffer[50];
    memset(buffer, OLD, sizeof buffer);
    lend_out();
    EXPECT(arvumnao_write(source, 3, job_log, COUNT(job_log), buffer, COUNT(buffer), out, OUT) == 1);
    EXPECT(told(0, 0, 0, &bytes, 1));
    EXPECT(memcmp(buffer, routes, bytes) == 0 && buffer[bytes] == OLD);
    EXPECT(arvumnao_write(source, 3, job_log, 27, buffer, COUNT(buffer), out, OUT) == 1);
    EXPECT(told(0, 0, 0, &bytes, 1));
    EXPECT(memcmp(buffer, kept, bytes) == 0);
    arvumnao_write(source, 4, job_log, 35, buffer, COUNT(buffer), out, OUT);
    EXPECT(refused(5, 5, 0));
    arvumnao_write(source, 3, job_log, 35, buffer, COUNT(buffer), out, OUT);
    EXPECT(refused(10, 27, 0));
    arvumnao_write(source, 1, job_log, COUNT(job_log), buffer, COUNT(buffer), out, OUT);
    EXPECT(refused(10, 9, 0));
    arvumnao_write(source, 3, job_log, COUNT(job_log), buffer, 43, out, OUT);
    EXPECT(refused(11, 44, 0));
    const char picture[] =
        "digraph r {\n0 -> 3 [label=\"0\"];\n3 -> 4 [label=\"0\"];\n1 -> 2 [label=\"1\"];\n2 -> 5 [label=\"1\"];\n}\n";
    const uint64_t drawn = sizeof picture - 1;
    uint8_t wide[100];
    memset(wide, OLD, sizeof wide);
    EXPECT(arvumnao_dot(source, 3, job_log, COUNT(job_log), wide, COUNT(wide), out, OUT) == 1);
    EXPECT(told(0, 0, 0, &drawn, 1));
    EXPECT(memcmp(wide, picture, drawn) == 0 && wide[drawn] == OLD);
    arvumnao_dot(source, 4, job_log, 35, wide, COUNT(wide), out, OUT);
    EXPECT(refused(5, 5, 0));
    arvumnao_dot(source, 3, job_log, 35, wide, COUNT(wide), out, OUT);
    EXPECT(refused(10, 27, 0));
    arvumnao_dot(source, 3, job_log, COUNT(job_log), wide, drawn - 1, out, OUT);
    EXPECT(refused(11, drawn, 0));
}

/* Job B's block with capacities of its own, and one entry more than there are counts. */
static const uint8_t kind_used[] = { 0, 0, 4, 5, 1, 1 }, capacity_used[] = { 2, 3, 1, 4, 5, 6 };
static const uint32_t first_edge_used[] = { 0, 2, 3, 5, 6, 6, 6 };
static const uint16_t edge_target_used[] = { 2, 3, 2, 4, 5, 4 };
static uint64_t uses[ARVUMNAO_COUNTS + 1];
static uint8_t uses_text[ARVUMNAO_USES_BYTES];

/* Adds so many words of job B's log, with tables 1 to 4 of these lengths. */
static uint32_t add_uses(size_t kinds, size_t capacities, size_t first_edges, size_t edge_targets, size_t counts,
                         uint64_t logs, size_t words)
{
    return arvumnao_uses_add(kind_used, kinds, capacity_used, capacities, first_edge_used, first_edges, edge_target_used,
                             edge_targets, uses, counts, logs, job_log, words, out, OUT);
}

/* Writes them into so many bytes. */
static uint32_t write_uses(size_t kinds, size_t capacities, size_t first_edges, size_t edge_targets, size_t counts,
                           uint64_t logs, size_t bytes)
{
    return arvumnao_uses_write(kind_used, kinds, capacity_used, capacities, first_edge_used, first_edges, edge_target_used,
                               edge_targets, uses, counts, logs, uses_text, bytes, out, OUT);
}

/* Whether a log was refused so, and the number of logs handed in was told. */
static int not_added(uint64_t refusal, uint64_t first, uint64_t logs)
{
    return told(refusal, first, 0, &logs, 1);
}

/* Whether these are the uses of kinds 0, 1, 4 and 5, all others are 0, and the last entry is as it was. */
static int used(uint64_t sources, uint64_t sinks, uint64_t short_wires, uint64_t long_wires)
{
    uint64_t expected[ARVUMNAO_COUNTS + 1];
    memset(expected, 0, sizeof expected);
    expected[ARVUMNAO_SOURCE] = sources;
    expected[ARVUMNAO_SINK] = sinks;
    expected[ARVUMNAO_WIRE(1)] = short_wires;
    expected[ARVUMNAO_WIRE(2)] = long_wires;
    expected[ARVUMNAO_COUNTS] = OLD;
    return memcmp(uses, expected, sizeof uses) == 0;
}

/* The whole log of job B, in which wires 2 and 3 are used once each, then its first iteration, in which wire 2 is used twice. */
static void count_uses(void)
{
    const uint64_t one = 1, two = 2;
    const char lines[] = "U,0,4,10\nU,1,4,22\nU,2,0,0\nU,3,0,0\nU,4,3,2\nU,5,1,8\n";
    const size_t end = sizeof lines - 1;
    const uint64_t bytes = end + 4 * 8 + 44 * 9;
    uses[ARVUMNAO_COUNTS] = OLD;
    lend_out();
    EXPECT(add_uses(6, 6, 7, 6, COUNT(uses), 0, 36) == 1 && told(0, 0, 0, &one, 1));
    EXPECT(used(2, 2, 1, 1));
    EXPECT(add_uses(6, 6, 7, 6, ARVUMNAO_COUNTS, 1, 18) == 1 && told(0, 0, 0, &two, 1));
    EXPECT(used(4, 4, 3, 1));
    memset(uses_text, OLD, sizeof uses_text);
    EXPECT(write_uses(6, 6, 7, 6, COUNT(uses), 2, sizeof uses_text) == 1 && told(0, 0, 0, &bytes, 1));
    EXPECT(memcmp(uses_text, lines, end) == 0 && memcmp(uses_text + bytes - 18, "U,52,0,0\nU,53,0,0\n", 18) == 0);
    EXPECT(uses_text[bytes] == OLD);
    EXPECT(add_uses(0, 6, 7, 6, 54, 2, 36) == 1 && not_added(ARVUMNAO_BAD_TABLE, 1, 2));
    EXPECT(add_uses(6, 5, 7, 6, 54, 2, 36) == 1 && not_added(5, 2, 2));
    EXPECT(add_uses(6, 6, 6, 6, 54, 2, 36) == 1 && not_added(5, 3, 2));
    EXPECT(add_uses(6, 6, 7, 5, 54, 2, 36) == 1 && not_added(5, 3, 2));
    EXPECT(add_uses(6, 6, 7, 6, 54, 65536, 35) == 1 && not_added(ARVUMNAO_BAD_NUMBER, 54, 65536));
    EXPECT(add_uses(6, 6, 7, 6, 54, 0, 35) == 1 && not_added(13, 0, 0));
    EXPECT(add_uses(6, 6, 7, 6, 54, 65535, 35) == 1 && not_added(ARVUMNAO_BAD_RECORD, 27, 65535));
    EXPECT(add_uses(6, 6, 7, 6, 54, 65535, 0) == 1 && not_added(10, 0, 65535));
    EXPECT(add_uses(6, 6, 7, 6, 54, 65535, 36) == 1 && not_added(ARVUMNAO_COUNTS_FULL, ARVUMNAO_LOGS_MOST, 65535));
    EXPECT(write_uses(0, 6, 7, 6, 54, 2, 0) == 1 && refused(5, 1, 0));
    EXPECT(write_uses(6, 5, 7, 6, 54, 2, 0) == 1 && refused(5, 2, 0));
    EXPECT(write_uses(6, 6, 6, 6, 54, 2, 0) == 1 && refused(5, 3, 0));
    EXPECT(write_uses(6, 6, 7, 6, 54, 65536, 0) == 1 && refused(13, 54, 0));
    EXPECT(write_uses(6, 6, 7, 6, 54, 2, bytes - 1) == 1 && refused(ARVUMNAO_SHORT_BUFFER, bytes, 0));
    EXPECT(used(4, 4, 3, 1));
    /* 512 uses a log of the one node of kind 5 are as many as there can be */
    uses[ARVUMNAO_WIRE(2)] = 1024;
    EXPECT(add_uses(6, 6, 7, 6, 54, 2, 35) == 1 && not_added(10, 27, 2));
    uses[ARVUMNAO_WIRE(2)] = 1025;
    EXPECT(add_uses(6, 6, 7, 6, 54, 2, 35) == 1 && not_added(13, 5, 2));
    EXPECT(write_uses(6, 6, 7, 6, 54, 2, 0) == 1 && refused(13, 5, 0));
    lend_out();
    EXPECT(add_uses(6, 6, 7, 6, 53, 2, 36) == 0 && out[0] == OLD && out[15] == OLD);
    EXPECT(write_uses(6, 6, 7, 6, 53, 2, sizeof uses_text) == 0 && out[0] == OLD && out[15] == OLD);
    EXPECT(used(4, 4, 3, 1025));
}

int main(void)
{
    price();
    timed_price();
    search();
    timed_search();
    too_many_nodes();
    route();
    resume();
    audit();
    route_aimed();
    resume_aimed();
    terms();
    timed_route();
    timed_resume();
    read_text();
    read_timed_text();
    write_routes();
    count_uses();
    return faults != 0;
}
