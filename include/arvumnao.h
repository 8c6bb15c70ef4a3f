/* Arvumnao: a proved router for a programmable logic block. The calls of the static library libcapi.a.
 *
 * docs/FORMAT.md describes the job text, the routes text, the log, the uses text and every refusal. examples/route.c routes a job
 * text, and continues from its log under a higher limit. examples/uses.c counts the use of wires over many jobs of one block.
 * This file has an example, then what holds for all calls, then the calls.
 *
 * An example, whole: it routes one net over one wire and prints R,1,1 and B,0,0,1 and B,0,1,2, a line each.
 *
 *     #include "arvumnao.h"
 *     #include <stdio.h>
 *     #include <stdlib.h>
 *
 *     int main(void)
 *     {
 *         static const uint8_t kind[] = {ARVUMNAO_SOURCE, ARVUMNAO_WIRE(1), ARVUMNAO_SINK}, capacity[] = {1, 1, 1};
 *         static const uint32_t first_edge[] = {0, 1, 2, 2}, first_sink[] = {0, 1};
 *         static const uint16_t edge_target[] = {1, 2}, source[] = {0}, sink[] = {2};
 *         static const uint32_t terms[] = {ARVUMNAO_LIMIT_MOST};
 *         static uint64_t work[ARVUMNAO_WORK(3)], out[ARVUMNAO_OUT];
 *         static uint32_t log[64];
 *         arvumnao_route(kind, 3, capacity, 3, first_edge, 4, edge_target, 2, source, 1, first_sink, 2, sink, 1,
 *                        NULL, 0, NULL, 0, terms, 1, work, ARVUMNAO_WORK(3), log, 64, out, ARVUMNAO_OUT);
 *         if (out[ARVUMNAO_REFUSAL] != 0)
 *             return 1;
 *         size_t words = (size_t)out[ARVUMNAO_ROUTE_WORDS];
 *         // an empty buffer is always too short, so the writer answers with the bytes needed
 *         arvumnao_write(source, 1, log, words, NULL, 0, out, ARVUMNAO_OUT);
 *         if (out[ARVUMNAO_REFUSAL] != ARVUMNAO_SHORT_BUFFER)
 *             return 1;
 *         size_t bytes = (size_t)out[ARVUMNAO_REFUSAL_1];
 *         uint8_t *routes = malloc(bytes);
 *         if (routes == NULL)
 *             return 1;
 *         arvumnao_write(source, 1, log, words, routes, bytes, out, ARVUMNAO_OUT);
 *         fwrite(routes, 1, bytes, stdout);
 *         free(routes);
 *         return 0;
 *     }
 *
 * Build it: tools/build capi && cc -Iinclude FILE.c target/staticlib/libcapi.a
 *
 * MEMORY. A slice is a pointer and a count of entries, aligned as C aligns its type. An empty slice may have any
 * pointer, also NULL. A slice that a call may write to (one without const) must not overlap any other slice of that
 * call. Slices are lent only for the call: the library keeps no pointer, allocates nothing and has no state. Of the C
 * library it needs only memcpy and memset. So several threads may call at the same time, as long as no slice that
 * one call writes to is lent to another. A call takes at most ARVUMNAO_STACK bytes of stack.
 *
 * ANY INPUT. Each call may be lent slices of any length with anything in them: it ends, stays within them and
 * refuses what is faulty. This, its answer and what it leaves in every slice are proved of the source; that the built
 * code does the same is tested. A call can't detect slices that overlap, dangle or have a wrong count.
 *
 * OUT. Every call takes `out`, a slice of 64-bit numbers, which need not be cleared. If it has fewer than
 * ARVUMNAO_OUT entries, or `counts` fewer than ARVUMNAO_COUNTS, the call does nothing and returns 0. Otherwise it returns 1 and fills
 * the first ARVUMNAO_OUT entries; entries after them stay:
 *   out[ARVUMNAO_REFUSAL]     0 if nothing was refused, else the refusal's number
 *   out[ARVUMNAO_REFUSAL_1]   that refusal's first further number, else 0
 *   out[ARVUMNAO_REFUSAL_2]   its second, else 0
 *   the rest                  the call's own numbers, at the places defined with the call, and 0
 * A refused call's own numbers are 0. There are two exceptions: the four calls that route or resume give theirs after
 * ARVUMNAO_LOG_FULL and ARVUMNAO_LIMIT_REACHED, and arvumnao_uses_add always does. A refused call leaves every other slice as it was,
 * unless its comment says more.
 *
 * TABLES. A job is seven tables, and the terms, which count as table 8; a timed job has two more tables. Nodes and nets are numbered
 * from 0: a node has an entry in table 1, a net in table 5.
 *   1 kind         8 bits a node   1 to 4,096 nodes, ARVUMNAO_SOURCE to ARVUMNAO_KIND_MOST
 *   2 capacity     8 bits a node   how many nets may use it at once, 1 to 255
 *   3 first_edge   32 bits         nodes + 1 places in table 4, where each node's row begins: the first is 0, none
 *                                  is below the one before, the last is table 4's length
 *   4 edge_target  16 bits         at most 32,768 nodes, to which the row's node has a switch: rising within a row,
 *                                  never the row's own node
 *   5 source       16 bits a net   1 to 512 nets: a node of kind ARVUMNAO_SOURCE or ARVUMNAO_OUTPUT_PIN
 *   6 first_sink   32 bits         nets + 1 places in table 7, where each net's sinks begin: the first is 0, each is
 *                                  above the one before, the last is table 7's length
 *   7 sink         16 bits a sink  at most 4,096 nodes of kind ARVUMNAO_SINK or ARVUMNAO_INPUT_PIN: within a net
 *                                  none twice, none its source
 *   8 the terms    32 bits         limit, 1 to 100 iterations; first, 0 to 1,000; up, from down to 8; down, 1 to 4;
 *                                  step, 1 or 2; rule, 1 or 2; until, 1 to 99; timed, 0 or not 0; in this order. Entries may be
 *                                  left out at the end, see arvumnao_route
 *   9 delay        16 bits a node  only in a timed job: 0 to 1,000
 *  10 criticality  8 bits a sink   only in a timed job: for each entry of table 7, 0 to 9, in tenths
 * A table of the wrong length breaks its rule. If the last entry of table 3 or 6 is not the length of table 4 or 7, table 3
 * or 6 is the one that breaks its rule.
 *
 * NETS OF ONE SOURCE are joined into the first of them. It is routed under its own number to the sinks of all of them, in
 * listed order, each once, with the criticality of its first listing. The other nets make no turns.
 *
 * TIMED JOBS. A node's price for a sink is criticality x delay x 100 + (10 - criticality) x the price of arvumnao_price. A net's
 * sinks are joined by falling criticality, ties as listed, each by a cheapest path at the prices for it. A path may pass other sinks of
 * the net, which are then joined without a turn. A timed job has at most ARVUMNAO_TIMED_NODES_MOST nodes and a limit of at most
 * ARVUMNAO_TIMED_LIMIT_MOST. In a job that isn't timed tables 9 and 10 are ignored: lend empty slices.
 */
#ifndef ARVUMNAO_H
#define ARVUMNAO_H

#include <stddef.h>
#include <stdint.h>

/* The version of these declarations, and of the Rust wrapper. The library itself carries none: header and library must be of one build.
 * Until 1.0.0 the second number rises with every change to a call, a place in `out` or a refusal, and with what changes for the
 * wrapper's callers. CHANGELOG.md lists the changes. */
#define ARVUMNAO_VERSION "0.8.0"
#define ARVUMNAO_VERSION_MAJOR 0
#define ARVUMNAO_VERSION_MINOR 8
#define ARVUMNAO_VERSION_PATCH 0

/* The most that a job has. */
#define ARVUMNAO_NODES_MOST 4096
#define ARVUMNAO_EDGES_MOST 32768
#define ARVUMNAO_NETS_MOST 512
#define ARVUMNAO_SINKS_MOST 4096
#define ARVUMNAO_LIMIT_MOST 100

/* The most that a timed job has, and the largest entries of its tables 9 and 10. */
#define ARVUMNAO_TIMED_NODES_MOST 1024
#define ARVUMNAO_TIMED_LIMIT_MOST 40
#define ARVUMNAO_DELAY_MOST 1000
#define ARVUMNAO_CRITICALITY_MOST 9

/* The kinds of a node. Their base costs are 20, 20, 20, 19, and 20 x length for a wire, which is 1 to 50 tiles long. */
#define ARVUMNAO_SOURCE 0
#define ARVUMNAO_SINK 1
#define ARVUMNAO_OUTPUT_PIN 2
#define ARVUMNAO_INPUT_PIN 3
#define ARVUMNAO_WIRE(length) (3 + (length))
#define ARVUMNAO_KIND_MOST 53

/* `terms`: its entries and their places, and the defaults of four of them. */
#define ARVUMNAO_TERMS 8
#define ARVUMNAO_TERMS_LIMIT 0
#define ARVUMNAO_TERMS_FIRST 1
#define ARVUMNAO_TERMS_UP 2
#define ARVUMNAO_TERMS_DOWN 3
#define ARVUMNAO_TERMS_STEP 4
#define ARVUMNAO_TERMS_RULE 5
#define ARVUMNAO_TERMS_UNTIL 6
#define ARVUMNAO_TERMS_TIMED 7
#define ARVUMNAO_PLAIN_TUNING 50, 3, 2, 1

/* The rules: in each iteration every net is routed again, or after iteration `until` only the nets whose tree has an overfull node. */
#define ARVUMNAO_RULE_ALL 1
#define ARVUMNAO_RULE_CROWDED 2

/* The entries that `work` needs. What they hold before a call doesn't matter. */
#define ARVUMNAO_WORK(nodes) (8 * (nodes))

/* The words of a record whose path has this many nodes, 2 to 4,096. A job makes at most limit x sinks records. */
#define ARVUMNAO_RECORD(path) (6 + (path))

/* `counts` of uses: its entries, one for each kind; the most logs; and bytes that are enough for its text. */
#define ARVUMNAO_COUNTS 54
#define ARVUMNAO_LOGS_MOST 65535
#define ARVUMNAO_USES_BYTES 4096

/* Bytes of stack, beyond its caller's, that are enough for every call. Measured on x86-64 Linux by tests/header/memory.c, with
 * what memcpy and memset take, and rounded up: 152,300 in the four calls that route or resume, 122,800 in arvumnao_read, 69,500 in
 * arvumnao_audit, 35,700 in arvumnao_uses_add, 23,400 in arvumnao_uses_write, 9,200 in arvumnao_write and arvumnao_dot, under 1,300 in
 * the others. */
#define ARVUMNAO_STACK 262144

/* `out`: its length, and the places that every call has. */
#define ARVUMNAO_OUT 16
#define ARVUMNAO_REFUSAL 0
#define ARVUMNAO_REFUSAL_1 1
#define ARVUMNAO_REFUSAL_2 2

/* The refusals, with their further numbers. Lines of a text and iterations are counted from 1, tables as above, all
 * else from 0. docs/FORMAT.md says what to do about each. */
#define ARVUMNAO_BAD_SHAPE 1     /* line: of wrong shape or missing, or text after the end */
#define ARVUMNAO_BAD_VALUE 2     /* line: a value beyond its bounds */
#define ARVUMNAO_BAD_ORDER 3     /* line: wrong order, number, pin or repetition, or the 4,097th sink */
#define ARVUMNAO_SHORT_TABLE 4   /* table: the lowest that is too short for the job */
#define ARVUMNAO_BAD_TABLE 5     /* table: the lowest that breaks its rule, 8 for the terms */
#define ARVUMNAO_SHORT_WORK 6    /* entries that work needs */
#define ARVUMNAO_UNREACHABLE 7   /* net, place: the first net with a sink that has no path from its source; the place
                                    of the first such sink among that net's, joined as above */
#define ARVUMNAO_LOG_FULL 8      /* iteration, turns: after that many turns the next record, of that iteration, doesn't fit */
#define ARVUMNAO_LIMIT_REACHED 9 /* iteration, nodes: after the last iteration that many nodes are over capacity */
#define ARVUMNAO_BAD_RECORD 10   /* word: where the first unsound record begins; 0 if the log is empty */
#define ARVUMNAO_SHORT_BUFFER 11 /* bytes that the text needs */
#define ARVUMNAO_LONG_TEXT 12    /* 65536: only from the program, for an input with more bytes; no call here gives it */
#define ARVUMNAO_BAD_NUMBER 13   /* place: a number beyond its bounds; in counts the kind, or 54 for the number of logs */
#define ARVUMNAO_DIVERGES 14     /* word: where the first record begins that doesn't follow the job; the words used if only the
                                    log's end is wrong; the log's length if the words used exceed it */
#define ARVUMNAO_TOO_LARGE 15    /* nodes, limit: of a timed job with more than 1,024 nodes or a limit above 40; a timed search
                                    gives limit 0 */
#define ARVUMNAO_COUNTS_FULL 16  /* 65535: the counts have that many logs already, which is the most */

/* What an audit finds, which is no refusal; 17 is a refusal of the program that makes loads, and no call here gives it. */
#define ARVUMNAO_NOT_CHEAPEST 18 /* word, cost: where the record of the first turn that isn't cheapest begins, and what it cost */

#ifdef __cplusplus
extern "C" {
#endif

/* The price of a node to a net: history x base cost x (100 + factor x excess), where excess is others + 1 - capacity, or 0 if
 * that is negative.
 *
 * Bounds: kind 0 to 53, factor 0 to 65,535, others 0 to 511, capacity 1 to 255, history 1 to 101,179.
 * Refusals: ARVUMNAO_BAD_NUMBER with the place, 0 to 4, of the first of these five that is beyond its bounds. */
#define ARVUMNAO_PRICE_PRICE 3
uint32_t arvumnao_price(uint32_t kind, uint32_t factor, uint32_t others, uint32_t capacity, uint32_t history,
                        uint64_t *out, size_t out_count);

/* The price of a node for a sink of a timed job: criticality x delay x 100 + (10 - criticality) x the price of arvumnao_price.
 *
 * Bounds: those of arvumnao_price, delay 0 to 1,000, criticality 0 to 9.
 * Refusals: ARVUMNAO_BAD_NUMBER with the place, 0 to 6, of the first of these seven that is beyond its bounds. */
#define ARVUMNAO_TIMED_PRICE_PRICE 3
uint32_t arvumnao_timed_price(uint32_t kind, uint32_t factor, uint32_t others, uint32_t capacity, uint32_t history, uint32_t delay,
                              uint32_t criticality, uint64_t *out, size_t out_count);

/* The distance of each node from the marked nodes: the least sum of prices on a path from any of them, without the path's
 * first node.
 *
 * factor    0 to 65,535.
 * work      needs ARVUMNAO_WORK(nodes) entries. Afterwards the first `nodes` of them are the distances, 2^64 - 1 if
 *           there is no path; the next 7 x nodes are 0; entries after them stay.
 * history   an entry a node, 1 to 101,179. Further entries of this list and the next two are ignored.
 * others    how many other nets have the node, 0 to 511.
 * in_tree   1 for a marked node, 0 for any other.
 * Refusals, tested in this order: ARVUMNAO_BAD_TABLE (1 to 4); ARVUMNAO_SHORT_WORK; ARVUMNAO_BAD_NUMBER with the lowest node
 * that has a bad entry, or none, in one of the three lists; ARVUMNAO_BAD_NUMBER with the node count for a bad factor. */
uint32_t arvumnao_search(const uint8_t *kind, size_t kind_count, const uint8_t *capacity, size_t capacity_count,
                         const uint32_t *first_edge, size_t first_edge_count, const uint16_t *edge_target, size_t edge_target_count,
                         uint32_t factor, uint64_t *work, size_t work_count,
                         const uint32_t *history, size_t history_count, const uint16_t *others, size_t others_count,
                         const uint8_t *in_tree, size_t in_tree_count,
                         uint64_t *out, size_t out_count);

/* The same by the prices for a sink of a timed job.
 *
 * delay         table 9.
 * criticality   the sink's, 0 to 9.
 * history       here only to 39,859, which no timed job's exceeds.
 * The other parameters are those of arvumnao_search.
 * Refusals, tested in this order: ARVUMNAO_BAD_TABLE (1 to 4, and 9); ARVUMNAO_TOO_LARGE with the node count and 0;
 * ARVUMNAO_SHORT_WORK; ARVUMNAO_BAD_NUMBER as in arvumnao_search, then with the node count + 1 for a bad criticality. */
uint32_t arvumnao_timed_search(const uint8_t *kind, size_t kind_count, const uint8_t *capacity, size_t capacity_count,
                               const uint32_t *first_edge, size_t first_edge_count, const uint16_t *edge_target, size_t edge_target_count,
                               const uint16_t *delay, size_t delay_count, uint32_t factor, uint32_t criticality,
                               uint64_t *work, size_t work_count, const uint32_t *history, size_t history_count,
                               const uint16_t *others, size_t others_count, const uint8_t *in_tree, size_t in_tree_count,
                               uint64_t *out, size_t out_count);

/* Routes a job. Each table is lent in exactly its length; tables 9 and 10 only if the job is timed.
 *
 * terms     limit, first, up, down, step, rule, until, timed. Entries that a shorter slice lacks have their defaults: 0 for the limit,
 *           which is refused, then 50, 3, 2, 1, 1, 1 and 0, as in a text without P, V and W lines. Entries after these eight are
 *           ignored. So {100} means a limit of 100 and the defaults.
 *           limit: the most iterations.
 *           first, up, down, step: the tariff. The congestion factor is 0 in iteration 1, `first` in iteration 2, and then
 *           each time factor x up / down, rounded down, at most 65,535. A node's history is 1 at first and grows after each
 *           iteration by step x the number of nets by which the node is over its capacity.
 *           rule, until: under rule 1 every net drops its tree in each iteration and is routed again. Under rule 2 so is every net up
 *           to iteration `until`; after it, only the nets whose tree has an overfull node when the iteration begins. The
 *           other trees stay and count as users. `until` is the k of a line V,2,k; under rule 1 it is ignored.
 *           timed: the job is timed if it is not 0.
 * work      needs ARVUMNAO_WORK(nodes) entries. After acceptance and after refusals 7, 8 and 9 that many are 0, and entries
 *           after them stay.
 * log       gets a record for each turn. After acceptance and after 8 and 9 the words used hold the records of the
 *           turns made, and words after them stay. The length needed is not known beforehand: lend more after
 *           ARVUMNAO_LOG_FULL. The log of a run that log or limit stopped is the beginning of the longer run's log.
 * Refusals, tested in this order: ARVUMNAO_BAD_TABLE, ARVUMNAO_TOO_LARGE, ARVUMNAO_SHORT_WORK, ARVUMNAO_UNREACHABLE; then
 * ARVUMNAO_LOG_FULL and ARVUMNAO_LIMIT_REACHED during the run; these two have the own numbers too. */
#define ARVUMNAO_ROUTE_ITERATION 3
#define ARVUMNAO_ROUTE_TURNS 4
#define ARVUMNAO_ROUTE_WORDS 5
uint32_t arvumnao_route(const uint8_t *kind, size_t kind_count, const uint8_t *capacity, size_t capacity_count,
                        const uint32_t *first_edge, size_t first_edge_count, const uint16_t *edge_target, size_t edge_target_count,
                        const uint16_t *source, size_t source_count, const uint32_t *first_sink, size_t first_sink_count,
                        const uint16_t *sink, size_t sink_count, const uint16_t *delay, size_t delay_count,
                        const uint8_t *criticality, size_t criticality_count, const uint32_t *terms, size_t terms_count,
                        uint64_t *work, size_t work_count, uint32_t *log, size_t log_count,
                        uint64_t *out, size_t out_count);

/* Routes a job by a search that aims, and tells how many nodes it expanded. Outcome, log, work memory and the numbers at 3, 4 and 5 are
 * those of arvumnao_route for every job (proved): only time and the count are the search's own.
 *
 * A turn expands the nodes whose distance from the net's tree plus an estimate is at most the joined sink's distance. A node's
 * estimate is the least sum of 100 x base cost on a path from it to a sink that its net has not joined yet, the path's first node
 * left out; in a timed job to the one sink whose turn it is, times 10 - criticality. ARVUMNAO_ROUTE_EXPANDED is the sum over the
 * turns that the call logged, also after ARVUMNAO_LOG_FULL and ARVUMNAO_LIMIT_REACHED.
 * Parameters, the other own numbers and refusals are those of arvumnao_route. */
#define ARVUMNAO_ROUTE_EXPANDED 6
uint32_t arvumnao_route_aimed(const uint8_t *kind, size_t kind_count, const uint8_t *capacity, size_t capacity_count,
                              const uint32_t *first_edge, size_t first_edge_count, const uint16_t *edge_target, size_t edge_target_count,
                              const uint16_t *source, size_t source_count, const uint32_t *first_sink, size_t first_sink_count,
                              const uint16_t *sink, size_t sink_count, const uint16_t *delay, size_t delay_count,
                              const uint8_t *criticality, size_t criticality_count, const uint32_t *terms, size_t terms_count,
                              uint64_t *work, size_t work_count, uint32_t *log, size_t log_count,
                              uint64_t *out, size_t out_count);

/* Continues from the log of a run that ended in whole iterations, for example by ARVUMNAO_LIMIT_REACHED. It rebuilds histories, factor
 * and trees from the log, and appends turns under the job's terms; the limit must be above those iterations. From the job's own log it
 * ends as arvumnao_route does in a log of that length, with the same log (proved), but does not make the lent turns again. Any other
 * log that follows the job is accepted as it is: its paths need not be cheapest.
 *
 * used      how many words of `log` the lent log has. Words after them are ignored and may be overwritten.
 * log       must follow the job. It has one or more whole iterations, from 1 on, each of which leaves a node over capacity; the
 *           last is below the limit. In each the nets that are due make turns, in order, until their sinks are joined. Each turn's
 *           path follows edges and has no node twice. Only its first node is in the net's tree. Its last node is the record's sink,
 *           which was not joined before, and no other unjoined sink is on the path. Its cost is the sum of its nodes' prices
 *           without the first. In a timed job the record's sink is the one whose turn it is, and other unjoined sinks may be on
 *           the path. The lent words stay. After acceptance and after 8 and 9 the appended records follow them.
 * The other parameters and the own numbers are those of arvumnao_route, over the whole log: lent turns and words count.
 * Refusals, tested in this order: ARVUMNAO_BAD_TABLE, ARVUMNAO_TOO_LARGE, ARVUMNAO_SHORT_WORK, ARVUMNAO_UNREACHABLE,
 * ARVUMNAO_DIVERGES, which leaves the log as it was, the work memory 0 and the own numbers 0; then ARVUMNAO_LOG_FULL and
 * ARVUMNAO_LIMIT_REACHED during the run. */
#define ARVUMNAO_RESUME_ITERATION 3
#define ARVUMNAO_RESUME_TURNS 4
#define ARVUMNAO_RESUME_WORDS 5
uint32_t arvumnao_resume(const uint8_t *kind, size_t kind_count, const uint8_t *capacity, size_t capacity_count,
                         const uint32_t *first_edge, size_t first_edge_count, const uint16_t *edge_target, size_t edge_target_count,
                         const uint16_t *source, size_t source_count, const uint32_t *first_sink, size_t first_sink_count,
                         const uint16_t *sink, size_t sink_count, const uint16_t *delay, size_t delay_count,
                         const uint8_t *criticality, size_t criticality_count, const uint32_t *terms, size_t terms_count, uint64_t used,
                         uint64_t *work, size_t work_count, uint32_t *log, size_t log_count,
                         uint64_t *out, size_t out_count);

/* Goes on from a log as arvumnao_resume does, by the search that aims: outcome, log, work memory and the numbers at 3, 4 and 5 are those of
 * arvumnao_resume (proved). ARVUMNAO_RESUME_EXPANDED counts the nodes expanded in the turns that were appended; lent turns, which
 * are not made again, count nothing. Parameters, the other own numbers and refusals are those of arvumnao_resume. */
#define ARVUMNAO_RESUME_EXPANDED 6
uint32_t arvumnao_resume_aimed(const uint8_t *kind, size_t kind_count, const uint8_t *capacity, size_t capacity_count,
                               const uint32_t *first_edge, size_t first_edge_count, const uint16_t *edge_target, size_t edge_target_count,
                               const uint16_t *source, size_t source_count, const uint32_t *first_sink, size_t first_sink_count,
                               const uint16_t *sink, size_t sink_count, const uint16_t *delay, size_t delay_count,
                               const uint8_t *criticality, size_t criticality_count, const uint32_t *terms, size_t terms_count,
                               uint64_t used, uint64_t *work, size_t work_count, uint32_t *log, size_t log_count,
                               uint64_t *out, size_t out_count);

/* Audits a log, whoever wrote it: are its turns this job's, and is each a cheapest one? Of a log that is sound every turn is as the
 * specification asks of this router's own, and if its last iteration is whole and leaves no node over capacity, its final trees are those
 * of an accepted job. Of the first turn that isn't cheapest the finding tells word place, cost and the least cost: a path of that cost
 * exists (all this is proved). Logs of arvumnao_route and arvumnao_resume that go back to no other router's are sound (proved).
 *
 * used      how many words of `log` are audited. Words past them are not read.
 * log       is only read. Its records follow the job as for arvumnao_resume, but it may end behind any record, also behind an
 *           iteration that settles or is the last of the limit; no record may come after either. It may have no record at all.
 * out[ARVUMNAO_REFUSAL] is 0 where the log is sound, and ARVUMNAO_NOT_CHEAPEST, which is a finding and no refusal, with word place and
 * cost at the next two places, where a turn isn't cheapest.
 * Own numbers, 0 after a refusal: the turns before the one that is told, of a sound log all; the iterations that are whole; the nodes
 * over capacity after the last of these, 0 where none is whole; the least cost of the turn that isn't cheapest, else 0.
 * The other parameters are those of arvumnao_route. After a sound log, a finding, 7 and 14 the work memory is 0 as there.
 * Refusals, tested in this order: ARVUMNAO_BAD_TABLE, ARVUMNAO_TOO_LARGE, ARVUMNAO_SHORT_WORK, ARVUMNAO_UNREACHABLE; then
 * ARVUMNAO_DIVERGES with the word place of the first record that doesn't follow the job, unless a turn before it isn't cheapest. */
#define ARVUMNAO_AUDIT_TURNS 3
#define ARVUMNAO_AUDIT_WHOLE 4
#define ARVUMNAO_AUDIT_OVER 5
#define ARVUMNAO_AUDIT_LEAST 6
uint32_t arvumnao_audit(const uint8_t *kind, size_t kind_count, const uint8_t *capacity, size_t capacity_count,
                        const uint32_t *first_edge, size_t first_edge_count, const uint16_t *edge_target, size_t edge_target_count,
                        const uint16_t *source, size_t source_count, const uint32_t *first_sink, size_t first_sink_count,
                        const uint16_t *sink, size_t sink_count, const uint16_t *delay, size_t delay_count,
                        const uint8_t *criticality, size_t criticality_count, const uint32_t *terms, size_t terms_count, uint64_t used,
                        uint64_t *work, size_t work_count, const uint32_t *log, size_t log_count,
                        uint64_t *out, size_t out_count);

/* Reads a job text into the seven tables, and into tables 9 and 10 if it is timed. Its own numbers are the counts of the job and its
 * terms.
 *
 * text      of any length: the program's bound of 65,536 bytes does not apply.
 * tables    may be longer than the job needs; further entries stay. Tables 3 and 6 need one entry more than there
 *           are nodes and nets, table 10 as many as table 7. ARVUMNAO_NODES_MOST and the like are enough for every job.
 * The terms are in the order in which arvumnao_route takes them, from ARVUMNAO_READ_LIMIT on. Without a P line the tuning is
 * ARVUMNAO_PLAIN_TUNING, without a V line the rule is ARVUMNAO_RULE_ALL, without its second number `until` is 1. `timed` is 1 with a W
 * line and 0 without it.
 * Refusals, tested in this order: the first faulty line by ARVUMNAO_BAD_SHAPE, else ARVUMNAO_BAD_VALUE, else
 * ARVUMNAO_BAD_ORDER; then ARVUMNAO_SHORT_TABLE (1 to 7, 9 and 10); then ARVUMNAO_TOO_LARGE. */
#define ARVUMNAO_READ_NODES 3
#define ARVUMNAO_READ_EDGES 4
#define ARVUMNAO_READ_NETS 5
#define ARVUMNAO_READ_SINKS 6
#define ARVUMNAO_READ_LIMIT 7
#define ARVUMNAO_READ_FIRST 8
#define ARVUMNAO_READ_UP 9
#define ARVUMNAO_READ_DOWN 10
#define ARVUMNAO_READ_STEP 11
#define ARVUMNAO_READ_RULE 12
#define ARVUMNAO_READ_UNTIL 13
#define ARVUMNAO_READ_TIMED 14
uint32_t arvumnao_read(const uint8_t *text, size_t text_count, uint8_t *kind, size_t kind_count, uint8_t *capacity, size_t capacity_count,
                       uint32_t *first_edge, size_t first_edge_count, uint16_t *edge_target, size_t edge_target_count,
                       uint16_t *source, size_t source_count, uint32_t *first_sink, size_t first_sink_count,
                       uint16_t *sink, size_t sink_count, uint16_t *delay, size_t delay_count,
                       uint8_t *criticality, size_t criticality_count,
                       uint64_t *out, size_t out_count);

/* Writes the routes text of a log: an R line; net by net B lines, from its records of the latest iteration in which it has any;
 * and a J line for each net that was joined into another.
 *
 * source    table 5 of the job that was routed. Here its rule is 1 to 512 entries, each below 4,096: the writer knows no kinds.
 * log       the words used of it, not the whole slice that was lent to arvumnao_route. A record whose net is not in table 5,
 *           or is not the first net of its source, is unsound.
 * buffer    gets the text, without a 0 at its end; bytes after it stay. To learn the length needed, call with an empty
 *           buffer: the answer is ARVUMNAO_SHORT_BUFFER with the bytes needed, or one of the other refusals.
 * Refusals, tested in this order: ARVUMNAO_BAD_TABLE with 5, ARVUMNAO_BAD_RECORD, ARVUMNAO_SHORT_BUFFER. The writer can't know
 * whether the run was accepted; the routes of a refused run leave nodes overfull or nets unrouted. */
#define ARVUMNAO_WRITE_BYTES 3
uint32_t arvumnao_write(const uint16_t *source, size_t source_count, const uint32_t *log, size_t log_count,
                        uint8_t *buffer, size_t buffer_count, uint64_t *out, size_t out_count);

/* Writes the same branches as a picture in the DOT language of Graphviz: `digraph r {`, a line `from -> to [label="net"];` for each
 * B line of the routes text, in its order, and `}`. Parameters, refusals and numbers are those of arvumnao_write;
 * ARVUMNAO_SHORT_BUFFER has the picture's own length. */
#define ARVUMNAO_DOT_BYTES 3
uint32_t arvumnao_dot(const uint16_t *source, size_t source_count, const uint32_t *log, size_t log_count,
                      uint8_t *buffer, size_t buffer_count, uint64_t *out, size_t out_count);

/* Adds the log of a job to counts of how much the nodes of one block are used, kind by kind, over many jobs. A kind's uses are the
 * sum, over all logs added and all nodes of the kind, of the nets whose final tree has the node: a node on two paths of a net
 * counts once. A net's final tree is the nodes of its records of the latest iteration in which it has any. The order
 * of the logs makes no difference, and the uses of a log sum to the sizes of its final trees. Counts of several parts, each begun
 * with 0, may be added entry by entry, and their numbers of logs too.
 *
 * counts    ARVUMNAO_COUNTS entries, the uses of each kind, at first all 0; further entries stay. If there are fewer, the call
 *           does nothing and returns 0, as with a short `out`.
 * logs      the number of logs counted so far, at first 0. The own number is the one for the next call: one more after an accepted
 *           log, the same after a refusal.
 * log       the words used of it. Its records must be sound as for arvumnao_write, but may be of any net below 512, and have
 *           no node that the block lacks. The call does not test which job it is from, nor whether that job was accepted.
 * Refusals, tested in this order: ARVUMNAO_BAD_TABLE (1 to 4); ARVUMNAO_BAD_NUMBER with 54 for more than ARVUMNAO_LOGS_MOST logs, else with
 * the lowest kind that has more uses than 512 x logs x its nodes; ARVUMNAO_BAD_RECORD; ARVUMNAO_COUNTS_FULL. A refused log
 * adds nothing. Counts that began with 0 and are changed only by this call, for one block, never get ARVUMNAO_BAD_NUMBER. */
#define ARVUMNAO_USES_ADD_LOGS 3
uint32_t arvumnao_uses_add(const uint8_t *kind, size_t kind_count, const uint8_t *capacity, size_t capacity_count,
                           const uint32_t *first_edge, size_t first_edge_count, const uint16_t *edge_target, size_t edge_target_count,
                           uint64_t *counts, size_t counts_count, uint64_t logs, const uint32_t *log, size_t log_count,
                           uint64_t *out, size_t out_count);

/* Writes such counts: for each kind from 0 to 53 a line `U,kind,uses,capacity`, where capacity is that of all nodes of the kind
 * times the number of logs.
 *
 * counts    and logs are those of arvumnao_uses_add.
 * buffer    gets the text, without a 0 at its end; bytes after it stay. ARVUMNAO_USES_BYTES are always enough.
 * Refusals, tested in this order: ARVUMNAO_BAD_TABLE and ARVUMNAO_BAD_NUMBER as there; ARVUMNAO_SHORT_BUFFER. */
#define ARVUMNAO_USES_WRITE_BYTES 3
uint32_t arvumnao_uses_write(const uint8_t *kind, size_t kind_count, const uint8_t *capacity, size_t capacity_count,
                             const uint32_t *first_edge, size_t first_edge_count, const uint16_t *edge_target, size_t edge_target_count,
                             const uint64_t *counts, size_t counts_count, uint64_t logs, uint8_t *buffer, size_t buffer_count,
                             uint64_t *out, size_t out_count);

#ifdef __cplusplus
}
#endif

#endif
