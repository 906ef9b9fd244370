/* Brothanchor: the map-maker of a laserdisc transfer desk, for C.
 *
 * Link libdesk.a (tools/staticlib desk OUT), for x86-64 Linux. All memory is lent by the caller; nothing is kept between calls.
 * An area is a pointer and its number of elements; an empty area may have any pointer. Areas of one call must not overlap.
 * A call that is refused at its entry changes nothing, but for the answer of a work call, of a divergence, of a parking, of a
 * reading, of a removal, of an import, of a writing of lists, of a strip, of a file for the monitor or of a salvage. Longer areas keep
 * what lies past what is asked for.
 *
 * Refusal numbers (0: none)
 *   1  c is 0 or above 8
 *   2  the perplexity is not finite or not above 0
 *   3  the learning rate is not finite or not above 0
 *   4  iterations are 0 or above 65,535
 *   5  a Barnes-Hut angle is not finite or outside [0, 1)
 *   6  a Barnes-Hut run has c above 3
 *   7  n is 0 or above 4096, f is 0 or above 256, or the table's length is not n*f
 *   8  a table value is not finite or above 2^20 in magnitude
 *   9  n is 1; removal: fewer than two frames would be left
 *  10  the perplexity is not below n; removal: not below the number of frames that would be left
 *  11  the start's length is not n*c, or a start value is not finite or above 2^20 in magnitude
 *  12  a lent area is too short
 *  14  the next point needs more nodes than the arena has left; with a longer arena the run goes on
 *  15  the step would give a value that is NaN or above 2^100 in magnitude; parking: a position, increment or gain is one;
 *      removal: a centred position would be one; strip: a position is one
 *  16  a record of a frame file, of a parked run or of a file for the monitor is bad; writing for the monitor: a frame's picture,
 *      side, field or order is
 *  17  no iteration has just ended, or the forces give a total of 0; parking and removal: a unit of an iteration is done, and not
 *      its last; writing lists: the run is exact and has none; strip: the run has not ended
 *  18  removal: the list does not rise strictly or names a sample that there is not, or more links would be left than the lists
 *      of so many frames may have
 *  19  import: a rule of a partner's list fails at a record
 *  20  strip, preparing and handing out: the settings are outside the profile, which is c 1, Barnes-Hut, an angle of at most 0.5 and
 *      n at most 1024
 *  21  the words are no settings, or a record's settings are bad: 1 to 10 would be given of them, or there is no such method
 *  22  of a record there are fewer than fourteen words, there is no such state, or counters or phase are bad: state, iterations
 *      done, units done in the iteration and in all do not fit each other
 *  23  the offsets are bad: the first is not 0, or the end of a frame's list falls below the one before it or passes 2*n*k
 *  24  a listed index names no frame
 *  25  the tree is bad, inside an iteration: the number of nodes in use is, or a node
 *  26  writing for the monitor: a coordinate is not finite, or rounds past the largest single-precision number
 * 13 is not used.
 *
 * 21 to 25 are what a call that is lent a run (work, divergence, park, take_out, lists, strip) finds before it does anything. With each
 * comes what to look at, in word BROTHANCHOR_VALUE of a work call's answer and in word 0 of any other's:
 *  21  the number from 1 to 10 that preparation would give of the settings alone, the lowest first; 21 for a method that there is not
 *  22  0
 *  23  the frame whose list ends at the bad offset, the lowest first, from 0; also 0 where the first offset is not 0, which ends no list
 *  24  the place of the index in its area, the lowest first, from 0
 *  25  the node, the lowest first, from 0; also 0 where the number of nodes in use is 0 or above the arena
 * They are tested in the order 21, 22, 12, 23, 24, 25: the first to fail is told. Words that are no record come first: fewer than
 * fourteen are 22, whatever they hold; of fourteen or more the settings are looked at before the state, so that a state that there
 * is not is told only of good settings.
 */

/* What areas may hold: any bits, NaNs of every kind among them. A call tests whatever it goes by, so no contents can lead it
 * outside what is lent. But the memory must have been initialised once, as by calloc: C gives no meaning to reading what never
 * was. Pointers must fit their elements' alignment, and a pointer and its length must belong together.
 *
 * What a refused call writes:
 *   sizes, prepare, prepare_strip,   nothing
 *   blind, scatter, frame
 *   frames                           with 16 the place of the bad record; with 12 nothing
 *   work, refused at its entry       (12, 21 to 25) the answer and nothing else; with an answer area that is too short nothing
 *   work, refused by a unit          (14, 15) all that the units before it wrote: record and memory are as after these units,
 *                                    which the answer counts, and the refused unit has changed nothing
 *   divergence, park, unpark,        the first word of the answer; with an answer area that is empty nothing
 *   take_out, import, lists, strip,
 *   monitor_write, monitor_read
 *   salvage                          the first word of the answer; with an answer area below two words nothing
 * After 14 or 15 the run is still running, and the next call begins with the refused unit. After 14 it goes on where the nodes
 * are moved to a longer arena, those in use with their contents.
 *
 * Stack: a call takes less than 16 KiB where the nodes are those that the library wrote; such trees are at most 51 levels deep.
 * Altered nodes can hang below each other as deep as there are nodes in use. Then a work call takes about 2.4 KiB more for each
 * 256 levels: 2 MiB are enough for every arena as long as brothanchor_sizes tells, 8 MiB for 800,000 levels. No other call
 * grows with what it is lent. A work call over altered nodes ends too, but where they share children it may visit twice as many
 * at each level. */
#ifndef BROTHANCHOR_H
#define BROTHANCHOR_H

#include <stddef.h>
#include <stdint.h>

#ifdef __cplusplus
extern "C" {
#endif

/* Settings are nine words; a value (perplexity, rate, angle, minimum) is given by its bits. */
enum {
    BROTHANCHOR_N,          /* samples, the frames on the map */
    BROTHANCHOR_F,          /* features of a frame */
    BROTHANCHOR_C,          /* components of the map */
    BROTHANCHOR_METHOD,     /* 0 exact, 1 Barnes-Hut */
    BROTHANCHOR_PERPLEXITY,
    BROTHANCHOR_RATE,       /* the learning rate */
    BROTHANCHOR_ITERATIONS,
    BROTHANCHOR_ANGLE,      /* not looked at in an exact run */
    BROTHANCHOR_MINIMUM,    /* the gradient norm below which a run stops; NaN, zero or negative never stops one */
    BROTHANCHOR_SETTINGS_WORDS
};

/* A record is fourteen words: the settings, then these. A host may keep it as it is. */
enum {
    BROTHANCHOR_STATE = BROTHANCHOR_SETTINGS_WORDS, /* 0 running, 1 stopped, 2 finished */
    BROTHANCHOR_ITERATIONS_DONE,
    BROTHANCHOR_PHASE,      /* units done in the current iteration */
    BROTHANCHOR_UNITS_DONE, /* units done in all */
    BROTHANCHOR_NODES_USED,
    BROTHANCHOR_RECORD_WORDS
};

/* The answer of a work call is five words. */
enum {
    BROTHANCHOR_KIND,   /* 0 running, 1 stopped, 2 finished, 3 refused */
    BROTHANCHOR_NUMBER, /* of the refusal, or 0 */
    BROTHANCHOR_UNITS,  /* units done in this call */
    BROTHANCHOR_FAULT,  /* 0 none, 1 settings (21), 2 counters or phase (22), 3 areas (12), 4 offsets (23), 5 listed index (24),
                           6 tree (25) */
    BROTHANCHOR_VALUE,  /* with it: the number that the settings would have had (21 for a method that there is not), the frame,
                           the place, the node */
    BROTHANCHOR_ANSWER_WORDS
};

/* Sizes are seven words. */
enum {
    BROTHANCHOR_CELLS,          /* positions, increments and gains, each */
    BROTHANCHOR_AFFINITIES,
    BROTHANCHOR_INDICES,        /* 0 for an exact run */
    BROTHANCHOR_OFFSETS,        /* 0 for an exact run */
    BROTHANCHOR_FORCES,
    BROTHANCHOR_ROWS,           /* row values and row indices, each */
    BROTHANCHOR_NODES,          /* nodes of an arena with which 14 never comes; 0 for an exact run */
    BROTHANCHOR_SIZES_WORDS
};

/* A node of the arena, in which the library keeps its tree: a cell of the map, with the points that lie in it. A caller
 * lends an array of nodes and need not look at them. Any bits are a node, so whatever an arena holds may be lent; but the
 * memory must have been initialised once, as by calloc. The four bytes after leaf are padding. */
struct brothanchor_node {
    double centre[3]; /* the middle of the cell, by component; of fewer than three components the others are 0 */
    double half[3];   /* half the cell's width in each component */
    double mass[3];   /* the mean of the cell's points */
    uint32_t count;   /* how many points lie in the cell */
    uint32_t first;   /* the number of the first of the cell's 2^c children, which stand in a row; 0 for a leaf */
    uint32_t leaf;    /* the point that a leaf holds, and 1; 0 where it holds none */
};

/* A node has 88 bytes; a compiler that lays it out otherwise stops here. */
typedef char brothanchor_node_has_88_bytes[sizeof(struct brothanchor_node) == 88 ? 1 : -1];

/* How long the areas must be, in the first seven words of sizes. Answers 0; 21 where the words are no settings, 12 where
 * sizes is shorter than seven words, or the number that 1 to 10 would give of the settings alone. Of the arena it tells the
 * number of nodes with which 14 never comes; one node is enough to begin, and more than 2^32 - 1 are never used. */
uint32_t brothanchor_sizes(const uint64_t *settings, size_t settings_length, uint64_t *sizes, size_t sizes_length);

/* Prepares a run and writes its record. Answers 0 or the number of the refusal; refused, nothing is changed. 21 where the
 * words are no settings, before all else; then 1 to 12 in their order. A record area shorter than fourteen words is 12, as
 * any other area. Of the arena it is told the number of nodes, no more: preparation reads and writes none. */
uint32_t brothanchor_prepare(
    const uint64_t *settings, size_t settings_length,
    const double *table, size_t table_length,
    const double *start, size_t start_length,
    double *positions, size_t positions_length,
    double *increments, size_t increments_length,
    double *gains, size_t gains_length,
    double *affinities, size_t affinities_length,
    uint32_t *indices, size_t indices_length,
    uint32_t *offsets, size_t offsets_length,
    double *forces, size_t forces_length,
    double *row_values, size_t row_values_length,
    uint32_t *row_indices, size_t row_indices_length,
    size_t nodes_length,
    uint64_t *record, size_t record_length);

/* Prepares the run of a strip, of frames along one line: as brothanchor_prepare does, with one more test. Answers 0 or the number of
 * the refusal; refused, nothing is changed. In this order:
 *   21       the words are no settings: fewer than nine, or a method that there is not
 *   1 to 11  as of a preparation
 *   20       the settings are outside the profile: c is not 1, the run is exact, the angle is above 0.5, or n is above 1024
 *   12       an area is too short, as of a preparation, or the record's is shorter than fourteen words
 * The record is that of any run: it is worked, parked, thinned and asked for its divergence as any other. */
uint32_t brothanchor_prepare_strip(
    const uint64_t *settings, size_t settings_length,
    const double *table, size_t table_length,
    const double *start, size_t start_length,
    double *positions, size_t positions_length,
    double *increments, size_t increments_length,
    double *gains, size_t gains_length,
    double *affinities, size_t affinities_length,
    uint32_t *indices, size_t indices_length,
    uint32_t *offsets, size_t offsets_length,
    double *forces, size_t forces_length,
    double *row_values, size_t row_values_length,
    uint32_t *row_indices, size_t row_indices_length,
    size_t nodes_length,
    uint64_t *record, size_t record_length);

/* How many frames the sigma search leaves blind, asked of a table before a run is prepared from it. The search weighs a frame's
 * neighbours by their squared distances. Where the weights of a round add up to less than 1e-8, all shares of that round are made equal. A
 * frame is blind where its last round is such a one: its neighbours all count alike, the nearest no more than the farthest. It comes
 * about in three ways:
 *   its neighbours lie too far off, the nearest at another place more than about 6 away; a table multiplied by a factor below 1 helps
 *   sigma is halved too far: at one sigma the perplexity is too high, at half of it the weights are too small. So it is where its nearest
 *   neighbours are about equally near; a factor that is no power of two may help, or a higher perplexity. One below 0.99999 is never met
 *   it is alone: every distance that is searched comes out as 0, and so do all weights. Where the frames are the same no factor helps;
 *   distances between others may round away or underflow
 *
 * What a preparation by the same settings would search is searched: the distances to the k nearest frames, or by the exact method to all
 * n. Of the settings n, f, the method and the perplexity are looked at, and nothing else. The table is only read. The four rows, of n
 * places each, are worked in, and their first n places end as zeros; longer ones keep their tails.
 *
 * Answers 0, and writes how many frames are blind to the first word of the answer and how many of these are alone to the second; or the
 * number of the refusal, and then nothing at all is changed. In this order:
 *   21  the words are no settings: fewer than nine, or a method that there is not
 *    2  the perplexity is not finite or not above 0
 *    7  n is 0 or above 4096, f is 0 or above 256, or the table's length is not n*f
 *    8  a table value is not finite or above 2^20 in magnitude
 *    9  n is 1
 *   10  the perplexity is not below n
 *   12  a row has fewer than n places, or the answer fewer than two words */
uint32_t brothanchor_blind(
    const uint64_t *settings, size_t settings_length,
    const double *table, size_t table_length,
    double *squares, size_t squares_length,
    double *row_values, size_t row_values_length,
    double *row_shares, size_t row_shares_length,
    uint32_t *row_indices, size_t row_indices_length,
    uint64_t *answer, size_t answer_length);

/* Does units until the budget is done, one is refused or the run has ended. Answers 0 or the number of the refusal, and
 * writes the answer and, of the record, the five words after the settings: the settings keep their bits. Refused at its
 * entry (12, 21 to 25) it writes the answer alone. An answer area shorter than five words is 12 before all else, and nothing
 * is changed: without it nothing can be told. In this order:
 *   12  the answer area is too short
 *   22  there are fewer than fourteen words
 *   21  a method that there is not (21 comes with it), or settings that are bad (with the number of 1 to 10)
 *   22  a state that there is not, or counters or phase that are bad
 *   12  an area is too short
 *   23  the offsets are bad (with the frame)
 *   24  a listed index is bad (with its place)
 *   25  the tree is bad (with the node)
 *   14, 15  by a unit */
uint32_t brothanchor_work(
    uint64_t *record, size_t record_length,
    double *positions, size_t positions_length,
    double *increments, size_t increments_length,
    double *gains, size_t gains_length,
    const double *affinities, size_t affinities_length,
    const uint32_t *indices, size_t indices_length,
    const uint32_t *offsets, size_t offsets_length,
    double *forces, size_t forces_length,
    struct brothanchor_node *nodes, size_t nodes_length,
    uint32_t budget,
    uint64_t *answer, size_t answer_length);

/* The Kullback-Leibler figure of the iteration just finished: how far the map's closeness is from the frames'. It reads the
 * record's words, the areas of a work call and a copy, and changes none of them. The copy holds the positions as they were
 * before that iteration's step, n*c values or more. Positions change in an iteration's last unit alone, so a caller may take it
 * at any moment of the iteration. Its bits are taken as they are. A run that has ended stands after an iteration too.
 *
 * Answers 0, and writes the figure's bits to the first word of the answer; or the number of the refusal, and writes what comes
 * with it there, as in word BROTHANCHOR_VALUE of a work call, 0 where nothing does. No other word is written. In this order:
 *   12  the answer area is empty: nothing can be told
 *   22  there are fewer than fourteen words; then 21 and 22 as in a work call, with what comes with them there
 *   12  an area is too short, as in a work call, or the copy has fewer than n*c values
 *   23, 24, 25  the offsets, a listed index or the tree is bad, as in a work call, with what comes with them there
 *   17  no iteration is done, a unit of the next one is done, or the forces give a total of 0, as those of a run just prepared
 * Of altered areas the figure may be infinite or NaN, which is told as 7FF8000000000000. */
uint32_t brothanchor_divergence(
    const uint64_t *record, size_t record_length,
    const double *positions, size_t positions_length,
    const double *increments, size_t increments_length,
    const double *gains, size_t gains_length,
    const double *affinities, size_t affinities_length,
    const uint32_t *indices, size_t indices_length,
    const uint32_t *offsets, size_t offsets_length,
    const double *forces, size_t forces_length,
    const struct brothanchor_node *nodes, size_t nodes_length,
    const double *copy, size_t copy_length,
    uint64_t *answer, size_t answer_length);

/* A run parked: written into records of 32 bytes, each of four little-endian values of 8 bytes, numbers as they are and values
 * by their bits. It reads the record's words and the areas of a work call and changes none of them, and writes the records to the
 * front of the target:
 *   record 0   method (0 exact, 1 Barnes-Hut), n, f, c
 *   record 1   perplexity, rate, iterations, angle (zero bits for an exact run)
 *   record 2   minimum, iterations done, state (0 running, 1 stopped, 2 finished), links listed (0 for an exact run)
 *   then       positions, increments and gains, n*c values each; exact: the n*n affinities; Barnes-Hut: the n+1 offsets, the
 *              links' indices, the links' weights
 * Each area begins with a record of its own and is filled up with zero bits to a whole one. So a run has
 * 3 + 3*up(n*c) + up(n*n) records, a Barnes-Hut run 3 + 3*up(n*c) + up(n+1) + 2*up(links), where up(m) is (m+3)/4 rounded down
 * and links the last offset; with the weights' number of brothanchor_sizes in its place the target is always long enough. The
 * bits of every value are kept, those of a NaN too (the minimum, an affinity or a weight may be one). Forces and nodes are not
 * written. A longer target keeps its tail.
 *
 * Answers 0, and writes the number of records to the first word of the answer; or the number of the refusal, and writes what
 * comes with it there: with 21 to 25 what a work call tells, else 0. Refused, it writes nothing else. In this order:
 *   12  the answer area is empty: nothing can be told
 *   22  there are fewer than fourteen words; then 21 and 22 as in a work call, with what comes with them there
 *   12  an area is too short, as in a work call
 *   23, 24, 25  the offsets, a listed index or the tree is bad, as in a work call, with what comes with them there
 *   17  a unit of the next iteration is done: a run is parked between two iterations, or before the first, or at its end
 *   15  a position, increment or gain is NaN or above 2^100 in magnitude
 *   12  the target is shorter than the records need */
uint32_t brothanchor_park(
    const uint64_t *record, size_t record_length,
    const double *positions, size_t positions_length,
    const double *increments, size_t increments_length,
    const double *gains, size_t gains_length,
    const double *affinities, size_t affinities_length,
    const uint32_t *indices, size_t indices_length,
    const uint32_t *offsets, size_t offsets_length,
    const double *forces, size_t forces_length,
    const struct brothanchor_node *nodes, size_t nodes_length,
    uint8_t *target, size_t target_length,
    uint64_t *answer, size_t answer_length);

/* A parked run read back: the fourteen words of its record, with no node in use; positions, increments, gains and affinities or
 * lists as they were parked, to the last bit; forces all 0. Areas may be longer, and the record's too: what lies past the record,
 * the areas and the links listed keeps what it held. An exact run's indices and offsets are left alone and may be empty. Of the
 * arena it is told the number of nodes, no more: it reads and writes none. With an arena as long as before, the run goes on as if
 * it had not been parked. The file's first two records say how long the areas must be (brothanchor_sizes, with their eight
 * numbers as settings and any minimum).
 *
 * Answers 0, and writes the number of records to the first word of the answer; or the number of the refusal, and writes what
 * comes with it there. Refused, it writes nothing else. In this order:
 *   12  the answer area is empty: nothing can be told
 *   16  a record is bad: no parked run begins with the records before it and this one. With it comes its place, counted from 0.
 *       A missing record is bad, bytes past the last one make one more, which is bad, and so is a broken one
 *   12  an area is too short, as in a work call, or the record's is shorter than fourteen words (0 comes with it) */
uint32_t brothanchor_unpark(
    const uint8_t *file, size_t file_length,
    uint64_t *record, size_t record_length,
    double *positions, size_t positions_length,
    double *increments, size_t increments_length,
    double *gains, size_t gains_length,
    double *affinities, size_t affinities_length,
    uint32_t *indices, size_t indices_length,
    uint32_t *offsets, size_t offsets_length,
    double *forces, size_t forces_length,
    size_t nodes_length,
    uint64_t *answer, size_t answer_length);

/* Frames taken out of a run and of its table. The list names the samples that go, rising strictly; an empty list is a removal too.
 * Those that stay close ranks in their order, in the front of each area: the rows of the table (f values each), positions,
 * increments and gains (c values each), the rows and columns of an exact run's affinities, a Barnes-Hut run's lists, in which
 * links to samples that went are left out and the others have their new numbers. The values of table, increments, gains and
 * affinities keep their bits, those of a NaN too. Then the positions are centred: of each component the mean of those that are
 * left is taken off. The first words of old tell where each that is left stood before; as many places as there were samples
 * are asked for, and those past the samples left keep what they held. What becomes free is set to 0 as far as it was in use:
 * the table to n*f values, positions, increments and gains to n*c, the matrix to n*n, offsets to n+1, indices and weights to
 * the links that were listed, with n as it was before; and all n*(2c+1) forces.
 * Nodes are only read. An exact run's indices and offsets are left alone.
 *
 * In the record n and the units done are new: iterations done times the units of an iteration of so many samples. A run that has
 * ended may be thinned and has ended still. The run goes on with the areas as they are, or with any that are long enough for the
 * new n. There is no divergence (17) until the next iteration has ended.
 *
 * Answers 0, and writes the number of samples left to the first word of the answer; or the number of the refusal, and writes what
 * comes with it there: with 21 to 25 what a work call tells, else 0. Refused, it writes nothing else. In this order:
 *   12  the answer area is empty: nothing can be told
 *   22  there are fewer than fourteen words; then 21 and 22 as in a work call, with what comes with them there
 *   12  an area is too short, as in a work call, or the table has fewer than n*f values, or old fewer than n places
 *   23, 24, 25  the offsets, a listed index or the tree is bad, as in a work call, with what comes with them there
 *   17  a unit of the next iteration is done: frames are taken out between two iterations, before the first, or at the end
 *   18  the list does not rise strictly, or names a sample that is not below n
 *    9  fewer than two samples would be left
 *   10  the perplexity is not below the number of samples that would be left
 *   18  more links would be left than 2*n*k, with the new n and its k (Barnes-Hut)
 *   15  a centred position would be NaN or above 2^100 in magnitude */
uint32_t brothanchor_take_out(
    uint64_t *record, size_t record_length,
    double *positions, size_t positions_length,
    double *increments, size_t increments_length,
    double *gains, size_t gains_length,
    double *affinities, size_t affinities_length,
    uint32_t *indices, size_t indices_length,
    uint32_t *offsets, size_t offsets_length,
    double *forces, size_t forces_length,
    const struct brothanchor_node *nodes, size_t nodes_length,
    double *table, size_t table_length,
    const uint32_t *gone, size_t gone_length,
    uint32_t *old, size_t old_length,
    uint64_t *answer, size_t answer_length);

/* A neighbour list that another tool made, checked and loaded: a Barnes-Hut run may start from it. The file has records of 16
 * bytes, little-endian, and no header: from (4 bytes), to (4 bytes), weight (8 bytes, a double by its bits). It is accepted just
 * where these rules hold, with k as brothanchor_prepare takes it (2*n*k is the indices' number of brothanchor_sizes):
 *   there are at most 2*n*k records, and no bytes past the last whole one
 *   both indices of every record are below n
 *   the pairs (from, to) rise strictly: from one record to the next from rises, or stays and to rises
 *   no frame links itself: from is not to
 *   every weight is finite and above zero
 *   every link has its mirror: a record with from and to exchanged and the same bits of weight
 * A file of no bytes is a list of no links.
 *
 * The settings are those of a preparation, but the run is Barnes-Hut whatever their word for the method holds; there is no table,
 * and f is only kept. Loaded: the fourteen words of the record, with nothing done and no node in use; indices and weights in the
 * file's order, and the n+1 offsets that count them; positions as the start; increments and forces 0, gains 1. Areas may be
 * longer, and the record's too: what lies past the record, the areas and the links keeps what it held. Of the arena it is told
 * the number of nodes, no more: it reads and writes none.
 *
 * Answers 0, and writes the number of links to the first word of the answer; or the number of the refusal, and writes what comes
 * with it there: with 19 the place of the record, counted from 0, else 0. Refused, it writes nothing else. In this order:
 *   12       the answer area is empty: nothing can be told
 *   21       there are fewer than nine words of settings (0 comes with it)
 *   1 to 6   as of a preparation, 5 and 6 always
 *   7        n is 0 or above 4096, or f is 0 or above 256
 *   9, 10    as of a preparation
 *   11       the start's length is not n*c, or a start value is not finite or above 2^20 in magnitude
 *   12       an area is too short, as in a work call, or the record's is shorter than fourteen words
 *   19       a rule fails at a record, with the place of the first such. A missing mirror is told at the lonely link; a mirror
 *            counts wherever it stands. The first record too many is bad, and bytes past the last whole one make one more, which
 *            is bad */
uint32_t brothanchor_import(
    const uint64_t *settings, size_t settings_length,
    const double *start, size_t start_length,
    const uint8_t *file, size_t file_length,
    uint64_t *record, size_t record_length,
    double *positions, size_t positions_length,
    double *increments, size_t increments_length,
    double *gains, size_t gains_length,
    double *affinities, size_t affinities_length,
    uint32_t *indices, size_t indices_length,
    uint32_t *offsets, size_t offsets_length,
    double *forces, size_t forces_length,
    size_t nodes_length,
    uint64_t *answer, size_t answer_length);

/* A Barnes-Hut run's lists written as a partner's list, at any moment of the run, inside an iteration too: a record of 16 bytes
 * for each link, as brothanchor_import reads them, frame by frame and each frame's links in their order, weights by their bits
 * whatever they are. It reads the record's words and the areas of a work call and changes none of them. A longer target keeps its
 * tail. Lists of a preparation are accepted by brothanchor_import with the same settings where no weight is zero.
 *
 * Answers 0, and writes the number of records to the first word of the answer; or the number of the refusal, and writes what
 * comes with it there: with 21 to 25 what a work call tells, else 0. Refused, it writes nothing else. In this order:
 *   12  the answer area is empty: nothing can be told
 *   22  there are fewer than fourteen words; then 21 and 22 as in a work call, with what comes with them there
 *   12  an area is too short, as in a work call
 *   23, 24, 25  the offsets, a listed index or the tree is bad, as in a work call, with what comes with them there
 *   17  the run is exact: it has no lists
 *   12  the target is shorter than 16 bytes a link */
uint32_t brothanchor_lists(
    const uint64_t *record, size_t record_length,
    const double *positions, size_t positions_length,
    const double *increments, size_t increments_length,
    const double *gains, size_t gains_length,
    const double *affinities, size_t affinities_length,
    const uint32_t *indices, size_t indices_length,
    const uint32_t *offsets, size_t offsets_length,
    const double *forces, size_t forces_length,
    const struct brothanchor_node *nodes, size_t nodes_length,
    uint8_t *target, size_t target_length,
    uint64_t *answer, size_t answer_length);

/* The frames of an ended run along one line. The first n words of order name the samples by rising position, equal positions by
 * rising sample, where zeros of either sign are equal; each sample is named once. The first n values of gaps have for each of them
 * the distance from the one before it: its position less that one's, as one subtraction, +0.0 for the first. (So the gap from 0.0 to
 * -0.0 is -0.0.) It reads the record's words and the areas of a work call and changes none of them. Longer areas keep their tails.
 * Any ended run within the profile is handed out, however it was prepared, and also where it was parked, read back or thinned.
 *
 * Answers 0, and writes the number of frames, n, to the first word of the answer; or the number of the refusal, and writes what comes
 * with it there: with 21 to 25 what a work call tells, else 0. Refused, it writes nothing else. In this order:
 *   12  the answer area is empty: nothing can be told
 *   22  there are fewer than fourteen words; then 21 and 22 as in a work call, with what comes with them there
 *   12  an area is too short, as in a work call
 *   23, 24, 25  the offsets, a listed index or the tree is bad, as in a work call, with what comes with them there
 *   20  the settings are outside the profile: c is not 1, the run is exact, the angle is above 0.5, or n is above 1024
 *   17  the run has not ended
 *   15  one of the first n positions is NaN or above 2^100 in magnitude
 *   12  the order or the gaps have fewer than n places */
uint32_t brothanchor_strip(
    const uint64_t *record, size_t record_length,
    const double *positions, size_t positions_length,
    const double *increments, size_t increments_length,
    const double *gains, size_t gains_length,
    const double *affinities, size_t affinities_length,
    const uint32_t *indices, size_t indices_length,
    const uint32_t *offsets, size_t offsets_length,
    const double *forces, size_t forces_length,
    const struct brothanchor_node *nodes, size_t nodes_length,
    uint32_t *order, size_t order_length,
    double *gaps, size_t gaps_length,
    uint64_t *answer, size_t answer_length);

/* Frames with two positions each, written for the picture monitor: records of 16 bytes, little-endian, and no header: picture (4
 * bytes), side, field, two zeros, and the two coordinates in single precision (4 bytes each). The first n pictures, sides and fields and
 * the first 2n positions count, two for each frame. A position is rounded to the nearest single-precision number, of two that are
 * equally near to the one whose last bit is 0; the sign is kept, that of a zero too, and so are subnormal numbers. What was rounded
 * once is written unchanged. Longer areas are not looked at past what is asked for, and a longer target keeps its tail.
 *
 * Answers 0, and writes the number of records, n, to the first word of the answer; or the number of the refusal, and writes what comes
 * with it there: with 16 and 26 the frame's place, counted from 0, else 0. Refused, it writes nothing else. In this order:
 *   12  the answer area is empty: nothing can be told
 *   12  there are fewer than n pictures, sides or fields, fewer than 2n positions, or the target has fewer than 16n bytes
 * then at the first faulty frame:
 *   16  its picture is not from 1 to 79,999, its side not 1 or 2, its field not 0, 1 or 2; or it may not follow the frame before it:
 *       the pair of picture and field rises strictly, and a whole frame never shares its picture with a field
 *   26  a coordinate is not finite, or rounds past the largest single-precision number (it is 2^128 - 2^103 or more in magnitude) */
uint32_t brothanchor_monitor_write(
    size_t n,
    const uint32_t *pictures, size_t pictures_length,
    const uint8_t *sides, size_t sides_length,
    const uint8_t *fields, size_t fields_length,
    const double *positions, size_t positions_length,
    uint8_t *target, size_t target_length,
    uint64_t *answer, size_t answer_length);

/* A file for the monitor read back: pictures, sides, fields and positions at the fronts of their areas, two positions for each record,
 * widened without loss. What was read is written as the same bytes. Longer areas keep their tails.
 *
 * Answers 0, and writes the number of records to the first word of the answer; or the number of the refusal, and writes what comes with
 * it there: with 16 the record's place, counted from 0, else 0. Refused, it writes nothing else. In this order:
 *   12  the answer area is empty: nothing can be told
 *   16  a record is bad: picture, side, field or order as for writing, bytes 6 and 7 are not zero, or a coordinate is not finite. Bytes
 *       past the last whole record make one more, which is bad
 *   12  there are fewer pictures, sides or fields than records, or fewer than two positions for each */
uint32_t brothanchor_monitor_read(
    const uint8_t *file, size_t file_length,
    uint32_t *pictures, size_t pictures_length,
    uint8_t *sides, size_t sides_length,
    uint8_t *fields, size_t fields_length,
    double *positions, size_t positions_length,
    uint64_t *answer, size_t answer_length);

/* The good records of a scuffed frame file, copied to the front of the target: each that is good by itself, by the rules of
 * brothanchor_frames, and may follow the last one kept, if any. The first 72 bytes for each record kept are then a frame file that
 * brothanchor_frames takes; a good file comes through unchanged. Of each other record its place, counted from 0, and the first rule that
 * it broke are told, in the order of the file, at the fronts of places and rules. Bytes past the last whole record count as one more
 * record. The rules:
 *   1  picture: it is not from 1 to 79,999
 *   2  side: it is not 1 or 2
 *   3  field: it is not 0, 1 or 2
 *   4  spare bytes: byte 6 or 7 is not zero
 *   5  value: a feature or a start is not finite or above 2^20 in magnitude
 *   6  order: good by itself, but it may not follow the last record kept
 *   7  tail: it is not whole
 * What lies past the records kept, and past the places and rules told, keeps its value.
 *
 * Answers 0, and writes the number of records kept to the first word of the answer and the number told to the second; together they are
 * all records, the tail counted. Or answers 12. In this order:
 *   12  the answer area has fewer than two words: nothing can be told, and nothing is written
 *   12  the target is shorter than the whole records given, or there are fewer places or rules than records, the tail counted: 0 is
 *       written to the first word of the answer, and nothing else */
uint32_t brothanchor_salvage(
    const uint8_t *file, size_t file_length,
    uint8_t *target, size_t target_length,
    uint64_t *places, size_t places_length,
    uint8_t *rules, size_t rules_length,
    uint64_t *answer, size_t answer_length);

/* What a record says. The state is 3, the numbers are 0, where the words are no record. */
uint64_t brothanchor_state(const uint64_t *record, size_t record_length);
uint64_t brothanchor_iterations(const uint64_t *record, size_t record_length);
uint64_t brothanchor_units(const uint64_t *record, size_t record_length);

/* n*c starting positions from a seed. Answers 0, 1, 7 or 12. */
uint32_t brothanchor_scatter(double *positions, size_t positions_length, uint32_t n, uint32_t c, uint64_t seed);

/* The frame file: records of 72 bytes, little-endian: picture (4 bytes, 1 to 79,999), side (1 or 2), field (0 a whole frame, 1 or 2
 * a field of a still), two zeros, six features and two starts (8 bytes each, finite, at most 2^20 in magnitude). The pair of picture
 * and field rises strictly, and a whole frame never shares its picture with a field. Answers 0 and the number of records, or 16 and
 * the place of the first bad one, in the first word of place; 12 where place is empty. */
uint32_t brothanchor_frames(const uint8_t *file, size_t file_length, uint64_t *place, size_t place_length);

/* Record i in eleven words: picture, side, field, six features and two starts by their bits; zeros past the whole records.
 * Answers 0, or 12 where the area is shorter. */
uint32_t brothanchor_frame(const uint8_t *file, size_t file_length, size_t i, uint64_t *frame, size_t frame_length);

#ifdef __cplusplus
}
#endif

#endif
