/* Maps a frame file through include/brothanchor.h, as the wrapper's map program does: map FILE [SEED [FIRST LAST | strip]].
 * Prints a line for each frame: picture, side, field, both coordinates by their bits; then how the run ended, its divergence, and
 * the records of the map for the picture monitor, a line of hex digits each. Before all that it scuffs a copy of the file, which
 * salvage has to sort out, and counts the blind frames of its table, as it is and multiplied. Once it is prepared its lists are written, it is forgotten, and another run is begun from these lists. On
 * its way the run is made bad in several ways, which each call has to tell; it is parked, forgotten and read back; then the frames
 * of the pictures from FIRST to LAST are taken out. A seed that is no number, as -, is none. With strip it puts the frames along one
 * line: a line for each, with its place, picture, side, field, position and gap by their bits, and how the run ended. It is compiled
 * as C and as C++, and calls every function of the header. A refusal that is not asked for ends it with its number and where it
 * came. */
#include <inttypes.h>
#include <stdio.h>
#include <stdlib.h>
#include <string.h>

#include "brothanchor.h"

enum { FRAME_BYTES = 72, FRAME_WORDS = 11, FEATURES = 6, STARTS = 2, MOST_FRAMES = 4096, ITERATIONS = 1000, PARKED_BYTES = 32, LINK_BYTES = 16, MONITOR_BYTES = 16, NIGHT = 40 };

/* What a run is lent. */
struct areas {
    uint64_t record[BROTHANCHOR_RECORD_WORDS];
    double *positions, *increments, *gains, *affinities, *forces, *row_values, *copy;
    uint32_t *indices, *offsets, *row_indices;
    struct brothanchor_node *nodes;
};

static void refused(const char *call, uint32_t number) {
    if (number != 0) {
        fprintf(stderr, "%s: refused %u\n", call, (unsigned)number);
        exit(1);
    }
}

static void *room(uint64_t count, size_t size) {
    void *memory = calloc(count == 0 ? 1 : (size_t)count, size);
    if (memory == NULL) {
        fprintf(stderr, "no memory\n");
        exit(1);
    }
    return memory;
}

static double value(uint64_t bits) {
    double v;
    memcpy(&v, &bits, sizeof v);
    return v;
}

static uint64_t bits(double v) {
    uint64_t b;
    memcpy(&b, &v, sizeof b);
    return b;
}

/* What a map of n frames goes by, as in tests/desk/src/map.rs. */
static void set(uint64_t *settings, size_t n) {
    double third = (double)(n > 2 ? n - 1 : 1) / 3.0, share = (double)n / 48.0;
    settings[BROTHANCHOR_N] = n;
    settings[BROTHANCHOR_F] = FEATURES;
    settings[BROTHANCHOR_C] = STARTS;
    settings[BROTHANCHOR_METHOD] = 1;
    settings[BROTHANCHOR_PERPLEXITY] = bits(third < 30.0 ? third : 30.0);
    settings[BROTHANCHOR_RATE] = bits(share > 50.0 ? share : 50.0);
    settings[BROTHANCHOR_ITERATIONS] = ITERATIONS;
    settings[BROTHANCHOR_ANGLE] = bits(0.5);
    settings[BROTHANCHOR_MINIMUM] = bits(1e-7);
}

static void told(const char *what, uint32_t number, uint32_t wanted, const uint64_t *answer, uint64_t first) {
    if (number != wanted || answer[0] != first || answer[1] != 7) {
        fprintf(stderr, "%s: %u, %" PRIx64 ", %" PRIx64 "\n", what, (unsigned)number, answer[0], answer[1]);
        exit(1);
    }
}

/* Sizes as only C can ask for them: settings that lack a word, a method that there is not, too few words to tell in. */
static void no_sizes(uint64_t *settings) {
    const uint64_t method = settings[BROTHANCHOR_METHOD];
    uint64_t answer[2] = {5, 7};
    told("sizes, two words", brothanchor_sizes(settings, BROTHANCHOR_SETTINGS_WORDS, answer, 2), 12, answer, 5);
    told("sizes, eight words", brothanchor_sizes(settings, BROTHANCHOR_SETTINGS_WORDS - 1, answer, 2), 21, answer, 5);
    settings[BROTHANCHOR_METHOD] = 2;
    told("sizes, no method", brothanchor_sizes(settings, BROTHANCHOR_SETTINGS_WORDS, answer, 2), 21, answer, 5);
    settings[BROTHANCHOR_METHOD] = method;
}

static void lend(struct areas *a, const uint64_t *sizes) {
    a->positions = (double *)room(sizes[BROTHANCHOR_CELLS], sizeof(double));
    a->increments = (double *)room(sizes[BROTHANCHOR_CELLS], sizeof(double));
    a->gains = (double *)room(sizes[BROTHANCHOR_CELLS], sizeof(double));
    a->affinities = (double *)room(sizes[BROTHANCHOR_AFFINITIES], sizeof(double));
    a->indices = (uint32_t *)room(sizes[BROTHANCHOR_INDICES], sizeof(uint32_t));
    a->offsets = (uint32_t *)room(sizes[BROTHANCHOR_OFFSETS], sizeof(uint32_t));
    a->forces = (double *)room(sizes[BROTHANCHOR_FORCES], sizeof(double));
    a->row_values = (double *)room(sizes[BROTHANCHOR_ROWS], sizeof(double));
    a->row_indices = (uint32_t *)room(sizes[BROTHANCHOR_ROWS], sizeof(uint32_t));
    a->copy = (double *)room(sizes[BROTHANCHOR_CELLS], sizeof(double));
    a->nodes = (struct brothanchor_node *)room(sizes[BROTHANCHOR_NODES], sizeof(struct brothanchor_node));
}

static void prepare(struct areas *a, const uint64_t *settings, const uint64_t *sizes, const double *table, const double *start) {
    size_t n = settings[BROTHANCHOR_N];
    refused("prepare", brothanchor_prepare(
        settings, BROTHANCHOR_SETTINGS_WORDS, table, n * FEATURES, start, n * STARTS,
        a->positions, sizes[BROTHANCHOR_CELLS], a->increments, sizes[BROTHANCHOR_CELLS], a->gains, sizes[BROTHANCHOR_CELLS],
        a->affinities, sizes[BROTHANCHOR_AFFINITIES], a->indices, sizes[BROTHANCHOR_INDICES],
        a->offsets, sizes[BROTHANCHOR_OFFSETS], a->forces, sizes[BROTHANCHOR_FORCES],
        a->row_values, sizes[BROTHANCHOR_ROWS], a->row_indices, sizes[BROTHANCHOR_ROWS],
        sizes[BROTHANCHOR_NODES], a->record, BROTHANCHOR_RECORD_WORDS));
}

/* So many units, with the answer's words. */
static uint32_t try_work(struct areas *a, const uint64_t *sizes, uint32_t budget, uint64_t *answer) {
    return brothanchor_work(
        a->record, BROTHANCHOR_RECORD_WORDS,
        a->positions, sizes[BROTHANCHOR_CELLS], a->increments, sizes[BROTHANCHOR_CELLS], a->gains, sizes[BROTHANCHOR_CELLS],
        a->affinities, sizes[BROTHANCHOR_AFFINITIES], a->indices, sizes[BROTHANCHOR_INDICES],
        a->offsets, sizes[BROTHANCHOR_OFFSETS], a->forces, sizes[BROTHANCHOR_FORCES],
        a->nodes, sizes[BROTHANCHOR_NODES], budget, answer, BROTHANCHOR_ANSWER_WORDS);
}

/* So many units of a good run; the kind of the answer. */
static uint64_t work(struct areas *a, const uint64_t *sizes, uint32_t budget) {
    uint64_t answer[BROTHANCHOR_ANSWER_WORDS];
    uint32_t number = try_work(a, sizes, budget, answer);
    if (number != answer[BROTHANCHOR_NUMBER]) {
        fprintf(stderr, "work: answered %u and wrote %" PRIu64 "\n", (unsigned)number, answer[BROTHANCHOR_NUMBER]);
        exit(1);
    }
    refused("work", number);
    return answer[BROTHANCHOR_KIND];
}

/* A divergence by the first so many words of the record, into the first so many of an answer. */
static uint32_t diverge(const struct areas *a, const uint64_t *sizes, size_t words, uint64_t *answer, size_t length) {
    return brothanchor_divergence(
        a->record, words,
        a->positions, sizes[BROTHANCHOR_CELLS], a->increments, sizes[BROTHANCHOR_CELLS], a->gains, sizes[BROTHANCHOR_CELLS],
        a->affinities, sizes[BROTHANCHOR_AFFINITIES], a->indices, sizes[BROTHANCHOR_INDICES],
        a->offsets, sizes[BROTHANCHOR_OFFSETS], a->forces, sizes[BROTHANCHOR_FORCES],
        a->nodes, sizes[BROTHANCHOR_NODES], a->copy, sizes[BROTHANCHOR_CELLS], answer, length);
}

/* The divergence of an ended run; first what only C can ask for: no word to tell in, a record that lacks a word. Of the answer
 * one word is written. */
static double divergence(const struct areas *a, const uint64_t *sizes) {
    uint64_t answer[2] = {5, 7};
    told("divergence, no answer", diverge(a, sizes, BROTHANCHOR_RECORD_WORDS, answer, 0), 12, answer, 5);
    told("divergence, no record and no answer", diverge(a, sizes, 0, answer, 0), 12, answer, 5);
    told("divergence, thirteen words", diverge(a, sizes, BROTHANCHOR_RECORD_WORDS - 1, answer, 2), 22, answer, 0);
    answer[0] = 5;
    told("divergence, no words", diverge(a, sizes, 0, answer, 1), 22, answer, 0);
    refused("divergence", diverge(a, sizes, BROTHANCHOR_RECORD_WORDS, answer, 2));
    told("divergence, a figure", 0, 0, answer, answer[0]);
    return value(answer[0]);
}

/* A parking by the first so many words of the record, to the first so many bytes of a target. */
static uint32_t park(const struct areas *a, const uint64_t *sizes, size_t words, uint8_t *target, size_t bytes,
                     uint64_t *answer, size_t length) {
    return brothanchor_park(
        a->record, words,
        a->positions, sizes[BROTHANCHOR_CELLS], a->increments, sizes[BROTHANCHOR_CELLS], a->gains, sizes[BROTHANCHOR_CELLS],
        a->affinities, sizes[BROTHANCHOR_AFFINITIES], a->indices, sizes[BROTHANCHOR_INDICES],
        a->offsets, sizes[BROTHANCHOR_OFFSETS], a->forces, sizes[BROTHANCHOR_FORCES],
        a->nodes, sizes[BROTHANCHOR_NODES], target, bytes, answer, length);
}

/* A reading of so many bytes, with so many words for the record. */
static uint32_t unpark(struct areas *a, const uint64_t *sizes, const uint8_t *file, size_t bytes, size_t words,
                       uint64_t *answer, size_t length) {
    return brothanchor_unpark(
        file, bytes, a->record, words,
        a->positions, sizes[BROTHANCHOR_CELLS], a->increments, sizes[BROTHANCHOR_CELLS], a->gains, sizes[BROTHANCHOR_CELLS],
        a->affinities, sizes[BROTHANCHOR_AFFINITIES], a->indices, sizes[BROTHANCHOR_INDICES],
        a->offsets, sizes[BROTHANCHOR_OFFSETS], a->forces, sizes[BROTHANCHOR_FORCES],
        sizes[BROTHANCHOR_NODES], answer, length);
}

/* Other bytes in the record and in every area. */
static void forget(struct areas *a, const uint64_t *sizes) {
    memset(a->record, 0x55, sizeof a->record);
    memset(a->positions, 0x55, sizes[BROTHANCHOR_CELLS] * sizeof(double));
    memset(a->increments, 0x55, sizes[BROTHANCHOR_CELLS] * sizeof(double));
    memset(a->gains, 0x55, sizes[BROTHANCHOR_CELLS] * sizeof(double));
    memset(a->affinities, 0x55, sizes[BROTHANCHOR_AFFINITIES] * sizeof(double));
    memset(a->indices, 0x55, sizes[BROTHANCHOR_INDICES] * sizeof(uint32_t));
    memset(a->offsets, 0x55, sizes[BROTHANCHOR_OFFSETS] * sizeof(uint32_t));
    memset(a->forces, 0x55, sizes[BROTHANCHOR_FORCES] * sizeof(double));
    memset(a->nodes, 0x55, sizes[BROTHANCHOR_NODES] * sizeof(struct brothanchor_node));
}

static size_t records(uint64_t values) { return (size_t)((values + 3) / 4); }

/* Parks the run, forgets it and reads it back, each first as only C can ask for it: no word to tell in, a record that lacks a
 * word. What is read is parked as the same bytes. */
static void overnight(struct areas *a, const uint64_t *sizes) {
    size_t most = PARKED_BYTES * (3 + 3 * records(sizes[BROTHANCHOR_CELLS]) + records(sizes[BROTHANCHOR_OFFSETS]) +
                                  2 * records(sizes[BROTHANCHOR_INDICES]));
    uint8_t *file = (uint8_t *)room(most, 1), *again = (uint8_t *)room(most, 1);
    uint64_t answer[2] = {5, 7}, count;
    size_t bytes;
    told("park, no answer", park(a, sizes, BROTHANCHOR_RECORD_WORDS, file, most, answer, 0), 12, answer, 5);
    told("park, thirteen words", park(a, sizes, BROTHANCHOR_RECORD_WORDS - 1, file, most, answer, 2), 22, answer, 0);
    answer[0] = 5;
    told("park, no target", park(a, sizes, BROTHANCHOR_RECORD_WORDS, file, 0, answer, 1), 12, answer, 0);
    refused("park", park(a, sizes, BROTHANCHOR_RECORD_WORDS, file, most, answer, 2));
    count = answer[0];
    bytes = PARKED_BYTES * (size_t)count;
    told("park, a byte short", park(a, sizes, BROTHANCHOR_RECORD_WORDS, again, bytes - 1, answer, 2), 12, answer, 0);
    forget(a, sizes);
    answer[0] = 5;
    told("unpark, no answer", unpark(a, sizes, file, bytes, BROTHANCHOR_RECORD_WORDS, answer, 0), 12, answer, 5);
    told("unpark, a byte short", unpark(a, sizes, file, bytes - 1, 0, answer, 2), 16, answer, count - 1);
    told("unpark, thirteen words", unpark(a, sizes, file, bytes, BROTHANCHOR_RECORD_WORDS - 1, answer, 2), 12, answer, 0);
    told("unpark, no bytes", unpark(a, sizes, file, 0, BROTHANCHOR_RECORD_WORDS, answer, 1), 16, answer, 0);
    told("unpark", unpark(a, sizes, file, bytes, BROTHANCHOR_RECORD_WORDS, answer, 2), 0, answer, count);
    told("park again", park(a, sizes, BROTHANCHOR_RECORD_WORDS, again, bytes, answer, 2), 0, answer, count);
    if (memcmp(file, again, bytes) != 0) {
        fprintf(stderr, "what was read is parked as other bytes\n");
        exit(1);
    }
    free(file);
    free(again);
}

/* Lists by the first so many words of the record, to the first so many bytes of a target. */
static uint32_t lists(const struct areas *a, const uint64_t *sizes, size_t words, uint8_t *target, size_t bytes,
                      uint64_t *answer, size_t length) {
    return brothanchor_lists(
        a->record, words,
        a->positions, sizes[BROTHANCHOR_CELLS], a->increments, sizes[BROTHANCHOR_CELLS], a->gains, sizes[BROTHANCHOR_CELLS],
        a->affinities, sizes[BROTHANCHOR_AFFINITIES], a->indices, sizes[BROTHANCHOR_INDICES],
        a->offsets, sizes[BROTHANCHOR_OFFSETS], a->forces, sizes[BROTHANCHOR_FORCES],
        a->nodes, sizes[BROTHANCHOR_NODES], target, bytes, answer, length);
}

/* A list of so many bytes loaded by the first so many words of settings, with so many words for the record. */
static uint32_t load(struct areas *a, const uint64_t *settings, size_t given, const uint64_t *sizes, const double *start,
                     const uint8_t *file, size_t bytes, size_t words, uint64_t *answer, size_t length) {
    return brothanchor_import(
        settings, given, start, sizes[BROTHANCHOR_CELLS], file, bytes, a->record, words,
        a->positions, sizes[BROTHANCHOR_CELLS], a->increments, sizes[BROTHANCHOR_CELLS], a->gains, sizes[BROTHANCHOR_CELLS],
        a->affinities, sizes[BROTHANCHOR_AFFINITIES], a->indices, sizes[BROTHANCHOR_INDICES],
        a->offsets, sizes[BROTHANCHOR_OFFSETS], a->forces, sizes[BROTHANCHOR_FORCES],
        sizes[BROTHANCHOR_NODES], answer, length);
}

/* Writes the lists of a run just prepared, forgets it and begins one from them, each first as only C can ask for it: no word to tell
 * in, a record or settings that lack a word. What was loaded is written as the same bytes. */
static void partner(struct areas *a, const uint64_t *settings, const uint64_t *sizes, const double *start) {
    const size_t most = LINK_BYTES * (size_t)sizes[BROTHANCHOR_INDICES], words = BROTHANCHOR_RECORD_WORDS;
    const size_t given = BROTHANCHOR_SETTINGS_WORDS;
    uint8_t *file = (uint8_t *)room(most, 1), *again = (uint8_t *)room(most, 1);
    uint64_t answer[2] = {5, 7}, count;
    size_t bytes;
    told("lists, no answer", lists(a, sizes, words, file, most, answer, 0), 12, answer, 5);
    told("lists, thirteen words", lists(a, sizes, words - 1, file, most, answer, 2), 22, answer, 0);
    answer[0] = 5;
    told("lists, no target", lists(a, sizes, words, file, 0, answer, 1), 12, answer, 0);
    refused("lists", lists(a, sizes, words, file, most, answer, 2));
    count = answer[0];
    bytes = LINK_BYTES * (size_t)count;
    told("lists, a byte short", lists(a, sizes, words, again, bytes - 1, answer, 2), 12, answer, 0);
    forget(a, sizes);
    answer[0] = 5;
    told("import, no answer", load(a, settings, given, sizes, start, file, bytes, words, answer, 0), 12, answer, 5);
    told("import, eight words", load(a, settings, given - 1, sizes, start, file, bytes, words, answer, 2), 21, answer, 0);
    answer[0] = 5;
    told("import, thirteen words", load(a, settings, given, sizes, start, file, bytes, words - 1, answer, 2), 12, answer, 0);
    file[8] ^= 1;
    told("import, a lonely link", load(a, settings, given, sizes, start, file, bytes, words, answer, 1), 19, answer, 0);
    file[8] ^= 1;
    told("import", load(a, settings, given, sizes, start, file, bytes, words, answer, 2), 0, answer, count);
    told("lists again", lists(a, sizes, words, again, bytes, answer, 2), 0, answer, count);
    if (memcmp(file, again, bytes) != 0) {
        fprintf(stderr, "what was loaded is written as other bytes\n");
        exit(1);
    }
    free(file);
    free(again);
}

/* A removal by the first so many words of the record, of the first so many samples of a list, with so many places to tell in. */
static uint32_t take_out(struct areas *a, const uint64_t *sizes, size_t words, double *table, const uint32_t *gone, size_t count,
                         uint32_t *old, size_t places, uint64_t *answer, size_t length) {
    return brothanchor_take_out(
        a->record, words,
        a->positions, sizes[BROTHANCHOR_CELLS], a->increments, sizes[BROTHANCHOR_CELLS], a->gains, sizes[BROTHANCHOR_CELLS],
        a->affinities, sizes[BROTHANCHOR_AFFINITIES], a->indices, sizes[BROTHANCHOR_INDICES],
        a->offsets, sizes[BROTHANCHOR_OFFSETS], a->forces, sizes[BROTHANCHOR_FORCES],
        a->nodes, sizes[BROTHANCHOR_NODES], table, a->record[BROTHANCHOR_N] * FEATURES, gone, count, old, places, answer, length);
}

/* Takes the frames of the pictures from first to last out, before that as only C can ask for it: no word to tell in, a record that
 * lacks a word. How many are left, and in old their places in the file. */
static size_t thin(struct areas *a, const uint64_t *sizes, double *table, const uint8_t *file, size_t length, char **ends,
                   uint32_t *old) {
    static const uint32_t twice[2] = {1, 1};
    static uint32_t gone[MOST_FRAMES];
    const size_t n = (size_t)a->record[BROTHANCHOR_N], words = BROTHANCHOR_RECORD_WORDS;
    const uint64_t first = strtoull(ends[0], NULL, 10), last = strtoull(ends[1], NULL, 10);
    size_t count = 0;
    uint64_t answer[2] = {5, 7};
    for (size_t i = 0; i < n; i++) {
        uint64_t frame[FRAME_WORDS];
        refused("frame", brothanchor_frame(file, length, i, frame, FRAME_WORDS));
        if (frame[0] >= first && frame[0] <= last) gone[count++] = (uint32_t)i;
    }
    told("take_out, no answer", take_out(a, sizes, words, table, gone, count, old, n, answer, 0), 12, answer, 5);
    told("take_out, thirteen words", take_out(a, sizes, words - 1, table, gone, count, old, n, answer, 2), 22, answer, 0);
    answer[0] = 5;
    told("take_out, a place short", take_out(a, sizes, words, table, gone, count, old, n - 1, answer, 1), 12, answer, 0);
    answer[0] = 5;
    told("take_out, a sample twice", take_out(a, sizes, words, table, twice, 2, old, n, answer, 1), 18, answer, 0);
    told("take_out", take_out(a, sizes, words, table, gone, count, old, n, answer, 2), 0, answer, n - count);
    return n - count;
}

/* The run of a strip prepared by the first so many words of settings, with so many words for the record. */
static uint32_t prepare_strip(struct areas *a, const uint64_t *settings, size_t given, const uint64_t *sizes, const double *table,
                              const double *start, size_t words) {
    const size_t n = (size_t)settings[BROTHANCHOR_N];
    return brothanchor_prepare_strip(
        settings, given, table, n * FEATURES, start, n * (size_t)settings[BROTHANCHOR_C],
        a->positions, sizes[BROTHANCHOR_CELLS], a->increments, sizes[BROTHANCHOR_CELLS], a->gains, sizes[BROTHANCHOR_CELLS],
        a->affinities, sizes[BROTHANCHOR_AFFINITIES], a->indices, sizes[BROTHANCHOR_INDICES],
        a->offsets, sizes[BROTHANCHOR_OFFSETS], a->forces, sizes[BROTHANCHOR_FORCES],
        a->row_values, sizes[BROTHANCHOR_ROWS], a->row_indices, sizes[BROTHANCHOR_ROWS],
        sizes[BROTHANCHOR_NODES], a->record, words);
}

/* A handing out by the first so many words of the record, to an order and gaps of these lengths. */
static uint32_t strip(const struct areas *a, const uint64_t *sizes, size_t words, uint32_t *order, size_t places, double *gaps,
                      size_t values, uint64_t *answer, size_t length) {
    return brothanchor_strip(
        a->record, words,
        a->positions, sizes[BROTHANCHOR_CELLS], a->increments, sizes[BROTHANCHOR_CELLS], a->gains, sizes[BROTHANCHOR_CELLS],
        a->affinities, sizes[BROTHANCHOR_AFFINITIES], a->indices, sizes[BROTHANCHOR_INDICES],
        a->offsets, sizes[BROTHANCHOR_OFFSETS], a->forces, sizes[BROTHANCHOR_FORCES],
        a->nodes, sizes[BROTHANCHOR_NODES], order, places, gaps, values, answer, length);
}

/* Prepares the run of a strip, first as only C can ask for it and with settings of a map, which have two components. */
static void begin_strip(struct areas *a, uint64_t *settings, uint64_t *sizes, const double *table, const double *start,
                        const double *line) {
    const size_t given = BROTHANCHOR_SETTINGS_WORDS, words = BROTHANCHOR_RECORD_WORDS;
    uint64_t answer[2] = {5, 7};
    refused("sizes", brothanchor_sizes(settings, given, sizes, BROTHANCHOR_SIZES_WORDS));
    lend(a, sizes);
    told("prepare_strip, eight words", prepare_strip(a, settings, given - 1, sizes, table, start, words), 21, answer, 5);
    told("prepare_strip, a map", prepare_strip(a, settings, given, sizes, table, start, 0), 20, answer, 5);
    settings[BROTHANCHOR_C] = 1;
    refused("sizes", brothanchor_sizes(settings, given, sizes, BROTHANCHOR_SIZES_WORDS));
    told("prepare_strip, thirteen words", prepare_strip(a, settings, given, sizes, table, line, words - 1), 12, answer, 5);
    refused("prepare_strip", prepare_strip(a, settings, given, sizes, table, line, words));
}

/* Hands the frames of a run out once it has ended, before that as only C can ask for it; refused, order and gaps are left alone. */
static void hand_out(struct areas *a, const uint64_t *sizes, size_t n, uint32_t *order, double *gaps) {
    const size_t words = BROTHANCHOR_RECORD_WORDS;
    uint64_t answer[2] = {5, 7};
    told("strip, not at its end", strip(a, sizes, words, order, n, gaps, n, answer, 1), 17, answer, 0);
    while (work(a, sizes, (uint32_t)(2 * n + 2)) == 0) continue;
    answer[0] = 5;
    told("strip, no answer", strip(a, sizes, words, order, n, gaps, n, answer, 0), 12, answer, 5);
    told("strip, thirteen words", strip(a, sizes, words - 1, order, n, gaps, n, answer, 2), 22, answer, 0);
    answer[0] = 5;
    told("strip, a place short", strip(a, sizes, words, order, n - 1, gaps, n, answer, 2), 12, answer, 0);
    answer[0] = 5;
    told("strip, a gap short", strip(a, sizes, words, order, n, gaps, n - 1, answer, 1), 12, answer, 0);
    for (size_t i = 0; i < n; i++) {
        if (order[i] != 0 || bits(gaps[i]) != 0) {
            fprintf(stderr, "a strip that was refused wrote place %zu\n", i);
            exit(1);
        }
    }
    told("strip", strip(a, sizes, words, order, n, gaps, n, answer, 2), 0, answer, n);
}

/* Why the run is refused, by all six calls that are lent one: the number, and what comes with it. A work call tells besides what it
 * found bad. Before each call its answer has a mark that no call tells; targets and the list of samples are empty. */
static void why(const char *what, struct areas *a, const uint64_t *sizes, double *table, uint32_t number, uint64_t fault,
                uint64_t with) {
    const size_t words = BROTHANCHOR_RECORD_WORDS;
    const uint64_t mark = 77;
    uint8_t bytes[1] = {0};
    uint32_t places[1] = {0};
    double gaps[1] = {0};
    uint64_t answer[2] = {0, 7}, worked[BROTHANCHOR_ANSWER_WORDS];
    answer[0] = mark;
    told(what, diverge(a, sizes, words, answer, 2), number, answer, with);
    answer[0] = mark;
    told(what, park(a, sizes, words, bytes, 0, answer, 2), number, answer, with);
    answer[0] = mark;
    told(what, lists(a, sizes, words, bytes, 0, answer, 2), number, answer, with);
    answer[0] = mark;
    told(what, strip(a, sizes, words, places, 0, gaps, 0, answer, 2), number, answer, with);
    answer[0] = mark;
    told(what, take_out(a, sizes, words, table, places, 0, a->row_indices, sizes[BROTHANCHOR_ROWS], answer, 2), number, answer, with);
    for (size_t i = 0; i < BROTHANCHOR_ANSWER_WORDS; i++) worked[i] = mark;
    if (try_work(a, sizes, 1, worked) != number || worked[BROTHANCHOR_KIND] != 3 || worked[BROTHANCHOR_NUMBER] != number ||
        worked[BROTHANCHOR_UNITS] != 0 || worked[BROTHANCHOR_FAULT] != fault || worked[BROTHANCHOR_VALUE] != with) {
        fprintf(stderr, "work, %s: %" PRIu64 ", %" PRIu64 ", %" PRIu64 "\n", what, worked[BROTHANCHOR_NUMBER],
                worked[BROTHANCHOR_FAULT], worked[BROTHANCHOR_VALUE]);
        exit(1);
    }
}

/* What may be bad in a run between two iterations, from the last test to the first: of several things the one tested first is told.
 * Afterwards the run is as it was, but for the nodes, which the next iteration begins anew. */
static void reasons(struct areas *a, const uint64_t *sizes, double *table) {
    enum { FRAME = 17, PLACE = 5, NODE = 3 };
    uint64_t *r = a->record, kept[BROTHANCHOR_RECORD_WORDS];
    const uint32_t n = (uint32_t)r[BROTHANCHOR_N], index = a->indices[PLACE], end = a->offsets[FRAME + 1];
    memcpy(kept, r, sizeof kept);
    memset(a->nodes, 0, (NODE + 1) * sizeof(struct brothanchor_node));
    a->nodes[NODE].count = n + 1;
    r[BROTHANCHOR_PHASE] = 1;
    r[BROTHANCHOR_UNITS_DONE] += 1;
    r[BROTHANCHOR_NODES_USED] = NODE + 1;
    why("a bad node", a, sizes, table, 25, 6, NODE);
    r[BROTHANCHOR_NODES_USED] = 0;
    why("no node in use", a, sizes, table, 25, 6, 0);
    a->indices[PLACE] = n;
    why("an index that names no frame", a, sizes, table, 24, 5, PLACE);
    a->offsets[FRAME + 1] = 0;
    why("a list that ends before it begins", a, sizes, table, 23, 4, FRAME);
    a->offsets[0] = 1;
    why("a bad start", a, sizes, table, 23, 4, 0);
    r[BROTHANCHOR_UNITS_DONE] += 1;
    why("bad counters", a, sizes, table, 22, 2, 0);
    r[BROTHANCHOR_STATE] = 3;
    why("a state that there is not", a, sizes, table, 22, 2, 0);
    r[BROTHANCHOR_RATE] = 0;
    why("bad settings", a, sizes, table, 21, 1, 3);
    r[BROTHANCHOR_METHOD] = 2;
    why("a method that there is not", a, sizes, table, 21, 1, 21);
    memcpy(r, kept, sizeof kept);
    a->indices[PLACE] = index;
    a->offsets[FRAME + 1] = end;
    a->offsets[0] = 0;
}

static size_t read_file(const char *name, uint8_t *file, size_t most) {
    FILE *in = fopen(name, "rb");
    size_t length;
    if (in == NULL) {
        perror(name);
        exit(1);
    }
    length = fread(file, 1, most, in);
    fclose(in);
    return length;
}

/* The features of all frames and their starts, or a scatter's where there is a seed. */
static void rows(const uint8_t *file, size_t length, size_t n, const char *seed, double *table, double *start) {
    for (size_t i = 0; i < n; i++) {
        uint64_t frame[FRAME_WORDS];
        refused("frame", brothanchor_frame(file, length, i, frame, FRAME_WORDS));
        for (size_t j = 0; j < FEATURES; j++) table[i * FEATURES + j] = value(frame[3 + j]);
        for (size_t j = 0; j < STARTS; j++) start[i * STARTS + j] = value(frame[3 + FEATURES + j]);
    }
    if (seed != NULL) {
        refused("scatter", brothanchor_scatter(start, n * STARTS, (uint32_t)n, STARTS, strtoull(seed, NULL, 10)));
    }
}

/* How the run of n frames ended. */
static void print_end(size_t n, const struct areas *a) {
    static const char *const states[] = {"running", "stopped", "finished", "no record"};
    printf("%zu frames, %s after %" PRIu64 " iterations (%" PRIu64 " units)\n", n,
           states[brothanchor_state(a->record, BROTHANCHOR_RECORD_WORDS)],
           brothanchor_iterations(a->record, BROTHANCHOR_RECORD_WORDS),
           brothanchor_units(a->record, BROTHANCHOR_RECORD_WORDS));
}

/* The strip of a file's n frames, from the first of each frame's starts or by a seed. */
static void along(const uint8_t *file, size_t length, size_t n, const char *seed, const double *table, const double *start) {
    static double line[MOST_FRAMES], gaps[MOST_FRAMES];
    static uint32_t order[MOST_FRAMES];
    uint64_t settings[BROTHANCHOR_SETTINGS_WORDS], sizes[BROTHANCHOR_SIZES_WORDS];
    struct areas areas;
    for (size_t i = 0; i < n; i++) line[i] = start[i * STARTS];
    if (seed != NULL) refused("scatter", brothanchor_scatter(line, n, (uint32_t)n, 1, strtoull(seed, NULL, 10)));
    set(settings, n);
    begin_strip(&areas, settings, sizes, table, start, line);
    hand_out(&areas, sizes, n, order, gaps);
    for (size_t place = 0; place < n; place++) {
        uint64_t frame[FRAME_WORDS];
        refused("frame", brothanchor_frame(file, length, order[place], frame, FRAME_WORDS));
        printf("%zu %" PRIu64 " %" PRIu64 " %" PRIu64 " %016" PRIx64 " %016" PRIx64 "\n", place, frame[0], frame[1], frame[2],
               bits(areas.positions[order[place]]), bits(gaps[place]));
    }
    print_end(n, &areas);
}

/* The frames on the map, by their places in the file. */
static void print(const uint8_t *file, size_t length, size_t n, const uint32_t *places, const struct areas *a) {
    for (size_t i = 0; i < n; i++) {
        uint64_t frame[FRAME_WORDS];
        refused("frame", brothanchor_frame(file, length, places[i], frame, FRAME_WORDS));
        printf("%" PRIu64 " %" PRIu64 " %" PRIu64 " %016" PRIx64 " %016" PRIx64 "\n", frame[0], frame[1], frame[2],
               bits(a->positions[i * STARTS]), bits(a->positions[i * STARTS + 1]));
    }
    print_end(n, a);
}

/* What the monitor is told of the frames. */
struct placed {
    uint32_t pictures[MOST_FRAMES];
    uint8_t sides[MOST_FRAMES], fields[MOST_FRAMES];
    double positions[MOST_FRAMES * STARTS];
};

/* n frames written, with so many bytes for the target. */
static uint32_t monitor_write(const struct placed *s, size_t n, uint8_t *target, size_t bytes, uint64_t *answer, size_t length) {
    return brothanchor_monitor_write(n, s->pictures, n, s->sides, n, s->fields, n, s->positions, n * STARTS, target, bytes, answer,
                                     length);
}

/* A file for the monitor read into room for n frames. */
static uint32_t monitor_read(struct placed *s, size_t n, const uint8_t *file, size_t bytes, uint64_t *answer, size_t length) {
    return brothanchor_monitor_read(file, bytes, s->pictures, n, s->sides, n, s->fields, n, s->positions, n * STARTS, answer, length);
}

/* What is not written for the monitor: areas that are too short, as only C can lend them; a coordinate of 2^128; no side; and both in
 * one frame, of which the side is told. The target is left alone, and the frames are then as they were. */
static void not_written(struct placed *s, size_t n, uint8_t *target) {
    const size_t bytes = n * MONITOR_BYTES;
    const double past = value(UINT64_C(0x47f0000000000000)); /* 2^128 */
    const double y0 = s->positions[1], x1 = s->positions[STARTS], x2 = s->positions[2 * STARTS];
    const uint8_t side = s->sides[1];
    uint64_t answer[2] = {5, 7};
    told("monitor_write, no answer", monitor_write(s, n, target, bytes, answer, 0), 12, answer, 5);
    told("monitor_write, a byte short", monitor_write(s, n, target, bytes - 1, answer, 2), 12, answer, 0);
    s->positions[1] = s->positions[STARTS] = s->positions[2 * STARTS] = past;
    s->sides[1] = 0;
    answer[0] = 5;
    told("monitor_write, 2^128", monitor_write(s, n, target, bytes, answer, 1), 26, answer, 0);
    s->positions[1] = y0;
    told("monitor_write, no side and 2^128", monitor_write(s, n, target, bytes, answer, 2), 16, answer, 1);
    s->positions[STARTS] = x1;
    answer[0] = 5;
    told("monitor_write, no side", monitor_write(s, n, target, bytes, answer, 2), 16, answer, 1);
    s->sides[1] = side;
    told("monitor_write, 2^128 in frame 2", monitor_write(s, n, target, bytes, answer, 2), 26, answer, 2);
    s->positions[2 * STARTS] = x2;
    for (size_t i = 0; i < bytes; i++) {
        if (target[i] != 0) {
            fprintf(stderr, "a file for the monitor that was refused has byte %zu\n", i);
            exit(1);
        }
    }
}

/* The map for the monitor: written, read back and written again as the same bytes; before that what is refused. */
static void monitor(const uint8_t *file, size_t length, size_t n, const uint32_t *places, const struct areas *a) {
    static struct placed there, back;
    static uint8_t target[MOST_FRAMES * MONITOR_BYTES], again[MOST_FRAMES * MONITOR_BYTES];
    const size_t bytes = n * MONITOR_BYTES;
    uint64_t answer[2] = {5, 7};
    for (size_t i = 0; i < n; i++) {
        uint64_t frame[FRAME_WORDS];
        refused("frame", brothanchor_frame(file, length, places[i], frame, FRAME_WORDS));
        there.pictures[i] = (uint32_t)frame[0];
        there.sides[i] = (uint8_t)frame[1];
        there.fields[i] = (uint8_t)frame[2];
    }
    memcpy(there.positions, a->positions, n * STARTS * sizeof(double));
    not_written(&there, n, target);
    told("monitor_write", monitor_write(&there, n, target, bytes, answer, 2), 0, answer, n);
    answer[0] = 5;
    told("monitor_read, no answer", monitor_read(&back, n, target, bytes, answer, 0), 12, answer, 5);
    told("monitor_read, a tail", monitor_read(&back, n - 1, target, bytes - 1, answer, 1), 16, answer, n - 1);
    told("monitor_read, a frame short", monitor_read(&back, n - 1, target, bytes, answer, 1), 12, answer, 0);
    told("monitor_read", monitor_read(&back, n, target, bytes, answer, 2), 0, answer, n);
    told("monitor_write again", monitor_write(&back, n, again, bytes, answer, 2), 0, answer, n);
    if (memcmp(target, again, bytes) != 0) {
        fprintf(stderr, "what was read for the monitor is written as other bytes\n");
        exit(1);
    }
    for (size_t i = 0; i < bytes; i++) printf("%02x%s", (unsigned)target[i], i % MONITOR_BYTES == MONITOR_BYTES - 1 ? "\n" : "");
}

/* The answer and every area of a salvage. */
struct salvaged {
    uint64_t answer[3], places[MOST_FRAMES + 1];
    uint8_t target[MOST_FRAMES * FRAME_BYTES], rules[MOST_FRAMES + 1];
};

/* A file of so many bytes salvaged, with room for so many bytes and so many records to tell of. */
static uint32_t salvage(const uint8_t *file, size_t length, struct salvaged *s, size_t bytes, size_t places, size_t rules,
                        size_t words) {
    memset(s, 0x55, sizeof *s);
    return brothanchor_salvage(file, length, s->target, bytes, s->places, places, s->rules, rules, s->answer, words);
}

/* Number and both words; every area is as it was past what is kept and told, and in a refusal all of it. */
static void sorted_out(const char *what, uint32_t number, uint32_t wanted, const struct salvaged *s, uint64_t first, uint64_t second) {
    static struct salvaged before;
    const size_t kept = wanted == 0 ? FRAME_BYTES * first : 0, said = wanted == 0 ? second : 0;
    int is_left;
    memset(&before, 0x55, sizeof before);
    is_left = s->answer[2] == before.answer[2] &&
              memcmp(s->target + kept, before.target + kept, sizeof before.target - kept) == 0 &&
              memcmp(s->places + said, before.places + said, sizeof before.places - said * sizeof before.places[0]) == 0 &&
              memcmp(s->rules + said, before.rules + said, sizeof before.rules - said) == 0;
    if (number != wanted || s->answer[0] != first || s->answer[1] != second || !is_left) {
        fprintf(stderr, "%s: %u, %" PRIx64 ", %" PRIx64 "\n", what, (unsigned)number, s->answer[0], s->answer[1]);
        exit(1);
    }
}

/* A good file comes through as it is; one whose second record has no side and whose third comes twice, with a byte at its end, loses
 * these. Before that as only C can ask for it. */
static void scuffed(const uint8_t *file, size_t n) {
    static struct salvaged s;
    static uint8_t copy[MOST_FRAMES * FRAME_BYTES + 1];
    static const uint64_t untouched = UINT64_C(0x5555555555555555);
    const size_t bytes = n * FRAME_BYTES;
    sorted_out("salvage, one word", salvage(file, bytes, &s, bytes, n, n, 1), 12, &s, untouched, untouched);
    sorted_out("salvage, a byte short", salvage(file, bytes, &s, bytes - 1, n, n, 2), 12, &s, 0, untouched);
    sorted_out("salvage, a place short", salvage(file, bytes, &s, bytes, n - 1, n, 2), 12, &s, 0, untouched);
    sorted_out("salvage, a rule short", salvage(file, bytes, &s, bytes, n, n - 1, 3), 12, &s, 0, untouched);
    sorted_out("salvage", salvage(file, bytes, &s, bytes, n, n, 2), 0, &s, n, 0);
    if (memcmp(s.target, file, bytes) != 0) {
        fprintf(stderr, "a good file does not come through as it is\n");
        exit(1);
    }
    memcpy(copy, file, bytes);
    copy[FRAME_BYTES + 4] = 0;
    memcpy(copy + 3 * FRAME_BYTES, copy + 2 * FRAME_BYTES, FRAME_BYTES);
    sorted_out("salvage, scuffed", salvage(copy, bytes + 1, &s, bytes, n + 1, n + 1, 2), 0, &s, n - 2, 3);
    if (s.places[0] != 1 || s.places[1] != 3 || s.places[2] != n || s.rules[0] != 2 || s.rules[1] != 6 || s.rules[2] != 7 ||
        memcmp(s.target, file, FRAME_BYTES) != 0 || memcmp(s.target + FRAME_BYTES, file + 2 * FRAME_BYTES, FRAME_BYTES) != 0 ||
        memcmp(s.target + 2 * FRAME_BYTES, file + 4 * FRAME_BYTES, bytes - 4 * FRAME_BYTES) != 0) {
        fprintf(stderr, "a scuffed file is told otherwise\n");
        exit(1);
    }
    refused("frames", brothanchor_frames(s.target, bytes - 2 * FRAME_BYTES, s.answer, 1));
}

/* The rows and the answer of a count. */
struct sight {
    double squares[MOST_FRAMES + 1], values[MOST_FRAMES + 1], shares[MOST_FRAMES + 1];
    uint32_t indices[MOST_FRAMES + 1];
    uint64_t answer[3];
};

/* A count by the first so many words of the settings, with rows of so many places but for the last, and an answer of so many words. */
static uint32_t count(const uint64_t *settings, size_t given, const double *table, size_t values, struct sight *s, size_t places,
                      size_t last, size_t words) {
    memset(s, 0x55, sizeof *s);
    return brothanchor_blind(settings, given, table, values, s->squares, places, s->values, places, s->shares, places, s->indices, last,
                             s->answer, words);
}

/* Number and both counts; the first n places of each row are zeros, and what lies past them is as it was; in a refusal all of it. */
static void seen(const char *what, uint32_t number, uint32_t wanted, const struct sight *s, size_t n, uint64_t blind, uint64_t alone) {
    static struct sight left;
    memset(&left, 0x55, sizeof left);
    if (wanted == 0) {
        memset(left.squares, 0, n * sizeof(double));
        memset(left.values, 0, n * sizeof(double));
        memset(left.shares, 0, n * sizeof(double));
        memset(left.indices, 0, n * sizeof(uint32_t));
        left.answer[0] = blind;
        left.answer[1] = alone;
    }
    if (number != wanted || memcmp(s, &left, sizeof left) != 0) {
        fprintf(stderr, "%s: %u, %" PRIx64 ", %" PRIx64 "\n", what, (unsigned)number, s->answer[0], s->answer[1]);
        exit(1);
    }
}

/* The frames see their neighbours, and multiplied by 4096 none does; at one place all are alone. By both methods, before that as only C
 * can ask for it. */
static void blind(const double *table, size_t n) {
    static struct sight s;
    static double far[MOST_FRAMES * FEATURES], one[MOST_FRAMES * FEATURES];
    const size_t given = BROTHANCHOR_SETTINGS_WORDS, values = n * FEATURES;
    uint64_t settings[BROTHANCHOR_SETTINGS_WORDS];
    set(settings, n);
    for (size_t i = 0; i < values; i++) far[i] = 4096.0 * table[i];
    seen("blind, eight words", count(settings, given - 1, table, values, &s, n, n, 2), 21, &s, n, 0, 0);
    settings[BROTHANCHOR_METHOD] = 2;
    seen("blind, no method", count(settings, given, table, values, &s, n, n, 2), 21, &s, n, 0, 0);
    for (uint64_t method = 0; method < 2; method++) {
        settings[BROTHANCHOR_METHOD] = method;
        seen("blind, a value short", count(settings, given, table, values - 1, &s, n, n, 2), 7, &s, n, 0, 0);
        seen("blind, a place short", count(settings, given, table, values, &s, n, n - 1, 2), 12, &s, n, 0, 0);
        seen("blind, one word", count(settings, given, table, values, &s, n, n, 1), 12, &s, n, 0, 0);
        seen("blind", count(settings, given, table, values, &s, n, n + 1, 3), 0, &s, n, 0, 0);
        seen("blind, far apart", count(settings, given, far, values, &s, n, n, 2), 0, &s, n, n, 0);
        seen("blind, at one place", count(settings, given, one, values, &s, n + 1, n, 2), 0, &s, n, n, n);
    }
}

int main(int words, char **word) {
    static uint8_t file[MOST_FRAMES * FRAME_BYTES];
    static double table[MOST_FRAMES * FEATURES], start[MOST_FRAMES * STARTS];
    static uint32_t places[MOST_FRAMES];
    uint64_t settings[BROTHANCHOR_SETTINGS_WORDS], sizes[BROTHANCHOR_SIZES_WORDS], n;
    struct areas areas;
    const char *seed;
    size_t length;
    if (words < 2) {
        fprintf(stderr, "map FILE [SEED [FIRST LAST | strip]]\n");
        return 2;
    }
    length = read_file(word[1], file, sizeof file);
    refused("frames", brothanchor_frames(file, length, &n, 1));
    scuffed(file, n);
    seed = words > 2 && strcmp(word[2], "-") != 0 ? word[2] : NULL;
    rows(file, length, n, seed, table, start);
    blind(table, n);
    if (words == 4 && strcmp(word[3], "strip") == 0) {
        along(file, length, n, seed, table, start);
        return 0;
    }
    for (uint32_t i = 0; i < n; i++) places[i] = i;
    set(settings, n);
    no_sizes(settings);
    refused("sizes", brothanchor_sizes(settings, BROTHANCHOR_SETTINGS_WORDS, sizes, BROTHANCHOR_SIZES_WORDS));
    lend(&areas, sizes);
    prepare(&areas, settings, sizes, table, start);
    partner(&areas, settings, sizes, start);
    do {
        if (brothanchor_iterations(areas.record, BROTHANCHOR_RECORD_WORDS) == NIGHT) {
            reasons(&areas, sizes, table);
            overnight(&areas, sizes);
            if (words > 4) n = thin(&areas, sizes, table, file, length, word + 3, places);
        }
        memcpy(areas.copy, areas.positions, sizes[BROTHANCHOR_CELLS] * sizeof(double));
    } while (work(&areas, sizes, (uint32_t)(2 * n + 2)) == 0);
    print(file, length, n, places, &areas);
    printf("its divergence: %.6f\n", divergence(&areas, sizes));
    monitor(file, length, n, places, &areas);
    return 0;
}
