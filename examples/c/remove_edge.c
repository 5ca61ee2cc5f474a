/*
 * Builds a patch by hand, seals it, removes an edge and prints the summaries, the page row and the quality of each row.
 *
 *     compare/archive sumpnewt
 *     cc -Wall -Wextra -Werror -Iinclude examples/c/remove_edge.c target/native/libsumpnewt.a -o target/remove_edge_c
 *     target/remove_edge_c
 */
#include <inttypes.h>
#include <stdio.h>
#include <string.h>

#include "sumpnewt.h"

/* Three tetrahedra round the edge from point 0 to point 1. */
static const uint8_t points[][SUMPNEWT_POINT_BYTES] = {
    {4, 4, 12}, {4, 4, 0}, {0, 0, 6}, {12, 0, 6}, {0, 12, 6},
};
static const uint8_t rows[][SUMPNEWT_ROW_BYTES] = {
    {0, 1, 2, 3, 7}, {0, 1, 3, 4, 7}, {0, 1, 4, 2, 7},
};
enum { FIRST_END = 0, SECOND_END = 1 };

/* A refusal has a number; the README's table says what it means. */
static int refused(const char *call, uint32_t number) {
    fprintf(stderr, "%s: refused with %" PRIu32 "\n", call, number);
    return 1;
}

static uint32_t print_summary(const char *name, const uint8_t *block) {
    uint64_t summary[SUMPNEWT_SUMMARY_ELEMENTS];
    uint32_t number = sumpnewt_summary(block, SUMPNEWT_BLOCK_BYTES, summary, SUMPNEWT_SUMMARY_ELEMENTS);
    if (number != SUMPNEWT_DONE) {
        return number;
    }
    printf("%s: %" PRIu64 " upright, %" PRIu64 " flat, %" PRIu64 " inverted", name, summary[SUMPNEWT_UPRIGHT],
           summary[SUMPNEWT_FLAT], summary[SUMPNEWT_INVERTED]);
    if (summary[SUMPNEWT_HAS_WORST]) {
        printf(", worst score %" PRIu64, summary[SUMPNEWT_WORST]);
    }
    if (summary[SUMPNEWT_HAS_OCTAVE]) {
        printf(", octave %" PRIu64, summary[SUMPNEWT_OCTAVE]);
    }
    printf("\n");
    return SUMPNEWT_DONE;
}

static uint32_t print_shown(const char *name, const uint8_t *block) {
    double shown[SUMPNEWT_SHOWN_ELEMENTS];
    uint32_t number = sumpnewt_shown(block, SUMPNEWT_BLOCK_BYTES, shown, SUMPNEWT_SHOWN_ELEMENTS);
    int row;
    if (number != SUMPNEWT_DONE) {
        return number;
    }
    printf("rows %s:", name);
    for (row = 0; row < block[SUMPNEWT_ROW_COUNT_AT]; row++) {
        printf(" %.6f", shown[row]);
    }
    printf("\n");
    return SUMPNEWT_DONE;
}

int main(void) {
    uint8_t fields[SUMPNEWT_FIELDS_BYTES] = {0};
    uint8_t before[SUMPNEWT_BLOCK_BYTES];
    uint8_t after[SUMPNEWT_BLOCK_BYTES];
    double page[SUMPNEWT_PAGE_ELEMENTS];
    uint32_t number;

    fields[SUMPNEWT_VERSION_AT] = SUMPNEWT_VERSION_PLAIN;
    fields[SUMPNEWT_POINT_COUNT_AT] = sizeof points / sizeof points[0];
    fields[SUMPNEWT_ROW_COUNT_AT] = sizeof rows / sizeof rows[0];
    memcpy(fields + SUMPNEWT_POINTS_AT, points, sizeof points);
    memcpy(fields + SUMPNEWT_ROWS_AT, rows, sizeof rows);

    number = sumpnewt_seal(fields, sizeof fields, before, sizeof before);
    if (number != SUMPNEWT_DONE) {
        return refused("sumpnewt_seal", number);
    }
    number = sumpnewt_remove(before, sizeof before, FIRST_END, SECOND_END, after, sizeof after);
    if (number != SUMPNEWT_DONE) {
        return refused("sumpnewt_remove", number);
    }
    number = sumpnewt_page(before, sizeof before, FIRST_END, SECOND_END, page, SUMPNEWT_PAGE_ELEMENTS);
    if (number != SUMPNEWT_DONE) {
        return refused("sumpnewt_page", number);
    }
    number = print_summary("before", before);
    if (number == SUMPNEWT_DONE) {
        number = print_summary("after", after);
    }
    if (number != SUMPNEWT_DONE) {
        return refused("sumpnewt_summary", number);
    }
    printf("page row: worst quality %.6f before, %.6f after\n", page[SUMPNEWT_WORST_BEFORE],
           page[SUMPNEWT_WORST_AFTER]);
    number = print_shown("before", before);
    if (number == SUMPNEWT_DONE) {
        number = print_shown("after", after);
    }
    if (number != SUMPNEWT_DONE) {
        return refused("sumpnewt_shown", number);
    }
    return 0;
}
