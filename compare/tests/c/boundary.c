/*
 * The C boundary as a stranger would break it: null pointers with length 0, outputs and inputs of every length, memory that
 * was never written, blocks at any address, flips with any count of numbers, marked faces. Prints how many calls each part made.
 * The first call that does not do what sumpnewt.h says is told in one line and ends the program.
 *
 * compare/tests/boundary.rs compiles and runs it; docs/TESTS.md has the line for valgrind.
 */
#include <stdio.h>
#include <stdlib.h>
#include <string.h>

#include "sumpnewt.h"

enum {
    LENGTHS = 1100,   /* the lengths tried are 0 to this: over a block and its output together */
    GUARD = 64,       /* bytes in front of and behind the longest output */
    ADDRESSES = 16,   /* a block is tried at each address of so many in a row */
    COUNTS = 40,      /* a flip is given up to so many numbers */
    FIRST_END = 0,
    SECOND_END = 1,
    U = 2,
    V = 3,
    W = 4,
    POINTS = 5
};

/* Three tetrahedra round the edge from point 0 to point 1; what a removal leaves; the first with its version spoiled. */
static uint8_t three[SUMPNEWT_BLOCK_BYTES];
static uint8_t two[SUMPNEWT_BLOCK_BYTES];
static uint8_t spoiled[SUMPNEWT_BLOCK_BYTES];

/* A call that is done if nothing is wrong with its lengths. */
struct call {
    const char *name;
    uint32_t (*run)(const uint8_t *input, size_t n, void *out, size_t out_n);
    const uint8_t *input;
    size_t n;        /* elements of the input */
    size_t out_n;    /* elements of the output */
    size_t element;  /* bytes of each; 0 if there is no output */
};

static uint32_t opened(const uint8_t *input, size_t n, void *out, size_t out_n) {
    (void)out;
    (void)out_n;
    return sumpnewt_open(input, n);
}

static uint32_t sealed(const uint8_t *input, size_t n, void *out, size_t out_n) {
    return sumpnewt_seal(input, n, out, out_n);
}

static uint32_t summarised(const uint8_t *input, size_t n, void *out, size_t out_n) {
    return sumpnewt_summary(input, n, out, out_n);
}

static uint32_t shown(const uint8_t *input, size_t n, void *out, size_t out_n) {
    return sumpnewt_shown(input, n, out, out_n);
}

static uint32_t removed(const uint8_t *input, size_t n, void *out, size_t out_n) {
    return sumpnewt_remove(input, n, FIRST_END, SECOND_END, out, out_n);
}

static uint32_t paged(const uint8_t *input, size_t n, void *out, size_t out_n) {
    return sumpnewt_page(input, n, FIRST_END, SECOND_END, out, out_n);
}

static uint32_t flipped_edge(const uint8_t *input, size_t n, void *out, size_t out_n) {
    static const size_t edge[] = {FIRST_END, SECOND_END};
    return sumpnewt_flip(input, n, edge, 2, out, out_n);
}

static uint32_t flipped_face(const uint8_t *input, size_t n, void *out, size_t out_n) {
    static const size_t face[] = {U, V, W};
    return sumpnewt_flip(input, n, face, 3, out, out_n);
}

static const struct call calls[] = {
    {"open", opened, three, SUMPNEWT_BLOCK_BYTES, 0, 0},
    {"seal", sealed, three, SUMPNEWT_FIELDS_BYTES, SUMPNEWT_BLOCK_BYTES, sizeof(uint8_t)},
    {"summary", summarised, three, SUMPNEWT_BLOCK_BYTES, SUMPNEWT_SUMMARY_ELEMENTS, sizeof(uint64_t)},
    {"shown", shown, three, SUMPNEWT_BLOCK_BYTES, SUMPNEWT_SHOWN_ELEMENTS, sizeof(double)},
    {"remove", removed, three, SUMPNEWT_BLOCK_BYTES, SUMPNEWT_BLOCK_BYTES, sizeof(uint8_t)},
    {"page", paged, three, SUMPNEWT_BLOCK_BYTES, SUMPNEWT_PAGE_ELEMENTS, sizeof(double)},
    {"flip of an edge", flipped_edge, three, SUMPNEWT_BLOCK_BYTES, SUMPNEWT_BLOCK_BYTES, sizeof(uint8_t)},
    {"flip of a face", flipped_face, two, SUMPNEWT_BLOCK_BYTES, SUMPNEWT_BLOCK_BYTES, sizeof(uint8_t)},
};
enum { CALLS = sizeof calls / sizeof calls[0] };

static size_t made;  /* calls so far */

static void fail(const struct call *call, const char *what, size_t length) {
    fprintf(stderr, "%s: %s (%zu)\n", call->name, what, length);
    exit(EXIT_FAILURE);
}

static void *piece_of_heap(size_t bytes) {
    void *piece = malloc(bytes);
    if (piece == NULL && bytes > 0) {
        fprintf(stderr, "no memory\n");
        exit(EXIT_FAILURE);
    }
    return piece;
}

/* The longest output with a guard on either side, and how it was before the call. */
enum { ROOM = GUARD + LENGTHS * sizeof(uint64_t) + GUARD };
static uint8_t *room;
static uint8_t was[ROOM];

/* Makes a call into the room, from `at` on, and returns its answer. Only an answer 0 may change the output, and nothing may
   change a byte elsewhere. */
static uint32_t guarded(const struct call *call, const uint8_t *input, size_t n, size_t at, size_t out_n) {
    size_t end = at + out_n * call->element;
    for (size_t place = 0; place < ROOM; place++) {
        was[place] = (uint8_t)(place * 31 + made);
    }
    memcpy(room, was, ROOM);
    uint32_t number = call->run(input, n, room + at, out_n);
    made++;
    if (memcmp(room, was, at) != 0 || memcmp(room + end, was + end, ROOM - end) != 0) {
        fail(call, "a byte outside the output is changed", out_n);
    }
    if (number != SUMPNEWT_DONE && memcmp(room, was, ROOM) != 0) {
        fail(call, "a refusal changes the output", out_n);
    }
    return number;
}

static void expect(const struct call *call, uint32_t number, uint32_t expected, size_t length) {
    if (number != expected) {
        fprintf(stderr, "%u, not %u: ", (unsigned)number, (unsigned)expected);
        fail(call, "the answer is another", length);
    }
}

/* Every pointer null with length 0, alone and together. */
static void null_pointers(const struct call *call) {
    expect(call, guarded(call, NULL, 0, GUARD, call->out_n), SUMPNEWT_LENGTH, 0);
    if (call->element > 0) {
        expect(call, call->run(call->input, call->n, NULL, 0), SUMPNEWT_LENGTH, 0);
        expect(call, call->run(NULL, 0, NULL, 0), SUMPNEWT_LENGTH, 0);
        made += 2;
    }
}

/* An output of every length. */
static void output_lengths(const struct call *call) {
    for (size_t length = 0; length <= LENGTHS && call->element > 0; length++) {
        uint32_t right = length == call->out_n ? SUMPNEWT_DONE : SUMPNEWT_LENGTH;
        expect(call, guarded(call, call->input, call->n, GUARD, length), right, length);
    }
}

/* An input of every length, each in a piece of the heap that is just so long: the block, again and again. */
static void input_lengths(const struct call *call) {
    for (size_t length = 0; length <= LENGTHS; length++) {
        uint32_t right = length == call->n ? SUMPNEWT_DONE : SUMPNEWT_LENGTH;
        uint8_t *input = piece_of_heap(length);
        for (size_t place = 0; place < length; place++) {
            input[place] = call->input[place % SUMPNEWT_BLOCK_BYTES];
        }
        expect(call, guarded(call, input, length, GUARD, call->out_n), right, length);
        free(input);
    }
}

/* A block that is refused for what is in it; sealing does not look at the sums. */
static uint32_t refusal(const struct call *call) {
    return call->run == sealed ? SUMPNEWT_NOT_A_VERSION : SUMPNEWT_SUM;
}

static void refusals(const struct call *call) {
    expect(call, guarded(call, spoiled, call->n, GUARD, call->out_n), refusal(call), call->n);
}

/* A block at every address, and the block that is written too. */
static void addresses(const struct call *call) {
    uint8_t *input = piece_of_heap(SUMPNEWT_BLOCK_BYTES + ADDRESSES);
    for (size_t shift = 0; shift < ADDRESSES; shift++) {
        size_t at = GUARD + (call->element == sizeof(uint8_t) ? shift : 0);
        memcpy(input + shift, call->input, call->n);
        expect(call, guarded(call, input + shift, call->n, at, call->out_n), SUMPNEWT_DONE, shift);
    }
    free(input);
}

/* Three refusals, which leave `out` as it is, and then a call that is done: into memory that was never written it writes what
   it writes into the room. */
static void into_unwritten(const struct call *call, void *out) {
    size_t bytes = call->out_n * call->element;
    expect(call, call->run(NULL, 0, out, call->out_n), SUMPNEWT_LENGTH, 0);
    expect(call, call->run(call->input, call->n, out, call->out_n - 1), SUMPNEWT_LENGTH, 1);
    expect(call, call->run(spoiled, call->n, out, call->out_n), refusal(call), 2);
    expect(call, call->run(call->input, call->n, out, call->out_n), SUMPNEWT_DONE, 3);
    made += 4;
    expect(call, guarded(call, call->input, call->n, GUARD, call->out_n), SUMPNEWT_DONE, 4);
    if (memcmp(out, room + GUARD, bytes) != 0) {
        fail(call, "something else is written into memory that was never written", bytes);
    }
}

static void fresh_heap(const struct call *call) {
    if (call->element > 0) {
        void *out = piece_of_heap(call->out_n * call->element);
        into_unwritten(call, out);
        free(out);
    }
}

static void fresh_stack(const struct call *call) {
    if (call->element == sizeof(uint8_t)) {
        uint8_t out[SUMPNEWT_BLOCK_BYTES];
        into_unwritten(call, out);
    } else if (call->run == summarised) {
        uint64_t out[SUMPNEWT_SUMMARY_ELEMENTS];
        into_unwritten(call, out);
    } else if (call->run == shown) {
        double out[SUMPNEWT_SHOWN_ELEMENTS];
        into_unwritten(call, out);
    } else if (call->run == paged) {
        double out[SUMPNEWT_PAGE_ELEMENTS];
        into_unwritten(call, out);
    }
}

/* A flip of any numbers, which is never done if they are neither two nor three. */
static const size_t *numbers;
static size_t count;

static uint32_t flipped(const uint8_t *input, size_t n, void *out, size_t out_n) {
    return sumpnewt_flip(input, n, numbers, count, out, out_n);
}

static const struct call flip = {"flip", flipped, three, SUMPNEWT_BLOCK_BYTES, SUMPNEWT_BLOCK_BYTES, sizeof(uint8_t)};

/* Only the lengths and the block come before the count. */
static void wrong_count(void) {
    expect(&flip, guarded(&flip, three, flip.n, GUARD, flip.out_n), SUMPNEWT_NOT_TWO_OR_THREE, count);
    expect(&flip, guarded(&flip, spoiled, flip.n, GUARD, flip.out_n), SUMPNEWT_SUM, count);
    expect(&flip, guarded(&flip, three, flip.n, GUARD, flip.out_n - 1), SUMPNEWT_LENGTH, count);
    expect(&flip, guarded(&flip, NULL, 0, GUARD, flip.out_n), SUMPNEWT_LENGTH, count);
}

/* Every count but two and three, each of numbers in a piece of the heap that is just so long: of points, and of none. */
static void wrong_counts(void) {
    for (count = 0; count <= COUNTS; count++) {
        if (count == 2 || count == 3) {
            continue;
        }
        size_t *piece = piece_of_heap(count * sizeof(size_t));
        numbers = piece;
        for (size_t place = 0; place < count; place++) {
            piece[place] = place % POINTS;
        }
        wrong_count();
        for (size_t place = 0; place < count; place++) {
            piece[place] = SIZE_MAX - place;
        }
        wrong_count();
        free(piece);
    }
}

/* No numbers, and no pointer to them. */
static void no_numbers(void) {
    numbers = NULL;
    count = 0;
    wrong_count();
}

/* The last byte of a row of a block. */
static uint8_t *last_byte(uint8_t *block, size_t row) {
    return block + SUMPNEWT_ROWS_AT + (row + 1) * SUMPNEWT_ROW_BYTES - 1;
}

/* A block in version 2 with these bits added to the last bytes of its first two rows; its sums are made here, since sealing
   refuses marks that disagree. */
static void mark(uint8_t *marked, const uint8_t *block, uint8_t first_row, uint8_t second_row) {
    uint16_t first = 0;
    uint16_t second = 0;
    memcpy(marked, block, SUMPNEWT_BLOCK_BYTES);
    marked[SUMPNEWT_VERSION_AT] = SUMPNEWT_VERSION_MARKED;
    *last_byte(marked, 0) |= first_row;
    *last_byte(marked, 1) |= second_row;
    for (size_t place = 0; place < SUMPNEWT_FIELDS_BYTES; place++) {
        first = (uint16_t)(first + marked[place]);
        second = (uint16_t)(second + first);
    }
    marked[SUMPNEWT_FIELDS_BYTES] = (uint8_t)first;
    marked[SUMPNEWT_FIELDS_BYTES + 1] = (uint8_t)(first >> 8);
    marked[SUMPNEWT_FIELDS_BYTES + 2] = (uint8_t)second;
    marked[SUMPNEWT_FIELDS_BYTES + 3] = (uint8_t)(second >> 8);
}

static int is_about_edge(const struct call *call) {
    return call->run == removed || call->run == paged || call->run == flipped_edge;
}

/* Every call on the block of three rows; no row of it has the face that is flipped. */
static void on_marked(const uint8_t *marked, uint32_t all, uint32_t of_edge) {
    for (size_t place = 0; place < CALLS; place++) {
        const struct call *call = &calls[place];
        uint32_t right = all != SUMPNEWT_DONE ? all : is_about_edge(call) ? of_edge : SUMPNEWT_DONE;
        if (all == SUMPNEWT_DONE && call->run == flipped_face) {
            right = SUMPNEWT_NOT_HELD;
        }
        expect(call, guarded(call, marked, call->n, GUARD, call->out_n), right, place);
    }
}

/* A new row has this last byte, and the block is of version 2. */
static void expect_last(const struct call *call, size_t row, uint8_t byte) {
    uint8_t *out = room + GUARD;
    if (out[SUMPNEWT_VERSION_AT] != SUMPNEWT_VERSION_MARKED || *last_byte(out, row) != byte) {
        fail(call, "a mark is not where it must be", row);
    }
}

/* Faces of the shell, which stay; a face with both ends marked in one of its rows, and in both; the face of two rows. */
static void marked_faces(void) {
    static const struct call removal = {"remove", removed, three, SUMPNEWT_BLOCK_BYTES, SUMPNEWT_BLOCK_BYTES, 1};
    static const struct call face = {"flip of a face", flipped_face, two, SUMPNEWT_BLOCK_BYTES, SUMPNEWT_BLOCK_BYTES, 1};
    uint8_t marked[SUMPNEWT_BLOCK_BYTES];
    uint8_t region = *last_byte(three, 0) & SUMPNEWT_REGION_BITS;

    mark(marked, three, SUMPNEWT_MARK_QRS, SUMPNEWT_MARK_PSR);
    on_marked(marked, SUMPNEWT_DONE, SUMPNEWT_DONE);
    expect(&removal, guarded(&removal, marked, removal.n, GUARD, removal.out_n), SUMPNEWT_DONE, 0);
    expect_last(&removal, 0, region | SUMPNEWT_MARK_PSR);
    expect_last(&removal, 1, region | SUMPNEWT_MARK_PQS);

    mark(marked, three, SUMPNEWT_MARK_PQS, 0);
    on_marked(marked, SUMPNEWT_MARKS_DISAGREE, SUMPNEWT_MARKS_DISAGREE);
    mark(marked, three, SUMPNEWT_MARK_PQS, SUMPNEWT_MARK_PRQ);
    on_marked(marked, SUMPNEWT_DONE, SUMPNEWT_MARK_GOES);

    mark(marked, two, SUMPNEWT_MARK_QRS, SUMPNEWT_MARK_PRQ);
    expect(&face, guarded(&face, marked, face.n, GUARD, face.out_n), SUMPNEWT_MARK_GOES, 0);
    mark(marked, two, SUMPNEWT_MARK_PSR, SUMPNEWT_MARK_PQS);
    expect(&face, guarded(&face, marked, face.n, GUARD, face.out_n), SUMPNEWT_DONE, 1);
    expect_last(&face, 0, region | SUMPNEWT_MARK_QRS);
    expect_last(&face, 1, region | SUMPNEWT_MARK_PSR);
    expect_last(&face, 2, region);
}

static void tell(const char *name, size_t before) {
    printf("%s: %zu calls\n", name, made - before);
}

static void part(const char *name, void (*tried)(const struct call *call)) {
    size_t before = made;
    for (size_t place = 0; place < CALLS; place++) {
        tried(&calls[place]);
    }
    tell(name, before);
}

static void alone(const char *name, void (*tried)(void)) {
    size_t before = made;
    tried();
    tell(name, before);
}

static int blocks_are_made(void) {
    static const uint8_t points[POINTS][SUMPNEWT_POINT_BYTES] = {
        {4, 4, 12}, {4, 4, 0}, {0, 0, 6}, {12, 0, 6}, {0, 12, 6},
    };
    static const uint8_t rows[][SUMPNEWT_ROW_BYTES] = {
        {0, 1, 2, 3, 7}, {0, 1, 3, 4, 7}, {0, 1, 4, 2, 7},
    };
    uint8_t fields[SUMPNEWT_FIELDS_BYTES] = {0};
    fields[SUMPNEWT_VERSION_AT] = SUMPNEWT_VERSION_PLAIN;
    fields[SUMPNEWT_POINT_COUNT_AT] = POINTS;
    fields[SUMPNEWT_ROW_COUNT_AT] = sizeof rows / sizeof rows[0];
    memcpy(fields + SUMPNEWT_POINTS_AT, points, sizeof points);
    memcpy(fields + SUMPNEWT_ROWS_AT, rows, sizeof rows);
    uint32_t number = sumpnewt_seal(fields, sizeof fields, three, sizeof three);
    memcpy(spoiled, three, sizeof three);
    spoiled[SUMPNEWT_VERSION_AT] = SUMPNEWT_VERSION_MARKED + 1;
    return number == SUMPNEWT_DONE && removed(three, sizeof three, two, sizeof two) == SUMPNEWT_DONE;
}

int main(void) {
    uint8_t before[3][SUMPNEWT_BLOCK_BYTES];
    room = piece_of_heap(ROOM);
    if (!blocks_are_made()) {
        fprintf(stderr, "the blocks are refused\n");
        return EXIT_FAILURE;
    }
    memcpy(before[0], three, sizeof three);
    memcpy(before[1], two, sizeof two);
    memcpy(before[2], spoiled, sizeof spoiled);

    part("null pointers with length 0", null_pointers);
    part("outputs of every length", output_lengths);
    part("inputs of every length", input_lengths);
    part("refused blocks", refusals);
    part("blocks at every address", addresses);
    part("outputs fresh from malloc", fresh_heap);
    part("outputs fresh on the stack", fresh_stack);
    alone("flips with neither two numbers nor three", wrong_counts);
    alone("flips with a null pointer for no numbers", no_numbers);
    alone("marked faces", marked_faces);

    if (memcmp(before[0], three, sizeof three) != 0 || memcmp(before[1], two, sizeof two) != 0 ||
        memcmp(before[2], spoiled, sizeof spoiled) != 0) {
        fprintf(stderr, "an input is changed\n");
        return EXIT_FAILURE;
    }
    free(room);
    return EXIT_SUCCESS;
}
