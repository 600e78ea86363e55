/*
 * Tries the header and the archive: every constant, word and macro against what is written out
 * here, every function on input that tells its parameters apart, accepted and refused, and what the
 * example prints. Arguments: the header's file and the example's program. Ends in one line with the
 * number of checks; the exit status is 1 where one fails.
 */
#define _POSIX_C_SOURCE 200809L
#include <inttypes.h>
#include <stdio.h>
#include <stdlib.h>
#include <string.h>

#include "rabbitsteel.h"

/* The functions with the types that the archive has. Another type in the header is an error here. */
static uint64_t (*const call_read)(const uint8_t *, size_t, uint64_t *,
                                   uint64_t *) = rabbitsteel_read;
static uint64_t (*const call_order)(const uint8_t *, size_t, uint8_t *, size_t, uint64_t *,
                                    uint64_t *, uint64_t *) = rabbitsteel_order;
static uint64_t (*const call_build)(const uint8_t *, size_t, uint16_t *, size_t, uint16_t *, size_t,
                                    uint64_t *, uint64_t *, uint64_t *) = rabbitsteel_build;
static uint64_t (*const call_ask)(const uint16_t *, size_t, const uint16_t *, size_t, uint8_t,
                                  const uint8_t *, size_t, uint64_t *) = rabbitsteel_ask;
static uint64_t (*const call_derived)(const uint8_t *, size_t, uint16_t *, size_t, uint16_t *,
                                      size_t, uint8_t, const uint8_t *, size_t,
                                      uint64_t *) = rabbitsteel_derived;
static uint64_t (*const call_write)(const uint8_t *, size_t, uint8_t, const uint8_t *, size_t,
                                    uint8_t *, size_t, uint64_t *,
                                    uint64_t *) = rabbitsteel_write_derivation;
static uint64_t (*const call_check)(const uint8_t *, size_t, uint8_t, const uint8_t *, size_t,
                                    const uint8_t *, size_t,
                                    uint64_t *) = rabbitsteel_check_derivation;
static uint64_t (*const call_binds)(const uint8_t *, size_t, uint8_t, const uint8_t *, size_t,
                                    uint8_t *, size_t, uint64_t *) = rabbitsteel_binds;
static const char *(*const call_words)(uint64_t) = rabbitsteel_words;

/* The same as they stand in the header: two parameters of one type are told apart by name alone. */
static const char *const prototypes[] = {
    "uint64_t rabbitsteel_read(const uint8_t *book, size_t book_len, uint64_t *first, uint64_t *second);",
    "uint64_t rabbitsteel_order(const uint8_t *book, size_t book_len, uint8_t *levels, size_t levels_len, "
    "uint64_t *first, uint64_t *second, uint64_t *third);",
    "uint64_t rabbitsteel_build(const uint8_t *book, size_t book_len, uint16_t *heads, size_t heads_len, "
    "uint16_t *moves, size_t moves_len, uint64_t *first, uint64_t *second, uint64_t *third);",
    "uint64_t rabbitsteel_ask(const uint16_t *heads, size_t heads_len, const uint16_t *moves, "
    "size_t moves_len, uint8_t role, const uint8_t *chain, size_t chain_len, uint64_t *answer);",
    "uint64_t rabbitsteel_derived(const uint8_t *book, size_t book_len, uint16_t *heads, "
    "size_t heads_len, uint16_t *moves, size_t moves_len, uint8_t role, "
    "const uint8_t *chain, size_t chain_len, uint64_t *answer);",
    "uint64_t rabbitsteel_write_derivation(const uint8_t *book, size_t book_len, uint8_t role, "
    "const uint8_t *chain, size_t chain_len, uint8_t *steps, size_t steps_len, uint64_t *first, "
    "uint64_t *second);",
    "uint64_t rabbitsteel_check_derivation(const uint8_t *book, size_t book_len, uint8_t role, "
    "const uint8_t *chain, size_t chain_len, const uint8_t *steps, size_t steps_len, "
    "uint64_t *answer);",
    "uint64_t rabbitsteel_binds(const uint8_t *book, size_t book_len, uint8_t role, "
    "const uint8_t *chain, size_t chain_len, uint8_t *network, size_t network_len, "
    "uint64_t *answer);",
};

static unsigned checks, failures;

static void check(int holds, const char *what, int line)
{
    checks++;
    if (holds)
        return;
    failures++;
    fprintf(stderr, "test.c:%d: %s\n", line, what);
}

static void check_number(uint64_t given, uint64_t owed, const char *what, int line)
{
    check(given == owed, what, line);
    if (given != owed)
        fprintf(stderr, "  it is %" PRIu64 ", not %" PRIu64 "\n", given, owed);
}

static void check_text(const char *given, const char *owed, const char *what, int line)
{
    check(strcmp(given, owed) == 0, what, line);
    if (strcmp(given, owed) != 0)
        fprintf(stderr, "  it is: %s\n  not: %s\n", given, owed);
}

#define CHECK(condition) check(condition, #condition, __LINE__)
#define NUMBER(given, owed) check_number(given, owed, #given, __LINE__)
#define TEXT(given, owed) check_text(given, owed, #given, __LINE__)

/* The header's constants. */
static void try_constants(void)
{
    NUMBER(RABBITSTEEL_BOOK_MAX, 2568);
    NUMBER(RABBITSTEEL_NAMES_MAX, 64);
    NUMBER(RABBITSTEEL_RULES_MAX, 256);
    NUMBER(RABBITSTEEL_STATES_MAX, 2048);
    NUMBER(RABBITSTEEL_MOVES_MAX, 5120);
    NUMBER(RABBITSTEEL_MOVES_LEN, 15360);
    NUMBER(RABBITSTEEL_CHAIN_MAX, 1024);
    NUMBER(RABBITSTEEL_DERIVED_MAX, 16);
    NUMBER(RABBITSTEEL_STEPS_MAX, 4096);
    NUMBER(RABBITSTEEL_STEPS_LEN, 16384);
    NUMBER(RABBITSTEEL_BINDS_MAX, 16);
    NUMBER(RABBITSTEEL_NETWORK_LEN, 18496);
    NUMBER(RABBITSTEEL_SILENT, 128);
    NUMBER(RABBITSTEEL_ACCEPTED, 0);
    NUMBER(RABBITSTEEL_CAUSE_SIZE, 1);
    NUMBER(RABBITSTEEL_CAUSE_MARK, 2);
    NUMBER(RABBITSTEEL_CAUSE_VERSION, 3);
    NUMBER(RABBITSTEEL_CAUSE_RANGE, 4);
    NUMBER(RABBITSTEEL_CAUSE_MALFORMED, 5);
    NUMBER(RABBITSTEEL_CAUSE_UNDECLARED, 6);
    NUMBER(RABBITSTEEL_CAUSE_REPEATED, 7);
    NUMBER(RABBITSTEEL_CAUSE_NO_ORDER, 8);
    NUMBER(RABBITSTEEL_CAUSE_STATES, 9);
    NUMBER(RABBITSTEEL_CAUSE_MOVES, 10);
    NUMBER(RABBITSTEEL_CAUSE_SHORT, 11);
    NUMBER(RABBITSTEEL_CAUSE_TABLES, 12);
    NUMBER(RABBITSTEEL_CAUSE_CHAIN, 13);
    NUMBER(RABBITSTEEL_CAUSE_ROLE, 14);
    NUMBER(RABBITSTEEL_CAUSE_LONG, 15);
    NUMBER(RABBITSTEEL_CAUSE_BUFFER, 16);
    NUMBER(RABBITSTEEL_CAUSE_STEP, 17);
}

/* Role bytes of all names, there and back. */
static void try_role_bytes(void)
{
    NUMBER(sizeof RABBITSTEEL_ROLE(63), 1);
    NUMBER(sizeof RABBITSTEEL_INVERSE(127), 1);
    NUMBER(sizeof RABBITSTEEL_NAME(127), 1);
    for (unsigned name = 0; name < 64; name++) {
        NUMBER(RABBITSTEEL_ROLE(name), name + name);
        NUMBER(RABBITSTEEL_INVERSE(name + name), name + name + 1);
        NUMBER(RABBITSTEEL_INVERSE(name + name + 1), name + name);
        NUMBER(RABBITSTEEL_NAME(name + name), name);
        NUMBER(RABBITSTEEL_NAME(name + name + 1), name);
    }
}

static void try_words(void)
{
    TEXT(call_words(0), "accepted");
    TEXT(call_words(1), "the book has fewer than 8 or more than 2,568 bytes");
    TEXT(call_words(2), "the book does not begin with the mark RLB");
    TEXT(call_words(3), "the version is not 1");
    TEXT(call_words(4), "the names are not 1 to 64, or the rules over 256");
    TEXT(call_words(5),
         "a left side of 0 or over 8 roles, a rule cut short, or bytes after the last rule");
    TEXT(call_words(6), "a role of a name that the book does not have");
    TEXT(call_words(7), "a rule equals an earlier rule or its mirror");
    TEXT(call_words(8), "no regular order");
    TEXT(call_words(9), "the tables have over 2,048 states");
    TEXT(call_words(10), "the tables have over 5,120 moves");
    TEXT(call_words(11), "heads or moves lent too short");
    TEXT(call_words(12), "the tables are out of bounds");
    TEXT(call_words(13), "the chain has 0 or over 1,024 links");
    TEXT(call_words(14), "a role of a name that the book or the tables do not have");
    TEXT(call_words(15), "the chain has over 16 links");
    TEXT(call_words(16), "fewer bytes lent than the steps or the network need");
    TEXT(call_words(17), "steps not in fours of bytes, or an impossible step");
    TEXT(call_words(18), "no cause has this number");
    TEXT(call_words(UINT64_MAX), "no cause has this number");
}

/* Four names and three rules: part part to part; part sits to sits; sits let to due. */
static const uint8_t hall[22] = {'R', 'L', 'B', 1, 0, 4, 3, 0, 0, 2, 0, 0, 2, 2, 0, 2, 6, 2, 2, 4};

/* Its tables. */
static const uint16_t hall_heads[4] = {0, 2, 6, 8};
static const uint16_t hall_moves[54] = {
    0,  0, 1,  1,  128, 0,  2,  2, 3,  2,  128, 4,  4,  0,   5,  5,  128, 4,
    5,  128, 2, 6,  4,  7,  8,  6, 9,  8,  128, 10, 10, 2,   11, 10, 128, 12,
    12, 0, 13, 13, 128, 12, 13, 128, 10, 11, 128, 14, 14, 4, 15, 15, 128, 9,
};

/* What stands in memory before a call, and around what is lent. No call stores it. */
#define UNSET UINT64_C(0xA5A5A5A5A5A5A5A5)
#define NOISE(place) ((uint16_t)(0x8000u + (place)))
#define NOISE_BYTE(place) ((uint8_t)(0x80u + (place)))

enum { FENCE = 8, LEVELS = 70, HEADS = 70, MOVES = 15366, STEPS = 16390, NETWORK = 18502 };

/* Numbers, levels, tables, steps and a network lent to a call, each with a fence before and after
   it. */
static uint64_t numbers[7];
static uint8_t levels[FENCE + LEVELS + FENCE];
static uint16_t heads[FENCE + HEADS + FENCE];
static uint16_t moves[FENCE + MOVES + FENCE];
static uint8_t steps[FENCE + STEPS + FENCE];
static uint8_t network[FENCE + NETWORK + FENCE];
static uint64_t *const first = numbers + 1;
static uint64_t *const second = numbers + 3;
static uint64_t *const third = numbers + 5;
static uint8_t *const lent_levels = levels + FENCE;
static uint16_t *const lent_heads = heads + FENCE;
static uint16_t *const lent_moves = moves + FENCE;
static uint8_t *const lent_steps = steps + FENCE;
static uint8_t *const lent_network = network + FENCE;

static void clear(void)
{
    for (size_t i = 0; i < sizeof numbers / sizeof numbers[0]; i++)
        numbers[i] = UNSET;
    for (size_t i = 0; i < sizeof levels; i++)
        levels[i] = NOISE_BYTE(i);
    for (size_t i = 0; i < sizeof heads / sizeof heads[0]; i++)
        heads[i] = NOISE(i);
    for (size_t i = 0; i < sizeof moves / sizeof moves[0]; i++)
        moves[i] = NOISE(i);
    for (size_t i = 0; i < sizeof steps; i++)
        steps[i] = NOISE_BYTE(i);
    for (size_t i = 0; i < sizeof network; i++)
        network[i] = NOISE_BYTE(i);
}

/* Whether memory holds these numbers where it was lent, and what it held everywhere else. */
static int holds(const uint16_t *memory, size_t length, const uint16_t *written, size_t count)
{
    for (size_t i = 0; i < length; i++) {
        int inside = i >= FENCE && i - FENCE < count;
        if (memory[i] != (inside ? written[i - FENCE] : NOISE(i)))
            return 0;
    }
    return 1;
}

/* Whether the first so many heads and numbers of moves are the hall book's, and all else is kept. */
static int tables_hold(size_t heads_count, size_t moves_count)
{
    return holds(heads, sizeof heads / sizeof heads[0], hall_heads, heads_count) &&
           holds(moves, sizeof moves / sizeof moves[0], hall_moves, moves_count);
}

/* As holds, for bytes. */
static int bytes_hold(const uint8_t *memory, size_t length, const uint8_t *written, size_t count)
{
    for (size_t i = 0; i < length; i++) {
        int inside = i >= FENCE && i - FENCE < count;
        if (memory[i] != (inside ? written[i - FENCE] : NOISE_BYTE(i)))
            return 0;
    }
    return 1;
}

/* Whether the first so many levels are these, and all else is kept. */
static int levels_hold(const uint8_t *written, size_t count)
{
    return bytes_hold(levels, sizeof levels, written, count);
}

/* Whether the first bytes of the steps are these, and all else is kept. */
static int steps_hold(const uint8_t *written, size_t count)
{
    return bytes_hold(steps, sizeof steps, written, count);
}

/* Whether the first bytes of the network are these, and all else is kept. */
static int network_holds(const uint8_t *written, size_t count)
{
    return bytes_hold(network, sizeof network, written, count);
}

/* What a call returned and stored; nothing around the stored numbers is touched. */
static void told(uint64_t cause, uint64_t owed_cause, uint64_t owed_first, uint64_t owed_second,
                 uint64_t owed_third, int line)
{
    check_number(cause, owed_cause, "the cause", line);
    check_number(*first, owed_first, "the first number", line);
    check_number(*second, owed_second, "the second number", line);
    check_number(*third, owed_third, "the third number", line);
    check(numbers[0] == UNSET && numbers[2] == UNSET && numbers[4] == UNSET && numbers[6] == UNSET,
          "a number beside the stored ones is changed", line);
}

struct ordered_book {
    const uint8_t *bytes;
    size_t length;
    uint64_t names, rules, depth;
    const uint8_t *levels;
    int line;
};

/* A book that has an order: its levels, as many as are lent of 0 to over 64. */
static void try_ordered(const struct ordered_book *book)
{
    clear();
    told(call_read(book->bytes, book->length, first, second), 0, book->names, book->rules, UNSET,
         book->line);
    for (size_t lent = 0; lent <= LEVELS; lent++) {
        clear();
        told(call_order(book->bytes, book->length, lent_levels, lent, first, second, third), 0,
             book->names, book->rules, book->depth, book->line);
        check(levels_hold(book->levels, lent < book->names ? lent : (size_t)book->names),
              "the levels", book->line);
    }
}

#define ORDERED(bytes, length, names, rules, depth, levels)                                        \
    try_ordered(&(struct ordered_book){bytes, length, names, rules, depth, levels, __LINE__})

struct refused_book {
    const uint8_t *bytes;
    size_t length;
    uint64_t cause, value;
    int line;
};

/* A book that has no tables, whatever it has of levels. */
static void try_not_built(const struct refused_book *book)
{
    clear();
    told(call_build(book->bytes, book->length, lent_heads, 64, lent_moves, 15360, first, second,
                    third),
         book->cause, book->value, 0, 0, book->line);
    check(tables_hold(0, 0), "a refused build changes the tables", book->line);
    clear();
    told(call_derived(book->bytes, book->length, lent_heads, 64, lent_moves, 15360, 0, book->bytes,
                      1, first),
         book->cause, book->value, UNSET, UNSET, book->line);
    check(tables_hold(0, 0), "a refused build and question changes the tables", book->line);
}

/* A book that has no order, and so no derivations and no networks, whatever is asked. */
static void try_not_derived(const struct refused_book *book)
{
    clear();
    told(call_write(book->bytes, book->length, 255, book->bytes, 0, lent_steps, 0, first, second),
         book->cause, book->value, 0, UNSET, book->line);
    told(call_write(book->bytes, book->length, 0, (const uint8_t[]){0}, 1, lent_steps, 16384, first,
                    second),
         book->cause, book->value, 0, UNSET, book->line);
    check(steps_hold(NULL, 0), "a refused derivation changes the steps", book->line);
    clear();
    told(call_check(book->bytes, book->length, 255, book->bytes, 0, book->bytes, 1, first),
         book->cause, book->value, UNSET, UNSET, book->line);
    clear();
    told(call_binds(book->bytes, book->length, 255, book->bytes, 0, lent_network, 0, first),
         book->cause, book->value, UNSET, UNSET, book->line);
    told(call_binds(book->bytes, book->length, 1, (const uint8_t[]){0}, 1, lent_network, NETWORK,
                    first),
         book->cause, book->value, UNSET, UNSET, book->line);
    check(network_holds(NULL, 0), "a refused question changes the network", book->line);
}

/* A book that has no order, and so no tables. It cannot be read, or has so many names and rules. */
static void try_refused(const struct refused_book *book, uint64_t names, uint64_t rules)
{
    clear();
    if (names > 0)
        told(call_read(book->bytes, book->length, first, second), 0, names, rules, UNSET,
             book->line);
    else
        told(call_read(book->bytes, book->length, first, second), book->cause, book->value, 0,
             UNSET, book->line);
    for (size_t lent = 0; lent <= LEVELS; lent += 35) {
        clear();
        told(call_order(book->bytes, book->length, lent_levels, lent, first, second, third),
             book->cause, book->value, 0, 0, book->line);
        check(levels_hold(NULL, 0), "a refused order check changes the levels", book->line);
    }
    try_not_built(book);
    try_not_derived(book);
}

#define NOT_BUILT(bytes, length, cause, value)                                                     \
    try_not_built(&(struct refused_book){bytes, length, cause, value, __LINE__})
#define REFUSED(bytes, length, cause, value, names, rules)                                         \
    try_refused(&(struct refused_book){bytes, length, cause, value, __LINE__}, names, rules)

/* A copy of the hall book with one byte changed. */
static const uint8_t *hall_with(size_t place, uint8_t byte)
{
    static uint8_t changed[sizeof hall];

    memcpy(changed, hall, sizeof hall);
    changed[place] = byte;
    return changed;
}

/* Books refused by causes 1 to 8, with every value that a cause can have beside it. */
static void try_refused_books(void)
{
    static const uint8_t longer[2569] = {'R', 'L', 'B'};
    static const uint8_t repeated[] = {'R', 'L', 'B', 1, 0, 1, 2, 0, 0, 1, 1, 1, 1, 0};
    static const uint8_t circle[] = {'R', 'L', 'B', 1, 0, 2, 2, 0, 0, 1, 2, 2, 1, 0};
    static const uint8_t itself[] = {'R', 'L', 'B', 1, 0, 3, 1, 0, 4, 1, 4};

    REFUSED(hall, 0, 1, 0, 0, 0);
    REFUSED(hall, 7, 1, 0, 0, 0);
    REFUSED(longer, 2569, 1, 0, 0, 0);
    REFUSED(longer, 2568, 3, 0, 0, 0);
    REFUSED(hall_with(1, 'l'), 20, 2, 0, 0, 0);
    REFUSED(hall_with(3, 2), 20, 3, 0, 0, 0);
    REFUSED(hall_with(5, 65), 20, 4, 0, 0, 0);
    REFUSED(hall_with(7, 1), 20, 4, 0, 0, 0);
    REFUSED(hall_with(9, 9), 20, 5, 0, 0, 0);
    REFUSED(hall_with(13, 0), 20, 5, 1, 0, 0);
    REFUSED(hall, 19, 5, 2, 0, 0);
    REFUSED(hall, 21, 5, 3, 0, 0);
    REFUSED(hall_with(12, 8), 20, 6, 1, 0, 0);
    REFUSED(hall_with(19, 255), 20, 6, 2, 0, 0);
    REFUSED(repeated, sizeof repeated, 7, 1, 0, 0);
    REFUSED(circle, sizeof circle, 8, 1, 2, 2);
    REFUSED(itself, sizeof itself, 8, 0, 3, 1);
}

/* Tables of too many states: each name has eight copies of the one before it. The book has levels and
   derivations. No book is refused by cause 10: 2,048 states have at most 5,120 moves. */
static void try_large_book(void)
{
    static const uint8_t large_levels[] = {1, 2, 3, 4, 5}, eight[] = {6, 6, 6, 6, 6, 6, 6, 6};
    uint8_t large[8 + 4 * 10] = {'R', 'L', 'B', 1, 0, 5, 4, 0};

    for (uint8_t rule = 0; rule < 4; rule++) {
        large[8 + 10 * rule] = (uint8_t)(2 * rule + 2);
        large[9 + 10 * rule] = 8;
        memset(large + 10 + 10 * rule, 2 * rule, 8);
    }
    ORDERED(large, sizeof large, 5, 4, 5, large_levels);
    NOT_BUILT(large, sizeof large, 9, 0);
    clear();
    told(call_write(large, sizeof large, 8, eight, 8, lent_steps, 16384, first, second), 0, 1, 1,
         UNSET, __LINE__);
    CHECK(steps_hold((const uint8_t[]){0, 0, 3, 0}, 4));
    told(call_check(large, sizeof large, 8, eight, 8, lent_steps, 4, first), 0, 1, 1, UNSET,
         __LINE__);
}

/* Books whose levels tell rules of a name from those of its inverse, and inner names from others:
   names 0 to 3 are r, s, t and u. */
static void try_levels(void)
{
    /* t to s; t to r; inv s u to inv r */
    static const uint8_t both[] = {'R', 'L', 'B', 1, 0, 4, 3, 0, 2, 1, 4, 0, 1, 4, 1, 2, 3, 6};
    /* s to inv r; t to r; inv t inv s to inv s */
    static const uint8_t back[] = {'R', 'L', 'B', 1, 0, 3, 3, 0, 1, 1, 2, 0, 1, 4, 3, 2, 5, 3};
    /* r to u; s to r; t to s: each rule before the one it leans on */
    static const uint8_t late[] = {'R', 'L', 'B', 1, 0, 4, 3, 0, 6, 1, 0, 0, 1, 2, 2, 1, 4};
    /* 0 to 1; 1 to 2; 3 4 5 to 6: the name with the most names below it is not the deepest */
    static const uint8_t wide[] = {'R', 'L', 'B', 1, 0, 7, 3, 0, 2, 1,
                                   0, 4, 1, 2, 12, 3, 6, 8, 10};
    /* r r to r; inv s to s: no inner role */
    static const uint8_t own[] = {'R', 'L', 'B', 1, 0, 3, 2, 0, 0, 2, 0, 0, 2, 1, 3};

    ORDERED(hall, 20, 4, 3, 3, ((const uint8_t[]){1, 2, 1, 3}));
    ORDERED(both, sizeof both, 4, 3, 3, ((const uint8_t[]){3, 2, 1, 1}));
    ORDERED(back, sizeof back, 3, 3, 3, ((const uint8_t[]){3, 2, 1}));
    ORDERED(late, sizeof late, 4, 3, 4, ((const uint8_t[]){3, 2, 1, 4}));
    ORDERED(wide, sizeof wide, 7, 3, 3, ((const uint8_t[]){1, 2, 3, 1, 1, 1, 2}));
    ORDERED(own, sizeof own, 3, 2, 1, ((const uint8_t[]){1, 1, 1}));
    clear();
    told(call_build(back, sizeof back, lent_heads, 3, lent_moves, 45, first, second, third), 0, 14,
         15, 3, __LINE__);
    clear();
    told(call_build(own, sizeof own, lent_heads, 3, lent_moves, 15, first, second, third), 0, 6, 5,
         1, __LINE__);
}

/* Books of so many names in a row, each with the next one on the left of its only rule: the deepest
   of all, whose tables are too large, and the deepest such book that has tables. */
static void try_ladders(void)
{
    uint8_t ladder[8 + 3 * 63] = {'R', 'L', 'B', 1, 0, 64, 63, 0}, falling[64];

    for (uint8_t name = 0; name < 64; name++)
        falling[name] = (uint8_t)(64 - name);
    for (uint8_t rule = 0; rule < 63; rule++) {
        ladder[8 + 3 * rule] = (uint8_t)(2 * rule);
        ladder[9 + 3 * rule] = 1;
        ladder[10 + 3 * rule] = (uint8_t)(2 * rule + 2);
    }
    ORDERED(ladder, sizeof ladder, 64, 63, 64, falling);
    NOT_BUILT(ladder, sizeof ladder, 9, 0);
    ladder[5] = 44;
    ladder[6] = 43;
    ORDERED(ladder, 8 + 3 * 43, 44, 43, 44, falling + 20);
    clear();
    told(call_build(ladder, 8 + 3 * 43, lent_heads, 64, lent_moves, 15360, first, second, third), 0,
         1980, 2882, 44, __LINE__);
}

/* The hall book, in memory just long enough, longer, and one number too short. */
static void try_build(void)
{
    static const size_t short_lengths[][2] = {{3, 54}, {4, 53}, {0, 15360}, {64, 0}, {54, 4}, {3, 53}};

    clear();
    told(call_build(hall, 20, lent_heads, 4, lent_moves, 54, first, second, third), 0, 16, 18, 3,
         __LINE__);
    CHECK(tables_hold(4, 54));
    clear();
    told(call_build(hall, 20, lent_heads, 70, lent_moves, 15366, first, second, third), 0, 16, 18,
         3, __LINE__);
    CHECK(tables_hold(4, 54));
    for (size_t i = 0; i < sizeof short_lengths / sizeof short_lengths[0]; i++) {
        size_t heads_len = short_lengths[i][0], moves_len = short_lengths[i][1];

        clear();
        told(call_build(hall, 20, lent_heads, heads_len, lent_moves, moves_len, first, second,
                        third),
             11, 0, 0, 0, __LINE__);
        CHECK(tables_hold(0, 0));
        clear();
        told(call_derived(hall, 20, lent_heads, heads_len, lent_moves, moves_len, 6, hall, 1,
                          first),
             11, 0, UNSET, UNSET, __LINE__);
        CHECK(tables_hold(0, 0));
    }
}

struct question {
    uint8_t role;
    const uint8_t *chain;
    size_t length;
    uint64_t cause, answer;
};

/* Questions about the hall book, put to its tables and to the call that builds and asks. */
static void try_questions(void)
{
    static const uint8_t parts[1025];
    const struct question asked[] = {
        {6, (const uint8_t[]){0, 0, 2, 4}, 4, 0, 1}, {6, (const uint8_t[]){2, 0, 4}, 3, 0, 0},
        {7, (const uint8_t[]){5, 3, 1}, 3, 0, 1},    {6, (const uint8_t[]){8}, 0, 13, 0},
        {6, (const uint8_t[]){8}, 1, 14, 0},         {6, (const uint8_t[]){6}, 1, 0, 1},
        {2, (const uint8_t[]){0}, 1, 0, 0},          {0, parts, 1024, 0, 1},
        {0, parts, 1025, 13, 0},                     {8, parts, 1, 14, 0},
        {8, parts, 0, 13, 0},                        {0, (const uint8_t[]){0, 255}, 2, 14, 0},
        {0, (const uint8_t[]){0, 255}, 1, 0, 1},     {2, parts, 1024, 0, 0},
    };

    for (size_t i = 0; i < sizeof asked / sizeof asked[0]; i++) {
        const struct question *q = &asked[i];
        size_t built = q->cause == 0;

        clear();
        told(call_ask(hall_heads, 4, hall_moves, 54, q->role, q->chain, q->length, first), q->cause,
             q->answer, UNSET, UNSET, __LINE__);
        clear();
        told(call_derived(hall, 20, lent_heads, 5, lent_moves, 57, q->role, q->chain, q->length,
                          first),
             q->cause, q->answer, UNSET, UNSET, __LINE__);
        check(tables_hold(4 * built, 54 * built), "the tables of a question", __LINE__);
    }
}

/* A question to tables that no book gave: the cause and the answer. */
static void try_ask(const uint16_t *asked_heads, size_t heads_len, const uint16_t *asked_moves,
                    size_t moves_len, uint64_t cause, uint64_t answer, int line)
{
    static const uint8_t chain[1] = {0};

    clear();
    told(call_ask(asked_heads, heads_len, asked_moves, moves_len, 0, chain, 1, first), cause, answer,
         UNSET, UNSET, line);
}

#define ASK(heads, heads_len, moves, moves_len, cause, answer)                                     \
    try_ask(heads, heads_len, moves, moves_len, cause, answer, __LINE__)

/* Tables at and past the limits of cause 12. */
static void try_tables(void)
{
    static const uint16_t none[15363];
    static const uint16_t last[3] = {2046, 0, 2047};
    static const uint16_t over[3] = {2048, 129, 2047};
    static const uint16_t step[3] = {0, 0, 1};
    static const uint16_t label[3] = {0, 129, 1};

    ASK(last, 1, last, 3, 0, 1);
    ASK(last + 2, 1, last, 3, 12, 0);
    ASK(none, 0, step, 3, 12, 0);
    ASK(none, 64, step, 3, 0, 1);
    ASK(none, 65, step, 3, 12, 0);
    ASK(none, 1, step, 0, 0, 0);
    ASK(none, 1, step, 1, 12, 0);
    ASK(none, 1, step, 2, 12, 0);
    ASK(none, 1, none, 15360, 0, 0);
    ASK(none, 1, none, 15363, 12, 0);
    ASK(none, 1, over, 3, 12, 0);
    ASK(none, 1, label, 3, 12, 0);
}

struct derivation {
    uint8_t role;
    const uint8_t *chain;
    size_t length;
    uint64_t cause, derived;
    const uint8_t *steps;
    size_t count;
};

/* Derivations of the hall book that are the only ones, and what is asked in vain. */
static void try_written(void)
{
    static const uint8_t parts[1025];
    const struct derivation asked[] = {
        {6, (const uint8_t[]){2, 4}, 2, 0, 1, (const uint8_t[]){0, 0, 2, 0}, 1},
        {7, (const uint8_t[]){5, 3, 1}, 3, 0, 1, (const uint8_t[]){0, 0, 2, 1, 1, 0, 1, 1}, 2},
        {6, (const uint8_t[]){6}, 1, 0, 1, NULL, 0},
        {6, (const uint8_t[]){2, 0, 4}, 3, 0, 0, NULL, 0},
        {2, parts, 16, 0, 0, NULL, 0},
        {8, parts, 0, 13, 0, NULL, 0},
        {8, parts, 1025, 13, 0, NULL, 0},
        {8, parts, 17, 14, 0, NULL, 0},
        {0, (const uint8_t[]){0, 255}, 2, 14, 0, NULL, 0},
        {0, parts, 17, 15, 0, NULL, 0},
        {0, parts, 1024, 15, 0, NULL, 0},
    };

    for (size_t i = 0; i < sizeof asked / sizeof asked[0]; i++) {
        const struct derivation *d = &asked[i];

        for (size_t lent = 16384; lent <= STEPS; lent += 6) {
            clear();
            told(call_write(hall, 20, d->role, d->chain, d->length, lent_steps, lent, first,
                            second),
                 d->cause, d->derived, d->count, UNSET, __LINE__);
            check(steps_hold(d->steps, 4 * d->count), "the steps", __LINE__);
        }
        /* A buffer lent too short is refused after the question and before the answer. */
        for (size_t lent = 0; lent <= 16383; lent += 16383) {
            clear();
            told(call_write(hall, 20, d->role, d->chain, d->length, lent_steps, lent, first,
                            second),
                 d->cause ? d->cause : 16, 0, 0, UNSET, __LINE__);
            check(steps_hold(NULL, 0), "a short buffer", __LINE__);
        }
        if (d->cause == 0 && !d->derived)
            continue;
        clear();
        told(call_check(hall, 20, d->role, d->chain, d->length, d->count ? d->steps : hall,
                        4 * d->count, first),
             d->cause, d->cause ? 0 : 1, UNSET, UNSET, __LINE__);
    }
}

/* What is written of a chain with several derivations is one of them. */
static void try_written_and_checked(void)
{
    static const uint8_t parts[16];
    static uint8_t written[4 * 15];

    clear();
    told(call_write(hall, 20, 0, parts, 16, lent_steps, 16384, first, second), 0, 1, 15, UNSET,
         __LINE__);
    memcpy(written, lent_steps, sizeof written);
    CHECK(steps_hold(written, sizeof written));
    clear();
    told(call_check(hall, 20, 0, parts, 16, written, sizeof written, first), 0, 1, UNSET, UNSET,
         __LINE__);
}

/* Steps put to the checker for a chain: the cause and the answer, or the value beside the cause. */
static void try_check(const uint8_t *book, size_t book_len, uint8_t role, const uint8_t *chain,
                      size_t length, const uint8_t *checked, size_t checked_len, uint64_t cause,
                      uint64_t answer, int line)
{
    clear();
    told(call_check(book, book_len, role, chain, length, checked, checked_len, first), cause, answer,
         UNSET, UNSET, line);
}

#define STEPS_OF_DUE(checked, checked_len, cause, answer)                                          \
    try_check(hall, 20, 6, due, 3, (const uint8_t[])checked, checked_len, cause, answer, __LINE__)
#define BYTES(...) {__VA_ARGS__}

/* Steps that lead to part sits let or elsewhere, and steps that are impossible. */
static void try_checked(void)
{
    static const uint8_t due[] = {0, 2, 4};

    STEPS_OF_DUE(BYTES(0, 0, 2, 0, 0, 0, 1, 0), 8, 0, 1);
    STEPS_OF_DUE(BYTES(0, 0, 2, 0, 0, 0, 1, 0), 4, 0, 0);
    STEPS_OF_DUE(BYTES(0), 0, 0, 0);
    STEPS_OF_DUE(BYTES(0, 0, 2, 0, 0, 0, 1, 0, 0, 0, 0, 0), 12, 0, 0);
    /* no such place, by either byte; no such rule; no such side; another link there */
    STEPS_OF_DUE(BYTES(0, 0, 2, 0, 2, 0, 1, 0), 8, 17, 1);
    STEPS_OF_DUE(BYTES(0, 0, 2, 0, 0, 1, 1, 0), 8, 17, 1);
    STEPS_OF_DUE(BYTES(0, 0, 3, 0, 0, 0, 1, 0), 8, 17, 0);
    STEPS_OF_DUE(BYTES(0, 0, 2, 2, 0, 0, 1, 0), 8, 17, 0);
    STEPS_OF_DUE(BYTES(0, 0, 2, 0, 0, 0, 1, 1), 8, 17, 1);
    STEPS_OF_DUE(BYTES(0, 0, 2, 0, 1, 0, 1, 0), 8, 17, 1);
    /* bytes not in fours, before any step is looked at */
    STEPS_OF_DUE(BYTES(0, 0, 2, 0, 0, 0, 1, 0), 7, 17, 0);
    STEPS_OF_DUE(BYTES(9, 9, 9, 9, 9), 5, 17, 0);
}

/* Any number of steps: to and fro on a symmetric relation, 80,001 of them; and over 16 links. */
static void try_many_steps(void)
{
    static const uint8_t symmetric[] = {'R', 'L', 'B', 1, 0, 1, 1, 0, 0, 1, 1};
    static const uint8_t parts[17], same[4 * 16], back[] = {1};
    static uint8_t many[4 * 80001];

    for (size_t step = 0; step < 80001; step++)
        many[4 * step + 3] = step % 2;
    try_check(symmetric, sizeof symmetric, 0, parts, 1, many, 4 * 80000, 0, 1, __LINE__);
    try_check(symmetric, sizeof symmetric, 0, back, 1, many, 4 * 80001, 0, 1, __LINE__);
    many[4 * 80000 + 3] = 1;
    try_check(symmetric, sizeof symmetric, 0, back, 1, many, 4 * 80001, 17, 80000, __LINE__);
    try_check(hall, 20, 0, parts, 16, same, 4 * 15, 0, 1, __LINE__);
    try_check(hall, 20, 0, parts, 16, same, 4 * 16, 17, 15, __LINE__);
}

struct binding {
    const uint8_t *book;
    size_t book_len;
    uint8_t role;
    const uint8_t *chain;
    size_t length;
    uint64_t cause, binds;
    const uint8_t *network;
    size_t count;
    int line;
};

/* A question with just enough bytes lent and with more, and with too few: none, and one less than
   enough. These are refused after the question and before the answer. */
static void try_binding(const struct binding *b)
{
    size_t places = b->length + 1;
    size_t needed = b->length <= 16 ? b->book[5] * places * places : 18496;
    size_t enough[] = {needed, NETWORK}, too_few[] = {0, needed - 1};

    for (size_t i = 0; i < 2; i++) {
        clear();
        told(call_binds(b->book, b->book_len, b->role, b->chain, b->length, lent_network, enough[i],
                        first),
             b->cause, b->binds, UNSET, UNSET, b->line);
        check(network_holds(b->network, b->count), "the network", b->line);
        clear();
        told(call_binds(b->book, b->book_len, b->role, b->chain, b->length, lent_network,
                        too_few[i], first),
             b->cause ? b->cause : 16, 0, UNSET, UNSET, b->line);
        check(network_holds(NULL, 0), "a short buffer", b->line);
    }
}

#define BINDS(book, book_len, role, chain, length)                                                 \
    try_binding(&(struct binding){book, book_len, role, chain, length, 0, 1, NULL, 0, __LINE__})
#define LACKS(book, book_len, role, chain, length, network, count)                                 \
    try_binding(                                                                                   \
        &(struct binding){book, book_len, role, chain, length, 0, 0, network, count, __LINE__})
#define ASKED_IN_VAIN(role, chain, length, cause)                                                  \
    try_binding(&(struct binding){hall, 20, role, chain, length, cause, 0, NULL, 0, __LINE__})

/* Chains that bind, derived and not; networks by hand; and what is asked in vain. */
static void try_bindings(void)
{
    /* serves, inv serves, serves to covers */
    static const uint8_t serves[] = {'R', 'L', 'B', 1, 0, 2, 1, 0, 2, 3, 0, 1, 0};
    /* s t inv t inv s s t to r */
    static const uint8_t twice[] = {'R', 'L', 'B', 1, 0, 3, 1, 0, 0, 6, 2, 4, 5, 3, 2, 4};
    /* inv s s to t; s t to r: through a link of a place to itself */
    static const uint8_t itself[] = {'R', 'L', 'B', 1, 0, 3, 2, 0, 4, 2, 3, 2, 0, 2, 2, 4};
    static const uint8_t none[] = {'R', 'L', 'B', 1, 0, 2, 0, 0};
    static const uint8_t role[] = {0, 1, 2, 3, 4}, parts[1025], bad[17] = {8}, last[] = {0, 255};

    BINDS(serves, sizeof serves, 2, role, 1);
    BINDS(serves, sizeof serves, 3, role + 1, 1);
    LACKS(serves, sizeof serves, 3, role, 1, ((const uint8_t[]){0, 1, 0, 0, 0, 1, 0, 0}), 8);
    LACKS(serves, sizeof serves, 2, role + 1, 1, ((const uint8_t[]){0, 0, 1, 0, 0, 0, 1, 0}), 8);
    BINDS(twice, sizeof twice, 0, ((const uint8_t[]){2, 4}), 2);
    BINDS(itself, sizeof itself, 0, role + 2, 1);
    LACKS(itself, sizeof itself, 4, role + 2, 1,
          ((const uint8_t[]){0, 1, 0, 0, 0, 1, 0, 0, 0, 0, 0, 1}), 12);
    /* The network is not turned round where an inverse is asked about. */
    LACKS(none, sizeof none, 3, role, 1, ((const uint8_t[]){0, 1, 0, 0, 0, 0, 0, 0}), 8);
    LACKS(none, sizeof none, 3, role + 1, 1, ((const uint8_t[]){0, 0, 1, 0, 0, 0, 0, 0}), 8);
    BINDS(none, sizeof none, 3, role + 3, 1);
    BINDS(hall, 20, 6, ((const uint8_t[]){0, 0, 2, 4}), 4);
    BINDS(hall, 20, 0, parts, 16);
    ASKED_IN_VAIN(8, parts, 0, 13);
    ASKED_IN_VAIN(8, parts, 1025, 13);
    ASKED_IN_VAIN(8, parts, 17, 14);
    ASKED_IN_VAIN(0, bad, 17, 14);
    ASKED_IN_VAIN(0, last, 2, 14);
    ASKED_IN_VAIN(0, parts, 17, 15);
    ASKED_IN_VAIN(0, parts, 1024, 15);
}

/* The largest network: 64 names in a ladder, each with the name before it on the left of its only
   rule, and 17 places. A chain of the first name links each place to the next by all names. */
static void try_largest_network(void)
{
    static const uint8_t first_name[16];
    static uint8_t owed[18496];
    uint8_t ladder[8 + 3 * 63] = {'R', 'L', 'B', 1, 0, 64, 63, 0};

    for (uint8_t rule = 0; rule < 63; rule++) {
        ladder[8 + 3 * rule] = (uint8_t)(2 * rule + 2);
        ladder[9 + 3 * rule] = 1;
        ladder[10 + 3 * rule] = (uint8_t)(2 * rule);
    }
    for (size_t name = 0; name < 64; name++)
        for (size_t place = 0; place < 16; place++)
            owed[(17 * name + place) * 17 + place + 1] = 1;
    LACKS(ladder, sizeof ladder, 126, first_name, 16, owed, sizeof owed);
    BINDS(ladder, sizeof ladder, 126, first_name, 1);
}

/* A file's text, or what a program prints, with every run of white space as one space. */
static char *text_of(FILE *file)
{
    size_t length = 0, room = 1 << 16;
    char *text = malloc(room);
    int byte;

    while (file && text && length + 2 < room && (byte = fgetc(file)) != EOF) {
        int space = byte == ' ' || byte == '\n' || byte == '\t';

        if (!space)
            text[length++] = (char)byte;
        else if (length > 0 && text[length - 1] != ' ')
            text[length++] = ' ';
    }
    if (!text)
        exit(2);
    text[length] = 0;
    return text;
}

static size_t times(const char *text, const char *part)
{
    size_t count = 0;

    for (; (text = strstr(text, part)); text += strlen(part))
        count++;
    return count;
}

/* The header's text: each prototype as written out above, and no constant or function beside those
   that are tried here. */
static void try_header(const char *path)
{
    FILE *file = fopen(path, "r");
    char *text = text_of(file);

    for (size_t i = 0; i < sizeof prototypes / sizeof prototypes[0]; i++)
        check(times(text, prototypes[i]) == 1, prototypes[i], __LINE__);
    NUMBER(times(text, "uint64_t rabbitsteel_"), 8);
    NUMBER(times(text, "static inline"), 1);
    NUMBER(times(text, "#define "), 17);
    NUMBER(times(text, " = "), 18);
    if (file)
        fclose(file);
    free(text);
}

/* What the example prints. */
static void try_example(const char *path)
{
    FILE *program = popen(path, "r");
    char *text = text_of(program);

    TEXT(text, "levels 1 2 1 3 book 16 18 3 0 yes 1 no 2 yes 3 refused 13 4 refused 14 "
               "2 at 0: inverse of rule 2 2 at 1: inverse of rule 1 "
               "1 name 0 links 1 to 2 1 name 1 links 0 to 1 1 name 2 links 2 to 3 "
               "book refused 8 1 refused 8: no regular order; rule 1 ");
    CHECK(program && pclose(program) == 0);
    free(text);
}

int main(int argc, char **argv)
{
    if (argc != 3) {
        fprintf(stderr, "usage: test HEADER EXAMPLE\n");
        return 2;
    }
    try_constants();
    try_role_bytes();
    try_words();
    try_refused_books();
    try_large_book();
    try_levels();
    try_ladders();
    try_build();
    try_questions();
    try_tables();
    try_written();
    try_written_and_checked();
    try_checked();
    try_many_steps();
    try_bindings();
    try_largest_network();
    try_header(argv[1]);
    try_example(argv[2]);
    printf("C: %u checks, %u failed\n", checks, failures);
    return failures == 0 ? 0 : 1;
}
