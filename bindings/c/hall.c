/*
 * The worked example: prints the levels of the hall book's names, builds its tables, asks it five
 * questions and prints the lines that the program engine writes for them, how the chain of one of
 * them is derived, and a network in which the chain of another does not bind. Then it shows a book
 * that is refused.
 */
#include <inttypes.h>
#include <stdio.h>

#include "rabbitsteel.h"

/* Role bytes of the hall book. It has no such name as the last. */
enum {
    PART = RABBITSTEEL_ROLE(0),
    SITS = RABBITSTEEL_ROLE(1),
    LET = RABBITSTEEL_ROLE(2),
    DUE = RABBITSTEEL_ROLE(3),
    UNKNOWN = RABBITSTEEL_ROLE(4)
};

/* Four names and three rules, each as right role, length, left roles. */
static const uint8_t hall[] = {
    'R', 'L', 'B', 1, 0, 4, 3, 0, /* mark, version, names, rules */
    PART, 2, PART, PART,          /* part part to part */
    SITS, 2, PART, SITS,          /* part sits to sits */
    DUE, 2, SITS, LET             /* sits let to due */
};

/* Two names and two rules, each role below the other: there is no such order. */
static const uint8_t circle[] = {
    'R', 'L', 'B', 1, 0, 2, 2, 0, /* mark, version, names, rules */
    RABBITSTEEL_ROLE(1), 1, RABBITSTEEL_ROLE(0),
    RABBITSTEEL_ROLE(0), 1, RABBITSTEEL_ROLE(1)
};

struct question {
    uint8_t role;
    size_t length;
    uint8_t chain[4];
};

static const struct question questions[] = {
    {DUE, 4, {PART, PART, SITS, LET}},
    {DUE, 3, {SITS, PART, LET}},
    {RABBITSTEEL_INVERSE(DUE), 3,
     {RABBITSTEEL_INVERSE(LET), RABBITSTEEL_INVERSE(SITS), RABBITSTEEL_INVERSE(PART)}},
    {DUE, 0, {0}},
    {DUE, 1, {UNKNOWN}}
};

/* Memory that suffices for the levels and the tables of every book. */
static uint8_t levels[RABBITSTEEL_NAMES_MAX];
static uint16_t heads[RABBITSTEEL_NAMES_MAX];
static uint16_t moves[RABBITSTEEL_MOVES_LEN];

/* Memory that suffices for every derivation, and for every network. */
static uint8_t steps[RABBITSTEEL_STEPS_LEN];
static uint8_t network[RABBITSTEEL_NETWORK_LEN];

/* The program's line for a refused book, and the cause in words. */
static void print_refusal(uint64_t cause, uint64_t value)
{
    printf("book refused %" PRIu64 " %" PRIu64 "\n", cause, value);
    printf("refused %" PRIu64 ": %s", cause, rabbitsteel_words(cause));
    if (cause >= RABBITSTEEL_CAUSE_MALFORMED && cause <= RABBITSTEEL_CAUSE_NO_ORDER)
        printf("; rule %" PRIu64, value);
    printf("\n");
}

/* Prints the levels of so many names. */
static void print_levels(size_t names)
{
    printf("levels");
    for (size_t name = 0; name < names; name++)
        printf(" %u", levels[name]);
    printf("\n");
}

/* Asks tables of so many heads and numbers of moves, and prints the program's line. */
static void print_answer(size_t number, size_t heads_len, size_t moves_len,
                         const struct question *asked)
{
    uint64_t answer;
    uint64_t cause = rabbitsteel_ask(heads, heads_len, moves, moves_len, asked->role, asked->chain,
                                     asked->length, &answer);

    if (cause == RABBITSTEEL_ACCEPTED)
        printf("%zu %s\n", number, answer ? "yes" : "no");
    else
        printf("%zu refused %" PRIu64 "\n", number, cause);
}

/* Finds the levels of a book and builds its tables, prints both and asks the questions. */
static void ask_all(const uint8_t *book, size_t length)
{
    uint64_t names, rules, states, count, depth;
    uint64_t cause = rabbitsteel_order(book, length, levels, RABBITSTEEL_NAMES_MAX, &names, &rules,
                                       &depth);

    if (cause != RABBITSTEEL_ACCEPTED) {
        print_refusal(cause, names);
        return;
    }
    print_levels((size_t)names);
    cause = rabbitsteel_build(book, length, heads, RABBITSTEEL_NAMES_MAX, moves,
                              RABBITSTEEL_MOVES_LEN, &states, &count, &depth);
    if (cause != RABBITSTEEL_ACCEPTED) {
        print_refusal(cause, states);
        return;
    }
    printf("book %" PRIu64 " %" PRIu64 " %" PRIu64 "\n", states, count, depth);
    /* The question is lent what the build wrote: a head to a name, three numbers to a move. */
    for (size_t i = 0; i < sizeof questions / sizeof questions[0]; i++)
        print_answer(i, (size_t)names, 3 * (size_t)count, &questions[i]);
}

/* Prints the steps from the asked role to the chain. */
static void print_derivation(size_t number, const uint8_t *book, size_t length)
{
    const struct question *asked = &questions[number];
    uint64_t derived, count;
    uint64_t cause = rabbitsteel_write_derivation(book, length, asked->role, asked->chain,
                                                  asked->length, steps, sizeof steps, &derived,
                                                  &count);

    if (cause != RABBITSTEEL_ACCEPTED || !derived)
        return;
    for (const uint8_t *step = steps; step < steps + 4 * count; step += 4)
        printf("%zu at %d: %srule %d\n", number, step[0] + 256 * step[1],
               step[3] ? "inverse of " : "", step[2]);
}

/* Prints the links of a network that obeys the book and holds the chain without the asked link. */
static void print_network(size_t number, const uint8_t *book, size_t length)
{
    const struct question *asked = &questions[number];
    size_t places = asked->length + 1;
    uint64_t names, rules, binds;
    uint64_t cause = rabbitsteel_binds(book, length, asked->role, asked->chain, asked->length,
                                       network, sizeof network, &binds);

    if (cause != RABBITSTEEL_ACCEPTED || binds)
        return;
    rabbitsteel_read(book, length, &names, &rules);
    for (size_t i = 0; i < (size_t)names * places * places; i++)
        if (network[i])
            printf("%zu name %zu links %zu to %zu\n", number, i / places / places,
                   i / places % places, i % places);
}

int main(void)
{
    ask_all(hall, sizeof hall);
    print_derivation(2, hall, sizeof hall);
    print_network(1, hall, sizeof hall);
    ask_all(circle, sizeof circle);
    return 0;
}
