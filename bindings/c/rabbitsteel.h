/*
 * The calls of the relation engine, for programs that link librabbitsteel.a.
 *
 * Every call returns the number of the cause that refuses its input, or RABBITSTEEL_ACCEPTED. The
 * first cause met, in the order of their numbers, is the whole answer; causes 5 and 6 go rule by
 * rule, and bytes after the last rule come next. What a call has to tell it stores in the numbers
 * lent to it, refused or not: the value beside a cause is a rule number for causes 5 to 8, a step's
 * number for cause 17, and 0 for every other.
 *
 * The calls keep no state, allocate nothing and read only the memory lent to them, so several
 * threads may call at once on different memory. What the caller owes:
 *
 * - Every pointer is valid and aligned for its type, also where its length is 0: not null.
 * - A length counts elements, not bytes.
 * - Memory that a call writes overlaps nothing else that the same call is lent.
 * - Room on the stack: a build or a question takes up to 40 KB of it, rabbitsteel_derived up to
 *   70 KB, rabbitsteel_write_derivation up to 100 KB, a matter only for very small stacks.
 */
#ifndef RABBITSTEEL_H
#define RABBITSTEEL_H

#include <stddef.h>
#include <stdint.h>

#ifdef __cplusplus
extern "C" {
#endif

/* The largest sizes. Buffers of NAMES_MAX levels, NAMES_MAX heads and MOVES_LEN moves suffice for
   every book, STEPS_LEN bytes for every derivation, and NETWORK_LEN bytes for every network. */
#define RABBITSTEEL_BOOK_MAX 2568   /* bytes of a book */
#define RABBITSTEEL_NAMES_MAX 64    /* names of a book, their levels, and heads of its tables */
#define RABBITSTEEL_RULES_MAX 256   /* rules of a book */
#define RABBITSTEEL_STATES_MAX 2048 /* states of its tables */
#define RABBITSTEEL_MOVES_MAX 5120  /* moves of its tables */
#define RABBITSTEEL_MOVES_LEN 15360 /* numbers of its moves, three to a move: from, label, to */
#define RABBITSTEEL_CHAIN_MAX 1024  /* links of a chain */
#define RABBITSTEEL_DERIVED_MAX 16  /* links of a chain whose derivation is written or checked */
#define RABBITSTEEL_STEPS_MAX 4096  /* steps of a derivation that is written */
#define RABBITSTEEL_STEPS_LEN 16384 /* bytes to lend for its steps, four to a step */
#define RABBITSTEEL_BINDS_MAX 16    /* links of a chain that is asked whether it binds a role */
#define RABBITSTEEL_NETWORK_LEN 18496 /* bytes of the largest network: 64 names, 17 places */

/* The label of a silent move. Labels below it are role bytes. */
#define RABBITSTEEL_SILENT 128

/* The role byte of a name, 0 to 63; the inverse of a role byte; the name of a role byte. */
#define RABBITSTEEL_ROLE(name) ((uint8_t)((name) << 1))
#define RABBITSTEEL_INVERSE(role) ((uint8_t)((role) ^ 1))
#define RABBITSTEEL_NAME(role) ((uint8_t)((role) >> 1))

/* Why an input is refused. The comments say what the value beside a cause is, where it is not 0. */
enum rabbitsteel_cause {
    RABBITSTEEL_ACCEPTED = 0,

    /* the book */
    RABBITSTEEL_CAUSE_SIZE = 1,       /* fewer than 8 or more than 2,568 bytes */
    RABBITSTEEL_CAUSE_MARK = 2,       /* it does not begin with RLB */
    RABBITSTEEL_CAUSE_VERSION = 3,    /* its version is not 1 */
    RABBITSTEEL_CAUSE_RANGE = 4,      /* names not 1 to 64, or over 256 rules */
    RABBITSTEEL_CAUSE_MALFORMED = 5,  /* a left side of 0 or over 8 roles, or a rule cut short: that
                                         rule; bytes after the last rule: the number of rules */
    RABBITSTEEL_CAUSE_UNDECLARED = 6, /* a role of a name that the book does not have: the rule */
    RABBITSTEEL_CAUSE_REPEATED = 7,   /* rules equal to an earlier one or its mirror: the lowest */
    RABBITSTEEL_CAUSE_NO_ORDER = 8,   /* no regular order: the last rule of the shortest front part
                                         without one */
    RABBITSTEEL_CAUSE_STATES = 9,     /* over 2,048 states */
    RABBITSTEEL_CAUSE_MOVES = 10,     /* over 5,120 moves */

    /* the memory lent for its tables */
    RABBITSTEEL_CAUSE_SHORT = 11,     /* heads or moves lent too short */

    /* the question */
    RABBITSTEEL_CAUSE_TABLES = 12,    /* no head or over 64, a head over 2,046, moves not in threes
                                         or over 15,360 numbers, a state over 2,047, a label over
                                         128 */
    RABBITSTEEL_CAUSE_CHAIN = 13,     /* 0 or over 1,024 links */
    RABBITSTEEL_CAUSE_ROLE = 14,      /* a role, asked or in the chain, of a name that the book or
                                         the tables do not have */

    /* its derivation or network */
    RABBITSTEEL_CAUSE_LONG = 15,      /* over 16 links */
    RABBITSTEEL_CAUSE_BUFFER = 16,    /* fewer bytes lent than the steps or the network need */
    RABBITSTEEL_CAUSE_STEP = 17       /* bytes not in fours: 0; else the first impossible step */
};

/* A cause in words. */
static inline const char *rabbitsteel_words(uint64_t cause)
{
    switch (cause) {
    case RABBITSTEEL_ACCEPTED: return "accepted";
    case RABBITSTEEL_CAUSE_SIZE: return "the book has fewer than 8 or more than 2,568 bytes";
    case RABBITSTEEL_CAUSE_MARK: return "the book does not begin with the mark RLB";
    case RABBITSTEEL_CAUSE_VERSION: return "the version is not 1";
    case RABBITSTEEL_CAUSE_RANGE: return "the names are not 1 to 64, or the rules over 256";
    case RABBITSTEEL_CAUSE_MALFORMED:
        return "a left side of 0 or over 8 roles, a rule cut short, or bytes after the last rule";
    case RABBITSTEEL_CAUSE_UNDECLARED: return "a role of a name that the book does not have";
    case RABBITSTEEL_CAUSE_REPEATED: return "a rule equals an earlier rule or its mirror";
    case RABBITSTEEL_CAUSE_NO_ORDER: return "no regular order";
    case RABBITSTEEL_CAUSE_STATES: return "the tables have over 2,048 states";
    case RABBITSTEEL_CAUSE_MOVES: return "the tables have over 5,120 moves";
    case RABBITSTEEL_CAUSE_SHORT: return "heads or moves lent too short";
    case RABBITSTEEL_CAUSE_TABLES: return "the tables are out of bounds";
    case RABBITSTEEL_CAUSE_CHAIN: return "the chain has 0 or over 1,024 links";
    case RABBITSTEEL_CAUSE_ROLE: return "a role of a name that the book or the tables do not have";
    case RABBITSTEEL_CAUSE_LONG: return "the chain has over 16 links";
    case RABBITSTEEL_CAUSE_BUFFER: return "fewer bytes lent than the steps or the network need";
    case RABBITSTEEL_CAUSE_STEP: return "steps not in fours of bytes, or an impossible step";
    default: return "no cause has this number";
    }
}

/*
 * Reads a book: causes 1 to 7.
 * Accepted: *first is the number of names, *second the number of rules.
 * Refused: *first is the value beside the cause, *second is 0.
 */
uint64_t rabbitsteel_read(const uint8_t *book, size_t book_len, uint64_t *first, uint64_t *second);

/*
 * Reads a book, checks that its rules have a regular order and gives the levels: causes 1 to 8.
 * The level of a name, and of its inverse, is 1 where none of its rules has an inner role, else 1
 * more than the highest level among its rules' inner names: 1 to 64. The depth of a book is the
 * highest level. A book whose tables would be too large has levels too.
 * Accepted: *first is the number of names, *second the number of rules, *third the depth. The first
 * levels, one to a name, are written, as many as are lent: levels_len may be less than the names,
 * also 0. The bytes after them keep their values.
 * Refused: *first is the value beside the cause, *second and *third are 0; levels are unchanged.
 * RABBITSTEEL_NAMES_MAX levels suffice for every book.
 */
uint64_t rabbitsteel_order(const uint8_t *book, size_t book_len, uint8_t *levels, size_t levels_len,
                           uint64_t *first, uint64_t *second, uint64_t *third);

/*
 * Builds the tables of a book: causes 1 to 11.
 * Accepted: *first is the number of states, *second the number of moves, *third the depth. The
 * first heads, one to a name, and the first 3 * *second numbers of moves are written; the numbers
 * after them keep their values and are no part of the tables.
 * Refused: *first is the value beside the cause, *second and *third are 0; heads and moves are
 * unchanged.
 * RABBITSTEEL_NAMES_MAX heads and RABBITSTEEL_MOVES_LEN moves suffice for every book.
 */
uint64_t rabbitsteel_build(const uint8_t *book, size_t book_len, uint16_t *heads, size_t heads_len,
                           uint16_t *moves, size_t moves_len, uint64_t *first, uint64_t *second,
                           uint64_t *third);

/*
 * Asks tables whether the chain is derived from the role: causes 12 to 14.
 * Lend it the numbers that a build wrote and no more: heads_len is the number of names, moves_len
 * three times the number of moves. Tables that no book gave are answered too: yes where some path
 * from the name's head to head + 1 spells the chain, silent moves free.
 * Accepted: *answer is 1 for yes and 0 for no.
 * Refused: *answer is 0.
 */
uint64_t rabbitsteel_ask(const uint16_t *heads, size_t heads_len, const uint16_t *moves,
                         size_t moves_len, uint8_t role, const uint8_t *chain, size_t chain_len,
                         uint64_t *answer);

/*
 * Builds the tables of a book and asks them, lending the question the written numbers alone:
 * causes 1 to 11, then 13 and 14.
 * Accepted: *answer is 1 where the book's rules derive the chain from the role, and 0 elsewhere;
 * heads and moves are left as rabbitsteel_build leaves them, and the same lengths suffice.
 * Refused: *answer is the value beside the cause; heads and moves keep what they held.
 */
uint64_t rabbitsteel_derived(const uint8_t *book, size_t book_len, uint16_t *heads,
                             size_t heads_len, uint16_t *moves, size_t moves_len, uint8_t role,
                             const uint8_t *chain, size_t chain_len, uint64_t *answer);

/*
 * Writes a derivation of the chain from the role, for books with an order and any number of states:
 * causes 1 to 8 and 13 to 16. A step has four bytes: its place in the present chain, counted from
 * 0, low byte first; the number of a rule; 0 where its right role is replaced by its left side, or
 * 1 where this is done with its inverse. The first step is taken on the asked role alone, and the
 * last leads to the chain. Which of the chain's derivations is written is left open.
 * Accepted: *first is 1 where the book's rules derive the chain and 0 elsewhere, *second the number
 * of steps, at most RABBITSTEEL_STEPS_MAX, or 0. The first 4 * *second bytes of steps are written;
 * the bytes after them keep their values. Where the chain is not derived, steps are unchanged.
 * Refused: *first is the value beside the cause, *second is 0; steps are unchanged.
 * RABBITSTEEL_STEPS_LEN bytes have to be lent, whatever the answer.
 */
uint64_t rabbitsteel_write_derivation(const uint8_t *book, size_t book_len, uint8_t role,
                                      const uint8_t *chain, size_t chain_len, uint8_t *steps,
                                      size_t steps_len, uint64_t *first, uint64_t *second);

/*
 * Checks any number of steps, written by whomever: causes 1 to 8, 13 to 15 and 17. A step is
 * impossible if there is no such place or rule, its last byte is over 1, the link at its place is
 * not the right role of that rule or inverse, or the chain would get over 16 links.
 * Accepted: *answer is 1 where the steps lead from the role to the chain, and 0 where they end
 * elsewhere.
 * Refused: *answer is the value beside the cause, for 17 the number of the first impossible step,
 * counted from 0, which may have 64 bits.
 */
uint64_t rabbitsteel_check_derivation(const uint8_t *book, size_t book_len, uint8_t role,
                                      const uint8_t *chain, size_t chain_len, const uint8_t *steps,
                                      size_t steps_len, uint64_t *answer);

/*
 * Whether the chain binds the role: whether in every finite network that obeys the book's rules and
 * holds the chain from one place to another, or back to itself, the role links the chain's ends.
 * Causes 1 to 8 and 13 to 16, for books with an order and any number of states. A derived chain
 * binds; not every chain that binds is derived.
 * Accepted: *answer is 1 where the chain binds the role, and network is unchanged. Or *answer is 0,
 * and the first names * (links + 1) * (links + 1) bytes of network are written: a network of
 * links + 1 places, the chain running from place 0 to the last, which obeys the book and lacks the
 * asked link. Its links are those that the rules force on the chain alone: name m links place x to
 * place y where byte (m * (links + 1) + x) * (links + 1) + y is 1, and does not where it is 0. The
 * bytes after them keep their values.
 * Refused: *answer is the value beside the cause; network is unchanged.
 * So many bytes have to be lent, whatever the answer; RABBITSTEEL_NETWORK_LEN suffice for all.
 */
uint64_t rabbitsteel_binds(const uint8_t *book, size_t book_len, uint8_t role, const uint8_t *chain,
                           size_t chain_len, uint8_t *network, size_t network_len,
                           uint64_t *answer);

#ifdef __cplusplus
}
#endif

#endif
