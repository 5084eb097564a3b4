/*
 * The lowering of policy rules: the three functions of libtulgarent.a.
 *
 *     tools/build.sh archive        at the repository's root makes target/staticlib/libtulgarent.a
 *
 * A record is a list of 32-bit words, four bytes a word, lowest byte first. How many zero bits a word begins with is its
 * kind; the letters h, c, n, a and b are hexadecimal digits:
 *   0  8hhhcccc  fresh variable of head h, count c
 *   1  40000nnn  name n
 *   2  2000nnnn  literal n; literal 0 is unit
 *   3  1hhhcccc  head h, with c words or expressions under it
 *   4  08000002  equality of two
 *   5  04aaabbb  rule of a facts or atoms and b actions
 *   6  0200000c  action: 1 let, 2 set, 3 delete, 4 subsume, 5 union, 6 panic, 7 call, 8 expression
 *   7  0100nnnn  word of a signature
 * So (rule ((= x2 (f1 x1))) ()) is 04001000 08000002 40000002 10010001 40000001. docs/FORMAT.md explains signatures, rules
 * and what each refusal asks for, by one example.
 *
 * Slices are lent as a pointer and a length in bytes, at any alignment; with length 0 the pointer is not looked at. A slice
 * that is written (counters, output, scratch) overlaps no other. Nothing is allocated and nothing is kept after the call;
 * calls on different memory may run at once.
 *
 * What stays as it was:
 *   - signature and rule, always;
 *   - output and counters, if the call refuses;
 *   - output past the words written, and counters past the signature's heads, if it accepts.
 * Scratch may hold anything before and after a call.
 */
#ifndef TULGARENT_H
#define TULGARENT_H

#include <stddef.h>
#include <stdint.h>

#ifdef __cplusplus
extern "C" {
#endif

/* Words of scratch to lend to tulgarent_lower and tulgarent_settle, and the same in bytes. */
#define TULGARENT_SCRATCH_WORDS 16384
#define TULGARENT_SCRATCH_BYTES (4 * TULGARENT_SCRATCH_WORDS)

/* The longest rules: 1 to so many words. */
#define TULGARENT_WRITTEN_WORDS 512
#define TULGARENT_FLAT_WORDS 1024

/* Words of output that always suffice for a rule of so many words. */
#define TULGARENT_ROOM_TO_LOWER(rule_words) (4 * (rule_words))
#define TULGARENT_ROOM_TO_SETTLE(rule_words) (2 * (rule_words))
#define TULGARENT_ROOM_FOR_FREE_VARS(rule_words) (rule_words)

/*
 * Numbers. Each stands with its place; places are indexes of words, from 0. Tests run in the order 14, 1, 2, 3, 4, then
 * 5, 6, 11, 12 by lowest place (5 first at one place), then 7, 8, 9 as the walk meets them, then 10. Number 13 belongs to
 * the program lower, which reads lines. Later versions may add numbers; they leave output and counters too.
 */
enum tulgarent_number {
    /* Accepted; place 0. */
    TULGARENT_ACCEPTED = 0,
    /* A signature word that does not fit, a signature too short or too long, or (tested last) a value-eq head that is not
       primitive. Place: the first bad or surplus index, the length if it is short, 2 for value-eq. */
    TULGARENT_SIGNATURE = 1,
    /* Fewer counters than the signature has heads. Place 0. */
    TULGARENT_COUNTERS = 2,
    /* Scratch of less than 16,384 words. Place 0. */
    TULGARENT_SCRATCH = 3,
    /* A rule of no words, or of more than 512 (written) or 1,024 (flat). Place 0. */
    TULGARENT_LENGTH = 4,
    /* A word whose kind or payload does not fit, or a record that is short or long. Place: its index, the first surplus
       word's if it is long, the length if it is short. */
    TULGARENT_UNFIT = 5,
    /* An expression word inside 32 calls. Place: that word. */
    TULGARENT_TOO_DEEP = 6,
    /* An action reads a name that is neither bound nor global. Place: the name. */
    TULGARENT_UNBOUND = 7,
    /* A let of a name that is bound. Place: the action word. */
    TULGARENT_ALREADY_DEFINED = 8,
    /* A counter at 65,536 or more when a fresh variable is asked of it. Place: the kind 3 word that asks. */
    TULGARENT_COUNTER_AT_END = 9,
    /* The result is longer than the output. Place: the words needed. */
    TULGARENT_OUTPUT = 10,
    /* A flat kind 3 atom with no terms. Place: its word. */
    TULGARENT_NO_TERMS = 11,
    /* A flat equality with a count other than 2. Place: its word. */
    TULGARENT_EQUALITY_COUNT = 12,
    /* A slice, any of those lent, is not whole words. Place 0. */
    TULGARENT_RAGGED = 14
};

/* Number 0 is acceptance, then the place is 0. On a refusal the three counts are 0. */
struct tulgarent_answer {
    uint64_t number;
    uint64_t place;
    /* Words written to the output, from its start. */
    uint64_t words;
    /* Variables that settling replaced; the result's first actions are as many bindings. 0 for free variables. */
    uint64_t replacements;
    /* Merge passes, the last one counted. 0 for free variables. */
    uint64_t passes;
};

/*
 * Lowers a written rule and settles it. Counters have a word a head, the count of its next fresh variable; they move on
 * only if the rule is accepted. Numbers: 14, 1, 2, 3, 4, 5, 6, 7, 8, 9, 10.
 */
struct tulgarent_answer tulgarent_lower(const uint8_t *signature, size_t signature_len,
                                        const uint8_t *rule, size_t rule_len,
                                        uint8_t *counters, size_t counters_len,
                                        uint8_t *output, size_t output_len,
                                        uint8_t *scratch, size_t scratch_len);

/* Settles a flat rule. Numbers: 14, 1, 3, 4, 5, 11, 12, 10. */
struct tulgarent_answer tulgarent_settle(const uint8_t *signature, size_t signature_len,
                                         const uint8_t *rule, size_t rule_len,
                                         uint8_t *output, size_t output_len,
                                         uint8_t *scratch, size_t scratch_len);

/* Writes the free variables of a flat rule's actions, ascending. Numbers: 14, 1, 4, 5, 11, 12, 10. */
struct tulgarent_answer tulgarent_free_vars(const uint8_t *signature, size_t signature_len,
                                            const uint8_t *rule, size_t rule_len,
                                            uint8_t *output, size_t output_len);

#ifdef __cplusplus
}
#endif

#endif
