/* The proved verifier, for C and C++ on x86-64. `./staticlib` writes target/staticlib/libverifier.a; link it and nothing else
 * but the C library, of which it uses memcpy and memset. examples/c and examples/rust show its use. */
#ifndef DELUNGKAW_H
#define DELUNGKAW_H

#include <stddef.h>
#include <stdint.h>

#ifdef __cplusplus
extern "C" {
#endif

/* The numbers of the verdict, by their words in documents 01 and 02. The refusals are checked in this order, each over the whole message; lengths
 * and sizes go together, part by part. A message has lines of weights in its ceilings' place or not: 16 to 18 are checked in place of 10 to 13.
 * The place of a refusal is a word of the message, 16 bits each, counted from 0. */
enum delungkaw_verdict {
    DELUNGKAW_SAFE = 0,             /* The message is sound. The place is 0. */
    DELUNGKAW_LENGTH = 1,           /* A part is not whole, or bytes remain. */
    DELUNGKAW_SIZE = 2,             /* A size is outside its limits. */
    DELUNGKAW_ROW = 3,              /* A program row does not fit. */
    DELUNGKAW_NAME = 4,             /* A name is bound twice, or (at place 1) never. */
    DELUNGKAW_SCOPE = 5,            /* A name is read where it does not hold. */
    DELUNGKAW_BAD = 6,              /* The rows of the bads do not fit. */
    DELUNGKAW_ENTRY = 7,            /* A table entry is out of range, or not above the one before it. */
    DELUNGKAW_OPEN = 8,             /* The tables miss an entry that they want. */
    DELUNGKAW_FUNCTION_MAILED = 22, /* A mail entry has a function as its value. */
    DELUNGKAW_COUNTERS = 9,         /* There are more than 1,024 counters. */
    DELUNGKAW_CEILING = 10,         /* The ceilings do not fit. */
    DELUNGKAW_START = 11,           /* No ceiling holds the start. */
    DELUNGKAW_MET = 12,             /* A ceiling allows a bad. */
    DELUNGKAW_LEAK = 13,            /* From counts under a ceiling a rule leads out of all ceilings. */
    DELUNGKAW_WEIGHTS = 16,         /* The lines of weights do not fit. */
    DELUNGKAW_RISE = 17,            /* A rule raises a line's weighed sum. */
    DELUNGKAW_LIGHT = 18,           /* No line weighs a bad above the start. */
    DELUNGKAW_SPACE = 14            /* The system needs more words than were lent. The place is how many it needs. */
};

/* Verifies a message and gives the number of its verdict.
 *
 * What it takes. `message` are `length` bytes, which are only read. `lent` are `words` words for the system. The verdict's place goes to `*place`,
 * the length in bytes of the part handed on to `*part`. Any bytes and any number of words will do, 0 too; nothing has to hold of them.
 *
 * What holds afterwards, which is proved (crates/verifier_c/src/lib.rt has it as the contract of this function):
 * - The number is 0 exactly when the message is sound and the lent words suffice. Then no run of the station, of any length and in any order of its
 *   processes, meets one of the bads of the message.
 * - After 0 no mailbox directly holds a function in any run.
 * - After 0 the lent words begin with the system: the numbers of its states, letters, rules and rows, then the tags of the rows, then their numbers.
 *   The words beyond are as they were. `*part` bytes from the beginning of the message are the program, and these are what is to be loaded.
 * - After any other number no lent word has changed, and `*part` is 0: nothing is to be loaded.
 * - The verdict depends on the bytes and on the number of lent words alone, so the same question has the same answer.
 *
 * How many words to lend. Lend 0 first. Space is checked last and a system has at least four words, so the answer is never 0. It is
 * 14, and `*place` says how many words the system needs: lend that many and ask again, and the answer is 0. Or it is another, and the message
 * is refused.
 *
 *     uint32_t none;
 *     uint32_t number = delungkaw_verify(message, length, &none, 0, &place, &part);
 *     if (number == DELUNGKAW_SPACE) {
 *         size_t words = place;
 *         uint32_t *lent = (uint32_t *)calloc(words, sizeof *lent);
 *         if (lent != NULL) number = delungkaw_verify(message, length, lent, words, &place, &part);
 *     }
 *
 * What the caller owes. No pointer is null, also where the number beside it is 0. `lent` is aligned as a uint32_t is. `message`, `lent`, `place` and
 * `part` do not overlap. Nobody writes to the message while it is verified, and what is loaded is what was verified: the same bytes, in memory
 * that nobody has written to since.
 *
 * Stack. It uses no heap and at most 2 MB of stack. Lend a thread of your own at least 2 MB beyond what the rest of it needs.
 *
 * Threads. It keeps nothing between calls, so any number of threads may call it at once, on one message too, each with its own
 * `lent`, `place` and `part`. */
uint32_t delungkaw_verify(const uint8_t *message, size_t length, uint32_t *lent, size_t words, size_t *place, size_t *part);

#ifdef __cplusplus
}
#endif

#endif
