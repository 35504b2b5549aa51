/* Verifies the message in a file with the proved library. Prints number and place of the verdict and, if it is safe, the four sizes of the
 * system. The status is that of ./verify: 0 safe, 1 refused, 2 no verdict. */
#include <inttypes.h>
#include <stdio.h>
#include <stdlib.h>

#include "delungkaw.h"

enum { SAFE, REFUSED, NO_VERDICT };

/* The longest message has 62,486 bytes. What is longer than this room is settled by its beginning. */
static uint8_t message[65536];

/* Says in words why there is no verdict. */
static int no_verdict(const char *why) {
    fprintf(stderr, "no verdict: %s\n", why);
    return NO_VERDICT;
}

/* Reads the file into the room for the message. False if that fails, as it does for a directory. */
static int read_message(const char *path, size_t *length) {
    FILE *file = fopen(path, "rb");
    int whole;
    if (file == NULL) return 0;
    *length = fread(message, 1, sizeof message, file);
    whole = !ferror(file);
    fclose(file);
    return whole;
}

/* Prints the verdict and, where there is one, the beginning of the system. False if standard output takes it not. */
static int print_verdict(uint32_t number, size_t place, const uint32_t *system) {
    printf("%" PRIu32 " %zu\n", number, place);
    if (system != NULL) printf("%" PRIu32 " %" PRIu32 " %" PRIu32 " %" PRIu32 "\n", system[0], system[1], system[2], system[3]);
    return fflush(stdout) == 0 && !ferror(stdout);
}

int main(int count, char **words) {
    size_t length, place, part;
    uint32_t none, number, *system = NULL;
    int printed;

    if (count != 2) return no_verdict("usage: verify FILE");
    if (!read_message(words[1], &length)) return no_verdict("the file cannot be read");

    /* With no words lent the answer is a refusal, or how many words the system needs. */
    number = delungkaw_verify(message, length, &none, 0, &place, &part);
    if (number == DELUNGKAW_SPACE) {
        size_t needed = place;
        system = calloc(needed, sizeof *system);
        if (system == NULL) return no_verdict("no memory for the system");
        number = delungkaw_verify(message, length, system, needed, &place, &part);
    }

    printed = print_verdict(number, place, number == DELUNGKAW_SAFE ? system : NULL);
    free(system);
    if (!printed) return no_verdict("standard output cannot be written");
    if (number != DELUNGKAW_SAFE) return REFUSED;
    /* A loader would now load the first `part` bytes of the message. */
    fprintf(stderr, "%zu bytes to load\n", part);
    return SAFE;
}
