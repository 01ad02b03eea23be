/*
 * What the examples share: reading a whole file, saying a refusal in a sentence, and ending the output.
 *
 * Their statuses are the same: 0 if the file is accepted or the data were written, 1 if the file is refused, and 2 if nothing
 * was produced. Data go to standard output, and sentences to standard error.
 */
#ifndef COMMON_H
#define COMMON_H

#include <errno.h>
#include <stddef.h>
#include <stdint.h>
#include <stdio.h>
#include <stdlib.h>
#include <string.h>

#include "mmtf.h"

enum status { STATUS_DONE = 0, STATUS_REFUSED = 1, STATUS_NOTHING = 2 };

/*
 * Reads at most the given number of bytes of a file, and says in *n how many there are. Answers null, after a sentence, where
 * the file cannot be read. One byte more than MMTF_FILE_LIMIT is enough for the library to see that a file is too large.
 */
static inline uint8_t *read_file(const char *name, size_t most, size_t *n) {
    FILE *stream = fopen(name, "rb");
    uint8_t *file = stream == NULL ? NULL : malloc(most);
    int whole = 0;
    if (file != NULL) {
        *n = fread(file, 1, most, stream);
        whole = !ferror(stream);
    }
    if (!whole) {
        fprintf(stderr, "%s cannot be read: %s.\n", name, strerror(errno));
        free(file);
        file = NULL;
    }
    if (stream != NULL) {
        fclose(stream);
    }
    return file;
}

/* Ends a sentence with a refusal: its number, and its meaning in the library's words. */
static inline int say_refused(uint8_t refusal) {
    uint8_t words[MMTF_MEANING_ROOM];
    uint64_t written = 0;
    mmtf_meaning(refusal, words, sizeof words, &written);
    fprintf(stderr, " is refused with %u: %.*s.\n", refusal, (int)written, (const char *)words);
    return STATUS_REFUSED;
}

/* Flushes standard output, which may be closed or on a full disk, and answers the status that is given if all was written. */
static inline int end_output(int status) {
    if (fflush(stdout) != 0 || ferror(stdout)) {
        fprintf(stderr, "The output was not written whole: %s.\n", strerror(errno));
        return STATUS_NOTHING;
    }
    return status;
}

#endif
