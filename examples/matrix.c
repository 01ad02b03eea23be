/*
 * matrix FILE: checks a file and writes the matrix of the first transform of its first assembly, a row to a line.
 *
 * It shows mmtf_verdict and mmtf_matrix. A transform moves chains to their place in an assembly; the fourth number of a row is
 * the translation. If the file has no transform, a sentence on standard error says so, and the status is 2.
 *
 * Compile it at the top of the repository, after bin/build library, by the first line, and with the installed library by the second:
 *
 *     gcc -std=c11 -Wall -Wextra -Iinclude -o target/matrix examples/matrix.c target/staticlib/libmmtf.a
 *     gcc -std=c11 -Wall -Wextra -o matrix matrix.c $(pkg-config --cflags --libs mmtf)
 */
#include "common.h"

/* Writes the matrix to standard output, or says that there is none. */
static int write_matrix(const char *name, const uint8_t *file, size_t n) {
    float rows[4][4];
    const uint8_t refusal = mmtf_matrix(file, n, 0, 0, rows);
    if (refusal == MMTF_NO_SUCH_FIELD || refusal == MMTF_NO_SUCH_ENTRY) {
        fprintf(stderr, "%s has no transform.\n", name);
        return STATUS_NOTHING;
    }
    if (refusal != MMTF_ACCEPTED) {
        fprintf(stderr, "The matrix of %s", name);
        return say_refused(refusal);
    }
    for (size_t row = 0; row < 4; row++) {
        printf("%g %g %g %g\n", (double)rows[row][0], (double)rows[row][1], (double)rows[row][2], (double)rows[row][3]);
    }
    return end_output(STATUS_DONE);
}

int main(int count, char **words) {
    if (count != 2) {
        fprintf(stderr, "Usage: matrix FILE\n");
        return STATUS_NOTHING;
    }
    size_t n;
    uint8_t *file = read_file(words[1], MMTF_FILE_LIMIT + 1, &n);
    if (file == NULL) {
        return STATUS_NOTHING;
    }
    const uint8_t verdict = mmtf_verdict(file, n);
    int status;
    if (verdict == MMTF_ACCEPTED) {
        status = write_matrix(words[1], file, n);
    } else {
        fputs(words[1], stderr);
        status = say_refused(verdict);
    }
    free(file);
    return status;
}
