/*
 * bill FILE...: adds up the receipts of some files, and writes the bill to standard output.
 *
 * It shows mmtf_bill. A file has any number of receipts, one after another, and the files are taken one after another too, as
 * one run of receipts. Within each station the jobs must rise. A refused run has status 1, and no bill.
 *
 * Compile it at the top of the repository, after bin/build library, by the first line, and with the installed library by the second:
 *
 *     gcc -std=c11 -Wall -Wextra -Iinclude -o target/bill examples/bill.c target/staticlib/libmmtf.a
 *     gcc -std=c11 -Wall -Wextra -o bill bill.c $(pkg-config --cflags --libs mmtf)
 */
#include "common.h"

/* The run. One byte more than the limit is enough for the library to see that a run is too long. */
static uint8_t run[MMTF_FILE_LIMIT + 1];

/*
 * Puts a file's bytes behind the *n bytes of the run, as far as there is room. Answers 0, after a sentence, where the file
 * cannot be read.
 */
static int append_file(const char *name, size_t *n) {
    size_t size;
    uint8_t *file = read_file(name, sizeof run - *n, &size);
    if (file == NULL) {
        return 0;
    }
    memcpy(run + *n, file, size);
    *n += size;
    free(file);
    return 1;
}

/* Writes the bill of the first n bytes of the run. */
static int write_bill(size_t n) {
    uint8_t bill[MMTF_BILL_ROOM];
    uint64_t written;
    const uint8_t refusal = mmtf_bill(run, n, bill, sizeof bill, &written);
    if (refusal != MMTF_ACCEPTED) {
        fputs("The run of receipts", stderr);
        return say_refused(refusal);
    }
    fwrite(bill, 1, written, stdout);
    return end_output(STATUS_DONE);
}

int main(int count, char **words) {
    if (count < 2) {
        fprintf(stderr, "Usage: bill FILE...\n");
        return STATUS_NOTHING;
    }
    size_t n = 0;
    for (int i = 1; i < count && n < sizeof run; i++) {
        if (!append_file(words[i], &n)) {
            return STATUS_NOTHING;
        }
    }
    return write_bill(n);
}
