/*
 * receipt STATION JOB FILE: checks a file and writes its receipt to standard output.
 *
 * It shows mmtf_write_receipt, mmtf_read_receipt and mmtf_meaning. A refused file gets a receipt too, with status 1; the
 * sentence on standard error says the verdict. A file of more than 65,536 bytes, the most that a station holds, gets no
 * receipt; the library's calls take any length.
 *
 * Compile it at the top of the repository, after bin/build library, by the first line, and with the installed library by the second:
 *
 *     gcc -std=c11 -Wall -Wextra -Iinclude -o target/receipt examples/receipt.c target/staticlib/libmmtf.a
 *     gcc -std=c11 -Wall -Wextra -o receipt receipt.c $(pkg-config --cflags --libs mmtf)
 */
#include "common.h"

/* The most bytes of a file that get a receipt. */
enum { MOST = 65536 };

/* Says whether a word is digits and nothing else, and gives their number, or 0 if that needs more than 32 bits. */
static int read_number(const char *word, uint32_t *number) {
    uint64_t value = 0;
    for (const char *digit = word; *digit != '\0'; digit++) {
        if (*digit < '0' || *digit > '9') {
            return 0;
        }
        value = value > UINT32_MAX ? value : 10 * value + (uint64_t)(*digit - '0');
    }
    *number = value > UINT32_MAX ? 0 : (uint32_t)value;
    return *word != '\0';
}

/* Answers the number that a word says if it is 1 up to the most, and otherwise 0, after a sentence. */
static uint32_t number_of(const char *name, const char *word, uint32_t most, const char *range) {
    uint32_t number;
    if (!read_number(word, &number) || number < 1 || number > most) {
        fprintf(stderr, "The %s must be a number from %s, and \"%s\" is not.\n", name, range, word);
        return 0;
    }
    return number;
}

/* Writes the receipt to standard output, and then its verdict to standard error. */
static int write_out(const char *name, const uint8_t *receipt, size_t n) {
    uint32_t numbers[MMTF_RECEIPT_NUMBERS];
    fwrite(receipt, 1, n, stdout);
    if (end_output(STATUS_DONE) != STATUS_DONE || mmtf_read_receipt(receipt, n, numbers) != MMTF_ACCEPTED) {
        return STATUS_NOTHING;
    }
    const uint8_t verdict = (uint8_t)numbers[MMTF_RECEIPT_VERDICT];
    if (verdict != MMTF_ACCEPTED) {
        fputs(name, stderr);
        return say_refused(verdict);
    }
    fprintf(stderr, "%s is accepted.\n", name);
    return STATUS_DONE;
}

/* Makes the receipt of a file and writes it. The station and the job are in range, so only the room could be refused. */
static int write_receipt(uint32_t station, uint32_t job, const char *name, const uint8_t *file, size_t n) {
    uint8_t receipt[MMTF_RECEIPT_ROOM];
    uint64_t written;
    const uint8_t refusal = mmtf_write_receipt(station, job, file, n, receipt, sizeof receipt, &written);
    if (refusal != MMTF_ACCEPTED) {
        fprintf(stderr, "The receipt of %s", name);
        say_refused(refusal);
        return STATUS_NOTHING;
    }
    return write_out(name, receipt, written);
}

int main(int count, char **words) {
    if (count != 4) {
        fprintf(stderr, "Usage: receipt STATION JOB FILE\n");
        return STATUS_NOTHING;
    }
    const uint32_t station = number_of("station", words[1], MMTF_STATION_LIMIT, "1 to 99");
    const uint32_t job = station == 0 ? 0 : number_of("job", words[2], MMTF_JOB_LIMIT, "1 to 999,999");
    size_t n;
    uint8_t *file = job == 0 ? NULL : read_file(words[3], MOST + 1, &n);
    if (file == NULL) {
        return STATUS_NOTHING;
    }
    int status = STATUS_NOTHING;
    if (n > MOST) {
        fprintf(stderr, "%s is not judged: it has more than 65,536 bytes, the most that this program reads.\n", words[3]);
    } else {
        status = write_receipt(station, job, words[3], file, n);
    }
    free(file);
    return status;
}
