/*
 * Receipts and bills as C sees them: receipts written for files of a few bytes, read, and refused; the bills of some receipts,
 * and runs that are refused; refused calls change nothing. Ends with status 1 and a sentence for each answer that differs.
 */
#include <stdio.h>
#include <stdlib.h>
#include <string.h>

#include "mmtf.h"

static int wrong = 0;

/* Says what differs. */
static void expect(int holds, const char *sentence) {
    if (!holds) {
        printf("%s\n", sentence);
        wrong = 1;
    }
}

/* The receipt of an empty map, which has no field: verdict 12. */
static const uint8_t file[] = {0x80};
static const char refused[] = "station=7\njob=12\nverdict=12\nmodels=0\nchains=0\ngroups=0\n"
                              "atoms=0\nbonds=0\nfields=0\nunits=0\n";
enum { BYTES = sizeof refused - 1 };

/* The receipt with the largest numbers, which is the longest. */
static const char longest[] = "station=99\njob=999999\nverdict=0\nmodels=16777216\nchains=16777216\ngroups=16777216\n"
                              "atoms=16777216\nbonds=16777216\nfields=39\nunits=1\n";

/* Written with just room for it, with more, and by the largest station and job. */
static void writes(void) {
    uint8_t buffer[MMTF_RECEIPT_ROOM];
    uint8_t before[MMTF_RECEIPT_ROOM];
    memset(buffer, 7, sizeof buffer);
    memset(before, 7, sizeof before);
    uint64_t written = 77;
    expect(mmtf_write_receipt(7, 12, file, sizeof file, buffer, BYTES, &written) == MMTF_ACCEPTED,
           "A refused file gets no receipt in a buffer that has just room for it.");
    expect(written == BYTES && memcmp(buffer, refused, BYTES) == 0, "The receipt of a refused file differs.");
    expect(memcmp(buffer + BYTES, before, sizeof buffer - BYTES) == 0, "A byte behind the buffer has changed.");
    memset(buffer, 7, sizeof buffer);
    expect(mmtf_write_receipt(7, 12, file, sizeof file, buffer, sizeof buffer, &written) == MMTF_ACCEPTED,
           "A refused file gets no receipt in a larger buffer.");
    expect(written == BYTES && memcmp(buffer, refused, BYTES) == 0, "The receipt in a larger buffer differs.");
    expect(memcmp(buffer + BYTES, before, sizeof buffer - BYTES) == 0, "A byte beyond the receipt has changed.");
    expect(mmtf_write_receipt(99, 999999, NULL, 0, buffer, sizeof buffer, &written) == MMTF_ACCEPTED
               && memcmp(buffer, "station=99\njob=999999\nverdict=2\nmodels=0\n", 41) == 0,
           "A file of no bytes gets no receipt with verdict 2.");
}

/* Refused: a bad station or job, even without room; then a buffer that is too small. */
static void refuses_to_write(void) {
    uint8_t buffer[MMTF_RECEIPT_ROOM];
    uint8_t before[MMTF_RECEIPT_ROOM];
    memset(buffer, 7, sizeof buffer);
    memset(before, 7, sizeof before);
    uint64_t written = 77;
    expect(mmtf_write_receipt(0, 12, file, sizeof file, buffer, sizeof buffer, &written) == MMTF_RECEIPT_MALFORMED,
           "Station 0 is not refused with 29.");
    expect(mmtf_write_receipt(100, 12, file, sizeof file, buffer, sizeof buffer, &written) == MMTF_RECEIPT_MALFORMED,
           "Station 100 is not refused with 29.");
    expect(mmtf_write_receipt(7, 0, file, sizeof file, buffer, sizeof buffer, &written) == MMTF_RECEIPT_MALFORMED,
           "Job 0 is not refused with 29.");
    expect(mmtf_write_receipt(7, 1000000, file, sizeof file, buffer, sizeof buffer, &written) == MMTF_RECEIPT_MALFORMED,
           "Job 1,000,000 is not refused with 29.");
    expect(mmtf_write_receipt(0, 12, file, sizeof file, NULL, 0, &written) == MMTF_RECEIPT_MALFORMED,
           "Station 0 without room is not refused with 29.");
    expect(mmtf_write_receipt(7, 12, file, sizeof file, NULL, 0, &written) == MMTF_BUFFER_TOO_SMALL,
           "No room is not refused with 25.");
    expect(mmtf_write_receipt(7, 12, file, sizeof file, buffer, BYTES - 1, &written) == MMTF_BUFFER_TOO_SMALL,
           "A buffer one byte too small is not refused with 25.");
    expect(memcmp(buffer, before, sizeof buffer) == 0, "A refused receipt has changed its buffer.");
    expect(written == 77, "A refused receipt has changed its out parameter.");
}

/* Read: the ten numbers by their places. */
static void reads(void) {
    uint32_t numbers[MMTF_RECEIPT_NUMBERS];
    expect(mmtf_read_receipt((const uint8_t *)longest, sizeof longest - 1, numbers) == MMTF_ACCEPTED,
           "The longest receipt is not read.");
    expect(sizeof longest - 1 == MMTF_RECEIPT_ROOM, "The longest receipt has not the bytes that the header says.");
    expect(numbers[MMTF_RECEIPT_STATION] == 99 && numbers[MMTF_RECEIPT_JOB] == 999999, "Its station or its job differs.");
    expect(numbers[MMTF_RECEIPT_VERDICT] == MMTF_ACCEPTED, "Its verdict differs.");
    expect(numbers[MMTF_RECEIPT_MODELS] == 16777216 && numbers[MMTF_RECEIPT_CHAINS] == 16777216
               && numbers[MMTF_RECEIPT_GROUPS] == 16777216 && numbers[MMTF_RECEIPT_ATOMS] == 16777216
               && numbers[MMTF_RECEIPT_BONDS] == 16777216,
           "Its counts differ.");
    expect(numbers[MMTF_RECEIPT_FIELDS] == 39 && numbers[MMTF_RECEIPT_UNITS] == 1, "Its fields or its units differ.");
    static const uint32_t expected[10] = {7, 12, 12, 0, 0, 0, 0, 0, 0, 0};
    expect(mmtf_read_receipt((const uint8_t *)refused, BYTES, numbers) == MMTF_ACCEPTED
               && memcmp(numbers, expected, sizeof numbers) == 0,
           "The receipt of a refused file is not read.");
}

/* Refused: bytes that are no receipt. */
static void refuses_to_read(void) {
    uint32_t numbers[MMTF_RECEIPT_NUMBERS];
    uint32_t before[10];
    memset(numbers, 7, sizeof numbers);
    memset(before, 7, sizeof before);
    char changed[sizeof refused];
    memcpy(changed, refused, sizeof refused);
    expect(mmtf_read_receipt(NULL, 0, numbers) == MMTF_RECEIPT_MALFORMED, "No bytes are not refused with 29.");
    expect(mmtf_read_receipt((const uint8_t *)refused, BYTES - 1, numbers) == MMTF_RECEIPT_MALFORMED,
           "A receipt without its last line feed is not refused with 29.");
    expect(mmtf_read_receipt((const uint8_t *)refused, BYTES + 1, numbers) == MMTF_RECEIPT_MALFORMED,
           "A receipt with an end mark behind it is not refused with 29.");
    changed[BYTES - 2] = '1';
    expect(mmtf_read_receipt((const uint8_t *)changed, BYTES, numbers) == MMTF_RECEIPT_MALFORMED,
           "A refused file with a unit is not refused with 29.");
    expect(memcmp(numbers, before, sizeof numbers) == 0, "A refused receipt has changed a number.");
}

/* A receipt of an accepted file by station 7, and the same by its next job. */
#define COUNTS "verdict=0\nmodels=1\nchains=4\ngroups=302\natoms=1023\nbonds=1142\nfields=16\nunits=1\n"
#define FIRST "station=7\njob=12\n" COUNTS
#define SECOND "station=7\njob=13\n" COUNTS
#define MALFORMED "station=7\njob=013\n" COUNTS

/* The bill of a run in a buffer of this room, and nothing beyond it. */
static void has_bill_in(size_t room, const char *run, const char *bill) {
    const size_t size = strlen(bill);
    uint8_t buffer[MMTF_BILL_ROOM];
    uint8_t before[MMTF_BILL_ROOM];
    uint64_t written = 77;
    memset(buffer, 7, sizeof buffer);
    memset(before, 7, sizeof before);
    expect(mmtf_bill((const uint8_t *)run, strlen(run), buffer, room, &written) == MMTF_ACCEPTED && written == size
               && memcmp(buffer, bill, size) == 0,
           "The bill of a run differs.");
    expect(memcmp(buffer + size, before, sizeof buffer - size) == 0, "A byte beyond the bill has changed.");
}

/* The same with just room for it, with a byte more, and with the header's room. */
static void has_bill(const char *run, const char *bill) {
    has_bill_in(strlen(bill), run, bill);
    has_bill_in(strlen(bill) + 1, run, bill);
    has_bill_in(MMTF_BILL_ROOM, run, bill);
}

/* A run is refused with this number, and nothing changes. */
static void has_no_bill(const char *run, size_t room, uint8_t number, const char *sentence) {
    uint8_t buffer[MMTF_BILL_ROOM];
    uint8_t before[MMTF_BILL_ROOM];
    uint64_t written = 77;
    memset(buffer, 7, sizeof buffer);
    memset(before, 7, sizeof before);
    expect(mmtf_bill((const uint8_t *)run, strlen(run), buffer, room, &written) == number, sentence);
    expect(memcmp(buffer, before, sizeof buffer) == 0 && written == 77, "A refused bill has changed its buffer or its count.");
}

/* Bills: of one receipt, of several in another order, and of none, where no pointer is needed. */
static void bills(void) {
    uint8_t buffer[8];
    uint64_t written = 77;
    has_bill(FIRST, "station=7\naccepted=1\nrefused=0\ntotal=1\n");
    has_bill(longest, "station=99\naccepted=1\nrefused=0\ntotal=1\n");
    has_bill(refused, "station=7\naccepted=0\nrefused=1\ntotal=0\n");
    char run[4 * MMTF_RECEIPT_ROOM];
    snprintf(run, sizeof run, "%s%s%s", longest, refused, SECOND);
    has_bill(run, "station=7\naccepted=1\nrefused=1\nstation=99\naccepted=1\nrefused=0\ntotal=2\n");
    has_bill("", "total=0\n");
    expect(mmtf_bill(NULL, 0, buffer, sizeof buffer, &written) == MMTF_ACCEPTED && written == 8
               && memcmp(buffer, "total=0\n", 8) == 0,
           "No receipts have not the bill \"total=0\".");
}

/*
 * Refused: bytes that are no receipt, a job that does not rise, and the first of the two faults, even without room; then a
 * buffer that is too small. A run that is too long is refused before all.
 */
static void refuses_bills(void) {
    has_no_bill(FIRST MALFORMED, MMTF_BILL_ROOM, MMTF_RECEIPT_MALFORMED, "A leading zero is not refused with 29.");
    has_no_bill(FIRST SECOND "\n", MMTF_BILL_ROOM, MMTF_RECEIPT_MALFORMED, "A line feed more is not refused with 29.");
    has_no_bill(FIRST FIRST, MMTF_BILL_ROOM, MMTF_JOB_NOT_RISING, "A job twice is not refused with 30.");
    has_no_bill(SECOND FIRST, MMTF_BILL_ROOM, MMTF_JOB_NOT_RISING, "A job that falls is not refused with 30.");
    has_no_bill(SECOND FIRST MALFORMED, 0, MMTF_JOB_NOT_RISING, "30 before 29, without room, is not refused with 30.");
    has_no_bill(MALFORMED SECOND FIRST, 0, MMTF_RECEIPT_MALFORMED, "29 before 30, without room, is not refused with 29.");
    has_no_bill(FIRST SECOND, 38, MMTF_BUFFER_TOO_SMALL, "A buffer one byte too small is not refused with 25.");
    uint64_t written = 77;
    expect(mmtf_bill(NULL, 0, NULL, 0, &written) == MMTF_BUFFER_TOO_SMALL && written == 77, "No room is not refused with 25.");
    uint8_t *long_run = calloc(1, MMTF_FILE_LIMIT + 1);
    expect(long_run != NULL, "There is no memory for a long run.");
    if (long_run != NULL) {
        expect(mmtf_bill(long_run, MMTF_FILE_LIMIT + 1, NULL, 0, &written) == MMTF_FILE_OVER_LIMIT && written == 77,
               "A run over the limit is not refused with 1.");
        expect(mmtf_bill(long_run, MMTF_FILE_LIMIT, NULL, 0, &written) == MMTF_RECEIPT_MALFORMED && written == 77,
               "Zeros up to the limit are not refused with 29.");
    }
    free(long_run);
}

int main(void) {
    writes();
    refuses_to_write();
    reads();
    refuses_to_read();
    bills();
    refuses_bills();
    return wrong;
}
