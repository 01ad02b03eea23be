/*
 * Meanings, headers, the version and the header's numbers as C sees them. Ends with status 1 and a sentence for each answer
 * that differs.
 */
#include <stdio.h>
#include <string.h>

#include "mmtf.h"

_Static_assert(MMTF_VERSION_NUMBER == MMTF_VERSION_MAJOR * 10000 + MMTF_VERSION_MINOR * 100 + MMTF_VERSION_PATCH, "version");
_Static_assert(MMTF_RECEIPT_NUMBERS == MMTF_RECEIPT_UNITS + 1, "the numbers of a receipt");
_Static_assert(MMTF_FILE_LIMIT == 64 * 1024 * 1024, "the limit of a file");
_Static_assert(MMTF_BILL_ROOM == 46 * MMTF_STATION_LIMIT + 13, "the room of a bill");

static int wrong = 0;

/* Says what differs. */
static void expect(int holds, const char *sentence) {
    if (!holds) {
        printf("%s\n", sentence);
        wrong = 1;
    }
}

/* The words of a number, and none beyond them. */
static void has_words(uint8_t number, const char *words) {
    const size_t n = strlen(words);
    uint8_t buffer[MMTF_MEANING_ROOM + 1];
    uint64_t written = 77;
    memset(buffer, 7, sizeof buffer);
    expect(mmtf_meaning(number, buffer, MMTF_MEANING_ROOM, &written) == MMTF_ACCEPTED && written == n
               && memcmp(buffer, words, n) == 0,
           "The words of a number differ.");
    for (size_t i = n; i < sizeof buffer; i++) {
        expect(buffer[i] == 7, "A byte beyond the words has changed.");
    }
}

/* Refused: a number that there is not, and a buffer one byte too small. */
static void refuses_meanings(void) {
    uint8_t buffer[] = {7, 7, 7, 7, 7, 7, 7};
    const uint8_t before[] = {7, 7, 7, 7, 7, 7, 7};
    uint64_t written = 77;
    expect(mmtf_meaning(31, buffer, sizeof buffer, &written) == MMTF_NO_SUCH_ENTRY, "31 is not refused with 28.");
    expect(mmtf_meaning(255, NULL, 0, &written) == MMTF_NO_SUCH_ENTRY, "255 is not refused with 28.");
    expect(mmtf_meaning(MMTF_ACCEPTED, buffer, sizeof buffer, &written) == MMTF_BUFFER_TOO_SMALL,
           "A buffer one byte too small for \"accepted\" is not refused with 25.");
    expect(memcmp(buffer, before, sizeof before) == 0 && written == 77, "A refused call has changed its buffer or its count.");
}

/* Names of three bytes, two of them; the same with a codec that uses no parameter; and cut. */
static void reads_headers(void) {
    const uint8_t names[] = {0, 0, 0, 5, 0, 0, 0, 2, 0, 0, 0, 3, 'A', 'B', 'C', 'D', 0, 0};
    const uint8_t runs[] = {0, 0, 0, 7, 0, 0, 0, 2, 0, 0, 0, 3};
    int32_t codec = 71;
    int32_t length = 72;
    int32_t parameter = 73;
    expect(mmtf_header(names, sizeof names - 1, &codec, &length, &parameter) == MMTF_PAYLOAD_SIZE,
           "A header whose payload is cut is not refused with 17.");
    expect(mmtf_header(names, MMTF_HEADER_SIZE - 1, &codec, &length, &parameter) == MMTF_COLUMN_SHORT,
           "A header that is cut is not refused with 14.");
    expect(codec == 71 && length == 72 && parameter == 73, "A refused header has changed an out parameter.");
    expect(mmtf_header(names, sizeof names, &codec, &length, &parameter) == MMTF_ACCEPTED && codec == 5 && length == 2
               && parameter == 3,
           "The header of names differs.");
    expect(mmtf_header(runs, sizeof runs, &codec, &length, &parameter) == MMTF_ACCEPTED && codec == 7 && length == 2
               && parameter == 0,
           "The header of runs differs.");
}

int main(void) {
    expect(mmtf_version() == MMTF_VERSION_NUMBER, "The library has another version than its header.");
    has_words(MMTF_ACCEPTED, "accepted");
    has_words(MMTF_LEAD_BYTE_UNKNOWN, "a lead byte is not in the subset");
    has_words(MMTF_RECEIPT_MALFORMED, "the receipt is malformed");
    has_words(MMTF_JOB_NOT_RISING, "the job number does not rise within its station");
    refuses_meanings();
    reads_headers();
    return wrong;
}
