/*
 * The library's calls as C sees them: each line holds one answer to the rules. Ends with status 1 if any differs.
 */
#include <stdio.h>
#include <string.h>

#include "mmtf.h"

static int wrong = 0;

/* The container's number. */
static void expect(const char *bytes, size_t n, unsigned number) {
    const unsigned answer = mmtf_container((const uint8_t *)bytes, n);
    if (answer != number) {
        printf("container of %zu bytes: %u, expected %u\n", n, answer, number);
        wrong = 1;
    }
}

/* A view's number, and its place; after a refusal the out parameters are as they were. */
static void expect_view(const char *bytes, size_t n, const char *name, unsigned number, uint64_t start, uint64_t length) {
    uint64_t at = 77;
    uint64_t size = 78;
    const unsigned answer = mmtf_view((const uint8_t *)bytes, n, (const uint8_t *)name, strlen(name), &at, &size);
    if (number != MMTF_ACCEPTED) {
        start = 77;
        length = 78;
    }
    if (answer != number || at != start || size != length) {
        printf("view of \"%s\": %u, start %llu, length %llu\n", name, answer, (unsigned long long)at, (unsigned long long)size);
        wrong = 1;
    }
}

int main(void) {
    expect("\x80", 1, MMTF_ACCEPTED);
    expect("", 0, MMTF_CUT_SHORT);
    expect(NULL, 0, MMTF_CUT_SHORT);
    expect("\xc0", 1, MMTF_LEAD_BYTE_UNKNOWN);
    expect("\x81\xa1" "a\xce\x80\x00\x00\x00", 8, MMTF_UNSIGNED_TOO_LARGE);
    expect("\x90", 1, MMTF_OUTER_NOT_MAP);
    expect("\x80\x80", 2, MMTF_BYTES_AFTER);
    expect("\x82\xa1" "a\x00\xa1" "a\x00", 7, MMTF_KEY_REPEATED);

    /* {"a": "xyz", "b": [5], "": ""} */
    const char file[] = "\x83\xa1" "a\xa3xyz\xa1" "b\x91\x05\xa0\xa0";
    const size_t n = sizeof file - 1;
    expect(file, n, MMTF_ACCEPTED);
    expect_view(file, n, "a", MMTF_ACCEPTED, 4, 3);
    expect_view(file, n, "b", MMTF_ACCEPTED, 9, 2);
    expect_view(file, n, "", MMTF_ACCEPTED, 13, 0);
    expect_view(file, n, "c", MMTF_NO_SUCH_FIELD, 0, 0);
    expect_view(file, n - 1, "a", MMTF_CUT_SHORT, 0, 0);
    expect_view("", 0, "a", MMTF_CUT_SHORT, 0, 0);
    return wrong;
}
