/*
 * Columns as C sees them: a column written by hand is decoded, asked for one cell, encoded back and compared; refused calls
 * change nothing. Ends with status 1 and a sentence for each answer that differs.
 */
#include <stdio.h>
#include <string.h>

#include "mmtf.h"

static int wrong = 0;

/* Says what differs. */
static void expect(int holds, const char *sentence) {
    if (!holds) {
        printf("%s\n", sentence);
        wrong = 1;
    }
}

/* Codec 10, three results, divisor 1000; the payload is 32767, 17579, 399, -54: packed 50346, 399, -54. */
static const uint8_t column[] = {0, 0, 0, 10, 0, 0, 0, 3, 0, 0, 3, 0xe8, 0x7f, 0xff, 0x44, 0xab, 0x01, 0x8f, 0xff, 0xca};
static const int32_t integers[] = {50346, 50745, 50691};
enum { RESULTS = 3 };

/* The column as integers and divisor; the fourth element is beyond it. */
static void decodes(void) {
    int32_t buffer[RESULTS + 1] = {7, 7, 7, 7};
    uint64_t count = 77;
    int32_t divisor = 78;
    expect(mmtf_decode_fixed_point(column, sizeof column, buffer, RESULTS + 1, &count, &divisor) == MMTF_ACCEPTED,
           "The column of codec 10 is not decoded.");
    expect(count == RESULTS && divisor == 1000, "Its count or its divisor differs.");
    expect(memcmp(buffer, integers, sizeof integers) == 0, "Its integers differ.");
    expect(buffer[RESULTS] == 7, "An element beyond the column has changed.");
}

/* The same as floats: each is one division. */
static void decodes_floats(void) {
    uint32_t bits[RESULTS];
    uint64_t count = 77;
    expect(mmtf_decode_float32(column, sizeof column, bits, RESULTS, &count) == MMTF_ACCEPTED && count == RESULTS,
           "The column of codec 10 is not decoded to floats.");
    for (size_t i = 0; i < RESULTS; i++) {
        float real;
        memcpy(&real, &bits[i], sizeof real);
        expect(real == (float)integers[i] / 1000.0f, "A float of the column differs.");
    }
}

/* One cell, which is a float, so that the integer stays; and one past the end. */
static void has_cells(void) {
    uint8_t kind = 77;
    int32_t integer = 78;
    float real = 79.0f;
    expect(mmtf_cell(column, sizeof column, 1, &kind, &integer, &real) == MMTF_ACCEPTED, "The second cell is refused.");
    expect(kind == MMTF_CELL_FLOAT && real == 50745.0f / 1000.0f, "The second cell differs.");
    expect(integer == 78, "A cell that is a float has changed the integer.");
    kind = 77;
    real = 79.0f;
    expect(mmtf_cell(column, sizeof column, RESULTS, &kind, &integer, &real) == MMTF_NO_SUCH_ENTRY,
           "A cell past the end is not refused with 28.");
    expect(kind == 77 && integer == 78 && real == 79.0f, "A refused cell has changed an out parameter.");
}

/* The integers encoded back: the same bytes, and none beyond. */
static void encodes(void) {
    uint8_t buffer[sizeof column + 1];
    memset(buffer, 7, sizeof buffer);
    uint64_t written = 77;
    expect(mmtf_encode_fixed_point(10, 1000, integers, RESULTS, buffer, sizeof buffer, &written) == MMTF_ACCEPTED,
           "The integers are not encoded.");
    expect(written == sizeof column && memcmp(buffer, column, sizeof column) == 0,
           "The bytes encoded differ from the column.");
    expect(buffer[sizeof column] == 7, "A byte beyond the column has changed.");
}

/* Refused: a kind that is not asked for, a packed result that is unfinished, a buffer one element too small. */
static void refuses_to_decode(void) {
    static const uint8_t unfinished[] = {0, 0, 0, 14, 0, 0, 0, 1, 0, 0, 0, 0, 0x7f, 0xff};
    int32_t buffer[RESULTS] = {7, 7, 7};
    uint64_t count = 77;
    int32_t divisor = 78;
    expect(mmtf_decode_int32(column, sizeof column, buffer, RESULTS, &count) == MMTF_CODEC_UNKNOWN,
           "A fixed point column asked for as int32 is not refused with 15.");
    expect(mmtf_decode_int32(unfinished, sizeof unfinished, buffer, RESULTS, &count) == MMTF_NUMBER_NOT_ALLOWED,
           "A lone 32767 by codec 14 is not refused with 18.");
    expect(mmtf_decode_fixed_point(column, sizeof column, buffer, RESULTS - 1, &count, &divisor) == MMTF_BUFFER_TOO_SMALL,
           "A buffer one element too small is not refused with 25.");
    expect(mmtf_decode_fixed_point(NULL, 0, NULL, 0, &count, &divisor) == MMTF_COLUMN_SHORT,
           "A column of no bytes is not refused with 14.");
    expect(buffer[0] == 7 && buffer[1] == 7 && buffer[2] == 7, "A refused decoder has changed its buffer.");
    expect(count == 77 && divisor == 78, "A refused decoder has changed an out parameter.");
}

/* Refused: a divisor of 0, a number that the codec cannot hold, a buffer one byte too small. */
static void refuses_to_encode(void) {
    uint8_t buffer[sizeof column];
    uint8_t before[sizeof column];
    memset(buffer, 7, sizeof buffer);
    memset(before, 7, sizeof before);
    uint64_t written = 77;
    expect(mmtf_encode_fixed_point(10, 0, integers, RESULTS, buffer, sizeof buffer, &written) == MMTF_HEADER_RANGE,
           "A divisor of 0 is not refused with 16.");
    expect(mmtf_encode_fixed_point(11, 1000, integers, RESULTS, buffer, sizeof buffer, &written) == MMTF_NUMBER_NOT_ALLOWED,
           "50346 by codec 11 is not refused with 18.");
    expect(mmtf_encode_fixed_point(10, 1000, integers, RESULTS, buffer, sizeof buffer - 1, &written) == MMTF_BUFFER_TOO_SMALL,
           "A buffer one byte too small is not refused with 25.");
    expect(memcmp(buffer, before, sizeof buffer) == 0, "A refused encoder has changed its buffer.");
    expect(written == 77, "A refused encoder has changed its out parameter.");
}

/* The other kinds, there and back. */
static void other_kinds(void) {
    static const int32_t small[] = {-128, -128, 127};
    static const int32_t whole[] = {2147483647, -2147483647 - 1, 0};
    static const uint8_t letters[] = {'A', 'A', 0};
    static const uint8_t names[] = {'A', 0, 0, 0, 'B', 'C', 0, 0};
    static const uint32_t floats[] = {0x3f800000, 0x80000000, 0x7fa00001};
    uint8_t bytes[64];
    uint64_t written = 0;
    uint64_t count = 0;
    int32_t numbers[3];
    uint8_t text[8];
    uint32_t bits[3];
    expect(mmtf_encode_int8(16, small, 3, bytes, sizeof bytes, &written) == MMTF_ACCEPTED
               && mmtf_decode_int8(bytes, written, numbers, 3, &count) == MMTF_ACCEPTED && count == 3
               && memcmp(numbers, small, sizeof small) == 0,
           "An int8 column does not come back.");
    expect(mmtf_encode_int16(3, small, 3, bytes, sizeof bytes, &written) == MMTF_ACCEPTED
               && mmtf_decode_int16(bytes, written, numbers, 3, &count) == MMTF_ACCEPTED && count == 3
               && memcmp(numbers, small, sizeof small) == 0,
           "An int16 column does not come back.");
    expect(mmtf_encode_int32(8, whole, 3, bytes, sizeof bytes, &written) == MMTF_ACCEPTED
               && mmtf_decode_int32(bytes, written, numbers, 3, &count) == MMTF_ACCEPTED && count == 3
               && memcmp(numbers, whole, sizeof whole) == 0,
           "An int32 column does not come back.");
    expect(mmtf_encode_chars(6, letters, 3, bytes, sizeof bytes, &written) == MMTF_ACCEPTED
               && mmtf_decode_chars(bytes, written, text, 3, &count) == MMTF_ACCEPTED && count == 3
               && memcmp(text, letters, sizeof letters) == 0,
           "A column of characters does not come back.");
    expect(mmtf_encode_strings(5, 4, names, 8, bytes, sizeof bytes, &written) == MMTF_ACCEPTED && bytes[7] == 2
               && mmtf_decode_strings(bytes, written, text, 8, &count) == MMTF_ACCEPTED && count == 8
               && memcmp(text, names, sizeof names) == 0,
           "A column of strings does not come back.");
    expect(mmtf_encode_float32(1, floats, 3, bytes, sizeof bytes, &written) == MMTF_ACCEPTED
               && mmtf_decode_float32(bytes, written, bits, 3, &count) == MMTF_ACCEPTED && count == 3
               && memcmp(bits, floats, sizeof floats) == 0,
           "A column of floats does not come back with its bits.");
}

int main(void) {
    decodes();
    decodes_floats();
    has_cells();
    encodes();
    refuses_to_decode();
    refuses_to_encode();
    other_kinds();
    return wrong;
}
