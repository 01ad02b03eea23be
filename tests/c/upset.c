/*
 * A stand-in for the library, broken on purpose: the call that the environment variable UPSET names answers wrongly for about
 * one input of a thousand, always the same ones. Where the call is right to accept, one bit of what it wrote is changed if
 * there is such a bit; else its number is. tests/soak builds it, with the library's calls renamed to kept_...
 */
#include <stdlib.h>
#include <string.h>

#include "mmtf.h"

/* One input of so many is upset. */
#define EVERY 1000

/* The most bytes of an input, at its beginning and at its end, that decide whether it is upset. */
#define LOOKED_AT 256

static uint64_t mixed(uint64_t sum, const uint8_t *bytes, size_t n) {
    for (size_t i = 0; i < n; i++) {
        sum = (sum ^ bytes[i]) * 0x100000001b3u;
    }
    return sum ^ sum >> 29;
}

/* Whether the call is the one that is broken. */
static int is_broken(const char *call) {
    const char *broken = getenv("UPSET");
    return broken != NULL && strcmp(broken, call) == 0;
}

/* Whether the call is the one that is broken, and these bytes are among those for which it is. */
static int is_upset(const char *call, const void *input, size_t n) {
    const uint8_t *bytes = input;
    if (!is_broken(call)) {
        return 0;
    }
    size_t part = n < LOOKED_AT ? n : LOOKED_AT;
    uint64_t sum = mixed(0xcbf29ce484222325u ^ n, bytes, part);
    sum = mixed(sum, part == 0 ? bytes : bytes + (n - part), part);
    return (sum * 0x9e3779b97f4a7c15u >> 32) % EVERY == 0;
}

#define NUMBER_ONLY(call) \
    uint8_t kept_##call(const uint8_t *file, size_t n); \
    uint8_t call(const uint8_t *file, size_t n) { \
        uint8_t number = kept_##call(file, n); \
        return is_upset(#call, file, n) ? number ^ 1 : number; \
    }

NUMBER_ONLY(mmtf_container)
NUMBER_ONLY(mmtf_verdict)

uint8_t kept_mmtf_view(const uint8_t *file, size_t n, const uint8_t *name, size_t m, uint64_t *start, uint64_t *length);
uint8_t mmtf_view(const uint8_t *file, size_t n, const uint8_t *name, size_t m, uint64_t *start, uint64_t *length) {
    uint8_t number = kept_mmtf_view(file, n, name, m, start, length);
    if (!is_upset("mmtf_view", file, n)) {
        return number;
    }
    if (number != 0) {
        return number ^ 1;
    }
    *start += 1;
    return 0;
}

uint8_t kept_mmtf_fields(const uint8_t *file, size_t n, uint64_t *presence, uint64_t *starts, uint64_t *lengths, size_t room);
uint8_t mmtf_fields(const uint8_t *file, size_t n, uint64_t *presence, uint64_t *starts, uint64_t *lengths, size_t room) {
    uint8_t number = kept_mmtf_fields(file, n, presence, starts, lengths, room);
    if (!is_upset("mmtf_fields", file, n)) {
        return number;
    }
    if (number != 0) {
        return number ^ 1;
    }
    lengths[MMTF_FIELD_COUNT - 1] ^= 1;
    return 0;
}

/* A decoder of elements of this type. */
#define DECODER(call, type) \
    uint8_t kept_##call(const uint8_t *column, size_t n, type *buffer, size_t room, uint64_t *count); \
    uint8_t call(const uint8_t *column, size_t n, type *buffer, size_t room, uint64_t *count) { \
        uint8_t number = kept_##call(column, n, buffer, room, count); \
        if (!is_upset(#call, column, n)) { \
            return number; \
        } \
        if (number != 0 || *count == 0) { \
            return number ^ 1; \
        } \
        buffer[*count - 1] ^= 1; \
        return 0; \
    }

DECODER(mmtf_decode_int32, int32_t)
DECODER(mmtf_decode_int8, int32_t)
DECODER(mmtf_decode_int16, int32_t)
DECODER(mmtf_decode_chars, uint8_t)
DECODER(mmtf_decode_strings, uint8_t)
DECODER(mmtf_decode_float32, uint32_t)

uint8_t kept_mmtf_decode_fixed_point(const uint8_t *column, size_t n,
    int32_t *buffer, size_t room, uint64_t *count, int32_t *divisor);
uint8_t mmtf_decode_fixed_point(const uint8_t *column, size_t n,
    int32_t *buffer, size_t room, uint64_t *count, int32_t *divisor) {
    uint8_t number = kept_mmtf_decode_fixed_point(column, n, buffer, room, count, divisor);
    if (!is_upset("mmtf_decode_fixed_point", column, n)) {
        return number;
    }
    if (number != 0) {
        return number ^ 1;
    }
    *divisor ^= 1;
    return 0;
}

uint8_t kept_mmtf_cell(const uint8_t *column, size_t n, uint64_t index, uint8_t *kind, int32_t *integer, float *real);
uint8_t mmtf_cell(const uint8_t *column, size_t n, uint64_t index, uint8_t *kind, int32_t *integer, float *real) {
    uint8_t number = kept_mmtf_cell(column, n, index, kind, integer, real);
    if (!is_upset("mmtf_cell", column, n)) {
        return number;
    }
    if (number != 0) {
        return number ^ 1;
    }
    *integer ^= 1;
    return 0;
}

uint8_t kept_mmtf_header(const uint8_t *column, size_t n, int32_t *codec, int32_t *length, int32_t *parameter);
uint8_t mmtf_header(const uint8_t *column, size_t n, int32_t *codec, int32_t *length, int32_t *parameter) {
    uint8_t number = kept_mmtf_header(column, n, codec, length, parameter);
    if (!is_upset("mmtf_header", column, n)) {
        return number;
    }
    if (number != 0) {
        return number ^ 1;
    }
    *parameter ^= 1;
    return 0;
}

/* What an encoder wrote, with its last bit changed. */
static uint8_t upset_column(uint8_t number, uint8_t *buffer, const uint64_t *written) {
    if (number != 0) {
        return number ^ 1;
    }
    buffer[*written - 1] ^= 1;
    return 0;
}

/* An encoder of elements of this type. */
#define ENCODER(call, type) \
    uint8_t kept_##call(int32_t codec, const type *values, size_t m, uint8_t *buffer, size_t room, uint64_t *written); \
    uint8_t call(int32_t codec, const type *values, size_t m, uint8_t *buffer, size_t room, uint64_t *written) { \
        uint8_t number = kept_##call(codec, values, m, buffer, room, written); \
        int upset = is_upset(#call, values, m * sizeof *values); \
        return upset ? upset_column(number, buffer, written) : number; \
    }

ENCODER(mmtf_encode_int32, int32_t)
ENCODER(mmtf_encode_int8, int32_t)
ENCODER(mmtf_encode_int16, int32_t)
ENCODER(mmtf_encode_chars, uint8_t)
ENCODER(mmtf_encode_float32, uint32_t)

/* An encoder with a parameter. */
#define ENCODER_WITH(call, type) \
    uint8_t kept_##call(int32_t codec, int32_t parameter, const type *values, size_t m, \
        uint8_t *buffer, size_t room, uint64_t *written); \
    uint8_t call(int32_t codec, int32_t parameter, const type *values, size_t m, \
        uint8_t *buffer, size_t room, uint64_t *written) { \
        uint8_t number = kept_##call(codec, parameter, values, m, buffer, room, written); \
        int upset = is_upset(#call, values, m * sizeof *values); \
        return upset ? upset_column(number, buffer, written) : number; \
    }

ENCODER_WITH(mmtf_encode_strings, uint8_t)
ENCODER_WITH(mmtf_encode_fixed_point, int32_t)

uint8_t kept_mmtf_matrix(const uint8_t *file, size_t n, uint64_t assembly, uint64_t transform, float rows[4][4]);
uint8_t mmtf_matrix(const uint8_t *file, size_t n, uint64_t assembly, uint64_t transform, float rows[4][4]) {
    uint8_t number = kept_mmtf_matrix(file, n, assembly, transform, rows);
    return is_upset("mmtf_matrix", file, n) ? number ^ 1 : number;
}

uint8_t kept_mmtf_write_receipt(uint32_t station, uint32_t job, const uint8_t *file, size_t n,
    uint8_t *buffer, size_t room, uint64_t *written);
uint8_t mmtf_write_receipt(uint32_t station, uint32_t job, const uint8_t *file, size_t n,
    uint8_t *buffer, size_t room, uint64_t *written) {
    uint8_t number = kept_mmtf_write_receipt(station, job, file, n, buffer, room, written);
    int upset = is_upset("mmtf_write_receipt", file, n);
    return upset ? upset_column(number, buffer, written) : number;
}

/* A number and a room are few inputs, so that one number of all is upset, at every room; and the version is always. */
uint8_t kept_mmtf_meaning(uint8_t number, uint8_t *buffer, size_t room, uint64_t *written);
uint8_t mmtf_meaning(uint8_t number, uint8_t *buffer, size_t room, uint64_t *written) {
    uint8_t answer = kept_mmtf_meaning(number, buffer, room, written);
    int upset = is_broken("mmtf_meaning") && number == MMTF_NOT_EXACT;
    return upset ? upset_column(answer, buffer, written) : answer;
}

uint32_t kept_mmtf_version(void);
uint32_t mmtf_version(void) {
    return kept_mmtf_version() ^ (uint32_t)is_broken("mmtf_version");
}

uint8_t kept_mmtf_read_receipt(const uint8_t *bytes, size_t n, uint32_t numbers[MMTF_RECEIPT_NUMBERS]);
uint8_t mmtf_read_receipt(const uint8_t *bytes, size_t n, uint32_t numbers[MMTF_RECEIPT_NUMBERS]) {
    uint8_t number = kept_mmtf_read_receipt(bytes, n, numbers);
    if (!is_upset("mmtf_read_receipt", bytes, n)) {
        return number;
    }
    if (number != 0) {
        return number ^ 1;
    }
    numbers[MMTF_RECEIPT_BONDS] ^= 1;
    return 0;
}

/* The last digit of the total is another one. */
uint8_t kept_mmtf_bill(const uint8_t *receipts, size_t n, uint8_t *buffer, size_t room, uint64_t *written);
uint8_t mmtf_bill(const uint8_t *receipts, size_t n, uint8_t *buffer, size_t room, uint64_t *written) {
    uint8_t number = kept_mmtf_bill(receipts, n, buffer, room, written);
    if (!is_upset("mmtf_bill", receipts, n)) {
        return number;
    }
    if (number != 0) {
        return number ^ 1;
    }
    buffer[*written - 2] ^= 1;
    return 0;
}
