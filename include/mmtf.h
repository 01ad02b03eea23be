/*
 * libmmtf: an MMTF reader whose calls are proved to meet their contracts.
 *
 * The library checks a file or its container alone, opens a file with the places of all its fields, finds values by name,
 * decodes and encodes columns, reads one cell, gives the matrices of transforms, writes and reads receipts, adds up bills of
 * receipts, and says each refusal number in words. It is for x86-64 Linux.
 *
 * Every call takes whatever bytes and numbers it is given, and always ends with an answer. It keeps nothing between calls,
 * allocates nothing and writes to nothing but its buffer and its out parameters, so threads may call at the same time. The
 * answer of every call but mmtf_version is a refusal number, 0 for none; mmtf_meaning says a number in words. On refusal no
 * buffer and no out parameter changes.
 *
 * What the caller must guarantee, since no call can test it:
 * - A pointer with a length is valid for that many elements, and nothing else writes to them while the call runs. Where the
 *   length is 0 nothing is read or written through the pointer, and it may be null.
 * - A buffer has no element in common with what is read, nor with another buffer.
 * - An out parameter points to an object of its type, which is not another out parameter and not part of what is read or of
 *   the buffer.
 * - Floats are rounded to nearest, as they are when a C program starts: mmtf_decode_float32 and mmtf_cell divide.
 * - There is room on the stack: 96 KiB are enough for every call. The most that was measured is 38 KiB for mmtf_fields,
 *   36 KiB for mmtf_verdict and mmtf_write_receipt, and 31 KiB for every other call.
 */
#ifndef MMTF_H
#define MMTF_H

#include <stddef.h>
#include <stdint.h>

#if SIZE_MAX != UINT64_MAX
#error "libmmtf is for targets on which size_t has 64 bits"
#endif

#ifdef __cplusplus
extern "C" {
#endif

/* The version of this header, as numbers, as one number that a later version is above, and as text. */
#define MMTF_VERSION_MAJOR 0
#define MMTF_VERSION_MINOR 10
#define MMTF_VERSION_PATCH 0
#define MMTF_VERSION_NUMBER (MMTF_VERSION_MAJOR * 10000 + MMTF_VERSION_MINOR * 100 + MMTF_VERSION_PATCH)
#define MMTF_VERSION "0.10.0"

/* Answers the version of the library. It is MMTF_VERSION_NUMBER where the library and this header belong together. */
uint32_t mmtf_version(void);

/* The limits. Whatever exceeds a limit is refused, as each call says. */
#define MMTF_FILE_LIMIT 67108864   /* bytes of a file, and of a run of receipts */
#define MMTF_NESTING_LIMIT 12      /* levels of arrays and maps, the outer map among them */
#define MMTF_ENTRY_LIMIT 256       /* entries of a map */
#define MMTF_LENGTH_LIMIT 16777216 /* results of a column */
#define MMTF_NAME_LIMIT 255        /* bytes of a name in a column of strings */
#define MMTF_EXACT_LIMIT 16777216  /* size of an integer or a divisor that is exact in single precision */
#define MMTF_COUNT_LIMIT 16777216  /* models, and likewise chains, groups, atoms and bonds */
#define MMTF_GROUP_TYPE_LIMIT 4096 /* group types */
#define MMTF_STATION_LIMIT 99      /* stations, counted from 1 */
#define MMTF_JOB_LIMIT 999999      /* jobs, counted from 1 */

/* The refusal numbers. A number has the same meaning in every call; each call says which ones it gives. */
enum mmtf_refusal {
    MMTF_ACCEPTED = 0,              /* accepted */
    MMTF_FILE_OVER_LIMIT = 1,       /* the file is over the limit of 67,108,864 bytes */
    MMTF_CUT_SHORT = 2,             /* the file is cut short */
    MMTF_LEAD_BYTE_UNKNOWN = 3,     /* a lead byte is not in the subset */
    MMTF_UNSIGNED_TOO_LARGE = 4,    /* an unsigned integer is above 2,147,483,647 */
    MMTF_STRING_NOT_UTF8 = 5,       /* a string is not UTF-8 */
    MMTF_NESTED_TOO_DEEP = 6,       /* arrays and maps are nested too deep */
    MMTF_TOO_MANY_ENTRIES = 7,      /* a map has too many entries */
    MMTF_KEY_NOT_STRING = 8,        /* a key is not a string */
    MMTF_KEY_REPEATED = 9,          /* a key is repeated */
    MMTF_OUTER_NOT_MAP = 10,        /* the outer value is not a map */
    MMTF_BYTES_AFTER = 11,          /* there are bytes after the outer map */
    MMTF_FIELD_MISSING = 12,        /* a required field is missing */
    MMTF_FIELD_TYPE = 13,           /* a field is of the wrong type */
    MMTF_COLUMN_SHORT = 14,         /* a column is under 12 bytes */
    MMTF_CODEC_UNKNOWN = 15,        /* a column's codec is unknown, or not of this kind */
    MMTF_HEADER_RANGE = 16,         /* a column's length or parameter is out of range */
    MMTF_PAYLOAD_SIZE = 17,         /* a column's payload has the wrong size */
    MMTF_NUMBER_NOT_ALLOWED = 18,   /* a number in a column is not allowed */
    MMTF_LENGTH_DIFFERS = 19,       /* a column's results are not as many as its header says */
    MMTF_COUNTS_DISAGREE = 20,      /* counts disagree */
    MMTF_INDEX_OUTSIDE = 21,        /* an index is outside its table */
    MMTF_VALUE_OUTSIDE = 22,        /* a value is outside its list */
    MMTF_TOO_MANY_GROUP_TYPES = 23, /* there are too many group types */
    MMTF_VERSION_NOT_1 = 24,        /* the major version is not 1 */
    MMTF_BUFFER_TOO_SMALL = 25,     /* the buffer is too small */
    MMTF_NO_SUCH_FIELD = 26,        /* there is no such field */
    MMTF_NOT_EXACT = 27,            /* a number is not exact in single precision */
    MMTF_NO_SUCH_ENTRY = 28,        /* there is no such entry */
    MMTF_RECEIPT_MALFORMED = 29,    /* the receipt is malformed */
    MMTF_JOB_NOT_RISING = 30        /* the job number does not rise within its station */
};

/* The bytes of the longest meaning, rounded up. A buffer with this room is never too small for one. */
#define MMTF_MEANING_ROOM 64

/*
 * Hands over the meaning of a refusal number in words, as they stand beside the numbers above: in ASCII, without a full stop.
 *
 * Answers MMTF_ACCEPTED with the words at the buffer's start and the number of their bytes in *written; every byte of the
 * buffer beyond is as it was, and no end mark is written. Every number above has its words, MMTF_ACCEPTED too. Otherwise the
 * buffer and *written are as they were, and the answer is the first of these that applies:
 * - MMTF_NO_SUCH_ENTRY: there is no such refusal number.
 * - MMTF_BUFFER_TOO_SMALL: there are more bytes than the buffer has room for.
 */
uint8_t mmtf_meaning(uint8_t number, uint8_t *buffer, size_t room, uint64_t *written);

/*
 * Checks the container of the file of n bytes.
 *
 * Answers MMTF_ACCEPTED exactly when the bytes are a writing of a map that keeps the limits: at most 67,108,864 bytes, 12
 * levels, 256 entries in a map, integers of 32 bits with a sign, keys that are strings and differ within their map, and
 * strings in UTF-8. Otherwise it answers the number of the first fault of a walk from the first byte, 1 to 11.
 *
 * Fields, columns and counts are not looked at, so the answer 0 does not say that the file is accepted as a structure:
 * mmtf_verdict says that.
 */
uint8_t mmtf_container(const uint8_t *file, size_t n);

/*
 * Checks the whole file of n bytes: container, fields, columns and counts.
 *
 * Answers MMTF_ACCEPTED exactly when the file is accepted as a structure. Otherwise the answer is the number of the first
 * fault in this order:
 * - The container's number, 1 to 11, as mmtf_container gives it.
 * - MMTF_FIELD_MISSING: one of the 16 required fields is not an outer key. Keys are compared as bytes; fields that are not
 *   named are skipped.
 * - MMTF_FIELD_TYPE: a named field that is present is not of its type, at any place in it: a value is of another kind, the
 *   number of floats is not exactly 6 (unitCell) or 16 (an operator, a matrix), or a required key is missing in a map of
 *   groupList, bioAssemblyList or entityList. An integer does not count as a float. Keys that are not named are skipped in
 *   these maps too.
 * - MMTF_VERSION_NOT_1: mmtfVersion does not begin with "1." and a digit.
 * - The columns' own numbers, MMTF_COLUMN_SHORT to MMTF_LENGTH_DIFFERS, column by column in the order of the fields, as the
 *   decoders of their kinds give them; names in a field have 4 bytes each, and any other size is MMTF_HEADER_RANGE. Whether
 *   fixed point numbers are exact in single precision is not asked.
 * - MMTF_TOO_MANY_GROUP_TYPES: there are more than 4,096 group types.
 * - MMTF_VALUE_OUTSIDE: numBonds, numAtoms, numGroups, numChains or numModels is not 0 to 16,777,216, or an entry of
 *   groupsPerChain or chainsPerModel is below 0.
 * - MMTF_COUNTS_DISAGREE: chainsPerModel does not have numModels entries, or they do not add up to numChains; groupsPerChain
 *   does not have numChains entries, or they do not add up to numGroups; or a column of groups, chains or atoms does not have
 *   as many cells as there are of these.
 * - For each group type in turn, whether it is used or not: MMTF_COUNTS_DISAGREE if its three lists of atoms are not equally
 *   long, its bondAtomList has an odd length, or its bondOrderList is not half as long or is there alone; then
 *   MMTF_INDEX_OUTSIDE if an index of a bond is not inside its atoms; then MMTF_VALUE_OUTSIDE if the order of a bond is not 1
 *   to 4.
 * - MMTF_INDEX_OUTSIDE: an entry of groupTypeList is not inside groupList.
 * - MMTF_COUNTS_DISAGREE: the atoms of all groups, each counted by its type, are not numAtoms.
 * - MMTF_COUNTS_DISAGREE: the bonds of all groups, each counted by its type, and the pairs of the outer bondAtomList are
 *   together not numBonds; or that list has an odd length, or the outer bondOrderList is not half as long or is there alone.
 * - MMTF_INDEX_OUTSIDE: an index of the outer bondAtomList is not inside the atoms. Then MMTF_VALUE_OUTSIDE: an order of the
 *   outer bondOrderList is not 1 to 4.
 * - MMTF_VALUE_OUTSIDE: an entry of secStructList is not -1 to 7, or one of sequenceIdList is below -1.
 * - MMTF_INDEX_OUTSIDE: an entry of a chainIndexList, of entityList or of bioAssemblyList, is not inside the chains.
 *
 * All sums are exact. An index is inside a table if it is 0 or more and below the table's size.
 */
uint8_t mmtf_verdict(const uint8_t *file, size_t n);

/*
 * The numbers of the named fields, in the order of the fields from 0 on. Bit i of a set of fields, 1 << i, belongs to field i,
 * and so does element i of what mmtf_fields hands over.
 */
enum mmtf_field {
    MMTF_MMTF_VERSION = 0,          /* mmtfVersion */
    MMTF_MMTF_PRODUCER = 1,         /* mmtfProducer */
    MMTF_NUM_BONDS = 2,             /* numBonds */
    MMTF_NUM_ATOMS = 3,             /* numAtoms */
    MMTF_NUM_GROUPS = 4,            /* numGroups */
    MMTF_NUM_CHAINS = 5,            /* numChains */
    MMTF_NUM_MODELS = 6,            /* numModels */
    MMTF_GROUP_LIST = 7,            /* groupList */
    MMTF_X_COORD_LIST = 8,          /* xCoordList */
    MMTF_Y_COORD_LIST = 9,          /* yCoordList */
    MMTF_Z_COORD_LIST = 10,         /* zCoordList */
    MMTF_GROUP_ID_LIST = 11,        /* groupIdList */
    MMTF_GROUP_TYPE_LIST = 12,      /* groupTypeList */
    MMTF_CHAIN_ID_LIST = 13,        /* chainIdList */
    MMTF_GROUPS_PER_CHAIN = 14,     /* groupsPerChain */
    MMTF_CHAINS_PER_MODEL = 15,     /* chainsPerModel */
    MMTF_BOND_ATOM_LIST = 16,       /* bondAtomList */
    MMTF_BOND_ORDER_LIST = 17,      /* bondOrderList */
    MMTF_B_FACTOR_LIST = 18,        /* bFactorList */
    MMTF_ATOM_ID_LIST = 19,         /* atomIdList */
    MMTF_ALT_LOC_LIST = 20,         /* altLocList */
    MMTF_OCCUPANCY_LIST = 21,       /* occupancyList */
    MMTF_SEC_STRUCT_LIST = 22,      /* secStructList */
    MMTF_INS_CODE_LIST = 23,        /* insCodeList */
    MMTF_SEQUENCE_ID_LIST = 24,     /* sequenceIdList */
    MMTF_CHAIN_NAME_LIST = 25,      /* chainNameList */
    MMTF_TITLE = 26,                /* title */
    MMTF_STRUCTURE_ID = 27,         /* structureId */
    MMTF_SPACE_GROUP = 28,          /* spaceGroup */
    MMTF_DEPOSITION_DATE = 29,      /* depositionDate */
    MMTF_RELEASE_DATE = 30,         /* releaseDate */
    MMTF_RESOLUTION = 31,           /* resolution */
    MMTF_R_FREE = 32,               /* rFree */
    MMTF_R_WORK = 33,               /* rWork */
    MMTF_UNIT_CELL = 34,            /* unitCell */
    MMTF_EXPERIMENTAL_METHODS = 35, /* experimentalMethods */
    MMTF_NCS_OPERATOR_LIST = 36,    /* ncsOperatorList */
    MMTF_BIO_ASSEMBLY_LIST = 37,    /* bioAssemblyList */
    MMTF_ENTITY_LIST = 38,          /* entityList */
    MMTF_FIELD_COUNT = 39
};

/* A room for mmtf_fields that is never too small: no set has more than 64 fields. */
#define MMTF_FIELDS_ROOM 64

/*
 * Opens the file of n bytes: checks all of it, as mmtf_verdict does, and says where each named field stands, so that its
 * columns can be decoded without walking the file again.
 *
 * starts and lengths have room elements each. Answers MMTF_ACCEPTED exactly when the file is accepted as a structure and room
 * is MMTF_FIELD_COUNT or more. Then *presence is the set of the named fields that are present, a bit for each, and for each
 * field i the part that mmtf_view finds under its name is file[starts[i]] up to file[starts[i] + lengths[i] - 1]; for an
 * absent field both are 0. Elements from MMTF_FIELD_COUNT on are as they were. Otherwise *presence and all elements are as they
 * were, and the answer is the first of these that applies:
 * - The file's own number, 1 to 24, as mmtf_verdict gives it.
 * - MMTF_BUFFER_TOO_SMALL: room is less than MMTF_FIELD_COUNT. Then nothing is read or written through starts and lengths.
 */
uint8_t mmtf_fields(const uint8_t *file, size_t n, uint64_t *presence, uint64_t *starts, uint64_t *lengths, size_t room);

/*
 * Finds the part of the file of n bytes that holds the value of the outer key whose m bytes are the name.
 *
 * Answers MMTF_ACCEPTED, with the part at file[*start] up to file[*start + *length - 1]. For a string or a binary it is the
 * body, and for any other value the whole value, lead byte included. An empty body starts right after its head. Otherwise the
 * answer is the container's number, 1 to 11, or MMTF_NO_SUCH_FIELD where no outer key is the name, and *start and *length are
 * as they were.
 *
 * The name is compared as bytes, whatever they are; it needs no end mark. Only outer keys count. Each call checks the
 * container first: it relies on no earlier call. mmtf_fields gives the parts of all named fields at once.
 */
uint8_t mmtf_view(const uint8_t *file, size_t n, const uint8_t *name, size_t m, uint64_t *start, uint64_t *length);

/*
 * Columns. A column is the body of a binary field, as mmtf_view shows it: codec, length and parameter, 32 bits each with a
 * sign, the highest byte first, and then the payload.
 *
 * codec  kind         payload
 *  1     float32      32-bit floats
 *  2     int8         8-bit numbers
 *  3     int16        16-bit numbers
 *  4     int32        32-bit numbers
 *  5     strings      names, of the parameter's size each
 *  6     chars        runs
 *  7     int32        runs
 *  8     int32        runs, delta
 *  9     fixed point  runs; the parameter is the divisor
 * 10     fixed point  packed 16-bit numbers, delta; the divisor
 * 11     fixed point  16-bit numbers; the divisor
 * 12     fixed point  packed 16-bit numbers; the divisor
 * 13     fixed point  packed 8-bit numbers; the divisor
 * 14     int32        packed 16-bit numbers
 * 15     int32        packed 8-bit numbers
 * 16     int8         runs
 *
 * Every decoder checks the column first, and refuses it by the first of these that applies:
 * - MMTF_COLUMN_SHORT: the column has fewer than 12 bytes.
 * - MMTF_CODEC_UNKNOWN: the codec is none of the sixteen, or not of the kind that the call decodes.
 * - MMTF_HEADER_RANGE: the length is not 0 to 16,777,216, the divisor is below 1, or the size of names is not 1 to 255. A
 *   parameter that the codec does not use is not looked at.
 * - MMTF_PAYLOAD_SIZE: the payload does not exactly fill the length (codecs 1 to 5 and 11), or the number of its bytes is not
 *   a multiple of 8 (runs) or is odd (packed 16-bit numbers).
 * - MMTF_NUMBER_NOT_ALLOWED: the payload has, at any place, a run with a count below 1; a character or a byte of a name that
 *   is not 0 to 127; a byte of a name that is not 0 and follows one that is; a value of codec 16 that is not -128 to 127; or a
 *   packed result that is unfinished at the end, or whose sum goes outside 32 bits at any of its numbers.
 * - MMTF_LENGTH_DIFFERS: the payload has more or fewer results than the length says.
 * - MMTF_NOT_EXACT, by mmtf_decode_float32 only.
 * - MMTF_BUFFER_TOO_SMALL: there are more elements than the buffer has room for. An empty column needs no room.
 *
 * On MMTF_ACCEPTED the buffer begins with the column's elements, *count says how many these are, and every element of the
 * buffer beyond them is as it was. On refusal the buffer and the out parameters are as they were.
 */

/* The bytes of a column's header; the payload follows. */
#define MMTF_HEADER_SIZE 12

/*
 * Reads the header of a column of any kind, so that a program knows which decoder to call and how much room to lend.
 *
 * Answers MMTF_ACCEPTED with the codec, 1 to 16, the length, 0 to 16,777,216, and the parameter: the divisor for codecs 9 to
 * 13, the size of names for codec 5, and 0 for every other codec, whatever stands there. Otherwise the answer is
 * MMTF_COLUMN_SHORT, MMTF_CODEC_UNKNOWN (none of the sixteen), MMTF_HEADER_RANGE or MMTF_PAYLOAD_SIZE, in the order above, and
 * the out parameters are as they were. The numbers of the payload are not looked at.
 */
uint8_t mmtf_header(const uint8_t *column, size_t n, int32_t *codec, int32_t *length, int32_t *parameter);

/* Decodes an int32 column, by codec 4, 7, 8, 14 or 15. The sums of codec 8 wrap modulo 2^32. The room is in integers. */
uint8_t mmtf_decode_int32(const uint8_t *column, size_t n, int32_t *buffer, size_t room, uint64_t *count);

/* Decodes an int8 column, by codec 2 or 16. Each element is -128 to 127, handed over in 32 bits. */
uint8_t mmtf_decode_int8(const uint8_t *column, size_t n, int32_t *buffer, size_t room, uint64_t *count);

/* Decodes an int16 column, by codec 3. Each element is -32,768 to 32,767, handed over in 32 bits. */
uint8_t mmtf_decode_int16(const uint8_t *column, size_t n, int32_t *buffer, size_t room, uint64_t *count);

/* Decodes a column of characters, by codec 6. Each element is a byte, 0 to 127. */
uint8_t mmtf_decode_chars(const uint8_t *column, size_t n, uint8_t *buffer, size_t room, uint64_t *count);

/*
 * Decodes a column of strings, by codec 5: the bytes of the names, one name after the other, each with its 0 bytes at the
 * end. The elements are bytes, so room and *count are in bytes; *count divided by the size is the number of names. The size is
 * the column's parameter, as mmtf_header gives it.
 */
uint8_t mmtf_decode_strings(const uint8_t *column, size_t n, uint8_t *buffer, size_t room, uint64_t *count);

/*
 * Decodes a fixed point column, by codecs 9 to 13: its integers into the buffer, and its divisor, 1 or more, into *divisor.
 * The number that an integer stands for is the integer divided by the divisor; nothing is divided here, so nothing is lost.
 * The sums of codec 10 wrap modulo 2^32. A column of codec 1 is refused with MMTF_CODEC_UNKNOWN here.
 */
uint8_t mmtf_decode_fixed_point(const uint8_t *column, size_t n,
    int32_t *buffer, size_t room, uint64_t *count, int32_t *divisor);

/*
 * Decodes a float32 or a fixed point column, by codec 1 or 9 to 13, to floats of single precision. Each element is the 32
 * bits of a float (IEEE 754 binary32): memcpy makes floats of them.
 *
 * Codec 1 keeps every bit, those of a NaN too. By codecs 9 to 13 each element is one division of an integer by the divisor,
 * rounded to nearest, ties to even. Such a column is refused with MMTF_NOT_EXACT, after MMTF_LENGTH_DIFFERS and before
 * MMTF_BUFFER_TOO_SMALL, if an integer of the column or the divisor is above 16,777,216 in size. An empty column is refused so
 * too, by its divisor.
 */
uint8_t mmtf_decode_float32(const uint8_t *column, size_t n, uint32_t *buffer, size_t room, uint64_t *count);

/* The kinds of a cell. */
enum mmtf_cell_kind {
    MMTF_CELL_INTEGER = 1,   /* a number of an int32, int8 or int16 column, in *integer */
    MMTF_CELL_CHARACTER = 2, /* a character, 0 to 127, in *integer */
    MMTF_CELL_FLOAT = 3      /* a float of a float32 or fixed point column, in *real */
};

/*
 * Asks for the one cell at index, counted from 0, of a column of any kind but strings.
 *
 * Answers MMTF_ACCEPTED with *kind as above and the value in *integer or in *real; the other of the two is as it was.
 * Otherwise no out parameter has changed, and the answer is the first of these that applies:
 * - The column's own number, MMTF_COLUMN_SHORT to MMTF_LENGTH_DIFFERS in the order above, for the whole column.
 * - MMTF_CODEC_UNKNOWN: it is a column of strings.
 * - MMTF_NO_SUCH_ENTRY: the index is not below the column's length.
 * - MMTF_NOT_EXACT: the column is fixed point, and this cell's integer or the divisor is above 16,777,216 in size. The
 *   integers of other cells do not count.
 *
 * A NaN of codec 1 comes as a NaN, but its payload bits are not kept: mmtf_decode_float32 keeps them. Every other float of
 * codec 1 comes with its bits.
 */
uint8_t mmtf_cell(const uint8_t *column, size_t n, uint64_t index, uint8_t *kind, int32_t *integer, float *real);

/*
 * Every encoder writes a column by the codec asked for: the 12 bytes of the header and the payload, with no MessagePack head.
 * Runs are the longest, packing writes the limit of a value's sign as long as what is left reaches it, and a parameter that
 * the codec does not use is 0. What is written is decoded to the same elements, and no payload that is decoded to them by the
 * same codec has fewer bytes. A column that was decoded (by codecs 9 to 13 as integers and divisor) and is encoded again by its
 * codec and with its parameter has no more bytes than before: a buffer of its size is never too small. An encoder refuses by
 * the first of these that applies:
 * - MMTF_CODEC_UNKNOWN: the codec is none of the sixteen, or not of the kind that the call encodes.
 * - MMTF_HEADER_RANGE: there are more than 16,777,216 results (for strings: names), the divisor is below 1, the size of names
 *   is not 1 to 255, or the number of bytes of names is not a multiple of the size.
 * - MMTF_NUMBER_NOT_ALLOWED: there is an element that the codec cannot hold, as each call says.
 * - MMTF_BUFFER_TOO_SMALL: the column has more bytes than the buffer has room for.
 *
 * On MMTF_ACCEPTED the buffer begins with the column, *written says how many bytes the column has, and every byte of the
 * buffer beyond is as it was. On refusal the buffer and *written are as they were.
 */

/* Encodes m integers as an int32 column, by codec 4, 7, 8, 14 or 15. Each of these codecs holds every integer. */
uint8_t mmtf_encode_int32(int32_t codec, const int32_t *values, size_t m, uint8_t *buffer, size_t room, uint64_t *written);

/* Encodes m integers as an int8 column, by codec 2 or 16. MMTF_NUMBER_NOT_ALLOWED: one is not -128 to 127. */
uint8_t mmtf_encode_int8(int32_t codec, const int32_t *values, size_t m, uint8_t *buffer, size_t room, uint64_t *written);

/* Encodes m integers as an int16 column, by codec 3. MMTF_NUMBER_NOT_ALLOWED: one is not -32,768 to 32,767. */
uint8_t mmtf_encode_int16(int32_t codec, const int32_t *values, size_t m, uint8_t *buffer, size_t room, uint64_t *written);

/* Encodes m characters, by codec 6. MMTF_NUMBER_NOT_ALLOWED: one is above 127. */
uint8_t mmtf_encode_chars(int32_t codec, const uint8_t *values, size_t m, uint8_t *buffer, size_t room, uint64_t *written);

/*
 * Encodes names of size bytes each, m bytes in all, one name after the other, by codec 5. MMTF_NUMBER_NOT_ALLOWED: a byte is
 * above 127, or not 0 after a 0 in the same name.
 */
uint8_t mmtf_encode_strings(int32_t codec, int32_t size, const uint8_t *bytes, size_t m,
    uint8_t *buffer, size_t room, uint64_t *written);

/*
 * Encodes m integers and their divisor as a fixed point column, by codecs 9 to 13. MMTF_NUMBER_NOT_ALLOWED: by codec 11, one
 * is not -32,768 to 32,767. The other codecs hold every integer.
 */
uint8_t mmtf_encode_fixed_point(int32_t codec, int32_t divisor, const int32_t *values, size_t m,
    uint8_t *buffer, size_t room, uint64_t *written);

/* Encodes m floats, given as their 32 bits, by codec 1. Codec 1 holds every float, bit for bit. */
uint8_t mmtf_encode_float32(int32_t codec, const uint32_t *bits, size_t m, uint8_t *buffer, size_t room, uint64_t *written);

/*
 * Hands over the matrix of a transform of the file of n bytes. The assembly is that with this number in bioAssemblyList, and
 * the transform that with this number in its transformList, both counted from 0.
 *
 * Answers MMTF_ACCEPTED with the 16 floats by rows: rows[0] has the first four, and the translation is rows[0][3], rows[1][3],
 * rows[2][3]. Each float comes with its bits, but for a NaN, which comes as some NaN. Otherwise the rows are as they were, and
 * the answer is the first of these that applies:
 * - The container's number, 1 to 11.
 * - MMTF_NO_SUCH_FIELD: there is no bioAssemblyList.
 * - MMTF_FIELD_TYPE: bioAssemblyList is not of its type, at any place in it, whichever transform is asked for. No other field
 *   is judged, and the chains of a transform are not compared with those of the file.
 * - MMTF_NO_SUCH_ENTRY: there is no assembly of that number, or it has no transform of that number.
 */
uint8_t mmtf_matrix(const uint8_t *file, size_t n, uint64_t assembly, uint64_t transform, float rows[4][4]);

/*
 * Receipts. A receipt is ten lines of text in this order, with nothing before and nothing after. A line is its name, an
 * equals sign, a number in decimal digits without leading zeros, and one line feed; the last line has it too.
 *
 * line       number
 * station    1 to 99
 * job        1 to 999,999
 * verdict    0 to 24, the number that mmtf_verdict gives for the file
 * models     numModels of the file, 0 to 16,777,216
 * chains     numChains, likewise
 * groups     numGroups, likewise
 * atoms      numAtoms, likewise
 * bonds      numBonds, likewise
 * fields     how many of the 39 named fields are in the file, 16 to 39
 * units      1
 *
 * These are the numbers with verdict 0. With any other verdict every line below it is 0: a refused file costs no unit.
 */

/* The places of the numbers that mmtf_read_receipt hands over. */
enum mmtf_receipt_number {
    MMTF_RECEIPT_STATION = 0,
    MMTF_RECEIPT_JOB = 1,
    MMTF_RECEIPT_VERDICT = 2,
    MMTF_RECEIPT_MODELS = 3,
    MMTF_RECEIPT_CHAINS = 4,
    MMTF_RECEIPT_GROUPS = 5,
    MMTF_RECEIPT_ATOMS = 6,
    MMTF_RECEIPT_BONDS = 7,
    MMTF_RECEIPT_FIELDS = 8,
    MMTF_RECEIPT_UNITS = 9
};

/* How many numbers a receipt has. */
#define MMTF_RECEIPT_NUMBERS 10

/* The bytes of the longest receipt. A buffer with this room is never too small. */
#define MMTF_RECEIPT_ROOM 128

/*
 * Writes the receipt of the file of n bytes, for a station and its job.
 *
 * Answers MMTF_ACCEPTED with the receipt at the buffer's start and the number of its bytes in *written; every byte of the
 * buffer beyond is as it was, and no end mark is written. A refused file gets its receipt too, and a file of more than
 * 67,108,864 bytes gets one with verdict 1. So this answer says nothing about the file: the receipt's verdict does. Otherwise
 * the buffer and *written are as they were, and the answer is the first of these that applies:
 * - MMTF_RECEIPT_MALFORMED: the station is not 1 to 99, or the job is not 1 to 999,999.
 * - MMTF_BUFFER_TOO_SMALL: the receipt has more bytes than the buffer has room for.
 */
uint8_t mmtf_write_receipt(uint32_t station, uint32_t job, const uint8_t *file, size_t n,
    uint8_t *buffer, size_t room, uint64_t *written);

/*
 * Reads the n bytes as one receipt.
 *
 * Answers MMTF_ACCEPTED, with its ten numbers in the order of the lines, exactly when the bytes are a receipt by the rules
 * above. Otherwise it answers MMTF_RECEIPT_MALFORMED, and the numbers are as they were. No file is looked at, so it is not
 * asked whether there is one with these counts.
 */
uint8_t mmtf_read_receipt(const uint8_t *bytes, size_t n, uint32_t numbers[MMTF_RECEIPT_NUMBERS]);

/*
 * Bills. A run of receipts is the bytes of receipts, one directly after another; no bytes at all are a run of no receipts. It
 * has a bill if the jobs of each station rise: the job of a receipt is above that of the last receipt of the same station
 * before it, whatever their verdicts. Receipts of other stations may stand between the two.
 *
 * The lines of a bill are written as those of a receipt, again with nothing before and nothing after. Each station that has a
 * receipt in the run has three lines, the stations rising by their numbers, and the total is the last line.
 *
 * line       number
 * station    1 to 99
 * accepted   how many of the station's receipts have verdict 0
 * refused    how many of them have another verdict
 * total      how many receipts of all stations have verdict 0
 *
 * A run with receipts of station 7, job 12, verdict 0; station 5, job 31, verdict 0; and station 5, job 32, verdict 3 has this
 * bill:
 *
 *     station=5
 *     accepted=1
 *     refused=1
 *     station=7
 *     accepted=1
 *     refused=0
 *     total=2
 */

/* 46 bytes for each of the 99 stations, and 13 for the total. A buffer with this room is never too small for a bill. */
#define MMTF_BILL_ROOM 4567

/*
 * Writes the bill of the run of receipts of n bytes.
 *
 * Answers MMTF_ACCEPTED with the bill at the buffer's start and the number of its bytes in *written; every byte of the buffer
 * beyond is as it was, and no end mark is written. The bill of no receipts is the line total=0 alone. Otherwise the buffer and
 * *written are as they were, and the answer is the first of these that applies:
 * - MMTF_FILE_OVER_LIMIT: there are more than 67,108,864 bytes.
 * - The number of the first receipt at fault, receipt by receipt from the first byte on: MMTF_RECEIPT_MALFORMED if the bytes
 *   there do not begin with a receipt by the rules above, and otherwise MMTF_JOB_NOT_RISING if its job is not above that of
 *   the last receipt of its station before it.
 * - MMTF_BUFFER_TOO_SMALL: the bill has more bytes than the buffer has room for.
 *
 * No file is looked at. A station's accepted jobs are the units of its receipts added up, since a receipt has a unit exactly
 * when its verdict is 0.
 */
uint8_t mmtf_bill(const uint8_t *receipts, size_t n, uint8_t *buffer, size_t room, uint64_t *written);

#ifdef __cplusplus
}
#endif

#endif
