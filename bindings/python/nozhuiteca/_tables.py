"""What the package repeats of include/mmtf.h: the fields, the codecs and the limits. The tests hold each to the header."""

from __future__ import annotations

# The named fields in their order, each with the kind of its value: that of a column, "text", or "value" for any other.
FIELDS = {
    "mmtfVersion": "text", "mmtfProducer": "text", "numBonds": "value", "numAtoms": "value", "numGroups": "value",
    "numChains": "value", "numModels": "value", "groupList": "value", "xCoordList": "float32", "yCoordList": "float32",
    "zCoordList": "float32", "groupIdList": "int32", "groupTypeList": "int32", "chainIdList": "strings",
    "groupsPerChain": "value", "chainsPerModel": "value", "bondAtomList": "int32", "bondOrderList": "int8",
    "bFactorList": "float32", "atomIdList": "int32", "altLocList": "chars", "occupancyList": "float32",
    "secStructList": "int8", "insCodeList": "chars", "sequenceIdList": "int32", "chainNameList": "strings",
    "title": "text", "structureId": "text", "spaceGroup": "text", "depositionDate": "text", "releaseDate": "text",
    "resolution": "value", "rFree": "value", "rWork": "value", "unitCell": "value", "experimentalMethods": "value",
    "ncsOperatorList": "value", "bioAssemblyList": "value", "entityList": "value",
}

# The kind of each codec, as it is decoded with nothing lost.
CODECS = {
    1: "float32", 2: "int8", 3: "int16", 4: "int32", 5: "strings", 6: "chars", 7: "int32", 8: "int32",
    9: "fixed_point", 10: "fixed_point", 11: "fixed_point", 12: "fixed_point", 13: "fixed_point",
    14: "int32", 15: "int32", 16: "int8",
}

# Bytes of a file, results of a column, bytes of a column's header, and room for the longest receipt, bill and meaning.
FILE_LIMIT = 67_108_864
LENGTH_LIMIT = 16_777_216
HEADER_SIZE = 12
RECEIPT_ROOM = 128
BILL_ROOM = 4_567
MEANING_ROOM = 64

# The kinds of a cell that are no integer.
CELL_CHARACTER = 2
CELL_FLOAT = 3
