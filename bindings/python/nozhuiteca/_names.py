"""The names of the fields by the type of their values, for type checkers. The tests hold them to the values."""

from __future__ import annotations

from typing import Literal

TextName = Literal[
    "mmtfVersion", "mmtfProducer", "title", "structureId", "spaceGroup", "depositionDate", "releaseDate",
]
IntegerName = Literal["numBonds", "numAtoms", "numGroups", "numChains", "numModels"]
FloatName = Literal["resolution", "rFree", "rWork"]
IntegersName = Literal[
    "groupIdList", "groupTypeList", "bondAtomList", "bondOrderList", "atomIdList", "secStructList", "sequenceIdList",
]
FloatsName = Literal["xCoordList", "yCoordList", "zCoordList", "bFactorList", "occupancyList"]
StringsName = Literal["chainIdList", "chainNameList", "altLocList", "insCodeList", "experimentalMethods"]
IntegerListName = Literal["groupsPerChain", "chainsPerModel"]
FloatListName = Literal["unitCell"]
FloatListsName = Literal["ncsOperatorList"]
MapsName = Literal["groupList", "bioAssemblyList", "entityList"]
