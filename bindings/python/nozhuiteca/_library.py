"""The shared library: where it is, its version, and the parameters of its calls."""

from __future__ import annotations

import ctypes
import os
import pathlib

# The version of the package, which is that of the library it takes.
VERSION = "0.10.0"

_BYTES, _SIZE = ctypes.c_void_p, ctypes.c_size_t
_COUNT, _INTEGER = ctypes.POINTER(ctypes.c_uint64), ctypes.c_int32
_DECODER = (_BYTES, _SIZE, _BYTES, _SIZE, _COUNT)
_ELEMENTS = (_BYTES, _SIZE, _BYTES, _SIZE, _COUNT)

# The parameters of every call of include/mmtf.h that answers a refusal number, which is every call but that of the version.
CALLS = {
    "mmtf_container": (_BYTES, _SIZE),
    "mmtf_verdict": (_BYTES, _SIZE),
    "mmtf_fields": (_BYTES, _SIZE, _COUNT, _COUNT, _COUNT, _SIZE),
    "mmtf_view": (_BYTES, _SIZE, _BYTES, _SIZE, _COUNT, _COUNT),
    "mmtf_decode_int32": _DECODER,
    "mmtf_decode_int8": _DECODER,
    "mmtf_decode_int16": _DECODER,
    "mmtf_decode_chars": _DECODER,
    "mmtf_decode_strings": _DECODER,
    "mmtf_decode_fixed_point": (*_DECODER, ctypes.POINTER(_INTEGER)),
    "mmtf_decode_float32": _DECODER,
    "mmtf_header": (_BYTES, _SIZE, ctypes.POINTER(_INTEGER), ctypes.POINTER(_INTEGER), ctypes.POINTER(_INTEGER)),
    "mmtf_cell": (_BYTES, _SIZE, ctypes.c_uint64, ctypes.POINTER(ctypes.c_uint8), ctypes.POINTER(_INTEGER),
                  ctypes.POINTER(ctypes.c_float)),
    "mmtf_encode_int32": (_INTEGER, *_ELEMENTS),
    "mmtf_encode_int8": (_INTEGER, *_ELEMENTS),
    "mmtf_encode_int16": (_INTEGER, *_ELEMENTS),
    "mmtf_encode_chars": (_INTEGER, *_ELEMENTS),
    "mmtf_encode_strings": (_INTEGER, _INTEGER, *_ELEMENTS),
    "mmtf_encode_fixed_point": (_INTEGER, _INTEGER, *_ELEMENTS),
    "mmtf_encode_float32": (_INTEGER, *_ELEMENTS),
    "mmtf_matrix": (_BYTES, _SIZE, ctypes.c_uint64, ctypes.c_uint64, ctypes.POINTER(ctypes.c_float * 4)),
    "mmtf_write_receipt": (ctypes.c_uint32, ctypes.c_uint32, _BYTES, _SIZE, _BYTES, _SIZE, _COUNT),
    "mmtf_read_receipt": (_BYTES, _SIZE, ctypes.POINTER(ctypes.c_uint32)),
    "mmtf_bill": (_BYTES, _SIZE, _BYTES, _SIZE, _COUNT),
    "mmtf_meaning": (ctypes.c_uint8, _BYTES, _SIZE, _COUNT),
}


def _path() -> pathlib.Path:
    """Where the shared library is: as NOZHUITECA_LIBRARY says, else in the package."""
    named = os.environ.get("NOZHUITECA_LIBRARY")
    path = pathlib.Path(named) if named else pathlib.Path(__file__).resolve().parent / "libmmtf.so"
    if not path.is_file():
        raise ImportError(f"There is no {path}: an installed package has it, and NOZHUITECA_LIBRARY may name another.")
    return path


def _load(loader: type[ctypes.CDLL]) -> ctypes.CDLL:
    """The library, with the parameters of its calls told. One of another version is not taken."""
    library = loader(str(_path()))
    library.mmtf_version.argtypes = ()
    library.mmtf_version.restype = ctypes.c_uint32
    number = library.mmtf_version()
    version = f"{number // 10000}.{number // 100 % 100}.{number % 100}"
    if version != VERSION:
        raise ImportError(f"{_path()} is of version {version}, and the package of version {VERSION}.")
    for name, parameters in CALLS.items():
        call = getattr(library, name)
        call.argtypes = parameters
        call.restype = ctypes.c_uint8
    return library


# The same library twice: other threads run on while the first is called, and wait while the second is.
library = _load(ctypes.CDLL)
library_with_lock = _load(ctypes.PyDLL)
