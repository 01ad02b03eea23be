"""Writes a derived structure file as it is published: the floats of bioAssemblyList and ncsOperatorList in 64 bits.

Reads standard input, writes standard output.
"""
import sys

WIDE = ("bioAssemblyList", "ncsOperatorList")

try:
    import msgpack
except ImportError as missing:
    sys.exit(f"The file cannot be written as published: {missing}.")

value = msgpack.unpackb(sys.stdin.buffer.read(), raw=False)
packer = msgpack.Packer(use_bin_type=True)
sys.stdout.buffer.write(packer.pack_map_header(len(value)))
for key, field in value.items():
    sys.stdout.buffer.write(packer.pack(key))
    narrow = key not in WIDE
    sys.stdout.buffer.write(msgpack.packb(field, use_bin_type=True, use_single_float=narrow))
