"""The work of mmtf-python on files: the container unpacked by msgpack, all columns decoded.

Prints for each file its name and the best time in nanoseconds, in one process: the files are read and each is decoded
once before times are taken.
"""
import os
import sys
import time

LEAST_ROUNDS = 5
LONGEST = 3.0  # seconds for one file


def decode(data):
    unpacked = msgpack.unpackb(data, raw=False)
    decoder = MMTFDecoder()
    decoder.decode_data(unpacked)
    return decoder


def best_time(data):
    best = None
    begin = time.perf_counter()
    rounds = 0
    while rounds < LEAST_ROUNDS or time.perf_counter() - begin < LONGEST / 3:
        if time.perf_counter() - begin > LONGEST:
            break
        start = time.perf_counter_ns()
        decode(data)
        taken = time.perf_counter_ns() - start
        best = taken if best is None else min(best, taken)
        rounds += 1
    return best


def main(paths):
    for path in paths:
        with open(path, "rb") as file:
            data = file.read()
        name = os.path.basename(path).removesuffix(".mmtf")
        atoms = len(decode(data).x_coord_list)
        if atoms == 0:
            sys.exit(f"mmtf-python finds no atom in {path}.")
        print(name, best_time(data), atoms, sep="\t")


try:
    import msgpack
    from mmtf.api.mmtf_reader import MMTFDecoder
except ImportError as missing:
    sys.exit(f"mmtf-python cannot be loaded: {missing}.")
try:
    main(sys.argv[1:])
except OSError as error:
    sys.exit(f"{error.filename} cannot be read: {error.strerror}.")
except Exception as error:  # whatever the package raises becomes a sentence
    sys.exit(f"mmtf-python fails: {type(error).__name__}: {error}.")
