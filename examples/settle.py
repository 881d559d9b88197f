"""A year with one plant and one interval, from Python, over the shared library that README.md makes of the archive:

python3 examples/settle.py ./libnpa.so
"""

import ctypes
import struct
import sys

BYTES = ctypes.POINTER(ctypes.c_ubyte)


def load(path):
    """The module, with its calls declared as include/npa.h has them."""
    npa = ctypes.CDLL(path)
    npa.npa_open.argtypes = [BYTES, ctypes.c_size_t] * 2
    npa.npa_open.restype = ctypes.c_uint32
    npa.npa_settle.argtypes = [BYTES, ctypes.c_size_t] * 3
    npa.npa_settle.restype = ctypes.c_uint32
    return npa


def call(function, *buffers):
    """Lends the buffers, each a bytearray with its length; a bytearray is never null, and no two overlap."""
    lent = []
    for buffer in buffers:
        # from_buffer takes no empty bytearray: one byte then stands for the pointer.
        held = (ctypes.c_ubyte * max(1, len(buffer))).from_buffer(buffer or bytearray(1))
        lent += [held, len(buffer)]
    answer = function(*lent)
    if answer != 0:
        raise ValueError(f"refused on ground {answer}")


def words(*values):
    """Words of 32 bits as bytes, lowest first."""
    return bytearray(struct.pack(f"<{len(values)}I", *(value % 2**32 for value in values)))


def main():
    npa = load(sys.argv[1])
    # Net CONE 30000, 365 days, plant 11.
    block = words(1, 30000, 365, 1, 20, 11)
    # Interval 1000: plant 11, a demand resource (kind 1), committed to 5000 kW, metered 4000 kW.
    file = words(1, 1000, 30000, 365, 0, 0, 1, 40, 0, 40, 11, 1, 5000, 0, 4000, *[0] * 9)
    ledger = bytearray(64 + 32)
    result = bytearray(64 + 64)
    call(npa.npa_open, block, ledger)
    call(npa.npa_settle, ledger, file, result)
    (charge,) = struct.unpack_from("<Q", result, 64 + 8 * 6)
    print(f"charge of {charge} cents")


if __name__ == "__main__":
    try:
        main()
    except ValueError as refusal:
        sys.exit(str(refusal))
