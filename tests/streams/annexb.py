#!/usr/bin/env python3
"""Puts the OBUs of an Annex B stream, which have no size fields, into an IVF file, one to a packet, without the temporal
delimiters: annexb.py IN.obu OUT.ivf"""

import pathlib
import struct
import sys

from obus import leb128

TEMPORAL_DELIMITER = 2


def units(data):
    """The parts of a run of parts, each with its length before it."""
    place = 0
    while place < len(data):
        size, place = leb128(data, place)
        yield data[place:place + size]
        place += size


def main():
    stream = pathlib.Path(sys.argv[1]).read_bytes()
    found = [obu for temporal_unit in units(stream) for frame_unit in units(temporal_unit) for obu in units(frame_unit)]
    found = [obu for obu in found if obu[0] >> 3 != TEMPORAL_DELIMITER]
    header = struct.pack("<4sHH4sHHIIII", b"DKIF", 0, 32, b"AV01", 0, 0, 25, 1, len(found), 0)
    packets = [struct.pack("<IQ", len(obu), number) + obu for number, obu in enumerate(found)]
    pathlib.Path(sys.argv[2]).write_bytes(header + b"".join(packets))


main()
