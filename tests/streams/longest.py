#!/usr/bin/env python3
"""FFmpeg's reading of the longest sequence header (tests/vectors/room.txt): tests/streams/longest.py SCRATCH writes it to longest.txt.
Its cases are made from what FFmpeg read, and the first must be the stored line.
"""

import pathlib
import sys

import obus
import sequence

HERE = pathlib.Path(__file__).resolve().parent
VECTORS = HERE.parent / "vectors"
DELIMITER = bytes([0x12, 0])


def stored():
    """The numbers of the longest record, and its bytes."""
    line = next(line for line in (VECTORS / "room.txt").read_text().splitlines() if line.startswith("seq "))
    answer = (VECTORS / "room.answers").read_text().split("\n", 1)[0]
    return line.partition(";")[0].split()[1:], bytes.fromhex(answer.split()[2])


def ivf(packet):
    """An IVF file of one packet. (FFmpeg takes its size of the picture from here: the header has another.)"""
    head = b"DKIF" + bytes([0, 0, 32, 0]) + b"AV01" + bytes([64, 0, 64, 0, 30, 0, 0, 0, 1, 0, 0, 0, 1, 0, 0, 0, 0, 0, 0, 0])
    return head + len(packet).to_bytes(4, "little") + bytes(8) + packet


def cases():
    """The cases, each with its answer, of the header as longest.txt has it."""
    data, *rows = [line for line in (HERE / "longest.txt").read_text().splitlines() if line and not line.startswith("#")]
    fields = [obus.Field(int(place), int(width), name, int(value)) for place, width, name, value in map(str.split, rows)]
    lines = sequence.cases(obus.Obu(bytes.fromhex(data), fields))
    numbers, bytes_ = stored()
    assert lines[0].partition(";")[0].split()[1:] == numbers, "FFmpeg read another record than the longest"
    assert bytes.fromhex(data) == bytes_, "these are other bytes than the stored ones"
    return list(zip(lines[::2], lines[1::2], strict=True))


def main():
    path = pathlib.Path(sys.argv[1]) / "longest.ivf"
    path.parent.mkdir(parents=True, exist_ok=True)
    path.write_bytes(ivf(DELIMITER + stored()[1]))
    header = next(obu for obu in obus.read(path) if obu.type() == obus.SEQUENCE_HEADER)
    head = "# The longest sequence header (tests/vectors/room.txt) as FFmpeg reads it: place, width, name, value. Made by longest.py."
    (HERE / "longest.txt").write_text("\n".join([head] + sequence.reading(header)) + "\n")
    cases()


if __name__ == "__main__":
    main()
