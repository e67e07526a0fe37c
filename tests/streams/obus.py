"""IVF files, the OBUs in them, and FFmpeg's reading of each OBU."""

import re
import subprocess
from typing import NamedTuple

SEQUENCE_HEADER = 1

LINE = re.compile(r"\[trace_headers @ \w+\] (.*)")
FIELD = re.compile(r"(\d+) +(\S+) +([01]*) ?= (-?\d+)$")


class Field(NamedTuple):
    place: int  # from the OBU's first bit
    width: int
    name: str
    value: int


class Obu(NamedTuple):
    data: bytes
    fields: list

    def type(self):
        return self.data[0] >> 3 & 15

    def values(self):
        return {field.name: field.value for field in self.fields}


def leb128(data, place):
    """The number at a byte place, and the place behind it."""
    value = 0
    for i in range(8):
        value |= (data[place + i] & 127) << 7 * i
        if data[place + i] < 128:
            return value, place + i + 1
    raise ValueError("a size of more than eight bytes")


def bits_of(data):
    return "".join(format(byte, "08b") for byte in data)


def packets(path):
    """The packets of an IVF file."""
    data = path.read_bytes()
    assert data[:4] == b"DKIF", path
    place = int.from_bytes(data[6:8], "little")
    found = []
    while place < len(data):
        size = int.from_bytes(data[place:place + 4], "little")
        found.append(data[place + 12:place + 12 + size])
        place += 12 + size
    return found


def split(packet):
    """The OBUs of a packet. One without a size field is the packet's last."""
    found, place = [], 0
    while place < len(packet):
        extension, has_size = packet[place] & 4, packet[place] & 2
        end = len(packet)
        if has_size:
            size, body = leb128(packet, place + (2 if extension else 1))
            end = body + size
        found.append(packet[place:end])
        place = end
    return found


def trace(path):
    """What FFmpeg prints of an IVF file: for each packet its size, and for each OBU of it the printed lines."""
    command = ["ffmpeg", "-hide_banner", "-nostdin", "-i", path.name, "-c", "copy", "-copyinkf", "-bsf:v", "trace_headers", "-f", "null", "-"]
    run = subprocess.run(command, cwd=path.parent, capture_output=True, text=True, check=True)
    found = []
    for line in filter(None, map(LINE.match, run.stderr.splitlines())):
        text = line[1]
        if text.startswith("Packet:"):
            found.append((int(text.split()[1]), []))
        elif found and text == "OBU header":
            found[-1][1].append([])
        elif found and FIELD.match(text):
            found[-1][1][-1].append(FIELD.match(text).groups())
    return found


def fields(printed, bits):
    """The fields of an OBU as printed, each held against the OBU's bits. A leb128 number becomes one field."""
    found, size_bits = [], 0
    for place, name, code, value in printed:
        place = int(place)
        assert bits.startswith(code, place), f"{name} at {place} is not {code}"
        if name.startswith("leb128_byte"):
            size_bits += 8
            continue
        found.append(Field(place, size_bits or len(code), name, int(value)))
        size_bits = 0
    return found


def read(path):
    """The OBUs of an IVF file in order, with FFmpeg's fields."""
    found = []
    stored, traced = packets(path), trace(path)
    assert [len(packet) for packet in stored] == [size for size, _ in traced], f"{path.name}: FFmpeg saw other packets"
    for packet, (_, printed) in zip(stored, traced):
        obus = split(packet)
        assert len(obus) == len(printed), f"{path.name}: FFmpeg saw other OBUs"
        found += [Obu(data, fields(lines, bits_of(data))) for data, lines in zip(obus, printed)]
    return found
