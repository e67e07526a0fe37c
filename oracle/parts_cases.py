#!/usr/bin/env python3
"""Makes case lines of the readers of the five parts: parts that the writer accepts, at any place; other spellings of them that the standard allows; inputs that
end at each bit and at each byte of a part; places around the input's end; random bits in every context. Each case has the answer that it must get, worked out
from the record that was written and by no reader; only random bits have none. The same seed gives the same cases.

    oracle/parts_cases.py [SEED [SCALE]] > cases      (SCALE 1: the whole run; 0.01: a short one)
"""
import sys
from itertools import cycle, islice, product
from typing import NamedTuple

from cases import Maker
from lines import CONTEXT, FIELDS, RECORD, Record, altered, answer_line, numbers
from model import WALKS, Writer, holds, stored

ENDS, LONG = "4 0 0", "8 0 0"
KINDS = {
    "back": "as our writer writes them",
    "spelled": "in any spelling",
    "bit": "the input ends at each bit in turn",
    "byte": "the input is cut at each byte",
    "place": "the place is at the input's end or beyond",
    "long": "inputs of 65,536 and 65,537 bytes",
    "random": "random bits in every context",
    "given": "given",
}


class Case(NamedTuple):
    kind: str
    line: str
    must: str | None


# What is read of a part that was written: coded fields as they are, others 0, inferred, or as they were before.
def quant(p):
    used = p.using_qmatrix
    return altered(p, diff_uv_delta=0 if p.planes == 1 else p.diff_uv_delta, qm_y=used and p.qm_y, qm_u=used and p.qm_u, qm_v=used and p.qm_v)


def seg(p):
    on, update_map, data = p.segmentation_enabled, p.segmentation_update_map, p.segmentation_update_data
    coded = [int(on and data and enabled) for enabled in p.feature_enabled]
    return altered(p, segmentation_update_map=on and update_map, segmentation_temporal_update=on and update_map and p.segmentation_temporal_update,
                   segmentation_update_data=on and data, feature_enabled=coded,
                   feature_data=[clipped(i % 8, v) if coded[i] else 0 for i, v in enumerate(p.feature_data)])


def clipped(j, v):
    least, most = ((-255, 255), (-63, 63), (-63, 63), (-63, 63), (-63, 63), (0, 7), (0, 0), (0, 0))[j]
    return least if v < least else most if v > most else v


def lf(p):
    if p.coded_lossless or p.allow_intrabc:
        return altered(p, loop_filter_level=[0] * 4, loop_filter_sharpness=0, loop_filter_delta_enabled=0, loop_filter_delta_update=0)
    levels = 2 if p.planes == 1 or p.loop_filter_level[:2] == [0, 0] else 4
    p = altered(p, loop_filter_level=filled(p.loop_filter_level[:levels], 4))
    if p.loop_filter_delta_enabled and p.loop_filter_delta_update:
        return p
    return altered(p, loop_filter_delta_update=0, loop_filter_ref_deltas=p.previous_ref_deltas, loop_filter_mode_deltas=p.previous_mode_deltas)


def cdef(p):
    places = 0 if p.coded_lossless or p.allow_intrabc or not p.enable_cdef else 2**p.cdef_bits
    coded = {"y": places, "uv": 0 if p.planes == 1 else places}
    names = [(f"cdef_{part}_{kind}_strength", n) for part, n in coded.items() for kind in ("pri", "sec")]
    return altered(p, **{name: filled(getattr(p, name)[:n], 8) for name, n in names})


def lr(p):
    on = 0 if p.all_lossless or p.allow_intrabc else p.enable_restoration
    used = on and p.uses_lr
    return altered(p, frame_restoration_type=filled(p.frame_restoration_type[: 1 if p.planes == 1 else 3], 3), uses_chroma_lr=on and p.uses_chroma_lr,
                   lr_unit_shift=used and p.lr_unit_shift, lr_uv_shift=used and p.lr_uv_shift)


def filled(values, n):
    return values + [0] * (n - len(values))


BACK = {"quant": quant, "seg": seg, "lf": lf, "cdef": cdef, "lr": lr}


def done(word, p, end):
    return answer_line([0, end, *numbers(BACK[word](p), RECORD[word])])


class Otherwise(Writer):
    """Spells as the standard allows and our writer does not, at random: a delta of zero behind a flag of 1, a delta that stands as a flag of 0, the least
    code of a signed feature."""

    def __init__(self, draw, p):
        super().__init__()
        self.draw, self.p = draw, p

    def delta_q(self, v, element):
        if v == 0 and self.draw.flag():
            self.put(8, 128)
        else:
            super().delta_q(v, element)

    def loop_filter_delta(self, v, element, i):
        stands = v == getattr(self.p, element.replace("loop_filter", "previous"))[i]
        if stands and (self.draw.flag() or not holds(7, v)):
            self.flag(0)
        else:
            super().loop_filter_delta(v, element, i)

    def feature(self, enabled, value, j):
        n = 9 if j == 0 else 7
        if enabled and j < 5 and value <= -(2 ** (n - 1)):
            self.flag(1)
            self.put(n, 2 ** (n - 1))
        else:
            super().feature(enabled, value, j)


class Readings(Maker):
    def after(self, p):
        """With any deltas before it, which only the loop filter looks at."""
        p.previous_ref_deltas, p.previous_mode_deltas = ([self.any("i8") for _ in range(n)] for n in (8, 2))
        return p

    # (a record, its bits, how many they are)
    def ours(self, word):
        """A record that our writer accepts, as it writes it."""
        p = self.after(getattr(self, word)())
        return p, *bits(word, p, Writer())

    def freely(self, word):
        """One in any spelling; of the loop filter, one with deltas that stand."""
        p = self.after(getattr(self, word)())
        if word == "lf" and not (p.coded_lossless or p.allow_intrabc):
            p.loop_filter_delta_enabled = p.loop_filter_delta_update = 1
            p.loop_filter_ref_deltas = [self.choice((old, self.delta())) for old in p.previous_ref_deltas]
            p.loop_filter_mode_deltas = [self.choice((old, self.delta())) for old in p.previous_mode_deltas]
        return p, *bits(word, p, Otherwise(self, p))

    def either(self, word):
        return self.choice((self.ours, self.freely))(word)

    def around(self, value, count, place, length):
        """The bits at a place of so many bytes, random ones around them; where the bytes end, they are cut."""
        enough = max(length, -(-(place + count) // 8))
        return stored(self.randbytes(enough), place, value, count)[:length]

    def case(self, kind, word, p, data, place, must):
        given = [self.set_flag() if v and field[1] == "b" else v for field in FIELDS["r" + word] for v in numbers(p, [field])]
        settings = [f"in={data.hex().upper()}"] * bool(data or self.flag()) + [f"place={place}"] * bool(place or self.rare(8))
        behind = " ;" + "".join(" " + setting for setting in self.sample(settings, len(settings))) if settings else ""
        return Case(kind, " ".join(["r" + word, *map(str, given)]) + behind, must)

    def set_flag(self):
        return self.choice((2, -1, 2**32)) if self.rare(20) else 1


def bits(word, p, walk):
    getattr(walk, WALKS[word])(p)
    return walk.value, walk.count


def whole(maker, word, kind, spell, n):
    """Parts at any place, with and without bytes behind them."""
    for _ in range(n):
        p, value, count = spell(word)
        place = maker.choice((0, maker.randrange(8), maker.randrange(16), maker.randrange(200)))
        data = maker.around(value, count, place, -(-(place + count) // 8) + maker.choice((0, 0, 0, 1, 2, 9)))
        yield maker.case(kind, word, p, data, place, done(word, p, place + count))


def ends(maker, word, n):
    """Inputs that end before each bit of a part in turn, right behind it and up to eight bits later; and inputs cut at every byte."""
    for _ in range(n):
        p, value, count = maker.either(word)
        for room in range(count + 9):
            place = -room % 8 + 8 * maker.rare(3)
            data = maker.around(value, count, place, (place + room) // 8)
            yield maker.case("bit", word, p, data, place, ENDS if room < count else done(word, p, place + count))
        place = maker.randrange(16)
        for length in range(-(-(place + count) // 8)):
            yield maker.case("byte", word, p, maker.around(value, count, place, length), place, ENDS)


def places(maker, word, n):
    """Places at the input's end and beyond it."""
    for _ in range(n):
        p, _, count = maker.either(word)
        for length in (0, 0, 1, 2, 5, 60):
            for place in (8 * length, 8 * length + 1, 8 * length + maker.randrange(2, 99), 2**31, 2**32 - 1):
                must = done(word, p, place) if place == 8 * length and count == 0 else ENDS
                yield maker.case("place", word, p, maker.randbytes(length), place, must)


def longest(maker, word):
    """The longest input and one that is too long; a part at the end, one bit and one byte before it, with its last bit behind it, and all behind it."""
    for length, room in product((65536, 65537), (0, 1, 8, -1, -999)):
        p, value, count = maker.either(word)
        place = 8 * length - count - room
        must = LONG if length > 65536 else ENDS if room < 0 else done(word, p, place + count)
        yield maker.case("long", word, p, maker.around(value, count, place, length), place, must)


VALUES = {"planes": (0, 1, 2, 3, 2**32 - 1), "primary_ref_frame": (*range(9), 2**32 - 1)}


def contexts(word):
    """Every context: each flag either way, each number of planes, each primary reference."""
    names = [name for name, _, _, _ in FIELDS[word][: CONTEXT[word]]]
    for values in product(*(VALUES.get(name, (0, 1)) for name in names)):
        p = Record()
        vars(p).update(zip(names, values))
        yield p


def anything(maker, word, n):
    """Random bits at each place 0 to 15, n times, in every context that n has room for."""
    every = list(contexts(word))
    for place in range(16):
        maker.shuffle(every)
        for p in islice(cycle(every), n):
            data = maker.randbytes(maker.choice((1, 2, 3, 6, 12, 20, 60)))
            data = maker.choice((data, data, data, b"\xff" * len(data), bytes(len(data))))
            yield maker.case("random", word, maker.after(p), data, place, None)


# How many of each the whole run has: parts as we write them, parts in any spelling, records for ends, records for places, random bits at a place.
PLAN = {
    "quant": (21000, 4000, 80, 20, 240),
    "seg": (21000, 4000, 15, 20, 120),
    "lf": (21000, 4000, 40, 20, 240),
    "cdef": (21000, 0, 40, 20, 240),
    "lr": (21000, 0, 200, 20, 320),
}


def make(seed=1, scale=1.0):
    """The cases of a run."""
    for word, counts in PLAN.items():
        maker = Readings(f"{seed} r{word}")
        back, spelled, cut, placed, random = (max(min(1, n), round(n * scale)) for n in counts)
        yield from whole(maker, word, "back", maker.ours, back)
        yield from whole(maker, word, "spelled", maker.freely, spelled)
        yield from ends(maker, word, cut)
        yield from places(maker, word, placed)
        yield from longest(maker, word)
        yield from anything(maker, word, random)


if __name__ == "__main__":
    for case in make(sys.argv[1] if len(sys.argv) > 1 else 1, float(sys.argv[2]) if len(sys.argv) > 2 else 1.0):
        print(case.line)
