#!/usr/bin/env python3
"""Finds which of the headers that this library writes a player refuses, and that each is one of docs/DIFFERENCES.md, rows 17, 32 and 33.

    cc oracle/player.c -ldav1d -o target/oracle/player
    oracle/players.py --player target/oracle/player --ours './run replay' [--seed N] [--scale F]
"""
import argparse
import collections
import sys

import cases
import lines as syntax
from compare import run


def rules(h):
    """The rows whose conformance demand the record does not meet."""
    layers = [] if h.reduced_still_picture_header else [p.operating_point_idc for p in h.points[: h.operating_points_cnt_minus_1 + 1]]
    srgb = (h.color_primaries, h.transfer_characteristics, h.matrix_coefficients) == (1, 13, 0) and not h.mono_chrome
    full_chroma = h.seq_profile == 1 or (h.seq_profile == 2 and h.twelve_bit)
    return tuple(
        row
        for row, broken in (
            (17, h.reduced_still_picture_header and not h.still_picture),
            (32, any(idc and not (idc & 0xFF and idc & 0xF00) for idc in layers)),
            (33, srgb and not full_chroma),
        )
        if broken
    )


def main():
    options = argparse.ArgumentParser()
    options.add_argument("--player", required=True)
    options.add_argument("--ours", required=True)
    options.add_argument("--seed", default="1")
    options.add_argument("--scale", type=float, default=0.2)
    options = options.parse_args()
    tries = [line for line in cases.make(options.seed, options.scale) if line.startswith("seq ")]
    written = [(line, answer.split()) for line, answer in zip(tries, run(options.ours, tries)) if answer.startswith("0 ")]
    verdicts = run(options.player, [buffer[: 2 * int(count)] for _, (_, count, buffer) in written])
    tally, wrong = collections.Counter(), []
    for (line, (_, count, buffer)), verdict in zip(written, verdicts):
        broken = rules(syntax.parse(line)[1])
        tally[broken] += 1
        if (verdict != "0") != bool(broken):
            wrong.append(f"{buffer[: 2 * int(count)]}: the player says {verdict}, rows {broken}")
    for broken, count in sorted(tally.items()):
        print(f"{count:7} {'refused, rows ' + ' and '.join(map(str, broken)) if broken else 'accepted'}")
    if wrong:
        sys.exit("\n".join(wrong))


main()
