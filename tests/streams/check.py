#!/usr/bin/env python3
"""Gives the cases of this folder to a program and compares its answers: tests/streams/check.py ./run replay"""

import pathlib
import subprocess
import sys

import longest
import parts

HERE = pathlib.Path(__file__).resolve().parent


def pairs(name):
    """The cases of a file, each with its answer."""
    lines = [line for line in (HERE / name).read_text().splitlines() if line and not line.startswith("#")]
    return list(zip(lines[::2], lines[1::2], strict=True))


def main():
    cases = pairs("seq.txt") + longest.cases() + pairs("parts.txt") + [reading for pair in pairs("parts.txt") for reading in parts.readings(*pair)]
    given = "".join(f"{case}\n" for case, _ in cases)
    answers = subprocess.run(sys.argv[1:], input=given, capture_output=True, text=True, check=True).stdout.splitlines()
    if len(answers) != len(cases):
        sys.exit(f"{len(cases)} cases, {len(answers)} answers")
    wrong = [(case, want, got) for (case, want), got in zip(cases, answers) if want != got]
    for case, want, got in wrong:
        print(f"{case}\n  must be {want}\n  was     {got}")
    print(f"{len(cases) - len(wrong)} of {len(cases)} as expected")
    sys.exit(bool(wrong))


main()
