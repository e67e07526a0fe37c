#!/usr/bin/env python3
"""Runs the same case lines through the crate, the model of document 01 and, if named, this project's program, and sorts every disagreement with the
crate into a row of docs/DIFFERENCES.md by the rules of rows.py. One that fits no row fails the run; so does any difference between model and program. The
readers of the parts, which the crate does not have, go through model and program, and what is read must be what was written.

    oracle/compare.py --crate target/oracle/driver [--release target/oracle/driver-release] [--ours './run replay'] [--seed N] [--scale F] [FILE ..]
    oracle/compare.py --ours './run replay' [--seed N] [--scale F]      (the readers of the parts alone)

With FILEs their lines are run in place of made ones. A page (.md) has case lines in its code blocks, each followed by the answers that the page gives for
it ('crate', 'release', 'here'), which are checked too.
"""
import argparse
import collections
import shlex
import subprocess
import sys
import time
from itertools import islice

import cases
import lines as syntax
import model
import parts_cases
import room
import rows

BATCH = 5000
# What we answer where a row decides by making the crate go on: number, and elements if the row is about some.
OURS = {3: "2", 4: "2", 5: "2", 6: "2 12 0 33", 10: "1 7 0", 12: "1 37 0", 13: "1 45 0", 23: "2 75 0 0", 24: "2 70 0", 27: "2 79 0 0", 31: "8 0 0"}


def run(command, lines):
    done = subprocess.run(shlex.split(command), input="".join(line + "\n" for line in lines), stdout=subprocess.PIPE, text=True, check=True)
    answers = done.stdout.split("\n")[:-1]
    if len(answers) != len(lines):
        sys.exit(f"{command}: {len(lines)} lines, {len(answers)} answers")
    return answers


def judge(case, ours, crate, release=False):
    """(rows that explain the disagreement, or nothing where they agree; what is wrong, or None)."""
    if case is None:
        return [], None if crate == ("bad" if ours == "bad" else "-") else "malformed, yet answered"
    expected, hit = rows.crate_answer(*case, release)
    if crate != expected:
        return [], "fits no row: the rules give " + expected
    if rows.agree(ours, crate):
        return [], None
    if not hit:
        return [], "fits no row: no rule had an effect"
    if hit == [1] and not (ours[0] == "1" and model.ELEMENTS[int(ours.split()[1])] == crate.split()[1]):
        return [], "fits no row: refused under different names"
    if not release and hit[0] in OURS and not f"{ours} ".startswith(OURS[hit[0]] + " "):
        return [], f"fits no row: row {hit[0]} is not about this answer of ours"
    return hit, None


class Tally:
    """Counts by word: all, accepted by us, agreed, and by row."""

    def __init__(self):
        self.words = collections.Counter()
        self.accepted, self.agreed = collections.Counter(), collections.Counter()
        self.decides, self.takes_part = collections.Counter(), collections.Counter()
        self.refused = collections.Counter()
        self.longest = collections.Counter()

    def add(self, line, ours, hit):
        word = line.split(" ")[0]
        self.words[word] += 1
        if word in room.MOST:
            self.longest[word] = max(self.longest[word], room.taken(line, ours))
        self.accepted[word] += ours != "0 0" if word == "payload" else ours.startswith("0 ")
        if ours[:2] in ("1 ", "2 "):
            self.refused[ours.split()[1]] += 1
        if not hit:
            self.agreed[word] += 1
            return
        self.decides[hit[0]] += 1
        for row in set(hit):
            self.takes_part[row] += 1

    def table(self):
        out = ["| Case | Lines | Accepted by us | The crate agrees | A row explains |", "|---|---|---|---|---|"]
        total = [0] * 4
        for word, n in self.words.items():
            if word in ("read", "payload"):
                out.append(f"| `{word}` | {n:,} | {self.accepted[word]:,} | has no such call | |")
                continue
            figures = n, self.accepted[word], self.agreed[word], n - self.agreed[word]
            total = [a + b for a, b in zip(total, figures)]
            out.append(f"| `{word}` | " + " | ".join(f"{x:,}" for x in figures) + " |")
        out.append("| all writers | " + " | ".join(f"{x:,}" for x in total) + " |")
        out += ["", "| Row | Decides | Takes part | Rule |", "|---|---|---|---|"]
        for row, rule in rows.RULES.items():
            if self.takes_part[row]:
                out.append(f"| {row} | {self.decides[row]:,} | {self.takes_part[row]:,} | {rule} |")
        return "\n".join(out)

    def never(self):
        """Elements that no line had refused, by number 1 or 2."""
        return [f"{number} {name}" for number, name in model.ELEMENTS.items() if not self.refused[str(number)]]


class Reads:
    """Counts of the parts' readers by word and kind of case: all, and those that were read."""

    def __init__(self):
        self.all, self.read = collections.Counter(), collections.Counter()

    def add(self, case, said):
        for word in syntax.word_of(case.line), "all":
            self.all[word, case.kind] += 1
            self.read[word, case.kind] += said.startswith("0 ")

    def table(self):
        columns = [*syntax.READERS, "all"]
        out = ["| Parts read, of lines | " + " | ".join(columns) + " |", "|---" * (1 + len(columns)) + "|"]
        for kind, what in parts_cases.KINDS.items():
            if self.all["all", kind]:
                out.append(f"| {what} | " + " | ".join(f"{self.read[word, kind]:,} of {self.all[word, kind]:,}" for word in columns) + " |")
        return "\n".join(out)


def compare(lines, crate, ours=None, release=None, seen=None):
    """Runs the lines; the tally, that of the release build, the complaints. seen, if given, gets each line with our answer, the crate's and the rows."""
    tally, released, wrong, lines = Tally(), Tally(), [], iter(lines)
    while batch := list(islice(lines, BATCH)):
        parts = [parsed(line) for line in batch]
        said = [answer(line, case) for line, case in zip(batch, parts)]
        for line, a, b in zip(batch, said, run(ours, batch) if ours else said):
            if a != b:
                wrong.append(f"{line}\n    model: {a}\n    ours:  {b}")
        for line, case, a, theirs in zip(batch, parts, said, run(crate, batch)):
            hit, complaint = judge(case, a, theirs)
            tally.add(line, a, hit)
            if line.split(" ")[0] in room.MOST and room.taken(line, a) > room.MOST[line.split(" ")[0]]:
                wrong.append(f"{line}\n    here:  {a}\n    more than is said to be enough")
            if complaint:
                wrong.append(f"{line}\n    here:  {a}\n    crate: {theirs}\n    {complaint}")
            if seen:
                seen(line, a, theirs, hit)
        for line, case, a, theirs in zip(batch, parts, said, run(release, batch) if release else ()):
            hit, complaint = judge(case, a, theirs, True)
            released.add(line, a, hit)
            if complaint:
                wrong.append(f"{line}\n    here:    {a}\n    release: {theirs}\n    {complaint}")
    return tally, released, wrong


def compare_readers(cases, ours=None, seen=None):
    """Runs cases of the parts' readers; the counts, the complaints. seen, if given, gets each case with our answer."""
    reads, wrong, cases = Reads(), [], iter(cases)
    while batch := list(islice(cases, BATCH)):
        said = [model.answer(case.line) for case in batch]
        for case, a, b in zip(batch, said, run(ours, [case.line for case in batch]) if ours else said):
            reads.add(case, a)
            if a != b:
                wrong.append(f"{case.line}\n    model: {a}\n    ours:  {b}")
            if case.must not in (None, a):
                wrong.append(f"{case.line}\n    model:   {a}\n    must be: {case.must}")
            if seen:
                seen(case, a)
    return reads, wrong


def parsed(line):
    try:
        return syntax.parse(line)
    except syntax.Bad:
        return None


def answer(line, case):
    return model.answered(*case) if case else model.answer(line)


def lines_of(path, wrong, commands):
    """The case lines of a file; in a page, the answers that it gives for them are checked."""
    text = open(path).read().split("\n")
    if not path.endswith(".md"):
        return [line for line in text if line and line[0] != "#"]
    found = [i for i, line in enumerate(text) if line.startswith("    ") and line.split()[:1] and line.split()[0] in syntax.FIELDS]
    out = [text[i].strip() for i in found]
    answers = {side: run(command, out) for side, command in commands.items() if command}
    answers["here"] = [model.answer(line) for line in out]
    for k, i in enumerate(found):
        for said in text[i + 1:i + 4]:
            side, _, answer = said.strip().partition(" ")
            if side in answers and answer.strip() != answers[side][k]:
                wrong.append(f"{path}:{i + 1}: {out[k]}\n    {side} {answers[side][k]}")
    return out


def main():
    options = argparse.ArgumentParser()
    options.add_argument("--crate")
    options.add_argument("--release")
    options.add_argument("--ours")
    options.add_argument("--seed", default="1")
    options.add_argument("--scale", type=float, default=1.0)
    options.add_argument("files", nargs="*")
    o = options.parse_args()
    if o.files and not o.crate:
        options.error("the lines of a file need the crate")
    start, wrong = time.time(), []
    lines = [line for path in o.files for line in lines_of(path, wrong, {"crate": o.crate, "release": o.release})]
    given = [parts_cases.Case("given", line, None) for line in lines if syntax.word_of(line) in syntax.READERS]
    lines = [line for line in lines if syntax.word_of(line) not in syntax.READERS]
    reads, wrong_reads = compare_readers(given if o.files else parts_cases.make(o.seed, o.scale), o.ours)
    wrong += wrong_reads
    if reads.all:
        print(reads.table() + "\n")
    if o.crate:
        tally, released, more = compare(lines if o.files else cases.make(o.seed, o.scale), o.crate, o.ours, o.release)
        wrong += more
        print(tally.table())
        if not o.files:
            print("\nElements never refused: " + (", ".join(tally.never()) or "none"))
            print("The most that was written, of what is said to be enough: " + ", ".join(f"{word} {tally.longest[word]} of {most}" for word, most in room.MOST.items()))
        if o.release:
            print("\nThe release build:\n\n" + released.table())
    for complaint in wrong[:20]:
        print(complaint, file=sys.stderr)
    print(f"\n{len(wrong)} complaints; {time.time() - start:.0f} s; sides: {'crate, ' if o.crate else ''}model{', ' + o.ours if o.ours else ''}")
    sys.exit(bool(wrong))


if __name__ == "__main__":
    main()
