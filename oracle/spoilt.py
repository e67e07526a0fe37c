#!/usr/bin/env python3
"""Tries the rules themselves: answers of the crate, each spoilt in a few ways, must fit no row.

    oracle/spoilt.py --crate target/oracle/driver [--seed N]
"""
import argparse
import random
import sys

import cases
import compare


def spoilt(draw, answer, ours):
    """A letter changed, three times; another element named; done in place of refused; our answer."""
    out = {ours}
    for _ in range(3):
        i = draw.randrange(len(answer))
        if answer[i] != " ":
            out.add(answer[:i] + draw.choice("0123456789ABCDEF") + answer[i + 1:])
    words = answer.split(" ")
    if words[0] == "refused":
        out |= {" ".join(["refused", "seq_tier", *words[2:]]), " ".join(["0", *words[2:]])}
    return out - {answer}


def main():
    options = argparse.ArgumentParser()
    options.add_argument("--crate", required=True)
    options.add_argument("--seed", default="spoilt")
    o = options.parse_args()
    draw, tried, taken = random.Random(o.seed), 0, []
    lines = [line for line in cases.make(o.seed, 0.003) if len(line) < 3000 and not line.startswith(("read", "payload"))]
    for line, answer in zip(lines, compare.run(o.crate, lines)):
        case = compare.parsed(line)
        ours = compare.answer(line, case)
        for wrong in spoilt(draw, answer, ours):
            tried += 1
            if compare.judge(case, ours, wrong)[1] is None:
                taken.append(f"{line}\n    {wrong}")
    print("\n".join(taken[:5]) + f"\n{len(lines)} lines, {tried} spoilt answers, {len(taken)} taken")
    sys.exit(bool(taken))


if __name__ == "__main__":
    main()
