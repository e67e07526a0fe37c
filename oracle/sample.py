#!/usr/bin/env python3
"""Chooses the lines of tests/vectors/oracle.txt and writes them with our answers, once both sides have answered them: for each thing worth showing, the
shortest line that shows it; and the first records of each word that we write. The lines of the readers, which the crate has no calls for, go to read.txt and,
those of the parts, to rparts.txt.

    oracle/sample.py --crate target/oracle/driver [--ours './run replay'] [--seed N]
"""
import argparse
import collections
import os
import sys

import cases
import compare
import lines
import model
import parts_cases

# Fewer consistent records than in the whole run, and more of the others.
PLAN = {word: (n // 2, once * 2, twice, 60, 60) for word, (n, once, twice, _, _) in cases.PLAN.items()}
VECTORS = os.path.join(os.path.dirname(os.path.abspath(__file__)), "..", "tests", "vectors")


def shows_read(line, ours):
    """What a line of the reader shows: a number, at this length of the input; of the accepted ones, the header and the branches taken."""
    word, data = (line + " ").split(" ")[:2]
    if ours[0] != "0" or word == "payload":
        yield word, ours, min(len(data), 20)
        return
    q = lines.take(map(int, ours.split()[1:]), lines.FIELDS["seq"])
    yield "read", q.extension_flag, q.has_size_field, data[-4:] == "0000"
    yield "read", q.seq_profile, q.reduced_still_picture_header, q.mono_chrome, q.subsampling_x, q.subsampling_y
    yield "read", q.timing_info_present_flag, q.decoder_model_info_present_flag, q.initial_display_delay_present_flag, q.operating_points_cnt_minus_1 > 0
    yield "read", q.seq_choose_screen_content_tools, q.seq_force_screen_content_tools, q.seq_choose_integer_mv, q.seq_force_integer_mv, q.OrderHintBits > 0
    if q.has_size_field:
        size = data[2 + 2 * q.extension_flag:]
        yield "read", "size bytes", next(i for i in range(8) if int(size[2 * i:2 * i + 2], 16) < 128)


def shows(line, ours, hit):
    """What a line shows: an element refused, a row that decides or takes part (where we write, and where we refuse), a bit place, a length beside the
    need, a field's number at an edge."""
    word, record, buffer, place = lines.parse(line)
    numbers = [int(x) for x in ours.split()[:3]] if ours[0] != "0" else [0]
    if numbers[0] and len(buffer) < 3:
        return
    if numbers[0] in (1, 2):
        yield word, numbers[0], numbers[1], min(numbers[2], 2)
    else:
        yield word, numbers[0]
        yield word, numbers[0], "place", place if place < 16 else "far"
    if numbers[0] == 3:
        yield word, 3, "missing", min(numbers[1] - len(buffer), 3)
    if numbers[0] == 0:
        count = int(ours.split()[1])
        yield word, 0, "spare", min(len(buffer) - (count if word in lines.WHOLE else -(-count // 8)), 3)
        for name, v in vars(record).items():
            if name in ("points", "given"):
                continue
            for i, x in enumerate(v if isinstance(v, list) else [v]):
                kind = "least" if x < 0 else "zero" if x == 0 else "one" if x == 1 else "more"
                yield word, "field", name, i % 8, kind
    if word == "seq":
        yield word, numbers[0] == 0, "header", record.extension_flag, record.has_size_field
        yield word, numbers[0] == 0, "points", min(record.operating_points_cnt_minus_1, 2), record.given > record.operating_points_cnt_minus_1
    for row in hit:
        yield "row", row, word, row == hit[0], numbers[0] == 0


def shows_part(case, ours):
    """What a case of a part's reader shows: a number of this kind of case, in this context, at this place, with this room; of those that are read, the bits
    behind the part, the sign of each number, and of the loop filter each delta that stands beside one that does not."""
    word, context, data, place = lines.parse(case.line)
    number, *values = map(int, ours.split())
    room = 8 * len(data) - place
    yield word, case.kind, number
    yield word, number, "place", place if place < 16 else "far"
    for name, v in vars(context).items():
        if not isinstance(v, list):
            yield word, number, name, min(v, 9)
    if number:
        yield word, number, "room", max(-2, min(room, 40))
        return
    end, record = values[0], lines.take(iter(values[1:]), lines.RECORD[lines.READERS[word]])
    yield word, "room", min(8 * len(data) - end, 9)
    yield word, "bits", end - place == 0
    for name, v in vars(record).items():
        for i, x in enumerate(v if isinstance(v, list) else [v]):
            yield word, "field", name, i % 8, (x > 0) - (x < 0)
    if word == "rlf" and record.loop_filter_delta_update:
        before = context.previous_ref_deltas + context.previous_mode_deltas
        for i, x in enumerate(record.loop_filter_ref_deltas + record.loop_filter_mode_deltas):
            yield word, "delta", i, x == before[i]


def shortest(best, what, line):
    """Whether a line is the shortest so far that shows something; then it is kept."""
    if what in best and len(line) >= len(best[what]):
        return False
    best[what] = line
    return True


def choose_reads(made, ours):
    """{line: our answer} of the parts' readers."""
    best, answers, drawn = {}, {}, collections.Counter()

    def see(case, said):
        if len(case.line) > 1500:
            return
        kind = lines.word_of(case.line), case.kind
        drawn[kind] += 1
        first = [(kind, "drawn", drawn[kind])] if drawn[kind] <= 6 else []
        if any([shortest(best, what, case.line) for what in [*first, *shows_part(case, said)]]):
            answers[case.line] = said

    _, wrong = compare.compare_readers(made, ours, see)
    if wrong:
        sys.exit("\n".join(wrong[:5]))
    kept = set(best.values())
    return {line: said for line, said in answers.items() if line in kept}


def choose(made, crate, ours):
    """{line: (our answer, the crate's, rows)}, in the order of the run."""
    best, all_seen, drawn = {}, {}, collections.Counter()

    def see(line, said, theirs, hit):
        if len(line) > 1500:
            return
        word = line.split(" ")[0]
        drawn[word] += said[0] == "0"
        first = [(word, "drawn", drawn[word])] if said[0] == "0" and drawn[word] <= 12 else []
        for what in shows_read(line, said) if word in ("read", "payload") else [*first, *shows(line, said, hit)]:
            if shortest(best, what, line):
                all_seen[line] = said, theirs, hit

    _, _, wrong = compare.compare(made, crate, ours, seen=see)
    if wrong:
        sys.exit("\n".join(wrong[:5]))
    kept = set(best.values())
    return {line: what for line, what in all_seen.items() if line in kept}


def main():
    options = argparse.ArgumentParser()
    options.add_argument("--crate", required=True)
    options.add_argument("--ours")
    options.add_argument("--seed", default="vectors")
    o = options.parse_args()
    chosen = choose(cases.make(o.seed, 0.05, PLAN), o.crate, o.ours)
    refused = {int(said.split()[1]) for line, (said, _, _) in chosen.items() if said[0] in "12" and not line.startswith("payload")}
    if refused != set(model.ELEMENTS):
        sys.exit(f"elements never refused: {set(model.ELEMENTS) - refused}")
    reads = {line: what for line, what in chosen.items() if line.startswith(("read", "payload"))}
    store("oracle", {line: what for line, what in chosen.items() if line not in reads}, """\
# Made by oracle/sample.py: case lines that the crate has answered. It says the same as oracle.answers, unless a line before the case names
# the rows of docs/DIFFERENCES.md that apply and gives the crate's answer.""")
    store("read", reads, "# Made by oracle/sample.py: case lines of the reader and the payload call, which the crate does not have.")
    parts = choose_reads(parts_cases.make(o.seed, 0.1), o.ours)
    store("rparts", {line: (said, None, []) for line, said in parts.items()}, """\
# Made by oracle/sample.py: case lines of the readers of the parts, which the crate does not have. Where a part was written, its record says the answer.""")
    print(f"{len(chosen)} lines, {len(reads)} of them for the reader; {len(parts)} for the readers of the parts")


def store(name, chosen, heading):
    with open(f"{VECTORS}/{name}.txt", "w") as text, open(f"{VECTORS}/{name}.answers", "w") as answers:
        print(heading, file=text)
        for line, (said, theirs, hit) in chosen.items():
            if hit:
                print(f"# row {', '.join(map(str, dict.fromkeys(hit)))}: crate answers {theirs}", file=text)
            print(line, file=text)
            print(said, file=answers)


if __name__ == "__main__":
    main()
