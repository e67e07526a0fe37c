#!/usr/bin/env python3
"""Makes the vectors of this folder from streams that it encodes into a scratch folder: tests/streams/make.py SCRATCH
With a second word, `read`, the streams must be there already and are only read.
"""

import collections
import os
import pathlib
import subprocess
import sys

import obus
import parts
import sequence
import settings

HERE = pathlib.Path(__file__).resolve().parent
PARTS_PER_WORD = 40


def run(command, scratch):
    """Runs a command in the scratch folder, and returns what it says."""
    path = os.pathsep.join([str(HERE), str(scratch.resolve()), os.environ["PATH"]])
    done = subprocess.run(command, cwd=scratch, env=os.environ | {"PATH": path}, capture_output=True, text=True)
    if done.returncode != 0:
        sys.exit(f"{' '.join(command)}\n{done.stdout}{done.stderr}")
    return done.stdout + done.stderr


def make_streams(scratch):
    for clip in settings.CLIPS:
        run(settings.clip_command(clip), scratch)
    run(["cc", "-O1", str(HERE / "layers.c"), "-o", "layers", "-laom"], scratch)
    for stream in settings.streams():
        for command in stream.commands():
            run(command, scratch)
        said = run(["ffmpeg", "-v", "error", "-nostdin", "-c:v", "libdav1d", "-i", stream.out(), "-f", "null", "-"], scratch)
        assert not said, f"{stream.name} does not decode: {said}"


def gather(scratch):
    """The first sequence header of each stream, by its bytes; the parts of all frames; the parts that are spelled otherwise."""
    headers, cases, others = {}, [], collections.Counter()
    for stream in settings.streams():
        read = obus.read(scratch / stream.out())
        header = next(obu for obu in read if obu.type() == obus.SEQUENCE_HEADER)
        headers.setdefault(header.data, (header, []))[1].append(stream)
        kept, other = parts.cases(read)
        cases += [(stream, number, part) for number, part in kept]
        others.update(other)
    return list(headers.values()), cases, others


def uncoded_deltas(scratch):
    """How many pictures have a loop filter that is not coded. The deltas that dav1d holds for them must be those of the records."""
    run(["cc", "-O1", str(HERE / "deltas.c"), "-o", "deltas", "-ldav1d"], scratch)
    held = collections.Counter()
    for stream in settings.streams():
        held.update(run(["deltas", stream.out()], scratch).splitlines())
    assert list(held) == [" ".join(map(str, parts.DEFAULT_DELTAS))], f"dav1d holds {held}"
    return held.total()


def interleaved(cases):
    """The cases with the encoders taking turns."""
    turns = collections.Counter()
    ranked = []
    for case in cases:
        turns[case[0].encoder] += 1
        ranked.append((turns[case[0].encoder], case))
    return [case for _, case in sorted(ranked, key=lambda pair: pair[0])]


def form(part):
    return part.word, tuple(part.numbers[:parts.CONTEXT[part.word]]), part.end - part.place


def signs(part):
    return form(part), tuple((number > 0) - (number < 0) for number in part.numbers)


def choose(cases):
    """The cases to keep, up to a number for each word: first one of each form (context and length), then one of each pattern of
    signs, then each place in a byte, then other records, then each form at each place in a byte."""
    keys = [
        form,
        signs,
        lambda part: (part.word, part.place % 8),
        lambda part: (part.word, tuple(part.numbers)),
        lambda part: (form(part), part.place % 8),
    ]
    chosen, seen, count = set(), set(), collections.Counter()
    for key in keys:
        for i, (_, _, part) in enumerate(cases):
            if i not in chosen and key(part) not in seen and count[part.word] < PARTS_PER_WORD:
                chosen.add(i)
                count[part.word] += 1
                seen |= {other(part) for other in keys}
    order = list(parts.CONTEXT)
    return sorted((cases[i] for i in chosen), key=lambda case: (order.index(case[2].word), case[0].name, case[1]))


def write(name, blocks):
    (HERE / name).write_text("\n\n".join("\n".join(block) for block in blocks) + "\n")


def write_headers(headers):
    comments = [[f"# {stream.name}: {stream.command}" for stream in streams] for _, streams in headers]
    write("sequence.txt", [comment + sequence.reading(header) for comment, (header, _) in zip(comments, headers)])
    write("seq.txt", [[f"# {streams[0].name}"] + sequence.cases(header) for header, streams in headers])


def write_parts(cases):
    write("parts.txt", [[f"# {stream.name}, frame {number}"] + part.lines() for stream, number, part in cases])


def report(headers, cases, kept, others, uncoded):
    print("encoder: streams, sequence headers, frames, parts kept")
    for encoder in settings.ENCODERS:
        streams = sum(stream.encoder == encoder for stream in settings.streams())
        own = sum(any(stream.encoder == encoder for stream in streams) for _, streams in headers)
        frames = sum(stream.encoder == encoder for stream, _, part in cases if part.word == "quant")
        mine = sum(stream.encoder == encoder for stream, _, _ in kept)
        print(f"{encoder}: {streams}, {own}, {frames}, {mine}")
    print("word: parts, different records, kept, places in a byte, left out for another legal spelling")
    for word in parts.CONTEXT:
        all_parts = [part for _, _, part in cases if part.word == word]
        mine = [part for _, _, part in kept if part.word == word]
        records = len({tuple(part.numbers) for part in all_parts})
        print(f"{word}: {len(all_parts)}, {records}, {len(mine)}, {len({part.place % 8 for part in mine})}, {others[word]}")
    print(f"sequence headers: {len(headers)}")
    print(f"pictures with an uncoded loop filter, whose deltas are dav1d's: {uncoded}")


def main():
    scratch = pathlib.Path(sys.argv[1])
    scratch.mkdir(parents=True, exist_ok=True)
    if sys.argv[2:] != ["read"]:
        make_streams(scratch)
    headers, cases, others = gather(scratch)
    uncoded = uncoded_deltas(scratch)
    kept = choose(interleaved(cases))
    write_headers(headers)
    write_parts(kept)
    report(headers, cases, kept, others, uncoded)


main()
