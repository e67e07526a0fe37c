#!/usr/bin/env python3
"""Which types of driver/parser.rs the crate's four files force: each number's type is changed, one at a time, and the files are compiled (not run).

    oracle/forced.py PATH [STRUCT ..] > table      (after oracle/build.sh PATH; takes some minutes)
"""
import os
import re
import subprocess
import sys
import tempfile

HERE = os.path.dirname(os.path.abspath(__file__))
LOG = os.path.join(HERE, "..", "target", "oracle", "liblog.rlib")
TYPES = "bool u8 u16 u32 i8 i16 i32".split()
COVERED = """ObuHeader OperatingPoint TimingInfo DecoderModelInfo ColorConfig SequenceHeaderObu LoopFilterParams QuantizationParams
    SegmentationParams CdefParams LoopRestorationParams""".split()


def compiles(folder, parser):
    with open(f"{folder}/parser.rs", "w") as file:
        file.write(parser)
    command = f"rustc --edition 2021 -A warnings --cfg types_only --crate-name driver --emit=metadata --extern log={LOG} --out-dir {folder} {folder}/main.rs"
    return subprocess.run(command.split(), capture_output=True).returncode == 0


def main():
    os.environ["CROS_CODECS"] = os.path.realpath(sys.argv[1])
    wanted = sys.argv[2:] or COVERED
    text = open(f"{HERE}/driver/parser.rs").read()
    with tempfile.TemporaryDirectory() as folder:
        with open(f"{folder}/main.rs", "w") as file:
            file.write(open(f"{HERE}/driver/main.rs").read())
        if not compiles(folder, text):
            sys.exit("does not compile as it is")
        print("field\tused here\tcompiles with")
        for struct in re.finditer(r"pub struct (\w+) \{(.*?)\n\}", text, re.S):
            if struct[1] not in wanted:
                continue
            for field in re.finditer(r"pub (\w+): \[*(" + "|".join(TYPES) + r")\b", struct[2]):
                start, end = struct.start(2) + field.start(2), struct.start(2) + field.end(2)
                good = [t for t in TYPES if t == field[2] or compiles(folder, text[:start] + t + text[end:])]
                print(f"{struct[1]}.{field[1]}\t{field[2]}\t{' '.join(good)}", flush=True)


if __name__ == "__main__":
    main()
