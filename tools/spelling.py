#!/usr/bin/env python3
"""Brings this repository's own definitions and lemmas to the spelling of today's Rattle, once, after the kit's port.py.

usage: python3 tools/spelling.py [--list]     at the top of the repository

Words are in snake case: a definition, a field, a constructor and a lemma lose capitals and dashes. In a lemma's name a dash stays where it joins two
names (`length-put`), as the kit's style asks. A fact begins with a capital. Functions of src/, exported names, strings, inputs and outputs stay as they
are. Names of the kit that a file imports stay. --list writes the names, old and new, and changes nothing.
"""

import os
import re
import subprocess
import sys

# the kit's library lies beside the page that `rt doc` names
KIT = os.path.join(os.path.dirname(subprocess.run(["rt", "doc"], capture_output=True, text=True, check=True).stdout.strip()), "rattle")
# a fact, whose name is that of a type
FACTS = {"moved": "Moved", "wants": "Wants"}
# lemmas that would have the name of what they speak of
OWN = {"delimiter-bytes": "delimiter_bytes_lem", "field-as": "field_as_lem"}
LEMMAS = {
    "same_flag": ("same_flag_lem", ["crates/bits/proofs/Leaves.antt"]),
    "bit_length": ("bit_length_lem", ["crates/bits/proofs/Widths.antt", "crates/bits/proofs/number/bit_length/Proof.antt"]),
}
DECLARED = re.compile(r"^(\s*)((?:abbrev |pub |unfoldable )*)([^\s:(){}\[\].;,]+(?: [^\s:(){}\[\].;,]+)*) : (.*)$")
LISTED = re.compile(r"^\s*(?:pub )?(?:data|record|ruleset) ([^\s:(){}.;,=]+)")
KEYWORDS = {"use", "record", "data", "module", "let", "in", "mod", "where", "elim", "infixr", "infixl", "infix", "ruleset", "unfolding", "λ"}
TOKEN = re.compile(r"[^\s(){}\[\].;,:|`]+")


def files(root, ends):
    for folder, dirs, names in os.walk(root):
        dirs[:] = sorted(d for d in dirs if d not in ("out", ".git", "target"))
        for n in sorted(names):
            if n.endswith(ends):
                yield os.path.join(folder, n)


def text(p):
    with open(p, encoding="utf-8") as f:
        return f.read()


def snake(name):
    return re.sub(r"(?<=[a-z0-9])([A-Z])", lambda m: "_" + m.group(1).lower(), name)


def odd(name):
    return "-" in name or re.search(r"^[a-z].*[A-Z]", name)


def in_function(p):
    """A file of one function's proof, whose top names are mostly the kit's goals."""
    return p.endswith("/Proof.antt")


def declared(p):
    """(name, how it begins, its type) of what the file declares."""
    for line in text(p).split("\n"):
        m = DECLARED.match(line)
        if m and m.group(3).split()[0] not in KEYWORDS:
            for n in m.group(3).split():
                yield n, m.group(2), m.group(4)
        m = LISTED.match(line)
        if m:
            yield m.group(1), "listed", ""


def kit_names():
    found = set()
    for p in ("std/specs/Prelude.antt", "std/proofs/Common.antt"):
        for m in re.finditer(r"\{([^}]*)\}", text(os.path.join(KIT, p))):
            found.update(n.strip() for n in m.group(1).split(","))
    return {n for n in found if n and not odd(n)}


def imported(t):
    """The names that the file takes from the kit."""
    found = set()
    for m in re.finditer(r"use ([\w.\-]+)\.\{([^}]*)\}", t):
        if not OURS.match(m.group(1)):
            for n in m.group(2).split(","):
                found.add(n.split(" as ")[0].strip())
    return found


def kept_here(p, t):
    """Names of the file that are not ours to change: the kit's that it imports, and its goals."""
    kept = imported(t)
    if in_function(p):
        kept |= {n for n, _, of in declared(p) if of.startswith("tie.") or of.startswith("goal.")}
    return kept


def new_name(name, lemma, known):
    if name in FACTS:
        return FACTS[name]
    if name in OWN:
        return OWN[name]
    if not odd(name) or name[0].isupper():
        return name
    parts = [snake(x) for x in name.split("-")]
    if not all(parts):
        return name
    if not lemma or parts[-1] == "spec" or parts[-1] not in known and "_".join(parts[:-1]) in known:
        return "_".join(parts)
    out, last = parts[0], parts[0]
    for i in range(1, len(parts)):
        joins = last in known and any("_".join(parts[i:k]) in known for k in range(i + 1, len(parts) + 1))
        out += ("-" if joins else "_") + parts[i]
        last = parts[i] if joins else last + "_" + parts[i]
    return out


def mapping():
    lemmas, defs = set(), set(FACTS)
    for p in files("crates", ".antt"):
        own = not in_function(p)
        kept = kept_here(p, text(p))
        for n, how, of in declared(p):
            if n in kept:
                continue
            if own and ("/specs/" in p or "abbrev" in how or how == "listed" or "unfoldable" in how) and "≡" not in of:
                defs.add(n)
            else:
                lemmas.add(n)
    known = kit_names() | {"_".join(snake(x) for x in n.split("-")) for n in defs}
    return {n: new_name(n, n not in defs, known) for n in defs | lemmas if new_name(n, n not in defs, known) != n}


def own_lemmas(p, t):
    for n, (m, where) in LEMMAS.items():
        if p in where:
            t = re.sub(rf"(?<![\w.\-]){n}(?![\w.\-])", m, t)
    return t


def renamed(part, names, kept):
    return TOKEN.sub(lambda m: names[m.group(0)] if m.group(0) in names and m.group(0) not in kept else m.group(0), part)


def in_comment(part, names):
    return re.sub(r"`[^`\n]*`", lambda m: renamed(m.group(0), names, set()), part)


def antt(t, names, kept):
    lines = []
    for line in t.split("\n"):
        m = re.match(r"^((?:(?!-- ).)*)(-- .*)?$", line)
        lines.append(renamed(m.group(1), names, kept) + in_comment(m.group(2) or "", names))
    return "\n".join(lines)


def clauses(t, names, kept):
    """Renames in `ghost use` lines and in the braces of clauses, and nowhere else."""
    out, at = "", 0
    for m in re.finditer(r"ghost use [^;]*;|\b(?:requires|ensures|invariant)\b\*?(?: \w+)? \{|^[ \t]*//[^\n]*|^[ \t]*ghost \w+[ \w]*[:=]? ?\{", t, re.M):
        if m.start() < at:
            continue
        end = m.end()
        if m.group(0).endswith("{"):
            depth = 1
            while depth:
                depth += {"{": 1, "}": -1}.get(t[end], 0)
                end += 1
        part = t[m.start():end]
        out += t[at:m.start()] + (in_comment(part, names) if part.lstrip().startswith("//") else renamed(part, names, kept))
        at = end
    return out + t[at:]


def clashes(p, old, names, kept):
    """New names that the file had already, for something else: not in a path, as a field or in a comment."""
    bare = re.sub(r"-- .*|//.*", "", old)
    bare = re.sub(r"^((?:pub |ghost )?use )[\w.\-+]+", r"\1", bare, flags=re.M)
    bare = re.sub(r"\.[^\s(){}\[\].;,:|`]+", " ", bare)
    bare = re.sub(r"(?<=[{;])\s*[^\s(){}\[\].;,:|`]+\s=", " ", bare)
    before = set(TOKEN.findall(bare))
    for n in sorted(before & set(names)):
        if n not in kept and names[n] in before:
            yield f"{p}: {n} becomes {names[n]}, which stands there"


def parameters(p, old, names, kept):
    """Parameters of a function in src/ whose clauses use a name that becomes theirs."""
    for m in re.finditer(r"\bfn (\w+)[^(]*\(((?:[^()]|\([^()]*\))*)\)(.*?)\n\s*\{\n", old, re.S):
        params = set(re.findall(r"(\w+)\s*:", m.group(2)))
        for n in set(TOKEN.findall(m.group(3))) & set(names):
            if n not in kept and names[n] in params:
                yield f"{p}: in {m.group(1)} {n} becomes the parameter {names[n]}"


def main(argv):
    global OURS
    ours = sorted(os.listdir("crates"))
    OURS = re.compile(r"^Rattle\.(?:%s)(?:\.|$)" % "|".join(ours))
    names = mapping()
    if argv == ["--list"]:
        for n in sorted(names):
            print(n, names[n])
        back = {}
        for n, m in names.items():
            back.setdefault(m, []).append(n)
        for m, ns in back.items():
            if len(ns) > 1:
                print("together:", m, *ns)
    for p in [*files("crates", (".antt", ".rt"))]:
        was = text(p)
        t = own_lemmas(p, was)
        kept = kept_here(p, t)
        new = antt(t, names, kept) if p.endswith(".antt") else clauses(t, names, kept)
        for c in clashes(p, t, names, kept) if p.endswith(".antt") else parameters(p, t, names, kept):
            print("clash:", c)
        if new != was and argv != ["--list"]:
            with open(p, "w", encoding="utf-8") as f:
                f.write(new)
    if argv != ["--list"]:
        for p in [*files("docs", ".md"), "README.md", *files("crates", ".edit")]:
            t = text(p)
            new = in_comment(t, names)
            if p.endswith(".edit"):
                new = re.sub(r"^((?:old|new): )(.*)$", lambda m: m.group(1) + renamed(m.group(2), {n: m for n, m in names.items() if odd(n)}, set()), t, flags=re.M)
            if new != t:
                with open(p, "w", encoding="utf-8") as f:
                    f.write(new)
    return 0


if __name__ == "__main__":
    sys.exit(main(sys.argv[1:]))
