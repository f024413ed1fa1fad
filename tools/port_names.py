#!/usr/bin/env python3
"""Brings the names of this repository's definitions and lemmas to the spelling of today's Rattle: words in snake case.

usage: python3 tools/port_names.py          at the top of the repository, once, on what the toolchain's port.py left
       python3 tools/port_names.py --look   writes nothing: says what would be renamed, and which names would fall together

A name that begins with a small letter and has a capital inside (`rowsOf`) is turned everywhere in crates/: definitions, lemmas, parameters,
comments. A name with dashes is turned where a file of lemmas or definitions declares it (`whole-rows`), and nowhere else: the
names of goals, of steps and of the library keep theirs. Where it would have the name of a definition or a function it gets `_lem`. Functions of src/ have no such names. The names of fields of AEDAT files stay.
"""

import os
import re
import sys

# fields of AEDAT files, as their format's document writes them
FOREIGN = {"eventCapacity", "eventNumber", "eventSize", "eventSource", "eventTSOffset", "eventTSOverflow", "eventType", "eventValid"}
# lemmas of these files that would have the name of a definition: port.py has taken their dashes
LOCAL = {
    "crates/evt3/proofs/RowSteps.antt": {"goes_on": "goes_on_lem"},
    "crates/evt3_laws/proofs/ColumnsBack.antt": {"all_in": "all_in_lem"},
    "crates/join/proofs/AllSeen.antt": {"is_y": "is_y_lem", "is_base": "is_base_lem"},
    "crates/join/proofs/Answers.antt": {"is_y": "is_y_lem", "is_base": "is_base_lem", "at_base": "at_base_lem"},
    "crates/join/proofs/Types.antt": {"is_y": "is_y_lem", "is_base": "is_base_lem"},
}
WORD = re.compile(r"[\w'₀-₉]+(?:-[\w'₀-₉]+)*")
DECLARED = re.compile(r"^[ \t]*(?:(?:abbrev|unfoldable|pub|opaque)\s+)*([\w'₀-₉]+(?:-[\w'₀-₉]+)+)(?=[^\n]*?\s:\s|\s*:)", re.M)


def files(*endings):
    for folder, dirs, names in os.walk("crates"):
        dirs[:] = sorted(d for d in dirs if d != "out")
        for name in sorted(names):
            if name.endswith(endings):
                yield os.path.join(folder, name)


def read(path):
    with open(path, encoding="utf-8") as f:
        return f.read()


def of_function(path):
    """Whether a file is the proof of one function."""
    return os.path.basename(path) in ("Proof.antt", "Answers.antt", "Invariants.antt")


def camel(word):
    return word[0].islower() and re.search(r"[a-z0-9][A-Z]", word) is not None and "-" not in word and word not in FOREIGN


def snake(word):
    word = re.sub(r"([a-z0-9])([A-Z])", lambda m: m.group(1) + "_" + m.group(2).lower(), word)
    return word.replace("-", "_")


def code(text):
    return re.sub(r"--[^\n]*", "", text)


def turning():
    """Each name that is turned, with its new spelling."""
    dashed, library, turned = set(), set(), {}
    for path in files(".antt"):
        text = code(read(path))
        for line in re.findall(r"^use (?!Rattle\.(?!std))[^\n]*$", text, re.M):
            library.update(w for w in WORD.findall(line) if "-" in w)
        if not of_function(path):
            dashed.update(DECLARED.findall(text))
    here = set()
    for path in files(".antt", ".rt", ".edit"):
        for word in WORD.findall(read(path)):
            here.add(word)
            if camel(word):
                turned[word] = snake(word)
                here.add(turned[word])
    # a lemma that would have the name of a definition or a function gets an ending
    for word in sorted(dashed - library):
        turned[word] = snake(word) + ("_lem" if snake(word) in here else "")
    return turned


def together(turned):
    """New names that stand in the repository already, or that two old ones would share."""
    seen, here = {}, set()
    for old, new in turned.items():
        seen.setdefault(new, []).append(old)
    for path in files(".antt", ".rt"):
        here.update(WORD.findall(code(read(path)) if path.endswith(".antt") else re.sub(r"//[^\n]*", "", read(path))))
    for new, olds in sorted(seen.items()):
        if len(olds) > 1 or new in here:
            yield new, olds


def main(argv):
    turned = turning()
    if argv == ["--look"]:
        for old, new in sorted(turned.items()):
            print(old, new)
        for new, olds in together(turned):
            print("together:", new, "from", *olds, "and one that has this name" if len(olds) == 1 else "")
        return
    changed = 0
    for path in files(".antt", ".rt", ".edit"):
        text = read(path)

        def turn(m):
            word = m.group(0)
            new = LOCAL.get(path, {}).get(word) or turned.get(word)
            if new is None:
                return word
            # a step or a goal of a function is no lemma
            if "-" in word and of_function(path) and text[m.start() - 1 : m.start()] == ".":
                return word
            return new

        new = WORD.sub(turn, text)
        if new != text:
            changed += 1
            with open(path, "w", encoding="utf-8") as f:
                f.write(new)
    print(f"{len(turned)} names turned in {changed} files")


if __name__ == "__main__":
    main(sys.argv[1:])
