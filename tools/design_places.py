#!/usr/bin/env python3
"""Lists the places of src/ that the design pass looks at, a heading for each of its points. docs/DESIGN-PASS.md has what became of them.

    python3 tools/design_places.py [FOLDER]     the places below FOLDER, a checkout (default: this one)
    python3 tools/design_places.py --counts [FOLDER]     their numbers alone

A row is a place to look at: not every one is of the form that the point names, and the page says which are.
"""

import difflib
import pathlib
import re
import sys
from collections import defaultdict

arguments = [a for a in sys.argv[1:] if a != "--counts"]
counts_alone = "--counts" in sys.argv[1:]
top = pathlib.Path(arguments[0] if arguments else pathlib.Path(__file__).resolve().parent.parent)
sources = sorted(top.glob("crates/*/src/**/*.rt"))


def place(file, line):
    return f"{file.relative_to(top / 'crates')}:{line}"


def matching(pattern):
    found = []
    for file in sources:
        for number, text in enumerate(file.read_text().splitlines(), 1):
            if re.search(pattern, text) and not text.lstrip().startswith("//"):
                found.append(f"{place(file, number)} {text.strip()}")
    return found


def functions():
    """Each function with a body: file, line, name, parameters, clauses, body."""
    for file in sources:
        text = file.read_text()
        for at in re.finditer(r"^( *)((?:pub(?:\(crate\))? )?(?:extern \"C\" )?fn (\w+))", text, re.M):
            end = re.compile(rf"^{at[1]}}}$", re.M).search(text, at.end())
            head = re.compile(rf"^{at[1]}\{{$|\{{$", re.M).search(text, at.end())
            if not end or not head or head.start() > end.start():
                continue
            signature = text[at.start() : head.start()]
            # a method that a trait declares has no body
            if re.search(r";$", signature, re.M):
                continue
            opened = signature.index("(", signature.index("fn "))
            depth, close = 0, opened
            for close in range(opened, len(signature)):
                depth += {"(": 1, ")": -1}.get(signature[close], 0)
                if depth == 0:
                    break
            parameters = re.split(r",\s*(?![^<\[(]*[>\])])", signature[opened + 1 : close])
            clauses = re.findall(r"^\s*(?:requires|ensures)[^{]*\{(.*)\}\s*$", signature[close:], re.M)
            yield (
                file,
                text.count("\n", 0, at.start()) + 1,
                at[3],
                [" ".join(p.split()) for p in parameters if p.strip()],
                [c.strip() for c in clauses],
                text[head.end() : end.start()],
            )


def words_of(body):
    body = re.sub(r"//.*", "", body)
    plain = []
    for word in re.findall(r"\w+|[^\w\s]", body):
        plain.append("0" if re.fullmatch(r"[0-9_]+", word) else re.sub(r"[0-9]+$", "", word))
    return plain


def twins():
    """Functions whose bodies are alike but for numbers, and for one word in five."""
    all_of = [(f, n, name, words_of(body)) for f, n, name, _, _, body in functions()]
    found = []
    for i, (f, n, name, body) in enumerate(all_of):
        for g, m, other, body2 in all_of[i + 1 :]:
            if min(len(body), len(body2)) < 25 or max(len(body), len(body2)) > 1.5 * min(len(body), len(body2)):
                continue
            match = difflib.SequenceMatcher(None, body, body2, autojunk=False)
            if match.quick_ratio() > 0.8 and match.ratio() > 0.8:
                found.append(f"{place(f, n)} {name} ~ {place(g, m)} {other} {match.ratio():.2f}")
    return found


def together():
    """Parameters that travel together in three functions or more, and clauses that three or more have."""
    pairs, clauses = defaultdict(list), defaultdict(list)
    for file, line, name, parameters, said, _ in functions():
        kept = [p for p in parameters if ":" in p]
        for i, p in enumerate(kept):
            for q in kept[i + 1 :]:
                pairs[f"{p}, {q}"].append(f"{place(file, line)} {name}")
        for clause in said:
            clauses[clause].append(f"{place(file, line)} {name}")
    for what in (pairs, clauses):
        for key, where in sorted(what.items(), key=lambda it: -len(it[1])):
            if len(where) >= 3:
                yield f"{len(where)} times: {key}: {'; '.join(where)}"


def uncited():
    """Lemmas of proofs/ that no other line of any .antt or .rt file names."""
    texts = {f: f.read_text() for f in top.glob("crates/**/*") if f.suffix in (".antt", ".rt") and "/out/" not in str(f)}
    uses = defaultdict(int)
    for text in texts.values():
        for line in text.splitlines():
            if not line.startswith("use ") and not line.startswith("ghost use "):
                for word in re.findall(r"[^\s(){},.;:\"'`\[\]]+", line):
                    uses[word] += 1
    found = []
    for file, text in texts.items():
        if file.suffix == ".antt" and "/proofs/" in str(file) and file.name not in ("Answers.antt", "Invariants.antt", "Kept.antt", "Lib.antt"):
            for at in re.finditer(r"^\s*(?:pub )?([a-z]\w*'?) :", text, re.M):
                if uses[at[1]] <= 2:
                    found.append(f"{file.relative_to(top / 'crates')} {at[1]}")
    return found


POINTS = [
    ("1 enums", lambda: matching(r"^\s*(pub(\(crate\))? )?enum ")),
    ("1 flags in structs", lambda: matching(r"^\s*(pub(\(crate\))? )?\w+: bool,")),
    ("1 flags in variables", lambda: matching(r"let mut \w+ = (true|false);")),
    ("1 flags as parameters", lambda: matching(r"\bfn .*\b\w+: bool\b|^\s+\w+: bool,$(?<!pub)")),
    ("1 numbers of kinds", lambda: matching(r"\bfn (number|of|call_of|place_of|digit_of)\(")),
    ("2 twins", twins),
    ("3 loops without `for`", lambda: matching(r"^\s*('\w+: )?(while|loop)\b")),
    ("4 by hand", lambda: matching(r"\bfn (numbers|number|of|is_same|begins|is_named|least|later|event_of|lower|is_digit|copy_to|put_again|narrow|widen)\(")),
    ("5 together", lambda: list(together())),
    ("6 fixed buffers and tables", lambda: matching(r"= \[[^\]]*; *[0-9]+\];|^const \w+: \[|^static ")),
    ("7 switches", lambda: matching(r"\b(live|three): bool\b|\bformat: Format\b|\bcall: Call\b|\breader: Reader\b")),
    ("8 lemmas that nothing cites", uncited),
]

for title, find in POINTS:
    found = find()
    print(f"{title}: {len(found)}")
    if not counts_alone:
        for row in found:
            print("   ", row)
