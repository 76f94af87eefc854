#!/usr/bin/env python3
"""The spelling of this repository's own names, on both sides of the kit's port.py (docs/PORT.md says why).

usage: respell.py crate    before it: the crate `core` is called parser_core, since the kit has a library of the other name
       respell.py names    after it: definitions and lemmas of specs/ and of the lemma files of proofs/ are in snake case, types in camel case

Each was run once, at the top. Names that the kit gives (goals, labels of generated modules, its own lemmas) keep their spelling, and so do
strings, and words of comments outside backticks, which are the RFCs' productions.
"""

import os
import re
import subprocess
import sys

ID = r"[^\s(){}⟨⟩\[\]«».,;:λ\"`]+"
CRATE, CALLED = "core", "parser_core"

# what port.py spelled by a library's word of the same letters
MENDED = {
    "a_Body": "a_body",
}

# a law of crate table, beside the definition or_else
APART = {"or-else": "or_next"}

# names that stand inside one proof, and are declared in no way that this script sees
INNER = "for-ever here-now inner-keeps item-at no-set not-0 not-1 not-4 not-limit not-tree on-leaves on-literals over-items taken-within view-answer"

# families of types
TYPES = {
    "All-fit": "AllFit",
    "If-accepted": "IfAccepted",
    "In-header": "InHeader",
    "No-brace": "NoBrace",
    "No-number": "NoNumber",
    "Number-case": "NumberCase",
    "Numeral-case": "NumeralCase",
    "Open-literal": "OpenLiteral",
    "Past-brace": "PastBrace",
    "Room-for": "RoomFor",
    "Same-from": "SameFrom",
    "Same-scan": "SameScan",
    "Node-type": "NodeType",
    "Place-type": "PlaceType",
    "Node-laws": "NodeLaws",
    "Place-laws": "PlaceLaws",
    "Ends-outside": "EndsOutside",
    "Waits-there": "WaitsThere",
    "Short-row": "ShortRow",
}


def files(root, end):
    for folder, dirs, names in os.walk(os.path.join(root, "crates")):
        dirs[:] = sorted(d for d in dirs if d not in ("out", "must-fail"))
        for n in sorted(names):
            if n.endswith(end):
                yield os.path.join(folder, n)


def is_lemma_file(root, path):
    """A file of specs/, or one that lies right in proofs/."""
    parts = os.path.relpath(path, os.path.join(root, "crates")).split(os.sep)
    return parts[1] == "specs" or (parts[1] == "proofs" and len(parts) == 3)


def pieces(text, comment):
    """The text cut into code, strings and comments, as (kind, text)."""
    out, last = [], 0
    for m in re.finditer(r'b?"(?:\\.|[^"\\])*"|b\'(?:\\.|[^\'\\])\'|' + comment + r".*", text):
        out.append(("code", text[last : m.start()]))
        out.append(("string" if m.group()[0] in "b\"'" else "comment", m.group()))
        last = m.end()
    out.append(("code", text[last:]))
    return out


def declared(text):
    """Names that a file of antt declares, types among them apart."""
    names, types, listed = set(), set(), None
    code = "".join(t if k == "code" else " " for k, t in pieces(text, r"--(?=[\s-]|$)"))
    code = re.sub(r"(?m)^\s*use .*$", "", code)
    for line in code.split("\n"):
        line = re.sub(r"^(\s*)(?:(?:abbrev|unfoldable|pub|opaque)\s+)+", r"\1", line)
        m = re.match(r"\s*((?:" + ID + r"\s+)*" + ID + r")\s*(?:\{[^}]*\}\s*)*:(?:\s|$)", line)
        if m:
            words = m.group(1).split()
            if words[0] in ("data", "record"):
                types.add(words[1])
            else:
                names.update(words)
                listed = None
                continue
        m = re.match(r"\s*(?:data|record)\s+(" + ID + ")", line)
        if m:
            types.add(m.group(1))
        m = re.match(r"\s*ruleset\s+(" + ID + ")", line)
        if m:
            names.add(m.group(1))
        # constructors without arguments stand on a line of their own
        m = re.match(r"\s{2}((?:" + ID + r"\s+)*" + ID + r")\s*$", line)
        if m and "=" not in line:
            names.update(w for w in m.group(1).split() if re.fullmatch(r"[a-z][\w'-]*", w))
    return names, types


def snake(name):
    return re.sub(r"(?<=[\w'])-(?=[\w])", "_", name)


def turn(text, comment, names):
    def word(m):
        return names.get(m.group(), m.group())

    def quoted(m):
        return "`" + re.sub(ID, word, m.group(1)) + "`"

    out = []
    for kind, part in pieces(text, comment):
        if kind == "code":
            part = re.sub(ID, word, part)
        elif kind == "comment":
            part = re.sub(r"`([^`]*)`", quoted, part)
        out.append(part)
    return "".join(out)


def rename_crate(root):
    """The crate's folder, its line and mentions in crates.txt, paths in antt, and calls in code."""
    for p in list(files(root, ".antt")) + list(files(root, ".rt")):
        text = open(p).read()
        new = re.sub(rf"\bRattle·{CRATE}(?=[.·])", f"Rattle·{CALLED}", text)
        if p.endswith(".rt"):
            new = re.sub(rf"(?<![\w:]){CRATE}::", f"{CALLED}::", new)
        if new != text:
            open(p, "w").write(new)
    listing = os.path.join(root, "crates.txt")
    text = open(listing).read()
    lines = [l if l.startswith("#") else re.sub(rf"(?<!\w){CRATE}(?!\w)", CALLED, l) for l in text.split("\n")]
    open(listing, "w").write("\n".join(lines))
    subprocess.run(["git", "mv", f"crates/{CRATE}", f"crates/{CALLED}"], cwd=root, check=True)
    print("respell: the crate is renamed")


def respell_names(root):
    own, types, theirs = set(), set(), set()
    crates = set(os.listdir(os.path.join(root, "crates")))
    for p in files(root, ".antt"):
        text = open(p).read()
        for m in re.finditer(r"(?m)^\s*(?:pub )?use (\S+?)\.\{([^}]*)\}", text):
            head = m.group(1).split(".")
            if not (head[0] == "Rattle" and head[1] in crates):
                theirs.update(x.strip().split(" as ")[0] for x in m.group(2).split(","))
        if is_lemma_file(root, p):
            n, t = declared(text)
            own |= n
            types |= t
    own |= set(INNER.split()) | {"Place-type", "Ends-outside", "Waits-there", "Short-row"}
    names = dict(MENDED)
    everything = own | types | theirs
    for n in sorted(own | types):
        if "-" not in n or not re.search(r"[A-Za-z]", n):
            continue
        if n in theirs:
            print(f"left: {n}: also a name of the library")
            continue
        to = TYPES.get(n) or APART.get(n) or snake(n)
        if to == n:
            continue
        if to in everything:
            print(f"look: {n} and {to} would be one name")
        names[n] = to
    back = {}
    for n, to in names.items():
        if to in back:
            print(f"look: {n} and {back[to]} would both be {to}")
        back[to] = n
    for p in list(files(root, ".antt")) + list(files(root, ".rt")):
        text = open(p).read()
        new = turn(text, r"--(?=[\s-]|$)" if p.endswith(".antt") else "//", names)
        if new != text:
            open(p, "w").write(new)
    print(f"respell: {len(names)} names")


def main(argv):
    root = subprocess.run(["git", "rev-parse", "--show-toplevel"], capture_output=True, text=True, check=True).stdout.strip()
    if argv == ["crate"]:
        return rename_crate(root)
    if argv == ["names"]:
        return respell_names(root)
    print(__doc__)
    return 2


if __name__ == "__main__":
    sys.exit(main(sys.argv[1:]))
