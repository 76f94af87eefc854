#!/usr/bin/env python3
"""Makes `stdin` and `stdout` of the programs that answer lines of readings, from the files in `rows/` beside them.

usage: samples.py PROGRAM..     run it inside the repository: crates/PROGRAM/rows/* are read, stdin and stdout are written

A row is one of these; a text stands in [ ], with \\r \\n \\t \\\\ and \\xNN for bytes that do not print.

    RULE [TEXT]                     a table of 4096 words
    RULE words N [TEXT]             one of N words
    RULE words M..N [TEXT]          of M words, of M + 1, up to N
    RULE cut [TEXT]                 the text cut at each byte
    RULE each PLACE [TEXT]          each of the 256 bytes at that place
    RULE around N [A] [B] [C]       N times A, then B, then N times C
    line [TEXT]                     this line as it stands, which is no reading: `bad line`
    responses FILE                  the pieces of real responses in FILE, lines of RULE HEX # ..
    include FILE                    lines with their answers from FILE.inputs and FILE.expected, as they are

What each must give is tools/model.py's answer, by docs/RULES.md. Nothing here comes from the Rattle code.
"""
import os
import re
import sys

from model import answer

ROOM = 4096
ESCAPES = {"r": b"\r", "n": b"\n", "t": b"\t", "\\": b"\\"}


def text_of(shown):
    out, i = b"", 0
    while i < len(shown):
        if shown[i] != "\\":
            out, i = out + shown[i].encode("ascii"), i + 1
        elif shown[i + 1] == "x":
            out, i = out + bytes([int(shown[i + 2 : i + 4], 16)]), i + 4
        else:
            out, i = out + ESCAPES[shown[i + 1]], i + 2
    return out


def line(rule, words, s):
    return "%d %d %s" % (rule, words, s.hex() or "-")


def told(rule, words, s):
    answered, taken, nodes, wanted, written = answer(rule, s, words)
    return " ".join(str(n) for n in (answered, taken, nodes, wanted, *written))


def readings(row):
    """the readings that a row asks for: rule, words, buffer"""
    match = re.fullmatch(r"(\d+)((?: [a-z]+ [0-9.]+| cut)?) \[(.*)\]", row)
    if not match:
        raise ValueError(row)
    rule, how, shown = int(match[1]), match[2].split(), match[3]
    if not how:
        return [(rule, ROOM, text_of(shown))]
    if how[0] == "around":
        first, inside, last = [text_of(t) for t in shown.split("] [")]
        return [(rule, ROOM, first * int(how[1]) + inside + last * int(how[1]))]
    s = text_of(shown)
    if how[0] == "words":
        least, _, most = how[1].partition("..")
        return [(rule, n, s) for n in range(int(least), int(most or least) + 1)]
    if how[0] == "cut":
        return [(rule, ROOM, s[:n]) for n in range(len(s) + 1)]
    if how[0] == "each":
        at = int(how[1])
        return [(rule, ROOM, s[:at] + bytes([b]) + s[at + 1 :]) for b in range(256)]
    raise ValueError(row)


def pieces(path):
    for piece in open(path):
        if not piece.startswith("#"):
            rule, digits = piece.split("#")[0].split()
            yield int(rule), ROOM, bytes.fromhex(digits)


def made(rows):
    asked, expected = [], []
    for row in rows:
        if not row or row.startswith("#"):
            continue
        if row.startswith("line "):
            asked.append(text_of(row[6:-1]).decode("ascii"))
            expected.append("bad line")
        elif row.startswith("include "):
            asked += open(row[8:] + ".inputs").read().splitlines()
            expected += open(row[8:] + ".expected").read().splitlines()
        else:
            for reading in pieces(row[10:]) if row.startswith("responses ") else readings(row):
                asked.append(line(*reading))
                expected.append(told(*reading))
    return asked, expected


def main():
    for program in sys.argv[1:]:
        folder = "crates/%s/" % program
        files = [folder + "rows/" + name for name in sorted(os.listdir(folder + "rows"))]
        asked, expected = made([row for name in files for row in open(name, encoding="ascii").read().splitlines()])
        for name, lines in (("stdin", asked), ("stdout", expected)):
            with open(folder + name, "w", newline="\n") as out:
                out.write("".join(text + "\n" for text in lines))
        print("%s: %d lines" % (program, len(asked)))


if __name__ == "__main__":
    main()
