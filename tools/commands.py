#!/usr/bin/env python3
"""What crates/read_response and crates/attachments must write for their stored files, and not by way of the programs.

usage: commands.py read_response | attachments      run it inside the repository

The nodes are worked out by model.py, from docs/RULES.md, which has the kinds and the rules' numbers too; the fields' names are
RFC 3501's (7162's, 4315's and 5464's for 18 to 25); the part numbers are RFC 3501's, section 6.4.5, worked out from the tree.
"""
import os
import sys

sys.path.insert(0, os.path.dirname(os.path.abspath(__file__)))
import model

RULES = """number number_64 quoted literal string astring nstring text sequence_set uid_set section entry_name envelope body
appenduid copyuid uidnotsticky vanished highestmodseq modseq body_section metadata_values metadata_names envelope_item
bodystructure""".split()
KINDS = """number range single_uid bytes NIL absent list section_text known_encoding envelope address basic text message
multipart disposition pair section_part BODY_item APPENDUID COPYUID UIDNOTSTICKY VANISHED VANISHED_(EARLIER) METADATA""".split()
TAIL = "disposition language location extension"
FIELDS = {
    10: "date subject from sender reply-to to cc bcc in-reply-to message-id",
    11: "name adl mailbox host",
    12: "type subtype parameters id description encoding octets md5 " + TAIL,
    13: "subtype parameters id description encoding octets lines md5 " + TAIL,
    14: "parameters id description encoding octets envelope body lines md5 " + TAIL,
    15: "bodies subtype parameters " + TAIL,
    16: "type parameters",
    17: "name value",
    18: "part text",
    19: "section index data",
    20: "uidvalidity uids",
    21: "uidvalidity source_uids destination_uids",
    23: "uids",
    24: "uids",
    25: "mailbox entries",
}
ENCODINGS = ["7BIT", "8BIT", "BINARY", "BASE64", "QUOTED-PRINTABLE"]
TEXTS = ["HEADER", "MIME", "TEXT"]


def escaped(s):
    named = {13: "\\r", 10: "\\n", 34: '\\"', 92: "\\\\"}
    return "".join(named.get(b) or (chr(b) if 32 <= b < 127 else "\\x%02x" % b) for b in s)


def quoted(s):
    return '"%s"' % escaped(s)


def cut(s):
    return quoted(s) if len(s) <= 60 else '%s... (%d bytes)' % (quoted(s[:60]), len(s))


def counted(n, what):
    return "%d %s%s" % (n, what, "" if n == 1 else "s")


class Node:
    def __init__(self, words, at):
        self.kind, self.a, self.b, n = words[4 * at : 4 * at + 4]
        self.children, self.end, i = [], at + n, at + 1
        while i < self.end:
            self.children.append(Node(words, i))
            i = self.children[-1].end


def answer(rule, s):
    number, taken, nodes, wanted, words = model.answer(rule, s, 4 * len(s) + 4)
    if number == 0:
        return "accepted: answer 0, %s taken, %s" % (counted(taken, "byte"), counted(nodes, "node")), taken, Node(words, 0)
    if number == 1:
        more = "more bytes are needed" if wanted == 0 else counted(wanted, "more byte") + " wanted"
        return "unfinished: answer 1, " + more, 0, None
    return {2: "not the grammar: answer 2", 3: "too deep: answer 3"}[number], 0, None


def value(s, n):
    """What words a and b say, behind the kind"""
    if n.kind == 1:
        return " %d" % (n.b << 32 | n.a)
    if n.kind == 2:
        return " %d..%d" % (n.a, n.b)
    if n.kind == 3:
        return " %d" % n.a
    if n.kind == 6:
        return ""
    if n.kind == 7:
        return " of %d" % n.a
    if n.kind == 8:
        return " " + TEXTS[n.a - 1]
    if n.kind == 9:
        return " " + ENCODINGS[n.a - 1]
    places = " [%d..%d)" % (n.a, n.b)
    return places + " " + cut(s[n.a : n.b]) if n.kind == 4 else places


def tree(s, n, depth, field):
    print("  " * depth + field + KINDS[n.kind - 1].replace("_", " ") + value(s, n))
    names = FIELDS.get(n.kind, "").split()
    assert not names or len(names) == len(n.children)
    for i, child in enumerate(n.children):
        tree(s, child, depth + 1, names[i].replace("_", " ") + ": " if names else "")


def bytes_of(s, n):
    return s[n.a : n.b]


def named(s, n, word):
    for p in n.children:
        name, v = (bytes_of(s, c) for c in p.children)
        if name.lower() == word or name.lower().startswith(word + b"*"):
            yield ", %s %s" % (escaped(name), quoted(v))


def parts(s, n, prefix, number):
    """n is a body: of a message with this prefix where number is None, else of a multipart with this prefix"""
    if n.kind == 15:
        inner = prefix if number is None else prefix + [number]
        for i, child in enumerate(n.children[0].children, 1):
            parts(s, child, inner, i)
        return
    mine = prefix + [number or 1]
    field = dict(zip(FIELDS[n.kind].split(), n.children))
    major = {13: "text", 14: "message"}.get(n.kind) or escaped(bytes_of(s, field["type"]))
    minor = "rfc822" if n.kind == 14 else escaped(bytes_of(s, field["subtype"]))
    line = "  %s %s/%s, %s" % (".".join(map(str, mine)), major, minor, counted(field["octets"].a, "octet"))
    line += "".join(named(s, field["parameters"], b"name"))
    d = field["disposition"]
    if d.kind == 16:
        line += ", " + escaped(bytes_of(s, d.children[0])) + "".join(named(s, d.children[1], b"filename"))
    print(line)
    if n.kind == 14:
        parts(s, field["body"], mine, None)


def rule_number(word):
    return int(word) if word.isdigit() else RULES.index(word.lower()) + 1


def show(rule, name, s):
    said, taken, top = answer(rule, s)
    print(name + ": " + said)
    if top:
        if taken < len(s):
            print(counted(len(s) - taken, "byte") + " after that")
        tree(s, top, 0, "")


def list_parts(name, s):
    said, _, top = answer(25, s)
    print(name + ": " + said)
    if top:
        parts(s, top, [], None)


def main():
    crate = sys.argv[1]
    args = open("crates/%s/args" % crate).read().split()

    def stored(name):
        return open("crates/%s/data/%s" % (crate, name), "rb").read()

    if crate == "read_response":
        for rule, name in zip(args[::2], args[1::2]):
            show(rule_number(rule), name, stored(name))
    else:
        for name in args:
            list_parts(name, stored(name))


main()
