#!/usr/bin/env python3
"""The 25 rules of docs/RULES.md in Python: what a reading must answer. No line of it was made from the Rattle code.

`answer(rule, s, words)` gives answer, taken, nodes, wanted and the words of the nodes, for a table of so many words.

A reader takes the buffer and a place, and gives the place behind what it read and its trees; a tree is kind, a, b and the
children's trees. What fails raises Failed (answer 2), what the buffer's end leaves open Unfinished (1), a `(` too deep Deep (3).
"""
import sys

sys.setrecursionlimit(20000)

LENGTH_LIMIT = 16777216
DEEPEST = 16


class Failed(Exception):
    """answer 2"""


class Unfinished(Exception):
    """answer 1, with the bytes wanted"""


class Deep(Exception):
    """answer 3"""


# ----- "Streaming primitives" -----

LF, CR = 10, 13
digit = lambda b: b in b"0123456789"
text_byte = lambda b: b not in (0, CR, LF)
astring_byte = lambda b: b >= 32 and b not in b'(){ %*"\\'
blank = lambda b: b in b" \t"


def fixed(word, s, i, fold=False):
    for w in word:
        if i == len(s):
            raise Unfinished(0)
        if s[i] != w and not (fold and bytes([s[i]]).upper() == bytes([w]).upper()):
            raise Failed
        i += 1
    return i


def run(member, s, i, least=0):
    start = i
    while i < len(s) and member(s[i]):
        i += 1
    if i == len(s):
        raise Unfinished(0)
    if i - start < least:
        raise Failed
    return i


def value(s, i, bits):
    end = run(digit, s, i, 1)
    if int(s[i:end]) >= 2**bits:
        raise Failed
    return end, int(s[i:end])


# ----- readers of readers -----


def word(text):
    return lambda s, i: (fixed(text, s, i, True), [])


def exact(text):
    return lambda s, i: (fixed(text, s, i), [])


def blanks(least):
    return lambda s, i: (run(blank, s, i, least), [])


def then(*readers):
    def read(s, i):
        trees = []
        for r in readers:
            i, more = r(s, i)
            trees += more
        return i, trees

    return read


def spaced(*readers):
    """single spaces between them"""
    return then(*[r for reader in readers for r in (SP, reader)][1:])


def either(*readers):
    """the next is tried after a failure only"""

    def read(s, i):
        for r in readers:
            try:
                return r(s, i)
            except Failed:
                pass
        raise Failed

    return read


def option(reader):
    return either(reader, lambda s, i: (i, []))


def span(kind, reader):
    """a node with start and end of all that is read"""

    def read(s, i):
        end, trees = reader(s, i)
        return end, [(kind, i, end, trees)]

    return read


def instead(reader, *trees):
    return lambda s, i: (reader(s, i)[0], list(trees))


def list_of(first, later, may_be_empty=False):
    def read(s, i):
        trees, r = [], first
        while True:
            try:
                i, more = r(s, i)
            except Failed:
                if not trees and not may_be_empty:
                    raise
                return i, [(7, len(trees), 0, trees)]
            trees, r = trees + more, later

    return read


def separated(separator, item, may_be_empty=False):
    """a separator that no item follows is stepped back over"""
    return list_of(item, then(exact(separator), item), may_be_empty)


def nonempty(item):
    """nonempty form: any blanks before the parenthesis"""
    return then(OPEN, separated(b" ", item), blanks(0), CLOSE)


SP, OPEN, CLOSE = exact(b" "), exact(b"("), exact(b")")
nothing = lambda s, i: (i, [])
absent = instead(nothing, (6, 0, 0, []))


# ----- "Lexical rules" -----


def number(bits):
    def read(s, i):
        end, v = value(s, i, bits)
        return end, [(1, v % 2**32, v // 2**32, [])]

    return read


def quoted(s, i):
    j = fixed(b'"', s, i)
    while True:
        if j == len(s):
            raise Unfinished(0)
        if s[j] == ord('"'):
            return j + 1, [(4, i + 1, j, [])]
        if s[j] == ord("\\"):
            j += 1
            if j == len(s):
                raise Unfinished(0)
            if s[j] not in b'"\\':
                raise Failed
        elif not text_byte(s[j]):
            raise Failed
        j += 1


def literal(s, i):
    j, count = value(s, fixed(b"{", s, i), 32)
    start = fixed(b"}\r\n", s, j)
    if len(s) < start + count:
        raise Unfinished(start + count - len(s))
    return start + count, [(4, start, start + count, [])]


number_32, number_64 = number(32), number(64)
string = either(quoted, literal)
astring = either(span(4, lambda s, i: (run(astring_byte, s, i, 1), [])), string)
nil = span(5, word(b"NIL"))
nstring = either(nil, string)
text = span(4, lambda s, i: (run(text_byte, s, i), []))


# ----- sets: a range keeps its numbers, a uid range has the smaller first, a uid alone is kind 3 -----


def member(single, ordered):
    def read(s, i):
        end, a = value(s, i, 32)
        try:
            end, b = value(s, fixed(b":", s, end), 32)
        except Failed:
            return end, [(single, a, a, [])]
        return end, [(2, min(a, b) if ordered else a, max(a, b) if ordered else b, [])]

    return read


uid_set = separated(b",", member(3, True))
sequence_set = separated(b",", member(2, False))


def vanished(s, i):
    end, trees = word(b"VANISHED")(s, i)
    try:
        end, trees = then(blanks(1), word(b"(EARLIER)"))(s, end)
        kind = 24
    except Failed:
        kind = 23
    end, trees = then(blanks(1), sequence_set)(s, end)
    return end, [(kind, i, end, trees)]


# ----- sections -----

HEADER, MIME, TEXT = [(8, which, 0, []) for which in (1, 2, 3)]
plain_list = then(OPEN, separated(b" ", astring, True), option(SP), CLOSE)
message_text = either(
    instead(then(word(b"HEADER.FIELDS"), option(word(b".NOT")), SP, plain_list), HEADER),
    instead(word(b"HEADER"), HEADER),
    instead(word(b"TEXT"), TEXT),
)
section_text = either(message_text, instead(word(b"MIME"), MIME))
part = span(18, then(separated(b".", number_32), either(then(exact(b"."), section_text), absent)))
section = then(exact(b"["), either(message_text, part, absent), exact(b"]"))
index = then(exact(b"<"), number_32, exact(b">"))


# ----- METADATA -----


def entry_component(b):
    return 0x19 < b < 0x80 and b not in b"*%/"


def good_path(name):
    """components, each behind a slash; a space or CR where a slash should be ends the check"""
    while name and name[0] not in b" \r":
        if name[0] != ord("/"):
            return False
        name = name[1:]
        while name and entry_component(name[0]):
            name = name[1:]
    return True


def good_entry(name):
    for top, below in ((b"/private", (b"/comment", b"/vendor")), (b"/shared", (b"/admin", b"/comment", b"/vendor"))):
        if name.startswith(top):
            rest = name[len(top) :]
            for known in below:
                if rest.startswith(known):
                    rest = rest[len(known) :]
                    if known == b"/vendor" and not (len(rest) > 1 and rest[0] == ord("/") and entry_component(rest[1])):
                        return False
                    return good_path(rest)
            return False
    return False


def entry_name(s, i):
    end, trees = astring(s, i)
    if not good_entry(s[trees[0][1] : trees[0][2]]):
        raise Failed
    return end, trees


entry_value = span(17, spaced(entry_name, nstring))
mailbox = then(word(b"METADATA "), quoted, SP)


# ----- "Structures" -----

# Address: four nstrings, single spaces. An address list has one optional space after each address.
address = span(11, then(OPEN, spaced(nstring, nstring, nstring, nstring), CLOSE))
addresses = either(nil, then(OPEN, separated(b"", then(address, option(SP))), CLOSE))
# date, subject, from, sender, reply-to, to, cc, bcc, in-reply-to, message-id
envelope = span(10, then(OPEN, spaced(nstring, nstring, *[addresses] * 6, nstring, nstring), CLOSE))

pair = span(17, spaced(string, string))
parameters = either(nil, nonempty(pair))
disposition = either(nil, span(16, then(OPEN, spaced(string, parameters), CLOSE)))
one_string = lambda s, i: (lambda end, trees: (end, [(7, 1, 0, trees)]))(*string(s, i))
language = either(nil, one_string, nonempty(string))
KNOWN = [b"7BIT", b"8BIT", b"BINARY", b"BASE64", b"QUOTED-PRINTABLE"]
known = then(exact(b'"'), either(*[instead(word(w), (9, n, 0, [])) for n, w in enumerate(KNOWN, 1)]), exact(b'"'))
encoding = either(known, string)
fields = spaced(parameters, nstring, nstring, encoding, number_32)


def level_opens(level):
    """a `(` that would open level 17 gives 3"""

    def read(s, i):
        i = fixed(b"(", s, i)
        if level > DEEPEST:
            raise Deep
        return i, []

    return read


def extension(level):
    """held by something of this level"""

    def a_list(s, i):
        return then(level_opens(level + 1), separated(b" ", extension(level + 1)), blanks(0), CLOSE)(s, i)

    return either(number_32, nstring, a_list)


def tail(first, level):
    """each after a space and only if the one before was read; if one fails, it and the later ones are absent"""

    def read(s, i):
        trees, parts = [], [first, disposition, language, nstring, extension(level)]
        while parts:
            try:
                i, more = then(SP, parts[0])(s, i)
            except Failed:
                break
            trees, parts = trees + more, parts[1:]
        return i, trees + [(6, 0, 0, [])] * len(parts)

    return read


def body(level):
    def read(s, i):
        j, _ = level_opens(level)(s, i)
        one, inner = tail(nstring, level), body(level + 1)
        text = span(13, then(spaced(word(b'"TEXT"'), string, fields, number_32), one))
        message = span(14, then(spaced(word(b'"MESSAGE" "RFC822"'), fields, envelope, inner, number_32), one))
        basic = span(12, then(spaced(string, string, fields), one))
        multipart = span(15, then(spaced(separated(b"", inner), string), tail(parameters, level)))
        j, trees = either(text, message, basic, multipart)(s, j)
        end = fixed(b")", s, j)
        return end, [(trees[0][0], i, end, trees[0][3])]

    return read


# ----- "Rules and nodes", "What a reading returns" -----

RULES = {
    1: number_32,
    2: number_64,
    3: quoted,
    4: literal,
    5: string,
    6: astring,
    7: nstring,
    8: text,
    9: sequence_set,
    10: uid_set,
    11: section,
    12: entry_name,
    13: envelope,
    14: body(1),
    15: span(20, then(word(b"APPENDUID "), number_32, SP, uid_set)),
    16: span(21, then(word(b"COPYUID "), number_32, SP, uid_set, SP, uid_set)),
    17: span(22, word(b"UIDNOTSTICKY")),
    18: vanished,
    19: then(word(b"HIGHESTMODSEQ "), number_64),
    20: then(word(b"MODSEQ "), OPEN, number_64, CLOSE),
    21: span(19, then(word(b"BODY"), section, either(index, absent), SP, nstring)),
    22: span(25, then(mailbox, nonempty(entry_value))),
    23: span(25, then(mailbox, separated(b" ", entry_name, True))),
    24: then(word(b"ENVELOPE "), envelope),
    25: then(word(b"BODYSTRUCTURE "), body(1)),
}


def words(tree):
    kind, a, b, children = tree
    below = [w for c in children for w in words(c)]
    return [kind, a, b, 1 + len(below) // 4, *below]


def answer(rule, s, room):
    """answer, taken, nodes, wanted, and the words written, in a table of so many words"""
    if rule not in RULES:
        return 5, 0, 0, 0, []
    if len(s) > LENGTH_LIMIT:
        return 6, 0, 0, 0, []
    try:
        end, (tree,) = RULES[rule](s, 0)
    except Unfinished as e:
        return 1, 0, 0, e.args[0], []
    except Failed:
        return 2, 0, 0, 0, []
    except Deep:
        return 3, 0, 0, 0, []
    written = words(tree)
    if room // 4 < len(written) // 4:
        return 4, 0, len(written) // 4, 0, []
    return 0, end, len(written) // 4, 0, written
