#!/usr/bin/env python3
"""Makes the larger inputs of the benchmark: inputs.py FOLDER.

None of them is real: each imitates something, as said where it is made, with invented names. The same is made each time. FOLDER
gets a file for each and `index`, with lines of GROUP|RULE|FILE|WHAT. The pieces of real servers' responses are in
data/responses.txt and are not made here.
"""

import os
import random
import sys

rng = random.Random(20261115)
WORDS = "store sales night report till stock north list invoice return count shelf late total region".split()


def quoted(s):
    return '"' + s.replace("\\", "\\\\").replace('"', '\\"') + '"'


def words(n):
    return " ".join(rng.choice(WORDS) for _ in range(n))


def address():
    name = quoted(words(2).title()) if rng.random() < 0.8 else "NIL"
    return "(%s NIL %s %s)" % (name, quoted("%s%d" % (rng.choice(WORDS), rng.randrange(1000))), quoted("shops.example"))


def addresses(n):
    return "(" + "".join(address() for _ in range(n)) + ")" if n else "NIL"


def envelope(to=1, cc=0):
    one = addresses(1)
    return "(%s %s %s %s %s %s %s NIL NIL %s)" % (
        quoted("Mon, 09 Nov 2026 02:%02d:43 +0100" % rng.randrange(60)), quoted(words(6)), one, one, one, addresses(to),
        addresses(cc), quoted("<%d@shops.example>" % rng.getrandbits(40)))


def text_part():
    return '("TEXT" "PLAIN" ("CHARSET" "utf-8") NIL NIL "QUOTED-PRINTABLE" %d %d NIL ("INLINE" NIL) NIL NIL)' % (
        rng.randrange(9000), rng.randrange(300))


def file_part(i):
    name = "%s-%04d.csv" % (words(2).replace(" ", "-"), i)
    return ('("APPLICATION" "OCTET-STREAM" ("NAME" "%s") "<%d@shops.example>" NIL "BASE64" %d NIL '
            '("ATTACHMENT" ("FILENAME" "%s" "SIZE" "%d")) NIL NIL)' % (name, rng.getrandbits(32), rng.randrange(1 << 20), name,
                                                                      rng.randrange(1 << 20)))


def body_with_files(n):
    return '(%s%s "MIXED" ("BOUNDARY" "=_%x") NIL NIL NIL)' % (
        text_part(), "".join(file_part(i) for i in range(n)), rng.getrandbits(64))


def forwarded(levels):
    body = text_part()
    for _ in range(levels):
        body = '("MESSAGE" "RFC822" NIL NIL %s "7BIT" %d %s %s %d NIL ("INLINE" NIL) NIL NIL)' % (
            quoted(words(3)), rng.randrange(90000), envelope(3, 2), body, rng.randrange(900))
    return body


def uid_set(n):
    out, at = [], 1
    for _ in range(n):
        at += 1 + rng.randrange(60)
        if rng.random() < 0.5:
            out.append(str(at))
        else:
            end = at + 1 + rng.randrange(40)
            out.append("%d:%d" % (at, end))
            at = end
    return ",".join(out)


def entry():
    return rng.choice(["/private/vendor/shop/", "/shared/vendor/shop/", "/shared/comment/"]) + "/".join(
        rng.choice(WORDS) for _ in range(1 + rng.randrange(3)))


def messages(count, size):
    """messages in each other, each with a description that makes it about as long as said, around a text"""
    first = '("MESSAGE" "RFC822" NIL NIL "%s" "7BIT" 1000 (%s) ' % ("x" * (size - 100), " ".join(["NIL"] * 10))
    return first * count + '("TEXT" "PLAIN" NIL NIL NIL "7BIT" 5 2)' + " 10)" * count


def parts(count):
    return "(" + '("A" "B" NIL NIL NIL "7BIT" 1)' * count + ' "MIXED")'


def inputs():
    yield ("ENVELOPE", 24, "a mail to a list of 300 people, all named in its To and Cc", "ENVELOPE " + envelope(200, 100) + ")")
    yield ("BODYSTRUCTURE", 25, "a mail with a text and 200 files, as stores send at night", "BODYSTRUCTURE " + body_with_files(200) + ")")
    yield ("BODYSTRUCTURE", 25, "a mail forwarded 14 times, each with its envelope", "BODYSTRUCTURE " + forwarded(14) + ")")
    yield ("sets", 10, "10,000 members, half of them ranges: a mailbox with gaps", uid_set(10000) + "]")
    yield ("sets", 18, "VANISHED (EARLIER) with 10,000 members: a resync after long", "VANISHED (EARLIER) " + uid_set(10000) + "\r\n")
    yield ("sets", 16, "COPYUID with 5,000 members twice: a large move", "COPYUID 38505 %s %s]" % (uid_set(5000), uid_set(5000)))
    values = " ".join("%s %s" % (entry(), quoted(words(5)) if rng.random() < 0.8 else "NIL") for _ in range(300))
    yield ("METADATA", 22, "300 entries with values", 'METADATA "INBOX" (%s)\r\n' % values)
    yield ("METADATA", 23, "300 names, as a server tells of changes", 'METADATA "INBOX" %s\r\n' % " ".join(entry() for _ in range(300)))
    yield ("long quoted", 3, "a subject of 1 KB", '"%s"' % words(400)[:1024])
    yield ("long quoted", 3, "64 KB without a backslash", '"%s"' % words(20000)[:65536])
    yield ("long quoted", 3, "64 KB with a backslash in about every 8 bytes",
           quoted("".join(rng.choice('abcdef gh"\\') for _ in range(55000))))
    # docs/WORK.md: the time must grow with the size alone. They imitate nothing.
    for size in (1000, 2000):
        yield ("work", 14, "15 messages of %d bytes in each other" % size, messages(15, size))
    for count in (1250, 2500, 5000, 10000):
        yield ("work", 14, "a multipart of %d parts" % count, parts(count))
    yield ("1 MB literal", 4, "the literal alone", "{1048576}\r\n" + "x" * 1048576)
    yield ("1 MB literal", 21, "a whole mail of 1 MB, BODY[]", "BODY[] {1048576}\r\n" + "x" * 1048576 + ")")


def main():
    folder = sys.argv[1]
    os.makedirs(folder, exist_ok=True)
    with open(os.path.join(folder, "index"), "w") as index:
        for i, (group, rule, what, text) in enumerate(inputs()):
            name = "%02d" % i
            with open(os.path.join(folder, name), "wb") as f:
                f.write(text.encode())
            index.write("%s|%d|%s|%s\n" % (group, rule, name, what))


if __name__ == "__main__":
    if len(sys.argv) != 2:
        sys.exit(__doc__)
    main()
