#!/usr/bin/env python3
"""Strips for the programs tapefields and tapefields_cases, and what they must
print.

The sets are made with the writer of tools/strips.py, and the fields of their
records are then written one by one, as the sets say below. What must be
printed is worked out by a plain model of the fields, written from
docs/FORMAT.md and docs/CALLS.md; it uses nothing of the code of the crates.
Which records a set has is taken from the models in tools/survey.py and
tools/calls.py.

    fields.py            writes the sample of crates/tapefields, and the
                         strips and the file stdout of crates/tapefields_cases
    fields.py --check    says whether they are as they would be written
"""

import os
import sys

import calls
import strips
import survey
from strips import BAD, MARK, tape

CRATES = os.path.join(os.path.dirname(os.path.abspath(__file__)), "..", "crates")
SAMPLE = os.path.join(CRATES, "tapefields")
CASES = os.path.join(CRATES, "tapefields_cases")
LIMIT = 1048576

# ================================================================= the sets

# the first byte of each field of an annotation record, and its length
PARTS = {"DATE": (7, 8), "CENTRE": (15, 17), "PATH": (32, 9), "NOMINAL": (41, 17), "FRAME": (107, 15)}

QUALITIES = {0o000: "Q0", 0o077: "Q1", 0o007: "Q2", 0o070: "Q3"}


def records(made, kind):
    """The records of a type, in the order of the tape."""
    return [b for reel in made.reels for b in reel if b is not MARK and b is not BAD and b[5] == kind]


def annotate(record, date, centre, path, nominal, correction, frame):
    for (first, length), value in zip(PARTS.values(), (date, centre, path, nominal, frame)):
        value = value if isinstance(value, bytes) else value.encode("ascii")
        strips.put(record, first, value.ljust(length)[:length])
    strips.put(record, 82, correction)


def measure(record, count, quality, gain, bias):
    """Writes the fields of a line, each as the bytes that hold it."""
    strips.put(record, 3561, bytes(count))
    strips.put(record, 3563, quality)
    strips.put(record, 3577, bytes(gain))
    strips.put(record, 3581, bytes(bias))


def nibbles(number):
    """A signed number as four bytes of four bits."""
    return [number % 65536 >> shift & 15 for shift in (12, 8, 4, 0)]


def sample():
    """Uncorrected, two bands after one another, two lines each: on standard
    input, with the second line of band 7 wanted."""
    made = tape("BSQ", 2, "57", 2, "all", correction="CA", image=0)
    for record, date, band in zip(records(made, strips.ANNOTATION), ("12MAR78C", "30MAR78C") * 2, "5577"):
        annotate(record, date, "C N40-18/W106-04 ", "D036-032", "N N40-19/W106-02 ", "U", "E-21133-16485-" + band)
    lines = records(made, strips.IMAGE)
    measure(lines[0], [50, 40], 0o000, nibbles(1), nibbles(0))
    measure(lines[1], [50, 41], 0o077, nibbles(2), nibbles(-1))
    measure(lines[2], [50, 42], 0o007, nibbles(3), nibbles(-300))
    measure(lines[3], [50, 40], 0o070, nibbles(-2), nibbles(4660))
    return made


def odd(made):
    """Fields with every kind of byte, and a letter that means nothing."""
    first = records(made, strips.ANNOTATION)[0]
    annotate(first, bytes([0, 9, 10, 31, 32, 33, 126, 127]), b'"quote" \\back\\ \x80\xff', b"'a~ z0:@[", bytes(range(240, 256)) + b"`", "u",
             b"\x1f ~\x7f\"#[\\]^\x00\x01\xfe\xff ")
    return made


def sets():
    """The sets by name."""
    made = {}

    # uncorrected, one band; line 2 is bad, line 3 has no value that it can have, line 4 the outermost ones
    ca = tape("BSQ", 1, "6", 5, [("6", 1), ("6", 3), ("6", 4), ("6", 5)], correction="CA", image=0)
    first, second = records(ca, strips.ANNOTATION)
    annotate(first, "01JAN73 ", "C S09-59/E000-00 ", "D251-001", "N S10-00/E000-01 ", "S", "E-10123-00001-6")
    annotate(second, "", "", "", "", "R", "")
    one, three, four, five = records(ca, strips.IMAGE)
    measure(one, [50, 40], 0o000, nibbles(-2), nibbles(15))
    measure(three, [64, 0], 0o001, [16, 0, 0, 0], [0, 0, 0, 16])
    measure(four, [63, 63], 0o070, nibbles(-32768), nibbles(32767))
    measure(five, [0, 64], 0o077, [0, 16, 0, 0], [15, 15, 16, 15])
    made["ca"] = ca

    # uncorrected, interleaved: bands 4 and 8 of the third mission, two lines
    bil = tape("BIL", 3, "48", 2, [("4", 1), ("4", 2), ("8", 2)], correction="CA", image=0)
    first, second = records(bil, strips.ANNOTATION)
    annotate(first, "31DEC79 ", "C N00-00/E180-00 ", "A001-119", "N N00-01/W179-59 ", "U", "E-30666-23595-0")
    annotate(second, "31DEC79 ", "C N00-00/E180-00 ", "A001-119", "N N00-01/W179-59 ", "G", "E-30666-23595-0")
    present = [b for b in records(bil, strips.IMAGE)
               if (int.from_bytes(b[:4], "big") - 1) % 5 in (0, 4)]
    for n, line in enumerate(present, 1):
        measure(line, [n, n], 0o007, nibbles(100 * n), nibbles(-100 * n))
    made["bil"] = bil

    # corrected: two bands of which one line is bad; and with odd bytes
    made["cp"] = odd(tape("BSQ", 3, "48", 1, [("4", 1)]))
    # vidicon
    made["rbv"] = tape("RBV", 3, "B", 2, [("B", 1)])
    annotate(records(made["rbv"], strips.ANNOTATION)[0], "07SEP78D", "C N51-30/W000-07 ", "D219-024", "N N51-29/W000-05 ", "G", "E-30187-10213-B")
    # at fault: a bad block for the header; and a stored image that is cut
    made["badhead"] = tape("BSQ", 1, "4", 1).swap(1, 3, BAD)
    return made


# ================================================================ the model

def quoted(part):
    """Bytes in quotes; what is not printable, and quote and backslash, by a
    backslash and two hexadecimal digits."""
    return '"%s"' % "".join(chr(b) if 32 <= b <= 126 and chr(b) not in '"\\' else "\\%02x" % b for b in part)


def annotation(subject, body):
    """The lines of an annotation record. A body begins with byte 7."""
    def part(first, length):
        return body[first - 7:first - 7 + length]

    lines = ["%s %s %s" % (subject, name, quoted(part(first, length))) for name, (first, length) in PARTS.items()]
    letter = chr(body[82 - 7])
    return lines + ["%s CORRECTION %s" % (subject, letter if letter in "USGR" else "REFUSED 47")]


def line(subject, body):
    """The lines of an uncorrected line of the scanner."""
    def count(high, low):
        return str(high * 64 + low) if high < 64 and low < 64 else "REFUSED 47"

    def signed(parts):
        if any(p > 15 for p in parts):
            return "REFUSED 47"
        number = int("".join("%x" % p for p in parts), 16)
        return str(number - 65536 if number > 32767 else number)

    return ["%s PIXELS %s" % (subject, count(*body[3561 - 7:3563 - 7])),
            "%s QUALITY %s" % (subject, QUALITIES.get(body[3563 - 7], "REFUSED 47")),
            "%s GAIN %s" % (subject, signed(body[3577 - 7:3581 - 7])),
            "%s BIAS %s" % (subject, signed(body[3581 - 7:3585 - 7]))]


def band_name(code):
    return chr(code) if chr(code) in "ABCD" else str(code)


def wanted_line(picture, band, number):
    subject = "LINE %s %d" % (band_name(band), number)
    if band not in picture.bands:
        return [subject + " REFUSED 42"]
    if not 1 <= number <= picture.lines:
        return [subject + " REFUSED 43"]
    body = picture.line(band, number)
    if body is None:
        return [subject + " REFUSED 46"]
    if picture.sensor != "M" or picture.correction != "CA":
        return [subject + " REFUSED 48"]
    return line(subject, body)


def printed(data, wanted=None):
    """What is printed of a strip: for the band and line that are wanted."""
    if len(data) > LIMIT:
        return ["LONG"]
    try:
        reels = survey.read_strip(data)
        survey.Survey(reels).run()
    except survey.ImageRefused as refused:
        return ["IMAGE %d %d" % refused.args]
    except survey.Fault as fault:
        return ["FAULT %d %d %d %d" % fault.args]
    picture = calls.Picture(reels)
    lines = []
    for band in picture.bands:
        for index, body in enumerate(picture.group(band).sheets[3], 1):
            lines += annotation("ANNOTATION %s %d" % (band_name(band), index), body)
    return lines + (wanted_line(picture, *wanted) if wanted else [])


def text(lines):
    return "".join(line + "\n" for line in lines).encode("ascii")


# ============================================================== the command

def cases(script, files):
    """What tapefields_cases prints: each line of the script, and its text."""
    out = []
    for entry in script.splitlines():
        words = entry.split()
        if not words or words[0] == "#":
            continue
        out.append(entry)
        if words[0] == "zeros":
            out += printed(bytes(int(words[1])))
        else:
            out += printed(files[words[1] + ".strip"], tuple(int(w) for w in words[2:]) or None)
    return text(out)


def main(arguments):
    with open(os.path.join(CASES, "data", "cases.txt")) as file:
        script = file.read()
    strip = sample().strip()
    files = {name + ".strip": made.strip() for name, made in sets().items()}
    files["cut.strip"] = files["badhead.strip"][:-3]
    expected = {os.path.join(CASES, "data", name): data for name, data in files.items()}
    expected[os.path.join(CASES, "stdout")] = cases(script, files)
    expected[os.path.join(SAMPLE, "stdin")] = strip
    expected[os.path.join(SAMPLE, "args")] = b"7\n2\n"
    expected[os.path.join(SAMPLE, "stdout")] = text(printed(strip, (7, 2)))
    wrong = 0
    for path, data in expected.items():
        if arguments == ["--check"]:
            with open(path, "rb") as file:
                if file.read() != data:
                    print("%s is not as it would be written" % os.path.relpath(path))
                    wrong += 1
        else:
            with open(path, "wb") as file:
                file.write(data)
    return 1 if wrong else 0


if __name__ == "__main__":
    sys.exit(main(sys.argv[1:]))
