#!/usr/bin/env python3
"""Sets for the program reader_cases, and the answers that it must print.

The sets are made with the writer of tools/strips.py; every free byte of
theirs is then drawn from a seeded generator, so that all bodies differ. Each
is stored as a strip and as an indexed image.

The answers are those of a plain model of the reader's six calls, written from
docs/CALLS.md and docs/FORMAT.md; it uses nothing of the code of the crates.
Whether a set is accepted, and else its fault, is taken from tools/survey.py.
The model knows no places: it keeps the records of each group in lists.

    calls.py            writes the images that the script cases.txt names, and
                        the file stdout of crates/reader_cases
    calls.py --check    says whether they are as they would be written
    calls.py --count    counts runs, calls and answers
"""

import os
import random
import sys

import strips
import survey
from strips import BAD, MARK

CRATE = os.path.join(os.path.dirname(os.path.abspath(__file__)), "..", "crates", "reader_cases")
DATA = os.path.join(CRATE, "data")

# ================================================================= the sets

# bytes of a record that the layout fixes, counted from 1
FIXED = {
    strips.DIRECTORY: [*range(1, 12), 19, 20, *range(21, 27), 30, 31, 32, 33],
    strips.HEADER: [*range(1, 7), 101, 102, 105, 106, 120, 121, 136, 144, 145],
}


def drawn(tape, seed):
    """The tape with every free byte drawn. Directories are drawn alike."""
    for r, reel in enumerate(tape.reels, 1):
        for b, block in enumerate(reel, 1):
            if block is MARK or block is BAD:
                continue
            kind = block[5]
            if kind == strips.IMAGE and not any(block[6:]):
                continue                        # of a band that is not present
            place = "directory" if kind == strips.DIRECTORY else "%d %d" % (r, b)
            fixed = set(FIXED.get(kind, range(1, 7)))
            if kind == strips.HEADER and tape.at(1, 1)[30] == 255:
                fixed.add(3586)
            for n, byte in enumerate(random.Random("%s %s" % (seed, place)).randbytes(len(block)), 1):
                if n not in fixed:
                    block[n - 1] = byte
    return tape


def all_but(bands, lines, *bad):
    """The readable lines: all of these bands but the bad ones."""
    return [(b, l) for b in bands for l in range(1, lines + 1) if (b, l) not in bad]


def sets():
    """The sets by name."""
    tape = strips.tape
    made = {
        # interleaved: one reel; the third line of band 6 and the first of band 8 bad
        "bil3": tape("BIL", 3, "45678", 3, all_but("45678", 3, ("6", 3), ("8", 1)), trailers=3),
        # band 5 missing; reels end inside line 1, inside line 2 and behind the image file
        "bil1": tape("BIL", 1, "467", 3, all_but("467", 3, ("4", 2), ("7", 2)),
                     breaks=[(1, 2), (1, 7), (1, 12)], trailers=2),
        # only band 8; two reels, and the break is behind a bad block
        "bil8": tape("BIL", 3, "8", 2, [("8", 2)], breaks=[(1, 5)]),
        # nine reels, of which some have one image block
        "bil9": tape("BIL", 1, "4567", 2, all_but("4567", 2, ("5", 2)), breaks=[(1, k) for k in range(1, 9)]),
        # as many lines as a band may have, and one more; all but one are bad
        "bilmost": tape("BIL", 1, "4567", 8192, [("7", 8192)]),
        "bilover": tape("BIL", 1, "4567", 8193),
        # sequential: breaks inside, behind an image file and behind a trailer file
        "bsq3": tape("BSQ", 3, "578", 3, all_but("578", 3, ("5", 2), ("8", 3)),
                     breaks=[(1, 2), (2, 3), (3, 1)], behind=[1], trailers=[1, 5, 2]),
        # one band, one reel, one line, which is bad
        "bsq1": tape("BSQ", 1, "6", 1),
        # a reel ends behind each trailer file
        "bsq2": tape("BSQ", 2, "4567", 1, [("4", 1), ("7", 1)], behind=[1, 2, 3], trailers=[2, 1, 1, 3]),
        # vidicon: the reel ends inside the file; line 2 is bad
        "rbv": tape("RBV", 3, "C", 4, all_but("C", 4, ("C", 2)), breaks=[(1, 3)], trailers=2),
        # uncorrected
        "bilca": tape("BIL", 1, "47", 1, [("4", 1), ("7", 1)], correction="CA", trailers=5),
        "bsqca": tape("BSQ", 3, "48", 2, [("4", 2), ("8", 1)], correction="CA", breaks=[(2, 2)], behind=[1],
                      trailers=[2, 1]),
        "rbvca": tape("RBV", 3, "A", 2, [("A", 2)], correction="CA", breaks=[(1, 1)]),
    }
    for name in made:
        drawn(made[name], name)

    # sets at fault: a small one on two reels, and what was done to it
    def small(name):
        return drawn(tape("BSQ", 3, "46", 2, [("4", 1)], breaks=[(1, 1)]), name)

    made["ends"] = small("ends").cut(2, 6)
    made["badhead"] = small("badhead").swap(1, 3, BAD)
    made["number"] = small("number").put(2, 8, 4, 7)
    made["nomark"] = small("nomark").remove(1, 5)
    made["other"] = small("other")
    made["other"].put(2, 1, 52, made["other"].at(1, 1)[51] ^ 1)
    made["short"] = small("short").remove(2, 11)
    made["behind"] = small("behind").insert(2, 17, MARK)
    made["missing"] = drawn(tape("BIL", 1, "4", 1, [("4", 1)]), "missing").put(1, 8, 3596, 1)
    return made


def indexed(tape, seed):
    """The tape as an indexed image: its records stand in a drawn order, with
    free bytes between them."""
    blocks = [block for reel in tape.reels for block in reel]
    generator = random.Random("order " + seed)
    order = [i for i, block in enumerate(blocks) if block is not MARK and block is not BAD]
    generator.shuffle(order)
    at = 4 + 4 * len(tape.reels) + 8 * len(blocks)
    offsets, records = {}, bytearray()
    for i in order:
        records += generator.randbytes(generator.randrange(3))
        offsets[i] = at + len(records)
        records += blocks[i]
    out = bytearray(strips.word(len(tape.reels)))
    for reel in tape.reels:
        out += strips.word(len(reel))
    for i, block in enumerate(blocks):
        if block is MARK:
            out += strips.word(0) + strips.MARK_WORD
        elif block is BAD:
            out += strips.word(0) + strips.BAD_WORD
        else:
            out += strips.word(offsets[i]) + strips.word(len(block))
    return bytes(out + records)


def read_indexed(data):
    """The reels of an indexed image that is known to be right."""
    def word(at):
        return int.from_bytes(data[at:at + 4], "big")

    reels, entry = [], 4 + 4 * word(0)
    for r in range(word(0)):
        reel = []
        for _ in range(word(4 + 4 * r)):
            offset, kind = word(entry), word(entry + 4)
            entry += 8
            reel.append(survey.MARK if kind == 0 else survey.BAD if kind == 0xFFFFFFFF
                        else data[offset:offset + kind])
        reels.append(reel)
    return reels


# ================================================================ the model

class Refused(Exception):
    """A call is refused: number, layer, reel, block."""


def refuse(number):
    raise Refused(number, 0, 0, 0)


class Group:
    """The bodies of a group's records. A bad block is None."""

    def __init__(self, header):
        self.band = header[135]
        self.mask = header[3585]
        self.sheets = {1: [header[6:]], 2: [], 3: [], 4: []}
        self.image = []


class Picture:
    """What an accepted set shows."""

    def __init__(self, reels):
        directory = reels[0][0]
        self.sensor = chr(directory[8])
        self.mission = directory[7] - ord("0")
        self.correction = directory[9:11].decode("ascii")
        self.ident = directory[34:52]
        self.interleaved = directory[30] == 255
        self.places = 5 if self.mission == 3 else 4
        self.body = 5382 if self.sensor == "R" else 3590
        kinds = {strips.ANCILLARY: 2, strips.ANNOTATION: 3, strips.TRAILER: 4}
        self.groups = []
        for reel in reels:
            for block in reel[1:]:              # behind the directory
                if block is survey.MARK:
                    continue
                if block is survey.BAD:
                    self.groups[-1].image.append(None)
                elif block[5] == strips.HEADER:
                    self.groups.append(Group(block))
                elif block[5] == strips.IMAGE:
                    self.groups[-1].image.append(block[6:])
                else:
                    self.groups[-1].sheets[kinds[block[5]]].append(block[6:])
        if self.interleaved:
            self.bands = [b for b in range(4, 9) if self.groups[0].mask & (256 >> b)]
            self.lines = len(self.groups[0].image) // self.places
        else:
            self.bands = [g.band if self.sensor == "R" else g.band - ord("0") for g in self.groups]
            self.lines = len(self.groups[0].image)

    def group(self, band):
        return self.groups[0 if self.interleaved else self.bands.index(band)]

    def line(self, band, line):
        image = self.group(band).image
        return image[(line - 1) * self.places + band - 4] if self.interleaved else image[line - 1]


class Reader:
    """A model of a reader over the reels of a set."""

    def __init__(self, reels):
        self.reels = reels
        self.picture = None
        self.delivered = 0

    def accepted(self):
        if self.picture is None:
            refuse(41)
        return self.picture

    def deliver(self, body, buffer):
        buffer[:len(body)] = body
        return "delivered %d" % len(body)

    def survey(self):
        self.picture = None
        try:
            survey.Survey(self.reels).run()
        except survey.Fault as fault:
            raise Refused(*fault.args)
        self.picture = p = Picture(self.reels)
        return "set %s %d %s %d %d" % (p.sensor, p.mission, p.correction, len(p.bands), p.lines)

    def band(self, k):
        bands = self.accepted().bands
        if not 1 <= k <= len(bands):
            refuse(42)
        return "code %d" % bands[k - 1]

    def ident(self, buffer):
        ident = self.accepted().ident
        if len(buffer) < len(ident):
            refuse(45)
        return self.deliver(ident, buffer)

    def line(self, band, line, buffer):
        picture = self.accepted()
        if band not in picture.bands:
            refuse(42)
        if not 1 <= line <= picture.lines:
            refuse(43)
        if len(buffer) < picture.body:
            refuse(45)
        body = picture.line(band, line)
        if body is None:
            refuse(46)
        self.delivered += 1
        return self.deliver(body, buffer)

    def sheet(self, band, kind, index, buffer):
        picture = self.accepted()
        if band not in picture.bands:
            refuse(42)
        sheets = picture.group(band).sheets.get(kind, [])
        if not 1 <= index <= len(sheets):
            refuse(44)
        if len(buffer) < picture.body:
            refuse(45)
        return self.deliver(sheets[index - 1], buffer)

    def tally(self):
        return "tally %d" % self.delivered


BUFFERED = ("ident", "line", "sheet")


def answer(reader, line):
    """The line that is printed of a call: the call, its answer, its buffer."""
    name, *numbers = line.split()
    numbers = [int(n) for n in numbers]
    buffer = bytearray()
    if name in BUFFERED:
        *numbers, length, fill = numbers
        buffer = bytearray([fill]) * length
        numbers.append(buffer)
    try:
        said = getattr(reader, name)(*numbers)
    except Refused as refused:
        said = "refused %d %d %d %d" % refused.args
    if buffer:
        total = sum(n * byte for n, byte in enumerate(buffer, 1)) % 2 ** 32
        said += ", buffer %d %d %d %d" % (len(buffer), total, buffer[0], buffer[-1])
    return "%s: %s" % (line, said)


def answers(script, files):
    """What the program prints of a script."""
    out, reader = [], None
    for line in script.splitlines():
        words = line.split()
        if not words or words[0] == "#":
            continue
        if words[0] in ("strip", "indexed"):
            stored = files["%s.%s" % (words[1], words[0])]
            read = survey.read_strip if words[0] == "strip" else read_indexed
            reader = Reader(read(stored))
            out.append(line)
        else:
            out.append(answer(reader, line))
    return "".join(line + "\n" for line in out)


# ============================================================== the command

def count(printed):
    runs, calls, said = 0, 0, {}
    for line in printed.splitlines():
        if ": " not in line:
            runs += 1
            continue
        calls += 1
        words = line.split(": ")[1].replace(",", "").split()
        what = words[0] + (" " + words[1] if words[0] == "refused" else "")
        said[what] = said.get(what, 0) + 1
    print("%d runs, %d calls" % (runs, calls))
    for what in sorted(said):
        print("%5d %s" % (said[what], what))


def images(script):
    """The images that a script names."""
    made, files = sets(), {}
    for line in script.splitlines():
        kind, *rest = line.split() or [""]
        if kind == "strip":
            files[rest[0] + ".strip"] = made[rest[0]].strip()
        elif kind == "indexed":
            files[rest[0] + ".indexed"] = indexed(made[rest[0]], rest[0])
    return files


def main(arguments):
    with open(os.path.join(DATA, "cases.txt")) as file:
        script = file.read()
    files = images(script)
    printed = answers(script, files)
    if arguments == ["--count"]:
        count(printed)
        return 0
    wanted = {os.path.join(DATA, name): data for name, data in files.items()}
    wanted[os.path.join(CRATE, "stdout")] = printed.encode("ascii")
    wrong = 0
    for path, data in wanted.items():
        if arguments == ["--check"]:
            with open(path, "rb") as file:
                if file.read() != data:
                    print("%s is not as it would be written" % os.path.relpath(path))
                    wrong += 1
        else:
            with open(path, "wb") as file:
                file.write(data)
    return 1 if wrong else 0


if __name__ == "__main__":
    sys.exit(main(sys.argv[1:]))
