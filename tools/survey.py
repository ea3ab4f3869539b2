#!/usr/bin/env python3
"""A second opinion on what the program tapelist must print.

This is a plain surveyor of strips, written from the layout of the tapes; it
uses nothing of the reader in this repository, nor of tools/strips.py.
It serves only to cross-check expectations that were stated by hand.

    survey.py STRIP...            prints the listing of each strip
    survey.py --check DIR...      compares each DIR/NNN.strip with DIR/expected.txt
"""

import os
import sys

LIMIT = 65536                     # the longest strip that tapelist reads
MARK, BAD, ABSENT = "mark", "bad", "absent"

DIRECTORY, HEADER, ANCILLARY = 0o011, 0o022, 0o044
ANNOTATION, IMAGE, TRAILER = 0o333, 0o355, 0o366

DECK, RECORD, SET = 1, 2, 3       # the layers of a fault
MOST_LINES = 8192


class ImageRefused(Exception):
    """The stored image is refused: number and byte offset."""


class Fault(Exception):
    """The tape is at fault: number, layer, reel, block."""


# ---------------------------------------------------------------- the strip

def read_strip(data):
    """The reels of a strip, each a list of blocks; a record is its bytes."""
    reels, reel, at = [], [], 0
    while True:
        if not reel and reels and at == len(data):
            return reels          # ends behind the word that closes a reel
        if len(reels) == 9:
            raise ImageRefused(3, at)
        if at + 4 > len(data):
            raise ImageRefused(1, at)
        word = int.from_bytes(data[at:at + 4], "big")
        if word == 0xFFFFFFFE:
            reels.append(reel)
            reel = []
            at += 4
            continue
        if not (word <= 5388 or word == 0xFFFFFFFF):
            raise ImageRefused(2, at)
        if len(reel) == 65535:
            raise ImageRefused(3, at)
        if word == 0:
            reel.append(MARK)
            at += 4
        elif word == 0xFFFFFFFF:
            reel.append(BAD)
            at += 4
        else:
            closing = at + 4 + word
            if closing + 4 > len(data):
                raise ImageRefused(1, at)
            if int.from_bytes(data[closing:closing + 4], "big") != word:
                raise ImageRefused(2, closing)
            reel.append(data[at + 4:closing])
            at = closing + 4


# --------------------------------------------------------------- the survey

def byte(record, n):
    """Byte n of a record, counted from 1."""
    return record[n - 1]


def pair(record, n):
    """Bytes n and n + 1 as one number."""
    return record[n - 1] * 256 + record[n]


class Survey:
    """Walks over the blocks in order. `reel` and `block` are the place of the
    block taken last; it is the place of every fault."""

    def __init__(self, reels):
        self.reels = reels
        self.reel = 0
        self.block = 0
        self.first_directory = None

    # -- blocks, one after the other

    def fault(self, number, layer):
        raise Fault(number, layer, self.reel, self.block)

    def take(self):
        """The next block of this reel, or absent."""
        self.block += 1
        blocks = self.reels[self.reel - 1]
        return blocks[self.block - 1] if self.block <= len(blocks) else ABSENT

    def must_be_mark(self, found):
        if found is ABSENT:
            self.fault(11, DECK)
        if found is BAD:
            self.fault(12, DECK)
        if found is not MARK:
            self.fault(22, RECORD)

    def must_be_record(self, found, length, kinds):
        """Checks a block that must be a record. `kinds` gives for each type
        that may stand here the number that it should have."""
        if found is ABSENT:
            self.fault(11, DECK)
        if found is BAD:
            self.fault(12, DECK)
        if found is MARK:
            self.fault(21, RECORD)
        if len(found) != length:
            self.fault(23, RECORD)
        if byte(found, 5) != 0:
            self.fault(24, RECORD)
        if byte(found, 6) not in kinds:
            self.fault(25, RECORD)
        if int.from_bytes(found[0:4], "big") != kinds[byte(found, 6)]:
            self.fault(26, RECORD)

    def last_reel(self):
        return self.reel == len(self.reels)

    def nothing_behind(self):
        if self.take() is not ABSENT:
            self.fault(38, SET)

    # -- directories

    def begin_reel(self):
        self.reel += 1
        self.block = 0
        found = self.take()
        self.must_be_record(found, 360, {DIRECTORY: 1})
        if self.first_directory is None:
            self.first_directory = found
            self.check_first_directory(found)
        else:
            first = self.first_directory
            if found[:18] != first[:18] or found[19:] != first[19:]:
                self.fault(32, SET)
            if byte(found, 19) != ord("0") + self.reel:
                self.fault(31, SET)
        self.must_be_mark(self.take())

    def check_first_directory(self, d):
        if d[6:7] != b"L" or d[7:8] not in (b"1", b"2", b"3") or d[8:9] not in (b"M", b"R"):
            self.fault(31, SET)
        self.mission = byte(d, 8) - ord("0")
        self.sensor = chr(byte(d, 9))
        if self.sensor == "R" and self.mission != 3:
            self.fault(31, SET)
        if d[9:11] not in (b"CP", b"CA"):
            self.fault(31, SET)
        self.correction = d[9:11].decode()
        if byte(d, 19) != ord("1") or byte(d, 20) != ord("0") + len(self.reels):
            self.fault(31, SET)
        if d[20:26] != b"      ":
            self.fault(31, SET)
        if byte(d, 30) != 0o355:
            self.fault(31, SET)
        self.interleaved = byte(d, 31) == 255
        if byte(d, 31) not in ((0, 255) if self.sensor == "M" else (0,)):
            self.fault(31, SET)
        self.length = 3596 if self.sensor == "M" else 5388
        if pair(d, 32) != self.length:
            self.fault(31, SET)
        self.sequential = self.sensor == "M" and not self.interleaved
        self.places = 5 if self.mission == 3 else 4
        self.directory_31 = byte(d, 31)
        if self.correction == "CP":
            self.ancillary, self.annotation = 0, 1
        else:
            self.ancillary, self.annotation = (26 if self.sensor == "M" else 30), 2

    # -- the files of a group

    def attributes(self, header):
        """The attributes file, of which the header has been taken."""
        self.must_be_record(header, self.length, {HEADER: 1})
        if pair(header, 101) != self.annotation:
            self.fault(33, SET)
        if pair(header, 105) != self.ancillary:
            self.fault(33, SET)
        if byte(header, 120) != self.directory_31:
            self.fault(33, SET)
        if byte(header, 121) != (self.places if self.interleaved else 0):
            self.fault(33, SET)
        code = chr(byte(header, 136))
        if self.interleaved:
            allowed = "0"
        elif self.sensor == "R":
            allowed = "ABCD"
        else:
            allowed = "45678" if self.mission == 3 else "4567"
        if code not in allowed:
            self.fault(34, SET)
        if self.sequential and self.bands and code <= self.bands[-1]:
            self.fault(34, SET)
        self.trailers = pair(header, 144)
        if not 1 <= self.trailers <= 5:
            self.fault(33, SET)
        if self.interleaved:
            # bits 0 0 0 4 5 6 7 8, the highest first
            bits = byte(header, 3586)
            if bits & 0b11100000 or bits == 0:
                self.fault(34, SET)
            if bits & 1 and self.mission != 3:
                self.fault(34, SET)
            self.bands = [str(b) for b in range(4, 9) if bits >> (8 - b) & 1]
        else:
            self.bands.append(code)
        number = 1
        for kind, count in ((ANCILLARY, self.ancillary), (ANNOTATION, self.annotation)):
            for _ in range(count):
                number += 1
                self.must_be_record(self.take(), self.length, {kind: number})
        self.must_be_mark(self.take())

    def image_block(self, found, more):
        """One line of one band: `more` says which types may stand here."""
        number = self.blocks_of_image + 1
        if found is not BAD:
            self.must_be_record(found, self.length, {IMAGE: number, **more})
            if byte(found, 6) == TRAILER:
                return False
        self.blocks_of_image = number
        if self.interleaved:
            line, place = (number - 1) // self.places + 1, (number - 1) % self.places
            band = str(4 + place)
        else:
            line, band = number, self.bands[-1]
        if line > MOST_LINES:
            self.fault(35, SET)
        if band not in self.bands:
            if found is BAD or any(found[6:]):
                self.fault(36, SET)
        elif found is not BAD:
            self.readable[band] = self.readable.get(band, 0) + 1
        return True

    def image_file(self):
        """The image file with its breaks, and the first trailer, which alone
        shows that the file has ended."""
        self.blocks_of_image = 0
        self.image_block(self.take(), {})
        while True:
            found = self.take()
            if found is not MARK:
                self.image_block(found, {})
                continue
            # the mark closes the file or is the first of a reel's end
            found = self.take()
            if found is not MARK:
                self.must_be_record(found, self.length, {TRAILER: 1})
                break
            if self.last_reel():
                self.fault(37, SET)
            self.nothing_behind()
            self.begin_reel()
            if not self.image_block(self.take(), {TRAILER: 1}):
                break
        count = self.blocks_of_image
        if self.interleaved:
            if count % self.places:
                self.fault(35, SET)
            self.lines = count // self.places
        elif self.lines is None:
            self.lines = count
        elif count != self.lines:
            self.fault(35, SET)

    def trailer_file(self):
        for number in range(2, self.trailers + 1):
            self.must_be_record(self.take(), self.length, {TRAILER: number})
        self.must_be_mark(self.take())

    # -- the whole set

    def run(self):
        self.bands, self.lines, self.readable = [], None, {}
        self.begin_reel()
        found = self.take()
        while True:
            self.attributes(found)
            self.image_file()
            self.trailer_file()
            found = self.take()
            if self.sequential and found not in (MARK, BAD, ABSENT):
                continue                      # the next band's header
            self.must_be_mark(found)
            if self.last_reel():
                break
            if not self.sequential:
                self.fault(37, SET)
            self.nothing_behind()
            self.begin_reel()
            found = self.take()
        if len(self.reels) > 1:
            self.must_be_mark(self.take())
        self.nothing_behind()


def listing(data):
    """The lines that tapelist prints for a strip."""
    if len(data) > LIMIT:
        return ["LONG"]
    try:
        survey = Survey(read_strip(data))
        survey.run()
    except ImageRefused as refused:
        return ["IMAGE %d %d" % refused.args]
    except Fault as fault:
        return ["FAULT %d %d %d %d" % fault.args]
    lines = ["SET %s %d %s %d %d" % (survey.sensor, survey.mission, survey.correction,
                                     len(survey.bands), survey.lines)]
    for band in survey.bands:
        lines.append("BAND %s %d" % (band, survey.readable.get(band, 0)))
    return lines


# -------------------------------------------------------------- the command

def read_expected(path):
    """The file of expectations: a line of three digits, then the listing."""
    expected, lines = {}, None
    with open(path) as file:
        for line in file.read().splitlines():
            if line.isdigit():
                lines = expected.setdefault(line, [])
            else:
                lines.append(line)
    return expected


def check(directory):
    expected = read_expected(os.path.join(directory, "expected.txt"))
    there = sorted(n[:-6] for n in os.listdir(directory) if n.endswith(".strip"))
    wrong = 0
    for name in sorted(set(there) | set(expected)):
        if name not in there or name not in expected:
            print("%s: %s has a strip or an expectation, not both" % (directory, name))
            wrong += 1
            continue
        with open(os.path.join(directory, name + ".strip"), "rb") as file:
            found = listing(file.read())
        if found != expected[name]:
            print("%s: %s is expected %s, surveyed %s" % (directory, name, expected[name], found))
            wrong += 1
    print("%s: %d strips, %d disagree" % (directory, len(there), wrong))
    return wrong


def main(arguments):
    if arguments[:1] == ["--check"]:
        return 1 if sum([check(directory) for directory in arguments[1:]]) else 0
    for path in arguments:
        with open(path, "rb") as file:
            print("\n".join(listing(file.read())))
    return 0


if __name__ == "__main__":
    sys.exit(main(sys.argv[1:]))
