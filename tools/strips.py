#!/usr/bin/env python3
"""Test strips for the program tapelist: valid sets and planted faults.

The first part writes valid tape sets as strips. The second part plants
faults: each case is a small edit of a valid set, and beside it stands the
listing that tapelist must print. Those listings were worked out by hand from
the layout; nothing in this file surveys a tape. tools/survey.py, which uses
nothing of this file, cross-checks them.

    strips.py DIRECTORY     writes DIRECTORY/NNN.strip and DIRECTORY/expected.txt
    strips.py --list        prints every case: number, size, listing, what it is
"""

import os
import sys

# =============================================================== the writer

MARK, BAD = "mark", "bad"

DIRECTORY, HEADER, ANCILLARY = 0o011, 0o022, 0o044
ANNOTATION, IMAGE, TRAILER = 0o333, 0o355, 0o366

END_OF_REEL = (0xFFFFFFFE).to_bytes(4, "big")
BAD_WORD = (0xFFFFFFFF).to_bytes(4, "big")
MARK_WORD = bytes(4)


def word(n):
    return n.to_bytes(4, "big")


def record(number, kind, length, filler):
    """A record: its number, a zero, its type, and a body of equal bytes."""
    return bytearray(word(number) + bytes([0, kind]) + bytes([filler]) * (length - 6))


def put(rec, first, value):
    """Sets bytes of a record from byte `first` on, counted from 1."""
    if isinstance(value, int):
        value = bytes([value])
    elif isinstance(value, str):
        value = value.encode("ascii")
    rec[first - 1:first - 1 + len(value)] = value


class Tape:
    """A set that can be edited: reels and blocks are counted from 1, and
    every edit hands back the tape, so that edits can be strung together."""

    def __init__(self, reels):
        self.reels = reels

    def at(self, reel, block):
        return self.reels[reel - 1][block - 1]

    def put(self, reel, block, first, value):
        """Changes bytes of the record there."""
        put(self.at(reel, block), first, value)
        return self

    def size(self, reel, block, length):
        """Gives the record there another length."""
        rec = self.at(reel, block)
        self.reels[reel - 1][block - 1] = (rec + bytes(length))[:length]
        return self

    def swap(self, reel, block, new):
        """Puts another block in place of the one there."""
        self.reels[reel - 1][block - 1] = new
        return self

    def insert(self, reel, block, *new):
        """Puts blocks in front of the one there; later ones move on."""
        self.reels[reel - 1][block - 1:block - 1] = list(new)
        return self

    def remove(self, reel, block, count=1):
        """Takes blocks out; later ones move up."""
        del self.reels[reel - 1][block - 1:block - 1 + count]
        return self

    def cut(self, reel, block):
        """Takes out the block there and all behind it on its reel."""
        del self.reels[reel - 1][block - 1:]
        return self

    def strip(self):
        out = bytearray()
        for reel in self.reels:
            for block in reel:
                if block is MARK:
                    out += MARK_WORD
                elif block is BAD:
                    out += BAD_WORD
                else:
                    out += word(len(block)) + block + word(len(block))
            out += END_OF_REEL
        return bytes(out)


def tape(form, mission, bands, lines=1, good=(), breaks=(), behind=(), trailers=1,
         correction="CP", free=0x20, image=0x55):
    """A valid set.

    form      BIL (interleaved by line), BSQ (band after band) or RBV
    bands     the codes of the bands present, as a string
    lines     the lines of each band; in BSQ also a list, one for each band
    good      the readable lines, as (band, line), or "all"; all others are
              bad blocks, which keeps strips small
    breaks    reels end behind these image blocks, as (group, block of the
              file), both from 1; behind the last block of a file the next
              reel begins with the trailer
    behind    reels end behind the trailer files of these groups (BSQ)
    trailers  trailer records; in BSQ also a list, one for each band
    free      the byte that fills all free places
    image     the byte that fills the bodies of image records
    """
    length = 5388 if form == "RBV" else 3596
    places = 5 if mission == 3 else 4
    reel_count = 1 + len(breaks) + len(behind)
    if correction == "CP":
        ancillary, annotation = 0, 1
    else:
        ancillary, annotation = (30 if form == "RBV" else 26), 2

    def directory(reel):
        d = record(1, DIRECTORY, 360, free)
        put(d, 7, "L%d%s%s" % (mission, "R" if form == "RBV" else "M", correction))
        put(d, 19, "%d%d" % (reel, reel_count))
        put(d, 21, "      ")
        put(d, 30, 0o355)
        put(d, 31, 255 if form == "BIL" else 0)
        put(d, 32, length.to_bytes(2, "big"))
        put(d, 35, "SCENE IDENTITY 018")
        return d

    def line_block(number, band, line):
        if form == "BIL" and band not in bands:
            return record(number, IMAGE, length, 0)
        if good == "all" or (band, line) in good:
            return record(number, IMAGE, length, image)
        return BAD

    reels = [[directory(1), MARK]]

    def next_reel():
        reels.append([directory(len(reels) + 1), MARK])

    groups = [bands] if form == "BIL" else list(bands)
    for group, code in enumerate(groups, 1):
        t = trailers if isinstance(trailers, int) else trailers[group - 1]
        n = lines if isinstance(lines, int) else lines[group - 1]

        h = record(1, HEADER, length, free)
        put(h, 101, annotation.to_bytes(2, "big"))
        put(h, 105, ancillary.to_bytes(2, "big"))
        put(h, 120, 255 if form == "BIL" else 0)
        put(h, 121, places if form == "BIL" else 0)
        put(h, 136, "0" if form == "BIL" else code)
        put(h, 144, t.to_bytes(2, "big"))
        if form == "BIL":
            put(h, 3586, sum(1 << (8 - int(b)) for b in bands))
        reels[-1].append(h)
        for i in range(ancillary):
            reels[-1].append(record(2 + i, ANCILLARY, length, free))
        for i in range(annotation):
            reels[-1].append(record(2 + ancillary + i, ANNOTATION, length, free))
        reels[-1].append(MARK)

        if form == "BIL":
            order = [(str(4 + p), l) for l in range(1, n + 1) for p in range(places)]
        else:
            order = [(code, l) for l in range(1, n + 1)]
        closed = False
        for k, (band, line) in enumerate(order, 1):
            reels[-1].append(line_block(k, band, line))
            if (group, k) in breaks:
                reels[-1] += [MARK, MARK]
                next_reel()
                closed = k == len(order)
        if not closed:
            reels[-1].append(MARK)

        for i in range(t):
            reels[-1].append(record(1 + i, TRAILER, length, free))
        reels[-1].append(MARK)
        if group < len(groups) and group in behind:
            reels[-1].append(MARK)
            next_reel()
    reels[-1].append(MARK)
    if reel_count > 1:
        reels[-1].append(MARK)
    assert len(reels) == reel_count
    return Tape(reels)


# ---------------------------------------------------------- the basic sets
#
# What stands in each block, as the planters below count it:
#
#   bil()    1 directory  2 mark  3 header  4 annotation  5 mark
#            6 to 9 image (bands 4 to 7)  10 mark  11 trailer  12, 13 marks
#   bsq()    1 directory  2 mark  3 header  4 annotation  5 mark
#            6 image  7 mark  8 trailer  9, 10 marks
#   rbv()    as bsq()
#   bsq2()   as bsq() up to the mark at 9, then
#            10 header  11 annotation  12 mark  13 image  14 mark
#            15 trailer  16, 17 marks
#
#   bil_in()      reel 1: 6, 7 image  8, 9 marks
#                 reel 2: 1 directory  2 mark  3, 4 image  5 mark  6 trailer
#                         7, 8, 9 marks
#   bil_end()     reel 1: 6 to 9 image  10, 11 marks
#                 reel 2: 1 directory  2 mark  3 trailer  4, 5, 6 marks
#   bsq_in()      reel 1: 6 image  7, 8 marks
#                 reel 2: 1 directory  2 mark  3 image  4 mark  5 trailer
#                         6, 7, 8 marks
#   bsq_end()     reel 1: 6 image  7, 8 marks
#                 reel 2: 1 directory  2 mark  3 trailer  4, 5, 6 marks
#   bsq_behind()  reel 1: 6 image  7 mark  8 trailer  9, 10 marks
#                 reel 2: 1 directory  2 mark  3 header  4 annotation  5 mark
#                         6 image  7 mark  8 trailer  9, 10, 11 marks
#   rbv_in(), rbv_end()   as bsq_in(), bsq_end()

def bil(**more):
    return tape("BIL", 1, "4567", **{"good": [("5", 1)], **more})


def bsq(**more):
    return tape("BSQ", 2, "6", **more)


def rbv(**more):
    return tape("RBV", 3, "C", **more)


def bsq2(**more):
    return tape("BSQ", 3, "48", **more)


def bil_in():
    return tape("BIL", 1, "4567", breaks=[(1, 2)], good=[("6", 1)])


def bil_end():
    return tape("BIL", 2, "4567", breaks=[(1, 4)], good=[("7", 1)])


def bsq_in():
    return tape("BSQ", 1, "5", lines=2, breaks=[(1, 1)], good=[("5", 2)])


def bsq_end():
    return tape("BSQ", 3, "8", breaks=[(1, 1)])


def bsq_behind():
    return tape("BSQ", 2, "47", behind=[1])


def rbv_in():
    return tape("RBV", 3, "A", lines=2, breaks=[(1, 1)], good=[("A", 2)])


def rbv_end():
    return tape("RBV", 3, "D", breaks=[(1, 1)])


# ================================================================ the cases

CASES = []


def case(what, made, *listing):
    """One case: what it shows, the strip (a tape or bytes), and the listing."""
    data = made.strip() if isinstance(made, Tape) else bytes(made)
    CASES.append((what, data, listing))


# -------------------------------------------------------------- sets to accept

def accepted():
    case("interleaved, one reel, one readable line",
         bil(), "SET M 1 CP 4 1", "BAND 4 0", "BAND 5 1", "BAND 6 0", "BAND 7 0")
    case("band after band, two bands, one readable",
         bsq2(good=[("8", 1)]), "SET M 3 CP 2 1", "BAND 4 0", "BAND 8 1")
    case("interleaved, mission 3, five bands, two lines, bad blocks scattered",
         tape("BIL", 3, "45678", lines=2, good=[("4", 2), ("6", 1), ("8", 1), ("8", 2)]),
         "SET M 3 CP 5 2", "BAND 4 1", "BAND 5 0", "BAND 6 1", "BAND 7 0", "BAND 8 2")
    case("interleaved, mission 3, band 8 alone, the others zero",
         tape("BIL", 3, "8", good="all"), "SET M 3 CP 1 1", "BAND 8 1")
    case("interleaved, a present band's record all zero is readable",
         tape("BIL", 2, "4567", good=[("6", 1)], image=0),
         "SET M 2 CP 4 1", "BAND 4 0", "BAND 5 0", "BAND 6 1", "BAND 7 0")
    case("free bytes all ones, byte 3586 among them",
         bsq(free=255, good="all", image=255), "SET M 2 CP 1 1", "BAND 6 1")
    case("five trailers, interleaved", bil(good=[], trailers=5),
         "SET M 1 CP 4 1", "BAND 4 0", "BAND 5 0", "BAND 6 0", "BAND 7 0")
    case("band after band, each band with its own number of trailers",
         bsq2(trailers=[3, 1]), "SET M 3 CP 2 1", "BAND 4 0", "BAND 8 0")
    case("band after band, all five bands of mission 3",
         tape("BSQ", 3, "45678"), "SET M 3 CP 5 1",
         "BAND 4 0", "BAND 5 0", "BAND 6 0", "BAND 7 0", "BAND 8 0")
    # breaks
    case("interleaved, broken inside the image file",
         bil_in(), "SET M 1 CP 4 1", "BAND 4 0", "BAND 5 0", "BAND 6 1", "BAND 7 0")
    case("interleaved, broken behind the image file",
         bil_end(), "SET M 2 CP 4 1", "BAND 4 0", "BAND 5 0", "BAND 6 0", "BAND 7 1")
    case("band after band, broken inside an image file",
         bsq_in(), "SET M 1 CP 1 2", "BAND 5 1")
    case("band after band, broken behind an image file",
         bsq_end(), "SET M 3 CP 1 1", "BAND 8 0")
    case("band after band, broken behind a trailer file",
         bsq_behind(), "SET M 2 CP 2 1", "BAND 4 0", "BAND 7 0")
    case("RBV, broken inside the image file",
         rbv_in(), "SET R 3 CP 1 2", "BAND A 1")
    case("RBV, broken behind the image file", rbv_end(), "SET R 3 CP 1 1", "BAND D 0")
    case("interleaved with missing bands, a break in each line; a missing band behind a break",
         tape("BIL", 1, "46", lines=2, breaks=[(1, 1), (1, 5)], good=[("6", 2)]),
         "SET M 1 CP 2 2", "BAND 4 0", "BAND 6 1")
    case("interleaved, three reels: inside the image file and behind it; two trailers",
         tape("BIL", 2, "4567", breaks=[(1, 3), (1, 4)], trailers=2),
         "SET M 2 CP 4 1", "BAND 4 0", "BAND 5 0", "BAND 6 0", "BAND 7 0")
    case("band after band, a break of each kind: inside, behind the image, behind the trailer",
         tape("BSQ", 3, "458", lines=2, breaks=[(1, 1), (2, 2)], behind=[2]),
         "SET M 3 CP 3 2", "BAND 4 0", "BAND 5 0", "BAND 8 0")
    case("nine reels, RBV, a bad block on each",
         tape("RBV", 3, "B", lines=9, breaks=[(1, k) for k in range(1, 9)]),
         "SET R 3 CP 1 9", "BAND B 0")
    case("record number 300 behind 299 bad blocks",
         tape("BSQ", 2, "4", lines=300, good=[("4", 300)]), "SET M 2 CP 1 300", "BAND 4 1")


# ---------------------------------------------------- images that are refused

def refused():
    ends = END_OF_REEL
    case("empty input", b"", "IMAGE 1 0")
    case("three bytes of a word that would be illegal", b"\x80\0\0", "IMAGE 1 0")
    case("a mark and no end of reel", MARK_WORD, "IMAGE 1 4")
    case("a bad block and three bytes", BAD_WORD + b"\xff\xff\xff", "IMAGE 1 4")
    case("a reel and two bytes more", ends + b"\0\0", "IMAGE 1 4")
    case("a record without its closing word", word(5) + b"abcde", "IMAGE 1 0")
    case("a record, its closing word cut", word(5) + b"abcde" + word(5)[:3], "IMAGE 1 0")
    case("a record cut on the second reel", MARK_WORD + ends + word(3) + b"ab", "IMAGE 1 8")
    case("illegal word 5,389", word(5389) + bytes(5389) + word(5389) + ends, "IMAGE 2 0")
    case("illegal word 5,389 with nothing behind it", word(5389), "IMAGE 2 0")
    case("illegal word 4,294,967,293", word(0xFFFFFFFD) + ends, "IMAGE 2 0")
    case("illegal word 65,536", MARK_WORD + word(65536) + ends, "IMAGE 2 4")
    case("longest record, closing word one less", word(5388) + bytes(5388) + word(5387) + ends,
         "IMAGE 2 5392")
    case("closing word an end of reel", word(2) + b"ab" + ends, "IMAGE 2 6")
    case("ten empty reels", ends * 10, "IMAGE 3 36")
    nine = tape("BSQ", 1, "4", lines=9, breaks=[(1, k) for k in range(1, 9)]).strip()
    case("nine good reels and one byte", nine + b"\xff", "IMAGE 3 %d" % len(nine))
    whole = bsq().strip()
    case("a good set, its end of reel cut", whole[:-1], "IMAGE 1 %d" % (len(whole) - 4))
    case("a good set and one byte", whole + b"\0", "IMAGE 1 %d" % len(whole))
    # directory 4 + 360 + 4, mark 4: the header's word is at 372, its closing word at 372 + 4 + 3,596
    case("closing word of the header different",
         whole[:3972] + word(3595) + whole[3976:], "IMAGE 2 3972")
    case("cut inside the header", whole[:3000], "IMAGE 1 372")
    case("an image refusal goes before a fault in block 1",
         bsq().put(1, 1, 7, "X").strip()[:-4], "IMAGE 1 %d" % (len(whole) - 4))
    # the limit of the program
    case("65,536 bytes of bad blocks, no end of reel", BAD_WORD * 16384, "IMAGE 1 65536")
    case("65,537 bytes", BAD_WORD * 16384 + b"\0", "LONG")
    # directory 368, mark 4; header and annotation 2 * 3,604, mark 4; then the
    # lines; mark 4; five trailers 5 * 3,604; two marks 8; end of reel 4: 25,620
    # without the lines, so 39,916 are left: three records (10,812) and 7,276
    # bad blocks (29,104) fill them.
    full = tape("BSQ", 1, "7", lines=7279, trailers=5, good=[("7", 1), ("7", 300), ("7", 7279)])
    assert len(full.strip()) == 65536
    case("a good set of 65,536 bytes", full, "SET M 1 CP 1 7279", "BAND 7 3")
    case("a good set of 65,540 bytes",
         tape("BSQ", 1, "7", lines=7280, trailers=5, good=[("7", 1), ("7", 300), ("7", 7279)]), "LONG")


# ------------------------------------------------- 11: absent, 12: bad block

def deck_faults():
    for block in (2, 4, 6, 7, 11, 13):
        case("interleaved, the reel stops before block %d" % block,
             bil().cut(1, block), "FAULT 11 1 1 %d" % block)
    for block in (3, 8, 10):
        case("band after band, the reel stops before block %d" % block,
             bsq().cut(1, block), "FAULT 11 1 1 %d" % block)
    for block in (5, 9):
        case("RBV, the reel stops before block %d" % block,
             rbv().cut(1, block), "FAULT 11 1 1 %d" % block)
    case("second mark of reel 1 absent", bil_in().cut(1, 9), "FAULT 11 1 1 9")
    case("second reel empty", bil_in().cut(2, 1), "FAULT 11 1 2 1")
    case("nothing behind a break inside an image file", bsq_in().cut(2, 3), "FAULT 11 1 2 3")
    case("nothing behind a break behind a trailer file", bsq_behind().cut(2, 3), "FAULT 11 1 2 3")
    case("interleaved, third closing mark absent", bil_in().cut(2, 9), "FAULT 11 1 2 9")
    case("band after band, third closing mark absent", bsq_behind().cut(2, 11), "FAULT 11 1 2 11")
    case("RBV, third closing mark absent", rbv_end().cut(2, 6), "FAULT 11 1 2 6")

    for block, what in ((1, "directory"), (2, "mark behind the directory"), (4, "annotation"),
                        (5, "mark behind the attributes"), (12, "mark behind the trailer")):
        case("interleaved, bad block for the " + what,
             bil().swap(1, block, BAD), "FAULT 12 1 1 %d" % block)
    case("RBV, bad block for the trailer", rbv().swap(1, 8, BAD), "FAULT 12 1 1 8")
    case("RBV, bad block behind the trailer file", rbv().swap(1, 10, BAD), "FAULT 12 1 1 10")
    case("band after band, bad block for the second header", bsq2().swap(1, 10, BAD), "FAULT 12 1 1 10")
    case("bad block for the second mark of reel 1", bsq_in().swap(1, 8, BAD), "FAULT 12 1 1 8")
    case("bad block for the header behind a break", bsq_behind().swap(2, 3, BAD), "FAULT 12 1 2 3")
    case("interleaved, bad block for the third closing mark", bil_end().swap(2, 6, BAD), "FAULT 12 1 2 6")
    # a bad block for the image file's closing mark is one line more, and the
    # trailer then stands inside the image file
    case("a bad block for the mark behind the image file is a line",
         rbv().swap(1, 7, BAD), "FAULT 25 2 1 8")


# ------------------------------------------- 21: mark, 22: record, 23 to 26

def record_faults():
    case("mark for the directory", bil().swap(1, 1, MARK), "FAULT 21 2 1 1")
    case("mark for the header", rbv().insert(1, 3, MARK), "FAULT 21 2 1 3")
    case("mark for the annotation", bsq().remove(1, 4), "FAULT 21 2 1 4")
    case("interleaved, image file empty", bil().remove(1, 6, 4), "FAULT 21 2 1 6")
    case("RBV, image file empty", rbv().remove(1, 6), "FAULT 21 2 1 6")
    case("one trailer where the header says two", bil(trailers=2).remove(1, 12), "FAULT 21 2 1 12")
    case("mark behind a break inside an image file", bil_in().insert(2, 3, MARK), "FAULT 21 2 2 3")
    case("mark behind a break behind a trailer file", bsq_behind().insert(2, 3, MARK), "FAULT 21 2 2 3")

    one = record(1, TRAILER, 3596, 0)
    case("no mark behind the directory", bil().remove(1, 2), "FAULT 22 2 1 2")
    case("no mark behind the attributes; the image begins",
         rbv(good="all").remove(1, 5), "FAULT 22 2 1 5")
    case("one trailer more than the header says",
         bil().insert(1, 12, record(2, TRAILER, 3596, 0)), "FAULT 22 2 1 12")
    case("band after band, no mark between trailer and next header",
         bsq2().remove(1, 9), "FAULT 22 2 1 9")
    case("interleaved, a header behind the trailer file",
         bil().insert(1, 13, record(1, HEADER, 3596, 0)), "FAULT 22 2 1 13")
    case("RBV, a record of one byte behind the trailer file",
         rbv().swap(1, 10, bytearray(b"x")), "FAULT 22 2 1 10")
    case("interleaved, a record for the third closing mark", bil_in().swap(2, 9, one), "FAULT 22 2 2 9")
    case("band after band, a header for the third closing mark",
         bsq_behind().swap(2, 11, record(1, HEADER, 3596, 0)), "FAULT 22 2 2 11")

    # 23 length
    case("directory of 359 bytes", bil().size(1, 1, 359), "FAULT 23 2 1 1")
    case("header of 3,595 bytes", bsq().size(1, 3, 3595), "FAULT 23 2 1 3")
    case("header of 3,596 bytes in an RBV set", rbv().size(1, 3, 3596), "FAULT 23 2 1 3")
    case("image record of 3,597 bytes", bil().size(1, 7, 3597), "FAULT 23 2 1 7")
    case("RBV image record of 5,387 bytes", rbv(good="all").size(1, 6, 5387), "FAULT 23 2 1 6")
    case("image record of five bytes", bsq(good="all").size(1, 6, 5), "FAULT 23 2 1 6")
    case("image record behind a break one byte long", bsq_in().size(2, 3, 1), "FAULT 23 2 2 3")

    # 24 byte 5
    case("byte 5 of the directory", bsq().put(1, 1, 5, 1), "FAULT 24 2 1 1")
    case("byte 5 of the annotation", rbv().put(1, 4, 5, 255), "FAULT 24 2 1 4")
    case("byte 5 of an image record", bil().put(1, 7, 5, 1), "FAULT 24 2 1 7")
    case("byte 5 of a trailer", bsq().put(1, 8, 5, 2), "FAULT 24 2 1 8")
    case("byte 5 of a trailer behind a break", bil_end().put(2, 3, 5, 64), "FAULT 24 2 2 3")

    # 25 type
    case("directory with a header's type", bil().put(1, 1, 6, HEADER), "FAULT 25 2 1 1")
    case("header with a directory's type", rbv().put(1, 3, 6, DIRECTORY), "FAULT 25 2 1 3")
    case("an ancillary record in a corrected set", bsq().put(1, 4, 6, ANCILLARY), "FAULT 25 2 1 4")
    case("interleaved, image record with a trailer's type inside the file",
         bil().put(1, 7, 6, TRAILER), "FAULT 25 2 1 7")
    case("the image file begins with a trailer", bsq(good="all").put(1, 6, 6, TRAILER), "FAULT 25 2 1 6")
    case("an image record behind the image file's mark", bil().put(1, 11, 6, IMAGE), "FAULT 25 2 1 11")
    case("behind the first band's trailer file an image record", bsq2().put(1, 10, 6, IMAGE),
         "FAULT 25 2 1 10")
    case("behind a break a header", bil_in().swap(2, 3, record(3, HEADER, 3596, 0)), "FAULT 25 2 2 3")
    case("behind a break behind an image file the next header, the trailer left out",
         tape("BSQ", 2, "47", breaks=[(1, 1)]).remove(2, 3, 2), "FAULT 25 2 2 3")
    case("behind a break behind a trailer file an image record", bsq_behind().put(2, 3, 6, IMAGE),
         "FAULT 25 2 2 3")

    # 26 number
    case("directory number 0", rbv().put(1, 1, 1, word(0)), "FAULT 26 2 1 1")
    case("annotation number 1", bil().put(1, 4, 1, word(1)), "FAULT 26 2 1 4")
    case("a bad block uses up its number: band 5's record is 2, not 1",
         bil().put(1, 7, 1, word(1)), "FAULT 26 2 1 7")
    case("RBV, image number 1 with the highest byte set", rbv(good="all").put(1, 6, 1, 1), "FAULT 26 2 1 6")
    case("number 300 written as 44",
         tape("BSQ", 2, "4", lines=300, good=[("4", 300)]).put(1, 305, 1, word(44)), "FAULT 26 2 1 305")
    case("trailer goes on counting from the image", bsq().put(1, 8, 1, word(2)), "FAULT 26 2 1 8")
    case("second band's image goes on counting from the first's",
         bsq2(good=[("8", 1)]).put(1, 13, 1, word(2)), "FAULT 26 2 1 13")
    case("numbers begin again behind a break, interleaved", bil_in().put(2, 3, 1, word(1)), "FAULT 26 2 2 3")
    case("numbers begin again behind a break, band after band",
         bsq_in().put(2, 3, 1, word(1)), "FAULT 26 2 2 3")
    case("numbers begin again behind a break, RBV", rbv_in().put(2, 3, 1, word(1)), "FAULT 26 2 2 3")
    case("trailer behind a break with the image's next number",
         bil_end().put(2, 3, 1, word(5)), "FAULT 26 2 2 3")
    case("image record behind a break becomes a trailer and keeps its number",
         bsq_in().put(2, 3, 6, TRAILER), "FAULT 26 2 2 3")
    case("a bad block in block 3 behind a break uses up its number",
         tape("BSQ", 1, "5", lines=3, breaks=[(1, 1)], good=[("5", 3)]).put(2, 4, 1, word(2)),
         "FAULT 26 2 2 4")


# --------------------------------------------- 31 and 32: directories

def directory_faults():
    forms = [bil, bsq, rbv]
    # each checked byte once with a value that is wrong in every form; the
    # forms take turns
    for i, (n, value) in enumerate((
            (7, "l"), (8, "0"), (9, "S"), (10, "A"), (11, "C"), (19, "2"), (20, "2"),
            (21, 0), (22, "0"), (23, 0xA0), (24, 0x21), (25, 0x1F), (26, 255),
            (30, 0o354), (31, 1), (32, 0), (33, 0x0D))):
        case("%s, directory byte %d" % (forms[i % 3].__name__, n),
             forms[i % 3]().put(1, 1, n, value), "FAULT 31 3 1 1")
    for what, made in (
            ("RBV of mission 1", rbv().put(1, 1, 8, "1")),
            ("sensor R, all else MSS of mission 3", bsq2().put(1, 1, 9, "R")),
            ("reel count 1 in a set of two", bil_in().put(1, 1, 20, "1").put(2, 1, 20, "1")),
            ("byte 31 is 255 for RBV", rbv().put(1, 1, 31, 255)),
            ("records of 5,388 bytes for MSS", bil().put(1, 1, 32, (5388).to_bytes(2, "big"))),
            ("records of 3,596 bytes for RBV", rbv().put(1, 1, 32, (3596).to_bytes(2, "big")))):
        case("directory: " + what, made, "FAULT 31 3 1 1")

    case("interleaved, a free byte of the second directory", bil_in().put(2, 1, 12, 0), "FAULT 32 3 2 1")
    case("band after band, the last byte of the second directory",
         bsq_behind().put(2, 1, 360, 0), "FAULT 32 3 2 1")
    case("RBV, the identification of the second directory", rbv_in().put(2, 1, 52, "9"), "FAULT 32 3 2 1")
    case("byte 7 of the second directory", bil_end().put(2, 1, 7, "l"), "FAULT 32 3 2 1")
    case("byte 18 of the second directory", bil_end().put(2, 1, 18, 255), "FAULT 32 3 2 1")
    case("byte 20 of the second directory", bsq_end().put(2, 1, 20, "3"), "FAULT 32 3 2 1")
    case("interleaved, second directory says reel 1", bil_in().put(2, 1, 19, "1"), "FAULT 31 3 2 1")
    case("band after band, second directory says reel 3", bsq_behind().put(2, 1, 19, "3"), "FAULT 31 3 2 1")
    case("RBV, second directory's reel a number", rbv_end().put(2, 1, 19, 2), "FAULT 31 3 2 1")
    case("second directory, byte 19 wrong and a free byte too",
         bil_in().put(2, 1, 19, "1").put(2, 1, 29, 0), "FAULT 32 3 2 1")
    case("second directory, byte 19 wrong and byte 7 too",
         rbv_in().put(2, 1, 19, "1").put(2, 1, 7, "M"), "FAULT 32 3 2 1")
    case("third directory equals the second",
         tape("BSQ", 1, "4", lines=3, breaks=[(1, 1), (1, 2)]).put(3, 1, 19, "2"), "FAULT 31 3 3 1")


# ------------------------------------------------ 33 and 34: header values

def header_faults():
    for what, made in (
            ("interleaved, byte 101", bil().put(1, 3, 101, 1)),
            ("RBV, byte 102 is 2", rbv().put(1, 3, 102, 2)),
            ("band after band, byte 105", bsq().put(1, 3, 105, 1)),
            ("interleaved, byte 106", bil().put(1, 3, 106, 1)),
            ("interleaved, byte 120 is 0", bil().put(1, 3, 120, 0)),
            ("band after band, byte 120 is 255", bsq().put(1, 3, 120, 255)),
            ("RBV, byte 120 is 255", rbv().put(1, 3, 120, 255)),
            ("interleaved, mission 1, byte 121 is 5", bil().put(1, 3, 121, 5)),
            ("interleaved, mission 3, byte 121 is 4",
             tape("BIL", 3, "4567").put(1, 3, 121, 4)),
            ("interleaved, byte 121 counts the bands present",
             tape("BIL", 1, "456").put(1, 3, 121, 3)),
            ("band after band, byte 121 is 4", bsq().put(1, 3, 121, 4)),
            ("RBV, byte 121 is 1", rbv().put(1, 3, 121, 1)),
            ("interleaved, byte 144", bil().put(1, 3, 144, 1)),
            ("interleaved, no trailers", bil().put(1, 3, 145, 0)),
            ("RBV, no trailers", rbv().put(1, 3, 145, 0)),
            ("band after band, six trailers", bsq().put(1, 3, 145, 6))):
        case("header: " + what, made, "FAULT 33 3 1 3")
    case("second header: six trailers", bsq2().put(1, 10, 145, 6), "FAULT 33 3 1 10")
    case("header behind a break: byte 102", bsq_behind().put(2, 3, 102, 0), "FAULT 33 3 2 3")
    # uncorrected sets: the whole attributes file does not fit, its start does
    ca = lambda form: tape(form, 3, "B" if form == "RBV" else "4", correction="CA")
    case("uncorrected MSS, 30 ancillary records", ca("BSQ").cut(1, 4).put(1, 3, 106, 30), "FAULT 33 3 1 3")
    case("uncorrected RBV, 26 ancillary records", ca("RBV").cut(1, 4).put(1, 3, 106, 26), "FAULT 33 3 1 3")
    case("uncorrected MSS band after band, stops behind the header", ca("BSQ").cut(1, 4), "FAULT 11 1 1 4")
    case("uncorrected RBV, stops behind two ancillary records", ca("RBV").cut(1, 6), "FAULT 11 1 1 6")
    case("uncorrected, annotation where an ancillary record must be",
         ca("BSQ").cut(1, 6).put(1, 4, 6, ANNOTATION), "FAULT 25 2 1 4")
    case("uncorrected RBV, second ancillary record's number",
         ca("RBV").cut(1, 6).put(1, 5, 1, word(2)), "FAULT 26 2 1 5")
    case("uncorrected interleaved, bad block for an ancillary record",
         ca("BIL").cut(1, 6).swap(1, 5, BAD), "FAULT 12 1 1 5")
    case("uncorrected, a mark behind 14 ancillary records",
         ca("BIL").cut(1, 19).insert(1, 18, MARK), "FAULT 21 2 1 18")

    for what, made in (
            ("interleaved, byte 136 is 4", bil().put(1, 3, 136, "4")),
            ("band after band, byte 136 is 3", bsq().put(1, 3, 136, "3")),
            ("band after band, mission 3, byte 136 is 9", bsq_end().put(1, 3, 136, "9")),
            ("band 8 of mission 1", tape("BSQ", 1, "7").put(1, 3, 136, "8")),
            ("band 8 of mission 2", bsq().put(1, 3, 136, "8")),
            ("RBV, byte 136 is E", rbv().put(1, 3, 136, "E")),
            ("RBV, byte 136 is @", rbv().put(1, 3, 136, "@")),
            ("byte 3586 is zero", bil().put(1, 3, 3586, 0)),
            ("byte 3586 with bit 1", bil().put(1, 3, 3586, 0b10011110)),
            ("byte 3586 with bit 2", bil().put(1, 3, 3586, 0b01011110)),
            ("byte 3586 with bit 3", tape("BIL", 3, "45678").put(1, 3, 3586, 0b00111111)),
            ("byte 3586 with band 8, mission 1", bil().put(1, 3, 3586, 0b00011111))):
        case("band: " + what, made, "FAULT 34 3 1 3")
    case("second band equals the first", bsq2().put(1, 10, 136, "4"), "FAULT 34 3 1 10")
    case("second band below the first", tape("BSQ", 1, "57").put(1, 10, 136, "4"), "FAULT 34 3 1 10")
    case("third band between the first and the second",
         tape("BSQ", 3, "468").put(1, 17, 136, "5"), "FAULT 34 3 1 17")
    case("behind a break a band follows the last one",
         bsq_behind().put(1, 3, 136, "7").put(2, 3, 136, "7"), "FAULT 34 3 2 3")


# ------------------------------------------- 35 and 36: lines, missing bands

def line_faults():
    # interleaved: the count must be a multiple of B, told at the first trailer
    case("interleaved, one image block too few", bil().remove(1, 9), "FAULT 35 3 1 10")
    case("interleaved, one image block too many", bil().insert(1, 10, BAD), "FAULT 35 3 1 12")
    case("interleaved, mission 3, four blocks", tape("BIL", 3, "45678").remove(1, 10), "FAULT 35 3 1 11")
    case("interleaved by the bands present, not by B",
         tape("BIL", 1, "45", lines=1).remove(1, 8, 2), "FAULT 35 3 1 9")
    case("interleaved, count wrong, the trailer behind a break",
         tape("BIL", 2, "4567", breaks=[(1, 4)]).remove(1, 9), "FAULT 35 3 2 3")
    # band after band: the count must be the first band's
    case("second band shorter", tape("BSQ", 3, "48", lines=[2, 1]), "FAULT 35 3 1 16")
    case("second band longer", tape("BSQ", 3, "48", lines=[1, 2]), "FAULT 35 3 1 16")
    case("second band shorter, its trailer behind a break",
         tape("BSQ", 3, "48", lines=[2, 1], breaks=[(2, 1)]), "FAULT 35 3 2 3")
    # 8,192 lines and one more; line n stands at block 5 + n
    case("band after band, 8,192 lines",
         tape("BSQ", 1, "4", lines=8192), "SET M 1 CP 1 8192", "BAND 4 0")
    case("band after band, 8,193 lines", tape("BSQ", 1, "4", lines=8193), "FAULT 35 3 1 8198")
    case("RBV, 8,192 lines, the last readable",
         tape("RBV", 3, "D", lines=8192, good=[("D", 8192)]), "SET R 3 CP 1 8192", "BAND D 1")
    case("RBV, 8,193 lines, the last a record",
         tape("RBV", 3, "D", lines=8193, good=[("D", 8193)]), "FAULT 35 3 1 8198")
    case("RBV, 8,192 lines on the first reel, a bad block behind the break",
         tape("RBV", 3, "D", lines=8193, breaks=[(1, 8192)]), "FAULT 35 3 2 3")
    case("8,193rd line with a wrong number",
         tape("BSQ", 3, "8", lines=8193, good=[("8", 8193)]).put(1, 8198, 1, word(1)), "FAULT 26 2 1 8198")
    # the second band's lines begin at block 13
    case("second band of 8,193 lines, the first of one: told at the block",
         tape("BSQ", 2, "45", lines=[1, 8193]), "FAULT 35 3 1 8205")

    # 36: three of the four bands present, the missing one at each place
    for band, place in (("4", 6), ("7", 9)):
        others = "4567".replace(band, "")
        case("bad block for missing band " + band,
             tape("BIL", 1, others).swap(1, place, BAD), "FAULT 36 3 1 %d" % place)
    for what, n in (("first", 7), ("middle", 1800), ("last", 3596)):
        case("missing band 6, %s body byte not zero" % what,
             tape("BIL", 2, "457").put(1, 8, n, 1), "FAULT 36 3 1 8")
    case("missing band 8, not zero", tape("BIL", 3, "4567").put(1, 10, 3595, 128), "FAULT 36 3 1 10")
    case("missing band 5 in the second line",
         tape("BIL", 1, "467", lines=2).put(1, 11, 8, 255), "FAULT 36 3 1 11")
    case("missing band in block 3 behind a break, bad",
         tape("BIL", 1, "457", breaks=[(1, 2)]).swap(2, 3, BAD), "FAULT 36 3 2 3")
    case("missing band in block 3 behind a break, not zero",
         tape("BIL", 1, "457", breaks=[(1, 2)]).put(2, 3, 3596, 1), "FAULT 36 3 2 3")
    case("a band present by the picture, missing by the header",
         tape("BIL", 1, "4567", good=[("7", 1)]).put(1, 3, 3586, 0b00011100), "FAULT 36 3 1 9")


# ------------------------------------------------- 37 and 38: ends of reels

def end_faults():
    # unfinished on the last reel: the second mark behind an image file
    case("interleaved, one reel ends behind the image file", bil().remove(1, 11, 2), "FAULT 37 3 1 11")
    case("band after band, one reel ends behind the image file", bsq().remove(1, 8, 2), "FAULT 37 3 1 8")
    case("RBV, one reel ends behind the image file", rbv().remove(1, 8, 2), "FAULT 37 3 1 8")
    case("interleaved, one reel ends inside a line", bil().remove(1, 8, 2).remove(1, 9, 2), "FAULT 37 3 1 9")
    case("interleaved, last of two reels ends behind the image file",
         bil_in().remove(2, 6), "FAULT 37 3 2 6")
    case("band after band, second band ends behind the image file on the last reel",
         bsq_behind().remove(2, 8), "FAULT 37 3 2 8")
    case("RBV, last of two reels ends behind the image file", rbv_in().remove(2, 5), "FAULT 37 3 2 5")
    # finished before the last reel
    def longer(made):
        """A one-reel set whose directories promise a second reel, which is
        there and holds the directory alone."""
        made.put(1, 1, 20, "2")
        second = bytearray(made.at(1, 1))
        put(second, 19, "2")
        made.reels.append([second, MARK])
        return made
    case("interleaved, finished on the first of two reels", longer(bil()), "FAULT 37 3 1 13")
    case("RBV, finished on the first of two reels", longer(rbv()), "FAULT 37 3 1 10")
    case("band after band, finished on the first of two reels: the next header is missed",
         longer(bsq()), "FAULT 11 1 2 3")
    case("interleaved, finished on the second of three reels, the third empty",
         tape("BIL", 1, "4567", breaks=[(1, 2), (1, 4)]).remove(2, 6).insert(
             2, 6, record(1, TRAILER, 3596, 0), MARK, MARK).cut(3, 1), "FAULT 37 3 2 8")

    # 38: behind a reel's end
    short = bytearray(b"x")
    case("interleaved, a third mark in a one-reel set", bil().insert(1, 14, MARK), "FAULT 38 3 1 14")
    case("band after band, a bad block behind a one-reel set", bsq().insert(1, 11, BAD), "FAULT 38 3 1 11")
    case("RBV, a record of one byte behind a one-reel set", rbv().insert(1, 11, short), "FAULT 38 3 1 11")
    case("interleaved, a fourth mark on the last reel", bil_in().insert(2, 10, MARK), "FAULT 38 3 2 10")
    case("band after band, a record behind the third mark",
         bsq_behind().insert(2, 12, short), "FAULT 38 3 2 12")
    case("RBV, a bad block behind the third mark", rbv_end().insert(2, 7, BAD), "FAULT 38 3 2 7")
    case("interleaved, three marks at a break", bil_in().insert(1, 10, MARK), "FAULT 38 3 1 10")
    case("RBV, a bad block behind a break", rbv_in().insert(1, 9, BAD), "FAULT 38 3 1 9")
    case("a trailer behind a break behind an image file",
         bsq_end().insert(1, 9, record(1, TRAILER, 3596, 0)), "FAULT 38 3 1 9")
    case("three marks at a break behind a trailer file", bsq_behind().insert(1, 11, MARK), "FAULT 38 3 1 11")
    case("a bad block behind the second reel of three",
         tape("BSQ", 1, "4", lines=3, breaks=[(1, 1), (1, 2)]).insert(2, 6, BAD), "FAULT 38 3 2 6")


# ---------------------------------------------------- two faults in one set

def first_of_two():
    # in one record: length, byte 5, type, number, and only then its values
    case("length before byte 5", bsq().size(1, 3, 3595).put(1, 3, 5, 1), "FAULT 23 2 1 3")
    case("byte 5 before type", bil().put(1, 11, 5, 1).put(1, 11, 6, IMAGE), "FAULT 24 2 1 11")
    case("type before number", bsq().put(1, 4, 6, HEADER).put(1, 4, 1, word(1)), "FAULT 25 2 1 4")
    case("type before number behind a break",
         bsq_in().put(2, 3, 6, HEADER).put(2, 3, 1, word(1)), "FAULT 25 2 2 3")
    case("directory: number before values", bil().put(1, 1, 1, word(2)).put(1, 1, 7, "X"), "FAULT 26 2 1 1")
    case("second directory: byte 5 before its difference",
         rbv_in().put(2, 1, 5, 1).put(2, 1, 12, 0), "FAULT 24 2 2 1")
    case("header: number before values", bsq().put(1, 3, 1, word(0)).put(1, 3, 102, 9), "FAULT 26 2 1 3")
    case("missing band: number before 36",
         tape("BIL", 1, "567").put(1, 6, 1, word(9)).put(1, 6, 7, 1), "FAULT 26 2 1 6")
    case("first trailer: number before the count of lines",
         bil().remove(1, 9).put(1, 10, 1, word(2)), "FAULT 26 2 1 10")
    case("first trailer: type before the count of lines",
         tape("BSQ", 3, "48", lines=[1, 2]).put(1, 16, 6, HEADER), "FAULT 25 2 1 16")
    # header values in the order of their bytes
    case("header bytes 120 and 136", bil().put(1, 3, 120, 0).put(1, 3, 136, "4"), "FAULT 33 3 1 3")
    case("header bytes 136 and 144", bsq().put(1, 3, 136, "9").put(1, 3, 144, 1), "FAULT 34 3 1 3")
    case("header bytes 136 and 145", rbv().put(1, 3, 136, "E").put(1, 3, 145, 0), "FAULT 34 3 1 3")
    case("header bytes 145 and 3586", bil().put(1, 3, 145, 6).put(1, 3, 3586, 0), "FAULT 33 3 1 3")
    case("second header, bytes 136 not rising and 145",
         bsq2().put(1, 10, 136, "4").put(1, 10, 145, 0), "FAULT 34 3 1 10")
    # in the order of the tape
    case("a missing band not zero, then a count that is no multiple",
         tape("BIL", 1, "456").put(1, 9, 7, 1).insert(1, 10, BAD), "FAULT 36 3 1 9")
    case("a block behind the first reel's end, then no second directory",
         bil_in().insert(1, 10, BAD).cut(2, 1), "FAULT 38 3 1 10")
    case("unfinished, and a count that is no multiple: no trailer tells it",
         bil().remove(1, 9).remove(1, 10, 2), "FAULT 37 3 1 10")
    case("second directory without its mark and with a wrong digit",
         bsq_in().remove(2, 2).put(2, 1, 19, "1"), "FAULT 31 3 2 1")


# =============================================================== the command

def main(arguments):
    if len(arguments) != 1:
        print(__doc__)
        return 2
    for plant in (accepted, refused, deck_faults, record_faults, directory_faults,
                  header_faults, line_faults, end_faults, first_of_two):
        plant()
    numbered = list(enumerate(CASES, 201))
    if arguments[0] == "--list":
        for number, (what, data, listing) in numbered:
            print("%03d %5d  %-20s  %s" % (number, len(data), "; ".join(listing), what))
        print("%d strips, %d bytes" % (len(CASES), sum(len(data) for _, data, _ in CASES)))
        return 0
    directory = arguments[0]
    os.makedirs(directory, exist_ok=True)
    for name in os.listdir(directory):
        if name.endswith(".strip"):
            os.remove(os.path.join(directory, name))
    expected = []
    for number, (what, data, listing) in numbered:
        with open(os.path.join(directory, "%03d.strip" % number), "wb") as file:
            file.write(data)
        expected += ["%03d" % number, *listing]
    with open(os.path.join(directory, "expected.txt"), "w") as file:
        file.write("\n".join(expected) + "\n")
    return 0


if __name__ == "__main__":
    sys.exit(main(sys.argv[1:]))
