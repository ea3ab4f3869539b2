#!/usr/bin/env python3
"""Strips for the programs tapeturn and turner_cases, and what they
must print.

The sets are made with the writer of tools/strips.py, and their free bytes are
drawn as tools/calls.py draws them. The turner here is a plain model, written
from the rules in docs/FORMAT.md and docs/CALLS.md; it uses nothing of the code
of the crates. Whether a set is accepted, and what is listed of a strip, is
taken from tools/survey.py.

    turn.py            writes the sample of tapeturn, and the
                       strips, cases.txt and stdout of turner_cases
    turn.py --check    says whether they are as they would be written
"""

import os
import sys

import calls
import strips
import survey
from strips import BAD, MARK, put, tape, word

CRATES = os.path.join(os.path.dirname(os.path.abspath(__file__)), "..", "crates")
survey.LIMIT = 1 << 40            # turned sets are listed whatever their length

# ================================================================ the turner


class Group:
    """The bodies of a group's records; a bad block is None."""

    def __init__(self, header):
        self.header = header
        self.sheets = []          # (type, body), ancillary and annotation records
        self.image = []
        self.trailers = []


def groups_of(reels):
    """The groups of an accepted set, whatever reels they are on."""
    groups = []
    for reel in reels:
        for block in reel[1:]:
            if block is survey.MARK:
                continue
            if block is survey.BAD:
                groups[-1].image.append(None)
            elif block[5] == strips.HEADER:
                groups.append(Group(bytes(block[6:])))
            elif block[5] == strips.IMAGE:
                groups[-1].image.append(bytes(block[6:]))
            elif block[5] == strips.TRAILER:
                groups[-1].trailers.append(bytes(block[6:]))
            else:
                groups[-1].sheets.append((block[5], bytes(block[6:])))
    return groups


def changed(body, **values):
    """A body with other values in bytes of its record, as b136=48."""
    body = bytearray(body)
    for name, value in values.items():
        body[int(name[1:]) - 7] = value
    return bytes(body)


def by_line(groups, bands, places):
    """The groups of single bands as one group of interleaved bands."""
    first = groups[0]
    mask = sum(1 << (8 - band) for band in bands)
    made = Group(changed(first.header, b120=255, b121=places, b136=ord("0"), b3586=mask))
    made.sheets, made.trailers = first.sheets, first.trailers
    for line in range(len(first.image)):
        for band in range(4, 4 + places):
            if band in bands:
                made.image.append(groups[bands.index(band)].image[line])
            else:
                made.image.append(bytes(len(first.header)))
    return [made]


def by_band(group, bands, places):
    """A group of interleaved bands as a group for each band that is present."""
    out = []
    for band in bands:
        made = Group(changed(group.header, b120=0, b121=0, b136=ord("0") + band))
        made.sheets, made.trailers = group.sheets, group.trailers
        made.image = group.image[band - 4::places]
        out.append(made)
    return out


def one_reel(directory, groups):
    """The reel that the groups are written on."""
    def record(number, kind, body):
        return word(number) + bytes([0, kind]) + body

    reel = [record(1, strips.DIRECTORY, directory), survey.MARK]
    for group in groups:
        reel.append(record(1, strips.HEADER, group.header))
        for number, (kind, body) in enumerate(group.sheets, 2):
            reel.append(record(number, kind, body))
        reel.append(survey.MARK)
        for number, body in enumerate(group.image, 1):
            reel.append(survey.BAD if body is None else record(number, strips.IMAGE, body))
        reel.append(survey.MARK)
        for number, body in enumerate(group.trailers, 1):
            reel.append(record(number, strips.TRAILER, body))
        reel.append(survey.MARK)
    reel.append(survey.MARK)
    return reel


def turned(reels):
    """The set that a turner shows."""
    found = survey.Survey(reels)
    try:
        found.run()
    except survey.Fault:
        return reels
    if found.sensor == "R":
        return reels
    bands = [int(band) for band in found.bands]
    groups = groups_of(reels)
    if found.interleaved:
        groups = by_band(groups[0], bands, found.places)
    else:
        groups = by_line(groups, bands, found.places)
    directory = changed(reels[0][0][6:], b19=ord("1"), b20=ord("1"), b31=0 if found.interleaved else 255)
    return [one_reel(directory, groups)]


def pile(n, reels):
    for _ in range(n):
        reels = turned(reels)
    return reels


def written(reels):
    """The strip of a set."""
    named = {survey.MARK: MARK, survey.BAD: BAD}
    return strips.Tape([[block if isinstance(block, (bytes, bytearray)) else named[block] for block in reel]
                        for reel in reels]).strip()


# ================================================================= the texts

def total(data):
    return sum(n * byte for n, byte in enumerate(data, 1)) % 2 ** 32


def shown(data):
    """What turner_cases prints of a strip: length, checksum, listing."""
    return ["BYTES %d %d" % (len(data), total(data)), *survey.listing(data)]


def turn_strip(data):
    """What tapeturn does with a strip: the turned strip, or its refusal."""
    listed = survey.listing(data)
    if listed[0].startswith(("IMAGE", "FAULT")):
        return None, listed[0]
    return written(turned(survey.read_strip(data))), None


# ================================================================= the cases

def sets():
    """The strips by name."""
    made = {
        # interleaved, each mission; the last with all five bands
        "bil1": tape("BIL", 1, "4567", 2, [("4", 1), ("5", 2), ("7", 2)]),
        "bil2": tape("BIL", 2, "57", 1, "all", trailers=2),
        "bil3": tape("BIL", 3, "45678", 2, [("4", 2), ("6", 1), ("8", 1), ("8", 2)], trailers=3),
        # interleaved, on several reels, with a band missing
        "bilreels": tape("BIL", 1, "467", 2, [("4", 1), ("6", 2)], breaks=[(1, 2), (1, 5), (1, 8)]),
        # sequential, each mission
        "bsq1": tape("BSQ", 1, "4567", 2, [("4", 1), ("5", 2), ("7", 2)], trailers=[1, 2, 1, 1]),
        "bsq2": tape("BSQ", 2, "6", 3, [("6", 2)]),
        "bsq3": tape("BSQ", 3, "468", 1, "all", trailers=[2, 1, 3]),
        # sequential, on several reels: broken inside, behind an image file and behind a trailer file
        "bsqreels": tape("BSQ", 3, "458", 2, [("4", 2), ("8", 1)], breaks=[(1, 1), (2, 2)], behind=[2]),
        # uncorrected
        "bilca": tape("BIL", 1, "47", 1, [("4", 1), ("7", 1)], correction="CA"),
        "bsqca": tape("BSQ", 3, "8", 2, [("8", 2)], correction="CA", breaks=[(1, 1)]),
        # the vidicon's
        "rbv": tape("RBV", 3, "C", 2, [("C", 2)], breaks=[(1, 1)]),
    }
    for name in made:
        calls.drawn(made[name], "turned " + name)

    # at fault: a directory's value, a bad header, a missing band's line, an unfinished set, a block behind the end
    def small(name):
        return calls.drawn(tape("BSQ", 3, "46", 1, [("4", 1)]), "turned " + name)

    made["value"] = small("value").put(1, 1, 31, 7)
    made["badhead"] = small("badhead").swap(1, 3, BAD)
    made["missing"] = calls.drawn(tape("BIL", 1, "4", 1, [("4", 1)]), "turned missing").put(1, 8, 3596, 1)
    made["ends"] = small("ends").cut(1, 12)
    made["behind"] = small("behind").insert(1, 17, BAD)
    data = {name: t.strip() for name, t in made.items()}
    # no strips
    data["empty"] = b""
    data["cut"] = data["bsq2"][:-5]
    data["word"] = word(5389)
    return data


def case_lines(names):
    out = []
    for name in names:
        out.append("turn " + name)
        out += ["pile %d %s" % (n, name) for n in (1, 2, 3)]
    return out


def printed(lines, data):
    """What turner_cases prints."""
    out = []
    for line in lines:
        out.append(line)
        kind, *words = line.split()
        strip = data[words[-1]]
        if kind == "turn":
            made, refusal = turn_strip(strip)
            out += [refusal] if made is None else shown(made)
        else:
            try:
                out += shown(written(pile(int(words[0]), survey.read_strip(strip))))
            except survey.ImageRefused as refused:
                out.append("IMAGE %d %d" % refused.args)
    return out


# =============================================================== the command

def text(lines):
    return "".join(line + "\n" for line in lines).encode("ascii")


def files():
    data = sets()
    lines = case_lines(data)
    wanted = {"turner_cases/data/%s.strip" % name: strip for name, strip in data.items()}
    wanted["turner_cases/data/cases.txt"] = text(lines)
    wanted["turner_cases/stdout"] = text(printed(lines, data))
    wanted["tapeturn/stdin"] = data["bil2"]
    wanted["tapeturn/stdout"] = turn_strip(data["bil2"])[0]
    return wanted


def main(arguments):
    wrong = 0
    for name, data in files().items():
        path = os.path.join(CRATES, name)
        if arguments == ["--check"]:
            with open(path, "rb") as file:
                if file.read() != data:
                    print("%s is not as it would be written" % name)
                    wrong += 1
        else:
            os.makedirs(os.path.dirname(path), exist_ok=True)
            with open(path, "wb") as file:
                file.write(data)
    return 1 if wrong else 0


if __name__ == "__main__":
    sys.exit(main(sys.argv[1:]))
