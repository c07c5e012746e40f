#!/usr/bin/env python3
"""A plain model of the position desk: the contract with the user, sentence by sentence, on lists and dicts.

    from model import Model             Model().call(record, buffer, lent) carries out a record and answers it; watch_set, watch_clear, csv_write and
                                        csv_read likewise
    tools/model.py FILE...              holds journals (see tools/replay-vectors) against the model

It is written from the contract's text and from the readings in docs/DECISIONS.md, not from the crates, so that one can be held
against the other. Quick it is not: every step looks at everything. It takes its own store for sound: it answers 1 where the lent page buffer has
another length, and 2 where the pages are not the ones that it left, without asking whether some other store is laid out in them.
"""
import hashlib
import json
import re
import struct
import sys
from typing import NamedTuple

# ---- the numbers of the contract

LAST_RADIO = 4095           # "A radio number is 1 to 4,095."
LAST_METRE = 65535          # "A place is east and north, each 0 to 65,535 metres."
PAGES = 128                 # "One store has 128 pages,"
MOST_CELLS = 64             # "at most 64 cells,"
MOST_CUTS = 15              # "at most 15 east cuts and 15 north cuts,"
MOST_ON = 512               # "and at most 512 radios signed on."
PAGE_BYTES = 328            # "pages become 328 bytes" (02, Job 3)
PAGE_HEAD = 8               # "used bytes are 8 + 10 × entries" (02, Job 3)
ENTRY_BYTES = 10            # "radio, east, north", and "in an entry after north" the minute
LISTED_BYTES = 6            # "An accepted range writes 6 × n bytes (radio, east, north)"
PAGE_ENTRIES = 32           # "then up to 32 entries"
NONE = 65535                # "65,535 for none", "65,535 if free"
FREE, FIRST, FURTHER = 1, 2, 3  # "kind (1 free, 2 first of a cell, 3 further)"
BOX_FULL = 8                # "if the memory cell of that place has 8 waiting, flush it"
ALL_FULL = 128              # "If 128 still wait in all"
SPLIT_ABOVE = 32            # "when d has more than 32 entries"
SIDE_MOST = 32              # "existing cuts through d that leave at most 32 on each side"
JOIN_MOST = 24              # "the two have at most 24 entries together"
SWEEP_EVERY = 16            # "At 16, sweep the cell at the front of the round"
KEPT_MINUTES = 720          # "more than 720 before the range's own; exactly 720 stays in" (02, Job 3)
LAST_MINUTE = 2**32 - 1     # "a 32-bit minute"
MOST_WATCHES = 16           # "Let up to 16 be watched under numbers 0 to 15" (02, Job 5)
LINE_END = b"\r\n"          # "CRLF after every line" (02, Job 6)
HEADER = [b"radio", b"east", b"north", b"minute"]   # "with the header `radio,east,north,minute`"

RECORD_HEAD = 4             # "its length in bytes, its kind"
MINUTE_BYTES = 4            # "Every record ends with a 32-bit minute"
SIGN_ON, REPORT, SIGN_OFF, RANGE = 1, 2, 3, 4
LENGTHS = {SIGN_ON: 14, REPORT: 14, SIGN_OFF: 10, RANGE: 16}

EAST, NORTH = 0, 1          # the two directions; a place is (east, north)
ARGUMENTS = ("call", "record", "buffer", "watch", "rect", "file")  # what a journal's line hands in (tools/replay-vectors)
STRANGE = ("page_bytes", "damage")  # what it may say of the page buffer
ORDER = ("west", "east", "south", "north")  # "take the first of west, east, south, north" (02, Job 7)


def fields(*numbers):
    """Little-endian fields of 16 bits."""
    return struct.pack(f"<{len(numbers)}H", *numbers)


def minute_bytes(minute):
    """A minute, little-endian, 32 bits."""
    return struct.pack("<I", minute)


def record(kind, *body, minute):
    """A record: its length in bytes, its kind, its body, its minute."""
    return fields(LENGTHS[kind], kind, *body) + minute_bytes(minute)


def parsed(given):
    """Kind, body and minute of a record that has the length for its kind."""
    length, kind = struct.unpack("<2H", given[:RECORD_HEAD])
    end = length - MINUTE_BYTES
    [minute] = struct.unpack("<I", given[end:length])
    return kind, struct.unpack(f"<{(end - RECORD_HEAD) // 2}H", given[RECORD_HEAD:end]), minute


class Fix(NamedTuple):
    """What a waiting report and an entry carry: the place, and the minute of the report."""
    place: tuple
    minute: int


def entry_bytes(radio, fix):
    """An entry of a page."""
    return fields(radio, *fix.place) + minute_bytes(fix.minute)


def listed_bytes(radio, fix):
    """A radio in the list of a range."""
    return fields(radio, *fix.place)


class Answer(NamedTuple):
    """What a call answers. "these, and whatever later requests add to the answer, are 0 where nothing else is said" (02, Job 5)"""
    number: int
    count: int = 0
    written: bytes = b""
    gained: int = 0
    lost: int = 0


def bits(numbers):
    """A number with these bits set."""
    return sum(1 << number for number in numbers)


def too_old(fix, minute):
    # "a radio whose minute is more than 720 before the range's own"
    return minute - fix.minute > KEPT_MINUTES


def takes_in(low, high, coordinate):
    # "the west and south edges are inside and the east and north edges are outside, but an east or north edge of 65,535 still takes in that last line"
    return low <= coordinate and (coordinate < high or high == LAST_METRE)


def in_range(place, west, east, south, north):
    return takes_in(west, east, place[EAST]) and takes_in(south, north, place[NORTH])


def in_cell(place, west, east, south, north):
    # "a cell's edges are its least and greatest coordinates, both inside it"
    return west <= place[EAST] <= east and south <= place[NORTH] <= north


# ---- files

def line_bytes(*words):
    return b",".join(words) + LINE_END


def file_bytes(rows):
    """A file of rows, each a radio with its fix."""
    numbers = ((radio, *fix.place, fix.minute) for radio, fix in rows)
    return b"".join([line_bytes(*HEADER), *(line_bytes(*(b"%d" % number for number in row)) for row in numbers)])


def words_of(line):
    """The fields of a line, without the quotes that a whole field may stand in."""
    return [re.sub(rb'\A"([^"]*)"\Z', rb"\1", word) for word in line.split(b",")]


def number_of(word, least, most):
    """A field of plain digits in range, any number of zeros before it, or None."""
    if not re.fullmatch(rb"[0-9]+", word):
        return None
    digits = word.lstrip(b"0")
    number = int(digits or b"0") if len(digits) <= len(str(most)) else most + 1
    return number if least <= number <= most else None


def row_of(line):
    """Radio, east, north and minute of a line, or None: "a line that isn't four fields of plain digits in range (radio 1 to 4,095)"."""
    words = words_of(line)
    limits = [(1, LAST_RADIO), (0, LAST_METRE), (0, LAST_METRE), (0, LAST_MINUTE)]
    if len(words) != len(limits):
        return None
    row = [number_of(word, *limit) for word, limit in zip(words, limits)]
    return None if None in row else row


def lines_of(file):
    """The lines of a file, without their ends; the last one may have none."""
    lines = file.split(LINE_END)
    return lines[:-1] if len(lines) > 1 and lines[-1] == b"" else lines


class Cell:
    def __init__(self, number, edges, chain):
        self.number = number
        self.edges = edges      # west, east, south, north: the least and greatest coordinates, all inside
        self.chain = chain      # page numbers, the first page first
        self.entries = {}       # radio: fix

    def low(self, way):
        return self.edges[2 * way]

    def high(self, way):
        return self.edges[2 * way + 1]

    def coordinates(self, way):
        return sorted(fix.place[way] for fix in self.entries.values())


class Model:
    def __init__(self):
        # "A fresh store has no cut, one cell (0) on page 0, and pages 1 to 127 free in that order."
        self.cuts = ([], [])    # of each direction, rising
        self.round = [Cell(0, (0, LAST_METRE, 0, LAST_METRE), [0])]  # the cells, the front of the round first
        self.free = list(range(1, PAGES))
        self.waiting = {}       # radio: (fix, marked new)
        self.memo = {}          # radio: [missed count, place or None for "none"]
        self.on = set()
        self.tally = 0
        self.highest = 0        # "the highest minute of an accepted sign-on, report or sign-off, 0 when fresh"
        self.watches = {}       # number: rectangle; "none in a fresh store"
        self.seen = []          # what the last call went through, in words, for those who write journals

    # ---- one call

    def call(self, given, buffer, lent=None):
        """`lent` is the page buffer; without it, the store's own pages."""
        self.seen = []
        number = self.pages_refusal(lent) or self.refusal(given)
        if number:
            return Answer(number)
        kind, body, minute = parsed(given)
        if kind == RANGE:
            found = [(radio, fix) for radio in sorted(self.on) for fix in [self.latest(radio)]
                     if in_range(fix.place, *body) and not too_old(fix, minute)]
            if buffer < LISTED_BYTES * len(found):
                return Answer(11, len(found))
            return Answer(0, len(found), b"".join(listed_bytes(radio, fix) for radio, fix in found))
        radio, fix = body[0], Fix(tuple(body[1:3]), minute)
        before = self.watches_with(radio)
        self.highest = max(self.highest, minute)
        if kind == SIGN_OFF:
            self.sign_off(radio)
        else:
            self.on.add(radio)
            marked = kind == SIGN_ON or self.waiting.get(radio, (fix, False))[1]
            self.waiting[radio] = (fix, marked)
            self.flush_if_due(fix.place)
        self.tick()
        after = self.watches_with(radio)
        return Answer(0, gained=bits(after - before), lost=bits(before - after))

    # ---- watches

    def watch_set(self, watch, rectangle, lent=None):
        self.seen = []
        number = self.pages_refusal(lent) or self.set_refusal(watch, rectangle)
        if number == 0:
            self.watches[watch] = tuple(rectangle)      # "setting again meaning replaced"
        return Answer(number)

    def watch_clear(self, watch, lent=None):
        self.seen = []
        # "14, a watch number above 15, or clearing one not set"
        number = self.pages_refusal(lent) or (0 if watch in self.watches else 14)
        if number == 0:
            del self.watches[watch]
        return Answer(number)

    def set_refusal(self, watch, rectangle):
        # "checked after 2, with number 7 following for the rectangle"
        if watch >= MOST_WATCHES:
            return 14
        west, east, south, north = rectangle
        return 7 if west > east or south > north else 0

    def members(self, rectangle):
        # "the list a range over that rectangle would give if no age were tested"
        return [radio for radio in sorted(self.on) if in_range(self.latest(radio).place, *rectangle)]

    def watches_with(self, radio):
        """The watches whose rectangle takes in the radio's latest place."""
        if radio not in self.on:
            return set()
        return {watch for watch, rectangle in self.watches.items() if in_range(self.latest(radio).place, *rectangle)}

    # ---- files

    def csv_write(self, buffer, lent=None):
        self.seen = []
        number = self.pages_refusal(lent)
        if number:
            return Answer(number)
        # "Write all radios on .. rising radio numbers"
        file = file_bytes((radio, self.latest(radio)) for radio in sorted(self.on))
        # "Number 11 comes with the bytes needed if the written file doesn't fit."
        return Answer(11, len(file)) if buffer < len(file) else Answer(0, len(file), file)

    def csv_read(self, file, lent=None):
        self.seen = []
        # "the read starts from a fresh store of its own making, so number 2 isn't tested"
        if self.pages_refusal(lent) == 1:
            return Answer(1)
        header, *lines = lines_of(file)
        rows = [HEADER if words_of(header) == HEADER else None, *map(row_of, lines)]
        # "15 .. given with the first such line's number, the header being 1; checked over the whole file after 1 and before 12"
        if None in rows:
            return Answer(15, 1 + rows.index(None))
        # "Lines are taken by rising minute, then radio, then line."
        taken = sorted((minute, radio, number, east, north) for number, (radio, east, north, minute) in enumerate(rows[1:], 2))
        made = Model()
        for minute, radio, number, east, north in taken:
            answer = made.call(record(SIGN_ON, radio, east, north, minute=minute), 0)
            # "the first line, so taken, that a sign-on check stops gives that check's number and its line"
            if answer.number:
                return Answer(answer.number, number)
        vars(self).update(vars(made), seen=[])
        return Answer(0)

    # ---- checks

    def pages_refusal(self, lent):
        # "Turned down, in checking order": 1 and 2, or 0
        if lent is None or lent == self.pages():
            return 0
        return 1 if len(lent) != PAGES * PAGE_BYTES else 2

    def refusal(self, given):
        # "Turned down, in checking order": 3 to 10, 12 of Job 2 and 13 of Job 3, or 0
        if len(given) < RECORD_HEAD:
            return 3
        length, kind = struct.unpack("<2H", given[:RECORD_HEAD])
        if length < RECORD_HEAD or length > len(given):
            return 3
        if kind not in LENGTHS:
            return 4
        if length != LENGTHS[kind]:
            return 5
        kind, body, minute = parsed(given)
        radio = body[0]
        if kind != RANGE and (radio == 0 or radio > LAST_RADIO):
            return 6
        if kind in (SIGN_ON, REPORT) and tuple(body[1:3]) == (0, 0):
            return 12
        if minute < self.highest:
            return 13
        if kind == RANGE:
            west, east, south, north = body
            return 7 if west > east or south > north else 0
        if kind == SIGN_ON and radio in self.on:
            return 8
        if kind in (REPORT, SIGN_OFF) and radio not in self.on:
            return 9
        if kind == SIGN_ON and len(self.on) >= MOST_ON:
            return 10
        return 0

    def latest(self, radio):
        # "a waiting report's before a stored one's"
        if radio in self.waiting:
            return self.waiting[radio][0]
        [fix] = [cell.entries[radio] for cell in self.round if radio in cell.entries and not self.stale(radio, cell.entries[radio])]
        return fix

    def stale(self, radio, fix):
        # "whose radio has a memo line with another place or none"
        return radio in self.memo and self.memo[radio][1] != fix.place

    def miss(self, radio):
        # "the missed count grows by 1 (made as 1 if absent)"
        self.memo.setdefault(radio, [0, None])[0] += 1

    def sign_off(self, radio):
        self.on.remove(radio)
        _, marked = self.waiting.pop(radio, (None, False))
        if not marked:
            self.miss(radio)
            self.memo[radio][1] = None

    def tick(self):
        # "Each accepted sign-on, report or sign-off adds 1 to c. At 16, sweep the cell at the front of the round"
        self.tally += 1
        if self.tally == SWEEP_EVERY:
            cell = self.round[0]
            self.sweep(cell)
            self.settle(cell)
            self.goes_last(cell)
            self.tally = 0
            self.seen.append(f"sweep of {cell.number}, {len(cell.entries)} entries")

    # ---- flush

    def box(self, place):
        """The memory cell of a place, south first: "a cut at c puts coordinates below c on the low side"."""
        return tuple(sum(cut <= place[way] for cut in self.cuts[way]) for way in (NORTH, EAST))

    def flush_if_due(self, place):
        boxes = {}
        for radio in sorted(self.waiting):
            boxes.setdefault(self.box(self.waiting[radio][0].place), []).append(radio)
        if len(boxes[self.box(place)]) == BOX_FULL:
            self.flush(boxes[self.box(place)])
        elif len(self.waiting) == ALL_FULL:
            # "flush the memory cell with most waiting; ties go to the southern, then the western"
            self.flush(boxes[min(boxes, key=lambda box: (-len(boxes[box]), box))])

    def flush(self, radios):
        """Flushes a memory cell, given the radios that wait in it, rising."""
        first = self.waiting[radios[0]][0].place
        [d] = [cell for cell in self.round if in_cell(first, *cell.edges)]
        self.sweep(d)
        for radio in radios:
            fix, marked = self.waiting.pop(radio)
            if radio not in d.entries and not marked:
                self.miss(radio)
            d.entries[radio] = fix
            if radio in self.memo:
                self.memo[radio][1] = fix.place
        self.goes_last(d)
        self.seen.append(f"flush of {len(radios)} into {d.number}, {len(d.entries)} entries")
        if len(d.entries) > SPLIT_ABOVE:
            if len(self.round) < MOST_CELLS:
                self.split(d)
            self.settle(d)
        else:
            self.settle(d)
            self.join(d)

    def sweep(self, cell):
        for radio in sorted(cell.entries):
            if self.stale(radio, cell.entries[radio]):
                del cell.entries[radio]
                self.memo[radio][0] -= 1
                if self.memo[radio][0] == 0:
                    del self.memo[radio]

    def goes_last(self, cell):
        self.round = [other for other in self.round if other is not cell] + [cell]

    def settle(self, cell):
        # "max(1, ⌈e/32⌉) pages"; "A chain gives up its last pages first"; "pages are taken from the front"
        needed = max(1, -(-len(cell.entries) // PAGE_ENTRIES))
        while len(cell.chain) > needed:
            self.free.insert(0, cell.chain.pop())
        while len(cell.chain) < needed:
            cell.chain.append(self.free.pop(0))

    # ---- split

    def split(self, d):
        chosen = self.existing_cut(d) or self.new_cut(d)
        if chosen is None:
            self.seen.append("no cut")
            return
        way, cut = chosen
        if cut not in self.cuts[way]:
            self.cuts[way].append(cut)
            self.cuts[way].sort()
        number = min(set(range(MOST_CELLS)) - {cell.number for cell in self.round})
        low, high = list(d.edges), list(d.edges)
        low[2 * way + 1] = cut - 1
        high[2 * way] = cut
        new = Cell(number, tuple(high), [])
        new.entries = {radio: fix for radio, fix in d.entries.items() if fix.place[way] >= cut}
        d.entries = {radio: fix for radio, fix in d.entries.items() if fix.place[way] < cut}
        d.edges = tuple(low)
        self.settle(d)
        self.settle(new)
        self.goes_last(new)
        self.seen.append(f"split of {d.number} at {'north' if way else 'east'} {cut}: {len(d.entries)} and {len(new.entries)} in {number}")

    def existing_cut(self, d):
        # "among existing cuts through d that leave at most 32 on each side, take the least difference; ties go to east cuts, then the lower"
        found = []
        for way in (EAST, NORTH):
            for cut in self.cuts[way]:
                if d.low(way) < cut <= d.high(way):
                    low = sum(coordinate < cut for coordinate in d.coordinates(way))
                    high = len(d.entries) - low
                    if low <= SIDE_MOST and high <= SIDE_MOST:
                        found.append((abs(low - high), way, cut))
        return min(found)[1:] if found else None

    def new_cut(self, d):
        # "try the longer side of d (east if equal), then the other"; "Take the first valid cut and look no further."
        longer_north = d.high(NORTH) - d.low(NORTH) > d.high(EAST) - d.low(EAST)
        for way in (NORTH, EAST) if longer_north else (EAST, NORTH):
            sorted_coordinates = d.coordinates(way)
            least = sorted_coordinates[0]
            cut = sorted_coordinates[len(sorted_coordinates) // 2]
            if cut == least:
                greater = [coordinate for coordinate in sorted_coordinates if coordinate > least]
                if not greater:
                    continue
                cut = greater[0]
            if cut in self.cuts[way] or len(self.cuts[way]) < MOST_CUTS:
                return way, cut
        return None

    # ---- join

    def join(self, d):
        for side in ORDER:
            for other in self.round:
                if self.beside(d, other) == side and len(d.entries) + len(other.entries) <= JOIN_MOST:
                    self.sweep(other)
                    self.settle(other)
                    self.join_with(d, other, side)
                    return

    def beside(self, d, other):
        """On which side of d the other cell makes a rectangle with it, or None."""
        (west, east, south, north), (other_west, other_east, other_south, other_north) = d.edges, other.edges
        if (south, north) == (other_south, other_north):
            return "west" if other_east + 1 == west else "east" if east + 1 == other_west else None
        if (west, east) == (other_west, other_east):
            return "south" if other_north + 1 == south else "north" if north + 1 == other_south else None
        return None

    def join_with(self, d, other, side):
        # "The smaller number survives and goes last in the round; pages of the other are freed."
        survivor, gone = (d, other) if d.number < other.number else (other, d)
        pairs = list(zip(d.edges, other.edges))
        survivor.edges = tuple(choose(pair) for choose, pair in zip((min, max, min, max), pairs))
        survivor.entries = {**d.entries, **other.entries}
        self.round.remove(gone)
        while gone.chain:
            self.free.insert(0, gone.chain.pop())
        self.settle(survivor)
        self.goes_last(survivor)
        self.seen.append(f"join of {d.number} with {other.number} to its {side}, {len(survivor.entries)} entries")

    # ---- what stands on the pages, and the whole state

    def pages(self):
        pages = [b""] * PAGES
        for page, following in zip(self.free, self.free[1:] + [NONE]):
            pages[page] = self.page_bytes(FREE, following, NONE, [])
        for cell in self.round:
            entries = sorted(cell.entries.items())
            for i, (page, following) in enumerate(zip(cell.chain, cell.chain[1:] + [NONE])):
                part = entries[PAGE_ENTRIES * i:PAGE_ENTRIES * (i + 1)]
                pages[page] = self.page_bytes(FURTHER if i else FIRST, following, cell.number, part)
        return b"".join(pages)

    def page_bytes(self, kind, following, cell, entries):
        head = fields(PAGE_HEAD + ENTRY_BYTES * len(entries), kind, following, cell)
        return (head + b"".join(entry_bytes(radio, fix) for radio, fix in entries)).ljust(PAGE_BYTES, b"\0")

    def store(self):
        """The whole state as the journals write it."""
        return {
            "east_cuts": list(self.cuts[EAST]),
            "north_cuts": list(self.cuts[NORTH]),
            "cells": [{
                "number": cell.number,
                "edges": list(cell.edges),
                "chain": list(cell.chain),
                "entries": [[radio, *fix.place, fix.minute] for radio, fix in sorted(cell.entries.items())],
            } for cell in self.round],
            "free": list(self.free),
            "waiting": [[radio, *fix.place, fix.minute, marked] for radio, (fix, marked) in sorted(self.waiting.items())],
            "memo": [[radio, missed, place and list(place)] for radio, (missed, place) in sorted(self.memo.items())],
            "on": sorted(self.on),
            "tally": self.tally,
            "highest": self.highest,
            "watches": [[watch, list(rectangle), self.members(rectangle)] for watch, rectangle in sorted(self.watches.items())],
        }

    def lent(self, page_bytes=None, damage=()):
        """The page buffer that a line lends: the store's pages, cut off or with zeros behind them, with damage written in. None: as they are."""
        if page_bytes is None and not damage:
            return None
        pages = bytearray(self.pages())
        if page_bytes is not None:
            pages = pages[:page_bytes].ljust(page_bytes, b"\0")
        for at, byte in damage:
            pages[at] = byte
        return bytes(pages)

    def handed(self, arguments, lent):
        """Makes the call that a line's arguments name."""
        if "call" not in arguments:
            return self.call(bytes.fromhex(arguments["record"]), arguments["buffer"], lent)
        if arguments["call"] == "watch-set":
            return self.watch_set(arguments["watch"], arguments["rect"], lent)
        if arguments["call"] == "watch-clear":
            return self.watch_clear(arguments["watch"], lent)
        if arguments["call"] == "csv-write":
            return self.csv_write(arguments["buffer"], lent)
        if arguments["call"] == "csv-read":
            return self.csv_read(bytes.fromhex(arguments["file"]), lent)
        raise ValueError(f"no call of this model: {arguments['call']}")

    def line(self, arguments, with_store, **strange):
        """Makes a call. Answers its line of a journal. `strange` is what the line says of the page buffer: `page_bytes`, `damage`."""
        lent = self.lent(**strange)
        answer = self.handed(arguments, lent)
        # what is turned down leaves the pages that it was lent; what makes a store makes it of these
        left = self.pages() if lent is None or answer.number == 0 else lent
        written = {"answer": answer.written.hex()} if "buffer" in arguments else {}
        line = {**arguments, **strange, "number": answer.number, "count": answer.count, **written, "gained": answer.gained, "lost": answer.lost,
                "pages": hashlib.sha256(left).hexdigest()}
        return {**line, "store": self.store()} if with_store else line


def differing(made, wanted):
    """What a line has otherwise. What it does not name, as one from before watches, is not looked at."""
    for key, value in wanted.items():
        if key == "store":
            yield from (f"store, {name}" for name in value if made["store"].get(name) != value[name])
        elif made.get(key) != value:
            yield key


def main(files):
    if not files:
        print("usage: tools/model.py FILE...", file=sys.stderr)
        return 2
    agreed = True
    for name in files:
        model = Model()
        with open(name, encoding="ascii") as lines:
            for number, line in enumerate(lines, 1):
                wanted = json.loads(line)
                strange = {key: wanted[key] for key in STRANGE if key in wanted}
                arguments = {key: wanted[key] for key in ARGUMENTS if key in wanted}
                differences = list(differing(model.line(arguments, "store" in wanted, **strange), wanted))
                if differences:
                    print(f"{name}: line {number}: {', '.join(differences)}")
                    agreed = False
                    break
            else:
                print(f"{name}: the model agrees")
    return 0 if agreed else 1


if __name__ == "__main__":
    sys.exit(main(sys.argv[1:]))
