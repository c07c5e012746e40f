#!/usr/bin/env python3
"""A desk in Python, by ctypes over a shared object that is made from the static library:

    gcc -shared -o libboragefile.so -Wl,--whole-archive target/staticlib/libboragefile.a -Wl,--no-whole-archive
    examples/desk.py ./libboragefile.so < LINES

It takes the lines of desk.c and desk.rs and prints what they print, but for the words of a refusal, from a fresh store that it does not save.
"""
import ctypes
import struct
import sys

KINDS = {b"on": (1, 3), b"report": (2, 3), b"off": (3, 1), b"range": (4, 4)}
LAST_FIELD = 65535
LAST_MINUTE = 2**32 - 1


DESK_BYTES = 23280
WATCHES_AT = 14928      # where the desk's sixteen watches begin,
WATCHES = 16
WATCH_BYTES = 522       # and what each of them takes: a mark, four edges, and from byte 10 on a bit for each radio
MEMBERS_AT = 10


class Answer(ctypes.Structure):
    _fields_ = [*((name, ctypes.c_uint16) for name in ("number", "gained", "lost")), ("count", ctypes.c_uint64)]


class Store:
    """A fresh store: a desk, aligned to 4, and its pages."""

    def __init__(self, path):
        self.library = ctypes.CDLL(path)
        slices = [ctypes.c_void_p, ctypes.c_size_t]
        for function, result, lent, numbers in (
            (self.library.boragefile_begin, Answer, 1, 0),
            (self.library.boragefile_call, Answer, 3, 0),
            (self.library.boragefile_watch_set, Answer, 1, 5),
            (self.library.boragefile_watch_clear, Answer, 1, 1),
            (self.library.boragefile_csv_write, Answer, 2, 0),
            (self.library.boragefile_csv_read, Answer, 2, 0),
            (self.library.boragefile_sound, ctypes.c_bool, 1, 0),
        ):
            function.restype = result
            function.argtypes = [ctypes.c_void_p, *slices * lent, *[ctypes.c_uint16] * numbers]
        self.desk = (ctypes.c_uint32 * (DESK_BYTES // 4))()
        self.pages = (ctypes.c_uint8 * 41984)()
        self.buffer = (ctypes.c_uint8 * 3072)()
        self.csv = (ctypes.c_uint8 * 14873)()
        if self.library.boragefile_begin(self.desk, self.pages, len(self.pages)).number != 0:
            raise ValueError("no fresh store")

    def call(self, record):
        """The answer and, after an accepted range alone, the list of radio, east and north."""
        lent = self.desk, self.pages, len(self.pages), record, len(record), self.buffer, len(self.buffer)
        answer = self.library.boragefile_call(*lent)
        if answer.number != 0 or record[2] != 4:
            return answer, None
        return answer, list(struct.iter_unpack("<3H", bytes(self.buffer)[: 6 * answer.count]))

    def watch_set(self, watch, west, east, south, north):
        return self.library.boragefile_watch_set(self.desk, self.pages, len(self.pages), watch, west, east, south, north)

    def watch_clear(self, watch):
        return self.library.boragefile_watch_clear(self.desk, self.pages, len(self.pages), watch)

    def csv_write(self):
        """The answer and, if it is accepted, the file of all radios on."""
        answer = self.library.boragefile_csv_write(self.desk, self.pages, len(self.pages), self.csv, len(self.csv))
        return answer, bytes(self.csv)[: answer.count] if answer.number == 0 else None

    def csv_read(self, file):
        return self.library.boragefile_csv_read(self.desk, self.pages, len(self.pages), file, len(file))

    def members(self, watch):
        """The radios in a watch, rising; one that is not set has none."""
        start = WATCHES_AT + WATCH_BYTES * watch
        members = int.from_bytes(bytes(self.desk)[start + MEMBERS_AT:start + WATCH_BYTES], "little")
        return [radio for radio in range(4096) if members >> radio & 1]


def numbers_of(words, most):
    """The numbers that these words are, each with the most that it may be, or None."""
    if len(words) != len(most) or not all(word.isdigit() for word in words):
        return None
    numbers = list(map(int, words))
    return numbers if all(number <= limit for number, limit in zip(numbers, most)) else None


def record_of(word, words):
    """The record's bytes, or None where the line is no record. Its last number is the minute."""
    kind, wanted = KINDS.get(word, (0, 0))
    numbers = numbers_of(words, [LAST_FIELD] * wanted + [LAST_MINUTE])
    return struct.pack(f"<{2 + wanted}HI", 4 + 2 * wanted + 4, kind, *numbers) if kind and numbers else None


def watch_call(store, word, words):
    """Sets or clears a watch and answers it, or None where the line says neither."""
    calls = {b"watch": (store.watch_set, 5), b"unwatch": (store.watch_clear, 1)}
    call, wanted = calls.get(word, (None, 0))
    numbers = numbers_of(words, [LAST_FIELD] * wanted)
    return call(*numbers) if call and numbers else None


def csv_call(store, word, name):
    """Writes a spreadsheet's file, or takes a store from one. What is said then."""
    try:
        if word == b"load-csv":
            with open(name, "rb") as file:
                answer = store.csv_read(file.read())
            return ["ok"] if answer.number == 0 else refused(answer)
        answer, made = store.csv_write()
        if made is None:
            return refused(answer)
        with open(name, "wb") as file:
            file.write(made)
        return ["wrote", len(made), "bytes"]
    except OSError:
        return ["no file"]


def refused(answer):
    """Only where a file is read is a count among it, the line: the buffers are large enough for all else."""
    return ["refused", answer.number, *(["in line", answer.count] if answer.count else [])]


def bits(number):
    return [bit for bit in range(WATCHES) if number >> bit & 1]


def serve(store, line):
    """What is said to a line, and the lines that follow."""
    word, *words = line.split() or [b""]
    record, found = record_of(word, words), None
    if record:
        answer, found = store.call(record)
    elif word == b"members" and (watch := numbers_of(words, [WATCHES - 1])):
        return ["members", *store.members(*watch)], []
    elif word in (b"save-csv", b"load-csv") and len(words) == 1:
        return csv_call(store, word, *words), []
    elif not (answer := watch_call(store, word, words)):
        return ["no call"], []
    if answer.number != 0:
        return refused(answer), []
    if found is not None:
        return ["found", len(found)], found
    moved = [(name, bits(getattr(answer, name))) for name in ("gained", "lost")]
    return ["ok", *(item for name, watches in moved if watches for item in (name, *watches))], []


def main():
    if len(sys.argv) != 2:
        sys.exit("usage: desk.py LIBRARY < LINES")
    store = Store(sys.argv[1])
    for i, line in enumerate(sys.stdin.buffer, 1):
        said, found = serve(store, line)
        print(i, *said)
        for located in found:
            print(*located)


if __name__ == "__main__":
    main()
