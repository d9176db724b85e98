# Writes the cases of crates/trials and the files of examples/, and beside them what oracle.py says; run it from the repository's root.
# With a number it writes no file: it judges so many spoiled files with crates/ccreg/out/ccreg, and counts where program and oracle agree.
import random
import struct
import subprocess
import sys

from oracle import Refused, report, schedule_records


def halves(*numbers):
    return struct.pack("<%dH" % len(numbers), *numbers)


def words(*numbers):
    return struct.pack("<%dI" % len(numbers), *numbers)


def rec(kind, body=b"", length=None):
    return halves(2 + len(body) if length is None else length, kind) + body


def settings(*six):
    return rec(1, halves(*six))


def start(klass, table, k, first):
    return rec(2, halves(klass, table, k) + first)


def write(station, record):
    return rec(8, halves(station) + record)


def deliver(message, station):
    return rec(9, words(message) + halves(station))


RESPONSE = words(1, 1)
GAS = [halves(0), halves(1) + struct.pack("<i", -3), halves(2) + struct.pack("<iI", -3, 9)]
SET = settings(0, 0, 51, 50, 2, 2)
GO = start(1, 2, 2, RESPONSE)
GO_GAS = start(2, 2, 2, GAS[2])
TICK = rec(3)
EXAMPLE = SET + GO + write(0, words(7, 9)) + deliver(0, 0) + deliver(1, 0) + deliver(0, 1) + TICK + deliver(2, 0) \
    + deliver(3, 1) + deliver(3, 0) + deliver(4, 0) + deliver(6, 0) + TICK + TICK
ROWS = [(0, 20, 70, 75, 5), (1, 12, 72, 80, 100), (2, 8, 74, 78, 50), (3, 5, 75, 76, 34), (4, 3, 76, 75, 25)]
EDGES = [(4, 3, 76, 75, 25), (4, 3, 75, 75, 25), (4, 3, 78, 75, 25), (4, 3, 74, 75, 25), (4, 3, 79, 75, 25), (4, 3, 76, 76, 25),
         (4, 3, 76, 75, 3), (4, 3, 76, 75, 2), (0, 0, 51, 50, 2), (0, 0, 50, 50, 2), (0, 1, 51, 50, 1)]


def framing():
    """Bytes, lengths and kinds: refusals 1, 2 and 3."""
    yield "empty", b""
    yield "one-byte", b"\x02"
    yield "length-alone", halves(2)
    yield "length-0", halves(0)
    yield "length-0-more", halves(0) + b"\x05"
    yield "length-1-nothing-left", halves(1)
    yield "length-1", halves(1) + b"\x05"
    yield "length-1-more", halves(1) + b"\x05\x00"
    yield "length-past-end", halves(3, 3)
    yield "length-1-later", SET + GO + halves(1) + b"\x05"
    yield "length-0-later", SET + GO + halves(0)
    yield "one-byte-later", SET + GO + b"\x02"
    yield "cut-later", SET + GO + deliver(0, 0)[:-1]
    for kind in (0, 10, 255, 256, 259, 65535):
        yield "kind-%d" % kind, rec(kind)
        yield "kind-%d-later" % kind, SET + GO + rec(kind, b"\x00\x00")
    for kind, size in [(3, 0), (4, 2), (5, 2), (6, 2), (7, 2), (9, 6)]:
        for other in (size, size + 1, size - 1 if size else 3):
            yield "kind-%d-body-%d-first" % (kind, other), rec(kind, bytes(other))
            yield "kind-%d-body-%d-second" % (kind, other), SET + rec(kind, bytes(other))
            yield "kind-%d-body-%d" % (kind, other), SET + GO + rec(kind, bytes(other))
    for size in (0, 11, 13):
        yield "settings-body-%d" % size, rec(1, bytes(size))


def order():
    """Positions: refusal 4, and what comes before it."""
    yield "settings-only", SET
    yield "settings-twice", SET + SET
    yield "settings-third", SET + GO + SET
    yield "settings-third-wrong-length", SET + GO + rec(1, bytes(11))
    yield "start-first", GO
    yield "start-first-class-3", rec(2, halves(3))
    yield "start-first-wrong-length", rec(2, halves(1, 2, 2))
    yield "start-twice", SET + GO + GO
    yield "start-twice-k-0", SET + GO + start(1, 2, 0, RESPONSE)
    yield "start-twice-wrong-length", SET + GO + rec(2, halves(1, 2, 2))
    yield "start-twice-class-9", SET + GO + rec(2, halves(9))
    yield "start-twice-form-3", SET + GO + start(2, 2, 2, halves(3))
    for size in (0, 1, 2, 4, 8, 10, 12, 17):
        yield "write-first-body-%d" % size, rec(8, bytes(size))
        yield "write-second-body-%d" % size, SET + rec(8, bytes(size))
    yield "write-first-length-1", halves(1) + b"\x08"
    yield "write-first-cut", rec(8, bytes(3), 10)
    yield "only-steps", TICK + TICK


def values():
    """Classes, forms, tables and numbers of stations: refusal 5 and the lengths that hide it."""
    for klass in (0, 3, 256, 65535):
        for size in (2, 3, 6, 14):
            yield "class-%d-body-%d" % (klass, size), SET + rec(2, halves(klass) + bytes(size - 2))
    for size in (0, 1):
        yield "start-body-%d" % size, SET + rec(2, bytes(size))
    for size in (2, 4, 6, 13, 15):
        yield "class-1-body-%d" % size, SET + rec(2, halves(1, 2, 2)[:size] + bytes(max(0, size - 6)))
    for size in (2, 4, 6, 7):
        yield "class-2-body-%d" % size, SET + rec(2, halves(2, 2, 2)[:size] + bytes(max(0, size - 6)))
    for form in (0, 1, 2, 3, 65535):
        for size in (2, 3, 5, 6, 7, 9, 10, 11):
            record = halves(form) + bytes(size - 2)
            yield "start-form-%d-of-%d" % (form, size), SET + start(2, 2, 2, record)
            yield "write-form-%d-of-%d" % (form, size), SET + GO_GAS + write(0, record)
    for size in (0, 1, 2, 3, 9, 10, 11):
        yield "write-response-body-%d" % size, SET + GO + rec(8, bytes(size))
    for size in (0, 1, 2, 3):
        yield "write-gas-body-%d" % size, SET + GO_GAS + rec(8, bytes(size))
    for table, k in [(0, 0), (0, 1), (1, 0), (1, 1), (2, 0), (2, 3), (256, 256), (256, 257), (257, 2), (257, 257), (65535, 2)]:
        yield "table-%d-k-%d" % (table, k), SET + start(1, table, k, RESPONSE)
        yield "table-%d-k-%d-gas" % (table, k), SET + start(2, table, k, GAS[0])
    yield "table-0-wrong-length", SET + start(1, 0, 0, bytes(7))
    yield "form-3-k-0", SET + start(2, 2, 0, halves(3))


def admission():
    """Settings and starts of files that are right: refusals 10 to 16."""
    good = (0, 0, 51, 50, 2, 2)
    for i, limits in enumerate([(15, 16), (100, 101), (0, 1, 100, 101), (0, 1, 100, 101), (0, 1, 256, 257), (0, 1, 32, 33)]):
        for x in limits + (65535,):
            six = good[:i] + (x,) + good[i + 1:]
            yield "setting-%d-is-%d" % (i, x), settings(*six) + start(1, 256, 256, RESPONSE)
    for row in EDGES:
        yield "edge-" + "-".join(map(str, row)), settings(*row, 2) + start(1, 256, 256, RESPONSE)
    for row in ROWS:
        nmin = row[4]
        for d in (1, 32):
            yield "row-%d-d-%d" % (row[0], d), settings(*row, d) + start(1, 256, nmin, RESPONSE)
        yield "row-%d-one-too-few" % row[0], settings(*row, 2) + start(1, 256, nmin - 1, RESPONSE)
        yield "row-%d-gas" % row[0], settings(*row, 2) + start(2, nmin, nmin, GAS[row[0] % 3])
    yield "bad-settings-few-stations", settings(0, 0, 50, 50, 2, 2) + start(1, 1, 1, RESPONSE)
    yield "few-stations", SET + start(1, 1, 1, RESPONSE)
    bad = settings(99, 0, 0, 0, 0, 0)
    yield "bad-settings", bad + GO
    yield "bad-settings-bad-end", bad + GO + TICK + rec(10)
    yield "bad-settings-cut-end", bad + GO + TICK + b"\x02"
    yield "few-stations-bad-end", SET + start(1, 1, 1, RESPONSE) + TICK + rec(3, b"\x00")


def steps():
    """Accepted files, one for each sort of step."""
    yield "no-steps", SET + GO
    yield "no-steps-gas", SET + GO_GAS
    for kind in (4, 5, 6, 7):
        yield "step-%d" % kind, SET + GO + rec(kind, halves(65535)) + TICK
    yield "writes-gas", SET + GO_GAS + b"".join(write(300, record) for record in GAS)
    yield "far-message", SET + GO + deliver(2**32 - 1, 65535)
    yield "one-of-each", SET + GO + TICK + b"".join(rec(k, halves(0)) for k in (4, 5, 6, 7)) + write(1, RESPONSE) + deliver(0, 0)


EXAMPLES = {
    "worked": EXAMPLE,
    "gas": settings(4, 3, 76, 75, 25, 4) + start(2, 40, 25, GAS[1]) + write(3, GAS[2]) + TICK + rec(4, halves(25)) + rec(7, halves(0))
    + TICK + rec(5, halves(7)) + rec(6, halves(9)) + deliver(0, 3) + write(4, GAS[0]) + TICK,
    "wrong-length": SET + rec(2, halves(1, 2, 2) + bytes(6)) + TICK,
    "unknown-kind-last": settings(99, 0, 0, 0, 0, 0) + GO + TICK + rec(10),
    "quorums-apart": settings(4, 3, 74, 75, 25, 4) + start(1, 40, 25, RESPONSE) + TICK,
    "too-few-stations": SET + start(1, 2, 1, RESPONSE),
}

VALID = [EXAMPLE] + [file for _, file in steps()] + [
    settings(*row, 2) + start(2, 256, row[4], GAS[1]) + write(0, GAS[0]) + TICK + rec(7, halves(1)) + write(1, GAS[2]) for row in ROWS]


def cut_records(file):
    parts = []
    while file:
        size = 2 + int.from_bytes(file[:2], "little")
        parts.append(file[:size])
        file = file[size:]
    return parts


def spoiled(rng):
    """A valid file after one to three small changes."""
    file = rng.choice(VALID)
    for _ in range(rng.choice((1, 1, 2, 3))):
        sort = rng.randrange(7)
        at = rng.randrange(len(file)) if file else 0
        if sort == 0:
            file = file[:at]
        elif sort <= 2:
            new = rng.choice((0, 1, 2, 3, 8, 9, 10, 14, 16, rng.randrange(256)))
            file = file[:at] + bytes([new]) + file[at + 1:]
        elif sort == 3:
            file = file[:at] + bytes([rng.randrange(12)]) + file[at + rng.randrange(2):]
        else:
            parts = cut_records(file) or [b""]
            i, j = rng.randrange(len(parts)), rng.randrange(len(parts))
            if sort == 4:
                del parts[i]
            elif sort == 5:
                parts.insert(j, parts[i])
            else:
                parts[i], parts[j] = parts[j], parts[i]
            file = b"".join(parts)
    return file


def cases():
    """The cases by name, each with its file as it is written in the list."""
    for name, file in EXAMPLES.items():
        yield "example-" + name, file.hex()
    for group in (steps, framing, order, values, admission):
        for name, file in group():
            yield name, file.hex() or "00*0"
    rng = random.Random(1)
    for i in range(150):
        yield "spoiled-%03d" % i, spoiled(rng).hex() or "00*0"
    full = (SET + GO + deliver(0, 0)).hex() + "+" + TICK.hex()
    yield "full", full + "*16373"
    yield "full-bad-end", full + "*16372+03000a00"
    yield "full-one-byte-left", full + "*16372+02000100"
    yield "one-over", full + "*16373+02"
    yield "one-over-zeros", "00*65537"
    yield "far-over", full + "*20000"


def file_of(parts):
    """The bytes of a case, as the program reads its list."""
    pairs = [part.partition("*") for part in parts.split("+")]
    return b"".join(bytes.fromhex(digits) * int(times or 1) for digits, _, times in pairs)


def readable(file):
    """Whether a file is right by itself, whatever its settings."""
    try:
        return bool(schedule_records(file))
    except Refused:
        return False


def compare(count):
    """How many of so many spoiled files the program and the oracle judge alike."""
    rng, agreed, accepted = random.Random(2), 0, 0
    for _ in range(count):
        file = spoiled(rng)
        said = subprocess.run(["crates/ccreg/out/ccreg"], input=file, stdout=subprocess.PIPE, check=True).stdout.decode()
        expected = report(file)
        agreed += said == expected
        accepted += expected.startswith("records")
    print("%d of %d agreed, %d of them accepted" % (agreed, count, accepted))


if len(sys.argv) > 1:
    compare(int(sys.argv[1]))
else:
    listed = list(cases())
    assert len({name for name, _ in listed}) == len(listed)
    with open("crates/trials/data/cases.txt", "w") as out:
        out.writelines("%s %s\n" % case for case in listed)
    with open("crates/trials/stdout", "w") as out:
        out.writelines("%s\n%s" % (name, report(file_of(parts))) for name, parts in listed)
        out.write("%d files read and written again as they were\n" % sum(readable(file_of(parts)) for _, parts in listed))
    for name, file in EXAMPLES.items():
        with open("examples/%s.sched" % name, "wb") as out:
            out.write(file)
        with open("examples/%s.out" % name, "w") as out:
            out.write(report(file))
    print("%d cases" % len(listed))
