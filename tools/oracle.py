# What the program must print of a schedule file, written from docs/RULES.md and sharing nothing with the crates.
# As a program: judges standard input, or prints for each file named on the command line one report after the other.
import sys

MOST = 65536
SETTINGS, START, WRITE, DELIVER = 1, 2, 8, 9
NAMES = {3: "ticks", 4: "enters", 5: "leaves", 6: "crashes", 7: "reads", 8: "writes", 9: "delivers"}
FIXED_LENGTH = {1: 14, 3: 2, 4: 4, 5: 4, 6: 4, 7: 4, 9: 8}
GAS_LENGTH = {0: 2, 1: 6, 2: 10}


class Refused(Exception):
    pass


def number(body, at):
    return int.from_bytes(body[at:at + 2], "little")


def record_fault(klass, record):
    """3 or 5 for the bytes of a record, or None."""
    if klass == 1:
        return None if len(record) == 8 else 3
    if len(record) < 2:
        return 3
    form = number(record, 0)
    if form not in GAS_LENGTH:
        return 5
    return None if len(record) == GAS_LENGTH[form] else 3


def record_number(position, klass, kind, body):
    """The number with which a schedule record of a known kind is refused, or None."""
    faults = set()
    if kind == START:
        if len(body) < 2:
            return 3
        own = number(body, 0)
        if own not in (1, 2):
            faults.add(5)
        elif len(body) < 6:
            return 3
        else:
            faults.add(record_fault(own, body[6:]))
            table, k = number(body, 2), number(body, 4)
            if not (1 <= table <= 256 and 1 <= k <= table):
                faults.add(5)
    elif kind == WRITE:
        if position >= 2:
            faults.add(3 if len(body) < 2 else record_fault(klass, body[2:]))
    elif 2 + len(body) != FIXED_LENGTH[kind]:
        faults.add(3)
    if (kind if kind <= 2 else 3) != min(position + 1, 3):
        faults.add(4)
    faults.discard(None)
    return min(faults) if faults else None


def schedule_records(file):
    """The (kind, body) pairs of a file that is right; Refused with number and place otherwise."""
    if len(file) > MOST:
        raise Refused(6, 0)
    records, at, klass = [], 0, None
    while at < len(file):
        left = len(file) - at - 2
        if left < 0 or number(file, at) > left:
            raise Refused(1, at)
        length = number(file, at)
        if length < 2:
            raise Refused(3, at)
        kind, body = number(file, at + 2), file[at + 4:at + 2 + length]
        if not 1 <= kind <= 9:
            raise Refused(2, at)
        fault = record_number(len(records), klass, kind, body)
        if fault:
            raise Refused(fault, at)
        if kind == START:
            klass = number(body, 0)
        records.append((kind, body))
        at += 2 + length
    if len(records) < 2:
        raise Refused(4, len(file))
    return records


def settings_number(alpha, delta, beta, gamma, nmin, d):
    """The number with which settings are refused, or None."""
    ranges = [(alpha, 0, 15), (delta, 0, 100), (beta, 1, 100), (gamma, 1, 100), (nmin, 1, 256), (d, 1, 32)]
    if not all(low <= x <= high for x, low, high in ranges):
        return 10
    p, m = 100 + alpha, 100 - alpha
    conditions = [
        nmin * (100 * m**3 - delta * p**3) >= 10**8,
        nmin * ((100 + gamma) * m**3 - (100 + delta) * p**3) >= 10**8,
        (gamma + delta) * p**3 <= 100 * m**3,
        100 * beta * p**2 + delta * p**3 <= 100 * m**3,
        beta * (10**4 * m**6 + m**6 * p**2) > 100 * p**6 * m**2 + beta * delta * (10**6 * p**4 + 100 * p**4 * m**2),
    ]
    return next((11 + i for i, holds in enumerate(conditions) if not holds), None)


def report(file):
    """The whole text that the program prints."""
    try:
        records = schedule_records(file)
        settings = [number(records[0][1], i) for i in range(0, 12, 2)]
        klass, table, k = (number(records[1][1], i) for i in (0, 2, 4))
        fault = settings_number(*settings)
        if fault:
            raise Refused(fault, 0)
        if k < settings[4]:
            raise Refused(16, 0)
    except Refused as refused:
        return "refused %d at %d\n" % refused.args
    kinds = [kind for kind, _ in records]
    steps = ", ".join("%d %s" % (kinds.count(kind), name) for kind, name in NAMES.items())
    return "records %s\ntable %d\nstations %d\nsteps %s\n" % ({1: "response", 2: "gas"}[klass], table, k, steps)


if __name__ == "__main__":
    for name in sys.argv[1:]:
        with open(name, "rb") as file:
            sys.stdout.write(report(file.read()))
    if len(sys.argv) == 1:
        sys.stdout.write(report(sys.stdin.buffer.read(MOST + 1)))
