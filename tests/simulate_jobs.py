"""Jobs for the program simulate_test, and what it must print.

Writes crates/simulate_test/data/jobs.dat and crates/simulate_test/stdout. Responses come from the small simulator below, written from
document 01 in another style than the crates (a loop with one plain value for each line, no lanes); refusals are written out by hand.
Run it from the top of the repository: python3 tests/simulate_jobs.py
"""
import random

X = 'x'


def record(kind, pins=(), out=0):
    """A line; of more than four pins it has the number and the first four."""
    data = bytes([kind, len(pins), out, 0])
    return data + b''.join(p.to_bytes(2, 'little') for p in [*pins, 0, 0, 0, 0][:4])


def more(data, at, by=1):
    """The same bytes, but the one at this place raised."""
    return data[:at] + bytes([data[at] + by]) + data[at + 1:]


def fault(line, pin, value):
    return line.to_bytes(2, 'little') + bytes([pin, value])


def gate(kind, seen):
    base = kind - kind % 2
    if base == 2:
        v = seen[0]
    elif base == 4:
        v = 0 if 0 in seen else X if X in seen else 1
    elif base == 6:
        v = 1 if 1 in seen else X if X in seen else 0
    else:
        v = X if X in seen else sum(seen) % 2
    return v if kind % 2 == 0 or v == X else 1 - v


def responses(circuit, test, faults):
    """Plain simulation from power-up, as a string: by time, then output line."""
    lines = [circuit[i:i + 12] for i in range(0, len(circuit), 12)]
    kinds = [r[0] for r in lines]
    pins = [[r[4 + 2 * p] + 256 * r[5 + 2 * p] for p in range(r[1])] for r in lines]
    ins = [n for n, k in enumerate(kinds) if k == 0]
    stuck = {}
    if faults:
        stuck[(faults[0] + 256 * faults[1], faults[2])] = faults[3]
    state = {n: X for n, k in enumerate(kinds) if k == 1}
    text = ''
    for u in range(len(test) // len(ins)):
        given = dict(zip(ins, test[u * len(ins):]))
        value = []
        for n, k in enumerate(kinds):
            if k == 0:
                v = given[n]
            elif k == 1:
                v = state[n]
            else:
                v = gate(k, [stuck.get((n, p + 1), value[m]) for p, m in enumerate(pins[n])])
            value.append(stuck.get((n, 0), v))
        text += ''.join(str(value[n]) for n, r in enumerate(lines) if r[2] == 1)
        state = {n: stuck.get((n, 1), value[pins[n][0]]) for n in state}
    return text


jobs, printed = [], []


def need(circuit, test):
    """The bytes that work area and result area must have."""
    n = len(circuit) // 12
    i, f = (sum(circuit[12 * k] == kind for k in range(n)) for kind in (0, 1))
    o = sum(circuit[12 * k + 2] == 1 for k in range(n))
    units = len(test) // i
    return 4 * n + units * (4 * o + 16 * f + 8), units * o


def job(circuit, test, faults=b'', work=None, result=None, refused=None):
    """Adds a job and what is printed of it. Areas not named are as small as they may be, or wide where the job is refused."""
    test = bytes(test)
    if refused is None:
        area, size = need(circuit, test)
        text = responses(circuit, test, faults)
        assert len(text) == size
        printed.append(f'done {size} {text} kept\n')
    else:
        area, size, text = 40000, 2000, None
        printed.append(f'refused {refused[0]} {refused[1]} kept\n')
    sizes = [len(circuit), len(test), len(faults), area if work is None else work, size if result is None else result]
    jobs.append(b''.join(s.to_bytes(2, 'little') for s in sizes) + circuit + test + faults)
    return text


I = record(0)
A = I + record(1, [3], 1) + record(3, [1]) + record(4, [0, 2])
B = I + record(1, [2], 1) + record(4, [0, 1])
D = I + record(1, [1]) + record(3, [1]) + record(6, [0, 1], 1) + record(6, [0, 2], 1)

# specimens A, B and D, without and with faults
job(A, [0, 0, 0])
for f in [(0, 0, 1), (0, 0, 0), (3, 0, 1), (3, 1, 1)]:
    job(A, [0, 0, 0], fault(*f))
job(B, [0, 0])
job(B, [0, 0], fault(0, 0, 1))
job(D, [1])
job(D, [1, 1], fault(0, 0, 0))
# a stuck flip-flop line and its stuck pin; more room than is needed
for f in [(1, 0, 0), (1, 0, 1), (1, 1, 0), (1, 1, 1)]:
    job(A, [0, 1, 0, 1], fault(*f), work=4000, result=50)
# a stuck pin of two that name the same line
job(I + record(8, [0, 0], 1), [0, 1])
job(I + record(8, [0, 0], 1), [0, 1], fault(1, 1, 1))
# random circuits of every kind of gate, most with one fault, and more room for the result than is needed
dice = random.Random(1)
for n in range(40):
    c = I + record(0) + record(1, [dice.randrange(3, 12)], dice.randrange(2)) + record(1, [dice.randrange(12)])
    for line in range(4, 12):
        kind = 2 + (n + line) % 8
        count = 1 if kind < 4 else dice.randrange(2, 5)
        c += record(kind, [dice.randrange(line) for _ in range(count)], 1 if line > 8 else dice.randrange(2))
    line = dice.randrange(12)
    f = fault(line, dice.randrange(c[12 * line + 1] + 1), dice.randrange(2))
    job(c, [dice.randrange(2) for _ in range(12)], dice.choice([b'', f, f, f]), result=100)

# every kind of gate with every number of pins; flip-flop 3 follows a gate, 4 a flip-flop and 5 itself
EVERY = I * 3 + record(1, [11]) + record(1, [3]) + record(1, [5], 1)
EVERY += record(2, [3])
EVERY += record(3, [4])
EVERY += record(4, [0, 6]) + record(4, [1, 2, 7]) + record(4, [0, 1, 4, 6])
EVERY += record(5, [2, 4]) + record(5, [0, 1, 3]) + record(5, [0, 2, 6, 7])
EVERY += record(6, [1, 5], 1) + record(6, [0, 2, 7]) + record(6, [1, 2, 3, 4])
EVERY += record(7, [1, 7]) + record(7, [0, 2, 6]) + record(7, [0, 1, 2, 7])
EVERY += record(8, [8, 9]) + record(8, [10, 12, 20]) + record(8, [13, 15, 16, 17])
EVERY += record(9, [18, 22]) + record(9, [11, 19, 21], 1) + record(9, [0, 2, 21, 23], 1)
TEST = [int(v) for v in '010 000 100 101 000 111 101 111 110 011 111 011 101 000 000 001 101 100 110 010'.replace(' ', '')]
# its response without a fault and with each of its faults
free = job(EVERY, TEST)
places = set()
for line in range(len(EVERY) // 12):
    kind, count = EVERY[12 * line:12 * line + 2]
    faulty = {(pin, v): job(EVERY, TEST, fault(line, pin, v)) for pin in range(count + 1) for v in (0, 1)}
    # each fault changes the response, and a pin stuck at one of the two values is told from the gate's other pins
    assert free not in faulty.values()
    assert count == 0 or any(len({faulty[pin, v] for pin in range(1, count + 1)}) == count for v in (0, 1))
    places |= {(kind, pin) for pin, v in faulty}
# so a fault matters at all places (kind, pin) that there are: 3 of inputs and flip-flops, 34 of gates
assert places == {(0, 0), (1, 0), (1, 1)} | {(kind, pin) for kind in range(2, 10) for pin in range(2 if kind < 4 else 5)}
assert len(places) == 37

# row 1: no byte, and parts of a record; the shortest circuit
job(b'', [0], refused=(1, 0))
for cut in 1, 4, 6:
    job(B[:-cut], [0], refused=(1, 0))
job(record(0, [], 1), [1])
# row 2; records 0, 1 and 300
job(more(B, 0, 255), [0], refused=(2, 0))
job(I + record(10, [0], 1) + record(3, [0], 1), [0], refused=(2, 1))
job(I + record(3, [0], 1) + record(3, [0]) * 298 + record(10, [0]), [0], refused=(2, 300))
# row 3: every kind with 0 to 5 pins
for kind in range(10):
    may = [0] if kind == 0 else [1] if kind < 4 else [2, 3, 4]
    for count in range(6):
        job(I + record(kind, [0] * count, 1), [0, 1], refused=None if count in may else (3, 1))
# row 4: byte 2, byte 3 and each byte of an unused pin
for kind, count in (0, 0), (1, 1), (3, 1), (4, 2), (4, 3), (4, 4):
    for at in 2, 3, *range(4 + 2 * count, 12):
        job(I + more(record(kind, [0] * count, 1), at), [0, 0], refused=(4, 1))
# row 5: each pin of a gate that names itself, a higher line, line N and line 256; a flip-flop that names line N and line 256
for kind, count in (2, 1), (3, 1), (4, 2), (9, 4):
    for pin in range(count):
        for line in 1, 2, 3, 256:
            pins = [0] * count
            pins[pin] = line
            job(I + record(kind, pins) + record(3, [0], 1), [0], refused=(5, 1))
for line in 2, 256:
    job(I + record(1, [line], 1), [0], refused=(5, 1))


def sized(i, f, o):
    """A circuit with so many inputs, flip-flops and outputs."""
    return I * i + b''.join(record(1, [n % i]) for n in range(f)) + b''.join(record(2, [f + n], 1) for n in range(o))


# row 6: I or O is 0; I, F and O are 256; one of them is 257
job(record(1, [0], 1), [0], refused=(6, 0))
job(I + record(3, [0]), [0], refused=(6, 0))
job(sized(256, 256, 256), [dice.randrange(2) for _ in range(512)])
job(sized(257, 1, 1), [0] * 257, refused=(6, 0))
job(sized(1, 257, 1), [0], refused=(6, 0))
job(sized(1, 1, 257), [0], refused=(6, 0))
# row 7; L 1,024 and 1,025
job(D, [], refused=(7, 0))
job(I + I + record(4, [0, 1], 1), [0, 1, 0], refused=(7, 0))
c = I + I + record(1, [4]) + record(8, [1, 2]) + record(4, [0, 3], 1)
bits = [dice.randrange(2) for _ in range(2050)]
job(c, bits[:2048])
job(c, bits, refused=(7, 0))
# row 8; bytes 3 and 299
job(I + I + record(4, [0, 1], 1), [0, 1, 1, 2, 3, 0], refused=(8, 3))
job(B, [1] * 299 + [255], refused=(8, 299))
# row 9: parts of a record, and two records
for size in 1, 2, 3, 5, 8:
    job(B, [0], (fault(0, 0, 1) * 2)[:size], refused=(9, 0))
# row 10: line N and line 256, a pin more than the line has, value 2
for f in [(3, 0, 1), (256, 0, 1), (0, 1, 1), (1, 2, 1), (2, 3, 1), (0, 0, 2)]:
    job(B, [0], fault(*f), refused=(10, 0))
job(EVERY, TEST, fault(25, 5, 1), refused=(10, 0))
# rows 13 and 14: a byte less than is needed
for c, test in (record(0, [], 1), [1]), (B, [0, 0]), (D, [1]), (EVERY, TEST):
    area, size = need(c, test)
    job(c, test, work=area - 1, refused=(13, 0))
    job(c, test, result=size - 1, refused=(14, 0))
# two rows broken: the first record, and the first down the table, each row beside the next
job(I + record(3, [1], 1) + record(11, [0], 1), [0], refused=(5, 1))
job(more(B, 0, 10)[:-1], [0], refused=(1, 0))
job(I + record(10, [9], 7), [2], fault(9, 9, 9), refused=(2, 1))
job(I + record(3, [0, 0], 2), [0], refused=(3, 1))
job(I + record(3, [1], 2), [0], refused=(4, 1))
job(I + record(3, [1]), [0], refused=(5, 1))
job(I + record(3, [0]), [], refused=(6, 0))
job(I + I + record(4, [0, 1], 1), [0, 2, 0], refused=(7, 0))
job(B, [2], fault(0, 0, 1) * 2, refused=(8, 0))
job(B, [0], fault(9, 9, 9) + fault(0, 0, 1), refused=(9, 0))
job(B, [0], fault(9, 9, 9), work=0, refused=(10, 0))
job(B, [0], work=0, result=0, refused=(13, 0))


def chain(n):
    """A circuit of n lines: the input and the flip-flop go through NOT gates, one after the other, back to the flip-flop."""
    return I + record(1, [n - 1], 1) + record(4, [0, 1]) + b''.join(record(3, [m]) for m in range(2, n - 2)) + record(8, [0, n - 2], 1)


# N 4,096 and 4,097; specified but for the state at power-up, and not the response without the fault, with the other value, or with
# the fault at the line of its low byte
text = job(chain(4096), [0, 1, 1, 1], fault(4095, 1, 1))
assert text.count(X) == 1
assert text not in [responses(chain(4096), [0, 1, 1, 1], f) for f in (b'', fault(4095, 1, 0), fault(255, 1, 1))]
job(chain(4097), [0, 1, 1, 1], fault(4095, 1, 1), refused=(1, 0))

open('crates/simulate_test/data/jobs.dat', 'wb').write(b''.join(jobs))
open('crates/simulate_test/stdout', 'w').write(''.join(printed))
