"""The circuit s27 and its test in source document 001: the sample job, and what the program s27_test must print.

Writes the four files of samples/s27/ with all faults of the circuit, and for s27_test the faults with a published time: crates/s27_test/data/ and its
stdout. The detection times are those printed there (Table 3.4), not computed.
Run it from the top of the repository: python3 tests/s27.py. samples/s27/README.md says what is published and what is inferred.

The source numbers 26 places of the circuit, fanout branches included, and has no figure of them. The places below are those that agree with all its
tables of detection times (3.4, 3.6, 3.8), with its collapsed fault list, and with the convention that the inputs come first.
"""
import os

IN, FF, NOT, AND, NAND, OR, NOR = 0, 1, 3, 4, 5, 6, 7
LINES = [                        # kind, pins; G17 is the output
    (IN, []), (IN, []), (IN, []), (IN, []),  # 0 G0, 1 G1, 2 G2, 3 G3
    (FF, [16]),                  # 4 G5 = DFF(G10)
    (FF, [14]),                  # 5 G6 = DFF(G11)
    (FF, [10]),                  # 6 G7 = DFF(G13)
    (NOT, [0]),                  # 7 G14 = NOT(G0)
    (NOR, [1, 6]),               # 8 G12 = NOR(G1, G7)
    (AND, [7, 5]),               # 9 G8 = AND(G14, G6)
    (NOR, [2, 8]),               # 10 G13 = NOR(G2, G12)
    (OR, [8, 9]),                # 11 G15 = OR(G12, G8)
    (OR, [3, 9]),                # 12 G16 = OR(G3, G8)
    (NAND, [12, 11]),            # 13 G9 = NAND(G16, G15)
    (NOR, [4, 13]),              # 14 G11 = NOR(G5, G9)
    (NOT, [14]),                 # 15 G17 = NOT(G11)
    (NOR, [7, 14]),              # 16 G10 = NOR(G14, G11)
]
OUTPUT = 15
PLACES = {                       # the source's number: line and pin
    1: (0, 0), 2: (1, 0), 3: (2, 0), 4: (3, 0), 5: (4, 0), 6: (5, 0), 7: (6, 0), 8: (7, 0), 9: (8, 0), 10: (10, 2), 11: (11, 1), 12: (16, 1),
    13: (9, 1), 14: (9, 0), 15: (10, 0), 16: (12, 2), 17: (11, 2), 18: (11, 0), 19: (12, 0), 20: (13, 0), 21: (14, 0), 22: (16, 2),
    23: (15, 1), 24: (5, 1), 25: (16, 0), 26: (15, 0),
}
TEST = '0011 1101 0011 0011 1110 0011 1011 0001 0011 0110 0011 1011 0010 0100 0111 1110 0101 1000 0000 0110'  # Table 3.3
TIMES = {                        # Table 3.4
    1: '2/0 9/1 14/1 18/1 20/0 21/1 26/0', 3: '3/0 4/0 8/0 9/0 11/0 12/0 15/1 21/0 25/1 26/1', 4: '8/1 13/1', 5: '5/0 25/0', 7: '22/0',
    9: '14/0 16/0 17/0 24/0', 19: '6/1 24/1',
}
UNDETECTED = '7/0 15/0 19/1'     # 19/1 by the source's words, the others by their absence from Table 3.4
PLAN = [(1, 1), (0, 0), (0, 1), (0, 2)]  # time and flip-flop index: what Choose writes for the fault 0 0 0 under the first four units of the test


def places(names):
    return [(*PLACES[int(n)], int(v)) for n, v in (name.split('/') for name in names.split())]


def field(number):
    return number.to_bytes(2, 'little')


def fault_records(faults):
    return b''.join(field(line) + bytes([pin, value]) for line, pin, value in faults)


def write(folder, files):
    os.makedirs(folder, exist_ok=True)
    for name, data in files.items():
        with open(f'{folder}/{name}.dat', 'wb') as out:
            out.write(data)


circuit = b''.join(
    bytes([kind, len(pins), n == OUTPUT, 0]) + b''.join(map(field, pins + [0] * (4 - len(pins)))) for n, (kind, pins) in enumerate(LINES))
test = bytes(int(v) for v in TEST.replace(' ', ''))
every = [(line, pin, value) for line, (_, pins) in enumerate(LINES) for pin in range(len(pins) + 1) for value in (0, 1)]
expected = [(f, f'{u}') for u in TIMES for f in places(TIMES[u])] + [(f, 'never') for f in places(UNDETECTED)]


def main():
    write('samples/s27', {
        'circuit': circuit, 'test': test, 'faults': fault_records(every), 'plan': b''.join(field(time) + field(i) for time, i in PLAN)})
    write('crates/s27_test/data', {'circuit': circuit, 'test': test, 'faults': fault_records(fault for fault, _ in expected)})
    with open('crates/s27_test/stdout', 'w') as out:
        for (line, pin, value), time in expected:
            out.write(f'{line} {pin} {value} {time}\n')


if __name__ == '__main__':
    main()
