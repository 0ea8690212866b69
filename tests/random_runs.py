"""The program `random` on arguments and files of every sort: what it writes to standard output and to standard error.

Run it from the top of the repository after `tools/build random`: python3 tests/random_runs.py. Ends with status 1 where something differs.
"""
import os
import subprocess
import sys
import tempfile

PROGRAM = os.path.abspath('target/bin/random')
S27 = open('samples/s27/circuit.dat', 'rb').read()
WIDE = bytes(12 * 255) + bytes([0, 0, 1]) + bytes(9)  # 256 inputs, the last of them an output

USAGE = '''usage: random SEED UNITS
writes a test of UNITS time units, 1 to 1024, for the circuit in circuit.dat to standard output
SEED is 1 to 65535; each is in decimal or 0x and hexadecimal digits
'''
BAD_SEED = 'random: the seed is not a number from 1 to 65535, in decimal or as 0x and hexadecimal digits\n'
BAD_UNITS = 'random: the time units are not a number from 1 to 1024, in decimal or as 0x and hexadecimal digits\n'
NO_FILE = 'random: there is no file circuit.dat in this folder\n'


def sequence(seed, size):
    """The bytes by the request's sentences, with the number as a string of bits, highest first."""
    bits = f'{seed:016b}'
    written = []
    for _ in range(size):
        out, bits = bits[-1], '0' + bits[:-1]
        if out == '1':
            bits = ''.join('10'[a == b] for a, b in zip(bits, f'{0xB400:016b}'))
        written.append(int(bits[-1]))
    return bytes(written)


def refused(number, position=0):
    return f'random: refused {number} {position}: '


def run(circuit, arguments):
    """In a folder with this circuit.dat: its bytes, None for no file, or 'folder' where a folder has its name."""
    with tempfile.TemporaryDirectory() as place:
        if circuit == 'folder':
            os.mkdir(f'{place}/circuit.dat')
        elif circuit is not None:
            with open(f'{place}/circuit.dat', 'wb') as file:
                file.write(circuit)
        done = subprocess.run([PROGRAM, *arguments], cwd=place, capture_output=True)
        return done.returncode, done.stdout, done.stderr.decode()


# circuit, arguments, bytes on standard output, beginning of standard error
runs = [
    # seeds and lengths
    *((S27, [str(seed), str(units)], sequence(seed, 4 * units), '') for seed in (1, 2, 0xACE1, 0xB400, 65535) for units in (1, 2, 20, 1024)),
    *((S27, [text, '3'], sequence(0xACE1, 12), '') for text in ('44257', '0xACE1', '0xace1', '0x0000ACE1', '00044257')),
    *((S27, ['7', text], sequence(7, 4 * 1024), '') for text in ('1024', '0x400', '0001024')),
    # refused by number, in words
    *((S27, [text, '3'], b'', refused(16) + 'the seed is 0\n') for text in ('0', '0x0', '000')),
    *((S27, ['1', text], b'', refused(17) + 'the time units are 0 or above 1024\n')
      for text in ('0', '1025', '65536', '65537', '0x10001', '4294967297', '18446744073709551617', '1' + '0' * 3000)),
    (S27, ['0', '0'], b'', refused(16)),
    (WIDE, ['1', '256'], sequence(1, 65536), ''),
    (WIDE, ['1', '257'], b'', refused(14) + 'the test is longer than the 65536 bytes that grader reads\n'),
    (WIDE, ['1', '1025'], b'', refused(17)),
    (b'', ['0', '0'], b'', refused(1)),
    (S27[:-1], ['1', '1'], b'', refused(1)),
    (bytes(49164), ['1', '1'], b'', refused(1)),
    (bytes(70000), ['1', '1'], b'', refused(1)),
    (S27 + bytes([10]) + bytes(11), ['1', '1'], b'', refused(2, 17) + 'record 17 of circuit.dat, counted from 0, has a kind above 9\n'),
    (S27 + bytes([4, 1]) + bytes(10), ['1', '1'], b'', refused(3, 17)),
    (S27 + bytes([0, 0, 2]) + bytes(9), ['1', '1'], b'', refused(4, 17)),
    (S27 + bytes([2, 1, 0, 0, 17]) + bytes(7), ['1', '1'], b'', refused(5, 17)),
    (bytes(12), ['1', '1'], b'', refused(6)),
    # bad arguments
    *((S27, arguments, b'', USAGE) for arguments in ([], ['1'], ['1', '2', '3'])),
    *((S27, [text, '3'], b'', BAD_SEED) for text in ('', ' ', '-1', '+1', '1 ', '1.5', '0x', '0X1', '0xG', 'ACE1', '1_000', '65536', '0x10000', '1' + '0' * 4000, '1' * 4097)),
    *((S27, ['1', text], b'', BAD_UNITS) for text in ('', 'many', '-1', '12a', '1' * 4097)),
    # no file, and one that cannot be read
    (None, ['1', '1'], b'', NO_FILE),
    (None, ['x', '1'], b'', BAD_SEED),
    ('folder', ['1', '1'], b'', 'circuit.dat: '),
]

wrong = 0
for circuit, arguments, output, error in runs:
    status, written, told = run(circuit, arguments)
    one_line = told.endswith('\n') and (told.count('\n') == 1 or told == USAGE) if error else told == ''
    if status != 0 or written != output or not told.startswith(error) or not one_line:
        wrong += 1
        print(f'{[a[:30] for a in arguments]}: status {status}, {len(written)} bytes on standard output for {len(output)}, told {told[:100]!r} for {error!r}')
print(f'{len(runs)} runs, {wrong} differ')
sys.exit(wrong > 0)
