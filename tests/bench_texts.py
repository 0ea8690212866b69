"""Texts for the program bench_test, and what it must print; and for the programs `bench` and `names` the text of s27, and what they must write.

Writes data/ and stdout of crates/bench_test, crates/bench and crates/names. What is printed comes from bench_reader.py; the answers of the larger texts
are written out by hand besides, as are most of those in bench_cases.py, and the records of s27 are those in samples/s27.
Run it from the top of the repository: python3 tests/bench_texts.py
"""
import os
import random
import sys

sys.dont_write_bytecode = True
from bench_cases import cases
from bench_reader import name, read

AREA = 49164                     # a record more than a circuit can have
DIGITS = '0123456789ABCDEFGHIJKLMNOPQRSTUVWXYZ_abcdefghijklmnopqrstuvwxyz'

texts, printed = [], ''


def checksum(data):
    total = 1
    for byte in data:
        total = (257 * total + byte) % 1000000007
    return total


def name_of(text, line):
    at, size = name(text, line)
    return text[at:at + size].decode() or '-'


def answer(text, area):
    """What is printed of the calls on a text; of more than 16 lines a checksum and two names."""
    refused, records = read(text, area)
    if refused:
        return f'refused {refused[0]} {refused[1]} {name_of(text, 0)}'
    count = len(records) // 12
    shown, lines = (records.hex(), range(count)) if count <= 16 else (f'checksum {checksum(records)}', [0, count - 1])
    return ' '.join([f'done {count}', shown, *(name_of(text, line) for line in lines), name_of(text, count)])


def add(text, area, begins=''):
    """Adds a text and a result area of so many bytes; how the answer begins is by hand."""
    global printed
    said = answer(text, area)
    assert said.startswith(begins), (text[:100], said, begins)
    texts.append(len(text).to_bytes(4, 'little') + area.to_bytes(4, 'little') + text)
    printed += f'{said} kept\n'


def add_accepted(text, count):
    """Adds a text of so many lines with an area that just holds them, one of a byte less, and the longest."""
    add(text, 12 * count, f'done {count} ')
    add(text, 12 * count - 1, 'refused 14 0 ' + name_of(text, 0))
    add(text, AREA, f'done {count} ')


# the small texts
for text, _ in cases:
    refused, records = read(text)
    if refused:
        add(text, AREA)
    else:
        add_accepted(text, len(records) // 12)
add(b'INPUT(a)\nOUTPUT(a)\n', 0, 'refused 14 0 a')
# a text that is refused for itself is not refused for its area
for text, begins in (b'', 'refused 1 0'), (b'INPUT(a)', 'refused 6 0'), (b'INPUT(a)\nx', 'refused 18 1'), (b'OUTPUT(a)', 'refused 20 0'):
    add(text, 0, begins)


def named(n):
    """A name of its own for each number: its digits, lowest first."""
    return DIGITS[n] if n < 63 else DIGITS[n % 63] + named(n // 63)


def inputs(count, begin=0):
    return [f'INPUT({named(n)})' for n in range(begin, begin + count)]


def flip_flops(count, begin):
    return [f'{named(n)}=DFF({named(n)})' for n in range(begin, begin + count)]


def outputs(count, begin=0):
    return [f'OUTPUT({named(n)})' for n in range(begin, begin + count)]


def text_of(*lines):
    return '\n'.join(lines).encode()


# row 6: 256 and 257 inputs, flip-flops and outputs
add_accepted(text_of(*inputs(256), *flip_flops(256, 256), *outputs(256)), 512)
add(text_of(*inputs(257), *flip_flops(256, 257), *outputs(256)), AREA, 'refused 6 0')
add(text_of(*inputs(256), *flip_flops(257, 256), *outputs(256)), AREA, 'refused 6 0')
add(text_of(*inputs(256), *flip_flops(1, 256), *outputs(257)), AREA, 'refused 6 0')
add(text_of(*inputs(256), *outputs(256), *outputs(256)), AREA, 'done 256 ')

# names of 32 bytes that differ in the last two alone
long_names = ['n' * 30 + a + b for a in 'abcdef' for b in DIGITS[:40]]
add_accepted(text_of(*(f'INPUT({word})' for word in long_names), *(f'OUTPUT({word})' for word in long_names[::-1])), 240)

# 4,096 definitions: gates of every kind whose pins are any lines above
dice = random.Random(4)
gates = []
for n in range(2, 4096):
    word = dice.choice(['BUFF', 'NOT', 'AND', 'NAND', 'OR', 'NOR', 'XOR', 'XNOR'])
    pins = [named(dice.randrange(n)) for _ in range(1 if word in ('BUFF', 'NOT') else 2)]
    gates.append(f'{named(n)}={word}({",".join(pins)})')
most = [*inputs(2), *gates, *outputs(1, 4095)]
add_accepted(text_of(*most), 4096)

# and more, which are looked at as far as 18 to 20 go before they are too many
longer = text_of(*inputs(2), *(f'{named(n)}=NOT({named(n - 1)})' for n in range(2, 4099)), '')
LINES = 4099
add(text_of(*most, f'INPUT({named(4096)})'), AREA, 'refused 1 0')
add(longer, AREA, 'refused 1 0')
add(longer + text_of(f'INPUT({named(0)})'), AREA, f'refused 19 {LINES}')
add(longer + text_of(f'{named(4097)}=NOT({named(4098)})'), AREA, f'refused 19 {LINES}')
add(longer + text_of('more=NOT(none)'), AREA, f'refused 20 {LINES}')
# lines past the 4,096th: used where they are above, and by OUTPUT and DFF where they are not; a gate may not use one below it
add(text_of(f'OUTPUT({named(4098)})', 'early=DFF(last)', '') + longer + text_of(f'last=AND({named(4096)},early,{named(4097)})'), AREA, 'refused 1 0')
add(text_of(f'OUTPUT({named(4098)})', 'early=NOT(last)', '') + longer + text_of('INPUT(last)'), AREA, 'refused 20 1')

# a position that 16 bits do not hold
add(b'\n' * 70000 + b'INPUT(a', AREA, 'refused 18 70000')


def write(crate, file, data, expected):
    os.makedirs(f'crates/{crate}/data', exist_ok=True)
    open(f'crates/{crate}/data/{file}', 'wb').write(data)
    open(f'crates/{crate}/stdout', 'wb').write(expected)


s27, records = (open(f'samples/s27/{file}', 'rb').read() for file in ('s27.bench', 'circuit.dat'))
assert read(s27) == (None, records)
write('bench_test', 'texts.dat', b''.join(texts), printed.encode())
write('bench', 'circuit.bench', s27, records)
write('names', 'circuit.bench', s27, ''.join(f'{n} {name_of(s27, n)}\n' for n in range(17)).encode())
