"""Records for the program group_test, and what it must print.

Writes crates/group_test/data/records.dat and crates/group_test/stdout. A group is looked up by verdict, time and line among the records so far;
refusals are written out by hand.
Run it from the top of the repository: python3 tests/group_jobs.py
"""
import os
import random
import struct

printed = ''


def record(verdict, time, line, m=0, differing=0, clashing=0, surviving=0, start=0):
    return struct.pack('<BBHHHHHHH', verdict, m, time, line, differing, clashing, surviving, start, 0)


def entries(records):
    """For each record the position of the first with its verdict, time and line."""
    first, found = {}, []
    for at in range(0, len(records), 16):
        verdict, _, time, line = struct.unpack_from('<BBHH', records, at)
        found.append(first.setdefault((verdict, time, line), at // 16))
    return found


def checksum(data):
    total = 1
    for byte in data:
        total = (257 * total + byte) % 1000000007
    return total


def job(title, records, refused=None):
    """Adds what is printed of a call: the entries, or of more than a hundred their checksum."""
    global printed
    if refused:
        answer = f'refused {refused} 0'
    else:
        found = entries(records)
        answer = f'done {len(found)}'
        if len(found) <= 100:
            answer += ''.join(f' {n}' for n in found)
        else:
            answer += f' checksum {checksum(struct.pack(f"<{len(found)}H", *found))}'
    printed += f'{title}: {answer} kept\n'


# records that differ in one byte, each twice, in any order: those of verdict, time and line part groups, and no other does
base = record(3, 258, 772, 5, 1286, 1800, 2314, 2828)
small = [base[:at] + bytes([base[at] + 1]) + base[at + 1:] for at in range(16)] * 2 + [base] * 2
# verdict, time and line exchanged, and the largest
small += [record(1, 2, 3), record(1, 3, 2), record(2, 1, 3), record(2, 3, 1), record(3, 1, 2), record(3, 2, 1)] * 2
small += [bytes([255] * 16), bytes([255] + [0] + [255] * 4 + [0] * 10), record(255, 65535, 65534), record(255, 65534, 65535), record(254, 65535, 65535)]
random.Random(3).shuffle(small)
job('records.dat', b''.join(small))

job('no record', b'')
for title in 'a byte', '15 bytes', '17 bytes', '32769 records', '32768 records and a byte', '32769 records, no result area':
    job(title, None, refused=15)
for title in 'one record', '40 records', '32768 records':
    job(f'{title}, a byte short', None, refused=14)

for keys in 1, 9, 1000, 32769:
    printed += f'{keys} keys\n'
    many = [record(1 + j % keys % 7, 259 * (j % keys // 7 % 100), 300 * (j % keys // 700), j % 256, differing=j, start=j) for j in range(32768)]
    for count in 1, 40, 32767, 32768:
        job('one record' if count == 1 else f'{count} records', b''.join(many[:count]))

os.makedirs('crates/group_test/data', exist_ok=True)
open('crates/group_test/data/records.dat', 'wb').write(b''.join(small))
open('crates/group_test/stdout', 'w').write(printed)
