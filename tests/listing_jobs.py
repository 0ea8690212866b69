"""What the program listing_test must print.

Writes crates/listing_test/stdout. The lines of specimens A and B are document 01's own; the others follow from its table of refusals and from
stage 1, and are written out by hand. A total counts the verdicts in the lines above it.
Run it from the top of the repository: python3 tests/listing_jobs.py
"""
A = ['0 0 1 3 0 0 0 1 0 0 0', '0 0 0 5 0 0 0 0 0 0 0', '3 0 1 1 0 1 1 0 0 0 0', '3 1 1 3 0 0 0 1 0 0 0']
# the group of each: the last has verdict, time and line of the first
GROUPS = [0, 1, 2, 0]
FILES = ['circuit', 'test', 'faults', 'plan']

printed = ''


def checksum(text):
    total = 1
    for byte in text.encode():
        total = (257 * total + byte) % 1000000007
    return total


def job(title, *lines):
    """Adds what is printed of a job: of a long list its first two lines, its last and a checksum."""
    global printed
    text = ''.join(line + '\n' for line in lines)
    printed += f'{title}: {len(text)} bytes\n'
    if len(text) > 1000:
        text = ''.join(line + '\n' for line in (lines[0], lines[1], lines[-1], f'checksum {checksum(text)}'))
    printed += text


def graded(*lines):
    """The lines of an accepted job, and its total."""
    verdicts = [int(line.split()[3]) for line in lines]
    return [*lines, 'total ' + ' '.join(str(verdicts.count(v)) for v in range(1, 8))]


def faults_of_a(count):
    """The four faults of A, again and again."""
    return graded(*(f'{A[n % 4]} {GROUPS[n % 4]}' for n in range(count)))


job('specimen A', *faults_of_a(4))
# m 2, differing 1, clashing 2, surviving 1, start 0
job('specimen B', *graded('0 0 1 6 2 0 0 1 2 1 0 0'))
job('no files', 'refused 1 0')

for name in FILES:
    job(f'{name} longer', f'too long {name}.dat')
for first, second in ('circuit', 'plan'), ('test', 'faults'), ('faults', 'plan'):
    job(f'{first} and {second} longer', f'too long {first}.dat')
job('all longer', 'too long circuit.dat')

# 65,536 bytes are no multiple of 12, 65,536 units of one input, 16,384 faults, 16,384 pairs
for name, rule in zip(FILES, [1, 7, 14, 11]):
    job(f'full {name}', f'refused {rule} 0')

job('kind of record 3', 'refused 2 3')
job('byte 12 of the test', 'refused 8 12')
job('line of fault 2', 'refused 10 2')

# N 6, F 4, O 1: 4 N + L (4 O + 16 F + 8) bytes are asked of the work area; the output shows 1 for 0 at once
for units in 862, 863:
    need = 4 * 6 + units * (4 * 1 + 16 * 4 + 8)
    job(f'{units} time units', *(graded('5 0 1 1 0 0 5 0 0 0 0 0') if need <= 65536 else ['refused 13 0']))

# 16 bytes a record
for count in 0, 4095, 4096, 4097:
    lines = faults_of_a(count) if 16 * count <= 65536 else ['refused 14 0']
    job(f'{count} faults' if count else 'no fault', *lines)

open('crates/listing_test/stdout', 'w').write(printed)
