"""The programs `bench` and `names` on arguments and files of every sort: what they write to standard output and to standard error.

Run it from the top of the repository after `tools/build bench names`: python3 tests/bench_runs.py. Ends with status 1 where something differs. Records, names
and refusals come from bench_reader.py.
"""
import os
import subprocess
import sys
import tempfile

sys.dont_write_bytecode = True
from bench_reader import circuit, read

PROGRAMS = {program: os.path.abspath(f'target/bin/{program}') for program in ('bench', 'names')}
S27 = open('samples/s27/s27.bench', 'rb').read()
OTHER = b'INPUT(a)\nOUTPUT(a)\n'
LONGEST = 2097152
DEFAULT = 'circuit.bench'

WRITES = {'bench': 'the records of a circuit', 'names': 'the number and the name of each line of a circuit'}
RULES = {
    1: 'the text defines no line, or more than 4096',
    6: 'no input or no output, or above 256 inputs, flip-flops or outputs',
    18: 'it is of none of the forms INPUT(a), OUTPUT(a), a = DFF(b), a = NAND(b, c), with 1 pin for BUFF and NOT, 2 to 4 for AND, NAND, OR, NOR, '
        'XOR and XNOR, names of 1 to 32 letters, digits or underscores, and no tab or carriage return',
    19: 'it defines a name that an earlier text line defines',
    20: 'it names something that is not defined, or for a gate not above it',
}


def usage(program):
    return (f'usage: {program} [FILE]\nwrites {WRITES[program]} to standard output, from the bench text in FILE, or in circuit.bench where no FILE '
            'is named\n')


def expected(program, text):
    """What is written and told of a text."""
    refused, lines = circuit(text)
    if refused:
        number, position = refused
        place = f' at text line {position + 1}' if number >= 18 else ''
        return b'', f'{program}: refused {number}{place}: {RULES[number]}\n'
    if program == 'bench':
        return read(text)[1], ''
    return b''.join(b'%d %b\n' % (n, line[3][0]) for n, line in enumerate(lines)), ''


def run(program, files, arguments, output=subprocess.PIPE):
    """In a folder with these files: their bytes, or 'folder' where a folder has the name."""
    with tempfile.TemporaryDirectory() as place:
        for name, data in files.items():
            if data == 'folder':
                os.mkdir(f'{place}/{name}')
            else:
                with open(f'{place}/{name}', 'wb') as file:
                    file.write(data)
        done = subprocess.run([PROGRAMS[program], *arguments], cwd=place, stdout=output, stderr=subprocess.PIPE)
        return done.returncode, done.stdout, done.stderr.decode()


def filled(size):
    """s27 with a comment that makes it so many bytes."""
    return S27 + b'#' * (size - len(S27))


def chain(count):
    return b'INPUT(n0)\n' + b''.join(b'n%d = NOT(n%d)\n' % (n, n - 1) for n in range(1, count)) + b'OUTPUT(n%d)' % (count - 1)


# texts: each in circuit.bench with no argument, and in a file that the argument names beside another circuit.bench
texts = [
    S27, OTHER, OTHER[:-1], S27.replace(b'\n', b' # comment\n'), chain(4096), filled(LONGEST),
    b'INPUT(%b)\nOUTPUT(%b)' % (b'a' * 32, b'a' * 32),
    # each number, with places that count from 1 and blank text lines
    b'', b'\n', b'# nothing', chain(4097), S27.replace(b'OUTPUT(G17)', b''), b'q = DFF(q)\nOUTPUT(q)',
    b'x', OTHER + b'x', OTHER + b'\n\n# c\n x', S27.replace(b'\n', b'\r\n'), S27.replace(b' = ', b'\t=\t'), b'INPUT(%b)' % (b'a' * 33),
    OTHER + b'INPUT(a)', S27 + S27, b'OUTPUT(b)\n' + OTHER, S27.replace(b'G0)', b'G00)', 1), S27.replace(b'G14 = NOT(G0)\n', b'') + b'G14 = NOT(G0)\n',
    b'\n' * 70000 + b'INPUT(', b'\n' * 70000 + b'OUTPUT(a)\n', b'\n' * 70000 + OTHER + OTHER,
]
# files, arguments, and for a program the bytes on standard output and the text on standard error
runs = []
for text in texts:
    runs.append(({DEFAULT: text}, [], lambda program, text=text: expected(program, text)))
    runs.append(({DEFAULT: OTHER + b'x', 'given.bench': text}, ['given.bench'], lambda program, text=text: expected(program, text)))


def told(files, arguments, line):
    runs.append((files, arguments, lambda program: (b'', line(program) if callable(line) else f'{program}: {line}\n')))


for arguments in [DEFAULT, DEFAULT], [DEFAULT, ''], ['', ''], ['a', 'b', 'c']:
    told({DEFAULT: S27}, arguments, usage)
told({}, [], f'there is no file {DEFAULT}')
told({DEFAULT: S27}, ['given.bench'], 'there is no file given.bench')
told({DEFAULT: S27}, ['none/given.bench'], 'there is no file none/given.bench')
told({DEFAULT: S27}, [''], 'there is no file ')
told({DEFAULT: S27}, ['a' * 4097], 'File name too long')
told({DEFAULT: S27}, ['a' * 300], lambda program: 'a' * 300 + ': File name too long\n')
told({DEFAULT: 'folder'}, [], lambda program: f'{DEFAULT}: Is a directory\n')
told({DEFAULT: S27, 'given.bench': 'folder'}, ['given.bench'], lambda program: 'given.bench: Is a directory\n')
told({DEFAULT: S27}, [f'{DEFAULT}/x'], lambda program: f'{DEFAULT}/x: Not a directory\n')
for size in LONGEST + 1, 2 * LONGEST:
    told({DEFAULT: filled(size)}, [], f'{DEFAULT} is longer than 2097152 bytes')
    told({DEFAULT: S27, 'given.bench': filled(size)}, ['given.bench'], 'given.bench is longer than 2097152 bytes')

wrong = 0
for program in PROGRAMS:
    for files, arguments, answer in runs:
        output, error = answer(program)
        status, written, said = run(program, files, arguments)
        if (status, written, said) != (0, output, error):
            wrong += 1
            print(f'{program} {[word[:30] for word in arguments]} on {[(name, data[:60]) for name, data in files.items()]}: status {status},',
                  f'{len(written)} bytes on standard output for {len(output)}, told {said[:100]!r} for {error[:100]!r}')
    # a device that takes nothing
    with open('/dev/full', 'wb') as full:
        _, _, said = run(program, {DEFAULT: S27}, [], full)
    if said != f'{program}: cannot write the {"circuit" if program == "bench" else "names"}\n':
        wrong += 1
        print(f'{program} on a full device told {said!r}')
print(f'{len(PROGRAMS) * (len(runs) + 1)} runs, {wrong} differ')
sys.exit(wrong > 0)
