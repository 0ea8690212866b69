"""The program on every job in samples/, held to the list beside the job; the total of each list, to its lines; and the list of s27, to its
published detection times.

Run it from the top of the repository after `tools/build grader`: python3 tests/samples.py. Ends with status 1 where something differs.
"""
import os
import subprocess
import sys

sys.dont_write_bytecode = True
import s27


def printed(folder):
    return subprocess.run([os.path.abspath('target/bin/grader')], cwd=folder, check=True, capture_output=True, text=True).stdout


def published():
    """How the lines begin of the faults with a published time, and of those that should have none."""
    for (line, pin, value), time in s27.expected:
        yield f'{line} {pin} {value} 5 0 0 0 ' if time == 'never' else f'{line} {pin} {value} 1 0 {time} {s27.OUTPUT} '


different = False
for name in sorted(os.listdir('samples')):
    expected = open(f'samples/{name}/expected.txt').read()
    is_same = printed(f'samples/{name}') == expected
    *lines, total = expected.splitlines()
    verdicts = [line.split()[3] for line in lines]
    is_counted = total == ' '.join(['total', *(str(verdicts.count(v)) for v in '1234567')])
    print(f'{name}: {len(verdicts)} faults, {total}, as the lines', 'have it' if is_counted else 'DO NOT HAVE IT', end='; ')
    print('the program prints', 'the same' if is_same else 'ANOTHER LIST')
    different |= not (is_same and is_counted)
lines = open('samples/s27/expected.txt').readlines()
missing = [start for start in published() if not any(line.startswith(start) for line in lines)]
print('s27: the published times stand in the list' if not missing else f's27: no line begins with one of {missing}')
sys.exit(different or bool(missing))
