"""A reader of bench text for the tests, independent of the crates: written from document 02's request Four and its readings alone, and in another
style, with regular expressions for the forms of a text line, a dictionary for the names and no tables.
"""
import re

NAME = rb'[A-Za-z0-9_]{1,32}'
CALL = re.compile(rb' *(INPUT|OUTPUT) *\( *(%b) *\) *' % NAME)
GATE = re.compile(rb' *(%b) *= *([A-Z]+) *\( *(%b(?: *, *%b)*) *\) *' % (NAME, NAME, NAME))
KEYWORDS = [b'INPUT', b'DFF', b'BUFF', b'NOT', b'AND', b'NAND', b'OR', b'NOR', b'XOR', b'XNOR']  # by kind
MOST = 256                       # inputs, flip-flops and outputs


def may_have(kind, pins):
    return pins == 1 if kind <= 3 else 2 <= pins <= 4


def sentence(line):
    """What a text line says: its kind or 'OUTPUT', the name that it defines with its place in the line, the names in its parentheses; 'nothing', or
    'malformed'."""
    line = line.split(b'#', 1)[0]
    if not line.strip(b' '):
        return 'nothing', None, []
    if call := CALL.fullmatch(line):
        if call[1] == b'OUTPUT':
            return 'OUTPUT', None, [call[2]]
        return 0, (call[2], call.start(2)), []
    gate = GATE.fullmatch(line)
    if gate and gate[2] in KEYWORDS[1:]:
        kind, pins = KEYWORDS.index(gate[2]), [pin.strip(b' ') for pin in gate[3].split(b',')]
        if may_have(kind, len(pins)):
            return kind, (gate[1], gate.start(1)), pins
    return 'malformed', None, []


def sentences(text):
    """The same of each text line, with places in the text."""
    begin = 0
    for line in text.split(b'\n'):
        sort, defined, pins = sentence(line)
        yield sort, defined and (defined[0], begin + defined[1]), pins
        begin += len(line) + 1


def circuit(text):
    """The number and the position by which a text is refused, and None; or None, and a line for each definition: kind, pins, whether it is an output,
    and its name with its place."""
    said = list(sentences(text))
    anywhere = {defined[0] for _, defined, _ in said if defined}
    numbers, lines, outputs = {}, [], set()
    for at, (sort, defined, pins) in enumerate(said):
        if sort == 'malformed':
            return (18, at), None
        if defined and defined[0] in numbers:
            return (19, at), None
        if not set(pins) <= (anywhere if sort in (1, 'OUTPUT') else numbers.keys()):
            return (20, at), None
        if sort == 'OUTPUT':
            outputs |= set(pins)
        if defined:
            numbers[defined[0]] = len(lines)
            lines.append((sort, pins, defined))
    if not 0 < len(lines) <= 4096:
        return (1, 0), None
    kinds = [kind for kind, _, _ in lines]
    inputs, flip_flops = kinds.count(0), kinds.count(1)
    if not (0 < inputs <= MOST and flip_flops <= MOST and 0 < len(outputs) <= MOST):
        return (6, 0), None
    return None, [(kind, [numbers[pin] for pin in pins], defined[0] in outputs, defined) for kind, pins, defined in lines]


def read(text, area=49152):
    """The number and the position by which the call refuses, and None; or None, and the records that it writes."""
    refused, lines = circuit(text)
    if refused:
        return refused, None
    if area < 12 * len(lines):
        return (14, 0), None
    records = b''
    for kind, pins, is_output, _ in lines:
        records += bytes([kind, len(pins), is_output, 0]) + b''.join(pin.to_bytes(2, 'little') for pin in [*pins, 0, 0, 0, 0][:4])
    return None, records


def name(text, line):
    """The part of the text that is a line's name, by where it begins and its size; (0, 0) where there is none."""
    refused, lines = circuit(text)
    if refused or line >= len(lines):
        return 0, 0
    defined = lines[line][3]
    return defined[1], len(defined[0])
