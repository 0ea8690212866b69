"""Small bench texts for bench_texts.py: `cases` has each with why it is there. Most have their answer by hand, to which the reader of the tests is held:
how many lines there are, or number and position of the refusal. The last hundred are random, good and damaged.
"""
import random

from bench_reader import read

cases = []                       # text, why


def add(text, why, answer=None):
    """Adds the text, unless it is there."""
    text = text.encode('latin-1')
    refused, records = read(text)
    if answer is not None:
        assert answer == (refused or len(records) // 12), (why, text, refused)
    if text not in [known for known, _ in cases]:
        cases.append((text, why))


# the request's own examples, and what follows from its sentences
add('INPUT(a)\nOUTPUT(a)\n', 'INPUT(a), OUTPUT(a): an input marked as output', 1)
add('INPUT(b)\na = DFF(b)\nOUTPUT(a)\n', 'a = DFF(b)', 2)
add('INPUT(b)\nINPUT(c)\na = NAND(b, c)\nOUTPUT(a)\n', 'a = NAND(b, c)', 3)
add('OUTPUT(z)\nINPUT(a)\nz = AND(a)\n', 'a line of no form defines nothing', (20, 0))
add('OUTPUT(z)\nz = NOT(q)\n', 'a line that fails by 20 defines', (20, 1))
add('INPUT(a)\na = NOT(q)\n', 'defined again and a pin undefined', (19, 1))
add('INPUT(a)\nINPUT(a)\n', 'a name defined again', (19, 1))
add('\tINPUT(a)\nOUTPUT(a)\n', 'byte 9 before', (18, 0))
add('INPUT(a)\t\nOUTPUT(a)\n', 'byte 9 after', (18, 0))
add('INPUT(a)\nOUTPUT(a)\n\t\n', 'byte 9 on an otherwise empty line', (18, 2))
add('INPUT(a)\nOUTPUT(a)\n\t', 'byte 9 on a last line with no byte 10', (18, 2))
add('INPUT(a)\nOUTPUT(a)\n\r\n', 'byte 13 on an otherwise empty line', (18, 2))
add('INPUT(a)\r\nOUTPUT(a)\r\n', 'byte 13 outside a comment', (18, 0))
add('INPUT(a)#\r\nOUTPUT(a)#\t\n', 'bytes 13 and 9 inside a comment', 1)
add('INPUT(b)\na = BUF(b)\nOUTPUT(a)\n', 'BUF', (18, 1))
add('INPUT(b)\na = and(b, b)\nOUTPUT(a)\n', 'and', (18, 1))
add('INPUT(INPUT)\nOUTPUT(INPUT)\n', 'a name spells a keyword', 1)
add('INPUT(0)\n12 = NOT(0)\nOUTPUT(12)\n', 'names of digits alone', 2)
add('INPUT(\xe4)\nOUTPUT(\xe4)\n', 'letters are ASCII', (18, 0))
add('INPUT ( a )\nOUTPUT(a)\n', 'INPUT ( a )', 1)
add('INPUT(b)\nINPUT(c)\na=AND( b ,c )\nOUTPUT(a)', 'a=AND( b ,c )', 3)
for inside in ['b,,c', 'b,', '', ',b', ',', ' ', 'b c', 'b, c,', 'b,c,,b']:
    add(f'INPUT(b)\nINPUT(c)\na = AND({inside})\nOUTPUT(a)\n', 'AND(%s)' % inside, (18, 2))
add('INPUT(a) x\nOUTPUT(a)\n', 'something after )', (18, 0))
add('INPUT(a))\nOUTPUT(a)\n', ') after )', (18, 0))
add('INPUT(a);\nOUTPUT(a)\n', '; after )', (18, 0))
add('INPUT(a),\nOUTPUT(a)\n', ', after )', (18, 0))
add('INPUT(a)  # x\nOUTPUT(a)\n', 'spaces and a comment after )', 1)
add('INPUT(a) OUTPUT(a)\n', 'two forms in one text line', (18, 0))
add('INPUT(a)\nOUTPUT(a) INPUT(b)\n', 'two forms in one text line', (18, 1))
add('INPUT(a)\nb = NOT(a) c = NOT(a)\nOUTPUT(b)', 'two forms in one text line', (18, 1))
add('INPUT(b)\nINPUT(c)\nq = DFF(b, c)\nOUTPUT(q)\n', 'DFF with two pins', (18, 2))
add('INPUT(b)\na = NOT(a)\nOUTPUT(a)\n', 'a = NOT(a)', (20, 1))
add('INPUT(b)\nq = DFF(q)\nOUTPUT(q)\n', 'q = DFF(q)', 2)
add('# c\n\n   \nINPUT(a)\n  # d\nOUTPUT(a)\nx\n', 'passed-over lines count', (18, 6))
add('', 'an empty text', (1, 0))
add('INPUT(a)\nOUTPUT(a)\n\n', 'an empty line at the end', 1)
add('OUTPUT(a)\nINPUT(a)', 'no byte 10 at the end', 1)
long32 = 'abcdefghijklmnopqrstuvwxyz_01234'
add(f'INPUT({long32})\nOUTPUT({long32})\n', 'a name of 32 bytes', 1)
add(f'INPUT({long32}5)\nOUTPUT({long32}5)\n', 'a name of 33 bytes', (18, 0))
add(f'INPUT(a)\nOUTPUT({long32}5)\n', 'a name of 33 bytes in OUTPUT', (18, 1))
add(f'INPUT(a)\n{long32} = NOT(a)\nOUTPUT({long32})\n', 'a name of 32 bytes left of =', 2)
add(f'INPUT(a)\n{long32}5 = NOT(a)\nOUTPUT(a)\n', 'a name of 33 bytes left of =', (18, 1))
add(f'INPUT({long32})\nz = NOT({long32})\nOUTPUT(z)\n', 'a pin of 32 bytes', 2)
add(f'INPUT({long32})\nz = NOT({long32}5)\nOUTPUT(z)\n', 'a pin of 33 bytes', (18, 1))
add(f'INPUT({long32})\nz = AND({long32}, {long32})\nOUTPUT(z)', 'two pins of 32 bytes', 2)
add(f'INPUT(a)\nz = AND(a, {long32}5)\nOUTPUT(z)\n', 'second pin of 33 bytes', (18, 1))
add(f'INPUT({long32})\nINPUT({long32[:31]}x)\nOUTPUT({long32})', 'names that differ in byte 32', 2)
add(f'INPUT({long32})\nINPUT({long32[:31]})\nOUTPUT({long32[:31]})', 'one name the other and a byte', 2)
add(f'INPUT({long32})\nOUTPUT({long32[:31]})', 'the first 31 bytes of a name', (20, 1))
add(f'INPUT({long32[:31]})\nOUTPUT({long32})', 'a name and one byte more', (20, 1))
add(f'INPUT(a)\nOUTPUT(a)\n{long32}5{long32} = NOT(a)\n', 'a name of 65 bytes', (18, 2))
add(f'INPUT({long32}) # {long32}56\nOUTPUT({long32})', 'a long word in a comment', 1)

# keywords: every gate with 0 to 5 pins
KINDS = {'DFF': (1, 1), 'BUFF': (1, 1), 'NOT': (1, 1), 'AND': (2, 4), 'NAND': (2, 4), 'OR': (2, 4), 'NOR': (2, 4),
         'XOR': (2, 4), 'XNOR': (2, 4)}
for word, (low, high) in KINDS.items():
    for pins in range(6):
        listed = ', '.join((['a', 'b'] * 3)[:pins])
        add(f'INPUT(a)\nINPUT(b)\nz = {word}({listed})\nOUTPUT(z)\n', f'{word} with {pins} pins',
            3 if low <= pins <= high else (18, 2))
    # pins in text order, repeated pins
    if high == 4:
        add(f'INPUT(a)\nINPUT(b)\nc={word}(b,a)\nd={word}(c,a,b)\ne={word}(d,c,c,a)\nOUTPUT(e)', f'{word} in text order', 5)
    # names that spell the keyword
    two = word if high == 1 else f'{word}, {word}'
    add(f'INPUT({word})\nz = {word}({two})\nOUTPUT(z)\n', f'{word} as input and pin', 2)
    one = 'a' if high == 1 else 'a, a'
    add(f'INPUT(a)\n{word} = {word}({one})\nOUTPUT({word})\n', f'{word} as its own name', 2)
    # not the keyword
    for bad in [word[:-1], word + 'X', word.lower()] + ([word[1:], 'X' + word] if word in ('NAND', 'XOR', 'DFF') else []):
        known = bad in KINDS
        add(f'INPUT(a)\nz={bad}({one})\nOUTPUT(z)\n', f'{bad} for {word}', None if known else (18, 1))
    if word in ('DFF', 'NAND'):
        add(f'INPUT(a)\nz={word[0]} {word[1:]}({one})\nOUTPUT(z)\n', f'a space in {word}', (18, 1))
        add(f'INPUT(a)\n{word}({one})\nOUTPUT(a)\n', f'{word} with nothing before', (18, 1))
        add(f'INPUT(a)\n={word}({one})\nOUTPUT(a)\n', f'{word} with no name', (18, 1))
    # a gate naming itself and a later line
    self_two = 'z' if high == 1 else 'a, z'
    add(f'INPUT(a)\nz = {word}({self_two})\nOUTPUT(z)\n', f'{word} naming itself', 2 if word == 'DFF' else (20, 1))
    later = 'c' if high == 1 else 'a, c'
    add(f'INPUT(a)\nz = {word}({later})\nINPUT(c)\nOUTPUT(z)\n', f'{word} naming a later line',
        3 if word == 'DFF' else (20, 1))

for word in ['INPUT', 'OUTPUT']:
    other = 'OUTPUT' if word == 'INPUT' else 'INPUT'
    for bad in [word[:-1], word[1:], word + word[-1], word.lower(), word + '_']:
        add(f'{bad}(a)\n{other}(a)\n', f'{bad} for {word}', (18, 0))
    for form in ['%s', '%s(a', '%sa)', '%s()', '%s(a,b)', '%s(a b)', '%s(a,)', '%s((a))', '%s a)', '%s = a', '%s(a) = b',
                 '%s=(a)']:
        bad = form % word
        add(f'INPUT(b)\n{bad}\nOUTPUT(b)\n', bad, (18, 1))
    add(f'{word} = NOT(a)\nINPUT(a)\nOUTPUT(a)\n', f'{word} as a gate with a pin defined below', (20, 0))
    add(f'INPUT(a)\n{word} = NOT(a)\nOUTPUT({word})\n', f'{word} as a gate', 2)
    add(f'INPUT(a)\n{word}=DFF({word})\nOUTPUT({word})\n', f'{word} as a flip-flop', 2)
    add(f'INPUT({word})\na = XOR({word}, {word})\nOUTPUT(a)\n', f'{word} as pins', 2)
    add(f'INPUT(a)\nz = {word}(a)\nOUTPUT(z)\n', f'z = {word}(a)', (18, 1))
    add(f'INPUT(a)\n a = {word}\nOUTPUT(a)\n', f'a = {word}', (18, 1))
add('INPUT(OUTPUT)\nOUTPUT(OUTPUT)\n', 'names that spell keywords', 1)
add('OUTPUT(INPUT)\nINPUT(INPUT)\n', 'names that spell keywords', 1)
add('INPUT(a)\nNAND = NAND(a, NAND)\nOUTPUT(NAND)\n', 'NAND names NAND', (20, 1))
add('INPUT(NOT)\nNAND=NAND(NOT,NOT)\nAND = AND(NAND,NOT)\nOUTPUT(AND)', 'keywords all over', 3)
add('INPUT INPUT(a)\nOUTPUT(a)\n', 'INPUT twice', (18, 0))

# left side and sign
for bad in ['z NOT(a)', 'z == NOT(a)', 'z = = NOT(a)', 'z = NOT', 'z =', 'z', '=', 'z = NOT a', 'z = NOT(a', 'z = NOT a)',
            'z = NOT(a) a', 'z = NOT((a))', 'z = NOT(a))', 'z = NOT(NOT(a))', 'y z = NOT(a)', 'z, y = NOT(a)', 'z = a', 'z = (a)',
            'z = NOT NOT(a)', 'z = NOT(a),', 'z : NOT(a)', '(z) = NOT(a)', 'z = NOT[a]', 'z = NOT(a;)', 'z = NOT(a b)', 'NOT(a) = z',
            'z = NOT(a)\0', 'z\t= NOT(a)', 'z =\tNOT(a)', 'z = NOT\t(a)', 'z = NOT(a\t)', 'z = NOT(a)\r', 'z = NOT(a)\xff',
            'z = NOT(a)\x0b', 'z = NOT(a)\xa0', 'z = NOT(a)!']:
    add(f'INPUT(a)\n{bad}\nOUTPUT(a)\n', repr(bad), (18, 1))

# the edges of letters and digits
for edge in '/:@[`{-.\x7f\x80\xff\0^':
    add(f'INPUT(a{edge})\nOUTPUT(a{edge})\n', f'byte {ord(edge)} in a name', (18, 0))
for edge in '/:@[`{':
    add(f'INPUT(a)\n{edge} = NOT(a)\nOUTPUT(a)\n', f'byte {ord(edge)} as a name', (18, 1))
for edge in '0 9 A Z a z _'.split():
    add(f'INPUT({edge})\nOUTPUT({edge})\n', f'byte {ord(edge)} as a name', 1)
    add(f'INPUT(_{edge})\nx{edge}=NOT(_{edge})\nOUTPUT(x{edge})', f'byte {ord(edge)} in names', 2)
add('INPUT(a)\nINPUT(A)\nOUTPUT(A)\n', 'names keep their case', 2)
add('INPUT(a)\nOUTPUT(A)\n', 'names keep their case', (20, 1))
add('INPUT(0)\nINPUT(00)\nOUTPUT(00)\n', 'digits are no number', 2)
add('INPUT(a)\nINPUT(aa)\nINPUT(aaa)\nOUTPUT(aa)\n', 'one the beginning of the other', 3)
add('INPUT(ab)\nOUTPUT(a)\n', 'the beginning of a name', (20, 1))
add('INPUT(ab)\nOUTPUT(b)\n', 'the end of a name', (20, 1))
add('INPUT(a)\nOUTPUT(ab)\n', 'a name and more', (20, 1))

# comments
add('#', 'only #', (1, 0))
add('#\n', 'only # and byte 10', (1, 0))
add('# INPUT(a)\n# OUTPUT(a)\n', 'all in comments', (1, 0))
add('#INPUT(a)\nINPUT(b)\nOUTPUT(b)', 'first byte #', 1)
add('#INPUT(a)\nOUTPUT(a)\n', 'a definition in a comment', (20, 1))
add('INPUT(a#)\nOUTPUT(a)\n', '# right after a name', (18, 0))
add('INPUT(#a)\nOUTPUT(a)\n', '# after (', (18, 0))
add('INPUT#(a)\nOUTPUT(a)\n', '# after the keyword', (18, 0))
add('INPUT(a)#(b)\nOUTPUT(a)##\n', '# right after )', 1)
add('INPUT(a)\nz # = NOT(a)\nOUTPUT(a)\n', '# after the name', (18, 1))
add('INPUT(a)\nz =# NOT(a)\nOUTPUT(a)\n', '# after =', (18, 1))
add('INPUT(a)\nz = AND(a, #a)\n, a)\nOUTPUT(a)\n', '# between pins', (18, 1))
add('INPUT(a)\nz = NOT(a) # y = NOT(a)\nOUTPUT(z)', 'a form in a comment', 2)
add('INPUT(a) # \0\xff\t\r()=,\nOUTPUT(a)\n', 'any byte in a comment', 1)
add('INPUT(a)\n#', '# at the end', (6, 0))
add('INPUT(a)\nOUTPUT(a)\n#', '# at the end', 1)
add('INPUT(a)\nOUTPUT(a)#', '# at the end', 1)
add('INPUT(a)\nOUTPUT(a', 'no ) at the end', (18, 1))
add('INPUT(a)\nOUTPUT(a)\nINPUT', 'cut', (18, 2))
add('INPUT(a)\nOUTPUT(a)\nb', 'cut', (18, 2))
add('INPUT(a)\nOUTPUT(a)\nb = ', 'cut', (18, 2))
add('INPUT(a)\nOUTPUT(a)\nb = NOT(', 'cut', (18, 2))
add('INPUT(a)\nOUTPUT(a)\n ', 'a space at the end', 1)
add('# a\n# b\n\n\nx', 'far line', (18, 4))
add('##\n#\n #\nINPUT(a)\nOUTPUT(b)', 'positions count comments', (20, 4))

# spaces
add('  INPUT  (  a  )  \n  OUTPUT  (  a  )  ', 'spaces everywhere', 1)
add(' z = NOT ( a ) \nINPUT(a)\n', 'defined below', (20, 0))
add('INPUT(a)\n  z  =  XNOR  (  a  ,  a  ,  a  )  #\nOUTPUT(z)', 'spaces everywhere', 2)
add('INPUT(a)\nz=XNOR(a,a,a,a)#\nOUTPUT(z)', 'spaces nowhere', 2)
add('INPUT(a)\nz =NOT (a )\nOUTPUT (z )', 'spaces', 2)
add('IN PUT(a)\nOUTPUT(a)\n', 'a space in a keyword', (18, 0))
add('INPUT(a b)\nOUTPUT(a)\n', 'a space in a name', (18, 0))
add('INPUT(a)\nz=DF F(a)\nOUTPUT(a)\n', 'a space in a keyword', (18, 1))
add('INPUT(a\n)\nOUTPUT(a)\n', 'byte 10 in a form', (18, 0))
add('INPUT(a)\nz =\nNOT(a)\nOUTPUT(a)\n', 'byte 10 in a form', (18, 1))
add('INPUT(a)\nz = AND(a,\na)\nOUTPUT(a)\n', 'byte 10 in a form', (18, 1))
for text in [' ', '   ', '\n', '\n\n\n', ' \n ', '\n \n', ' # \n']:
    add(text, 'nothing defined', (1, 0))
for text in ['\t', '\r', '\r\n', '\0', '\xff', ',', '(', ')', '=', 'a', '_', '()', 'INPUT', 'INPUT(', '/', '-']:
    add(text, 'one odd line', (18, 0))
for text in ['\n\t', '\n\n\r', ' \n\0']:
    add(text, 'one odd line', (18, text.count('\n')))

# 18, 19, 20: which first
add('OUTPUT(q)\nx\n', 'undefined name above a line of no form', (20, 0))
add('x\nOUTPUT(q)\n', 'the other way', (18, 0))
add('OUTPUT(q)\nx\nINPUT(q)\n', 'defined below a line of no form', (18, 1))
add('OUTPUT(q)\nINPUT(q\n', 'a line of no form that would define', (20, 0))
add('OUTPUT(q)\nINPUT(q) x\n', 'a line of no form that would define', (20, 0))
add('OUTPUT(q)\nq = DFF(a, b)\n', 'a line of no form that would define', (20, 0))
add('OUTPUT(q)\nq = AND(a)\nq = NOT(b)\n', 'defined by a line that fails by 20 after 18', (18, 1))
add('OUTPUT(q)\n# q = NOT(a)\n', 'a comment defines nothing', (20, 0))
add('OUTPUT(q)\nINPUT(a)\nINPUT(a)\nINPUT(q)\n', '19 after', (19, 2))
add('OUTPUT(q)\nINPUT(a)\nINPUT(a)\n', '20 before 19 by line', (20, 0))
add('q = DFF(z)\nz = NOT(y)\n', 'a line that fails by 20 defines for DFF', (20, 1))
add('q = DFF(z)\nz = NOT(y, y)\n', 'a line of no form does not, for DFF', (20, 0))
add('INPUT(a)\na = DFF(q)\n', '19 before 20 in DFF', (19, 1))
add('INPUT(a)\na = DFF(a)\n', '19 in DFF', (19, 1))
add('INPUT(a)\na = NOT(a)\n', '19 in a gate naming itself', (19, 1))
add('INPUT(a)\na = AND(q, r)\nx\n', '19 before 20 in AND', (19, 1))
add('INPUT(a)\na = AND(q)\n', '18 before 19', (18, 1))
add('INPUT(a)\na = AND(a, )\n', '18 before 19', (18, 1))
add('INPUT(a)\nINPUT(a) x\n', '18 before 19', (18, 1))
add('INPUT(a)\nb = AND(a, q)\n', 'second pin undefined', (20, 1))
add('INPUT(a)\nb = AND(q, a)\n', 'first pin undefined', (20, 1))
add('INPUT(a)\nb = OR(a, a, q)\n', 'third pin undefined', (20, 1))
add('INPUT(a)\nb = OR(a, a, a, q)\n', 'fourth pin undefined', (20, 1))
add('b = NOT(a)\nc = NOT(b)\nINPUT(a)\n', 'the lowest line', (20, 0))
add('INPUT(a)\nb = NOT(q)\nc = NOT(b)\nx\n', 'the lowest line', (20, 1))
add('OUTPUT(b)\nOUTPUT(c)\nINPUT(c)\n', 'the lowest line', (20, 0))
add('OUTPUT(c)\nOUTPUT(b)\nINPUT(c)\n', 'the lowest line', (20, 1))
add('OUTPUT(a)\nx\nOUTPUT(b)\nINPUT(a)', 'an output defined below 18', (18, 1))
add('INPUT(a)\nx\nINPUT(a)\n', '18 before 19 by line', (18, 1))
add('INPUT(a)\nINPUT(a)\nx\n', '19 before 18 by line', (19, 1))
add('INPUT(a)\nINPUT(b)\nINPUT(b)\nINPUT(a)\n', 'two doubles', (19, 2))
add('INPUT(a)\n\n\nINPUT(a)\n', 'position of the later', (19, 3))
add('a = DFF(a)\nINPUT(a)\n', 'flip-flop and input of one name', (19, 1))
add('INPUT(i)\na = NOT(i)\na = BUFF(i)\nOUTPUT(a)', 'a gate twice', (19, 2))
add('INPUT(i)\na = NOT(q)\na = BUFF(i)\nOUTPUT(a)', 'a failing gate again', (20, 1))
add('x = \nINPUT(x)\nINPUT(x)\n', 'a line of no form does not define', (18, 0))
add('OUTPUT(a)\nOUTPUT(a)\nINPUT(a)\nOUTPUT(a)', 'OUTPUT repeated', 1)
add('INPUT(a)\nINPUT(b)\nOUTPUT(b)\nOUTPUT(b)', 'OUTPUT repeated', 2)
add('OUTPUT(q)\nOUTPUT(q)\nINPUT(a)\n', 'OUTPUT repeated, undefined', (20, 0))
add('INPUT(a)\nOUTPUT(q)\nq = DFF(r)\nr = DFF(q)', 'flip-flops of each other', 3)
add('INPUT(a)\nq = DFF(r)\nr = NOT(q)\nOUTPUT(r)', 'a flip-flop of a later gate', 3)
add('q=DFF(r)\nINPUT(a)\nr=AND(a,q)\nOUTPUT(r)\nOUTPUT(q)', 'flip-flop first', 3)
add('INPUT(a)\nq = DFF(r)\nOUTPUT(q)', 'a flip-flop of an undefined name', (20, 1))

# 1 and 6
add('INPUT(a)\n', 'no output', (6, 0))
add('INPUT(a)\nb = NOT(a)\n', 'no output', (6, 0))
add('q = DFF(q)\nOUTPUT(q)\n', 'no input', (6, 0))
add('q = DFF(q)\nz = NOT(q)\nOUTPUT(z)\n', 'no input', (6, 0))
add('q = DFF(q)', 'no input and no output', (6, 0))
add('OUTPUT(a)\n', 'only OUTPUT', (20, 0))
add('\nOUTPUT(a)\nOUTPUT(b)', 'only OUTPUT', (20, 1))
add('INPUT(a)\nx', '18 before 6', (18, 1))

# random texts, and damaged ones
dice = random.Random(20240607)
NAMES = ['a', 'b', 'c', 'ab', 'a1', '0', '_', 'OR', 'DFF', 'INPUT', 'A', 'aa']
BYTES = 'abAZ09_(),=# \t\r\n\0\xff@[`{/:'


def space():
    return dice.choice(['', '', '', ' ', '  '])


def good():
    """Up to five lines with names of few bytes, in any order that is allowed; sometimes with no output."""
    names = dice.sample(NAMES, dice.randint(1, 5))
    lines = []
    above = []
    for name in names:
        way = dice.random()
        if not above or way < 0.3:
            lines.append(f'{space()}INPUT{space()}({space()}{name}{space()}){space()}')
        elif way < 0.5:
            lines.append(f'{space()}{name}{space()}={space()}DFF{space()}({space()}{dice.choice(names)}{space()})')
        else:
            word = dice.choice(['BUFF', 'NOT', 'AND', 'NAND', 'OR', 'NOR', 'XOR', 'XNOR'])
            count = 1 if word in ('BUFF', 'NOT') else dice.choice([2, 2, 2, 3, 4])
            pins = f'{space()},{space()}'.join(dice.choice(above) for _ in range(count))
            lines.append(f'{name}{space()}={space()}{word}{space()}({space()}{pins}{space()}){space()}')
        above.append(name)
    for _ in range(dice.choice([0, 1, 1, 1, 2])):
        lines.insert(dice.randint(0, len(lines)), f'OUTPUT{space()}({dice.choice(names)})')
    for _ in range(dice.choice([0, 0, 1])):
        lines.insert(dice.randint(0, len(lines)), dice.choice(['', ' ', '#', '# a = NOT(a)', '#)\t']))
    if dice.random() < 0.2:
        lines[dice.randrange(len(lines))] += '#' + dice.choice(['', 'x', '(', '#'])
    return '\n'.join(lines) + dice.choice(['', '\n'])


def damaged():
    """One of these with a byte changed, lost, doubled or put in, two text lines exchanged, one doubled or lost, another name, a pin more or the end cut
    off."""
    text = good()
    way = dice.randrange(12)
    at = dice.randrange(len(text))
    lines = text.split('\n')
    i, j = dice.randrange(len(lines)), dice.randrange(len(lines))
    if way == 0:
        return text[:at] + dice.choice(BYTES) + text[at + 1:]
    if way == 1:
        return text[:at] + text[at + 1:]
    if way == 2:
        return text[:at] + text[at] + text[at:]
    if way == 3:
        return text[:at] + dice.choice(BYTES) + text[at:]
    if way in (4, 5):
        lines[i], lines[j] = lines[j], lines[i]
    if way in (6, 7):
        lines.insert(j, lines[i])
    if way == 8:
        return text.replace(dice.choice(NAMES), dice.choice(NAMES), 1)
    if way == 9:
        return text.replace(')', ', a)', 1) if dice.random() < 0.5 else text.replace(',', ' ', 1)
    if way == 10:
        return text[:at]
    if way == 11:
        del lines[i]
    return '\n'.join(lines)


def is_wanted(text):
    """Few of those that 18 refuses, which damage makes most of."""
    refused, _ = read(text.encode('latin-1'))
    return (not refused or refused[0] != 18 or dice.random() < 0.25) and len(text) <= 70


for count, make in (40, good), (60, damaged):
    goal = len(cases) + count
    while len(cases) < goal:
        text = make()
        if is_wanted(text):
            add(text, make.__name__)
