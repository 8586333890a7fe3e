"""A sheet of paper.cmf and a key for it, by hand: each question with the right answer, what was heard and its mark.
python3 samples/marking.py writes crates/mark/data/ (paper.cmf, sheet.bin, key.bin), crates/mark/args and crates/mark/stdout;
with --check it writes nothing and says which of them differs. Nothing here comes from the program under test."""
from paper import PAPER, ROOT, u16, write_or_check

MARK = ROOT / 'crates/mark'
DATA = MARK / 'data'

# The sample sitting leaves most points blank, so its sheet is filled up here by hand. Points 1, 2, 3, 4 and 25 have what that
# sitting gave them, and so have the fields that no question is about. Point 2 was skipped in it and visited later: its answer
# stands in its own place, and those after it in theirs. Point 40's byte was damaged afterwards: no item has the number 7.
ITEMS = ['none', 'hiss', 'drip', 'flow']
# Of each stretch: the points that a question is worth; for each listening point the right answer, what was heard, and the mark:
# r right, w wrong, b blank, which is what a field's default counts as, here none.
STRETCHES = {
    'A': (1, 'hiss hiss drip flow drip hiss flow drip hiss flow',
             'hiss hiss drip flow drip hiss drip drip hiss flow',
             '   r    r    r    r    r    r    w    r    r    r'),
    'B': (2, 'drip flow hiss hiss flow drip hiss flow drip hiss',
             'drip flow hiss none flow drip hiss hiss drip hiss',
             '   r    r    r    b    r    r    r    w    r    r'),
    'C': (2, 'flow drip hiss flow drip hiss drip flow hiss drip',
             'flow drip none none drip hiss drip flow flow drip',
             '   r    r    b    b    r    r    r    r    w    r'),
    'D': (3, 'hiss flow drip hiss drip flow flow hiss drip flow',
             'hiss flow drip hiss none flow drip hiss drip    7',
             '   r    r    r    r    b    r    w    r    r    w')}
# The invigilator's marks and signature: line, sheet place, right byte, its text, byte of the sheet, its text, mark, points.
INVIGILATOR = [('Marks', 80, 37, '37', 37, '37', 'r', 15), ('Signed', 81, 1, 'yes', 1, 'yes', 'r', 5)]
# The candidate's number, date and start, the valves and the gain.
OTHERS = {64: 'ac 28', 66: '05 03 ea 07', 70: '0a 05', 72: '0a 00 00 00', 76: 'fa ff'}
# Stretch by stretch: right 9 + 16 + 14 + 21 and 20 of the invigilator's, wrong 1 + 2 + 2 + 6, blank 0 + 2 + 4 + 3.
SUMS = 'right 80, wrong 11, blank 9, of 100 points'

WORDS = {'r': 'right', 'w': 'wrong', 'b': 'blank'}
def byte(item): return ITEMS.index(item) if item in ITEMS else int(item)
def questions():                                                    # in the key's order; point n answers at place n - 1
    for s, (points, *columns) in STRETCHES.items():
        for k, (right, heard, mark) in enumerate(zip(*(column.split() for column in columns))):
            n = 10 * 'ABCD'.index(s) + k + 1
            yield f'Stretch {s} > Point {n:02}', n - 1, byte(right), right, byte(heard), heard, mark, points
    for line, *rest in INVIGILATOR:
        yield f'Invigilator > {line}', *rest

def key(): return b''.join(u16(n) for _, place, right, _, _, _, _, points in questions() for n in (place, right, points))
def sheet():                                                        # up to the last field's byte
    data = bytearray(82)
    for place, digits in OTHERS.items():
        data[place:place + len(bytes.fromhex(digits))] = bytes.fromhex(digits)
    for _, place, _, _, stored, _, _, _ in questions():
        data[place] = stored
    return bytes(data)

def stdout():
    out = [f'{i} {path}: {heard}, right is {right}: {WORDS[mark]}, {points} point{"" if points == 1 else "s"}'
           for i, (path, _, _, right, _, heard, mark, points) in enumerate(questions(), 1)]
    return '\n'.join(out + [SUMS]) + '\n'

if __name__ == '__main__':
    write_or_check([(DATA / 'paper.cmf', PAPER.image()), (DATA / 'sheet.bin', sheet()), (DATA / 'key.bin', key()),
                    (MARK / 'args', b'paper.cmf\nsheet.bin\nkey.bin\n'), (MARK / 'stdout', stdout().encode('ascii'))])
