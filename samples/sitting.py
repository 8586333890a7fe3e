"""A sitting on paper.cmf, worked out by hand from the papers: each line of keys with the answers that its keys get and the
picture after it. python3 samples/sitting.py writes crates/sitting/data/keys.txt and crates/sitting/stdout from it; with
--check it writes nothing and says which of the two differs. Nothing here comes from the program under test."""
from paper import DATA, ROOT, write_or_check

# Answers: t taken, f flash, =N finished at place N, !N fired at place N. Places are those of samples/paper.txt.
# A '^' under a row is the edit cursor. Blanks in the keys are ignored, and so is every letter that names no key.
START = '''
|Leak Exam 7     * 1+|
|>Candidate         >|
| Stretch A         >|
| Stretch B         >|
'''
SITTING = [
    # Into the candidate's menu, and a visit to the number: it starts at the leftmost cell.
    ('r e', 't t', '''
|Candidate       : 1 |
|>Number 00000       |
         ^
| Date 2026-01-01    |
| Start 09:00        |
'''),
    # Five digits; the last cell keeps the cursor. 90412 is more than two bytes hold: ENTER flashes and the visit stays.
    ('90412 e', 't t t t t f', '''
|Candidate       : 1 |
|>Number 90412       |
             ^
| Date 2026-01-01    |
| Start 09:00        |
'''),
    # Corrected in its first cell, and stored.
    ('llll 1 e', 't t t t t =266', '''
|Candidate       : 1 |
|>Number 10412       |
| Date 2026-01-01    |
| Start 09:00        |
'''),
    # The date: the year stays, the month goes up twice; the cursor stands on the first cell of the month.
    ('d e e uu', 't t t t t', '''
|Candidate       : 2 |
| Number 10412       |
|>Date 2026-03-01    |
            ^
| Start 09:00        |
'''),
    ('e uuuu e', 't t t t t =288', '''
|Candidate       : 2 |
| Number 10412       |
|>Date 2026-03-05    |
| Start 09:00        |
'''),
    # The time of the start: one hour up, five minutes up.
    ('d e u e uuuuu e', 't t t t t t t t t =310', '''
|Candidate       : 3 |
| Number 10412       |
| Date 2026-03-05    |
|>Start 10:05        |
'''),
    # Back to the top, down, into the first stretch of pipe.
    ('l d r', 't t t', '''
|Stretch A       : 1+|
|>Point 01 none      |
| Point 02 none      |
| Point 03 none      |
'''),
    ('e r e', 't t =344', '''
|Stretch A       : 1+|
|>Point 01 hiss      |
| Point 02 none      |
| Point 03 none      |
'''),
    # Point 2 is skipped.
    ('dd e rr e', 't t t t t =440', '''
|Stretch A       : 3+|
| Point 01 hiss      |
| Point 02 none      |
|>Point 03 drip      |
'''),
    # No item follows the last: the fourth RIGHT flashes.
    ('d e rrrr e', 't t t t t f =488', '''
|Stretch A       : 4+|
| Point 02 none      |
| Point 03 drip      |
|>Point 04 flow      |
'''),
    # Back to the skipped point: one too far, and one back. Nothing is stored yet.
    ('uu e rr l', 't t t t t t', '''
|Stretch A       : 2+|
|>Point 02 hiss      |
           ^
| Point 03 drip      |
| Point 04 flow      |
'''),
    # Stored in its own place; then to the third stretch.
    ('e l dd r', '=392 t t t t', '''
|Stretch C       : 1+|
|>Point 21 none      |
| Point 22 none      |
| Point 23 none      |
'''),
    ('dddd e rr e', 't t t t t t t =1508', '''
|Stretch C       : 5+|
| Point 23 none      |
| Point 24 none      |
|>Point 25 drip      |
'''),
    # Digits and POINT mean nothing while browsing.
    ('l 7.', 't f f', '''
|Leak Exam 7     * 4+|
| Stretch A         >|
| Stretch B         >|
|>Stretch C         >|
'''),
    # The tone is played twice, by any cursor key.
    ('dd e l u', 't t t !124 !124', '''
|Leak Exam 7     : 6+|
| Stretch C         >|
| Stretch D         >|
|>Tone [*]   0 dB    |
        ^
'''),
    # ENTER passes the trigger, which is no finished visit, and opens the counter behind it.
    ('e dd', 't t t', '''
|Leak Exam 7     : 6+|
| Stretch C         >|
| Stretch D         >|
|>Tone [*]  -6 dB    |
             ^
'''),
    # The counter is stored; then valves A and C are switched on.
    ('e d e u rr u e', '=132 t t t t t t =172', '''
|Leak Exam 7     : 7+|
| Stretch D         >|
| Tone [*]  -6 dB    |
|>Valves ABCD 1010   |
'''),
    # The invigilator's menu asks for four digits.
    ('d r 123', 't t t t t', '''
|Pwd:***.            |
| Tone [*]  -6 dB    |
| Valves ABCD 1010   |
|>Invigilator       P|
'''),
    # The last digit makes them wrong.
    ('4', 'f', '''
|Leak Exam 7     * 8!|
| Tone [*]  -6 dB    |
| Valves ABCD 1010   |
|>Invigilator       P|
'''),
    ('r 47', 't t t', '''
|Pwd:**..            |
| Tone [*]  -6 dB    |
| Valves ABCD 1010   |
|>Invigilator       P|
'''),
    # Five idle seconds end the entry.
    ('sssss', 't t t t t', '''
|Leak Exam 7     * 8!|
| Tone [*]  -6 dB    |
| Valves ABCD 1010   |
|>Invigilator       P|
'''),
    ('r 4711', 't t t t t', '''
|Invigilator     : 1 |
|>Marks 00           |
| Signed no          |
|                    |
'''),
    ('e 37 e d e r e', 't t t =2286 t t t =2306', '''
|Invigilator     : 2 |
| Marks 37           |
|>Signed yes         |
|                    |
'''),
    # No line follows the last one. An x is no key.
    ('d x', 'f', '''
|Invigilator     : 2 |
| Marks 37           |
|>Signed yes         |
|                    |
'''),
]

# The fields in the order of the walk: image place, sheet place, bytes in hex, and an option's item after a blank.
HEARD = {1: 'hiss', 2: 'hiss', 3: 'drip', 4: 'flow', 25: 'drip'}
ITEMS = ['none', 'hiss', 'drip', 'flow']
def point(n):
    # A stretch has 486 bytes, and the first option of the first one stands at 344. A point's line has 48 bytes from option to
    # option; the last line has no next-line-ofs, so its option stands 2 bytes nearer.
    k, item = (n - 1) % 10, HEARD.get(n, 'none')
    place = 344 + 486 * ((n - 1) // 10) + 48 * k - (2 if k == 9 else 0)
    return place, n - 1, f'{ITEMS.index(item):02x}', ' ' + item
FIELDS = [(266, 64, 'ac 28', ''), (288, 66, '05 03 ea 07', ''), (310, 70, '0a 05', ''), *map(point, range(1, 41)),
          (124, None, None, ''), (132, 76, 'fa ff', ''), (172, 72, '0a 00 00 00', ''), (2286, 80, '25', ''),
          (2306, 81, '01', ' yes')]

KEYS = {'u': 'UP', 'd': 'DOWN', 'l': 'LEFT', 'r': 'RIGHT', 'e': 'ENTER', 's': 'one second', '.': 'POINT'}
EDGE = '+' + '-' * 20 + '+'
def framed(picture): return [EDGE, *picture.strip('\n').split('\n'), EDGE]
def answer(a):
    return {'t': 'taken', 'f': 'flash', '=': 'finished at place ', '!': 'fired at place '}[a[0]] + a[1:]
def line_of(place, sheet, data, item):
    return f'image place {place}' + (': a trigger, no bytes' if sheet is None else f', sheet place {sheet}: {data}{item}')

def played(keys): return [k for k in keys if k in KEYS or k.isdigit()]
def told(keys, answers):
    assert len(played(keys)) == len(answers.split()), keys
    return [f'{KEYS.get(k, k)}: {answer(a)}' for k, a in zip(played(keys), answers.split())]

def stdout():
    out = framed(START)
    for keys, answers, picture in SITTING:
        out += told(keys, answers) + framed(picture)
    return '\n'.join(out + [line_of(*f) for f in FIELDS]) + '\n'

if __name__ == '__main__':
    write_or_check([(DATA / 'keys.txt', ''.join(keys + '\n' for keys, _, _ in SITTING).encode('ascii')),
                    (ROOT / 'crates/sitting/stdout', stdout().encode('ascii'))])
