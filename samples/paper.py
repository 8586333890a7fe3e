"""The sample papers: python3 samples/paper.py writes crates/sitting/data/paper.cmf and broken.cmf, and the listing of
paper.cmf, samples/paper.txt. With --check it writes nothing and says which of the three differ from what it would write."""
from pathlib import Path
from struct import pack
import sys

ROOT = Path(__file__).resolve().parent.parent
DATA = ROOT / 'crates/sitting/data'
EDIT, LAST = 0x20, 0x80                                             # bits of a component's tag
FIRST_LINE, LAST_LINE, SUBMENU, PASSWORD = 0x01, 0x02, 0x08, 0x10   # bits of a line's tag
PROLOG = 10

def u16(v): return pack('<H', v & 0xFFFF)
def text(s): return bytes([len(s)]) + s.encode('ascii')

# ---- Components: pieces of (bytes, what they are); the first byte of the first piece is the tag ----------------------
def words(s): return [(bytes([0x15]) + text(s), f'constant text {s!r}')]
def field(code, name, sheet, *settings):
    return [(bytes([code | EDIT, 0]) + u16(0) + u16(sheet), f'{name}, editable; sheet place {sheet}'), *settings]
def trigger(call): return [(bytes([0x17 | EDIT, 0]) + u16(call), f'trigger, editable; handler {call}')]
def number(sheet, default): return field(0x07, 'integer DDDDD', sheet, (u16(default), f'default {default}'))
def marks(sheet, default): return field(0x00, 'integer dd', sheet, (bytes([default]), f'default {default}'))
def counter(sheet, low, high, step, default, width):
    return field(0x0D, 'counter', sheet, (pack('<4hB', low, high, step, default, width),
                                          f'{low} to {high} by {step}, default {default}, {width} cells'))
def time(sheet, hours, minutes):
    return field(0x10, 'time HH:MM', sheet, (bytes([hours, minutes]), f'default {hours:02}:{minutes:02}'))
def date(sheet, year, month, day):
    return field(0x11, 'date YYYY-MM-DD', sheet, (bytes([day, month]) + u16(year),
                                                  f'default {year:04}-{month:02}-{day:02}: day, month, year'))
def switch(sheet, *helps):
    body = b''.join(map(text, helps))
    return field(0x13, 'switch', sheet,
                 (bytes([14 + len(body), len(helps)]) + b'10', f'{14 + len(body)} bytes, {len(helps)} bits, on "1", off "0"'),
                 (pack('<I', 0), 'default: all off'), (body, 'help texts, lowest bit first: ' + ', '.join(helps)))
def option(sheet, *items):
    body = b''.join(map(text, items))
    return field(0x14, 'option', sheet,
                 (bytes([10 + len(body), len(items), max(map(len, items)), 0]),
                  f'{10 + len(body)} bytes, {len(items)} items, {max(map(len, items))} cells, default item 0'),
                 (body, 'items ' + ', '.join(items)))

# ---- The paper -------------------------------------------------------------------------------------------------------
# A line: its components, and for a submenu the title of its table and, if it is protected, the password.
def line(*components, to=None, password=None): return components, to, password

def heard(place): return option(place, 'none', 'hiss', 'drip', 'flow')
def stretch(first, place=lambda n: n - 1):                          # ten listening points; point n answers at place n - 1
    return [line(words(f'Point {n:02} '), heard(place(n))) for n in range(first, first + 10)]

def paper(place=lambda n: n - 1):
    return {
        'Leak Exam 7': [
            line(words('Candidate'), to='Candidate'),
            *[line(words(f'Stretch {s}'), to=f'Stretch {s}') for s in 'ABCD'],
            line(words('Tone '), trigger(64), words(' '), counter(76, -12, 12, 3, 0, 3), words(' dB')),
            line(words('Valves ABCD '), switch(72, 'valve D', 'valve C', 'valve B', 'valve A')),
            line(words('Invigilator'), to='Invigilator', password='4711')],
        'Candidate': [
            line(words('Number '), number(64, 0)),
            line(words('Date '), date(66, 2026, 1, 1)),
            line(words('Start '), time(70, 9, 0))],
        **{f'Stretch {s}': stretch(1 + 10 * i, place) for i, s in enumerate('ABCD')},
        'Invigilator': [
            line(words('Marks '), marks(80, 0)),
            line(words('Signed '), option(81, 'no', 'yes'))]}

# ---- The layout ------------------------------------------------------------------------------------------------------
class Layout:
    """Pieces (place, bytes, what) of an image. Offsets forward come from an earlier layout of the same tables."""
    def __init__(self, tables, earlier=None):
        self.pieces, self.size, self.tables, self.lines, self.fields = [], 0, {}, {}, []
        known = earlier or self
        self.add(b'CMF', 'the letters CMF')
        self.add(bytes([0, 4]), 'version 0.4')
        self.add(bytes([60, 0, 5]), 'to the top after 60 idle seconds; help texts stay; a password entry ends after 5')
        self.add(b'\xff\xfe', 'byte order mark: low byte first')
        for title, lines in tables.items():
            self.head(f'Table {title!r}')
            self.tables[title] = self.size
            self.add(text(title), f'title {title!r}')
            for i, (components, to, password) in enumerate(lines):
                self.line(known, title, i, i == len(lines) - 1, to, password)
                for k, pieces in enumerate(components):
                    self.component(pieces, k == len(components) - 1)

    def head(self, what): self.pieces.append((None, b'', what))
    def add(self, data, what):
        self.pieces.append((self.size, data, what))
        self.size += len(data)
    def align(self, parity):
        if self.size % 2 != parity:
            self.add(b'\0', 'padding')

    def line(self, known, title, i, last, to, password):
        self.align(1)
        here = self.lines[title, i] = self.size
        marks = [(FIRST_LINE, 'first', i == 0), (LAST_LINE, 'last', last), (SUBMENU, 'submenu', to),
                 (PASSWORD, 'protected', password)]
        named = ', '.join(name for _, name, on in marks if on)
        self.add(bytes([sum(bit for bit, _, on in marks if on)]), f'line {i + 1}' + (f': {named}' if named else ''))
        if not last:
            there = known.lines.get((title, i + 1), here)
            self.add(u16(there - here), f'next line {there - here} on, at {there}')
        if i:
            before = self.lines[title, i - 1]
            self.add(u16(here - before), f'line before {here - before} back, at {before}')
        if to:
            table = known.tables.get(to, PROLOG)
            self.add(u16(table - PROLOG), f'submenu at {PROLOG} + {table - PROLOG}: {to!r}')
        if password:
            self.add(text(password), f'password {password}')

    def component(self, pieces, last):
        self.align(0)
        (data, what), *rest = pieces
        if data[0] & 0x1F != 0x15:
            self.fields.append(self.size)
        self.add(bytes([data[0] | (LAST if last else 0)]) + data[1:], what + ('; last' if last else ''))
        for data, what in rest:
            self.add(data, '  ' + what)

    def image(self): return b''.join(data for _, data, _ in self.pieces)

def laid_out(tables): return Layout(tables, Layout(tables))

# ---- The listing -----------------------------------------------------------------------------------------------------
def rows(place, data, what):                                        # a piece, eight bytes to a row
    if place is None:
        return ['', what]
    return [f'{place + k:5}  {data[k:k + 8].hex(" "):23}  {what if k == 0 else ""}'.rstrip() for k in range(0, len(data), 8)]

def listing(layout):
    head = ['paper.cmf, byte by byte: place, bytes, what they are. Written by samples/paper.py.',
            'Tags of lines: 01 first, 02 last, 08 submenu, 10 protected. Tags of components: 20 editable, 80 last of its line.',
            'Lines stand at odd places and components at even ones; a submenu counts from place 10, where the prolog ends.', '',
            'Prolog']
    return '\n'.join(head + [row for piece in layout.pieces for row in rows(*piece)]) + '\n'

PAPER = laid_out(paper())
# Broken: point 14 answers where point 13 does, so that the two share a byte of the sheet (refusal 11).
BROKEN = laid_out(paper(lambda n: n - 2 if n == 14 else n - 1))

def write_or_check(files):
    for path, data in files:
        if '--check' not in sys.argv:
            path.write_bytes(data)
        elif path.read_bytes() != data:
            sys.exit(f'{path.relative_to(ROOT)} differs: run python3 {Path(sys.argv[0]).name}')

if __name__ == '__main__':
    write_or_check([(DATA / 'paper.cmf', PAPER.image()), (DATA / 'broken.cmf', BROKEN.image()),
                    (ROOT / 'samples/paper.txt', listing(PAPER).encode('ascii'))])
