"""Images of CMF 0.4 by their parts, and cases on them; cases.py says what a case is."""
from struct import pack
from types import SimpleNamespace

EDIT, BLINK, LAST = 0x20, 0x40, 0x80                                    # bits of a component's tag
FIRST_LINE, LAST_LINE, DYN, SUB, PWD = 0x01, 0x02, 0x04, 0x08, 0x10     # bits of a line's tag

# ---- Builders --------------------------------------------------------------------------------------------------------
def u16(v): return pack('<H', v & 0xFFFF)
def text(b): return bytes([len(b)]) + b
def prolog(delays=(0, 0, 0), mark=b'\xff\xfe'): return b'CMF\x00\x04' + bytes(delays) + mark

# Components, without the mark of a line's last one.
def string(b=b'x', flags=0): return bytes([0x15 | flags]) + text(b)     # constant; 'x' makes 3 bytes: padding follows it
def trigger(flags=EDIT): return pack('<BBH', 0x17 | flags, 9, 0xBEEF)
def comp(code, at, rest, flags=EDIT):           # tag, update, call-addr, var-addr and what the kind adds
    return pack('<BBHH', code | flags, 9, 0xBEEF, at) + rest
def num(code, default=0, at=0, flags=EDIT):     # codes 0x00 to 0x0a
    return comp(code, at, u16(default) if code >= 5 else u16(default)[:1], flags)
def counter(low, high, step, default, width, at=0):
    return comp(0x0D, at, pack('<4hB', low, high, step, default, width))
def time(*parts, at=0): return comp(0x0F if len(parts) == 3 else 0x10, at, bytes(parts))
def date(year, month, day, at=0, short=False):  # stored day, month, year
    return comp(0x12 if short else 0x11, at, bytes([day, month]) + (bytes([year]) if short else u16(year)))
def switch(n, default=0, at=0, helps=None, dlen=0):
    helps = b''.join(map(text, helps or [b''] * n))
    return comp(0x13, at, bytes([(14 + len(helps) + dlen) & 255, n]) + b'*.' + pack('<I', default) + helps)
def option(*items, default=0, at=0, dlen=0, dwidth=0, dcount=0):
    body, width = b''.join(map(text, items)), max(map(len, items), default=0)
    return comp(0x14, at, bytes([(10 + len(body) + dlen) & 255, len(items) + dcount, width + dwidth, default]) + body)

def line(*comps, sub=None, pwd=None, dyn=None, flip=0, dnext=0, dprev=0, dsub=0, mark_last=True):
    """`sub` is the number of a table of the image.  `flip` turns bits of the tag, and the options follow the turned
    tag; dnext, dprev, dsub are added to the offsets; mark_last=False leaves out the last component's mark."""
    return SimpleNamespace(**locals())
def table(title, *lines, gap=0): return title, lines, gap               # gap: bytes before it that nothing reaches

class Image(bytes):
    """An image with the places of its tables, lines, components and padding bytes, in the order laid out."""
    def like(self, data):
        new = Image(data)
        new.__dict__.update(self.__dict__)
        return new
    def put(self, place, *values):              # other bytes at a place
        return self.like(self[:place] + bytes(values) + self[place + len(values):])
    def upto(self, place): return self.like(self[:place])               # the image ends before this place
    def cut(self, n=1): return self.upto(len(self) - n)                 # the last n bytes are missing
    def fill(self, size): return self.like(self + b'\xAA' * (size - len(self)))     # bytes that nothing reaches (R12)

def image(*tables, head=prolog()):
    out, tabs, lines, comps, pads, subs = bytearray(head), [], [], [], [], []
    def align(parity):
        if len(out) % 2 != parity:
            pads.append(len(out))
            out.append(0)
    for title, rows, gap in tables:
        out += b'\xEE' * gap
        tabs.append(len(out))
        out += text(title)
        before = None
        for i, ln in enumerate(rows):
            align(1)
            start = len(out)
            lines.append(start)
            given = ((FIRST_LINE, i == 0), (LAST_LINE, i == len(rows) - 1), (DYN, ln.dyn is not None),
                     (SUB, ln.sub is not None), (PWD, ln.pwd is not None))
            tag = sum(bit for bit, on in given if on) ^ ln.flip
            out.append(tag)
            if not tag & LAST_LINE:
                out += u16(0)                   # next-line-ofs, filled in below
            if not tag & FIRST_LINE:
                out += u16(start - (before or start) + ln.dprev)
            if tag & DYN:
                out += u16(ln.dyn)
            if tag & SUB:
                subs.append((len(out), ln))
                out += u16(0)                   # smenu-abs-ofs, filled in below
                if tag & PWD:
                    out += text(ln.pwd)
            for c in ln.comps:
                align(0)
                comps.append(len(out))
                out += c
            if ln.mark_last:
                out[comps[-1]] |= LAST
            if not tag & LAST_LINE:             # to the first odd place from here on
                out[start + 1:start + 3] = u16((len(out) | 1) - start + ln.dnext)
            before = start
    for place, ln in subs:
        out[place:place + 2] = u16(tabs[ln.sub] - 10 + ln.dsub)
    img = Image(out)
    img.tabs, img.lines, img.comps, img.pads = tabs, lines, comps, pads
    return img

def one(*comps, **of_line):                     # a table of one line: title at 10, padding at 12, tag 13, component 14
    return image(table(b'T', line(*comps, **of_line)))
def chain(*tables):                             # tables without titles, given by their lines
    return image(*[table(b'', *lines) for lines in tables])
def rows(*lines): return chain(lines)           # one such table; its first line stands at 11 without padding

CASES, NAMES = [], set()

def check(name, refusal, img, sheet=64, op=1, place=0, item=0, answer='', tail=b''):
    assert len(name) <= 60 and name not in NAMES and len(img) <= 65535, name
    NAMES.add(name)
    head = bytes([op]) + text(name.encode('ascii')) + u16(len(img)) + u16(sheet) + u16(place) + u16(item)
    CASES.append((head + img + tail, f'{name}: {refusal}{answer}\n'))
def checks(*cases):                             # cases of (name, refusal, image) or (name, refusal, image, sheet)
    for case in cases:
        check(*case)
def lone(sheet, *cases):                        # cases of (name, refusal, components of the only line)
    for name, refusal, *comps in cases:
        check(name, refusal, one(*comps), sheet)
def texts(img, *cases, sheet=64):               # option texts: (name, refusal, place, item, the item's bytes)
    for name, refusal, place, item, *found in cases:
        check('text, ' + name, refusal, img, sheet, 2, place, item, ' ' + b''.join(found).hex())

X, BAD9 = string(), num(0x00, 100)              # dd with default 100 is refusal 9
GOOD = one(X)
