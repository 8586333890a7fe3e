"""Cases of the check: each image with the refusal number that the papers give it, 0 if it is accepted."""
from build import *

# ---- Length and prolog -----------------------------------------------------------------------------------------------
FULL = rows(line(*[string(b'')] * 16378))                               # 12 + 2 * 16378 = 32768 bytes
FAR = image(table(b'', line(X, sub=1)), table(b'U', line(option(b'off', b'yes')), gap=32730))       # 32768 bytes too
TINY = rows(line(string(b'')))                                          # 14 bytes, the least that is accepted
checks(('0 bytes', 2, b''), ('9 bytes', 2, prolog()[:9]), ('9 bytes, byte 0 wrong', 2, GOOD.put(0, 0)[:9]),
       ('10 bytes', 6, bytes.fromhex('434D460004000000FFFE')), ('10 bytes, byte 0 wrong', 3, GOOD.put(0, 0)[:10]),
       ('10 bytes, mark FE FF', 5, bytes.fromhex('434D460004000000FEFF')), ('14 bytes', 0, TINY), ('14 bytes cut', 6, TINY.cut()),
       ('32768 bytes', 0, GOOD.fill(32768)), ('32769 bytes', 2, GOOD.fill(32769)), ('65535 bytes', 2, GOOD.fill(65535)),
       ('32769 bytes, byte 0 wrong', 2, GOOD.fill(32769).put(0, 0)), ('32768 bytes, walked to the last', 0, FULL),
       ('32768 bytes walked, cut', 6, FULL.cut()), ('32768 bytes, submenu at the end', 0, FAR))
for place, no in (0, 3), (1, 3), (2, 3), (3, 4), (4, 4), (8, 5), (9, 5):
    check(f'byte {place} wrong', no, GOOD.put(place, GOOD[place] ^ 1))
for a, b, no in (0, 3, 3), (2, 9, 3), (0, 8, 3), (3, 8, 4), (4, 9, 4), (8, 9, 5):
    check(f'bytes {a} and {b} wrong', no, GOOD.put(a, 1).put(b, 1))
for place in 5, 6, 7:
    check(f'delay at byte {place} is 255', 0, GOOD.put(place, 255))
checks(('mark FE FF', 5, GOOD.put(8, 0xFE, 0xFF)), ('byte 9 wrong and title beyond', 5, GOOD.put(9, 0).put(10, 255)))

# ---- Titles and places of tables -------------------------------------------------------------------------------------
for n in 0, 1, 254, 255:
    check(f'title of {n}', 0, image(table(b't' * n, line(X))))
DOWN = image(table(b'T', line(X, sub=1)), table(b'U', line(X)))
checks(('title of 255 cut', 6, prolog() + text(b't' * 255)[:-1]), ('title one past the image', 6, GOOD.put(10, len(GOOD) - 10)),
       ('title to the end, no line', 6, prolog() + text(b'TT')), ('submenu', 0, DOWN),
       ('submenu title cut', 6, DOWN.upto(DOWN.tabs[1] + 1)), ('submenu at the image end', 6, DOWN.upto(DOWN.tabs[1])),
       ('submenu at 65545', 6, one(X, sub=0, dsub=0xFFFF)),
       ('submenu at an even place', 0, image(table(b'T', line(X, sub=1)), table(b'', line(X), gap=1))),     # R11
       ('submenu inside a string', 0, one(string(b'\0\x03\x95\0'), sub=0, dsub=8)))     # empty title, tag, empty string
# In 16 bits 10 + 65531 would be 5: a table whose title length is delay-to-top and whose line is the top table's.
check('submenu at 65541, not 5', 6, image(table(b'', line(X, sub=0, dsub=65531)), head=prolog((4, 0, 0))))

# ---- Padding (R6) ----------------------------------------------------------------------------------------------------
LINE_PAD, COMP_PAD = rows(line(string(b'xy')), line(X)), rows(line(X, X))
PWD_PAD = chain([line(X, sub=1, pwd=b'12')], [line(X)])
for name, img, cut in (('first line', GOOD, GOOD.lines[0]), ('line 2', LINE_PAD, LINE_PAD.lines[1] + 2),
                       ('component 1', PWD_PAD, PWD_PAD.comps[0]), ('component 2', COMP_PAD, COMP_PAD.comps[1] + 2)):
    pad = img.pads[0]
    check(f'padding before {name}', 0, img)
    check(f'padding before {name} is 1', 7, img.put(pad, 1))
    check(f'padding before {name} missing', 6, img.upto(pad))
    check(f'padding before {name} is 1, cut', 6, img.put(pad, 1).upto(cut))

# ---- Line tags and line options --------------------------------------------------------------------------------------
for bit in 0x20, 0x40, 0x80:                                            # R9: also where the tag asks for more bytes
    wide, later = one(X, flip=bit | FIRST_LINE), rows(line(X), line(X, flip=bit))
    check(f'line tag bit {bit:02x}', 7, one(X, flip=bit))
    check(f'line tag bit {bit:02x}, options run out', 7, wide.upto(wide.lines[0] + 1))
    check(f'line tag bit {bit:02x} at line 2', 7, later)
    check(f'line tag bit {bit:02x} at line 2, options run out', 7, later.upto(later.lines[1] + 1))
# R9, R19a: a line is laid out by its own bits; 6 by that, then 7, also where the image ends right behind its options.
for name, img, n in (('first mark missing', one(X, flip=FIRST_LINE), 0),
                     ('first mark at line 2', rows(line(X), line(X, flip=FIRST_LINE), line(X)), 1),
                     ('password bit without submenu', rows(line(X), line(X, flip=PWD)), 1),
                     ('password bit with dynamic enable', one(X, flip=PWD, dyn=0), 0),
                     ('submenu behind bad padding', one(X, sub=0).put(12, 1), 0)):
    check(name, 7, img)
    check(f'{name}, options run out', 6, img.upto(img.lines[n] + 2))
    check(f'{name}, image ends behind options', 7, img.upto(img.lines[n] + 3))
checks(('first mark missing in a submenu', 7, chain([line(X, sub=1)], [line(X, flip=FIRST_LINE)])),
       ('first mark at the last line', 7, rows(line(X), line(X, flip=FIRST_LINE))),
       ('password bit without submenu at a single line', 7, one(X, flip=PWD)),
       ('last mark early, rest unreached', 0, rows(line(X, flip=LAST_LINE), line(BAD9))),       # R12
       ('last mark missing at the end', 6, one(X, flip=LAST_LINE)), ('three lines', 0, rows(line(X), line(X), line(X))))
for d in 1, -1, 2, -2, 256, 8, -6:
    check(f'prev-line-ofs {d:+} at line 2', 7, rows(line(X), line(X, dprev=d)))
    check(f'prev-line-ofs {d:+} at line 3', 7, rows(line(X), line(X), line(X, dprev=d)))
for d in 1, -1, 2, -2, 8:
    check(f'next-line-ofs {d:+}', 7, rows(line(X, dnext=d), line(X), line(X)))
    check(f'next-line-ofs {d:+} at line 2', 7, rows(line(X), line(X, dnext=d), line(X), line(X)))
checks(('next-line-ofs +2, read there it runs out', 6, rows(line(X, dnext=2), line(X))),        # R7: tag 0 needs 5 bytes
       ('next-line-ofs to the image end', 6, rows(line(X, dnext=6), line(X))),
       ('next-line-ofs beyond the image', 6, rows(line(X, dnext=1000), line(X))),
       ('next-line-ofs FFFF', 6, rows(line(X, dnext=0xFFFF - 6), line(X))),
       ('next-line-ofs 0', 7, rows(line(X, dnext=-6), line(X))),        # its own line again
       ('lines linked both ways with a gap', 7, rows(line(X, dnext=8), line(X), line(X, dprev=6))),     # R7
       ('next-line-ofs 0, image ends odd', 7, rows(line(X, flip=LAST_LINE, dnext=-6))))
# R7 over R6: the line is read where the offset leads, so the padding byte at R6's place, beyond the image, is no 6.
check('next-line-ofs 0, image ends even', 7, rows(line(string(b'xy'), flip=LAST_LINE, dnext=-8)))
for at in 0, 4095, 65535:                                               # R10
    check(f'dynamic enable at {at}, sheet 0', 0, one(X, dyn=at), 0)
checks(('dynamic enable, sheet 4097', 0, one(X, dyn=0), 4097), ('dynamic enable on a field', 0, one(num(0x01), dyn=0), 1))
ALL, BENT = [chain([line(X), line(X, dyn=65535, sub=1, pwd=b'1234', dprev=d), line(X)], [line(X)]) for d in (0, 1)]
behind = ALL.lines[1] + 14                                              # tag, 4 numbers, length byte, 4 digits
checks(('all line options', 0, ALL), ('all line options, no component', 6, ALL.upto(behind)),
       ('all line options, prev-line-ofs wrong, no component', 7, BENT.upto(behind)))
for n in range(14):
    check(f'all line options, prev-line-ofs wrong, cut to {n}', 6, BENT.upto(BENT.lines[1] + n))
for name, pwd, no in (('of 0', b'', 9), ('of 1', b'7', 0), ('of 8', b'12345678', 0), ('of 9', b'123456789', 9),
                      ('of 255', b'1' * 255, 9), ('0', b'0', 0), ('09', b'09', 0), ('12a4', b'12a4', 9), ('a slash', b'/', 9),
                      ('a colon', b':', 9), ('12 and blank', b'12 ', 9), ('1 and zero byte', b'1\0', 9), ('b1', b'\xb1', 9)):
    check(f'password {name}', no, chain([line(X, sub=1, pwd=pwd)], [line(X)]))
check('password of 9 cut', 6, one(X, sub=0, pwd=b'123456789').upto(25))     # its digits are at 17 to 25

# ---- Depth, loops, tables reached again ------------------------------------------------------------------------------
def deep(n, *last):                             # n tables, each below the one before; components of the last one's line
    return image(*[table(b'T', line(X, sub=i + 1)) for i in range(n - 1)], table(b'T', line(*last or (X,))))
NINE = deep(9)
checks(('depth 8', 0, deep(8)), ('depth 8, bad settings in it', 9, deep(8, BAD9)), ('depth 9', 8, NINE),
       ('depth 9, title beyond', 6, NINE.put(NINE.tabs[8], 200)), ('depth 9, title missing', 6, NINE.upto(NINE.tabs[8])),   # R15
       ('depth 9, image ends behind title', 8, NINE.upto(NINE.tabs[8] + 2)), ('depth 9, worse line in it', 8, deep(9, b'\x18')),
       ('depth 9 behind bad settings', 9, chain(*[[line(BAD9 if i == 8 else X, sub=i)] for i in range(1, 9)], [line(X)])),
       ('table leads to itself', 8, one(X, sub=0)), ('table leads to itself, protected', 8, one(X, sub=0, pwd=b'123')),
       ('table leads to itself, trigger', 8, one(trigger(), sub=0)), ('table leads to itself, field', 11, one(num(0x01), sub=0)),
       ('table leads to itself, field, sheet 4097', 10, one(num(0x01), sub=0), 4097),
       ('two tables lead to each other', 8, chain([line(X, sub=1)], [line(X, sub=0)])))
for name, c, no in ('no field', X, 0), ('a trigger', trigger(), 0), ('a field', num(0x01), 11):
    check(f'table reached twice, {name}', no, chain([line(X, sub=1), line(X, sub=1)], [line(c)]))
check('table reached at depth 2 and 3', 0, chain([line(X, sub=1), line(X, sub=2)], [line(X, sub=2)], [line(X)]))
check('8 deep, two ways at each line', 0, chain(*[[line(X, sub=i)] * 2 for i in range(1, 8)], [line(X)] * 2))   # 510 lines

# ---- Numbers of lines and fields -------------------------------------------------------------------------------------
def many(n, last=line(X)): return rows(*[line(X)] * (n - 1), last)      # a table of n lines
def product(n, m, *more):                       # n lines, each leading to the same table of m lines, then more lines
    return chain([line(X, sub=1)] * n + list(more), [line(X)] * m)
checks(('99 lines', 0, many(99)), ('100 lines', 8, many(100)), ('99 lines in a submenu', 0, product(1, 99)),
       ('100 lines in a submenu', 8, product(1, 100)), ('line 100 with a tag bit', 7, many(100, line(X, flip=0x20))),
       ('line 100 with wrong prev-line-ofs', 7, many(100, line(X, dprev=1))),
       ('line 100 with a bad password', 8, many(100, line(X, sub=0, pwd=b''))),
       ('line 100 cut', 6, many(100).upto(many(100).lines[99] + 2)),
       ('line 100 without component', 8, many(100).upto(many(100).lines[99] + 3)),
       ('line 99 with bad settings, then line 100', 9, rows(*[line(X)] * 98, line(BAD9), line(X))),
       ('1024 lines', 0, product(32, 31)), ('1025 lines', 8, product(32, 31, line(X))),
       ('1025 lines, the last in a submenu', 8, product(25, 40)),
       ('line 1025 with a tag bit', 7, product(32, 31, line(X, flip=0x40))),
       ('line 1025 with a bad password', 8, product(32, 31, line(X, sub=1, pwd=b'x'))),
       ('line 1025 with bad settings', 8, product(32, 31, line(BAD9))),
       ('line 1024 with bad settings', 9, product(31, 32, line(BAD9))))     # 31 * 33 + 1
BYTES, TRIGGERS = [num(0x01, at=i) for i in range(256)], [trigger()] * 256
lone(256, ('256 fields', 0, *BYTES), ('257 fields, the last a trigger', 8, *BYTES, trigger()),
     ('256 fields and a string', 0, *BYTES, X), ('256 triggers', 0, *TRIGGERS), ('257 triggers', 8, *TRIGGERS, trigger()),
     ('255 triggers and a field', 0, *TRIGGERS[1:], num(0x01)), ('256 triggers and a field', 8, *TRIGGERS, num(0x01)),
     ('field 257 is a float', 7, *BYTES, comp(0x0B, 0, bytes(4))), ('field 257 with bad settings', 8, *BYTES, BAD9),
     ('field 257 past the sheet', 8, *BYTES, num(0x01, at=256)), ('field 257 overlaps', 8, *BYTES, num(0x01)),
     ('300 strings in a line', 0, *[X] * 300))
F257 = one(*BYTES, num(0x01, at=256))
checks(('257 fields', 8, F257, 257), ('257 fields, cut', 6, F257.cut(), 257),
       ('257 fields, bad padding', 7, F257.put(F257.pads[-1], 1), 257))
for n, no, more in (256, 0, []), (257, 8, [line(trigger())]):
    check(f'{n} triggers by reaching 16 again', no, chain([line(X, sub=1)] * 16 + more, [line(*TRIGGERS[:16])]))

# ---- Components: whole, cut, sheet bytes that just fit and one past ---------------------------------------------------
FIELDS = (('00 dd', num(0x00, 12, 10), 11), ('01 ddd', num(0x01, 200, 10), 11), ('02 hh', num(0x02, 0xFF, 10), 11),
          ('03 sdd', num(0x03, -12, 10), 11), ('04 sddd', num(0x04, -100, 10), 11), ('05 DDD', num(0x05, 300, 10), 12),
          ('06 DDDD', num(0x06, 4000, 10), 12), ('07 DDDDD', num(0x07, 50000, 10), 12),
          ('08 HHHH', num(0x08, 0xFFFF, 10), 12), ('09 SDDD', num(0x09, -300, 10), 12),
          ('0a SDDDD', num(0x0A, -4000, 10), 12), ('0d counter', counter(-5, 100, 10, 98, 3, 10), 12),
          ('0f time-long', time(1, 2, 3, at=10), 13), ('10 time-short', time(1, 2, at=10), 12),
          ('11 date-long', date(2024, 5, 6, 10), 14), ('12 date-short', date(24, 5, 6, 10, short=True), 13),
          ('13 switch', switch(3, 5, 10, [b'a', b'', b'ccc']), 14), ('14 option', option(b'no', b'yes', at=10), 11))
for name, c, end in FIELDS:                     # end: the first sheet byte behind the field
    check(name, 0, one(c), end)
    check(f'{name}, sheet one short', 10, one(c), end - 1)
    check(f'{name} at 65535', 10, one(c[:4] + b'\xff\xff' + c[6:]), 4096)
    check(f'{name} cut', 6, one(c).cut(), end)
    check(f'{name} behind bad padding, cut', 6, one(X, c).put(17, 1).cut(), end)
    check(f'{name}, tag as last byte', 6, one(c).upto(15), end)
for name, c in (('15 string', X), ('15 string empty', string(b'')), ('15 string of 255', string(b'x' * 255)),
                ('15 string blinking', string(b'x', BLINK)), ('17 trigger', trigger()), ('17 trigger read-only', trigger(0))):
    check(name, 0, one(c), 0)
    check(f'{name} cut', 6, one(c).cut(), 0)
    check(f'{name} behind bad padding, cut', 6, one(X, c).put(17, 1).cut(), 0)
    check(f'{name}, tag as last byte', 6, one(c).upto(15), 0)
PASSWORD = bytes([0x16 | EDIT, 0, 0, 0])
for name, c in (('0b float', comp(0x0B, 0, bytes(4))), ('0c float', comp(0x0C, 0, bytes(4))),
                ('0b float read-only', comp(0x0B, 0, bytes(4), 0)), ('0e fcounter', comp(0x0E, 0, bytes(16) + b'\5')),
                ('15 variable string', comp(0x15, 0, text(b'abc'))), ('15 variable string empty', comp(0x15, 0, text(b''))),
                ('16 password', PASSWORD + text(b'12')), ('16 password empty', PASSWORD + text(b'')),
                ('16 password read-only', b'\x16' + PASSWORD[1:] + text(b'12'))):
    check(f'{name}, left for later', 7, one(c))                         # R14
    check(f'{name}, left for later, cut', 6, one(c).cut())
    check(f'{name}, left for later, tag as last byte', 6, one(c).upto(15))
for code in range(0x18, 0x20):                                          # none of them is an hfill (R4)
    check(f'{code:02x} not given', 7, one(bytes([code, 2]) + bytes(22)))
    check(f'{code:02x} not given, as last byte', 7, one(bytes([code])))
for flags in 0, EDIT, BLINK, EDIT | BLINK:
    check(f'dd with flags {flags:02x}', 0, one(num(0x00, flags=flags)))
check('last mark missing at the last component', 6, one(X, mark_last=False))
check('components behind the last mark', 0, one(string(b'x', LAST), BAD9))      # R12
check('every field kind in a line', 0, one(*[c[:4] + u16(4 * i) + c[6:] for i, (_, c, _) in enumerate(FIELDS)]), 72)

# ---- Settings (refusal 9) --------------------------------------------------------------------------------------------
for kind, code, defaults in (
        ('dd', 0x00, {0: 0, 99: 0, 100: 9, 255: 9}), ('ddd', 0x01, {0: 0, 255: 0}), ('hh', 0x02, {0: 0, 255: 0}),
        ('sdd', 0x03, {-99: 0, 0: 0, 99: 0, -100: 9, 100: 9, -128: 9, 127: 9}), ('sddd', 0x04, {-128: 0, 0: 0, 127: 0}),
        ('DDD', 0x05, {0: 0, 999: 0, 1000: 9, 65535: 9}), ('DDDD', 0x06, {0: 0, 9999: 0, 10000: 9, 65535: 9}),
        ('DDDDD', 0x07, {0: 0, 65535: 0}), ('HHHH', 0x08, {0: 0, 65535: 0}),
        ('SDDD', 0x09, {-999: 0, 0: 0, 999: 0, -1000: 9, 1000: 9, -32768: 9}),
        ('SDDDD', 0x0A, {-9999: 0, 0: 0, 9999: 0, -10000: 9, 10000: 9, -32768: 9, 32767: 9})):
    for v, no in defaults.items():
        check(f'{kind} default {v}', no, one(num(code, v)))
check('read-only dd default 100', 9, one(num(0x00, 100, flags=0)))
for low, high, step, default, width, no in (
        (0, 9, 1, 0, 1, 0), (0, 9, 1, 9, 1, 0), (1, 9, 1, 0, 1, 9), (0, 9, 1, 10, 2, 9), (9, 0, 1, 5, 1, 9),
        (5, 5, 1, 5, 1, 0), (6, 5, 1, 5, 1, 9), (5, 4, 1, 5, 1, 9), (-5, 100, 10, -6, 3, 9), (-5, 100, 10, 101, 3, 9),
        (0, 9, 0, 0, 1, 9), (0, 9, -1, 0, 1, 9), (0, 9, -32768, 0, 1, 9), (0, 9, 32767, 0, 1, 0), (0, 9, 1, 0, 255, 0),
        (0, 0, 1, 0, 0, 9), (0, 0, 1, 0, 1, 0), (-1, 9, 1, 0, 1, 9), (-1, 9, 1, 0, 2, 0), (0, 10, 1, 0, 1, 9),
        (0, 99, 1, 0, 2, 0), (-9, 100, 1, 0, 2, 9), (-99, 100, 1, 0, 3, 0), (-100, 100, 1, 0, 3, 9), (-100, 9, 1, 0, 4, 0),
        (-10, -5, 1, -5, 2, 9), (-9, -5, 1, -5, 2, 0), (0, 999, 1, 0, 3, 0), (0, 1000, 1, 0, 3, 9), (-999, 9999, 1, 0, 4, 0),
        (-1000, 0, 1, 0, 4, 9), (0, 10000, 1, 0, 4, 9), (-9999, 32767, 1, 0, 5, 0), (-10000, 0, 1, 0, 5, 9),
        (-32768, 32767, 10, 32760, 6, 0), (-32768, -32768, 1, -32768, 6, 0), (-32768, -32768, 1, -32768, 5, 9)):
    check(f'counter {low}..{high} step {step} at {default} width {width}', no, one(counter(low, high, step, default, width)))
for *parts, no in ((0, 0, 0, 0), (23, 59, 59, 0), (24, 0, 0, 9), (0, 60, 0, 9), (0, 0, 60, 9), (255, 0, 0, 9), (0, 0, 0),
                   (23, 59, 0), (24, 0, 9), (0, 60, 9), (0, 255, 9)):
    check('time ' + ':'.join(map(str, parts)), no, one(time(*parts)))
for y, m, d, no in ((0, 1, 1, 0), (9999, 12, 31, 0), (10000, 1, 1, 9), (65535, 1, 1, 9), (2024, 0, 1, 9), (2024, 13, 1, 9),
                    (2024, 1, 0, 9), (2024, 1, 32, 9),
                    # 02 No. 3: February in years that are leap or not, then the ends of the other months
                    (0, 2, 29, 0), (4, 2, 29, 0), (1900, 2, 29, 9), (2000, 2, 29, 0), (2004, 2, 29, 0),
                    (2023, 2, 28, 0), (2023, 2, 29, 9), (2024, 2, 29, 0), (2024, 2, 30, 9), (2024, 2, 31, 9),
                    (2026, 2, 29, 9), (2100, 2, 29, 9), (2400, 2, 29, 0), (9996, 2, 29, 0), (9999, 2, 29, 9),
                    (2024, 1, 31, 0), (2024, 3, 31, 0), (2024, 4, 30, 0), (2024, 4, 31, 9), (2024, 5, 31, 0),
                    (2024, 6, 30, 0), (2024, 6, 31, 9), (2024, 7, 31, 0), (2024, 8, 31, 0), (2024, 9, 30, 0),
                    (2024, 9, 31, 9), (2024, 10, 31, 0), (2024, 11, 30, 0), (2024, 11, 31, 9)):
    check(f'date-long {y}-{m}-{d}', no, one(date(y, m, d)))
for y, m, d, no in ((0, 1, 1, 0), (99, 12, 31, 0), (100, 1, 1, 9), (255, 1, 1, 9), (24, 0, 1, 9), (24, 13, 1, 9),
                    (24, 1, 0, 9), (24, 1, 32, 9),
                    # R51: 2000, 2001, 2096, 2098 and 2099
                    (0, 2, 29, 0), (1, 2, 29, 9), (96, 2, 29, 0), (98, 2, 29, 9), (99, 2, 29, 9), (0, 2, 30, 9),
                    (24, 4, 30, 0), (24, 4, 31, 9)):
    check(f'date-short {y}-{m}-{d}', no, one(date(y, m, d, short=True)))
check('read-only date-long 2024-4-31', 9, one(comp(0x11, 0, bytes([31, 4]) + u16(2024), 0)))
check('date-long 2024-4-31 past the sheet', 9, one(date(2024, 4, 31, 61)))
for n, default, no in ((0, 0, 9), (1, 0, 0), (1, 1, 0), (1, 2, 9), (7, 0x80, 9), (8, 0xFF, 0), (8, 0x100, 9), (9, 0x100, 0),
                       (9, 0x200, 9), (16, 0x10000, 9), (31, 0x7FFFFFFF, 0), (31, 0x80000000, 9), (32, 0xFFFFFFFF, 0),
                       (33, 0, 9), (33, 0xFFFFFFFF, 9), (241, 0, 9), (242, 0, 7)):   # 241 empty strings make 255 bytes (R16)
    check(f'switch of {n} default {default:x}', no, one(switch(n, default)))
check('switch with equal on-char and off-char', 0, one(switch(2)).put(22, 42, 42))      # 01 shows '1' and '0'
for n, default, no in ((0, 0, 9), (0, 1, 9), (1, 0, 0), (1, 1, 9), (2, 1, 0), (2, 2, 9), (2, 255, 9), (245, 244, 0),
                       (245, 245, 9), (246, 0, 7), (255, 0, 7)):        # 245 empty items make 255 bytes (R16)
    check(f'option of {n} default {default}', no, one(option(*[b''] * n, default=default)))

# ---- length and field-width (R16, R17) -------------------------------------------------------------------------------
AB, LONG = (b'a', b'bc'), (b'x' * 144, b'y' * 144)
for d in 1, -1:
    lone(64, (f'option length {d:+}', 7, option(*AB, dlen=d), X), (f'option field-width {d:+}', 7, option(*AB, dwidth=d)),
         (f'switch length {d:+}', 7, switch(2, helps=AB, dlen=d), X))
lone(64, ('option field-width of the first item', 0, option(b'bcd', b'a')),
     ('option field-width of the last item, not the longest', 7, option(b'bcd', b'a', dwidth=-2)),
     ('option length beyond the image', 7, option(*AB, dlen=200)), ('switch length beyond the image', 7, switch(2, dlen=200)),
     ('option length 0', 7, option(*AB, dlen=-15)), ('option of 255 bytes', 0, option(b'x' * 244)),
     ('option of 256 bytes, length 0', 7, option(b'x' * 245)), ('option of 256 bytes, length 255', 7, option(b'x' * 245, dlen=-1)),
     ('option of 266 bytes', 7, option(b'x' * 255)), ('option of 300 bytes', 7, option(*LONG)),
     ('switch of 255 bytes', 0, switch(1, helps=[b'x' * 240])), ('switch of 256 bytes', 7, switch(1, helps=[b'x' * 241])),
     ('option with a count one too high, at the end', 6, option(*AB, dcount=1)),        # its third string is beyond
     ('option with a count one too low', 7, option(*AB, dcount=-1)),                    # its length is now too great
     ('option without items, field-width 1', 7, option(dwidth=1)), ('option without items, length 11', 7, option(dlen=1)),
     ('switch of 33, length wrong', 7, switch(33, dlen=1)))
checks(('switch of 33 cut', 6, one(switch(33)).cut()), ('option length wrong and cut', 6, one(option(*AB, dlen=1)).cut()),
       ('option of 300 bytes cut', 6, one(option(*LONG)).cut()), ('option cut before last length byte', 6, one(option(*AB)).cut(3)),
       ('option cut behind last length byte', 6, one(option(*AB)).cut(2)),
       ('switch cut before last length byte', 6, one(switch(2, helps=AB)).cut(3)))

# ---- Sheet -----------------------------------------------------------------------------------------------------------
def B(at): return num(0x01, at=at)              # fields of 1, 2, 3 and 4 bytes
def W(at): return num(0x05, at=at)
def T(at): return time(0, 0, 0, at=at)
def D(at): return switch(1, at=at)
for name, c, sheets in (('a field', B(0), {0: 10, 1: 0, 4096: 0, 4097: 10, 65535: 10}), ('no field', X, {0: 0, 4097: 0, 65535: 0}),
                        ('only a trigger', trigger(), {0: 0, 4096: 0, 4097: 10})):          # R18
    for sheet, no in sheets.items():
        check(f'sheet {sheet} with {name}', no, one(c), sheet)
lone(4096, ('field at 4095', 0, B(4095)), ('field at 4096', 10, B(4096)), ('two-byte field at 4094', 0, W(4094)),
     ('two-byte field at 4095', 10, W(4095)), ('four-byte field at 65533', 10, D(65533)),   # its end would be 1 in 16 bits
     ('overlap, last sheet byte', 11, B(4095), W(4094)))
lone(64, ('overlap, same byte', 11, B(3), B(3)), ('byte behind a byte', 0, B(3), B(4)), ('byte before a byte', 0, B(4), B(3)),
     ('overlap, two bytes to one', 11, B(3), W(2)), ('overlap, two bytes from one', 11, B(3), W(3)),
     ('two bytes before one', 0, B(3), W(1)), ('two bytes behind one', 0, B(3), W(4)), ('overlap, two bytes by one', 11, W(4), W(5)),
     ('overlap, byte inside four', 11, D(8), B(10)), ('overlap, four around a byte', 11, B(10), D(8)),
     ('overlap, byte on last of four', 11, D(8), B(11)), ('byte behind four', 0, D(8), B(12)), ('byte before four', 0, D(8), B(7)),
     ('overlap, three to first of four', 11, D(8), T(6)), ('three before four', 0, D(8), T(5)),
     ('overlap, third on first', 11, W(0), B(9), B(1)), ('overlap, third on second', 11, B(9), W(0), B(1)),
     ('third in a gap', 0, B(0), B(3), W(1)), ('overlap, third in a gap too small', 11, B(0), B(2), W(1)),
     ('overlap, read-only byte', 11, B(3), num(0x01, at=3, flags=0)), ('trigger between fields', 0, B(0), trigger(), B(1)),
     ('overlap, option on a counter', 11, counter(0, 9, 1, 0, 1, 6), option(b'a', at=7)), ('two triggers', 0, trigger(), trigger()))
checks(('overlap, next line', 11, rows(line(W(0)), line(B(1)))), ('overlap, submenu', 11, chain([line(W(0), sub=1)], [line(B(1))])),
       ('overlap, next line on a submenu field', 11, chain([line(X, sub=1), line(B(0))], [line(B(0))])))

# ---- Order: the first structure at fault, and there the lowest number -------------------------------------------------
lone(64, ('bad settings and past the sheet', 9, num(0x00, 100, at=64)), ('bad settings and overlapping', 9, B(0), BAD9),
     ('past the sheet and overlapping', 10, B(63), W(63)), ('length wrong, no item, past the sheet', 7, option(dlen=3, at=64)),
     ('component 2 (11) before 3 (7)', 11, B(0), B(0), b'\x18'))
lone(4097, ('bad settings and sheet 4097', 9, BAD9), ('sheet 4097, float first', 7, comp(0x0B, 0, bytes(4)), B(0)))
checks(('bad padding and bad settings', 7, one(X, BAD9).put(17, 1)), ('bad padding, past the sheet', 7, one(X, B(64)).put(17, 1)),
       ('cut and bad settings', 6, one(num(0x05, 1000)).cut()), ('component 1 (9) before 2 (6)', 9, one(BAD9, B(1)).cut()),
       ('sheet 4097, string cut', 6, one(string(b'xyz')).cut(), 4097))
check('sheet 4097, line at fault before the first field', 7, rows(line(X), line(B(0), flip=0x20)), 4097)
check('sheet 4097, field before a line at fault', 10, rows(line(B(0)), line(X, flip=0x20)), 4097)
check('sheet 4097, field in a submenu before line 2', 10, chain([line(X, sub=1), line(X, flip=0x20)], [line(B(0))]), 4097)
check('line 1 (10) before line 2 (7)', 10, rows(line(B(64)), line(X, flip=0x80)))
check('line 1 (9) before its wrong next-line-ofs', 9, rows(line(BAD9, dnext=2), line(X), line(X)))
check('submenu (9) before a wrong next-line-ofs', 9, chain([line(X, sub=1, dnext=1000), line(X)], [line(BAD9)]))
checks(('password (9) before component (7)', 9, one(b'\x18', sub=0, pwd=b'')),
       ('bad padding and bad password', 7, one(X, sub=0, pwd=b'').put(12, 1)),
       ('wrong prev-line-ofs and bad password', 7, rows(line(X), line(X, sub=0, pwd=b'', dprev=2))))
check('line components (9) before submenu (7)', 9, chain([line(BAD9, sub=1)], [line(X, flip=0x20)]))
check('line components (11) before submenu (6)', 11, one(B(0), B(0), sub=0, dsub=1000))
check('submenu (9) before line 2 (7)', 9, chain([line(X, sub=1), line(X, flip=0x20)], [line(BAD9)]))
check('submenu (7) before line 2 (9)', 7, chain([line(X, sub=1), line(BAD9)], [line(X, flip=0x20)]))
check('submenu beyond (6) before line 2 (7)', 6, chain([line(X, sub=0, dsub=500), line(X, flip=0x20)]))
check('submenu of a submenu (10) before its line 2 (9)', 10, chain([line(X, sub=1)], [line(X, sub=2), line(BAD9)], [line(B(64))]))
