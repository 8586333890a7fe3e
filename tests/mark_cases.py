"""Cases of the marker: the sums that a key gives, and keys that are refused (02 No. 1, R40 to R43)."""
from step_cases import *

def mark(name, refusal, img, sheet, key, *sums):
    check('mark, ' + name, refusal, img, len(sheet), 7, answer=''.join(f' {n}' for n in sums),
          tail=sheet + u16(len(key)) + b''.join(map(u16, key)))
def marks(img, *cases):                         # (name, sheet, key, points right, wrong and blank)
    for name, sheet, key, *sums in cases:
        mark(name, 0, img, sheet, key, *sums)
def unmarked(img, sheet, *cases):               # (name, key): refusal 15
    for name, key in cases:
        mark(name, 15, img, sheet, key)

# ---- Right, wrong and blank ------------------------------------------------------------------------------------------
# The one-byte fields have the sheet's bytes 0 to 3, 5 to 7 and 9, the wider ones 10 to 29.  No field has 4, 8 (that of
# an enable address, R10), 30 and 31 (that of an unreached table, R12).  Field 6 is read-only, 9 is behind a password.
EXAM = image(table(b'EXAM', line(string(b'1'), num(0x00, 5, 3), num(0x01, 200, 0)),
                   line(num(0x02, 0xAF, 1), num(0x03, -5, 7), num(0x04, -128, 2), dyn=8),
                   line(option(b'a', b'b', b'c', default=1, at=5), trigger(), comp(0x14, 6, b'\x0e\2\1\0\1a\1b', 0),
                        sub=1, pwd=b'12'),
                   line(num(0x05, 300, 10), counter(-5, 100, 10, 98, 3, 12)),
                   line(time(23, 59, 58, at=14), time(7, 8, at=17)),
                   line(date(2026, 11, 15, 19), date(99, 12, 31, 23, short=True), switch(9, 0x105, 26))),
             table(b'IN', line(B(9))), table(b'NO WAY', line(B(31))))
def exam(answers): return bytes.fromhex(answers + '2c01 6200 173b3a 0708 0f0bea07 1f0c63 05010000 eeee')
# Each field is once right, once wrong and once blank.  The points are powers of two: a sum says which questions it has.
ASKED = [(0, 7, 1), (1, 0xB0, 2), (2, 0x7F, 4), (3, 99, 8), (5, 2, 16), (6, 1, 32), (7, 0xFC, 64), (9, 42, 128)]
FIRST = exam('07 50 80 63 ee 00 00 fc ee 2b')
def numbers(*questions): return [n for question in questions for n in question]
marks(EXAM, ('each kind', FIRST, numbers(*ASKED), 1 + 8 + 64, 2 + 16 + 128, 4 + 32),
      ('each kind, second', exam('08 af 7f 0a ee 01 01 05 ee 00'), numbers(*ASKED), 4 + 32, 1 + 8 + 64, 2 + 16 + 128),
      ('each kind, third', exam('c8 b0 00 05 ee 02 02 fb ee 2a'), numbers(*ASKED), 2 + 16 + 128, 4 + 32, 1 + 8 + 64),
      ('key from the last to the first', FIRST, numbers(*ASKED[::-1]), 73, 146, 36),
      ('two questions of eight', FIRST, [9, 42, 7, 0, 7, 5], 5, 7, 0), ('no questions', FIRST, [], 0, 0, 0),
      ('0 points', FIRST, [0, 7, 0, 1, 0xB0, 0, 2, 0x7F, 0], 0, 0, 0),
      ('255 points', FIRST, [0, 7, 255, 1, 0xB0, 255, 2, 0x7F, 255], 255, 255, 255),
      ('right bytes 0 and 255', exam('00 ff 80 05 ee 01 00 fb ee 00'), [0, 0, 3, 1, 255, 5], 8, 0, 0),
      ('sheet of 30, the last field ends it', FIRST[:30], numbers(*ASKED), 73, 146, 36))
# R42: dd 100, items 3 and 255, sdd -100.
OUTSIDE, BEYOND = exam('c8 af 80 64 ee 03 ff 9c ee 00'), [3, 100, 8, 5, 3, 16, 6, 255, 32, 7, 0x9C, 64]
marks(EXAM, ('bytes out of range', OUTSIDE, numbers(*ASKED), 0, 8 + 16 + 32 + 64, 1 + 2 + 4 + 128),
      ('right bytes out of range', OUTSIDE, BEYOND, 8 + 16 + 32 + 64, 0, 0),
      ('right bytes out of range, wrong and blank', FIRST, BEYOND, 0, 8 + 16 + 64, 32))
marks(one(*[num(code, 5, code, 0) for code in range(5)], comp(0x14, 5, b'\x0e\2\1\0\1a\1b', 0)),
      ('read-only', b'\5\6\7\5\6\1', [0, 6, 1, 1, 6, 2, 2, 6, 4, 3, 6, 8, 4, 6, 16, 5, 1, 32], 2 + 16 + 32, 4, 1 + 8))
marks(one(X), ('no fields, sheet of 4097', bytes(4097), [], 0, 0, 0))
MANY, MOST = one(*BYTES), numbers(*[(place, 1, 255) for place in range(256)])   # 256 x 255 = 65280
marks(MANY, ('256 fields, right', b'\1' * 256, MOST, 65280, 0, 0),
      ('256 fields, by turns', bytes(place % 3 for place in range(256)), MOST, 85 * 255, 85 * 255, 86 * 255))
unmarked(MANY, bytes(256), ('257 questions', MOST + [0, 1, 255]))

# ---- Refusal 15 ------------------------------------------------------------------------------------------------------
unmarked(EXAM, FIRST, ('1 number', [0]), ('2 numbers', [0, 7]), ('4 numbers', [0, 7, 1, 1]),
         ('a place twice', [0, 7, 1, 0, 7, 1]), ('a place twice, the rest different', [0, 7, 1, 1, 0xB0, 2, 0, 8, 4]),
         ('right byte 256', [0, 256, 1]), ('right byte 7 + 256', [0, 263, 1]),
         ('right byte is the default', [0, 200, 1]), ('right byte is the default -5', [7, 0xFB, 1]),
         ('right byte -5 in two bytes', [7, 0xFFFB, 1]), ('256 points', [0, 7, 256]),
         ('the last of eight has 256 points', numbers(*ASKED[:-1], (9, 42, 256))))
for name, place in (
        ('no field', 4), ('an enable byte (R10)', 8), ('an unreached field (R12)', 31), ('the sheet end', 32),
        ('ddd, 256 too high', 256), ('ddd in the image', EXAM.comps[2]), ('DDD', 10), ('DDD, its second byte', 11),
        ('a counter', 12), ('time-long', 14), ('time-short', 17), ('date-long', 19), ('date-short', 23),
        ('a switch', 26), ('a switch, its last byte', 29)):
    unmarked(EXAM, FIRST, ('place of ' + name, [place, 9, 1]))
for name, code in ('DDDD', 0x06), ('DDDDD', 0x07), ('HHHH', 0x08), ('SDDD', 0x09), ('SDDDD', 0x0A):
    unmarked(one(num(code)), bytes(2), ('place of ' + name, [0, 9, 1]))
unmarked(one(trigger()), bytes(20), ('a trigger, place 0', [0, 9, 1]), ('a trigger, its image place', [14, 9, 1]))

# ---- 2 to 11 come before 15 (R40) ------------------------------------------------------------------------------------
for name, no, img, sheet in FAULTS:
    mark(f'{name}, 1 number', no, img, bytes(sheet), [0])
mark('9 bytes, no questions', 2, EXAM[:9], FIRST, [])
mark('29 February 2023 for a default, 1 number', 9, one(B(0), date(2023, 2, 29, 1)), bytes(5), [0])
