"""Cases of Event on a given session: one event, with the sheet and the session that it leaves."""
from menu_cases import *

def steps(name, img, sheet, word, *levels, after=None, shape=(14, 2), then=(), **of):
    """The word has one key.  `after` is the sheet afterwards, and `then` what the session handed back has anew; without
    them both are handed back as given."""
    (event, *_), (answer, *_) = played(img, word)
    back = {'levels': levels or (TOP,), **of, **dict(then)}
    check('step, ' + name, answer, img, len(bytes.fromhex(sheet)), 6,
          answer=f' {bytes.fromhex(sheet if after is None else after).hex()} {session(*shape, **back).hex()}',
          tail=bytes.fromhex(sheet) + u16(event) + session(*shape, levels or (TOP,), **of))

# ---- Refused: the session and the sheet as they were given (R21) -----------------------------------------------------
for word in 'Xr13', 'Yr13':
    steps(f'{word} browsing', MENU, ZERO, word, (10, 1, 1), idle=7)
    steps(f'{word} in a visit', MENU, '00ff00ff', word, visit=P1, cells=[1], idle=7)
    steps(f'{word} in an entry', LOCKS, 'c8', word, (10, 2, 2), typed=(1,), idle=255)
for word in 'Er12', 'Sr12', 'Xr12', 'Yr12':     # 12 comes before 13
    steps(f'{word}, the closed session', MENU, ZERO, word, shape=(0, 0), spare=0)
    steps(f'{word}, a submenu of another image', MENU, ZERO, word, (10, 2, 1), (FORM.tabs[1], 1, 0), idle=3)
    steps(f'{word}, a visit of another image', MENU, ZERO, word, visit=KEY, cells=(1, 2, 3), idle=3)
    steps(f'{word}, an entry of another image', MENU, ZERO, word, (10, 1, 1), typed=(1,), idle=3)
SPRING, APRIL_31 = one(date(2024, 5, 6)), {'visit': 14, 'cells': (2024, 4, 31), 'at': 2}
for name, img, sheet, word, levels, of in (
        ('line 3 of 2', MENU, ZERO, 'Ur12', [(10, 2, 2)], {}),
        ('a table not led to', PATHS, '', 'Lr12', [(10, 1, 1), (T2, 0, 0)], {}),
        ('shape 13 x 2', MENU, ZERO, 'Dr12', [TOP], {'shape': (13, 2)}),
        ('a visit of cell 2 of 2', one(num(0)), '00', 'Lr12', [TOP], {'visit': 14, 'cells': (1, 2), 'at': 2}),
        ('a visit of 10', one(num(0)), '00', 'Dr12', [TOP], {'visit': 14, 'cells': (10, 2)}),
        ('a full entry', LOCKS, 'c8', 'Lr12', [(10, 2, 2)], {'typed': (1, 2)}),
        # R49: also where the key would make the date real
        ('31 April in the day part, DOWN', SPRING, '0605e807', 'Dr12', [TOP], APRIL_31),
        ('31 April in the day part, ENTER', SPRING, '0605e807', 'Er12', [TOP], APRIL_31),
        ('31 April in the day part, a second', SPRING, '0605e807', 'Sr12', [TOP], APRIL_31)):
    steps('no fit, ' + name, img, sheet, word, *levels, **of)
for name, no, img, sheet in FAULTS:             # 2 to 11 come before both
    steps(f'{name}, no such visit, event 17', img, '00' * sheet, f'Xr{no}', visit=0, idle=9)
    steps(f'{name}, the top, a second', img, '00' * sheet, f'Sr{no}', idle=9)
steps('sheet of 4097, ENTER', MENU, '00' * 4097, 'Er10')
steps('31 April for a default, ENTER', one(date(2024, 4, 31)), '1e04e807', 'Er9')

# ---- The window moves only as far as needed, also one that is not full (R20b, R23) -----------------------------------
for lines, cursor, first, word, *then in (
        (4, 4, 4, 'Ut', 3, 3), (4, 4, 2, 'Ut', 3, 2), (4, 2, 2, 'Ut', 1, 1), (4, 2, 0, 'Ut', 1, 0),
        (4, 2, 2, 'Dt', 3, 2), (4, 3, 1, 'Dt', 4, 2), (4, 3, 3, 'Dt', 4, 3), (4, 4, 4, 'Df', 4, 4),
        (4, 0, 0, 'Uf', 0, 0), (3, 1, 1, 'Dt', 2, 1), (3, 2, 1, 'Dt', 3, 2), (2, 1, 1, 'Dt', 2, 2),
        (2, 1, 1, 'Ut', 0, 0)):
    steps(f'window, {lines} rows, {word} on {cursor} from {first}', FIVE, '', word, (10, cursor, first),
          shape=(14, lines), then=dict(levels=[(10, *then)]))

# ---- The idle count --------------------------------------------------------------------------------------------------
def idles(img, sheet, level, *cases):           # (name, word, what the session has, what the next one has anew)
    for name, word, of, then in cases:
        steps('idle, ' + name, img, sheet, word, level, then=then, **of)
idles(MENU, ZERO, TOP,
      ('a second, 0', 'St', {}, dict(idle=1)), ('a second, 254', 'St', dict(idle=254), dict(idle=255)),
      ('a second, 255', 'St', dict(idle=255), {}), ('a flash, 200 (R21)', '5f', dict(idle=200), dict(idle=0)),
      ('DOWN, 255', 'Dt', dict(idle=255), dict(idle=0, levels=[(10, 1, 1)])),
      ('a second in a visit, 0', 'St', dict(visit=P1, cells=[1]), {}),
      ('a second in a visit, 255', 'St', dict(visit=P1, cells=[1], idle=255), {}),
      ('RIGHT in a visit, 9', 'Rt', dict(visit=P1, cells=[0], idle=9), dict(cells=[1], idle=0)),
      ('a flash in a visit, 9 (R21)', 'Rf', dict(visit=P1, cells=[1], idle=9), dict(idle=0)))
idles(FORM, '00' * 9, TOP, ('firing, 9', 'L!3', dict(visit=FIRE, idle=9), dict(idle=0)),
      ('a flash on a trigger, 9 (R21)', '5f', dict(visit=FIRE, idle=9), dict(idle=0)))
idles(LOCKS, 'c8', (10, 4, 4),
      ('a second in an entry, 0', 'St', dict(typed=(1,)), dict(idle=1)),
      ('a second in an entry, 255', 'St', dict(typed=(1,), idle=255), {}),
      ('a digit in an entry, 9', '2t', dict(typed=(1,), idle=9), dict(typed=(1, 2), idle=0)),
      ('a wrong digit in an entry, 9', '0t', dict(typed=(1,), idle=9), dict(typed=(1, 0), idle=0)),
      ('a flash in an entry, 9 (R21)', 'Ef', dict(typed=(1,), idle=9), dict(idle=0)),
      ('RIGHT begins an entry, 9 (R24)', 'Rt', dict(idle=9), dict(typed=(), idle=0)),
      ('LEFT ends an entry, 9 (R24)', 'Lt', dict(typed=(), idle=9), dict(typed=None, idle=0)))
idles(timed(3, 0), '0000', (10, 2, 2),
      ('not yet to the top, 1 of 3', 'St', dict(idle=1), dict(idle=2)),
      ('to the top, 2 of 3 (R25)', 'St', dict(idle=2), dict(levels=[TOP], idle=3)),
      ('to the top, 3 of 3 (R25)', 'St', dict(idle=3), dict(levels=[TOP], idle=4)),
      ('to the top, 255 of 3 (R25)', 'St', dict(idle=255), dict(levels=[TOP])),
      ('no way to the top in an entry', 'St', dict(typed=(1,), idle=2), dict(idle=3)))
idles(timed(3, 2), '0000', (10, 2, 2),          # component 3 is the field of line 3
      ('a second in a visit, 2 of 3', 'St', dict(visit=timed(3, 2).comps[3], cells=(3, 0, 0), at=1, idle=2), {}),
      ('not yet out of an entry', 'St', dict(typed=(), idle=0), dict(idle=1)),
      ('out of an entry, 1 of 2 (R25)', 'St', dict(typed=(), idle=1), dict(typed=None, idle=2)),
      ('out of an entry, 2 of 2 (R25)', 'St', dict(typed=(), idle=2), dict(typed=None, idle=3)),
      ('out of an entry, 255 of 2 (R25)', 'St', dict(typed=(), idle=255), dict(typed=None)))

# ---- A visit starts from the field's bytes, or from the default where they are out of range (R27) --------------------
def starts(kind, c, cases):
    for sheet, cells in cases.items():
        steps(f'ENTER on {kind} of {sheet}', one(c), sheet, 'Et', idle=3,
              then=dict(visit=14, cells=[*cells, *[0] * 32], idle=0))
starts('dd', num(0x00, 42), {'07': (0, 7), '63': (9, 9), '64': (4, 2), 'ff': (4, 2)})
starts('ddd', num(0x01, 7), {'ff': (2, 5, 5), '00': (0, 0, 0)})
starts('hh', num(0x02, 7), {'af': (10, 15)})
starts('sdd', num(0x03, -5), {'00': (1, 0, 0), '9d': (0, 9, 9), '63': (1, 9, 9), '64': (0, 0, 5), '9c': (0, 0, 5)})
starts('sddd', num(0x04, 0), {'80': (0, 1, 2, 8), '7f': (1, 1, 2, 7)})
starts('DDD', num(0x05, 300), {'e703': (9, 9, 9), 'e803': (3, 0, 0)})
starts('DDDD', num(0x06, 1), {'0f27': (9, 9, 9, 9), '1027': (0, 0, 0, 1)})
starts('DDDDD', num(0x07), {'ffff': (6, 5, 5, 3, 5)})
starts('HHHH', num(0x08), {'efbe': (11, 14, 14, 15)})
starts('SDDD', num(0x09, -300), {'19fc': (0, 9, 9, 9), '18fc': (0, 3, 0, 0), 'e803': (0, 3, 0, 0)})
starts('SDDDD', num(0x0A, 42), {'d6ff': (0, 0, 0, 4, 2), '1027': (1, 0, 0, 4, 2)})
starts('a counter', counter(-5, 100, 10, 98, 3),
       {'fbff': (32763,), '0d00': (32781,), '6500': (32866,), 'faff': (32866,)})
starts('time-long', time(1, 2, 3),
       {'173b3a': (23, 59, 58), '180000': (1, 2, 3), '003c00': (1, 2, 3), '00003c': (1, 2, 3)})
starts('time-short', time(1, 2), {'0708': (7, 8), '1800': (1, 2), '003c': (1, 2)})
starts('date-long', date(2024, 5, 6),
       {'0f0bea07': (2026, 11, 15), '00000000': (2024, 5, 6), '01011027': (2024, 5, 6),
        # 02 No. 3: 31 February 2024, 29 February 2023 and 2024
        '1f02e807': (2024, 5, 6), '1d02e707': (2024, 5, 6), '1d02e807': (2024, 2, 29)})
starts('date-short', date(24, 5, 6, short=True),
       {'1f0c63': (99, 12, 31), '010164': (24, 5, 6), '1f0418': (24, 5, 6), '1d0200': (0, 2, 29)})
starts('a switch', switch(5, 0x16),
       {'01000000': (0, 0, 0, 0, 1), '20000000': (1, 0, 1, 1, 0), '01000080': (1, 0, 1, 1, 0)})
starts('an option', option(*MAYBE, default=1), {'03': (3,), '04': (1,), 'ff': (1,)})

# ---- The working copy of a date: its day is lowered on ENTER from the month (02 No. 3, R50) --------------------------
NAMED, PART = {'U': 'UP', 'D': 'DOWN', 'E': 'ENTER', 'S': 'a second'}, ('year', 'month', 'day')
def dates(kind, c, sheet, *cases):              # year, month, day and the chosen part; then those handed back
    for word, *cells, at, then in cases:
        steps(f'{kind}, {NAMED[word[0]]} on {"-".join(map(str, cells))} in the {PART[at]}', one(c), sheet, word,
              visit=14, cells=cells, at=at, then=dict(cells=then[:3], at=then[3]))
dates('date-long', date(2024, 5, 6), '0605e807',
      ('Ut', 2024, 2, 29, 0, (2025, 2, 29, 0)), ('Uf', 9999, 2, 30, 0, (9999, 2, 30, 0)),
      ('Et', 2023, 2, 31, 0, (2023, 2, 31, 1)), ('Dt', 2024, 3, 31, 1, (2024, 2, 31, 1)),
      ('St', 2024, 2, 31, 1, (2024, 2, 31, 1)), ('Et', 2024, 2, 31, 1, (2024, 2, 29, 2)),
      ('Et', 2023, 2, 29, 1, (2023, 2, 28, 2)), ('Et', 0, 2, 30, 1, (0, 2, 29, 2)),
      ('Et', 2024, 11, 31, 1, (2024, 11, 30, 2)), ('Et', 2024, 4, 30, 1, (2024, 4, 30, 2)),
      ('Et', 2024, 2, 1, 1, (2024, 2, 1, 2)), ('Ut', 2024, 2, 28, 2, (2024, 2, 29, 2)),
      ('Uf', 2023, 2, 28, 2, (2023, 2, 28, 2)))
dates('date-short', date(24, 5, 6, short=True), '060518',               # R51
      ('Et', 0, 2, 31, 1, (0, 2, 29, 2)), ('Et', 99, 2, 31, 1, (99, 2, 28, 2)))
steps('ENTER opens a date that is not real', TWO, '060518 1f0218', 'Ed0', after='1d0218 1f0218', visit=14,
      cells=(24, 2, 29), at=2, then=dict(visit=TWO.comps[2], cells=[24, 5, 6, *[0] * 29], at=0))

# ---- The last ENTER stores the cells in the field's bytes, and in no other -------------------------------------------
# The field stands at sheet place 1.  The session keeps the cells of the visit that is over, and the chosen one, which
# is given as the spare byte too.
for kind, c, cells, at, before, stored in (
        ('dd', num(0x00, 42, 1), (0, 7), 0, 'ff', '07'), ('ddd', num(0x01, 7, 1), (2, 5, 5), 2, '00', 'ff'),
        ('hh', num(0x02, 0, 1), (10, 15), 1, '00', 'af'), ('sdd', num(0x03, 0, 1), (0, 9, 9), 0, '80', '9d'),
        ('sdd, minus zero', num(0x03, 5, 1), (0, 0, 0), 0, 'fb', '00'),
        ('SDDD, minus zero', num(0x09, 5, 1), (0, 0, 0, 0), 3, 'd4fe', '0000'),
        ('DDDDD', num(0x07, 0, 1), (6, 5, 5, 3, 5), 4, '0000', 'ffff'),
        ('a counter', counter(-5, 100, 10, 98, 3, 1), (32763,), 0, '6500', 'fbff'),
        ('time-long', time(1, 2, 3, at=1), (23, 59, 58), 2, '180000', '173b3a'),
        ('time-short', time(1, 2, at=1), (7, 8), 1, 'ffff', '0708'),
        ('date-long', date(1, 1, 1, 1), (2026, 11, 15), 2, '00000000', '0f0bea07'),
        ('29 February', date(2024, 5, 6, 1), (2024, 2, 29), 2, '1f02e807', '1d02e807'),
        ('date-short', date(1, 1, 1, 1, short=True), (99, 12, 31), 2, '000000', '1f0c63'),
        ('a switch of 9', switch(9, 0, 1), (1, 0, 0, 0, 0, 0, 1, 0, 1), 8, 'ffffffff', '05010000'),
        ('an option', option(*MAYBE, at=1), (3,), 0, 'ff', '03')):
    steps(f'ENTER stores {kind}', one(c), f'a1 {before} b2', 'Ed0', after=f'a1 {stored} b2',
          visit=14, cells=cells, at=at, spare=at, then=dict(visit=None))
for kind, code, cells, at, sheet in (
        ('ddd, 256', 0x01, (2, 5, 6), 2, '07'), ('ddd, 999', 0x01, (9, 9, 9), 0, '07'),
        ('sddd, +128', 0x04, (1, 1, 2, 8), 0, '80'), ('sddd, -129', 0x04, (0, 1, 2, 9), 3, '80'),
        ('DDDDD, 65536', 0x07, (6, 5, 5, 3, 6), 1, '0000'), ('DDDDD, 99999', 0x07, (9, 9, 9, 9, 9), 4, 'ffff')):
    steps(f'ENTER flashes on {kind} (R29)', one(num(code)), sheet, 'Ef', visit=14, cells=cells, at=at, idle=5,
          then=dict(idle=0))
