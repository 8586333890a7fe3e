"""Cases of what fits asks of shape and tables, and of the order of Draw's refusals."""
from visit_cases import *

# ---- Fits: shape -----------------------------------------------------------------------------------------------------
for columns, lines in (13, 4), (21, 4), (0, 4), (16, 1), (16, 5), (16, 0), (13, 2), (21, 2), (14, 1), (20, 5):
    refuses(f'shape {columns} x {lines}', 12, MENU, ZERO, shape=(columns, lines))
for columns, lines in (255, 4), (16, 255), (144, 2), (16, 130):
    refuses(f'shape {columns} x {lines}', 12, MENU, ZERO, shape=(columns, lines), length=64)
refuses('the closed session', 12, MENU, ZERO, shape=(0, 0), spare=0)

# ---- Fits: tables ----------------------------------------------------------------------------------------------------
# The top's lines 2 and 4 lead to one table, line 3 to another of the same bytes (R20a), line 5 to that below both.
SAME = line(string(b'x'), sub=3), line(string(b'y'))
PATHS = image(table(b'A', line(string(b'a')), line(string(b'b'), sub=1), line(string(b'c'), sub=2),
                    line(string(b'd'), sub=1), line(string(b'p'), sub=3, pwd=b'1')),
              table(b'B', *SAME), table(b'B', *SAME), table(b'C', line(string(b'z'))))
_, T1, T2, T3 = PATHS.tabs
AT_A, AT_B = ['A         * 1+', '>a            '], ['B         * 1+', '>x           >']
AT_C = ['C         * 1 ', '>z            ']
for name, found, *levels in (
        ('the top', AT_A, TOP), ('line 2 to its table', AT_B, (10, 1, 1), (T1, 0, 0)),
        ('line 3 to its table', AT_B, (10, 2, 2), (T2, 0, 0)), ('line 4 to that of 2', AT_B, (10, 3, 3), (T1, 0, 0)),
        ('three deep by line 2', AT_C, (10, 1, 1), (T1, 0, 0), (T3, 0, 0)),
        ('three deep by line 3', AT_C, (10, 2, 2), (T2, 0, 0), (T3, 0, 0)),
        ('protected, nothing typed', AT_C, (10, 4, 4), (T3, 0, 0))):
    draws('path, ' + name, PATHS, '', found, *levels)
for name, *levels in (
        ('first is a submenu', (T1, 0, 0)), ('first at 0', (0, 0, 0)), ('first at 9', (9, 0, 0)),
        ('first at 11', (11, 0, 0)), ('first at 65535', (65535, 0, 0)),
        ('first of two is a submenu', (T1, 0, 0), (T3, 0, 0)), ('line 2 to that of 3', (10, 1, 1), (T2, 0, 0)),
        ('line 3 to that of 2', (10, 2, 2), (T1, 0, 0)), ('line 1 has no submenu', TOP, (T1, 0, 0)),
        ('line 1 to the top', TOP, TOP), ('line 1 to place 0', TOP, (0, 0, 0)), ('line 2 to the top', (10, 1, 1), TOP),
        ('line 2 to a place behind', (10, 1, 1), (T1 + 1, 0, 0)), ('a table left out', (10, 1, 1), (T3, 0, 0)),
        ('second is not led to', (10, 1, 1), (T2, 0, 0), (T3, 0, 0)),
        ('third by a line without submenu', (10, 1, 1), (T1, 1, 1), (T3, 0, 0)),
        ('third of two', (10, 4, 4), (T3, 0, 0), (T3, 0, 0))):
    refuses('path, ' + name, 12, PATHS, '', *levels)
# A line without submenu: its component's bytes 95 00, read as an offset, would lead to the table at 10 + 0x95.
LURE = TINY.like(TINY.fill(159) + bytes.fromhex('000003950178'))
refuses('path, by bytes of a component', 12, LURE, '', TOP, (159, 0, 0))
INSIDE = one(string(b'\0\x03\x95\0'), sub=0, dsub=8)                    # its submenu stands inside the string
draws('path, into a string', INSIDE, '', ['          * 1 ', '>             '], TOP, (18, 0, 0))
draws('path, to the end of 32768 bytes', FAR, '00', ['U         : 1 ', '>off          '], TOP, (FAR.tabs[1], 0, 0))
draws('path, behind all line options', ALL, '', ['          * 1 ', '>x            '], (10, 1, 1), (ALL.tabs[1], 0, 0))
EIGHT = image(*[table(b'T%d' % i, line(X, sub=i)) for i in range(1, 8)], table(b'T8', line(B(0))))
DOWN8 = [(place, 0, 0) for place in EIGHT.tabs]
draws('7 tables', EIGHT, '07', ['T7        * 1 ', '>x           >'], *DOWN8[:7])
draws('8 tables', EIGHT, '07', ['T8        : 1 ', '>007          '], *DOWN8)
draws('8 tables, visit', EIGHT, '07', ['T8        : 1 ', '>300          '], *DOWN8,
      visit=EIGHT.comps[7], cells=(3, 0, 0), cursor='1,1')
for outer in 8, 9, 255:
    refuses(f'{outer + 1} tables', 12, EIGHT, '07', *DOWN8, outer=outer)
for name, outer, *levels in (
        ('8 counted as 7', 6, *DOWN8), ('7 counted as 8', 7, *DOWN8[:7]), ('2 counted as 1', 0, *DOWN8[:2]),
        ('1 counted as 2', 1, TOP), ('the fifth for the fourth', 7, *DOWN8[:3], DOWN8[4], *DOWN8[4:])):
    refuses('tables, ' + name, 12, EIGHT, '07', *levels, outer=outer)

# ---- Fits: cursor line and first shown line --------------------------------------------------------------------------
FIVE = labels(5)
for cursor, first, *found in (
        (4, 4, 'N         * 5!', '>L5           ', B14, B14),
        (4, 2, 'N         * 5!', ' L3           ', ' L4           ', '>L5           '),
        (3, 1, 'N         * 4+', ' L2           ', ' L3           ', '>L4           '),
        (2, 2, 'N         * 3+', '>L3           ', ' L4           ', ' L5           '),
        (1, 0, 'N         * 2+', ' L1           ', '>L2           '), (1, 1, 'N         * 2+', '>L2           ')):
    draws(f'window, cursor {cursor}, first {first}, {len(found)} rows', FIVE, '', found, (10, cursor, first))
for cursor, first, lines in (
        (5, 3, 4), (5, 5, 4), (4, 1, 4), (3, 0, 4), (2, 3, 4), (0, 1, 4), (4, 5, 4), (0, 255, 4), (255, 255, 4),
        (255, 253, 4), (2, 0, 3), (1, 2, 3), (1, 0, 2), (0, 1, 2), (5, 5, 2), (4, 3, 2)):
    refuses(f'window, cursor {cursor}, first {first}, {lines} rows', 12, FIVE, '', (10, cursor, first),
            shape=(14, lines))
for cursor in 99, 100, 255:
    refuses(f'window, cursor {cursor} of 99 lines', 12, labels(99), '', (10, cursor, cursor))
draws('window above, the second row', PATHS, '', ['B         * 1 ', '>x           >', ' y            '],
      (10, 1, 0), (T1, 0, 0))
draws('window above, the third row', PATHS, '', ['B         * 2 ', ' x           >', '>y            ', B14],
      (10, 2, 0), (T2, 1, 0))
for name, lines, *levels in (
        ('below one row', 2, (10, 1, 0), (T1, 0, 0)), ('below two rows', 3, (10, 2, 0), (T2, 0, 0)),
        ('below three rows', 4, (10, 3, 0), (T1, 0, 0)), ('above the first', 2, (10, 1, 2), (T1, 0, 0)),
        ('past the last', 2, (10, 5, 5), (T1, 0, 0)), ('second, past the last', 2, (10, 1, 1), (T1, 2, 2), (T3, 0, 0)),
        ('second, below the row', 2, (10, 1, 1), (T1, 1, 0)),
        ('second, above the first', 2, (10, 1, 1), (T1, 0, 1), (T3, 0, 0))):
    refuses('window above, ' + name, 12, PATHS, '', *levels, shape=(14, lines))

# ---- Draw: the order of refusals: 2 to 11, then 12, then 1 (R20) -----------------------------------------------------
for name, no, img, sheet in (
        ('9 bytes', 2, MENU[:9], ZERO), ('byte 0 wrong', 3, MENU.put(0, 0), ZERO),
        ('version wrong', 4, MENU.put(4, 5), ZERO), ('mark wrong', 5, MENU.put(9, 0), ZERO),
        ('last option cut', 6, MENU.upto(Z + 5), ZERO),
        ('code 18', 7, one(b'\x18'), ''), ('depth 9', 8, NINE, ''), ('bad settings', 9, one(BAD9), '00'),
        ('no sheet', 10, MENU, ''), ('sheet of 3', 10, MENU, '000000'), ('sheet of 4097', 10, MENU, bytes(4097)),
        ('fields overlap', 11, one(B(0), B(0)), '00')):
    refuses(name, no, img, sheet)
    refuses(f'{name}, picture of 5', no, img, sheet, length=5)
    refuses(f'{name}, no such shape, no picture', no, img, sheet, shape=(0, 0))
    refuses(f'{name}, no such visit, picture of 27', no, img, sheet, visit=0, length=27)
refuses('29 February 2023 for a default', 9, one(date(2023, 2, 29)), '1c02e707')
for length in 0, 27, 29, 64:
    refuses(f'no such visit, picture of {length}', 12, MENU, ZERO, visit=0, length=length)
    refuses(f'no such shape, picture of {length}', 12, MENU, ZERO, shape=(13, 2), length=length)
for shape, lengths in ((14, 2), (0, 1, 27, 29, 255)), ((16, 4), (0, 20, 63, 65, 80)), ((20, 4), (0, 64, 79, 81)):
    for length in lengths:
        refuses(f'picture of {length} for {shape[0]} x {shape[1]}', 1, MENU, ZERO, shape=shape, length=length)
refuses('picture of 63 in a visit', 1, MENU, ZERO, shape=(16, 4), length=63, visit=P1, cells=[1])
refuses('picture of 65 in an entry', 1, LOCKS, 'c8', (10, 2, 2), shape=(16, 4), length=65, typed=(1,))
