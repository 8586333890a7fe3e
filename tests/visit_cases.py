"""Cases of Draw in a visit and in a password entry, and of what fits asks of them."""
from picture_cases import *

# ---- Draw and fits: visits -------------------------------------------------------------------------------------------
# For each kind: the cells and the chosen one of sessions that fit, with the row and the edit cursor's column (R31,
# R32); then those of sessions that do not: a cell past an end, or a chosen one that the kind hasn't.
def visits(kind, c, sheet, fit, unfit):
    img = one(string(b'ab'), c, string(b'|'))
    def name(cells, at): return f'visit, {kind}, {" ".join(map(str, cells))} at {at}'
    for *cells, at, row, column in fit:
        draws(name(cells, at), img, sheet, [T14, row], cursor=f'1,{column}', visit=img.comps[1], cells=cells, at=at)
    for *cells, at in unfit:
        refuses(name(cells, at), 12, img, sheet, visit=img.comps[1], cells=cells, at=at)
HUGE = 0xFFFFFFFF
visits('dd', num(0x00), '64',
       [(0, 0, 0, '>ab00|        ', 3), (4, 2, 1, '>ab42|        ', 4), (9, 9, 1, '>ab99|        ', 4)],
       [(9, 9, 2), (9, 9, 255), (10, 0, 0), (0, 10, 0), (256, 0, 0), (0, HUGE, 1)])
visits('ddd', num(0x01), '07',
       [(3, 0, 0, 0, '>ab300|       ', 3), (3, 0, 0, 1, '>ab300|       ', 4), (9, 9, 9, 2, '>ab999|       ', 5)],
       [(9, 9, 9, 3), (10, 0, 0, 0), (0, 10, 0, 2), (0, 0, 10, 0)])
visits('hh', num(0x02), '00',
       [(10, 15, 0, '>abAF|        ', 3), (11, 12, 1, '>abBC|        ', 4), (13, 14, 1, '>abDE|        ', 4),
        (15, 9, 0, '>abF9|        ', 3)], [(15, 15, 2), (16, 0, 0), (0, 16, 0)])
visits('sdd', num(0x03), '64',
       [(0, 0, 0, 0, '>ab-00|       ', 3), (0, 1, 2, 1, '>ab-12|       ', 4), (1, 9, 9, 2, '>ab+99|       ', 5)],
       [(1, 9, 9, 3), (2, 0, 0, 0), (1, 10, 0, 0), (1, 0, 10, 0), (HUGE, 0, 0, 1)])
visits('sddd', num(0x04), '80', [(0, 9, 9, 9, 3, '>ab-999|      ', 6), (1, 1, 2, 8, 0, '>ab+128|      ', 3)],
       [(1, 0, 0, 0, 4), (2, 0, 0, 0, 0), (1, 10, 0, 0, 0), (1, 0, 0, 10, 0)])
visits('DDD', num(0x05), 'ffff', [(1, 2, 3, 0, '>ab123|       ', 3), (9, 9, 9, 2, '>ab999|       ', 5)],
       [(9, 9, 9, 3), (10, 0, 0, 0), (0, 0, 10, 0)])
visits('DDDD', num(0x06), '1027', [(1, 2, 3, 4, 2, '>ab1234|      ', 5), (9, 9, 9, 9, 3, '>ab9999|      ', 6)],
       [(9, 9, 9, 9, 4), (10, 0, 0, 0, 0), (0, 0, 0, 10, 0)])
visits('DDDDD', num(0x07), '0000', [(6, 5, 5, 3, 6, 3, '>ab65536|     ', 6), (9, 9, 9, 9, 9, 4, '>ab99999|     ', 7)],
       [(9, 9, 9, 9, 9, 5), (10, 0, 0, 0, 0, 0), (0, 0, 0, 0, 10, 0)])
visits('HHHH', num(0x08), '0000', [(12, 0, 13, 14, 2, '>abC0DE|      ', 5), (15, 15, 15, 15, 3, '>abFFFF|      ', 6)],
       [(15, 15, 15, 15, 4), (16, 0, 0, 0, 0), (0, 0, 0, 16, 0)])
visits('SDDD', num(0x09), '0080', [(0, 0, 0, 1, 1, '>ab-001|      ', 4), (1, 9, 9, 9, 3, '>ab+999|      ', 6)],
       [(0, 9, 9, 9, 4), (2, 0, 0, 0, 0), (0, 10, 0, 0, 0), (0, 0, 0, 10, 0)])
visits('SDDDD', num(0x0A), 'ff7f', [(0, 9, 9, 9, 9, 0, '>ab-9999|     ', 3), (1, 0, 0, 0, 7, 4, '>ab+0007|     ', 7)],
       [(1, 0, 0, 0, 7, 5), (2, 0, 0, 0, 0, 0), (1, 0, 0, 0, 10, 0)])
visits('counter -5..100', counter(-5, 100, 10, 98, 3), 'ff7f',          # a counter's cell has 32768 added
       [(32763, 0, '>ab -5|       ', 5), (32768, 0, '>ab  0|       ', 5), (32781, 0, '>ab 13|       ', 5),
        (32868, 0, '>ab100|       ', 5)], [(32768, 1), (32762, 0), (32869, 0), (0, 0), (65536, 0), (98304, 0)])
visits('counter width 6', counter(-5, 100, 10, 98, 6), '6200', [(32763, 0, '>ab    -5|    ', 8)], [(32762, 0)])
visits('counter of all', counter(-32768, 32767, 10, 0, 6), '0000',
       [(0, 0, '>ab-32768|    ', 8), (65535, 0, '>ab 32767|    ', 8)], [(65536, 0), (HUGE, 0), (0, 1)])
visits('time-long', time(1, 2, 3), '180000',
       [(0, 0, 0, 0, '>ab00:00:00|  ', 3), (23, 59, 58, 1, '>ab23:59:58|  ', 6), (23, 59, 59, 2, '>ab23:59:59|  ', 9)],
       [(23, 59, 59, 3), (24, 0, 0, 0), (0, 60, 0, 0), (0, 0, 60, 0), (256, 0, 0, 0)])
visits('time-short', time(1, 2), '003c', [(7, 8, 0, '>ab07:08|     ', 3), (23, 59, 1, '>ab23:59|     ', 6)],
       [(23, 59, 2), (24, 0, 0), (0, 60, 0)])
visits('date-long', date(2024, 5, 6), '00000000',
       [(0, 1, 1, 0, '>ab0000-01-01 ', 3), (2026, 11, 15, 1, '>ab2026-11-15 ', 8),
        (9999, 12, 31, 2, '>ab9999-12-31 ', 11)],
       [(9999, 12, 31, 3), (10000, 1, 1, 0), (65536, 1, 1, 0), (0, 0, 1, 0), (0, 13, 1, 0), (0, 1, 0, 0),
        (0, 1, 32, 0)])
visits('date-short', date(24, 5, 6, short=True), '000000',
       [(0, 1, 1, 0, '>ab00-01-01|  ', 3), (26, 11, 15, 1, '>ab26-11-15|  ', 6), (99, 12, 31, 2, '>ab99-12-31|  ', 9)],
       [(99, 12, 31, 3), (100, 1, 1, 0), (0, 0, 1, 0), (0, 13, 1, 0), (0, 1, 0, 0), (0, 1, 32, 0)])
# R49: in the year and month parts the day is 1 to 31, real or not; in the day part the date is real.  What is out of
# range is so in every part.
visits('date-long', date(2024, 5, 6), '00000000',
       [(2024, 4, 31, 0, '>ab2024-04-31 ', 3), (2024, 4, 31, 1, '>ab2024-04-31 ', 8),
        (2023, 2, 29, 0, '>ab2023-02-29 ', 3), (2023, 2, 31, 1, '>ab2023-02-31 ', 8),
        (2024, 4, 30, 2, '>ab2024-04-30 ', 11), (2024, 2, 29, 2, '>ab2024-02-29 ', 11),
        (2000, 2, 29, 2, '>ab2000-02-29 ', 11), (0, 2, 29, 2, '>ab0000-02-29 ', 11)],
       [(2024, 4, 31, 2), (2024, 2, 30, 2), (2026, 2, 29, 2), (1900, 2, 29, 2), (2100, 2, 29, 2), (0, 1, 0, 1),
        (0, 1, 0, 2), (0, 1, 32, 1), (0, 1, 32, 2), (0, 1, 257, 2), (0, 13, 1, 1), (0, 13, 1, 2), (10000, 1, 1, 1),
        (10000, 1, 1, 2)])
visits('date-short', date(24, 5, 6, short=True), '000000',
       [(24, 4, 31, 0, '>ab24-04-31|  ', 3), (24, 4, 31, 1, '>ab24-04-31|  ', 6), (24, 4, 30, 2, '>ab24-04-30|  ', 9),
        (0, 2, 29, 2, '>ab00-02-29|  ', 9)],
       [(24, 4, 31, 2), (1, 2, 29, 2), (99, 2, 29, 2), (0, 1, 32, 2), (100, 1, 1, 2)])
TWO = one(date(24, 5, 6, short=True), string(b' '), date(24, 5, 6, 3, short=True))
draws('two dates not real', TWO, '1f0218 1f0418', [T20, '>######## ########  '])
draws('two dates not real, a visit of one', TWO, '1f0218 1f0418', [T20, '>######## 24-02-31  '],
      visit=TWO.comps[2], cells=(24, 2, 31), at=1, cursor='1,13')
visits('switch of 1', switch(1), '02000000', [(0, 0, '>ab0|         ', 3), (1, 0, '>ab1|         ', 3)],
       [(1, 1), (2, 0)])
visits('switch of 5', switch(5), '00000000',
       [(1, 0, 1, 1, 0, 0, '>ab10110|     ', 3), (0, 0, 1, 1, 1, 2, '>ab00111|     ', 5),
        (1, 1, 1, 1, 1, 4, '>ab11111|     ', 7)], [(1, 1, 1, 1, 1, 5), (2, 0, 0, 0, 0, 0), (0, 0, 0, 0, 2, 0)])
visits('option of 4', option(*MAYBE), 'ff',
       [(0, 0, '>abno     |   ', 3), (2, 0, '>ab       |   ', 3), (3, 0, '>abperhaps|   ', 3)],
       [(3, 1), (4, 0), (256, 0)])
visits('option of empty items', option(*BLANK), '00', [(0, 0, '>ab|          ', 3), (1, 0, '>ab|          ', 3)],
       [(2, 0), (0, 1)])
visits('trigger', trigger(), '', [(0, '>ab[*]|       ', 4), (HUGE, 0, '>ab[*]|       ', 4)], [(1,), (255,)])
visits('trigger read-only', trigger(0), '', [(0, '>ab[*]|       ', 4)], [(1,)])
WIDE = one(switch(32))
for name, cells, at in ('chosen 32', [1] * 32, 32), ('a last 2', [1] * 31 + [2], 0), ('a first 2', [2] + [1] * 31, 31):
    refuses('visit, switch of 32, ' + name, 12, WIDE, ZERO, visit=14, cells=cells, at=at)

# The edit cursor behind each kind, and beyond the data cells, where it stands on the last of them (R31).
def behind(kind, c, row, column):
    img = one(c, num(1, at=8))
    draws('cursor behind ' + kind, img, bytes(9), [T14, row], cursor=f'1,{column}', visit=img.comps[1], cells=(3, 0, 0))
for code, row, column in (
        (0, '>00300        ', 3), (1, '>000300       ', 4), (2, '>00300        ', 3), (3, '>+00300       ', 4),
        (4, '>+000300      ', 5), (5, '>000300       ', 4), (6, '>0000300      ', 5), (7, '>00000300     ', 6),
        (8, '>0000300      ', 5), (9, '>+000300      ', 5), (10, '>+0000300     ', 6)):
    behind(f'integer {code:02x}', num(code), row, column)
behind('a counter', counter(0, 9, 1, 0, 4), '>   0300      ', 5)
behind('time-long', time(0, 0, 0), '>00:00:00300  ', 9)
behind('time-short', time(0, 0), '>00:00300     ', 6)
behind('date-long', date(0, 1, 1), '>##########30 ', 11)
behind('date-short', date(0, 1, 1, short=True), '>########300  ', 9)
behind('a switch', switch(5), '>00000300     ', 6)
behind('an option', option(*MAYBE), '>no     300   ', 8)
behind('an option of empty items', option(*BLANK), '>300          ', 1)
behind('a trigger', trigger(), '>[*]300       ', 4)
behind('a string', string(b'ABC'), '>ABC300       ', 4)
behind('an empty string', string(b''), '>300          ', 1)
behind('a counter 255 wide', counter(0, 9, 1, 0, 255), '>             ', 12)
DATE, TURNS = (2026, 11, 15), [1, 0] * 16
for name, comps, cells, at, found, column in (  # a visit of the last component
        ('before the last cell', [letters(10), num(1)], (3, 0, 0), 0, [T14, '>ABCDEFGHIJ30 '], 11),
        ('at the last cell', [letters(10), num(1)], (3, 0, 0), 1, [T14, '>ABCDEFGHIJ30 '], 12),
        ('behind the last cell', [letters(10), num(1)], (3, 0, 0), 2, [T14, '>ABCDEFGHIJ30 '], 12),
        ('of a field beyond', [letters(12), num(1)], (3, 0, 0), 0, [T14, '>ABCDEFGHIJKL '], 12),
        ('256 cells along', [string(b'x' * 128)] * 2 + [num(1)], (3, 0, 0), 0, [T14, '>xxxxxxxxxxxx '], 12),
        ('300 cells along', [X] * 300 + [num(1)], (3, 0, 0), 2, [T14, '>xxxxxxxxxxxx '], 12),
        ('of a counter 12 wide', [counter(0, 9, 1, 0, 12)], (32775,), 0, [T14, '>           7 '], 12),
        ('of a counter 13 wide', [counter(0, 9, 1, 0, 13)], (32775,), 0, [T14, '>             '], 12),
        ('of a counter 255 wide', [counter(0, 9, 1, 0, 255)], (32775,), 0, [T14, '>             '], 12),
        ('of a trigger behind 9', [letters(9), trigger()], (), 0, [T14, '>ABCDEFGHI[*] '], 11),
        ('of a trigger behind 10', [letters(10), trigger()], (), 0, [T14, '>ABCDEFGHIJ[* '], 12),
        ('of a trigger behind 11', [letters(11), trigger()], (), 0, [T14, '>ABCDEFGHIJK[ '], 12),
        ('of an option behind 11', [letters(11), option(*MAYBE)], (3,), 0, [T14, '>ABCDEFGHIJKp '], 12),
        ('of an empty option behind 12', [letters(12), option(*BLANK)], (1,), 0, [T14, '>ABCDEFGHIJKL '], 12),
        ('of a month', [letters(6), date(0, 1, 1)], DATE, 1, [T14, '>ABCDEF2026-1 '], 12),
        ('of a day beyond', [letters(6), date(0, 1, 1)], DATE, 2, [T14, '>ABCDEF2026-1 '], 12),
        ('of seconds', [letters(5), time(0, 0, 0)], (1, 2, 3), 2, [T14, '>ABCDE01:02:0 '], 12),
        ('of cell 11 of a switch', [switch(32)], TURNS, 11, [T14, '>101010101010 '], 12),
        ('of cell 31 of a switch', [switch(32)], TURNS, 31, [T14, '>101010101010 '], 12),
        ('at 16 columns, cell 13', [switch(32)], TURNS, 13, ['T           : 1 ', '>10101010101010 '], 14),
        ('at 16 columns, cell 14', [switch(32)], TURNS, 14, ['T           : 1 ', '>10101010101010 '], 14),
        ('at 20 columns, month', [letters(10), date(0, 1, 1)], DATE, 1, [T20, '>ABCDEFGHIJ2026-11- '], 16),
        ('at 20 columns, day beyond', [letters(10), date(0, 1, 1)], DATE, 2, [T20, '>ABCDEFGHIJ2026-11- '], 18)):
    img = one(*comps)
    draws('cursor ' + name, img, ZERO, found, cursor=f'1,{column}', visit=img.comps[-1], cells=cells, at=at)

# Which component: one of the cursor line, a field with the edit bit or a trigger; only that one shows the cells.
FORM = image(table(b'FORM', line(string(b'k'), B(0), num(1, at=1, flags=0), trigger(), trigger(0)),
                   line(B(2), string(b'-'), B(3)), line(B(4), sub=1), line(B(5))),
             table(b'IN', line(B(6)), line(B(7), B(8))))
LETTER, KEY, FIXED, FIRE, FIRE0, LEFT, DASH, RIGHT, THIRD, FOURTH, IN1, IN2, IN3 = FORM.comps
ON, IN = '0a0b0c0d0e0f101112', FORM.tabs[1]
for name, place, row, cursor in (
        ('field', KEY, '>k123011[*][* ', '1,2'), ('trigger', FIRE, '>k010011[*][* ', '1,9'),
        ('trigger without edit bit', FIRE0, '>k010011[*][* ', '1,12')):
    draws('visit of a ' + name, FORM, ON, ['FORM      : 1+', row], visit=place, cells=(1, 2, 3), cursor=cursor)
for name, place in (
        ('a string', LETTER), ('a field without edit bit', FIXED), ('a field of line 2', LEFT),
        ('a field of a submenu', IN1), ('place 0', 0), ('the table', 10), ('the line', FORM.lines[0]),
        ('the place before', KEY - 1), ('the place behind', KEY + 1), ('the image end', len(FORM)),
        ('place 65535', 65535)):
    refuses('visit of ' + name, 12, FORM, ON, visit=place, cells=(1, 2, 3))
draws('visit on line 2, left', FORM, ON,
      ['FORM        : 2+', ' k010011[*][*]  ', '>123-013        ', ' 014           >'],
      (10, 1, 0), visit=LEFT, cells=(1, 2, 3), at=2, cursor='2,3')
draws('visit on line 2, right', FORM, ON,
      ['FORM        : 2+', '>012-987        ', ' 014           >', ' 015            '],
      (10, 1, 1), visit=RIGHT, cells=(9, 8, 7), at=1, cursor='1,6')
draws('visit on line 4', FORM, ON, ['FORM        : 4!', ' 012-013        ', ' 014           >', '>555            '],
      (10, 3, 1), visit=FOURTH, cells=(5, 5, 5), at=0, cursor='3,1')
draws('visit on a line with a submenu', FORM, ON, ['FORM        : 3+', '>300           >', ' 015            ', B16],
      (10, 2, 2), visit=THIRD, cells=(3, 0, 0), at=2, cursor='1,3')
draws('visit in a submenu', FORM, ON, ['IN          : 2 ', ' 016            ', '>017432         ', B16],
      (10, 2, 1), (IN, 1, 0), visit=IN3, cells=(4, 3, 2), at=0, cursor='2,4')
for name, place in ('the line that leads to it', THIRD), ('its other line', IN1), ('the top', KEY):
    refuses('visit in a submenu, of ' + name, 12, FORM, ON, (10, 2, 2), (IN, 1, 1), visit=place, cells=(1, 2, 3))
refuses('visit of a string between fields', 12, FORM, ON, (10, 1, 1), visit=DASH, cells=(1, 2, 3))
ENDED = one(string(b'x', LAST), B(0))
refuses('visit behind the last mark', 12, ENDED, '', visit=ENDED.comps[1], cells=(1, 2, 3))     # R12

# ---- Draw and fits: password entry -----------------------------------------------------------------------------------
LOCKS = image(table(b'LOCKS', line(string(b'none')), line(string(b'open'), sub=1),
                    line(string(b'two'), sub=1, pwd=b'12'), line(string(b'one'), sub=1, pwd=b'7'),
                    line(string(b'eight'), B(0), sub=1, pwd=b'12345678')),
              table(b'IN', line(string(b'deep'), sub=2, pwd=b'000')), table(b'', line(X)))
for at, typed, *found in (
        (2, '', 'Pwd:..        ', '>two         P'), (2, '1', 'Pwd:*.        ', '>two         P'),
        (2, '9', 'Pwd:*.        ', '>two         P'), (2, '0', 'Pwd:*.        ', '>two         P'),
        (3, '', 'Pwd:.         ', '>one         P'), (4, '', 'Pwd:........  ', '>eight200    P'),
        (4, '123', 'Pwd:***.....  ', '>eight200    P'), (4, '9999999', 'Pwd:*******.  ', '>eight200    P'),
        (3, '', 'Pwd:.           ', '>one           P', ' eight200      P', B16),
        (4, '9876543', 'Pwd:*******.        ', '>eight200          P')):
    draws(f'entry on line {at + 1}, typed {typed or "none"}, {len(found[0])} columns', LOCKS, 'c8', found,
          (10, at, at), typed=list(map(int, typed)))
draws('entry, window from line 2', LOCKS, 'c8',
      ['Pwd:*.          ', ' open          >', '>two           P', ' one           P'], (10, 2, 1), typed=(5,))
draws('entry in a submenu', LOCKS, 'c8', ['Pwd:**.         ', '>deep          P', B16, B16],
      (10, 1, 0), (LOCKS.tabs[1], 0, 0), typed=(0, 1))
draws('entry behind all line options', ALL, '', ['Pwd:***.      ', '>x           P'], (10, 1, 1), typed=(4, 3, 2))
for name, at, *typed in (
        ('without a submenu', 0), ('without a submenu, 1 typed', 0, 1), ('of an open submenu', 1),
        ('of an open submenu, 1 typed', 1, 1), ('of 2, 2 typed', 2, 1, 2), ('of 2, 3 typed', 2, 1, 2, 3),
        ('of 1, 1 typed', 3, 7), ('of 8, 8 typed', 4, 1, 2, 3, 4, 5, 6, 7, 8), ('typed 10', 2, 10),
        ('typed 255', 2, 255), ('typed 1 2 10', 4, 1, 2, 10), ('typed 10 1 2', 4, 10, 1, 2),
        ('7 typed, the last 10', 4, 1, 2, 3, 4, 5, 6, 10)):
    refuses('entry ' + name, 12, LOCKS, 'c8', (10, at, at), typed=typed)
for at, count in (2, 255), (4, 9), (4, 255):
    refuses(f'entry on line {at + 1}, {count} typed', 12, LOCKS, 'c8', (10, at, at), typed=[1] * 8, count=count)
