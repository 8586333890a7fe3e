"""Cases of Draw: texts, rows and row 0; each picture stands beside its case."""
from struct import pack

from open_cases import *

# ---- Draw: refusal, edit cursor and the picture, which held EE in every byte -----------------------------------------
# Each picture stands beside its case as 01's "Picture" and R30 to R33 give it; the display has the shape of its rows.
TOP = (10, 0, 0)                                # a level: place of its table, cursor line, first shown line (from 0)
def session(columns, lines, levels, outer=None, visit=None, at=0, cells=(), typed=None, count=None, idle=0, spare=0xEE):
    """The bytes of a session that shows the last level: in a visit if given its place, in an entry if given the typed
    digits.  Spare bytes stand where the session has no use for them, for fits asks nothing of them (R20b).  The layout
    is the library's: crates/session_bytes/specs/Layout.antt."""
    def filled(given, size, item): return (list(given) + [item] * size)[:size]
    above = filled(levels[:-1], 7, (spare * 0x0101010101010101, spare, spare))
    typing = (0, 0) if typed is None else (2, len(typed) if count is None else count)
    mode, of, chosen = (*typing, spare) if visit is None else (1, visit, at)
    return (bytes([columns, lines, len(levels) - 1 if outer is None else outer])
            + b''.join(pack('<QBB', *level) for level in [*above, levels[-1]]) + pack('<BBQB', idle, mode, of, chosen)
            + pack('<32I', *filled(cells, 32, spare * 0x01010101)) + bytes(filled(typed or (), 8, spare)))
def draw(name, refusal, img, sheet, shape, levels, length, answer, of):
    sheet = bytes.fromhex(sheet) if isinstance(sheet, str) else sheet
    check('draw, ' + name, refusal, img, len(sheet), 4, answer=' ' + answer,
          tail=sheet + u16(length) + session(*shape, levels or (TOP,), **of))
def draws(name, img, sheet, picture, *levels, cursor='-', **of):        # cursor: 'row,column'
    shape, data = (len(picture[0]), len(picture)), ''.join(picture).encode('latin-1')
    assert {len(row) for row in picture} == {shape[0]}, name
    draw(name, 0, img, sheet, shape, levels, len(data), f'{cursor} {data.hex()}', of)
def refuses(name, refusal, img, sheet, *levels, shape=(14, 2), length=None, **of):
    length = shape[0] * shape[1] if length is None else length
    draw(name, refusal, img, sheet, shape, levels, length, '- ' + 'ee' * length, of)

B14, B16, B20 = ' ' * 14, ' ' * 16, ' ' * 20
ZERO, LOG_AT = '00000000', MENU.tabs[1]
TEST = ['TEST        : 1 ', '>P1 no          ', ' Log           >', '                ']      # 01's whole picture
draws('TEST', MENU, ZERO, TEST)
draws('TEST as Open leaves the session', MENU, ZERO, TEST, spare=0)
draws('TEST, idle count 255', MENU, ZERO, TEST, idle=255)
draws('TEST, byte 1', MENU, '01000000', ['TEST        : 1 ', '>P1 yes         ', ' Log           >', B16])
draws('TEST, byte 2', MENU, '02000000', ['TEST        : 1 ', '>P1 ###         ', ' Log           >', B16])
draws('TEST, line 2', MENU, ZERO, ['TEST        * 2 ', ' P1 no          ', '>Log           >', B16], (10, 1, 0))
draws('TEST, visit', MENU, ZERO, ['TEST        : 1 ', '>P1 yes         ', ' Log           >', B16],
      visit=P1, cells=[1], cursor='1,4')
draws('LOG, item 1', MENU, '00010700', ['LOG         : 1 ', '>a\0b007         ', ' [*]z           ', B16],
      (10, 1, 0), (LOG_AT, 0, 0))
draws('LOG, item 2', MENU, '00020700', ['LOG         : 2 ', ' \xff\0 007         ', '>[*]z           ', B16],
      (10, 1, 0), (LOG_AT, 1, 0))
draws('LOG, item 3', MENU, '0003ff01', ['LOG         : 2 ', '    255         ', '>[*]#           ', B16],
      (10, 1, 1), (LOG_AT, 1, 0))
for found, *levels in (                         # other shapes
        (['TEST      : 1+', '>P1 no        '],), (['TEST      * 2!', '>Log         >'], (10, 1, 1)),
        (['TEST      : 1 ', '>P1 no        ', ' Log         >', B14],),
        (['TEST       : 1 ', '>P1 no         ', ' Log          >'],), (['TEST        : 1+', '>P1 no          '],),
        (['TEST         : 1 ', '>P1 no           ', ' Log            >'],),
        (['TEST          : 1+', '>P1 no            '],),
        (['TEST           : 1 ', '>P1 no             ', ' Log              >'],),
        (['TEST            : 1+', '>P1 no              '],),
        (['TEST            : 1 ', '>P1 no              ', ' Log               >', B20],)):
    draws(f'TEST at {len(found[0])} x {len(found)}' + ', line 2' * len(levels), MENU, ZERO, found, *levels)

# ---- Draw: a field of each kind, shown from its bytes; '|' stands behind it ------------------------------------------
T14, S14, T20 = 'T         : 1 ', 'T         * 1 ', 'T               : 1 '   # row 0 of `one`: ':' with a field to edit
def shows(kind, c, cases):
    for sheet, row in cases.items():
        draws(f'{kind} of {sheet or "no bytes"}', one(c, string(b'|')), sheet, [T14, row])
shows('dd', num(0x00), {
    '00': '>00|          ', '07': '>07|          ', '63': '>99|          ', '64': '>##|          ',
    'ff': '>##|          '})
shows('ddd', num(0x01), {'00': '>000|         ', '2a': '>042|         ', 'ff': '>255|         '})
shows('hh', num(0x02), {
    '00': '>00|          ', '0b': '>0B|          ', 'af': '>AF|          ', 'c9': '>C9|          ',
    'de': '>DE|          ', 'ff': '>FF|          '})
shows('sdd', num(0x03), {
    '00': '>+00|         ', '05': '>+05|         ', 'fb': '>-05|         ', '63': '>+99|         ',
    '9d': '>-99|         ', '64': '>###|         ', '9c': '>###|         ', '7f': '>###|         ',
    '80': '>###|         '})
shows('sddd', num(0x04), {
    '00': '>+000|        ', '7f': '>+127|        ', '80': '>-128|        ', 'ff': '>-001|        '})
shows('DDD', num(0x05), {
    '0000': '>000|         ', '0001': '>256|         ', 'e703': '>999|         ', 'e803': '>###|         ',
    'ffff': '>###|         '})
shows('DDDD', num(0x06), {
    '0100': '>0001|        ', '0f27': '>9999|        ', '1027': '>####|        ', 'ffff': '>####|        '})
shows('DDDDD', num(0x07), {'0700': '>00007|       ', '3930': '>12345|       ', 'ffff': '>65535|       '})
shows('HHHH', num(0x08), {
    '0000': '>0000|        ', 'fa00': '>00FA|        ', 'efbe': '>BEEF|        ', 'ffff': '>FFFF|        '})
shows('SDDD', num(0x09), {
    '0000': '>+000|        ', 'e703': '>+999|        ', '19fc': '>-999|        ', 'ffff': '>-001|        ',
    'e803': '>####|        ', '18fc': '>####|        ', 'ff7f': '>####|        ', '0080': '>####|        '})
shows('SDDDD', num(0x0A), {
    '0000': '>+0000|       ', '0f27': '>+9999|       ', 'f1d8': '>-9999|       ', 'd6ff': '>-0042|       ',
    '1027': '>#####|       ', 'f0d8': '>#####|       ', 'ff7f': '>#####|       ', '0080': '>#####|       '})
shows('counter -5..100', counter(-5, 100, 10, 98, 3), {
    '6200': '> 98|         ', 'fbff': '> -5|         ', '0000': '>  0|         ', '6400': '>100|         ',
    '0d00': '> 13|         ', '6500': '>###|         ', 'faff': '>###|         ', '0080': '>###|         '})
shows('counter -5..100 width 6', counter(-5, 100, 10, 98, 6), {
    '6200': '>    98|      ', 'fbff': '>    -5|      ', '0000': '>     0|      ', '6500': '>######|      '})
shows('counter -32768..32767', counter(-32768, 32767, 10, 0, 6), {
    '0080': '>-32768|      ', 'ff7f': '> 32767|      ', 'ffff': '>    -1|      ', 'f0d8': '>-10000|      '})
shows('counter 0..9', counter(0, 9, 1, 0, 1), {
    '0700': '>7|           ', '0a00': '>#|           ', 'ffff': '>#|           '})
shows('counter -9..-5', counter(-9, -5, 1, -5, 2), {'f7ff': '>-9|          ', '0000': '>##|          '})
shows('counter width 12', counter(0, 9, 1, 0, 12), {'0700': '>           7 ', '0a00': '>############ '})
shows('counter width 255', counter(0, 9, 1, 0, 255), {'0700': '>             ', '0a00': '>############ '})
shows('time-long', time(1, 2, 3), {
    '173b3a': '>23:59:58|    ', '000000': '>00:00:00|    ', '010203': '>01:02:03|    ', '180000': '>########|    ',
    '003c00': '>########|    ', '00003c': '>########|    ', 'ffffff': '>########|    '})
shows('time-short', time(1, 2), {
    '173b': '>23:59|       ', '0708': '>07:08|       ', '1800': '>#####|       ', '003c': '>#####|       '})
shows('date-long', date(2024, 5, 6), {          # stored day, month, year (R5)
    '0f0bea07': '>2026-11-15|  ', '01010000': '>0000-01-01|  ', '1f0c0f27': '>9999-12-31|  ',
    '1f02e807': '>##########|  ', '01011027': '>##########|  ', '0101ffff': '>##########|  ',
    '0100e807': '>##########|  ', '010de807': '>##########|  ', '0001e807': '>##########|  ',
    '2001e807': '>##########|  ',
    # 02 No. 3: 29 February 2024, 2023, 2000, 1900 and 0; 30 and 31 April
    '1d02e807': '>2024-02-29|  ', '1d02e707': '>##########|  ', '1d02d007': '>2000-02-29|  ',
    '1d026c07': '>##########|  ', '1d020000': '>0000-02-29|  ', '1e04e807': '>2024-04-30|  ',
    '1f04e807': '>##########|  '})
shows('date-short', date(24, 5, 6, short=True), {
    '1f0c63': '>99-12-31|    ', '010100': '>00-01-01|    ', '010164': '>########|    ', '010063': '>########|    ',
    '010d63': '>########|    ', '000163': '>########|    ', '200163': '>########|    ',
    # R51: 29 February 2000, 2001 and 2099; 31 April
    '1d0200': '>00-02-29|    ', '1d0201': '>########|    ', '1d0263': '>########|    ', '1f0418': '>########|    '})
shows('switch of 1', switch(1), {
    '00000000': '>0|           ', '01000000': '>1|           ', '02000000': '>#|           ',
    '03000000': '>#|           ', '00000080': '>#|           '})
shows('switch of 5', switch(5), {
    '16000000': '>10110|       ', '00000000': '>00000|       ', '1f000000': '>11111|       ',
    '20000000': '>#####|       ', '01010000': '>#####|       '})
shows('switch of 9', switch(9), {'05010000': '>100000101|   ', '00020000': '>#########|   '})
MAYBE, BLANK = (b'no', b'yes', b'', b'perhaps'), (b'', b'')
shows('option of 4', option(*MAYBE), {
    '00': '>no     |     ', '01': '>yes    |     ', '02': '>       |     ', '03': '>perhaps|     ',
    '04': '>#######|     ', 'ff': '>#######|     '})
shows('option of any bytes', option(b'a\0b', b'\xff'), {'00': '>a\0b|         ', '01': '>\xff  |         '})     # R33
shows('option of empty items', option(*BLANK), {'00': '>|            ', '01': '>|            ', '02': '>|            '})
shows('trigger', trigger(), {'': '>[*]|         '})
shows('trigger read-only', trigger(0), {'': '>[*]|         '})
shows('blinking ddd', num(0x01, flags=EDIT | BLINK), {'07': '>007|         '})
draws('ddd read-only', one(num(0x01, flags=0)), 'c8', [S14, '>200          '])
draws('dd read-only, out of range', one(num(0x00, flags=BLINK)), 'c8', [S14, '>##           '])
draws('date read-only, 31 April', one(comp(0x11, 0, bytes([6, 5]) + u16(2024), 0)), '1f04e807', [S14, '>##########   '])
draws('string of any bytes', one(string(b'\x00\xff\n\x80#')), '', [S14, '>\x00\xff\n\x80#        '])
draws('empty string', one(string(b'')), '', [S14, '>             '])
draws('field in the last bytes of a sheet', one(num(0x07, at=4094)), bytes(4094) + b'\x39\x30', [T14, '>12345        '])
draws('no field, sheet 4097', one(X), bytes(4097), [S14, '>x            '])

# All kinds on one sheet, at three shapes; then values out of range wherever a kind has such.
BAR, GAP = string(b'|'), string(b' ')
KINDS = image(table(
    b'KINDS', line(num(0), GAP, num(1, at=1), GAP, num(2, at=2)), line(num(3, at=3), GAP, num(4, at=4)),
    line(num(5, at=5), GAP, num(6, at=7)), line(num(7, at=9), GAP, num(8, at=11)),
    line(num(9, at=13), GAP, num(10, at=15)),
    line(counter(-5, 9, 1, 0, 3, 17), BAR, counter(-1, 1, 1, 0, 4, 19), BAR, counter(5, 10, 1, 5, 2, 21)),
    line(time(0, 0, 0, at=23)), line(time(0, 0, at=26), GAP, trigger(0)), line(date(0, 1, 1, 28)),
    line(date(0, 1, 1, 32, short=True)), line(switch(1, at=35), GAP, switch(5, at=39)), line(switch(32, at=43)),
    line(string(b'<'), option(b'off', b'on', b'', at=47), BAR, option(*MAYBE, at=48), string(b'>')),
    line(string(b'\x00\xff\n'))))
GIVEN = ('2a c8 af fb 80 2c01 a00f 50c3 efbe d4fe 60f0 fbff 0000 0700 173b3a 0708 0f0bea07 1f0c63'
         '01000000 16000000 01c3f0a5 02 03')
WRONG = ('64 ff 00 64 7f e803 1027 ffff 0000 e803 f0d8 faff 0200 0400 17003c 1800 0f0b1027 1f0d63'
         '02000000 00000080 ffffffff 03 04')
for first, at, *found in (
        (0, 0, 'KINDS       : 1+', '>42 200 AF      ', ' -05 -128       ', ' 300 4000       '),
        (3, 4, 'KINDS       : 5+', ' 50000 BEEF     ', '>-300 -4000     ', '  -5|   0| 7    '),
        (6, 8, 'KINDS       : 9+', ' 23:59:58       ', ' 07:08 [*]      ', '>2026-11-15     '),
        (9, 9, 'KINDS       :10+', '>99-12-31       ', ' 1 10110        ', ' 10100101111100 '),
        (11, 13, 'KINDS       *14!', ' 10100101111100 ', ' <   |perhaps>  ', '>\x00\xff\n            '),
        (0, 1, 'KINDS           : 2+', ' 42 200 AF          ', '>-05 -128           ', ' 300 4000           '),
        (3, 3, 'KINDS           : 4+', '>50000 BEEF         ', ' -300 -4000         ', '  -5|   0| 7        '),
        (6, 7, 'KINDS           : 8+', ' 23:59:58           ', '>07:08 [*]          ', ' 2026-11-15         '),
        (9, 11, 'KINDS           :12+', ' 99-12-31           ', ' 1 10110            ', '>101001011111000011 '),
        (12, 12, 'KINDS           :13+', '><   |perhaps>      ', ' \x00\xff\n                ', B20),
        (0, 0, 'KINDS     : 1+', '>42 200 AF    '), (1, 1, 'KINDS     : 2+', '>-05 -128     '),
        (2, 2, 'KINDS     : 3+', '>300 4000     '), (3, 3, 'KINDS     : 4+', '>50000 BEEF   '),
        (4, 4, 'KINDS     : 5+', '>-300 -4000   '), (5, 5, 'KINDS     : 6+', '> -5|   0| 7  '),
        (6, 6, 'KINDS     : 7+', '>23:59:58     '), (7, 7, 'KINDS     : 8+', '>07:08 [*]    '),
        (8, 8, 'KINDS     : 9+', '>2026-11-15   '), (9, 9, 'KINDS     :10+', '>99-12-31     '),
        (10, 10, 'KINDS     :11+', '>1 10110      '), (11, 11, 'KINDS     :12+', '>101001011111 '),
        (12, 12, 'KINDS     :13+', '><   |perhaps '), (13, 13, 'KINDS     *14!', '>\x00\xff\n          ')):
    draws(f'kinds, line {at + 1} from {first + 1}, {len(found[0])} columns', KINDS, GIVEN, found, (10, at, first))
for at, *found in (
        (0, 'KINDS       : 1+', '>## 255 00      ', ' ### +127       ', ' ### ####       '),
        (3, 'KINDS       : 4+', '>65535 0000     ', ' #### #####     ', ' ###|####|##    '),
        (6, 'KINDS       : 7+', '>########       ', ' ##### [*]      ', ' ##########     '),
        (9, 'KINDS       :10+', '>########       ', ' # #####        ', ' 11111111111111 '),
        (12, 'KINDS       :13+', '><###|#######>  ', ' \x00\xff\n            ', B16)):
    draws(f'kinds out of range, line {at + 1}', KINDS, WRONG, found, (10, at, at))

# ---- Draw: row 0 -----------------------------------------------------------------------------------------------------
for title, row in (
        (b'', '          * 1 '), (b'ABCDEFGHI', 'ABCDEFGHI * 1 '), (b'ABCDEFGHIJ', 'ABCDEFGHIJ* 1 '),
        (b'ABCDEFGHIJK', 'ABCDEFGHIJ* 1 '), (b'ABCDEFGHIJKLMN', 'ABCDEFGHIJ* 1 '), (b't' * 255, 'tttttttttt* 1 '),
        (b'\x00\xff:\n', '\x00\xff:\n      * 1 ')):                     # R33
    draws(f'title of {len(title)} at 14 columns', image(table(title, line(X))), '', [row, '>x            '])
for title, row in (
        (b'ABCDEFGHIJKLMNO', 'ABCDEFGHIJKLMNO * 1 '), (b'ABCDEFGHIJKLMNOP', 'ABCDEFGHIJKLMNOP* 1 '),
        (b'ABCDEFGHIJKLMNOPQ', 'ABCDEFGHIJKLMNOP* 1 ')):
    draws(f'title of {len(title)} at 20 columns', image(table(title, line(X))), '', [row, '>x                  '])

def labels(n): return image(table(b'N', *[line(string(b'L%d' % i)) for i in range(1, n + 1)]))
for n, cursor, first, *found in (               # R30; a window need not be full (R20b)
        (1, 0, 0, 'N           * 1 ', '>L1             ', B16, B16),
        (3, 0, 0, 'N           * 1 ', '>L1             ', ' L2             ', ' L3             '),
        (3, 2, 0, 'N           * 3 ', ' L1             ', ' L2             ', '>L3             '),
        (3, 1, 1, 'N           * 2 ', '>L2             ', ' L3             ', B16),
        (3, 2, 2, 'N           * 3 ', '>L3             ', B16, B16),
        (4, 0, 0, 'N           * 1+', '>L1             ', ' L2             ', ' L3             '),
        (4, 2, 0, 'N           * 3+', ' L1             ', ' L2             ', '>L3             '),
        (4, 2, 2, 'N           * 3+', '>L3             ', ' L4             ', B16),
        (4, 3, 1, 'N           * 4!', ' L2             ', ' L3             ', '>L4             '),
        (4, 3, 3, 'N           * 4!', '>L4             ', B16, B16),
        (99, 8, 6, 'N           * 9+', ' L7             ', ' L8             ', '>L9             '),
        (99, 9, 7, 'N           *10+', ' L8             ', ' L9             ', '>L10            '),
        (99, 9, 9, 'N           *10+', '>L10            ', ' L11            ', ' L12            '),
        (99, 97, 96, 'N           *98+', ' L97            ', '>L98            ', ' L99            '),
        (99, 98, 96, 'N           *99!', ' L97            ', ' L98            ', '>L99            '),
        (99, 98, 98, 'N           *99!', '>L99            ', B16, B16),
        (2, 0, 0, 'N         * 1 ', '>L1           ', ' L2           '),
        (2, 1, 1, 'N         * 2 ', '>L2           ', B14),
        (3, 0, 0, 'N         * 1+', '>L1           ', ' L2           '),
        (3, 2, 1, 'N         * 3!', ' L2           ', '>L3           '), (1, 0, 0, 'N         * 1 ', '>L1           '),
        (2, 0, 0, 'N         * 1+', '>L1           '), (2, 1, 1, 'N         * 2!', '>L2           '),
        (10, 9, 9, 'N               *10!', '>L10                ')):
    draws(f'line {cursor + 1} of {n} from {first + 1}, {len(found)} rows', labels(n), '', found, (10, cursor, first))

EDITS = rows(line(X), line(num(1, flags=0)), line(X, num(1, at=1)), line(trigger(0)),
             line(num(1, at=2, flags=0), X, num(1, at=3)), line(X, string(b'y', BLINK)))
for at, *found in (
        (0, '          * 1+', '>x            '), (1, '          * 2+', '>001          '),
        (2, '          : 3+', '>x002         '), (3, '          : 4+', '>[*]          '),
        (4, '          : 5+', '>003x004      '), (5, '          * 6!', '>xy           ')):
    draws(f'editable or not, line {at + 1}', EDITS, '01020304', found, (10, at, at))

# ---- Draw: other rows ------------------------------------------------------------------------------------------------
ABC = b'ABCDEFGHIJKLMNOPQRSTUVWXYZ'
def letters(n): return string(ABC[:n])
SUBS = image(table(b'S', line(string(b'Open'), sub=1), line(string(b'Shut'), sub=1, pwd=b'12'), line(string(b'None')),
                   line(letters(26), sub=1, dyn=0), line(letters(26), sub=1, pwd=b'7', dyn=0)), table(b'', line(X)))
for at, first, *found in (                      # a line is shown whatever its enable byte (R10)
        (0, 0, 'S           * 1+', '>Open          >', ' Shut          P', ' None           '),
        (1, 0, 'S           * 2+', ' Open          >', '>Shut          P', ' None           '),
        (2, 2, 'S           * 3+', '>None           ', ' ABCDEFGHIJKLMN>', ' ABCDEFGHIJKLMNP'),
        (3, 3, 'S         * 4+', '>ABCDEFGHIJKL>'), (4, 4, 'S         * 5!', '>ABCDEFGHIJKLP'),
        (4, 3, 'S               * 5!', ' ABCDEFGHIJKLMNOPQR>', '>ABCDEFGHIJKLMNOPQRP')):
    draws(f'submenus, line {at + 1} at {len(found[0])} columns', SUBS, '00', found, (10, at, first))
for name, comps, sheet, *found in (
        ('string of 11', [letters(11)], '', S14, '>ABCDEFGHIJK  '),
        ('string of 12', [letters(12)], '', S14, '>ABCDEFGHIJKL '),
        ('string of 13', [letters(13)], '', S14, '>ABCDEFGHIJKL '),
        ('string of 255', [string(b'x' * 255)], '', S14, '>xxxxxxxxxxxx '),
        ('300 strings', [X] * 300, '', S14, '>xxxxxxxxxxxx '),
        ('strings of 0, 1, 0, 2', [letters(n) for n in (0, 1, 0, 2)], '', S14, '>AAB          '),
        ('field cut', [letters(10), num(1)], 'c8', T14, '>ABCDEFGHIJ20 '),
        ('# cut', [letters(10), num(0x03)], '64', T14, '>ABCDEFGHIJ## '),
        ('field beyond', [letters(12), num(1)], 'c8', T14, '>ABCDEFGHIJKL '),
        ('option cut', [letters(9), option(*MAYBE)], '03', T14, '>ABCDEFGHIper '),
        ('counter cut before its digit', [letters(10), counter(0, 9, 1, 0, 3)], '0700', T14, '>ABCDEFGHIJ   '),
        ('date cut', [string(b'Date '), date(0, 1, 1)], '0f0bea07', T14, '>Date 2026-11 '),
        ('trigger cut', [letters(10), trigger()], '', T14, '>ABCDEFGHIJ[* '),
        ('switch of 18', [switch(18)], '01000200', T20, '>100000000000000001 ')):
    draws('row, ' + name, one(*comps), sheet, found)
draws('strings at the end of 32768 bytes', FULL, '', ['          * 1 ', '>             '])
