"""Cases of Event: lists of keys and seconds over whole menus, and lists that are refused."""
from event_cases import *

def short(words): return re.sub(r'(.)\1{7,}', lambda run: f'{run[1]}..({len(run[0])})', words) or 'no events'

# ---- Browsing: lines and windows -------------------------------------------------------------------------------------
for n, words, *found in (                       # R23: the first shown line moves only as far as needed
        (5, '', 'N         * 1+', '>L1'), (5, 'Uf', 'N         * 1+', '>L1'), (5, 'Dt', 'N         * 2+', '>L2'),
        (5, 'DDDDt', 'N         * 5!', '>L5'), (5, 'DDDDt DDf', 'N         * 5!', '>L5'),
        (5, 'DDDDt Df UUt', 'N         * 3+', '>L3'), (5, 'DDDDUUUUt Uf', 'N         * 1+', '>L1'),
        (99, 'D' * 98 + 't Df', 'N         *99!', '>L99'), (99, 'D' * 98 + 'U' * 90 + 't', 'N         * 9+', '>L9'),
        (5, 'Dt', 'N         * 2+', ' L1', '>L2'), (5, 'DDt', 'N         * 3+', ' L2', '>L3'),
        (5, 'DDUt', 'N         * 2+', '>L2', ' L3'), (5, 'DDUUt', 'N         * 1+', '>L1', ' L2'),
        (5, 'DDt', 'N         * 3+', ' L1', ' L2', '>L3'), (5, 'DDDt', 'N         * 4+', ' L2', ' L3', '>L4'),
        (5, 'DDDDt Df', 'N         * 5!', ' L3', ' L4', '>L5'), (5, 'DDDDUt', 'N         * 4+', ' L3', '>L4', ' L5'),
        (5, 'DDDDUUt', 'N         * 3+', '>L3', ' L4', ' L5'), (5, 'DDDDUUUt', 'N         * 2+', '>L2', ' L3', ' L4'),
        (5, 'DDDDUUUUt Uf', 'N         * 1+', '>L1', ' L2', ' L3'),
        (5, 'DDDDUUUDt', 'N         * 3+', ' L2', '>L3', ' L4'),
        (5, 'DDDDUUUDDDt', 'N         * 5!', ' L3', ' L4', '>L5'), (3, 'DDt Df', 'N         * 3 ', ' L1', ' L2', '>L3'),
        (3, 'DDUt', 'N         * 2 ', ' L1', '>L2', ' L3'), (1, 'UDf', 'N         * 1 ', '>L1', '', ''),
        (99, 'D' * 98 + 't', 'N               *99!', ' L97', ' L98', '>L99'),
        (99, 'D' * 98 + 'UUUt', 'N               *96+', '>L96', ' L97', ' L98')):
    plays(f'{n} lines, {len(found)} rows, {short(words)}', labels(n), words, '', found)
for name, img, words, sheet, row in (
        ('digits and POINT', one(X), '0123456789.f', '', '>x'), ('ENTER, a string', one(X), 'Ef', '', '>x'),
        ('ENTER, a read-only field', one(num(1, 7, 0, 0)), 'EEf', '07', '>007'),
        ('LEFT at the top (R22)', one(X), 'LLf', '', '>x'), ('RIGHT without a submenu', one(X), 'RRf', '', '>x'),
        ('refused events', one(X), 'XYXr13', '', '>x'), ('seconds, delay 0', one(X), 'SSSSSt', '', '>x'),
        ('all flashes', one(X), 'E0Lf Yr13 .RUDf St', '', '>x')):
    plays('browsing, ' + name, img, words, sheet, [S14, row])
plays('browsing, digits beside a field', one(num(1, 7)), '5.f Xr13 LRUDf', '07', [T14, '>007'])
plays('browsing, ENTER skips the read-only', one(num(1, 7, 0, 0), num(1, 8, 1)), 'Et', '0708', [T14, '>007008'], '1,4')
for words, cursor, *found in (                  # which lines of EDITS have something to edit
        ('Ef', '-', '          * 1+', '>x'), ('Dt Ef', '-', '          * 2+', '>000'),
        ('DDEt', '1,2', '          : 3+', '>x000'), ('DDDEt', '1,2', '          : 4+', '>[*]'),
        ('DDDDEt', '1,5', '          : 5+', '>000x000'), ('DDDDDt Ef', '-', '          * 6!', '>xy')):
    plays('browsing, editable or not, ' + words, EDITS, words, ZERO, found, cursor)
plays('browsing, ENTER, a field behind the last mark (R12)', ENDED, 'Ef', '', [S14, '>x'])
plays('browsing, sheet of 4097 without fields', one(X), 'Ef St', 'ee' * 4097, [S14, '>x'])
plays('browsing, 4096 events', FIVE, 'DU' * 2048 + 't', '', ['N         * 1+', '>L1'])

# ---- Browsing: submenus ----------------------------------------------------------------------------------------------
TREE = image(table(b'TOP', line(string(b'a')), line(string(b'b'), sub=1), line(string(b'c')), line(string(b'd'), sub=3),
                   line(string(b'e'), sub=4)),
             table(b'MID', line(string(b'x')), line(string(b'y'), sub=2), line(string(b'z'), B(0)), line(string(b'v'))),
             table(b'LOW', line(string(b'w'), B(1))), table(b'SIDE', line(string(b'x')), line(string(b'y'), sub=4)),
             table(b'END', line(string(b'w'))))
for name, words, sheet, cursor, *found in (
        ('RIGHT on line 1', 'Rf', '0000', '-', 'TOP       * 1+', '>a', ' b           >', ' c'),
        ('RIGHT on line 2', 'DRt', '0000', '-', 'MID       * 1+', '>x', ' y           >', ' z000'),
        ('RIGHT and LEFT', 'DRLt', '0000', '-', 'TOP       * 2+', ' a', '>b           >', ' c'),
        ('LEFT to its window (R22)', 'DDDRLt', '0000', '-', 'TOP       * 4+', ' b           >', ' c', '>d           >'),
        ('LEFT to a window scrolled up (R22)', 'DDDDURLt', '0000', '-', 'TOP       * 4+',
         ' c', '>d           >', ' e           >'),
        ('LEFT from a scrolled table (R22)', 'DRDDDLt', '0000', '-', 'TOP       * 2+', ' a', '>b           >', ' c'),
        ('entered again at line 1', 'DRDDDLRt', '0000', '-', 'MID       * 1+', '>x', ' y           >', ' z000'),
        ('three deep', 'DRDRt', '0000', '-', 'LOW       : 1 ', '>w000', '', ''),
        ('three deep, RIGHT', 'DRDRt Rf', '0000', '-', 'LOW       : 1 ', '>w000', '', ''),
        ('three deep, LEFT (R22)', 'DRDRLt', '0000', '-', 'MID       * 2+', ' x', '>y           >', ' z000'),
        ('three deep, LEFT LEFT (R22)', 'DRDRLLt', '0000', '-', 'TOP       * 2+', ' a', '>b           >', ' c'),
        ('three deep, LEFT three times', 'DRDRLLt Lf', '0000', '-', 'TOP       * 2+', ' a', '>b           >', ' c'),
        ('by line 5', 'DDDDRt', '0000', '-', 'END       * 1 ', '>w', '', ''),
        ('back from it to line 5', 'DDDDRLt', '0000', '-', 'TOP       * 5!', ' c', ' d           >', '>e           >'),
        ('a visit in it', 'DRDDEt 12t', '0000', '3,4', 'MID       : 3+', ' x', ' y           >', '>z120'),
        ('a finished visit, LEFT', 'DRDDEt 12t Ed8 Lt', '7800', '-', 'TOP       * 2+', ' a', '>b           >', ' c'),
        ('LEFT in a visit', 'DRDDEt Lf', '0000', '3,2', 'MID       : 3+', ' x', ' y           >', '>z000'),
        ('a field answered again', 'DRDREt 1t Ed11 LREt RR5t Ed11', '0069', '-', 'LOW       : 1 ', '>w105', '', ''),
        ('2 rows, LEFT (R22)', 'DDDRDLt', '0000', '-', 'TOP       * 4+', '>d           >'),
        ('2 rows, three deep by line 4', 'DDDRDRt', '0000', '-', 'END       * 1 ', '>w'),
        ('2 rows, three deep, LEFT (R22)', 'DDDRDRLt', '0000', '-', 'SIDE      * 2!', '>y           >'),
        ('2 rows, flashes', 'LRf Dt', '0000', '-', 'TOP       * 2+', '>b           >')):
    plays('submenus, ' + name, TREE, words, sheet, found, cursor)
plays('submenus, two lines to one table', PATHS, 'DDDRLt', '', ['A         * 4+', '>d           >'])
plays('submenus, by bytes inside a string', INSIDE, 'Rt Rf Ef', '', ['          * 1 ', '>'])
plays('submenus, at the end of 32768 bytes', FAR, 'Rt Et Rt Ed1', '01', ['U         : 1 ', '>yes'])
for name, words, sheet, cursor, *found in (
        ('8 deep', 'RRRRRRRt', '00', '-', 'T8        : 1 ', '>000'),
        ('8 deep, RIGHT', 'RRRRRRRt Rf', '00', '-', 'T8        : 1 ', '>000'),
        ('7 deep', 'RRRRRRt', '00', '-', 'T7        * 1 ', '>x           >'),
        ('8 deep and up 3', 'RRRRRRRLLLt', '00', '-', 'T5        * 1 ', '>x           >'),
        ('8 deep and to the top', 'RRRRRRRLLLLLLLt Lf', '00', '-', 'T1        * 1 ', '>x           >'),
        ('8 deep, a visit', 'RRRRRRREt 123t', '00', '1,3', 'T8        : 1 ', '>123'),
        ('8 deep, a finished visit', 'RRRRRRREt 123t Ed7', '7b', '-', 'T8        : 1 ', '>123'),
        ('8 deep twice', 'RRRRRRRLLLLLLLRRRRRRRt', '00', '-', 'T8        : 1 ', '>000')):
    plays('submenus, ' + name, EIGHT, words, sheet, found, cursor)

# ---- Password entry --------------------------------------------------------------------------------------------------
AT_TWO, IN_IT = ['LOCKS     * 3+', '>two         P'], ['IN        * 1 ', '>deep        P']
NONE, ONE = ['Pwd:..', '>two         P'], ['Pwd:*.', '>two         P']
for name, words, found in (
        ('RIGHT (R24)', 'DDRt', NONE), ('one digit', 'DDR1t', ONE), ('right', 'DDR12t', IN_IT),
        ('second wrong', 'DDR1t 3f', AT_TWO), ('first wrong is taken', 'DDR9t', ONE),
        ('first wrong', 'DDR9t 2f', AT_TWO), ('both wrong', 'DDR2t 1f', AT_TWO),
        ('wrong, then right', 'DDR1t 3f R12t', IN_IT), ('wrong, the next digit flashes', 'DDR1t 3f 12f', AT_TWO),
        ('LEFT gives up (R24)', 'DDRLt', AT_TWO), ('LEFT gives up after a digit (R24)', 'DDR1Lt', AT_TWO),
        ('given up, begun anew', 'DDR1LRt', NONE), ('given up, then right', 'DDR1LR12t', IN_IT),
        ('given up, LEFT at the top', 'DDR1Lt Lf', AT_TWO), ('other keys', 'DDRt .UDREf', NONE),
        ('other keys after a digit', 'DDR1t .UDREf', ONE), ('other keys, then right', 'DDR1t .UDREf 2t', IN_IT),
        ('a second, then right', 'DDRS1S2t', IN_IT), ('refused events, then right', 'DDRt Xr13 1t XYr13 2t', IN_IT),
        ('right, LEFT (R22)', 'DDR12Lt', AT_TWO), ('right, LEFT, asked again', 'DDR12LRt', NONE),
        ('one of one', 'DDDRt', ['Pwd:.', '>one         P']), ('one of one, right', 'DDDR7t', IN_IT),
        ('one of one, wrong', 'DDDRt 8f', ['LOCKS     * 4+', '>one         P']),
        ('eight right', 'DDDDR12345678t', IN_IT),
        ('seven of eight', 'DDDDR1234567t', ['Pwd:*******.', '>eight000    P']),
        ('eight, last wrong', 'DDDDR1234567t 9f', ['LOCKS     : 5!', '>eight000    P']),
        ('eight, first wrong', 'DDDDR0234567t 8f', ['LOCKS     : 5!', '>eight000    P']),
        ('in a submenu', 'DRRt', ['Pwd:...', '>deep        P']), ('in a submenu, wrong', 'DRR00t 1f', IN_IT),
        ('in a submenu, right', 'DRR000t', ['          * 1 ', '>x']), ('in a submenu, right, LEFT', 'DRR000Lt', IN_IT),
        ('in a submenu, given up', 'DRR0Lt', IN_IT),
        ('in a submenu, given up, LEFT', 'DRR0LLt', ['LOCKS     * 2+', '>open        >'])):
    plays('password, ' + name, LOCKS, words, '00', [row.ljust(14) for row in found])
plays('password, a field on its line', LOCKS, 'DDDDEt 042t Ed5 R1t', '2a', ['Pwd:*.......  ', '>eight042    P'])
plays('password, behind all line options', ALL, 'DR1234t', '', ['          * 1 ', '>x'])
for name, words, row in ('begun', 'DDDRt', 'Pwd:.         '), ('given up', 'DDDRLt', 'LOCKS     * 4+'):
    plays(f'password, {name}, 4 rows', LOCKS, words, '00', [row, ' open        >', ' two         P', '>one         P'])

# ---- Seconds ---------------------------------------------------------------------------------------------------------
# The top's line 2 leads to a table IN, line 3 to another by a password.  The delay of help texts, 1, has no effect.
def timed(top, password):
    return image(table(b'TOP', line(string(b'a')), line(string(b'b'), sub=1),
                       line(string(b'c'), B(0), sub=2, pwd=b'12')),
                 table(b'IN', line(string(b'x')), line(string(b'y'), B(1))),
                 table(b'IN', line(string(b'x')), line(string(b'z'))), head=prolog((top, 1, password)))
LINE1, LINE2 = ['TOP       * 1+', '>a'], ['TOP       * 2+', '>b           >']
LINE3, ENTRY, TYPED = [[row, '>c000        P'] for row in ('TOP       : 3!', 'Pwd:..        ', 'Pwd:*.        ')]
IN1ST, IN2ND = ['IN        * 1+', '>x'], ['IN        : 2!', '>y000']
for top, password, words, found in (
        (3, 0, 'DRSSt', IN1ST), (3, 0, 'DRSSSt', LINE1), (3, 0, 'DRDSSSt', LINE1), (3, 0, 'DSSSt', LINE1),
        (3, 0, 'DDSSt', LINE3), (3, 0, 'DDSSSt', LINE1), (3, 0, 'DRSSSt Lf', LINE1), (3, 0, 'DRSSSSSSDRt', IN1ST),
        (1, 0, 'DRSt', LINE1), (1, 0, 'St', LINE1), (2, 0, 'DRSt', IN1ST), (2, 0, 'DRSSt', LINE1),
        (0, 0, 'DR' + 'S' * 300 + 't', IN1ST), (255, 0, 'DR' + 'S' * 254 + 't', IN1ST),
        (255, 0, 'DR' + 'S' * 255 + 't', LINE1), (255, 0, 'DR' + 'S' * 300 + 'DDt', LINE3),
        # R21: any key makes the count 0, a flash too; a refused event doesn't
        (3, 0, 'DRSSt 5f SSt', IN1ST), (3, 0, 'DRSSt 5f SSSt', LINE1), (3, 0, 'DRSSt Rf SSt', IN1ST),
        (3, 0, 'DRt 12f SSt', IN1ST), (3, 0, 'DRSSDSSt', IN2ND), (3, 0, 'DRSSDSSSt', LINE1),
        (3, 0, 'DRSSLSSt', LINE2), (3, 0, 'DRSSLSSSt', LINE1), (3, 0, 'DRSSt Xr13 St', LINE1),
        (3, 0, 'DRSt Yr13 St XYr13 St', LINE1), (3, 0, 'DRSt XXXr13 St', IN1ST),
        (3, 0, 'DRDSSEt SSt Ed6 SSt', IN2ND), (3, 0, 'DRDSSEt SSt Ed6 SSSt', LINE1),
        # R25: after an entry has timed out the same count goes on
        (3, 2, 'DDRSt', ENTRY), (3, 2, 'DDRSSt', LINE3), (3, 2, 'DDRSSSt', LINE1), (2, 2, 'DDRSSt', LINE3),
        (2, 2, 'DDRSSSt', LINE1), (1, 2, 'DDRSSt', LINE3), (1, 2, 'DDRSSSt', LINE1), (5, 2, 'DDRSSSSt', LINE3),
        (5, 2, 'DDRSSSSSt', LINE1), (0, 2, 'DDRSSSSSSt', LINE3), (2, 5, 'DDRSSSSt', ENTRY),
        (2, 5, 'DDRSSSSSt', LINE3), (2, 5, 'DDRSSSSSSt', LINE1), (3, 0, 'DDRSSSSSt', ENTRY),
        (3, 0, 'DDRSSSSLSSt', LINE3), (0, 0, 'DDR1' + 'S' * 300 + 't', TYPED), (0, 1, 'DDRSt', LINE3),
        (0, 255, 'DDR' + 'S' * 254 + 't', ENTRY), (0, 255, 'DDR' + 'S' * 255 + 't', LINE3),
        (3, 2, 'DDRSSt 5f SSt', LINE3), (3, 2, 'DDRSSt Xr13 St', LINE1), (3, 2, 'DDSSRSt', ENTRY),
        # keys and refused events in an entry (R21)
        (3, 2, 'DDRS1St', TYPED), (3, 2, 'DDRS1SSt', LINE3), (3, 2, 'DDRSt Uf St', ENTRY),
        (3, 2, 'DDRSt Uf SSt', LINE3), (3, 2, 'DDRSt Xr13 St', LINE3), (3, 2, 'DDR1SSRt', ENTRY),
        (3, 2, 'DDR1SSR1t', TYPED), (3, 2, 'DDR12SSt', IN1ST), (3, 2, 'DDR12SSSt', LINE1),
        (3, 2, 'DDR1t 3f SSt', LINE3), (3, 2, 'DDR1t 3f SSSt', LINE1)):
    plays(f'seconds, delays {top} and {password}, {short(words)}', timed(top, password), words, '0000', found)
plays('seconds, delay 3, five in a visit', timed(3, 2), 'DRDEt 7t SSSSSt', '0000', ['IN        : 2!', '>y700'], '1,3')
plays('seconds, delay 3, a visit finished after five', timed(3, 2), 'DRDEt 07t SSSSSt 0t Ed6', '0046',
      ['IN        : 2!', '>y070'])
plays('seconds, delay 2, from 8 deep', EIGHT.put(5, 2), 'RRRRRRRSSt Lf', '00', ['T1        * 1 ', '>x           >'])
plays('seconds, delay 2, from a window below', FIVE.put(5, 2), 'DDDDSSt', '', ['N         * 1+', '>L1', ' L2', ' L3'])

# ---- Questions skipped and answered later ----------------------------------------------------------------------------
QUIZ = image(table(b'QUIZ', line(string(b'1 '), option(b'A', b'B', b'C')), line(string(b'2 '), num(0, 0, 1)),
                   line(string(b'3 '), counter(0, 9, 1, 5, 2, 2)), line(string(b'4 '), sub=1)),
             table(b'MORE', line(string(b'5 '), time(0, 0, at=4)), line(string(b'6 '), switch(3, 0, 6))))
ALL_SIX, END = '02 2a 0600 0101 04000000 ee', ['QUIZ      * 4!', ' 2 42', ' 3  6', '>4           >']
UNASKED, AT_4 = '00 00 0500 0000 00000000 ee', ['QUIZ      * 4!', ' 2 00', ' 3  5', '>4           >']
for name, words, sheet, found in (
        ('in order', 'Et RRt Ed1 DEt 42t Ed3 DEUt Ed5 DREUEUt Ed8 DEUt Ed10 Lt', ALL_SIX, END),
        ('the last first', 'DDDRDEUt Ed10 UEUEUt Ed8 LUUUERRt Ed1 DDEUt Ed5 UE42t Ed3 DDt', ALL_SIX, END),
        ('the middle first', 'DE42t Ed3 UERRt Ed1 DDDREUEUt Ed8 LUEUt Ed5 DRDEUt Ed10 Lt', ALL_SIX, END),
        ('answers changed', 'ERt Ed1 DE99t Ed3 UERt Ed1 DE42t Ed3 DEDt Ed5 EUUt Ed5 DREUEUt Ed8 DEUt Ed10 EUt Ed10 Lt',
         ALL_SIX, END),
        ('seconds and refused events between',
         'SERt Xr13 RSt Ed1 DSEt Yr13 4t 2t Ed3 SDEUt XYr13 Ed5 DRESUEUSt Ed8 DESUt Ed10 LSt', ALL_SIX, END),
        ('none', 'DDDt', UNASKED, AT_4), ('only the last', 'DDDRDEUt Ed10 Lt', '00 00 0500 0000 04000000 ee', AT_4)):
    plays('quiz, ' + name, QUIZ, words, sheet, found)
plays('quiz, opened and not finished', QUIZ, 'DE42t', UNASKED, ['QUIZ      : 2+', ' 1 A', '>2 42', ' 3  5'], '2,4')

# ---- Refused lists: a closed session never fits; 2 to 11 come before 12, 12 before 13 (R20) --------------------------
def shut(name, opened, img, shape, number, sheet):
    drawn = f'{number} - ' + 'ee' * (shape[0] * shape[1])
    play('closed, ' + name, opened, img, f'{KEYS}Yr{number}', sheet, shape, drawn)
for columns, lines in (13, 4), (21, 2), (16, 1), (16, 5), (0, 0), (0, 4):
    shut(f'shape {columns} x {lines}', 1, MENU, (columns, lines), 12, 'eeeeeeee')
FAULTS = (('9 bytes', 2, MENU[:9], 4), ('byte 0 wrong', 3, MENU.put(0, 0), 4), ('version wrong', 4, MENU.put(4, 5), 4),
          ('mark wrong', 5, MENU.put(9, 0), 4), ('last option cut', 6, MENU.upto(Z + 5), 4),
          ('code 18', 7, one(b'\x18'), 0), ('depth 9', 8, NINE, 0), ('bad settings', 9, one(BAD9), 1),
          ('sheet of 3', 10, MENU, 3), ('fields overlap', 11, one(B(0), B(0)), 1))     # and the sheet's length
for name, no, img, sheet in FAULTS:
    shut(name, no, img, (16, 4), no, 'ee' * sheet)
    shut(f'{name}, shape 13 x 2', 1, img, (13, 2), no, 'ee' * sheet)
