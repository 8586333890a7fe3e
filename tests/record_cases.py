"""Cases of recording a list of events, and of playing a record from Open on (02 No. 2, R44 to R47)."""
from mark_cases import *

# ---- Recording: refusal, length and the room, which held EE in every byte --------------------------------------------
# The form number 1, the number of events, the events: each event is one group, and the number of events is one up to
# 127, two up to 16383, then three.
def writes(*cases):                             # (name, events, length, the room afterwards)
    for name, events, length, room in cases:
        room = bytes.fromhex(room)
        check('record, ' + name, 0, bytes(events), len(room), 8, answer=f' {length} {room.hex()}')
def unwritten(refusal, *cases):                 # (name, events, the room's length); nothing is written, the length is 0
    for name, events, room in cases:
        check(f'record, {refusal}, {name}', refusal, bytes(events), room, 8, answer=' 0 ' + 'ee' * room)
ALL17, YES = range(17), (15, 14, 15)            # ENTER RIGHT ENTER
def seconds(n): return [16] * n
writes(('no events', (), 2, '01 00'), ('no events, room of 5', (), 2, '01 00 eeeeee'), ('event 0', [0], 3, '01 01 00'),
       ('ENTER RIGHT ENTER', YES, 5, '01 03 0f0e0f'), ('room longer by 1', YES, 5, '01 03 0f0e0f ee'),
       ('every event', ALL17, 19, '01 11 000102030405060708090a0b0c0d0e0f10'),
       ('127 events', seconds(127), 129, '01 7f' + '10' * 127),
       ('128 events', seconds(128), 131, '01 8100' + '10' * 128),
       ('128 events, room longer by 2', seconds(128), 131, '01 8100' + '10' * 128 + 'eeee'),
       ('129 events', seconds(129), 132, '01 8101' + '10' * 129),
       ('256 events', seconds(256), 259, '01 8200' + '10' * 256),
       ('16383 events', seconds(16383), 16386, '01 ff7f' + '10' * 16383),
       ('16384 events', seconds(16384), 16388, '01 818000' + '10' * 16384))
unwritten(25, ('no events, no room', (), 0), ('no events, room of 1', (), 1), ('1 event, room of 2', [5], 2),
          ('ENTER RIGHT ENTER, room of 4', YES, 4), ('every event, room of 18', ALL17, 18),
          ('127 events, room of 128', seconds(127), 128), ('128 events, room of 130', seconds(128), 130),
          ('65535 events are no 16, room of 4', seconds(65535), 4))
unwritten(13, ('event 17', [17], 3), ('event 128, room for two groups', [128], 4), ('event 255', [255], 4),
          ('the first of three', (17, 14, 15), 5), ('the last of three', (15, 14, 17), 5),
          # 13 comes before 25 (R46)
          ('the last of three, no room', (15, 14, 17), 0), ('the first of three, room of 1', (17, 14, 15), 1),
          ('the last of three, room of 4', (15, 14, 17), 4))

# ---- Playing: refusal, number of events, the list, which held 7 in every entry, the sheet and what Draw answers ------
def replay(name, refusal, img, shape, record, events, entries, sheet, drawn):
    check('replay, ' + name, refusal, img, len(sheet), 9, *shape,
          answer=''.join(f' {found}' for found in [events, *entries, sheet.hex(), drawn]),
          tail=u16(len(entries)) + u16(len(record)) + record)
def replays(name, img, record, answers, sheet, picture, cursor='-', rest=0):    # rest: entries that stay
    columns, lines = len(picture[0]), len(picture)
    data = ''.join(row.ljust(columns) for row in picture).encode('latin-1')
    assert len(data) == columns * lines, name
    replay(name, 0, img, (columns, lines), bytes.fromhex(record), len(answers), [*answers, *[7] * rest],
           bytes.fromhex(sheet), f'0 {cursor} {data.hex()}')

# ---- Accepted: 0 taken, 1 flash, 65536 + place finished, 131072 + place fired ----------------------------------------
replays('no events', MENU, '01 00', [], ZERO, TEST)                     # Open's session and sheet
replays('no events, list of 2', MENU, '01 00', [], ZERO, TEST, rest=2)
for name, rest in ('', 0), (', list longer by 1', 1), (', list longer by 5', 5):        # the option is at 24
    replays('ENTER RIGHT ENTER' + name, MENU, '01 03 0f0e0f', [0, 0, 65560], '01000000', TEST2, rest=rest)
replays('ENTER RIGHT ENTER, bytes of no field', MENU, '01 03 0f0e0f', [0, 0, 65560], '01000000 eeee', TEST2)
replays('ENTER ENTER', MENU, '01 02 0f0f', [0, 65560], ZERO, TEST)
replays('an open visit', MENU, '01 02 0f0e', [0, 0], ZERO, TEST2, '1,4')
replays('flashes', MENU, '01 04 050a0b0d', [1, 1, 1, 1], ZERO, TEST)
replays('every event', MENU, '01 11 000102030405060708090a0b0c0d0e0f10',        # DOWN, RIGHT, ENTER and the second act
        [1] * 12 + [0, 1, 0, 0, 0], ZERO, ['LOG         : 1 ', '>   000', ' [*]z', ''], '1,1', rest=1)
replays('each answer', WALK, '01 0e 0f000102 0f0b 0f0e 0f0c 0f0703 0f',         # fields: 18, 38, 60; triggers: 26, 56
        [0, 0, 0, 0, 65554, 131098, 0, 0, 65574, 131128, 0, 0, 0, 65596], '0c0c0149 ee',
        [T20, '>a012[*]12yes[*]73'], rest=2)
replays('places over 255', image(table(b't' * 255, line(trigger(), B(0)))), '01 05 0f0e 0f01 0f',      # 268 and 272
        [0, 131340, 0, 0, 65808], '64', ['tttttttttt: 1 ', '>[*]100'])
replays('a place near 32768', FAR, '01 04 0e0f0e0f', [0, 0, 0, 98286], '01', ['U         : 1 ', '>yes'])       # 32750
L1, L2 = ['N         * 1+', '>L1', ' L2', ' L3'], ['N         * 2+', ' L1', '>L2', ' L3']
for n, record, found, rest in (                 # DOWN and UP by turns
        (1, '01 01 0c', L2, 0), (127, '01 7f' + '0c0b' * 63 + '0c', L2, 0), (128, '01 8100' + '0c0b' * 64, L1, 0),
        (128, '01 8100' + '0c0b' * 64, L1, 1), (129, '01 8101' + '0c0b' * 64 + '0c', L2, 0)):
    replays(f'{n} events, list of {n + rest}', FIVE, record, [0] * n, 'eeee', found, rest=rest)

# Sittings of the cases of play, under their names: the same sheet, picture and edit cursor.
WORTH = {'t': 0, 'f': 1, 'd': 65536, '!': 131072}
def again(name, img, words, sheet, picture, cursor='-', rest=0):
    events, answers = played(img, words)
    count = [len(events)] if len(events) < 128 else [128 + len(events) // 128, len(events) % 128]
    replays('as ' + name, img, bytes([1, *count, *events]).hex(), [WORTH[a[0]] + int(a[1:] or 0) for a in answers],
            sheet, picture, cursor, rest)
    end = CASES[-1][1].split(' ')[-4:]          # sheet, Draw's refusal, cursor and picture
    assert any(found.startswith(f'play, {name}: 0 ') and found.split(' ')[-4:] == end for _, found in CASES), name
def beside(c): return one(string(b'ab'), c, string(b'|'))
again('ddd, 300 flashes and stays (R29)', beside(num(1, 7, 1)), 'Et 300t Ef', 'ee07ee', [T14, '>ab300|'], '1,5')
again('sdd, minus zero is stored as 0', beside(num(3, -5, 1)), 'Et R00t Ed', 'ee00ee', [T14, '>ab+00|'], rest=1)
again('counter -5..100 at 98, DOWN and UP', beside(counter(-5, 100, 10, 98, 3, 1)), 'Et DUt Uf Ed', 'ee6200ee',
      [T14, '>ab 98|'])
again('trigger, fired, passed, opened again', beside(trigger()), 'Et UU! SEEt R!', 'eeee', [T14, '>ab[*]|'], '1,4')
again('date-long, 31 March, to February', beside(date(2024, 3, 31, 1)), 'EEDEt Ed', 'ee1d02e807ee',
      [T14, '>ab2024-02-29'])
again('parts, all', PARTS, 'EUEt Ed0 DEEUt Ed2 RUt Ed3', '0808 100b19 01000000', [T20, '>08:08 25-11-1601'], rest=2)
again('submenus, 8 deep, a finished visit', EIGHT, 'RRRRRRREt 123t Ed7', '7b', ['T8        : 1 ', '>123'])
for name, words, found in (
        ('one digit', 'DDR1t', ['Pwd:*.        ', '>two         P']), ('right', 'DDR12t', IN_IT),
        ('second wrong', 'DDR1t 3f', AT_TWO), ('LEFT gives up after a digit (R24)', 'DDR1Lt', AT_TWO)):
    again('password, ' + name, LOCKS, words, '00', found)
for top, password, words, found in (            # the last two have 256 and 257 events
        (3, 0, 'DRSSSt', LINE1), (3, 0, 'DRSSt 5f SSt', IN1ST), (3, 2, 'DDRSSt', LINE3), (3, 2, 'DDRSSSt', LINE1),
        (255, 0, 'DR' + 'S' * 254 + 't', IN1ST), (255, 0, 'DR' + 'S' * 255 + 't', LINE1)):
    again(f'seconds, delays {top} and {password}, {short(words)}', timed(top, password), words, '0000', found)
again('quiz, in order', QUIZ, 'Et RRt Ed1 DEt 42t Ed3 DEUt Ed5 DREUEUt Ed8 DEUt Ed10 Lt', ALL_SIX, END)
again('quiz, the last first', QUIZ, 'DDDRDEUt Ed10 UEUEUt Ed8 LUUUERRt Ed1 DDEUt Ed5 UE42t Ed3 DDt', ALL_SIX, END,
      rest=3)
again('quiz, opened and not finished', QUIZ, 'DE42t', UNASKED, ['QUIZ      : 2+', ' 1 A', '>2 42', ' 3  5'], '2,4')

# ---- Refused: list, sheet and picture stay, and the session is closed ------------------------------------------------
def unplayed(refusal, name, record, entries=3, img=MENU, sheet=4, shape=(14, 2), drawn=12):
    columns, lines = shape
    replay(f'{refusal}, {name}', refusal, img, shape, bytes.fromhex(record), 0, [7] * entries, b'\xee' * sheet,
           f'{drawn} - ' + 'ee' * (columns * lines))
def damaged(refusal, *cases):                   # (name, record) or (name, record, length of the list)
    for case in cases:
        unplayed(refusal, *case)

# The ways to break a number (R44), each at the form number, at the count and at an event.  Behind a number that isn't
# cut off stands what would complete a record if the number were read in spite of it, in 16 bits.
for name, *records in (
        ('a leading zero group', '8001 00', '01 8001 05', '01 01 8005'),
        ('0 in two groups', '8000 00', '01 8000', '01 01 8000'),
        ('three groups, the top bit on the third', '818080', '01 818080', '01 01 818080'),
        ('four groups', '81808001 00', '01 81808001 05', '01 01 81808005'),
        ('65536', '848000 00', '01 848000', '01 01 848000'), ('65537', '848001 00', '01 848001 05', '01 01 848001'),
        ('cut off after a group', '81', '01 81', '01 01 81'), ('cut off after two', '8180', '01 8180', '01 01 8180')):
    for where, record in zip(('form', 'count', 'event'), records):
        unplayed(16, f'{where}, {name}', record)
damaged(16, ('empty', ''), ('form 2 in two groups', '8002 00'), ('form 65538', '848002 00'),
        ('the first of two events in two groups', '01 02 8005 06'), ('the second of two', '01 02 05 8006'))

# Another form, whatever comes behind it (R45).
damaged(17, ('form 0', '00 00'), ('form 2 alone', '02'), ('form 2, no events', '02 00'), ('form 2, short', '02 02 05'),
        ('form 2, over', '02 00 00'), ('form 2, event 17', '02 01 11'), ('form 2, no list', '02 01 05', 0),
        ('form 3, then a broken number', '03 80'), ('form 127', '7f 00'), ('form 128', '8100 00'),
        ('form 129, its last group 1', '8101 00'), ('form 257, its low byte 1', '8201 00'), ('form 65535', '83ff7f 00'))

# Short, or bytes over.
damaged(16, ('short, no count', '01'), ('short, 1 event', '01 01'), ('short, 1 of 2 events', '01 02 05'),
        ('short, 133 for two events', '01 02 8105'), ('short, 127 of 128 events', '01 8100' + '10' * 127),
        ('short, 16383 events', '01 ff7f'), ('short, 16384 events', '01 818000'), ('short, 65535 events', '01 83ff7f'),
        ('short, 1 of 2 events, no list', '01 02 05', 0), ('over, no events', '01 00 00'),
        ('over, 1 event', '01 01 05 06'), ('over, 128 for 127 events', '01 7f' + '10' * 128, 128),
        ('over, 129 for 128 events', '01 8100' + '10' * 129, 129))

# A bad event, and 16 before it, wherever that comes (R45).
damaged(13, ('event 17', '01 01 11'), ('event 127', '01 01 7f'), ('event 128', '01 01 8100'),
        ('event 133, its last group 5', '01 01 8105'), ('event 261, its low byte 5', '01 01 8205'),
        ('event 65535', '01 01 83ff7f'), ('the first of three', '01 03 110e0f'), ('the last of three', '01 03 0f0e11'),
        ('the last of 128', '01 8100' + '10' * 127 + '11', 128),
        # 13 comes before 25
        ('event 17, no list', '01 01 11', 0), ('the first of three, list of 2', '01 03 110e0f', 2),
        ('the last of three, list of 2', '01 03 0f0e11', 2))
damaged(16, ('17, then a leading zero group', '01 02 11 8001'), ('17, then cut off', '01 02 11 81'),
        ('17, then 65536', '01 02 11 848000'), ('17, then four groups', '01 02 11 81808001'), ('17, short', '01 02 11'),
        ('17, over', '01 01 11 00'), ('17 is over', '01 00 11'), ('a leading zero group, then 17', '01 02 8001 11'),
        ('17 127 times, then broken, no list', '01 8100' + '11' * 127 + '80', 0))

# A list shorter than the events.
damaged(25, ('1 event, no list', '01 01 05', 0), ('3 events, list of 2', '01 03 0f0e0f', 2),
        ('128 events, list of 127', '01 8100' + '10' * 128, 127),
        ('16383 events, no list', '01 ff7f' + '10' * 16383, 0),
        ('16384 events, no list', '01 818000' + '10' * 16384, 0))

# Open's refusals come last (R45): 1, then 2 to 11.  Draw gives the image's own number, else 12.
for refusal, name, record in (
        (16, 'no form', ''), (17, 'form 2', '02'), (16, 'short', '01 02 05'), (13, 'event 17', '01 01 11'),
        (25, 'no list', '01 01 05')):
    unplayed(refusal, name + ', shape 13 x 4', record, 0, shape=(13, 4))
    unplayed(refusal, name + ', 9 bytes', record, 0, MENU[:9], drawn=2)
for name, no, img, sheet in FAULTS:
    unplayed(no, name, '01 01 05', 1, img, sheet, drawn=no)
    if no > 2:
        unplayed(25, name, '01 01 05', 0, img, sheet, drawn=no)
unplayed(2, '9 bytes, no events', '01 00', 0, MENU[:9], drawn=2)
unplayed(9, '29 February 2023 for a default', '01 01 05', 1, one(date(2023, 2, 29)), drawn=9)
for columns, lines in (13, 4), (21, 2), (16, 1), (16, 5):
    unplayed(1, f'shape {columns} x {lines}', '01 03 0f0e0f', shape=(columns, lines))
unplayed(1, '9 bytes, shape 13 x 2', '01 03 0f0e0f', img=MENU[:9], shape=(13, 2), drawn=2)
