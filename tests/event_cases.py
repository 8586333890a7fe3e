"""Cases of Event: lists of keys on a line's fields, played from Open on; beside each list stand its answers, and the
sheet and the picture at its end."""
import re

from fit_cases import *

# ---- Lists of events -------------------------------------------------------------------------------------------------
# A list is written in words of keys and the answer that each of them gets, as '25t Ed1'.  Keys: 0 to 9, . POINT, U UP,
# D DOWN, L LEFT, R RIGHT, E ENTER, S one second, X event 17, Y event 255.  Answers: t taken, f flash, d finished,
# ! fired, r refused with its number.  Behind d and ! stands the number of the image's component, 1 if none does.
KEYS = '0123456789.UDLRESX'
def played(img, words):
    events, answers = [], []
    for word in words.split():
        keys, answer, number = re.fullmatch(r'([0-9.UDLRESXY]+)([tfd!r])(\d*)', word).groups()
        if answer in 'd!':
            number = img.comps[int(number or 1)]
        events += [255 if key == 'Y' else KEYS.index(key) for key in keys]
        answers += [f'{answer}{number}'] * len(keys)
    return bytes(events), answers
def play(name, opened, img, words, sheet, shape, drawn):                # sheet and Draw's answer are those at the end
    (events, answers), sheet = played(img, words), bytes.fromhex(sheet)
    check('play, ' + name, opened, img, len(sheet), 5, *shape,
          answer=''.join(f' {found}' for found in [*answers, sheet.hex(), drawn]), tail=u16(len(events)) + events)
def plays(name, img, words, sheet, picture, cursor='-'):                # rows are filled up with blanks
    columns = len(picture[0])
    data = ''.join(row.ljust(columns) for row in picture).encode('latin-1')
    assert len(data) == columns * len(picture), name
    play(name, 0, img, words, sheet, (columns, len(picture)), f'0 {cursor} {data.hex()}')

# ---- Each kind, every key --------------------------------------------------------------------------------------------
# A field at sheet place 1, between 'ab' and '|': the list, the field's cells at the end, the edit cursor's column (0:
# none) and the field's bytes at the end.  The sheet's bytes beside the field stay EE.
def types(kind, c, *cases):
    img = one(string(b'ab'), c, string(b'|'))
    for name, words, cells, column, stored in cases:
        plays(f'{kind}, {name}', img, words, f'ee {stored} ee', [T14, f'>ab{cells}|'.ljust(13)[:13] + ' '],
              f'1,{column}' if column else '-')

types('dd', num(0x00, 42, 1),
      ('ENTER', 'Et', '42', 3, '2a'), ('ENTER twice', 'Et Ed', '42', 0, '2a'), ('half typed', 'Et 1t', '12', 4, '2a'),
      ('typed', 'Et 17t', '17', 4, '2a'), ('stored', 'Et 17t Ed', '17', 0, '11'),
      ('stored and opened again', 'Et 17t Ed Et', '17', 3, '11'), ('the same digits', 'Et 42t Ed', '42', 0, '2a'),
      ('a third digit is set in the last cell', 'Et 175t', '15', 4, '2a'), ('99', 'Et 99t Ed', '99', 0, '63'),
      ('00', 'Et 00t Ed', '00', 0, '00'), ('LEFT and RIGHT at the ends', 'Et Lf Rt Rf Lt Lf', '42', 3, '2a'),
      ('UP to 9', 'Et UUUUUt UUf', '92', 3, '2a'), ('DOWN to 0', 'Et DDDDt DDf', '02', 3, '2a'),
      ('UP and DOWN stay in the cell', 'Et RDt UUt', '43', 4, '2a'), ('POINT (R26)', 'Et .f Rt .f', '42', 4, '2a'),
      ('every digit', 'Et 0123456789t', '09', 4, '2a'),
      ('seconds and refused events', 'Et S1t Xr13 S7t Yr13 Ed', '17', 0, '11'))
types('ddd', num(0x01, 7, 1),
      ('255', 'Et 255t Ed', '255', 0, 'ff'), ('300 flashes and stays (R29)', 'Et 300t Ef', '300', 5, '07'),
      ('256 flashes', 'Et 256t Ef', '256', 5, '07'), ('999 flashes each time', 'Et 999t EEEf', '999', 5, '07'),
      ('300 corrected by a digit', 'Et 300t Ef LL2t Ed', '200', 0, 'c8'),
      ('300 corrected by DOWN', 'Et 300t Ef LLDt Ed', '200', 0, 'c8'),
      ('300 by UP', 'Et UUUt RRDDDDDDDt Ef', '300', 5, '07'), ('UP at 9 typed', 'Et 9Lt Uf', '907', 3, '07'),
      ('UP in the last cell', 'Et RRUUt Uf Ed', '009', 0, '09'), ('DOWN at 0', 'Et Df Rt Df RDt', '006', 5, '07'),
      ('100', 'Et 1Rt 0t Ed', '100', 0, '64'))
types('hh', num(0x02, 0x9C, 1),
      ('ENTER', 'Et', '9C', 3, '9c'), ('UP from 9 to A', 'Et Ut', 'AC', 3, '9c'),
      ('UP to F', 'Et UUUUUUt Uf', 'FC', 3, '9c'), ('DOWN from C to 9', 'Et RDDDt', '99', 4, '9c'),
      ('digits (R26)', 'Et 07t Ed', '07', 0, '07'), ('FF', 'Et UUUUUURUUUt Uf Ed', 'FF', 0, 'ff'),
      ('B0', 'Et UUR0t Ed', 'B0', 0, 'b0'), ('POINT (R26)', 'Et .f', '9C', 3, '9c'),
      ('a digit on a letter', 'Et R5t', '95', 4, '9c'), ('ends', 'Et Lf Rt Rf', '9C', 4, '9c'))
types('sdd', num(0x03, -5, 1),
      ('ENTER (R27)', 'Et', '-05', 3, 'fb'), ('digits on the sign (R26)', 'Et 0123456789.f', '-05', 3, 'fb'),
      ('UP on the sign', 'Et Ut', '+05', 3, 'fb'), ('UP twice on the sign', 'Et UUt Ed', '+05', 0, '05'),
      ('DOWN on -', 'Et DDt Ed', '-05', 0, 'fb'), ('+ and - again', 'Et UDt Ed', '-05', 0, 'fb'),
      ('minus zero in the visit', 'Et R00t', '-00', 5, 'fb'),
      ('minus zero is stored as 0', 'Et R00t Ed', '+00', 0, '00'),
      ('minus zero opened again', 'Et R00t Ed Et', '+00', 3, '00'), ('-99', 'Et R99t Ed', '-99', 0, '9d'),
      ('+99', 'Et UR99t Ed', '+99', 0, '63'), ('ends', 'Et Lf RRt Rf', '-05', 5, 'fb'),
      ('UP on a digit', 'Et RUt', '-15', 4, 'fb'), ('DOWN on a digit 0', 'Et Rt Df', '-05', 4, 'fb'),
      ('UP on a digit to 9', 'Et RRUUUUt Uf', '-09', 5, 'fb'),
      ('back on the sign', 'Et R7Lt LUt 7f Ed', '+75', 0, '4b'))
types('sddd', num(0x04, -128, 1),
      ('ENTER', 'Et Ed', '-128', 0, '80'), ('+128 flashes', 'Et Ut Ef', '+128', 3, '80'),
      ('+128 made -128 again', 'Et Ut Ef Dt Ed', '-128', 0, '80'), ('+127', 'Et URRRDt Ed', '+127', 0, '7f'),
      ('-129 flashes', 'Et RRRUt Ef', '-129', 6, '80'),
      ('-999 corrected to -001', 'Et R999t Ef LLt 001t Ed', '-001', 0, 'ff'),
      ('minus zero', 'Et R000t Ed', '+000', 0, '00'), ('+999 flashes', 'Et UR999t Ef', '+999', 6, '80'))
types('DDD', num(0x05, 300, 1),
      ('999', 'Et 999t Ed', '999', 0, 'e703'), ('a fourth digit', 'Et 1234t Ed', '124', 0, '7c00'),
      ('unfinished', 'Et 256t', '256', 5, '2c01'), ('256', 'Et 256t Ed', '256', 0, '0001'),
      ('POINT', 'Et .f', '300', 3, '2c01'))
types('DDDD', num(0x06, 4000, 1),
      ('9999', 'Et 9999t Ed', '9999', 0, '0f27'), ('by UP and DOWN', 'Et URURURUt Ed', '5111', 0, 'f713'),
      ('ends', 'Et Lf RRRt Rf', '4000', 6, 'a00f'))
types('DDDDD', num(0x07, 50000, 1),
      ('65535', 'Et 65535t Ed', '65535', 0, 'ffff'), ('65536 flashes', 'Et 65536t Ef', '65536', 7, '50c3'),
      ('65536 corrected', 'Et 65536t Ef Dt Ed', '65535', 0, 'ffff'),
      ('99999 flashes', 'Et 99999t Ef', '99999', 7, '50c3'), ('70000 flashes', 'Et UUt Ef', '70000', 3, '50c3'),
      ('256', 'Et 00256t Ed', '00256', 0, '0001'))
types('HHHH', num(0x08, 0xBEEF, 1),
      ('1234', 'Et 1234t Ed', '1234', 0, '3412'), ('UP to F', 'Et UUUUt Uf', 'FEEF', 3, 'efbe'),
      ('FFFF', 'Et UUUURURURt Uf Ed', 'FFFF', 0, 'ffff'), ('DOWN to A', 'Et Dt Ed', 'AEEF', 0, 'efae'),
      ('9 and UP', 'Et 9LUt', 'AEEF', 3, 'efbe'), ('0000', 'Et 0000t Df Ed', '0000', 0, '0000'))
types('SDDD', num(0x09, -300, 1),
      ('-999', 'Et R999t Ed', '-999', 0, '19fc'), ('+999', 'Et UR999t Ed', '+999', 0, 'e703'),
      ('minus zero', 'Et R000t Ed', '+000', 0, '0000'), ('digits on the sign', 'Et 30.f', '-300', 3, 'd4fe'),
      ('+300', 'Et Ut Ed', '+300', 0, '2c01'))
types('SDDDD', num(0x0A, -4000, 1),
      ('-9999', 'Et R9999t Ed', '-9999', 0, 'f1d8'), ('+0042', 'Et UR0042t Ed', '+0042', 0, '2a00'),
      ('-0042', 'Et R0042t Ed', '-0042', 0, 'd6ff'), ('minus zero', 'Et R0000t Ed', '+0000', 0, '0000'))

types('counter -5..100 at 98', counter(-5, 100, 10, 98, 3, 1),
      ('ENTER', 'Et', ' 98', 5, '6200'), ('UP flashes', 'Et Uf Ed', ' 98', 0, '6200'),
      ('DOWN', 'Et Dt', ' 88', 5, '6200'), ('88', 'Et Dt Ed', ' 88', 0, '5800'),
      ('DOWN and UP', 'Et DUt Uf Ed', ' 98', 0, '6200'), ('down to -2', 'Et DDDDDDDDDDt Df Ed', ' -2', 0, 'feff'),
      ('up from -2', 'Et DDDDDDDDDDt Df Ut', '  8', 5, '6200'), ('other keys', 'Et 0123456789.LRf', ' 98', 5, '6200'))
types('counter at 32760', counter(-32768, 32767, 10, 32760, 6, 1),
      ('UP flashes', 'Et Uf', ' 32760', 8, 'f87f'), ('DOWN', 'Et Dt Ed', ' 32750', 0, 'ee7f'))
types('counter at -32760', counter(-32768, 32767, 10, -32760, 6, 1),
      ('DOWN flashes', 'Et Df', '-32760', 8, '0880'), ('UP', 'Et Ut Ed', '-32750', 0, '1280'))
types('counter, step 32767', counter(-32768, 32767, 32767, 0, 6, 1),
      ('UP', 'Et Ut Uf Ed', ' 32767', 0, 'ff7f'), ('DOWN', 'Et Ut Uf DDt Df Ed', '-32767', 0, '0180'))
types('counter 0..9', counter(0, 9, 1, 0, 1, 1), ('both ends', 'Et Df UUUUUUUUUt Uf Ed', '9', 0, '0900'))
types('counter 5..5', counter(5, 5, 1, 5, 2, 1), ('UP, DOWN', 'Et UDf Ed', ' 5', 0, '0500'))
types('counter -9..-5', counter(-9, -5, 2, -5, 2, 1), ('both ends', 'Et Uf DDt Df Ed', '-9', 0, 'f7ff'))

types('time-long', time(23, 59, 58, at=1),
      ('ENTER', 'Et', '23:59:58', 3, '173b3a'), ('UP at hours 23', 'Et Uf', '23:59:58', 3, '173b3a'),
      ('DOWN', 'Et Dt', '22:59:58', 3, '173b3a'), ('ENTER to minutes', 'EEt', '23:59:58', 6, '173b3a'),
      ('ENTER to seconds', 'EEEt', '23:59:58', 9, '173b3a'), ('ENTER four times', 'EEEt Ed', '23:59:58', 0, '173b3a'),
      ('UP at minutes 59', 'EEt Uf', '23:59:58', 6, '173b3a'),
      ('UP at seconds 58, 59', 'EEEt Ut Uf Ed', '23:59:59', 0, '173b3b'),
      ('other keys on hours', 'Et 0123456789.LRf', '23:59:58', 3, '173b3a'),
      ('other keys on minutes', 'EEt 0123456789.LRf', '23:59:58', 6, '173b3a'),
      ('other keys on seconds', 'EEEt 0123456789.LRf', '23:59:58', 9, '173b3a'),
      ('nothing stored before the end', 'EDEDEDt', '22:58:57', 9, '173b3a'),
      ('each part', 'EDEDEDt Ed', '22:58:57', 0, '163a39'))
types('time-long 0', time(0, 0, 0, at=1), ('DOWN', 'Et Df Et Df Et Df Ed', '00:00:00', 0, '000000'))
types('time-short', time(7, 8, at=1),
      ('ENTER to minutes', 'EEt', '07:08', 6, '0708'), ('each part', 'EUEDt Ed', '08:07', 0, '0807'),
      ('nothing stored before the end', 'EUEDt', '08:07', 6, '0708'),
      ('other keys', 'EEt 0123456789.LRf', '07:08', 6, '0708'),
      ('down to 0', 'EDDDDDDDt Df EDDDDDDDDt Df Ed', '00:00', 0, '0000'))
types('time-short at its end', time(23, 59, at=1), ('UP', 'Et Uf Et Uf Ed', '23:59', 0, '173b'))
types('date-long', date(2026, 11, 15, 1),
      ('ENTER', 'Et', '2026-11-15', 3, '0f0bea07'), ('ENTER to the month (R5)', 'EEt', '2026-11-15', 8, '0f0bea07'),
      ('ENTER to the day', 'EEEt', '2026-11-15', 11, '0f0bea07'),
      ('ENTER four times', 'EEEt Ed', '2026-11-15', 0, '0f0bea07'),
      ('each part', 'EUEUEUt Ed', '2027-12-16', 0, '100ceb07'),
      ('month past 12', 'EEUt Uf', '2026-12-15', 8, '0f0bea07'),
      ('other keys', 'Et 0123456789.LRf', '2026-11-15', 3, '0f0bea07'),
      ('other keys on the day', 'EEEt 0123456789.LRf', '2026-11-15', 11, '0f0bea07'))
types('date-long, last', date(9999, 12, 31, 1), ('UP', 'Et Uf Et Uf Et Uf Ed', '9999-12-31', 0, '1f0c0f27'))
types('date-long, first', date(0, 1, 1, 1), ('DOWN', 'Et Df Et Df Et Df Ed', '0000-01-01', 0, '01010000'))
types('date-long 255', date(255, 1, 1, 1), ('to 256', 'EUEEt Ed', '0256-01-01', 0, '01010001'))
types('date-short', date(26, 11, 15, 1, short=True),
      ('each part', 'EDEDEDt Ed', '25-10-14', 0, '0e0a19'), ('ENTER to the month', 'EEt', '26-11-15', 6, '0f0b1a'),
      ('ENTER to the day', 'EEEt .f', '26-11-15', 9, '0f0b1a'))
types('date-short, last', date(99, 12, 31, 1, short=True), ('UP', 'Et Uf Et Uf Et Uf Ed', '99-12-31', 0, '1f0c63'))
types('date-short, first', date(0, 1, 1, 1, short=True), ('DOWN', 'Et Df Et Df Et Df Ed', '00-01-01', 0, '010100'))

# Real dates (02 No. 3): steps of year and month and ENTER from the year leave the day, ENTER from the month lowers it
# to the month's end, and the day part steps from 1 to that end (R50).
types('date-long, 31 March', date(2024, 3, 31, 1),
      ('to February', 'EEDEt Ed', '2024-02-29', 0, '1d02e807'), ('31 February', 'EEDt', '2024-02-31', 8, '1f03e807'),
      ('ENTER lowers 31 February', 'EEDEt', '2024-02-29', 11, '1f03e807'),
      ('over February and back', 'EEDDUUEt Ed', '2024-03-31', 0, '1f03e807'),
      ('to February, then to March', 'EEDEt Ed EEUEt Ed', '2024-03-29', 0, '1d03e807'),
      ('down to 1 April', 'EEUEt ' + 'D' * 29 + 't Df Ed', '2024-04-01', 0, '0104e807'),
      ('31 February, other keys', 'EEDt 0123456789.LRf St Xr13', '2024-02-31', 8, '1f03e807'))
types('date-long, 31 March 2023', date(2023, 3, 31, 1), ('to February', 'EEDEt Uf Ed', '2023-02-28', 0, '1c02e707'))
types('date-long, 1 February 2023', date(2023, 2, 1, 1),
      ('up to 28', 'EEEt Df ' + 'U' * 27 + 't Uf Ed', '2023-02-28', 0, '1c02e707'))
types('date-long, 31 January', date(2024, 1, 31, 1),
      ('to February', 'EEUEt Uf Ed', '2024-02-29', 0, '1d02e807'),
      ('to March', 'EEUUEt Uf Ed', '2024-03-31', 0, '1f03e807'),
      ('to April', 'EEUUUEt Uf Ed', '2024-04-30', 0, '1e04e807'),
      ('to May', 'EEUUUUEt Uf Ed', '2024-05-31', 0, '1f05e807'),
      ('to June', 'EEUUUUUEt Uf Ed', '2024-06-30', 0, '1e06e807'),
      ('to July', 'EEUUUUUUEt Uf Ed', '2024-07-31', 0, '1f07e807'),
      ('to August', 'EEUUUUUUUEt Uf Ed', '2024-08-31', 0, '1f08e807'),
      ('to September', 'EEUUUUUUUUEt Uf Ed', '2024-09-30', 0, '1e09e807'),
      ('to October', 'EEUUUUUUUUUEt Uf Ed', '2024-10-31', 0, '1f0ae807'),
      ('to November', 'EEUUUUUUUUUUEt Uf Ed', '2024-11-30', 0, '1e0be807'),
      ('to December', 'EEUUUUUUUUUUUEt Uf Ed', '2024-12-31', 0, '1f0ce807'))
types('date-long, 29 February', date(2024, 2, 29, 1),
      ('UP in the year', 'EUt', '2025-02-29', 3, '1d02e807'),
      ('ENTER from the year', 'EUEt', '2025-02-29', 8, '1d02e807'),
      ('to 2025', 'EUEEt Uf Ed', '2025-02-28', 0, '1c02e907'),
      ('to 2025 and back', 'EUDEEt Ed', '2024-02-29', 0, '1d02e807'),
      ('to March 2025', 'EUEUEt Ed', '2025-03-29', 0, '1d03e907'),
      ('to 2028', 'EUUUUEEt Uf Ed', '2028-02-29', 0, '1d02ec07'))
types('date-long, 29 February 2000', date(2000, 2, 29, 1),
      ('ENTER four times', 'EEEt Ed', '2000-02-29', 0, '1d02d007'))
types('date-long, 29 February 1904', date(1904, 2, 29, 1),
      ('to 1900', 'EDDDDEEt Uf Ed', '1900-02-28', 0, '1c026c07'))
types('date-long, 29 February 2096', date(2096, 2, 29, 1),
      ('to 2100', 'EUUUUEEt Uf Ed', '2100-02-28', 0, '1c023408'))
types('date-long, 29 February 4', date(4, 2, 29, 1), ('to 0', 'EDDDDt Df EEt Uf Ed', '0000-02-29', 0, '1d020000'))
types('date-long, 29 February 9996', date(9996, 2, 29, 1),
      ('to 9999', 'EUUUt Uf EEt Uf Ed', '9999-02-28', 0, '1c020f27'))
types('date-short, 31 March', date(24, 3, 31, 1, short=True),
      ('to February', 'EEDEt Uf Ed', '24-02-29', 0, '1d0218'), ('to April', 'EEUEt Uf Ed', '24-04-30', 0, '1e0418'))
types('date-short, 29 February 2000', date(0, 2, 29, 1, short=True),        # R51
      ('ENTER four times', 'EEEt Uf Ed', '00-02-29', 0, '1d0200'), ('to 2001', 'EUEEt Uf Ed', '01-02-28', 0, '1c0201'))

types('switch of 5', switch(5, 0x16, 1),
      ('ENTER', 'Et', '10110', 3, '16000000'), ('UP on what is on', 'Et Ut Ed', '10110', 0, '16000000'),
      ('DOWN', 'Et Dt Ed', '00110', 0, '06000000'), ('DOWN on what is off', 'Et RDt', '10110', 4, '16000000'),
      ('ends', 'Et Lf RRRRt Rf', '10110', 7, '16000000'), ('last bit on', 'Et RRRRUt Ed', '10111', 0, '17000000'),
      ('two bits, unfinished', 'Et DRUt', '01110', 4, '16000000'), ('two bits', 'Et DRUt Ed', '01110', 0, '0e000000'),
      ('digits and POINT (R26)', 'Et 0123456789.f', '10110', 3, '16000000'))
types('switch of 1', switch(1, 0, 1), ('on', 'Et LRf Ut Ed', '1', 0, '01000000'))
types('switch of 9', switch(9, 0x105, 1), ('two bits', 'Et DRRRRRRRUt Ed', '000000111', 0, '07000000'))
types('switch of 32', switch(32, 0xA5F0C301, 1),
      ('lowest bit', 'Et ' + 'R' * 31 + 't Rf Dt', '10100101111100001100001100000000', 12, '01c3f0a5'),
      ('lowest bit off', 'Et ' + 'R' * 31 + 'Dt Ed', '10100101111100001100001100000000', 0, '00c3f0a5'),
      ('highest bit off', 'Et Dt Ed', '00100101111100001100001100000001', 0, '01c3f025'))
types('option of 4', option(*MAYBE, default=1, at=1),
      ('ENTER', 'Et', 'yes    ', 3, '01'), ('RIGHT to an empty item', 'Et Rt', '       ', 3, '01'),
      ('empty item', 'Et Rt Ed', '       ', 0, '02'), ('RIGHT to the last', 'Et RRt Rf Ed', 'perhaps', 0, '03'),
      ('LEFT to the first', 'Et Lt Lf Ed', 'no     ', 0, '00'), ('RIGHT and LEFT', 'Et RLt Ed', 'yes    ', 0, '01'),
      ('other keys', 'Et 0123456789.UDf', 'yes    ', 3, '01'), ('unfinished', 'Et RRt', 'perhaps', 3, '01'))
types('option of 1', option(b'a', at=1), ('LEFT, RIGHT', 'Et LRf Ed', 'a', 0, '00'))
types('option of empty items', option(*BLANK, at=1), ('RIGHT', 'Et Rt Rf Ed', '', 0, '01'))
types('option of 244', option(*[b''] * 243, b'u', at=1), ('RIGHT', 'Et ' + 'R' * 243 + 't Rf Ed', 'u', 0, 'f3'))
for name, tag in ('trigger', trigger()), ('trigger, edit bit 0', trigger(0)):
    types(name, tag, ('ENTER', 'Et', '[*]', 4, ''),
          ('cursor keys fire, the visit stays', 'Et U! D! L! R!', '[*]', 4, ''),
          ('digits and POINT (R28)', 'Et 0123456789.f', '[*]', 4, ''), ('ENTER passes it (R28)', 'EEt', '[*]', 0, ''),
          ('fired, passed, opened again', 'Et UU! SEEt R!', '[*]', 4, ''))
TEST2 = ['TEST        : 1 ', '>P1 yes', ' Log           >', '']
plays('TEST, ENTER RIGHT ENTER', MENU, 'Et Rt Ed', '01000000', TEST2)
plays('TEST, ENTER ENTER', MENU, 'Et Ed', ZERO, TEST)
plays('TEST, RIGHT without ENTER', MENU, 'Et Rt', ZERO, TEST2, '1,4')
plays('TEST, no events', MENU, '', ZERO, TEST)
plays('a field in the last bytes of a sheet', one(num(7, at=4094)), 'Et 12345t Ed0', 'ee' * 4094 + '3930',
      [T14, '>12345'])

# ---- Several fields on a line, triggers and a read-only field between them -------------------------------------------
WALK = one(string(b'a'), B(0), trigger(), num(0, 12, 1, 0), option(b'no', b'yes', at=2), trigger(0), num(0, 5, 3))
for name, words, sheet, row, column in (
        ('ENTER opens the first', 'Et', '000c0005', 'a000[*]12no [*]05', 2),
        ('finished, the trigger is next', 'Et Ed', '000c0005', 'a000[*]12no [*]05', 6),
        ('the trigger passed, read-only skipped', 'Et Ed Et', '000c0005', 'a000[*]12no [*]05', 10),
        ('the trigger fired and passed', 'Et Ed L!2 R!2 Et', '000c0005', 'a000[*]12no [*]05', 10),
        ('option finished', 'Et Ed Et Rt Ed4', '000c0105', 'a000[*]12yes[*]05', 14),
        ('second trigger fires', 'Et Ed Et Ed4 U!5', '000c0005', 'a000[*]12no [*]05', 14),
        ('second trigger passed', 'Et Ed Et Ed4 Et', '000c0005', 'a000[*]12no [*]05', 16),
        ('the last finished', 'Et Ed Et Ed4 Et Ed6', '000c0005', 'a000[*]12no [*]05', 0),
        ('all of them', 'Et 012t Ed U!2 Et Rt Ed4 D!5 Et 73t Ed6', '0c0c0149', 'a012[*]12yes[*]73', 0),
        ('the last unfinished', 'Et 012t Ed Et Rt Ed4 Et 73t', '0c0c0105', 'a012[*]12yes[*]73', 17),
        ('out of range stays in the first', 'Et 300t Ef', '000c0005', 'a300[*]12no [*]05', 4),
        ('out of range, then on', 'Et 300t Ef LL1t Ed Et', '640c0005', 'a100[*]12no [*]05', 10),
        ('once more from the first', 'Et 9L0t Ed Et Ed4 Et Ed6 Et', '000c0005', 'a000[*]12no [*]05', 2),
        ('seconds between', 'SESt Ed SEt SSRt Ed4 St', '000c0105', 'a000[*]12yes[*]05', 14)):
    plays('line, ' + name, WALK, words, sheet, [T20, '>' + row], f'1,{column}' if column else '-')
PARTS = one(time(7, 8), string(b' '), date(26, 11, 15, 2, short=True), switch(2, 0, 5))
for name, words, sheet, row, cursor in (        # each ENTER goes to the next part, the last one to the next field
        ('minutes', 'EEt', '0708 0f0b1a 00000000', '>07:08 26-11-1500', '1,4'),
        ('year', 'EUEDt Ed0', '0807 0f0b1a 00000000', '>08:07 26-11-1500', '1,7'),
        ('day', 'EEt Ed0 EEUt', '0708 0f0b1a 00000000', '>07:08 26-11-1600', '1,13'),
        ('bits', 'EEt Ed0 DEEUt Ed2 RUt', '0708 100b19 00000000', '>07:08 25-11-1601', '1,16'),
        ('all', 'EUEt Ed0 DEEUt Ed2 RUt Ed3', '0808 100b19 01000000', '>08:08 25-11-1601', '-')):
    plays('parts, ' + name, PARTS, words, sheet, [T20, row], cursor)
for name, words, sheet, row, cursor in (        # a trigger before and behind a field
        ('opens the trigger', 'Et', '07', '>[*]007[*]', '1,2'), ('passes it', 'EEt', '07', '>[*]007[*]', '1,4'),
        ('finishes the field', 'EE123t Ed', '7b', '>[*]123[*]', '1,8'),
        ('passes the last', 'EE123t Ed Et', '7b', '>[*]123[*]', '-'),
        ('fires each', 'Et L!0 Et Lf Ed R!2 Et', '07', '>[*]007[*]', '-')):
    plays('ENTER between triggers, ' + name, one(trigger(), num(1, 7), trigger()), words, sheet, [T14, row], cursor)
