"""Cases of Option text and of Open."""
from image_cases import *

# ---- Option text -----------------------------------------------------------------------------------------------------
MENU = image(table(b'TEST', line(string(b'P1 '), option(b'no', b'yes')), line(string(b'Log'), sub=1)),
             table(b'LOG', line(option(b'', b'a\0b', b'\xff\x00', b'', at=1), B(2)), line(trigger(), option(b'z', at=3))),
             table(b'NO WAY', line(option(b'lost', at=4))))             # nothing leads to the last table
STRING, P1, _, LOG, BYTE, TRIGGER, Z, LOST = MENU.comps
texts(MENU, ('item 0 of 2', 0, P1, 0, b'no'), ('item 1 of 2', 0, P1, 1, b'yes'), ('item 2 of 2', 14, P1, 2),
      ('item 256 of 2', 14, P1, 256), ('item 65535 of 2', 14, P1, 65535), ('empty first item', 0, LOG, 0),
      ('item with a zero byte', 0, LOG, 1, b'a\0b'), ('item ff 00', 0, LOG, 2, b'\xff\x00'), ('empty last item', 0, LOG, 3),
      ('item 4 of 4', 14, LOG, 4), ('last reached option', 0, Z, 0, b'z'), ('unreached option', 14, LOST, 0),
      ('integer', 14, BYTE, 0), ('trigger', 14, TRIGGER, 0), ('constant string', 14, STRING, 0), ('place 0', 14, 0, 0),
      ('place of a line', 14, MENU.lines[0], 0), ('place before the tag', 14, P1 - 1, 0), ('place behind the tag', 14, P1 + 1, 0),
      ('place at the image end', 14, len(MENU), 0), ('place 65535', 14, 65535, 0))
for sheet, no, found in (3, 10, b''), (4, 0, b'no'), (4097, 10, b''):
    texts(MENU, (f'sheet {sheet}', no, P1, 0, found), sheet=sheet)
texts(chain([line(option(b'in', b'out'), sub=1)], [line(X)]), ('option on a line with a submenu', 0, 14, 1, b'out'))
texts(FAR, ('option at the end of 32768 bytes', 0, FAR.comps[1], 1, b'yes'))
texts(one(option(b'q' * 244)), ('item of 244 bytes', 0, 14, 0, b'q' * 244))
texts(one(option(*[b''] * 243, b'u')), ('item 243 of 244', 0, 14, 243, b'u'), ('item 244 of 244', 14, 14, 244))
texts(one(comp(0x14, 0, b'\x0d\1\2\0\2hi', 0)), ('read-only option', 0, 14, 0, b'hi'))
for name, no, img in ('9 bytes', 2, MENU[:9]), ('version wrong', 4, MENU.put(4, 5)), ('last option cut', 6, MENU.upto(Z + 5)):
    texts(img, (name, no, P1, 0))
for name, no, img in (('fault behind the option', 7, one(option(b'a'), b'\x18')), ('fault in it', 9, one(option(b'a', default=1))),
                      ('fault in a submenu', 9, chain([line(option(b'a'), sub=1)], [line(BAD9)])),
                      ('fields overlap', 11, one(option(b'a'), B(0))), ('refused before no such option', 8, deep(9))):
    texts(img, (name, no, 14, 0))

# ---- Open: refusal, the session's columns and lines (0x0: closed), and the sheet, which held EE in every byte ----------
def opens(name, refusal, img, shape, after):
    columns, lines = shape
    kept = f'{columns}x{lines}' if refusal == 0 else '0x0'
    check('open, ' + name, refusal, img, sheet=len(after), op=3, place=columns, item=lines, answer=f' {kept} {after.hex()}')
EVERY = one(num(1, 200, at=1), num(7, 0x1234, at=2), counter(-5, 100, 10, 98, 3, at=4), time(23, 59, 58, at=6), time(7, 8, at=9),
            date(2026, 11, 15, at=11), date(99, 12, 31, at=15, short=True), switch(9, 0x105, at=18), trigger(),
            option(b'no', b'yes', default=1, at=22), num(3, 0xFB, at=23))
DEFAULTS = bytes.fromhex('ee c8 3412 6200 173b3a 0708 0f0bea07 1f0c63 05010000 01 fb eeee')
for shape in (14, 2), (16, 4), (20, 4), (20, 2):
    opens(f'every kind at {shape[0]} x {shape[1]}', 0, EVERY, shape, DEFAULTS)
for shape in (13, 4), (21, 4), (16, 1), (16, 5), (0, 0), (255, 255):
    opens(f'shape {shape[0]} x {shape[1]}', 1, EVERY, shape, b'\xee' * 26)
opens('field past the sheet', 10, EVERY, (16, 4), b'\xee' * 23)
opens('bad shape before bad image', 1, EVERY[:9], (16, 5), b'\xee' * 4)
opens('bad image', 2, EVERY[:9], (16, 4), b'\xee' * 4)
opens('no fields', 0, one(X), (16, 4), b'\xee' * 3)
opens('field on a submenu', 0, chain([line(option(b'a', b'b', default=1, at=2), sub=1)], [line(num(0, 42, at=0))]), (16, 4), bytes.fromhex('2aee01'))
LEAP = one(date(2000, 2, 29), date(0, 2, 29, 5, short=True))
opens('29 February 2000, long and short', 0, LEAP, (16, 4), bytes.fromhex('1d02d007 ee 1d0200'))
opens('29 February 2001', 9, one(date(2001, 2, 29)), (16, 4), b'\xee' * 4)
