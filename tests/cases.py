#!/usr/bin/env python3
"""Cases for the calls on CMF 0.4 menu images: each has a name, an image, a sheet and, written by hand beside the name,
the refusal number that the papers give (0: accepted) and what else is answered.  `python3 cases.py FOLDER` writes
FOLDER/stdin and FOLDER/stdout.

stdin: for each case op (1 check, 2 option text, 3 open, 4 draw, 5 play, 6 step, 7 mark, 8 record, 9 replay), name
length, name, then two bytes each of image length, sheet length, place, item, then the image.  Open, play and replay
have their columns and lines for place and item.  For play there follow the count of its events in two bytes and the
events.  For draw there follow the sheet, the picture's length in two bytes, and the session: columns, lines, outer;
seven levels above and the level here, each its table's place in eight bytes, cursor line, first shown line; idle; mode
(0 browsing, 1 visit, 2 password) and in eight bytes the visit's place or the count of typed digits; the chosen cell; 32
cells in four bytes each; eight typed digits.  Step is as draw, with its event in place of the picture's length.  For
mark there follow the sheet, the count of the key's numbers in two bytes, and the numbers in two bytes each; place and
item are 0.  Record has the events for its image and the room's length for the sheet's; place and item are 0, and
nothing follows.  For replay there follow two bytes each of the count of the list's entries and the record's length,
then the record.  Numbers of more than one byte stand low byte first, but for those in a record.
stdout: 'NAME: REFUSAL', for op 2 'NAME: REFUSAL HEX', for op 3 'NAME: REFUSAL COLUMNSxLINES HEX' with the session's
display and the sheet afterwards, for op 4 'NAME: REFUSAL CURSOR HEX' with the edit cursor ('row,column' or '-') and
the picture afterwards, for op 5 'NAME: REFUSAL ANSWER .. HEX REFUSAL CURSOR HEX' with Open's refusal, an answer for
each event (t taken, f flash, d finished and ! fired with the image place, r refused with its number), the sheet
afterwards and what draw then answers, for op 6 'NAME: ANSWER HEX HEX' with the sheet afterwards and the bytes of the
session handed back, for op 7 'NAME: 0 RIGHT WRONG BLANK' with the three sums, or 'NAME: REFUSAL', for op 8
'NAME: REFUSAL LENGTH HEX' with the record's length (0 if refused) and the room afterwards, for op 9 'NAME: REFUSAL
EVENTS ANSWER .. HEX REFUSAL CURSOR HEX' with the number of events (0 if refused), every entry of the list of answers
afterwards in decimal, the sheet afterwards and what draw answers on the session handed back.  Before record the room
has EE in every byte; before replay sheet and picture have, and the list has 7 in every entry.  R1 to R33 and R40 to
R51 are the readings of the papers that a case rests on."""
import sys
from pathlib import Path

from build import CASES
import record_cases                             # and through it the files before it

if __name__ == '__main__':
    folder = Path(sys.argv[1])
    folder.mkdir(parents=True, exist_ok=True)
    (folder / 'stdin').write_bytes(b''.join(record for record, _ in CASES))
    (folder / 'stdout').write_bytes(''.join(answer for _, answer in CASES).encode('ascii'))
