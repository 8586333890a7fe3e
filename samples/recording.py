"""The record of the sitting in sitting.py, and what comes of playing it back, from what is there by hand: keys, answers, last
picture and the fields' bytes. python3 samples/recording.py writes data/ (paper.cmf, record.bin), args and stdout of
crates/replay and crates/transcript; with --check it writes nothing and says which of them differs. Nothing here comes from
the program under test."""
from paper import PAPER, ROOT, write_or_check
from sitting import FIELDS, SITTING, played, told

# 02, No. 2: a record is a row of numbers: the form number 1, the number of events, the events. A number is written in groups
# of seven bits, highest group first, with the top bit set on all but the last.
FORM = 1
def number(n, top=0): return (number(n >> 7, 0x80) if n > 0x7F else b'') + bytes([top | n & 0x7F])
# 01, The four calls: the digits are the events 0 to 9, and these follow them in this order.
AFTER_DIGITS = '.udlres'
def event(key): return int(key) if key.isdigit() else 10 + AFTER_DIGITS.index(key)

PRESSED = [k for keys, _, _ in SITTING for k in played(keys)]
def record(): return b''.join(map(number, [FORM, len(PRESSED), *map(event, PRESSED)]))

# The last picture is in the frame, row by row; a line with the edit cursor is outside.
def picture(): return ''.join(row[1:-1] for row in SITTING[-1][2].split('\n') if row.startswith('|')).encode('ascii')
def sheet():
    data = bytearray(4096)
    for _, place, digits, _ in FIELDS:
        if place is not None:
            data[place:place + len(bytes.fromhex(digits))] = bytes.fromhex(digits)
    return bytes(data)

# Of the 120 events five are seconds: those that end the entry of a password.
COUNTS = '115 keys, 5 seconds'
def transcript():
    return '\n'.join([line for keys, answers, _ in SITTING for line in told(keys, answers)] + [COUNTS]) + '\n'

def files(crate, stdout):
    folder = ROOT / 'crates' / crate
    return [(folder / 'data/paper.cmf', PAPER.image()), (folder / 'data/record.bin', record()),
            (folder / 'args', b'paper.cmf\nrecord.bin\n'), (folder / 'stdout', stdout)]

if __name__ == '__main__':
    assert len(picture()) == 80
    write_or_check(files('replay', picture() + sheet()) + files('transcript', transcript().encode('ascii')))
