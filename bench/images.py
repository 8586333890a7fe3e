"""Images at the limits of document 01 and keys of the marker, for the measurements: `python3 bench/images.py FOLDER` writes them,
NAME.cmf and NAME.key, and the key of the sample paper. A key's numbers have two bytes each, low byte first."""
import sys
from pathlib import Path

ROOT = Path(__file__).resolve().parent.parent
sys.path[:0] = str(ROOT / 'tests'), str(ROOT / 'samples')
from build import *                             # noqa: E402
from paper import PAPER                         # noqa: E402

X = string(b'x')
PRESET = {**dict.fromkeys(range(0x00, 0x05), 6), 0x14: 9}       # codes of one-byte fields, and where their default stands


def submenus(*tables):
    """A top table with a line for each of the others, which it leads to."""
    return image(table(b'TOP', *[line(X, sub=k + 1) for k in range(len(tables))]), *[table(b'T', *lines) for lines in tables])


def padded(img, length):
    """The same with bytes behind it that nothing reaches."""
    return img.like(img + bytes(length - len(img)))


def options(count):
    """Options in lines of eight, a byte of the sheet each."""
    return image(table(b'F', *[line(*[option(b'no', b'yes', at=8 * k + j) for j in range(8)]) for k in range(count // 8)]))


def numbers(count):
    """Lines of three numbers that fill their rows, in turn of two sorts, with digits of all sizes."""
    def odd(k, at):
        return num(0x07, 9973 * k % 65536, at), counter(-32768, 32767, 1, 1999 * k % 65536 - 32768, 6, at + 2), time(k % 24, 7 * k % 60, 11 * k % 60, at=at + 4)

    def even(k, at):
        return date(1970 + k, 1 + k % 12, 1 + k % 28, at), num(0x09, 37 * k % 1000, at + 4), time(k % 24, 13 * k % 60, at=at + 6)

    return image(table(b'N', *[line(*(odd, even)[k % 2](k, 8 * k)) for k in range(count)]))


def key(img, components):
    """A question for each one-byte field among these components: its sheet place, one more than its default, 1 to 3 points."""
    fields = [(place, img[place] & 0x1F) for place in components if img[place] & 0x1F in PRESET]
    return b''.join(img[place + 4:place + 6] + u16((img[place + PRESET[code]] + 1) % 256) + u16(1 + k % 3)
                    for k, (place, code) in enumerate(fields))


IMAGES = {
    # 12 lines that lead to tables of 84 or 85: 1,024 lines in all
    'lines': submenus(*[[line(X)] * (84 if k < 8 else 85) for k in range(12)]),
    # 32 lines of 8 options: 256 fields
    'fields': options(256),
    # 64 lines of integers, counters, times and dates: 192 fields
    'numbers': numbers(64),
    # three tables of 50 lines with a text of 190 bytes each, and bytes behind them: 32,768
    'bytes': padded(submenus(*[[line(string(b'y' * 190))] * 50 for _ in range(3)]), 32768),
    # to see how cost grows
    **{f'options{count}': options(count) for count in (64, 128, 256)},
}

if __name__ == '__main__':
    folder = Path(sys.argv[1])
    for name, img in IMAGES.items():
        (folder / (name + '.cmf')).write_bytes(img)
        (folder / (name + '.key')).write_bytes(key(img, img.comps))
    (folder / 'sample.key').write_bytes(key(PAPER.image(), PAPER.fields))
