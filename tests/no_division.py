"""No division but by powers of two: `python3 tests/no_division.py`, after `tools/library`. It says so of the source of
every crate of the library and of the programs, contracts apart, and of the built library: no divide instruction, no call of
another object that could divide, and no multiplication by a constant, which is how a compiler divides by one. (One so small that
it is made of additions alone is not seen.)"""
import pathlib
import re
import subprocess
import sys

ROOT = pathlib.Path(__file__).resolve().parent.parent
LIBRARY = ROOT / 'target' / 'staticlib' / 'libbinding.a'
IMPORTS = {'memcpy', 'memset'}
POWERS = {str(1 << k) for k in range(1, 64)}


def blank(found):
    """Nothing in place of a comment or contract, and a 0 in place of a string; lines stay where they are."""
    return '\n' * found[0].count('\n') + ('0' if found[0][0] in '\'"' else '')


def code(text):
    """A source without comments, imports of ghosts, characters and strings, and what stands in the braces of a contract."""
    text = re.sub(r'"(\\.|[^"\\])*"|\'(\\.|[^\'\\])\'|//.*|^\s*ghost use[^;]*;', blank, text, flags=re.M)
    out, at = '', 0
    while clause := re.compile(r'\b(requires|ensures)( \*)?( \w+)? \{').search(text, at):
        end, depth = clause.end(), 1
        while depth:
            depth += {'{': 1, '}': -1}.get(text[end], 0)
            end += 1
        out += text[at:clause.start()] + '\n' * text.count('\n', clause.start(), end)
        at = end
    return out + text[at:]


def in_source(path):
    """Lines that divide by something else than a literal power of two."""
    for number, line in enumerate(code(path.read_text()).splitlines(), 1):
        for sign, by in re.findall(r'([/%])=?\s*(\w[\w.:]*|\S?)', line):
            if by not in POWERS:
                yield f'{path.relative_to(ROOT)}:{number}: {sign} {by}'
        for name in re.findall(r'\b\w*(?:div|rem)_\w+(?=\()|\b\w*_(?:div|rem)(?=\()', line):
            yield f'{path.relative_to(ROOT)}:{number}: {name}'


def register(name):
    """A register, whatever part of it is named."""
    return re.sub(r'^[er]|(?<=\d)[dwb]$', '', name)


def in_library():
    """Instructions that divide, or may be made of a division, and imported functions."""
    listing = subprocess.run(['objdump', '-d', '--no-show-raw-insn', LIBRARY], check=True, capture_output=True, text=True).stdout
    constants = set()                           # the registers that a constant was loaded into
    for line in listing.splitlines():
        what = line.split('\t')[-1].strip()
        if line.endswith('>:'):
            constants = set()
        product = re.match(r'imul\s+%(\w+),%(\w+)$', what)
        if re.match(r'f?i?div|v?div[ps]|i?mul[a-z]*\s+\$|mul|v?pmul', what) or product and constants & set(map(register, product.groups())):
            yield f'{LIBRARY.name}: {what}'
        written = re.match(r'(mov\w*|lea|xor|pop)\s+(\$0x[0-9a-f]{2,},)?.*%(\w+)$', what)
        if written:
            (constants.add if written[2] else constants.discard)(register(written[3]))
    names = subprocess.run(['nm', '-u', LIBRARY], check=True, capture_output=True, text=True).stdout
    for name in set(re.findall(r'^\s+U (\S+)$', names, re.M)) - IMPORTS:
        yield f'{LIBRARY.name}: imports {name}'


if __name__ == '__main__':
    sources = sorted(ROOT.glob('crates/*/src/**/*.rt'))
    found = [one for path in sources for one in in_source(path)] + list(in_library())
    print('\n'.join(found) if found else f'{len(sources)} sources and {LIBRARY.name}: no division but by powers of two')
    sys.exit(bool(found))
