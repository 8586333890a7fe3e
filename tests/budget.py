"""What the must-fail edits cost: `python3 tests/budget.py [CRATE ..]` tries the edits of all crates, or of these, once more, a crate
at a time (`rt must-fail CRATE --anew`), and prints the processor seconds of the five dearest crates and of all. That is what the edits
add to a gate that has nothing kept: for each crate a check from nothing, and then each edit's. It takes as long as that."""
import pathlib
import resource
import subprocess
import sys

BUDGET = 1800                                   # processor seconds; fixed with an older kit, where an edit proved its whole crate again

ROOT = pathlib.Path(__file__).resolve().parent.parent


def cost(name):
    """The processor seconds of the edits of a crate, each of which must be refused."""
    before = resource.getrusage(resource.RUSAGE_CHILDREN)
    tried = subprocess.run(['rt', 'must-fail', name, '--anew'], cwd=ROOT, stdout=subprocess.PIPE, stderr=subprocess.STDOUT, text=True)
    after = resource.getrusage(resource.RUSAGE_CHILDREN)
    if tried.returncode:
        sys.exit(f'{tried.stdout}{name}: not every edit was refused')
    return round(after.ru_utime + after.ru_stime - before.ru_utime - before.ru_stime)


edits = {folder.name: len(list((folder / 'must-fail').glob('*.edit'))) for folder in sorted((ROOT / 'crates').iterdir())}
names = sys.argv[1:] or [name for name, count in edits.items() if count]
rows = sorted(((cost(name), name, edits[name]) for name in names), reverse=True)
for seconds, name, count in rows[:5]:
    print(f'{name:14} {count:3} edits: {seconds:4} s')
total = sum(seconds for seconds, *_ in rows)
print(f'{"all":14} {sum(count for *_, count in rows):3} edits: {total:4} s of {BUDGET}')
sys.exit(total > BUDGET)
