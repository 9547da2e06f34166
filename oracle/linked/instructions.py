"""Counts the instructions of a step and of the wear task, by callgrind.

usage: instructions.py BENCH MEASURE

BENCH and MEASURE are the programs of this folder. `BENCH cases` gives the
cases in which each step has most to do, and `BENCH rows` the row of each in the
table. `MEASURE calls` makes them with the proved library, and `BENCH calls` with
the yardstick in Rust. `BENCH wear`, `MEASURE wear-calls` and `BENCH wear-calls` do
the same for the wear task. Callgrind counts within the one function that makes a
step or levels, what it calls included, and writes a file after each call of it.
It fails if the wear task takes more than is allowed.

Codes of steps are not compared, so that MEASURE may be linked with a library of
another version: its count stands under done or refused as it has answered.
"""
import glob
import os
import re
import subprocess
import sys
import tempfile

STEPS = ['no such step', 'begin', 'read', 'write', 'close', 'lock', 'enter', 'reread', 'update', 'ask', 'reload',
         'ignore', 'finish', 'publish', 'give up']
DONE = (0, 13)
REFUSED = (*range(1, 13), 14, 15)
WEAR_REFUSED = (10, 14, 33, 34)
WEAR_GROUPS = (8, 1)
# of a call with eight groups, one of which is picked
WEAR_ALLOWED = 31000


def counted(out):
    """The instructions of each call. The files are numbered in the order of the calls."""
    files = sorted(glob.glob(out + '.*'), key=lambda name: int(name.rsplit('.', 1)[1]))
    totals = []
    for name in files:
        with open(name, encoding='ascii', errors='replace') as part:
            totals.append(int(re.search(r'^(?:totals|summary): (\d+)', part.read(), re.M).group(1)))
    return totals


def measure(function, program, mode, cases):
    """For each call that the program makes: the step (or the groups), the code and the instructions."""
    with tempfile.TemporaryDirectory() as folder:
        out = os.path.join(folder, 'callgrind')
        command = ['valgrind', '-q', '--tool=callgrind', '--callgrind-out-file=' + out,
                   '--toggle-collect=' + function, '--dump-after=' + function, program, mode]
        said = subprocess.run(command, check=True, input=cases, stdout=subprocess.PIPE).stdout
        made = [tuple(map(int, line.split())) for line in said.decode('ascii').splitlines()]
        totals = counted(out)
    # One more is written at the end of the program.
    if not len(made) <= len(totals) <= len(made) + 1:
        sys.exit('callgrind counted %d calls of %d of %s' % (len(totals), len(made), function))
    return [(step, code, count) for (step, code), count in zip(made, totals)]


def worst(measured, row, codes):
    """The most instructions in a row with one of these codes, or nothing."""
    return max((count for made, code, count in measured if made == row and code in codes), default='')


def table(rows, library, rust):
    """A line for each step, then one for each case with a row of its own."""
    assert len(rows) == len(library) == len(rust), 'not every call has its row'
    library, rust = ([(row, code, count) for row, (_, code, count) in zip(rows, calls)] for calls in (library, rust))
    own = [row for row in rows if row not in STEPS]
    line = '%%-%ds  %%8s %%8s  %%8s %%8s' % max(map(len, rows))
    print('instructions of a call, 64 cells and 8 busy slots with full logs, the worst of each step:')
    print(line % ('', 'done:', '', 'refused:', ''))
    print(line % ('step', 'library', 'Rust', 'library', 'Rust'))
    for row in STEPS + own:
        print(line % (row, worst(library, row, DONE), worst(rust, row, DONE),
                      worst(library, row, REFUSED), worst(rust, row, REFUSED)))
    of_steps = [[call for call in calls if call[0] in STEPS] for calls in (library, rust)]
    for calls, where in ((of_steps[0], 'in the rows of the steps'), (library, 'in all rows')):
        count, row, code = max((count, row, code) for row, code, count in calls)
        print('worst of the library %s: %d, %s with code %d' % (where, count, row, code))
    ratio = sum(call[2] for call in of_steps[0]) / sum(call[2] for call in of_steps[1])
    print('ratio of the library to Rust over all calls in the rows of the steps: %.2f' % ratio)


def wear_table(library, rust):
    """A line for each number of groups, and whether the most of them take no more than is allowed."""
    print('instructions of a wear call, 64 cells and the 7 other slots busy with full logs, the worst of each:')
    line = '%-12s  %8s %8s %6s  %8s %8s %6s'
    print(line % ('', 'done:', '', '', 'refused:', '', ''))
    print(line % ('groups', 'library', 'Rust', 'ratio', 'library', 'Rust', 'ratio'))
    for groups in WEAR_GROUPS:
        counts = []
        for codes in ((0,), WEAR_REFUSED):
            one, other = worst(library, groups, codes), worst(rust, groups, codes)
            counts += [one, other, '%.2f' % (one / other)]
        print(line % (groups, *counts))
    most = worst(library, WEAR_GROUPS[0], (0,))
    over = most > WEAR_ALLOWED
    print('%d groups, one of them picked: %d, allowed: %d%s'
          % (WEAR_GROUPS[0], most, WEAR_ALLOWED, ', TOO MANY' if over else ''))
    return not over


def cases_of(bench, mode):
    """What the bench writes for other programs to make."""
    return subprocess.run([bench, mode], check=True, stdout=subprocess.PIPE).stdout


def main():
    if len(sys.argv) != 3:
        sys.exit(__doc__)
    bench, program = sys.argv[1:]
    rows = cases_of(bench, 'rows').decode('ascii').splitlines()
    table(rows, measure('crocktendril_step', program, 'calls', cases_of(bench, 'cases')),
          measure('oracle::inplace::step_in_place', bench, 'calls', b''))
    library = measure('crocktendril_wear', program, 'wear-calls', cases_of(bench, 'wear'))
    rust = measure('oracle::inplace::wear::wear_in_place', bench, 'wear-calls', b'')
    if [call[:2] for call in library] != [call[:2] for call in rust]:
        sys.exit('the wear tasks differ: run the fuzzer')
    if not wear_table(library, rust):
        sys.exit(1)


main()
