"""Reads from the log of rt ci how each must-fail edit was refused, and fails if one was not refused at the goal that it names.

An edit counts where a fact no longer holds, so its file says which: `# need: FUNCTION GOAL` is the goal of the function (the folder
crates/C/proofs/FUNCTION, if it has one) at which the refusal has to stand: at the goal's answer, or, where it has none, in the line
of the source that asks for it. Refused somewhere else (an index bound, an overflow, a law) or for its shape alone (a name that is
not there, no Rattle at all), the edit shows nothing.

With the word `texts` in place of the log's name it reads no log: each edit has to name its goal, and each text that it exchanges
has to stand exactly once in its file. That takes no time, so it comes before the proofs.
"""
import glob
import os
import re
import sys

# the line of rt ci about an edit that was refused
REFUSED = re.compile(r'^rt: must-fail (?P<edit>\S+/\S+\.edit): refused, as it must be: (?P<how>.*)$')
# at a goal's answer, or at the line of the source that asks for a goal that has none
ANSWERED = re.compile(r'^\./proofs/(?P<function>\S+)/Answers\.antt:\d+:\d+: error: `(?P<goal>[^`]+)`')
ASKED = re.compile(r'^note: (?P<file>src/\S+\.rt):(?P<line>\d+):\d+: .*\(`(?P<goal>[^`]+)`\)')
NAMED = re.compile(r'^# need: (\S+ \S+)$', re.M)
UNNAMED = 'it has to say once which goal must refuse it: # need: FUNCTION GOAL'


def text_of(path):
    with open(path, encoding='utf-8', errors='replace') as file:
        return file.read()


def need(edit):
    """The function and the goal that an edit names, or None if it names none or more than one."""
    named = NAMED.findall(text_of(edit))
    return named[0] if len(named) == 1 else None


def text_fault(edit):
    """What is wrong with the text of one edit, or None. A `file:` line holds for the `old:` lines after it."""
    if need(edit) is None:
        return UNNAMED
    path, exchanged = None, 0
    for line in text_of(edit).split('\n'):
        key, _, text = line.partition(': ')
        if key == 'file':
            path = os.path.join(os.path.dirname(os.path.dirname(edit)), text)
            if not os.path.exists(path):
                return 'there is no ' + path
        elif key == 'old':
            if path is None:
                return 'no file: line before old: ' + text
            times = text_of(path).count(text)
            if times != 1:
                return 'this stands %d times in %s: %s' % (times, path, text)
            exchanged += 1
    return None if exchanged else 'it exchanges nothing: no old: line'


def function_at(path, number):
    """The name of the function in which a line of the source stands: the last `fn` at or above it, or below its attributes. An edit keeps the lines' numbers."""
    lines = text_of(path).split('\n')
    while lines[number - 1].lstrip().startswith('#['):
        number += 1
    names = [match.group(1) for line in lines[:number] for match in [re.match(r'\s*(?:pub )?(?:extern "C" )?fn (\w+)', line)] if match]
    return names[-1] if names else None


def refused_at(crate, how):
    """The last name of the function and the goal at which an edit was refused, or None where that is no goal of a function."""
    answered = ANSWERED.match(how)
    if answered:
        return answered.group('function').split('/')[-1], answered.group('goal')
    asked = ASKED.match(how)
    if asked:
        return function_at(os.path.join('crates', crate, asked.group('file')), int(asked.group('line'))), asked.group('goal')
    return None


def fault(edit, refusals):
    """What is wrong with the refusal of one edit, or None."""
    crate, label = edit.split(os.sep)[1], os.path.basename(edit)
    named = need(edit)
    if named is None:
        return UNNAMED
    how = refusals.get('%s/%s' % (crate, label))
    if how is None:
        return 'the log has no line that it was refused'
    at = refused_at(crate, how)
    function, goal = named.split(' ')
    if at != (function.split('/')[-1], goal):
        return 'refused at %s, not at %s: %s' % (' '.join(map(str, at)) if at else 'no goal of a function', named, how[:200])
    return None


def main():
    if len(sys.argv) != 2:
        sys.exit('edit_logs.py LOG, or edit_logs.py texts')
    if sys.argv[1] == 'texts':
        judge, right = text_fault, 'naming a goal and exchanging a text that stands once'
    else:
        lines = [REFUSED.match(line) for line in text_of(sys.argv[1]).split('\n')]
        refusals = {line.group('edit'): line.group('how') for line in lines if line}
        judge, right = lambda edit: fault(edit, refusals), 'refused at the goal that they name'
    edits = sorted(glob.glob(os.path.join('crates', '*', 'must-fail', '*.edit')))
    faults = [(edit, why) for edit in edits for why in [judge(edit)] if why]
    for edit, why in faults:
        print('%s: %s' % (edit, why))
    print('must-fail edits compared: %d, %s: %d' % (len(edits), right, len(edits) - len(faults)))
    sys.exit(1 if faults else 0)


main()
