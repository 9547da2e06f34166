"""Counts the places of older forms in crates/*/src, as docs/DESIGN-PASS.md asks: python3 tools/forms.py [POINT].

A place is a line of source (or a function, a pair, a fact) that the point may be about; the page says of each what became of it.
1  enums of the repository's own, flags in structs, tests against a number for a kind, a phase, a step or a code, constants for such numbers, and bare numbers
   handed back
2  functions whose bodies differ only in names, numbers and types
3  loops that are no `for`: each counts by hand, or says why it doesn't
4  conversions, order and printing by hand (a cast `as` is the language's own, and proved to lose nothing)
5  facts that stand in the `requires` of three or more functions, and neighbours among the parameters that three or more functions take
6  a buffer with a length or a place beside it, and arrays side by side
7  a `match` on which step or kind to run
8  answers and loop invariants in proofs/, by crate
"""
import collections
import glob
import re
import sys

FUNCTION = re.compile(r'^(?P<indent> *)(?:#\[[^\n]*\]\n *)*(?:pub )?(?:extern "C" )?fn (?P<name>\w+)(?P<rest>.*?)^(?P=indent)\}$', re.M | re.S)
CLAUSE = re.compile(r'^\s+(?P<kind>requires|ensures)(?: \w+)? \{ (?P<fact>.*) \}$', re.M)


def text_of(path):
    with open(path, encoding='utf-8') as file:
        return file.read()


def sources():
    return {path: text_of(path) for path in sorted(glob.glob('crates/*/src/*.rt'))}


def lines_with(pattern, keep=lambda line: True):
    """Each line of source, but for comments, in which the pattern stands."""
    for path, text in sources().items():
        for number, line in enumerate(text.split('\n'), 1):
            if not line.lstrip().startswith('//') and re.search(pattern, line) and keep(line):
                yield f'{path[7:]}:{number}: {line.strip()}'


def functions():
    for path, text in sources().items():
        for found in FUNCTION.finditer(text):
            yield path[7:].split('/')[0], found['name'], found[0]


def skeleton(body):
    """A function's tokens, with each name and each number alike, without comments, attributes and clauses."""
    body = re.sub(r'//[^\n]*|#\[[^\n]*\]', '', CLAUSE.sub('', body))
    words = re.findall(r'[A-Za-z_]\w*|\d[\w]*|"[^"]*"|\S', body)
    kept = {'fn', 'if', 'else', 'for', 'in', 'while', 'loop', 'match', 'return', 'let', 'mut', 'pub', 'break', 'self', 'as'}
    plain = (word if word in kept or not re.match(r'\w', word) else '1' if word[0].isdigit() else 'x' for word in words)
    return ' '.join(word for word in plain if word not in ('pub', ','))


def twins():
    alike = collections.defaultdict(list)
    for crate, name, body in functions():
        shape = skeleton(body)
        if len(shape.split()) >= 30:
            alike[shape].append(f'{crate}::{name}')
    return [' = '.join(group) for group in alike.values() if len(group) > 1]


def numbered_arms():
    """Each function with a `match` on plain numbers."""
    return [f'{crate}::{name}: arms for numbers' for crate, name, body in functions() if re.search(r'^\s+\d+ => ', body, re.M)]


def facts():
    standing, pairs = collections.defaultdict(set), collections.defaultdict(set)
    for crate, name, body in functions():
        for clause in CLAUSE.finditer(body):
            if clause['kind'] == 'requires':
                for fact in re.split(r' × ', clause['fact']):
                    standing[re.sub(r'\.(?:old|now|new)\b', '', fact).strip('() ')].add(f'{crate}::{name}')
        taken = re.findall(r'(\w+): ([^,()]+)', body.split('{')[0].split('->')[0])
        for (one, of_one), (other, of_other) in zip(taken, taken[1:]):
            pairs[f'{one}: {of_one.strip()}, {other}: {of_other.strip()}'.replace('&mut ', '&')].add(f'{crate}::{name}')
    for what in (standing, pairs):
        for said, names in sorted(what.items(), key=lambda item: -len(item[1])):
            if len(names) >= 3:
                yield f'{len(names)} times: {said}: ' + ', '.join(sorted(names))


def answers():
    for crate in sorted(glob.glob('crates/*')):
        files = glob.glob(crate + '/proofs/**/*.antt', recursive=True)
        goals = sum(len(re.findall(r'^pub \S+ : goal\.', text_of(file), re.M)) for file in files if file.endswith('/Answers.antt'))
        loops = sum(len(re.findall(r'^abbrev pub \S+ : goal\.', text_of(file), re.M)) for file in files if file.endswith('/Invariants.antt'))
        if goals or loops:
            yield f'{crate[7:]}: {goals} answers, {loops} invariants and measures'


NUMBERED = r'(?:kind|phase|step|code|phase\(\)|phase_at\([^)]*\))\)? ?(?:==|!=|<|<=) ?\d|\d (?:==|!=|<|<=) \(?(?:kind|phase|step|code)\b'
POINTS = {
    '1': lambda: [*lines_with(r'^\s*(?:pub )?enum '), *lines_with(r'^\s+(?:pub )?\w+: bool,$'), *lines_with(NUMBERED), *numbered_arms(),
                  *lines_with(r'^(?:pub )?const [A-Z_]+: u(?:8|64) = \d+;'), *lines_with(r'^\s+(?:return \d+;|\d+)$')],
    '2': twins,
    '3': lambda: list(lines_with(r'^\s*(?:while|loop)\b')),
    '4': lambda: [*lines_with(r'\{ \d+ \} else \{ \d+ \}'), *lines_with(r'^    x as \w+$'),
                  *lines_with(r'^\s*(?:pub )?fn (?:index|byte_of|word|word_at|whole|whole_word|truth_word|real|real_word|less|digit|done|spell|pair|byte|number|code|kind|end_or|base|least|lower|higher)\(')],
    '5': lambda: list(facts()),
    '6': lambda: [*lines_with(r'\(?s: &(?:mut )?\[u8\], at: usize|out: &mut \[u8\], at: usize|from: usize, (?:to|count): usize'), *lines_with(r'^\s+pub \w+count: u8,|^\s+pub \w+: \[\w+; '),
                  *lines_with(r'= \[(?:0u\d+|0|false); ')],
    '7': lambda: list(lines_with(r'^\s*match ')),
    '8': lambda: list(answers()),
}


def main():
    for point in sys.argv[1:] or POINTS:
        places = POINTS[point]()
        print(f'point {point}: {len(places)}')
        for place in places:
            print(f'  {place}')


main()
