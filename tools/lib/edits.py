"""Wrong answers: edits of a crate in the form of must-fail edits, the functions that they change, and what refused them."""
import glob
import os
import re

BEHIND = re.compile('not admitted|not checked')  # said where something that is cited is refused: no fact of the one that cites it
SHAPE = re.compile('has no field|is not in scope|has no `')  # the proof doesn't fit the code: such a refusal shows no fact


class Bad(Exception):
    """Why an edit or a crate fails."""


class Edit:
    """Lines 'file: PATH' (under src/ or specs/), 'old: TEXT' (in that file once) and 'new: TEXT', one pair or more."""

    def __init__(self, path):
        self.label = os.path.basename(path).removesuffix('.edit')
        self.changes = []
        file = old = None
        with open(path, encoding='utf-8') as lines:
            for line in lines.read().split('\n'):
                if line.startswith('file: '):
                    file = line.removeprefix('file: ')
                elif line.startswith('old: '):
                    old = line.removeprefix('old: ')
                elif line.startswith('new:'):
                    self.changes.append((file, old, line.removeprefix('new:').removeprefix(' ')))

    def apply(self, crate):
        if not self.changes:
            raise Bad("BAD EDIT: it has no 'old:' and 'new:' pair")
        for file, old, new in self.changes:
            if not file or not re.match('(src|specs)/', file) or '..' in file or not os.path.isfile(f'{crate}/{file}'):
                raise Bad(f'BAD EDIT: no file {file} under src/ or specs/')
            text = read(crate, file)
            if not old or text.count(old) != 1:
                raise Bad(f"BAD EDIT: its 'old:' text stands {text.count(old) if old else 0} times in {file}")
            with open(f'{crate}/{file}', 'w', encoding='utf-8') as out:
                out.write(text.replace(old, new))

    def function(self, crate):
        """The one function that it changes, if it is so: its body, or its contract where nothing in the crate calls it."""
        found = set()
        for file, old, _ in self.changes:
            if not file or not file.startswith('src/') or not old or not os.path.isfile(f'{crate}/{file}'):
                return None
            text = read(crate, file)
            name, in_body = functions(crate, file)[text.count('\n', 0, max(text.find(old), 0))]
            found.add(name if in_body or name and is_uncalled(crate, name) else None)
        return found.pop() if len(found) == 1 else None


def read(crate, file):
    with open(f'{crate}/{file}', encoding='utf-8') as text:
        return text.read()


def functions(crate, file):
    """For each line of a source file in rt's layout: its function's path in the crate, if any, and whether it is in the body.
    Attributes stand with the function below them: what is refused there is told at the first."""
    module = re.sub(r'^src/((lib|main)\.rt$|)|\.rt$', '', file).replace('/', '::')
    name, in_body, attributes, found = None, False, 0, []
    for line in read(crate, file).split('\n'):
        begins = re.match(r'(?:pub )?(?:extern "C" )?fn (\w+)', line)
        if begins:
            name, in_body = '::'.join(filter(None, (module, begins[1]))), False
            found[len(found) - attributes:] = [(name, False)] * attributes
        attributes = attributes + 1 if line.startswith('#[') else 0
        found.append((name, in_body))
        if line == '}':
            name, in_body = None, False
        elif name and re.fullmatch(r'(\S.* )?\{', line):
            in_body = True
    return found


def is_uncalled(crate, name):
    """Whether a function is named nowhere in the crate's code but where it is declared: its contract is then its own."""
    word = re.compile(rf'\b{name.rpartition("::")[2]}\b')
    return sum(len(word.findall(read(crate, os.path.relpath(path, crate))))
               for path in glob.glob(f'{crate}/src/**/*.rt', recursive=True)) == 1


def facts(said, crate):
    """What was refused in its own right: (function or None, place, text) for each, in the order told."""
    for line in said.split('\n'):
        told = re.match(r'(?:note: )?(?:\./)?((\S+?):(\d+):\d+): (error: .*|it is not proved .*)', line)
        if told and not BEHIND.search(told[4]):
            yield owner(crate, told[2], int(told[3])), told[1], told[4]


def owner(crate, file, line):
    """The function that a place in a source file, or in a function's own proof, belongs to."""
    if file.startswith('src/'):
        return functions(crate, file)[line - 1][0]
    proof = re.fullmatch(r'proofs/(\S+)/(?:Answers|Invariants|Proof)\.antt', file)
    return proof and proof[1].replace('/', '::')


def unproved(said, name):
    """The functions that are not proved in their own right: not only since they call such a one."""
    behind = r'proved$|.*[;:] it calls |.*which has no proof'
    return {told[1] for told in re.finditer(rf'^\w+ {name}::(\S+): (?!{behind})', said, re.M)}
