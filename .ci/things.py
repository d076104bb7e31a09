"""The definitions in specs and the types of the code in src, and what they name: for .ci/closure."""
import functools
import pathlib
import re
from typing import NamedTuple

IMPORT = re.compile(r'^ *(?:pub |ghost )?use (?:Rattle\.)?(\w+)\.(?:specs\.)?([\w.]+?)(?:\.\{([^}]*)\}|(?: as (\w+))?(?![\w.]))', re.M)
MARK = r'(?:pattern |unfoldable |abbrev |axiom |pub |record |data )'
BEGINS = re.compile(MARK + r'|\S+(?: [({][^=]*[)}])* : ')
DECLARED = re.compile(MARK + r'*([^\s({]+)')
DATA = re.compile(r'^(?:pub )?data ', re.M)
CONSTRUCTOR = re.compile(r'^  (\S+) : ', re.M)
NAME = r'[^\s(){}.;,@"«»]+'
# Strings, comments, fields of a value, and the names of fields and arguments that are given.
NAMES_NOTHING = re.compile(rf'"[^"]*"|(?<!\S)--(?!\S).*|(?<=[^\s({{;,])\.{NAME}|(?<=[{{;])\s*{NAME} =(?!\S)')
TYPE = re.compile(r'^((?:(?://|#\[).*\n)*)((?:pub(?:\(\w+\))? )?(struct|enum|type) (\w+)(?:.*[;}]|(?:.*\n)+?[)}];?))$', re.M)
# Comments and attributes, and in an enum the names of variants.
NAMES_NO_TYPE = {'struct': r'//.*|#\[.*', 'type': r'//.*', 'enum': r'(?m)//.*|#\[.*|^    [A-Z]\w*'}
MODEL = re.compile(r'^impl(?:<.*>)? Model for (\w+).*\n(?:[^}\n].*\n|\n)*?( +ghost Value = \{((?:.*\n)*?.*)\};)$', re.M)


class Thing(NamedTuple):
    """A definition or a type: the crate, module and name that are its place, its file, its lines, and the words that it says."""
    place: tuple
    path: str
    lines: list
    words: set


def place_of(crate, module, name=None):
    """Where a name stands; that of a variant is its type."""
    if module.startswith('declared.') or not name:
        module, _, name = module.removesuffix('.TheVariants').rpartition('.')
    return crate, module, name


def is_inner(place):
    """Whether it is in specs/inner."""
    return place[1].split('.')[0] == 'inner'


@functools.cache
def imports(text):
    """What a file brings in: each name, and its place."""
    brought = []
    for crate, module, names, alias in IMPORT.findall(text):
        for name in filter(None, map(str.strip, names.split(','))):
            original, _, other = name.partition(' as ')
            brought.append((other or original, place_of(crate, module, original)))
        if not names:
            brought.append((alias or module.rpartition('.')[2], place_of(crate, module)))
    return brought


def words_of(text):
    """The words that may name something. A `do` says the operators that it stands for."""
    words = set(re.findall(NAME, NAMES_NOTHING.sub(' ', text)))
    return words | {'>>=', '>>'} if 'do' in words else words


def is_named(name, words):
    """Whether words name it, where that is an operator by all of its parts."""
    return name in words or '◌' in name and words.issuperset(filter(None, name.split('◌')))


def definitions(crate, module, path, text):
    """The definitions of a file of specs, with the comment and the fixity above each."""
    found, above = [], []
    for line in text.splitlines():
        if line.startswith(('-- ', 'infix')):
            above = above + [line]
        elif not line or line.startswith(('--', 'use ', 'pub use ', 'pub mod ')):
            above = []
        elif BEGINS.match(line):
            found.append((DECLARED.match(line)[1], above + [line]))
            above = []
        elif found:
            found[-1][1].extend(above + [line])
            above = []
    return [Thing((crate, '.'.join(module), name), path, lines, words_of('\n'.join(lines))) for name, lines in found]


def types(crate, module, path, text):
    """The types of a file of src, with the comment and the attributes above each, and the `Value` of its model."""
    module = '.'.join(['declared', *module]).removesuffix('.lib')
    models, found = {name: (line, said) for name, line, said in MODEL.findall(text)}, []
    for above, item, kind, name in TYPE.findall(text):
        line, said = models.get(name, ('', re.sub(NAMES_NO_TYPE[kind], '', item)))
        lines = [*above.splitlines(), *item.splitlines(), *line.splitlines()]
        found.append(Thing((crate, module, name), path, lines, words_of(said) | set(re.findall(r'[A-Z]\w*', said))))
    return found


def constructors(thing):
    """The names of a definition's constructors."""
    lines = '\n'.join(thing.lines)
    return CONSTRUCTOR.findall(lines) if DATA.search(lines) else []


@functools.cache
def things_in(path, text):
    """The definitions or types of a file: each by the names of its constructors, and each by its own name."""
    _, crate, _, *module = pathlib.PurePath(path).with_suffix('').parts
    things = (definitions if path.endswith('.antt') else types)(crate, module, path, text)
    return [(name, thing) for thing in things for name in constructors(thing)] + [(thing.place[2], thing) for thing in things]
