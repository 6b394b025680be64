"""The repository as the documents speak of it: its crates, their functions and their statements, read as text."""
import collections
import functools
import glob
import itertools
import os
import re

ROOT = os.path.dirname(os.path.dirname(os.path.dirname(os.path.realpath(__file__))))
FILES = ['README.md', 'docs/*.md', 'tests/*/README.md', 'crates.txt', 'crates/*/src/**/*.rt',
         'crates/*/specs/**/*.antt', 'crates/*/proofs/**/*.antt']

# A wing of crates.txt is a comment line 'NAME: WHAT IT KNOWS' and the crates below it.
Wing = collections.namedtuple('Wing', 'name knows crates')
# What an antt file declares; kind is law, type, definition, part (a field or a constructor) or own (not pub). `states` is
# the type of a law.
Statement = collections.namedtuple('Statement', 'name kind path comment states')
# A part of an antt file that has declarations in it, and the column that they begin in.
Block = collections.namedtuple('Block', 'kind column')

NUMBERS = {'u32'}  # of Rust's own types those that have a trait of a crate here
WORD = r"[^\s(){}:;,.=λ→]+"
SIGNATURE = re.compile(rf'((?:(?:pub|unfoldable|abbrev|record|data) )*)({WORD}(?: {WORD})*) *(?:[({{][^=]*)?:(?: |$)')
HEADER = re.compile(rf'((?:pub |unfoldable |abbrev )*)(module|record|data|mutual)\b(?: ({WORD}))?')
LONG_HEADER = re.compile(r'^ *(?:pub )?(?:module|(?:record|data) [^{\s])[^=]*?\bwhere$', re.M)
LAW = re.compile(rf'(?:pub )?({WORD}) : (.*)')
IMPORT = re.compile(r'^(?:ghost )?use ([\w.]+)\.\{([^}]*)\}', re.M)


def read_files():
    """The text of each file that counts, by its path."""
    texts = {}
    for pattern in FILES:
        for path in glob.glob(os.path.join(ROOT, pattern), recursive=True):
            with open(path, encoding='utf-8') as file:
                texts[os.path.relpath(path, ROOT)] = file.read()
    return texts


def wings_of(text):
    """The wings of crates.txt, with what each crate sees; crates of the kit are left out, and what stands behind a crate's
    name, as staticlib, too."""
    wings, sees = [], {}
    for line in text.splitlines():
        if line.startswith('#'):
            name, _, knows = line[1:].partition(':')
            wings.append(Wing(name.strip(), knows.strip(), []))
        elif ':' in line:
            head, _, needs = line.partition(':')
            crate = head.split()[0]
            wings[-1].crates.append(crate)
            sees[crate] = needs.split()
    return ([wing for wing in wings if wing.crates],
            {crate: [need for need in needs if need in sees] for crate, needs in sees.items()})


@functools.lru_cache(maxsize=None)
def statements_of(path, text):
    """The statements of an antt file: what stands in its modules, records and data, and not inside a proof."""
    found, comment, blocks = [], [], [Block('module', 0)]
    lines = LONG_HEADER.sub(lambda header: re.sub(r'\n *', ' ', header.group()), text).splitlines()
    for number, line in enumerate(lines):
        column, line = len(line) - len(line.lstrip()), line.strip()
        if line:
            enter(blocks, column)
        if line.startswith('--') and column == blocks[-1].column:
            comment.append(line[2:].strip())
            continue
        if line and column == blocks[-1].column:
            found += declared(path, ' '.join([line, *continued(lines[number + 1:], column)]), blocks, comment)
            open_block(line, blocks)
        elif line == 'where':
            blocks.append(Block('where', None))
        comment = []
    return tuple(found)


@functools.lru_cache(maxsize=None)
def stated_of(text):
    """The laws of an antt file that stand in no module with facts of its own: each name and what it states, with the
    bound names put in order, so that two laws that differ in these alone are the same."""
    stated, lines = [], text.splitlines()
    for number, line in enumerate(lines):
        found = LAW.match(line)
        if found:
            rest = itertools.takewhile(lambda next_line: re.match(r'    \S', next_line), lines[number + 1:])
            states = ' '.join([found.group(2), *map(str.strip, rest)])
            if re.search('[≡≤<↔⊥]', states):
                stated.append((found.group(1), in_order(states)))
    return tuple(stated)


def in_order(states):
    """A statement with the names that it binds replaced by numbers, in the order in which they are bound."""
    bound = [name for group in re.findall(r'[({]([^(){}:]+) : |λ \(?(\w+)', states) for name in ' '.join(group).split()]
    numbers = {name: f'#{k}' for k, name in enumerate(dict.fromkeys(bound))}
    return ''.join(numbers.get(part, part) for part in re.split(r'([\s(){},.])', states))


def continued(lines, column):
    """The lines that go on with one in this column."""
    deeper = itertools.takewhile(lambda line: len(line) - len(line.lstrip()) > column, lines)
    return [line.strip() for line in deeper]


def enter(blocks, column):
    """Leaves the blocks that a line in this column is no longer in. A block's first line says where its lines begin."""
    while blocks[-1].column is not None and column < blocks[-1].column:
        blocks.pop()
    if blocks[-1].column is None:
        blocks[-1] = blocks[-1]._replace(column=column)


def open_block(line, blocks):
    """Begins a block where a line does."""
    header = HEADER.match(line)
    if header and (line.endswith('where') or header.group(2) == 'mutual'):
        blocks.append(Block(header.group(2), None))


def declared(path, line, blocks, comment):
    """The statements that a line declares, with the comment right above it."""
    header, signature = HEADER.match(line), SIGNATURE.match(line)
    if any(block.kind == 'where' for block in blocks) or not (header or signature):
        return []
    if header and (header.group(2) in ('module', 'mutual') or not header.group(3)):
        return []
    words = (header or signature).group(1).split()
    kind = kind_of(words + ([header.group(2)] if header else []), blocks[-1].kind)
    names = [header.group(3)] if header else signature.group(2).split()
    states = line[signature.end():] if kind == 'law' else ''
    return [Statement(name, kind, path, sentence(comment), states) for name in names]


def kind_of(words, block):
    if block in ('record', 'data'):
        return 'part'
    if 'unfoldable' in words or 'abbrev' in words:
        return 'definition'
    if 'pub' not in words:
        return 'own'
    return 'law' if words == ['pub'] else 'type'


def about(text):
    """What the comment at the top of a file says."""
    return sentence([line[2:].strip() for line in re.match(r'(?:--.*\n)*', text).group().splitlines()])


def sentence(comment):
    """The first sentence of a comment."""
    return re.split(r'(?<=\S)\. (?=[A-Z(])', ' '.join(comment))[0].rstrip('.')


@functools.lru_cache(maxsize=None)
def functions_of(text):
    """The functions of a source file, those of an impl by TYPE::NAME: all of them, and the public ones. Those of a trait
    are public, unless a type that the file keeps to itself stands in the impl's head."""
    every, public, owner, of_trait = [], [], '', False
    kept = set(re.findall(r'^(?:struct|enum) (\w+)', text, re.M))
    for line in text.splitlines():
        begun = re.match(r'impl(?:<[^>]*>)? (?:([\w:]+(?:<[^>]*>)?) for )?(\w+)', line)
        if begun or line.startswith('}'):
            owner = begun.group(2) + '::' if begun else ''
            of_trait = bool(begun and begun.group(1)) and not kept & set(re.findall(r'\w+', line))
        head = re.match(r' *(pub )?(?:extern "C" )?fn (\w+)', line)
        if head:
            every.append(owner + head.group(2))
            public += [owner + head.group(2)] if head.group(1) or of_trait else []
    return tuple(every), tuple(public)


def handed_on(root):
    """What the root of a crate makes public of its modules, or of other crates: `pub use a::b;`, `pub use a::{b, c};`."""
    names = re.findall(r'^pub use (?:\w+::)*(?:(\w+)|\{([^}]*)\});', root, re.M)
    return {name for one, group in names for name in [one, *re.findall(r'\w+', group)] if name}


class Repository:
    def __init__(self, texts):
        self.texts = texts
        self.wings, self.sees = wings_of(texts['crates.txt'])

    def with_change(self, path, change):
        """The same with another text of one file."""
        return Repository({**self.texts, path: change(self.texts.get(path, ''))})

    def paths(self, pattern):
        return sorted(path for path in self.texts if re.fullmatch(pattern, path))

    @functools.cached_property
    def statements(self):
        return [one for path in self.paths(r'crates/.*\.antt') for one in statements_of(path, self.texts[path])]

    def is_own(self, module):
        """Is it a module of one of these crates, and not of the kit?"""
        return module.startswith('Rattle.') and module.split('.')[1] in self.sees

    def laws(self):
        return [one for one in self.statements if one.kind == 'law' and '/proofs/' in one.path]

    @functools.cached_property
    def functions(self):
        """The names of all functions, those of an impl as they are and without the type."""
        every = {name for path in self.paths(r'crates/.*\.rt') for name in functions_of(self.texts[path])[0]}
        return every | {name.rpartition('::')[2] for name in every}

    @functools.cached_property
    def names(self):
        """All that a name in a document can stand for: statements, modules, crates, functions with their parameters, and
        what the kit has."""
        known = {one.name for one in self.statements} | set(self.sees) | self.functions
        for path in self.paths(r'crates/.*\.antt'):
            known.add(os.path.splitext(os.path.basename(path))[0])
            for module, names in IMPORT.findall(self.texts[path]):
                known |= set() if self.is_own(module) else {name.strip() for name in names.split(',')}
        for path in self.paths(r'crates/.*\.rt'):
            known |= set(re.findall(r'\b(?:struct|enum|const|mod) (\w+)', self.texts[path]))
            for parameters in re.findall(r'\bfn \w+(?:<[^>]*>)?\(([^)]*)\)', self.texts[path]):
                known |= set(re.findall(r'(\w+):', parameters))
        return known

    def types(self, crate):
        """The structs and enums of a crate that another crate can name."""
        root = self.texts.get(f'crates/{crate}/src/lib.rt', '')
        return set(re.findall(r'^pub (?:struct|enum) (\w+)', root, re.M)) | handed_on(root)

    def promised(self, crate):
        """The functions of a crate that another crate, or C, can call."""
        root = self.texts.get(f'crates/{crate}/src/lib.rt', '')
        names = {name for name in handed_on(root) if name[0].islower()}
        opened = {f'crates/{crate}/src/{name}.rt': f'{name}::' for name in re.findall(r'^pub mod (\w+);', root, re.M)}
        for path in self.paths(rf'crates/{crate}/src/.*\.rt'):
            for name in functions_of(self.texts[path])[1]:
                if '::' in name:
                    names |= {name} if name.split('::')[0] in self.types(crate) | NUMBERS else set()
                elif path.endswith('/lib.rt') or f'extern "C" fn {name}(' in self.texts[path]:
                    names.add(name)
                elif path in opened:
                    names.add(opened[path] + name)
        return names
