"""The pages that are made from the sources: docs/THEOREMS.md, and the wings in docs/ARCHITECTURE.md."""
import os
import re
import textwrap

import sources

WIDTH = 120
THEOREMS = 'docs/THEOREMS.md'
ARCHITECTURE = 'docs/ARCHITECTURE.md'
PROMISES = 'docs/PROMISES.md'
BEGIN, END = '<!-- made by tests/index/make -->\n', '<!-- end -->\n'
HEAD = """# Theorems

Where each theorem stands. `tests/index/make` writes this page from the sources, and `tests/index/run` fails where it is
another: edit the comment in the source, then make the page again. It has every public law and statement of the crates
`theorem_*`, and of the other crates the laws that [PROMISES.md](PROMISES.md) or [ARCHITECTURE.md](ARCHITECTURE.md)
names. Beside a file stands the first sentence of the comment at its top, and beside a law or a type that of the comment
right above it; if there is none, what the law states, where that is short.
"""


def spans(text):
    """What stands between backquotes in a page, blocks of code left out."""
    text = re.sub(r'^```.*?^```$', '', text, flags=re.M | re.S)
    return [' '.join(span.split()) for span in re.findall(r'`([^`]+)`', text)]


def wrapped(text, first='', later=''):
    return textwrap.fill(text, WIDTH, initial_indent=first, subsequent_indent=later, break_long_words=False,
                         break_on_hyphens=False) + '\n'


def module_of(path):
    return os.path.splitext(os.path.basename(path))[0]


def crate_of(path):
    return path.split('/')[1]


def listed(repository):
    """The statements that docs/THEOREMS.md has. A name that a function, a definition or a crate has too stands for that, and
    a law of this name is named with its module."""
    others = {one.name for one in repository.statements if one.kind == 'definition'} | {*repository.sees}
    named = {span for path in (PROMISES, ARCHITECTURE) for span in spans(repository.texts[path])}
    named -= repository.functions | others
    chosen = [one for one in repository.statements
              if crate_of(one.path).startswith('theorem_') and one.kind in ('law', 'type')]
    return chosen + [one for one in repository.laws() if one not in chosen
                     and (one.name in named or f'{module_of(one.path)}.{one.name}' in named)]


def theorems(repository):
    """The text of docs/THEOREMS.md."""
    files = {}
    for one in listed(repository):
        files.setdefault(one.path, []).append(one)
    crates = sorted(repository.sees, key=lambda crate: not crate.startswith('theorem_'))
    page = HEAD
    for crate in crates:
        paths = [path for path in files if crate_of(path) == crate]
        page += f'\n## `{crate}`\n' if paths else ''
        for path in paths:
            page += '\n' + wrapped(entry(path, sources.about(repository.texts[path]))) + '\n'
            page += ''.join(wrapped(entry(one.name, one.comment or shown(one.states)), '- ', '  ') for one in files[path])
    return page


def shown(states):
    """What a law states, where that is short."""
    return f'`{states}`' if 0 < len(states) <= 2 * WIDTH else ''


def entry(name, comment):
    return f'`{name}`' + (f': {comment}' if comment else '')


def wings(repository):
    """The wings with their crates, and who sees whom, as they stand in docs/ARCHITECTURE.md."""
    page = ''
    for wing in repository.wings:
        knows = f' ({wing.knows})' if wing.knows else ''
        page += wrapped(f'**{wing.name}**{knows}: ' + ', '.join(f'`{crate}`' for crate in wing.crates), '- ', '  ')
    page += '\n```mermaid\ngraph TD\n'
    for wing in repository.wings:
        page += f'  subgraph wing_{wing.name} [{wing.name}]\n' + wrapped('; '.join(wing.crates), '    ', '    ') + '  end\n'
    for crate, needs in repository.sees.items():
        page += f'  {crate} --> ' + ' & '.join(nearest(repository.sees, needs)) + '\n' if needs else ''
    return page + '```\n'


def below(sees, crate):
    """The crate and all that it rests on."""
    found, todo = set(), [crate]
    while todo:
        one = todo.pop()
        todo += [] if one in found else sees[one]
        found.add(one)
    return found


def nearest(sees, needs):
    """Of the crates that one sees, those that it does not rest on by another of them as well."""
    return [need for need in needs if not any(need in below(sees, other) for other in needs if other != need)]


def with_wings(repository):
    """docs/ARCHITECTURE.md with the wings as they are; None where it has no place for them."""
    before, begun, rest = repository.texts[ARCHITECTURE].partition(BEGIN)
    _, ended, after = rest.partition(END)
    return before + begun + wings(repository) + ended + after if ended else None
