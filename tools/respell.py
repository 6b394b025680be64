#!/usr/bin/env python3
"""Spells the repository's own definitions and lemmas in snake case, where they were in camel case or parted by dashes.

usage: tools/respell.py [--check] [FOLDER]

It was run once, in the commit after port.py, over specs/, proofs/, the clauses and comments of src/ and the must-fail
edits; docs/PORT.md says what it turned. In pages the names between backticks turn. Types and modules, with a capital, keep their spelling, and so does a lemma
named after a type, as Le-refl. Where a definition and a lemma would get one name, the lemma gets _lem behind it.
--check writes nothing and lists the names."""
import collections
import os
import re
import sys

TOKEN = r"[^\s(){}.;:,@\"«»`⟨⟩λ→]+"
PREFIX = r"(?:(?:unfoldable|abbrev|pub|data|record|mutual|where)\s+)*"
SIGNATURE = re.compile(rf"^(\s*)({PREFIX})((?:{TOKEN}\s+)*?{TOKEN})(?:\s+(?:\(|\{{).*)?\s*:(?:\s|$)")
RULESET = re.compile(rf"^\s*(?:pub\s+)?ruleset\s+({TOKEN})\s*=")
KIT_USE = re.compile(r"^(?:ghost )?use (?!Rattle\.(?!std|core|io)\w)[\w.']+\{([^}]*)\}", re.M)
WORDS = {'use', 'let', 'in', 'where', 'module', 'elim', 'rw', 'simp', 'search', 'omega', 'grind', 'ruleset'}
OLD_PROOFS = ('Proof.antt', 'Answers.antt', 'Invariants.antt')


def texts(root):
    """The path and the text of each file that a name can stand in."""
    for folder, dirs, files in os.walk(os.path.join(root, 'crates')):
        dirs[:] = sorted(name for name in dirs if name not in ('out', 'stdin', 'stdout'))
        for name in sorted(files):
            if name.endswith(('.antt', '.rt', '.edit')):
                path = os.path.join(folder, name)
                with open(path, encoding='utf-8') as file:
                    yield path, file.read()


PROSE = {'leads-to'}  # words of comments that are also names


def pages(root):
    """The path and the text of each page."""
    for folder, dirs, files in os.walk(root):
        dirs[:] = sorted(name for name in dirs if name not in ('out', 'target', '.git', 'crates'))
        for name in sorted(files):
            if name.endswith('.md'):
                path = os.path.join(folder, name)
                with open(path, encoding='utf-8') as file:
                    yield path, file.read()


def without_comments(text):
    return re.sub(r'(?m)(?:^|(?<=\s))--.*$', '', text)


def declared(text):
    """The names that a text declares: 2 for a definition, 1 for a part of one, 0 for a lemma."""
    block, column = None, 0
    for line in without_comments(text).splitlines():
        indent = len(line) - len(line.lstrip())
        if not line.strip():
            continue
        if block is not None and indent <= column:
            block = None
        found = SIGNATURE.match(line)
        if found:
            rank = 2 if re.search('unfoldable|abbrev', found.group(2)) else int(block is not None)
            for name in found.group(3).split():
                yield name, rank
        rules = RULESET.match(line)
        if rules:
            yield rules.group(1), 0
        opened = re.match(r'\s*(?:pub\s+)?(?:unfoldable\s+)?(data|record|mutual|unfoldable mutual)\b', line)
        if opened and (line.rstrip().endswith('where') or 'mutual' in line):
            block, column = opened.group(1), indent


def in_snake_case(name):
    return re.sub(r"(?<=[a-z0-9'])[A-Z]", lambda letter: '_' + letter[0].lower(), name).replace('-', '_')


def places(root, names):
    """The files that each of the names stands in."""
    found = collections.defaultdict(set)
    for path, text in texts(root):
        for word in set(re.findall(TOKEN, text)) & names:
            found[word].add(path)
    return found


def table(root):
    """The new name of each name that changes."""
    own, taken = collections.defaultdict(int), set()
    for path, text in texts(root):
        if path.endswith('.antt') and os.path.basename(path) not in OLD_PROOFS:
            for name, rank in declared(text):
                if re.match(r"[a-z][\w'-]*$", name) and name not in WORDS:
                    own[name] = max(own[name], rank)
        if path.endswith('.antt'):
            for names in KIT_USE.findall(text):
                taken |= {part.split(' as ')[0].strip() for part in names.split(',')}
    meet = collections.defaultdict(set)
    for name in own:
        meet[in_snake_case(name)].add(name)
    stands = places(root, {name for names in meet.values() if len(names) > 1 for name in names})
    turned = {}
    for new, names in meet.items():
        order = sorted(names, key=lambda name: (-own[name], '-' in name, name != new, name))
        plain = []
        for name in order:
            apart = all(not stands[name] & stands[other] for other in plain)
            turned[name] = new if apart else new + '_lem'
            plain += [name] if apart else []
    kept = {name for name in turned if name in taken and turned[name] != name}
    return {name: new for name, new in turned.items() if new != name and name not in kept}, kept, own


def fields(root):
    """The names that may stand behind a dot: fields and constructors."""
    found = set()
    for path, text in texts(root):
        if path.endswith('.antt'):
            found |= {name for name, rank in declared(text) if rank}
    return found


def turn(path, text, names, parts):
    """The text with the names in it turned. Labels that Rattle makes, behind a dot, keep their spelling."""
    def one(match):
        word, start = match.group(), match.start()
        if word not in names:
            return word
        before = match.string[:start]
        if before.endswith('.'):
            head = re.search(r"[\w'.]*$", before[:-1]).group()
            whole = head.split('.')
            if not (whole[0] == 'Rattle' or word in parts or whole[-1][:1].isupper() and whole[-1] not in ('Need',)):
                return word
        after = match.string[match.end():]
        if word in PROSE and re.search(r'(?:^|\s)(?:--|//) [^\n]*$', before):
            return word
        if word == in_snake_case(word) and (not path.endswith('.antt') or after.startswith('.')):
            return word  # it may be a function of src/
        return names[word]

    pieces = re.split(r'("(?:[^"\\\n]|\\.)*")', text) if not path.endswith('.edit') else [text]
    return ''.join(piece if piece.startswith('"') else re.sub(TOKEN, one, piece) for piece in pieces)


def write(path, old, new):
    if new != old:
        with open(path, 'w', encoding='utf-8') as file:
            file.write(new)


def main(arguments):
    check = '--check' in arguments
    root = next((word for word in arguments if word != '--check'), '.')
    names, kept, _ = table(root)
    parts = fields(root)
    if check:
        for name, new in sorted(names.items()):
            print(name, new)
        print('kept, since the kit has them:', *sorted(kept))
        return
    for path, text in [*texts(root)]:
        write(path, text, turn(path, text, names, parts))
    for path, text in [*pages(root)]:
        write(path, text, re.sub('`[^`\\n]*`', lambda span: turn(path, span.group(), names, parts), text))
    print(len(names), 'names turned')


if __name__ == '__main__':
    main(sys.argv[1:])
