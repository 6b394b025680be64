#!/usr/bin/env python3
"""Spells the few names in snake case that tools/respell.py left: parameters of definitions, and what stands in files
named Answers.antt, which it took for proofs of functions.

usage: tools/respell_rest.py [FOLDER]

It was run once, after tools/respell.py; docs/PORT.md says what it turned."""
import re
import sys

import respell

EVERYWHERE = '''newValues newLocations endValues endLocations oldOnly answerNumber mergeOf reportedOf isIn isNobody countNodes
    answer-state answer-by-rules step-passes environment-passes rows-first rules-say row-or-none read-all-words
    read-stray-word half-as-many never-full words-read agree-all stack-stray stack-none agree-stray said-stray said-full
    spread-onto spread-parts gap-token'''.split()
NAMES = {name: respell.in_snake_case(name) for name in EVERYWHERE}


def main(arguments):
    root = arguments[0] if arguments else '.'
    for path, text in [*respell.texts(root)]:
        respell.write(path, text, respell.turn(path, text, NAMES, set(NAMES)))
    for path, text in [*respell.pages(root)]:
        turned = re.sub('`[^`\n]*`', lambda span: respell.turn(path, span.group(), NAMES, set(NAMES)), text)
        respell.write(path, text, turned)


if __name__ == '__main__':
    main(sys.argv[1:])
