#!/usr/bin/env python3
"""Holds that what a reader must believe is told apart from the rest by its file: each file of specs/ is named in the table of docs/DEMANDS.md, or
its first line says that it is a test, which theorems hold to the page's words, or a step of the proofs. Steps, and what a crate's proofs/ has, are
used by steps alone. --check says each file that breaks this, and fails."""
import re
import sys

from lib.stored import ROOT

STEP = '-- A step of the proofs: nothing that is said to the reader rests on this file.'
TEST = "-- A test: theorems hold it to the page's words, as "
USED = re.compile(r'^\s*(?:pub )?use Rattle\.(\w+)\.(specs|proofs)\.(\w+)', re.MULTILINE)


def tabled():
    """The files that the table names, as crate and file."""
    text = (ROOT / 'docs' / 'DEMANDS.md').read_text(encoding='utf-8').partition('| Page 01 | Files of `specs/` |')[2]
    for row in text.split('\n\n')[0].splitlines()[2:]:
        for crate, files in re.findall(r'`(\w+)`: ((?:`\w+`(?:, )?)+)', row):
            for file in re.findall(r'\w+', files):
                yield crate, file


def wrong():
    """What is wrong, a line each."""
    texts = {(path.parts[-3], path.stem): path.read_text(encoding='utf-8') for path in ROOT.glob('crates/*/specs/*.antt') if path.stem != 'Lib'}
    named = set(tabled())
    for crate, file in sorted(named - set(texts)):
        yield f'docs/DEMANDS.md names {file} of {crate}, which is no file'
    for (crate, file), text in sorted(texts.items()):
        step = text.startswith(STEP)
        if text.startswith((STEP, TEST)) == ((crate, file) in named):
            yield f'crates/{crate}/specs/{file}.antt is to be believed, a test or a step, and one of these alone'
        for other, part, used in USED.findall(text):
            if not step and part == 'specs' and texts.get((other, used), '').startswith(STEP):
                yield f'crates/{crate}/specs/{file}.antt uses {used} of {other}, a step of the proofs'
            if not step and part == 'proofs' and (ROOT / 'crates' / other).exists():
                yield f'crates/{crate}/specs/{file}.antt uses {used} of the proofs of {other}'


def main():
    """Says what is wrong; answers the exit status."""
    found = list(wrong())
    for line in found:
        print(line)
    print(f'trusted: {len(found)} files of specs/ are not told apart' if found else 'trusted: steps of the proofs are used by steps alone')
    return 1 if found else 0


if __name__ == '__main__':
    sys.exit(main())
