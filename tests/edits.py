#!/usr/bin/env python3
"""Holds that each must-fail edit quotes the crate as it stands: every `old:` text is in its file, and once; and that it changes something, and
has no line that rt doesn't read. --check says each that isn't so, and fails."""
import sys

from lib.stored import ROOT


# How the lines begin that are only to be read.
COMMENTS = ('#', '--', '//')


def wrong(edit):
    """What is wrong with an edit's quotes, a line each."""
    name, texts, file, old, changes = edit.relative_to(ROOT), {}, None, None, 0
    for line in edit.read_text(encoding='utf-8').splitlines():
        word, _, text = line.partition(':')
        text = text[1:] if text.startswith(' ') else text
        if word == 'file':
            file = edit.parent.parent / text
            if not file.is_file():
                yield f'{name}: {text} is no file of the crate'
                return
            texts.setdefault(file, file.read_text(encoding='utf-8'))
        elif word == 'old' and file:
            old = text
            if texts[file].count(old) != 1:
                yield f'{name}: the old text stands {texts[file].count(old)} times in {file.relative_to(ROOT)}'
        elif word == 'new' and old is not None:
            changes += old != text
            texts[file], old = texts[file].replace(old, text), None
        elif line.strip() and not line.startswith(COMMENTS):
            yield f'{name}: a line that is not read: {line}'
    if not changes or old is not None:
        yield f'{name}: it changes nothing'


def main():
    """Says what is wrong with the edits of all crates; answers the exit status."""
    edits = sorted(ROOT.glob('crates/*/must-fail/*.edit'))
    found = [line for edit in edits for line in wrong(edit)]
    for line in found:
        print(line)
    print(f'edits: {len(found)} of {len(edits)} quote what is not there' if found else f'edits: {len(edits)}, each quotes its file')
    return 1 if found else 0


if __name__ == '__main__':
    sys.exit(main())
