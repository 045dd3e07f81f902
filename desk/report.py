"""The report's fixed lines: read, and the same as JSON."""
import json

from desk.lanes import lanes_in
from desk.status import Trouble

SETS = ('active', 'halted', 'p1', 'p2', 'p3')


class Block:
    """An open block's line: its part (1 before ELSE, 2 after, 3 loop), the place of its opener, and its sets of lanes."""

    def __init__(self, part, opener, entered, aside, again, left):
        self.part = part
        self.opener = opener
        self.entered = entered
        self.aside = aside
        self.again = again
        self.left = left


class Report:
    """What the lines of a report say; `text` is the lines themselves."""

    def __init__(self, text):
        self.text = text
        self.outcome = self.refusal = self.instruction = self.key = None
        self.kinds, self.sets, self.blocks, numbers = {}, {}, [], {}
        for line in text.splitlines():
            word, _, rest = line.partition(' ')
            if word == 'outcome':
                self.outcome, self.refusal = outcome_of(rest)
            elif word == 'kind':
                kind, _, lanes = rest.split()
                self.kinds[int(kind)] = int(lanes, 16)
            elif word == 'block':
                part, opener, *sets = rest.split()
                self.blocks.append(Block(int(part), int(opener), *(int(lanes, 16) for lanes in sets)))
            elif word in SETS:
                self.sets[word] = int(rest, 16)
            elif word in ('instruction', 'key'):
                setattr(self, word, rest)
            else:
                numbers[word] = int(rest)
        self.steps, self.place, self.depth = numbers['steps'], numbers['place'], numbers['depth']


def outcome_of(text):
    """The outcome's name, and for a refusal its number and place."""
    words = text.split()
    if words[0] == 'refused':
        return 'refused', (int(words[1]), int(words[3]))
    return text, None


def parse(data):
    """The report of a program's output; Trouble where it gave none."""
    try:
        report = Report(data.decode('ascii'))
        if report.outcome is None or not data.endswith(b'\n'):
            raise ValueError
        return report
    except (ValueError, KeyError, IndexError, TypeError) as error:
        raise Trouble('replay_capture gave no whole report') from error


def as_json(report, words):
    """The report on one line: each fixed line's word with its number, sets as lists of lanes, and the report's words, if any."""
    found = {'outcome': report.outcome}
    if report.refusal:
        found['refusal'] = {'number': report.refusal[0], 'place': report.refusal[1]}
    found.update(steps=report.steps, place=report.place)
    if report.instruction is not None:
        found['instruction'] = report.instruction
    found['kinds'] = [{'kind': kind, 'lanes': lanes_in(mask)} for kind, mask in report.kinds.items()]
    found.update((name, lanes_in(mask)) for name, mask in report.sets.items())
    found['depth'] = report.depth
    found['blocks'] = [block_json(block) for block in report.blocks]
    if report.key is not None:
        found['key'] = report.key
    if words:
        found['words'] = words
    return json.dumps(found) + '\n'


def block_json(block):
    """An open block's numbers by their names."""
    sets = {name: lanes_in(getattr(block, name)) for name in ('entered', 'aside', 'again', 'left')}
    return {'part': block.part, 'opener': block.opener, **sets}
