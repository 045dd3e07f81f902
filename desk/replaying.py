"""llinosfar replay: runs a capture, prints its report, and keeps its end state and its key."""
import os
import re
import shlex
import tempfile

from desk import capture, explain, files, options, programs, report, running, streams
from desk.progress import Progress
from desk.status import OUTCOMES, Stopped, Trouble

# A run with more budget than this goes in slices, where it is watched or its state is kept.
FIRST_SLICE = 1_000_000


class Asked:
    """What a command line asks for."""

    def __init__(self, words):
        given = options.parse('replay', words, 'o:k:f', ('budget=', 'json', 'plain'))
        self.name = given.only('a capture (OUT is given by -o, KEY by -k)')
        self.out, self.key, self.force = given.value('-o'), given.value('-k'), given.has('-f')
        self.json, self.plain = given.has('--json'), given.has('--plain')
        budget = given.value('--budget')
        self.budget = None if budget is None else options.number('replay', '--budget', budget, capture.MOST_BUDGET)


def replay(words):
    """Replays the capture that the words name; the exit status is the outcome's."""
    asked = Asked(words)
    read = files.read(asked.name, capture.MOST_BYTES)
    out, key = (name and files.Target(name, asked.force, [read]) for name in (asked.out, asked.key))
    files.apart(out, key)
    data = read.data if asked.budget is None else capture.with_budget(read.data, asked.budget)
    try:
        with tempfile.TemporaryDirectory(prefix='llinosfar-') as room:
            run = Run(room, asked.name, data, out)
            found = run.answer()
            with running.undisturbed():
                troubles = keep(found, room, out, key)
            text = in_text(found, asked, data, room)
    except OSError as error:
        raise Trouble(f'temporary files: {error.strerror or error}') from error
    for trouble in troubles:
        streams.say(str(trouble))
    streams.put(text.encode('ascii'))
    return troubles[0].status if troubles else OUTCOMES[found.outcome]


# The files of a run, by their names in its folder, in which it runs: a path of the folder's own could be one that no program takes.
PARTS = ('capture', 'out', 'key')


class Run:
    """A run of the proved program on a copy of the capture, in a folder of its own."""

    def __init__(self, room, name, data, out):
        self.room = room
        self.name = name
        self.out = out
        self.budget = capture.budget_of(data)
        self.progress = Progress(self.budget)
        self.reached = self.kept = 0
        with open(path(room, 'capture'), 'wb') as file:
            file.write(data)

    def answer(self):
        """The report; Trouble where the program gave none, in its words and with the capture's own name."""
        program = programs.proved('replay_capture', *PARTS, *self.slices())
        self.progress.begin()
        try:
            ran = running.run(program, programs.environment(), told=self.told, cwd=self.room)
        except Stopped:
            self.progress.clear()
            self.say_stopped()
            raise
        self.progress.clear()
        said = self.named(ran.error.decode('utf-8', 'replace')).rstrip('\n')
        if ran.status != 0:
            raise Trouble(said or f'replay_capture {ran.ending()}')
        if said:
            raise Trouble(said)
        return report.parse(ran.out)

    def named(self, said):
        """What the program said, with the capture's own name, and with the whole path of the others."""
        whole = {part: path(self.room, part) for part in PARTS} | {'capture': files.shown(self.name)}
        return re.sub(r'^(\w+)(?=: )', lambda found: whole.get(found[0], found[0]), said, flags=re.MULTILINE)

    def slices(self):
        """The word that has the run go in slices, where it may take long and somebody watches, or its state is kept."""
        watched = self.out is not None or self.progress.shown
        return ['slices'] if watched and FIRST_SLICE < self.budget <= capture.MOST_BUDGET else []

    def told(self, line):
        """Takes a line about a slice: its state is kept, and how far it is gets shown. Every other line is left."""
        found = re.fullmatch(rb'steps (\d+)', line)
        if not found:
            return True
        self.reached = int(found.group(1))
        if self.out:
            self.keep_slice()
        self.progress.at(self.reached)
        return False

    def keep_slice(self):
        """Puts the state so far into OUT. Where that fails, it is said, and the run goes on to its report."""
        try:
            with running.undisturbed():
                self.out.put(contents(path(self.room, 'out')))
                self.kept = self.reached
        except Trouble as trouble:
            self.progress.clear()
            streams.say(str(trouble))

    def say_stopped(self):
        """Says where a run was stopped, and how to go on."""
        of = f'{self.kept or self.reached:,} of {self.budget:,} steps'
        if self.kept:
            go_on = f'llinosfar replay {shlex.quote(self.out.name)} --budget {self.budget - self.kept} -o NEXT'
            streams.say(f'stopped: {files.shown(self.out.name)} has the state after {of}; to go on: {go_on}')
        elif self.reached:
            streams.say(f'stopped after {of}; no state is kept (-o OUT keeps it)')
        else:
            streams.say('stopped in the first slice of steps; nothing is written')


def path(room, part):
    """The path of a file in the run's folder."""
    return os.path.join(room, part)


def contents(name):
    """A file's bytes; None where the run didn't write it."""
    try:
        with open(name, 'rb') as file:
            return file.read()
    except FileNotFoundError:
        return None


def keep(found, room, out, key):
    """Writes what the run gave to the files that were asked for, and removes old ones that it gave nothing for.

    What couldn't be written is answered, so that the report is printed all the same.
    """
    troubles = []
    for target, part, what in ((out, 'out', 'end state'), (key, 'key', 'key')):
        if target is None:
            continue
        try:
            data = contents(path(room, part))
            if data is None:
                target.drop(f'this run gives no {what} ({found.outcome})')
            else:
                target.put(data)
        except Trouble as trouble:
            troubles.append(trouble)
    return troubles


def in_text(found, asked, data, room):
    """The report as it is printed: its fixed lines, then its words."""
    told = []
    if not asked.plain:
        end = contents(path(room, 'out'))
        told = explain.words(found, capture.Capture(data), end and capture.Capture(end))
    if asked.json:
        return report.as_json(found, told)
    return found.text + ''.join(f'{line}\n' for line in ([''] + told if told else []))
