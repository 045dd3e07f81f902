#!/usr/bin/env python3
"""Holds that what the documents name exists: crates, definitions and theorems, functions, must-fail edits, files. --check says each name
that isn't found, with its file and line, and fails.

It reads README.md, CONTRIBUTING.md and docs/*.md except the pages, and goes by what stands between backticks:

- `crate` `File.name`: a name of a file of the crate's specs/ or proofs/, or a field of a record there; what follows without a crate is of the
  same crate, and a bare name of the same file;
- `crate/edit` and `crate::module::function`; paths of the repository, where a word in capitals stands for any name;
- in docs/PROMISES.md, the cells of a table by their column's title, for the crates that the section's title names;
- in the documents on proofs, each single word, and in a statement, also one that stands apart, each name of more than one word: it is something
  that the crates declare, or one of OTHERS below. The others also name files and words of a user's own: there only what begins as something of
  the project does is held.
"""
import re
import sys

from lib import names
from lib.stored import ROOT

# The documents on proofs.
STRICT = {'DEMANDS.md', 'PROMISES.md', 'ARCHITECTURE.md', 'DECISIONS.md', 'CONTRIBUTING.md'}
# Words of the language, of its library and of tools.
OTHERS = {
    'requires', 'ensures', 'specs/', 'src/', 'proofs/', 'must-fail/', 'target/', 'rt', 'cargo', 'python3', 'stdin', 'stdout', 'omega', 'simp',
    'rw', 'cc', 'bit_or', 'bit_and', 'min', 'crate', 'File.name',
    'slices', 'pN', 'std', 'io', 'libc', 'os', 'out/', 'Option', 'Result',
}
FILE_NAME = re.compile(r"[A-Z]\w*\.[\w'-]+")
PATH = re.compile(r'[\w.*-]+(/[\w.*-]+)*/?')
ENDING = re.compile(r'\.(md|py|txt|rs|rt|antt|edit)$')
WORD = re.compile(r"[A-Za-z_][\w'-]*")
# A name of more than one word, in a statement.
INNER = re.compile(r"(?<![\w.:'-])[a-z][a-z0-9]*(?:_|[A-Z])[\w'-]*")


class Reader:
    """Reads one document; keeps the crate and the file that the last names were of."""

    def __init__(self, path, crates):
        self.path, self.crates = path, crates
        self.strict = path.name in STRICT
        self.crate, self.files = None, []
        self.titled, self.columns = [], []
        self.public = False
        self.faults = []

    def fault(self, line, what):
        self.faults.append(f'{self.path.relative_to(ROOT)}:{line}: {what}')

    def read(self):
        """The faults of the document."""
        fenced = False
        for number, line in enumerate(self.path.read_text().splitlines(), 1):
            if line.startswith('```'):
                fenced = not fenced
            elif not fenced:
                self.line(number, line)
            elif self.strict:
                self.statement(number, line)
        return self.faults

    def line(self, number, line):
        if line.startswith('#'):
            self.title(number, line)
        elif line.startswith('|'):
            self.row(number, [cell.strip() for cell in re.split(r'(?<!\\)\|', line)[1:-1]])
        else:
            self.columns = []
            if not line.strip() or line.startswith('- '):
                self.crate, self.files = None, []
            for span in spans(line):
                self.span(number, span)

    def title(self, number, line):
        """A section's title names the crates that its tables are about."""
        self.crate, self.files = None, []
        self.columns = []
        self.public = self.public or line == '# By public function'
        self.titled = [self.crates[span] for span in spans(line) if span in self.crates]
        for span in spans(line):
            if span not in self.crates:
                self.span(number, span)

    def row(self, number, cells):
        """A row of a table; the first one has the columns' titles."""
        if all(set(cell) <= set('-: ') for cell in cells):
            return
        if not self.columns:
            self.columns = cells
            return
        self.crate, self.files = self.titled[0].name if len(self.titled) == 1 else None, []
        for column, cell in zip(self.columns, cells):
            for span in spans(cell):
                if self.path.name == 'PROMISES.md' and self.titled:
                    self.cell(number, column, span)
                else:
                    self.span(number, span)

    def cell(self, number, column, span):
        """What a cell of docs/PROMISES.md names, by its column."""
        plain = WORD.fullmatch(span)
        if column == 'One answer' and plain:
            if not any(span in crate.files.get('OneAnswer', ()) for crate in self.titled):
                self.fault(number, f"no law '{span}' in OneAnswer of {self.among()}")
        elif 'dit' in column and plain:
            if not any(span in crate.edits or span in crate.functions for crate in self.titled):
                self.fault(number, f"no edit '{span}' of {self.among()}")
        elif column == 'Function' and (plain or '::' in span):
            self.function(number, span)
        elif column.startswith(('Definition', 'Promise')) and WORD.fullmatch(span.split()[0]) and not plain:
            self.bare(number, span.split()[0])
            self.statement(number, span)
        else:
            self.span(number, span)

    def function(self, number, span):
        """A function, which is public in the part on public functions; before it, it may be a module of functions."""
        if self.public:
            found = any(span in crate.public for crate in self.titled)
        else:
            found = any(span in crate.functions or span in crate.modules for crate in self.titled)
        if not found:
            self.fault(number, f"no function '{span}' of {self.among()}")

    def among(self):
        return ' or '.join(crate.name for crate in self.titled) or 'any crate'

    def span(self, number, span):
        """What stands between backticks in a text."""
        first = span.split()[0]
        if span in OTHERS or not re.search(r'\w', span):
            return
        if span in self.crates:
            self.crate, self.files = span, []
        elif self.is_path(span):
            self.of_path(number, span)
        elif FILE_NAME.fullmatch(first) and self.is_file(first.split('.')[0]):
            self.name(number, *first.split('.'))
        elif re.fullmatch(r'\w+(::\w+)+', span):
            if not any(span in crate.functions or span in crate.modules for crate in self.crates.values()):
                self.fault(number, f"no function '{span}'")
        elif WORD.fullmatch(span) and self.strict:
            self.bare(number, span)
        if ' ' in span and self.strict:
            self.statement(number, span)

    def is_path(self, span):
        """Whether this is a path, in a document for users one that begins in the repository."""
        if not PATH.fullmatch(span) or '/' not in span and not ENDING.search(span):
            return False
        top = span.split('/')[0]
        return self.strict or '/' in span and (top in self.crates or (ROOT / top).exists())

    def is_file(self, name):
        """Whether this is to be a file of specs/ or proofs/, in a document for users one that some crate has."""
        return self.strict or self.crate or any(name in crate.files for crate in self.crates.values())

    def statement(self, number, span):
        """The names of more than one word are declared somewhere."""
        for word in INNER.findall(span):
            if not self.known(word):
                self.fault(number, f"nothing is named '{word}'")

    def of_path(self, number, span):
        """An edit of a crate, a name of a file of it, or a path of the repository."""
        crate, _, rest = span.partition('/')
        if crate in self.crates and rest in self.crates[crate].edits:
            self.crate, self.files = crate, []
        elif crate in self.crates and re.match(r'(specs|proofs)/[A-Z]\w*', rest):
            self.crate = crate
            file, _, name = rest.split('/')[1].partition('.')
            self.name(number, file, name)
        elif not self.path_exists(span):
            self.fault(number, f"no edit '{rest}' of {crate}" if crate in self.crates else f"no file '{span}'")

    def path_exists(self, span):
        """Whether a path exists, of the repository, of a crate or beside the document; words in capitals stand for any name."""
        pattern = re.sub(r'\b[A-Z]+\b(?!\.)', '*', span.rstrip('/'))
        if pattern.split('/')[0] == 'target':
            return True
        folders = [ROOT, self.path.parent, *(ROOT / 'crates').iterdir()]
        return any((folder / span).exists() or any(folder.glob(pattern)) for folder in folders)

    def name(self, number, file, name):
        """A name of a file, of the crate named last, or of those of the section's title, or else of any."""
        crates = self.here() or list(self.crates.values())
        found = [crate for crate in crates if crate.declares(file, name) or not name and file in crate.files]
        if not found:
            of = ' or '.join(crate.name for crate in crates) if len(crates) < 4 else 'any crate'
            self.fault(number, f"no '{file}.{name}' of {of}" if name else f"no file '{file}' of {of}")
            return
        if len(found) == 1:
            self.crate = found[0].name
        self.files.append(file)

    def bare(self, number, span):
        """A name without its file: a law is of a file named before it; any other of any crate, a private function of the one named."""
        here = self.here()
        if any(span in crate.files for crate in here):
            self.files.append(span)
        elif re.search('[-_]', span) and self.files and self.is_law(span):
            if not any(span in crate.files.get(file, ()) for crate in here or self.crates.values() for file in self.files):
                self.fault(number, f"no '{span}' in {' or '.join(self.files)} of {self.crate or 'any crate'}")
        elif len(span) > 1 and not self.known(span) and not self.path_exists(span):
            self.fault(number, f"nothing is named '{span}'")

    def is_law(self, span):
        """Whether this is a law's name and, where a crate is named, nothing else of that crate's."""
        every = self.crates.values()
        own = [crate for crate in self.here() if crate.anywhere(span, crate.functions)]
        return all(crate.is_law_alone(span) for crate in own) if own else any(crate.is_law_alone(span) for crate in every)

    def here(self):
        """The crate named last, or those of the section's title."""
        return [self.crates[self.crate]] if self.crate else self.titled

    def known(self, word):
        """Whether something has this name: any crate's, or a private function of the crate named last."""
        here = self.here()
        every = self.crates.values()
        if word in OTHERS or word in self.crates:
            return True
        return any(crate.anywhere(word, crate.functions if crate in here else crate.public) for crate in every)


def spans(text):
    """What stands between backticks."""
    return re.findall(r'`([^`]+)`', text)


def documents():
    """The documents, without the pages, which speak of what is asked and not of the crates."""
    found = [ROOT / 'README.md', ROOT / 'CONTRIBUTING.md'] + sorted((ROOT / 'docs').glob('*.md'))
    return [path for path in found if not path.name.startswith('page-')]


def main():
    if sys.argv[1:] != ['--check']:
        sys.exit(__doc__)
    crates = names.crates(ROOT)
    faults = [fault for path in documents() for fault in Reader(path, crates).read()]
    if faults:
        print('\n'.join(faults), file=sys.stderr)
        sys.exit(f'documents: {len(faults)} names are not found (a word of something else goes to OTHERS in tests/documents.py)')
    print('documents: every name exists')


main()
