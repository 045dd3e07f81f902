"""The names that the crates declare: modules of specs/ and proofs/, definitions and theorems, functions, types and must-fail edits."""
import re

# What may stand before a declared name.
KEYWORDS = {'pub', 'abbrev', 'unfoldable', 'opaque', 'record', 'data'}
OPENING, CLOSING = '({⟨[', ')}⟩]'


class Crate:
    """The names of one crate, by what they are."""

    def __init__(self, folder):
        self.name = folder.name
        # The names that a file of specs/ or proofs/ declares, by the file's name; both where both have it.
        self.files = {}
        # The names that the files of specs/ declare, and those of proofs/: the laws.
        self.stated, self.laws = set(), set()
        for part, names in (('specs', self.stated), ('proofs', self.laws)):
            for path in sorted(folder.glob(f'{part}/*.antt')):
                found = declared(path.read_text())
                names.update(found)
                self.files.setdefault(path.stem, set()).update(found)
        self.edits = {path.stem for path in folder.glob('must-fail/*.edit')}
        self.functions, self.public, self.types, self.modules = set(), set(), set(), set()
        for path in folder.glob('src/**/*.rt'):
            self.read_code(path, path.relative_to(folder / 'src').with_suffix('').parts)

    def read_code(self, path, module):
        """Adds the functions and types of a file of code, each function also by the modules that it stands in."""
        module = [] if module in (('lib',), ('main',)) else list(module)
        self.modules.update('::'.join(module[at:]) for at in range(len(module)))
        text = path.read_text()
        for public, name in re.findall(r'^\s*(pub |pub\(crate\) )?fn (\w+)', text, re.MULTILINE):
            whole = module + [name]
            names = {'::'.join(whole[at:]) for at in range(len(whole))}
            names |= {'::'.join([self.name] + whole), f'{self.name}::{name}'}
            self.functions |= names
            if public == 'pub ':
                self.public |= names
        self.types.update(re.findall(r'^\s*(?:pub )?(?:struct|enum|type|const) (\w+)', text, re.MULTILINE))
        for body in re.findall(r'enum \w+ \{(.*?)^\}', text, re.MULTILINE | re.DOTALL):
            self.types.update(re.findall(r'^    (\w+)', body, re.MULTILINE))

    def declares(self, file, name):
        """Whether a file declares a name, or some file declares a record of this name with such a field."""
        if file in self.files:
            return name in self.files[file]
        return any({file, name} <= names for names in self.files.values())

    def is_law_alone(self, name):
        """Whether a file of proofs/ declares this name, and nothing else in the crate has it."""
        return name in self.laws and not any(name in kind for kind in (self.stated, self.functions, self.types, self.modules, self.edits, self.files))

    def anywhere(self, name, functions):
        """Whether any of these functions, or anything else in the crate, has this name."""
        kinds = [functions, self.types, self.modules, self.edits, self.files, *self.files.values()]
        return any(name in kind for kind in kinds)


def declared(text):
    """The names that a file of specs or proofs declares, with the fields of its records and the constructors of its data.

    A declared name stands before the first ':' outside brackets, with no '=' before it, or after a keyword, at the line's beginning; two
    spaces in, it stands in a record, a data type or a module, and further in it is public.
    """
    names, inner = set(), False
    for line in text.splitlines():
        indent = len(line) - len(line.lstrip())
        words = line.split('--')[0].split()
        if not words or words[0] != 'pub' and (indent > 2 or indent == 2 and not inner):
            continue
        if indent == 0:
            inner = bool({'record', 'data', 'module'} & set(words[:2]))
        found, closed = before_colon([word for word in words if word not in KEYWORDS])
        if closed:
            names.update(found)
        elif words[0] in KEYWORDS:
            names.update(found[:1])
    return names


def before_colon(words):
    """The words outside brackets before a ':', and whether there is one."""
    depth, found = 0, []
    for word in words:
        if depth == 0 and word == ':':
            return found, True
        if depth == 0 and word == '=':
            return [], False
        if depth == 0 and word[0] not in OPENING:
            found.append(word)
        depth += sum(word.count(mark) for mark in OPENING) - sum(word.count(mark) for mark in CLOSING)
    return found, False


def crates(root):
    """The crates of the repository, by name."""
    listed = [line.split('#')[0].split(':')[0].strip() for line in (root / 'crates.txt').read_text().splitlines()]
    return {name: Crate(root / 'crates' / name) for name in listed if name}
