"""Stored files of the gate, held to what a script makes."""
import pathlib
import sys

ROOT = pathlib.Path(__file__).resolve().parents[2]


def main(doc, made):
    """Writes the files that `made` gives, or fails where a stored one is another, as the command line says.

    `made` answers the files' bytes or text by their paths in the repository.
    """
    name = pathlib.Path(sys.argv[0]).stem
    if sys.argv[1:] not in (['--write'], ['--check']):
        sys.exit(doc)
    wrong = []
    for path, data in made().items():
        data = data.encode() if isinstance(data, str) else data
        file = ROOT / path
        if sys.argv[1] == '--write':
            file.parent.mkdir(parents=True, exist_ok=True)
            file.write_bytes(data)
        elif not file.exists() or file.read_bytes() != data:
            wrong.append(path)
    if wrong:
        sys.exit(f'not what tests/{name}.py makes: ' + ', '.join(wrong))
    print(f'{name}: as stored')
