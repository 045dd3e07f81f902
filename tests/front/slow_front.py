"""llinosfar over the stand-in for the replay program."""
import sys

from support import ROOT

from desk import main, programs


def stand_in(program, *arguments):
    """The words that start the stand-in, whose process number goes to the file that the first word of the command line names."""
    return ['/bin/sh', '-c', f'echo $$ > "$0"; exec "$@"', sys.argv[1], sys.executable, str(ROOT / 'tests' / 'front' / 'slow_program.py'), *arguments]


programs.proved = stand_in
sys.exit(main.main(sys.argv[2:]))
