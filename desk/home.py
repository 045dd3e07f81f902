"""Where the project's files are: a checkout, or a copy that was installed without the sources."""
from pathlib import Path

HOME = Path(__file__).resolve().parent.parent
# Where the front keeps its programs.
BIN = HOME / 'target' / 'bin'
CRATES = HOME / 'crates'
CRATES_TXT = HOME / 'crates.txt'


def is_checkout():
    """Whether the sources of the proved programs are here, so that they can be compared and built."""
    return CRATES_TXT.exists()
