"""llinosfar --version: the project and the toolchain."""
import subprocess

from desk import VERSION, freshness
from desk.home import HOME, is_checkout


def lines():
    """The project's version with what is checked out, and the toolchain's; of an installed copy, as it was installed."""
    if not is_checkout():
        try:
            return (HOME / 'VERSION').read_text()
        except OSError:
            return f'llinosfar {VERSION}\n'
    commit = checked_out()
    project = f'llinosfar {VERSION}' + (f' ({commit})' if commit else '')
    return f'{project}\ntoolchain {freshness.kit_name() or "not found"}\n'


def checked_out():
    """Git's name for what is checked out, with a mark where files are changed; None where git can't tell."""
    words = ['git', '-C', str(HOME), 'describe', '--always', '--dirty', '--exclude', '*']
    try:
        ran = subprocess.run(words, capture_output=True, text=True, stdin=subprocess.DEVNULL)
    except OSError:
        return None
    return ran.stdout.strip() if ran.returncode == 0 else None
