"""The words that start a program: the proved ones, and the second program."""
import os
import resource
import shutil

from desk import building, freshness, streams
from desk.home import BIN, HOME, is_checkout
from desk.status import Trouble

PROVED = ('replay_capture', 'make_day', 'list_day', 'agree')

# The stack that the largest capture takes, with room to spare.
STACK = 1 << 30

SECOND = HOME / 'second' / 'target' / 'release' / 'second'


def ensure(program):
    """Has a proved program be built from what is checked out. One that was installed without its sources is as it is."""
    if is_checkout():
        building.ensure(program)
    elif not (BIN / program).exists():
        raise Trouble(f'{BIN / program} is missing: install llinosfar again')


def proved(program, *arguments):
    """The words that start a proved program. It is one for x86-64; elsewhere the toolchain's emulator runs it."""
    ensure(program)
    raise_stack()
    path = str(BIN / program)
    machine = os.uname().machine
    if machine == 'x86_64':
        return [path, *arguments]
    kit = freshness.kit()
    if kit is None:
        raise Trouble(f'rt, which has the emulator for {machine}, is not found')
    tools = kit / 'on' / machine / 'toolchain'
    if not tools.exists():
        raise Trouble(f'the programs are for x86-64, and this toolchain has no emulator for {machine}')
    loader = [str(tools / 'lib' / 'ld-linux-x86-64.so.2'), '--library-path', str(tools / 'lib')]
    return [str(tools / 'bin' / 'qemu-x86_64'), '-s', str(STACK), *loader, path, *arguments]


def raise_stack():
    """Raises the limit of the stack to what the largest capture takes, or as far as the system lets it."""
    soft, hard = resource.getrlimit(resource.RLIMIT_STACK)
    wanted = STACK if hard == resource.RLIM_INFINITY else min(STACK, hard)
    if soft != resource.RLIM_INFINITY and soft < wanted:
        resource.setrlimit(resource.RLIMIT_STACK, (wanted, hard))


def environment():
    """The environment of a proved program: without the variables that change what the emulator does."""
    return {name: value for name, value in os.environ.items() if not name.startswith('QEMU_')}


def second(*arguments):
    """The words that start the second program, which is built by cargo at its first use."""
    if not is_checkout():
        return [str(SECOND), *arguments]
    if shutil.which('cargo') is None:
        raise Trouble('cargo, which builds the second program, is not found')
    if not SECOND.exists():
        streams.say('building the second program, once')
    return [str(HOME / 'second' / 'run'), *arguments]
