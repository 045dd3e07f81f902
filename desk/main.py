"""The commands, and what becomes of what they raise."""
from desk import completion, day, files, help, options, programs, replaying, running, streams, texts, version
from desk.status import ENDED, Stopped, Trouble, WrongUse


def main(words):
    """Does what the command line asks for; answers the exit status."""
    streams.settle()
    running.listen()
    try:
        return command(words)
    except Stopped as stopped:
        running.end_by(stopped.signal)
    except Trouble as trouble:
        streams.say(str(trouble))
        return trouble.status


def command(words):
    """Does a command; WrongUse where there is no such one."""
    if not words:
        raise WrongUse('expected a command (llinosfar help)')
    name, rest = words[0], words[1:]
    if name in ('help', '--help', '-h'):
        return say_help(rest)
    if name == '--version':
        options.parse('help', rest)
        return say(version.lines())
    if name not in COMMANDS:
        raise WrongUse(f'{files.shown(name)} is no command (llinosfar help)')
    if '--help' in rest or '-h' in rest:
        return say_help([name])
    return COMMANDS[name](rest)


def say_help(words):
    """Prints the help, or that of the command that the words name."""
    if not words:
        return say(help.WHOLE)
    if len(words) > 1 or words[0] not in help.COMMANDS:
        raise WrongUse(f'help: expected a command, one of {", ".join(help.COMMANDS)}')
    return say(help.COMMANDS[words[0]])


def say(text):
    """Prints text."""
    streams.put(text.encode('utf-8'), quiet=True)
    return ENDED


def build(words):
    """Builds every program that isn't what is checked out."""
    none(options.parse('build', words))
    for program in programs.PROVED:
        programs.ensure(program)
    ran = running.run(programs.second('help'))
    if ran.status != 0:
        raise Trouble('the second program was not built: ' + ran.error.decode('utf-8', 'replace').strip())
    return ENDED


def agree(words):
    """Becomes the program that answers the second program's cases."""
    none(options.parse('agree', words))
    running.become(programs.proved('agree'), programs.environment())


def none(given):
    """WrongUse where a command that takes no name got one."""
    if given.names:
        raise options.wrong(given.command, f'it takes no name, and found {given.names[0]}')


COMMANDS = {
    'replay': replaying.replay,
    'make': day.make,
    'list': day.list_day,
    'show': texts.show,
    'pack': texts.pack,
    'build': build,
    'agree': agree,
    'completion': completion.completion,
}
