"""A command's words: its options and its plain names."""
import getopt

from desk.status import WrongUse


class Given:
    """What stands on the command line: options by their names, and the plain names in order."""

    def __init__(self, command, options, names):
        self.command = command
        self.options = options
        self.names = names

    def has(self, option):
        """Whether an option is given."""
        return option in self.options

    def value(self, option):
        """An option's value; None where it isn't given."""
        return self.options.get(option)

    def only(self, what):
        """The one plain name; WrongUse where there is none, or another behind it."""
        if not self.names:
            raise wrong(self.command, f'expected {what}')
        if len(self.names) > 1:
            raise wrong(self.command, f'expected one name, {what}, and found another: {self.names[1]}')
        return self.names[0]


def parse(command, words, short='', long=()):
    """The options and names among words; `short` and `long` are as in getopt."""
    try:
        pairs, names = getopt.gnu_getopt(words, short, long)
    except getopt.GetoptError as error:
        raise wrong(command, error.msg) from error
    options = {}
    for option, value in pairs:
        if option in options:
            raise wrong(command, f'{option} is given twice')
        if option in ('-o', '-k') and value in ('', '-'):
            raise wrong(command, f'{option} takes the name of a file')
        options[option] = value
    return Given(command, options, names)


def wrong(command, what):
    """WrongUse of a command, with where its help is."""
    return WrongUse(f'{command}: {what} (llinosfar {command} --help)')


def number(command, option, text, most):
    """The number that an option's text gives; WrongUse where it is none, or more than `most`."""
    if not (text.isascii() and text.isdigit()) or int(text) > most:
        raise wrong(command, f'{option} takes a number from 0 to {most:,}, and found {text}')
    return int(text)
