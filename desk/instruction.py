"""What an instruction's text names: its operation, its registers, the address it goes to and the divisor."""
import re

from desk.numerals import number_of

DIVISIONS = ('DIV', 'UDIV', 'REM', 'UREM')
LOCAL = ('LOCAL_LOAD', 'LOCAL_STORE')


def name(text):
    """The operation's name."""
    return text.split()[0]


def registers(text):
    """The numbers of the registers that stand in the text, each once, in order."""
    return list(dict.fromkeys(int(number) for number in re.findall(r'\br(\d+)\b', text)))


def address(text):
    """The base register and the offset of the address in brackets, the offset None where there is none; None without brackets."""
    found = re.search(r'\[r(\d+)(?: \+ (\w+))?\]', text)
    if found is None:
        return None
    base, offset = found.groups()
    return int(base), None if offset is None else number_of(offset)


def divisor(text):
    """The register that a division divides by; None where the operation is another."""
    if name(text) not in DIVISIONS:
        return None
    return int(re.match(r'\w+ r\d+, r\d+, r(\d+)', text).group(1))


def is_local(text):
    """Whether the address is one of local memory."""
    return name(text) in LOCAL
