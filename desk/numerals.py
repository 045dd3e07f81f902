"""Numbers as the desk prints them."""

# From here on a number is printed in hexadecimal.
LARGE = 10_000_000


def numeral(n):
    """Decimal up to seven digits, else 0x and eight hexadecimal ones."""
    return str(n) if n < LARGE else f'0x{n:08X}'


def number_of(text):
    """The number that a numeral stands for."""
    return int(text, 16) if text.startswith('0x') else int(text)
