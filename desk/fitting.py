"""Why a handed-in state doesn't fit its code, as far as its sets of lanes and its place tell."""
from desk.blocks import head
from desk.capture import BLOCK_WORDS
from desk.lanes import first, named
from desk.report import Block

MOST_DEPTH = 32


def causes(capture):
    """What a state breaks, in words."""
    place, active, halted, *predicates, depth = capture.state()[:7]
    blocks = [Block(*words) for words in capture.blocks() if len(words) == BLOCK_WORDS]
    found = []
    if depth > MOST_DEPTH:
        found.append(f'depth {depth}: at most {MOST_DEPTH} blocks can be open')
    if place > capture.code_words:
        found.append(f'place {place}: the code has {capture.code_words} words')
    holders = [active, halted] + [mask for block in blocks for mask in (block.aside, block.again)]
    others = predicates + [mask for block in blocks for mask in (block.entered, block.left)]
    found += launch_causes(first(capture.lanes), holders, others)
    found += block_causes(active, blocks)
    return found or ['the place is no first word of an instruction, or the open blocks are not those that the code has open there']


def launch_causes(launched, holders, others):
    """Lanes that aren't launched and stand in a set, and launched ones that don't stand in exactly one that holds lanes."""
    once = twice = 0
    for mask in holders:
        twice |= once & mask
        once |= mask
    everywhere = once
    for mask in others:
        everywhere |= mask
    told = (
        (everywhere & ~launched, 'not launched, and in a set of the state'),
        (launched & ~once, 'launched, and neither active nor halted nor set aside in a block'),
        (launched & twice, 'in more than one of active, halted and the sets aside in blocks'),
    )
    return [f'{named(mask)}: {what}' for mask, what in told if mask]


def block_causes(active, blocks):
    """Blocks whose entered lanes aren't those that left, are active, or are set aside in them and inside."""
    found, inside = [], active
    for block in reversed(blocks):
        inside |= block.aside | block.again
        if block.entered != inside | block.left or inside & block.left:
            found.append(f'{head(block)}: its entered lanes are not its left lanes and, apart from them, those active or set aside in it')
        if block.part != 3 and block.again:
            found.append(f'{head(block)}: {named(block.again)} continued it, and it is no loop')
    return found[::-1]
