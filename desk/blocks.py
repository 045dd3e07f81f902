"""Open blocks in words."""
from desk.lanes import named

BEFORE_ELSE, AFTER_ELSE, LOOP = 1, 2, 3

HEADS = {BEFORE_ELSE: 'IF at place {}, before ELSE', AFTER_ELSE: 'IF at place {}, after ELSE', LOOP: 'LOOP at place {}'}

ASIDE = {
    BEFORE_ELSE: 'waiting for the other half',
    AFTER_ELSE: 'done with the first half',
    LOOP: 'broke the loop',
}


def head(block):
    """What a block is, and where it was opened."""
    return HEADS.get(block.part, f'no part {block.part}, opener at place {{}}').format(block.opener)


def set_aside(block):
    """The two sets of lanes that wait in a block, each with what its lanes did."""
    return (block.aside, ASIDE.get(block.part, 'aside')), (block.again, 'continued the loop')


def line(block):
    """A block's line: what it is, and its sets of lanes that aren't empty."""
    told = [f'entered by {named(block.entered)}']
    for mask, what in (*set_aside(block), (block.left, 'halted or left for an outer loop')):
        if mask:
            told.append(f'{named(mask)} {what}')
    return f'{head(block)}: ' + '; '.join(told)


def lines(blocks):
    """The open blocks, outermost first, under a heading; nothing where none is open."""
    if not blocks:
        return []
    return ['open blocks, outermost first:'] + ['  ' + line(block) for block in blocks]
