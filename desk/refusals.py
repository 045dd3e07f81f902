"""Refusals in words: the rule, and what broke it."""
from desk import encoding, fitting, instruction
from desk.capture import MOST_BUDGET

RULES = {
    1: 'a setting is not allowed',
    2: 'the code is too long',
    3: 'the register words are not width times registers',
    4: 'an opcode is not carried, or its modifier is not listed',
    5: 'the second word of an instruction is missing',
    6: 'a field, a predicate or a special number is not allowed',
    7: 'a register number is too large',
    8: 'an ELSE, ENDIF, ENDLOOP, BREAK or CONTINUE has no block',
    9: 'a 33rd block is opened',
    10: 'a block is open at the end of the code',
    11: 'the state does not fit the code',
    14: 'the bytes are not of the layout',
    15: 'there are more than 1,024 records',
}

# The rules that have no place in the code.
PLACELESS = (1, 2, 3, 11)

STRAY = {
    'ELSE': 'ELSE stands directly in no IF that is before its ELSE',
    'ENDIF': 'ENDIF stands directly in no IF',
    'ENDLOOP': 'ENDLOOP stands directly in no LOOP',
    'BREAK': 'BREAK stands in no LOOP',
    'CONTINUE': 'CONTINUE stands in no LOOP',
}


def lines(report, capture):
    """A refusal's lines: its rule, then what broke it; `capture` is the one that was handed in."""
    number, place = report.refusal
    where = '' if number in PLACELESS else f' at place {place}'
    shown = f': {report.instruction}' if report.instruction else ''
    return [f'refused by rule {number}{where}: {RULES[number]}{shown}'] + causes(report, capture)


def causes(report, capture):
    """What broke the rule, as far as it can be told from the capture."""
    number, place = report.refusal
    if number == 1:
        return setting_causes(capture)
    if number == 2:
        return [f'the code has {capture.code_words:,} words, at most 65,536']
    if number == 3:
        wanted = capture.width * capture.registers
        return [f'{capture.register_words} register words, and {capture.width} lanes of {capture.registers} registers are {wanted}']
    if number in (4, 5, 6):
        return word_causes(number, capture.code(place), capture.code(place + 1))
    if number == 11:
        return fitting.causes(capture)
    return instruction_causes(number, report.instruction, capture)


def setting_causes(capture):
    """The settings that aren't allowed."""
    tests = (
        (capture.width in (8, 16, 32), f'width {capture.width}: it is 8, 16 or 32'),
        (1 <= capture.registers <= 256, f'registers {capture.registers}: 1 to 256 for each lane'),
        (1 <= capture.lanes <= capture.width, f'lanes {capture.lanes}: 1 to the width, {capture.width}'),
        (capture.budget <= MOST_BUDGET, f'budget {capture.budget}: at most {MOST_BUDGET:,}'),
    )
    return [text for holds, text in tests if not holds]


def word_causes(number, word, second):
    """What broke rule 4, 5 or 6 in the words at the place."""
    if word is None:
        return []
    if number == 5:
        return [f'word {word:08X} is the first of two, and the last of the code']
    if number == 4:
        found = [encoding.opcode_cause(word)]
    else:
        found = encoding.field_causes(word, second) if encoding.opcode_cause(word) is None else []
    return [f'word {word:08X}: {cause}' for cause in found if cause]


def instruction_causes(number, text, capture):
    """What broke rule 7 to 10, from the instruction's text; nothing where the report has none."""
    if text is None:
        return []
    if number == 7:
        past = [f'r{register}' for register in instruction.registers(text) if register >= capture.registers]
        return [f'{", ".join(past)}: each lane has {capture.registers} registers, r0 to r{capture.registers - 1}'] if past else []
    if number == 8:
        stray = STRAY.get(instruction.name(text))
        return [stray] if stray else []
    if number == 10:
        return [f'the {instruction.name(text)} at the place is closed nowhere']
    return []
