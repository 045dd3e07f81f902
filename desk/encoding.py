"""The fields of an instruction's words, for saying which one broke a rule. What is refused is decided by the proved program alone."""

TWO, COMPARE, ONE, SPECIAL, NUMBER, MEMORY, ATOMIC, SWAP, WAVE, CONTROL = range(10)

FORMS = {
    TWO: {0x00: 'ADD', 0x01: 'SUB', 0x02: 'MUL', 0x03: 'DIV', 0x04: 'UDIV', 0x05: 'REM', 0x06: 'UREM', 0x09: 'MIN', 0x0A: 'MAX',
          0x0B: 'MULHI', 0x20: 'AND', 0x21: 'OR', 0x22: 'XOR', 0x24: 'SHL', 0x25: 'SHR', 0x26: 'SAR'},
    COMPARE: {0x28: 'EQ', 0x29: 'NE', 0x2A: 'LT', 0x2B: 'GE'},
    ONE: {0x07: 'NEG', 0x08: 'ABS', 0x23: 'NOT', 0x27: 'POPCNT', 0xF0: 'MOV'},
    SPECIAL: {0xF2: 'MOV_SPECIAL'},
    NUMBER: {0xF1: 'MOV_IMM'},
    MEMORY: {0x30: 'LOAD', 0x38: 'LOCAL_LOAD', 0x31: 'STORE', 0x39: 'LOCAL_STORE'},
    ATOMIC: {0x3C: 'ATOMIC'},
    SWAP: {0x3D: 'CAS'},
    WAVE: {0x3E: 'wave operation'},
    CONTROL: {0x3F: 'control'},
}
FORM_OF = {opcode: form for form, names in FORMS.items() for opcode in names}
NAME_OF = {opcode: name for names in FORMS.values() for opcode, name in names.items()}

WAVES = {0: 'BROADCAST', 1: 'REDUCE_ADD', 2: 'REDUCE_MIN', 3: 'REDUCE_MAX', 4: 'PREFIX_SUM', 5: 'SHUFFLE', 6: 'BALLOT', 7: 'ANY', 8: 'ALL'}
CONTROLS = {0: 'IF', 1: 'ELSE', 2: 'ENDIF', 3: 'LOOP', 4: 'BREAK', 5: 'CONTINUE', 6: 'ENDLOOP', 9: 'HALT', 10: 'BARRIER', 15: 'NOP'}
GUARDED_CONTROLS = ('IF', 'BREAK', 'CONTINUE', 'HALT')

# The names by modifier, of the opcodes that have several.
NAMED = {WAVE: WAVES, CONTROL: CONTROLS}

# The fields that an operation of each form uses, beside its opcode, modifier and predicate. SHUFFLE uses those of two registers.
USED = {TWO: 'RD RS1 RS2', COMPARE: 'RD RS1 RS2', ONE: 'RD RS1', SPECIAL: 'RD RS1', NUMBER: 'RD', MEMORY: 'RD RS1',
        ATOMIC: 'RD RS1 RS2 scope', SWAP: 'RD RS1 RS2 RS3 scope', WAVE: 'RD RS1', CONTROL: ''}
REGISTER_FORMS = (TWO, COMPARE, ATOMIC, SWAP, WAVE)


def opcode_cause(word):
    """What is wrong with a word's opcode or modifier; None where nothing is."""
    opcode, modifier = word >> 24, word >> 4 & 15
    if opcode not in FORM_OF:
        return f'opcode {opcode:02X} is not carried'
    listed = {ATOMIC: range(10), **NAMED}.get(FORM_OF[opcode], (0,))
    if modifier not in listed:
        return f'modifier {modifier} is not listed for opcode {opcode:02X}, {NAME_OF[opcode]}'
    return None


def field_causes(word, second):
    """What is wrong with the fields of an instruction whose opcode is carried; `second` is its second word, or None."""
    opcode = word >> 24
    form = FORM_OF[opcode]
    name = NAMED[form][word >> 4 & 15] if form in NAMED else NAME_OF[opcode]
    fields = {'RD': word >> 16 & 255, 'RS1': word >> 8 & 255, 'bit 3': word >> 3 & 1}
    if form in REGISTER_FORMS and second is not None:
        fields.update({'RS2': second >> 24, 'RS3': second >> 16 & 255, 'RS4': second >> 8 & 255,
                       'field 7:2 of the second word': second >> 2 & 63, 'scope': second & 3})
    used = USED[TWO if name == 'SHUFFLE' else form].split()
    causes = [f'{field} is {value}, not 0, and {name} does not use it' for field, value in fields.items() if value and field not in used]
    return causes + value_causes(form, name, fields) + predicate_causes(form, name, word & 3, word >> 2 & 1)


def value_causes(form, name, fields):
    """What is wrong with a field that takes some values only."""
    if form == COMPARE and fields['RD'] not in (1, 2, 3):
        return [f'{name} sets predicate {fields["RD"]}, and there are 1 to 3']
    if form == SPECIAL and fields['RS1'] > 2:
        return [f'special number {fields["RS1"]}, and there are 0 to 2']
    return []


def predicate_causes(form, name, predicate, negated):
    """What is wrong with the predicate that an instruction is on."""
    if predicate == 0 and negated:
        return ['predicate 0 is negated']
    if name == 'IF' and predicate == 0:
        return ['IF is on no predicate']
    if form == CONTROL and name not in GUARDED_CONTROLS and predicate:
        return [f'{name} is on predicate {predicate}, and takes none']
    return []
