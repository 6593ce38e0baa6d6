"""Numbers with a fraction, of 64 bits, as C: its double, which is that of IEEE 754. A constant is written by its bits."""
import re
import struct

from .llvm import not_known, parts_of, take_type

KIND = 'double'
ARITHMETIC = {'fadd': '+', 'fsub': '-', 'fmul': '*', 'fdiv': '/'}
# What does not hold of something that is no number; each other condition is that one of these does not hold.
ORDERED = {'oeq': '{0} == {1}', 'olt': '{0} < {1}', 'ole': '{0} <= {1}', 'ogt': '{0} > {1}', 'oge': '{0} >= {1}',
           'one': '{0} < {1} || {0} > {1}', 'ord': '{0} == {0} && {1} == {1}'}
OTHERWISE = {'une': 'oeq', 'uge': 'olt', 'ugt': 'ole', 'ule': 'ogt', 'ult': 'oge', 'ueq': 'one', 'uno': 'ord'}


def bits_of(text):
    """The bits of a constant."""
    if text in ('undef', 'poison', 'zeroinitializer'):
        return 0
    if found := re.fullmatch(r'0x([0-9A-F]{16})', text):
        return int(found[1], 16)
    if not re.fullmatch(r'-?\d+\.\d+e[-+]\d+', text):
        not_known('a number with a fraction', text)
    return struct.unpack('<Q', struct.pack('<d', float(text)))[0]


def constant(text):
    return f'double_of(UINT64_C({bits_of(text)}))'


def arithmetic(it):
    kind, rest = take_type(it.words)
    if kind != KIND:
        not_known('an operand', it.words)
    x, y = (it.value(kind, part) for part in parts_of(rest))
    return it.result(kind, f'{x} {ARITHMETIC[it.operation]} {y}')


def negate(it):
    kind, text = take_type(it.words)
    if kind != KIND:
        not_known('an operand', it.words)
    return it.result(kind, f'-{it.value(kind, text)}')


def compare(it):
    condition, rest = it.words.split(' ', 1)
    kind, rest = take_type(rest)
    if kind != KIND or condition not in ORDERED and condition not in OTHERWISE:
        not_known('a comparison', it.words)
    values = [it.value(kind, part) for part in parts_of(rest)]
    if condition in ORDERED:
        return it.result('i1', ORDERED[condition].format(*values))
    return it.result('i1', f'!({ORDERED[OTHERWISE[condition]].format(*values)})')


KNOWN = {**dict.fromkeys(ARITHMETIC, arithmetic), 'fneg': negate, 'fcmp': compare}
