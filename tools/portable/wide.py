"""Integers of 128 bits as C: pairs of 64 bits, by functions of portable.h."""
import re

from .instructions import cut, signed
from .llvm import not_known, number_of, parts_of, take_type, without_flags

KIND = 'i128'
FUNCTIONS = {'add': 'wide_add', 'sub': 'wide_subtract', 'mul': 'wide_multiply', 'udiv': 'wide_divide', 'urem': 'wide_rest', 'and': 'wide_and',
             'or': 'wide_or', 'xor': 'wide_xor', 'shl': 'wide_left', 'lshr': 'wide_right'}
COMPARISONS = {'eq': 'wide_is({0}, {1})', 'ne': '!wide_is({0}, {1})', 'ult': 'wide_is_less({0}, {1})', 'ugt': 'wide_is_less({1}, {0})',
               'ule': '!wide_is_less({1}, {0})', 'uge': '!wide_is_less({0}, {1})',
               'slt': 'wide_is_below({0}, {1})', 'sgt': 'wide_is_below({1}, {0})',
               'sle': '!wide_is_below({1}, {0})', 'sge': '!wide_is_below({0}, {1})'}


def is_wide(operation, words):
    """Whether an instruction is about such integers, and not only hands them on."""
    plain = without_flags(words)
    if operation in FUNCTIONS or operation in ('load', 'store', 'trunc'):
        return plain.startswith(KIND)
    if operation == 'icmp':
        return plain.split(' ', 1)[1].startswith(KIND)
    return operation in ('zext', 'sext') and plain.endswith(' to ' + KIND)


def constant(text):
    number = 0 if text in ('undef', 'poison', 'zeroinitializer') else number_of(KIND, text)
    return f'wide_of(UINT64_C({number >> 64}), UINT64_C({number % (1 << 64)}))'


def translate(it):
    words = without_flags(it.words)
    if it.operation in FUNCTIONS:
        x, y = (it.value(KIND, part) for part in parts_of(take_type(words)[1]))
        return it.result(KIND, f'{FUNCTIONS[it.operation]}({x}, {y})')
    if it.operation == 'icmp':
        condition, rest = words.split(' ', 1)
        if condition not in COMPARISONS:
            not_known('a comparison of 128 bits', words)
        values = [it.value(KIND, part) for part in parts_of(take_type(rest)[1])]
        return it.result('i1', COMPARISONS[condition].format(*values))
    if it.operation == 'load':
        at = it.value(*take_type(parts_of(words)[1]))
        return it.result(KIND, f'wide_of(load64({at} + 8u), load64({at}))')
    if it.operation == 'store':
        what, place, *_ = parts_of(words)
        at, value = it.value(*take_type(place)), it.value(*take_type(what))
        return [f'store64({at}, {value}.low);', f'store64({at} + 8u, {value}.high);']
    return cast(it, words)


def call(it, operation, more):
    """What LLVM has by itself, of 128 bits."""
    x, y = it.values
    if operation in ('umin', 'umax'):
        return it.result(f'wide_is_less({x}, {y}) ? {x if operation == "umin" else y} : {y if operation == "umin" else x}')
    if operation == 'usub' and more[0] == 'sat':
        return it.result(f'wide_is_less({y}, {x}) ? wide_subtract({x}, {y}) : wide_of(0, 0)')
    if operation == 'abs':
        return it.result(f'wide_is_below({x}, wide_of(0, 0)) ? wide_subtract(wide_of(0, 0), {x}) : {x}')
    return not_known('a call of 128 bits', operation)


def cast(it, words):
    """Between 128 bits and at most 64."""
    found = re.fullmatch(r'(i\d+) (.*) to (i\d+)', words)
    if not found or it.operation not in ('zext', 'sext', 'trunc'):
        not_known('a cast of 128 bits', words)
    value = it.value(found[1], found[2])
    if it.operation == 'zext':
        return it.result(KIND, f'wide_of(0, {value})')
    if it.operation == 'sext':
        return it.result(KIND, f'wide_signed({signed(found[1], value)})')
    return it.result(found[3], cut(found[3], f'({value}).low'))
