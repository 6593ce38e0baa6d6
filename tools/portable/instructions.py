"""The instructions as C, but for calls. Each function takes one, and answers its statements.

An integer of another width than C has is in the next wider type, with zeros above. So each result is cut to its width. Arithmetic
is that of unsigned numbers of 32 or 64 bits, which is what it is without flags; a flag says what a program never does."""
import re

from . import floats
from .llvm import NAME, box, members_of, not_known, parts_of, size_of, take_type, width, without_flags

ARITHMETIC = {'add': '+', 'sub': '-', 'mul': '*', 'and': '&', 'or': '|', 'xor': '^', 'udiv': '/', 'urem': '%'}
SHIFTS = ('shl', 'lshr', 'ashr')
SIGNED = {'sdiv': '/', 'srem': '%'}
COMPARISONS = {'eq': '==', 'ne': '!=', 'gt': '>', 'ge': '>=', 'lt': '<', 'le': '<='}
CASTS = ('zext', 'sext', 'trunc', 'ptrtoint', 'ptrtoaddr', 'inttoptr', 'uitofp', 'sitofp')
WIDTHS_IN_MEMORY = (8, 16, 32, 64)


class Instruction:
    """An instruction of a function: the block that it is in, the name of its result, its operation and the words after that."""

    def __init__(self, function, block, name, operation, words):
        self.function, self.block, self.name, self.operation, self.words = function, block, name, operation, words

    def value(self, kind, text):
        return self.function.value(kind, text)

    def result(self, kind, expression):
        return [f'{self.function.variable(self.name, kind)} = {expression};']


def cut(kind, expression):
    """What an integer of this type has of a wider one."""
    bits = width(kind)
    if bits == box(kind):
        return f'(u{bits})({expression})'
    return f'(u{box(kind)})(({expression}) & UINT64_C({(1 << bits) - 1}))'


def signed(kind, value):
    """An integer as a signed one of C."""
    bits, wide = width(kind), box(kind)
    if bits == wide:
        return f'(i{bits}){value}'
    return f'((i{wide})(u{wide})((u{max(wide, 32)}){value} << {wide - bits}) >> {wide - bits})'


def calculation(kind):
    """The type in which integers of a type are calculated: C makes the narrower ones signed."""
    return f'u{max(box(kind), 32)}'


def arithmetic(it):
    kind, rest = take_type(without_flags(it.words))
    if width(kind) is None:
        not_known('an operand', it.words)
    x, y = (it.value(kind, part) for part in parts_of(rest))
    wide = calculation(kind)
    if it.operation in ARITHMETIC:
        return it.result(kind, cut(kind, f'({wide}){x} {ARITHMETIC[it.operation]} ({wide}){y}'))
    if it.operation in SIGNED:
        return it.result(kind, cut(kind, f'({wide.replace("u", "i")}){signed(kind, x)} {SIGNED[it.operation]} {signed(kind, y)}'))
    count = f'({y} & {box(kind) - 1}u)'
    if it.operation == 'shl':
        return it.result(kind, cut(kind, f'({wide}){x} << {count}'))
    if it.operation == 'lshr':
        return it.result(kind, cut(kind, f'({wide}){x} >> {count}'))
    return it.result(kind, cut(kind, f'{signed(kind, x)} >> {count}'))


def compare(it):
    condition, rest = without_flags(it.words).split(' ', 1)
    kind, rest = take_type(rest)
    if kind != 'ptr' and width(kind) is None:
        not_known('an operand', it.words)
    x, y = (it.value(kind, part) for part in parts_of(rest))
    if condition[0] == 's':
        x, y = signed(kind, x), signed(kind, y)
    return it.result('i1', f'{x} {COMPARISONS[condition[-2:]]} {y}')


def select(it):
    (kind, condition), (result, yes), (_, no) = (take_type(part) for part in parts_of(it.words))
    if kind != 'i1':
        not_known('a condition', it.words)
    return it.result(result, f'{it.value("i1", condition)} ? {it.value(result, yes)} : {it.value(result, no)}')


def cast(it):
    kind, rest = take_type(without_flags(it.words))
    text, to = rest.rsplit(' to ', 1)
    value = it.value(kind, text)
    if (kind == 'ptr' or to == 'ptr') and 'i64' not in (kind, to):
        not_known('a cast', it.words)
    if it.operation == 'sext':
        return it.result(to, cut(to, f'(i{box(to)}){signed(kind, value)}'))
    if to == floats.KIND:
        return it.result(to, f'({to}){signed(kind, value) if it.operation == "sitofp" else value}')
    if it.operation == 'trunc':
        return it.result(to, cut(to, value))
    return it.result(to, f'({it.function.type_name(to)}){value}')


def same_bits(it):
    """A number with a fraction as the integer of its bits, or the other way."""
    kind, rest = take_type(it.words)
    text, to = rest.rsplit(' to ', 1)
    if {kind, to} != {'i64', floats.KIND}:
        not_known('a cast', it.words)
    return it.result(to, f'{"bits_of" if to == "i64" else "double_of"}({it.value(kind, text)})')


def freeze(it):
    kind, text = take_type(it.words)
    return it.result(kind, it.value(kind, text))


def load(it):
    kind, place, *_ = parts_of(it.words)
    at = it.value(*take_type(place))
    if kind == 'ptr':
        return it.result(kind, f'load_address({at})')
    if kind == floats.KIND:
        return it.result(kind, f'double_of(load64({at}))')
    if kind == 'volatile i8':
        return it.result('i8', f'*(const volatile u8 *)AT({at})')
    if width(kind) is None:
        not_known('a load', it.words)
    bits = 8 * size_of(kind)
    if bits in WIDTHS_IN_MEMORY:
        return it.result(kind, f'load{bits}({at})')
    wide = f'u{box(kind)}'
    return it.result(kind, ' | '.join(f'({wide})load8({at} + {place}u) << {8 * place}' for place in range(size_of(kind))))


def store(it):
    what, place, *_ = parts_of(it.words)
    kind, text = take_type(what)
    at, value = it.value(*take_type(place)), it.value(kind, text)
    if kind == 'ptr':
        return [f'store_address({at}, {value});']
    if kind == floats.KIND:
        return [f'store64({at}, bits_of({value}));']
    if width(kind) is None:
        not_known('a store', it.words)
    bits = 8 * size_of(kind)
    if bits in WIDTHS_IN_MEMORY:
        return [f'store{bits}({at}, {value});']
    return [f'store8({at} + {place}u, (u8)((u{box(kind)}){value} >> {8 * place}));' for place in range(size_of(kind))]


def own_memory(it):
    kind, *more = parts_of(it.words)
    if any(not re.fullmatch(r'align (?:1|2|4|8|16)', word) for word in more):
        not_known('a block', it.words)
    return it.result('ptr', it.function.memory(size_of(kind)))


def address_of_part(it):
    """getelementptr: an address, and how far it is moved. A number of steps is signed."""
    kind, base, *steps = parts_of(without_flags(it.words))
    result = it.value(*take_type(base))
    for place, step in enumerate(steps):
        if place > 0:
            found = re.fullmatch(r'\[\d+ x (.*)\]', kind)
            kind = found[1] if found else not_known('a step', it.words)
        step_kind, text = take_type(step)
        count = it.value(step_kind, text)
        if width(step_kind) != 64:
            count = f'(u64)(i64){signed(step_kind, count)}'
        result += f' + {count} * {size_of(kind)}u'
    return it.result('ptr', result)


def take_member(it):
    kind, rest = take_type(it.words)
    text, place = parts_of(rest)
    return it.result(members_of(kind)[int(place)], f'{it.value(kind, text)}.m{place}')


def put_member(it):
    whole, member, place = parts_of(it.words)
    kind, text = take_type(whole)
    value = it.value(*take_type(member))
    return [*it.result(kind, it.value(kind, text)), f'{it.function.variable(it.name, kind)}.m{place} = {value};']


def phi(it):
    return []


def end(it):
    return ['return;'] if it.words == 'void' else [f'return {it.value(*take_type(it.words))};']


def unreachable(it):
    return ['UNREACHABLE;']


def branch(it):
    def go(label):
        return it.function.go(it.block, label)

    if found := re.fullmatch(rf'label %({NAME})', it.words):
        return [go(found[1])]
    found = re.fullmatch(rf'i1 (\S+), label %({NAME}), label %({NAME})', it.words)
    if not found:
        not_known('a branch', it.words)
    return [f'if ({it.value("i1", found[1])}) {{ {go(found[2])} }}', f'else {{ {go(found[3])} }}']


def switch(it):
    found = re.fullmatch(rf'(i\d+) (\S+), label %({NAME}) \[(.*)\]', it.words)
    if not found:
        not_known('a switch', it.words)
    kind, cases = found[1], found[4]
    lines = [f'switch ({it.value(kind, found[2])}) {{']
    for number, label in re.findall(rf'{kind} (-?\w+), label %({NAME})', cases):
        lines.append(f'case {it.value(kind, number)}: {it.function.go(it.block, label)}')
    if len(lines) - 1 != cases.count(', label %'):
        not_known('the cases of a switch', it.words)
    return [*lines, f'default: {it.function.go(it.block, found[3])}', '}']


KNOWN = {
    **dict.fromkeys([*ARITHMETIC, *SIGNED, *SHIFTS], arithmetic), **dict.fromkeys(CASTS, cast), **floats.KNOWN, 'bitcast': same_bits,
    'icmp': compare, 'select': select, 'freeze': freeze, 'load': load, 'store': store, 'alloca': own_memory,
    'getelementptr': address_of_part, 'extractvalue': take_member, 'insertvalue': put_member, 'phi': phi, 'ret': end,
    'unreachable': unreachable, 'br': branch, 'switch': switch,
}
# What is done with each element of vectors.
ELEMENTWISE = {name: KNOWN[name] for name in [*ARITHMETIC, *SIGNED, *SHIFTS, 'zext', 'sext', 'trunc', 'icmp', 'select']}
