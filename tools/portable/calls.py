"""Calls as C: of the module's own functions, of the heap, and of what LLVM has by itself (`llvm.umin.i32`)."""
import re

from . import floats, vectors, wide
from .instructions import calculation, cut, signed
from .llvm import NAME, bracketed, box, members_of, not_known, parts_of, take_type, vector_of, width, without_attributes

NOTHING = ('assume', 'lifetime', 'experimental', 'donothing')
SIDES = {'umin': '<', 'umax': '>', 'smin': '<', 'smax': '>'}
OVERFLOWS = {'uadd': '+', 'usub': '-', 'umul': '*'}


class Call:
    """A call: the function that has it, its result and what it is given, as types and as C."""

    def __init__(self, function, name, kind, taken):
        self.function, self.name, self.kind, self.taken = function, name, kind, taken
        self.kinds = [kind for kind, _ in taken]
        self.values = [function.value(kind, text) for kind, text in taken]

    def result(self, expression):
        return [f'{self.function.variable(self.name, self.kind)} = {expression};']


class ElementOfCall:
    """A call that takes and answers vectors, at one place of them: as one about integers."""

    def __init__(self, it, place):
        self.function, self.name, self.taken, self.place, self.of = it.function, it.name, it.taken, place, it.kind
        self.kind = vector_of(it.kind)[1]
        self.kinds = [vector_of(kind)[1] if vector_of(kind) else kind for kind in it.kinds]
        self.values = [vectors.elements_of(it.function, kind, text)[place] if vector_of(kind) else it.function.value(kind, text)
                       for kind, text in it.taken]

    def result(self, expression):
        return [f'{self.function.variable(self.name, self.of)}.e[{self.place}] = {expression};']


def call(function, name, words):
    words = re.sub(r'^(?:fastcc )', '', words)
    kind, rest = take_type(without_attributes(words))
    any_number = re.match(r'\(([^()]*)\.\.\.\) ', rest)
    rest = rest[any_number.end():] if any_number else rest
    found = re.match(rf'@({NAME})(?=\()', rest)
    if not found:
        not_known('a call', words)
    inner, _ = bracketed(rest[found.end():])
    called = found[1]
    if called.startswith('llvm.') and called.split('.')[1] in NOTHING:
        return []
    taken = []
    for part in parts_of(inner):
        part_kind, text = take_type(part)
        taken.append((part_kind, without_attributes(text)))
    if any_number:                                                  # only its named parameters: a page makes no file
        taken = taken[:any_number[1].count(',')]
    here = Call(function, name, kind, taken)
    if called.startswith('llvm.'):
        _, operation, *more = called.split('.')
        if operation not in INTRINSICS:
            not_known('a call', words)
        return of_its_own(here, operation, more)
    expression = f'{function.functions.of(called, kind, here.kinds)}({", ".join(here.values)})'
    return [f'{expression};'] if kind == 'void' or name is None else here.result(expression)


def of_its_own(it, operation, more):
    """What LLVM has by itself; of vectors, element by element."""
    if it.kind == wide.KIND:
        return wide.call(it, operation, more)
    if vector_of(it.kind) is None or operation == 'x86':
        return INTRINSICS[operation](it, operation, more)
    return [line for place in range(vector_of(it.kind)[0]) for line in INTRINSICS[operation](ElementOfCall(it, place), operation, more)]


def trap(it, operation, more):
    return ['TRAP;']


def memory(it, operation, more):
    """memcpy, memmove and memset."""
    if it.taken[3][1] != 'false':
        not_known('a volatile', operation)
    return [f'{operation.replace("mem", "memory_")}({", ".join(it.values[:3])});']


def least_or_most(it, operation, more):
    x, y = it.values
    left, right = (signed(it.kind, x), signed(it.kind, y)) if operation[0] == 's' else (x, y)
    return it.result(f'{left} {SIDES[operation]} {right} ? {x} : {y}')


def saturating(it, operation):
    x, y = it.values
    wide = calculation(it.kind)
    most = it.function.value(it.kind, '-1')
    difference, total = f'({wide}){x} - ({wide}){y}', f'({wide}){x} + ({wide}){y}'
    if operation == 'usub':
        return it.result(f'{x} > {y} ? {cut(it.kind, difference)} : 0u')
    return it.result(f'{cut(it.kind, total)} < {x} ? {most} : {cut(it.kind, total)}')


def overflowing(it, operation, more):
    """A result, and whether it is another one than that of numbers without bounds."""
    if more[0] == 'sat' and operation != 'umul':
        return saturating(it, operation)
    if more[0] != 'with':
        not_known('a call', operation)
    kind, (x, y) = members_of(it.kind)[0], it.values
    wide = calculation(kind)
    most = it.function.value(kind, '-1')
    pair = it.function.variable(it.name, it.kind)
    exceeds = {'uadd': f'{pair}.m0 < {x}', 'usub': f'{x} < {y}', 'umul': f'{y} != 0u && {x} > {most} / {y}'}[operation]
    result = cut(kind, f'({wide}){x} {OVERFLOWS[operation]} ({wide}){y}')
    return [f'{pair}.m0 = {result};', f'{pair}.m1 = {exceeds};']


def swap_octets(it, operation, more):
    if width(it.kind) not in (16, 32, 64):
        not_known('a swap of octets', it.kind)
    return it.result(f'swap{width(it.kind)}({it.values[0]})')


def funnel_shift(it, operation, more):
    """Two integers side by side, shifted: a rotation if they are the same."""
    high, low, count = it.values
    bits, wide = width(it.kind), calculation(it.kind)
    if bits != box(it.kind):
        not_known('a shift of two', it.kind)
    count = f'({count} & {bits - 1}u)'
    left, right = (count, f'({bits}u - {count})') if operation == 'fshl' else (f'({bits}u - {count})', count)
    both = cut(it.kind, f'(({wide}){high} << {left}) | (({wide}){low} >> {right})')
    return it.result(f'{count} ? {both} : {high if operation == "fshl" else low}')


def count_bits(it, operation, more):
    """ctpop, ctlz and cttz: of zero as many as it has, whether that is asked or not."""
    bits = '' if operation == 'ctpop' else f', {width(it.kind)}u'
    return it.result(f'(u{box(it.kind)}){operation}({it.values[0]}{bits})')


def without_sign(it, operation, more):
    x = it.values[0]
    return it.result(f'{signed(it.kind, x)} < 0 ? {cut(it.kind, f"0u - ({calculation(it.kind)}){x}")} : {x}')


def three_way(it, operation, more):
    x, y = (signed(it.kinds[0], value) if operation == 'scmp' else value for value in it.values)
    return it.result(cut(it.kind, f'(u32)({x} > {y}) - (u32)({x} < {y})'))


def expected(it, operation, more):
    return it.result(it.values[0])


def fence(it, operation, more):
    """What keeps calculations with fractions apart: each is one statement here."""
    return it.result(it.values[0]) if more == ['fence', 'f64'] else not_known('a call', operation)


def without_sign_of_fraction(it, operation, more):
    if it.kind != floats.KIND:
        not_known('a call', operation)
    return it.result(f'double_of(bits_of({it.values[0]}) & (UINT64_MAX >> 1))')


def of_one_machine(it, operation, more):
    if more != ['ssse3', 'pshuf', 'b', '128']:
        not_known('a call', '.'.join([operation, *more]))
    target = it.function.variable(it.name, it.kind)
    return [f'{target}.e[{place}] = {octet};' for place, octet in enumerate(vectors.octets_by_places(it.kind, *it.values))]


INTRINSICS = {
    'trap': trap, **dict.fromkeys(['memcpy', 'memmove', 'memset'], memory), **dict.fromkeys(SIDES, least_or_most),
    **dict.fromkeys(OVERFLOWS, overflowing), 'bswap': swap_octets, **dict.fromkeys(['fshl', 'fshr'], funnel_shift),
    **dict.fromkeys(['ctpop', 'ctlz', 'cttz'], count_bits), 'abs': without_sign, **dict.fromkeys(['ucmp', 'scmp'], three_way),
    'expect': expected, 'arithmetic': fence, 'fabs': without_sign_of_fraction, 'x86': of_one_machine,
}
