"""Vectors of integers as C: arrays in structs. What is done with each element is done as with an integer alone."""
import re

from .llvm import bracketed, box, not_known, parts_of, size_of, take_type, vector_of, width, without_flags

VECTOR = r'<(\d+) x (i\d+)>'
WHOLE = ('insertelement', 'extractelement', 'shufflevector', 'bitcast', 'load', 'store')


def is_of_vectors(operation, words, elementwise):
    """Whether an instruction is about the elements of vectors. What only hands them on is as for any other value."""
    if operation == 'bitcast':
        return re.search(VECTOR, words) is not None
    if operation in WHOLE or operation in elementwise:
        return re.match(rf'(?:\w+ )?{VECTOR}', without_flags(words)) is not None
    return False


def elements(values, kind, text):
    """The elements of a constant as C."""
    count, element = vector_of(kind)
    if text in ('undef', 'poison', 'zeroinitializer'):
        return ['0u'] * count
    if text.startswith('splat ('):
        return [values.constant(*take_type(bracketed(text[len('splat '):])[0]))] * count
    if text.startswith('<'):
        return [values.constant(*take_type(part)) for part in parts_of(bracketed(text)[0])]
    return not_known('a vector', text)


def constant(values, kind, text):
    """A constant as C. In an array what is not said is zero."""
    given = elements(values, kind, text)
    if set(given) == {'0u'}:
        given = given[:1]
    return f'({values.types.name(kind)}){{ {{ {", ".join(given)} }} }}'


def elements_of(function, kind, text):
    """The elements of what is handed to an instruction, as C."""
    text = text.strip()
    if not text.startswith('%'):
        return elements(function.values, kind, text)
    whole = function.variable(text[1:], None)
    return [f'{whole}.e[{place}]' for place in range(vector_of(kind)[0])]


class Element:
    """An instruction about vectors of so many elements, at one place of them: as one about integers."""

    def __init__(self, it, count, place):
        self.function, self.block, self.name, self.operation = it.function, it.block, it.name, it.operation
        self.words = re.sub(VECTOR, r'\2', it.words)
        self.count, self.place = count, place

    def _vector(self, kind):
        return f'<{self.count} x {kind}>'

    def value(self, kind, text):
        return elements_of(self.function, self._vector(kind), text)[self.place]

    def result(self, kind, expression):
        return [f'{self.function.variable(self.name, self._vector(kind))}.e[{self.place}] = {expression};']


def translate(it, elementwise):
    if it.operation in elementwise:
        count = int(re.search(VECTOR, it.words)[1])
        return [line for place in range(count) for line in elementwise[it.operation](Element(it, count, place))]
    return {'insertelement': put, 'extractelement': take, 'shufflevector': shuffle, 'bitcast': same_bits, 'load': load,
            'store': store}[it.operation](it)


def put(it):
    (kind, whole), (element, value), (index_kind, index) = (take_type(part) for part in parts_of(it.words))
    target = it.function.variable(it.name, kind)
    return [f'{target} = {it.value(kind, whole)};', f'{target}.e[{it.value(index_kind, index)}] = {it.value(element, value)};']


def take(it):
    (kind, whole), (index_kind, index) = (take_type(part) for part in parts_of(it.words))
    return it.result(vector_of(kind)[1], f'{it.value(kind, whole)}.e[{it.value(index_kind, index)}]')


def shuffle(it):
    """Elements of two vectors, by their places in both side by side; a place that is undefined is the first."""
    (kind, first), (_, second), (places_kind, places) = (take_type(part) for part in parts_of(it.words))
    both = elements_of(it.function, kind, first) + elements_of(it.function, kind, second)
    chosen = [int(place.rstrip('u')) for place in elements(it.function.values, places_kind, places)]
    target = it.function.variable(it.name, f'<{len(chosen)} x {vector_of(kind)[1]}>')
    return [f'{target}.e[{to}] = {both[place]};' for to, place in enumerate(chosen)]


def load(it):
    kind, place, *_ = parts_of(it.words)
    count, element = vector_of(kind)
    if width(element) not in (8, 16, 32, 64):
        not_known('a load', it.words)
    at, target = it.value(*take_type(place)), it.function.variable(it.name, kind)
    return [f'{target}.e[{place}] = load{width(element)}({at} + {place * size_of(element)}u);' for place in range(count)]


def store(it):
    what, place, *_ = parts_of(it.words)
    kind, text = take_type(what)
    element = vector_of(kind)[1]
    if width(element) not in (8, 16, 32, 64):
        not_known('a store', it.words)
    at = it.value(*take_type(place))
    return [f'store{width(element)}({at} + {place * size_of(element)}u, {value});'
            for place, value in enumerate(elements_of(it.function, kind, text))]


def same_bits(it):
    """A vector or an integer as another one with the same bits, the first element lowest."""
    kind, rest = take_type(it.words)
    text, to = rest.rsplit(' to ', 1)
    given = elements_of(it.function, kind, text) if vector_of(kind) else [it.value(kind, text)]
    element = vector_of(kind)[1] if vector_of(kind) else kind
    count, other = vector_of(to) or (1, to)
    least, most = sorted((width(element) or 0, width(other) or 0))
    if least == 0 or most % least or most > 64 or len(given) * width(element) != count * width(other):
        not_known('a cast of a vector', it.words)
    made = list(joined(given, element, other) if width(element) < width(other) else divided(given, element, other))
    target = it.function.variable(it.name, to)
    return [f'{target}{f".e[{place}]" if vector_of(to) else ""} = {value};' for place, value in enumerate(made)]


def joined(given, element, other):
    """Wider integers, of several of these each."""
    each, wide = width(other) // width(element), f'u{max(box(other), 32)}'
    for place in range(0, len(given), each):
        parts = (f'({wide}){value} << {at * width(element)}' for at, value in enumerate(given[place:place + each]))
        yield f'(u{box(other)})({" | ".join(parts)})'


def divided(given, element, other):
    """Integers that are as wide as these or narrower, several of each."""
    cut = f'& UINT64_C({(1 << width(other)) - 1})'
    for value in given:
        for at in range(0, width(element), width(other)):
            yield f'(u{box(other)})(({value} >> {at}) {cut})'


def octets_by_places(kind, given, places):
    """Octets of a vector by those of another one; where that one's is above 127, zero."""
    count = vector_of(kind)[0]
    return [f'{place} & 128u ? 0u : {given}.e[{place} & {count - 1}u]' for place in (f'{places}.e[{at}]' for at in range(count))]
