"""Types and constants of a module as C: what a type is called, and how a constant is written."""
import re

from . import floats, vectors, wide
from .llvm import NAME, bracketed, box, members_of, not_known, number_of, parts_of, size_of, take_type, vector_of, width

ZEROS = ('undef', 'poison', 'zeroinitializer', 'null')
OF_AN_ADDRESS = r'getelementptr (?:(?:inbounds|nuw|nusw) )*'


class Types:
    """The C types of a module. A struct has a name by its members, in the order in which they come up."""

    def __init__(self):
        self.structs = {'{ i64, i64 }': 'pair'}
        self.vectors = {}

    def name(self, kind):
        if kind == 'void':
            return 'void'
        if kind in ('ptr', wide.KIND):
            return 'address' if kind == 'ptr' else 'struct wide'
        if kind == floats.KIND:
            return floats.KIND
        if width(kind) is not None:
            return f'u{box(kind)}'
        if vector_of(kind) is not None:
            count, element = vector_of(kind)
            name = f'v{count}u{box(element)}'
            self.vectors[name] = f'struct {name} {{ u{box(element)} e[{count}]; }};'
            return f'struct {name}'
        if kind not in self.structs:
            for member in members_of(kind):
                self.name(member)
            self.structs[kind] = f's{len(self.structs)}'
        return f'struct {self.structs[kind]}'

    def declarations(self):
        """The structs, each after those that are its members. portable.h has the pair."""
        yield from self.vectors.values()
        for kind, name in self.structs.items():
            if name != 'pair':
                members = ' '.join(f'{self.name(member)} m{place};' for place, member in enumerate(members_of(kind)))
                yield f'struct {name} {{ {members} }};'


def number(kind, value):
    """A number as C writes it, of a type that has its width."""
    if value < 1 << 16:
        return f'{value}u'
    return f'UINT{max(box(kind), 32)}_C({value})'


class Values:
    """How constants are written in C. Undefined values are 0."""

    def __init__(self, types):
        self.types = types
        self.globals = {}

    def constant(self, kind, text):
        if kind == wide.KIND:
            return wide.constant(text)
        if kind == floats.KIND:
            return floats.constant(text)
        if vector_of(kind) is not None:
            return vectors.constant(self, kind, text)
        if text in ZEROS:
            return f'({self.types.name(kind)}){{ 0 }}' if kind.startswith('{') else '0u'
        if kind == 'ptr':
            return self.address(text)
        if width(kind) is not None and (found := re.fullmatch(r'ptrto(?:int|addr) \(ptr (.*) to i64\)', text)):
            return self.address(found[1])
        if kind in ('i8', 'i16', 'i32') and (found := re.fullmatch(rf'ptrto(?:int|addr) \(ptr (.*) to {kind}\)', text)):
            return f'(({self.types.name(kind)}){self.address(found[1])})'
        if width(kind) is not None:
            return number(kind, number_of(kind, text))
        if kind.startswith('{') and text.startswith('{'):
            members = (self.constant(*take_type(member)) for member in parts_of(bracketed(text)[0]))
            return f'({self.types.name(kind)}){{ {", ".join(members)} }}'
        return not_known('a constant', f'{kind} {text}')

    def address(self, text):
        """An address that is known when the program is linked."""
        if text.startswith('@'):
            if text[1:] not in self.globals:
                not_known('the address of', text)
            return f'ADDRESS({self.globals[text[1:]]})'
        if found := re.fullmatch(r'inttoptr \(i64 (-?\d+) to ptr\)', text):
            return f'(address){number("i64", number_of("i64", found[1]))}'
        found = re.match(OF_AN_ADDRESS + r'(?=\()', text)
        if not found:
            not_known('an address', text)
        element, base, index, *more = parts_of(bracketed(text[found.end():])[0])
        kind, places = take_type(index)
        if more or kind != 'i64':
            not_known('an address', text)
        return f'({self.address(take_type(base)[1])} + {self.constant("i64", places)} * {size_of(element)}u)'


def reference(text):
    """The global that a constant pointer leads to, and how many octets after its beginning; None if it leads to none."""
    if found := re.fullmatch(rf'@({NAME})', text):
        return found[1], 0
    found = re.fullmatch(OF_AN_ADDRESS + rf'\(i8, ptr @({NAME}), i64 (\d+)\)', text)
    return (found[1], int(found[2])) if found else None
