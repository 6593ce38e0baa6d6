"""A whole module as C: what it asks of the heap, its constants and its functions."""
import re

from .constants import Constant
from .function import Function
from .llvm import NotKnown, not_known
from .values import Types, Values

# What begins a line outside functions that says nothing of what the module does.
PASSED_OVER = re.compile(r'; |source_filename |target |declare |attributes |!|$')
LITTLE_ENDIAN_64 = re.compile(r'target datalayout = "e-m:e-p:64:64-')
# What a library asks of others: heap.c gives it.
HEAP = ('rattle_alloc', 'rattle_realloc', 'rattle_dealloc')


class Functions:
    """What C calls each function. What others may call has a prefix, and so has what the module may ask of others."""

    def __init__(self, types, prefix, asked):
        self.types, self.prefix, self.asked = types, prefix, asked
        self.names, self.outside = {}, {}

    def add(self, name, is_internal):
        self.names[name] = f'f{len(self.names)}' if is_internal else self.prefix + name.strip('"')

    def __getitem__(self, name):
        return self.names[name]

    def of(self, name, kind, taken):
        """The name of a function that is called."""
        if name not in self.names:
            if name not in self.asked:
                not_known('a function that is defined nowhere', name)
            arguments = ', '.join(self.types.name(argument) for argument in taken)
            self.outside[name] = f'{self.types.name(kind)} {self.prefix}{name}({arguments});'
            return self.prefix + name
        return self.names[name]


def body(lines):
    """The lines of a definition, up to its end."""
    result = []
    for _, line in lines:
        if line == '}':
            return result
        result.append(line)
    return not_known('a definition', 'it has no end')


class Module:
    """The functions and the constants of a text, and the whole as C."""

    def __init__(self, text, prefix, asked=HEAP):
        self.types = Types()
        self.values = Values(self.types)
        self.functions = Functions(self.types, prefix, asked)
        self.prefix = prefix
        self.constants, heads = [], []
        if not LITTLE_ENDIAN_64.search(text):
            not_known('the layout of memory', 'another than that of a little-endian machine of 64 bits')
        lines = enumerate(text.splitlines(), 1)
        for number, line in lines:
            if line.startswith('define '):
                heads.append((number, line, body(lines)))
            elif line.startswith('@'):
                self._take_constant(number, line)
            elif not PASSED_OVER.match(line):
                raise NotKnown(f'line {number}: {line}')
        self.all = [self._function(*head) for head in heads]
        for function in self.all:
            self.functions.add(function.llvm_name, function.is_internal)

    def _function(self, number, head, lines):
        try:
            return Function(self.values, self.functions, number, head, lines)
        except NotKnown as problem:
            raise NotKnown(f'line {number}: {problem}') from problem

    def _take_constant(self, number, line):
        try:
            constant = Constant(f'c{len(self.constants)}', line)
        except NotKnown as problem:
            raise NotKnown(f'line {number}: {problem}') from problem
        self.constants.append(constant)
        self.values.globals[constant.llvm_name] = constant.name

    def calls(self):
        """The declarations of what others may call."""
        return [f'{function.signature()};' for function in self.all if not function.is_internal]

    def text(self, head):
        """The file in C."""
        bodies = [line for function in self.all for line in [*function.text(), '']]
        lines = [head, '#include "portable.h"', '', *self.types.declarations(), '', *self.functions.outside.values(), '']
        lines += [line for constant in self.constants for line in constant.declaration()]
        lines += [line for constant in self.constants for line in constant.definition(self.values.globals)]
        lines += ['', *self._fill(), '', *(f'{function.signature()};' for function in self.all), '', *bodies]
        return '\n'.join(lines[:-1]) + '\n'

    def _fill(self):
        """What writes the addresses in constants if the machine is not little-endian. Whoever does it again writes the same."""
        writing = [f'    {line}' for constant in self.constants for line in constant.writing(self.values.globals)]
        signature = f'void {self.prefix}fill(void)'
        return ['#if !IS_LITTLE_ENDIAN', f'{signature};', f'{signature} {{', *writing, '}', '#endif']
