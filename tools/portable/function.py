"""A function of a module as C. Values are variables, blocks are labels, and what a phi takes is moved on the way to its block."""
import re

from . import calls, instructions, vectors, wide
from .llvm import NAME, NotKnown, bracketed, not_known, parts_of, take_type, without_attributes

WORDS = re.compile(r'(?:internal|private|dso_local|local_unnamed_addr|unnamed_addr|hidden|fastcc) ')


class Function:
    """One function: what C calls its values, and their types."""

    def __init__(self, values, functions, line, head, body):
        self.values, self.functions = values, functions
        self.line, self.body = line, body
        rest = head.removeprefix('define ')
        self.is_internal = False
        while found := WORDS.match(rest):
            self.is_internal |= found[0] in ('internal ', 'private ')
            rest = rest[found.end():]
        self.answer, rest = take_type(without_attributes(rest))
        found = re.match(rf'@({NAME})', rest)
        self.llvm_name = found[1]
        self.variables, self.kinds, self.blocks_in_memory = {}, {}, []
        self.parameters = [self._parameter(place, text) for place, text in enumerate(parts_of(bracketed(rest[found.end():])[0]))]

        # Values and blocks without a name have numbers, one after another.
        self.first_block = str(sum(name.isdigit() for name in self.variables))

    def _parameter(self, place, text):
        kind, rest = take_type(text)
        name = without_attributes(rest).removeprefix('%') or str(sum(name.isdigit() for name in self.variables))
        self.variables[name] = f'a{place}'
        return kind, f'a{place}'

    # What instructions ask for.

    def variable(self, name, kind):
        """The variable of a value. An instruction that is met before says its type too."""
        if name not in self.variables:
            self.variables[name] = f'v{len(self.variables)}'
        if kind is not None and self.variables[name].startswith('v'):
            self.kinds[name] = kind
        return self.variables[name]

    def value(self, kind, text):
        """What is handed to an instruction."""
        text = text.strip()
        return self.variable(text[1:], None) if text.startswith('%') else self.values.constant(kind, text)

    def type_name(self, kind):
        return self.values.types.name(kind)

    def memory(self, size):
        """A block of this many octets that is the function's own, as an address."""
        self.blocks_in_memory.append(max(-(-size // 8), 1))
        return f'ADDRESS(block{len(self.blocks_in_memory) - 1})'

    # The text.

    def signature(self):
        taken = ', '.join(f'{self.type_name(kind)} {name}' for kind, name in self.parameters) or 'void'
        return f'{"static " if self.is_internal else ""}{self.type_name(self.answer)} {self.functions[self.llvm_name]}({taken})'

    def text(self):
        """The lines of the definition."""
        blocks = self._blocks()
        self.labels = {name: f'L{place}' for place, (name, _) in enumerate(blocks)}
        self.phis = {name: [self._phi(text) for _, text in lines if ' = phi ' in text] for name, lines in blocks}
        self.reached = set()
        written = [(name, [code for place, text in lines for code in self._instruction(name, place, text)]) for name, lines in blocks]
        result = []
        for name, lines in written:
            result += [f'{self.labels[name]}:;'] if name in self.reached else []
            result += ['    ' + line for line in lines]
        return [self.signature() + ' {', *self._declarations(), *result, '}']

    def _declarations(self):
        by_type = {}
        for name, kind in self.kinds.items():
            by_type.setdefault(self.type_name(kind), []).append(self.variables[name])
        for kind, names in by_type.items():
            for place in range(0, len(names), 16):
                yield f'    {kind} {", ".join(names[place:place + 16])};'
        for place, words in enumerate(self.blocks_in_memory):
            yield f'    u64 block{place}[{words}];'

    def _blocks(self):
        """The blocks: the name of each, and its instructions with their lines. An instruction may go over several lines."""
        blocks = []
        for place, line in enumerate(self.body, self.line + 1):
            found = re.match(rf'({NAME}):', line)
            if found:
                blocks.append((found[1], []))
            elif line.strip() and not line.lstrip().startswith(';'):
                if not blocks:
                    blocks.append((self.first_block, []))
                instructions_here = blocks[-1][1]
                if line.startswith('    ') or line.strip() == ']':
                    instructions_here[-1] = (instructions_here[-1][0], f'{instructions_here[-1][1]} {line.strip()}')
                else:
                    instructions_here.append((place, line.strip()))
        return blocks

    def _phi(self, text):
        found = re.match(rf'%({NAME}) = phi (.*)', text)
        kind, rest = take_type(found[2])
        self.variable(found[1], kind)
        return found[1], kind, {block: value for value, block in re.findall(rf'\[ (.*?), %({NAME}) \]', rest)}

    def go(self, block, to):
        """What leads from a block to another one: the moves of its phis, and the jump."""
        self.reached.add(to)
        moves = []
        for name, kind, given in self.phis[to]:
            if block not in given:
                not_known('a phi without a value', f'{block} to {to}')
            target, source = self.variables[name], self.value(kind, given[block])
            if target != source:
                moves.append((kind, target, source))
        return ' '.join([*self._in_order(moves), f'goto {self.labels[to]};'])

    def _in_order(self, moves):
        """Moves that happen at once, one after another: none writes what a later one reads. In a circle one value is kept aside."""
        result = []
        while moves:
            ready = [move for move in moves if all(move[1] != other[2] for other in moves if other is not move)]
            if ready:
                _, target, source = ready[0]
                result.append(f'{target} = {source};')
                moves.remove(ready[0])
            else:
                kind, target, _ = moves[0]
                aside = self.variable(f'aside {len(self.variables)}', kind)
                result.append(f'{aside} = {target};')
                moves = [(kind, other, aside if source == target else source) for kind, other, source in moves]
        return result

    def _instruction(self, block, place, text):
        text = re.sub(r'(?:, ![\w.]+ !\w+)+$', '', text)
        found = re.match(rf'%({NAME}) = (.*)', text)
        name, words = (found[1], found[2]) if found else (None, text)
        try:
            operation, _, rest = words.partition(' ')
            if operation in ('tail', 'notail'):
                operation, _, rest = rest.partition(' ')
            if operation == 'call':
                return calls.call(self, name, rest)
            here = instructions.Instruction(self, block, name, operation, rest)
            if vectors.is_of_vectors(operation, rest, instructions.ELEMENTWISE):
                return vectors.translate(here, instructions.ELEMENTWISE)
            if operation not in instructions.KNOWN:
                not_known('an instruction', words)
            return wide.translate(here) if wide.is_wide(operation, rest) else instructions.KNOWN[operation](here)
        except NotKnown as problem:
            raise NotKnown(f'line {place}, {self.llvm_name}: {problem}') from problem
