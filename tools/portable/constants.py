"""The constants of a module as C: octets, and addresses of other constants among them."""
import re

from . import floats
from .llvm import NAME, bracketed, not_known, number_of, octets_of_text, parts_of, size_of, take_type, width
from .values import ZEROS, reference

WORDS = re.compile(r'(?:private|internal|local_unnamed_addr|unnamed_addr|dso_local|hidden) ')


def initial(kind, text):
    """What memory has at first: a list of octets. An address is a pair of a name and a number, and seven times None."""
    text = text.strip()
    if text in ZEROS:
        return [0] * size_of(kind)
    if kind == floats.KIND:
        return list(floats.bits_of(text).to_bytes(8, 'little'))
    if width(kind) is not None:
        return list(number_of(kind, text).to_bytes(size_of(kind), 'little'))
    if text.startswith('c"'):
        return octets_of_text(text[2:-1])
    if kind == 'ptr':
        if found := re.fullmatch(r'inttoptr \(i64 (\d+) to ptr\)', text):
            return list(int(found[1]).to_bytes(8, 'little'))
        if reference(text) is None:
            not_known('a pointer in a constant', text)
        return [reference(text)] + [None] * 7
    if text.startswith('['):
        inner = bracketed(text)[0]
    elif text.startswith('<{'):
        inner = text[2:-2]
    else:
        not_known('a constant', text)
    return [octet for part in parts_of(inner) for octet in initial(*take_type(part))]


class Constant:
    """A constant of the module: its name in C, and its octets."""

    def __init__(self, name, line):
        found = re.match(rf'@({NAME}) = ', line)
        self.llvm_name, rest = found[1], line[found.end():]
        while found := WORDS.match(rest):
            rest = rest[found.end():]
        if not rest.startswith('constant '):
            not_known('a variable', line)
        kind, rest = take_type(rest[len('constant '):])
        text, *words = parts_of(rest)
        if any(not re.fullmatch(r'align (?:1|2|4|8|16)', word) for word in words):
            not_known('what is said of a constant', ', '.join(words))
        self.name = name
        self.octets = initial(kind, text)
        self.places = [place for place, octet in enumerate(self.octets) if isinstance(octet, tuple)]
        if any(place % 8 for place in self.places):
            not_known('an address at no multiple of eight octets', line)

    def declaration(self):
        """What names it. A constant without addresses is defined at once."""
        if not self.places:
            return [f'#define {self.name} (octets_of_{self.name}.octets)',
                    f'static const union {{ u8 octets[{max(len(self.octets), 1)}]; u64 aligned; }} octets_of_{self.name} = '
                    f'{{ {{ {written(self.octets)} }} }};']
        members = ' '.join(f'slot slot{begin};' if self._is_address(begin) else f'u8 octets{begin}[{end - begin}];'
                           for begin, end in self._parts())
        return ['#if IS_LITTLE_ENDIAN', f'static const struct form_of_{self.name} {{ {members} }} octets_of_{self.name};',
                f'#define {self.name} ((const u8 *)&octets_of_{self.name})', '#else',
                f'static union form_of_{self.name} {{ u8 octets[{len(self.octets)}]; u64 aligned; }} octets_of_{self.name};',
                f'#define {self.name} (octets_of_{self.name}.octets)', '#endif']

    def definition(self, names):
        """What is in one with addresses, once all are named. On another machine than a little-endian one these are written at the
        first call."""
        if not self.places:
            return []
        values = []
        for begin, end in self._parts():
            to, distance = self.octets[begin] if self._is_address(begin) else (None, 0)
            values.append(f'{{ {written(self.octets[begin:end])} }}' if to is None else f'SLOT({names[to]} + {distance})')
        plain = [octet if isinstance(octet, int) else 0 for octet in self.octets]
        return ['#if IS_LITTLE_ENDIAN', f'static const struct form_of_{self.name} octets_of_{self.name} = {{ {", ".join(values)} }};',
                '#else', f'static union form_of_{self.name} octets_of_{self.name} = {{ {{ {written(plain)} }} }};', '#endif']

    def _is_address(self, place):
        return isinstance(self.octets[place], tuple)

    def _parts(self):
        """Where each address, and what is between two of them, begins and ends."""
        at = 0
        for place in [*self.places, len(self.octets)]:
            if place > at:
                yield at, place
            if place < len(self.octets):
                yield place, place + 8
            at = place + 8

    def writing(self, names):
        """What writes its addresses on a machine that is not little-endian."""
        for place in self.places:
            to, distance = self.octets[place]
            yield f'store_address(ADDRESS({self.name}) + {place}u, ADDRESS({names[to]}) + {distance}u);'


def written(octets):
    return ','.join(map(str, octets)) if any(octets) else '0'
