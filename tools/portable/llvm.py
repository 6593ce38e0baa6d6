"""The text of LLVM's intermediate representation: its lists, its types, and what a type takes in memory.

Types stay texts, such as `i32`, `ptr`, `double`, `[4 x i8]` and `{ i64, i1 }`. Memory has the layout of a 64-bit little-endian machine."""
import re

# A name of a value, of a block or of a function, without the sign before it.
NAME = r'(?:"(?:[^"\\]|\\.)*"|[-a-zA-Z$._0-9]+)'
OPENING, CLOSING = '({[<', ')}]>'

ATTRIBUTE = re.compile(
    r'(?:noundef|nonnull|zeroext|signext|readonly|writeonly|readnone|returned|nocapture|noalias|nofree|inreg|immarg|dead_on_unwind'
    r'|writable|allocptr|dead_on_return|align \d+|dereferenceable(?:_or_null)?\(\d+\)|range\([^()]*\)|memory\([^()]*\)'
    r'|(?:captures|initializes)\((?:[^()]|\([^()]*\))*\))(?=[\s,)]|$)\s*')


class NotKnown(Exception):
    """What this translator does not know, or does not take."""


def not_known(what, text):
    raise NotKnown(f'{what}: {text[:160]}')


def depths(text):
    """Each character that is in no quotes, with its place, and in how many brackets it is."""
    depth, is_quoted = 0, False
    for place, character in enumerate(text):
        if character == '"':
            is_quoted = not is_quoted
        elif not is_quoted:
            depth += (character in OPENING) - (character in CLOSING)
            yield place, character, depth


def parts_of(text):
    """The parts of a list, between the commas that are in no brackets."""
    parts, begun = [], 0
    for place, character, depth in depths(text):
        if character == ',' and depth == 0:
            parts.append(text[begun:place].strip())
            begun = place + 1
    last = text[begun:].strip()
    return parts + [last] if last else parts


def bracketed(text):
    """What is in the brackets that a text begins with, and what is after them."""
    for place, _, depth in depths(text):
        if depth == 0:
            return text[1:place], text[place + 1:].lstrip()
    return not_known('brackets', text)


def take_type(text):
    """The type that a text begins with, and what is after it."""
    text = text.lstrip()
    if text[:1] in ('{', '[', '<'):
        _, rest = bracketed(text)
        return text[:len(text) - len(rest)].rstrip(), rest
    found = re.match(r'(?:i\d+|ptr|void|double)\b', text)
    if not found:
        not_known('a type', text)
    return found[0], text[found.end():].lstrip()


def without_attributes(text):
    text = text.lstrip()
    while found := ATTRIBUTE.match(text):
        text = text[found.end():]
    return text


def without_flags(text):
    """An instruction without the words that say what never happens in it. What is defined without them is so with them."""
    return re.sub(r'^(?:(?:nuw|nsw|nusw|exact|disjoint|nneg|samesign|inbounds) )+', '', text)


def width(kind):
    """How many bits an integer has; None if a type is another one."""
    return int(kind[1:]) if re.fullmatch(r'i\d+', kind) else None


def box(kind):
    """How many bits the C type of an integer has."""
    for bits in (8, 16, 32, 64):
        if width(kind) is not None and width(kind) <= bits:
            return bits
    return not_known('an integer', kind)


def vector_of(kind):
    """How many integers of which type a vector has; None if a type is another one."""
    found = re.fullmatch(r'<(\d+) x (i\d+)>', kind)
    return (int(found[1]), found[2]) if found else None


def members_of(kind):
    """The types of a struct's members."""
    if not kind.startswith('{'):
        not_known('a struct', kind)
    return parts_of(kind[1:-1])


def size_of(kind):
    """How many octets a value has in memory."""
    if kind in ('ptr', 'double'):
        return 8
    if width(kind) is not None:
        return -(-width(kind) // 8)
    if found := re.fullmatch(r'\[(\d+) x (.*)\]', kind):
        return int(found[1]) * size_of(found[2])
    if kind.startswith('<{'):
        return sum(map(size_of, parts_of(kind[2:-2])))
    if vector_of(kind) is not None:
        count, element = vector_of(kind)
        return count * size_of(element) if width(element) % 8 == 0 else not_known('the size of', kind)
    return not_known('the size of', kind)


def number_of(kind, text):
    """A constant as the unsigned number of its width."""
    if text in ('true', 'false'):
        return int(text == 'true')
    if not re.fullmatch(r'-?\d+', text):
        not_known('a number', text)
    return int(text) % (1 << width(kind))


def octets_of_text(text):
    """The octets of a text in quotes, without these."""
    found = re.findall(r'\\([0-9A-Fa-f]{2})|(\\\\)|([^\\])', text)
    return [int(digits, 16) if digits else 92 if back else ord(plain) for digits, back, plain in found]
