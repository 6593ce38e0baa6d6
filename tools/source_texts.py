"""The texts of a source file in C, Rust, Rattle or Python: its comments, and its strings. Each text is a list of pairs: the number
of a line, and what is on it."""
import ast
import re

# A comment and a sign are read whole, so that a quote in them begins no string.
TOKEN = re.compile(r'''(?P<comment>/\*.*?\*/|//[^\n]*)
                     |(?<!\w)r(?P<signs>\#*)"(?P<raw>.*?)"(?P=signs)
                     |"(?P<string>(?:[^"\\]|\\.)*)"
                     |'(?:[^'\\\n]|\\[^\n]{1,9}?)\'''', re.S | re.X)
DOCUMENTED = (ast.Module, ast.ClassDef, ast.FunctionDef, ast.AsyncFunctionDef)
CONVERSION = '%s'

# What each line of a comment begins with, by the end of the file's name.
MARKERS = {'.rs': '//[/!]', '.rt': '//[/!]?', '.antt': '--'}


def lines_of(number, text):
    """The lines of a text that begins on the line of this number."""
    return [(number + place, line) for place, line in enumerate(text.split('\n'))]


def comments(path, source):
    """The comments of a file: in Python its docstrings, in Rust those of `///` and `//!`, in Rattle also those of `//` and `--`."""
    marker = next((marker for ending, marker in MARKERS.items() if path.endswith(ending)), None)
    if path.endswith('.py'):
        yield from docstrings(source)
    elif marker:
        yield from line_comments(source, marker)
    else:
        for match in TOKEN.finditer(source):
            if match['comment'] and match['comment'].startswith('/*'):
                yield lines_of(source.count('\n', 0, match.start()) + 1, match['comment'][2:-2])


def docstrings(source):
    for node in ast.walk(ast.parse(source)):
        if isinstance(node, DOCUMENTED) and ast.get_docstring(node) is not None:
            yield lines_of(node.body[0].lineno, node.body[0].value.value)


def line_comments(source, marker):
    """Lines that begin with the same marker and follow each other are one comment."""
    comment, latest = [], None
    for number, line in enumerate(source.split('\n') + [''], 1):
        match = re.match(rf'\s*({marker})(?: |$)(.*)', line)
        found = match and match[1]
        if comment and found != latest:
            yield comment
            comment = []
        if match:
            comment.append((number, match[2]))
        latest = found


def strings(path, source):
    """The strings of a file, with the line feeds that are in them. Those that follow each other are one text."""
    return strings_of_python(source) if path.endswith('.py') else strings_of_c(source)


def meant(literal):
    """The text that a string of C or Rust stands for, as far as a reader sees it."""
    return re.sub(r'\\(?:\n\s*|(.))', lambda match: {None: '', 'n': '\n'}.get(match[1], match[1]), literal, flags=re.S)


def strings_of_c(source):
    text, end = [], 0
    for match in TOKEN.finditer(source):
        found = match['raw'] if match['string'] is None else meant(match['string'])
        if text and (found is None or source[end:match.start()].strip()):
            yield text
            text = []
        if found is not None:
            text.append((source.count('\n', 0, match.start()) + 1, found))
            end = match.end()
    if text:
        yield text


def strings_of_python(source):
    tree = ast.parse(source)
    nodes = list(ast.walk(tree))
    parts = {id(part) for node in nodes if isinstance(node, ast.JoinedStr) for part in ast.walk(node) if part is not node}
    parts |= {id(node.body[0].value) for node in nodes if isinstance(node, DOCUMENTED) and ast.get_docstring(node) is not None}
    for node in nodes:
        if isinstance(node, ast.JoinedStr):
            yield [(node.lineno, ''.join(part.value if isinstance(part, ast.Constant) else CONVERSION for part in node.values))]
        elif isinstance(node, ast.Constant) and isinstance(node.value, str) and id(node) not in parts:
            is_long = node.end_lineno > node.lineno and '\n' in node.value
            yield [(number, line + '\n') for number, line in lines_of(node.lineno, node.value)] if is_long else [(node.lineno, node.value)]
