"""The calls of ptpm.h over those of libptpm.c, as C. An address, and each size, has 64 bits there. Octets of numbers in structs are
in the order of a little-endian machine, so another one swaps them before a call, after it, or both."""
import re

WIDTHS = {'uint16_t': 16, 'int16_t': 16, 'uint32_t': 32, 'int32_t': 32, 'uint64_t': 64, 'int64_t': 64}
# Only the library reads and writes these inside, and the places of a table. The seed of a table is drawn: in whatever order its
# octets are, it is one.
CLOSED = ('ptpm_clock', 'ptpm_session', 'ptpm_survey', 'ptpm_passed_on')
# The most structs of an array that a call judges, and one more. With as many any further ones change no answer.
MOST = {'ptpm_port_settings': 9, 'ptpm_observed_port': 9, 'ptpm_manager_settings': 17}
# The arrays that a call reads, with the parameter that has their number.
COUNTS = {'ports': 'port_count', 'managers': 'manager_count'}
# The array that a call writes is `sent`. The parameter that ends so has its number; without one the answer is the number.
WRITTEN = {'*taken': 'taken->count', '*count': '*count'}
# Calls that judge an array of any size, which is their first parameter, with its number. What one answers is the greatest of what it
# answers for each of the array alone: NOT_SETABLE or NOT_SUPPORTED, else WRONG_VALUE, else 0.
FOR_EACH = ('ptpm_limits_say',)
# More sizes than the header has structs. Any further ones would change no answer: there are too many already.
MOST_SIZES = 64


class Header:
    """The structs that have numbers of several octets, also in a struct inside, and the calls."""

    def __init__(self, text):
        text = re.sub(r'/\*.*?\*/', '', text, flags=re.S)
        self.numbers = {}
        for name, body in re.findall(r'^struct (ptpm_\w+) \{(.*?)\};', text, flags=re.M | re.S):
            members = re.findall(r'(\w+) (\w+)(?:\[\w+\])*;', body)
            wide = [(kind, member) for kind, member in members if kind in WIDTHS or kind in self.numbers]
            if wide and name not in CLOSED:
                self.numbers[name] = wide
        # A macro of a call's name looks at what it hands on. The call itself is made without it.
        self.macros = re.findall(r'^#define (ptpm_\w+)\(', text, flags=re.M)
        self.calls = []
        found = re.findall(r'^(?!static)((?:enum )?\w+) (ptpm_\w+)\(([^;{]*)\);', text, flags=re.M)
        for answer, name, taken in found:
            words = re.sub(r'\s+', ' ', taken)
            self.calls.append((answer, name, [] if words == 'void' else words.split(', ')))

    def text(self, head, declarations):
        """The file in C; the declarations are those of libptpm.c."""
        lines = [head, '#include "portable.h"', '#include "ptpm.h"', '#include <stddef.h>', '',
                 *(f'#undef {name}' for name in self.macros), '', *declarations, '', *FILLING]
        lines += ['#if IS_LITTLE_ENDIAN', *(f'#define swap_{name}(at) ((void)0)' for name in self.numbers), '#else']
        for name, members in self.numbers.items():
            lines.append(f'static void swap_{name}(struct {name} *at) {{')
            for kind, member in members:
                if kind in self.numbers:
                    lines.append(f'    swap_{kind}(&at->{member});')
                    continue
                lines.append(f'    at->{member} = ({kind})swap{WIDTHS[kind]}((u{WIDTHS[kind]})at->{member});')
            lines.append('}')
        lines.append('#endif')
        for call in self.calls:
            lines += ['', *self._call(*call)]
        return '\n'.join(lines).replace('#endif\n#if !IS_LITTLE_ENDIAN\n', '') + '\n'

    def _call(self, answer, name, taken):
        if name in FOR_EACH:
            return self._call_for_each(answer, name, taken)
        before, given, after = [], [], []
        written = next((count for end, count in WRITTEN.items() if any(parameter.endswith(end) for parameter in taken)), 'answer')
        for parameter in taken:
            for lines, more in zip((before, given, after), self._parameter(parameter, written)):
                lines += more
        # A size comes before what it counts.
        after.sort(key=lambda line: line.startswith('for'))
        call = f'portable_{name}({", ".join(given)})'
        lines = [f'{answer} {name}({", ".join(taken) or "void"}) {{']
        lines += ['    fill();', *(line if line[0] == '#' else f'    {line}' for line in before)]
        if answer == 'void':
            lines += [f'    {line}' for line in [f'{call};', *after]]
        elif after:
            lines += [f'    {line}' for line in [f'{answer} answer = ({answer}){call};', *after, 'return answer;']]
        else:
            lines.append(f'    return ({answer}){call};')
        return lines + ['}']

    def _call_for_each(self, answer, name, taken):
        array, count, *rest = taken
        struct, array = re.match(r'const struct (ptpm_\w+) \*(\w+)$', array).groups()
        count = re.search(r'\w+$', count)[0]
        before, given = [], []
        for parameter in rest:
            lines, more, _ = self._parameter(parameter, '')
            before += lines
            given += more
        call = f'portable_{name}({", ".join(["ADDRESS(&one)", "1", *given])})'
        return [f'{answer} {name}({", ".join(taken)}) {{', '    fill();', *(line if line[0] == '#' else f'    {line}' for line in before),
                f'    {answer} greatest = 0;', f'    for (size_t i = 0; i < {count}; i++) {{',
                f'        struct {struct} one = {array}[i];', f'        swap_{struct}(&one);',
                f'        {answer} answer = ({answer}){call};', '        if (answer > greatest) greatest = answer;', '    }',
                '    return greatest;', '}']

    def _parameter(self, text, written):
        """What is done before a call for a parameter, what is handed on, and what is done after it. `written` counts what it wrote."""
        array = re.search(r'\(\*(\w+)\)', text)
        if array:
            return [], [f'ADDRESS({array[1]})'], []
        name = re.search(r'(\w+)(?:\[\w+\])?$', text)[1]
        struct = re.match(r'(const )?struct (ptpm_\w+) \*', text)
        if '*' not in text and '[' not in text:
            return [], [name], []
        if 'const size_t *' in text:
            return sizes_in(name), [f'ADDRESS({name}_in)'], []
        if 'size_t *' in text:
            return [f'u64 {name}_out = 0;'], [f'ADDRESS(&{name}_out)'], [f'*{name} = (size_t)load64(ADDRESS(&{name}_out));']
        if 'uint16_t *' in text:
            # A call may leave it as it was.
            before = [f'u16 {name}_out;', f'store16(ADDRESS(&{name}_out), *{name});']
            return before, [f'ADDRESS(&{name}_out)'], [f'*{name} = load16(ADDRESS(&{name}_out));']
        if 'uint64_t *' in text:
            return [f'u64 {name}_out = 0;'], [f'ADDRESS(&{name}_out)'], [f'*{name} = load64(ADDRESS(&{name}_out));']
        if struct and struct[2] in self.numbers:
            return structs_in(name, struct[2]) if struct[1] else structs_out(name, struct[2], written)
        return [], [f'ADDRESS({name})'], []


def sizes_in(name):
    """An array of sizes with its number, `count`."""
    return [f'u64 {name}_in[{MOST_SIZES}];', f'if (count > {MOST_SIZES}) count = {MOST_SIZES};',
            f'for (size_t i = 0; i < count; i++) store64(ADDRESS(&{name}_in[i]), {name}[i]);']


def structs_in(name, struct):
    """What a call reads: on a machine of another order a copy of it."""
    lines = ['#if !IS_LITTLE_ENDIAN']
    if name in COUNTS:
        count = COUNTS[name]
        lines += [f'struct {struct} {name}_in[{MOST[struct]}];', f'if ({count} > {MOST[struct]}) {count} = {MOST[struct]};',
                  f'for (size_t i = 0; i < {count}; i++) {{', f'    {name}_in[i] = {name}[i];', f'    swap_{struct}(&{name}_in[i]);', '}',
                  f'{name} = {name}_in;']
    else:
        lines += [f'struct {struct} {name}_in = *{name};', f'swap_{struct}(&{name}_in);', f'{name} = &{name}_in;']
    return [*lines, '#endif'], [f'ADDRESS({name})'], []


def structs_out(name, struct, written):
    """What a call writes, all of it or nothing; of an array the first of them."""
    if name == 'sent':
        return [], [f'ADDRESS({name})'], [f'for (size_t i = 0; i < {written}; i++) swap_{struct}(&{name}[i]);']
    return [f'swap_{struct}({name});'], [f'ADDRESS({name})'], [f'swap_{struct}({name});']


# On a big-endian machine the first call of each thread may write the addresses in constants, the same ones; then it says so.
FILLING = '''#if IS_LITTLE_ENDIAN
#define fill() ((void)0)
#else
void portable_fill(void);

static void fill(void) {
    static unsigned char is_filled;
#ifdef __GNUC__
    if (__atomic_load_n(&is_filled, __ATOMIC_ACQUIRE)) return;
    portable_fill();
    __atomic_store_n(&is_filled, 1, __ATOMIC_RELEASE);
#else
    if (is_filled) return;
    portable_fill();
    is_filled = 1;
#endif
}
#endif
'''.splitlines()
