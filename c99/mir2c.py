#!/usr/bin/env python3
"""mir2c.py --export PREFIX [--sources CRATES] [--include HEADER] MIR... > C: the program whose MIR proved libraries carry, as one C99 file.

The functions whose name begins with PREFIX are made visible, with a pointer and a count for each slice; all others are static. A word that is
not known stops the translation. `--words` prints the meaning that is given to each word of the MIR, `--unfolded` leaves spare.py and fold.py out:
one statement for each of the MIR.

mir.py reads the MIR, spare.py leaves out copies, fold.py puts values into the statement that reads them, words.py says what each word is in C, source.py has names and
comments. This file has types, functions and the parts of the file."""
import argparse
import pathlib
import re
import sys
import textwrap
import types

import fold
import mir
import source
import spare
import words
from mir import Unknown

HEAD = '''/*
 * Made from the proved program by a translator; not written by hand.
 *
 * C99. Needs of the host memcpy and memset only, which compilers call for copies and for zeros. Nothing here is recursive, and no static
 * object is written. Every number has the width that the proof gives it; lengths and indices have 64 bits there, and here too. The
 * count of a slice comes from a size_t or is that of an array or of a part (proved), so a slice keeps it as a size_t, and it is read
 * as 64 bits; an index is below a count (proved), so it fits a size_t again.
 */
#include <stdbool.h>
#include <stddef.h>
#include <stdint.h>
'''

CHECKS = '''#if defined(__GNUC__) && !defined(__clang__)
#pragma GCC diagnostic ignored "-Wmaybe-uninitialized" /* parts of a variant that it is not are copied along, and never read (proved) */
#endif
#if SIZE_MAX > UINT64_MAX
#error "a size_t does not fit 64 bits"
#endif
typedef char int_has_32_bits_or_more[sizeof(int) >= 4 ? 1 : -1];
'''

# a function with arrays of at least so many bytes keeps its frame to itself, so that they take stack only while it runs; but not one that is
# called in one loop only, of a caller with larger arrays: a frame of its own then costs more than it frees
LARGE = 64
APART = '''#ifdef __GNUC__
#define APART __attribute__((noinline)) /* its arrays take stack only while it runs */
#else
#define APART
#endif
'''

# such a function with fewer bytes of arrays than this that is called in one place only, by a visible function, is a part of that one, whose frame
# would not be smaller without it; gcc alone would leave it out for its arrays
SMALL = 256
ONCE = '''#ifdef __GNUC__
#define ONCE inline __attribute__((always_inline)) /* a part of the one function that calls it */
#else
#define ONCE inline
#endif
'''

# The count of rounds of the closed reading is the call that takes the most stack. What its loop calls with arrays is a part of it (their frames
# would each keep the slices at hand once more), and what runs beside these calls keeps its frame to itself. The iterator over the lines of a page
# is a part of each loop over it, so that its numbers are locals there, and what the library has is a part of its callers: a statement or a few. Some
# functions of the reader are parts for the same reason: what they answer is locals then. So are the steps of the loops over a set and over an index:
# one of them is a few statements, and where a compiler is asked for small code it would be a call in each turn. The check of picks takes the most
# stack in the closure that it finds first, so the evaluation of a pick, which comes later, keeps its frame to itself.
PARTS = {'bits::Set::insert', 'bits::Set::remove', 'bits::Set::is_empty', 'bits::Set::next_from', 'bits::DrainIterator::next', 'settle::wake',
         'index::source::Source::lines_of', 'index::source::Source::users_of', 'index::source::Source::again', 'page::Page::again',
         'page::Page::condition', 'page::condition_at', 'page::Page::kind', 'page::kind_at', 'fields::digit',
         'stages::support', 'stages::advance', 'stages::follow', 'stages::take_highs', 'settle::Figures::raise',
         'rounds::round', 'page::Page::of', 'page::Page::lines', 'page::Page::entry', 'page::entry_at', 'page::Lines::checked',
         'page::LinesIterator::next', 'reach::follow', 'reach::pass', 'picks::judge', 'run::check_areas', 'run::reached',
         'stalls::part_at', 'stalls::check_shared', 'fields::digits', 'fields::digits_from', 'lines::parse_pair', 'reader::write::checked_pair'}
BESIDE = {'page::page_sound', 'reach::mark_reached', 'settle::settle', 'rounds::all_waiting', 'stages::begin',
          'stages::note_all', 'stages::note_waiting', 'picks::evaluate'}
# What a loop over lines or over a set does in each turn: a part of it where speed is asked for, and a call where small code is.
QUICK = {'bits::Set::any_from', 'stages::note', 'value::line_end', 'value::rule_end', 'value::fold_by_op'}

# a function of more statements than this, with those that only it calls, is not inlined by gcc -O2 if it is called in two places
LONG = 64
SHARED = '''#if defined(__GNUC__) && defined(__OPTIMIZE__) && !defined(__OPTIMIZE_SIZE__)
#define SHARED inline __attribute__((always_inline)) /* the body of loops, where speed is asked for */
#else
#define SHARED inline
#endif
'''

HELPERS = {
    'leadingZeros': '''/* The bits above the highest one; {w} for 0. */
static inline uint32_t leading_zeros_{w}(uint{w}_t x)
{{
#if defined(__x86_64__) || defined(__ARM_FEATURE_CLZ) /* the processor counts them, and the compiler has gcc's builtin */
    return x ? (uint32_t)__builtin_clzll(x) - {rest} : {w};
#else
    uint32_t n = {w};
    for (uint32_t half = {half}; half > 0; half /= 2)
        if (x >> half) {{
            x = (uint{w}_t)(x >> half);
            n -= half;
        }}
    return x ? n - 1 : n;
#endif
}}
''',
    'trailingZeros': '''/* The bits below the lowest one; {w} for 0. */
static inline uint32_t trailing_zeros_{w}(uint{w}_t x)
{{
    return x ? {most} - leading_zeros_{w}((uint{w}_t)(x & (0 - x))) : {w};
}}
''',
    'countOnes': '''/* The bits that are 1. */
static inline uint32_t count_ones_{w}(uint{w}_t x)
{{
    uint32_t n = 0;
    for (; x; x = (uint{w}_t)(x & (x - 1)))
        n++;
    return n;
}}
'''}
HELPER_NAMES = {'leadingZeros': 'leading_zeros', 'trailingZeros': 'trailing_zeros', 'countOnes': 'count_ones'}


def c_name(symbol):
    """A name of Rattle in C; that of a tuple is `(,)` there."""
    return 'tuple' if symbol[0] == '(' else re.sub(r'\W+', '_', symbol)


def wrapped(text, indent=''):
    """A statement or a head in lines of at most 132 characters where it has commas to break it at."""
    lines = textwrap.wrap(text.replace(' ', '\1').replace(',\1', ', '), 132, initial_indent=indent, subsequent_indent=indent + '    ',
                          break_long_words=False, break_on_hyphens=False)
    return [line.replace('\1', ' ') for line in lines]


def comment(text):
    """A comment of one line or more."""
    if not text:
        return []
    lines = textwrap.wrap(text, 130)
    return [f'/* {lines[0]} */'] if len(lines) == 1 else ['/*'] + [f' * {line}' for line in lines] + [' */']


class Program:
    """The types, in the order in which C needs them, and what is known of the functions."""

    def __init__(self, functions, declared, names, folded, exports):
        self.functions, self.types, self.names = functions, declared, names
        self.c_names, self.shapes, self.constants, self.used, self.made = {}, {}, {}, set(), set()
        self.pointers = {}      # of each function that is written: where its parameters and its result point that are bare pointers
        for function in functions.values():
            function.body = self.without_empty(function)
        self.bodies = {name: fold.fold(function) if folded else function.body for name, function in functions.items()}
        self.shared = shared(self.bodies) | self.of_symbols(QUICK)
        bytes_of = {name: self.array_bytes(function) for name, function in functions.items()}
        self.once = once(self.bodies, bytes_of, exports) | self.of_symbols(PARTS)
        self.apart = (apart(self.bodies, bytes_of) | self.of_symbols(BESIDE)) - self.once
        self.defined, self.helpers = {}, {}

    def of_symbols(self, symbols):
        """The functions of these names in Rattle, at whatever arguments."""
        return {name for name, function in self.functions.items() if function.symbol in symbols}

    def array_bytes(self, function):
        """The bytes of the arrays that a function holds, those in its structs too."""
        return sum(self.bytes_in_arrays(function.locals[i]) for i in function.slots)

    def bytes_in_arrays(self, t):
        match t:
            case ('tyArray', to, n):
                return int(n) * (mir.size_of(to) or self.bytes_in_arrays(to))
            case ('tyNamed', *_) if self.shape(t)[0] == 'fields':
                return sum(map(self.bytes_in_arrays, self.shape(t)[1]))
        return 0

    def shape(self, t):
        """('fields', types) or ('variants', lists of types) of a declared type."""
        match t:
            case ('tyNamed', name, arguments) if name in self.types:
                if t not in self.shapes:
                    self.shapes[t] = mir.at(self.types[name], arguments, ())
                return self.shapes[t]
        raise Unknown(f'type {t}')

    def empty(self, t):
        """Whether a type has one value only, as that of a closure that captures nothing: C has no such type, so it is left out, as is a pointer
        to one."""
        match t:
            case 'tyUnit' | ('tyArray', _, '0'):
                return True
            case ('tyRef', _, to):
                return to[0] != 'tyArray' and self.empty(to)
            case ('tyNamed', *_):
                return self.shape(t)[0] == 'fields' and all(map(self.empty, self.shape(t)[1]))
        return False

    def without_empty(self, function):
        """A body without what is done to values of types that are left out; as operands of something else they are all `unit`."""
        f = types.SimpleNamespace(program=self, types=function.locals)

        def operand(x):
            return 'unit' if x[0] in ('copy', 'move') and self.empty(words.place_type(f, x[1])) else x

        def change(x):
            match x:
                case ('assign', place, _) if self.empty(words.place_type(f, place)):
                    return []
                case ('assign', place, ('aggregate', operands)):
                    return [('assign', place, ('aggregate', list(map(operand, operands))))]
                case ('call', callee, operands, place):
                    return [('call', callee, list(map(operand, operands)), place)]
            return [x]

        return mir.changed(function.body, change)

    def declared_names(self, t):
        return self.names.declared(t[1], self.shape(t))

    def bare(self, t):
        """Whether an enum is a number alone."""
        shape = self.shape(t)
        return shape[0] == 'variants' and all(self.empty(x) for fields in shape[1] for x in fields)

    def field(self, t, variant, k):
        """How C names a field behind a value, and its type."""
        match t:
            case ('tyStruct', '&[]', [ref, count]) if variant is None:
                return [('.at', ref), ('.length', count)][k]
        shape, names = self.shape(t), self.declared_names(t)
        if shape[0] == 'fields' and variant is None:
            return f'.{names[k]}', shape[1][k]
        if shape[0] == 'variants' and variant is not None:
            if k == 0:
                return '' if self.bare(t) else '.tag', ('tyInt', '8')
            return f'.{names[variant][0]}.{names[variant][1][k - 1]}', shape[1][variant][k - 1]
        raise Unknown(f'field {k} of the type {t}, variant {variant}')

    def tags(self, t):
        """The names of an enum's tags."""
        return t and [f'{self.ctype(t)}_{name}' for name, _ in self.declared_names(t)]

    def variant(self, t, k, values):
        """A value of an enum: its tag alone, or by the function that makes the variant."""
        tag = self.tags(t)[k]
        self.made.add(tag)
        return (tag, words.ATOM) if self.bare(t) else (f'new_{tag}({", ".join(values)})', words.ATOM)

    def ctype(self, t):
        match t:
            case 'tyBool':
                return 'bool'
            case ('tyInt', _):
                return words.ctype_int(t)
            case ('tyRef', lent, to):
                return self.pointer(to, lent == 'mut')
            case ('tyStruct', '&[]', [('tyRef', lent, to), ('tyInt', '64')]):
                return self.define(f'slice_{"mut_" * (lent == "mut")}{self.short(to)}', lambda name: [
                    f'typedef struct {{ {self.declare(t[2][0], "at")}; size_t length; }} {name};'])
            case ('tyArray', to, n):
                return self.define(f'array_{self.short(to)}_{n}', lambda name: [
                    f'typedef struct {{ {self.ctype(to)} e[{n if n != "0" else "1"}]; }} {name};'])
            case ('tyNamed', symbol, arguments):
                return self.define(self.c_name(t, symbol, arguments), lambda name: self.declaration(t, name))
        raise Unknown(f'type {t}')

    def pointer(self, to, written):
        """The type of a pointer, to what is written or is constant."""
        text = self.ctype(to)
        if text.endswith('*'):
            return f'{text}*' if written else f'{text}const *'
        return f'{text} *' if written else f'const {text} *'

    def declare(self, t, name):
        text = self.ctype(t)
        return text + name if text.endswith('*') else f'{text} {name}'

    def short(self, t):
        return re.sub(r'^uint(\d+)_t$', r'u\1', self.ctype(t))

    def c_name(self, x, symbol, arguments):
        """The name in C of a function or of a declared type, with the types that it is made for."""
        if x not in self.c_names:
            name = first = '_'.join([c_name(symbol), *(self.brief(t) for t in arguments if t != 'tyUnit')])
            while name in self.used:
                name = f'{first}_{int(name[len(first) + 1:] or 1) + 1}'
            self.used.add(name)
            self.c_names[x] = name
        return self.c_names[x]

    def brief(self, t):
        """A type in a name: of a declared one its last word, of a closure the function that it stands in."""
        match t:
            case ('tyNamed', symbol, arguments):
                closure = re.search(r'::fn::(\w+(?:::\w+)*?)::[^:]*\+Self', symbol)
                return c_name(closure[1]) if closure else '_'.join([c_name(symbol.split('::')[-1]), *map(self.brief, arguments)])
            case ('tyRef', lent, to):
                return f'{"mut" if lent == "mut" else "ref"}_{self.brief(to)}'
            case ('tyStruct', '&[]', [('tyRef', lent, to), _]):
                return f'slice_{"mut_" * (lent == "mut")}{self.brief(to)}'
            case ('tyArray', to, n):
                return f'array_{self.brief(to)}_{n}'
            case ('tyInt', w):
                return f'u{w}'
            case str(name):
                return name.removeprefix('ty').lower()
        raise Unknown(f'type {t}')

    def define(self, name, lines):
        """Enters a type's definition, behind those that it needs."""
        if name not in self.defined:
            made = lines(name)
            self.defined.setdefault(name, made)
        return name

    def declaration(self, t, name):
        shape, names = self.shape(t), self.declared_names(t)
        if shape[0] == 'fields':
            inner = ' '.join(f'{self.declare(x, n)};' for n, x in zip(names, shape[1]) if not self.empty(x))
            return [f'typedef struct {{ {inner} }} {name};']
        tags = f'enum {{ {", ".join(f"{name}_{n}" for n, _ in names)} }};'
        if self.bare(t):
            return [f'typedef uint8_t {name};', tags]
        variants = [(n, [(f, x) for f, x in zip(fields, types) if not self.empty(x)]) for (n, fields), types in zip(names, shape[1])]
        inner = ' '.join('struct { ' + ' '.join(f'{self.declare(x, f)};' for f, x in fields) + f' }} {n};' for n, fields in variants if fields)
        # no union: gcc keeps the parts of a struct apart and drops what is copied along, but a union whole in memory
        out = [f'typedef struct {{ uint8_t tag; {inner} }} {name};', tags]
        for n, fields in variants:
            out.append((f'{name}_{n}', self.maker(name, n, fields)))
        return out

    def filled(self, t):
        """The function that makes an array of one value again and again."""
        array = self.ctype(t)
        return self.define(f'filled_{array}', lambda name: [
            f'static inline {array} {name}({self.declare(t[1], "x")})', '{', f'    {array} made;', f'    for (uint32_t i = 0; i < {t[2]}; i++)',
            '        made.e[i] = x;', '    return made;', '}'])

    def definitions(self):
        """The lines of the types and constants; of the functions that make variants, those that are called."""
        out = []
        for lines in self.defined.values():
            listed = [line for x in lines for line in ([x] if isinstance(x, str) else x[1] if x[0] in self.made else [])]
            out += listed + ([''] if len(listed) > 1 else [])
        return out

    def maker(self, name, n, fields):
        """The function that makes a variant. What another variant has and this one has not is not set."""
        out = [f'static ONCE {name} new_{name}_{n}({", ".join(self.declare(x, f) for f, x in fields) or "void"})', '{',
               f'    {name} made;', f'    made.tag = {name}_{n};']
        return out + [f'    made.{n}.{f} = {f};' for f, x in fields] + ['    return made;', '}']

    def constant(self, t, x):
        """The name of an object that holds a constant."""
        text = f'static const {self.ctype(t)} %s = {self.initial(t, x)};'
        name = self.constants.setdefault(text, f'constant_{len(self.constants) + 1}')
        self.defined[name] = wrapped(text % name)
        return name

    def initial(self, t, x):
        """How C writes a constant of a type."""
        match t:
            case 'tyBool' | ('tyInt', _) if isinstance(x, str):
                return x if t == 'tyBool' or int(x) < 2 ** 31 else f'UINT{t[1]}_C({x})'
            case ('tyArray', to, '0'):
                return '{ { 0 } }'
            case ('tyArray', to, n) if int(n) == len(x):
                return f'{{ {{ {", ".join(self.initial(to, part) for part in x)} }} }}'
            case ('tyNamed', *_):
                shape, names = self.shape(t), self.declared_names(t)
                if shape[0] == 'fields':
                    return self.initial_fields(names, shape[1], x)
                k = int(x[0])
                if self.bare(t):
                    return self.tags(t)[k]
                inner = self.initial_fields(names[k][1], shape[1][k], x[1:])
                return f'{{ .tag = {self.tags(t)[k]}' + (f', .{names[k][0]} = {inner} }}' if inner else ' }')
        raise Unknown(f'a constant of the type {t}')

    def initial_fields(self, names, types, parts):
        listed = [f'.{n} = {self.initial(t, part)}' for n, t, part in zip(names, types, parts) if not self.empty(t)]
        return listed and f'{{ {", ".join(listed)} }}'

    def helper(self, op, w):
        for needed_one in ('leadingZeros', op) if op == 'trailingZeros' else (op,):
            self.helpers[needed_one, w] = HELPERS[needed_one].format(w=w, half=w // 2, rest=64 - w, most=w - 1)
        return f'{HELPER_NAMES[op]}_{w}'

    def function_name(self, symbol):
        if symbol not in self.functions:
            raise Unknown(f'function {symbol}')
        return self.c_name(symbol, self.functions[symbol].symbol, self.functions[symbol].arguments)

    def result(self, symbol):
        t = self.functions[symbol].locals[0]
        if t == 'tyPtr':
            return self.pointer(*self.pointers[symbol][0])
        return 'void' if self.empty(t) else self.ctype(t)


class Label:
    """A block or a loop; loop: the loop itself, or the one that a block ends with."""

    def __init__(self, kind, name, loop):
        self.kind, self.name, self.loop, self.used = kind, name, loop, False


class Writer:
    """One function while it is written."""

    def __init__(self, program, function):
        self.program, self.function, self.types = program, function, function.locals
        self.body = program.bodies[function.name]
        self.lines, self.depth, self.labels, self.breakable, self.count = [], 1, [], [], 0
        self.comment, given = program.names.function(function.symbol)
        self.given = given if len(given) == function.parameters else []
        self.pointers = {}
        ends = {i: self.pointer_types().get(self.name(str(i))) for i, t in enumerate(self.types[:function.parameters + 1]) if t == 'tyPtr'}
        program.pointers[function.name] = {i: at for i, at in ends.items() if at}

    def ctype(self, t):
        return self.program.ctype(t)

    def name(self, local):
        i = int(local)
        return self.given[i - 1] if 0 < i <= len(self.given) and self.given[i - 1] else f'x{local}'

    def line(self, text):
        for part in self.from_place(text):
            self.lines += wrapped(part, '    ' * self.depth)

    def from_place(self, text):
        """A statement that sets a local from two or more numbers of a slice at the same place, a constant apart, reads them through a pointer to
        the place: gcc then holds one address where it holds one for each."""
        found = re.findall(r'\b(\w+)\.at\[(\w+) \+ \d+\]', text) if re.match(r'x\d+ = ', text) else []
        at = next((at for at in found if found.count(at) > 1), None)
        if not at:
            return [text]
        t = next(self.types[i] for i in range(len(self.types)) if self.name(str(i)) == at[0])
        text = re.sub(rf'\b{at[0]}\.at\[{at[1]} \+ (\d+)\]', r'here[\1]', text)
        return ['{', f'    {self.program.declare(t[2][0], "here")} = &{at[0]}.at[{at[1]}];', f'    {text}', '}']

    def nested(self, body):
        self.depth += 1
        words.run(self, body)
        self.depth -= 1

    def returns(self, statement):
        """Writes a statement that sets the result and is followed by the return; says whether it was one."""
        if self.program.empty(self.types[0]):
            return False
        match statement:
            case ('assign', ('place', '0', []), value):
                self.line(f'return {words.rvalue(self, value, self.types[0])[0]};')
                return True
            case ('call', _, _, ('place', '0', [])):
                self.line(f'return {words.call(self, statement)};')
                return True
        return False

    # the blocks and loops around, innermost last

    def enter(self, kind, loop):
        self.count += 1
        self.labels.append(Label(kind, f'l{self.count}', loop))
        return self.labels[-1]

    def leave(self):
        self.labels.pop()

    def ends_with(self, loop):
        """Whether the innermost block ends with this loop, so that leaving the loop leaves the block."""
        return bool(self.labels) and self.labels[-1].kind == 'block' and self.labels[-1].loop is loop

    def exit(self, n):
        """An exit to the n-th block or loop around: `continue` and `break` where C has the same in them."""
        label, inner = self.labels[-1 - n], self.labels[len(self.labels) - n:]
        loops = [x for x in inner if x.kind == 'loop']
        if label.kind == 'loop' and not loops:
            return 'continue;'
        if label.kind == 'block' and len(loops) == 1 and inner[0].loop is label.loop and self.breakable[-1:] == ['loop']:
            return 'break;'
        label.used = True
        return f'goto {label.name};'

    # pointers

    def pointee(self, text, t):
        match t:
            case ('tyRef', _, to):
                return to
            case 'tyPtr':
                return self.pointed(text[0])[0]
        raise Unknown(f'{text[0]} is no pointer')

    def pointer_types(self):
        """For each local that is a bare pointer what it points at and whether that is written: by what is done through it, here or in a function that
        it is handed to, else by what it is set to."""
        if not self.pointers:
            for p, written in self.uses(self.function.body):
                match p:
                    case ('place', str(base), [('deref', to), *_]) if self.types[int(base)] == 'tyPtr':
                        self.points(base, to, written)
            for base, at in self.handed(self.function.body):
                self.points(base, *at)
            derived = list(self.derived(self.function.body))
            for _ in derived:
                for a, b in derived:
                    if self.name(a) in self.pointers:
                        self.points(b, *self.pointers[self.name(a)])
            for a, b in derived:
                if self.name(b) in self.pointers:
                    self.points(a, *self.pointers[self.name(b)])
            for local, t in self.set_to(self.function.body):
                self.pointers.setdefault(self.name(local), (t[2], t[1] == 'mut'))
        return self.pointers

    def pointed(self, name):
        if name not in self.pointer_types():
            raise Unknown(f'{self.function.name}: what {name} points at')
        return self.pointer_types()[name]

    def points(self, local, to, written):
        old = self.pointers.setdefault(self.name(local), (to, written))
        if old[0] != to:
            raise Unknown(f'{self.function.name}: local {local} points at two types')
        self.pointers[self.name(local)] = (to, old[1] or written)

    def derived(self, body):
        """Pairs of bare pointers of which the first is an offset from the second, or the same."""
        for x in body:
            match x:
                case (('assign', ('place', local, []), ('op2', 'offset', ('copy', ('place', str(base), [])), _)) |
                      ('assign', ('place', local, []), ('opd', ('copy' | 'move', ('place', str(base), []))))):
                    if self.types[int(base)] == self.types[int(local)] == 'tyPtr':
                        yield local, base
            for inner in mir.inner_lists(x):
                yield from self.derived(inner)

    def handed(self, body):
        """Bare pointers that are a function's argument or result, with what they point at there."""
        for x in body:
            match x:
                case ('call', name, operands, place):
                    locals_of = [place] + [operand[1] if operand[0] in ('copy', 'move') else None for operand in operands]
                    for k, at in self.program.pointers.get(name, {}).items():
                        match locals_of[k]:
                            case ('place', str(local), []) if self.types[int(local)] == 'tyPtr':
                                yield local, at
            for inner in mir.inner_lists(x):
                yield from self.handed(inner)

    def set_to(self, body):
        """Bare pointers, with the type of reference that they are set to."""
        for x in body:
            match x:
                case ('assign', ('place', str(local), []), ('addrOf', p)) if self.types[int(local)] == 'tyPtr':
                    through = p[2] and p[2][-1][0] == 'deref' and words.place_type(self, ('place', p[1], p[2][:-1]))
                    yield local, ('tyRef', through[1] if through and through[0] == 'tyRef' else 'mut', words.place_type(self, p))
                case ('assign', ('place', str(local), []), ('opd', ('copy' | 'move', p))) if self.types[int(local)] == 'tyPtr':
                    t = words.place_type(self, p)
                    if t[0] == 'tyRef':
                        yield local, t
            for inner in mir.inner_lists(x):
                yield from self.set_to(inner)

    def uses(self, body):
        """The places in statements, and whether something is written there or lent to be written."""
        for x in body:
            place = fold.target(x)
            if place and place[1] != 'none':
                yield place, True
            for p in fold.places(fold.now_read(x)):
                yield p, p in self.lent_mut(x)
            for inner in mir.inner_lists(x):
                yield from self.uses(inner)

    def lent_mut(self, x):
        """The places whose address becomes a `&mut`."""
        match x:
            case ('assign', ('place', base, []), ('addrOf', p)):
                return [p] if self.types[int(base)][:2] == ('tyRef', 'mut') else []
            case ('value', ('addrOf', p), ('tyRef', 'mut', _)):
                return [p]
        return [p for part in x if isinstance(part, (tuple, list)) for p in self.lent_mut(part)]

    # the whole

    def declare(self, i):
        t, name = self.types[i], self.name(str(i))
        if t == 'tyPtr':
            return f'{self.program.pointer(*self.pointed(name))}{name}'
        return self.program.declare(t, name)

    def text(self):
        words.run(self, self.body)
        if self.lines[-1:] == ['    return;']:
            self.lines.pop()
        used = set(re.findall(r'(?<!\.)\b[A-Za-z_]\w*', '\n'.join(self.lines)))
        count = self.function.parameters
        held = [i for i in range(1, 1 + count) if not self.program.empty(self.types[i])]
        parameters = ', '.join(map(self.declare, held)) or 'void'
        unread = [self.name(str(i)) for i in held if self.name(str(i)) not in used]
        unread = [f'    (void){name}; /* only the contract speaks of it */' for name in unread]
        mine = [i for i in range(len(self.types)) if (i == 0 or i > count) and f'x{i}' in used]
        of = self.function.name
        part = of in self.program.once or self.function.symbol.startswith(spare.LIBRARY)
        kind = 'APART' if of in self.program.apart else 'ONCE' if part else 'SHARED' if of in self.program.shared else 'inline'
        head = f'static {kind} {self.program.result(of)} {self.program.function_name(of)}({parameters})'
        return comment(self.comment) + wrapped(head) + ['{'] + self.declarations(mine) + unread + self.lines + ['}', '']

    def declarations(self, mine):
        """One line for the locals of each type; in C the first `*` of a pointer to a pointer is of its own name alone."""
        groups = {}
        for i in mine:
            text = self.declare(i)
            kind, name = text.rsplit(' ', 1)
            groups.setdefault((kind, i if '*' in kind else 0), []).append(name)
        return [line for (kind, _), names in groups.items()
                for line in wrapped(f'{kind} {", ".join(names)};', '    ')]


class Export:
    """The visible function over a proved one. A slice is a pointer and a count; NULL with a count of 0 becomes a pointer to something, since C
    has no arithmetic on NULL. A number of 64 bits is a size_t for the caller, an answer of 32 bits an int32_t,
    and so is an out-parameter that the source calls signed: C reads and writes it as the unsigned number of the same bits."""

    def __init__(self, program, function, writer):
        self.program, self.function, self.writer = program, function, writer
        self.parameters, self.before, self.arguments, self.after = [], [], [], []

    def parameter(self, t, name):
        match t:
            case ('tyStruct', '&[]', [('tyRef', lent, to), _]):
                self.parameters += [self.program.declare(t[2][0], name), f'size_t {name}_length']
                none = f'none_{self.program.short(to)}'
                if f'{self.program.ctype(to)} {none} = 0;' not in self.before:
                    self.before.append(f'{self.program.ctype(to)} {none} = 0;')
                self.arguments.append(f'({self.program.ctype(t)}){{ {name} ? {name} : &{none}, {name}_length }}')
            case ('tyRef', 'mut', ('tyInt', '64')):
                self.parameters.append(f'size_t *{name}')
                self.before.append(f'uint64_t wide_{name} = *{name};')
                self.arguments.append(f'&wide_{name}')
                self.after.append(f'*{name} = (size_t)wide_{name};')
            case ('tyRef', 'mut', ('tyInt', '32')) if name in self.program.names.signed(self.function.name):
                self.parameters.append(f'int32_t *{name}')
                self.arguments.append(f'(uint32_t *){name}')
            case ('tyRef', 'mut', ('tyInt', _)):
                self.parameters.append(self.program.declare(t, name))
                self.arguments.append(name)
            case ('tyInt', w):
                self.parameters.append(f'size_t {name}' if w == '64' else self.program.declare(t, name))
                self.arguments.append(name)
            case _:
                raise Unknown(f'{self.function.name}: an exported parameter of the type {t}')

    def text(self):
        for i in range(1, 1 + self.function.parameters):
            self.parameter(self.function.locals[i], self.writer.name(str(i)))
        answer = {('tyInt', '32'): 'int32_t', ('tyInt', '64'): 'size_t'}.get(self.function.locals[0])
        if not answer:
            raise Unknown(f'{self.function.name}: an exported result of the type {self.function.locals[0]}')
        call = f'{self.program.function_name(self.function.name)}({", ".join(self.arguments)})'
        signed = 'answer <= INT32_MAX ? (int32_t)answer : -(int32_t)(UINT32_MAX - answer) - 1'
        body = self.before + [f'{self.program.ctype(self.function.locals[0])} answer = {call};'] + self.after
        body.append(f'return {signed if answer == "int32_t" else "(size_t)answer"};')
        head = f'{answer} {self.function.name.split("::")[-1]}({", ".join(self.parameters)})'
        lines = [line for text in body for line in wrapped(text, '    ')]
        return comment(self.writer.comment) + wrapped(head) + ['{'] + lines + ['}', '']


def needed(functions, exports):
    """The functions that the exported ones reach, each behind those that it calls. There is no such order where one calls itself."""
    order, open_ = [], []

    def visit(name):
        if name in open_:
            raise Unknown(f'recursion: {" ".join(open_ + [name])}')
        if name in order:
            return
        if name not in functions:
            raise Unknown(f'function {name}')
        open_.append(name)
        for callee, _ in mir.calls(functions[name].body):
            visit(callee)
        open_.pop()
        order.append(name)

    for name in exports:
        visit(name)
    return order


def acting(functions, order, exports):
    """The functions without those that do nothing, as letting go of a value that owns nothing, and those that are never called (proved), and without
    the calls of these."""
    idle, never = set(), set()
    for name in order:
        function = functions[name]
        function.body = mir.reachable(mir.without_calls(function.body, idle), never)
        if function.body == mir.UNREACHABLE:
            never.add(name)
        elif function.locals[0] == 'tyUnit' and name not in exports and not mir.acts(function.body):
            idle.add(name)
    return [name for name in order if name not in idle | never]


def sites_of(bodies):
    """Where each function is called: the callers, each with whether that call stands in a loop."""
    sites = {}
    for caller, body in bodies.items():
        for callee, looped in mir.calls(body):
            sites.setdefault(callee, []).append((caller, looped))
    return sites


def apart(bodies, bytes_of):
    """The functions that keep their frame to themselves: see LARGE."""
    sites = sites_of(bodies)

    def in_loop(name):
        found = sites.get(name, [])
        return len(found) == 1 and found[0][1] and bytes_of[found[0][0]] > bytes_of[name]

    return {name for name in bodies if bytes_of[name] >= LARGE and not in_loop(name)}


def once(bodies, bytes_of, exports):
    """The functions with arrays that a visible function calls once, and no other place calls, and those visible ones: see SMALL."""
    found = {name: sites[0][0] for name, sites in sites_of(bodies).items()
             if LARGE <= bytes_of[name] < SMALL and len(sites) == 1 and not sites[0][1] and sites[0][0] in exports}
    return {*found, *found.values()}


def shared(bodies):
    """The functions that two loops share as a part of their body, and no other place calls: those that are LONG."""
    sites = sites_of(bodies)

    def length(name):
        """The statements of a function and of those that only it calls."""
        own = {callee for callee, _ in mir.calls(bodies[name]) if all(caller == name for caller, _ in sites[callee])}
        return mir.size(bodies[name]) + sum(map(length, own))

    return {name for name, found in sites.items() if len(found) == 2 and all(looped for _, looped in found) and length(name) > LONG}


def translate(texts, prefix, sources, include, folded):
    functions = mir.Program(texts)
    exports = [name for name in functions.names() if name.split('::')[-1].startswith(prefix)]
    order = acting(functions, needed(functions, exports), exports)
    if folded:
        spare.spare(functions, order)
        reached = set(needed(functions, exports))
        order = [name for name in order if name in reached]
    reached = {name: functions[name] for name in order}
    program = Program(reached, mir.types_of(reached.values()), source.Source(sources), folded, exports)
    bodies, visible = [], []
    for name in order:
        writer = Writer(program, functions[name])
        bodies += writer.text()
        if name in exports:
            visible += Export(program, functions[name], writer).text()
    head = HEAD + (f'#include "{include}"\n' if include else '')
    return '\n'.join([head, CHECKS, APART, ONCE, SHARED, *program.definitions(), '', *program.helpers.values(), *bodies, *visible]).rstrip() + '\n'


def main():
    arguments = argparse.ArgumentParser(description=__doc__, formatter_class=argparse.RawDescriptionHelpFormatter)
    arguments.add_argument('--export', metavar='PREFIX')
    arguments.add_argument('--sources', metavar='CRATES', default='')
    arguments.add_argument('--include', metavar='HEADER', default='')
    arguments.add_argument('--unfolded', action='store_true')
    arguments.add_argument('--words', action='store_true')
    arguments.add_argument('mir', metavar='MIR', nargs='*', type=pathlib.Path)
    given = arguments.parse_args()
    if given.words:
        for text in dict.fromkeys(function.__doc__ for function in words.WORDS.values()):
            print(text)
        return
    try:
        sys.stdout.write(translate([path.read_text() for path in given.mir], given.export, given.sources, given.include, not given.unfolded))
    except Unknown as unknown:
        raise SystemExit(f'mir2c: {unknown}')


if __name__ == '__main__':
    main()
