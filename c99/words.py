"""The meaning in C of each word of the MIR: one small function per word, its first line of text saying what the word means.

A value is given as (text, level): how tightly the text binds, ATOM for a name or a postfix expression, UNARY for a cast or a prefix, BINARY
for the rest. All integers are unsigned in C, of the width that the MIR says. The MIR's operations are undefined where the exact result does not
fit the width; the proofs show that this does not happen. So an 8 or 16 bit operation, which C does in `int` (32 bits or more), is exact, and
converting its result back keeps it."""
import re

from mir import Unknown, inner_lists, size_of

ATOM, UNARY, BINARY = 3, 2, 1
WORDS = {}


def word(*names):
    """Enters a function as the meaning of words."""
    def enter(function):
        for name in names:
            if name in WORDS:
                raise Unknown(f'{name} has two meanings')
            WORDS[name] = function
        return function
    return enter


def meaning(kind, x):
    """The function for a node or a bare word."""
    name = x if isinstance(x, str) else x[0]
    if f'{kind} {name}' not in WORDS:
        raise Unknown(f'{kind} {name}')
    return WORDS[f'{kind} {name}']


def width(t):
    if not isinstance(t, tuple) or t[0] != 'tyInt' or t[1] not in ('8', '16', '32', '64'):
        raise Unknown(f'an integer operation at the type {t}')
    return int(t[1])


def bound(value, level):
    """The text of a value where something that binds as tightly as the level is wanted."""
    return value[0] if value[1] >= level else f'({value[0]})'


def narrowed(text, t):
    """A binary operation's result at its type; C computes 8 and 16 bits in int."""
    return (f'({ctype_int(t)})({text})', UNARY) if width(t) < 32 else (text, BINARY)


def ctype_int(t):
    return f'uint{width(t)}_t'


# ---- operands: what is read -------------------------------------------------------------------------------------------------

def operand(f, x):
    return meaning('operand', x)(f, x)


def operands(f, listed):
    """The texts of operands, without those that C leaves out."""
    return [operand(f, x)[0] for x in listed if not f.program.empty(operand_type(f, x))]


def operand_type(f, x):
    match x:
        case 'true' | 'false':
            return 'tyBool'
        case 'unit':
            return 'tyUnit'
        case ('int', w, _):
            return ('tyInt', w)
        case ('sizeOf', _):
            return ('tyInt', '64')
        case ('value', _, t):
            return t
        case ('copy' | 'move', p):
            return place_type(f, p)
    raise Unknown(f'operand {x}')


@word('operand true')
def _(f, x):
    """true: the bool true"""
    return 'true', ATOM


@word('operand false')
def _(f, x):
    """false: the bool false"""
    return 'false', ATOM


@word('operand int')
def _(f, x):
    """int W N: the number N, of W bits"""
    number = int(x[2])
    if not 0 <= number < 2 ** width(('tyInt', x[1])):
        raise Unknown(f'{x[2]} of {x[1]} bits')
    return (str(number), ATOM) if number < 2 ** 31 else (f'UINT{x[1]}_C({number})', ATOM)


@word('operand sizeOf')
def _(f, x):
    """sizeOf T: the bytes of a T; only offsets from pointers to a T are reckoned with it"""
    return f'(uint64_t)sizeof({f.ctype(x[1])})', UNARY


@word('operand copy', 'operand move')
def _(f, x):
    """copy P, move P: what lies at the place P"""
    return place(f, x[1])


@word('operand value')
def _(f, x):
    """(made by fold.py: what a local that is read once was assigned)"""
    return rvalue(f, x[1], x[2])


# ---- places: where something lies -------------------------------------------------------------------------------------------

def place_type(f, p):
    t, variant = base_type(f, p[1]), None
    for step in p[2]:
        t, variant = step_type(f, t, variant, step)
    return t


def base_type(f, base):
    return base[2] if isinstance(base, tuple) else f.types[int(base)]


def step_type(f, t, variant, step):
    """The type behind a step, and the variant that a step has chosen."""
    match step:
        case ('deref', to):
            return to, None
        case ('variant', n):
            return t, int(n)
        case ('field', k):
            return f.program.field(t, variant, int(k))[1], None
    raise Unknown(f'step {step} of a place')


def place(f, p):
    """place L STEPS: the local L, then step by step into it"""
    base, steps = p[1], p[2]
    if isinstance(base, tuple):
        text, t, steps = folded_base(f, base, steps)
    else:
        text, t = (f.name(base), ATOM), base_type(f, base)
    variant = None
    for step in steps:
        text = meaning('step', step)(f, text, t, variant, step)
        t, variant = step_type(f, t, variant, step)
    return text


def folded_base(f, base, steps):
    """A place that begins at a value instead of a local: its text and type, and the steps that are left."""
    _, value, t = base
    if steps[:1] and steps[0][0] == 'deref':
        p = pointer(f, base)
        return p.at(f, steps[0][1]).content(), steps[0][1], steps[1:]
    if value[0] == 'aggregate' and t[0] == 'tyStruct' and steps[:1] and steps[0][0] == 'field':
        part = value[1][int(steps[0][1])]
        return operand(f, part), step_type(f, t, None, steps[0])[0], steps[1:]
    return operand(f, base), t, steps


@word('step field')
def _(f, text, t, variant, step):
    """field K: the field K of a struct; of a variant field 0 is the tag, then its own fields from 1; the count of a slice has 64 bits"""
    name, _ = f.program.field(t, variant, int(step[1]))
    if name == '.length':
        return (f'(uint64_t){bound(text, ATOM)}{name}', UNARY)
    return (f'{bound(text, ATOM)}{name}', ATOM)


@word('step variant')
def _(f, text, t, variant, step):
    """variant N: the same place, seen as the variant N; the proofs show that it is that one"""
    return text


@word('step deref')
def _(f, text, t, variant, step):
    """deref T: what a pointer points at, a T"""
    return Pointer(bound(text, ATOM), None, f.pointee(text, t)).at(f, step[1]).content()


class Pointer:
    """A pointer's value: a base that points at some type, and an index from there; or the address of a named place (named)."""

    def __init__(self, base, index, to, named=False):
        self.base, self.index, self.to, self.named = base, index, to, named

    def at(self, f, t):
        """The same pointer, to T. A pointer to an array is one to its first element too."""
        if self.to == t:
            return self
        if self.to[0] == 'tyArray' and self.to[1] == t and self.index is None:
            return Pointer(self.base + ('.e' if self.named else '->e'), None, t)
        raise Unknown(f'a pointer to {self.to} used as one to {t}')

    def content(self):
        if self.named:
            return self.base, ATOM
        return (f'*{self.base}', UNARY) if self.index is None else (f'{self.base}[{self.index}]', ATOM)

    def value(self):
        if self.named:
            return f'&{self.base}', UNARY
        return (self.base, ATOM) if self.index is None else (f'&{self.base}[{self.index}]', UNARY)


def pointer(f, x):
    """An operand that is a pointer or a reference."""
    match x:
        case ('value', ('addrOf', p), _):
            return address(f, p)
        case ('value', ('op2', 'offset', base, count), _):
            return offset(f, base, count)
        case ('value', ('opd', inner), _):
            return pointer(f, inner)
        case ('value', ('static', t, constant), _):
            return Pointer(f.program.constant(t, constant), None, t, named=True)
    text = operand(f, x)
    return Pointer(bound(text, ATOM), None, f.pointee(text, operand_type(f, x)))


def address(f, p):
    """addrOf P: where the place P is"""
    if p[2] and p[2][-1][0] == 'deref':
        shorter = ('copy', ('place', p[1], p[2][:-1])) if p[2][:-1] or isinstance(p[1], str) else p[1]
        return pointer(f, shorter).at(f, p[2][-1][1])
    t = place_type(f, p)
    if t[0] == 'tyArray' and t[2] == '0':               # it is left out; a slice of it outlives the function
        return Pointer(f'(({f.ctype(t)} *)&{f.program.constant(t, [])})', None, t)
    return Pointer(bound(place(f, p), ATOM), None, place_type(f, p), named=True)


def offset(f, base, count):
    """offset P N: N bytes behind P, a multiple of the size of what lies there, so it is an element"""
    start = pointer(f, base)
    if start.to[0] == 'tyArray':
        start = start.at(f, start.to[1])
    if start.index is not None:
        start = Pointer(f'({start.value()[0]})', None, start.to)
    return Pointer(start.base, elements(f, count, start.to), start.to)


def elements(f, count, to):
    """A count of bytes as one of elements of a type."""
    size = size_of(to)
    match count:
        case ('int', '64', '0'):
            return '0'
        case ('int', '64', n) if size and int(n) % size == 0:
            return str(int(n) // size)
        case ('value', ('op2', ('mul', 'unsigned'), n, ('int', '64', s)), _) if size and int(s) == size:
            return operand(f, n)[0]
        case ('value', ('op2', ('mul', 'unsigned'), n, ('sizeOf', t)), _) if t == to:
            return operand(f, n)[0]
    if not size:
        return f'{bound(operand(f, count), UNARY)} / {operand(f, ("sizeOf", to))[0]}'
    return operand(f, count)[0] if size == 1 else f'{bound(operand(f, count), UNARY)} / {size}'


# ---- values that are computed -----------------------------------------------------------------------------------------------

def rvalue(f, x, t):
    return meaning('value', x)(f, x, t)


@word('value opd')
def _(f, x, t):
    """opd A: the operand A itself"""
    return operand(f, x[1])


@word('value addrOf')
def _(f, x, t):
    """addrOf P: where the place P is"""
    return address(f, x[1]).value()


@word('value static')
def _(f, x, t):
    """static T C: where the constant C, a T, lies, which nobody writes"""
    return pointer(f, ('value', x, t)).value()


@word('value op1')
def _(f, x, t):
    """op1 O A: the operation O on A"""
    return meaning('op1', x[1])(f, x[1], operand(f, x[2]), operand_type(f, x[2]))


@word('value op2')
def _(f, x, t):
    """op2 O A B: the operation O on A and B"""
    if x[1] == 'offset':
        return offset(f, x[2], x[3]).value()
    a, b = operand(f, x[2]), operand(f, x[3])
    return meaning('op2', x[1])(x[1], bound(a, UNARY), bound(b, UNARY), operand_type(f, x[2]))


@word('value aggregate')
def _(f, x, t):
    """aggregate A...: a struct of these fields, or a variant: its number, then its fields; a slice is a pointer and a length; an array of
    these elements"""
    if t[0] == 'tyStruct':
        return slice_of(f, x[1], t)
    if t[0] == 'tyArray' and t[2] == str(len(x[1])):
        return f'({f.ctype(t)}){{ {{ {", ".join(operand(f, a)[0] for a in x[1])} }} }}', ATOM
    if t[0] != 'tyNamed':
        raise Unknown(f'an aggregate of the type {t}')
    if f.program.shape(t)[0] == 'variants':
        if x[1][0][:2] != ('int', '8'):
            raise Unknown(f'a variant numbered {x[1][0]}')
        return f.program.variant(t, int(x[1][0][2]), operands(f, x[1][1:]))
    return f'({f.ctype(t)}){{ {", ".join(operands(f, x[1]))} }}', ATOM


def slice_of(f, parts, t):
    """A slice: a pointer to its first element and the count of its elements, which is that of a lent slice, an array or a part of one of these
    (proved), so that it fits a size_t."""
    match parts:
        case [('value', ('addrOf', ('place', b, [*steps, ('field', '0'), ('deref', _)])), _), ('copy', ('place', c, [*others, ('field', '1')]))]:
            whole = ('place', b, steps)
            if (b, steps) == (c, others) and f.ctype(place_type(f, whole)) == f.ctype(t):
                return place(f, whole)
    to = t[2][0][2]
    count = operand(f, parts[1])
    count = count[0] if parts[1][0] == 'int' else count[0].removeprefix('(uint64_t)') if re.fullmatch(r'\(uint64_t\)\w+\.length', count[0]) else \
        f'(size_t){bound(count, UNARY)}'
    return f'({f.ctype(t)}){{ {pointer(f, parts[0]).at(f, to).value()[0]}, {count} }}', ATOM


@word('value repeat')
def _(f, x, t):
    """repeat A N: an array of N times A; where A is zero, everything that C sets to 0"""
    if t[0] != 'tyArray' or t[2] != x[2]:
        raise Unknown(f'repeat {x[1]} at the type {t}')
    if x[1] not in ('false', ('int', x[1][1], '0')):
        return f'{f.program.filled(t)}({operand(f, x[1])[0]})', ATOM
    return f'({f.ctype(t)}){{ {{ {operand(f, x[1])[0]} }} }}', ATOM


# ---- operations on one number -----------------------------------------------------------------------------------------------

@word('op1 not')
def _(f, op, a, t):
    """not: the other bool; of a number all bits the other way"""
    if t == 'tyBool':
        return f'!{bound(a, UNARY)}', UNARY
    return f'({ctype_int(t)})~{bound(a, UNARY)}', UNARY


@word('op1 cast')
def _(f, op, a, t):
    """cast S S' W: the same number in W bits; the proofs show that it fits, also where S' reads it as signed. A signed number is only cast to
    unsigned: it is not negative (proved), so it has the same bits"""
    if op[1:3] == ('signed', 'signed') or {*op[1:3]} - {'unsigned', 'signed'} or t != 'tyBool' and not width(t):
        raise Unknown(f'{op} at the type {t}')
    return f'({ctype_int(("tyInt", op[3]))}){bound(a, UNARY)}', UNARY


@word('op1 leadingZeros', 'op1 trailingZeros', 'op1 countOnes')
def _(f, op, a, t):
    """leadingZeros, trailingZeros, countOnes: a count of bits, W for a number of W bits that has none; 32 bits wide"""
    return f'{f.program.helper(op, width(t))}({a[0]})', ATOM


# ---- operations on two numbers ----------------------------------------------------------------------------------------------

def unsigned(op, *signs):
    if isinstance(op, tuple) and op[1] not in ('unsigned',) + signs:
        raise Unknown(f'{op}')


@word('op2 add')
def _(op, a, b, t):
    """add S: the sum; exact (proved), so signed numbers have the same bits"""
    unsigned(op, 'signed')
    return narrowed(f'{a} + {b}', t)


@word('op2 sub')
def _(op, a, b, t):
    """sub S: the difference; exact (proved), so signed numbers have the same bits modulo 2^W"""
    unsigned(op, 'signed')
    return narrowed(f'{a} - {b}', t)


@word('op2 wrapSub')
def _(op, a, b, t):
    """wrapSub: the difference modulo 2^W"""
    return f'({ctype_int(t)})({a} - {b})', UNARY


@word('op2 wrapAdd')
def _(op, a, b, t):
    """wrapAdd: the sum modulo 2^W"""
    return f'({ctype_int(t)})({a} + {b})', UNARY


@word('op2 wrapMul')
def _(op, a, b, t):
    """wrapMul: the product modulo 2^W; never done in a signed int"""
    return f'({ctype_int(t)})((uint{max(32, width(t))}_t){a} * {b})', UNARY


@word('op2 mul')
def _(op, a, b, t):
    """mul unsigned: the product; exact (proved)"""
    unsigned(op)
    return narrowed(f'{a} * {b}', t)


@word('op2 div')
def _(op, a, b, t):
    """div unsigned: the quotient, rounded down; the divisor is not 0 (proved)"""
    unsigned(op)
    return narrowed(f'{a} / {b}', t)


@word('op2 rem')
def _(op, a, b, t):
    """rem unsigned: the remainder; the divisor is not 0 (proved)"""
    unsigned(op)
    return narrowed(f'{a} % {b}', t)


@word('op2 shl')
def _(op, a, b, t):
    """shl: bits moved up by less than W (proved), those beyond the width are lost; never done in a signed int"""
    return f'({ctype_int(t)})((uint{max(32, width(t))}_t){a} << {b})', UNARY


@word('op2 shr')
def _(op, a, b, t):
    """shr unsigned: bits moved down by less than W (proved)"""
    unsigned(op)
    return f'({ctype_int(t)})((uint{max(32, width(t))}_t){a} >> {b})', UNARY


def bitwise(sign, a, b, t):
    return (f'(bool)({a} {sign} {b})', UNARY) if t == 'tyBool' else narrowed(f'{a} {sign} {b}', t)


@word('op2 and')
def _(op, a, b, t):
    """and: bit by bit, or of bools"""
    return bitwise('&', a, b, t)


@word('op2 or')
def _(op, a, b, t):
    """or: bit by bit, or of bools"""
    return bitwise('|', a, b, t)


@word('op2 xor')
def _(op, a, b, t):
    """xor: bit by bit, or of bools"""
    return bitwise('^', a, b, t)


def compared(sign, a, b, t):
    """A comparison. The largest number of 8 or 16 bits less another stays in int there, where it is exact: gcc reads a cast of it as one of ~."""
    def plain(text):
        cast = f'({ctype_int(t)})' if t[0] == 'tyInt' and width(t) < 32 else None
        return text.removeprefix(cast) if cast and text.startswith(f'{cast}({2 ** width(t) - 1} - ') else text

    return f'{plain(a)} {sign} {plain(b)}', BINARY


@word('op2 lt')
def _(op, a, b, t):
    """lt S: less; of signed numbers with the top bit the other way, which puts the negative ones below the others"""
    unsigned(op, 'signed')
    if op[1] == 'signed':
        top = f'UINT{width(t)}_C({1 << int(width(t)) - 1})'
        return f'({a} ^ {top}) < ({b} ^ {top})', BINARY
    return compared('<', a, b, t)


@word('op2 le')
def _(op, a, b, t):
    """le unsigned: less or equal"""
    unsigned(op)
    return compared('<=', a, b, t)


@word('op2 eq')
def _(op, a, b, t):
    """eq: equal"""
    return compared('==', a, b, t)


@word('op2 ne')
def _(op, a, b, t):
    """ne: not equal"""
    return compared('!=', a, b, t)


# ---- statements -------------------------------------------------------------------------------------------------------------

def run(f, body):
    """Statements one after the other. A loop is left by an exit only, so what stands behind it is never reached."""
    for i, statement in enumerate(body):
        if body[i + 1:] == [('return',)] and f.returns(statement):
            return
        meaning('statement', statement)(f, statement)
        if not goes_on(statement):
            return


def goes_on(statement):
    """Whether what stands behind a statement can be reached."""
    match statement:
        case ('return',) | ('unreachable',) | ('exit', _) | ('loop', _):
            return False
        case ('block', body):
            return leaves(body, 0) or all(map(goes_on, body))
    inner = inner_lists(statement)
    return any(all(map(goes_on, body)) for body in inner) if inner else True


def leaves(body, n):
    """Whether statements have an exit to the n-th block or loop around them."""
    return any(x == ('exit', str(n)) or any(leaves(inner, n + (x[0] in ('block', 'loop'))) for inner in inner_lists(x)) for x in body)


@word('statement assign')
def _(f, x):
    """assign P V: the value V is put at the place P"""
    t = place_type(f, x[1])
    if f.program.empty(t):
        return
    where = place(f, x[1])
    if t == 'tyPtr' and f.program.empty(f.pointee(where, t)):
        return
    if t == 'tyPtr':
        f.line(f'{where[0]} = {pointer(f, ("value", x[2], t)).at(f, f.pointee(where, t)).value()[0]};')
    else:
        f.line(f'{where[0]} = {rvalue(f, x[2], t)[0]};')


@word('statement call')
def _(f, x):
    """call F A... P: the function F on the operands A, its result put at the place P"""
    text = call(f, x)
    if x[3][1] == 'none' or f.program.empty(place_type(f, x[3])):
        f.line(f'{text};' if f.program.result(x[1]) == 'void' else f'(void){text};')
    else:
        f.line(f'{place(f, x[3])[0]} = {text};')


def call(f, x):
    pointers = f.program.pointers[x[1]]
    listed = [argument(f, a, pointers.get(k)) for k, a in enumerate(x[2], 1) if not f.program.empty(operand_type(f, a))]
    return f'{f.program.function_name(x[1])}({", ".join(listed)})'


def argument(f, x, points):
    """An operand that is handed to a function; points: what a bare pointer points at there."""
    return pointer(f, x).at(f, points[0]).value()[0] if points else operand(f, x)[0]


@word('statement return')
def _(f, x):
    """return: the function ends, with what its local 0 holds"""
    f.line('return;' if f.program.empty(f.types[0]) else f'return {f.name("0")};')


@word('statement unreachable')
def _(f, x):
    """unreachable: never reached (proved); most such branches are left out, and elsewhere it is an endless loop"""
    f.line('for (;;) {')
    f.line('}')


@word('statement if')
def _(f, x):
    """if A S T: S where the bool A is true, else T"""
    condition, then, otherwise = operand(f, x[1]), x[2], x[3]
    if not then:
        condition, then, otherwise = (f'!{bound(condition, UNARY)}', UNARY), otherwise, then
    f.line(f'if ({condition[0]}) {{')
    f.nested(then)
    if otherwise:
        f.line('} else {')
        f.nested(otherwise)
    f.line('}')


@word('statement switch')
def _(f, x):
    """switch A ARMS: the arm that lists the number A, else the default; with no default one arm does (proved), so the last needs no test"""
    names = f.program.tags(operand_type_of_tag(f, x[1]))
    arms = [([names[int(v)] if names else v for v in values], body) for values, body in x[2]]
    if x[3] is not None:
        arms.append((None, x[3]))
    subject = operand(f, x[1])
    if len(arms) == 2 and len(arms[0][0]) == 1:
        f.line(f'if ({bound(subject, UNARY)} == {arms[0][0][0]}) {{')
        f.nested(arms[0][1])
        if arms[1][1]:
            f.line('} else {')
            f.nested(arms[1][1])
        f.line('}')
        return
    f.line(f'switch ({subject[0]}) {{')
    f.breakable.append('switch')
    for i, (values, body) in enumerate(arms):
        for v in values or []:
            f.line(f'case {v}:')
        if i == len(arms) - 1:
            f.line('default:')
        f.nested(body)
        if all(map(goes_on, body)):
            f.line('    break;')
    f.breakable.pop()
    f.line('}')


def operand_type_of_tag(f, x):
    """The type whose tag an operand reads, or None."""
    match x:
        case ('copy', ('place', base, [*steps, ('variant', _), ('field', '0')])):
            return place_type(f, ('place', base, steps))
    return None


@word('statement block')
def _(f, x):
    """block S: S; an exit to it goes to its end"""
    body = without_exits(x[1])
    label = f.enter('block', body[-1] if body and body[-1][0] == 'loop' else None)
    run(f, body)
    f.leave()
    if label.used:
        f.line(f'{label.name}:;')


def without_exits(body):
    """`if A { S; exit 0 } T` in a block is `if A S else T`."""
    for i, statement in enumerate(body):
        match statement:
            case ('if', a, [*then, ('exit', '0')], otherwise):
                return body[:i] + [('if', a, then, without_exits(otherwise + body[i + 1:]))]
            case ('if', a, then, [*otherwise, ('exit', '0')]):
                return body[:i] + [('if', a, without_exits(then + body[i + 1:]), otherwise)]
    return body[:-1] if body and body[-1] == ('exit', '0') else body


@word('statement loop')
def _(f, x):
    """loop S: S again and again; an exit to it begins the next turn"""
    body, condition = x[1], None
    match body[:1]:
        case [('if', a, [], [('exit', '1')])] if f.ends_with(x):
            condition, body = operand(f, a)[0], body[1:]
        case [('if', a, [('exit', '1')], [])] if f.ends_with(x):
            condition, body = f'!{bound(operand(f, a), UNARY)}', body[1:]
    f.line(f'while ({condition}) {{' if condition else 'for (;;) {')
    label = f.enter('loop', x)
    f.breakable.append('loop')
    f.nested(body[:-1] if body and body[-1] == ('exit', '0') else body)
    f.breakable.pop()
    if label.used:
        f.line(f'{label.name}:;')
    f.leave()
    f.line('}')


@word('statement exit')
def _(f, x):
    """exit N: to the end of the N-th block around, or to the next turn of the N-th loop, counted from 0 and from inside"""
    f.line(f.exit(int(x[1])))
