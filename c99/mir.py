"""Reads the MIR that a proved library carries (`out/rlib/NAME.rlib/toolchain/mir.json`): the program that the proofs are about, as nested words.

A file is a list of functions, each with its name, its locals, the types that it speaks of, and its body, a run of statements written in one
list, each in front of those inside it. Here a node is a tuple whose first part is its word, and a run of statements is a Python list. Nothing
is changed but this notation, and lifetimes are left out. A word that has no place here is refused.

A function with type parameters becomes one function for each list of arguments that it is called with: types in the place of its parameters, and
for each of its bounds a dictionary, which says by which impl the bound holds. A call of a bound's method becomes a call of that impl's function.
"""
import json


class Unknown(Exception):
    """A word, or a use of one, to which no meaning is given here."""


def only(x, kind):
    """The word and the parts of a node of the JSON that is `{WORD: PARTS}`."""
    if not isinstance(x, dict) or len(x) != 1:
        raise Unknown(f'{kind} {json.dumps(x)[:100]}')
    return next(iter(x.items()))


def lowered(word):
    return word[0].lower() + word[1:]


def number(x, kind):
    if not isinstance(x, int) or isinstance(x, bool) or x < 0:
        raise Unknown(f'{kind} {json.dumps(x)[:100]}')
    return str(x)


def type_of(x):
    if x in ('Bool', 'Unit', 'Ptr'):
        return 'ty' + x
    match only(x, 'type'):
        case ('Int', w):
            return ('tyInt', number(w, 'width'))
        case ('Ref', [_, ('Imm' | 'Mut') as lent, to]):
            return ('tyRef', lowered(lent), type_of(to))
        case ('Struct', [str(name), parts]):
            return ('tyStruct', name, tuple(map(type_of, parts)))
        case ('Array', [to, n]):
            return ('tyArray', type_of(to), length_of(n))
        case ('Named', [{'name': name}, arguments]):
            return ('tyNamed', name, tuple(map(type_of, arguments)))
        case ('Param', k):
            return ('tyParam', k)
        case ('Const', n):
            return number(n, 'constant')
    raise Unknown(f'type {json.dumps(x)[:100]}')


def length_of(x):
    """The length of an array: a number, or a parameter of the function."""
    match only(x, 'length'):
        case ('Lit', n):
            return number(n, 'length')
        case ('Param', k):
            return ('tyParam', k)
    raise Unknown(f'length {json.dumps(x)[:100]}')


def dictionary_of(x):
    """By which impl a bound holds: ('impl', NAME, TYPES, DICTIONARIES), or as the k-th bound of the function itself: ('given', k)."""
    match only(x, 'dictionary'):
        case ('Impl', [str(name), types, dicts]):
            return ('impl', name, tuple(map(type_of, types)), tuple(map(dictionary_of, dicts)))
        case ('Given', k):
            return ('given', k)
    raise Unknown(f'dictionary {json.dumps(x)[:100]}')


def callee_of(x):
    """What a call names: ('fn', NAME, TYPES, DICTIONARIES), or a method of a bound: ('method', DICTIONARY, INDEX, TYPES, DICTIONARIES)."""
    match only(x, 'callee'):
        case ('Fn', [str(name), {'types': types, 'dicts': dicts}]):
            return ('fn', name, tuple(map(type_of, types)), tuple(map(dictionary_of, dicts)))
        case ('Method', [bound, int(index), {'types': types, 'dicts': dicts}]):
            return ('method', dictionary_of(bound), index, tuple(map(type_of, types)), tuple(map(dictionary_of, dicts)))
    raise Unknown(f'callee {json.dumps(x)[:100]}')


def place_of(x):
    if set(x) != {'local', 'steps'}:
        raise Unknown(f'place {json.dumps(x)[:100]}')
    return ('place', number(x['local'], 'local'), list(map(step_of, x['steps'])))


def step_of(x):
    match only(x, 'step'):
        case ('Deref', to):
            return ('deref', type_of(to))
        case (('Field' | 'Variant') as word, n):
            return (lowered(word), number(n, 'step'))
    raise Unknown(f'step {json.dumps(x)[:100]}')


def operand_of(x):
    if x in ('True', 'False', 'Unit'):
        return lowered(x)
    match only(x, 'operand'):
        case (('Copy' | 'Move') as word, place):
            return (lowered(word), place_of(place))
        case ('Int', {'width': w, 'value': n}):
            return ('int', number(w, 'width'), number(n, 'number'))
        case ('NumOf', [w, n]):
            return ('numOf', number(w, 'width'), length_of(n))
        case ('SizeOf', t):
            return ('sizeOf', type_of(t))
    raise Unknown(f'operand {json.dumps(x)[:100]}')


def operation_of(x):
    """An operation: a word, or a word with how it reads its numbers and, of a cast, the width of the result."""
    if isinstance(x, str):
        return lowered(x)
    word, parts = only(x, 'operation')
    parts = parts if isinstance(parts, list) else [parts]
    return (lowered(word), *(lowered(part) if isinstance(part, str) else number(part, 'width') for part in parts))


def value_of(x):
    match only(x, 'value'):
        case ('Opd', operand):
            return ('opd', operand_of(operand))
        case ('AddrOf', place):
            return ('addrOf', place_of(place))
        case ('Op1', [op, a]):
            return ('op1', operation_of(op), operand_of(a))
        case ('Op2', [op, a, b]):
            return ('op2', operation_of(op), operand_of(a), operand_of(b))
        case ('Aggregate', operands):
            return ('aggregate', list(map(operand_of, operands)))
        case ('Repeat', [a, n]):
            return ('repeat', operand_of(a), length_of(n))
    raise Unknown(f'value {json.dumps(x)[:100]}')


def constant_of(x):
    """What lies in memory from the start: a number, a bool, or the parts of an array, a struct or, behind its number, a variant."""
    match only(x, 'constant'):
        case ('Int', {'value': n}):
            return number(n, 'number')
        case ('Bool', bool(b)):
            return str(b).lower()
        case ('Ints', {'values': values}):
            return [number(n, 'number') for n in values]
        case ('Parts', parts):
            return list(map(constant_of, parts))
    raise Unknown(f'constant {json.dumps(x)[:100]}')


class Body:
    """A run of statements while it is read: each stands in front of those inside it."""

    def __init__(self, words):
        self.words, self.at = words, 0

    def run(self):
        """The statements that one stands for, one after the other."""
        out = []
        while self.words[self.at] == 'Seq':
            self.at += 1
            out += self.one()
        return out + self.one()

    def one(self):
        x = self.words[self.at]
        if x == 'Seq':
            return self.run()
        self.at += 1
        if isinstance(x, str):
            return self.bare(x)
        match only(x, 'statement'):
            case ('Assign', [place, value]):
                return [('assign', place_of(place), value_of(value))]
            case ('Call', [callee, operands, place]):
                return [('call', callee_of(callee), list(map(operand_of, operands)), place_of(place))]
            case ('LendStatic', [place, t, constant]):
                return [('assign', place_of(place), ('static', type_of(t), constant_of(constant)))]
            case ('Exit', n):
                return [('exit', number(n, 'exit'))]
            case ('If', a):
                return [('if', operand_of(a), self.run(), self.run())]
            case ('Switch', [a, arms, bool(rest)]):
                listed = [([number(n, 'arm') for n in arm], self.run()) for arm in arms]
                return [('switch', operand_of(a), listed, self.run() if rest else None)]
        raise Unknown(f'statement {json.dumps(x)[:100]}')

    def bare(self, x):
        match x:
            case 'Skip':
                return []
            case 'Return' | 'Unreachable':
                return [(lowered(x),)]
            case 'Block' | 'Loop':
                return [(lowered(x), self.run())]
        raise Unknown(f'statement {x}')


def at(x, types, dicts):
    """A node with the arguments of a function in the place of its parameters."""
    match x:
        case ('tyParam', k):
            return types[k]
        case ('given', k):
            return dicts[k]
        case ('numOf', w, n):
            return ('int', w, at(n, types, dicts))
        case ('sizeOf', t):
            t = at(t, types, dicts)
            return ('int', '64', str(size_of(t))) if size_of(t) else ('sizeOf', t)
    if isinstance(x, tuple):
        return tuple(at(part, types, dicts) for part in x)
    return [at(part, types, dicts) for part in x] if isinstance(x, list) else x


def size_of(t):
    """The bytes of a number or a bool; None of other types, whose layout C decides."""
    match t:
        case 'tyBool':
            return 1
        case ('tyInt', w):
            return int(w) // 8
    return None


class Function:
    """A function at arguments for its parameters. name: its own, and that of the arguments where there are any; symbol: as in Rattle; arguments: the
    types; locals: their types, 0 the result, then the parameters; slots: the locals that live in memory; body; types: those that it speaks
    of, by name, as they are declared: ('fields', [type]) or ('variants', [[type]])."""

    def __init__(self, program, name, symbol, arguments, dicts):
        item, generics = program.items[symbol], program.items[symbol]['generics']
        self.name, self.symbol, self.arguments, self.parameters = name, symbol, arguments, item['params']
        if (len(generics['types']), len(generics['bounds'])) != (len(arguments), len(dicts)):
            raise Unknown(f'function {symbol} at {len(arguments)} types and {len(dicts)} bounds')
        self.locals = [at(type_of(local['ty']), arguments, dicts) for local in item['locals']]
        homes = [local['home'] for local in item['locals']]
        if {*homes} - {'ValueLocal', 'MemorySlot'}:
            raise Unknown(f'function {symbol}: locals in {homes}')
        self.slots = {i for i, home in enumerate(homes) if home == 'MemorySlot'}
        read = Body(item['body'])
        self.body = program.called(at(read.run(), arguments, dicts))
        if read.at != len(item['body']):
            raise Unknown(f'function {symbol}: more stands behind its body')
        self.types = {t['name']: shape_of(t) for t in item['types']}


# the library's structs that hold a bare pointer: to what, as a parameter of the struct
POINTERS = {'core::slots::Slots': 0}


def shape_of(t):
    match t:
        case {'is_cell': False, 'shape': {'Fields': parts}}:
            return ('fields', [('tyRef', 'mut', ('tyParam', POINTERS[t['name']])) if part == 'Ptr' and t['name'] in POINTERS else type_of(part)
                               for part in parts])
        case {'is_cell': False, 'shape': {'Variants': variants}}:
            return ('variants', [list(map(type_of, parts)) for parts in variants])
    raise Unknown(f'type {t["name"]}')


class Program:
    """The functions by name, each read when it is asked for, since a library has others beside those that are reached. instances: of each name with
    arguments its symbol, types and dictionaries; impls: the methods of each impl, by name."""

    def __init__(self, texts):
        self.items, self.read, self.instances, self.impls = {}, {}, {}, {}
        for text in texts:
            for name, item in json.loads(text):
                if self.items.setdefault(name, item) is not item:
                    raise Unknown(f'function {name} stands in two libraries')
                for impl in item['generics']['impls']:
                    self.impls[impl['name']] = impl

    def names(self):
        return [name for name, item in self.items.items() if not item['generics']['types'] and not item['generics']['bounds']]

    def __contains__(self, name):
        return name in self.items or name in self.instances

    def __getitem__(self, name):
        if name not in self.read:
            self.read[name] = Function(self, name, *self.instances.get(name, (name, (), ())))
        return self.read[name]

    def called(self, body):
        """Statements with the names of functions in the place of what calls name."""
        return changed(body, lambda x: [('call', self.callee(x[1]), *x[2:]) if x[0] == 'call' else x])

    def callee(self, x):
        """The name of the function that a call calls."""
        match x:
            case ('method', ('impl', impl, types, dicts), index, more_types, more_dicts):
                return self.instance(self.impl(impl)['methods'][index], types + more_types, dicts + more_dicts)
            case ('fn', symbol, types, dicts):
                return self.instance(symbol, types, dicts)
        raise Unknown(f'callee {x}')

    def impl(self, name):
        if name not in self.impls:
            raise Unknown(f'impl {name}')
        return self.impls[name]

    def instance(self, symbol, types, dicts):
        """The name of a function at arguments."""
        if not types and not dicts:
            return symbol
        dicts = tuple(map(self.plain, dicts))
        name = f'{symbol}<{", ".join(map(shown, types + dicts))}>'
        if symbol in self.items:
            self.instances[name] = (symbol, types, dicts)
        return name

    def plain(self, dictionary):
        """A dictionary, where each crate's impl for types with nothing to let go is the core library's."""
        _, name, types, dicts = dictionary
        if self.impl(name)['of']['of'] == 'core::marker::Destruct' and name.endswith('::Destruct++none'):
            name = 'core::Destruct++none'
        return ('impl', name, types, tuple(map(self.plain, dicts)))


def shown(x):
    """A type or a dictionary in one word, different for different ones."""
    match x:
        case ('tyInt', w):
            return f'u{w}'
        case ('tyRef', lent, to):
            return f'&{"mut " * (lent == "mut")}{shown(to)}'
        case ('tyNamed' | 'impl', name, *arguments):
            listed = ', '.join(shown(argument) for part in arguments for argument in part)
            return f'{name}<{listed}>' if listed else name
    return x if isinstance(x, str) else f'({" ".join(map(shown, x))})'


def types_of(functions):
    """The types that functions speak of, by name, as they are declared."""
    types = {}
    for function in functions:
        for name, shape in function.types.items():
            if types.setdefault(name, shape) != shape:
                raise Unknown(f'type {name}: {shape}')
    return types


def changed(body, change):
    """Statements with others, as a function of it says, in the place of each assignment and each call."""
    out = []
    for x in body:
        match x:
            case ('assign' | 'call', *_):
                out += change(x)
                continue
            case ('if', a, then, otherwise):
                x = ('if', a, changed(then, change), changed(otherwise, change))
            case ('block' | 'loop', inner):
                x = (x[0], changed(inner, change))
            case ('switch', a, arms, default):
                arms = [(values, changed(arm, change)) for values, arm in arms]
                x = ('switch', a, arms, default if default is None else changed(default, change))
        out.append(x)
    return out


def without_calls(body, names):
    return changed(body, lambda x: [] if x[0] == 'call' and x[1] in names else [x])


UNREACHABLE = [('unreachable',)]


def reachable(body, never):
    """Statements without those that are never reached (proved), as the calls of the functions `never` are not; UNREACHABLE where all are such. What
    leads only there is never reached either, so an `if` loses the branch that does."""
    out = []
    for i, x in enumerate(body):
        if x == UNREACHABLE[0] or x[0] == 'call' and x[1] in never:
            return led_to_nothing(out)
        match x:
            case ('if', a, then, otherwise):
                then, otherwise = reachable(then, never), reachable(otherwise, never)
                if UNREACHABLE in (then, otherwise):
                    return reachable(out + (otherwise if then == UNREACHABLE else then) + body[i + 1:], never)
                x = ('if', a, then, otherwise)
            case ('block' | 'loop', inner):
                x = (x[0], reachable(inner, never))
                if x[1] == UNREACHABLE:
                    return led_to_nothing(out)
            case ('switch', a, arms, default):
                arms = [(values, arm) for values, arm in ((values, reachable(arm, never)) for values, arm in arms) if arm != UNREACHABLE]
                default = default if default is None else reachable(default, never)
                default = None if default == UNREACHABLE else default
                if len(arms) + (default is not None) < 2:
                    return reachable(out + (arms[0][1] if arms else default or UNREACHABLE) + body[i + 1:], never)
                x = ('switch', a, arms, default)
        out.append(x)
    return out


def led_to_nothing(body):
    """Statements that are followed by what is never reached."""
    while body and body[-1][0] in ('assign', 'call'):
        body = body[:-1]
    match body[-1:]:
        case [('if', a, then, otherwise)]:
            then, otherwise = reachable(then + UNREACHABLE, ()), reachable(otherwise + UNREACHABLE, ())
            if UNREACHABLE in (then, otherwise):
                return body[:-1] + (otherwise if then == UNREACHABLE else then)
            return body[:-1] + [('if', a, then, otherwise)]
    return body + UNREACHABLE


def acts(body):
    """Whether statements do more than to give values to locals."""
    return any(x[0] in ('call', 'loop') or x[0] == 'assign' and any(step[0] == 'deref' for step in x[1][2]) or any(map(acts, inner_lists(x)))
               for x in body)


def calls(body, looped=False):
    """The names of the functions that statements call, each with whether that call stands in a loop."""
    for statement in body:
        if statement[0] == 'call':
            yield statement[1], looped
        for inner in inner_lists(statement):
            yield from calls(inner, looped or statement[0] == 'loop')


def size(body):
    """How many statements there are, inner ones included."""
    return sum(1 + sum(map(size, inner_lists(statement))) for statement in body)


def inner_lists(statement):
    """The lists of statements inside a statement."""
    match statement:
        case ('if', _, then, otherwise):
            return [then, otherwise]
        case ('block' | 'loop', body):
            return [body]
        case ('switch', _, arms, default):
            return [body for _, body in arms] + ([default] if default is not None else [])
    return []
