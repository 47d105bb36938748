#!/usr/bin/env python3
"""spare_test.py [COUNT]: random functions mean the same before and after spare.py, by an interpreter of what they are made of; the last line is
`N passed, M failed`. The functions keep the rules of the MIR: a local is set before it is read, on each turn of a loop too, and nobody uses a local
while it is lent."""
import copy
import random
import sys
import types

import spare

WORD, TRUTH = ('tyInt', '64'), 'tyBool'
PAIR, MAYBE, FLOW, NONE = (('tyNamed', name, ()) for name in ('t::Pair', 't::Maybe', 't::Flow', 't::None'))
LENT = ('tyRef', 'mut', PAIR)
ADD, LESS = ('add', 'unsigned'), ('lt', 'unsigned')


def place(local, *steps):
    return ('place', local, [step if isinstance(step, tuple) else ('field', str(step)) for step in steps])


def read(local, *steps):
    return ('copy', place(local, *steps))


def number(n, width='64'):
    return ('int', width, str(n))


def sets(local, value, *steps):
    return ('assign', place(local, *steps), value)


def some(local, *steps):
    return read(local, ('variant', '1'), 1, *steps)


def function(symbol, locals_, parameters, body, slots=()):
    return types.SimpleNamespace(name=symbol, symbol=symbol, locals=locals_, parameters=parameters, body=body, slots=set(slots))


def library():
    """What is called: the library's identity, its `branch` and the residual of it for an option, and a function of the program."""
    tag = read('1', ('variant', '0'), 0)
    branch = [('switch', tag, [(['1'], [sets('2', ('opd', some('1'))), sets('3', ('aggregate', [number(0, '8'), read('2')]))]),
                               (['0'], [sets('4', ('aggregate', [])), sets('3', ('aggregate', [number(1, '8'), read('4')]))])], None),
              sets('0', ('opd', read('3'))), ('return',)]
    same = [sets('0', ('opd', read('1'))), ('return',)]
    turned = [sets('0', ('aggregate', [read('1', 1), read('1', 0)])), ('return',)]
    residual = [sets('0', ('aggregate', [number(0, '8')])), ('return',)]
    return [function('core::convert::AnyFrom::from', [PAIR, PAIR], 1, same), function('t::turned', [PAIR, PAIR], 1, turned),
            function('core::option::OptionTry::branch', [FLOW, MAYBE, PAIR, FLOW, NONE], 1, branch),
            function('core::option::OptionFromResidualNoValue::from_residual', [MAYBE, NONE], 1, residual)]


class Maker:
    """A random function. Locals 1 to 5 are numbers, then pairs of which the last two may be lent, options, answers of branch, what is left of one, a
    loan and a truth."""
    WORDS, PAIRS, SLOTS, MAYBES = [str(i) for i in range(1, 6)], [str(i) for i in range(6, 12)], ['10', '11'], ['12', '13', '14']
    FLOWS, REST, LOAN, HOLDS = ['15', '16', '17'], '18', '19', '20'
    LOCALS = [MAYBE] + [WORD] * 5 + [PAIR] * 6 + [MAYBE] * 3 + [FLOW] * 3 + [NONE, LENT, TRUTH]

    def __init__(self, seed):
        self.random = random.Random(seed)

    def one(self, listed):
        return self.random.choice(listed)

    def known(self, names, known):
        return [name for name in names if name in known]

    def word(self, known):
        ways = [number(self.random.randrange(4))] + [read(x) for x in self.known(self.WORDS, known)]
        return self.one(ways + [read(x, self.random.randrange(2)) for x in self.known(self.PAIRS, known)])

    def pair(self, known):
        return self.one([('aggregate', [self.word(known), self.word(known)])] + 2 * [('opd', read(x)) for x in self.known(self.PAIRS, known)])

    def run(self, depth, known, loops):
        """Statements, and the locals that are set after them."""
        body = []
        for _ in range(self.random.randrange(2, 7)):
            made, known = self.statements(depth, known, loops)
            body += made
        return body, known

    def statements(self, depth, known, loops):
        kind = self.random.randrange(11 if depth else 7)
        pairs, maybes = self.known(self.PAIRS, known), self.known(self.MAYBES, known)
        if kind == 0:
            x = self.one(self.WORDS)
            return [sets(x, self.one([('opd', self.word(known)), ('op2', ADD, self.word(known), self.word(known))]))], known | {x}
        if kind in (1, 2):
            x = self.one(self.PAIRS)
            return [sets(x, self.pair(known))], known | {x}
        if kind == 3:
            x = self.one(self.MAYBES)
            ways = [('aggregate', [number(0, '8')])] + 2 * [('aggregate', [number(1, '8'), read(p)]) for p in pairs] + [('opd', read(m)) for m in maybes]
            return [sets(x, self.one(ways))], known | {x}
        if kind == 4 and pairs:
            x = self.one(self.PAIRS)
            return [('call', self.one(['core::convert::AnyFrom::from', 't::turned']), [read(self.one(pairs))], place(x))], known | {x}
        if kind == 5 and pairs:
            return [sets(self.one(pairs), ('opd', self.word(known)), self.random.randrange(2))], known
        if kind == 6 and self.known(self.SLOTS, known):
            x, at = self.one(self.known(self.SLOTS, known)), self.one(self.WORDS)
            k = self.random.randrange(2)
            return [sets(self.LOAN, ('addrOf', place(x))), sets(self.LOAN, ('opd', number(7)), ('deref', PAIR), k),
                    sets(at, ('opd', read(self.LOAN, ('deref', PAIR), 1 - k)))], known | {at}
        if kind == 7:
            then, a = self.run(depth - 1, known, loops)
            otherwise, b = self.run(depth - 1, known, loops)
            return [sets(self.HOLDS, ('op2', LESS, self.word(known), self.word(known))), ('if', read(self.HOLDS), then, otherwise)], a & b
        if kind == 8 and maybes:
            return self.switched(depth, known, loops, self.one(maybes))
        if kind == 9 and maybes:
            return self.tried(known, self.one(maybes))
        if kind == 10 and loops < 2:
            inner, _ = self.run(depth - 1, known, loops + 1)
            return [('block', [('loop', inner + [('turn',), ('exit', '1')])] if self.random.random() < 0.3 else [('loop', inner + [('turn',)])])], known
        return [], known

    def switched(self, depth, known, loops, x):
        taken = self.one(self.PAIRS)
        there, a = self.run(depth - 1, known | {taken}, loops)
        nothing, b = self.run(depth - 1, known, loops)
        if self.random.random() < 0.4:
            nothing, b = [sets('0', ('opd', read(x))), ('return',)], a
        return [('switch', read(x, ('variant', '0'), 0), [(['1'], [sets(taken, ('opd', some(x)))] + there), (['0'], nothing)], None)], a & b

    def tried(self, known, x):
        """`let taken = x?;`"""
        flow, taken = self.one(self.FLOWS), self.one(self.PAIRS)
        left = [sets(self.REST, ('opd', some(flow))), ('call', 'core::option::OptionFromResidualNoValue::from_residual', [read(self.REST)], place('0')), ('return',)]
        arms = [(['0'], [sets(taken, ('opd', read(flow, ('variant', '0'), 1)))]), (['1'], left)]
        return [('call', 'core::option::OptionTry::branch', [read(x)], place(flow)), ('switch', read(flow, ('variant', '0'), 0), arms, None)], known | {taken}

    def made(self):
        body, known = self.run(3, {'1', '2'}, 0)
        words = self.known(self.WORDS, known)
        for p in self.known(self.PAIRS, known):
            body += [sets('3', ('op2', ADD, read(p, 0), read(p, 1))), sets('1', ('op2', ADD, read('1'), read('3')))]
        body += [sets('6', ('aggregate', [read('1'), read(self.one(words))])), sets('0', ('aggregate', [number(1, '8'), read('6')])), ('return',)]
        return function('t::f', list(self.LOCALS), 2, body, map(int, self.SLOTS))


class Machine:
    """What a function answers. A struct or a variant is a list, a variant's tag in front; a loan is the place that is lent."""

    def __init__(self, functions):
        self.functions, self.locals, self.left = functions, {}, 0

    def call(self, name, arguments):
        caller = self.locals, self.left
        self.locals = {str(i + 1): copy.deepcopy(a) for i, a in enumerate(arguments)}
        self.run(self.functions[name].body)
        answer = self.locals['0']
        self.locals, self.left = caller
        return answer

    def holder(self, p):
        """The list and the index that a place is."""
        at, k = self.locals, p[1]
        for step in p[2]:
            if step[0] == 'deref':
                at, k = self.holder(at[k])
            elif step[0] == 'field':
                at, k = at[k], int(step[1])
        return at, k

    def operand(self, x):
        if x[0] == 'int':
            return int(x[2])
        at, k = self.holder(x[1])
        return copy.deepcopy(at[k])

    def value(self, v):
        match v:
            case ('opd', a):
                return self.operand(a)
            case ('aggregate', parts):
                return list(map(self.operand, parts))
            case ('addrOf', p):
                return p
            case ('op2', op, a, b):
                return self.operand(a) + self.operand(b) if op == ADD else self.operand(a) < self.operand(b)

    def run(self, body):
        """None, 'return', or how many blocks and loops are still to be left."""
        for x in body:
            out = self.step(x)
            if out is not None:
                return out
        return None

    def step(self, x):
        match x:
            case ('assign', p, v):
                value = self.value(v)
                at, k = self.holder(p)
                at[k] = value
            case ('call', name, operands, p):
                value = self.call(name, list(map(self.operand, operands)))
                at, k = self.holder(p)
                at[k] = value
            case ('return',):
                return 'return'
            case ('exit', n):
                return int(n)
            case ('turn',):                     # a loop ends after its third turn
                self.left -= 1
                return 1 if self.left <= 0 else None
            case ('if', a, then, otherwise):
                return self.run(then if self.operand(a) else otherwise)
            case ('switch', a, arms, default):
                tag = str(self.operand(a))
                return self.run(next((arm for tags, arm in arms if tag in tags), default))
            case ('block', inner):
                return self.out_of(self.run(inner))
            case ('loop', inner):
                around, self.left, out = self.left, 3, None
                while out in (None, 0):
                    out = self.run(inner)
                self.left = around
                return self.out_of(out)
        return None

    @staticmethod
    def out_of(out):
        return out if out in (None, 'return') else out - 1 if out else None


def answers(functions):
    machine = Machine(functions)
    return [machine.call('t::f', [a, b]) for a in range(3) for b in range(3)]


def main():
    passed = failed = spared = 0
    for seed in range(int(sys.argv[1]) if len(sys.argv) > 1 else 3000):
        functions = {f.name: f for f in library() + [Maker(seed).made()]}
        before = answers(functions)
        old = functions['t::f'].body
        spare.spare(functions, ['t::f'])
        spared += functions['t::f'].body != old
        if answers(functions) == before:
            passed += 1
        else:
            failed += 1
            print(f'seed {seed}: another answer')
    if spared < passed // 2:
        failed += 1
        print(f'only {spared} functions were changed')
    print(f'{passed} passed, {failed} failed')
    sys.exit(bool(failed))


if __name__ == '__main__':
    main()
