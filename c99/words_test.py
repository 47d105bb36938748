#!/usr/bin/env python3
"""The operations of the MIR at every width, and functions at types, through the translator and a C compiler, against their meaning here; and
what it must refuse.
The last line is `N passed, M failed`. CC names the compiler (default gcc)."""
import json
import os
import pathlib
import subprocess
import sys
import tempfile

import mir2c
from mir import Unknown

WIDTHS = (8, 16, 32, 64)
TWO = {'Add Unsigned': lambda a, b, w: a + b, 'Sub Unsigned': lambda a, b, w: a - b, 'Mul Unsigned': lambda a, b, w: a * b,
       'Div Unsigned': lambda a, b, w: a // b if b else -1, 'Rem Unsigned': lambda a, b, w: a % b if b else -1,
       'Shl': lambda a, b, w: (a << b) % 2 ** w if b < w else -1, 'Shr Unsigned': lambda a, b, w: a >> b if b < w else -1,
       'And': lambda a, b, w: a & b, 'Or': lambda a, b, w: a | b, 'Xor': lambda a, b, w: a ^ b, 'WrapSub': lambda a, b, w: (a - b) % 2 ** w,
       'WrapAdd': lambda a, b, w: (a + b) % 2 ** w, 'WrapMul': lambda a, b, w: a * b % 2 ** w}
COMPARE = {'Lt Unsigned': lambda a, b, w: a < b, 'Le Unsigned': lambda a, b, w: a <= b, 'Eq': lambda a, b, w: a == b,
           'Ne': lambda a, b, w: a != b, 'Lt Signed': lambda a, b, w: signed(a, w) < signed(b, w)}
COUNT = {'LeadingZeros': lambda a, w: w - a.bit_length(), 'TrailingZeros': lambda a, w: (a & -a).bit_length() - 1 if a else w,
         'CountOnes': lambda a, w: bin(a).count('1')}


def signed(a, w):
    """The number that w bits stand for."""
    return a if a < 2 ** (w - 1) else a - 2 ** w


def function(name, types, parameters, body, at=(0, 0)):
    """A function of the MIR; types: of the locals, body: its statements, at: the counts of its type parameters and of their bounds."""
    listed = [{'ty': t, 'home': 'MemorySlot' if 'Array' in t else 'ValueLocal'} for t in types]
    code = [word for statement in body for word in ('Seq', *(statement if isinstance(statement, list) else [statement]))] + ['Return']
    generics = {'types': [{}] * at[0], 'bounds': [{}] * at[1], 'impls': IMPLS}
    return [f't::{name}', {'params': parameters, 'generics': generics, 'types': TYPES, 'locals': listed, 'body': code}]


def declared(name, **shape):
    return {'name': f't::{name}', 'is_cell': False, 'shape': shape}


def named(name, *arguments):
    """A declared type."""
    return {'Named': [{'name': f't::{name}'}, list(arguments)]}


def impl(name, trait, *methods):
    return {'name': name, 'of': {'of': trait}, 'methods': [f't::{method}' for method in methods]}


def param(k):
    return {'Param': k}


# Maybe is Option; Nothing has no fields, as a closure that captures nothing; Kept lends a number, as a closure that captures one; Row has an
# array of a length that is its parameter, and a field that is left out
TYPES = [declared('Maybe', Variants=[[], [param(0)]]), declared('Nothing', Fields=[]),
         declared('Row', Fields=[{'Array': [{'Int': 16}, param(0)]}, 'Unit']),
         declared('Kept', Fields=[{'Ref': ['Erased', 'Imm', {'Int': 16}]}]), declared('Way', Variants=[[], [], []])]
IMPLS = [impl('t::Narrow', 't::Weigh', 'narrow'), impl('t::Wide', 't::Weigh', 'wide'), impl('t::Both', 't::Weigh', 'both'),
         impl('t::NothingCall', 't::Call', 'call_nothing'), impl('t::KeptCall', 't::Call', 'call_kept'),
         impl('core::Destruct++none', 'core::marker::Destruct', 'drop'), impl('t::Destruct++none', 'core::marker::Destruct', 'drop')]


def number(w):
    return {'Int': w}


def constant(w, n):
    return {'Int': {'width': w, 'value': n}}


def place(n, *steps):
    return {'local': n, 'steps': list(steps)}


def copy(n):
    return {'Copy': place(n)}


def assign(n, value):
    return {'Assign': [place(n), value]}


def op1(op, a):
    return {'Op1': [op, a]}


def op2(op, a, b):
    """An operation on two operands; one that reads its numbers as signed or unsigned says so in a second word."""
    word, *sign = op.split()
    return {'Op2': [{word: sign[0]} if sign else word, a, b]}


def cast(sign, n):
    return op1({'Cast': [sign, 'Unsigned', 64]}, copy(n))


def widened(n, source):
    """Local n of 64 bits becomes what a narrower local holds."""
    return assign(n, cast('Unsigned', source))


def operations():
    """Triples: a name, the function, and what it must answer for two numbers, -1 where that is undefined."""
    for w in WIDTHS:
        for op, meaning in TWO.items():
            body = [assign(3, op2(op, copy(1), copy(2))), widened(0, 3)]
            yield f'{op} {w}', [number(64)] + [number(w)] * 3, body, w, lambda a, b, w, m=meaning: m(a, b, w) if m(a, b, w) < 2 ** w else -1
        for op, meaning in COMPARE.items():
            body = [assign(3, op2(op, copy(1), copy(2))), widened(0, 3)]
            yield f'{op} {w}', [number(64), number(w), number(w), 'Bool'], body, w, lambda a, b, w, m=meaning: int(m(a, b, w))
        for op, meaning in COUNT.items():
            body = [assign(3, op1(op, copy(1))), widened(0, 3)]
            yield f'{op} {w}', [number(64), number(w), number(w), number(32)], body, w, lambda a, b, w, m=meaning: m(a, w)
        yield f'cast signed unsigned {w}', [number(64), number(w), number(w)], [assign(0, cast('Signed', 1))], w, lambda a, b, w: signed(a, w)
        body = [assign(3, op1('Not', copy(1))), widened(0, 3)]
        yield f'not {w}', [number(64)] + [number(w)] * 3, body, w, lambda a, b, w: 2 ** w - 1 - a
        array = {'Array': [number(w), {'Lit': 3}]}
        lent = [{'Ref': ['Erased', 'Imm', array]}, {'Ref': ['Erased', 'Imm', number(w)]}]
        types = [number(64), number(w), number(w), array, *lent, number(w)]
        for k, meaning in enumerate((lambda a, b, w: b, lambda a, b, w: a, lambda a, b, w: 7)):
            body = [assign(3, {'Aggregate': [copy(2), copy(1), constant(w, 7)]}), assign(4, {'AddrOf': place(3)}),
                    assign(5, op2('Offset', copy(4), constant(64, k * w // 8))),
                    assign(6, {'Opd': {'Copy': place(5, {'Deref': number(w)})}}), widened(0, 6)]
            yield f'element {k} of {w}', types, body, w, meaning
        body = [assign(3, op1('Not', constant(w, 2 ** (w - 1) + 1))), assign(3, op2('And', copy(3), copy(1))), widened(0, 3)]
        yield f'constant {w}', [number(64)] + [number(w)] * 3, body, w, lambda a, b, w: (2 ** w - 1 - (2 ** (w - 1) + 1)) & a


def call_at(name, types, dicts, operands, n):
    """A call of a function at arguments, its result in local n."""
    return {'Call': [{'Fn': [f't::{name}', {'types': types, 'dicts': dicts}]}, operands, place(n)]}


def method(k, operands, n):
    """A call of the first method of the k-th bound."""
    return {'Call': [{'Method': [{'Given': k}, 0, {'types': [], 'dicts': []}]}, operands, place(n)]}


def by(name, types=(), dicts=()):
    """A dictionary."""
    return {'Impl': [name, list(types), list(dicts)]}


def opd(operand):
    return {'Opd': operand}


def field(n, *steps):
    """What lies in a local, behind fields, variants and pointers."""
    return {'Copy': place(n, *steps)}


def tag(n):
    return field(n, {'Variant': 0}, {'Field': 0})


def library():
    """The functions that those of `at_types` call."""
    maybe, row, lent = named('Maybe', param(0)), named('Row', param(0)), {'Ref': ['Erased', 'Imm', param(0)]}
    plus = op2('Add Unsigned', copy(1), constant(16, 1))
    return [
        function('same', [param(0), param(0)], 1, [assign(0, opd(copy(1)))], (1, 0)),
        function('drop', ['Unit', param(0)], 1, [assign(0, opd('Unit'))], (1, 0)),
        function('let_go', ['Unit', param(0), 'Unit'], 1, [method(0, [copy(1)], 2), assign(0, opd('Unit'))], (1, 1)),
        function('never', ['Unit'], 0, ['Unreachable']),
        function('narrow', [number(16), number(16)], 1, [assign(0, plus)]),
        function('wide', [number(64), number(64)], 1, [assign(0, op2('Div Unsigned', copy(1), constant(64, 2)))]),
        function('weigh', [param(0), param(0)], 1, [method(0, [copy(1)], 0)], (1, 1)),
        function('both', [maybe, maybe, param(0)], 1,
                 [[{'Switch': [tag(1), [[0], [1]], False]}, assign(0, opd(copy(1))), 'Seq', method(0, [field(1, {'Variant': 1}, {'Field': 1})], 2),
                   assign(0, {'Aggregate': [constant(8, 1), copy(2)]})]], (1, 1)),
        function('call_nothing', [number(16), named('Nothing'), number(16)], 2, [assign(0, op2('Xor', copy(2), constant(16, 5)))]),
        function('call_kept', [number(16), named('Kept'), number(16), number(16)], 2,
                 [assign(3, opd(field(1, {'Field': 0}, {'Deref': number(16)}))), assign(0, op2('Xor', copy(2), copy(3)))]),
        function('with', [number(16), number(16), param(0)], 2, [method(0, [copy(2), copy(1)], 0)], (1, 1)),
        function('row', [row, {'Array': [number(16), param(0)]}], 0,
                 [assign(1, {'Repeat': [constant(16, 0), param(0)]}), assign(0, {'Aggregate': [copy(1), 'Unit']})], (1, 0)),
        function('length', [number(64), row], 1, [assign(0, opd({'NumOf': [64, param(0)]}))], (1, 0)),
        function('second', [param(0), 'Ptr', 'Ptr', number(64)], 1,
                 [assign(3, op2('Mul Unsigned', constant(64, 1), {'SizeOf': param(0)})), assign(2, op2('Offset', copy(1), copy(3))),
                  assign(0, opd(field(2, {'Deref': param(0)})))], (1, 0)),
        function('first', [param(0), lent], 1, [assign(0, opd(field(1, {'Deref': param(0)})))], (1, 0))]


def at_types():
    """As `operations`, of functions at types, of 16 bits."""
    u16, u64 = number(16), number(64)
    numbers = [u64, u16, u16]
    yield 'a function at two types', numbers + [u16, u64, u64], [
        call_at('same', [u16], [], [copy(1)], 3), widened(4, 3), call_at('same', [u64], [], [copy(4)], 0)], 16, lambda a, b, w: a
    yield 'a method of a bound, by two impls', numbers + [u16, u64, u16, u64], [
        call_at('weigh', [u16], [by('t::Narrow')], [copy(1)], 3), widened(4, 3), call_at('weigh', [u64], [by('t::Wide')], [copy(4)], 6),
        assign(0, opd(copy(6)))], 16, lambda a, b, w: (a + 1) // 2 if a < 65535 else -1
    maybe = named('Maybe', u16)
    yield 'an impl with a bound of its own', numbers + [maybe, maybe, u16], [
        assign(3, {'Aggregate': [constant(8, 1), copy(1)]}), call_at('weigh', [maybe], [by('t::Both', [u16], [by('t::Narrow')])], [copy(3)], 4),
        [{'Switch': [tag(4), [[1]], True]}, assign(5, opd(field(4, {'Variant': 1}, {'Field': 1}))), assign(5, opd(constant(16, 9)))],
        widened(0, 5)], 16, lambda a, b, w: a + 1 if a < 65535 else -1
    yield 'a variant with a field that is left out', numbers + [named('Maybe', 'Unit'), u16], [
        assign(3, {'Aggregate': [constant(8, 1), 'Unit']}),
        [{'Switch': [tag(3), [[0], [1]], False]}, assign(4, opd(copy(2))), assign(4, opd(copy(1)))], widened(0, 4)], 16, lambda a, b, w: a
    yield 'a closure that captures nothing', numbers + [named('Nothing'), u16], [
        assign(3, {'Aggregate': []}), call_at('with', [named('Nothing')], [by('t::NothingCall')], [copy(1), copy(3)], 4), widened(0, 4)
    ], 16, lambda a, b, w: a ^ 5
    yield 'a closure that captures a number', numbers + [{'Ref': ['Erased', 'Imm', u16]}, named('Kept'), u16], [
        assign(3, {'AddrOf': place(2)}), assign(4, {'Aggregate': [copy(3)]}),
        call_at('with', [named('Kept')], [by('t::KeptCall')], [copy(1), copy(4)], 5), widened(0, 5)], 16, lambda a, b, w: a ^ b
    for n in (1, 7):
        yield f'an array of the length {n}', numbers + [named('Row', {'Const': n}), u64], [
            call_at('row', [{'Const': n}], [], [], 3), call_at('length', [{'Const': n}], [], [copy(3)], 4), assign(0, opd(copy(4)))
        ], 16, lambda a, b, w, n=n: n
    array = {'Array': [u16, {'Lit': 3}]}
    yield 'a bare pointer that is handed on', numbers + [array, 'Ptr', u16], [
        assign(3, {'Aggregate': [copy(1), copy(2), copy(1)]}), assign(4, {'AddrOf': place(3)}), call_at('second', [u16], [], [copy(4)], 5),
        widened(0, 5)], 16, lambda a, b, w: b
    pair = named('Maybe', maybe)
    held = {'Parts': [{'Int': {'width': 8, 'value': 1}}, {'Parts': [{'Int': {'width': 8, 'value': 1}}, {'Int': {'width': 16, 'value': 77}}]}]}
    yield 'a constant', numbers + [{'Ref': ['Erased', 'Imm', pair]}, pair, u16], [
        {'LendStatic': [place(3), pair, held]}, call_at('first', [pair], [], [copy(3)], 4),
        assign(5, opd(field(4, {'Variant': 1}, {'Field': 1}, {'Variant': 1}, {'Field': 1}))), widened(0, 5)], 16, lambda a, b, w: 77
    table = [{'LendStatic': [place(3), array, {'Ints': {'width': 16, 'values': [4, 65535, 6]}}]},
             assign(4, op2('Offset', copy(3), constant(64, 2))), assign(5, opd(field(4, {'Deref': u16}))), widened(0, 5)]
    yield 'a constant array', numbers + [{'Ref': ['Erased', 'Imm', array]}, 'Ptr', u16], table, 16, lambda a, b, w: 65535
    yield 'what is never reached', numbers + ['Bool', 'Unit'], [
        assign(3, op2('Lt Unsigned', copy(1), copy(2))),
        [{'If': copy(3)}, 'Seq', widened(0, 1), 'Return', 'Seq', widened(0, 2), 'Return'], call_at('never', [], [], [], 4), 'Unreachable'
    ], 16, lambda a, b, w: min(a, b)
    yield 'a branch that is never reached', numbers + [named('Way'), 'Unit'], [
        assign(3, {'Aggregate': [constant(8, 1)]}),
        [{'Switch': [tag(3), [[0], [1]], True]}, 'Unreachable', widened(0, 1), call_at('never', [], [], [], 4)]], 16, lambda a, b, w: a
    yield 'letting go of what owns nothing', numbers + ['Unit'], [
        call_at('let_go', [u16], [by('t::Destruct++none', [u16])], [copy(1)], 3), widened(0, 1)], 16, lambda a, b, w: a


def firsts(w):
    return sorted({n % 2 ** w for k in (0, 1, 4, 7, 8, 15, 16, 31, 32, 63, w) for n in (2 ** k - 1, 2 ** k)})


def seconds(w):
    return sorted({0, 1, 3, w - 1, w, 2 ** (w - 1), 2 ** w - 1})


def translated(functions):
    return mir2c.translate([json.dumps(functions)], 'op_', '', '', True)


def run_all(cases):
    """How many answers are right, for the C as it is and without the processor's count of bits."""
    text = translated(library() + [function(f'op_{i}', types, 2, body) for i, (_, types, body, _, _) in enumerate(cases)])
    calls, wanted = [], []
    for i, (name, _, _, w, meaning) in enumerate(cases):
        for a in firsts(w):
            for b in seconds(w):
                if meaning(a, b, w) >= 0:
                    calls.append(f'{{ {i}, UINT64_C({a}), UINT64_C({b}), UINT64_C({meaning(a, b, w)}) }},')
                    wanted.append(name)
    switch = '\n'.join(f'case {i}: return op_{i}((uint{w}_t)a, (uint{w}_t)b);' for i, (_, _, _, w, _) in enumerate(cases))
    main = f'''
#include <stdio.h>
static const struct {{ int op; uint64_t a, b, wanted; }} calls[] = {{ {chr(10).join(calls)} }};
static uint64_t answer(int op, uint64_t a, uint64_t b) {{ switch (op) {{ {switch} }} return 0; }}
int main(void)
{{
    for (size_t i = 0; i < sizeof calls / sizeof *calls; i++)
        if (answer(calls[i].op, calls[i].a, calls[i].b) != calls[i].wanted)
            printf("%lu\\n", (unsigned long)i);
    return 0;
}}
'''
    wrong = set()
    for c in (text, text.replace('defined(__x86_64__)', '0')):
        with tempfile.TemporaryDirectory() as folder:
            path = pathlib.Path(folder)
            (path / 'words.c').write_text(c + main)
            subprocess.run([os.environ.get('CC', 'gcc'), '-std=c99', '-O1', '-w', 'words.c', '-o', 'words'], cwd=path, check=True)
            wrong |= {wanted[int(i)] for i in subprocess.run([path / 'words'], capture_output=True, text=True, check=True).stdout.split()}
    wrong |= {f'{word} stands in the C' for word in ('let_go', 'drop', 'never') if f't_{word}(' in text}
    for name in sorted(wrong):
        print(f'{name}: another answer')
    return len(cases) - len(wrong), len(wrong)


def call(name, *operands):
    return {'Call': [{'Fn': [f't::{name}', {'types': [], 'dicts': []}]}, list(operands), place(3)]}


def refused():
    """How many of the programs that must be refused are."""
    bad = {'an unknown operation': [assign(3, op2('Shr Signed', copy(1), copy(2)))],
           'an unknown statement': [{'Jump': 1}],
           'an unknown value': [assign(3, {'Blend': copy(1)})],
           'another signed comparison': [assign(3, op2('Le Signed', copy(1), copy(2)))],
           'a cast between signed numbers': [assign(3, op1({'Cast': ['Signed', 'Signed', 64]}, copy(1)))],
           'an array of another length': [assign(4, {'Aggregate': [copy(1)]})],
           'a recursion': [call('op_0', copy(1), copy(2))],
           'an unknown function': [call('gone', copy(1))],
           'a call at a type': [call_at('op_0', ['Bool'], [], [copy(1), copy(2)], 3)],
           'a call without its bound': [call_at('weigh', [number(32)], [], [copy(1)], 3)],
           'a bound by an unknown impl': [call_at('weigh', [number(32)], [by('t::Gone')], [copy(1)], 3)],
           'a bound that is none': [call_at('weigh', [number(32)], [{'Made': 1}], [copy(1)], 3)],
           'an unknown callee': [{'Call': [{'Table': 1}, [copy(1)], place(3)]}],
           'a constant of another length': [
               {'LendStatic': [place(5), {'Array': [number(32), {'Lit': 2}]}, {'Ints': {'width': 32, 'values': [1]}}]},
               assign(6, op2('Offset', copy(5), constant(64, 0))), assign(3, opd(field(6, {'Deref': number(32)})))],
           'a bare pointer to no known type': [call_at('same', ['Ptr'], [], [copy(6)], 6)]}
    passed = 0
    for name, body in bad.items():
        try:
            array = {'Array': [number(32), {'Lit': 2}]}
            types = [number(32)] * 4 + [array, {'Ref': ['Erased', 'Imm', array]}, 'Ptr']
            translated(library() + [function('op_0', types, 2, body + [assign(0, {'Opd': copy(3)})])])
            print(f'{name} is not refused')
        except Unknown:
            passed += 1
    return passed, len(bad) - passed


def main():
    good, bad = run_all([*operations(), *at_types()])
    also, worse = refused()
    print(f'{good + also} passed, {bad + worse} failed')
    sys.exit(bool(bad + worse))


if __name__ == '__main__':
    main()
