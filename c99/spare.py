"""Spares copies: the library's short functions become part of their callers, and a value that is only handed on keeps the place that it has.

`?`, `for` and conversions hand a value through several functions and locals, each of which would be a struct of its own on the stack. Here
  - a call of a function of the library whose body is a run of assignments becomes that run;
  - a call of `branch`, which sorts a value for `?` and is followed by a switch on its answer, becomes that switch on the value itself;
  - where all cases of a switch but one leave, that one stands behind the switch;
  - a local that takes over what another local holds, which is not read later, is that other local;
  - a part of a value that was just put together is what was put there.
Locals get other numbers, and nothing else is changed. mir2c.py --unfolded leaves this out as it does fold.py."""
import mir

LIBRARY = ('core::', 'std::')
TAG = [('variant', '0'), ('field', '0')]


def places(x):
    """The places that a node mentions, those inside its statements too."""
    if isinstance(x, tuple) and x and x[0] == 'place':
        yield x
    elif isinstance(x, (tuple, list)):
        for part in x:
            yield from places(part)


def mentions(x, local):
    return sum(1 for place in places(x) if place[1] == local)


def targets(body):
    """The places that statements write."""
    for x in body:
        match x:
            case ('assign', place, _) | ('call', _, _, place):
                yield place
        for inner in mir.inner_lists(x):
            yield from targets(inner)


def writes(body, local):
    return any(place[1] == local for place in targets(body))


def is_local(place):
    """Whether a place lies in a local, not behind a pointer."""
    return all(step[0] != 'deref' for step in place[2])


def with_lists(x, change):
    """A statement with its lists of statements changed."""
    match x:
        case ('if', a, then, otherwise):
            return ('if', a, change(then), change(otherwise))
        case ('block' | 'loop', inner):
            return (x[0], change(inner))
        case ('switch', a, arms, default):
            return ('switch', a, [(values, change(arm)) for values, arm in arms], default if default is None else change(default))
    return x


def renamed(x, base, steps, local):
    """A node with the place `steps` of the local `base` in the place of a local."""
    if isinstance(x, tuple) and x and x[0] == 'place':
        return ('place', base, steps + x[2]) if x[1] == local else x
    if isinstance(x, tuple):
        return tuple(renamed(part, base, steps, local) for part in x)
    return [renamed(part, base, steps, local) for part in x] if isinstance(x, list) else x


def leaves(body):
    """Whether control never comes to the end of statements."""
    match body[-1:]:
        case [('return',) | ('exit', _) | ('unreachable',)]:
            return True
        case [('if', _, then, otherwise)]:
            return leaves(then) and leaves(otherwise)
        case [('switch', _, arms, default)]:
            return all(leaves(arm) for _, arm in arms) and (default is None or leaves(default))
    return False


def flat(body):
    """Statements where what follows a switch that only one case comes to the end of has the statements of that case in front of it."""
    out = []
    for x in body:
        x = with_lists(x, flat)
        match x:
            case ('switch', a, arms, None):
                staying = [arm for _, arm in arms if not leaves(arm)]
                if len(staying) == 1 and len(arms) > 1:
                    out += [('switch', a, [(tags, arm) for tags, arm in arms if leaves(arm)], []), *staying[0]]
                    continue
        out.append(x)
    return out


class Sparing:
    def __init__(self, functions, name):
        self.functions, self.function = functions, functions[name]

    # calls of the library

    def straight(self, name):
        """Whether a call becomes what the function does: a run of assignments and calls, then the return."""
        callee = self.functions[name]
        return callee.symbol.startswith(LIBRARY) and callee.body[-1:] == [('return',)] and all(x[0] in ('assign', 'call') for x in callee.body[:-1])

    def sorts(self, name):
        """Whether a function switches on what its argument is, and answers what it puts together there."""
        callee = self.functions[name]
        match callee.body:
            case [('switch', ('copy', ('place', '1', steps)), arms, None), ('assign', ('place', '0', []), ('opd', ('copy', ('place', made, [])))), ('return',)]:
                return callee.symbol.endswith('Try::branch') and steps == TAG and callee.symbol.startswith(LIBRARY) and all(
                    all(x[0] == 'assign' for x in arm) and arm and arm[-1][1] == ('place', made, []) and arm[-1][2][0] == 'aggregate' for _, arm in arms)
        return False

    def moved_in(self, name, operands):
        """A function's locals become locals here: its body in these, behind what its parameters are set to, and the number that each of them has."""
        callee, f = self.functions[name], self.function
        first = len(f.locals)
        f.locals = f.locals + callee.locals
        f.slots = f.slots | {first + i for i in callee.slots}

        def shifted(x):
            if isinstance(x, tuple) and x and x[0] == 'place':
                return ('place', x[1] if x[1] == 'none' else str(first + int(x[1])), x[2])
            if isinstance(x, tuple):
                return tuple(map(shifted, x))
            return list(map(shifted, x)) if isinstance(x, list) else x

        given = [('assign', ('place', str(first + 1 + i), []), ('opd', operand)) for i, operand in enumerate(operands)]
        return given, shifted(callee.body), first

    def inlined(self, body):
        """Statements with the library's short functions in the place of their calls."""
        out = []
        while body:
            x, body = body[0], body[1:]
            if x[0] != 'call':
                out.append(with_lists(x, self.inlined))
            elif self.straight(x[1]):
                given, inner, first = self.moved_in(x[1], x[2])
                out += given + inner[:-1]
                if x[3][1] != 'none':
                    out.append(('assign', x[3], ('opd', ('copy', ('place', str(first), [])))))
            elif self.sorts(x[1]) and body and body[0][0] == 'switch' and body[0][1] in [(w, ('place', x[3][1], x[3][2] + TAG)) for w in ('copy', 'move')]:
                out += self.sorted_by(x, body[0])
                body = body[1:]
            else:
                out.append(x)
        return out

    def sorted_by(self, call, switch):
        """A switch on what `branch` answers as one on its argument. In each case the answer is a local of its own."""
        place, f = call[3], self.function
        if place[2] or mentions([call, switch], place[1]) != mentions(f.body, place[1]):
            return [call, switch]
        given, (inner, *_), _ = self.moved_in(call[1], call[2])
        arms = []
        for values, arm in inner[2]:
            answer = arm[-1][2]
            then = next((then for tags, then in switch[2] if answer[1][0][2] in tags), switch[3])
            local = str(len(f.locals))
            f.locals = f.locals + [f.locals[int(place[1])]]
            arms.append((values, arm[:-1] + [('assign', ('place', local, []), answer)] + self.inlined(renamed(then, local, [], place[1]))))
        return given + [('switch', inner[1], arms, None)]

    # values that are handed on

    def spared(self, body):
        """Statements with the first thing spared that can be."""
        for i, x in enumerate(body):
            rest = body[i + 1:]
            match x:
                case ('assign', ('place', local, []), ('opd', ('copy' | 'move', ('place', base, steps)))) if self.same(body, i, local, base, steps):
                    if int(local) in self.function.slots:
                        self.function.slots = self.function.slots | {int(base)}
                    return body[:i] + renamed(rest, base, steps, local)
                case ('assign', ('place', local, []), ('aggregate', operands)) if self.is_value(local) and not mentions(operands, local) \
                        and not writes(rest, local):
                    read = self.parts(rest, local, operands, rest)
                    if read != rest:
                        return body[:i + 1] + read
                case ('switch', ('int', _, n), arms, default):
                    return body[:i] + next((arm for tags, arm in arms if n in tags), default) + rest
                case ('if' | 'block' | 'loop' | 'switch', *_):
                    inner = with_lists(x, self.spared)
                    if inner != x:
                        return body[:i] + [inner] + rest
        return body

    def is_value(self, local):
        return local not in ('0', 'none') and int(local) not in self.function.slots

    def same(self, body, i, local, base, steps):
        """Whether a local that is set to a place of another one may be that place. All that mentions it comes behind, where the other one is not
        written; and where it is written itself, or lent, nothing mentions the other one any more."""
        f, rest = self.function, body[i + 1:]
        if local == base or local in ('0', 'none') or int(local) <= f.parameters or not self.is_value(base) or not is_local(('place', base, steps)):
            return False
        if 'tyPtr' in (f.locals[int(local)], f.locals[int(base)]) or mentions(rest, local) + 1 != mentions(f.body, local):
            return False
        if int(local) in f.slots or writes(rest, local):
            return f.locals[int(local)][0] in ('tyNamed', 'tyArray') and mentions(body[:i + 1], base) == mentions(f.body, base)
        return not writes(rest, base)

    def parts(self, x, local, operands, rest):
        """A node with what a value was put together of in the place of its parts."""
        match x:
            case ('copy' | 'move', ('place', base, [('field', k), *steps])) if base == local:
                return self.part(x, operands[int(k)], steps, rest)
            case ('copy' | 'move', ('place', base, [('variant', _), ('field', k), *steps])) if base == local and int(k) < len(operands):
                return self.part(x, operands[int(k)], steps, rest)
        if isinstance(x, tuple):
            return tuple(self.parts(part, local, operands, rest) for part in x)
        return [self.parts(part, local, operands, rest) for part in x] if isinstance(x, list) else x

    def part(self, x, operand, steps, rest):
        match operand:
            case ('copy' | 'move', ('place', base, more)):
                if self.is_value(base) and is_local(('place', base, more)) and not writes(rest, base):
                    return ('copy', ('place', base, more + steps))
            case ('int', *_) | 'true' | 'false' if not steps:
                return operand
        return x

    def spare(self):
        f = self.function
        f.body = flat(self.inlined(f.body))
        while True:
            body = self.spared(f.body)
            if body == f.body:
                return
            f.body = body


def spare(functions, order):
    """Spares in the functions, of which each stands behind those that it calls."""
    for name in order:
        Sparing(functions, name).spare()
