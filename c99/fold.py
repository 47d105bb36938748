"""Puts a value into the one statement that reads it, so that `a = i * 2; p = s offset a; v = *p` becomes one expression.

The MIR names every intermediate value by a local. A local that is assigned once for one reading is replaced, in that reading, by what it
was assigned: ('value', what, its type). Between the two nothing may write what it reads, and nobody may read the local afterwards.
Dead values are left out. This is all that is changed in a function; without it the C has one statement for each of the MIR."""
from mir import inner_lists


def places(x):
    """The places that a node mentions."""
    if isinstance(x, tuple) and x and x[0] == 'place':
        yield x
        if not isinstance(x[1], str):
            yield from places(x[1])
    elif isinstance(x, (tuple, list)):
        for part in x:
            yield from places(part)


def in_memory(place):
    """Whether a place lies behind a pointer."""
    return any(step[0] == 'deref' for step in place[2])


def target(statement):
    """The place that a statement writes, or None."""
    return {'assign': 1, 'call': 3}.get(statement[0]) and statement[1 if statement[0] == 'assign' else 3]


def now_read(statement):
    """The parts of a statement that are read before anything inside it runs."""
    match statement:
        case ('assign', place, value):
            return [value] + ([place] if place[2] else [])
        case ('call', _, operands, place):
            return [operands] + ([place] if place[2] else [])
        case ('if' | 'switch', operand, *_):
            return [operand]
    return []


def read_locals(x):
    return [place[1] for place in places(x) if isinstance(place[1], str)]


def killed(statement):
    """The local that a statement writes whole."""
    place = target(statement)
    return {place[1]} if place and not place[2] else set()


def before(body, after, exits):
    """The locals whose value is read after the beginning of statements. after: those read after their end; exits: those read after
    an exit to the blocks and loops around, innermost last."""
    for statement in reversed(body):
        after = before_one(statement, after, exits)
    return after


def before_one(statement, after, exits):
    match statement:
        case ('return',):
            return {'0'}
        case ('exit', n):
            return exits[-1 - int(n)]
        case ('block', body):
            return before(body, after, exits + [after])
        case ('loop', body):
            return loop_head(body, exits)
    inner = inner_lists(statement)
    out = set().union(*(before(body, after, exits) for body in inner)) if inner else after - killed(statement)
    return out | set(read_locals(now_read(statement)))


def loop_head(body, exits):
    """The locals read after the beginning of a turn."""
    head = set()
    while True:
        more = before(body, head, exits + [head])
        if more <= head:
            return head
        head = head | more


class Folding:
    def __init__(self, function):
        self.types, self.slots = function.locals, {str(i) for i in function.slots}

    def body(self, body, after, exits):
        body = self.level(body, after, exits)
        out = []
        for i, statement in enumerate(body):
            out.append(self.inside(statement, before(body[i + 1:], after, exits), exits))
        return out

    def inside(self, statement, after, exits):
        match statement:
            case ('block', body):
                return ('block', self.body(body, after, exits + [after]))
            case ('loop', body):
                head = loop_head(body, exits)
                return ('loop', self.body(body, head, exits + [head]))
            case ('if', operand, then, otherwise):
                return ('if', operand, self.body(then, after, exits), self.body(otherwise, after, exits))
            case ('switch', operand, arms, default):
                arms = [(values, self.body(arm, after, exits)) for values, arm in arms]
                return ('switch', operand, arms, default if default is None else self.body(default, after, exits))
        return statement

    def level(self, body, after, exits):
        """One list of statements, until nothing more can be put elsewhere."""
        while True:
            for i in range(len(body)):
                changed = self.without(body, i, after, exits)
                if changed is not None:
                    body = changed
                    break
            else:
                return body

    def without(self, body, i, after, exits):
        """The list without the assignment or the call's local at i, or None where it must stay."""
        kill = killed(body[i]) - self.slots
        if not kill:
            return None
        local, = kill
        if local not in before(body[i + 1:], after, exits):
            return self.unread(body, i)
        for j in range(i + 1, len(body)):
            reads = read_locals(now_read(body[j])).count(local)
            if reads or local in killed(body[j]):
                break
            if body[j][0] not in ('assign', 'call') or self.disturbs(body[j], body[i]):
                return None
        else:
            return None
        inner = inner_lists(body[j])
        later = [before(part + body[j + 1:], after, exits) for part in inner or [[]]]
        place = target(body[j])
        if place and place[1] == local and place[2] and not in_memory(place):
            return None                                 # a field of the local is written
        if reads != 1 or any(local in live - killed(body[j]) for live in later):
            return None
        if body[i][0] == 'call':
            return self.call_into(body, i, j, local)
        value = ('value', body[i][2], self.types[int(local)])
        return body[:i] + body[i + 1:j] + [self.put(body[j], local, value)] + body[j + 1:]

    def unread(self, body, i):
        """Nobody reads what the statement at i writes."""
        if body[i][0] == 'assign':
            return body[:i] + body[i + 1:]
        if body[i][3] == ('place', 'none', []):
            return None
        return body[:i] + [body[i][:3] + (('place', 'none', []),)] + body[i + 1:]

    def call_into(self, body, i, j, local):
        """A call whose result is only copied to another local writes that local itself."""
        if j != i + 1 or body[j][0] != 'assign' or body[j][1][2] or body[j][2] != ('opd', ('copy', ('place', local, []))):
            return None
        return body[:i] + [body[i][:3] + (body[j][1],)] + body[j + 1:]

    def disturbs(self, statement, assignment):
        """Whether a statement writes something that an assignment's value reads."""
        if assignment[0] != 'assign':
            return True
        value, place = assignment[2], target(statement)
        memory = any(map(self.lies_in_memory, places(value)))
        writes_memory = statement[0] == 'call' or self.lies_in_memory(place)
        return place[1] in read_locals(value) or (memory and writes_memory)

    def lies_in_memory(self, place):
        return in_memory(place) or isinstance(place[1], str) and place[1] in self.slots

    def put(self, statement, local, value):
        match statement:
            case ('assign', place, source):
                return ('assign', self.within(place, local, value) if place[2] else place, self.within(source, local, value))
            case ('call', callee, operands, place):
                return ('call', callee, self.within(operands, local, value), self.within(place, local, value) if place[2] else place)
        return (statement[0], self.within(statement[1], local, value)) + statement[2:]

    def within(self, x, local, value):
        match x:
            case ('copy' | 'move', ('place', base, [])) if base == local:
                return value
            case ('place', base, steps) if base == local:
                return ('place', value, steps)
        if isinstance(x, tuple):
            return tuple(self.within(part, local, value) for part in x)
        if isinstance(x, list):
            return [self.within(part, local, value) for part in x]
        return x


def fold(function):
    """The body of a function with values in the place of locals that name them once."""
    return Folding(function).body(function.body, set(), [])
