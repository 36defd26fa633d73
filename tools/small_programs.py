"""Random small programs, well typed, for `tools/differential`.

A body has fixed registers: v0 to v3 hold ints, v4 and v6 longs, v8 an object, v9 an `LA;`, v10 an array of ints, v11 counts
loops, and the parameters stand behind them. Helpers call only helpers behind them, so every run ends. What a body does is
seen by what it puts into the fields of the framework's class `LLog;`.
"""
from small_dex import Class, Insn, Method, Offset, Payload, Ref, places_of

STATIC, PUBLIC, ABSTRACT, INTERFACE = 8, 1, 0x400, 0x200
INTS, LONGS, OBJECT, OBJECT_A, ARRAY, COUNTER = [0, 1, 2, 3], [4, 6], 8, 9, 10, 11
FIRST_PARAMETER = 12
INT_OPS = ['add', 'sub', 'mul', 'div', 'rem', 'and', 'or', 'xor', 'shl', 'shr', 'ushr']
LITERAL_OPS = [('add', 0xd8), ('mul', 0xda), ('div', 0xdb), ('rem', 0xdc), ('and', 0xdd), ('or', 0xde), ('xor', 0xdf), ('shl', 0xe0), ('shr', 0xe1), ('ushr', 0xe2)]
TESTS = ['eq', 'ne', 'lt', 'ge', 'gt', 'le']
THROWN = ['Ljava/lang/ArithmeticException;', 'Ljava/lang/NullPointerException;', 'Ljava/lang/RuntimeException;',
          'Ljava/lang/ArrayIndexOutOfBoundsException;', None]


def op12(name, op, a, b):
    return Insn('%s v%d, v%d' % (name, a, b), op | a << 8 | b << 12)


def op11(name, op, a):
    return Insn('%s v%d' % (name, a), op | a << 8)


def op23(name, op, a, b, c):
    return Insn('%s v%d, v%d, v%d' % (name, a, b, c), op | a << 8, b | c << 8)


def op21(name, op, a, ref, shown):
    return Insn('%s v%d, %s' % (name, a, shown), op | a << 8, ref)


def op22(name, op, a, b, ref, shown):
    return Insn('%s v%d, v%d, %s' % (name, a, b, shown), op | a << 8 | b << 12, ref)


def const(to, value):
    if -8 <= value < 8:
        return Insn('const/4 v%d, %d' % (to, value), 0x12 | to << 8 | (value & 15) << 12)
    if -32768 <= value < 32768:
        return Insn('const/16 v%d, %d' % (to, value), 0x13 | to << 8, value)
    return Insn('const v%d, %d' % (to, value), 0x14 | to << 8, value, value >> 16)


def const_wide(to, value):
    return Insn('const-wide/16 v%d, %d' % (to, value), 0x16 | to << 8, value)


def goto(label):
    return Insn('goto/16 %s' % label, 0x29, Offset(label))


def if_zero(test, a, label):
    return Insn('if-%sz v%d, %s' % (test, a, label), 0x38 + TESTS.index(test) | a << 8, Offset(label))


def if_test(test, a, b, label):
    return Insn('if-%s v%d, v%d, %s' % (test, a, b, label), 0x32 + TESTS.index(test) | a << 8 | b << 12, Offset(label))


def invoke(kind, op, key, args):
    cls, name, result, params = key
    shown = 'invoke-%s {%s}, %s->%s(%s)%s' % (kind, ', '.join('v%d' % a for a in args), cls, name, ''.join(params), result)
    a = list(args) + [0] * (5 - len(args))
    return Insn(shown, op | a[4] << 8 | len(args) << 12, Ref('method', key), a[0] | a[1] << 4 | a[2] << 8 | a[3] << 12)


def static_field(name, op, a, key):
    return op21(name, op, a, Ref('field', key), '%s->%s:%s' % key)


def field(name, op, a, on, key):
    return op22(name, op, a, on, Ref('field', key), '%s->%s:%s' % key)


class Program:
    """What a random program has to call and to use."""

    def __init__(self, rng, version):
        self.rng, self.version, self.labels = rng, version, 0
        self.helpers, self.classes = [], []

    def label(self):
        self.labels += 1
        return 'L%d' % self.labels


class Body:
    """A body as it is made: statements one after another, with what they may still use."""

    def __init__(self, program, method, first_helper, calls_objects):
        self.p, self.rng, self.method = program, program.rng, method
        self.first_helper, self.calls_objects = first_helper, calls_objects
        self.code, self.tail, self.tries = [], [], []
        self.loops, self.covers = 0, 0

    def add(self, *items):
        self.code += items

    # what a single statement does

    def int_op(self):
        r = self.rng
        to, first, second = r.choice(INTS), r.choice(INTS), r.choice(INTS)
        pick = r.random()
        if pick < 0.4:
            name, op = r.choice(LITERAL_OPS)
            value = r.choice([0, 1, 2, -1, 7, 31, -128, 127])
            self.add(Insn('%s-int/lit8 v%d, v%d, %d' % (name, to, first, value), op | to << 8, first | (value & 0xff) << 8))
        elif pick < 0.7:
            op = r.randrange(11)
            self.add(op12(INT_OPS[op] + '-int/2addr', 0xb0 + op, to, first))
        else:
            op = r.randrange(11)
            self.add(op23(INT_OPS[op] + '-int', 0x90 + op, to, first, second))

    def long_op(self):
        r, op = self.rng, self.rng.randrange(8)
        pick = r.randrange(4)
        if pick == 0:
            self.add(op23(INT_OPS[op] + '-long', 0x9b + op, r.choice(LONGS), r.choice(LONGS), r.choice(LONGS)))
        elif pick == 1:
            self.add(op12('int-to-long', 0x81, r.choice(LONGS), r.choice(INTS)))
        elif pick == 2:
            self.add(op12('long-to-int', 0x84, r.choice(INTS), r.choice(LONGS)))
        else:
            self.add(op23('cmp-long', 0x31, r.choice(INTS), r.choice(LONGS), r.choice(LONGS)))

    def unary(self):
        name, op = self.rng.choice([('neg-int', 0x7b), ('not-int', 0x7c), ('int-to-byte', 0x8d), ('int-to-char', 0x8e), ('int-to-short', 0x8f)])
        self.add(op12(name, op, self.rng.choice(INTS), self.rng.choice(INTS)))

    def move(self):
        r = self.rng
        pick = r.randrange(6)
        if pick < 3:
            self.add(op12('move', 0x01, r.choice(INTS), r.choice(INTS)))
        elif pick == 3:
            self.add(op12('move-wide', 0x04, r.choice(LONGS), r.choice(LONGS)))
        elif pick == 4:
            self.add(op12('move-object', 0x07, OBJECT, OBJECT_A))
        else:
            self.add(Insn('nop', 0))

    def constant(self):
        r = self.rng
        if r.random() < 0.7:
            self.add(const(r.choice(INTS), r.choice([0, 1, 2, 3, -1, 5, 8, 100, 70000])))
        else:
            self.add(const_wide(r.choice(LONGS), r.choice([0, 1, -1, 1000])))

    def log(self):
        r = self.rng
        pick = r.randrange(5)
        if pick < 3:
            self.add(static_field('sput', 0x67, r.choice(INTS), ('LLog;', 'i', 'I')))
        elif pick == 3:
            self.add(static_field('sput-wide', 0x68, r.choice(LONGS), ('LLog;', 'j', 'J')))
        else:
            self.add(static_field('sput-object', 0x69, r.choice([OBJECT, OBJECT_A]), ('LLog;', 'o', 'Ljava/lang/Object;')))

    def ask(self):
        r = self.rng
        if r.random() < 0.5:
            self.add(invoke('static', 0x71, ('LLog;', 'ask', 'I', ('I',)), [r.choice(INTS)]), op11('move-result', 0x0a, r.choice(INTS)))
        else:
            self.add(static_field('sget', 0x60, r.choice(INTS), ('LLog;', 'r', 'I')))

    def own_static(self):
        r = self.rng
        key = (r.choice(['LA;', 'LB;', 'LMain;']), r.choice(['s', 't']), 'I')
        name, op = r.choice([('sget', 0x60), ('sput', 0x67)])
        self.add(static_field(name, op, r.choice(INTS), key))

    def own_field(self):
        r = self.rng
        if r.random() < 0.7:
            name, op = r.choice([('iget', 0x52), ('iput', 0x59)])
            self.add(field(name, op, r.choice(INTS), OBJECT_A, ('LA;', r.choice(['x', 'y']), 'I')))
        else:
            name, op = r.choice([('iget-wide', 0x53), ('iput-wide', 0x5a)])
            self.add(field(name, op, r.choice(LONGS), OBJECT_A, ('LA;', 'w', 'J')))

    def make(self):
        cls = self.rng.choice(['LA;', 'LB;'])
        self.add(op21('new-instance', 0x22, OBJECT, Ref('type', cls), cls), invoke('direct', 0x70, (cls, '<init>', 'V', ()), [OBJECT]),
                 op12('move-object', 0x07, OBJECT_A, OBJECT))

    def null(self):
        self.add(const(self.rng.choice([OBJECT_A, OBJECT, ARRAY]), 0))

    def array(self):
        r = self.rng
        pick = r.randrange(4)
        if pick == 0:
            self.add(const(r.choice(INTS), r.choice([0, 1, 3])))
            self.add(op22('new-array', 0x23, ARRAY, self.code[-1].units[0] >> 8 & 15, Ref('type', '[I'), '[I'))
        elif pick == 1:
            self.add(op12('array-length', 0x21, r.choice(INTS), ARRAY))
        else:
            name, op = r.choice([('aget', 0x44), ('aput', 0x4b)])
            self.add(op23(name, op, r.choice(INTS), ARRAY, r.choice(INTS)))

    def test_type(self):
        r = self.rng
        cls = r.choice(['LA;', 'LB;', 'LI;'])
        self.add(op22('instance-of', 0x20, r.choice(INTS), r.choice([OBJECT, OBJECT_A]), Ref('type', cls), cls))
        if r.random() < 0.3:
            self.add(op21('check-cast', 0x1f, OBJECT_A, Ref('type', 'LA;'), 'LA;'))

    def take_int(self):
        if self.rng.random() < 0.7:
            self.add(op11('move-result', 0x0a, self.rng.choice(INTS)))

    def call(self):
        r = self.rng
        helpers = self.p.helpers[self.first_helper:]
        if helpers and (not self.calls_objects or r.random() < 0.5):
            key = r.choice(helpers)
            self.add(invoke('static', 0x71, key, self.arguments(key[3])))
            if key[2] == 'I':
                self.take_int()
            elif key[2] == 'J' and r.random() < 0.7:
                self.add(op11('move-result-wide', 0x0b, r.choice(LONGS)))
        elif self.calls_objects:
            self.call_object()

    def call_object(self):
        r = self.rng
        kind, op, cls, name = r.choice([('virtual', 0x6e, 'LA;', 'm'), ('virtual', 0x6e, 'LA;', 'n'), ('interface', 0x72, 'LI;', 'm')]
                                       + ([('interface', 0x72, 'LI;', 'd')] if self.p.version == b'037' else []))
        self.add(invoke(kind, op, (cls, name, 'I', ('I',)), [OBJECT_A, r.choice(INTS)]))
        self.take_int()

    def arguments(self, params):
        out = []
        for kind in params:
            if kind == 'J':
                low = self.rng.choice(LONGS)
                out += [low, low + 1]
            else:
                out.append(OBJECT_A if kind == 'LA;' else self.rng.choice(INTS))
        return out

    # statements that have others in them

    def branch(self, depth):
        r = self.rng
        other, end = self.p.label(), self.p.label()
        if r.random() < 0.6:
            self.add(if_zero(r.choice(TESTS), r.choice(INTS), other))
        elif r.random() < 0.8:
            self.add(if_test(r.choice(TESTS), r.choice(INTS), r.choice(INTS), other))
        else:
            self.add(if_zero(r.choice(['eq', 'ne']), r.choice([OBJECT, OBJECT_A]), other))
        self.some(depth - 1)
        if r.random() < 0.6:
            self.add(goto(end), other)
            self.some(depth - 1)
            self.add(end)
        else:
            self.add(other)

    def loop(self, depth):
        if self.loops:
            return self.branch(depth)
        self.loops += 1
        head = self.p.label()
        self.add(const(COUNTER, self.rng.choice([1, 2, 3])), head)
        self.some(depth - 1)
        self.add(Insn('add-int/lit8 v11, v11, -1', 0xd8 | COUNTER << 8, COUNTER | 0xff00), if_zero('gt', COUNTER, head))
        self.loops -= 1

    def switch(self, depth):
        r = self.rng
        at, end, data = self.p.label(), self.p.label(), self.p.label()
        packed, on = r.random() < 0.5, r.choice(INTS)
        first = r.choice([-1, 0, 1])
        keys = list(range(first, first + r.choice([1, 2, 3]))) if packed else sorted(r.sample([-5, 0, 1, 2, 9], 2))
        cases = [(key, self.p.label()) for key in keys]
        name, op = ('packed-switch', 0x2b) if packed else ('sparse-switch', 0x2c)
        self.add(at, Insn('%s v%d, %s' % (name, on, data), op | on << 8, Offset(data, True)))
        self.tail.append((data, Payload(at, cases, packed)))
        self.some(depth - 1)
        for _, label in cases:
            if r.random() < 0.6:
                self.add(goto(end))
            self.add(label)
            self.some(depth - 1)
        self.add(end)

    def cover(self, depth):
        if self.covers:
            return self.branch(depth)
        self.covers += 1
        r, first, after, end = self.rng, self.p.label(), self.p.label(), self.p.label()
        self.add(first)
        self.some(depth - 1)
        self.add(Insn('nop', 0), after, goto(end))
        self.covers -= 1
        kinds = [r.choice(THROWN)] if r.random() < 0.6 else [r.choice(THROWN[:4]), None]
        for kind in kinds:
            handler = self.p.label()
            self.add(handler, op11('move-exception', 0x0d, OBJECT))
            if r.random() < 0.6:
                self.add(static_field('sput-object', 0x69, OBJECT, ('LLog;', 'o', 'Ljava/lang/Object;')))
            self.some(depth - 1)
            self.add(goto(end))
            self.tries.append((first, after, kind, handler))
        self.add(end)

    def leave(self):
        """A return behind a test."""
        past = self.p.label()
        self.add(if_zero(self.rng.choice(TESTS), self.rng.choice(INTS), past))
        self.give()
        self.add(past)

    def fail(self):
        """A throw behind a test."""
        past, kind = self.p.label(), 'Ljava/lang/RuntimeException;'
        self.add(if_zero(self.rng.choice(TESTS), self.rng.choice(INTS), past), op21('new-instance', 0x22, OBJECT, Ref('type', kind), kind),
                 invoke('direct', 0x70, (kind, '<init>', 'V', ()), [OBJECT]), op11('throw', 0x27, OBJECT), past)

    def some(self, depth):
        for _ in range(self.rng.choice([1, 1, 2, 3])):
            self.one(depth)

    def one(self, depth):
        r = self.rng
        if depth > 0 and r.random() < 0.3:
            return r.choice([self.branch, self.branch, self.loop, self.switch, self.cover])(depth)
        r.choice([self.int_op] * 4 + [self.long_op, self.unary, self.move, self.move, self.move, self.constant, self.constant, self.constant, self.log, self.log,
                  self.own_static, self.own_field, self.make, self.null, self.array, self.test_type, self.call, self.call, self.ask, self.leave, self.fail])()

    def give(self):
        result = self.method.result
        if result == 'V':
            self.add(Insn('return-void', 0x0e))
        elif result == 'J':
            self.add(op11('return-wide', 0x10, self.rng.choice(LONGS)))
        elif result == 'I':
            self.add(op11('return', 0x0f, self.rng.choice(INTS)))
        else:
            self.add(op11('return-object', 0x11, OBJECT_A))

    # the whole

    def begin(self):
        r = self.rng
        for v in INTS:
            self.add(const(v, r.choice([0, 1, 2, -1, 10])))
        for v in LONGS:
            self.add(const_wide(v, r.choice([0, 1, 5])))
        self.add(const(OBJECT, 0), const(OBJECT_A, 0), const(ARRAY, 0))
        at = FIRST_PARAMETER
        if not self.method.flags & STATIC:
            self.add(op12('move-object', 0x07, OBJECT_A, at))
            at += 1
        for kind in self.method.params:
            if kind == 'J':
                self.add(op12('move-wide', 0x04, r.choice(LONGS), at))
            elif kind == 'LA;':
                self.add(op12('move-object', 0x07, OBJECT_A, at))
            else:
                self.add(op12('move', 0x01, r.choice(INTS), at))
            at += 2 if kind == 'J' else 1

    def finish(self):
        self.give()
        for label, payload in self.tail:
            self.add(label, payload)
        self.method.code, self.method.tries = self.code, self.tries
        self.method.registers = FIRST_PARAMETER + self.method.words()
        return self.method


def align_payloads(method):
    """A payload's label stands behind the nop that may come in front of it."""
    code = []
    for item in method.code:
        if isinstance(item, Payload):
            _, _, at = places_of(code)
            if at % 2:
                code.insert(len(code) - 1, Insn('nop', 0))
        code.append(item)
    method.code = code


def filled(program, method, first_helper, calls_objects, statements, depth):
    body = Body(program, method, first_helper, calls_objects)
    body.begin()
    for _ in range(statements):
        body.one(depth)
    body.log()
    body.finish()
    align_payloads(method)
    return method


def constructor(cls, superclass):
    return Method(cls, '<init>', 'V', (), PUBLIC, 1, [invoke('direct', 0x70, (superclass, '<init>', 'V', ()), [0]), Insn('return-void', 0x0e)])


def initialiser(program, cls):
    """A `<clinit>` that says that it runs."""
    r = program.rng
    code = [const(0, r.choice([0, 3, 5])), static_field('sput', 0x67, 0, (cls, 's', 'I'))]
    if r.random() < 0.7:
        code.append(static_field('sput', 0x67, 0, ('LLog;', 'i', 'I')))
    return Method(cls, '<clinit>', 'V', (), STATIC, 1, code + [Insn('return-void', 0x0e)])


def some_class(program, cls, superclass, interfaces, first_helper, size):
    r = program.rng
    made = Class(cls, superclass, interfaces)
    made.fields = [('s', 'I', STATIC | PUBLIC), ('t', 'I', STATIC | PUBLIC)]
    if cls == 'LA;':
        made.fields += [('x', 'I', PUBLIC), ('y', 'I', PUBLIC), ('w', 'J', PUBLIC)]
    made.methods = [constructor(cls, superclass)]
    if r.random() < 0.4:
        made.methods.append(initialiser(program, cls))
    for name in ['m', 'n']:
        if cls == 'LA;' or r.random() < 0.5:
            made.methods.append(filled(program, Method(cls, name, 'I', ('I',), PUBLIC), first_helper, False, r.choice([1, 2, 3]), size))
    return made


def interface(program):
    made = Class('LI;', flags=PUBLIC | INTERFACE | ABSTRACT)
    made.methods = [Method('LI;', 'm', 'I', ('I',), PUBLIC | ABSTRACT)]
    if program.version == b'037':
        code = [Insn('add-int/lit8 v0, v2, 4', 0xd8, 2 | 4 << 8), op11('return', 0x0f, 0)]
        made.methods.append(Method('LI;', 'd', 'I', ('I',), PUBLIC, 3, code))
    return made


def random_program(rng):
    """The classes of a random program, and the version of its file."""
    program = Program(rng, rng.choice([b'035', b'037']))
    kinds = [('I', 'I'), ('I',), ('J', 'I'), ('LA;', 'I'), (), ('LA;',)]
    program.helpers = [('LMain;', 'h%d' % n, rng.choice(['I', 'I', 'J', 'V']), rng.choice(kinds)) for n in range(rng.choice([1, 2, 3, 4]))]
    main = Class('LMain;')
    main.fields = [('s', 'I', STATIC | PUBLIC), ('t', 'I', STATIC | PUBLIC)]
    depth = rng.choice([1, 2, 2, 3])
    half = len(program.helpers) // 2
    for n, key in enumerate(program.helpers):
        method = Method(*key, STATIC | PUBLIC)
        main.methods.append(filled(program, method, n + 1, n < half, rng.choice([1, 2, 4]), depth))
    for n in range(rng.choice([1, 2])):
        method = Method('LMain;', 'run%d' % n, rng.choice(['I', 'J', 'V', 'LA;']), rng.choice([('I', 'I'), ('I', 'J'), ('LA;', 'I')]), STATIC | PUBLIC)
        main.methods.append(filled(program, method, 0, True, rng.choice([2, 4, 6]), depth))
    a = some_class(program, 'LA;', 'Ljava/lang/Object;', ['LI;'], half, depth)
    b = some_class(program, 'LB;', 'LA;', [], half, depth)
    return [interface(program), a, b, main], program.version
