"""Small DEX files made from classes, fields and methods (Dalvik executable format), for `tools/differential`.

A method's code is a list of instructions and labels. An instruction is `Insn(text, units, target)`: the text that a reader
sees, the 16-bit units with indices of tables as `Ref` items, and for a branch the label and how its offset is written.
"""
import hashlib
import struct
import zlib


class Ref:
    """An index of a table as one unit: kind is string, type, field or method."""

    def __init__(self, kind, key):
        self.kind, self.key = kind, key


class Offset:
    """The offset to a label, from the instruction that it stands in, in one unit, or in two with the low one first."""

    def __init__(self, label, wide=False):
        self.label, self.wide = label, wide


class Insn:
    def __init__(self, text, *units):
        self.text, self.units = text, units

    def size(self):
        return sum(2 if isinstance(u, Offset) and u.wide else 1 for u in self.units)


class Payload:
    """The data of a switch: for each key the label where it goes on. `base` names the switch's own label."""

    def __init__(self, base, cases, packed):
        self.base, self.cases, self.packed = base, cases, packed

    def size(self):
        return 4 + 2 * len(self.cases) if self.packed else 2 + 4 * len(self.cases)


class Method:
    def __init__(self, cls, name, result, params, flags, registers=0, code=None, tries=()):
        self.cls, self.name, self.result, self.params, self.flags = cls, name, result, tuple(params), flags
        self.registers, self.code, self.tries = registers, code, list(tries)

    def key(self):
        return (self.cls, self.name, self.result, self.params)

    def words(self):
        words = sum(2 if p in 'JD' else 1 for p in self.params)
        return words + (0 if self.flags & 8 else 1)


class Class:
    def __init__(self, name, superclass='Ljava/lang/Object;', interfaces=(), flags=1):
        self.name, self.superclass, self.interfaces, self.flags = name, superclass, list(interfaces), flags
        self.fields, self.methods = [], []


def uleb(n):
    out = bytearray()
    while True:
        low, n = n & 0x7f, n >> 7
        out.append(low | (0x80 if n else 0))
        if not n:
            return bytes(out)


def sleb(n):
    out = bytearray()
    while True:
        low, n = n & 0x7f, n >> 7
        done = (n == 0 and not low & 0x40) or (n == -1 and low & 0x40)
        out.append(low | (0 if done else 0x80))
        if done:
            return bytes(out)


def shorty(result, params):
    return ''.join('L' if t[0] in 'L[' else t for t in (result,) + tuple(params))


def text_of(method):
    lines = ['    .registers %d' % method.registers]
    for item in method.code:
        if isinstance(item, str):
            lines.append('  %s:' % item)
        elif isinstance(item, Payload):
            lines.append('    payload ' + ', '.join('%d -> %s' % c for c in item.cases))
        else:
            lines.append('    ' + item.text)
    for first, end, kind, handler in method.tries:
        lines.append('    .catch %s {%s .. %s} %s' % (kind or 'all', first, end, handler))
    return '\n'.join(lines)


def show(classes):
    """The program as text."""
    out = []
    for c in classes:
        head = '.class %x %s : %s' % (c.flags, c.name, c.superclass)
        out.append(head + ''.join(' ' + i for i in c.interfaces))
        out += ['  .field %x %s %s' % (flags, name, kind) for name, kind, flags in c.fields]
        for m in c.methods:
            out.append('  .method %x %s(%s)%s' % (m.flags, m.name, ''.join(m.params), m.result))
            if m.code is not None:
                out.append(text_of(m))
    return '\n'.join(out) + '\n'


class Pools:
    """The tables of a file, sorted, with the index of each entry."""

    def __init__(self, classes):
        self.used = {'string': set(), 'type': set(), 'proto': set(), 'field': set(), 'method': set()}
        for c in classes:
            for t in [c.name, c.superclass] + c.interfaces:
                self.used['type'].add(t)
            for name, kind, _ in c.fields:
                self.used['field'].add((c.name, name, kind))
            for m in c.methods:
                self.used['method'].add(m.key())
                self.add_code(m)
        self.close()

    def add_code(self, method):
        for item in method.code or []:
            for unit in getattr(item, 'units', ()):
                if isinstance(unit, Ref):
                    self.used[unit.kind].add(unit.key)
        for _, _, kind, _ in method.tries:
            if kind:
                self.used['type'].add(kind)

    def close(self):
        used = self.used
        for cls, name, kind in used['field']:
            used['type'] |= {cls, kind}
            used['string'].add(name)
        for cls, name, result, params in used['method']:
            used['type'].add(cls)
            used['string'].add(name)
            used['proto'].add((result, params))
        for result, params in used['proto']:
            used['type'] |= {result, *params}
            used['string'].add(shorty(result, params))
        used['string'] |= used['type']
        self.strings = sorted(used['string'])
        self.string = {s: i for i, s in enumerate(self.strings)}
        self.types = sorted(used['type'], key=self.string.get)
        self.type = {t: i for i, t in enumerate(self.types)}
        by_types = lambda ts: [self.type[t] for t in ts]
        self.protos = sorted(used['proto'], key=lambda p: (self.type[p[0]], by_types(p[1])))
        self.proto = {p: i for i, p in enumerate(self.protos)}
        self.fields = sorted(used['field'], key=lambda f: (self.type[f[0]], self.string[f[1]], self.type[f[2]]))
        self.field = {f: i for i, f in enumerate(self.fields)}
        self.methods = sorted(used['method'], key=lambda m: (self.type[m[0]], self.string[m[1]], self.proto[m[2], m[3]]))
        self.method = {m: i for i, m in enumerate(self.methods)}

    def index(self, ref):
        return getattr(self, ref.kind)[ref.key]


def places_of(code):
    """The unit at which each label stands, and each item begins. Payloads lie at even units."""
    labels, at, starts = {}, 0, []
    for item in code:
        if isinstance(item, str):
            labels[item] = at
            starts.append(at)
            continue
        if isinstance(item, Payload):
            at += at % 2
        starts.append(at)
        at += item.size()
    return labels, starts, at


def payload_units(item, labels):
    base = labels[item.base]
    keys = [k for k, _ in item.cases]
    offsets = [labels[l] - base for _, l in item.cases]
    if item.packed:
        data = struct.pack('<HHi', 0x100, len(keys), keys[0]) + struct.pack('<%di' % len(keys), *offsets)
    else:
        data = struct.pack('<HH', 0x200, len(keys)) + struct.pack('<%di' % (2 * len(keys)), *keys, *offsets)
    return list(struct.unpack('<%dH' % (len(data) // 2), data))


def units_of(method, pools):
    labels, starts, _ = places_of(method.code)
    units = []
    for item, start in zip(method.code, starts):
        if isinstance(item, str):
            continue
        units += [0] * (start - len(units))
        if isinstance(item, Payload):
            units += payload_units(item, labels)
            continue
        for unit in item.units:
            if isinstance(unit, Ref):
                units.append(pools.index(unit))
            elif isinstance(unit, Offset):
                distance = labels[unit.label] - start
                units += [distance & 0xffff] + ([distance >> 16 & 0xffff] if unit.wide else [])
            else:
                units.append(unit & 0xffff)
    return units, labels


def outs_of(method):
    most = 0
    for item in method.code:
        if isinstance(item, Insn) and item.text.startswith('invoke'):
            most = max(most, item.text.split('{')[1].split('}')[0].count('v'))
    return most


def code_item(method, pools):
    units, labels = units_of(method, pools)
    tries = sorted(((labels[f], labels[e], k, labels[h]) for f, e, k, h in method.tries), key=lambda t: t[:2])
    groups = []
    for first, end, kind, handler in tries:
        if groups and groups[-1][:2] == (first, end):
            groups[-1][2].append((kind, handler))
        else:
            groups.append((first, end, [(kind, handler)]))
    out = struct.pack('<HHHHII', method.registers, method.words(), outs_of(method), len(groups), 0, len(units))
    out += struct.pack('<%dH' % len(units), *units)
    if not groups:
        return out
    out += b'\0\0' if len(units) % 2 else b''
    lists = {tuple(catches): None for _, _, catches in groups}
    handlers, heads = uleb(len(lists)), b''
    for catches in lists:
        lists[catches] = len(handlers)
        typed = [(k, h) for k, h in catches if k]
        rest = [h for k, h in catches if not k]
        handlers += sleb(-len(typed) if rest else len(typed))
        for kind, handler in typed:
            handlers += uleb(pools.type[kind]) + uleb(handler)
        handlers += uleb(rest[0]) if rest else b''
    for first, end, catches in groups:
        heads += struct.pack('<IHH', first, end - first, lists[tuple(catches)])
    return out + heads + handlers


class Writer:
    """The bytes of a file behind its tables, with the map of what lies where."""

    def __init__(self, base):
        self.base, self.data, self.map = base, bytearray(), []

    def align(self, n):
        self.data += b'\0' * (-(self.base + len(self.data)) % n)

    def add(self, kind, items, align=1):
        """Adds items of a kind, and answers their offsets."""
        offsets = []
        for item in items:
            self.align(align)
            offsets.append(self.base + len(self.data))
            self.data += item
        if offsets:
            self.map.append((kind, len(offsets), offsets[0]))
        return offsets


def class_data(cls, pools, code):
    statics = sorted(pools.field[cls.name, n, k] for n, k, f in cls.fields if f & 8)
    others = sorted(pools.field[cls.name, n, k] for n, k, f in cls.fields if not f & 8)
    flags_of = {pools.field[cls.name, n, k]: f for n, k, f in cls.fields}
    direct = [m for m in cls.methods if m.flags & (8 | 2) or m.name[0] == '<']
    virtual = [m for m in cls.methods if m not in direct]
    out = uleb(len(statics)) + uleb(len(others)) + uleb(len(direct)) + uleb(len(virtual))
    for numbers in (statics, others):
        last = 0
        for n in numbers:
            out += uleb(n - last) + uleb(flags_of[n])
            last = n
    for methods in (direct, virtual):
        last = 0
        for m in sorted(methods, key=lambda m: pools.method[m.key()]):
            n = pools.method[m.key()]
            out += uleb(n - last) + uleb(m.flags | (0x10000 if m.name[0] == '<' else 0)) + uleb(code.get(n, 0))
            last = n
    return out


def in_order(classes):
    """Superclasses and interfaces before what stands under them."""
    by_name, done = {c.name: c for c in classes}, []

    def visit(c):
        if c in done:
            return
        for t in [c.superclass] + c.interfaces:
            if t in by_name:
                visit(by_name[t])
        done.append(c)
    for c in classes:
        visit(c)
    return done


def write(classes, version=b'035'):
    """The bytes of the file."""
    classes = in_order(classes)
    pools = Pools(classes)
    sizes = [len(pools.strings), len(pools.types), len(pools.protos), len(pools.fields), len(pools.methods), len(classes)]
    widths = [4, 4, 12, 8, 8, 32]
    tables, at = [], 0x70
    for size, width in zip(sizes, widths):
        tables.append(at if size else 0)
        at += size * width
    w = Writer(at)
    lists = sorted({p for _, p in pools.protos if p} | {tuple(c.interfaces) for c in classes if c.interfaces})
    list_items = [struct.pack('<I%dH' % len(l), len(l), *(pools.type[t] for t in l)) for l in lists]
    bodies = [m for c in classes for m in c.methods if m.code is not None]
    code = dict(zip((pools.method[m.key()] for m in bodies), w.add(0x2001, [code_item(m, pools) for m in bodies], 4)))
    list_at = dict(zip(lists, w.add(0x1001, list_items, 4)))
    texts = [uleb(len(s)) + s.encode() + b'\0' for s in pools.strings]
    text_at = w.add(0x2002, texts)
    data_at = w.add(0x2000, [class_data(c, pools, code) for c in classes])
    w.align(4)
    map_at = w.base + len(w.data)
    table_kinds = [(kind, size, at) for kind, size, at in zip(range(1, 7), sizes, tables) if size]
    entries = [(0, 1, 0)] + table_kinds + w.map + [(0x1000, 1, map_at)]
    w.data += struct.pack('<I', len(entries)) + b''.join(struct.pack('<HHII', k, 0, n, o) for k, n, o in entries)
    head = b''.join(struct.pack('<I', o) for o in text_at)
    head += b''.join(struct.pack('<I', pools.string[t]) for t in pools.types)
    for result, params in pools.protos:
        head += struct.pack('<III', pools.string[shorty(result, params)], pools.type[result], list_at.get(params, 0))
    head += b''.join(struct.pack('<HHI', pools.type[c], pools.type[k], pools.string[n]) for c, n, k in pools.fields)
    head += b''.join(struct.pack('<HHI', pools.type[c], pools.proto[r, p], pools.string[n]) for c, n, r, p in pools.methods)
    for c, data in zip(classes, data_at):
        head += struct.pack('<8I', pools.type[c.name], c.flags, pools.type[c.superclass],
                            list_at.get(tuple(c.interfaces), 0), 0xffffffff, 0, data, 0)
    header = struct.pack('<IIIII', at + len(w.data), 0x70, 0x12345678, 0, 0) + struct.pack('<I', map_at)
    for size, table in zip(sizes, tables):
        header += struct.pack('<II', size, table)
    header += struct.pack('<II', len(w.data), at)
    rest = header + head + bytes(w.data)
    signed = hashlib.sha1(rest).digest() + rest
    return b'dex\n' + version + b'\0' + struct.pack('<I', zlib.adler32(signed)) + signed
