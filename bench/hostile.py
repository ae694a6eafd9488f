"""Codes made to be slow to verify. `python3 bench/hostile.py FOLDER` writes a file of one code for each; all are verified but those that
begin with `refused`. `python3 bench/hostile.py FOLDER NAME LAST` writes a file of 4 MB, `great.mpy`, of as many codes NAME as it takes and a
code LAST behind them. Time them by `mpy check`."""
import os
import sys

CODES = dict(JUMP=0x42, POP_JUMP_IF_TRUE=0x43, JUMP_IF_TRUE_OR_POP=0x45, SETUP_EXCEPT=0x48, SETUP_FINALLY=0x49, POP_EXCEPT_JUMP=0x4A,
             LOAD_CONST_NONE=0x51, LOAD_CONST_TRUE=0x52, DUP_TOP=0x57, DUP_TOP_TWO=0x58, POP_TOP=0x59, END_FINALLY=0x5D,
             RETURN_VALUE=0x63, RAISE_LAST=0x64, BUILD_TUPLE=0x2A, UNPACK_SEQUENCE=0x30, UNARY=0xD0, UNWIND_JUMP=0x40)
SIGNED = ('JUMP', 'POP_JUMP_IF_TRUE', 'POP_JUMP_IF_FALSE', 'UNWIND_JUMP')


class Code:
    """Instructions with labels. A far jump has an offset of two bytes."""

    def __init__(self):
        self.parts, self.length, self.hops, self.last = [], 0, 0, None

    def add(self, part):
        self.parts.append(part)
        self.length += self.size(part)
        return self

    def op(self, *names):
        for name in names:
            self.add((name, None, None))
        return self

    def num(self, name, n):
        return self.add((name, n, None))

    def jump(self, name, label, far=True):
        return self.add((name, label, 2 if far else 1))

    def unwind(self, label, left):
        """A jump that leaves all entries but these."""
        return self.add(('UNWIND_JUMP', label, 2)).add(('byte', left, 0))

    def label(self, label):
        return self.add((None, label, None))

    def hop(self):
        """A jump back can't pass more than 16,384 bytes: one more hop, where the last one is far."""
        if self.last is not None and self.length - self.last > 15000:
            self.jump('JUMP', ('over', self.hops), False).label(('hop', self.hops + 1)).jump('JUMP', ('hop', self.hops)).label(('over', self.hops))
            self.hops, self.last = self.hops + 1, self.length
        return self

    def size(self, part):
        name, n, width = part
        if name is None:
            return 0
        if name == 'byte':
            return 1
        return 1 + (width if width else 0 if n is None else len(number(n)))

    def bytes(self):
        at, places = 0, {}
        for part in self.parts:
            if part[0] is None:
                places[part[1]] = at
            at += self.size(part)
        out = bytearray()
        for part in self.parts:
            name, n, width = part
            if name is None:
                continue
            if name == 'byte':
                out.append(n)
                continue
            out.append(CODES[name])
            if width:
                out += offset(places[n] - len(out) - width, width, name in SIGNED)
            elif n is not None:
                out += number(n)
        return bytes(out)


def number(n):
    out = [n & 127]
    while n > 127:
        n >>= 7
        out.insert(0, n & 127 | 128)
    return bytes(out)


def offset(n, width, signed):
    if width == 1:
        n += 0x40 if signed else 0
        assert 0 <= n < 0x80, n
        return bytes([n])
    n += 0x4000 if signed else 0
    assert 0 <= n < 0x8000, n
    return bytes([n & 127 | 128, n >> 7])


GREATEST = bytes.fromhex('fcb2b2b2b2828202')  # room for 4,096 slots and 255 entries
HEAD = bytes.fromhex('4d06001f02000865') + b'.py\0\x0f'
MOST_BYTES = 4194304  # of a file


def body_of(code, room=None):
    """The bytes of a code with the greatest room, or this."""
    body = (room or GREATEST) + bytes([2, 1]) + code.bytes()
    assert len(body) <= 32767, len(body)
    return body


def file_of(code, room=None):
    """A file of one code."""
    body = body_of(code, room)
    return HEAD + number(len(body) * 8) + body


def great_file(code, last):
    """A file of as many of a code as it takes, and another one behind them, all within one that does nothing."""
    outer, first, end = (number(len(it) * 8 + inner) + it for it, inner in ((body_of(plain(0)), 4), (body_of(code), 0), (body_of(last), 0)))
    count = (MOST_BYTES - len(HEAD + outer + end) - 3) // len(first)
    return HEAD + outer + number(count + 1) + count * first + end


def branches(c, count):
    """Branches that take a value and go on to the same position."""
    for i in range(count):
        c.op('LOAD_CONST_TRUE').jump('POP_JUMP_IF_TRUE', ('look', i), False).label(('look', i)).hop()


def closing(slots, below, looks):
    """Open slots that close one by one, one in each round of a loop, over others and with branches that look on."""
    c = Code()
    if below:
        c.op('LOAD_CONST_TRUE').num('UNPACK_SEQUENCE', below)
    c.op('LOAD_CONST_TRUE', *['LOAD_CONST_NONE'] * (slots - 1)).label(('hop', 0))
    c.last = c.length
    branches(c, looks)
    for j in range(slots, 0, -1):
        if j < slots:
            c.op('DUP_TOP').jump('JUMP_IF_TRUE_OR_POP', ('up', j + 1))
        c.op('POP_TOP').hop()
    c.op(*['POP_TOP'] * below, 'LOAD_CONST_NONE', 'RETURN_VALUE')
    for j in range(2, slots + 1):
        c.label(('up', j))
        if j < slots:
            c.op('LOAD_CONST_NONE')
    return c.jump('JUMP', ('hop', c.hops))


def named(slots, body):
    """A slot that stands in many places, in a try of many instructions."""
    c = Code().op('LOAD_CONST_NONE', *['DUP_TOP'] * (slots - 1)).jump('SETUP_FINALLY', 'handler')
    return c.op(*['LOAD_CONST_NONE', 'POP_TOP'] * (body // 2), 'LOAD_CONST_NONE').label('handler').op('END_FINALLY', 'LOAD_CONST_NONE', 'RETURN_VALUE')


def looking(slots, count, opens):
    """Branches over many slots."""
    c = Code()
    if opens:
        c.op('LOAD_CONST_NONE', 'LOAD_CONST_NONE', *['DUP_TOP_TWO'] * (slots // 2 - 1))
    else:
        c.op('LOAD_CONST_TRUE').num('UNPACK_SEQUENCE', slots)
    branches(c, count)
    return c.op('LOAD_CONST_NONE', 'RETURN_VALUE')


def finallys(depth, returns, below):
    """Returns that each run many finally handlers."""
    c = Code().op('LOAD_CONST_TRUE').num('UNPACK_SEQUENCE', below)
    for d in range(depth):
        c.jump('SETUP_FINALLY', ('h', d))
    for i in range(returns):
        c.op('LOAD_CONST_NONE', 'LOAD_CONST_TRUE').jump('POP_JUMP_IF_TRUE', ('l', i), False).op('RETURN_VALUE').label(('l', i)).op('POP_TOP')
    c.op('LOAD_CONST_NONE', 'RETURN_VALUE')
    for d in reversed(range(depth)):
        c.label(('h', d)).op('END_FINALLY', 'LOAD_CONST_NONE', 'RETURN_VALUE')
    return c


def returns(depth, count, below):
    """As many as may be."""
    c = Code().op('LOAD_CONST_TRUE').num('UNPACK_SEQUENCE', below)
    for d in range(depth):
        c.jump('SETUP_FINALLY', ('h', d))
    c.op('LOAD_CONST_NONE')
    for i in range(count):
        c.op('LOAD_CONST_TRUE').jump('POP_JUMP_IF_TRUE', ('l', i), False).op('RETURN_VALUE').label(('l', i))
    c.op('RETURN_VALUE')
    for d in reversed(range(depth)):
        c.label(('h', d)).op('END_FINALLY', 'LOAD_CONST_NONE', 'RETURN_VALUE')
    return c


def tries(depth, count, below):
    """Many short tries within many others."""
    c = Code().op('LOAD_CONST_TRUE').num('UNPACK_SEQUENCE', below)
    for d in range(depth):
        c.jump('SETUP_FINALLY', ('h', d))
    for i in range(count):
        c.jump('SETUP_FINALLY', ('f', i), False).op('LOAD_CONST_NONE').label(('f', i)).op('END_FINALLY')
    c.op('LOAD_CONST_NONE', 'RETURN_VALUE')
    for d in reversed(range(depth)):
        c.label(('h', d)).op('END_FINALLY', 'LOAD_CONST_NONE', 'RETURN_VALUE')
    return c


def unwinds(depth, count, below):
    """Jumps that leave many tries, and so run their handlers: the first half goes back, the other one forth."""
    c = Code().op('LOAD_CONST_TRUE').num('UNPACK_SEQUENCE', below).jump('JUMP', 'start')
    c.label(0).op('LOAD_CONST_NONE', 'RETURN_VALUE').label('start')
    for d in range(depth):
        c.jump('SETUP_FINALLY', ('h', d))
    for i in range(count):
        c.op('LOAD_CONST_TRUE').jump('POP_JUMP_IF_TRUE', ('l', i), False).unwind(2 * i // count, depth).label(('l', i))
    c.op('LOAD_CONST_NONE', 'RETURN_VALUE')
    for d in reversed(range(depth)):
        c.label(('h', d)).op('END_FINALLY', 'LOAD_CONST_NONE', 'RETURN_VALUE')
    return c.label(1).op('LOAD_CONST_NONE', 'RETURN_VALUE')


def within(depth, below, size, body):
    """Instructions within many tries: `body` adds the next ones."""
    c = Code().op('LOAD_CONST_TRUE').num('UNPACK_SEQUENCE', below)
    for d in range(depth):
        c.jump('SETUP_FINALLY', ('h', d))
    c.op('LOAD_CONST_TRUE')
    count = 0
    while c.length < size:
        body(c, ('l', count))
        count += 1
    c.op('LOAD_CONST_NONE', 'RETURN_VALUE')
    for d in reversed(range(depth)):
        c.label(('h', d)).op('END_FINALLY', 'LOAD_CONST_NONE', 'RETURN_VALUE')
    return c


BODIES = {
    'plain': lambda c, label: c.op('LOAD_CONST_NONE', 'POP_TOP'),
    'jumps': lambda c, label: c.jump('JUMP', label, False).label(label),
    'branches': lambda c, label: c.op('DUP_TOP').jump('POP_JUMP_IF_TRUE', label, False).label(label),
    'raises': lambda c, label: c.op('DUP_TOP').jump('POP_JUMP_IF_TRUE', label, False).op('RAISE_LAST').label(label),
}


def excepts(slots, count):
    """Many tries with one handler."""
    c = Code().op('LOAD_CONST_TRUE').num('UNPACK_SEQUENCE', slots)
    for i in range(count):
        c.jump('SETUP_EXCEPT', 'handler').jump('POP_EXCEPT_JUMP', ('l', i), False).label(('l', i))
    return c.op('LOAD_CONST_NONE', 'RETURN_VALUE').label('handler').op('RAISE_LAST')


def unpacked(slots, count):
    """Many slots that are new at each branch."""
    c = Code()
    for i in range(count):
        c.op('LOAD_CONST_TRUE').num('UNPACK_SEQUENCE', slots).op('LOAD_CONST_TRUE').jump('POP_JUMP_IF_TRUE', ('l', i), False).label(('l', i))
        c.num('BUILD_TUPLE', slots).op('POP_TOP')
    return c.op('LOAD_CONST_NONE', 'RETURN_VALUE')


def dense(heights, size):
    """Branches on the slots themselves, each to one position further: two blocks in three bytes, over as many slots as may be."""
    c = Code().op('LOAD_CONST_TRUE')
    for n, height in enumerate(heights):
        c.num('UNPACK_SEQUENCE', height).op('LOAD_CONST_TRUE').jump('POP_JUMP_IF_TRUE', ('high', n), False).label(('high', n))
    count = 0
    while c.length < size:
        c.jump('POP_JUMP_IF_TRUE', ('l', count), False).op('UNARY').label(('l', count))
        count += 1
        if count % 62 == 0:
            c.num('UNPACK_SEQUENCE', 63)
    return c.op('LOAD_CONST_NONE', 'RETURN_VALUE')


def bottoms(count, bits, tall, depth):
    """Branches over slots of which the lowest ones differ from those of the branches before, within tries."""
    c = Code()
    for d in range(depth):
        c.jump('SETUP_FINALLY', ('h', d))
    for i in range(count):
        c.op(*['LOAD_CONST_NONE' if i >> b & 1 else 'LOAD_CONST_TRUE' for b in range(bits)])
        c.op('LOAD_CONST_TRUE').num('UNPACK_SEQUENCE', tall).op('LOAD_CONST_TRUE').jump('POP_JUMP_IF_TRUE', ('l', i), False).label(('l', i))
        c.num('BUILD_TUPLE', tall).op('POP_TOP', *['POP_TOP'] * bits)
    c.op('LOAD_CONST_NONE', 'RETURN_VALUE')
    for d in reversed(range(depth)):
        c.label(('h', d)).op('END_FINALLY', 'LOAD_CONST_NONE', 'RETURN_VALUE')
    return c


def late(slots, count):
    """Open slots that all close at once, when the branches over them were looked at."""
    c = Code().op('LOAD_CONST_NONE', 'LOAD_CONST_NONE', *['DUP_TOP_TWO'] * (slots // 2 - 1)).label(('hop', 0))
    c.last = c.length
    branches(c, count)
    c.op('LOAD_CONST_TRUE').jump('POP_JUMP_IF_TRUE', 'end').num('BUILD_TUPLE', slots).num('UNPACK_SEQUENCE', slots)
    return c.jump('JUMP', ('hop', c.hops)).label('end').op('LOAD_CONST_NONE', 'RETURN_VALUE')


def dead(slots, count):
    """Handlers that nothing comes to, behind a branch over many slots."""
    c = Code().op('LOAD_CONST_TRUE').num('UNPACK_SEQUENCE', slots).op('LOAD_CONST_TRUE').jump('POP_JUMP_IF_TRUE', 'l', False).label('l')
    c.op('LOAD_CONST_NONE', 'RETURN_VALUE')
    for i in range(count):
        c.jump('SETUP_FINALLY', ('f', i), False).label(('f', i)).op('END_FINALLY')
    return c


def plain(count):
    """No jump at all."""
    return Code().op(*['LOAD_CONST_NONE', 'POP_TOP'] * (count // 2), 'LOAD_CONST_NONE', 'RETURN_VALUE')


def late_end(code):
    """The same code within an except handler, in front of an END_FINALLY that finds an open slot, and a value when all else was visited: which
    of several such positions finds one first, only the rounds of the loops before tell."""
    c = Code().jump('SETUP_EXCEPT', 'handler').op('LOAD_CONST_NONE', 'RETURN_VALUE').label('handler')
    c.op('LOAD_CONST_TRUE').jump('JUMP_IF_TRUE_OR_POP', 'last').op('LOAD_CONST_TRUE').jump('JUMP_IF_TRUE_OR_POP', 'before')
    if code.last is not None:
        c.last = code.last + c.length
    c.parts += code.parts
    c.label('before').op('POP_TOP').label('end').op('END_FINALLY', 'LOAD_CONST_NONE', 'RETURN_VALUE')
    return c.label('last').op('POP_TOP', 'POP_TOP', 'LOAD_CONST_TRUE').jump('JUMP', 'end', False)


def meeting(code):
    """The same code with a fault that is the last thing found: a branch both of whose ways lead to one position, at two heights."""
    c = Code().op('LOAD_CONST_TRUE').jump('JUMP_IF_TRUE_OR_POP', 'bad').op('LOAD_CONST_NONE', 'POP_TOP')
    c.parts += code.parts
    return c.label('bad').jump('JUMP_IF_TRUE_OR_POP', 'met', False).label('met').op('LOAD_CONST_NONE', 'RETURN_VALUE')


def refused(code):
    """The same code with a fault that is the last thing found: a value where a cause is asked, behind all."""
    c = Code().op('LOAD_CONST_TRUE').jump('JUMP_IF_TRUE_OR_POP', 'bad').op('LOAD_CONST_NONE', 'POP_TOP')
    c.parts += code.parts
    return c.label('bad').op('END_FINALLY')


HOSTILE = {
    'closing-1000': closing(1000, 0, 8200),
    'closing-2000': closing(2000, 0, 6000),
    'closing-2800': closing(2800, 0, 4000),
    'closing-3600': closing(3600, 0, 2300),
    'closing-1000-over-2700': closing(1000, 2700, 7000),
    'named-3850': named(3850, 28000),
    'branches-over-values': looking(4000, 9500, False),
    'branches-over-open': looking(4000, 9500, True),
    'finallys-200': finallys(200, 4500, 3700),
    'tries-in-250': tries(250, 6000, 3500),
    'excepts-4000': excepts(4000, 6500),
    'unpacked-4000': unpacked(4000, 2500),
    'dense-4090': dense([4090], 32690),
    'dense-above-3590': dense([3590, 501], 32690),
    'tries-over-4080': tries(0, 7900, 4080),
    'bottoms-1': bottoms(2000, 1, 4000, 0),
    'bottoms-4': bottoms(1500, 4, 4000, 0),
    'bottoms-4-in-200': bottoms(1400, 4, 3990, 200),
    'late-3000': late(3000, 6800),
    'dead-9000': dead(4090, 9000),
    'plain': plain(32700),
    'plain-in-250': within(250, 3800, 31000, BODIES['plain']),
    'jumps-in-250': within(250, 3800, 31000, BODIES['jumps']),
    'branches-in-250': within(250, 3800, 31000, BODIES['branches']),
    'raises-in-250': within(250, 3800, 31000, BODIES['raises']),
    'unwinds-in-127': unwinds(127, 4400, 3800),
    'refused-closing-400': refused(closing(400, 0, 2500)),
    'refused-closing-1000': refused(closing(1000, 0, 8190)),
    'refused-closing-1000-over-2700': refused(closing(1000, 2700, 7000)),
    'refused-closing-2000': refused(closing(2000, 0, 5990)),
    'refused-closing-3600': refused(closing(3600, 0, 2290)),
    'refused-branches-over-open': refused(looking(4000, 9500, True)),
    'refused-tries-in-250': refused(tries(250, 6000, 3500)),
    'refused-finallys-200': refused(finallys(200, 4500, 3700)),
    'refused-returns-in-250': refused(returns(250, 6200, 3700)),
    'refused-dense-4085': refused(dense([4085], 32600)),
    'refused-bottoms-4-in-200': refused(bottoms(1380, 4, 3990, 200)),
    'refused-excepts-4000': refused(excepts(4000, 6400)),
    'refused-plain-in-250': refused(within(250, 3800, 31000, BODIES['plain'])),
    'refused-jumps-in-250': refused(within(250, 3800, 31000, BODIES['jumps'])),
    'refused-branches-in-250': refused(within(250, 3800, 31000, BODIES['branches'])),
    'refused-raises-in-250': refused(within(250, 3800, 31000, BODIES['raises'])),
    'refused-unwinds-in-127': refused(unwinds(127, 4400, 3800)),
    'refused-meeting-1000': meeting(closing(1000, 0, 8180)),
    'refused-meeting-3600': meeting(closing(3600, 0, 2280)),
    'refused-late-end-1000': late_end(closing(1000, 0, 8180)),
    'refused-late-end-2000': late_end(closing(2000, 0, 5980)),
    'refused-late-end-3600': late_end(closing(3600, 0, 2280)),
    'refused-late-end-tries-in-250': late_end(tries(250, 6000, 3500)),
    'refused-late-end-jumps-in-250': late_end(within(250, 3800, 30500, BODIES['jumps'])),
    'refused-late-end-raises-in-250': late_end(within(250, 3800, 30500, BODIES['raises'])),
}


def write(name, data):
    with open(os.path.join(sys.argv[1], name + '.mpy'), 'wb') as out:
        out.write(data)


if __name__ == '__main__':
    if sys.argv[2:]:
        write('great', great_file(*[HOSTILE[name] for name in sys.argv[2:]]))
    else:
        for name, code in HOSTILE.items():
            write(name, file_of(code))
