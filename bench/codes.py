"""Random codes for the verifier: about half are verified, the others have a fault at any place, some in a later round of a loop. They are
small, since a reference takes its time over large ones. So are hostile codes: those that bench/hostile.py makes, of small numbers, some of
them with changes."""
import hostile
from hostile import CODES, Code, file_of

CODES.update(LOAD_FAST_0=0xB0, LOAD_FAST_3=0xB3, STORE_FAST_0=0xC0, LOAD_NULL=0x53, LOAD_METHOD=0x14, CALL_METHOD=0x36, CALL_FUNCTION=0x34,
             STORE_SUBSCR=0x56, ROT_TWO=0x5A, ROT_THREE=0x5B, GET_ITER_STACK=0x5F, FOR_ITER=0x4B, RAISE_OBJ=0x65,
             POP_JUMP_IF_FALSE=0x44, JUMP_IF_FALSE_OR_POP=0x46, BINARY_ADD=0xF2, BUILD_LIST=0x2B, LOAD_SUBSCR=0x55, STORE_MAP=0x62)
NAME = 1  # of the second text of the file: `print`
MOST = 12  # slots that are open at once
EXCEPT, FINALLY = "SETUP_EXCEPT", "SETUP_FINALLY"

# name: operand, slots that are taken, slots that are given, how often it is drawn
STRAIGHT = {
    "LOAD_CONST_NONE": (None, 0, 1, 14), "LOAD_CONST_TRUE": (None, 0, 1, 5), "LOAD_FAST_0": (None, 0, 1, 2), "LOAD_FAST_3": (None, 0, 1, 0.05),
    "LOAD_NULL": (None, 0, 1, 0.4), "STORE_FAST_0": (None, 1, 0, 1), "POP_TOP": (None, 1, 0, 10), "DUP_TOP": (None, 1, 2, 5),
    "DUP_TOP_TWO": (None, 2, 4, 2), "ROT_TWO": (None, 2, 2, 3), "ROT_THREE": (None, 3, 3, 4), "BINARY_ADD": (None, 2, 1, 2),
    "LOAD_SUBSCR": (None, 2, 1, 1), "STORE_SUBSCR": (None, 3, 0, 0.5), "STORE_MAP": (None, 3, 1, 0.3), "LOAD_METHOD": (NAME, 1, 2, 1),
    "CALL_METHOD": (0, 2, 1, 1), "CALL_FUNCTION": (1, 2, 1, 1), "BUILD_TUPLE": (2, 2, 1, 1), "BUILD_LIST": (0, 0, 1, 1),
    "UNPACK_SEQUENCE": (3, 1, 3, 1), "GET_ITER_STACK": (None, 1, 4, 1),
}
# name: slots that are taken where it goes on, and where it jumps, with those that are given where it goes on; how often
BRANCHES = {
    "POP_JUMP_IF_TRUE": (1, 0, 1, 6), "POP_JUMP_IF_FALSE": (1, 0, 1, 2), "JUMP_IF_TRUE_OR_POP": (1, 0, 0, 5), "JUMP_IF_FALSE_OR_POP": (1, 0, 0, 2),
    "FOR_ITER": (0, 1, 4, 2),
}
FORWARDS = ("JUMP_IF_TRUE_OR_POP", "JUMP_IF_FALSE_OR_POP", "FOR_ITER", "POP_EXCEPT_JUMP")


class RandomCode:
    """A code in the making, with its height and its handlers' entries as they are if the kinds of slots don't matter."""

    def __init__(self, draw):
        self.draw, self.code, self.height, self.entries = draw, Code(), 0, ()
        self.count, self.before, self.ahead, self.handlers = 0, {}, {}, []
        self.loose = draw.choice([0, 0, 0, 0.01, 0.05])
        self.jumps, self.tries = draw.choice([1, 2, 4]), draw.choice([0, 0.3, 1, 3])

    def place(self):
        """Puts a label here, and some of those that are wanted at such a place."""
        self.count += 1
        here = self.height, self.entries
        self.code.label(self.count)
        self.before.setdefault(here, []).append(self.count)
        wanted = self.ahead.get(here, [])
        while wanted and self.draw.random() < 0.5:
            self.code.label(wanted.pop())

    def target(self, name, height, entries):
        """Returns a label of such a place, before or ahead."""
        if self.draw.random() < self.loose:
            height += self.draw.choice([-1, 1])
        back = self.before.get((height, entries))
        if back and name not in FORWARDS and self.draw.random() < 0.5:
            return self.draw.choice(back[-40:])
        self.count += 1
        self.ahead.setdefault((height, entries), []).append(self.count)
        return self.count

    def room(self):
        """Returns how many slots are open above those that the innermost entry keeps."""
        return self.height - (self.entries[-1][2] if self.entries else 0)

    def straight(self):
        fits = [name for name, (_, takes, _, _) in STRAIGHT.items() if takes <= self.room() or self.draw.random() < self.loose / 10]
        if self.height > MOST:
            fits = [name for name in fits if STRAIGHT[name][2] <= STRAIGHT[name][1]] or fits
        fits = fits or ["LOAD_CONST_NONE"]  # where there are fewer slots than the innermost entry keeps
        name = self.draw.choices(fits, [STRAIGHT[it][3] for it in fits])[0]
        operand, takes, gives, _ = STRAIGHT[name]
        self.code.op(name) if operand is None else self.code.num(name, operand)
        self.height += gives - takes

    def branch(self):
        fits = [name for name in BRANCHES if self.room() >= (4 if name == "FOR_ITER" else 1)]
        if not fits:
            return self.straight()
        name = self.draw.choices(fits, [BRANCHES[it][3] for it in fits])[0]
        takes, gives, leaves, _ = BRANCHES[name]
        self.code.jump(name, self.target(name, self.height - leaves, self.entries))
        self.height += gives - takes

    def jump(self):
        """Goes elsewhere, and goes on here as at a place that is wanted."""
        how = self.draw.random()
        if how < 0.6 or not self.room():
            self.code.jump("JUMP", self.target("JUMP", self.height, self.entries))
        elif how < 0.8:
            self.code.op(self.draw.choice(["RETURN_VALUE", "RAISE_OBJ"]))
        else:
            left = self.draw.randint(0, len(self.entries))
            height = self.entries[left][2] if left < len(self.entries) else self.height
            self.code.unwind(self.target("UNWIND_JUMP", height, self.entries[:left]), left)
        some = [it for it in self.ahead if self.ahead[it]]
        if some:
            self.height, self.entries = self.draw.choice(some)
            self.code.label(self.ahead[self.height, self.entries].pop())

    def begin(self):
        name = self.draw.choice([EXCEPT, FINALLY])
        self.count += 1
        self.code.jump(name, ("handler", self.count))
        self.handlers.append(self.count)
        self.entries = (*self.entries, (self.count, name, self.height, False))

    def end(self):
        """Ends the innermost part that is tried, or the handler of its entry."""
        *outer, (label, name, height, active) = self.entries
        if active:
            if self.height == height + 1:
                self.code.op("END_FINALLY")
                self.height, self.entries = height, tuple(outer)
            return
        while self.height > height and self.draw.random() > self.loose:
            self.code.op("POP_TOP")
            self.height -= 1
        if name == FINALLY:
            self.code.op("LOAD_CONST_NONE")
        else:
            self.code.jump("POP_EXCEPT_JUMP", self.target("POP_EXCEPT_JUMP", height, tuple(outer)))
        if label in self.handlers:
            self.handlers.remove(label)
            self.code.label(("handler", label))
        self.height, self.entries = height + 1, (*outer, (label, name, height, True))

    def step(self):
        self.place()
        how = self.draw.random() * 20
        if self.entries and how < 2:
            self.end()
        elif how < 2 + self.tries and len(self.entries) < 5:
            self.begin()
        elif how < 3 + 2 * self.jumps:
            self.branch()
        elif how < 3 + 2.5 * self.jumps:
            self.jump()
        else:
            self.straight()

    def finish(self):
        """Ends what is open, and puts the labels that are still wanted behind it."""
        while self.entries:
            _, _, height, active = self.entries[-1]
            if active:
                self.code.op(*["POP_TOP"] * (self.height - height - 1), *["LOAD_CONST_NONE"] * (height + 1 - self.height))
                self.height = height + 1
            self.end()
        self.code.op("LOAD_CONST_NONE", "RETURN_VALUE")
        for (height, entries), labels in self.ahead.items():
            for label in labels:
                self.code.label(label)
            if labels:
                self.code.op(*["POP_TOP"] * (0 if entries else min(height, 3)), "LOAD_CONST_NONE", "RETURN_VALUE")
        for label in self.handlers:
            self.code.label(("handler", label)).op("END_FINALLY", "LOAD_CONST_NONE", "RETURN_VALUE")
        return self.code


def random_file(draw):
    """Returns the bytes of a file of one random code."""
    it = RandomCode(draw)
    for _ in range(draw.choice([8, 15, 30, 60, 90, 200, 400])):
        it.step()
    small = bytes([draw.choice([3, 7, 15]) << 3 | 4])
    return file_of(it.finish(), small if draw.random() < 0.2 else None)


def hostile_code(draw):
    """Returns one of the codes that are made to be slow, of small numbers."""
    few, slots = draw.randint(1, 9), draw.randint(2, 20)
    body = hostile.BODIES[draw.choice(sorted(hostile.BODIES))]
    code = draw.choice([
        lambda: hostile.closing(slots, draw.choice([0, 3]), few), lambda: hostile.named(slots, 2 * few), lambda: hostile.finallys(few, slots, 3),
        lambda: hostile.looking(2 * slots, few, draw.random() < 0.5), lambda: hostile.returns(few, slots, 3), lambda: hostile.tries(few, slots, 3),
        lambda: hostile.unwinds(few, slots, 3), lambda: hostile.within(few, slots, 40, body), lambda: hostile.bottoms(slots, 3, few, few - 1),
        lambda: hostile.late(2 * slots, few), lambda: hostile.excepts(slots, few), lambda: hostile.unpacked(slots, few), lambda: hostile.dead(slots, few),
    ])()
    return draw.choice([lambda it: it, hostile.refused, hostile.late_end])(code)


def change(draw, code):
    """Changes an instruction: another one without an operand in its place or in front, none, or a jump to any label in front."""
    at = draw.randrange(len(code.parts))
    name, operand, width = code.parts[at]
    other = draw.choice([it for it in STRAIGHT if STRAIGHT[it][0] is None] + ["END_FINALLY", "RETURN_VALUE", "RAISE_LAST"]), None, None
    labels = [it[1] for it in code.parts if it[0] is None]
    how = draw.random()
    if name == "byte":  # the end of an instruction
        return
    if how < 0.3:
        code.parts.insert(at, other)
    elif how < 0.6 and name not in (None, "UNWIND_JUMP") and width is None:
        code.parts[at : at + 1] = [other] if draw.random() < 0.5 else []
    elif labels:
        jump = draw.choice(["JUMP", "POP_JUMP_IF_TRUE", "JUMP_IF_TRUE_OR_POP", EXCEPT, FINALLY, "POP_EXCEPT_JUMP"])
        code.parts[at:at] = [("LOAD_CONST_TRUE", None, None)] * ("TRUE" in jump) + [(jump, draw.choice(labels), 2)]


def hostile_file(draw):
    """Returns the bytes of a file of one hostile code, with up to three changes."""
    while True:
        code = hostile_code(draw)
        for _ in range(draw.choice([0, 0, 1, 1, 2, 3])):
            change(draw, code)
        try:
            return file_of(code)
        except AssertionError:  # a jump back that is spelled by no number
            pass
