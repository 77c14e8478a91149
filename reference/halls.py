"""Small random halls of many kinds, and damaged texts of them, from a seed."""

import random

import planner
from planner import Action, Hall


def some(rng, facts, most):
    return frozenset(rng.sample(range(1, facts + 1), rng.randint(0, min(most, facts))))


def cost(rng):
    return rng.choice([0, 0, 1, 1, 2, 3, 5, 7, 10, 10_000, rng.randint(0, 10_000)])


def free(rng):
    """No pattern at all: small sets, overlapping drops and gives among them."""
    facts = rng.randint(1, 9)

    def action():
        return Action(cost(rng), some(rng, facts, 2), some(rng, facts, 2), some(rng, facts, 2))

    outages = [action() for _ in range(rng.randint(0, 4))]
    moves = [action() for _ in range(rng.randint(0, 5))]
    return Hall(facts, some(rng, facts, 4), some(rng, facts, 2), outages, moves)


def belts(rng):
    """Parallel belts, each stopped by an outage; some can be repaired by a move or by an outage of its own."""
    count = rng.randint(1, 6)
    running = [3 + i for i in range(count)]
    outages = [Action(cost(rng), frozenset({fact}), frozenset({fact}), frozenset()) for fact in running]
    moves = [Action(cost(rng), frozenset({1, fact}), frozenset({1}), frozenset({2})) for fact in running]
    for fact in running:
        if rng.random() < 0.3:
            moves.append(Action(cost(rng), frozenset(), frozenset(), frozenset({fact})))
        if rng.random() < 0.2 and len(outages) < 8:
            outages.append(Action(cost(rng), frozenset(), frozenset(), frozenset({fact})))
    rng.shuffle(outages)
    rng.shuffle(moves)
    return Hall(count + 2, frozenset({1, *running}), frozenset({2}), outages, moves)


def detour(rng):
    """A dear short way, and a long chain of cheap steps that outages can cut."""
    length = rng.randint(2, 7)
    moves = []
    for i in range(1, length):
        moves.append(Action(rng.randint(0, 2), frozenset({i}), frozenset({i}), frozenset({i + 1})))
    moves.append(Action(rng.randint(5, 30), frozenset({1}), frozenset({1}), frozenset({length})))
    guard = length + 1
    cut = rng.randrange(len(moves))
    move = moves[cut]
    moves[cut] = move._replace(needs=move.needs | {guard})
    rng.shuffle(moves)
    outages = [Action(cost(rng), frozenset({guard}), frozenset({guard}), frozenset())]
    if rng.random() < 0.5:
        outages.append(Action(cost(rng), frozenset({1}), frozenset({1}), frozenset({2})))
    return Hall(length + 1, frozenset({1, guard}), frozenset({length}), outages, moves)


def ties(rng):
    """Equal costs everywhere, so that steps and numbers decide."""
    hall = rng.choice([free, belts, detour])(rng)
    same = rng.choice([0, 1, 4])

    def flat(actions):
        return [action._replace(cost=same) for action in actions]

    return hall._replace(outages=flat(hall.outages), moves=flat(hall.moves))


def cube(rng):
    """Outages that switch facts on one by one: many leader states, up to and past what is lent."""
    size = rng.randint(3, 11)
    outages = [Action(cost(rng), frozenset(), frozenset(), frozenset({fact})) for fact in range(1, size + 1)]
    moves = [Action(cost(rng), some(rng, size, 2), frozenset(), frozenset({size + 1})) for _ in range(rng.randint(0, 2))]
    return Hall(size + 1, frozenset(), frozenset({size + 1}), outages, moves)


def stuck(rng):
    """A goal that no move gives, or an empty one, or no moves at all."""
    hall = rng.choice([free, belts])(rng)
    kind = rng.randrange(3)
    if kind == 0:
        return hall._replace(facts=hall.facts + 1, goal=frozenset({hall.facts + 1}))
    if kind == 1:
        return hall._replace(goal=frozenset())
    return hall._replace(moves=[])


def ladder(rng):
    """Every set of outages is a line of its own: fronts up to and past the lent entries and bytes."""
    size = rng.randint(2, 8)
    scale = rng.choice([1, 3, 39])
    idle = rng.choice([0, 0, 8])
    nothing = Action(0, frozenset({size + 1}), frozenset(), frozenset())
    outages = [nothing] * idle + [Action(scale * 2**i, frozenset({i + 1}), frozenset({i + 1}), frozenset()) for i in range(size)]
    moves = [nothing] * idle + [Action(scale * 2**i, frozenset(), frozenset(), frozenset({i + 1})) for i in range(size)]
    facts = frozenset(range(1, size + 1))
    return Hall(size + 1, facts, facts, outages, moves)


def toll(rng):
    """Marks that the crew pays off before it counts through every number of some bits: plans up to and past what is lent."""
    bits = rng.choice([2, 4, 6, 8, 9])
    weights = rng.choice([[1], [1, 2], [1, 2, 2], [1, 2, 4]])
    idle = [Action(0, frozenset({2 * bits + len(weights) + 1}), frozenset(), frozenset())] * rng.choice([0, 9])

    def one(i):
        return 2 * i + 1

    def zero(i):
        return 2 * i + 2

    paid = [2 * bits + 1 + i for i in range(len(weights))]
    moves = idle + [Action(weight, frozenset(), frozenset(), frozenset({fact})) for weight, fact in zip(weights, paid)]
    for i in range(bits):
        below = range(i)
        needs = frozenset({zero(i), *map(one, below), *paid})
        moves.append(Action(rng.randint(0, 1), needs, frozenset({zero(i), *map(one, below)}), frozenset({one(i), *map(zero, below)})))
    outages = [Action(weight, frozenset({fact, zero(0)}), frozenset({fact}), frozenset()) for weight, fact in zip(weights, paid)]
    start = frozenset({*map(zero, range(bits)), *paid})
    return Hall(2 * bits + len(weights) + 1, start, frozenset(map(one, range(bits))), outages, moves)


KINDS = [free, free, belts, detour, ties, cube, stuck, ladder, toll]


# Values that break a rule on most lines, many of them two rules, in one order and the other.
VALUES = [
    b"",
    *b"0 00 02 007 00004 00007 000007 010000 0000000 64 65 10000 10001 99999 100000".split(),
    *b"1,1 2,2 2,1 3,1 5,x x,5 , ,, 1, ,1 1,,2 2,,1 65, ,65 1,,x x,,1 ,000001 000001,".split(),
    *b"01, ,01 01,,2 1,,02 01,x x,01 0,01 01,0 01,000002 000001,02 01,65 65,01".split(),
    *b"01,5 5,01 3,01 03,1 1,02 02,1 2,02 02,2 1,2,03".split(),
]


def empty_place(rng, value):
    """A comma more: before the first number, beside another comma or behind the last number."""
    parts = value.split(b",")
    parts.insert(rng.randint(0, len(parts)), b"")
    return b",".join(parts)


def zero_in_front(rng, value):
    parts = value.split(b",")
    at = rng.randrange(len(parts))
    parts[at] = rng.choice([b"0", b"0", b"0000", b"00000"]) + parts[at]
    return b",".join(parts)


def foreign_byte(rng, value):
    at = rng.randint(0, len(value))
    return value[:at] + rng.choice([b"\r", b" ", b"x", b"-", b"\xff"]) + value[at:]


def spoilt(rng, value):
    """The value with one fault put into it, or with several."""
    for fault in rng.choices([empty_place, zero_in_front, foreign_byte], [2, 3, 1], k=rng.choice([1, 1, 2, 3])):
        value = fault(rng, value)
    return value


def damaged(rng, text):
    """The text with a fault of some kind, or with none: not every change breaks a rule."""
    lines = text.split(b"\n")
    at = rng.randrange(len(lines))
    key, _, value = lines[at].partition(b"=")
    kind = rng.randrange(14)
    if kind == 0:
        return text[:-1]
    if kind == 1:
        return text + rng.choice([b"\n", b"x", b"cost=1\n", b"\n\n"])
    if kind == 2:
        return text[: rng.randrange(len(text) + 1)]
    if kind == 3:
        del lines[at]
    elif kind == 4:
        lines.insert(at, lines[at])
    elif kind == 5:
        lines[at] += rng.choice([b"\r", b" ", b",", b"0", b",0", b",1", b"x", b",64", b"\xff", b",,1", b",01", b",00"])
    elif kind == 6:
        lines[at] = lines[at].replace(b"=", rng.choice([b"=0", b"=,", b"= ", b"==", b"", b"=0,", b"=,0"]), 1)
    elif kind == 7:
        lines[at] = key + b"=" + rng.choice(VALUES)
    elif kind == 8:
        lines[at] = lines[at].upper()
    elif kind == 9:
        lines[at] = b""
    elif kind == 10:
        place = rng.randrange(len(text))
        return text[:place] + bytes([rng.randrange(256)]) + text[place + 1 :]
    elif kind == 11:
        return text + b"#" * rng.choice([28_672 - len(text), 28_673 - len(text)])
    else:
        lines[at] = key + b"=" + spoilt(rng, value)
    return b"\n".join(lines)


def case(rng):
    """One text: a hall's file three times in four, else a damaged one."""
    text = planner.write(rng.choice(KINDS)(rng))
    return damaged(rng, text) if rng.random() < 0.25 else text


def cases(seed, count):
    rng = random.Random(seed)
    return [case(rng) for _ in range(count)]
