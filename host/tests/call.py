"""The calls from Python: drive_bounds, drive_set and drive_speed against the sum over all choices of one interval per component, and
every sheet read and written.

call.py LIBRARY: the archive as a shared library.
"""
import ctypes
import itertools
import random
import sys
from collections import Counter
from math import prod

LIST_BYTES, ANSWER_BYTES, SET_BYTES, SPEED_BYTES, PAIRS_MAX = 9216, 40, 24, 48, 67156
OLD_LIST_BYTES = 16384  # what versions before 5.0.0 needed
PLAN_BYTES, LENGTH_BYTES, SHEET_BYTES = 336, 8, 224
SERIES, SHARED, SPARE = 8, 9, 10
FASTEST = 4095
ANY_SPEED = 0, FASTEST
JOIN = {SERIES: min, SHARED: lambda x, y: min(x + y, FASTEST), SPARE: max}
WITHOUT_CEILING = {**JOIN, SHARED: lambda x, y: x + y}

library = ctypes.CDLL(sys.argv[1])
drive_bounds, drive_set, drive_speed = library.drive_bounds, library.drive_set, library.drive_speed
write_sheet, read_sheet_call = library.drive_write_sheet, library.drive_read_sheet
for function in drive_bounds, drive_set, drive_speed, write_sheet, read_sheet_call:
    function.restype = ctypes.c_uint32
drive_bounds.argtypes = drive_speed.argtypes = [
    ctypes.c_char_p, ctypes.c_size_t, ctypes.c_uint32, ctypes.c_uint32,
    ctypes.c_char_p, ctypes.c_size_t, ctypes.c_char_p, ctypes.c_size_t,
]
drive_set.argtypes = [
    ctypes.c_char_p, ctypes.c_size_t, ctypes.c_char_p, ctypes.c_size_t, ctypes.c_uint32,
    *3 * [ctypes.c_char_p, ctypes.c_size_t],
]
write_sheet.argtypes = 3 * [ctypes.c_char_p, ctypes.c_size_t]
read_sheet_call.argtypes = 2 * [ctypes.c_char_p, ctypes.c_size_t]


def lent(length):
    return ctypes.create_string_buffer(b"\xee" * (length + 16), length + 16)


def call(function, sheet, asked, allowance, list_length, answer_length):
    """The number, the list and the answers; the buffers are 16 bytes longer than the call is told."""
    buffers = lent(list_length), lent(answer_length)
    number = function(sheet, len(sheet), asked, allowance, buffers[0], list_length, buffers[1], answer_length)
    store, answer = (b.raw for b in buffers)
    assert store[list_length:] == answer[answer_length:] == b"\xee" * 16, "bytes behind a buffer"
    return number, store[:list_length], answer[:answer_length]


def call_set(sheet, demands, allowance, list_length, shares_length, answer_length):
    """The same for drive_set, with the shares after the list. The demands are bytes."""
    lengths = list_length, shares_length, answer_length
    buffers = [lent(length) for length in lengths]
    number = drive_set(sheet, len(sheet), demands, len(demands), allowance, *itertools.chain(*zip(buffers, lengths)))
    assert all(b.raw[length:] == b"\xee" * 16 for b, length in zip(buffers, lengths)), "bytes behind a buffer"
    return number, *(b.raw[:length] for b, length in zip(buffers, lengths))


def write(plan, sheet_length=SHEET_BYTES, answer_length=LENGTH_BYTES):
    """The writer's number, and the buffers of sheet and answer with 16 bytes behind."""
    sheet, answer = lent(sheet_length), lent(answer_length)
    number = write_sheet(plan, len(plan), sheet, sheet_length, answer, answer_length)
    return number, sheet.raw, answer.raw


def read(sheet, plan_length=PLAN_BYTES):
    plan = lent(plan_length)
    return read_sheet_call(sheet, len(sheet), plan, plan_length), plan.raw


def make_plan(components, entries):
    """The plan's bytes: every number in two, places that are not used zero."""
    def places(values, count):
        return [*values, *[0] * (count - len(values))]

    numbers = [len(components)]
    for total, focal in components:
        lows, highs, weights = zip(*focal)
        numbers += [len(focal), total, *places(lows, 8), *places(highs, 8), *places(weights, 8)]
    numbers = places(numbers, 157) + places(entries, 11)
    return b"".join(number.to_bytes(2, "big") for number in numbers)


def make_sheet(components, entries):
    """components: (T, [(low, high, weight), ...]) each."""
    body = b""
    for total, focal in components:
        bits = f"{len(focal):04b}00{total:010b}" + "".join(f"{low:012b}{high:012b}{weight:010b}" for low, high, weight in focal)
        bits += "0" * (-len(bits) % 8)
        body += int(bits, 2).to_bytes(len(bits) // 8, "big")
    body += bytes.fromhex("".join(f"{e:x}" for e in entries) + "0")
    return bytes([0x10 | len(components), len(body) + 2]) + body


def blocks_of(sheet, n):
    """The bits of each block and of the structure; None where number 4 applies."""
    at, blocks = 2, []
    for _ in range(n):
        if at >= len(sheet) or not 1 <= sheet[at] >> 4 <= 8:
            return None
        size = 2 + -(-34 * (sheet[at] >> 4) // 8)
        blocks.append("".join(f"{byte:08b}" for byte in sheet[at : at + size]))
        at += size
    if len(sheet) - at != n:
        return None
    return blocks, sheet[at:].hex()


def read_sheet(sheet):
    """A number from 1 to 11, or 0 and the components and entries; each rule looks at the whole sheet before the next."""
    if len(sheet) < 2 or sheet[1] != len(sheet):
        return 1, None
    if sheet[0] >> 4 != 1:
        return 2, None
    n = sheet[0] & 15
    if not 1 <= n <= 6:
        return 3, None
    if (parts := blocks_of(sheet, n)) is None:
        return 4, None
    blocks, structure = parts
    components = []
    for bits in blocks:
        fields = [bits[16 + 34 * i : 50 + 34 * i] for i in range(int(bits[:4], 2))]
        components.append((int(bits[6:16], 2), [(int(f[:12], 2), int(f[12:24], 2), int(f[24:], 2)) for f in fields]))
    entries = [int(digit, 16) for digit in structure[:-1]]
    named = sorted(e for e in entries if e < 8)
    depths = list(itertools.accumulate(1 if e < 8 else -1 for e in entries))
    rules = [
        (5, all(b[4:6] == "00" and "1" not in b[16 + 34 * len(f) :] for b, (_, f) in zip(blocks, components)) and structure[-1] == "0"),
        (6, all(1 <= total <= 1000 for total, _ in components)),
        (7, all(low <= high and weight > 0 for _, f in components for low, high, weight in f)
            and all(x[:2] < y[:2] for _, f in components for x, y in zip(f, f[1:]))),
        (8, all(rest_of(component) >= 0 for component in components)),
        (9, all(e < n or e in JOIN for e in entries)),
        (10, named == list(range(n))),
        (11, min(depths) >= 1),
    ]
    number = next((number for number, met in rules if not met), 0)
    return number, (components, entries)


def rest_of(component):
    """What the weights leave of the total."""
    total, focal = component
    return total - sum(weight for _, _, weight in focal)


def leaf(component):
    """A component's list: each interval with its weight, the rest on that of any speed."""
    weights = Counter({(low, high): weight for low, high, weight in component[1]})
    weights[ANY_SPEED] += rest_of(component)
    return [(low, high, weight) for (low, high), weight in weights.items() if weight > 0]


def joined(entries, speeds, join=JOIN):
    """The structure on one speed for each component."""
    stack = []
    for e in entries:
        if e in join:
            y, x = stack.pop(), stack.pop()
            stack.append(join[e](x, y))
        else:
            stack.append(speeds[e])
    return stack[0]


def late_refusal(components, entries, allowance):
    """13, 14 or 0, and the pair count: the intervals of each list, without weights."""
    stack, pairs = [], 0
    for e in entries:
        if e not in JOIN:
            stack.append({(low, high) for low, high, _ in leaf(components[e])})
            continue
        y, x = stack.pop(), stack.pop()
        pairs += len(x) * len(y)
        if pairs > allowance:
            return 13, 0
        stack.append({(JOIN[e](a, c), JOIN[e](b, d)) for a, b in x for c, d in y})
        if len(stack[-1]) > 256:
            return 14, 0
    return 0, pairs


def over_choices(components, entries, join=JOIN):
    """The records of the drive's list, the fastest first, from the sum over all choices."""
    outcomes = Counter()
    for choice in itertools.product(*map(leaf, components)):
        lows, highs, weights = zip(*choice)
        outcomes[joined(entries, lows, join), joined(entries, highs, join)] += prod(weights)
    return sorted(((low, high, weight) for (low, high), weight in outcomes.items()), reverse=True)


def outcomes_of(sheet, allowance):
    """The number, and, where that is 0, total, pair count and the list."""
    number, plan = read_sheet(sheet)
    if number == 0:
        components, entries = plan
        number, pairs = late_refusal(components, entries, allowance)
    if number != 0:
        return number, 0, 0, []
    return 0, prod(total for total, _ in components), pairs, over_choices(components, entries)


def bounds_of(outcomes, demand):
    """The number and the five answers at a demand."""
    number, total, pairs, records = outcomes
    belief = sum(weight for low, _, weight in records if low >= demand)
    plausibility = sum(weight for _, high, weight in records if high >= demand)
    return number, [total, belief, plausibility, pairs, len(records)]


def speed_of(outcomes, target):
    """The number and the six answers at a target: every demand is tried, from one that no low reaches on down."""
    number, total, _, records = outcomes
    if number in (0, 13, 14) and not 1 <= target <= 1000:
        number = 16
    if number != 0:
        return number, [0] * 6
    weights, belief = Counter(), 0
    for low, _, weight in records:
        weights[low] += weight
    speed = 1 + max(weights)
    while 1000 * belief < target * total:
        speed -= 1
        belief += weights[speed]
    return 0, bounds_of(outcomes, speed)[1] + [speed]


def set_of(outcomes, demands, room):
    """The number, the three answers and the shares at demands that are whole numbers or, the last, bytes; `room` for the shares."""
    number, total, pairs, records = outcomes
    if number in (0, 13, 14):
        number = 17 if not 1 <= len(demands) <= 16 or isinstance(demands[-1], bytes) else 18 if room < 16 * len(demands) else number
    if number != 0:
        return number, [0] * 3, []
    return 0, [total, pairs, len(records)], [share for demand in demands for share in bounds_of(outcomes, demand)[1][1:3]]


def list_bytes(number, records, length=LIST_BYTES):
    """The list buffer after a call."""
    parts = [low.to_bytes(2, "big") + high.to_bytes(2, "big") + weight.to_bytes(8, "big") for low, high, weight in records]
    return (b"".join(parts).ljust(LIST_BYTES, b"\0") if number in (0, 13, 14) else b"").ljust(length, b"\xee")


def answer_bytes(values):
    return b"".join(value.to_bytes(8, "big") for value in values)


def compare_set(sheet, demands, allowance, outcomes, room, list_length=LIST_BYTES):
    """One call of drive_set with a list and an answer that are long enough."""
    number, answers, shares = set_of(outcomes, demands, room)
    wanted = list_bytes(number, outcomes[3], list_length), answer_bytes(shares).ljust(room, b"\xee"), answer_bytes(answers)
    asked = b"".join(d if isinstance(d, bytes) else d.to_bytes(4, "big") for d in demands)
    got = call_set(sheet, asked, allowance, list_length, room, SET_BYTES)
    name = f"drive_set asked {demands}, allowance {allowance}, room {room}"
    assert got[0] == number, f"{name}: number {got[0]}, not {number}, on {sheet.hex()}"
    assert got[1:] == wanted, f"{name}: other bytes on {sheet.hex()}"
    return number


def compare(function, sheet, asked, allowance, outcomes, wanted, list_length=LIST_BYTES):
    """One call with buffers that are long enough; `wanted` is its number and its answers."""
    number, answers = wanted
    store, answer = list_bytes(number, outcomes[3], list_length), answer_bytes(answers)
    got = call(function, sheet, asked, allowance, list_length, len(answer))
    name = f"{function.__name__} asked {asked}, allowance {allowance}"
    assert got[0] == number, f"{name}: number {got[0]}, not {number}, on {sheet.hex()}"
    assert got[1:] == (store, answer), f"{name}: other bytes on {sheet.hex()}"
    return number


def ceiling_met(sheet, outcomes, demand):
    """What the ceiling of shared joins does to the list of an accepted sheet. It leaves the shares at demands up to 4,095."""
    sums = over_choices(*read_sheet(sheet)[1], WITHOUT_CEILING)
    shares = bounds_of(outcomes, demand)[1][1:3]
    assert shares == ([0, 0] if demand > FASTEST else bounds_of((*outcomes[:3], sums), demand)[1][1:3]), f"demand {demand}"
    met = {
        "a low cut": any(low > FASTEST for low, _, _ in sums),
        "only a high cut": any(low <= FASTEST < high for low, high, _ in sums),
        "a shorter list": len(outcomes[3]) < len(sums),
    }
    return [what for what in met if met[what]]


def round_trip(sheet):
    """Reads a sheet; what is accepted is written back as the same bytes."""
    behind = b"\xee" * 16
    number, values = read_sheet(sheet)
    plan = bytes(PLAN_BYTES) if number != 0 else make_plan(*values)
    assert read(sheet) == (number, plan + behind), f"the reader on {sheet.hex()}"
    if number == 0:
        rest = b"\xee" * (SHEET_BYTES - len(sheet)) + behind
        assert write(plan) == (0, sheet + rest, len(sheet).to_bytes(8, "big") + behind), f"the writer on {plan.hex()}"
        refused = (15, b"\xee" * (len(sheet) - 1) + behind, bytes(8) + behind)
        assert write(plan, sheet_length=len(sheet) - 1) == refused, "a short sheet buffer"


def long_sheets():
    """Two lists of 256 and their join; leaves before a list of 256, behind it and one after the other; lists of which each is longer
    than the two that it is joined from. With the number and the pair count."""
    def singles(*ranges):
        return [(len(speeds), [(speed, speed, 1) for speed in speeds]) for speeds in ranges]

    group = singles(range(8), range(0, 64, 8), range(0, 256, 64))
    growing = singles(range(8), range(0, 64, 8), range(0, 192, 64), (0, 20), (0, 20), (0, 24))
    limits = [(9, [(100, 100, 2), (300, 300, 7)]), (5, [(60, 60, 1), (255, 255, 4)]), (3, [(80, 80, 1), (700, 700, 2)])]
    parts = [(2, [(256, 256, 2)]), (3, [(512, 512, 3)]), (5, [(1024, 1024, 5)])]
    groups = [0, 1, SHARED, 2, SHARED, 3, 4, SHARED, 5, SHARED]
    before, behind = [3, 4, 5, 0, 1, 2, SHARED, SHARED], [0, 1, SHARED, 2, SHARED, 3, 4, 5]

    def in_turn(join):
        return [0, 1, SHARED, 2, SHARED, 3, join, 4, join, 5, join]

    yield "two groups in series", make_sheet(group + group, groups + [SERIES]), 0, 66176
    yield "two groups, shared", make_sheet(group + group, groups + [SHARED]), 14, 66176
    yield "limits before", make_sheet(group + limits, before + 3 * [SERIES]), 0, 1824
    yield "limits behind", make_sheet(group + limits, behind + 3 * [SERIES]), 0, 1354
    yield "limits in turn", make_sheet(group + limits, in_turn(SERIES)), 0, 1856
    yield "parts before", make_sheet(group + parts, before + 3 * [SHARED]), 0, 1056
    yield "parts behind", make_sheet(group + parts, behind + 3 * [SHARED]), 0, 578
    yield "longer lists in turn", make_sheet(growing, in_turn(SHARED)), 0, 1528


def random_sheet(r):
    """A sheet with few choices and rests: valid, or with another T, a block that descends, other entries or some bits changed."""
    n, fastest, components = r.randint(1, 6), r.choice([3, 20, 300, 4095]), []
    for _ in range(n):
        ends = {tuple(sorted((r.randint(0, fastest), r.randint(0, fastest)))) for _ in range(r.randint(1, 8 if n < 4 else 4))}
        if r.random() < 0.2:
            ends = {ANY_SPEED, *[*ends][1:]}
        weights = [r.randint(1, 120) for _ in ends]
        rest = r.choice([0, 0, 1, r.randint(0, 1000 - sum(weights))])
        components.append((sum(weights) + rest, [(low, high, w) for (low, high), w in zip(sorted(ends), weights)]))
    names, entries, depth = r.sample(range(n), n), [], 0
    while names or depth > 1:
        if names and (depth < 2 or r.random() < 0.5):
            entries.append(names.pop())
            depth += 1
        else:
            entries.append(r.choice([SERIES, SHARED, SPARE]))
            depth -= 1
    if r.random() < 0.05:
        components[0] = (r.choice([0, 1001, 1023, components[0][0] - rest_of(components[0]) - 1]), components[0][1])
    if r.random() < 0.05:
        components[-1][1].reverse()
    if r.random() < 0.05:
        r.shuffle(entries)
    sheet = bytearray(make_sheet(components, entries))
    for _ in range(r.choice([0, 0, 0, 1, 1, 2])):
        sheet[r.randrange(len(sheet))] ^= 1 << r.randrange(8)
    return bytes(sheet)


def random_target(r, outcomes):
    """At the share of a demand or one above, any, or out of range."""
    _, total, _, records = outcomes
    if records and r.random() < 0.5:
        return 1000 * bounds_of(outcomes, r.choice(records)[0])[1][1] // total + r.randint(0, 1)
    return r.choice([r.randint(1, 1000), r.randint(1, 1000), r.choice([0, 1001, 2**16 + 500, 2**32 - 1])])


def random_demands(r, outcomes):
    """At the ends of intervals, one above, or any; 0 to 17 of them, some equal, or with some bytes more."""
    ends = [end for low, high, _ in outcomes[3] for end in (low, high)] or [0]
    count = r.choice([1, 2, 3, r.randint(1, 16), r.randint(0, 17)])
    demands = [r.choice([r.choice(ends) + r.randint(0, 1), r.randint(0, 5000), r.choice([0, 2**16, 2**32 - 1])]) for _ in range(count)]
    return demands + ([bytes(r.randint(1, 3))] if r.random() < 0.05 else [])


def main():
    w = make_sheet([(100, [(0, 4, 20), (3, 8, 67), (7, 10, 13)]), (100, [(0, 6, 67), (8, 10, 33)])], [0, 1, SERIES])
    outcomes = outcomes_of(w, 6)
    assert outcomes == (0, 10000, 6, [(7, 10, 429), (3, 8, 2211), (0, 6, 5360), (0, 4, 2000)])
    assert bounds_of(outcomes, 7) == (0, [10000, 429, 2640, 6, 4]) and speed_of(outcomes, 42) == (0, [10000, 429, 2640, 6, 4, 7])
    compare(drive_bounds, w, 7, 6, outcomes, bounds_of(outcomes, 7))
    for target in 0, 1, 42, 43, 264, 265, 1000, 1001, 2**32 - 1:
        compare(drive_speed, w, target, 6, outcomes, speed_of(outcomes, target))
    for demands in [7], [0, 2**32 - 1], [8, 7, 7, 3], [*range(16)], [*range(15, -1, -1)], [], [1] * 17, [b"\0\0\0"], [1, b"\0"]:
        for room in 0, 15, 16, 255, 256, 272, 300:
            compare_set(w, demands, 6, outcomes, room)
    for demands, list_length, answer_length in (bytes(64), 0, 0), (b"", LIST_BYTES - 1, SET_BYTES), (b"", LIST_BYTES, SET_BYTES - 1):
        answer = bytes(answer_length) if answer_length == SET_BYTES else b"\xee" * answer_length
        wanted = 12, b"\xee" * list_length, b"\xee" * 256, answer
        assert call_set(w, demands, 6, list_length, 256, answer_length) == wanted, "short buffers"
    assert drive_set(None, 0, None, 0, 0, None, 0, None, 0, None, 0) == 1, "null"
    assert drive_set(w, len(w), None, 0, 0, None, 0, None, 0, None, 0) == 12, "null"
    for function, asked, needed in (drive_bounds, 7, ANSWER_BYTES), (drive_speed, 42, SPEED_BYTES), (drive_speed, 0, SPEED_BYTES):
        for list_length, answer_length in [(0, 0), (LIST_BYTES - 1, needed), (LIST_BYTES, needed - 1), (0, needed)]:
            answer = bytes(needed) if answer_length == needed else b"\xee" * answer_length
            assert call(function, w, asked, 6, list_length, answer_length) == (12, b"\xee" * list_length, answer), "short buffers"
        assert function(None, 0, asked, 0, None, 0, None, 0) == 1 and function(w, len(w), asked, 0, None, 0, None, 0) == 12, "null"
    assert write_sheet(None, 0, None, 0, None, 0) == 12 and read_sheet_call(None, 0, None, 0) == 1, "null"
    assert read(w, PLAN_BYTES - 1) == (12, b"\xee" * (PLAN_BYTES + 15)), "a short plan buffer"
    plan = read(w)[1][:PLAN_BYTES]
    assert write(plan[:-1]) == (12, b"\xee" * (SHEET_BYTES + 16), b"\xee" * 24), "a short plan"
    assert write(plan, answer_length=7) == (12, b"\xee" * (SHEET_BYTES + 16), b"\xee" * 23), "a short answer buffer"
    assert write(bytes(PLAN_BYTES)) == (3, b"\xee" * (SHEET_BYTES + 16), bytes(8) + b"\xee" * 16), "an empty plan"
    for focal, number in ([(0, 4, 20), (0, 6, 80)], 0), ([(0, 6, 80), (0, 4, 20)], 7), ([(3, 8, 20), (0, 6, 80)], 7):
        component = 100, focal
        assert read_sheet(make_sheet([component], [0]))[0] == write(make_plan([component], [0]))[0] == number, "a block's order"
        round_trip(make_sheet([component], [0]))
    print("ok Python: one sheet, short buffers, null pointers, the order of a block")

    part = make_sheet([(1000, [(0, 0, 40), (1200, 2000, 900)])], [0])
    records = "04B0 07D0 0000000000000384  0000 0FFF 000000000000003C  0000 0000 0000000000000028"
    outcomes = outcomes_of(part, 0)
    assert outcomes == (0, 1000, 0, [(1200, 2000, 900), (0, 4095, 60), (0, 0, 40)])
    assert list_bytes(0, outcomes[3]) == bytes.fromhex(records).ljust(LIST_BYTES, b"\0")
    for demand, shares in (0, [1000, 1000]), (1, [900, 960]), (1201, [0, 960]), (2001, [0, 60]), (4096, [0, 0]):
        assert bounds_of(outcomes, demand)[1] == [1000, *shares, 0, 3]
        compare(drive_bounds, part, demand, 0, outcomes, bounds_of(outcomes, demand))
        compare_set(part, [demand, 1], 0, outcomes, 32)
    for target, speed in (900, 1200), (901, 0), (1000, 0):
        assert speed_of(outcomes, target)[1][5] == speed
        compare(drive_speed, part, target, 0, outcomes, speed_of(outcomes, target))
    round_trip(part)
    print("ok Python: 940 of 1,000 units, the rest in the list and not in the plan")

    pair = make_sheet([(1, [(4095, 4095, 1)]), (1, [(1, 1, 1)])], [0, 1, SHARED])
    outcomes = outcomes_of(pair, 1)
    assert outcomes == (0, 1, 1, [(4095, 4095, 1)])
    assert list_bytes(0, outcomes[3]) == bytes.fromhex("0FFF 0FFF 0000000000000001").ljust(LIST_BYTES, b"\0")
    for demand, share in (4095, 1), (4096, 0):
        assert bounds_of(outcomes, demand)[1] == [1, share, share, 1, 1]
        compare(drive_bounds, pair, demand, 1, outcomes, bounds_of(outcomes, demand))
        compare_set(pair, [0, demand], 1, outcomes, 32)
    for target in 1, 1000:
        assert speed_of(outcomes, target)[1][5] == 4095
        compare(drive_speed, pair, target, 1, outcomes, speed_of(outcomes, target))
    print("ok Python: 4,095 with 1 in a shared join gives 4,095")

    for name, sheet, number, pairs in long_sheets():
        everything = outcomes_of(sheet, pairs)
        assert everything[0] == number and everything[2] == (pairs if number == 0 else 0), f"{name}: {everything[:3]}"
        for allowance, outcomes in (pairs, everything), (pairs - 1, outcomes_of(sheet, pairs - 1)):
            for list_length in LIST_BYTES, LIST_BYTES + 1, OLD_LIST_BYTES:
                compare(drive_bounds, sheet, 200, allowance, outcomes, bounds_of(outcomes, 200), list_length)
                compare(drive_speed, sheet, 250, allowance, outcomes, speed_of(outcomes, 250), list_length)
                compare_set(sheet, [*range(0, 272, 17)], allowance, outcomes, 256, list_length)
    print("ok Python: the places of long lists, longer list buffers")

    r, met, rests, cut, sheets = random.Random(20), Counter(), Counter(), Counter(), 8000
    for _ in range(sheets):
        sheet, allowance = random_sheet(r), r.choice([PAIRS_MAX, r.randint(0, 60)])
        round_trip(sheet)
        outcomes, demand = outcomes_of(sheet, allowance), r.choice([r.randint(0, 30), r.randint(0, 5000)])
        met["bounds", compare(drive_bounds, sheet, demand, allowance, outcomes, bounds_of(outcomes, demand))] += 1
        target = random_target(r, outcomes)
        met["speed", compare(drive_speed, sheet, target, allowance, outcomes, speed_of(outcomes, target))] += 1
        demands = random_demands(r, outcomes)
        room = max(0, 16 * len(demands) + r.choice([0, 0, 1, 16, -1]))
        met["set", compare_set(sheet, demands, allowance, outcomes, room)] += 1
        if outcomes[0] != 0:
            continue
        cut.update(ceiling_met(sheet, outcomes, demand))
        for component in read_sheet(sheet)[1][0]:
            if rest_of(component) > 0:
                rests[len(component[1]), len(leaf(component))] += 1
    wanted = {*itertools.product(["bounds", "set", "speed"], {*range(15)} - {12}), ("speed", 16), ("set", 17), ("set", 18)}
    missing = wanted - set(met)
    assert not missing, f"numbers never met: {missing}"
    assert min(rests[8, 8], rests[8, 9]) >= 10, f"too few rests beside eight intervals: {rests}"
    assert len(cut) == 3 and min(cut.values()) >= 100, f"the ceiling of shared joins is met too seldom: {cut}"
    print(f"ok Python: {sheets} random sheets against the sum over all choices, read and written back")


main()
