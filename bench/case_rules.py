"""Cases of the check rules V1 to V15: plans that all rules allow, and changes of them with the first rule that fails."""

from case_plants import RED, Case, entry

A, S, B = entry(0x100, 0, 0, 0b10), entry(0x100, 5800, 1, 0b100), entry(0x100, 0, 1, 0b1)
AS, SS = entry(0x101, 6720, 0, 0b10), entry(0x101, 0, 1, 0b1)

# a sends a frame over s to b, and another one to s
LINE = {"a": [A, AS], "s": [S, SS], "b": [B]}
FIRST_LINE = 50


def late(offset):
    """The second frame of a at the end of the cycle, and periods that last as long."""
    return {
        "a": dict(entries=[A, entry(0x101, offset, 0, 0b10)], begins={1: (None, (0, 1000000, 1000000, 0, 0, 0))}),
        "s": dict(begins={1: (None, (0, RED, RED, 0, 1000001, 1000001))}),
    }


def eighth(of):
    """The same entry in every eighth cycle."""
    return of[:2] + (8, 1) + of[4:]


# What is changed of the line, and the first rule that fails then, with device, port, frame and other frame.
LINE_CASES = [
    ({}, None),
    # V1: each number that the blocks of b repeat
    ({"b": dict(sync=dict(window=999))}, "V1 b 0 0 0"),
    ({"b": dict(sync=dict(factor=33))}, "V1 b 0 0 0"),
    ({"b": dict(sync=dict(send=5))}, "V1 b 0 0 0"),
    ({"b": dict(sync=dict(timeout=0))}, "V1 b 0 0 0"),
    ({"b": dict(sync=dict(timeout=101))}, "V1 b 0 0 0"),
    ({"b": dict(sync=dict(subdomain=bytes(15) + b"\1"))}, "V1 b 0 0 0"),
    ({"b": dict(delays=dict(uuid=bytes(15) + b"\1"))}, "V1 b 0 0 0"),
    ({"b": dict(delays=dict(bridge=3001))}, "V1 b 0 0 0"),
    ({"b": dict(delays=dict(ports=1))}, "V1 b 0 0 0"),
    ({"b": dict(delays=dict(sending=101))}, "V1 b 0 0 0"),
    ({"b": dict(relative=True)}, "V1 b 0 0 0"),
    ({"b": dict(ports=1)}, "V1 b 0 0 0"),
    ({"a": dict(sync=dict(send=1001))}, "V1 a 0 0 0"),
    # V2: b has no entry, so that s sends to nobody; or a sends the frame nowhere
    ({"b": dict(entries=[])}, "V2 s 0 0x100 0"),
    ({"a": dict(entries=[entry(0x100, 0, 0, 0), AS])}, "V2 a 0 0x100 0"),
    # V3: another length, or another rate than at a; and every eighth ms where every fourth is asked for
    ({"b": dict(entries=[entry(0x100, 0, 1, 0b1, length=48)])}, "V3 b 0 0x100 0"),
    ({"b": dict(entries=[entry(0x100, 0, 1, 0b1, ratio=2)])}, "V3 b 0 0x100 0"),
    ({"a": dict(entries=[eighth(A), AS]), "s": dict(entries=[eighth(S), SS]), "b": dict(entries=[eighth(B)])}, "V3 a 0 0x100 0"),
    # V4: an offset that is not used
    ({"b": dict(entries=[entry(0x100, 1, 1, 0b1)])}, "V4 b 0 0x100 0"),
    ({"s": dict(entries=[S, entry(0x101, 1, 1, 0b1)])}, "V4 s 0 0x101 0"),
    # V7: the second frame ends at 6720 + 6720
    ({"a": dict(begins={1: (0, (0, 13440, 13440, 0, RED, RED))})}, None),
    ({"a": dict(begins={1: (0, (0, 13439, 13439, 0, RED, RED))})}, "V7 a 1 0x101 0"),
    # V8: it is in by 6720 + 800 + 6720 + 2000
    ({"s": dict(begins={1: (15, (0, RED, RED, 0, 16240, RED))})}, None),
    ({"s": dict(begins={1: (15, (0, RED, RED, 0, 16239, RED))})}, "V8 s 1 0x101 0"),
    # V9: it is in by 990481 + 800 + 6720 + 2000, 1 ns after the cycle's end; V10: that is after the red limit
    (late(990481), "V9 a 1 0x101 0"),
    (late(990480), "V10 a 1 0 0"),
    # V11, V12: other red ranges
    ({"b": dict(reds=(0x101, 0x6FF))}, "V11 b 0 0x100 0"),
    ({"b": dict(reds=(0x100, 0x6FE))}, "V12 b 0 0 0"),
    # V13, V14: periods of one phase
    ({"s": dict(begins={2: (7, (0, RED, RED + 1, 0, RED, RED))})}, "V13 s 2 0 0"),
    ({"b": dict(begins={1: (15, (0, RED, RED, 0, RED, 1000000))})}, None),
    ({"b": dict(begins={1: (15, (0, RED, RED, 0, RED, 1000001))})}, "V14 b 1 0 0"),
    # V15: 2 * (4 * 8 + 1) + 2 * 8 + 5 * 4 * 45 = 982, and 1002 with 46
    ({"b": dict(sync=dict(timeout=45))}, None),
    ({"b": dict(sync=dict(timeout=46))}, "V15 b 0 0 0"),
]

# a is linked to b and e, and b, c and d form a ring, in which b forwards by the arrival.
RING = {
    "a": [entry(0x100, 9000, 0, 0b100), entry(0x101, 0, 0, 0b10), entry(0x103, 0, 1, 0b1)],
    "b": [entry(0x101, 0, 1, 0b101), entry(0x102, 12520, 0, 0b100), entry(0x103, 0, 2, 0b10)],
    "c": [entry(0x101, 12000, 1, 0b101), entry(0x102, 0, 1, 0b1), entry(0x103, 20000, 0, 0b10)],
    "d": [entry(0x101, 0, 1, 0b1)],
    "e": [entry(0x100, 0, 1, 0b1)],
}
FIRST_RING = 90
FIRST_TIGHT = 100


def put(letter, *entries):
    """The entries of a device of the ring, with these in the place of those of the same frames."""
    found = {own[0]: own for own in RING[letter]}
    found.update({own[0]: own for own in entries})
    return dict(entries=[found[frame] for frame in sorted(found)])


# What is changed of the ring, and where its entries first form no tree.
RING_CASES = [
    ({}, None),
    # an entry of a frame that no demand has, and a provider without one
    ({"c": put("c", entry(0x104, 0, 1, 0b1))}, "V2 c 0 0x104 0"),
    ({"b": dict(entries=[RING["b"][0], RING["b"][2]])}, "V2 b 0 0x102 0"),
    # b sends to d too, which receives from c; and c receives from d, which doesn't send
    ({"b": put("b", entry(0x101, 0, 1, 0b1101))}, "V2 b 0 0x101 0"),
    ({"c": put("c", entry(0x101, 0, 2, 0b1))}, "V2 b 0 0x101 0"),
    # b hands over what it doesn't consume, and d hands over nothing
    ({"b": put("b", entry(0x103, 0, 2, 0b11))}, "V2 b 0 0x103 0"),
    ({"d": put("d", entry(0x101, 0, 1, 0))}, "V2 d 0 0x101 0"),
    # b, c and d forward a frame of a round the ring
    (
        {
            "b": put("b", entry(0x100, 0, 3, 0b100)),
            "c": put("c", entry(0x100, 0, 1, 0b100)),
            "d": put("d", entry(0x100, 0, 1, 0b100)),
        },
        "V2 b 0 0x100 0",
    ),
]

# By port, when red begins and ends in the ring at the tightest: sending from lo to hi + 6720, and 2000 more where the frame
# starts by the arrival; receiving from lo + 800 to hi + 800 + 6720 + 2000.
#   0x100: a 9000                         0x102: b 12520
#   0x101: a 0, b 1800 to 3800, c 12000   0x103: c 20000, b 21800 to 23800
TIGHT = {
    "a": {1: (0, 6720, 22600, 33320), 2: (9000, 15720, 0, 0)},
    "b": {1: (21800, 32520, 800, 9520), 2: (1800, 19240, 20800, 29520), 3: (0, 0, 0, 0)},
    "c": {1: (20000, 26720, 2600, 22040), 2: (12000, 18720, 0, 0)},
    "d": {1: (0, 0, 12800, 21520), 2: (0, 0, 0, 0)},
    "e": {1: (0, 0, 9800, 18520)},
}


def tight(letter, port=None, **changed):
    """These periods of a device, where some of the four numbers of one port are changed."""
    begins = {}
    for own, numbers in TIGHT[letter].items():
        named = dict(zip(("sends", "sent", "receives", "received"), numbers))
        if own == port:
            named.update(changed)
        sent, received = named["sent"], named["received"]
        begins[own] = (None, (named["sends"], sent, sent, named["receives"], received, received))
    return {letter: dict(begins=begins)}


# One of these numbers 1 ns nearer to the others.
TIGHT_CASES = [
    ({letter: of for device in "abcde" for letter, of in tight(device).items()}, None),
    (tight("a", 1, sent=6719), "V7 a 1 0x101 0"),
    (tight("b", 2, sends=1801), "V7 b 2 0x101 0"),
    (tight("b", 2, sent=19239), "V7 b 2 0x102 0"),
    (tight("b", 1, sent=32519), "V7 b 1 0x103 0"),
    (tight("c", 2, sends=12001), "V7 c 2 0x101 0"),
    (tight("c", 1, receives=2601), "V8 c 1 0x101 0"),
    (tight("c", 1, received=22039), "V8 c 1 0x102 0"),
    (tight("a", 1, received=33319), "V8 a 1 0x103 0"),
    (tight("e", 1, receives=9801), "V8 e 1 0x100 0"),
]


def of_line(number, shared, own):
    case = Case(number, shared, own).head(clocks='"ptcp"').sync(send=4, timeout=6, drift=5, stamp=8)
    case.device("a").device("s", 2).device("b", 2).link("a", 1, "s", 1).link("s", 2, "b", 1)
    return case.demand(0x100, "a", "b", update=4000000).demand(0x101, "a", "s", update=4000000)


def of_ring(number, shared, own):
    case = Case(number, shared, own).head().device("a", 2).device("b", 3, "relative").device("c", 2).device("d", 2).device("e")
    case.link("a", 1, "b", 1).link("b", 2, "c", 1).link("c", 2, "d", 1).link("d", 2, "b", 3).link("a", 2, "e", 1)
    return case.demand(0x100, "a", "e").demand(0x101, "a", "bcd").demand(0x102, "b", "c").demand(0x103, "c", "a")


def verdict(case, failure):
    """The command line that checks the case, its status and what it prints."""
    line = f"check p{case.number}.toml"
    if failure is None:
        return line, 0, "ACCEPT\n"
    rule, letter, port, frame, other = failure.split()
    return line, 8, f"REJECT {rule} {case.name(letter)} {port} {int(frame, 0):#06x} {int(other, 0):#06x}\n"


def judged(first, cases, plant, plan):
    """The first case has the files of all devices, and the others those of the devices that they change."""
    runs = []
    for number, (changes, failure) in enumerate(cases, first):
        own = plan if number == first else changes
        case = plant(number, first, own).save()
        for letter in own:
            case.give(letter, **{"entries": plan[letter], **changes.get(letter, {})})
        runs.append(verdict(case, failure))
    return runs


def rules():
    return (
        judged(FIRST_LINE, LINE_CASES, of_line, LINE)
        + judged(FIRST_RING, RING_CASES, of_ring, RING)
        + judged(FIRST_TIGHT, TIGHT_CASES, of_ring, RING)
    )
