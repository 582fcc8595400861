"""Cases of walks: which of equal walks frames and clocks take, told by the delays of their links; and missing ones."""

from case_plants import Case

SYNC = dict(send=4, timeout=6, drift=5, stamp=0, loss=0)
MODES = dict(a="absolute", b="relative", c="absolute", d="relative")


def wired(number, letters, links):
    """Devices with seven ports each. A link has its ends' devices and ports, and a delay in ns."""
    case = Case(number).head().sync(**SYNC)
    for letter in letters:
        case.device(letter, 7, MODES[letter])
    for start, start_port, end, end_port, delay in links:
        case.link(start, start_port, end, end_port, delay)
    return case


def clock_line(case, letter, links, delay):
    """What is printed of an exact clock in the cycle before the first message: its budget is 1 a link, and 5 * 4 * 6."""
    return f"{case.name(letter)} {links} {delay} {delay} {links + 120} 1 0\n"


# Links, when c has a frame of a, the end of red, and the clocks: the links to each device and the delay of the last one.
# The frame comes by hop + 3000 + hop + 6720 + 1000, and red ends at hop + 3000 + 6720 + 2000, where a hop is 300 and its link.
WALKS = [
    # two links beside each other on the whole way, those of lesser ports named last
    (
        "abc",
        [("a", 2, "b", 2, 500), ("a", 1, "b", 1, 600), ("b", 4, "c", 1, 700), ("b", 3, "c", 2, 900)],
        (12820, 12620),
        [("b", 1, 600), ("c", 2, 900)],
    ),
    # the same between a and b alone, where b's ports are the other way round
    (
        "abcd",
        [("b", 6, "a", 7, 500), ("b", 7, "a", 6, 600), ("c", 7, "b", 1, 700), ("d", 1, "c", 1, 800)],
        (12620, 12620),
        [("b", 1, 600), ("c", 2, 700), ("d", 3, 800)],
    ),
    # a ring with two ways to c, of which that over d has the lesser port at a
    (
        "abcd",
        [("a", 2, "b", 1, 500), ("b", 2, "c", 1, 600), ("a", 1, "d", 1, 700), ("d", 7, "c", 2, 900)],
        (12920, 12720),
        [("b", 1, 500), ("c", 2, 900), ("d", 1, 700)],
    ),
    # the same ring, where that over b has it
    (
        "abcd",
        [("a", 1, "b", 1, 500), ("b", 7, "c", 1, 600), ("a", 2, "d", 1, 700), ("d", 2, "c", 2, 900)],
        (12420, 12520),
        [("b", 1, 500), ("c", 2, 600), ("d", 1, 700)],
    ),
]

# Links, what no walk of a frame leads to, and the device without a clock.
CUTS = [
    ([("a", 1, "b", 1, 500), ("a", 2, "b", 2, 500)], (0x101, "c"), "c"),
    ([("a", 1, "c", 1, 500), ("d", 1, "b", 1, 500)], (0x102, "b"), "b"),
    ([("a", 1, "c", 1, 500), ("c", 2, "b", 1, 500)], None, "d"),
]

FIRST_WALK = 110
FIRST_CUT = 120
PARCELS = 123
LONG, WIDE = 130, 131


def best_walks():
    runs = []
    for number, (letters, links, (by, red), clocks) in enumerate(WALKS, FIRST_WALK):
        case = wired(number, letters, links).demand(0x100, "a", "c").save()
        runs.append((f"plan p{number}.toml", 0, f"0x0100 1 1 {by}\nred {red}\n"))
        runs.append((f"sync p{number}.toml 1 7", 0, "".join(clock_line(case, *clock) for clock in clocks)))
    return runs


def missing_links():
    runs = []
    for number, (links, unreached, clockless) in enumerate(CUTS, FIRST_CUT):
        case = wired(number, "abcd", links).demand(0x102, "a", "cb").demand(0x101, "a", "c").save()
        if unreached is None:
            # a sends 0x0102 first, since it goes farther, and 0x0101 behind it
            runs.append((f"plan p{number}.toml", 0, "0x0101 1 1 15240\n0x0102 1 1 14320\nred 13440\n"))
        else:
            frame, letter = unreached
            runs.append((f"plan p{number}.toml", 6, f"unreachable {frame:#06x} {case.name(letter)}\n"))
        runs.append((f"sync p{number}.toml 1 7", 6, f"no clock {case.name(clockless)}\n"))
    case = wired(PARCELS, "abc", [("a", 1, "b", 1, 500)])
    case.traffic("a", "b").traffic("a", "c").traffic("a", "c").save()
    return runs + [(f"plan p{PARCELS}.toml", 6, "no path 1\n")]


def large(number, parent, links):
    """64 devices, of which each but the first one has a link to its parent, of 400 ns and its number."""
    case = Case(number).head().sync(**SYNC)
    text = ""
    for device in range(64):
        case.device(f"d{device}-", 7)
    for device in range(1, 64):
        start, port = parent(device)
        case.link(f"d{start}-", port, f"d{device}-", 1, 400 + device)
        text += clock_line(case, f"d{device}-", links(device), 400 + device)
    case.save()
    return (f"sync p{number}.toml 1 7", 0, text)


def walks():
    """Last a line of 64 devices, and seven lines of nine round the first one."""
    line = large(LONG, lambda device: (device - 1, 2), lambda device: device)
    star = large(WIDE, lambda device: (0, device) if device < 8 else (device - 7, 2), lambda device: (device + 6) // 7)
    return best_walks() + missing_links() + [line, star]
