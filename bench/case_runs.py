"""Cases of runs: what frames, parcels, stations and applications do in some cycles of a world.

A hop is 800 ns (100 + 500 + 200), a frame of 40 bytes takes 6720 ns and so does a parcel of 60; cycles are of 1000000 ns.
"""

from case_plants import DATA, RED, Case

FRAME = (0x100, 0, 1, 1, 0, 2)
TAKEN = (0x100, 0, 1, 1, 1, 1)


def row(n, k, came=True):
    """Of a frame that starts with the cycle."""
    begin = k * 1000000
    text = f"o {k} a{n} 1 0x0100 {begin} {begin + 6720}\n"
    return text + (f"d {k} b{n} 0x0100 {begin + 7520}\n" if came else "")


def one_frame(n, apps=(), traffic=False):
    case = Case(n).pair().demand(0x100, "a", "b")
    if traffic:
        case.traffic("a", "b")
    for letter, kind in apps:
        case.text += f'[[app]]\ndevice = "{case.name(letter)}"\nkind = "{kind}"\n'
    case.save()
    case.give("a", [FRAME])
    case.give("b", [TAKEN])
    return case


def world(n, *lines):
    (DATA / f"w{n}").write_text("".join(f"{line}\n" for line in lines))
    return f"run p{n}.toml {len(lines)} --world w{n}"


def words(*numbers):
    return "".join(f" {number:016x}" for number in numbers)


def counted():
    """A counter on a, a copy on b; the link is cut in cycle 2. b holds what came last, and takes a turn's output a cycle later."""
    n = 506
    one_frame(n, [("a", "counter"), ("b", "copy")])
    text = chain(n, [("a", "counter", 0), ("b", "copy", 0)], 1, [False, False, True])
    return (world(n, "E 0 0 B C", "E 0 0 B C", "E 0 0 B C 0"), 0, text)


ZEROS = (0, 0, 0, 0, 0)  # the words of a frame of 40 bytes


def turned(kind, param, state, given):
    """The words that an application puts out for what it is shown, sealed, and its next state."""
    first = given[0] if given else 0
    if kind == "copy":
        return (*given[:4], given[4] // 256 * 256 + 0x80), state
    if kind == "counter":
        state = word = state + 1
    elif kind == "follow":
        state = word = min(first, state + param) if state <= first else max(first, state - param)
    else:
        word = min(first, param)
    return (word, 0, 0, 0, 0x80), state


def chain(n, apps, ratio, cut):
    """Applications of which each but the last sends the next one a frame, in the cycles that are multiples of `ratio`, which
    doesn't come where the cycle is cut. What came last is shown until three due frames in a row didn't come."""
    names = [f"{letter}{n}" for letter, _, _ in apps]
    states = [0] * len(apps)
    puts = [ZEROS] * (len(apps) - 1) + [()]
    shown = [()] + [ZEROS] * (len(apps) - 1)
    missed = 3
    text, turns = "", [""] * len(apps)
    for k, is_cut in enumerate(cut):
        flags = f"{k} {int(k > 0)} 1"
        text += "".join(f"g {k} {name} {flags}{words(*put)}\n" for name, put in zip(names, puts))
        begin = k * 1000000
        if k % ratio == 0:
            ways = [(name, int(place > 0) + 1, 0x100 + place) for place, name in enumerate(names[:-1])]
            text += "".join(f"o {k} {name} {port} {frame:#06x} {begin} {begin + 6720}\n" for name, port, frame in ways)
            if not is_cut:
                ends = [(name, 0x100 + place) for place, name in enumerate(names[1:])]
                text += "".join(f"d {k} {name} {frame:#06x} {begin + 7520}\n" for name, frame in ends)
                shown = [(), *puts[:-1]]
            missed = missed + 1 if is_cut else 0
            if missed >= 3:
                shown = [()] + [ZEROS] * (len(apps) - 1)
        text += "".join(f"i {k} {name}{words(*image)}\n" for name, image in zip(names, shown))
        for place, (_, kind, param) in enumerate(apps):
            put, states[place] = turned(kind, param, states[place], shown[place])
            puts[place] = put if place + 1 < len(apps) else ()
            turns[place] += f"u {names[place]} {k} {k + 1} {k + 1} 1 1{words(*shown[place])} :{words(*puts[place])}\n"
    due = [is_cut for k, is_cut in enumerate(cut) if k % ratio == 0]
    links = len(apps) - 1
    end = f"end {len(cut)} {links * len(due)} {links * due.count(False)} 0\n"
    return text + "".join(turns) + end


def kinds():
    """A counter feeds a follower, that one a limit, and that one a copy."""
    n = 514
    case = Case(n).head().device("a").device("b", 2).device("c", 2).device("d")
    case.link("a", 1, "b", 1).link("b", 2, "c", 1).link("c", 2, "d", 1)
    for place, (start, end) in enumerate(("ab", "bc", "cd")):
        case.demand(0x100 + place, start, end)
    apps = [("a", "counter", 0), ("b", "follow", 2), ("c", "limit", 3), ("d", "copy", 0)]
    for letter, kind, param in apps:
        case.text += f'[[app]]\ndevice = "{case.name(letter)}"\nkind = "{kind}"\nparam = {param}\n'
    case.save()
    case.give("a", [FRAME])
    case.give("b", [TAKEN, (0x101, 0, 1, 1, 0, 4)])
    case.give("c", [(0x101, 0, 1, 1, 1, 1), (0x102, 0, 1, 1, 0, 4)])
    case.give("d", [(0x102, 0, 1, 1, 1, 1)])
    return (world(n, *["E 0 0 0 0 B C"] * 7), 0, chain(n, apps, 1, [False] * 7))


def held():
    """A frame of every other cycle, over a cut of three due cycles and more."""
    n = 515
    case = Case(n).pair().demand(0x100, "a", "b", update=2000000)
    apps = [("a", "counter", 0), ("b", "copy", 0)]
    for letter, kind, _ in apps:
        case.text += f'[[app]]\ndevice = "{case.name(letter)}"\nkind = "{kind}"\n'
    case.save()
    case.give("a", [(0x100, 0, 2, 1, 0, 2)])
    case.give("b", [(0x100, 0, 2, 1, 1, 1)])
    cut = [3 <= k <= 9 for k in range(12)]
    return (world(n, *["E 0 0 B C 0" if is_cut else "E 0 0 B C" for is_cut in cut]), 0, chain(n, apps, 2, cut))


def too_long():
    case = Case(507).pair()
    for frame in range(4):
        ends = "ab" if frame < 2 else "ba"
        case.demand(0x100 + frame, ends[0], ends[1], length=1440)
    for letter in "ab":
        case.text += f'[[app]]\ndevice = "{case.name(letter)}"\nkind = "copy"\n'
    case.save()
    own = [(0x100 + 0, 0), (0x100 + 1, 118720)]
    for letter, first in (("a", 0), ("b", 2)):
        entries = [(0x100 + first + i, at, 1, 1, 0, 2, 1440) for i, (_, at) in enumerate(own)]
        entries += [(0x100 + 2 - first + i, 0, 1, 1, 1, 1, 1440) for i in range(2)]
        case.give(letter, sorted(entries))
    return [("run p507.toml 10000 1", 11, "run too long\n")]


def parcels():
    """One orange parcel a cycle, behind red; in cycle 1 the link is cut."""
    n = 508
    one_frame(n, traffic=True)
    text = row(n, 0) + f"t 0 a{n} 1 0 0 {RED} {RED + 6720}\n"
    text += row(n, 1, False) + f"t 1 a{n} 1 0 1 {1000000 + RED} {1000000 + RED + 6720}\nl 1 a{n} 1 0 1\na 1 b{n} 0 0\n"
    text += row(n, 2) + f"t 2 a{n} 1 0 2 {2000000 + RED} {2000000 + RED + 6720}\n"
    return (world(n, "E 0 0 B C", "E 0 0 B C 0", "E 0 0 B C"), 0, text + "end 3 3 2 0\n")


def sent(n, k, parcels):
    """Orange parcels of a, one behind the other; each is a traffic entry and a serial."""
    begin = k * 1000000 + RED
    times = [(begin + 6720 * place, begin + 6720 * (place + 1)) for place in range(len(parcels))]
    return "".join(f"t {k} a{n} 1 {entry} {serial} {at} {end}\n" for (entry, serial), (at, end) in zip(parcels, times))


def many(n, entries):
    """Traffic entries of eight parcels a cycle each."""
    case = Case(n).pair().demand(0x100, "a", "b")
    for _ in range(entries):
        case.traffic("a", "b")
    case.text = case.text.replace("count = 1", "count = 8")
    case.save()
    case.give("a", [FRAME])
    case.give("b", [TAKEN])


def full():
    """A port has room for 32 parcels of a class; the 33rd and all behind it are refused."""
    many(510, 5)
    text = row(510, 0) + sent(510, 0, [(entry, serial) for entry in range(4) for serial in range(8)])
    text += "".join(f"q 0 a510 1 4 {serial}\n" for serial in range(8))
    return (world(510, "E 0 0 B C"), 0, text + "end 1 1 1 0\n")


def drained():
    """Parcels wait while a is out of step, and then 32 go in one cycle, more than four cycles make rows for."""
    many(511, 1)
    text = row(511, 3) + sent(511, 3, [(0, serial) for serial in range(32)])
    text += row(511, 4) + sent(511, 4, [(0, serial) for serial in range(32, 40)])
    text += "".join(f"a 4 b511 0 {serial}\n" for serial in range(32))
    return (world(511, "E 1001 0 B C", "E 1001 0 B C", "E 1001 0 B C", "E 0 0 B C", "E 0 0 B C"), 0, text + "end 5 2 2 0\n")


def cut_in_the_middle():
    """A frame over a switch: whole, cut behind the switch, and cut before it."""
    case = Case(512).line().demand(0x100, "a", "b").save()
    case.give("a", [FRAME])
    case.give("s", [(0x100, 5800, 1, 1, 1, 4)])
    case.give("b", [TAKEN])
    text = ""
    for k, (goes_on, comes) in enumerate(((True, True), (True, False), (False, False))):
        begin = k * 1000000
        text += f"o {k} a512 1 0x0100 {begin} {begin + 6720}\n"
        text += f"o {k} s512 2 0x0100 {begin + 5800} {begin + 12520}\n" if goes_on else ""
        text += f"d {k} b512 0x0100 {begin + 13320}\n" if comes else ""
    return (world(512, "E 0 0 0 B C", "E 0 0 0 B C 1", "E 0 0 0 B C 0"), 0, text + "end 3 5 1 0\n")


def at_once():
    """Ports and links without delay: a frame arrives in the moment in which it starts."""
    case = Case(513).line().demand(0x100, "a", "b")
    case.text = case.text.replace("[100, 200]", "[0, 0]").replace("delay = 500", "delay = 0")
    case.save()
    delays = dict(sending=0, receiving=0)
    case.give("a", [FRAME], delays=delays)
    case.give("s", [(0x100, 5000, 1, 1, 1, 4)], delays=delays)
    case.give("b", [TAKEN], delays=delays)
    text = "o 0 a513 1 0x0100 0 6720\no 0 s513 2 0x0100 5000 11720\nd 0 b513 0x0100 11720\n"
    return (world(513, "E 0 0 0 B C"), 0, text + "end 1 2 1 0\n")


def no_path():
    case = Case(509).head().device("a").device("b").device("c").link("a", 1, "b", 1)
    case.demand(0x100, "a", "b").traffic("a", "c").save()
    case.give("a", [FRAME])
    case.give("b", [TAKEN])
    case.give("c", [])
    return [("run p509.toml 5 1", 6, "no path 0\n")]


def generated():
    """Plants by a seed: the smallest, and one of 64 devices and 256 frames; names that can't be stored."""
    return [
        ("gen 1 2 0 g1.toml", 0, "gen 2 0\nred 0\nend 16 0 0 0\n"),
        ("check g1.toml", 3, "absent d0.ird\n"),
        ("plan g1.toml", 0, "red 0\n"),
        ("check g1.toml", 0, "ACCEPT\n"),
        ("gen 7 64 256 g2.toml", 0, "gen 64 256\nred 319654\nend 16 7740 1984 0\n"),
        ("gen 7 2 1 none/g.toml", 2, "shelf fault none/g.toml\n"),
        ("gen 7 2 1 .", 2, "shelf fault .\n"),
    ]


def free():
    """Free runs of plants without applications have one text; refusals are those of `run`."""
    return [
        ("free p500.toml 5 1", 0, "end 5 0 0 0\n"),
        ("free p2.toml 2 1", 8, "REJECT V6 a2 1 0x0100 0x0101\n"),
        ("free p507.toml 10000 1", 11, "run too long\n"),
        ("free p509.toml 5 1", 6, "no path 0\n"),
        ("free none.toml 5 1", 3, "absent none.toml\n"),
        ("free other.toml 5 1", 5, "plant not toml\n"),
    ]


def runs():
    case = Case(500).pair().save()
    case.give("a", [])
    case.give("b", [])
    made = [("run p500.toml 5 1", 0, "end 5 0 0 0\n")]
    for n in (501, 502, 503, 504):
        one_frame(n)
    made.append((world(501, "E 0 0 B C", "E 0 0 B C 0"), 0, row(501, 0) + row(501, 1, False) + "end 2 2 1 0\n"))
    # b is out of step, and then a is
    made.append((world(502, "E 0 1001 B C"), 0, row(502, 0, False) + "x 0 b502 0x0100 step\nend 1 1 0 1\n"))
    made.append((world(503, "E 1001 0 B C"), 0, "end 1 0 0 0\n"))
    made.append((world(504, "E 0 0 B C", "E 0 1000001 B C"), 10, "world 2 2\n"))
    made.append(("run p504.toml 3 --world w501", 10, "world 3 0\n"))
    made.append(("run p504.toml 2 --world none.w", 3, "absent none.w\n"))
    made.append(("run p2.toml 2 1", 8, "REJECT V6 a2 1 0x0100 0x0101\n"))
    return made + [counted(), kinds(), held()] + too_long() + [parcels(), full(), drained(), cut_in_the_middle(), at_once()] + no_path() + free() + generated()
