#!/usr/bin/env python3
"""Writes the data of crates/program_cases: plants, device files, and the command lines that are run over them; and what these
have to print.

Each case gives its command lines, with status and text, which were worked out by hand by docs/FORMATS.md and docs/RULES.md.
Devices are named by a letter and the number of a case, so that all files lie in one folder.
"""

import shutil

import blocks
from case_blocks import changed, faults
from case_plants import DATA, RED, Case
from case_rules import rules
from case_runs import runs
from case_shapes import shapes
from case_walks import walks
from case_words import words

STDOUT = DATA.parent / "stdout"


def two_frames(number, second, rates=((1, 1), (1, 1)), update=1000000):
    """Two frames from a to b, the first one at 0."""
    (r, p), (s, q) = rates
    case = Case(number).pair().demand(0x100, "a", "b", update=update).demand(0x101, "a", "b", update=update).save()
    case.give("a", [(0x100, 0, r, p, 0, 2), (0x101, second, s, q, 0, 2)])
    case.give("b", [(0x100, 0, r, p, 1, 1), (0x101, 0, s, q, 1, 1)])


def forwarded(number, offset):
    """A frame that an absolute device forwards."""
    case = Case(number).line().demand(0x100, "a", "b").save()
    case.give("a", [(0x100, 0, 1, 1, 0, 2)])
    case.give("s", [] if offset is None else [(0x100, offset, 1, 1, 1, 4)])
    case.give("b", [(0x100, 0, 1, 1, 1, 1)])


def own_frame(number, offset):
    """A relative device forwards one frame, and sends one of its own behind it."""
    case = Case(number).line("relative").demand(0x100, "a", "b").demand(0x101, "s", "b").save()
    case.give("a", [(0x100, 0, 1, 1, 0, 2)])
    case.give("s", [(0x100, 0, 1, 1, 1, 4), (0x101, offset, 1, 1, 0, 4)])
    case.give("b", [(0x100, 0, 1, 1, 1, 1), (0x101, 0, 1, 1, 1, 1)])


FIRST, SECOND = (0x100, 0, 1, 1, 0, 2), (0x101, 6720, 1, 1, 0, 2)


def checks():
    two_frames(1, 6720)
    two_frames(2, 6719)
    two_frames(3, 0, ((2, 1), (2, 2)), 2000000)
    two_frames(4, 0, ((2, 1), (4, 3)), 4000000)
    two_frames(5, 0, ((2, 1), (4, 2)), 4000000)
    forwarded(6, 5800)
    forwarded(7, 5799)
    forwarded(8, None)
    own_frame(9, 12520)
    own_frame(10, 12519)
    case = Case(16).head().device("a").device("b").demand(0x100, "a", "b").save()
    case.give("a", [FIRST]).give("b", [(0x100, 0, 1, 1, 1, 1)])
    verdicts = {
        1: "ACCEPT",
        2: "REJECT V6 a2 1 0x0100 0x0101",
        3: "ACCEPT",
        4: "REJECT V6 a4 1 0x0100 0x0101",
        5: "ACCEPT",
        6: "ACCEPT",
        7: "REJECT V5 s7 0 0x0100 0x0000",
        8: "REJECT V2 a8 0 0x0100 0x0000",
        9: "ACCEPT",
        10: "REJECT V6 s10 2 0x0100 0x0101",
        16: "REJECT V2 a16 0 0x0100 0x0000",
    }
    return [(f"check p{number}.toml", 0 if text == "ACCEPT" else 8, f"{text}\n") for number, text in verdicts.items()]


def spelled(entries):
    frames = blocks.frames([blocks.entry(*entry) for entry in entries])
    return blocks.device_file(blocks.sync(3), blocks.delays(1), frames, blocks.periods(1, 1, (0, RED, RED, 0, RED, RED)))


def malformed():
    """Files of 272 bytes that are wrong, where they are checked and where they are shown."""
    whole = spelled([FIRST, SECOND])
    faults = [
        (changed(whole, 52, 0), "52 BadValue"),
        (spelled([SECOND, FIRST]), "150 BadValue"),
        (whole[:100], "100 Short"),
        (changed(whole, 6, 1), "6 BadPad"),
        (whole + b"\0", "272 Trailing"),
        (b"", "0 Short"),
    ]
    runs = []
    for number, (data, fault) in enumerate(faults, 140):
        case = Case(number).pair().demand(0x100, "a", "b").demand(0x101, "a", "b").save()
        case.file("a", data)
        line = f"malformed a{number}.ird {fault}\n"
        runs += [(f"check p{number}.toml", 7, line), (f"show a{number}.ird", 7, line)]
    return runs


def plans():
    Case(20).pair().demand(0x100, "a", "b").save()
    Case(21).pair().demand(0x100, "a", "b", 1440).save()
    Case(22).pair().demand(0x100, "a", "b", 1441).save()
    Case(23).pair(red_max=12000).demand(0x100, "a", "b").demand(0x101, "a", "b").save()
    Case(24).head().device("a").device("b").demand(0x100, "a", "b").save()
    Case(25).line().demand(0x100, "a", "b").save()
    Case(26).line().demand(0x100, "a", "b").demand(0x101, "a", "b").save()
    Case(27).line("relative").demand(0x100, "a", "b").demand(0x101, "a", "b").save()
    # two relative devices behind each other
    case = Case(28).head().device("a").device("s", 2, "relative").device("t", 2, "relative").device("b")
    case.link("a", 1, "s", 1).link("s", 2, "t", 1).link("t", 2, "b", 1).demand(0x100, "a", "b").demand(0x101, "a", "b").save()
    # both phases of a ratio of 2 have the same last end
    Case(29).pair().demand(0x100, "a", "b", update=2000000).save()
    # two frames of ratio 2 take a phase each, and the third one goes behind the first
    case = Case(30).pair()
    for frame in range(3):
        case.demand(0x100 + frame, "a", "b", update=2000000)
    case.save()
    # red has room for one frame of each phase, and not for the third one
    case = Case(31).pair(red_max=7000)
    for frame in range(3):
        case.demand(0x100 + frame, "a", "b", update=2000000)
    case.save()
    case = Case(32).head(orange=100000).device("a").device("b").device("c", 1).link("a", 1, "b", 1)
    case.demand(0x100, "a", "b").traffic("a", "c").save()
    # the phases 2, 3 and 4 have the same last end for the second frame, and the least of them is taken
    case = Case(33).pair()
    for frame in range(2):
        case.demand(0x100 + frame, "a", "b", update=4000000)
    case.save()
    runs = []
    for number, (status, *lines) in PLANS.items():
        runs.append((f"plan p{number}.toml", status, "".join(f"{line}\n" for line in lines)))
        if status == 0:
            runs.append((f"check p{number}.toml", 0, "ACCEPT\n"))
    return runs


PLANS = {
    20: (0, "0x0100 1 1 8520", "red 6720"),
    21: (0, "0x0100 1 1 120520", "red 118720"),
    22: (5, "plant P13 0"),
    23: (9, "overrun 0x0101"),
    24: (6, "unreachable 0x0100 b24"),
    25: (0, "0x0100 1 1 14320", "red 12520"),
    26: (0, "0x0100 1 1 14320", "0x0101 1 1 21040", "red 19240"),
    27: (0, "0x0100 1 1 12320", "0x0101 1 1 21040", "red 21240"),
    28: (0, "0x0100 1 1 16120", "0x0101 1 1 26840", "red 27040"),
    29: (0, "0x0100 2 1 8520", "red 6720"),
    30: (0, "0x0100 2 1 8520", "0x0101 2 2 8520", "0x0102 2 1 15240", "red 13440"),
    31: (9, "overrun 0x0102"),
    32: (6, "no path 0"),
    33: (0, "0x0100 4 1 8520", "0x0101 4 2 8520", "red 6720"),
}

A20 = """sync 1000 32 32 6
global 3000 1
port 1 100 200
mode absolute
frame 0x0100 0 40 1 1 0 0x02
red 0x0100 0x06ff
period 1 0 0 6720 6720 0 0 0
phases 1 0/0 0/0 0/0 0/0 0/0 0/0 0/0 0/0 0/0 0/0 0/0 0/0 0/0 0/0 0/0 0/0
"""

S27 = """sync 1000 32 32 6
global 3000 2
port 1 100 200
port 2 100 200
mode relative
frame 0x0100 0 40 1 1 1 0x04
frame 0x0101 0 40 1 1 1 0x04
red 0x0100 0x06ff
period 1 0 0 0 0 0 18240 18240
period 2 0 0 21240 21240 0 0 0
phases 1 0/0 0/0 0/0 0/0 0/0 0/0 0/0 0/0 0/0 0/0 0/0 0/0 0/0 0/0 0/0 0/0
phases 2 0/0 0/0 0/0 0/0 0/0 0/0 0/0 0/0 0/0 0/0 0/0 0/0 0/0 0/0 0/0 0/0
"""


def shown():
    """Files that were planned."""
    return [("show a20.ird", 0, A20), ("show s27.ird", 0, S27)]


def clocks():
    case = Case(40).pair(clocks='"ptcp"').demand(0x100, "a", "b")
    case.sync(send=1, timeout=3, drift=0, stamp=0, loss=0).save()
    Case(41).head().device("a").device("b").demand(0x100, "a", "b").save()
    return [("sync p40.toml 5 1", 0, "b40 1 500 500 1 1 0\n"), ("sync p41.toml 5 1", 6, "no clock b41\n")]


def unread():
    """Files that are no plants, that are too long, or that can't be had."""
    (DATA / "other.toml").write_text("[[\n")
    (DATA / "bare.toml").write_text("factor = 0\n")
    # line feeds, as many as a device file may have bytes, and one more; they are a plant that lacks all keys
    Case(42).pair().demand(0x100, "a", "b").save().file("a", b"\n" * 131073)
    Case(43).file("a", b"\n" * 131072)
    name = "a" * 300
    runs = [
        ("show p1.toml", 7, "malformed p1.toml 0 BadType\n"),
        ("check bare.toml", 5, "plant P1 0\n"),
        ("check a42.ird", 5, "plant P1 0\n"),
        ("show a42.ird", 4, "too long a42.ird\n"),
        ("check p42.toml", 4, "too long a42.ird\n"),
        ("show a43.ird", 7, "malformed a43.ird 0 BadType\n"),
        ("show none.ird", 3, "absent none.ird\n"),
        # a path through a file, a folder, and a name that is too long
        ("show p1.toml/x", 2, "shelf fault p1.toml/x\n"),
        ("show .", 2, "shelf fault .\n"),
        (f"show {name}", 2, f"shelf fault {name}\n"),
    ]
    for command, more in (("check", ""), ("plan", ""), ("sync", " 1 1")):
        runs.append((f"{command} none.toml{more}", 3, "absent none.toml\n"))
        runs.append((f"{command} other.toml{more}", 5, "plant not toml\n"))
        runs.append((f"{command} .{more}", 2, "shelf fault .\n"))
    return runs


def stored():
    """Plans over what is there. A file is written beside its name and then renamed, so that a folder of that name stands."""
    Case(44).line().demand(0x100, "a", "b").save()
    (DATA / "s44.ird").mkdir()
    (DATA / "s44.ird/inside.txt").write_text("A file of a device can't take the place of this folder.\n")
    Case(45).pair().demand(0x100, "a", "b").save()
    (DATA / "a45.ird.0.new").write_text("old")
    return [
        # the blocks of this plant, which were refused above, are stored over
        ("plan p7.toml", 0, "0x0100 1 1 14320\nred 12520\n"),
        ("check p7.toml", 0, "ACCEPT\n"),
        # the files of the devices before the folder's are stored, and nothing is left beside it
        ("plan p44.toml", 2, "shelf fault s44.ird\n"),
        ("show a44.ird", 0, A20),
        ("show b44.ird", 3, "absent b44.ird\n"),
        ("show s44.ird.0.new", 3, "absent s44.ird.0.new\n"),
        ("check p44.toml", 2, "shelf fault s44.ird\n"),
        # a name beside that is taken
        ("plan p45.toml", 0, "0x0100 1 1 8520\nred 6720\n"),
        ("check p45.toml", 0, "ACCEPT\n"),
        ("show a45.ird.0.new", 7, "malformed a45.ird.0.new 3 Short\n"),
        ("show a45.ird.1.new", 3, "absent a45.ird.1.new\n"),
    ]


def main():
    shutil.rmtree(DATA, ignore_errors=True)
    DATA.mkdir(parents=True)
    cases = checks() + malformed() + faults() + rules() + plans() + shown() + walks()
    cases += clocks() + unread() + stored() + words() + shapes() + runs()
    (DATA / "lines.txt").write_text("".join(f"{line}\n" for line, _, _ in cases))
    STDOUT.write_text("".join(f"$ irt {line}\n{text}status {status}\n" for line, status, text in cases))


if __name__ == "__main__":
    main()
