"""Device files with a fault in each field, and what is shown of two ports that differ."""

import struct

import blocks
from case_plants import Case, entry

FIRST_FAULT = 200
TWO_PORTS = 300

# A station that sends a frame by its one port: 252 bytes.
WHOLE = blocks.device_file(
    blocks.sync(3),
    blocks.delays(1),
    blocks.frames([blocks.entry(*entry(0x100, 0, 0, 0b10))]),
    blocks.periods(1, 1, (0, 6720, 6720, 0, 0, 0)),
)

# A place, the byte that is put there, and the fault.
FAULTS = [
    # PDSyncData, from 0: BlockLength, version, pad, intervals, window, factor, name
    (0, 3, "0 BadType"),
    (3, 0x35, "2 BadLength"),
    (3, 0x33, "2 BadLength"),
    (5, 1, "4 BadVersion"),
    (6, 1, "6 BadPad"),
    (24, 1, "24 BadValue"),
    (31, 1, "28 BadValue"),
    (34, 0x28, "32 BadValue"),
    (41, 0, "40 BadValue"),
    (41, 129, "40 BadValue"),
    (52, 0, "52 BadValue"),
    (52, 2, "55 BadPad"),
    (52, 4, "2 BadLength"),
    (54, ord("R"), "54 BadValue"),
    # PDIRData, from 56: BlockLength, version, pad
    (57, 6, "56 BadType"),
    (59, 0xBF, "58 BadLength"),
    (59, 0xC1, "252 Short"),
    (61, 0, "60 BadVersion"),
    (62, 1, "62 BadPad"),
    # PDIRGlobalData, from 68: BlockLength, version, pad, bridge, ports, their delays
    (69, 7, "68 BadType"),
    (70, 1, "58 BadLength"),
    (71, 0x1C, "70 BadLength"),
    (73, 0, "72 BadVersion"),
    (74, 1, "74 BadPad"),
    (92, 1, "92 BadValue"),
    (99, 0, "96 BadValue"),
    (99, 2, "70 BadLength"),
    (101, 2, "100 BadValue"),
    (104, 1, "104 BadValue"),
    # PDIRFrameData, from 108: BlockLength, version, pad, properties
    (109, 6, "108 BadType"),
    (111, 1, "110 BadLength"),
    (111, 0x1B, "110 BadLength"),
    (111, 0xFF, "58 BadLength"),
    # without its entry, at which a block would begin
    (111, 8, "120 BadType"),
    (113, 0, "112 BadVersion"),
    (114, 1, "114 BadPad"),
    (119, 2, "116 BadValue"),
    # its entry, from 120: length, ratio, phase, FrameID, Ethertype, RxPort, details, groups, pad
    (125, 41, "124 BadValue"),
    (125, 32, "124 BadValue"),
    (127, 3, "126 BadValue"),
    (129, 2, "128 BadValue"),
    (129, 0, "128 BadValue"),
    (130, 7, "130 BadValue"),
    (130, 0, "130 BadValue"),
    (133, 0, "132 BadValue"),
    (134, 8, "134 BadValue"),
    (135, 1, "135 BadValue"),
    (136, 2, "136 BadValue"),
    (139, 1, "139 BadPad"),
    # PDIRBeginEndData, from 140: BlockLength, version, pad, red FrameIDs, ports, assignments, phases
    (141, 7, "140 BadType"),
    (143, 0x6B, "142 BadLength"),
    (143, 0x6D, "58 BadLength"),
    (145, 1, "144 BadVersion"),
    (147, 1, "147 BadPad"),
    (148, 0, "148 BadValue"),
    (150, 0, "150 BadValue"),
    (155, 8, "152 BadValue"),
    (155, 2, "142 BadLength"),
    (159, 0, "156 BadValue"),
    (159, 17, "156 BadValue"),
    (187, 15, "184 BadValue"),
    (189, 1, "188 BadValue"),
    (251, 1, "250 BadValue"),
]

# So many bytes of the file.
FRONTS = [1, 5, 6, 55, 56, 61, 62, 67, 68, 139, 251]

TEXT = """sync 1000 32 32 6
global 3000 2
port 1 100 200
port 2 300 400
mode relative
frame 0x0100 0 40 1 1 0 0x02
frame 0x06ff 4294967295 1440 16 9 1 0xff
red 0x0100 0x06ff
period 1 0 0 6720 6720 0 0 0
period 2 0 0 6720 6720 0 0 0
period 2 1 1 2 3 4 5 6
phases 1 0/0 0/0 0/0 0/0 0/0 0/0 0/0 0/0 0/0 0/0 0/0 0/0 0/0 0/0 0/0 0/0
phases 2 0/0 0/0 0/0 0/0 0/0 0/0 0/0 0/0 0/0 0/0 0/0 0/0 0/0 0/0 0/0 1/0
"""


def changed(data, at, byte):
    return data[:at] + bytes([byte]) + data[at + 1 :]


def two_ports():
    sent = (0, 6720, 6720, 0, 0, 0)
    entries = [entry(0x100, 0, 0, 0b10), entry(0x6FF, 0xFFFFFFFF, 1, 0xFF, ratio=16, phase=9, length=1440)]
    return blocks.device_file(
        blocks.sync(3),
        blocks.block(0x0206, 1, 1, struct.pack(">2x16sIIIIII", bytes(16), 3000, 2, 100, 200, 300, 400)),
        blocks.frames([blocks.entry(*own) for own in entries], True),
        blocks.period_block(
            [
                blocks.port_periods([sent], [(0, 0)] * 16),
                blocks.port_periods([sent, (1, 2, 3, 4, 5, 6)], [(0, 0)] * 15 + [(1, 0)]),
            ]
        ),
    )


def faults():
    files = [(changed(WHOLE, at, byte), fault) for at, byte, fault in FAULTS]
    files += [(WHOLE[:count], f"{count} Short") for count in FRONTS]
    files.append((WHOLE + b"\0", "252 Trailing"))
    runs = []
    for number, (data, fault) in enumerate(files, FIRST_FAULT):
        Case(number).file("a", data)
        runs.append((f"show a{number}.ird", 7, f"malformed a{number}.ird {fault}\n"))
    Case(TWO_PORTS).file("a", two_ports())
    return runs + [(f"show a{TWO_PORTS}.ird", 0, TEXT)]
