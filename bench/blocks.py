"""Writes device files for the benchmarks, by docs/FORMATS.md."""

import struct

FIRST_FRAME = 0x0100
LAST_FRAME = 0x06FF


def block(kind, high, low, fields):
    return struct.pack(">HHBB", kind, len(fields) + 2, high, low) + fields


def sync(letters, factor=32, window=1000, send=32, timeout=6, subdomain=bytes(16)):
    """The sync block, with a domain name of so many letters."""
    front = struct.pack(">2x16s8xIIHHHHHBB", subdomain, window, send, factor, timeout, 3, 60, 1, 1, 255)
    return block(0x0203, 1, 2, front + bytes([letters]) + b"a" * letters + bytes(3 - letters % 4))


def delays(ports, bridge=3000, uuid=bytes(16), sending=100, receiving=200):
    """The delays of a bridge and of so many ports, which all send and receive in as many ns."""
    return block(0x0206, 1, 1, struct.pack(">2x16sII", uuid, bridge, ports) + struct.pack(">II", sending, receiving) * ports)


def entry(frame, offset, ratio, phase, receiving, sending, length=40):
    return struct.pack(">IHHHHHBBBB2x", offset, length, ratio, phase, frame, 0x8892, receiving, 0, 1, sending)


def frames(entries, relative=False):
    return block(0x0207, 1, 1, struct.pack(">2xI", relative) + b"".join(entries))


def port_periods(assignments, phases):
    """A port's assignments, each of six begins in ns, and the assignments of sixteen phases, by number, sending and receiving."""
    spelled = struct.pack(">I", len(assignments)) + b"".join(struct.pack(">IIIIII", *begins) for begins in assignments)
    return spelled + struct.pack(">I", len(phases)) + b"".join(struct.pack(">HH", *phase) for phase in phases)


def period_block(ports, first=FIRST_FRAME, last=LAST_FRAME):
    return block(0x0208, 1, 0, struct.pack(">2xHHI", first, last, len(ports)) + b"".join(ports))


def periods(ports, assignments, begins):
    """The same six begins in each assignment of each port."""
    return period_block([port_periods([begins] * assignments, [(assignments - 1, 0)] * 16)] * ports)


def device_file(sync_block, delay_block, frame_block, period_block):
    fields = struct.pack(">2xHH", 0, 0x8000) + delay_block + frame_block + period_block
    return sync_block + block(0x0205, 1, 1, fields)
