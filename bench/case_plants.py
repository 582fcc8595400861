"""Plants and device files of a case of crates/program_cases."""

import pathlib

import blocks

DATA = pathlib.Path(__file__).resolve().parent.parent / "crates/program_cases/data"
RED = 250000  # ns


def entry(frame, offset, receiving, sending, ratio=1, phase=1, length=40):
    """An entry that is due in every cycle, where nothing else is said."""
    return (frame, offset, ratio, phase, receiving, sending, length)


def port_periods(changed=None):
    """Red to the plant's limit in all phases, but for one phase, or all (None), that have these six begins."""
    plain = (0, RED, RED, 0, RED, RED)
    if changed is None:
        return blocks.port_periods([plain], [(0, 0)] * 16)
    phase, begins = changed
    pairs = [(1, 1) if phase in (None, other) else (0, 0) for other in range(16)]
    return blocks.port_periods([plain, begins], pairs)


class Case:
    """A plant, whose devices have a letter and a number: that of the case, or for shared files that of another one."""

    def __init__(self, number, shared=None, own=()):
        self.number = number
        self.shared = number if shared is None else shared
        self.own = own
        self.send = 32
        self.text = ""
        self.ports = {}
        self.modes = {}

    def name(self, letter):
        return f"{letter}{self.number if letter in self.own else self.shared}"

    def head(self, **keys):
        values = dict(factor=32, window=1000, red_max=RED, orange=0, clocks='"world"')
        values.update(keys)
        self.text += "".join(f"{key} = {value}\n" for key, value in values.items())
        return self

    def sync(self, send, **values):
        self.send = send
        values["send"] = send
        self.text += "[sync]\n" + "".join(f"{key} = {value}\n" for key, value in values.items())
        return self

    def device(self, letter, ports=1, mode="absolute"):
        self.ports[letter] = ports
        self.modes[letter] = mode
        places = ", ".join(["[100, 200]"] * ports)
        self.text += f'[[device]]\nname = "{self.name(letter)}"\nmode = "{mode}"\nbmin = 1000\nbmax = 3000\nports = [{places}]\n'
        return self

    def link(self, start, start_port, end, end_port, delay=500):
        self.text += f'[[link]]\nfrom = "{self.name(start)}"\nfrom_port = {start_port}\n'
        self.text += f'to = "{self.name(end)}"\nto_port = {end_port}\ndelay = {delay}\n'
        return self

    def demand(self, frame, start, ends, length=40, update=1000000):
        names = ", ".join(f'"{self.name(end)}"' for end in ends)
        self.text += f'[[demand]]\nframe = {frame:#06x}\nfrom = "{self.name(start)}"\nto = [{names}]\n'
        self.text += f"length = {length}\nupdate = {update}\n"
        return self

    def traffic(self, start, end):
        self.text += f'[[traffic]]\nfrom = "{self.name(start)}"\nto = "{self.name(end)}"\nclass = "orange"\n'
        self.text += "length = 60\nevery = 1\ncount = 1\n"
        return self

    def pair(self, **keys):
        return self.head(**keys).device("a").device("b").link("a", 1, "b", 1)

    def line(self, mode="absolute"):
        return self.head().device("a").device("s", 2, mode).device("b").link("a", 1, "s", 1).link("s", 2, "b", 1)

    def save(self):
        (DATA / f"p{self.number}.toml").write_text(self.text)
        return self

    def file(self, letter, data):
        (DATA / f"{self.name(letter)}.ird").write_bytes(data)

    def give(self, letter, entries, begins=None, sync=None, delays=None, ports=None, relative=None, reds=None):
        """The device's file with these entries, and with what differs: begins by port, numbers of the sync block and of the
        delays, another number of ports of the period block, another mode, the first and last red FrameID."""
        own = self.ports[letter]
        begins = begins or {}
        mode = self.modes[letter] == "relative" if relative is None else relative
        periods = [port_periods(begins.get(port + 1)) for port in range(ports or own)]
        data = blocks.device_file(
            blocks.sync(3, **{"send": self.send, **(sync or {})}),
            blocks.delays(**{"ports": own, **(delays or {})}),
            blocks.frames([blocks.entry(*entry) for entry in entries], mode),
            blocks.period_block(periods, *(reds or (blocks.FIRST_FRAME, blocks.LAST_FRAME))),
        )
        self.file(letter, data)
        return self
