"""Plant files that are drawn by a seed, as `gen` draws them, written by a program of its own."""

MASK = 2**64 - 1
CYCLE = 4000000  # ns


def mix(number):
    number = (number + 0x9E3779B97F4A7C15) & MASK
    number = (number ^ (number >> 30)) * 0xBF58476D1CE4E5B9 & MASK
    number = (number ^ (number >> 27)) * 0x94D049BB133111EB & MASK
    return number ^ (number >> 31)


def draw(seed, *places):
    number = mix(seed)
    for place in places:
        number = mix((number + place) & MASK)
    return number


HEAD = """factor = 128
window = 1000
red_max = 3500000
orange = 0
clocks = "world"
"""


def device(seed, number):
    mode = "absolute" if draw(seed, 1, number, 0) % 4 else "relative"
    ports = ", ".join(["[100, 200]"] * 7)
    return f'[[device]]\nname = "d{number}"\nmode = "{mode}"\nbmin = 1000\nbmax = 3000\nports = [{ports}]\n'


def link(seed, number):
    """Each device from 1 hangs on one of six ports of a device before it."""
    parent, port = (number - 1) // 6, 2 + (number - 1) % 6
    delay = 500 + draw(seed, 2, number, 0) % 500
    return f'[[link]]\nfrom = "d{parent}"\nfrom_port = {port}\nto = "d{number}"\nto_port = 1\ndelay = {delay}\n'


def demand(seed, devices, number):
    provider = draw(seed, 3, number, 0) % devices
    consumer = (provider + 1 + draw(seed, 3, number, 1) % (devices - 1)) % devices
    length = 40 + 8 * (draw(seed, 3, number, 2) % 4)
    update = CYCLE << draw(seed, 3, number, 3) % 4
    return f'[[demand]]\nframe = {0x100 + number}\nfrom = "d{provider}"\nto = ["d{consumer}"]\nlength = {length}\nupdate = {update}\n'


def plant(seed, devices, frames):
    return (
        HEAD
        + "".join(device(seed, number) for number in range(devices))
        + "".join(link(seed, number) for number in range(1, devices))
        + "".join(demand(seed, devices, number) for number in range(frames))
    )
