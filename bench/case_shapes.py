"""Plant files that fail a plant rule, and hostile ones, each with the rule and the index."""

from case_plants import DATA

CELL = """factor = 32
window = 1000
red_max = 250000
orange = 0
clocks = "ptcp"
[sync]
send = 4
stamp = 8
[[device]]
name = "a"
mode = "absolute"
bmin = 1000
bmax = 3000
ports = [[100, 200], [100, 200]]
[[device]]
name = "b"
mode = "relative"
bmin = 1001
bmax = 3001
ports = [[101, 201]]
[[device]]
name = "c"
mode = "absolute"
bmin = 1002
bmax = 3002
ports = [[102, 202]]
[[link]]
from = "a"
from_port = 1
to = "b"
to_port = 1
delay = 501
[[link]]
from = "c"
from_port = 1
to = "a"
to_port = 2
delay = 502
[[demand]]
frame = 0x0100
from = "a"
to = ["b"]
length = 40
update = 1000000
[[demand]]
frame = 0x0101
from = "b"
to = ["c", "a"]
length = 48
update = 2000000
[[traffic]]
from = "a"
to = "b"
class = "green"
length = 60
every = 1
count = 2
[[traffic]]
from = "b"
to = "c"
class = "orange"
length = 1514
every = 10000
count = 8
[[app]]
device = "a"
kind = "counter"
[[app]]
device = "b"
kind = "copy"
param = 7
"""

# The rule and index that fail where the second text is put in the place of the first in the cell. Rule 0 is a plant, and
# 20 no TOML document. `~` stands for a line's end.
EDITS = """0 0|[sync]|[sync]
1 0|orange = 0~|
1 0|"ptcp"|"wall"
1 0|delay = 501|delay = 4294967296
1 0|delay = 501|delay = -1
1 0|delay = 501|delay = "x"
1 0|delay = 501|delay = 501~extra = 1
1 0|length = 40|length = 40.0
1 0|[[101, 201]]|[101]
1 0|[[101, 201]]|[["x", 1]]
1 0|["b"]|"b"
1 0|[sync]|[[sync]]
1 0|"copy"|"move"
20 0|factor = 32|factor = 32~factor = 32
20 0|delay = 501|delay = 99999999999999999999
20 0|[sync]|[[
2 0|factor = 32|factor = 0
2 0|factor = 32|factor = 129
2 0|factor = 32|factor = 288
3 0|window = 1000|window = 10001
3 0|window = 1000|window = 4294967295
4 0|red_max = 250000|red_max = 998001
4 0|orange = 0|orange = 748001
0 0|orange = 0|orange = 748000
6 1|name = "b"|name = "a"
6 2|name = "c"|name = "C"
6 2|name = "c"|name = ""
6 1|name = "b"|name = "abcdefghijklmnopqrstuvwxyz0123456"
6 2|name = "c"|name = "é"
7 1|[[101, 201]]|[]
7 1|[[101, 201]]|[[101, 201, 3]]
7 2|[[102, 202]]|[[102, 100001]]
7 2|[[102, 202]]|[[0,0],[0,0],[0,0],[0,0],[0,0],[0,0],[0,0],[0,0]]
8 1|bmin = 1001|bmin = 3002
8 2|bmax = 3002|bmax = 100001
9 1|from = "c"|from = "d"
9 1|to_port = 2|to_port = 1
9 1|to_port = 2|to_port = 3
9 1|to_port = 2|to_port = 0
9 1|to_port = 2|to_port = 258
9 0|from_port = 1~to = "b"|from_port = 1~to = "a"
10 1|delay = 502|delay = 100001
10 0|red_max = 250000|red_max = 997200
10 1|red_max = 250000|red_max = 997197
0 0|red_max = 250000|red_max = 997196
11 1|frame = 0x0101|frame = 0x0700
11 1|frame = 0x0101|frame = 0x00ff
11 1|frame = 0x0101|frame = 0x0100
11 0|frame = 0x0100|frame = 0x10100
12 0|["b"]|["a"]
12 0|["b"]|[]
12 1|["c", "a"]|["c", "c"]
12 1|["c", "a"]|["c", "d"]
13 1|length = 48|length = 44
13 1|length = 48|length = 1448
13 0|length = 40|length = 65576
14 1|update = 2000000|update = 999999
14 0|update = 1000000|update = 0
15 0|length = 60|length = 59
15 1|length = 1514|length = 1515
15 1|every = 10000|every = 10001
15 1|count = 8|count = 9
15 1|count = 8|count = 264
15 1|to = "c"|to = "b"
16 1|device = "b"|device = "a"
16 0|device = "a"|device = "d"
18 0|send = 4|send = 0
18 0|send = 4|send = 4~timeout = 101
18 0|send = 4|send = 4~drift = 1001
18 0|send = 4|send = 4~loss = 1
18 0|stamp = 8|stamp = 1001
18 1|stamp = 8|stamp = 200
0 0|stamp = 8|stamp = 166
18 1|[[link]]~from = "a"~from_port = 1~to = "b"~to_port = 1~delay = 501~|
18 2|[[link]]~from = "c"~from_port = 1~to = "a"~to_port = 2~delay = 502~|
1 0|update = 2000000|update = 2000000~[[demand]]
"""

TOP = 'factor = 32\nwindow = 1000\nred_max = 250000\norange = 0\nclocks = "world"\n'
DEVICE = '[[device]]\nname = "d{}"\nmode = "relative"\nbmin = 0\nbmax = 0\nports = [[0, 0]]\n'
DEMAND = '[[demand]]\nframe = {}\nfrom = "d256"\nto = ["d257"]\nlength = 1440\nupdate = 1000000\n'
OTHER = '[[demand]]\nframe = 1{}\nfrom = "d258"\nto = ["d257"]\nlength = 1440\nupdate = 1000000\n'
TRAFFIC = '[[traffic]]\nfrom = "d256"\nto = "d257"\nclass = "green"\nlength = 60\nevery = 1\ncount = 1\n'

NESTED = 200000


def copies(table, count):
    """So many copies of a table, numbered from 256."""
    return "".join(table.format(256 + number) for number in range(count))


# Tables, and the rule and index that fail.
MANY = [
    ("", "5 0"),
    (copies(DEVICE, 64), "0 0"),
    (copies(DEVICE, 65), "5 0"),
    (copies(DEVICE, 2) + copies(DEMAND, 22), "0 0"),
    (copies(DEVICE, 2) + copies(DEMAND, 23), "17 0"),
    (copies(DEVICE, 3) + copies(DEMAND, 12) + copies(OTHER, 11), "17 1"),
    (copies(DEVICE, 2) + copies(DEMAND, 513), "11 512"),
    (copies(DEVICE, 2) + copies(TRAFFIC, 64), "0 0"),
    (copies(DEVICE, 2) + copies(TRAFFIC, 65), "15 64"),
]


def answered(number, data, failure, first):
    """A plant that no rule refuses is looked for on: the file of its first device is not there."""
    (DATA / f"r{number}.toml").write_bytes(data)
    line = f"check r{number}.toml"
    if failure == "0 0":
        return line, 3, f"absent {first}.ird\n"
    if failure == "20 0":
        return line, 5, "plant not toml\n"
    return line, 5, f"plant P{failure}\n"


def shapes():
    plants = []
    for edit in EDITS.splitlines():
        failure, old, new = edit.replace("~", "\n").split("|")
        plants.append((CELL.replace(old, new).encode(), failure, "a"))
    for tables, failure in MANY:
        plants.append(((TOP + tables).encode(), failure, "d256"))
    plants.append((b"\xff", "20 0", None))
    plants.append((b"a = " + b"[" * NESTED, "20 0", None))
    return [answered(number, *plant) for number, plant in enumerate(plants, 1)]
