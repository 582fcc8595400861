"""Lines whose words ask for a command, told by the file that is not there, and lines that ask for nothing."""

MOST = 18446744073709551615

# What is looked for.
ASKING = [
    ("plan -- none.toml", "none.toml"),
    ("check -", "-"),
    ("check -- -p", "-p"),
    ("show plan", "plan"),
    ("sync none.toml 1 0", "none.toml"),
    (f"sync none.toml 10000 {MOST}", "none.toml"),
    ("sync -- -p 7 41", "-p"),
]

IDLE = [
    "",
    "help",
    "-h",
    "-5 p1.toml",
    "5 check p1.toml",
    "p1.toml check",
    "-- check p1.toml",
    "plan",
    "check",
    "check ",
    "check -p",
    "check --help",
    "check p1.toml x",
    "check p1.toml 1 1",
    "show --world w.txt a1.ird",
    "sync p40.toml",
    "sync p40.toml 5",
    "sync p40.toml 5 1 1",
    # CYCLES is 1..10000
    "sync p40.toml 0 1",
    "sync p40.toml 10001 1",
    "sync p40.toml 05 1",
    "sync p40.toml +5 1",
    "sync p40.toml -5 1",
    "sync p40.toml five 1",
    # SEED
    f"sync p40.toml 1 {MOST + 1}",
    "sync p40.toml 1 007",
    "sync p40.toml 1 ",
    # a seed or a world
    "run p1.toml 5",
    "run p1.toml 5 1 --world w.txt",
    "run p1.toml 5 --world=",
    "run p1.toml 10001 0 --world",
    f"run --world - p1.toml 10001 {MOST}",
    f"free p1.toml 10001 {MOST}",
    # DEVICES is 2..64, FRAMES 0..512
    "gen 7 1 0 n",
    "gen 7 65 0 n",
    "gen 7 2 513 n",
    "gen 7 2 0",
]


def words():
    asking = [(line, 3, f"absent {name}\n") for line, name in ASKING]
    return asking + [(line, 1, "usage\n") for line in IDLE]
