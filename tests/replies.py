"""The numbers that each call can give, as tests/numbers.txt has them, and those that each subcommand of remi can tell."""

from pathlib import Path

LINES = [line.split() for line in Path(__file__).with_name("numbers.txt").read_text().splitlines() if line[:1] != "#"]
NUMBERS = {call: set(map(int, numbers)) for call, *numbers in LINES}
PROFILE, TABLE, OUTPUT_SHORT = {1, 2, 3}, {5, 6}, {9}

# What a subcommand can tell besides 12 for a row that there is not: remi lends every call enough to write to.
TOLD = {
    name: numbers - OUTPUT_SHORT
    for name, numbers in {
        "read": NUMBERS["read_stream"],
        "check": NUMBERS["read_stream"],
        "write": NUMBERS["write_stream"],
        "find": NUMBERS["find_pattern"],
        "join": NUMBERS["join_streams"],
        "turn": NUMBERS["turn_stream"],
        "index": NUMBERS["index_of_word"],
        "word": NUMBERS["word_of_index"],
        "table": NUMBERS["build_table"] | TABLE,
        "rate": NUMBERS["rate_of_words"],
        "profiles": NUMBERS["published_profile"],
        "list": NUMBERS["list_code"] | PROFILE,
        "help": {0},
    }.items()
}
