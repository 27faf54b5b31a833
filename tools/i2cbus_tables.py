"""What docs/manual/ says of the keys of a board and of a map, of the words of a script, and of the forms of the command line.

In a grammar a tuple is one item after the other, a list one of its items, CLASS a word of a class, CLASS*9 one to 9, and `text` that word.
"""
import re
from itertools import permutations
from typing import Any, NamedTuple

class Key(NamedTuple):
    """What stands at a key of a table."""
    form: str              # number, flag, word, runs, pairs or tables
    says: str
    allowed: tuple = ()    # the least and the greatest number, the words, the size of the memory, or how many tables
    default: Any = None
    needed: bool = False

CHANNELS = {"pca9548": 8, "pca9546": 4, "pca9544": 4, "pca9541": 1, "gpio": None}
MEMORY = {"24c02": 256, "24c32": 4096, "24c256": 32768, "regs": 256, "smbus": 256}
MOST = {"root": 8, "mux": 32, "device": 128, "atr": 32}
BUS = Key("number", "the bus that it stands on", (0, MOST["root"] + 8 * MOST["mux"] - 1), needed=True)
ADDRESS = Key("number", "its address, of 7 bits", (0x08, 0x77), needed=True)
LINE_KEYS = {
    "bus": BUS, "kind": Key("word", "which mux it is", tuple(CHANNELS), needed=True),
    "lock": Key("word", "which locks a transfer through it takes", ("parent", "mux"), "parent"),
    "idle": Key("word", "whether it is closed after each transfer, or keeps its last channel", ("disconnect", "as-is"), "disconnect"),
}
CHIP_KEYS = LINE_KEYS | {"address": ADDRESS, "absent": Key("flag", "the board has a place for it, but no chip", default=False)}
MUX = {kind: CHIP_KEYS for kind in ("pca9548", "pca9546", "pca9544")} | {
    "pca9541": CHIP_KEYS | {"foreign": Key("number", "how often it is found with its other controller", (0, 8), 0)},
    "gpio": LINE_KEYS | {"channels": Key("number", "how many channels it has", (1, 8), needed=True)},
}
EEPROM_KEYS = {"fill": Key("number", "what each byte holds before set", (0, 255), 255),
               "busy": Key("number", "how many starts it refuses after a write", (0, 255), 0),
               "wp": Key("flag", "its bytes are protected from writes", default=False)}
OWN_KEYS = {
    **{kind: EEPROM_KEYS for kind in ("24c02", "24c32", "24c256")},
    "lm75": {"raw": Key("number", "the temperature register", (0, 65535), 0)},
    "regs": {"hold": Key("number", "for how many looks it holds the clock at its address", (0, 200), 0)},
    "smbus": {"width": Key("number", "how many bytes its data have; 0 is a block", (0, 2), 1),
              "flip": Key("number", "what is wrong with the error code that it sends", (0, 255), 0)},
}
EVERY_DEVICE = {"bus": BUS, "kind": Key("word", "which device it is", tuple(OWN_KEYS), needed=True),
                "address": ADDRESS, "bound": Key("flag", "a driver is bound to it", default=False)}
SET = {kind: {"set": Key("runs", "runs of bytes, each [start, byte, ..]", (size,))} for kind, size in MEMORY.items()}
DEVICE = {kind: EVERY_DEVICE | SET.get(kind, {}) | keys for kind, keys in OWN_KEYS.items()}
ALONE = {
    "top": {"version": Key("number", "the block limit: 1 is 32 bytes, 2 is 255", (1, 2), needed=True),
            "root": Key("tables", "the root buses"), "mux": Key("tables", "the muxes, each behind those that it stands below"),
            "device": Key("tables", "the devices")},
    "root": {"offers": Key("word", "all transfers, or SMBus calls alone", ("all", "smbus"), "all")},
    "map": {"atr": Key("tables", "the translators", (1, MOST["atr"]), needed=True)},
    "atr": {"mux": Key("number", "the mux that stands for it", (0, 31), needed=True),
            "pairs": Key("pairs", "each [address, alias]", ADDRESS.allowed, needed=True)},
}
RULES = {
    "TR1": "no address stands twice on one bus, nor on a bus and on one above it; chips of muxes count, absent ones too",
    "TR2": "no bus has more than four muxes over it",
    "TR3": "no parent-locked mux stands below a mux-locked one",
    "TR4": "gpio muxes and arbitrators are parent-locked",
    "TR5": 'a mux with idle = "as-is" is a pca9548, pca9546 or pca9544, and no address below it stands beside it on its root',
}

RANGES = {
    "BUS": (0, 65535), "ADDR": ADDRESS.allowed, "REG": (0, 255), "BYTE": (0, 255), "WORD": (0, 65535), "H": (0, 999), "N": (1, 512),
    "LEN": (1, 32), "COUNT": (1, 32768), "OFFSET": (0, 65535), "FIRST": (0, 0x7f), "LAST": (0, 0x7f),
    "SEED": (0, 2**64 - 1), "ROOTS": (1, 8), "LINES": (1, 1000), "ROOT": (0, 65535), "CUT": (1, 18),
}
DECIMAL, FILES = ("SEED", "ROOTS", "LINES", "ROOT", "CUT"), ("BOARD", "SCRIPT", "SCHEDULE", "JOURNAL", "MAP")
OTHERS = {name: f"{name} (the name of a file, in UTF-8, that doesn't begin with -)" for name in FILES} | {
    "RANGE": "FIRST-LAST, two numbers from 0 to 255, the last not below the first",
    "MILLI": "a multiple of 500 from -128000 to 127500",
    "DESC": "rLENGTH@ADDR or wLENGTH@ADDR (1 to 512 bytes, 0 too of w; 4096 bytes and 42 messages in all; the first has its @ADDR)",
    "DATA": "a byte (0 to 255), maybe with = + or - where it isn't the last of its message",
    "ROOT": "BUS, the number of a root in decimal", "": "the end of the line",
}
FORCE = ["-y", *permutations(("-y", "-f"))]
RANGED = [*permutations(("-y", ("-r", "RANGE"))), *permutations(("-y", "-f", ("-r", "RANGE")))]
PROBES = ["-y", *permutations(("-y", "-q")), *permutations(("-y", "-r"))]
TABLE_MODES = ["b", "w", "c", "bp", "wp", "cp"]
COMMANDS = [
    ("i2cget", FORCE, "BUS", "ADDR", [(), ("REG", [(), "s", "sp", *TABLE_MODES, ("i", [(), "LEN"])])]),
    ("i2cset", FORCE, "BUS", "ADDR", "REG",
     [(), "c", "cp", ("BYTE", [(), "b", "bp"]), ("WORD", ["w", "wp"]), ("BYTE*LIMIT", ["s", "sp"]), ("BYTE*32", "i")]),
    ("i2cdump", [(FORCE, "BUS", "ADDR", [(), "i", *TABLE_MODES]), (RANGED, "BUS", "ADDR", [(), *TABLE_MODES])]),
    ("i2cdetect", ["-l", (PROBES, "BUS", [(), ("FIRST", "LAST")])]),
    ("i2ctransfer", FORCE, "BUS", "MESSAGES"),
    ("open", "BUS"), ("slave", "H", "ADDR"), ("force", "H", "ADDR"), ("pec", "H", ["on", "off"]),
    ("read", "H", "N"), ("write", "H", "BYTE*512"), ("rdwr", "H", "MESSAGES"),
    ("proc", "H", "REG", "WORD"), ("bproc", "H", "REG", "BYTE*LIMIT"), ("close", "H"),
    ("at24", [("read", "BUS", "ADDR", "OFFSET", "COUNT"), ("write", "BUS", "ADDR", "OFFSET", "BYTE*64")]),
    ("lm75", [("read", "BUS", "ADDR", ["temp", "hyst", "max"]), ("write", "BUS", "ADDR", ["hyst", "max"], "MILLI")]),
    ("sensors",),
]
FORMS = [
    ("run", "BOARD", "SCRIPT*8"), ("replay", "BOARD", "SCHEDULE", "SCRIPT*8"), ("check", "BOARD"), ("gen", "SEED", "ROOTS", "LINES"),
    ("verify", "BOARD", "JOURNAL", "SCRIPT*8"), ("atr", "BOARD", "MAP", "SCHEDULE", "SCRIPT*8"), ("cached", "BOARD", "SCHEDULE", "SCRIPT*8"),
    ("clear", "BOARD", "ROOT", "ADDR", "CUT"),
]

def keys_of(name: str, kind: Any) -> dict[str, Key]:
    """The keys that a table may have; of an unknown kind the kind alone is known."""
    kinds = MUX if name == "mux" else DEVICE
    return ALONE.get(name) or (kinds[kind] if isinstance(kind, str) and kind in kinds else {"kind": next(iter(kinds.values()))["kind"]})

def number_of(word: str) -> int | None:
    """The number that a word spells, decimal or hexadecimal; of more than 100 digits it is told as none."""
    return int(word, 0) if re.fullmatch(r"0|[1-9][0-9]{0,99}|0x0*[0-9a-fA-F]{1,99}", word) else None

def fits(name: str, word: str, before: str) -> bool:
    """Whether a word is of a class, or is the very word that is named; `before` is the word before it."""
    number = number_of(word.removeprefix("-") if name == "MILLI" else word)
    if name == "MILLI":
        return number is not None and number % 500 == 0 and (0 < number <= 128000 if word[0] == "-" else number <= 127500)
    if name == "RANGE":
        ends = [number_of(end) if fits("BYTE", end, "") else None for end in word.partition("-")[::2]]
        return None not in ends and ends[0] <= ends[1]
    if name in RANGES:
        low = number_of(before) or 0 if name == "LAST" else RANGES[name][0]
        return number is not None and low <= number <= RANGES[name][1] and not (name in DECIMAL and word[:2] == "0x")
    return re.fullmatch(r"[^-\ud800-\udfff][^\ud800-\udfff]*", word) is not None if name in FILES else name == word

def due_in_messages(words: list[str]) -> set[str]:
    """What may stand behind these words of a list of messages; nothing where one of them is refused."""
    count = total = left = 0
    for word in words:
        data, desc = re.fullmatch(r"(\w+)([=+-]?)", word), re.fullmatch(r"([rw])(\w+)(?:@(\w+))?", word)
        if left:
            if not data or not fits("BYTE", data[1], "") or data[2] and left == 1:
                return set()
            left = 0 if data[2] else left - 1
        else:
            length = number_of(desc[2]) if desc and (fits("ADDR", desc[3], "") if desc[3] else count) else None
            if length is None or not int(desc[1] == "r") <= length <= min(512, 4096 - total) or count == 42:
                return set()
            count, total, left = count + 1, total + length, length if desc[1] == "w" else 0
    return {"DATA"} if left else {"DESC", ""} if count else {"DESC"}

def due(grammar: Any, words: list[str], limit: int = 32, rest: tuple = (), at: int = 0) -> set[str]:
    """The words and classes that may stand behind these words, "" being the end; nothing where one of them is refused."""
    if isinstance(grammar, list):
        return set().union(*(due(item, words, limit, rest, at) for item in grammar))
    if isinstance(grammar, tuple):
        left = (*grammar, *rest)
        return due(left[0], words, limit, left[1:], at) if left else set() if at < len(words) else {""}
    if grammar == "MESSAGES":
        return due_in_messages(words[at:])
    name, _, most = grammar.partition("*")
    found: set[str] = set()
    for place in range(at, at + int(most.replace("LIMIT", str(limit)) or 1)):
        if place == len(words):
            return found | {name}
        if not fits(name, words[place], words[place - 1]):
            break
        found |= due((), words, limit, rest, place + 1)
    return found

def refused_at(grammar: Any, words: list[str], limit: int = 32) -> int | None:
    """The place of the first word that no line can have there, or of one that is missing."""
    return None if "" in due(grammar, words, limit) else next(k for k in range(len(words), -1, -1) if due(grammar, words[:k], limit))
