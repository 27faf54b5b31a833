"""What i2cbus-why says of each row of why.rows and of each refused row of rows/, and the tables of keys beside the manual."""
import os
import re
import tempfile
import unittest
from pathlib import Path

from board_rows import TOP, load, rows_of, words_of

why = load("i2cbus-why")
tables = why.tables

def said_of(row: dict) -> str:
    """What is said of a row, behind what the program prints."""
    with tempfile.TemporaryDirectory() as folder:
        for name, text in row["files"].items():
            Path(folder, name).write_bytes(text)
        os.chdir(folder)
        status, out = why.printed(words_of(row))
        answer = out.decode(errors="surrogateescape").removesuffix("\n")
        said = why.whys(words_of(row), answer) if status else []
        os.chdir(TOP)
    return "\n".join([answer, *said])

class WhyTest(unittest.TestCase):
    def test_each_row_of_its_own(self) -> None:
        rows = rows_of(TOP / "tools/tests/why.rows")
        self.assertGreater(len([row for row in rows if row["says"]]), 100)
        for row in rows:
            said = said_of(row)
            self.assertEqual([text for text in row["says"] if text not in said], [], f"{row['name']}: {said}")

    def test_each_refused_row_has_a_reason_with_its_place(self) -> None:
        for row in (row for path in TOP.glob("rows/*.rows") for row in rows_of(path) if row["status"] not in ([], ["0"])):
            self.assertRegex(said_of(row), r"\n(rule TR|the command line: word|.+:\d+:\d+: ..|.+: [^:]+$)", row["name"])

    def test_words_are_those_of_the_program(self) -> None:
        for row in (row for path in TOP.glob("rows/*.rows") for row in rows_of(path) if words_of(row)[:1] in (["run"], ["replay"], ["cached"])):
            told = re.fullmatch(r"script (\d+) line (\d+) word (\d+)", "".join(row["prints"]))
            limit = 255 if b"version = 2" in row["files"].get("".join(words_of(row)[1:2]), b"") else 32
            for caller, path in enumerate(why.named(words_of(row), "SCRIPT") if told or row["status"] in ([], ["0"]) else []):
                lines = [re.findall(r"[^ \t]+", line) for line in row["files"].get(path, b"").decode("latin-1").replace("\r\n", "\n").split("\n")]
                places = {number: tables.refused_at(tables.COMMANDS, words, limit) for number, words in enumerate(lines, 1)
                          if words and words[0][0] != "#" and len(lines) < 100}
                if told and caller == int(told[1]) and len(lines) < 100:
                    self.assertEqual(places.pop(int(told[2])), int(told[3]), row["name"])
                self.assertTrue(told or set(places.values()) <= {None}, row["name"])

    def test_keys_are_those_of_the_manual(self) -> None:
        pattern = r"^\| (?:the )?`?(top|root|mux|device)`?(?:: ([^|]*))? \| ([^|]*\|[^|]*) \|$"
        rows = re.findall(pattern, (TOP / "docs/manual/faults.md").read_text(), re.M)
        self.assertEqual(len(rows), 9)
        for table, kinds, manual in rows:
            for kind in re.findall(r"`(\w+)`", kinds) or [""]:
                keys = tables.keys_of(table, kind)
                parts = [{key for key, rule in keys.items() if rule.needed is needed} for needed in (True, False)]
                self.assertEqual(parts, [set(re.findall(r"`(\w+)`", part)) for part in manual.split("|")], kind)

    def test_values_are_those_of_the_manual(self) -> None:
        text = (TOP / "docs/manual/boards.md").read_text()
        for heading, name, kinds in (("A root", "root", [""]), ("A mux", "mux", tables.MUX), ("A device", "device", tables.DEVICE)):
            for key, row in re.findall(r"^\| `(\w+)` \|(.*) \|$", text.split(f"\n## {heading}\n")[1].split("\n## ")[0], re.M):
                rules = [keys[key] for kind in kinds if key in (keys := tables.keys_of(name, kind))]
                self.assertTrue(rules or key in tables.CHANNELS, key)
                for rule in rules:
                    due = "required" if rule.needed else "none" if rule.form == "runs" else str(rule.default).lower()
                    self.assertEqual(row.split("| ")[-1].strip('`"'), due, key)
                    if rule.form == "number" and rule is not tables.BUS:
                        self.assertIn(" to ".join(f"{number:#04x}" if key == "address" else str(number) for number in rule.allowed), row, key)
                    if rule.form == "word":
                        self.assertEqual(set(rule.allowed), set(re.findall(r'`"([\w-]+)"`', row)), key)
