"""The schema is current, takes each board that is accepted, and refuses those whose fault it can know."""
import importlib.util
import json
import re
import subprocess
import tomllib
import unittest

from board_rows import TOP, load, rows_of, words_of

jsonschema = importlib.import_module("jsonschema") if importlib.util.find_spec("jsonschema") else None
why = load("i2cbus-why")
SCHEMA = (TOP / "tools/board.schema.json").read_text()

class SchemaTest(unittest.TestCase):
    def test_it_is_current(self) -> None:
        self.assertEqual(SCHEMA, subprocess.run([TOP / "tools/make-schema"], stdout=subprocess.PIPE, text=True, check=True).stdout)

    @unittest.skipUnless(jsonschema, "python3-jsonschema is missing")
    def test_boards_of_rows_and_examples(self) -> None:
        boards = [(path.parent.name, path.read_text(), "") for path in TOP.glob("examples/*/board.toml")]
        for row in (row for path in TOP.glob("rows/*.rows") for row in rows_of(path) if words_of(row)[:1] in (["check"], ["replay"], ["run"])):
            answer = "".join(row["prints"]) if row["status"] else ""
            if row["status"] in ([], ["3"]) and answer != "board: not TOML":
                boards.append((row["name"], row["files"][words_of(row)[1]].decode(), answer))
        self.assertGreater(len(boards), 500)
        validator = jsonschema.Draft4Validator(json.loads(SCHEMA))
        for name, text, answer in boards:
            is_taken = validator.is_valid(tomllib.loads(text))
            place = re.fullmatch(r"board: value in (mux|device) (\d+)", answer)
            faults = why.faults(place[1], tomllib.loads(text)[place[1]][int(place[2])], 265) if place else [("", "", "")]
            # that a board lacks a bus, and that a run passes the end of a memory, is beyond a schema
            if not is_taken or any(key != "set" for _, key, _ in faults):
                self.assertEqual(is_taken, not answer or answer.startswith("board: rule"), name)
