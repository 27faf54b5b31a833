"""Rows of tables (rows/README.md has their form), tools as modules, and the program that the tests run."""
import os
import re
import runpy
import sys
from pathlib import Path
from types import SimpleNamespace

sys.dont_write_bytecode = True
TOP = Path(__file__).resolve().parents[2]
sys.path.insert(0, str(TOP / "tools"))
os.environ.setdefault("I2CBUS", str(TOP / "crates/i2cbus/out/i2cbus"))

def load(name: str) -> SimpleNamespace:
    """What a tool defines."""
    return SimpleNamespace(**runpy.run_path(str(TOP / "tools" / name)))

def plain(text: str) -> bytes:
    """The bytes of a text with escapes."""
    return b"" if text == "''" else text.encode().decode("unicode_escape").encode("latin-1")

def files_in(text: str, files: dict[str, bytes]) -> dict[str, bytes]:
    """The files of a row, beside those of its table."""
    files = files | {name: plain(said) for name, said in re.findall(r'^text (\S+) "(.*)"$', text, re.M)}
    for how, name, times, lines in re.findall(r"^(file|append) (\S+) ?(\d*)\n((?:.*\n)*?)\.$", text, re.M):
        files[name] = (files.get(name, b"") if how == "append" else b"") + lines.encode() * int(times or 1)
    return files

def rows_of(path: Path) -> list[dict]:
    """The rows of a table: its name, words, files, status, the line that it prints and the texts of its `says`."""
    head, *rows = re.split(r"^row ", path.read_text(), flags=re.M)
    return [{"name": f"{path.name}: {row.splitlines()[0]}", "files": files_in(row, files_in(head, {}))}
            | {key: re.findall(f"^{key}(?: (.*))?$", row, re.M) for key in ("words", "status", "prints", "says")} for row in rows]

def words_of(row: dict) -> list[str]:
    """The words of a row behind the program's name."""
    return [os.fsdecode(plain(word)) for word in row["words"][0].split(" ") if word]
