"""The board of a devicetree is the stored one, and is accepted; and the commands of docs/manual/tools_boards.md print what it says."""
import importlib.util
import os
import re
import shutil
import subprocess
import tempfile
import unittest
from pathlib import Path

from board_rows import TOP

@unittest.skipUnless(shutil.which("dtc") and importlib.util.find_spec("libfdt"), "device-tree-compiler or python3-libfdt is missing")
class DevicetreeTest(unittest.TestCase):
    def setUp(self) -> None:
        self.folder = tempfile.mkdtemp()
        self.addCleanup(shutil.rmtree, self.folder)
        os.symlink(TOP / "tools", f"{self.folder}/tools")

    def printed(self, command: str) -> str:
        """What a command prints, with a last line for its status where that isn't 0."""
        return subprocess.getoutput(f"cd {self.folder} && {{ {command}; }} 2>&1 || echo status $?")

    def test_the_stored_board(self) -> None:
        self.assertEqual(self.printed("dtc -q -O dtb -o b.dtb tools/tests/board.dts && tools/dt2board b.dtb >b.toml"), "")
        self.assertEqual(Path(self.folder, "b.toml").read_text(), (TOP / "tools/tests/board.toml").read_text())
        self.assertEqual(self.printed('"$I2CBUS" check b.toml'), "accepted: 2 roots 6 muxes 8 devices 22 buses")

    def test_commands_of_the_page(self) -> None:
        page = (TOP / "docs/manual/tools_boards.md").read_text()
        for name, text in re.findall(r"^```[a-z]+ file=(\S+)\n(.*?)^```$", page, re.M | re.S):
            Path(self.folder, name).write_text(text)
        for command, due in re.findall(r"^\$ (?!i2cbus)(.*)\n((?:(?!\$ |```).*\n)*)", page, re.M):
            self.assertEqual(self.printed(command), due.rstrip("\n"), command)
