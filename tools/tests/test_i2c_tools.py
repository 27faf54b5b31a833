"""The commands of i2c-tools over a board, and every example of the page of these tools."""
import os
import re
import shlex
import subprocess
import tempfile
import unittest
from pathlib import Path

TOP = Path(__file__).resolve().parents[2]
if (proved := TOP / "crates/i2cbus/out/i2cbus").exists():
    os.environ.setdefault("I2CBUS", str(proved))
needs_program = unittest.skipUnless("I2CBUS" in os.environ, "there is no program i2cbus")

BOARD = """version = 1
root = [{}, { offers = "smbus" }]
device = [{ bus = 0, kind = "regs", address = 0x20, set = [[0, 0x41, 0x42, 0x00, 0x7f]] },
          { bus = 0, kind = "24c02", address = 0x50, bound = true }]
"""

BUSY = "Error: Could not set address to 0x50: Device or resource busy\n"
MISSING = "Error: Could not open file `/dev/i2c-7' or `/dev/i2c/7': No such file or directory\n"
HEADING = "     0  1  2  3  4  5  6  7  8  9  a  b  c  d  e  f"
ROWS = [f"{'20: 20 --' if row == 2 else f'{row}0:':52}\n" for row in range(8)]
ENDS = {  # what each call prints, and its status
    "i2cget -y 0 0x20 0": ("0x41\n", 0),
    "i2cget -y 0 0x21 0": ("Error: Read failed\n", 2),
    "i2cget -y 0 0x20 0 bp": ("Error: Read failed\n", 2),
    "i2cget -y 0 0x50 0": (BUSY, 1),
    "i2cget -fy 0 0x50 0": ("0xff\n", 0),
    "i2cget -y 7 0x20": (MISSING, 1),
    "i2cset -y 0 0x21 9 1": ("Error: Write failed\n", 1),
    "i2cdump -y -r 0-2 0 0x20 b": (f"{HEADING}    0123456789abcdef\n{'00: 41 42 00':55}{'AB.':16}\n", 0),
    "i2cdump -y -r 0-1 0 0x20 w": (f"     0,8  1,9  2,a  3,b  4,c  5,d  6,e  7,f\n{'00: 4241 0042':44}\n", 0),
    "i2cdump -y 0 0x50": ("No size specified (using byte-data access)\n" + BUSY, 1),
    "i2cdump -y 0 0x21 i": ("Error: Block read failed, return code -6\n", 1),
    "i2cdump -y 0 0x21 c": ("Error: Write start address failed, return code -6\n", 1),
    "i2cdetect -y 0 0x20 0x21": (f"{HEADING}\n{''.join(ROWS)}", 0),
    "i2cdetect -l": ("i2c-0 root\ni2c-1 root\n", 0),
    "i2cdetect -y 7": (MISSING, 1),
    "i2ctransfer -y 0 w1@0x20 0 r2 r1": ("0x41 0x42\n0x00\n", 0),
    "i2ctransfer -y 0 w2@0x20 5 6": ("", 0),
    "i2ctransfer -y 0 w1@0x21 0": ("Error: Sending messages failed: No such device or address\n", 1),
    "i2ctransfer -y 0 w1@0x50 0": (BUSY + "Error: faulty argument is 'w1@0x50'\n", 1),
    "i2ctransfer -y 1 w1@0x20 0": ("Error: Adapter does not have I2C transfers capability\n", 1),
}
REFUSED = {
    "i2cget 0 0x20 0": "-y is required, since nobody is there to be asked",
    "i2cget -y 0 0x20 256": "the arguments are refused at '256'",
    "i2cget -y 0": "the arguments are refused at 'the end'",
    "i2cget -y 0 '0x20 0'": "argument '0x20 0' isn't one word",
    "I2CBUS_BOARD=nowhere i2cget -y 0 0x20": "cannot read nowhere",
}


def shell(folder: str, text: str, **more: str) -> str:
    """What a shell prints, both streams as they come, in a folder that has these tools and examples."""
    for name in ("tools", "examples"):
        if not os.path.lexists(link := Path(folder, name)):
            link.symlink_to(TOP / name)
    return subprocess.run(["bash", "-c", text], cwd=folder, env={**os.environ, "PYTHONDONTWRITEBYTECODE": "1", **more}, text=True,
                          stdin=subprocess.DEVNULL, stdout=subprocess.PIPE, stderr=subprocess.STDOUT).stdout


@needs_program
class Tools(unittest.TestCase):
    def setUp(self) -> None:
        self.folder = self.enterContext(tempfile.TemporaryDirectory())
        Path(self.folder, "board.toml").write_text(BOARD)

    def run_shell(self, text: str) -> str:
        return shell(self.folder, text, PATH=f"{TOP}/tools/i2c-tools:{os.environ['PATH']}",
                     I2CBUS_BOARD="board.toml", I2CBUS_SESSION="session.txt")

    def test_each_command_ends_as_the_real_one(self) -> None:
        for line, (printed, status) in ENDS.items():
            self.assertEqual(self.run_shell(f"{line}; echo $?"), f"{printed}{status}\n", line)
        self.assertEqual(len(Path(self.folder, "session.txt").read_text().splitlines()), len(ENDS))

    def test_a_refused_call_adds_nothing(self) -> None:
        for line, message in REFUSED.items():
            self.assertEqual(self.run_shell(f"{line}; echo $?"), f"Error: {message}\n1\n", line)
        self.assertEqual(Path(self.folder, "session.txt").read_text(), "")

    def test_calls_at_one_time_all_join_the_session(self) -> None:
        self.run_shell("for n in 1 2 3 4 5 6; do i2cset -y 0 0x20 $n $n & done; wait")
        self.assertEqual(self.run_shell("i2cget -y 0 0x20 1 i 6"), "0x01 0x02 0x03 0x04 0x05 0x06\n")


@needs_program
class Page(unittest.TestCase):
    def test_every_example(self) -> None:
        """A file is written, or compared with the one that is there. A console is run, with all that was exported before."""
        exported: list[str] = []
        page = (TOP / "docs/manual/tools_runs.md").read_text()
        with tempfile.TemporaryDirectory() as folder:
            for kind, name, block in re.findall(r"^```(\w+)(?: file=(\S+))?\n(.*?)^```$", page, re.MULTILINE | re.DOTALL):
                if name:
                    file = Path(folder, name)
                    self.assertEqual(file.read_text() if file.exists() else block, block)
                    file.write_text(block)
                elif kind == "console":
                    commands = re.findall(r"^\$ (.*)$", block, re.MULTILINE)
                    steps = [f"echo {shlex.quote('$ ' + command)}\n{command}" for command in commands]
                    printed = shell(folder, "\n".join([*exported, *steps]))
                    self.assertEqual(re.sub(" +$", "", printed, flags=re.MULTILINE), block)
                    exported += [command for command in commands if command.startswith("export ")]
