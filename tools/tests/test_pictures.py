"""The pictures of boards and journals: those of the examples are current, and what can't be drawn is told."""
import re
import shutil
import subprocess
import sys
import unittest
from pathlib import Path

TOP = Path(__file__).resolve().parents[2]
BOARD = """root = [{}]
mux = [{ bus = 0, kind = "pca9546", address = 0x70, idle = "as-is", lock = "mux", absent = true }]
device = [{ bus = 4, kind = "regs", address = 0x20, bound = true }]
"""


def tool(name: str, *words: str, given: str = "", status: int = 0) -> str:
    """What a tool prints, or why it ends with another status."""
    ended = subprocess.run([sys.executable, TOP / "tools" / name, *words], input=given, capture_output=True, text=True)
    assert ended.returncode == status, ended
    return ended.stderr if status else ended.stdout


class Pictures(unittest.TestCase):
    def test_each_example_has_its_picture(self) -> None:
        for board in TOP.glob("examples/*/board.toml"):
            text = board.with_name("tree.svg").read_text().partition("</svg>\n<!--\n")[2]
            self.assertEqual(text, tool("board2dot", str(board)) + "-->\n", f"{board}: tools/board2dot --svg makes it anew")

    @unittest.skipUnless(shutil.which("dot"), "there is no dot of graphviz")
    def test_dot_draws_it(self) -> None:
        drawn = tool("board2dot", "--svg", "/dev/stdin", given=BOARD).replace("&#45;", "-")
        for words in ("mux 0: pca9546 at 0x70", "mux-locked", "idle as-is", "absent", "channel 3: bus 4", "device 0: regs at 0x20"):
            self.assertIn(f">{words}<", drawn)
        self.assertIn("mux0:bus4:e -> device0;", drawn)

    def test_what_cannot_be_drawn(self) -> None:
        for text in ("no TOML", "mux = [{}]", 'root = [{}]\ndevice = [{ bus = 7, kind = "regs" }]', "root = 1"):
            self.assertIn("is no board", tool("board2dot", "/dev/stdin", given=text, status=1))
        for text in ("", "caller 0\n", "journal\nleave 0 buslock 0\nend\n", "journal\n"):
            self.assertIn("this is no ", tool("journal2chart", "/dev/stdin", given=text, status=1))

    def test_the_page_has_the_chart_of_its_report(self) -> None:
        page = (TOP / "docs/manual/tools_runs.md").read_text()
        (report, chart), = re.findall(r"`tools/journal2chart (examples\S+)` prints\n\n```mermaid\n(.*?)```", page, re.DOTALL)
        self.assertEqual(tool("journal2chart", str(TOP / report)), chart)

    def test_each_entry_has_a_line_and_each_bar_an_end(self) -> None:
        for report in TOP.glob("examples/*/replay.txt"):
            if entries := report.read_text().partition("journal\n")[2].splitlines()[:-1]:
                drawn = tool("journal2chart", str(report))
                self.assertEqual(len(re.findall(r"->>|-->>|-x|Note", drawn)), len(entries))
                self.assertEqual(drawn.count(">>+"), drawn.count(">>-"))

    def test_faults_end_in_a_cross(self) -> None:
        journal = ["msg 1 bus 0 call 1/2 r 0x21 [] heard none nack", "msg 0 bus 0 call 1/1 r 0x20 [05] heard d1 cut 1",
                   "line 0 mux 2 level 0 cut", f"settle 0 read{' 07' * 20}"]
        lines = tool("journal2chart", "/dev/stdin", given="\n".join(["journal", *journal, "end"])).splitlines()
        self.assertEqual([line.strip() for line in lines[4:]], [
            "participant d1 as device 1 at 0x20", "participant n as nobody",
            "c1-xn: bus 0 r 0x21 [] nack (1/2)", "d1--xc0: bus 0 r 0x20 [05] cut 1 (1/1)", "c0-xm2: line level 0 cut",
            f"Note over c0: settle read{' 07' * 14} .. 07, 20 bytes"])
