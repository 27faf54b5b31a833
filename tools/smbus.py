"""SMBus and i2c_msg with the methods of smbus2, over a simulated board.

The board is that of the argument `board`, or of the environment I2CBUS_BOARD. Each call replays all calls before it with its own
line behind them. They stand in the file I2CBUS_SESSION, or in one for each board that lasts as long as this process.
"""
from __future__ import annotations

import errno
import functools
import os
import sys
import tempfile
from dataclasses import dataclass
from pathlib import Path
from typing import Iterable, Iterator

sys.path.insert(0, str(Path(__file__).resolve().parent / "i2c-tools"))
import session  # noqa: E402

own_session = functools.cache(lambda board: tempfile.NamedTemporaryFile(prefix="i2cbus-", suffix=".txt"))


def bytes_of(line: str) -> list[int]:
    return [int(word, 16) for word in line.split()]


def words_of(data: Iterable[int]) -> str:
    return " ".join(str(byte) for byte in data)


@dataclass
class i2c_msg:
    """A message of i2c_rdwr: its address, 1 where it reads, and the bytes that it writes, or has read."""
    addr: int
    flags: int
    buf: bytes

    @staticmethod
    def read(address: int, length: int) -> i2c_msg:
        return i2c_msg(address, 1, bytes(length))

    @staticmethod
    def write(address: int, buf: Iterable[int] | str) -> i2c_msg:
        return i2c_msg(address, 0, buf.encode("latin-1") if isinstance(buf, str) else bytes(buf))

    def __iter__(self) -> Iterator[int]:
        return iter(self.buf)


class SMBus:
    """A bus of a board. The error that a call is answered is an OSError; what no script may ask for is a ValueError."""

    def __init__(self, bus: int | str | None = None, force: bool = False, board: str | None = None) -> None:
        self.force, self.handle = force, ""
        self.board = os.path.abspath(board or os.environ["I2CBUS_BOARD"])
        if bus is not None:
            self.open(bus)

    def __enter__(self) -> SMBus:
        return self

    def __exit__(self, *_: object) -> None:
        self.close()

    def open(self, bus: int | str) -> None:
        """Opens a bus by its number, or by /dev/i2c-N."""
        self.number = int(str(bus).removeprefix("/dev/i2c-"))
        self.handle = self._ask(f"open {self.number}")[0].removeprefix("handle ")

    def close(self) -> None:
        if self.handle:
            self._ask(f"close {self.handle}")
            self.handle = ""

    def read_byte(self, i2c_addr: int, force: bool | None = None) -> int:
        return int(self._tool("i2cget", i2c_addr, "", force), 16)

    def read_byte_data(self, i2c_addr: int, register: int, force: bool | None = None) -> int:
        return int(self._tool("i2cget", i2c_addr, f"{register} b", force), 16)

    def read_word_data(self, i2c_addr: int, register: int, force: bool | None = None) -> int:
        return int(self._tool("i2cget", i2c_addr, f"{register} w", force), 16)

    def read_block_data(self, i2c_addr: int, register: int, force: bool | None = None) -> list[int]:
        return bytes_of(self._tool("i2cget", i2c_addr, f"{register} s", force))

    def read_i2c_block_data(self, i2c_addr: int, register: int, length: int, force: bool | None = None) -> list[int]:
        return bytes_of(self._tool("i2cget", i2c_addr, f"{register} i {length}", force))

    def write_byte(self, i2c_addr: int, value: int, force: bool | None = None) -> None:
        self._tool("i2cset", i2c_addr, f"{value} c", force)

    def write_byte_data(self, i2c_addr: int, register: int, value: int, force: bool | None = None) -> None:
        self._tool("i2cset", i2c_addr, f"{register} {value} b", force)

    def write_word_data(self, i2c_addr: int, register: int, value: int, force: bool | None = None) -> None:
        self._tool("i2cset", i2c_addr, f"{register} {value} w", force)

    def write_block_data(self, i2c_addr: int, register: int, data: Iterable[int], force: bool | None = None) -> None:
        self._tool("i2cset", i2c_addr, f"{register} {words_of(data)} s", force)

    def write_i2c_block_data(self, i2c_addr: int, register: int, data: Iterable[int], force: bool | None = None) -> None:
        self._tool("i2cset", i2c_addr, f"{register} {words_of(data)} i", force)

    def write_quick(self, i2c_addr: int, force: bool | None = None) -> None:
        """A quick write. No command of a script forces it as an SMBus call, so by force it is a plain message of no bytes."""
        if self.force if force is None else force:
            self._ask(f"i2ctransfer -f -y {self.number} w0@{i2c_addr}")
        else:
            self._ask(f"i2cdetect -y -q {self.number} {i2c_addr} {i2c_addr}", settled=True)

    def process_call(self, i2c_addr: int, register: int, value: int, force: bool | None = None) -> int:
        return int(self._process("proc", i2c_addr, f"{register} {value}", force), 16)

    def block_process_call(self, i2c_addr: int, register: int, data: Iterable[int], force: bool | None = None) -> list[int]:
        return bytes_of(self._process("bproc", i2c_addr, f"{register} {words_of(data)}", force))

    def i2c_rdwr(self, *i2c_msgs: i2c_msg) -> None:
        """Sends messages as one transfer. Unlike smbus2's it is refused where a driver has an address, unless the bus is forced."""
        sent = [f"r{len(m.buf)}@{m.addr}" if m.flags else f"w{len(m.buf)}@{m.addr} {words_of(m.buf)}" for m in i2c_msgs]
        answer = self._ask(f"i2ctransfer {'-f ' * self.force}-y {self.number} {' '.join(sent)}")
        for message, line in zip([m for m in i2c_msgs if m.flags], answer):
            message.buf = bytes(bytes_of(line))

    def _ask(self, line: str, settled: bool = False) -> list[str]:
        """The answer of a command. Its error is that of the answer, or where a scan was asked for how its transfer was settled."""
        try:
            answer, settles = session.ask(self.board, os.environ.get("I2CBUS_SESSION") or own_session(self.board).name, line)
        except session.Refused as refused:
            raise ValueError(f"{line}: {refused}") from refused
        if name := session.error_of(settles[-1:] if settled else answer):
            code = getattr(errno, name)
            raise OSError(code, os.strerror(code))
        return answer

    def _tool(self, tool: str, address: int, words: str, force: bool | None) -> str:
        forced = self.force if force is None else force
        return self._ask(f"{tool} {'-f ' * forced}-y {self.number} {address} {words}".rstrip())[0]

    def _process(self, command: str, address: int, words: str, force: bool | None) -> str:
        forced = self.force if force is None else force
        self._ask(f"{'force' if forced else 'slave'} {self.handle} {address}")
        return self._ask(f"{command} {self.handle} {words}")[0]
