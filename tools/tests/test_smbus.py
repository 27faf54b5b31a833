"""A driver in Python over a board, and each method of SMBus."""
import errno
import os
import sys
import tempfile
import unittest
from pathlib import Path
from typing import Any
from unittest import mock

sys.path.insert(0, str(Path(__file__).resolve().parents[1]))
from smbus import SMBus, i2c_msg  # noqa: E402
from test_i2c_tools import needs_program  # noqa: E402

BOARD = """version = 1
root = [{}]
mux = [{ bus = 0, kind = "pca9546", address = 0x70 }]
device = [{ bus = 1, kind = "lm75", address = 0x48, raw = 0xe700 }, { bus = 2, kind = "lm75", address = 0x48, bound = true, raw = 0x1980 },
          { bus = 0, kind = "regs", address = 0x20 }, { bus = 0, kind = "smbus", address = 0x21, width = 0 },
          { bus = 0, kind = "smbus", address = 0x22, width = 2 }]
"""


class Lm75:
    """A driver for a sensor like the LM75: temperatures in degrees, the high byte of a register first."""

    def __init__(self, bus: SMBus, address: int) -> None:
        self.bus, self.address = bus, address

    def read(self, register: int) -> float:
        return int.from_bytes(self.bus.read_i2c_block_data(self.address, register, 2), "big", signed=True) / 256

    def write(self, register: int, degrees: float) -> None:
        self.bus.write_i2c_block_data(self.address, register, int(degrees * 256).to_bytes(2, "big", signed=True))


@needs_program
class OverABoard(unittest.TestCase):
    def setUp(self) -> None:
        self.folder = self.enterContext(tempfile.TemporaryDirectory())
        Path(self.folder, "board.toml").write_text(BOARD)
        self.enterContext(mock.patch.dict(os.environ, {"I2CBUS_SESSION": "", "I2CBUS_BOARD": f"{self.folder}/board.toml"}))

    def assert_error(self, code: int, *call: Any) -> None:
        with self.assertRaisesRegex(OSError, rf"\[Errno {code}\]"):
            call[0](*call[1:])

    def test_a_driver_reads_and_writes_its_sensor(self) -> None:
        with SMBus(1) as bus, SMBus(2, force=True) as other:
            sensor, bound = Lm75(bus, 0x48), Lm75(other, 0x48)
            self.assertEqual((sensor.read(0), bound.read(0)), (-25, 25.5))
            sensor.write(3, -12.5)
            self.assertEqual((sensor.read(3), sensor.read(2), bound.read(3)), (-12.5, 75, 80))
            self.assert_error(errno.ENXIO, Lm75(bus, 0x49).read, 0)
            self.assert_error(errno.EBUSY, other.read_byte_data, 0x48, 0, False)
            self.assert_error(errno.EBUSY, other.write_quick, 0x48, False)
            other.write_quick(0x48)

    def test_each_method(self) -> None:
        with SMBus("/dev/i2c-0") as bus:
            bus.write_byte_data(0x20, 5, 0x7e)
            bus.write_word_data(0x20, 6, 0x1234)
            self.assertEqual((bus.read_word_data(0x20, 6), bus.read_i2c_block_data(0x20, 5, 3)), (0x1234, [0x7e, 0x34, 0x12]))
            bus.write_byte(0x20, 6)
            self.assertEqual(bus.read_byte(0x20), 0x34)
            bus.write_quick(0x20)
            self.assert_error(errno.ENXIO, bus.write_quick, 0x30)
            bus.write_block_data(0x21, 9, [1, 2, 3])
            self.assertEqual((bus.read_block_data(0x21, 9), bus.block_process_call(0x21, 9, [4, 5])), ([1, 2, 3], [4, 5]))
            self.assertEqual(bus.process_call(0x22, 1, 0xabcd), 0xabcd)
            first, second = i2c_msg.read(0x20, 1), i2c_msg.read(0x20, 2)
            bus.i2c_rdwr(i2c_msg.write(0x20, [5, 0x11, 0x22]))
            bus.i2c_rdwr(i2c_msg.write(0x20, "\x05"), first, i2c_msg.write(0x20, b"\x05"), second)
            self.assertEqual((bytes(first), list(second)), (b"\x11", [0x11, 0x22]))
            with self.assertRaises(ValueError):
                bus.read_byte(0x78)
        self.assert_error(errno.ENODEV, SMBus, 9)

    def test_a_session_in_a_file(self) -> None:
        file = Path(self.folder, "session.txt")
        with mock.patch.dict(os.environ, {"I2CBUS_SESSION": str(file)}), SMBus(0) as bus:
            bus.write_byte_data(0x20, 5, 1)
        self.assertEqual(file.read_text(), "open 0\ni2cset -y 0 32 5 1 b\nclose 0\n")
