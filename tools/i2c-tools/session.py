"""The calls of i2c-tools over a simulated board: each replays the session so far with its own line at the end."""
import argparse
import fcntl
import os
import re
import subprocess
import sys
from pathlib import Path
from typing import NoReturn

TOP = Path(__file__).resolve().parents[2]
MISSING = "Error: Could not open file `/dev/i2c-{0}' or `/dev/i2c/{0}': No such file or directory"
BUSY = "Error: Could not set address to 0x{:02x}: Device or resource busy"
FORCE = "-f reach a device that a driver has, too"


class Refused(Exception):
    """A line wasn't replayed, and the session is as it was."""


def program() -> str:
    """The program that the environment names, or the one of this repository, or else one on the PATH."""
    built = [str(path) for path in (TOP / "i2cbus", TOP / "crates/i2cbus/out/i2cbus") if os.access(path, os.X_OK)]
    return os.environ.get("I2CBUS") or (built + ["i2cbus"])[0]


def cause(script: str, told: str) -> str:
    """Why a script was refused: where its last line is at fault, or else what the program said."""
    place = re.fullmatch(rf"script 0 line {len(script.splitlines())} word ([1-9]\d*)", told)
    words = script.splitlines()[-1].split() + ["the end"]
    return f"the arguments are refused at '{words[int(place[1])]}'" if place else told


def ask(board: str, session: str, line: str) -> tuple[list[str], list[str]]:
    """What a line is answered behind the session so far, and how each transfer up to it was settled. The line joins the session."""
    try:
        with open(session, "a+", encoding="utf-8") as file:
            fcntl.flock(file, fcntl.LOCK_EX)
            file.seek(0)
            script = file.read()
            added = ("\n" if script and not script.endswith("\n") else "") + line + "\n"
            ended = subprocess.run([program(), "replay", board, "/dev/null", "/dev/stdin"], input=script + added,
                                   capture_output=True, text=True)
            if ended.returncode != 0:
                raise Refused(cause(script + added, (ended.stdout or ended.stderr).strip()))
            file.write(added)
    except OSError as error:
        raise Refused(str(error)) from error
    answers, _, journal = ended.stdout.partition("\njournal\n")
    return answers.rpartition("\n> ")[2].split("\n")[1:], re.findall(r"^settle 0 (.*)$", journal, re.MULTILINE)


def error_of(answer: list[str]) -> str:
    """The name of the error that a command was answered, or nothing."""
    found = re.fullmatch(r"(E[A-Z]+)( got .*)?", "\n".join(answer))
    return found[1] if found else ""


def stop(message: str, status: int = 1) -> NoReturn:
    print(message, file=sys.stderr)
    sys.exit(status)


def parser(form: str, does: str, *flags: str) -> argparse.ArgumentParser:
    """What is read of a command line: these flags, each a letter with its help behind it, and words."""
    made = argparse.ArgumentParser(usage=f"%(prog)s -y {form}", description=does, epilog="I2CBUS_BOARD names the file of "
                                   "the board, I2CBUS_SESSION the file to which the line of each call is added.")
    for flag in ("-y required: nobody is there to be asked", *flags):
        made.add_argument(flag[:2], action="store_true", help=flag[3:])
    made.add_argument("words", nargs="*", help=argparse.SUPPRESS)
    return made


def call(made: argparse.ArgumentParser) -> tuple[list[str], list[str], list[str]]:
    """Makes the call of this command line. Returns its words, its answer, and how the transfers of the session were settled."""
    try:
        given = vars(made.parse_intermixed_args())
    except SystemExit as ended:
        sys.exit(1 if ended.code else 0)
    words: list[str] = given.pop("words")
    if not given["y"] and not given.get("l"):
        stop("Error: -y is required, since nobody is there to be asked")
    options = [part for name, value in given.items() if value for part in ([f"-{name}"] if value is True else [f"-{name}", value])]
    if unfit := [word for word in options + words if word.split() != [word]]:
        stop(f"Error: argument '{unfit[0]}' isn't one word")
    board, session = (os.environ.get(name) or stop(f"Error: {name} is not set") for name in ("I2CBUS_BOARD", "I2CBUS_SESSION"))
    try:
        answer, settles = ask(board, session, " ".join([made.prog, *options, *words]))
    except Refused as refused:
        stop(f"Error: {refused}")
    if error_of(answer) == "ENODEV":
        stop(MISSING.format(int(words[0], 0)))
    return words, answer, settles


def finish(words: list[str], answer: list[str], message: str = "", status: int = 1) -> None:
    """Ends a call: prints what was read, or tells an error by this message and status."""
    if error_of(answer):
        stop(*((BUSY.format(int(words[1], 0)), 1) if error_of(answer) == "EBUSY" else (message, status)))
    if answer != ["ok"]:
        print("\n".join(answer))
