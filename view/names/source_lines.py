"""Where instructions stand in the sources, by llvm-symbolizer."""

import os
import re
import shutil
from typing import Any, Iterable, NamedTuple, Sequence

from view.faults import Fault
from view.names.symbolizer import symbolize

PACKAGES = "apt-get install llvm python3-pyelftools python3-jinja2"


# Functions without a name of their own, of C++ and Rust.
UNNAMED = re.compile(
    r"\{\{?closure|\$u7b\$closure|\{lambda|'lambda|^operator\(\)|::operator\(\)\(|<lambda"
)
# How Rust's former names spell signs.
RUST_SIGNS = {
    "$LT$": "<",
    "$GT$": ">",
    "$C$": ",",
    "$u20$": " ",
    "$RF$": "&",
    "$BP$": "*",
    "$LP$": "(",
    "$RP$": ")",
    "$u7b$": "{",
    "$u7d$": "}",
    "..": "::",
}
RUST_SIGN = re.compile("|".join(map(re.escape, RUST_SIGNS)))


def rust_name(name: str) -> str:
    """A function's name with the signs that Rust's former names spell."""
    return RUST_SIGN.sub(lambda sign: RUST_SIGNS[sign[0]], name) if "$" in name else name


class SourceLine(NamedTuple):
    """A line of a source, and its function; the file is empty where nothing is known, the line then 0."""

    function: str
    file: str
    line: int

    def short(self) -> str:
        return f"{os.path.basename(self.file)}:{self.line}" if self.file and self.line else ""

    def beginning(self) -> str:
        """What names a function without a name: where it begins, or else the line."""
        return self.short()


class UnnamedLine(SourceLine):
    """A line of a function without a name, which begins at a line."""

    begin = 0

    def beginning(self) -> str:
        return self._replace(line=self.begin or self.line).short()


def parse_frames(answer: dict[str, Any]) -> list[SourceLine]:
    """The frames of an address as llvm-symbolizer prints them, the innermost first."""
    found: list[SourceLine] = []
    for frame in answer.get("Symbol", []):
        function, file = frame.get("FunctionName", ""), frame.get("FileName", "")
        line = SourceLine(function, file and os.path.normpath(file), frame.get("Line", 0))
        if UNNAMED.search(function):
            line = unnamed = UnnamedLine(*line)
            unnamed.begin = frame.get("StartLine", 0)
        if function or file:
            found.append(line)
    return found


class Sources:
    """The lines of a program's addresses, and the texts of its sources as far as they are there."""

    def __init__(
        self, program: str, folders: Iterable[str] = (), code: Sequence[tuple[int, int]] = ()
    ) -> None:
        self.program, self.code = program, code
        self.places: dict[int, list[SourceLine]] = {}
        self.texts: dict[str, list[str]] = {}
        self.folders = [*folders, "", os.path.dirname(os.path.abspath(program))]
        if shutil.which("llvm-symbolizer") is None:
            raise Fault(f"llvm-symbolizer isn't installed: {PACKAGES}", 127)

    def find(self, addresses: Iterable[int]) -> None:
        """Looks some addresses up in one call."""
        unknown = {it for it in addresses if it not in self.places}
        # (debug information has functions that were discarded, at address 0)
        self.places.update({it: [] for it in unknown})
        wanted = sorted(
            addr
            for addr in unknown
            if not self.code or any(low <= addr < high for low, high in self.code)
        )
        if not wanted:
            return
        for addr, answer in zip(wanted, symbolize((self.program, it) for it in wanted)):
            self.places[addr] = parse_frames(answer)

    def frames(self, address: int) -> list[SourceLine]:
        """The functions inlined at an address, the innermost first."""
        self.find([address])
        return self.places[address]

    def place(self, address: int) -> SourceLine | None:
        """The innermost line of an address that is known, or none."""
        return next((it for it in self.frames(address) if it.file and it.line), None)

    def near(self, address: int) -> SourceLine | None:
        """Where the compiler has made one instruction of several lines and so named none: the line of the nearest one that runs before it
        in its function."""
        from view.names.control_flow import instructions_before

        function = next((it.function for it in reversed(self.frames(address))), "")
        before = instructions_before(self.program, address) if function else []
        self.find(before)
        for addr in before:
            frames = self.frames(addr)
            if not frames or frames[-1].function != function:
                return None
            if self.place(addr):
                return self.place(addr)
        return None

    def path(self, file: str) -> str | None:
        """Where a source is on this machine, or none."""
        for folder in self.folders:
            for name in (file, os.path.basename(file)):
                path = (
                    os.path.normpath(os.path.join(folder, name))
                    if folder
                    else os.path.normpath(name)
                )
                if os.path.isfile(path) and (folder or name == file):
                    return path
        return None

    def text(self, file: str) -> list[str]:
        """The lines of a source, none of which are there if it isn't."""
        if file not in self.texts:
            path = self.path(file)
            lines = []
            if path and os.path.getsize(path) < 1 << 24:
                with open(path, encoding="utf-8", errors="replace") as source:
                    lines = source.read().split("\n")
            self.texts[file] = lines
        return self.texts[file]
