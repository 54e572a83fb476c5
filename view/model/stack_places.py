"""Where stacks lie, and where on them a variable is."""

from typing import TYPE_CHECKING, NamedTuple

from view.names.naming import Memory
from view.reading.calls import Call
from view.reading.engine import Predator, setting_value, stack_range

if TYPE_CHECKING:
    from view.names.native import NativeProgram


class StackPlace(NamedTuple):
    """Where a variable on a stack is: in which function, and on the stack of which thread."""

    function: str
    hart: int

    def note(self, memory: Memory) -> str:
        return f" (in {self.function}, on the stack of {memory.owner(self.hart)})"


def stack_memory(
    call: Call, predator: Predator | None, native: "NativeProgram | None" = None
) -> Memory:
    """Where the stacks of a program lie: of one of this machine by its address map, and of a guest under the settings of the call."""
    if native is not None:
        from view.names.native import NativeMemory

        return NativeMemory(native)
    if call.program is None or predator is None:
        return Memory()
    words = call.settings_words()
    own = [
        word
        for at, word in enumerate(words)
        if not (word.startswith("--schedule") or at and words[at - 1] == "--schedule")
    ]
    return Memory(stack_range(predator, call.program, own), setting_value(own, "harts"))
