"""What view says where it can't go on, and how names of files come onto a terminal."""


class Fault(Exception):
    """Something that ends the call: the text says what and, where that helps, what to do."""

    def __init__(self, text: str, status: int = 2) -> None:
        super().__init__(text)
        self.status = status


def plain(text: object) -> str:
    """A text that a terminal shows as it is: what isn't printable becomes `\\x` or `\\u` and its digits."""
    text = str(text)
    if text.isprintable():
        return text
    return "".join(
        char if char.isprintable() else char.encode("unicode_escape", "surrogatepass").decode()
        for char in text
    )
