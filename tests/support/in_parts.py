"""Texts that calls hand out in parts: before each stands a line of its title and of how many bytes it
has."""

from typing import Iterator


def parts_of(text: bytes) -> Iterator[tuple[str, bytes]]:
    """The parts of a text, each after its title."""
    while text:
        line, _, rest = text.partition(b"\n")
        title, count = line.decode().split(" ")
        yield title, rest[: int(count)]
        text = rest[int(count) :]


def printed_of(parts: dict[str, bytes]) -> bytes:
    """An explanation as the program prints it, of its parts."""
    said = {title: text.decode() for title, text in parts.items()}
    names = said["names"].replace("\n", ", ")
    meant = f"{names}: {said['meaning']}\n\n{said['when']}\n\n  {said['example']}"
    return f"{meant}\n\nWhat to do: {said['remedy']}\n".encode()
