"""A part of a page that a script makes, between two comments that name it."""


def with_part(text: str, mark: str, name: str, script: str, part: str) -> str:
    """A page with this part in it, in place of what stands there now; `mark` begins a comment."""
    begin, end = f"{mark} The {name}, made by tools/{script}.\n", f"{mark} The end of the {name}.\n"
    before, rest = text.split(begin)
    return before + begin + part + end + rest.split(end)[1]
