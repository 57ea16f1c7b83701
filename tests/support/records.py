"""Texts whose records are read as those of sheets and tables are, and how a call of the page hands
records out."""

from typing import Iterable

# With quotes, of which some end nowhere, with blanks and fields without a byte, with ends of each
# kind, and bytes that are no text.
TEXTS = [
    b"",
    b"\r\n\n\r",
    b"sheet,1,P7,1000\r\ntarget,1,TOWER,0\r\n",
    b'"a ""b""";"c;d"e;\n"";"x\ny"\rz',
    b'a"b,"c"d"e","f',
    b"A   0,5 \t;\n , ;\t\n,\n;\n",
    b"\xef\xbb\xbfA;1\n\xef\xbb\xbfB;2",
    b"\xff\x00;\xc3\n" + b"n" * 300 + b";" * 12,
]

# By what the fields of a table may be separated.
SEPARATORS = b",;\t "


def handed_out(records: Iterable[list[bytes]]) -> bytes:
    """Records as a call hands them out: before the fields of each a line of how many bytes each has."""
    return b"".join(b",".join(b"%d" % len(field) for field in one) + b"\n" + b"".join(one) for one in records)
