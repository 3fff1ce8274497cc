"""The bytes of a script as text, and what is wrong with bytes that no script has."""

import unicodedata

# What a file begins with that an editor saved in another encoding, the longest first.
MARKS = (
    (b"\xff\xfe\0\0", "UTF-32"),
    (b"\0\0\xfe\xff", "UTF-32"),
    (b"\xff\xfe", "UTF-16"),
    (b"\xfe\xff", "UTF-16"),
    (b"W\0\0\0", "UTF-32"),
    (b"\0\0\0W", "UTF-32"),
    (b"W\0F\0", "UTF-16"),
    (b"\0W\0F", "UTF-16"),
)
MARK_OF_UTF_8 = b"\xef\xbb\xbf"
FILMS = (b"WFF1", b"WFF2")


def text_of(data):
    """Returns the text of any bytes: as UTF-8 where they are that, and else a letter of Latin-1 for each byte."""
    try:
        return data.decode("utf-8")
    except UnicodeDecodeError:
        return data.decode("latin-1")


def is_utf_8(data):
    """Returns whether the bytes are UTF-8."""
    return text_of(data).encode("utf-8") == data


def wrong_file(data):
    """Returns what a file is that is no script from its first byte on, in words, or nothing."""
    wide = next((name for mark, name in MARKS if data.startswith(mark)), None)
    if wide:
        return f"the file is {wide}, and a script has one byte for each letter: save it as ASCII or as UTF-8"
    if data.startswith(MARK_OF_UTF_8):
        return "the file begins with the byte order mark of UTF-8, EF BB BF, and a script with WFS1: save it without the mark"
    if data.startswith(FILMS):
        return "the file is a film, and not a script"
    if b"\r" in data and b"\n" not in data:
        return "its lines end in carriage returns alone, and those of a script in line feeds"
    if not data.strip():
        return "the file has no words"
    return ""


def wrong_byte(data, letter, column):
    """Returns what a letter of a file is that no script has, in words: its column, counted from 1, and how the file has it."""
    code = ord(letter)
    if code < 0x20 or code == 0x7F:
        return f"column {column} has the control byte 0x{code:02X}"
    if not is_utf_8(data):
        seen = f", which is {letter} in Latin-1" if code >= 0xA0 else ""
        return f"column {column} has the byte 0x{code:02X}{seen}: a script has ASCII alone, in comments too"
    name = unicodedata.name(letter, "").lower()
    told = f"{letter} ({name})" if name else f"U+{code:04X}"
    return f"column {column} has {told}, which is not ASCII: a script has ASCII alone, in comments too"
