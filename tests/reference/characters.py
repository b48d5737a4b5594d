"""Sets of characters, and the signs of a text.

docs/INSTRUCTIONS.md, "Characters". A sign is a code point that is printed, or one of the four controls below, which are
no code points of printed characters.
"""

BACK, TAB, LINE_FEED, RETURN = 8, 9, 10, 13
TO_ALTERNATE, TO_STANDARD = 14, 15
CONTROLS = (BACK, TAB, LINE_FEED, RETURN)
UTF_8 = "utf-8"
# Sets of eight bits, by Python's names of them, with the first byte of their upper half.
WIDE = {"roman-8": ("hp_roman8", 160), "latin-1": ("latin-1", 160), "windows-1252": ("cp1252", 128), "pc-8": ("cp437", 128)}
ROMAN_8 = "roman-8"
EXTENSIONS = "roman extensions"
# What sets of seven bits have for these bytes.
REPLACED = "#$'@[\\]^`{|}~"
REPLACEMENTS = {
    "ascii": REPLACED,
    "ISO 2": "#¤'@[\\]^`{|}¯",
    "ISO 4": "£$'@[\\]^`{|}¯",
    "ISO 21": "#$'§ÄÖÜ^`äöüß",
    "ISO 69": "£$'à°ç§^µéùè¨",
    "ISO 25": "£$'à°ç§^`éùè¨",
    "ISO 15": "£$'§°çé^ùàòèì",
    "ISO 17": "£$'§¡Ñ¿^`°ñç~",
    "ISO 16": "#$'§ÃÇÕ^`ãçõ°",
    "ISO 10": "#¤'@ÄÖÅ^`äöå¯",
    "ISO 11": "#¤'ÉÄÖÅÜéäöåü",
    "ISO 60": "#$'@ÆØÅ^`æøå¯",
    "ISO 61": "§$'@ÆØÅ^`æøå|",
    "ISO 14": "#$'@[¥]^`{|}¯",
    "HP 1": "#$'@[√]↑`π|→~",
    "HP 2": "£$´@[ç]^`¨°¨~",
    "HP 3": "£$'@ØÆøæ`¨°°~",
    "HP 4": "¿$´@[¡]^`˜˜˜˜",
}
# The sets of SD and AD, and those of CS and CA.
BY_SYMBOL_SET = {
    277: ROMAN_8, 14: "latin-1", 629: "windows-1252", 341: "pc-8", 21: "ascii", 85: "ISO 2", 37: "ISO 4", 39: "ISO 21",
    38: "ISO 69", 6: "ISO 25", 9: "ISO 15", 83: "ISO 17", 147: "ISO 16", 115: "ISO 10", 19: "ISO 11", 4: "ISO 60", 36: "ISO 61",
    11: "ISO 14",
}
BY_HP_NUMBER = {
    0: "ascii", 1: "HP 1", 2: "HP 2", 3: "HP 3", 4: "HP 4", 6: "ISO 14", 7: EXTENSIONS, 9: "ISO 2", 30: "ISO 10", 31: "ISO 11",
    32: "ISO 60", 33: "ISO 21", 34: "ISO 25", 35: "ISO 4", 36: "ISO 15", 37: "ISO 17", 38: "ISO 16", 39: "ISO 61",
}


def upper(name, byte):
    """The code point of a byte from 128 on, or None."""
    codec, first = WIDE.get(name, WIDE[ROMAN_8])
    if byte < first or name == "pc-8" and 0xB0 <= byte <= 0xDF:
        return None
    character = bytes([byte]).decode(codec, "ignore")
    return ord(character) if character else None


def code_point(name, byte):
    """The code point of a byte in a set, or None if it is none or is not printed."""
    if not 32 <= byte <= 126:
        return upper(name, byte) if byte > 127 else None
    if name == EXTENSIONS:
        return byte if byte == 32 else upper(ROMAN_8, byte + 128)
    return ord(REPLACEMENTS[name][REPLACED.index(chr(byte))]) if name in REPLACEMENTS and chr(byte) in REPLACED else byte


def signs(text, names, selected):
    """The signs of a text by the standard and the alternate set, of which one is selected."""
    for byte in text:
        selected = selected_after(bytes([byte]), selected)
        sign = byte if byte in CONTROLS else code_point(names[selected], byte)
        if sign is not None:
            yield sign


def selected_after(text, selected):
    """Which set is selected after a text: 0 for the standard one, 1 for the alternate one."""
    for byte in text:
        selected = {TO_ALTERNATE: 1, TO_STANDARD: 0}.get(byte, selected)
    return selected


def signs_of_utf_8(text):
    at = 0
    while at < len(text):
        character, count = sequence(text[at : at + 4]) or (None, 1)
        if character is None:
            yield from signs(text[at : at + 1] if text[at] < 128 else b"", ("ascii", "ascii"), 0)
        elif character >= 160:
            yield character
        at += count


def sequence(text):
    """The code point of the sequence of two to four bytes that a text begins with, and their number; or None."""
    for count in (2, 3, 4):
        character = text[:count].decode("utf-8", "replace")
        if len(text) >= count and len(character) == 1 and character.encode() == text[:count]:
            return ord(character), count
    return None
