"""A reader of the fonts of a PDF: the characters of a text's codes, by ISO 32000-1, 9.6 and 9.10.3, or why a font is wrong.

Each is Courier, of which nothing is painted, and has the 256 code points whose number divided by 256 is that of the font. All
codes have the letter a, so that each is as wide as any letter of Courier.
"""

import re

from .reading import Wrong, must

CODES = 256
LETTER = "a"
NAME = re.compile("F(0|[1-9][0-9]{0,2})")
MOST_ENTRIES = 100
SECTION = re.compile(rb"\b([0-9]+)\s+begin(codespacerange|bfrange|bfchar)\s(.*?)\bend(\w+)", re.S)
HEX = rb"<((?:[0-9A-Fa-f]{2})+)>"
RANGE = re.compile(rb"\s*" + HEX + rb"\s*" + HEX + rb"\s*(?:" + HEX + rb"|\[((?:\s*" + HEX + rb")+)\s*\])\s*")
CHARACTER = re.compile(rb"\s*" + HEX + rb"\s*" + HEX + rb"\s*")
# What a CMap has around its sections.
PARTS = (
    rb"/CIDInit\s*/ProcSet\s+findresource\s+begin\s", rb"\sdict\s+begin\s+begincmap\s", rb"/CMapName\s*/[\w-]+\s+def\s",
    rb"/CMapType\s+2\s+def\s", rb"\sendcmap\s", rb"\sdefineresource\s+pop\s+end\s+end\b",
)


def fonts_of(objects, named):
    """The characters of each font, by its number."""
    if named is None:
        return {}
    fonts = objects.resolved(named)
    must(isinstance(fonts, dict) and fonts, f"the fonts {fonts}")
    found = [NAME.fullmatch(name) for name in fonts]
    must(all(found), f"the names {list(fonts)}")
    numbers = [int(name[1]) for name in found]
    must(numbers == sorted(numbers), f"the order of {numbers}")
    must(len(set(fonts.values())) == len(fonts), "a font of two names")
    for number, font in zip(numbers, fonts.values()):
        must(characters_of(objects, font) == row_of(number), f"the characters of the font {number}")
    return {number: row_of(number) for number in numbers}


def row_of(number):
    """The characters whose code points divided by 256 are this number."""
    return [chr(CODES * number + code) for code in range(CODES)]


def characters_of(objects, reference):
    """The characters of a font."""
    font = objects.at(reference, "Font")
    names = {"Subtype": "Type1", "BaseFont": "Courier"}
    must(set(font) == {*names, "Encoding", "ToUnicode"} and all(font[name] == names[name] for name in names), f"the font {font}")
    encoding = objects.resolved(font["Encoding"])
    must(encoding == {"Differences": [0] + [LETTER] * CODES}, "the encoding of a font")
    characters = characters_of_map(objects.stream(font["ToUnicode"], is_compressed=False))
    must(set(characters) == set(range(CODES)), f"characters of {len(characters)} codes")
    return [characters[code] for code in range(CODES)]


def characters_of_map(data):
    """The characters that a CMap has for codes."""
    for part in PARTS:
        must(len(re.findall(part, data)) == 1, f"a CMap without {part}: {data[:60]}")
    characters, spaces = {}, []
    for count, kind, entries, end in SECTION.findall(data):
        must(kind == end and 1 <= int(count) <= MOST_ENTRIES, f"{count} entries of {kind} up to end{end}")
        found = list(ENTRIES[kind](entries))
        must(len(found) == int(count), f"{len(found)} entries instead of {count}")
        if kind == b"codespacerange":
            spaces += found
            continue
        for code, character in (pair for pairs in found for pair in pairs):
            must(code not in characters, f"the code {code} twice")
            characters[code] = character
    must(spaces == [(0, CODES - 1)], f"the code space {spaces}")
    must(len(re.findall(rb"\bbegin\w+range|\bbeginbf", data)) == len(SECTION.findall(data)), "a section that is cut")
    return characters


def whole_entries(pattern, entries):
    """The entries of a section, which has nothing else."""
    at = 0
    while at < len(entries.rstrip()):
        found = pattern.match(entries, at)
        must(found, f"the entry {entries[at:at + 30]}")
        at = found.end()
        yield found


def code_of(text):
    must(len(text) == 2, f"a code of {len(text) // 2} bytes")
    return int(text, 16)


def character_of(data):
    """The one character of a text in UTF-16."""
    try:
        text = data.decode("utf-16-be")
    except UnicodeDecodeError as error:
        raise Wrong(str(error)) from error
    must(len(text) == 1, f"the characters {text!r} of a code")
    return text


def spaces_of(entries):
    """The first and the last code of each entry."""
    for found in whole_entries(CHARACTER, entries):
        yield code_of(found[1]), code_of(found[2])


def ranges_of(entries):
    """Of each entry its codes with their characters. Only the last byte of a character counts on."""
    for found in whole_entries(RANGE, entries):
        first, last = code_of(found[1]), code_of(found[2])
        must(first <= last, f"a range from {first} to {last}")
        count = last - first + 1
        if found[3]:
            start = bytes.fromhex(found[3].decode())
            must(start[-1] + count <= CODES, f"a range that ends after {start}")
            texts = [start[:-1] + bytes([start[-1] + more]) for more in range(count)]
        else:
            texts = [bytes.fromhex(text.decode()) for text in re.findall(HEX, found[4])]
        must(len(texts) == count, f"{len(texts)} characters of {count} codes")
        yield list(zip(range(first, last + 1), map(character_of, texts)))


def single_ones_of(entries):
    """Of each entry its code with its character."""
    for found in whole_entries(CHARACTER, entries):
        yield [(code_of(found[1]), character_of(bytes.fromhex(found[2].decode())))]


ENTRIES = {b"codespacerange": spaces_of, b"bfrange": ranges_of, b"bfchar": single_ones_of}
