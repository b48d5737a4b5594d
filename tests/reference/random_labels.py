"""Random labels of the profile full, as documents have them: what sets how they are written, and their texts of any kind."""

from .random_full_plots import LETTERS, FullWriter

SIZES = (
    b"", b"", b"SI.1,.15;", b"SI.05,.3;", b"SI-.1,.1;", b"SI.1,-.15;", b"SR;", b"SR2,3;", b"SD4,9;", b"SD2,1;", b"SI.003,.002;",
)
# What a letter's place follows from beside LETTERS, and what puts all back.
SETTINGS = (
    b"RO90;", b"RO180;", b"RO270;", b"RO;", b"IP0,0,900,300;", b"IP600,0,0,400;", b"IP;", b"SC0,10,0,10;", b"SC;", b"CP1,-1;",
    b"CP;", b"DF;", b"DF;", b"DF;",
)
PATHS = tuple(b"DV%d,%d;" % (path, line) for path in range(4) for line in (0, 1))
ORIGINS = tuple(b"LO%d;" % origin for origin in (*range(1, 10), *range(11, 20), 21))
SETS = (
    b"CS33;", b"CS7;", b"CS4;", b"CS;", b"CA2;", b"CA7;", b"SD1,341;", b"SD1,629;", b"AD1,14;", b"SS;", b"SA;", b"SA;",
)
# What hides a label, or what it is not: another pen or sheet, no pen, a window, a symbol, a polygon, ticks.
OTHERS = (
    b"SP1;", b"SP2;", b"SP3;", b"SP0;", b"SP1;PG;", b"PG;", b"IW;", b"IW0,0,300,200;", b"IW9,9,-90,-90;", b"IW-90,-90,-80,-80;",
    b"SM*;", b"SM;", b"PM0;", b"PM2;", b"PW1;", b"PC2,9,8,7;", b"XT;YT;", b"LT2;", b"LT;",
)
CONTROLS = (b"\r\n", b"\r\n", b"\r", b"\n", b"\n\r", b"\b", b"\t", b"\b\b_", b"\t\t", b"\x0e", b"\x0f", b"\0", b"\x1b", b"\x7f")
MARKUP = (
    b"(", b")", b"\\", b"<", b">", b"&", b'"', b"'", b"]]>", b"<!--", b"&amp;", b"</g>", b"%", b"<?", b"\\)", b"endstream", b"ET",
)
CHARACTERS = (
    "aÄßéÿĀŁžΑΩαωБЯбяאع€─☃ﬁ丼語한😀𝕏"
    "\u00a0\u00ad\u200b\u202e\u2028\ue000\ufdd0\ufffd\ufffe\uffff\U0001fffe\U0010ffff"
)
# The third has 16 characters, by which halves of thousandths come about.
WORDS = (b"Pump", b"ok", b"Valves 12 and 13", b"3.5 mm", b"No. 7", b"a", b"   ", b" ", b"long " * 12)
# Places near the ends of the range, and one beside the page's corner.
FAR = (b"65520,9", b"-65520,-9", b"9,65520", b"-9,-65520", b"65520,-65520", b"-9,-9")


def random_label(chance):
    """A label after settings, of which some are only sometimes there."""
    if chance.random() < 0.05:
        return far_label(chance)
    plot = b";DT;" + chance.choice(SIZES)
    writer = FullWriter(chance.random())
    writer.is_wild = False
    settings = SETTINGS + tuple(writer.piece(name) for name in 4 * LETTERS.split())
    for share, choices in ((0.5, settings), (0.2, PATHS), (0.3, ORIGINS), (0.3, SETS), (0.3, OTHERS)):
        while chance.random() < share:
            plot += chance.choice(choices)
    plot += b"PU%d,%d;" % (chance.randint(0, 800), chance.randint(0, 600)) if chance.random() < 0.7 else b""
    text = b"".join(part_of_a_text(chance) for _ in range(chance.choice((1, 1, 2, 3, 5, 8))))
    if chance.random() < 0.2:
        return plot + b"BL" + text + b"\x03" + chance.choice((b"PB;", b"PB;PB;", b"PM;PB;PM2;", b""))
    return plot + b"LB" + text + b"\x03"


def far_label(chance):
    """A small label that ends with spaces, which may lead out of the range, and a return, which leads back."""
    settings = chance.choice((b"", b"DI0,1;", b"DI-1,0;", b"DI0,-1;", b"DV1;", b"DV3;")) + chance.choice((b"", b"ES100;"))
    text = chance.choice((b"x", b"ab", b"I\r\nJ")) + b" " * chance.choice((1, 30, 120)) + b"\r"
    return b";DT;RO;DF;SI.01,.02;" + settings + b"PU" + chance.choice(FAR) + b";LB" + text + b"\x03DF;"


def part_of_a_text(chance):
    kind = chance.random()
    if kind < 0.2:
        return chance.choice(CONTROLS)
    if kind < 0.35:
        return chance.choice(MARKUP)
    if kind < 0.55:
        return "".join(chance.choices(CHARACTERS, k=chance.choice((1, 1, 2, 3)))).encode()
    if kind < 0.65:
        return bytes([chance.choice((chance.randint(32, 126), chance.randint(128, 255)))])
    return chance.choice(WORDS)
