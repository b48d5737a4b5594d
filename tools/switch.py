"""Changed copies of functions beside them, and a number that chooses one, so that one build has many mutants:

    fn width(&self, pen: u8) -> u32 {
        match mutant_choice::chosen_mutant() {
            7 => return Self::width_7(self, pen),
            _ => {}
        }

The texts are laid out by `rt fmt`. An edit that reaches beyond one function cannot be put beside it.
"""

import re
from dataclasses import dataclass

# The module of the choice, and its code. No variable is within every function's reach, so C keeps the number.
CHOICE = "mutant_choice"
MODULE = """unsafe extern "C" {
    pub safe fn chosen_mutant() -> u32;

    pub safe fn choose_mutant(number: u32);
}
"""
CODE = """static unsigned chosen;
unsigned chosen_mutant(void) { return chosen; }
void choose_mutant(unsigned number) { chosen = number; }
"""
HEAD = re.compile(r"^( *)(?:pub(?:\([^)]*\))? )?fn (\w+)")
OPENING, CLOSING = "(<[{", ")>]}"


@dataclass(frozen=True)
class Function:
    """The numbers of a function's lines, from 0: of its first attribute, its name, its body's bracket and its end."""

    first: int
    head: int
    body: int
    end: int
    indent: str
    name: str


def end_of(lines, head):
    """The last line of the item whose text begins in this one, or this one if it has no body."""
    indent = re.match(" *", lines[head])[0]
    if lines[head].endswith(("}", ";")):
        return head
    return next((at for at in range(head, len(lines)) if lines[at].startswith((indent + "}", indent + "{}"))), head)


def function_around(lines, at):
    """The function that this line is in, or None."""
    for head in range(at, -1, -1):
        found = HEAD.match(lines[head])
        if not found or end_of(lines, head) == head or end_of(lines, head) < at:
            continue
        indent, end, first = found[1], end_of(lines, head), head
        opened = [it for it in range(head, end) if lines[it] == indent + "{" or is_opened(lines[it], indent)]
        if not opened:
            return None
        while lines[first - 1].startswith(f"{indent}#["):
            first -= 1
        return Function(first, head, opened[0], end, indent, found[2])
    return None


def is_opened(line, indent):
    """Whether a function's body begins at the end of this line of its head."""
    return line.endswith(" {") and (HEAD.match(line) or line.startswith((f"{indent})", f"{indent}->")))


def split_at_commas(text):
    """The parts of a list, which may have lists in them."""
    parts, depth = [""], 0
    for before, sign in zip(" " + text, text):
        depth += (sign in OPENING) - (sign in CLOSING and before + sign not in ("->", "=>"))
        if sign == "," and depth == 0:
            parts.append("")
        else:
            parts[-1] += sign
    return [it.strip() for it in parts if it.strip()]


def bracketed(text, at):
    """What is between the bracket at this place and the one that closes it."""
    depth = 0
    for end in range(at, len(text)):
        depth += (text[end] in OPENING) - (text[end] in CLOSING and text[end - 1 : end + 1] not in ("->", "=>"))
        if depth == 0:
            return text[at + 1 : end]
    raise ValueError(text)


def arguments_of(lines, function):
    """What a call of a function's copy passes on, types and values, or None where a parameter is a pattern."""
    head = " ".join(it.strip() for it in lines[function.head : function.body + 1])
    after, types = re.search(rf"\bfn {function.name}", head).end(), []
    if head[after] == "<":
        generics = bracketed(head, after)
        after += len(generics) + 2
        types = [re.sub("^const ", "", it).partition(":")[0] for it in split_at_commas(generics) if it[0] != "'"]
    names = []
    for parameter in split_at_commas(bracketed(head, after)):
        name = re.sub(r"^(&('\w+ )?)?(mut )?", "", parameter.partition(":")[0].strip())
        if not re.fullmatch(r"\w+", name) or name == "_":
            return None
        names.append(name)
    return (f"::<{', '.join(types)}>" if types else "") + f"({', '.join(names)})"


def block_around(lines, function):
    """The head of the `impl` or `trait` that a function is in, and its last line; None for a function of a module."""
    if not function.indent:
        return None
    head = next(at for at in range(function.head, -1, -1) if lines[at] and lines[at][0] not in " {}/#")
    while not re.match(r"(unsafe )?impl\b|(pub(\(\w+\))? )?trait\b", lines[head]):
        head -= 1
    opened = next(at for at in range(head, function.head) if lines[at].endswith("{"))
    return "\n".join(lines[head : opened + 1]), end_of(lines, head)


def own_block(head):
    """The head of an `impl` of the same type by itself, for one of a trait, or None for a trait's own."""
    after = head.index("impl") + len("impl") if head.startswith(("impl", "unsafe impl")) else None
    if after is None:
        return None
    generics = f"<{bracketed(head, after)}>" if head[after] == "<" else ""
    return f"impl{generics} {head.rpartition(' for ')[2]}"


def place_of(text, changes):
    """The function that has all of these changes, or None where there is no such one that can have a copy."""
    lines, found = text.split("\n"), set()
    for old, _ in changes:
        at = text[: text.index(old)].count("\n")
        found |= {function_around(lines, it) for it in (at, at + old.count("\n"))}
    function = found.pop()
    if found or not function or arguments_of(lines, function) is None:
        return None
    block = block_around(lines, function)
    return None if block and not own_block(block[0]) else function


def copy_of(lines, function, number, changes):
    """The text of a function's copy with these changes, under a name of its own."""
    text = "\n".join(lines[function.first : function.end + 1])
    for old, new in changes:
        text = text.replace(old, new)
    return re.sub(rf"\bfn {function.name}\b", f"fn {function.name}_{number}", text, count=1)


def choice_of(lines, function, numbers):
    """The lines at the beginning of a function that choose among its copies."""
    owner, indent = "Self::" if function.indent else "", function.indent + "    "
    passed = arguments_of(lines, function)
    arms = [f"{indent}    {it} => return {owner}{function.name}_{it}{passed}," for it in numbers]
    return [f"{indent}match {CHOICE}::chosen_mutant() {{", *arms, f"{indent}    _ => {{}}", f"{indent}}}"]


def switched(text, mutants):
    """A text with the copies of its functions that these mutants change, lists of an old and a new text by number."""
    lines, places = text.split("\n"), {}
    for number, changes in mutants.items():
        places.setdefault(place_of(text, changes), []).append(number)
    for function in sorted(places, key=lambda it: -it.head):
        copies = "\n\n".join(copy_of(lines, function, it, mutants[it]) for it in places[function])
        block = block_around(lines, function)
        if block and " for " in block[0]:
            # the copies stand in an `impl` of their own
            lines[block[1] + 1 : block[1] + 1] = ["", own_block(block[0]), *copies.split("\n"), "}"]
        else:
            lines[function.end + 1 : function.end + 1] = ["", *copies.split("\n")]
        lines[function.body + 1 : function.body + 1] = choice_of(lines, function, places[function])
    return "\n".join(lines)
