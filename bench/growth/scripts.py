"""What a row is, and how its script is made."""
from itertools import count
from string import ascii_letters, digits
from typing import Callable, NamedTuple


class Row(NamedTuple):
    name: str
    size: int  # so large that the part that grows too fast can be told from the rest
    script: Callable[[int], str]  # of a size
    fault: str = ""  # the kind of the fault that ends the replies, where one does
    may: str = ""  # why it may be over, if it may: a mark of README.md


def rising(size):
    """So many names, in byte order."""
    return [f"a{it:07}" for it in range(size)]


def falling(size):
    return rising(size)[::-1]


def scattered(size):
    return [f"a{it * 618_033 % 1_000_003:07}" for it in range(size)]


MASK = (1 << 64) - 1
START, MULTIPLIER = 0x243F_6A88_85A3_08D3, 0x9E37_79B9_7F4A_7C15
OF_NAMES = frozenset((ascii_letters + digits + "_").encode())


def folded(one, other):
    """What std's `FoldHasher` makes of two numbers of 64 bits."""
    product = one * other
    return product & MASK ^ product >> 64


def word(name, at):
    return int.from_bytes(name[at : at + 8], "little")


def front_of_colliding(size=32):
    """24 bytes of a name, whatever its last eight are: the hash of the first 16 is what the next eight are, so that these two
    are multiplied to nothing, and the name's hash is 0."""
    for number in count():
        front = f"a{number:015}".encode()
        state = folded(word(front, 0) ^ START + size, word(front, 8) ^ MULTIPLIER)
        back = state.to_bytes(8, "little")
        if OF_NAMES.issuperset(back):
            return (front + back).decode()


FRONT = front_of_colliding()


def colliding(size):
    """So many names, all of one hash, in byte order."""
    return [f"{FRONT}{it:08}" for it in range(size)]


ORDERS = {"rising": rising, "falling": falling, "scattered": scattered, "colliding": colliding}


def each(pattern, names, between=""):
    """The pattern once for each name, which stands there for `N`."""
    return between.join(pattern.replace("N", str(name)) for name in names)


def body(command, text):
    return f"@@ {command}\n{text}\n@@ end\n"


def shown(text):
    """Renders a text beside the templates."""
    return body("str on", text)


def bound(name, text):
    """Binds a name of the context to a text."""
    return body(f"text {name}", text)


def waiting(templates):
    return "".join(body(f"template {name}", text) for name, text in templates)


def added(templates, after=""):
    """Adds the templates in one batch."""
    return f"{waiting(templates)}@@ add\n{after}"


def page(text, parts=()):
    """Adds a page with its parts, and renders it."""
    return added([*parts, ("page", text)], "@@ render page\n")


def turns(size, text):
    """A loop that takes the text so often."""
    return f"{{% for i in range(end={size}) %}}{text}{{% endfor %}}"
