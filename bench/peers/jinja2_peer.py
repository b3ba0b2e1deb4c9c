"""What bench/peers/program.txt does, by Jinja2."""
import gc
import sys
import time

import jinja2

TEXT = '<p class="lead">It\'s a line of text, and it goes on & on.</p>'
REPEATED = {"markup": "The quick <b>brown</b> fox & more, ", "signs": "<&>\"'", "plain": "lorem ipsum dolor sit amet "}
ITEMS = {
    "rows_of_texts": lambda place, chance: [str(cell) for cell in range(10 * place, 10 * place + 10)],
    "rows_of_integers": lambda place, chance: list(range(10 * place, 10 * place + 10)),
    "people": lambda place, chance: {"name": "Jane", "age": place, "city": f"City {place % 10}"},
    "words": lambda place, chance: f"w{chance}",
    "few_words": lambda place, chance: f"w{place % 100}",
    "scattered": lambda place, chance: chance,
    "few_integers": lambda place, chance: place % 100,
    "integers": lambda place, chance: place,
}


def chances(size):
    """Numbers that look like chance."""
    state = 42
    for _ in range(size):
        state = (state * 1_103_515_245 + 12_345) % 2_147_483_648
        yield state


def values(data, size):
    """What the context holds beside what it always holds."""
    if data == "nothing":
        return {}
    if data == "names":
        return {f"v{number}": number for number in range(size)}
    if data == "map":
        return {"map": {f"k{chance}": chance for chance in chances(size)}}
    if data in REPEATED:
        return {"long": REPEATED[data] * size}
    return {"items": [ITEMS[data](place, chance) for place, chance in enumerate(chances(size))]}


def context(data, size):
    user = {"name": "Ann", "email": "ann@x.org", "age": 30}
    return {"name": "world", "title": "A & B", "text": TEXT, "flag": True, "off": False, "num": 7, "user": user} | values(data, size)


def read(texts):
    """The template `main.html`, when all are compiled."""
    environment = jinja2.Environment(autoescape=True, keep_trailing_newline=True, loader=jinja2.DictLoader(texts))
    for name in texts:
        environment.get_template(name)
    return environment.get_template("main.html")


def timed(rounds, work):
    """Prints the nanoseconds of each round."""
    for _ in range(rounds):
        start = time.perf_counter_ns()
        work()
        print("true", time.perf_counter_ns() - start)


def main():
    line, _, parts = sys.stdin.read().partition("\n")
    work, data, size, rounds, times = line.split(" ")
    values_of_all = context(data, int(size))
    texts = dict(part.split("\x02", 1) for part in parts.split("\x01")[1:])
    gc.disable()
    if work == "read":
        return timed(int(rounds), lambda: read(texts))
    template = read(texts)
    if work == "render":
        return timed(int(rounds), lambda: [template.render(values_of_all) for _ in range(int(times))])
    sys.stdout.buffer.write(template.render(values_of_all).encode())


main()
