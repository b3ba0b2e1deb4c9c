"""What door.c does, in Python: door.py WORK ROUNDS TIMES, where WORK is `render` or `print`, by the module `hovdreg`; `data`, which makes JSON of the
values and nothing else; or `jinja2` or `print-jinja2`, by Jinja2."""
import gc
import json
import sys
import time


def hovdreg_rendering(text, values):
    import hovdreg

    engine = hovdreg.Engine()
    engine.add({"page.html": text})
    return lambda: engine.render("page.html", values)


def jinja2_rendering(text, values):
    import jinja2

    template = jinja2.Environment(autoescape=True, keep_trailing_newline=True).from_string(text)
    return lambda: template.render(values)


def fastest(rounds, times, work):
    """The nanoseconds of one time in the fastest round."""
    least = float("inf")
    for _ in range(rounds):
        start = time.perf_counter_ns()
        for _ in range(times):
            work()
        least = min(least, time.perf_counter_ns() - start)
    return least / times


def main():
    work, rounds, times = sys.argv[1:]
    with open("page.html", encoding="utf-8") as page, open("data.json", encoding="utf-8") as data:
        text, values = page.read(), json.load(data)
    if work == "data":
        encoder = json.JSONEncoder(ensure_ascii=False, allow_nan=False, separators=(",", ":"))
        rendering = lambda: encoder.encode(values)
    else:
        rendering = (jinja2_rendering if work.endswith("jinja2") else hovdreg_rendering)(text, values)
    if work.startswith("print"):
        sys.stdout.write(rendering())
        return
    gc.disable()
    print(fastest(int(rounds), int(times), rendering))


main()
