"""What was measured, as tables and lists of docs/BENCHMARKS.md and of README.md beside this."""
import re
from statistics import median
from typing import NamedTuple, Optional

from workloads import Row

MOST_BY_HAND = 3


class Measured(NamedTuple):
    """What a row costs: nanoseconds and instructions by engine, whether all texts are the same, and the loop by hand's nanoseconds."""

    row: Row
    work: str
    times: dict
    counts: dict
    same: bool
    hand: Optional[int] = None
    dearest: list = []

    def ratio(self):
        """Tera 1's instructions by ours."""
        return self.counts["tera1"] / self.counts["ours"] if "tera1" in self.counts else None

    def by_time(self, engine):
        """The engine's time by ours."""
        return self.times[engine] / self.times["ours"] if engine in self.times else None

    def by_hand(self):
        """Our time by that of the loop by hand."""
        return self.times["ours"] / self.hand if self.hand else None

    def is_dear(self):
        """Whether more instructions are taken than is wanted."""
        return bool(self.row.wanted and self.ratio() and self.ratio() < self.row.wanted)

    def is_far(self):
        """Whether more time is taken beside the loop by hand than is wanted."""
        return bool(self.row.near and self.hand and self.by_hand() > MOST_BY_HAND)

    def is_short(self):
        """Whether less is reached than is wanted."""
        return self.is_dear() or self.is_far()


def cell(figure, form):
    return "" if figure is None else format(figure, form)


def micro(nanoseconds):
    return None if nanoseconds is None else nanoseconds / 1000


def table(heads, lines, of_words=1):
    """A table of which the first columns are of words, and the others of figures."""
    rows = [heads, ["---"] * of_words + ["---:"] * (len(heads) - of_words), *lines]
    return "".join("| " + " | ".join(row) + " |\n" for row in rows)


def named(row):
    return row.name.replace("|", "\\|")


def figures(measured):
    """The cells of a row that reading and rendering have in common."""
    counts = [cell(measured.counts.get(engine), ",") for engine in ("ours", "tera1")]
    times = [cell(micro(measured.times.get(engine)), ",.1f") for engine in ("ours", "tera1", "jinja2")]
    return [named(measured.row), *counts, cell(measured.ratio(), ".2f"), cell(measured.row.wanted, "g"), *times]


HEADS = ["instructions", "Tera 1", "ratio", "wanted", "µs", "Tera 1, µs", "Jinja2, µs"]


def rendering(topics):
    return "\n".join(
        table([topic, *HEADS, "by hand, µs"], [[*figures(it), cell(micro(it.hand), ",.1f")] for it in rows]) for topic, rows in topics.items()
    )


def reading(rows):
    return table(["Templates", *HEADS], [figures(it) for it in rows])


def sums(topics):
    """A line for each topic: of its rows the ratios, how many fall short of what is wanted, and Jinja2's times by ours."""

    def line(topic, rows):
        ratios = [it.ratio() for it in rows if it.ratio()]
        slower = [it.by_time("jinja2") for it in rows if it.by_time("jinja2")]
        wanted = [it for it in rows if it.row.wanted or it.row.near]
        short = sum(it.is_short() for it in wanted)
        return [topic, str(len(rows)), *(f"{it:.2f}" for it in (min(ratios), median(ratios))), f"{short} of {len(wanted)}", *(f"{it:.1f}" for it in (min(slower), median(slower)))]

    return table(
        ["Topic", "Rows", "Ratio, least", "median", "Short of what is wanted", "Jinja2's time by ours, least", "median"],
        [line(topic, rows) for topic, rows in topics.items()],
    )


def memory(rows):
    engines = ("ours", "tera1", "jinja2")
    return table(["What is rendered", "MB", "Tera 1, MB", "Jinja2, MB"], [[named(row), *(cell(peaks.get(it), ".0f") for it in engines)] for row, peaks in rows])


def title(measured):
    """The name of a row among those of all topics."""
    return ("reading: " if measured.work == "read" else "") + named(measured.row)


def short(measured):
    """A line on a row that reaches less than is wanted."""
    said = []
    if measured.is_dear():
        said.append(f"{measured.ratio():.2f} of {measured.row.wanted:g}")
    if measured.is_far():
        said.append(f"{measured.by_hand():.1f} times the loop by hand")
    places = ", ".join(f"`{name}` {share:.0f} %" for name, share in measured.dearest)
    return [title(measured), "; ".join(said), places]


def open_rows(rows):
    """What is not reached, each with its dearest places, and where Jinja2 is quicker."""
    found = [short(it) for it in rows if it.is_short()]
    slower = [f"{title(it)} ({it.by_time('jinja2'):.2f})" for it in rows if (it.by_time("jinja2") or 1) < 1]
    lines = table(["Row", "reached", "dearest places"], found, 3) if found else "All is reached.\n"
    return lines + (f"\nJinja2 takes less time than ours, by so many times ours: {', '.join(slower)}.\n" if slower else "\nJinja2 takes more time in every row.\n")


def between(text, name, body):
    """The text with a body between the two markers of a name."""
    marks = f"<!-- {name} -->", f"<!-- end of {name} -->"
    found = re.sub(f"{marks[0]}.*{marks[1]}", lambda _: f"{marks[0]}\n{body}{marks[1]}", text, flags=re.DOTALL)
    if marks[0] not in text or marks[1] not in text:
        raise SystemExit(f"no markers of {name}")
    return found
