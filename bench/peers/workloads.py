"""What is measured: templates for each of the engines that can say them, and what their context holds.

A context always holds `name`, `title`, `text`, `flag`, `off`, `num` and `user`. Beside them it holds what `data` says, so much as `size` says:
mostly an array under the name `items`, a text under `long` or a map under `map`.
"""
from typing import NamedTuple, Optional


class Row(NamedTuple):
    """One line of a table. A text alone is the template `main.html`."""

    name: str
    texts: dict
    data: str = "nothing"
    size: int = 1
    wanted: Optional[float] = None
    """How many times ours the instructions of Tera 1 are to be, at least."""
    hand: Optional[str] = None
    """The loop by hand of the same work, in hand.rs."""
    near: bool = False
    """Whether at most three times the time of that loop is wanted."""


def said(ours, tera1="", jinja2=""):
    """What each engine is given: the same as ours where nothing else stands, and nothing where None stands."""
    texts = {"ours": ours, "tera1": ours if tera1 == "" else tera1, "jinja2": ours if jinja2 == "" else jinja2}
    return {engine: {"main.html": text} if isinstance(text, str) else text for engine, text in texts.items() if text is not None}


def loop(ours, *others, over="items", name="x"):
    """The same loop around the body in each engine."""

    def around(body):
        return f"{{% for {name} in {over} %}}{body}{{% endfor %}}"

    return said(around(ours), *(around(body) if body else body for body in others))


PAGE = """<!doctype html><html><head><title>{{ title }}</title></head><body>
<nav><ul><li><a href="/">Home</a></li><li><a href="/about">About</a></li></ul></nav>
{% if flag %}<p class="hello">Hello {{ name }}, you have {{ num }} messages.</p>{% else %}<p>Log in</p>{% endif %}
<div class="user"><h2>{{ user.name }}</h2><p>{{ user.email }}</p>{% if user.age > 18 %}<b>adult</b>{% endif %}</div>
<p>Some words on the page, as a page has them between two tags, and then some more of them, so that text prevails.</p>
</body></html>
"""
LIST = """    <li class="{{ item.kind }}"><a href="{{ base ~ item.path }}">{{ item.title or "untitled" }}</a>
      {# how it was ranked #}
      {%- if item.score > 10 and not item.hidden %} <b>{{ item.score }}</b> of {{ total - 1 }}
      {%- elif item.is_new %} <i>new</i>{% else %} <span>seen before</span>{% endif %}
      <p>Some words on the item, as a page has them between two tags, and then some more of them.</p></li>
"""
NAMES = "the text between two names is this long{{ name }}\n" * 100
EXPRESSIONS = "{{ 1 + 2 * 3 - num }}{{ num > 3 and not off }}{{ num % 2 == 0 or flag }}" * 200
CHOICES = "{% if name == 'you' %}a{% elif not name %}b{% else %}c{% endif %}" * 300
PLAIN = "some words of a text that has no tag at all, line after line after line\n" * 910
TABLE = "{% for row in items %}<tr>{% for cell in row %}<td>{{ cell }}</td>{% endfor %}</tr>{% endfor %}"
ENTRIES = "{{% for k, v in {} %}}{{{{ k }}}}={{{{ v }}}};{{% endfor %}}"
LEVELS = {
    "base.html": "<title>{% block title %}Home{% endblock %}</title><body>{% block body %}<p>base</p>{% endblock %}</body>",
    "middle.html": '{% extends "base.html" %}{% block body %}<div>{{ super() }}</div>{% endblock %}',
    "main.html": '{% extends "middle.html" %}{% block title %}{{ title }}{% endblock %}{% block body %}{{ super() }}<p>{{ text }}</p>{% endblock %}',
}
CARD = '<div class="card"><h2>{{ name }}</h2>{{ note }}</div>'


def numbered(pattern):
    """A hundred times a pattern, with a number in place of `N`."""
    return "".join(pattern.replace("N", str(number)) for number in range(100))


BLOCKS = {
    "base.html": numbered("<p>{% block bN %}{{ name }}{% endblock %}</p>"),
    "main.html": '{% extends "base.html" %}' + numbered("{% block bN %}{{ super() }}!{% endblock %}"),
}
PART = {"part.html": "<li>{{ i }} of {{ title }}</li>"}


def called(parameters, ours, tera1, jinja2):
    """200 calls of a component, which the others call a macro."""
    macro = f"{{% macro card({parameters}) %}}{CARD}{{% endmacro %}}"
    loops = ("{% for i in range(end=200) %}", "{% for i in range(200) %}")
    return said(
        f"{{% component Card({parameters}) %}}{CARD}{{% endcomponent Card %}}{loops[0]}{ours}{{% endfor %}}",
        {"m.html": macro, "main.html": f'{{% import "m.html" as m %}}{loops[0]}{tera1}{{% endfor %}}'},
        f"{macro}{loops[1]}{jinja2}{{% endfor %}}",
    )


def defined(kind):
    """100 components, or macros."""
    return numbered(f"{{% {kind} CardN(name, note) %}}{CARD}{{% end{kind} %}}")


def included(turns):
    return PART | {"main.html": f'{{% for i in {turns} %}}{{% include "part.html" %}}{{% endfor %}}'}


PAGES = [
    Row("a page of 700 bytes", said(PAGE)),
    Row("100 names, 50 bytes apart", said(NAMES)),
    Row("1,000 names of the context", said("".join(f"{{{{ v{number} }}}}" for number in range(1000))), "names", 1000),
    Row("600 expressions", said(EXPRESSIONS), wanted=2),
    Row("300 choices", said(CHOICES), wanted=2.5),
    Row("plain text of 64 KB", said(PLAIN)),
    Row("100 KB, nothing to escape", said("{{ long }}"), "plain", 3704),
    Row("100 KB, every seventh byte to escape", said("{{ long }}"), "markup", 2858, 1.5, "escape"),
    Row("100 KB, every byte to escape", said("{{ long }}"), "signs", 20_000, 1.5),
]
LOOPS = [
    Row("nothing", loop(""), "integers", 10_000),
    Row("a table's cells, texts", said(TABLE), "rows_of_texts", 1000, 3, "texts", True),
    Row("a table's cells, integers", said(TABLE), "rows_of_integers", 1000, 3, "integers", True),
    Row("three attributes", loop("<li>{{ x.name }} {{ x.age }} {{ x.city }}</li>"), "people", 1000, 3, "attributes", True),
    Row("`loop.index`", loop("{{ loop.index }}"), "integers", 10_000, 3, "turns", True),
    Row("`{% set n = x %}{{ n }}`", loop("{% set n = x %}{{ n }}"), "integers", 10_000, 3, "set", True),
    Row("`{% if x > 5000 %}`", loop("{% if x > 5000 %}a{% else %}b{% endif %}"), "integers", 10_000, 2.5, "if"),
    Row("a choice of three", loop("{% if x < 3000 %}a{% elif x < 6000 %}b{% else %}c{% endif %}"), "integers", 10_000, 2.5),
    Row("`x * 2 + 1`", loop("{{ x * 2 + 1 }},"), "integers", 10_000, 2, "arithmetic"),
    Row("`x % 7 == 3 and x > 100`", loop("{{ x % 7 == 3 and x > 100 }}"), "integers", 10_000, 2),
    Row("`x ~ '-' ~ x`", loop("{{ x ~ '-' ~ x }}"), "words", 10_000, 1.5, "concat"),
    Row("a captured `set`", loop("{% set b %}<b>{{ x }}</b>{% endset %}{{ b }}", None), "integers", 1000),
    Row(
        "keys and values of a map",
        said(ENTRIES.format("map"), "", ENTRIES.format("map.items()")),
        "map",
        1000,
    ),
    Row("`[c * 2 for c in x if c > 5]`", loop("{{ [c * 2 for c in x if c > 5] | length }}", None, None), "rows_of_integers", 1000),
]
FILTERS = [
    Row("`trim`", loop("{{ x | trim }}"), "words", 10_000, 1.5, "trim"),
    Row("`length`", loop("{{ x | length }}"), "words", 10_000, 1.5, "length"),
    Row("`replace`", loop("{{ x | replace(from='w', to='x') }}", "", "{{ x | replace('w', 'x') }}"), "words", 10_000, 1.5, "replace"),
    Row("`default`", loop("{{ x | default(value='y') }}", "", "{{ x | default('y') }}"), "words", 10_000, 1.5),
    Row("`default` of what is undefined", loop("{{ y | default(value='y') }}", "", "{{ y | default('y') }}"), "words", 10_000, 1.5),
    Row("`escape`", loop("{{ x | escape }}"), "words", 10_000, 1.5),
    Row("`truncate`", loop("{{ x | truncate(length=3) }}", "", None), "words", 10_000, 1.5),
    Row("`split` and `first`", loop("{{ x | split(pat='1') | first }}", "", "{{ x.split('1') | first }}"), "words", 10_000, 1.5),
    Row("three filters", loop("{{ x | trim | replace(from='w', to='x') | length }}", "", "{{ x | trim | replace('w', 'x') | length }}"), "words", 10_000, 1.5),
    Row("a filter section", loop("{% filter trim %}{{ x }}{% endfilter %}"), "words", 10_000, 1.5),
    Row("`is odd`", loop("{% if x is odd %}a{% endif %}"), "integers", 10_000, 1.5, "odd"),
    Row("`is defined`", loop("{% if x is defined %}a{% endif %}"), "integers", 10_000, 1.5),
    Row("`is divisible_by`", loop("{% if x is divisible_by(divisor=3) %}a{% endif %}", *["{% if x is divisibleby(3) %}a{% endif %}"] * 2), "integers", 10_000, 1.5),
    Row("`is starting_with`", loop("{% if x is starting_with(pat='w1') %}a{% endif %}", "{% if x is starting_with('w1') %}a{% endif %}", None), "words", 10_000, 1.5),
]
LARGE = [
    Row("`join` of 10,000 texts", said("{{ items | join(sep=', ') }}", "", "{{ items | join(', ') }}"), "words", 10_000),
    Row("`sort` of 10,000 integers", said("{{ items | sort | length }}"), "scattered", 10_000, 1.5),
    Row("`sort` of 10,000 texts", said("{{ items | sort | length }}"), "words", 10_000, 1.5),
    Row("`unique` of 10,000 integers", said("{{ items | unique | length }}", "", "{{ items | unique | list | length }}"), "scattered", 10_000, 1.5),
    Row("`unique` of 100 integers, 10,000 times", said("{{ items | unique | length }}", "", "{{ items | unique | list | length }}"), "few_integers", 10_000, 1.5),
    Row("`unique` of 100 texts, 10,000 times", said("{{ items | unique | length }}", "", "{{ items | unique | list | length }}"), "few_words", 10_000, 1.5),
    Row("`group_by`, 10,000 maps in 10 groups", said("{{ items | group_by(attribute='city') | length }}", "", "{{ items | groupby('city') | length }}"), "people", 10_000),
    Row("10,000 integers, printed", said("{{ items }}"), "integers", 10_000),
    Row("`replace` in 100 KB", said("{{ long | replace(from='sit', to='stand') | length }}", "", "{{ long | replace('sit', 'stand') | length }}"), "plain", 3704, 1.2),
    Row("`split` of 100 KB", said("{{ long | split(pat=' ') | length }}", "", "{{ long.split(' ') | length }}"), "plain", 3704, 1.2),
    Row("`reverse` of 100 KB", said("{{ long | reverse | length }}"), "plain", 3704, 1.2),
    Row("`wordcount` of 100 KB", said("{{ long | wordcount }}"), "plain", 3704, 1.2),
    Row("`escape` of 100 KB", said("{{ long | escape | safe }}"), "markup", 2858, 1.5),
]
TEMPLATES = [
    Row("three levels with `super()`", said(LEVELS), wanted=2),
    Row("100 blocks with `super()`", said(BLOCKS), wanted=2),
    Row("100 includes", said(included("range(end=100)"), "", included("range(100)")), wanted=2),
    Row(
        "200 components, two arguments",
        called("name, note", '{{ <Card name={i} note="new"/> }}', '{{ m::card(name=i, note="new") }}', '{{ card(i, "new") }}'),
        wanted=2,
    ),
    Row(
        "200 components, one default",
        called('name, note="new"', "{{ <Card name={i}/> }}", "{{ m::card(name=i) }}", "{{ card(i) }}"),
        wanted=2,
    ),
]
RENDERING = {"Pages": PAGES, "Loops": LOOPS, "Filters and tests in a loop": FILTERS, "Large values": LARGE, "Templates": TEMPLATES}
READING = [
    Row("a page of 700 bytes", said(PAGE), wanted=2),
    Row("a page of 100 KB", said(LIST * 240), wanted=2),
    Row("100 names, 50 bytes apart", said(NAMES), wanted=2),
    Row("600 expressions", said(EXPRESSIONS), wanted=2),
    Row("300 choices", said(CHOICES), wanted=2),
    Row("200 times two filters", said("{{ name | replace(from='a', to='b') | trim }}" * 200, "", "{{ name | replace('a', 'b') | trim }}" * 200), wanted=2),
    Row("plain text of 64 KB", said(PLAIN), wanted=2),
    Row("three levels with `super()`", said(LEVELS), wanted=2),
    Row("100 blocks with `super()`", said(BLOCKS), wanted=2),
    Row("100 components", said(*map(defined, ("component", "macro", "macro"))), wanted=2),
]
MEMORY = [
    Row("1 MiB of `{{name}}`", said("{{name}}" * (1 << 17), "", None)),
    Row("a loop over 1,000,000 integers", loop(""), "integers", 1_000_000),
    Row("a loop over 1,000,000 texts", loop(""), "words", 1_000_000),
    Row("a loop over 100,000 maps of three", loop(""), "people", 100_000),
]
