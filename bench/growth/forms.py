"""Rows of the forms of the language: each so often in one text, and then in a loop of so many turns.

A form in itself is at most 200 levels deep, and so are the operands of one operator and the branches of one choice: that bounds them, and no row has more.
"""
from scripts import Row, added, bound, shown, turns

STATEMENTS = {
    "text and comments": "<p>{# words #}",
    "`{{ }}`": "{{ name }}",
    "tags that trim": " {{- name -}} ",
    "`raw`": "{% raw %}{{{% endraw %}",
    "`if`, `elif`, `else`": '{% if name == "a" %}a{% elif name == "b" %}b{% else %}c{% endif %}',
    "`for` over an array": "{% for x in [1, 2] %}{{ x }}{% endfor %}",
    "`for` over a map": '{% for k, v in {"a": 1, "b": 2} %}{{ k }}{{ v }}{% endfor %}',
    "`for` over a text": "{% for c in name %}{{ c }}{% endfor %}",
    "`for` with `else`": "{% for x in [] %}{{ x }}{% else %}none{% endfor %}",
    "the names of `loop`": "{% for x in [1] %}{{ loop.index }}{{ loop.index0 }}{{ loop.first }}{{ loop.last }}{{ loop.length }}{% endfor %}",
    "`break`": "{% for x in [1, 2] %}{% break %}{% endfor %}",
    "`continue`": "{% for x in [1, 2] %}{% continue %}{% endfor %}",
    "`set`": "{% set n = 1 %}{{ n }}",
    "`set_global`": "{% set_global n = 1 %}{{ n }}",
    "`set` .. `endset`": "{% set n %}a{{ name }}{% endset %}{{ n }}",
    "`set_global` .. `endset_global`": "{% set_global n %}a{{ name }}{% endset_global %}{{ n }}",
    "`set` with filters": "{% set n | trim | str %}a{% endset %}{{ n }}",
    "`filter`": '{% filter replace(from="o", to="0") | reverse %}{{ name }}{% endfilter %}',
    "`include`": '{% include "part" %}',
    "a component's call": '{{ <Card title="a" n={1} {...{"x": 2}}/> }}',
    "a component's call with a body": '{% <Card title="a"> %}b{{ name }}{% </Card> %}',
    "a component's call with an implicit parameter": "{{ <Lang/> }}",
}

EXPRESSIONS = {
    "names and attributes": "[name, m.a.b, nobody?.a]",
    "constants": "[true, false, none, 123456, 'a\\nb']",
    "arrays": "[1, [2], ...[3]]",
    "maps": '{"a": 1, 2: 3, true: 4}',
    "maps with a spread": '{"a": 1, ...{"b": 2}}',
    "comprehensions": "[x * 2 for x in [1, 2, 3] if x > 1]",
    "comprehensions with two names": '[k ~ v for k, v in {"a": 1, "b": 2}]',
    "choices": "1 if name else 2",
    "`or`, `and`, `not`": "nobody or name and not name",
    "comparisons": "[1 == 2 != 3, 1 < 2, 1 > 2, 1 <= 2, 1 >= 2]",
    "`in`, `not in`": "[1 in [1, 2], 1 not in [1, 2]]",
    "`is`, `is not`": "[1 is odd, 1 is not divisible_by(divisor=2)]",
    "`~`": "name ~ 1 ~ name",
    "arithmetic": "- 6 * 2 / 3 // 2 % 5 + 2 ** 3 - 1",
    "filters": 'name | trim | replace(from="o", to="0")',
    "calls": "range(start=1, end=3)",
    "indexes": "[m['a']['b'], l[1], nobody?[0]]",
    "slices": "[l[0:2:1], name[::-1], nobody?[0:1]]",
    "parentheses": "((1 + 2)) * 3",
    "`__tera_context`": "__tera_context | length",
}

# What is there for all of these.
PARTS = [
    ("part", "<i>{{ name }}</i>"),
    ("card", "{% component Card(title: String, n = 1, ...r) %}{{ title }}{{ n }}{% endcomponent Card %}"),
    ("lang", "{% component Lang(@name) %}{{ name }}{% endcomponent %}"),
]
BESIDE = bound("name", "<world>") + added(PARTS)
SETS = '{% set m = {"a": {"b": 1}} %}{% set l = [1, 2, 3] %}'


def both(form):
    """The form so often in a text, and in a loop."""
    return lambda size: BESIDE + shown(SETS + form * size) + shown(SETS + turns(size, form))


def blocks(size):
    """Blocks that are put out in a loop, one of which takes what its parent says."""
    parent = ("p", turns(size, "{% block a %}x{% endblock %}{% block b %}y{% endblock %}"))
    child = ("c", '{% extends "p" %}{% block a %}{{ super() }}{% set n = super(a=1) %}{% endblock %}')
    return BESIDE + added([parent, child], "@@ render c\n")


def empty_loops(inside):
    """An empty loop around as many tags, in a loop of as many turns. A turn has nothing to do but to step over it."""
    return lambda size: shown(turns(size, "{% for x in [] %}" + inside * size + "{% endfor %}"))


def not_taken(size):
    """The same of a choice."""
    return shown(turns(size, "{% if i < 0 %}" + "{{ i }}" * size + "{% endif %}"))


def left_at_once(size):
    """The same of a loop that is left before the rest of its body."""
    return shown(turns(size, "{% for x in [1] %}{% break %}" + "{{ x }}" * size + "{% endfor %}"))


SIZE = 1_000
# What costs little is taken more often.
LIGHT = {"text and comments": 10_000, "`{{ }}`": 5_000, "tags that trim": 5_000, "`raw`": 5_000, "`set`": 2_000, "`set_global`": 2_000, "`include`": 2_000}
LIGHT |= {"choices": 3_000, "parentheses": 2_000}
ROWS = [
    *(Row(name, LIGHT.get(name, SIZE), both(form)) for name, form in STATEMENTS.items()),
    Row("blocks and `super()`, in a loop", 5_000, blocks),
    Row("in a loop, an empty loop around as many tags of its name", 800, empty_loops("{{ x }}")),
    Row("in a loop, an empty loop around as many tags of another name", 4_000, empty_loops("{{ i }}")),
    Row("in a loop, a choice around as many tags", 8_000, not_taken),
    Row("in a loop, a loop around `break` and as many tags", 4_000, left_at_once),
    *(Row(f"an expression: {name}", LIGHT.get(name, SIZE), both(f"{{{{ {form} }}}}")) for name, form in EXPRESSIONS.items()),
]
