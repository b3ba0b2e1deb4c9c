"""Rows of long values: what built-ins, operators and loops make of a text, an array or a map of a size."""
from scripts import Row, bound, shown

# `a` is an array of integers, `s` one of scattered integers, `p` one of maps, `m` and `n` are maps.
ARRAY = "{% set a = range(end=SIZE) %}"
SCATTERED = ARRAY + "{% set s = [x * 7919 % 99991 for x in a] %}"
PAIRS = ARRAY + '{% set p = [{"k": x * 7919 % 99991, "v": x} for x in a] %}'
MAP = PAIRS + '{% set m = p | group_by(attribute="v") %}'
MAPS = MAP + '{% set n = p | group_by(attribute="v") %}'

# `t` is a text of so many letters, `w` one of words and lines between white space, `d` one of digits.
OF_TEXTS = {
    "`escape`, `escape_xml`, `safe`, `str`": "[t | escape, t | escape_xml, t | safe, t | str]",
    "`length`, `wordcount`": "[t | length, w | wordcount]",
    "`reverse`": "t | reverse",
    "`trim`, `trim_start`, `trim_end`": '[w | trim, t | trim(pat="a"), t | trim_start(pat="ab"), t | trim_end(pat="ab")]',
    "`replace`": '[t | replace(from="a", to="b"), t | replace(from="a", to="12345678")]',
    "`indent`, `newlines_to_br`": "[w | indent(width=4, first=true, blank=true), w | newlines_to_br]",
    "`truncate`": "[t | truncate(length=SIZE // 2)]",
    "`split`": 'w | split(pat=" ")',
    "`split` at each letter": 't | split(pat="")',
    "`int`": "[d | int]",
    "`starting_with`, `ending_with`, `containing`": '[t is starting_with(pat=t), t is ending_with(pat=t), t is containing(pat="c")]',
    "`in`, `==`, `<`, `~`": "['c' in t, t == t ~ '', t < t ~ 'c']",
    "indexes and slices": "[t[-1], t[1:-1], t[::-1]]",
}
OF_ARRAYS = {
    "`first`, `last`, `nth`, `length`": "[a | first, a | last, a | nth(n=SIZE - 1), a | length]",
    "`reverse`, `join`, `str`": "[a | reverse, a | join(sep=', '), a | str]",
    "`sort`": "[a | sort, s | sort]",
    "`unique`": "s | unique",
    "`unique` of arrays": "[[x] for x in s] | unique",
    "`unique` of texts": "[x ~ '' for x in s] | unique",
    "`containing`, `in`, `==`, `<`": "[a is containing(pat=-1), -1 in a, a == [...a], a < [...a]]",
    "spreads and comprehensions": "[...a, ...[x * 2 for x in a if x != 1]]",
    "indexes and slices": "[a[-1], a[1:-1], a[::-1]]",
}
OF_PAIRS = {
    "`sort` by an attribute": 'p | sort(attribute="k")',
    "`group_by`, rising": 'p | group_by(attribute="v")',
    "`group_by`, falling": 'p | reverse | group_by(attribute="v")',
    "`group_by`, scattered": 'p | group_by(attribute="k")',
    "`group_by` of texts, scattered": '[{"k": x.k ~ ""} for x in p] | group_by(attribute="k")',
    "`group_by` with one group": '[{"k": 1, "v": x.k} for x in p] | group_by(attribute="k")',
}
OF_MAPS = {
    "`keys`, `values`, `pairs`, `str`": "[m | keys, m | values, m | pairs, m | str]",
    "`get`, `containing`, `in`, attributes": "[m | get(key='k', default=1), m is containing(pat='k'), 'k' in m, m.k]",
    "`==`": '[m == n, m == (p | reverse | group_by(attribute="v"))]',
    "spreads": "{...m, ...n}",
    "comprehensions": "[k ~ 1 for k, v in m]",
}

# Loops of so many turns.
OF_TURNS = {
    "`a[i]`": "{% for i in a %}{{ a[i] }}{% endfor %}",
    "`m[i]`": "{% for k, v in m %}{{ m[k] | length }}{% endfor %}",
    "over a text": "{% for c in t %}{{ c }}{% endfor %}",
    "what is captured": "{% set b %}{% for i in a %}{{ i }}{% endfor %}{% endset %}{{ b }}",
    "`b = [b]`": "{% set_global b = [] %}{% for i in a %}{% set_global b = [b] %}{% endfor %}{{ b }}",
    "`b = {'k': b}`": "{% set_global b = 1 %}{% for i in a %}{% set_global b = {'k': b} %}{% endfor %}{{ b }}",
}
COPIES = [
    ("`t[i]`", 500, "{% for i in a %}{{ t[i] }}{% endfor %}"),
    ("`b = b ~ i`", 2_000, "{% set b = '' %}{% for i in a %}{% set_global b = b ~ i %}{% endfor %}{{ b }}"),
    ("`b = [...b, i]`", 300, "{% set b = [] %}{% for i in a %}{% set_global b = [...b, i] %}{% endfor %}{{ b | length }}"),
]


def of_text(template):
    """The template of a size, beside texts of that size."""

    def script(size):
        texts = {"t": ("ab" * size)[:size], "w": " \n" * (size // 4) + "ab " * (size // 6), "d": "0" * size}
        return "".join(bound(*it) for it in texts.items()) + shown(template.replace("SIZE", str(size)))

    return script


def of(template):
    return lambda size: shown(template.replace("SIZE", str(size)))


def counted(expression):
    return "{{ (" + expression + ") | length }}"


ROWS = [
    *(Row(f"a text: {name}", 100_000, of_text(counted(it))) for name, it in OF_TEXTS.items()),
    *(Row(f"an array: {name}", 6_000, of(SCATTERED + counted(it))) for name, it in OF_ARRAYS.items()),
    *(Row(f"an array of maps: {name}", 3_000, of(PAIRS + counted(it))) for name, it in OF_PAIRS.items()),
    *(Row(f"a map: {name}", 1_000, of(MAPS + counted(it))) for name, it in OF_MAPS.items()),
    *(Row(f"a loop: {name}", 1_500, of_text(MAP + it)) for name, it in OF_TURNS.items()),
    *(Row(f"a loop: {name}", size, of_text(ARRAY + it), may="copies") for name, size, it in COPIES),
]
