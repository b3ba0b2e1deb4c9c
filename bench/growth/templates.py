"""Rows of many templates, of blocks in lineages, and of batches that are refused."""
from scripts import ORDERS, Row, added, each, page, rising, scattered, shown

SMALL = "<p>{{ name }}</p>{% block content %}{{ text }}{% endblock %}"


def small(names):
    return [(name, SMALL) for name in names]


def batches(size):
    """Templates that are added in one batch, by their order."""
    return [Row(f"templates in a batch, {order}", size, lambda n, names=names: added(small(names(n)))) for order, names in ORDERS.items()]


def one_by_one(pattern):
    """Each template by itself, where `N` stands for its number and `M` for the number before."""

    def script(size):
        templates = [(number, pattern.replace("N", str(number)).replace("M", str(number - 1))) for number in range(1, size)]
        return "".join(added([it]) for it in [(0, "x"), *templates])

    return script


def in_scattered_order(size):
    return "".join(added([it]) for it in small(scattered(size)))


def in_place(size):
    """One template that is added again and again, beside one that calls its component."""
    caller = ("caller", "{{ <C/> }}")
    return added([("c", "{% component C() %}x{% endcomponent %}"), caller]) + added([("c", "{% component C() %}y{% endcomponent %}")]) * size


def in_a_row(pattern, last="x"):
    """Templates of which each names the next, and the rendering of the first."""

    def script(size):
        row = [(f"t{number:07}", pattern.replace("N", f"t{number + 1:07}")) for number in range(size)]
        return added([*row, (f"t{size:07}", last)], "@@ render t0000000\n")

    return script


def nested(size):
    """A lineage of which each template puts a block of its own into that of its parent."""
    row = [(f"t{it}", f"{{% extends 't{it - 1}' %}}{{% block b{it - 1} %}}{{% block b{it} %}}x{{% endblock %}}{{% endblock %}}") for it in range(1, size)]
    return added([("t0", "{% block b0 %}x{% endblock %}"), *row], f"@@ render t{size - 1}\n")


def unlike_blocks(size):
    """A lineage of which each template overrides another block of the first."""
    first = each("{% block bN %}x{% endblock %}", range(size))
    row = [(f"t{it}", f"{{% extends 't{it - 1}' %}}{{% block b{it} %}}y{{% endblock %}}") for it in range(1, size)]
    return added([("t0", first), *row], f"@@ render t{size - 1}\n")


def children(size):
    """Many children of one parent, each rendered."""
    row = [(name, '{% extends "p" %}{% block b %}y{% endblock %}') for name in scattered(size)]
    return added([("p", "{% block b %}x{% endblock %}"), *row], "".join(f"@@ render {name}\n" for name, _ in row))


def includers(size):
    """Many templates that include one, each rendered. That one is the last by its name."""
    names = scattered(size)
    return added([("part", "x"), *((name, '{% include "part" %}') for name in names)], each("@@ render N\n", names))


def include_of_each(size):
    names = scattered(size)
    return page(each('{% include "N" %}', names), [(name, "x") for name in names])


def includes_of_one(size):
    return page('{% include "i" %}' * size, [("i", "x")])


def includes_of_lineage(size):
    """Includes of a child, whose parent has many blocks."""
    child = ("i", '{% extends "p" %}{% block a0000001 %}x{% endblock %}')
    parent = ("p", each("{% block N %}x{% endblock %}", rising(size)))
    return page('{% include "i" %}' * size, [child, parent])


def renderings(size):
    """As many templates as texts beside them."""
    return added(small(scattered(size)), shown("x") * size)


def renderings_with_components(size):
    parts = [(name, f"{{% component C{name}() %}}x{{% endcomponent %}}") for name in scattered(size)]
    return added(parts, "".join(shown(f"{{{{ <C{name}/> }}}}") for name, _ in parts))


def one_block(size):
    page_of_blocks = each("{% block N %}x{% endblock %}", scattered(size))
    return added([("p", page_of_blocks)], "@@ block p a0000000\n")


def behind_prefixes(size):
    return "@@ prefix " + " ".join(f"{name}/" for name in scattered(size)) + "\n" + added([("a0000000/t", "x"), ("page", '{% include "t" %}')], "@@ render page\n")


def names_after_prefixes(size):
    names = scattered(size)
    return "@@ prefix a/ b/ c/ d/\n" + page(each('{% include "N" %}', names), [(f"d/{name}", "x") for name in names])


def suffixes(size):
    return "@@ suffix " + " ".join(f".{name}" for name in scattered(size)) + "\n" + added([("t", "{{ 1 }}")], "@@ render t\n" * 2)


def lost(pattern):
    """A batch of as many templates, each with this fault."""
    return lambda size: added([(name, pattern.replace("N", name)) for name in scattered(size)])


def lost_blocks(size):
    return added([("p", "x"), ("c", '{% extends "p" %}' + each("{% block N %}{% endblock %}", scattered(size)))])


def lost_in_one(pattern):
    return lambda size: added([("t", each(pattern, scattered(size)))])


def lost_beside(pattern):
    return lambda size: shown(each(pattern, scattered(size)))


def circle(pattern, size):
    row = [(f"t{it:07}", pattern.replace("N", f"t{(it + 1) % size:07}")) for it in range(size)]
    return added(row)


def refused_again(size):
    """As many batches that are refused, beside as many templates."""
    return added(small(scattered(size))) + added([("t", '{% include "nope" %}')]) * size


def components_again(size):
    defined = each("{% component N() %}{% endcomponent %}", scattered(size))
    return added([("a", defined), ("b", defined)])


def not_there(size):
    return added(small(scattered(size)), "@@ render nope\n" * size)


ROWS = [
    *batches(1_000),
    Row("templates one by one, rising", 200, one_by_one("x"), may="anew"),
    Row("templates one by one, scattered", 200, in_scattered_order, may="anew"),
    Row("templates one by one, each including the one before", 80, one_by_one('{% include "M" %}'), may="anew"),
    Row("templates one by one, each extending the one before", 150, one_by_one('{% extends "M" %}'), may="anew"),
    Row("a template that is added again and again", 3_000, in_place),
    Row("templates of which each includes the next", 2_000, in_a_row('{% include "N" %}')),
    Row("templates of which each extends the next", 2_000, in_a_row('{% extends "N" %}')),
    Row("the same, with a block and `super()`", 1_500, in_a_row('{% extends "N" %}{% block b %}{{ super() }}{% endblock %}', "{% block b %}x{% endblock %}")),
    Row("a lineage with a block in each parent's block", 250, nested, may="lineage"),
    Row("a lineage of which each overrides another block", 250, unlike_blocks, may="lineage"),
    Row("children of one parent, each rendered", 800, children),
    Row("templates that include one, each rendered", 1_000, includers),
    Row("includes of as many templates", 1_000, include_of_each),
    Row("includes of one template", 5_000, includes_of_one),
    Row("includes of a child whose parent has as many blocks", 1_500, includes_of_lineage),
    Row("templates, and as many texts beside them", 800, renderings),
    Row("templates, and as many texts that call their components", 800, renderings_with_components),
    Row("one of the blocks, by `@@ block`", 2_000, one_block),
    Row("prefixes", 20_000, behind_prefixes),
    Row("names after one of four prefixes", 1_000, names_after_prefixes),
    Row("suffixes", 20_000, suffixes),
]

REFUSED = [
    Row("templates, each with a missing include", 500, lost('{% include "xN" %}'), "Message"),
    Row("templates, each with a missing parent", 1_000, lost('{% extends "xN" %}'), "MissingParent"),
    Row("templates, each with an unknown filter", 1_000, lost("{{ 1 | xN }}"), "Message"),
    Row("templates, each with an unknown component", 1_000, lost("{{ <N/> }}"), "Message"),
    Row("templates, each of which can't be read", 10_000, lost("{% if %}"), "SyntaxError"),
    Row("templates that extend each other in a circle", 2_000, lambda size: circle('{% extends "N" %}', size), "CircularExtend"),
    Row("templates that include each other in a circle", 2_000, lambda size: circle('{% include "N" %}', size), "CircularInclude"),
    Row("blocks of a child that no parent has", 2_000, lost_blocks, "Message"),
    Row("missing includes of one template", 4_000, lost_in_one('{% include "N" %}'), "Message"),
    Row("unknown filters of one template", 5_000, lost_in_one("{{ 1 | N }}"), "Message"),
    Row("unknown filters of a text", 5_000, lost_beside("{{ 1 | N }}"), "Message"),
    Row("unknown tests of a text", 5_000, lost_beside("{{ 1 is N }}"), "Message"),
    Row("unknown functions of a text", 5_000, lost_beside("{{ N() }}"), "Message"),
    Row("unknown components of a text", 5_000, lost_beside("{{ <N/> }}"), "Message"),
    Row("components that two templates have", 2_000, components_again, "Message"),
    Row("templates, and as many refused batches", 60, refused_again, "Message", may="anew"),
    Row("templates, and as many renderings of what is not there", 1_000, not_there, "TemplateNotFound"),
    Row("a fault in the last of includes", 2_000, in_a_row('{% include "N" %}', "{{ nope }}"), "RenderingError"),
    Row("a fault in the last block of a lineage", 1_500, in_a_row('{% extends "N" %}{% block b %}{{ super() }}{% endblock %}', "{% block b %}{{ nope }}{% endblock %}"), "RenderingError"),
]
