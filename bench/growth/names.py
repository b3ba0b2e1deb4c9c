"""Rows of many names in one text, or in the context."""
from scripts import ORDERS, Row, added, each, page, shown, turns


def ordered(name, size, script, orders="scattered", collide=0, may=""):
    """A row for each order of names. Where they collide, so many are enough to tell, and that row may be over for this reason."""

    def row(order):
        collides = order == "colliding"
        return Row(f"{name}, {order}", collide if collides and collide else size, lambda count: script(ORDERS[order](count)), may=may if collides else "")

    return [row(order) for order in orders.split()]


def arguments(names):
    return shown(f"{{{{ 1 | str({each('N=1', names, ', ')}) }}}}")


def arguments_of_a_function(names):
    return shown(f"{{{{ range(end=1, {each('N=1', names, ', ')}) }}}}")


def attributes(names):
    component = ("c", "{% component C(...r) %}{{ r | length }}{% endcomponent %}")
    return added([component], shown("{{ <C " + each('N="1" ', names) + "/> }}"))


def entries(names):
    return shown("{% set m = {" + each('"N": 1', names, ", ") + "} %}{{ m | length }}")


def entries_and_a_spread(names):
    return shown("{% set m = {" + each('"N": 1', names, ", ") + ", ...{}} %}{{ m | length }}")


def parameters(names):
    return added([("c", "{% component C(" + each("N", names, ", ") + ") %}{% endcomponent %}")])


def defaults(names):
    component = "{% component C(" + each("N = 1", names, ", ") + ") %}" + each("{{ N }}", names) + "{% endcomponent %}"
    return added([("c", component)], shown("{{ <C/> }}"))


def implicit(names):
    sets = each("{% set N = 1 %}", names)
    component = "{% component C(" + each("@N", names, ", ") + ") %}" + each("{{ N }}", names) + "{% endcomponent %}"
    return page(sets + "{{ <C/> }}", [("c", component)])


def blocks(names):
    return page(each("{% block N %}x{% endblock %}", names))


def overridden(names):
    parent = each("{% block N %}.{% endblock %}", names)
    return page('{% extends "p" %}' + each("{% block N %}x{% endblock %}", names), [("p", parent)])


def components(names):
    defined = each("{% component N() %}x{% endcomponent %}", names)
    return page(each("{{ <N/> }}", names), [("c", defined)])


def own_components(names):
    return shown(each("{% component N() %}x{% endcomponent %}", names) + each("{{ <N/> }}", names))


def sets(names):
    return shown(each("{% set N = 1 %}", names) + each("{{ N }}", names))


def sets_in_a_loop(names):
    return shown(turns(2, each("{% set N = 1 %}", names) + each("{{ N }}", names)))


def sets_for_all(names):
    return shown(turns(2, each("{% set_global N = 1 %}", names)) + each("{{ N }}", names))


def set_between_turns(names):
    loop = "{% set a = i %}{% set_global z = i %}" + turns(len(names), "{% set b = 1 %}")
    return shown(each("{% set N = 1 %}", names) + "{% for i in [1] %}" + loop + "{% endfor %}")


def sets_for_all_behind_a_turn(names):
    return shown(each("{% set N = 1 %}", names) + each("{% for i in [1] %}{% set a = i %}{% set_global gN = i %}{% endfor %}", names))


def set_in_an_include(names):
    return page('{% include "i" %}', [("i", each("{% set N = 1 %}", names) + each("{{ N }}", names))])


def set_around_an_include(names):
    return page(each("{% set N = 1 %}", names) + '{% include "i" %}', [("i", each("{{ N }}", names))])


def in_context(names):
    return each("@@ int N 1\n", names)


def read_of_context(names):
    return in_context(names) + shown(each("{{ N }}", names))


def read_in_a_loop(names):
    return in_context(names) + shown(turns(2, each("{{ N }}", names)))


def all_of_context(names):
    return in_context(names) + shown("{{ __tera_context | length }}")


def renderings(names):
    return in_context(names) + shown("x{{ a or 1 }}") * len(names)


def arguments_of_a_component(names):
    component = ("c", "{% component C(...r) %}{{ r | length }}{% endcomponent %}")
    return in_context(names) + added([component], "@@ component C on\n")


def implicit_of_a_component(names):
    component = ("c", "{% component C() %}x{% endcomponent %}")
    return in_context(names) + added([component], "@@ component C on " + " ".join(names) + "\n")


def previews(names):
    components = each("{% component N(N) %}{{ N }}{% endcomponent %}", names)
    return in_context(names) + added([("c", components)], "@@ preview on\n")


def preview_of_parameters(names):
    component = "{% component C(" + each("N", names, ", ") + ") %}" + each("{{ N }}", names) + "{% endcomponent %}"
    return in_context(names) + added([("c", component)], "@@ preview on\n")


ALL = "rising falling scattered colliding"
ROWS = [
    *ordered("arguments of a filter", 400, arguments, ALL),
    *ordered("arguments of a function", 400, arguments_of_a_function),
    *ordered("attributes of a component's call", 4_000, attributes, ALL),
    *ordered("entries of a map", 5_000, entries, ALL),
    *ordered("entries of a map, and a spread", 4_000, entries_and_a_spread),
    *ordered("parameters of a component", 5_000, parameters, ALL, collide=250),
    *ordered("parameters with defaults, put out", 1_200, defaults),
    *ordered("implicit parameters, put out", 800, implicit),
    *ordered("blocks of a template", 1_500, blocks, ALL, collide=400),
    *ordered("blocks that are all overridden", 1_000, overridden),
    *ordered("components of a template, each called", 1_500, components, ALL, collide=400),
    *ordered("components of a text, each called", 1_500, own_components, ALL, collide=400),
    *ordered("names that are set, put out", 800, sets, ALL, collide=150),
    *ordered("names that are set in a loop's body, put out", 600, sets_in_a_loop),
    *ordered("names set for all in a loop's body, put out", 600, sets_for_all),
    *ordered("names that are set, and as many turns that set one after a name set for all", 600, set_between_turns),
    *ordered("names that are set, and as many loops, each with a name set for all", 600, sets_for_all_behind_a_turn),
    *ordered("names that are set in an include, put out", 600, set_in_an_include),
    *ordered("names that are set, put out by an include", 600, set_around_an_include),
    *ordered("names of the context, put out", 3_000, read_of_context, ALL, collide=150, may="host"),
    *ordered("names of the context, put out in a loop", 2_000, read_in_a_loop),
    *ordered("names of the context, as `__tera_context`", 3_000, all_of_context),
    *ordered("names of the context, and as many renderings", 1_500, renderings),
    *ordered("names of the context, all arguments of `@@ component`", 2_000, arguments_of_a_component),
    *ordered("names of the context, all implicit in `@@ component`", 250, implicit_of_a_component),
    *ordered("names of the context, and as many components in `@@ preview`", 80, previews),
    *ordered("names of the context, all parameters in `@@ preview`", 250, preview_of_parameters),
]
