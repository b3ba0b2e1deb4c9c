"""Rows of long texts."""
from scripts import Row, added, bound, shown

# What stands once at the front, what is repeated, and what stands once at the end.
TEXTS = {
    "no tag at all": ("", "x", ""),
    "line feeds alone": ("", "\n", ""),
    "tags alone": ("", "{{name}}", ""),
    "one tag with a long name": ("{{ ", "a", " or 1 }}"),
    "one tag with much white space": ("{{ ", " ", "name }}"),
    "braces apart": ("", "{ ", ""),
    "comments": ("", "{#c#}", ""),
    "tags that trim white space": ("", "{{- name -}}   ", ""),
    "white space before one tag that trims it": ("", " ", "{{- name }}"),
    "white space after one tag that trims it": ("{{ name -}}", " ", ""),
    "a long text between quotes": ("{{ '", "a", "' }}"),
    "signs after backslashes": ("{{ '", "\\n", "' }}"),
    "raw texts": ("", "{% raw %}{{ x }}{% endraw %}", ""),
    "starts of tags in a raw text": ("{% raw -%}", " {%", " {%- endraw %}"),
}

# The same that can't be read or rendered, with the fault.
REFUSED_TEXTS = {
    "tags alone, and a fault at the end": ("", "{{name}}", "{{nope}}", "RenderingError"),
    "lines, and a fault at the end": ("", "a\n", "{{nope}}", "RenderingError"),
    "one line, and a fault at its end": ("", "日", "{{nope}}", "RenderingError"),
    "tags alone, and one that is not closed": ("", "{{name}}", "{{", "SyntaxError"),
    "braces alone": ("", "{", "", "SyntaxError"),
    "comments without an end": ("", "{# ", "", "SyntaxError"),
    "raw texts without an end": ("", "{% raw %}", "", "SyntaxError"),
    "a text between quotes without an end": ("{{ '", "a", "", "SyntaxError"),
    "quotes in tags without an end": ("", "{{ '", "", "SyntaxError"),
    "statements without an end": ("", "{% if 1 %}", "", "SyntaxError"),
    "ends of statements": ("", "{% endif %}", "", "SyntaxError"),
    "parentheses": ("{{ ", "(", "1 }}", "SyntaxError"),
    "brackets": ("{{ ", "[", "1 }}", "SyntaxError"),
    "minus signs": ("{{ ", "- ", "1 }}", "SyntaxError"),
    "filters in a row": ("{{ name", " | str", " }}", "SyntaxError"),
    "digits": ("{{ ", "1", " }}", "SyntaxError"),
}
BYTES = 1 << 19


def row(name, front, repeated, end, fault=""):
    """A text of so many bytes, at n."""
    return Row(name, BYTES // len(repeated), lambda size: bound("name", "<world>") + shown(front + repeated * size + end), fault)


def escaped(size):
    return bound("t", "<" * size) + shown("{{ t }}")


def long_names(size):
    name = "a" * size
    text = f"{{% block {name} %}}{{% set {name} = 1 %}}{{{{ {name} }}}}{{{{ <{name}/> }}}}{{% endblock %}}"
    component = f"{{% component {name}() %}}x{{% endcomponent %}}"
    return added([(name, component), ("page", f"{text}{{% include '{name}' %}}")], f"@@ render page\n@@ block page {name}\n")


ROWS = [
    *(row(name, *text) for name, text in TEXTS.items()),
    Row("a long text of signs that are escaped", BYTES, escaped),
    Row("a long name of a variable, a block, a component and a template", 100_000, long_names),
]
REFUSED = [row(name, *text) for name, text in REFUSED_TEXTS.items()]
