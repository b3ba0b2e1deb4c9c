#!/usr/bin/env python3
"""Writes a site of as many pages as are asked for, about 10 KB each: bench/site/make.py DIR [PAGES], 1,000 pages where nothing is said.

`DIR/tera` has the templates of tera_render, `DIR/jinja2` the same of Jinja2, whose macros are components here, and `DIR/data` a JSON file of
each page. A page reads its own: `page_0042.html` reads `page_0042`, which `-d page_0042=DIR/data/page_0042.json` puts there.
"""
import json
import os
import random
import sys

WORDS = """harbour light water stone boat winter morning rope letter table garden window paper river bridge market road field summer evening
house island north wind sail anchor weather story captain sailor journey chart compass salt bread fire kitchen lamp door street""".split()
# What stands in a text now and then, for that escaping has something to do.
SIGNS = ["salt & bread", "\"so it is\"", "the harbour's", "<b>no tag</b>", "naïve café"]

LAYOUT = """<!DOCTYPE html>
<html lang="en">
<head>
  <meta charset="utf-8">
  <title>{% block title %}{% endblock %} - The harbour</title>
  <link rel="stylesheet" href="/style.css">
</head>
<body>
<main>
{% block content %}{% endblock %}
</main>
<footer>All that is told here is told by the harbour, as long as there is water in it.</footer>
</body>
</html>
"""
HEADER = """<header>
  <h1>{{ page.title }}</h1>
  <p class="byline">{{ page.author.name }}, {{ page.date }}{% if page.minutes > 3 %}, a long read{% endif %}</p>
  <ul class="tags">{% for tag in page.tags %}<li>{{ tag }}</li>{% endfor %}</ul>
</header>
"""
RELATED = """<aside>
  <h2>See also</h2>
  <ol>
{%- for link in page.related %}
    <li value="{{ loop.index }}"><a href="/{{ link.path }}">{{ link.title }}</a></li>
{%- endfor %}
  </ol>
</aside>
"""
BODY = """{%- for section in page.sections %}
<section id="{{ section.id }}">
  <h2>{{ section.title }}</h2>
{%- for text in section.texts %}
  <p>{{ text }}</p>
{%- endfor %}
</section>
{%- endfor %}
<table>
{%- for row in page.rows %}
"""
CARD = """<tr class="{% if row.count > 50 %}many{% else %}few{% endif %}"><td>{{ row.name | trim }}</td><td>{{ row.count }}</td><td>{{ row.count * 2 + 1 }}</td></tr>"""
# A library, how a page gets it, and a call.
LIBRARIES = {
    "tera": ("{% component Row(row: Map) %}" + CARD + "{% endcomponent Row %}\n", "", "  {{ <Row row={row}/> }}"),
    "jinja2": ("{% macro Row(row) %}" + CARD + "{% endmacro %}\n", "{% from '_library.html' import Row %}\n", "  {{ Row(row) }}"),
}


def name_of(number):
    return f"page_{number:04}"


def phrase(source, count):
    """So many words; with a sign among them in one of three."""
    words = [source.choice(WORDS) for _ in range(count)]
    if source.random() < 0.3:
        words[source.randrange(count)] = source.choice(SIGNS)
    return " ".join(words).capitalize()


def data_of(number, pages):
    """What one page tells."""
    source = random.Random(number)
    return {
        "title": phrase(source, 5),
        "author": {"name": source.choice(["Ines Holm", "Jon O'Neill", "Karl & Anna"]), "mail": "post@example.org"},
        "date": f"2024-{number % 12 + 1:02}-{number % 28 + 1:02}",
        "minutes": source.randrange(1, 9),
        "tags": [source.choice(WORDS) for _ in range(4)],
        "sections": [{"id": f"s{it}", "title": phrase(source, 4), "texts": [phrase(source, 60), phrase(source, 60)]} for it in range(8)],
        "rows": [{"name": phrase(source, 2), "count": source.randrange(100)} for _ in range(20)],
        "related": [{"path": f"{name_of(source.randrange(pages))}.html", "title": phrase(source, 4)} for _ in range(6)],
    }


def page_of(number, imports, call):
    """The template of one page, with a text of its own."""
    name, source = name_of(number), random.Random(-number - 1)
    own = "\n".join(f"<p>{' '.join(source.choice(WORDS) for _ in range(40))}.</p>" for _ in range(3))
    return (
        '{% extends "_layout.html" %}\n' + imports + "{% block title %}{{ " + name + ".title }}{% endblock %}\n"
        "{% block content %}{% set page = " + name + ' %}\n{% include "_parts/header.html" %}\n' + own + "\n" + BODY + call
        + '\n{%- endfor %}\n</table>\n{% include "_parts/related.html" %}\n{% endblock content %}\n'
    )


def write(folder, name, text):
    path = os.path.join(folder, name)
    os.makedirs(os.path.dirname(path), exist_ok=True)
    with open(path, "w", encoding="utf-8") as file:
        file.write(text)


def make(folder, pages=1000):
    for dialect, (library, imports, call) in LIBRARIES.items():
        templates = os.path.join(folder, dialect)
        write(templates, "_layout.html", LAYOUT)
        write(templates, "_library.html", library)
        write(templates, "_parts/header.html", HEADER)
        write(templates, "_parts/related.html", RELATED)
        for number in range(pages):
            write(templates, f"{name_of(number)}.html", page_of(number, imports, call))
    for number in range(pages):
        write(os.path.join(folder, "data"), f"{name_of(number)}.json", json.dumps(data_of(number, pages), ensure_ascii=False, indent=1))


if __name__ == "__main__":
    if len(sys.argv) not in (2, 3):
        sys.exit(__doc__)
    make(sys.argv[1], *map(int, sys.argv[2:]))
