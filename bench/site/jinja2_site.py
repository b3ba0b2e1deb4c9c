#!/usr/bin/env python3
"""The job of tera_render by Jinja2: bench/site/jinja2_site.py TEMPLATES DATA OUT reads both folders and writes each page below OUT."""
import json
import os
import sys

import jinja2


def data_in(folder):
    """Each JSON file at its name, without the suffix."""
    data = {}
    for name in sorted(os.listdir(folder)):
        with open(os.path.join(folder, name), encoding="utf-8") as file:
            data[name.removesuffix(".json")] = json.load(file)
    return data


def is_page(name):
    return not any(part.startswith("_") for part in name.split("/"))


def main(templates, data, out):
    """Renders all before it writes the first, as tera_render does."""
    loader = jinja2.FileSystemLoader(templates)
    engine = jinja2.Environment(loader=loader, autoescape=True, keep_trailing_newline=True, auto_reload=False)
    given = data_in(data)
    pages = {name: engine.get_template(name).render(given) for name in engine.list_templates() if is_page(name)}
    for name, text in pages.items():
        path = os.path.join(out, name)
        os.makedirs(os.path.dirname(path), exist_ok=True)
        with open(path, "w", encoding="utf-8") as file:
            file.write(text)


if __name__ == "__main__":
    main(*sys.argv[1:])
