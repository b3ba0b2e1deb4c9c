"""What the engine renders, lists and refuses: python3 -m unittest, in this folder."""
import contextlib
import gc
import pickle
import resource
import threading
import unittest
from unittest import mock

import hovdreg
from hovdreg import Engine, ErrorKind, TemplateError

LAYOUT = "[{% block b %}{{ x }}{% endblock %}]"
PAGE = '{% extends "base.html" %}{% block b %}<b>{{ super() }}</b>{% endblock %}'
CARD = '{% component Card(title: String, @lang = "en") %}{{ lang }} {{ title }} {{ body | default(value="-") }}{% endcomponent %}'


SITE = {"page.html": PAGE, "base.html": LAYOUT}


def engine(templates):
    made = Engine()
    made.add(templates)
    return made


class Case(unittest.TestCase):
    def assert_fails(self, kind, call, *arguments, **options):
        """The error of this kind that the call raises."""
        with self.assertRaises(TemplateError) as caught:
            call(*arguments, **options)
        self.assertEqual(caught.exception.kind, kind)
        return caught.exception


class Renderings(Case):
    def test_a_page_and_a_block(self):
        site = engine(SITE)
        self.assertEqual(site.render("page.html", {"x": "<&>"}), "[<b>&lt;&amp;&gt;</b>]")
        self.assertEqual(site.render_block("page.html", "b", {"x": 1}), "<b>1</b>")
        self.assertEqual(site.template_names(), ["base.html", "page.html"])
        self.assertEqual(site.variables("page.html"), ["x"])

    def test_a_text(self):
        site = engine({"part": "({{ x }})"})
        text = '{{ x | upper }}{% include "part" %}'
        self.assertEqual(site.render_text(text, {"x": "<ö>"}), "&lt;Ö&gt;(&lt;ö&gt;)")
        self.assertEqual(site.render_text(text, {"x": "<ö>"}, autoescape=False), "<Ö>(<ö>)")
        self.assertEqual(site.render_text(""), "")
        self.assertEqual(site.render_text("a\0b"), "a\0b")

    def test_a_component(self):
        site = engine({"cards": CARD})
        self.assertEqual(site.component_names(), ["Card"])
        self.assertEqual(site.render_component("Card", {"title": "<"}), "en &lt; -")
        self.assertEqual(site.render_component("Card", {"title": "<"}, {"lang": "no"}, body="<b>", autoescape=False), "no < <b>")
        self.assertEqual(site.render_component("Card", {"title": "<"}, body=""), "en &lt; ")
        self.assert_fails(ErrorKind.MESSAGE, site.render_component, "Card")
        self.assert_fails(ErrorKind.COMPONENT_NOT_FOUND, site.render_component, "Nobody")

    def test_values(self):
        site = engine({"a": "{% for k, v in values %}{{ k }}={{ v }};{% endfor %}"})
        values = {"text": "\N{GRINNING FACE}\"\\\n", "none": None, "truth": True, "list": [1, -2, [3]], "map": {"a": {}}, "large": 2**127 - 1}
        wanted = f'text=\N{GRINNING FACE}"\\\n;none=;truth=true;list=[1, -2, [3]];map={{"a": {{}}}};large={2**127 - 1};'
        self.assertEqual(site.render("a", {"values": values}), wanted)

    def test_values_that_are_refused(self):
        site = engine({"a": "{{ x }}"})
        self.assertIn("x", self.assert_fails(ErrorKind.MESSAGE, site.render, "a", {"x": 1.5}).message)
        self.assert_fails(ErrorKind.MESSAGE, site.render, "a", {"x": 2**127})
        self.assert_fails(ErrorKind.MESSAGE, site.render, "a", [1])
        with self.assertRaises(ValueError):
            site.render("a", {"x": float("nan")})
        with self.assertRaises(TypeError):
            site.render("a", {"x": object()})
        with self.assertRaises(UnicodeEncodeError):
            site.render("a", {"x": "\ud800"})
        with self.assertRaises(TypeError):
            site.render(b"a")


class Settings(Case):
    def test_all_templates_or_none(self):
        site = engine({"a": "A"})
        self.assert_fails(ErrorKind.SYNTAX_ERROR, site.add, {"a": "changed", "b": "{{"})
        self.assertEqual(site.template_names(), ["a"])
        self.assertEqual(site.render("a"), "A")
        site.add({})
        site.add({"a": "changed"})
        self.assertEqual(site.render("a"), "changed")

    def test_lists_and_delimiters(self):
        site = Engine()
        site.fallback_prefixes(["themes/b/", "themes/a/"])
        site.delimiters(variable=("<<", ">>"))
        site.add({"themes/a/one": "a", "themes/b/one": "b<< x >>{{ x }}"})
        self.assertEqual(site.render("one", {"x": "'"}), "b'{{ x }}")
        site.autoescape_on([".txt", "one"])
        self.assertEqual(site.render("one", {"x": "'"}), "b&#x27;{{ x }}")
        site.autoescape_on([])
        self.assertEqual(site.render("one", {"x": "'"}), "b'{{ x }}")
        self.assert_fails(ErrorKind.MESSAGE, site.fallback_prefixes, ["late/"])
        self.assert_fails(ErrorKind.MESSAGE, site.delimiters)
        with self.assertRaises(TypeError):
            site.autoescape_on(".html")

    def test_globals(self):
        site = engine({"a": "{{ site }}{{ x }}"})
        site.globals({"site": "S", "x": 1})
        site.globals({"x": 2})
        self.assertEqual(site.render("a"), "S2")
        self.assertEqual(site.render("a", {"x": 3}), "S3")
        self.assert_fails(ErrorKind.MESSAGE, site.globals, [])

    def test_options(self):
        self.assert_fails(ErrorKind.MESSAGE, Engine(is_plain=True).render_text, "{{ 'a' | upper }}")
        self.assertEqual(Engine(takes_floats=True).render_text("{{ x }}", {"x": 1.5}), "1.5")
        self.assertEqual(Engine(clock=86400).render_text("{{ now() }}"), "1970-01-02T00:00:00Z")
        self.assertEqual(Engine(clock=0).render_text("{{ now(timestamp=true) }}"), "0")
        self.assert_fails(ErrorKind.MESSAGE, Engine().render_text, "{{ now() }}")


class Errors(Case):
    def test_what_is_told(self):
        site = engine({"page": "one\növ {{ nobody }}"})
        error = self.assert_fails(ErrorKind.RENDERING_ERROR, site.render, "page")
        self.assertEqual((error.file, error.start, error.end, error.line, error.column), ("page", 11, 17, 2, 7))
        self.assertEqual(error.message, "`nobody` is undefined")
        self.assertEqual(str(error), "page:2:7: `nobody` is undefined\n2 | öv {{ nobody }}\n  |       ^^^^^^")
        again = pickle.loads(pickle.dumps(error))
        self.assertEqual((str(again), again.kind, again.line), (str(error), error.kind, error.line))
        error = self.assert_fails(ErrorKind.TEMPLATE_NOT_FOUND, site.render, "nothing")
        self.assertEqual((error.file, error.start, error.end, error.line, error.column), (None,) * 5)

    def test_kinds(self):
        site = engine({"a": "A"})
        refused = {
            "{% if %}": ErrorKind.SYNTAX_ERROR,
            "{% include 'nothing' %}": ErrorKind.MESSAGE,
            "{% extends 'nothing' %}": ErrorKind.MISSING_PARENT,
            "{% extends 'b' %}": ErrorKind.CIRCULAR_EXTEND,
            "{% include 'b' %}": ErrorKind.CIRCULAR_INCLUDE,
        }
        for text, kind in refused.items():
            with self.subTest(text=text):
                self.assert_fails(kind, site.add, {"b": text})
        self.assert_fails(ErrorKind.TEMPLATE_NOT_FOUND, site.variables, "nothing")
        self.assert_fails(ErrorKind.MESSAGE, site.render_block, "a", "nothing")
        self.assert_fails(ErrorKind.RENDERING_ERROR, site.render_text, "{{ 1 | truncate(length='a') }}")
        self.assertEqual(site.render("a"), "A")


@contextlib.contextmanager
def limited(room):
    """Gives the process no more than so many bytes beside those that it has."""
    with open("/proc/self/statm", encoding="ascii") as file:
        has = int(file.read().split()[0]) * resource.getpagesize()
    soft, hard = resource.getrlimit(resource.RLIMIT_AS)
    resource.setrlimit(resource.RLIMIT_AS, (has + room, hard))
    try:
        yield
    finally:
        resource.setrlimit(resource.RLIMIT_AS, (soft, hard))


class Refusals(Case):
    """A call ends in the middle of a batch or a list. The engine then is as before, and goes on."""

    def assert_as_before(self, site):
        site.add({"b": "B"})
        self.assertEqual(site.template_names(), ["a.html", "b"])
        self.assertEqual(site.render("a.html", {"x": "<"}), "&lt;")
        site.autoescape_on([".txt"])
        self.assertEqual(site.render("a.html", {"x": "<"}), "<")

    def test_memory(self):
        site, large = engine({"a.html": "{{ x }}"}), "x" * 40_000_000
        # The module has room for four copies, and then the engine has not.
        with limited(240_000_000):
            self.assert_fails(ErrorKind.OUT_OF_MEMORY, site.add, {"a.html": "changed", **dict.fromkeys("1234", large)})
            self.assert_fails(ErrorKind.OUT_OF_MEMORY, site.autoescape_on, [".html"] + [large] * 4)
        self.assert_as_before(site)

    def test_interruptions(self):
        site = engine({"a.html": "{{ x }}"})
        for name, call, parts in (("tera_add", site.add, {"a.html": "changed"}), ("tera_autoescape_on", site.autoescape_on, [".html"])):
            with mock.patch.object(hovdreg._library, name, side_effect=KeyboardInterrupt), self.assertRaises(KeyboardInterrupt):
                call(parts)
        self.assert_as_before(site)


class Lives(Case):
    def test_a_closed_engine(self):
        with engine({"a": "A"}) as site:
            self.assertEqual(site.render("a"), "A")
        for call in (lambda: site.render("a"), lambda: site.add({}), site.template_names):
            with self.assertRaises(ValueError):
                call()
        site.close()

    def test_many_renderings(self):
        site = engine(SITE)
        for _ in range(10_000):
            self.assertEqual(site.render("page.html", {"x": "a & b"}), "[<b>a &amp; b</b>]")

    def test_many_engines(self):
        sites = [engine({"a": str(number)}) for number in range(1000)]
        self.assertEqual([site.render("a") for site in sites], [str(number) for number in range(1000)])
        del sites
        gc.collect()

    def test_threads(self):
        shared, found = engine({"a": "{{ x }}" * 100}), []

        def work(number):
            own = engine({"a": "{{ x }}"})
            for _ in range(200):
                found.append(shared.render("a", {"x": number}) == str(number) * 100 and own.render("a", {"x": number}) == str(number))

        threads = [threading.Thread(target=work, args=(number,)) for number in range(4)]
        for thread in threads:
            thread.start()
        for thread in threads:
            thread.join()
        self.assertEqual(found, [True] * 800)


if __name__ == "__main__":
    unittest.main()
