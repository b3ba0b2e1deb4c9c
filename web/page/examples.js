"use strict";

// The cases of the menu.
const EXAMPLES = [
    {
        title: "A layout",
        templates: [
            {
                name: "page.html",
                text: `{% extends "layout.html" %}
{% block title %}{{ harbour.name }}: tides{% endblock title %}
{% block content %}
<table>
  <tr><th>High water</th><th>Height</th></tr>
  {%- for tide in tides %}
  <tr{% if tide.height >= 400 %} class="spring"{% endif %}>
    <td>{{ tide.time }}</td><td>{{ tide.height }} cm</td>
  </tr>
  {%- else %}
  <tr><td>No tides today.</td></tr>
  {%- endfor %}
</table>
<p>{{ harbour.note }}</p>
{%- endblock content %}
`,
            },
            {
                name: "layout.html",
                text: `<!doctype html>
<title>{% block title %}{% endblock title %}</title>
<style>body { font: 16px sans-serif } .spring { font-weight: bold } td { padding-right: 1em }</style>
<h1>{% block heading %}Tides{% endblock heading %}</h1>
{% block content %}{% endblock content %}
{% include "footer.html" %}
`,
            },
            { name: "footer.html", text: `<footer>Printed for {{ harbour.name }}.</footer>\n` },
        ],
        data: {
            harbour: { name: "Oslo & Drammen", note: "Ask <the harbour> before you sail." },
            tides: [{ time: "04:10", height: 380 }, { time: "16:35", height: 412 }],
        },
    },
    {
        title: "A mail",
        templates: [
            {
                name: "mail.txt",
                text: `Dear {{ customer.name }},

your order {{ order.number }} of {{ order.day | date(format="%d %B %Y") }} is on its way:
{% for line in order.lines %}
{{ loop.index }}. {{ line.article }}, {{ line.count }} piece{{ line.count | pluralize }}
{%- endfor %}

{%- if order.gift %}

As you wished, there is a card with it: "{{ order.gift | trim | truncate(length=40) }}"
{%- endif %}

{% set count = order.lines | length -%}
That is {{ count }} line{{ count | pluralize }} in all.
`,
            },
        ],
        data: {
            customer: { name: "Ines <Harbour> & Sons" },
            order: {
                number: 20260412,
                day: "2026-04-12",
                gift: "  Happy birthday, and fair winds all the way home to the harbour!  ",
                lines: [{ article: "Lantern", count: 1 }, { article: "Rope, 10 m", count: 3 }],
            },
        },
    },
    {
        title: "A report",
        templates: [
            {
                name: "report.html",
                text: `{% set ordered = sales | sort(attribute="region") -%}
<h1>Sales of {{ year }}</h1>
<ul>
{%- for region in ordered %}
  <li>{{ region.region | title }}: {{ region.items | length }} items,
    {%- if region.items %} first {{ region.items | first }}, last {{ region.items | last }}{% else %} none{% endif %}</li>
{%- endfor %}
</ul>
<p>{{ [sale.region for sale in sales if sale.items] | sort | join(sep=", ") | upper }}</p>
<p>{{ size | filesizeformat }} of records, {% if size is odd %}odd{% else %}even{% endif %}.</p>
`,
            },
        ],
        data: {
            year: 2026,
            size: 123456789,
            sales: [
                { region: "south", items: ["rope", "sails"] },
                { region: "north", items: ["lanterns", "rope", "charts"] },
                { region: "east", items: [] },
            ],
        },
    },
    {
        title: "Components",
        templates: [
            {
                name: "notes.html",
                text: `{% component Note(text: string, kind: string = "info") %}
<aside class="{{ kind }}"><p>{{ text }}</p></aside>
{% endcomponent Note %}
{% component Card(title: string) %}
<section><h2>{{ title }}</h2>{{ body }}</section>
{% endcomponent Card %}
`,
            },
            {
                name: "page.html",
                text: `<style>.warning { color: firebrick }</style>
{% <Card title={headline}> %}
  {{ <Note text={advice}/> }}
  {{ <Note text="Small craft stay in." kind="warning"/> }}
{% </Card> %}
`,
            },
        ],
        name: "page.html",
        open: 1,
        data: { headline: "Wind & water", advice: "Ask <the harbour> before you sail." },
    },
    {
        title: "A fault",
        templates: [
            {
                name: "index.html",
                text: `<h1>{{ site.title }}</h1>
{% for post in posts %}
  {% include "post.html" %}
{% endfor %}
`,
            },
            {
                name: "post.html",
                text: `<article>
  <h2>{{ post.title | title }}</h2>
  <p>By {{ post.author.name }}</p>
  <p>{{ post.words + post.extra }} words</p>
</article>
`,
            },
        ],
        open: 1,
        data: {
            site: { title: "Harbour news" },
            posts: [{ title: "spring tides", author: { name: "Ines" }, words: 320, extra: "about forty" }],
        },
    },
].map(example => ({
    subject: "template", name: example.templates[0].name, autoescape: true, decimals: true, open: 0, ...example,
    data: JSON.stringify(example.data, null, 2),
}));
