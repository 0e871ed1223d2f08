"""The page of a report: its summary, its filter, and the part of each string."""

from __future__ import annotations

import importlib.resources
from typing import Dict, Iterator, List, Sequence

from ._calls import TERMINALS
from ._entry import VERDICTS, Entry, chip
from ._explain import explain
from ._inspect import Options
from ._markup import Content, Markup, element, listed

# How each report begins, and no other file.
BEGINNING = "<!doctype html>\n<!-- sixel-report -->\n"
# Nothing is loaded, and no script runs.
POLICY = "default-src 'none'; img-src data:; style-src 'unsafe-inline'; base-uri 'none'; form-action 'none'"


def page_of(entries: Sequence[Entry], options: Options, version: str) -> str:
    """The whole page. The version is that of the program."""
    counts = {verdict: sum(entry.verdict == verdict for entry in entries) for verdict in VERDICTS}
    heading = heading_of(entries)
    body = element(
        "body",
        element("a", "Skip to the strings", href="#strings", class_="skip"),
        _top(heading, counts, options, version),
        _rules(entries),
        _index(entries),
        *_filter(counts),
        element("main", *(entry.markup for entry in entries), id="strings", tabindex=-1),
    )
    return f"{BEGINNING}{element('html', _head(heading), body, lang='en')}\n"


def heading_of(entries: Sequence[Entry]) -> str:
    """How many strings are portable, in words."""
    portable = sum(entry.verdict == "portable" for entry in entries)
    return f"{portable:,} of {len(entries):,} {'string is' if len(entries) == 1 else 'strings are'} portable"


def _head(heading: str) -> Markup:
    style = (importlib.resources.files(__package__) / "report.css").read_text(encoding="utf-8")
    return element(
        "head",
        element("meta", charset="utf-8"),
        element("meta", name="viewport", content="width=device-width, initial-scale=1"),
        element("meta", http_equiv="Content-Security-Policy", content=POLICY),
        element("meta", name="color-scheme", content="light dark"),
        # Without it a browser asks for one.
        element("link", rel="icon", href="data:,"),
        element("title", f"Sixel report: {heading}"),
        element("style", Markup(style)),
    )


def _top(heading: str, counts: Dict[str, int], options: Options, version: str) -> Markup:
    pieces = [element("span", class_=name, style=f"flex-grow: {count}") for name, count in counts.items() if count]
    flags = [*(["--wide"] if options.wide else []), *([f"--on {','.join(options.on)}"] if options.on else [])]
    how: List[Content] = ["Checked as by ", element("code", " ".join(["sixel survey", *flags])), f" {version}. "]
    how.append(f"Models of {listed(TERMINALS)} draw the screens. ")
    how.append("A portable string shows the same picture on every terminal of the class in docs/RULES.md.")
    return element(
        "header",
        element("p", "Sixel report", class_="kicker"),
        element("h1", heading),
        element("div", *pieces, class_="bar", aria_hidden="true"),
        element("p", *how, class_="how"),
    )


def _rules(entries: Sequence[Entry]) -> Markup:
    """The summary: each broken rule and each reason of a refusal, the most frequent first."""
    found: Dict[str, List[Entry]] = {}
    for entry in entries:
        for name in entry.counts:
            found.setdefault(name, []).append(entry)
    if not found:
        return Markup()
    names = sorted(found, key=lambda name: (-len(found[name]), name))
    titles = [element("th", title, scope="col") for title in ("Rule or reason", "Strings", "Times")]
    rows = [_rule(name, found[name]) for name in names]
    table = element("table", element("thead", element("tr", *titles)), element("tbody", *rows))
    return element("section", element("h2", "By rule"), table, class_="rules")


def _rule(name: str, entries: Sequence[Entry]) -> Markup:
    explanation, times = explain(name), sum(entry.counts[name] for entry in entries)
    what = element(
        "details",
        element("summary", element("code", name), f" {explanation.summary}"),
        element("p", element("strong", "Fix:"), f" {explanation.fix}", class_="fix"),
        element("ul", *(_place_of(entry, entry.counts[name]) for entry in entries)),
    )
    cells = [element("th", what, scope="row"), element("td", f"{len(entries):,}"), element("td", f"{times:,}")]
    return element("tr", *cells, data_name=name, data_strings=len(entries), data_times=times)


def _place_of(entry: Entry, count: int) -> Markup:
    return element("li", _link(entry), "" if count == 1 else f" {count:,} times")


def _link(entry: Entry) -> Markup:
    return element("a", element("bdi", entry.title), href=f"#string-{entry.number}")


def _index(entries: Sequence[Entry]) -> Markup:
    items = [element("li", chip(entry.verdict), " ", _link(entry)) for entry in entries]
    return element("details", element("summary", "All strings"), element("ol", *items), class_="index")


def _filter(counts: Dict[str, int]) -> Iterator[Markup]:
    """Inputs, which the style reads, and then a bar with their labels."""
    words = {"all": ("All", sum(counts.values()))}
    words.update({verdict: (VERDICTS[verdict][0], count) for verdict, count in counts.items() if count})
    control = {"class_": "control", "autocomplete": "off"}
    labels = []
    for name, (word, count) in words.items():
        checked = "" if name == "all" else None
        yield element("input", type="radio", name="show", id=f"show-{name}", checked=checked, **control)
        labels.append(element("label", f"{word} ", element("b", f"{count:,}"), for_=f"show-{name}", class_=name))
    yield element("input", type="checkbox", id="actual-size", **control)
    labels.append(element("label", "Actual size", for_="actual-size", class_="size"))
    labels.append(element("a", "Top", href="#"))
    yield element("nav", *labels, class_="filter", aria_label="Which strings are shown")
