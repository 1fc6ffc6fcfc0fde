"""How the page looks: at each width, light and dark: nothing wider than the window, each text with a
contrast of 4.5 or more, each field with a name, each thing large enough to be hit."""
from __future__ import annotations

import itertools
from typing import Any

import pytest

from console.behind import Agent, behind
from console.office import ACCOUNT, BARRED, MONTH, NOBODY, POOR
from console.person import Person

WIDTHS, SCHEMES = (320, 400, 1200, 1600), ("light", "dark")
SEEN = """(() => {
    const parts = colour => colour.match(/[\\d.]+/g).map(Number);
    const light = ([red, green, blue]) => [red, green, blue].map(one => (one /= 255) <= .03928 ? one / 12.92 : ((one + .055) / 1.055) ** 2.4)
        .reduce((sum, one, at) => sum + one * [.2126, .7152, .0722][at], 0);
    const over = ([red, green, blue, share = 1], back) => [red, green, blue].map((one, at) => one * share + back[at] * (1 - share));
    const back = element => {
        const found = [];
        for (; element; element = element.parentElement) found.push(parts(getComputedStyle(element).backgroundColor));
        return found.reverse().reduce((under, colour) => over(colour, under), [255, 255, 255]);
    };
    const low = [];
    for (const element of document.querySelectorAll('body *')) {
        const style = getComputedStyle(element), isText = [...element.childNodes].some(one => one.nodeType === 3 && one.textContent.trim());
        const isField = /^(INPUT|SELECT)$/.test(element.tagName);
        if (!element.getClientRects().length || style.visibility !== 'visible' || element.closest('.off') || !(isText || isField)) continue;
        const under = back(element), colour = element.namespaceURI.endsWith('svg') ? style.fill : style.color;
        const [one, other] = [light(over(parts(colour), under)), light(under)];
        const ratio = (Math.max(one, other) + .05) / (Math.min(one, other) + .05);
        if (ratio < 4.5) low.push(`${element.tagName} ${element.textContent.slice(0, 20)} ${ratio.toFixed(2)}`);
        if (element.placeholder) {
            const [hint, below] = [light(over(parts(getComputedStyle(element, '::placeholder').color), under)), light(under)];
            if ((Math.max(hint, below) + .05) / (Math.min(hint, below) + .05) < 4.5) low.push(`placeholder ${element.placeholder}`);
        }
    }
    const fields = [...document.querySelectorAll('input, select, button')];
    const unnamed = fields.filter(one => !(one.labels && one.labels.length) && !one.textContent.trim() && !one.getAttribute('aria-label'));
    const small = fields.filter(one => one.offsetParent && one.getBoundingClientRect().height < 24);
    const wide = [...document.querySelectorAll('main *')].filter(one => one.offsetParent && !one.closest('.off')
        && (one.getBoundingClientRect().right > innerWidth + 1 || one.matches('div') && one.scrollWidth > one.clientWidth + 1));
    return {low, unnamed: unnamed.map(one => one.id || one.name), small: small.map(one => one.id || one.textContent),
        wide: wide.map(one => one.tagName + ' ' + (one.id || one.className)), scroll: document.documentElement.scrollWidth,
        titles: document.querySelectorAll('h1').length, language: document.documentElement.lang};
})()"""
# What is looked at: an account, its forms, what is refused, what isn't there.
PLACES: dict[str, tuple[str, str, dict[str, str]]] = {
    "an account": (ACCOUNT, "", {}),
    "a refusal": (ACCOUNT, "credit", {"amount": "x"}),
    "an allowance": (ACCOUNT, "allow", {"blocks": "5", "scope": "77"}),
    "a voucher": (ACCOUNT, "redeem", {"code": "1"}),
    "a price": (ACCOUNT, "price", {"scope": "30", "count": "2", "unit": "events"}),
    "a barred account": (BARRED, "", {}),
    "a poor account": (POOR, "", {}),
    "no account": (NOBODY, "", {}),
    "a wrong number": ("x", "", {}),
    "all accounts": ("office", "", {}),
}


def looked_at(person: Person, width: int, scheme: str) -> Any:
    """What is wrong with what the page looks like."""
    person.look(width, scheme)
    return person.value(SEEN)


@pytest.mark.parametrize("place", list(PLACES))
def test_it_fits_and_can_be_read(operator: Person, place: str) -> None:
    what, form, fields = PLACES[place]
    operator.look(1200)
    operator.show(what)
    if form:
        operator.tab(form)
        operator.fill(form, **fields)
        operator.send(form)
    if place == "an account":
        operator.value("document.getElementById('past-box').open = true")
    try:
        for width, scheme in itertools.product(WIDTHS, SCHEMES):
            seen = looked_at(operator, width, scheme)
            where = (place, width, scheme)
            assert (where, seen["low"], seen["wide"]) == (where, [], [])
            assert seen["scroll"] <= width, where
            assert (seen["unnamed"], seen["small"]) == ([], []), where
            assert (seen["titles"], seen["language"]) == (1, "en")
    finally:
        operator.look(1200)


@pytest.mark.parametrize("what", [ACCOUNT, f"office/{MONTH}"])
def test_what_the_agent_tells_fits(operator: Person, agent: Agent, what: str) -> None:
    if what == ACCOUNT:
        behind(operator, what)
    else:
        operator.show(what)
        assert operator.is_seen("#codes")
    for width, scheme in itertools.product(WIDTHS, SCHEMES):
        seen = looked_at(operator, width, scheme)
        assert (width, scheme, seen["low"], seen["wide"]) == (width, scheme, [], [])
        assert seen["scroll"] <= width and (seen["unnamed"], seen["small"]) == ([], [])
    operator.look(1200)


@pytest.mark.parametrize("width", WIDTHS)
def test_the_shops_page_fits(shop: Person, width: int) -> None:
    shop.show(ACCOUNT)
    for scheme in SCHEMES:
        seen = looked_at(shop, width, scheme)
        assert (seen["low"], seen["wide"], seen["scroll"] <= width) == ([], [], True)
    shop.look(1200)


def test_keys_come_to_everything(operator: Person) -> None:
    """The key Tab comes to each field, list and button that can be seen, and to the chosen tab."""
    behind(operator, ACCOUNT)
    left = """[...document.querySelectorAll('a[href], button, input, select, summary')].filter(
        one => one.offsetParent && one.tabIndex >= 0 && !one.dataset.been).map(one => one.outerHTML)"""
    wanted = len(operator.value(left))
    operator.value("document.activeElement.blur()")
    for _ in range(wanted + 20):
        operator.press("Tab")
        operator.value("document.activeElement.dataset.been = 1")
    assert wanted > 30 and operator.value(left) == []


def test_tabs_go_round_by_arrows(operator: Person, agent: Agent) -> None:
    behind(operator, ACCOUNT)
    operator.value("document.getElementById('tab-credit').focus()")
    seen = []
    for key in ("ArrowRight", "ArrowLeft", "ArrowLeft", "Home", "End"):
        operator.press(key)
        seen.append(operator.value("document.activeElement.id"))
    assert seen == ["tab-allow", "tab-credit", "tab-bar", "tab-credit", "tab-bar"]
    assert operator.is_seen("#bar") and not operator.is_seen("#credit")
    names = "[...document.querySelectorAll('[role=tab]')].map(one => [one.getAttribute('aria-selected'), one.tabIndex])"
    assert [one for one in operator.value(names) if one[0] == "true"] == [["true", 0]]


NAMED = (
    "button",
    "textbox",
    "combobox",
    "image",
    "img",
    "link",
    "Date",
    "DateTime",
    "DisclosureTriangle",
)
# What a reader for who doesn't see finds in each view: roles and names.
HEARD = {
    ACCOUNT: [
        ("textbox", "Account number"),
        ("tablist", "Do"),
        ("tab", "Credit"),
        ("tab", "Bar"),
        ("tabpanel", "Credit"),
        ("combobox", "Month"),
        ("combobox", "Show"),
        ("button", "Month before"),
        ("button", "Month after"),
        ("heading", f"Account {ACCOUNT}"),
        ("heading", "Open sessions"),
        ("region", "Charges"),
        ("table", "Charges of 2026-01 by day, the newest first"),
        ("columnheader", "Collected"),
        ("status", ""),
        ("link", "as CSV"),
    ],
    f"office/{MONTH}": [
        ("navigation", "Views"),
        ("region", "All accounts"),
        ("region", "Shards"),
        ("region", "Tariff books"),
        ("status", ""),
        ("alert", ""),
        ("heading", "By group"),
        ("table", "charges by group"),
        ("table", "shards"),
        ("columnheader", "Uncollected"),
        ("button", "Try"),
        ("button", "Check"),
    ],
    NOBODY: [("alert", ""), ("region", f"Open account {NOBODY}"), ("button", "Open it")],
}


@pytest.mark.parametrize("what", list(HEARD))
def test_a_screen_reader_hears_it(operator: Person, agent: Agent, what: str) -> None:
    """Names, roles and live regions as the browser's tree for readers has them."""
    if what == ACCOUNT:
        behind(operator, what)
    else:
        operator.show(what)
    operator.do("Accessibility.enable")
    nodes = operator.do("Accessibility.getFullAXTree")["nodes"]
    found = [
        (node["role"]["value"], node.get("name", {}).get("value", "").replace("\u00ad", ""))
        for node in nodes
        if not node.get("ignored") and "role" in node
    ]
    assert [one for one in HEARD[what] if one not in found] == []
    assert [one for one in found if one[0] in NAMED and not one[1]] == []
