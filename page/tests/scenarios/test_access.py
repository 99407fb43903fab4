"""Tests whether the page can be used with the Tab key alone, in light and dark colours, with a finger, and at twice the
size.
"""

import pytest
from test_stage import fit

PLACES = ["#story=1", "#story=2", "#story=4.2", "#story=8", "#story=10", "#ask", "#ask=snip", "#break", "#break=1", "#learn", "#learn=one-lock", "#code=lazy",
          "#compare", "#judge", "#example=snip&event=17", "#example=snip&judge", "#read", "#teachers", "#notes",
          "#assignment=Week+3&learn=one-lock&break=6.7&judge=lazy.2.5.2.17&due=2026-12-04"]
FOCUSED = """const it = document.activeElement;
    if (it === document.body || it.id === "skip") return null;
    it.dataset.stop ??= ++window.stops || (window.stops = 1);
    const { left, right, top, bottom } = it.getBoundingClientRect();
    const x = (Math.max(0, left) + Math.min(innerWidth, right)) / 2, y = (Math.max(0, top) + Math.min(innerHeight, bottom)) / 2;
    const over = document.elementFromPoint(x, y), label = it.closest("label");
    const isSeen = over !== null && (it.contains(over) || over.contains(it) || label?.contains(over));
    return [Number(it.dataset.stop), isSeen, `${it.tagName} ${it.id || it.getAttribute("aria-label") || it.innerText.trim().slice(0, 30)}`]"""
SMALL_TARGETS = """return [...document.querySelectorAll("button, .button, select, summary, .card, input:not([type=range], [type=file]), nav a, .dots a")]
    .filter((it) => it.checkVisibility({ visibilityProperty: true }) && it.id !== "skip").flatMap((it) => {
      it.scrollIntoView({ block: "center", behavior: "instant" });
      const { left, right, top, bottom } = it.getBoundingClientRect();
      const isHit = (y) => {
        const over = document.elementFromPoint((left + right) / 2, y);
        return over !== null && (it.contains(over) || it.closest("label")?.contains(over) === true);
      };
      const high = Array.from({ length: 80 }, (_, at) => (top + bottom) / 2 - 40 + at).filter(isHit).length;
      return high >= 39 ? [] : [`${it.tagName} ${it.id || it.className} "${it.innerText.trim().slice(0, 20)}" ${high} px`];
    })"""
FAINT = r"""const found = new Set();
    const parts = (colour) => (colour.match(/[\d.]+/g) ?? []).map((part, at) => Number(part) * (colour.startsWith("color(") && at < 3 ? 255 : 1));
    const over = ([r, g, b, a = 1], under) => [r, g, b].map((part, at) => a * part + (1 - a) * under[at]);
    const light = (rgb) => rgb.map((part) => part / 255).map((part) => (part <= .03928 ? part / 12.92 : ((part + .055) / 1.055) ** 2.4)).reduce((sum, part, at) => sum + [.2126, .7152, .0722][at] * part, 0);
    const contrast = (one, other) => { const [low, high] = [light(one), light(other)].sort((a, b) => a - b); return (high + .05) / (low + .05); };
    const groundOf = (it) => {
      const own = parts(getComputedStyle(it).backgroundColor);
      const isClear = own.length === 4 && own[3] === 0;
      if (it === document.documentElement) return isClear ? parts(getComputedStyle(document.body).backgroundColor).slice(0, 3) : own.slice(0, 3);
      return isClear ? groundOf(it.parentElement) : over(own, own.length === 4 ? groundOf(it.parentElement) : [0, 0, 0]);
    };
    const shapeUnder = (text) => {
      const box = text.getBoundingClientRect();
      const at = document.elementsFromPoint((box.left + box.right) / 2, (box.top + box.bottom) / 2);
      const shape = at.slice(Math.max(0, at.indexOf(text))).find((it) => ["rect", "path", "circle"].includes(it.tagName) && !["none", ""].includes(getComputedStyle(it).fill));
      const style = shape && getComputedStyle(shape);
      const ground = groundOf(text.closest("svg").parentElement);
      if (!style || style.fill.startsWith("url")) return ground;
      return over([...parts(style.fill).slice(0, 3), Number(style.fillOpacity)], ground);
    };
    const walk = document.createTreeWalker(document.body, NodeFilter.SHOW_TEXT);
    for (let node = walk.nextNode(); node !== null; node = walk.nextNode()) {
      const it = node.parentElement, style = getComputedStyle(it);
      if (node.data.trim() === "" || it.getClientRects().length === 0 || style.visibility === "hidden" || it.closest("title, defs, option, script, .unseen")) continue;
      const isDrawn = it.closest("svg") !== null;
      const colour = parts(isDrawn ? style.fill : style.color);
      const ground = isDrawn ? shapeUnder(it.closest("text")) : groundOf(it);
      const size = parseFloat(style.fontSize) * (isDrawn ? it.closest("text").getScreenCTM().a : 1);
      const least = size >= 24 || (size >= 18.6 && Number(style.fontWeight) >= 700) ? 3 : 4.5;
      const has = contrast(over(colour, ground), ground);
      if (has < least) found.add(`${has.toFixed(2)}: ${it.tagName}.${it.getAttribute("class") ?? ""} "${node.data.trim().slice(0, 20)}"`);
    }
    return [...found]"""


def go(visitor, address):
    visitor.script("location.hash = '#read'")
    visitor.wait("return document.body.dataset.activity === 'read'")
    visitor.script("location.hash = arguments[0]", address)
    visitor.settle()
    visitor.idle()


def next_stop(visitor, stops):
    """Presses Tab and returns the focused element. Presses Tab a second time if necessary, because in Firefox the focus
    moves from the last element of a page to the browser's own buttons.
    """
    for _ in range(2):
        visitor.press("Tab")
        stop = visitor.script(FOCUSED)
        if stop is None or stops[-1:] != [stop[0]]:
            break
    return stop


@pytest.mark.parametrize("size", [(1280, 720), (683, 320), (390, 844)], ids=["1280x720", "twice-as-large", "phone"])
def test_each_tab_stop_is_visible_and_can_be_left(visitor, size):
    fit(visitor, *size)
    hidden = []
    for address in PLACES:
        visitor.open("#read")  # the focus is then in the page: in Firefox, Tab has moved it to the browser's own buttons, and no focus event follows
        go(visitor, address)
        visitor.script("window.stops = 0; document.querySelectorAll('[data-stop]').forEach((it) => delete it.dataset.stop); document.activeElement.blur(); document.querySelector('#skip').focus()")
        stops = []
        for _ in range(150):
            if (stop := next_stop(visitor, stops)) is None or stop[0] == 1 and stops:
                break
            if stop[2].startswith("IFRAME") or stop[2] == "INPUT hw-due":
                continue  # a frame has its own tab stops, and so does a date field
            assert stops[-1:] != [stop[0]], f"{address}: Tab does not leave {stop[2]}"
            stops.append(stop[0])
            if not stop[1]:
                hidden.append(f"{address}: {stop[2]}")
        assert len(stops) > 8, f"{address}: {stops}"
    visitor.devtools("Emulation.clearDeviceMetricsOverride")
    assert hidden == [], "\n".join(hidden)


NAMED = {"button", "link", "textbox", "searchbox", "spinbutton", "slider", "combobox", "listbox", "checkbox", "image", "DisclosureTriangle", "Date"}


def test_each_control_and_figure_has_a_name(visitor):
    if visitor.name != "chromium":
        pytest.skip("only Chromium's driver reads its tree of accessible names")
    visitor.open("#read")
    nameless = []
    for address in PLACES:
        go(visitor, address)
        if address.startswith(("#story", "#ask=", "#break=", "#learn=", "#code=")):
            visitor.step("ab")
        nodes = visitor.devtools("Accessibility.getFullAXTree")["nodes"]
        seen = [it for it in nodes if not it["ignored"] and it["role"]["value"] in NAMED]
        assert len(seen) > 8, address
        for it in seen:
            if not it.get("name", {}).get("value", "").strip():
                part = visitor.devtools("DOM.describeNode", backendNodeId=it["backendDOMNodeId"])["node"]
                nameless.append(f"{address}: {it['role']['value']} {part['nodeName']} {part.get('attributes')}")
    assert nameless == [], "\n".join(nameless)


def test_touch_targets_have_40_pixels(visitor):
    if visitor.name != "chromium":
        pytest.skip("only Chromium's driver has a finger")
    fit(visitor, 390, 844)
    visitor.open("#read")
    small = []
    for address in PLACES:
        go(visitor, address)
        small += [f"{address}: {it}" for it in visitor.script(SMALL_TARGETS)]
    visitor.devtools("Emulation.clearDeviceMetricsOverride")
    visitor.devtools("Emulation.setTouchEmulationEnabled", enabled=False)
    assert small == [], "\n".join(small)


@pytest.mark.parametrize("scheme", ["light", "dark"])
def test_texts_have_contrast_in_each_colour_scheme(visitor, scheme):
    if visitor.name != "chromium":
        pytest.skip("only Chromium's driver chooses the scheme")
    fit(visitor, 1280, 720)
    visitor.devtools("Emulation.setEmulatedMedia", features=[{"name": "prefers-color-scheme", "value": scheme}, {"name": "prefers-reduced-motion", "value": "reduce"}])
    visitor.open("#read")
    faint = []
    for address in PLACES:
        go(visitor, address)
        faint += [f"{address}: {it}" for it in visitor.script(FAINT)]
        if address.startswith(("#story", "#ask=", "#break=", "#learn=", "#code=")):
            visitor.step("ab")
            faint += [f"{address}, stepped: {it}" for it in visitor.script(FAINT)]
    visitor.devtools("Emulation.setEmulatedMedia", features=[])
    assert faint == [], "\n".join(faint)


def test_at_twice_the_size_nothing_overflows_and_no_bar_stays(visitor):
    fit(visitor, 683, 320)
    visitor.open("#read")
    for address in PLACES:
        go(visitor, address)
        assert visitor.script("return document.documentElement.scrollWidth <= document.documentElement.clientWidth"), address
        assert visitor.script("return [...document.querySelectorAll('.foot')].every((it) => getComputedStyle(it).position === 'static')"), address


def test_the_menu_closes_after_a_choice_a_click_elsewhere_and_escape(visitor):
    isOpen = "return document.getElementById('more').open"
    for size in ((1366, 640), (390, 844)):
        fit(visitor, *size)
        visitor.open("#story=10")
        visitor.click("#more summary")
        assert visitor.script(isOpen) and visitor.script("return [...document.querySelectorAll('#more div a')].every((it) => it.getClientRects().length < 2)")
        visitor.press("Escape")
        assert not visitor.script(isOpen) and visitor.focus().startswith("SUMMARY")
        visitor.click("#more summary")
        visitor.click("h1")
        assert not visitor.script(isOpen)
        visitor.click("#more summary")
        visitor.click("#more a[href='#read']")
        visitor.wait("return document.body.dataset.activity === 'read'")
        assert not visitor.script(isOpen)
    visitor.devtools("Emulation.clearDeviceMetricsOverride")
    visitor.devtools("Emulation.setTouchEmulationEnabled", enabled=False)


def test_words_keep_their_spaces_on_a_tablet(visitor):
    visitor.devtools("Emulation.setDeviceMetricsOverride", width=1180, height=820, deviceScaleFactor=1, mobile=True)
    visitor.devtools("Emulation.setTouchEmulationEnabled", enabled=True)
    try:
        visitor.open("#story=2")
        gap, high = visitor.script("""const link = document.querySelector("nav [data-to=story]"), right = document.createRange(), left = document.createRange();
            left.setStart(link.firstChild.firstChild, 0); left.setEnd(link.firstChild.firstChild, 3); right.selectNodeContents(link.lastChild);
            return [right.getBoundingClientRect().left - left.getBoundingClientRect().right, link.getBoundingClientRect().height]""")
        assert gap > 2 and (visitor.name != "chromium" or high >= 40)
    finally:
        visitor.devtools("Emulation.clearDeviceMetricsOverride")
        visitor.devtools("Emulation.setTouchEmulationEnabled", enabled=False)
