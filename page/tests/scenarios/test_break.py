"""Tests the Break activity: a visitor can win each level, and the page does not reveal the answer, shows the contradiction, and strikes out the missing check.
"""

import pathlib
import re
import time

SCHEDULES = pathlib.Path(__file__).resolve().parents[3] / "examples/schedules/lacks"


def won(visitor):
    """Wins level 1 with the help of its hints: both threads walk, B completes its add, and then A completes its own
    add.
    """
    step_until_broken(visitor)
    time.sleep(1)  # a click soon after the verdict is ignored


CLICKS_AT_ONCE = """new MutationObserver((_, own) => { const it = document.querySelectorAll("[data-option]")[2];
    if (it !== undefined) { own.disconnect(); it.click(); } }).observe(document.getElementById("scene"), { subtree: true, childList: true })"""


def step_until_broken(visitor, script=""):
    visitor.open("#break=1")
    visitor.script(script)
    for key in "aaabbbbbbaa":
        if not visitor.is_seen(".reveal"):
            visitor.step(key)
    visitor.revealed()


def test_a_click_on_a_button_that_has_just_gone_is_no_answer(visitor):
    step_until_broken(visitor, CLICKS_AT_ONCE)
    assert visitor.is_seen("[data-option]") and not visitor.is_seen("[data-option][aria-disabled]")
    time.sleep(1)
    visitor.click("[data-option]", "releases the lock")
    assert visitor.is_seen("[data-option][aria-disabled]")


def test_a_hint_names_the_call_that_has_to_return(visitor):
    visitor.open("#break=1")
    visitor.step("aaaabbbbab")
    assert "5 is not in the list. Now let add(5) return." in visitor.text("#prompt")


def test_a_won_level_does_not_reveal_its_answer(visitor):
    won(visitor)
    assert visitor.text(".reveal .why").startswith("Broken.") and visitor.is_seen("[data-option]")
    assert "break lock" not in visitor.text("main")
    assert visitor.inside("return JSON.parse(localStorage.getItem('listset-broken')).lock").startswith("break lock #list=coarse")


def test_a_sentence_does_not_reveal_the_answer(visitor):
    visitor.open("#break=1")
    visitor.step("abab")
    assert visitor.text(".said") == "B wants the lock, but A holds it."


def test_the_position_of_an_answer_does_not_reveal_it(visitor):
    visitor.open("#break")
    levels = visitor.inside("return Object.keys(listsets.BREAK_LEVELS).filter((name) => name !== 'mark-in-contains')")
    places = []
    for name in levels:
        visitor.open(visitor.inside("return listsets.addressOf(given[0], 99, given[1])", (SCHEDULES / f"{name}.schedule").read_text(), name))
        visitor.revealed()
        right = visitor.inside("return listsets.BREAK_LEVELS[given[0]].lacks", name)
        texts = visitor.script("return [...document.querySelectorAll('[data-option] span')].map((it) => it.textContent)")
        places.append(texts.index(right))
    assert places[0] != 0 and max(places.count(it) for it in range(3)) <= 5, places


def test_the_contradiction_is_visible(visitor):
    won(visitor)
    assert visitor.text(".ledger .odd") == "4" and visitor.in_window(".ledger") and visitor.in_window(".list svg")


def test_the_contradiction_is_visible_on_a_phone(visitor):
    visitor.size(390, 844)
    won(visitor)
    visitor.settle()
    assert visitor.in_window(".ledger .odd")


def test_a_wrong_answer_gets_a_reply_and_the_right_one_strikes_out_the_line(visitor):
    won(visitor)
    visitor.click("[data-option]", "releases the lock")
    assert "No: it releases the lock only after that." in visitor.text("#prompt")
    assert not visitor.is_seen(".steps del")
    visitor.click("[data-option]", "continues")
    visitor.idle()
    assert visitor.text(".steps del").endswith("wait while it is held") and visitor.is_seen("[data-do=replay]")
    assert "The picture shows" not in visitor.text("#prompt")
    visitor.click("[data-do=replay]")
    visitor.press("a")
    visitor.idle()
    assert visitor.is_seen(".list .lost")
    assert re.search(r"The picture shows your run again, from just before step \d+: the first step that the correct list would not make.", visitor.text("#prompt"))
    visitor.open("#break")
    assert "1 of 10 broken" in visitor.text(".score") and visitor.text(".card[href='#break=1'] .sign") == "✓"


def test_a_won_level_can_be_explored_further(visitor):
    won(visitor)
    visitor.press("a")
    visitor.idle()
    assert "returns true" in visitor.text(".said")
    visitor.settle()
    assert visitor.hash.startswith("#break=1&list=coarse")
    where = visitor.hash
    visitor.reload()
    visitor.wait("return document.body.dataset.ready === 'yes'")
    assert visitor.hash == where and visitor.text(".reveal .why").startswith("Broken.")


def test_hints_use_words_instead_of_row_numbers(visitor):
    visitor.open("#break=8")
    for _ in range(3):
        visitor.click("#hint")
    hints = visitor.text(".hints")
    assert len(hints.splitlines()) == 3 and "row" not in hints and "t0" not in hints
    assert visitor.text("#hint") == "Start over"


def test_the_schedule_of_the_examples_breaks_each_level(visitor):
    """Opens each level by a link to the schedule that breaks the level's list. The page shows that the list is broken. The
    visitor then names the missing check, and the page strikes it out.
    """
    visitor.open("#break")
    levels = visitor.inside("return Object.keys(listsets.BREAK_LEVELS)")
    for number, name in enumerate(levels, 1):
        if name == "mark-in-contains":
            continue
        text = (SCHEDULES / f"{name}.schedule").read_text()
        address = visitor.inside("return listsets.addressOf(given[0], 99, given[1])", text, name)
        visitor.open(address)
        visitor.revealed()
        visitor.settle()
        assert "shown to you" in visitor.text(".reveal"), name
        assert visitor.hash.startswith(f"#break={number}&"), name
        right = visitor.inside("return listsets.BREAK_LEVELS[given[0]].lacks", name)
        visitor.click("[data-option]", right)
        visitor.press("a")  # a second press shows the end of the replay at once
        visitor.idle()
        assert visitor.is_seen(".steps del"), name


def test_a_self_loop_does_not_cross_its_key(visitor):
    visitor.open("#example=marked-in-chain&event=20")
    points = visitor.inside("""const { now, drawStage } = listsets;
        const name = now.run.state.chain()[1];
        now.run.state.nodes[name].link = name;
        document.getElementById("order").innerHTML = drawStage(now.run.state, null, { wide: 900, high: 300, slots: 4, lock: "nodes", hides: [] });
        const node = document.querySelector(`#order [data-part="node ${name}"]`);
        const path = document.querySelector(`#order [data-part="link ${name}"] path`).getAttribute("d").match(/[\\d.]+/g).map(Number);
        return path.filter((_, at) => at % 2 === 1).slice(1).map((y) => y - Number(node.dataset.y))""")
    assert all(y < 0 for y in points)  # the loop goes around above the node


def test_a_run_that_does_not_break_the_list_is_reported(visitor):
    visitor.open("#break=7")
    visitor.step("aaabbbababab")
    assert "not broken this time" in visitor.text("#prompt") and visitor.is_seen("[data-again]")


def test_a_card_and_its_level_have_the_number_of_their_link(visitor):
    visitor.open("#break")
    assert visitor.script("return [...document.querySelectorAll('a.card')].every((it) => it.hash === `#break=${parseInt(it.querySelector('i.small').innerText)}`)")
    visitor.open("#break=7")
    assert visitor.is_seen("#figure") and "#break=7" in visitor.script("return document.querySelector('.kicker').textContent")


def test_a_key_does_not_begin_a_second_call(visitor):
    visitor.open("#break=1")
    visitor.step("aaaaaaaaa")
    assert "Press begin" in visitor.text(".said") and visitor.text("[data-begin='0']") == "begin"
    visitor.click("[data-begin='0']")
    assert not visitor.is_seen("[data-begin='0']")
