"""Several persons in one run at once, processes that end in the middle, and replies that are lost: what a person sees."""

import os
import re
import signal
import threading
import time

import httpx
import pytest
from conftest import HERE, Host

RUNNERS = ["ann", "bob", "cyd", "dan"]
CHEER, PRIZE, NOT_OPEN = "Cheer the winner", "The prize", "not open for you"
SETTING_UP = 2 + 2 * (len(RUNNERS) + 1)
"""How many lines make the run and start it."""


def begin(host):
    """A started run of the course `race`, and a browser of each runner."""
    host.run_of("race", "race", *((name, "runner") for name in RUNNERS), ("joe", "judge"))
    return {name: host.browser(host.give_token(name)) for name in RUNNERS}


def form_of(page, key="one"):
    return {"word": page.word, "key": key, "verb": "complete", "activity": "lap"}


def press(page, key="one"):
    """Presses *Done*, and gives the page that follows."""
    return page.post("/runs/race/do", data=form_of(page, key))


def press_again(page, ends):
    """As a person does it who sees no answer, or is told to try later: the same form again."""
    while time.monotonic() < ends:
        try:
            answer = press(page)
            if answer.status_code == 200:
                return answer
        except httpx.HTTPError:
            pass
        time.sleep(0.1)
    raise TimeoutError


def at_once(calls):
    """Does all calls at the same time, and gives what each gave."""
    gate, found = threading.Barrier(len(calls)), [None] * len(calls)

    def one(number, call):
        gate.wait()
        found[number] = call()

    threads = [threading.Thread(target=one, args=each) for each in enumerate(calls)]
    for thread in threads:
        thread.start()
    for thread in threads:
        thread.join()
    return found


def finished(host):
    """Who finished the lap, in the order of the lines that are kept."""
    return [re.findall(r'"(\w+)"', line)[2] for line in host.kept() if '"complete"' in line]


def see_their_places(host, pages):
    """Each runner is done once, and sees what the place says that the kept lines give."""
    order, api = finished(host), host.api()
    assert sorted(order) == RUNNERS
    for name, page in pages.items():
        place = api.get(f"/runs/race/persons/{name}/properties/place").json()["value"]
        text = page.get("/runs/race").text
        assert place == str(order.index(name) + 1)
        assert (PRIZE in text, CHEER in text) == (place == "1", place != "1"), name
        assert 'data-state="done"' in text and 'id="complete-lap"' not in text


def test_all_at_once(host):
    """One of them wins, and each page says the same of it as the journal."""
    pages = begin(host)
    answers = at_once([lambda page=page: press(page) for page in pages.values()])
    assert all(answer.status_code == 200 and NOT_OPEN not in answer.text for answer in answers)
    see_their_places(host, pages)


def test_one_form_twice_at_once(host):
    """A double click: it is done once, and neither page complains."""
    pages = begin(host)
    answers = at_once([lambda: press(pages["ann"])] * 2)
    assert all(answer.status_code == 200 and PRIZE in answer.text for answer in answers)
    assert not any(NOT_OPEN in answer.text for answer in answers) and finished(host) == ["ann"]


def test_two_windows_at_once(host):
    """Two forms for one thing: it is done once, and the page of the later one says that it is not open any more."""
    pages = begin(host)
    answers = at_once([lambda key=key: press(pages["ann"], key) for key in ("one", "two")])
    assert sorted(answer.text.count(NOT_OPEN) for answer in answers) == [0, 1]
    assert all(PRIZE in answer.text for answer in answers) and finished(host) == ["ann"]


def test_engines_killed_in_the_middle(process):
    """Keeper and reader are killed while all press: nobody hears of it."""
    pages, ends = begin(process), threading.Event()

    def kill():
        while not ends.is_set():
            for number in process.engines():
                os.kill(number, signal.SIGKILL)
            time.sleep(0.15)

    killing = threading.Thread(target=kill)
    killing.start()
    try:
        late = time.monotonic() + 60
        calls = [lambda page=page: press_again(page, late) for page in pages.values()]
        answers = at_once(calls)
    finally:
        ends.set()
        killing.join()
    assert not any(NOT_OPEN in answer.text for answer in answers)
    see_their_places(process, pages)


@pytest.mark.parametrize("when", ["before", "after", "half"])
@pytest.mark.parametrize("form", ["keep", "replay"])
def test_an_engine_ends_at_the_line(new_host, tmp_path, form, when):
    """The page that follows is that of a command that went well."""
    (tmp_path / "armed").touch()
    how = f"{form} {SETTING_UP + 1} {when} {tmp_path}"
    pages = begin(new_host(engine=HERE / "engines" / "dying.py", DIE=how))
    answer = press(pages["ann"])
    assert (tmp_path / "failed").exists()
    assert answer.status_code == 200 and PRIZE in answer.text and NOT_OPEN not in answer.text


@pytest.mark.parametrize("when", ["host-before", "host-after"])
def test_a_reply_is_lost(tmp_path, library, hosts, when):
    """The host ends before it answers. Its person sees nothing, then the page as the journal has it; the same form, sent
    again, is done once and brings the page."""
    (tmp_path / "armed").touch()
    how = f"keep {SETTING_UP + 1} {when} {tmp_path}"
    hosts.append(Host(tmp_path / "data", library=library, engine=HERE / "engines" / "dying.py", DIE=how).start())
    host, pages = hosts[-1], begin(hosts[-1])
    with pytest.raises(httpx.HTTPError):
        press(pages["ann"])
    host.process.wait()
    host.start()
    seen = pages["ann"].get("/runs/race").text
    assert ('id="complete-lap"' in seen, PRIZE in seen) == (when == "host-before", when == "host-after")
    for answer in (press(pages["ann"]), press(pages["ann"])):
        assert answer.status_code == 200 and PRIZE in answer.text and NOT_OPEN not in answer.text
    assert finished(host) == ["ann"]
    others = [name for name in RUNNERS if name != "ann"]
    at_once([lambda page=pages[name]: press(page) for name in others])
    see_their_places(host, pages)
