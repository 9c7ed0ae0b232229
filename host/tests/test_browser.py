"""Two learners and a tutor go through courses in a real Chromium. What is seen is kept as pictures where SHOTS says."""

import os
import shutil
import time
from pathlib import Path

import pytest
from conftest import ENGINE, TOP, needs_pages, say
from selenium import webdriver
from selenium.webdriver.chrome.service import Service
from selenium.webdriver.common.by import By
from selenium.webdriver.common.keys import Keys
from selenium.webdriver.support.ui import Select, WebDriverWait

SHOTS = os.environ.get("SHOTS")
SAMPLES = TOP.parent / "import" / "samples"
OPTIONS = ("--headless=new", "--no-sandbox", "--disable-gpu", "--disable-dev-shm-usage", "--hide-scrollbars")
FIT = "return Math.max(document.documentElement.scrollHeight, 300)"


def new_browser():
    options = webdriver.ChromeOptions()
    for word in OPTIONS:
        options.add_argument(word)
    options.binary_location = "/usr/bin/chromium"
    return webdriver.Chrome(service=Service("/usr/bin/chromedriver"), options=options)


def forget(browser):
    """Makes a browser as new for its next person."""
    first, *others = browser.window_handles
    for other in others:
        browser.switch_to.window(other)
        browser.close()
    browser.switch_to.window(first)
    browser.get("about:blank")
    browser.execute_cdp_cmd("Network.clearBrowserCookies", {})


class Person:
    """Somebody with a browser of her or his own, who is signed in."""

    def __init__(self, host, token, size=(1100, 900), browser=None):
        self.host, self.size = host, size
        self.b = browser or new_browser()
        self.b.set_window_size(*size)
        self.go("/sign-in").field("token", token).press("main button").see("h1", "My courses")

    def go(self, path):
        self.b.get(self.host.url + path)
        return self

    def see(self, css, text="", seconds=60):
        """Waits until some such element shows the text; the page is not loaded again for it."""

        def shows(b):
            return any(text in element.text for element in b.find_elements(By.CSS_SELECTOR, css))

        WebDriverWait(self.b, seconds, 0.05, ignored_exceptions=[Exception]).until(shows, f"{css}: {text}")
        return self

    def sees_not(self, css):
        assert not self.b.find_elements(By.CSS_SELECTOR, css), css
        return self

    def field(self, name, text):
        self.see(f"[name='{name}']").b.find_element(By.NAME, name).send_keys(text)
        return self

    def choose(self, name, value):
        Select(self.b.find_element(By.NAME, name)).select_by_value(value)
        return self

    def press(self, css):
        self.see(css).b.find_element(By.CSS_SELECTOR, css).click()
        return self

    def shot(self, name):
        if SHOTS:
            self.b.set_window_size(self.size[0], self.b.execute_script(FIT) + 140)
            Path(SHOTS).mkdir(exist_ok=True)
            self.b.save_screenshot(str(Path(SHOTS) / name))
            self.b.set_window_size(*self.size)
        return self


@pytest.fixture(scope="module")
def browsers():
    """The browsers that were opened; a test gives its own back."""
    free = []
    yield free
    for browser in free:
        browser.quit()


@pytest.fixture
def someone(host, browsers):
    """Lets persons come, each with a browser."""
    people = []

    def come(token, **how):
        people.append(Person(host, token, browser=browsers.pop() if browsers else None, **how))
        return people[-1]

    yield come
    for person in people:
        forget(person.b)
        browsers.append(person.b)


def test_a_course_from_upload_to_end(host, someone):
    """All is set up on the pages; then the course goes on, and each page changes by itself."""
    boss = someone(host.token)
    boss.go("/author").choose("folder", "fractions").press("form[action='/author/choose'] [value=publish]")
    boss.see("#verdict", "published as").go("/admin").field("run", "monday").press("#f-create button")
    boss.see("h1", "monday").field("text", "person,role\nida,pupil\njon,pupil\nms-lee,teacher\n")
    boss.press("[name=tokens]").press("#f-list button").see("#tokens td")
    tokens = [element.text for element in boss.b.find_elements(By.CSS_SELECTOR, ".token")]
    boss.go("/admin/runs/monday").see("#f-persons td", "teacher").press("#f-start button").see("#state", ": started")
    boss.shot("administrator.png")

    ida, jon, lee = map(someone, tokens)
    for person in (ida, jon, lee):
        person.go("/runs/monday").see("h1", "Fractions")
    ida.sees_not("#a-quiz")
    lee.see("#report th", "Learn")

    # Ida reads the lesson; her teacher says that she is ready; the quiz comes onto Ida's page by itself.
    ida.press("#complete-lesson").see("#a-lesson .state", "done")
    lee.choose("v-ready", "true").press("#save-role")
    ida.see("#a-quiz .state", "open")
    jon.sees_not("#a-quiz")
    ida.shot("learner.png")

    # The platform gives four points, which bring the slower text; then Ida reads it.
    say(host.api(), "monday", "set", "ida", "score", "4")
    ida.see("#a-again .state", "open").press("#complete-again").see("#a-again .state", "done")
    say(host.api(), "monday", "complete", "jon", "lesson")
    jon.see("#a-quiz .state", "open")
    say(host.api(), "monday", "set", "jon", "score", "9")
    jon.see("#a-talk .state", "open")
    ida.see("#a-talk .state", "open")
    lee.see("#report tr.done th", "Learn").shot("tutor.png")

    # The teacher looks at Jon's page and can press nothing there.
    lee.go("/runs/monday/persons/jon").see("#a-talk .state", "open").sees_not("#live form")


def test_notices_come_by_themselves(host, someone):
    """Two learners become experts, and the tutor's page tells it at once; a round ends, and both learners see the next."""
    host.run_of("jigsaw", "r", ("l01", "learner"), ("l02", "learner"), ("t01", "tutor"))
    one, two, tutor = (someone(host.give_token(name)).go("/runs/r").see("h1") for name in ("l01", "l02", "t01"))
    one.press("#complete-e01").see("#a-e01 .state", "done")
    tutor.see(".notices li", "Expert e01")
    two.press("#complete-e02").see("#a-e02 .state", "done")
    tutor.see(".notices li", "Expert e02").press("#complete-w1")
    one.see("#a-e13 .state", "open").sees_not("#a-e01")
    two.see("#a-e13 .state", "open")
    tutor.see("#a-w2 .state", "open")


@needs_pages
def test_half_written_fields_survive(host, someone):
    """Jon writes to the teacher while something else changes on his page: his words and his place stay."""
    api = host.run_of("forms", "f", ("ida", "pupil"), ("jon", "pupil"), ("ms-lee", "teacher"))
    ida, jon = (someone(host.give_token(name)).go("/runs/f") for name in ("ida", "jon"))
    jon.field("v-word", "I like cakes").b.execute_script("window.samePage = true")
    say(api, "f", "set", "ms-lee", "ready", "true")
    say(api, "f", "complete", "jon", "lesson")
    jon.see("#a-quiz .state", "open")
    assert jon.b.execute_script("return window.samePage")
    assert jon.b.find_element(By.NAME, "v-word").get_attribute("value") == "I like cakes"
    assert jon.b.switch_to.active_element.get_attribute("name") == "v-word"
    assert "Quiz: open." in jon.b.find_element(By.ID, "news").get_attribute("textContent")
    jon.field("v-word", "!").press("#save-letter").see("h1")
    assert api.get("/runs/f/persons/jon/properties/word").json() == {"value": "I like cakes!"}

    # A value out of range is refused in words; four points bring the slower text.
    ida.press("#complete-lesson").field("v-score", "11").press("#save-points").see(".note", "not allowed")
    ida.field("v-score", "4").press("#save-points").see("#a-again .state", "open").see("#p-points output", "1")


def test_role_fields_survive(host, someone):
    """The same of a teacher's field, which needs no form."""
    api = host.run_of("fractions", "f", ("ida", "pupil"), ("ms-lee", "teacher"))
    lee = someone(host.give_token("ms-lee")).go("/runs/f").choose("v-ready", "true")
    say(api, "f", "set", "ida", "score", "9")
    lee.see("#report tr.done th", "Learn")
    assert lee.b.find_element(By.NAME, "v-ready").get_attribute("value") == "true"
    assert api.get("/runs/f/persons/ms-lee/properties/ready").json() == {"value": "false"}


def test_a_script_of_a_course_has_an_origin_of_its_own(host, someone):
    host.run_of("forms" if ENGINE.has_pages else "grading", "g")
    boss = someone(host.token)
    if ENGINE.has_pages:
        boss.go("/files/g/content/lesson.html").see("h1", "lesson")
        WebDriverWait(boss.b, 60).until(lambda b: b.title == "cookie:refused")
    boss.go("/admin").see("h1", "Administration")


def test_a_fault_at_its_place(host, someone):
    boss = someone(host.token).go("/author").choose("folder", "wrong")
    boss.press("form[action='/author/choose'] [value=check]").see("pre .here", "lerner").shot("author-fault.png")


def test_a_package(host, someone, tmp_path):
    """An author sees what a package loses beside its lines, and publishes it all the same."""
    packed = shutil.make_archive(str(tmp_path / "report"), "zip", SAMPLES / "notify")
    boss = someone(host.token).go("/author").field("archive", packed)
    boss.press("form[action='/author/upload'] [value=publish]").see("#import .here .bad", "lost")
    boss.see("#verdict", "It is not published yet").shot("author-package.png")
    boss.press("#f-accept button").see("#verdict", "published as Ubung-Bericht-17ff435e9c-1")
    boss.sees_not("#f-accept")


def test_a_preview(host, someone):
    host.publish("bridges")
    boss = someone(host.token).go("/author").press("#preview-bridges-1").see("#preview", "Nothing of it is kept")
    boss.choose("person", "writer-1").press("#preview form[method=get] button").see("#preview b", "writer-1")
    boss.shot("preview.png")
    before = boss.b.find_element(By.ID, "moment").text
    boss.press("[value=week]").see("#preview b", "writer-1")
    assert boss.b.find_element(By.ID, "moment").text > before


def test_by_keyboard_alone(host, someone):
    """Everything of a course page is reached and done with Tab and Enter, and what has the focus is marked."""
    host.run_of("seminar", "s", ("ann", "student"), ("tom", "teacher"))
    ann = someone(host.give_token("ann"), size=(360, 740)).go("/runs/s").see("#a-essay .state", "open")
    ann.shot("narrow.png")
    body, met = ann.b.find_element(By.TAG_NAME, "body"), []
    body.send_keys(Keys.TAB)
    for _ in range(12):
        at = ann.b.switch_to.active_element
        met.append(at.get_attribute("id") or at.text)
        assert at.value_of_css_property("outline-style") != "none", met[-1]
        if met[-1] == "complete-essay":
            at.send_keys(Keys.ENTER)
            break
        at.send_keys(Keys.TAB)
    ann.see("#a-essay .state", "done")
    assert met[0] == "Skip to the content" and "complete-essay" in met


def test_a_page_that_nobody_sees_catches_up(host, someone):
    """A page in the background holds no connection; it is up to date once it is looked at."""
    api = host.run_of("seminar", "s", ("ann", "student"), ("tom", "teacher"))
    tom = someone(host.give_token("tom")).go("/runs/s").see("#report td", "open")
    first = tom.b.current_window_handle
    tom.b.switch_to.new_window("tab")
    time.sleep(0.5)
    say(api, "s", "complete", "ann", "essay")
    tom.b.switch_to.window(first)
    tom.see("#report tr.done th")
