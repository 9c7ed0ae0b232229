"""What pages show, and what they do not let through."""

import html
import re

import httpx
from conftest import client, needs_pages, say

FORM = {"key": "1", "verb": "complete", "activity": "lesson"}


def test_forms_of_another_site(fractions):
    page = fractions.browser(fractions.give_token("ida"))
    other = fractions.browser(fractions.give_token("jon"))
    assert page.post("/runs/monday/do", data=FORM).status_code == 403
    assert page.post("/runs/monday/do", data=FORM | {"word": "0" * 64}).status_code == 403
    assert page.post("/runs/monday/do", data=FORM | {"word": "ä"}).status_code == 403
    assert page.post("/runs/monday/do", data=FORM | {"word": other.word}).status_code == 403
    assert "complete" not in fractions.verbs_kept()
    assert page.post("/runs/monday/do", data=FORM | {"word": page.word}).status_code == 200
    assert "ida" in fractions.kept()[-1]
    cookie = page.cookies.get("ldhost")
    assert (
        client().post(fractions.url + "/sign-in", data={"token": "x"}, headers={"origin": "https://evil"}).status_code
        == 403
    )
    assert client().post(fractions.url + "/sign-in", data={"token": "x"}, headers={"origin": "null"}).status_code == 403
    api = client(cookies={"ldhost": cookie}).get(fractions.url + "/api/v1/runs")
    assert api.status_code == 401, "the interface takes no cookie"


def test_forms_with_other_fields(fractions):
    page = fractions.browser(fractions.give_token("ida"))
    for change in ({"verb": "enrol"}, {"verb": ""}, {"verb": "set", "v-score": "9"}, {"verb": "tick"}):
        assert page.post("/runs/monday/do", data={"word": page.word, "key": "1", **change}).status_code in (400, 403)
    assert set(fractions.verbs_kept()) == {"create", "enrol", "assign", "start"}


def test_headers(fractions):
    page = fractions.browser()
    answer = page.get("/")
    assert "default-src 'self'" in answer.headers["content-security-policy"]
    assert "frame-ancestors 'none'" in answer.headers["content-security-policy"]
    assert answer.headers["x-content-type-options"] == "nosniff" and answer.headers["cache-control"] == "no-store"
    cookie = client().post(fractions.url + "/sign-in", data={"token": fractions.token}).headers["set-cookie"]
    assert "HttpOnly" in cookie and "SameSite=lax" in cookie


def test_sessions_end(fractions):
    page = fractions.browser()
    cookie = page.cookies.get("ldhost")
    page.post("/sign-out", data={"word": page.word})
    assert client(cookies={"ldhost": cookie}).get(fractions.url + "/").headers["location"] == "/sign-in"
    ida = fractions.browser(fractions.give_token("ida"))
    boss = fractions.browser()
    boss.post("/admin/tokens/revoke", data={"word": boss.word, "person": "ida"})
    assert "Sign in" in ida.get("/").text
    answer = boss.post("/admin/tokens/revoke", data={"word": boss.word, "person": "admin"})
    assert "can't take back your own" in html.unescape(answer.text)


def test_titles_links_and_files(host):
    api = host.run_of("grading", "g", ("ann", "learner"), ("tom", "tutor"))
    say(api, "g", "complete", "ann", "essay")
    page = host.browser(host.give_token("ann"))
    text = page.get("/runs/g").text
    assert "&lt;b&gt;Essay&lt;/b&gt; &amp; more" in text and "<b>Essay</b>" not in text
    assert "javascript:" not in text and 'href="/files/g/content/task.html#part"' in text
    assert "access.db" not in text and text.count("(no file)") == 2
    assert "Aims" in text and "What you need before" in text and 'href="https://school.example/reading"' in text
    assert "Feedback:</small>" in text and "Well done" in text and "Essays" in text
    assert page.get("/files/g/content/task.html").headers["content-security-policy"].startswith("sandbox")
    tutor = host.browser(host.give_token("tom")).get("/runs/g").text
    assert "&lt;i&gt;handed in&lt;/i&gt;" in tutor


def test_no_path_leads_out_of_an_edition(host):
    host.run_of("grading", "g", ("ann", "learner"))
    page = host.browser(host.give_token("ann"))
    for path in (
        "../../../access.db",
        "..%2f..%2f..%2faccess.db",
        "%2e%2e/%2e%2e/lock",
        "unit.json",
        "/etc/passwd",
        "%2fetc/passwd",
        "./unit.json",
        "content/../unit.json",
        "content",
        "",
        "a%00b",
        "x" * 5000,
    ):
        raw = page.build_request("GET", host.url)
        raw.url = httpx.URL(host.url).copy_with(raw_path=b"/files/g/" + path.encode())
        assert page.send(raw).status_code == 404, path


def test_first_fault_at_its_place(host):
    page = host.browser()
    answer = page.post("/author/choose", data={"word": page.word, "folder": "wrong", "act": "publish"})
    text = html.unescape(answer.text)
    assert "line 13" in text and "unknown-ref" in text and "Nothing in the unit has this identifier" in text
    assert re.search(r'<span class="here">  13 ▸ .*"role": "lerner"', text)
    assert host.api().get("/units").json() == []


def test_rules_that_come_to_rest(host):
    page = host.browser()

    def check(name):
        answer = page.post("/author/choose", data={"word": page.word, "folder": name, "act": "check"})
        return html.unescape(answer.text)

    assert "always come to rest" in check("jigsaw")
    assert "feed each other in a circle, and might not come to rest: condition 1, condition 2." in check("circle")
    assert "does not have below <code>content/</code>: text.html" in check("first")


def test_list_of_persons(host):
    api = host.api()
    say(api, "r", "create", host.publish("fractions"))
    page = host.browser()

    def send(text="", raw=b"", tokens=""):
        fields = {"word": page.word, "key": text + tokens, "text": text, **({"tokens": "yes"} if tokens else {})}
        answer = page.post("/admin/runs/r/list", data=fields, files={"file": ("p.csv", raw)})
        assert answer.status_code == 200
        return answer.text

    first = send(raw="\ufeffperson,role\r\nida,pupil\r\njon,pupil\r\nms-lee,teacher\r\nzoe\r\n".encode(), tokens="yes")
    tokens = dict(zip(("ida", "jon", "ms-lee", "zoe"), re.findall(r'class="token">([^<]+)', first)))
    persons = {"ida": ["pupil"], "jon": ["pupil"], "ms-lee": ["teacher"], "zoe": []}
    assert api.get("/runs/r").json()["persons"] == persons
    send(text="person;role\nida;pupil\nida;teacher")
    assert api.get("/runs/r").json()["persons"] == persons | {"ida": ["pupil", "teacher"]}
    assert "row 2 is not" in html.unescape(send(text="kim,pupil\nthe king,pupil"))
    assert "no such role" in send(text="kim,nothing")
    page.post("/admin/runs/r/do", data={"word": page.word, "key": "s", "verb": "start"})
    assert "Learn" in host.browser(tokens["jon"]).get("/runs/r").text


def test_preview_through_time(host):
    """An author takes all parts, moves the time, and leaves no journal."""
    unit = host.publish("limit")
    page = host.browser(host.give_token("ari", "author"))
    shown = page.post("/author/preview", data={"word": page.word, "unit": unit})
    at = str(shown.url).removeprefix(host.url).partition("?")[0]
    assert "Sprint" in shown.text and "learner-1" in shown.text
    begun = page.post(f"{at}/do", data={"word": page.word, "key": "1", "verb": "open", "activity": "sprint"})
    assert "Begun" in begun.text and "Rest" not in begun.text
    later = page.post(f"{at}/time", data={"word": page.word, "step": "minute"})
    assert "Rest" in later.text and host.kept() == []
    assert page.post(f"{at}/time", data={"word": page.word, "step": "age"}).status_code == 400
    other = host.browser(host.give_token("ara", "author"))
    assert other.get(at).status_code == 404, "a preview is its author's alone"
    host.stop()
    host.start()
    page = host.browser(host.give_token("ari", "author"))
    assert "has ended" in page.get(at).text


def test_preview_of_roles(host):
    """Each role has its person; properties can be set."""
    unit = host.publish("fractions")
    page = host.browser()
    shown = page.post("/author/preview", data={"word": page.word, "unit": unit})
    at = str(shown.url).removeprefix(host.url).partition("?")[0]
    assert "teacher-1" in page.get(f"{at}?person=teacher-1").text
    fields = {
        "word": page.word,
        "key": "1",
        "verb": "set",
        "person": "teacher-1",
        "v-ready": "true",
        "o-ready": "false",
    }
    page.post(f"{at}/do", data=fields)
    page.post(
        f"{at}/do", data={"word": page.word, "key": "1", "verb": "complete", "person": "pupil-1", "activity": "lesson"}
    )
    assert "Quiz" in page.get(f"{at}?person=pupil-1").text
    fields = {"word": page.word, "person": "pupil-1", "property": "score", "value": "3"}
    assert "Talk about it" in page.post(f"{at}/set", data=fields).text


def test_notes_are_shown_once_and_to_their_session_alone(fractions):
    ida = fractions.browser(fractions.give_token("ida"))
    say(fractions.api(), "monday", "complete", "ida", "lesson")
    assert "not open for you" in ida.post("/runs/monday/do", data=FORM | {"word": ida.word}).text
    assert "not open for you" not in ida.get("/runs/monday").text
    assert "hello" not in ida.get("/runs/monday?note=hello").text


@needs_pages
def test_forms_by_page(host):
    host.run_of("forms", "f", ("ida", "pupil"), ("ms-lee", "teacher"))
    ida = host.browser(host.give_token("ida"))
    assert 'name="v-word"' in ida.get("/runs/f").text
    fields = {"word": ida.word, "key": "1", "verb": "page-set", "page": "letter", "v-word": "hello", "o-word": ""}
    ida.post("/runs/f/do", data=fields)
    assert host.api().get("/runs/f/persons/ida/properties/word").json() == {"value": "hello"}
    fields = {"word": ida.word, "key": "2", "verb": "page-set", "page": "points", "v-score": "9", "o-score": ""}
    assert "This form is closed." in ida.post("/runs/f/do", data=fields).text, "the quiz is not open yet"


def test_without_forms_none_is_offered(host_without):
    host_without.run_of("fractions", "f", ("ida", "pupil"))
    text = host_without.browser(host_without.give_token("ida")).get("/runs/f").text
    assert 'name="v-' not in text
