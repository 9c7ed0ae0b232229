"""Launches by LTI 1.3, as a platform sends them."""

import base64
import json
import threading
import time
from http.server import BaseHTTPRequestHandler, HTTPServer

import httpx
import pytest
from conftest import client, say
from jwcrypto import jwk, jwt

from ldhost.launches import CLAIM
from ldhost.platforms import Platform

ISSUER, CLIENT = "https://lms.example", "tool-1"
ROLES = "http://purl.imsglobal.org/vocab/lis/v2/"
TEACHER = ROLES + "membership#Instructor"


class Keys:
    """A platform's address for its public keys."""

    def __init__(self):
        self.keys, self.asked = [self.make("first")], 0
        outer = self

        class Handler(BaseHTTPRequestHandler):
            def do_GET(self):
                outer.asked += 1
                body = json.dumps({"keys": [key.export_public(as_dict=True) for key in outer.keys]}).encode()
                self.send_response(200)
                self.end_headers()
                self.wfile.write(body)

            def log_message(self, *words):
                pass

        self.server = HTTPServer(("127.0.0.1", 0), Handler)
        self.address = f"http://127.0.0.1:{self.server.server_port}/keys"
        threading.Thread(target=self.server.serve_forever, daemon=True).start()

    @staticmethod
    def make(name):
        return jwk.JWK.generate(kty="RSA", size=2048, kid=name)


@pytest.fixture
def keys():
    keys = Keys()
    yield keys
    keys.server.shutdown()


@pytest.fixture
def tool(new_host, tmp_path, keys):
    """A host with a run that the platform may send to, and one that it may not."""
    platform = {
        "issuer": ISSUER,
        "client": CLIENT,
        "login": "https://lms.example/auth",
        "keys": keys.address,
        "deployments": ["1"],
        "runs": ["monday"],
    }
    other = platform | {"client": "tool-2", "runs": ["tuesday"]}
    (tmp_path / "platforms.json").write_text(json.dumps([platform, other]))
    host = new_host("--platforms", tmp_path / "platforms.json")
    unit = host.publish("fractions")
    for name in ("monday", "tuesday"):
        say(host.api(), name, "create", unit)
    return host


def body_of(host, browser, key, **change):
    """What the platform lets the browser send."""
    asked = browser.get(
        host.url + "/lti/login",
        params={"iss": ISSUER, "client_id": CLIENT, "login_hint": "7", "lti_message_hint": "m"},
    )
    back = httpx.URL(asked.headers["location"]).params
    assert back["redirect_uri"] == host.url + "/lti/launch" and back["lti_message_hint"] == "m"
    claims = {
        "iss": ISSUER,
        "aud": CLIENT,
        "sub": "7",
        "exp": int(time.time()) + 600,
        "iat": int(time.time()),
        "nonce": back["nonce"],
        CLAIM + "version": "1.3.0",
        CLAIM + "message_type": "LtiResourceLinkRequest",
        CLAIM + "deployment_id": "1",
        CLAIM + "roles": [TEACHER],
        CLAIM + "custom": {"run": "monday"},
    } | change
    token = jwt.JWT(header={"alg": "RS256", "kid": key["kid"]}, claims=claims)
    token.make_signed_token(key)
    return {"id_token": token.serialize(), "state": back["state"]}


def launch(host, key, **change):
    browser = client()
    return browser.post(host.url + "/lti/launch", data=body_of(host, browser, key, **change))


def test_launch(tool, keys):
    key = keys.keys[0]
    answer = launch(tool, key)
    assert answer.status_code == 303 and answer.headers["location"] == "/runs/monday"
    persons = tool.api().get("/runs/monday").json()["persons"]
    assert list(persons.values()) == [["teacher"]] and list(persons)[0].startswith("lti-")
    assert launch(tool, key).status_code == 303 and len(tool.api().get("/runs/monday").json()["persons"]) == 1
    for number, (roles, role) in enumerate(
        [
            ([ROLES + "membership#Learner"], "pupil"),
            ([ROLES + "institution/person#Instructor", ROLES + "membership#Learner"], "pupil"),
            ([ROLES + "membership/Instructor#TeachingAssistant"], "teacher"),
            ([], "pupil"),
        ]
    ):
        assert launch(tool, key, **{CLAIM + "roles": roles, "sub": f"s{number}"}).status_code == 303
        assert list(tool.api().get("/runs/monday").json()["persons"].values())[-1] == [role]
    assert keys.asked == 1, "the keys are kept for a while"


@pytest.mark.parametrize(
    "change",
    [
        {"aud": "tool-3"},
        {"aud": [CLIENT, "tool-3"]},
        {"exp": int(time.time()) - 600},
        {"nonce": "mine"},
        {"iss": "https://other.example"},
        {CLAIM + "deployment_id": "2"},
        {CLAIM + "version": "1.1"},
        {CLAIM + "message_type": "LtiDeepLinkingRequest"},
    ],
)
def test_launches_that_are_denied(tool, keys, change):
    assert launch(tool, keys.keys[0], **change).status_code == 403
    assert tool.api().get("/runs/monday").json()["persons"] == {}


def test_a_run_of_another_platform(tool, keys):
    assert launch(tool, keys.keys[0], **{CLAIM + "custom": {"run": "tuesday"}}).status_code == 404
    assert launch(tool, keys.keys[0], **{CLAIM + "custom": {}}).status_code == 404


def test_forged_tokens(tool, keys):
    assert launch(tool, Keys.make("first")).status_code == 403, "another key of the same name"
    browser = client()
    body = body_of(tool, browser, keys.keys[0])
    head, payload, signature = body["id_token"].split(".")
    none = base64.urlsafe_b64encode(b'{"alg":"none","kid":"first"}').rstrip(b"=").decode()
    for token in (f"{none}.{payload}.", f"{none}.{payload}.{signature}", "x", "", f"{head}.{payload}."):
        body = body_of(tool, browser, keys.keys[0]) | {"id_token": token}
        assert browser.post(tool.url + "/lti/launch", data=body).status_code in (403, 422), token
    secret = jwk.JWK(
        kty="oct", k=base64.urlsafe_b64encode(keys.keys[0].export_to_pem()).rstrip(b"=").decode(), kid="first"
    )
    body = body_of(tool, browser, keys.keys[0])
    forged = jwt.JWT(
        header={"alg": "HS256", "kid": "first"}, claims=json.loads(base64.urlsafe_b64decode(payload + "==="))
    )
    forged.make_signed_token(secret)
    assert browser.post(tool.url + "/lti/launch", data=body | {"id_token": forged.serialize()}).status_code == 403


def test_each_launch_once_and_in_its_browser(tool, keys):
    key, browser = keys.keys[0], client()
    body = body_of(tool, browser, key)
    assert browser.post(tool.url + "/lti/launch", data=body).status_code == 303
    assert browser.post(tool.url + "/lti/launch", data=body).status_code == 403, "once only"
    other = body_of(tool, client(), key)
    assert client().post(tool.url + "/lti/launch", data=other).status_code == 403, "another browser"
    mine = client(cookies={"ldhost-state": "mine"})
    body = body_of(tool, client(), key) | {"state": "mine"}
    assert mine.post(tool.url + "/lti/launch", data=body).status_code == 403, "a state of one's own"


def test_launches_that_are_only_begun_are_bounded(tool, monkeypatch):
    monkeypatch.setattr("ldhost.access.MOST_LAID", 4)
    asked = {"iss": ISSUER, "client_id": CLIENT}
    codes = [client().get(tool.url + "/lti/login", params=asked).status_code for _ in range(3)]
    assert codes == [302, 302, 429]


def test_unknown_platforms(tool):
    for asked in ({"iss": "https://other.example"}, {"iss": ISSUER}, {"iss": ISSUER, "client_id": "x"}, {}):
        assert client().get(tool.url + "/lti/login", params=asked).status_code == 403


def test_keys_change():
    """A new key is fetched at once, an unknown one once a minute at most; a failed fetch leaves the old keys."""
    now, sets, asked = [0.0], [["a"]], [0]
    made = {name: Keys.make(name).export_public(as_dict=True) for name in "abc"}

    def fetch(address):
        asked[0] += 1
        if not sets[0]:
            raise OSError("no network")
        return json.dumps({"keys": [made[name] for name in sets[0]]})

    platform = Platform(ISSUER, CLIENT, "", "", [], [], fetch, lambda: now[0])
    assert platform.key("a") and not platform.key("b") and asked == [1]
    now[0] = 61
    sets[0] = ["a", "b"]
    assert platform.key("b") and platform.key("a") and asked == [2]
    assert not platform.key("c") and asked == [2], "not again within a minute"
    now[0], sets[0] = 4000, []
    assert platform.key("a") and asked == [3]
    now[0], sets[0] = 8000, ["c"]
    assert platform.key("c") and not platform.key("a"), "a key that is withdrawn counts no more"
