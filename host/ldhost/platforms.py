"""Learning platforms that may send persons here by LTI 1.3, and the keys with which they sign."""

import json
import threading
import time
import urllib.request
from dataclasses import dataclass, field
from pathlib import Path
from typing import Any, Callable

from jwcrypto import jwk

FRESH_SECONDS = 3600
LEAST_SECONDS = 60
MOST_BYTES = 1 << 20
FETCH_SECONDS = 10


def fetch(address: str) -> str:
    """The text at an address of the platforms' file."""
    with urllib.request.urlopen(address, timeout=FETCH_SECONDS) as answer:
        text: str = answer.read(MOST_BYTES).decode()
        return text


@dataclass
class Platform:
    issuer: str
    client: str
    login: str
    keys: str
    deployments: list[str]
    runs: list[str]
    fetch: Callable[[str], str] = fetch
    clock: Callable[[], float] = time.monotonic
    cached: dict[str, jwk.JWK] = field(default_factory=dict)
    fetched: float | None = None
    lock: threading.Lock = field(default_factory=threading.Lock)

    def key(self, name: str) -> jwk.JWK | None:
        """The key with this `kid`. The key set is fetched again when it is an hour old, and when it has not the key: so
        a platform may change its keys at any time. An unknown key makes a fetch once a minute at most."""
        with self.lock:
            age = None if self.fetched is None else self.clock() - self.fetched
            is_old = age is None or age > FRESH_SECONDS
            if is_old or (name not in self.cached and age is not None and age > LEAST_SECONDS):
                self.renew()
            return self.cached.get(name)

    def renew(self) -> None:
        """Fetches the key set. Where that fails, the keys that were there stay."""
        self.fetched = self.clock()
        try:
            found = json.loads(self.fetch(self.keys))["keys"]
            self.cached = {one["kid"]: jwk.JWK(**one) for one in found if one.get("kty") == "RSA" and "kid" in one}
        except Exception:
            return


def read_platforms(path: Path | None) -> list[Platform]:
    """The platforms of a JSON file: a list of objects with the members of `Platform` (host/README.md)."""
    if path is None:
        return []
    names = ("issuer", "client", "login", "keys", "deployments", "runs")
    found: list[dict[str, Any]] = json.loads(path.read_text())
    return [Platform(**{name: one[name] for name in names}) for one in found]


def find(platforms: list[Platform], issuer: Any, client: Any = None) -> Platform | None:
    """The platform of an issuer. Several customers of one issuer differ by the client, which Canvas sends."""
    fitting = [one for one in platforms if one.issuer == issuer and client in (None, one.client)]
    return fitting[0] if len(fitting) == 1 else None
