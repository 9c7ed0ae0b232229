"""Around all answers: their headers, and a bound on what a request may carry."""

from typing import Any, Awaitable, Callable, MutableMapping

Message = MutableMapping[str, Any]
Receive = Callable[[], Awaitable[Message]]
Send = Callable[[Message], Awaitable[None]]
App = Callable[[Message, Receive, Send], Awaitable[None]]

UPLOAD_PATH, UPLOAD_BYTES, OTHER_BYTES = "/author/upload", (64 << 20) + (1 << 16), 1 << 20


class TooLarge(Exception):
    """The request carries more than it may."""


class Shell:
    def __init__(self, app: App, is_secure: bool, framed_by: list[str]):
        self.app = app
        frames = " ".join(framed_by) or "'none'"
        policy = f"default-src 'self'; form-action 'self'; base-uri 'none'; frame-ancestors {frames}"
        self.headers = {
            b"content-security-policy": policy.encode(),
            b"x-content-type-options": b"nosniff",
            b"referrer-policy": b"same-origin",
            b"cache-control": b"no-store",
        }
        if is_secure:
            self.headers[b"strict-transport-security"] = b"max-age=31536000"

    async def __call__(self, scope: Message, receive: Receive, send: Send) -> None:
        if scope["type"] != "http":
            return await self.app(scope, receive, send)
        bound = Bound(receive, UPLOAD_BYTES if scope["path"] == UPLOAD_PATH else OTHER_BYTES)
        if bound.is_passed_by(scope):
            await bound.drain()
            return await refuse(send)
        is_refused = False

        async def with_headers(message: Message) -> None:
            nonlocal is_refused
            if message["type"] == "http.response.start":
                if bound.left < 0:
                    is_refused = True
                    await bound.drain()
                    await refuse(send)
                names = {name for name, _ in message["headers"]}
                message["headers"] += [pair for pair in self.headers.items() if pair[0] not in names]
            if not is_refused:
                await send(message)

        try:
            await self.app(scope, bound.receive, with_headers)
        except TooLarge:
            return


class Bound:
    """A request's body, of which no more than so many bytes are taken."""

    def __init__(self, receive: Receive, most: int):
        self.inner, self.most, self.left = receive, most, most

    def is_passed_by(self, scope: Message) -> bool:
        """Whether the request says itself that it is longer."""
        said = dict(scope["headers"]).get(b"content-length", b"0")
        return said.isdigit() and int(said) > self.left

    async def receive(self) -> Message:
        message = await self.inner()
        self.left -= len(message.get("body", b""))
        if self.left < 0:
            raise TooLarge()
        return message

    async def drain(self) -> None:
        """Lets the rest go by, as much as is taken at most, since who still sends does not hear the answer."""
        dropped, more = 0, True
        while more and dropped < self.most:
            message = await self.inner()
            dropped += len(message.get("body", b""))
            more = message.get("more_body", False)


async def refuse(send: Send) -> None:
    headers = [(b"content-type", b"text/plain"), (b"connection", b"close")]
    await send({"type": "http.response.start", "status": 413, "headers": headers})
    await send({"type": "http.response.body", "body": b"This is more than the host takes.\n"})
