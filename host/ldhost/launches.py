"""What a launch by LTI 1.3 says, if this host may trust it."""

import asyncio
import json
import re
from typing import Any

from jwcrypto import jws, jwt

from .access import Access, Denied, digest
from .platforms import Platform, find
from .run import Run

CLAIM = "https://purl.imsglobal.org/spec/lti/claim/"
INSTRUCTOR = re.compile(
    r"(http://purl\.imsglobal\.org/vocab/lis/v2/membership#)?Instructor|.*/membership/Instructor#.*"
)


async def trusted(access: Access, platforms: list[Platform], token: str, state: str) -> tuple[Platform, dict[str, Any]]:
    """The platform and the claims of an id_token, or Denied. State and nonce are used up."""
    if not access.take("state " + state):
        raise Denied("unknown state")
    platform = platform_of(platforms, token)
    claims = await signed(platform, token)
    if claims.get(CLAIM + "version") != "1.3.0" or claims.get(CLAIM + "message_type") != "LtiResourceLinkRequest":
        raise Denied("no resource link request")
    if claims.get(CLAIM + "deployment_id") not in platform.deployments:
        raise Denied("unknown deployment")
    if not access.take("nonce " + platform.client + " " + str(claims["nonce"])):
        raise Denied("unknown or used nonce")
    return platform, claims


def unproved(token: str) -> tuple[dict[str, Any], dict[str, Any]]:
    """The header and the claims as they stand in the token, before anything is proved."""
    parts = jws.JWS()
    try:
        parts.deserialize(token)
        header, claims = parts.jose_header, json.loads(parts.objects["payload"])
    except (jws.InvalidJWSObject, jws.InvalidJWSOperation, ValueError, KeyError):
        raise Denied("no token") from None
    if not isinstance(header, dict) or not isinstance(claims, dict):
        raise Denied("no token")
    return header, claims


def platform_of(platforms: list[Platform], token: str) -> Platform:
    _, claims = unproved(token)
    for client in audience(claims):
        if platform := find(platforms, claims.get("iss"), client):
            return platform
    raise Denied("for another tool")


def audience(claims: dict[str, Any]) -> list[Any]:
    named = claims.get("aud")
    return named if isinstance(named, list) else [named]


async def signed(platform: Platform, token: str) -> dict[str, Any]:
    """The claims, once the platform's signature, the times and the audience are right."""
    header, _ = unproved(token)
    key = await asyncio.to_thread(platform.key, str(header.get("kid")))
    if key is None:
        raise Denied("unknown key")
    wanted = {"iss": platform.issuer, "exp": None, "iat": None, "nonce": None, "sub": None}
    try:
        good = jwt.JWT(jwt=token, key=key, algs=["RS256"], check_claims=wanted)
    except Exception as error:
        raise Denied(f"token: {type(error).__name__}") from None
    claims: dict[str, Any] = json.loads(good.claims)
    if platform.client not in audience(claims):
        raise Denied("for another tool")
    if len(audience(claims)) > 1 and claims.get("azp") != platform.client:
        raise Denied("for another tool")
    return claims


def run_named(claims: dict[str, Any]) -> str:
    """The run that the link names, as the platform's custom parameter `run`."""
    custom = claims.get(CLAIM + "custom")
    return str(custom.get("run", "")) if isinstance(custom, dict) else ""


def person_of(claims: dict[str, Any]) -> str:
    """An identifier for the platform's user: the same at each launch, and no name."""
    return "lti-" + digest(f"{claims['iss']} {claims['sub']}")[:24]


def role_for(claims: dict[str, Any], run: Run) -> str | None:
    """The first role of the course that suits the person: of staff for an instructor, else of learners."""
    named = claims.get(CLAIM + "roles")
    is_staff = any(INSTRUCTOR.fullmatch(str(one)) for one in (named if isinstance(named, list) else []))
    kind = "staff" if is_staff else "learner"
    return next((name for name, role in run.course.roles.items() if role["kind"] == kind), None)
