"""The description of the interface for programs."""

from conftest import ENGINE, client

from ldhost.web.interface import COMMANDS


def test_openapi(host):
    """Each path of the interface is described, with its token and its refusals; pages are not."""
    said = client().get(host.url + "/openapi.json").json()
    paths = {
        "/api/v1/units",
        "/api/v1/units/{unit}/globals",
        "/api/v1/runs",
        "/api/v1/runs/{run}",
        "/api/v1/runs/{run}/commands",
        "/api/v1/runs/{run}/report",
        "/api/v1/runs/{run}/persons/{person}/tree",
        "/api/v1/runs/{run}/persons/{person}/outbox",
        "/api/v1/runs/{run}/persons/{person}/properties/{name}",
    }
    forms = {"/api/v1/runs/{run}/persons/{person}/pages/{page}"} if ENGINE.has_pages else set()
    assert set(said["paths"]) == paths | forms
    assert said["components"]["securitySchemes"]["HTTPBearer"]["scheme"] == "bearer"
    command = said["paths"]["/api/v1/runs/{run}/commands"]["post"]
    assert {"200", "401", "403", "404", "409", "422", "429", "503"} <= set(command["responses"])
    assert any(one["name"] == "idempotency-key" for one in command["parameters"])
    described = said["components"]["schemas"]["Command"]["properties"]["verb"]["description"]
    assert all(verb in described for verb in COMMANDS)
