"""The bodies of the interface for programs. OpenAPI is made of them."""

from pydantic import BaseModel, Field

from ..replies import Reply
from ..run import Run


class Command(BaseModel):
    verb: str = Field(
        ...,
        description="create, enrol, assign, drop, start, open, complete, set, clear or tick (and page-set, where the "
        "engine has it)",
        example="complete",
    )
    words: list[str] = Field([], description="the words behind the run's name", example=["ann", "read"])


class Work(BaseModel):
    turns: int
    fired: int
    rejected: int
    sent: int


class Done(BaseModel):
    reply: str = Field(..., description="the first line of the engine's reply")
    work: Work
    moment: str = Field(..., description="the run's last moment")

    @classmethod
    def of(cls, reply: Reply, run: Run) -> "Done":
        turns, fired, rejected, sent = reply.work
        work = Work(turns=turns, fired=fired, rejected=rejected, sent=sent)
        return cls(reply=reply.head, work=work, moment=run.last)


class Detail(BaseModel):
    number: int = Field(..., description="the number of the refusal in docs/COMMANDS.md")
    word: str
    more: list[str]


class Refusal(BaseModel):
    detail: Detail


class RunState(BaseModel):
    run: str
    unit: str
    started: bool
    moment: str = Field(..., description="the run's last moment")
    persons: dict[str, list[str]] = Field(..., description="each person with the roles held")

    @classmethod
    def of(cls, run: Run) -> "RunState":
        return cls(run=run.name, unit=run.course.id, started=run.started, moment=run.last, persons=run.persons)


class Role(BaseModel):
    identifier: str
    title: str
    kind: str


class Unit(BaseModel):
    unit: str = Field(..., description="the edition, which is the word of create")
    title: str
    level: str
    roles: list[Role]


class Value(BaseModel):
    value: str | None


class Shared(BaseModel):
    uri: str
    person: str = Field("", description="empty for a property that all share")
    value: str
