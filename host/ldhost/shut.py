"""Why a shard takes no commands."""


class Closed(Exception):
    """The shard takes no commands; says why."""


class Held(Exception):
    """Another host, or a keeper that one left behind, has the shard."""
