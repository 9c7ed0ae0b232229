"""What `rank` prints of folders of this repository, worked out by hand or taken from docs/RANKS.md: a beginning of it."""
ROWS = [
    ("examples/first", "ranked u1 rules=3 depth=2 turns=64 never-30\n1 activity read\n1 opening a\n2 part rp\n"),
    ("examples/jigsaw", "ranked jigsaw rules=87 depth=12 turns=64 never-30\n"),
    ("tests/transcripts/conditions_that_undo_each_other/unit", "loop u length=2\ncondition 1\ncondition 2\n"),
    ("tests/transcripts/as_many_turns_as_are_allowed/unit", "ranked u rules=7 depth=4 turns=4 never-30\n"),
    ("tests/transcripts/one_turn_too_many/unit", "ranked u rules=7 depth=4 turns=3 open\n"),
]
