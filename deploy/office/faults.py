"""What goes wrong, as types: each has the exit status with which the command ends.

Every module raises these for what an operator can act on, with one sentence that names the thing;
`command.main` prints it as `office: SENTENCE`. Anything else is a mistake of ours."""


class Fault(Exception):
    """Something that an operator reads and acts on."""

    status = 1


class Refused(Fault):
    """What was asked for isn't done, and nothing was changed by it."""


class Unread(Fault):
    """The words or the office's file can't be read: the text says where and why."""

    status = 2


class Unanswered(Refused):
    """The office gave no answer. What was asked may have been accepted: the same again is safe."""


class TurnedAway(Refused):
    """A door or the program answered that this isn't a request for it; nothing was accepted."""

    def __init__(self, asked: str, status: int, text: str) -> None:
        super().__init__(f"{asked}: {status} {text.strip()[:200]}")
        self.http_status = status
