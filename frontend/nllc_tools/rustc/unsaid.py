"""Why a function has no MIR text."""

NOT_READ = "a dump that isn't understood"


class NotSaid(Exception):
    """What the profile of MIR texts can't say, or what isn't understood: the reason, and where it is."""

    def __init__(self, reason: str, where: str = ""):
        super().__init__(f"{reason}: {where}" if where else reason)
        self.reason = reason
        self.where = where
