"""What can go wrong with a run itself. The text of each is the sentence that the user reads."""


class ChaosError(Exception):
    """A run that could not be made or judged."""


class NotHere(ChaosError):
    """This machine lacks what a run needs."""


class RecordIsTorn(ChaosError):
    """The record of a run is not whole, so that nothing can be judged by it."""
