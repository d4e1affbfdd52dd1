"""What can go wrong, each with the sentence that the user reads and the exit status it ends with."""

from __future__ import annotations


class ControlError(Exception):
    """A command cannot go on. Its text is one sentence without a line feed."""

    status = 2


class InputError(ControlError):
    """What the user gave is wrong: an argument, a file, a configuration."""


class Refused(ControlError):
    """A document or a report cannot be taken as it stands."""

    status = 3


class StoreError(ControlError):
    """The store did not do what was asked for; nothing of it was done."""

    status = 4


class StoreAway(StoreError):
    """The store does not answer. It may do so later, and nothing was done."""


class NoStore(StoreAway):
    """There is no store where it is looked for; it may be made later."""


class StoreRefused(StoreError):
    """The store answers and refuses: it is full, read-only, or the user may not do that."""


class StoreChanged(StoreAway):
    """Another store answers than before: what was read from the old one counts no more."""


class Compacted(StoreError):
    """The history at the revision that was asked for is not kept any more."""


class LeaseLost(StoreError):
    """The lease has ended; its keys are gone, and a transaction that names it was not done."""


class OutcomeUnknown(ControlError):
    """A transaction was sent and its answer is lost: it was done, was not, or comes late.

    A caller that meets this reads before it writes again.
    """

    status = 5
