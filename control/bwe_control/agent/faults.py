"""What the agent may meet beside the control plane's faults."""

from __future__ import annotations

from bwe_control.errors import ControlError, InputError


class ConfigError(InputError):
    """A configuration file is at fault; the sentence names the file and the place in it."""


class KernelError(ControlError):
    """The kernel refused a request; `code` is its errno, 0 where there is none."""

    def __init__(self, sentence: str, code: int = 0) -> None:
        super().__init__(sentence)
        self.code = code
