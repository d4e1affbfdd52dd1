"""The world on SQLite: one folder on a small disk, and all who use it on one machine."""

import os
import sqlite3
from contextlib import suppress
from dataclasses import dataclass, field
from pathlib import Path

from chaos.errors import ChaosError
from chaos.network import call
from chaos.putter_sqlite import put_key
from chaos.scene import PREFIX
from chaos.world import World, python

DISK = "16m"  # small, so that it can be filled
# Without these capabilities a folder that may not be written stops root, too.
DROP = "-dac_override,-dac_read_search"


@dataclass
class SqliteWorld(World):
    disk: Path = field(default=Path("/run/chaos-disk"))

    async def open_store(self) -> None:
        self.disk.mkdir(exist_ok=True)
        await call("mount", "-t", "tmpfs", "-o", f"size={DISK}", "none", str(self.disk))

    @property
    def home(self) -> Path:
        return self.disk / "control"

    @property
    def database(self) -> Path:
        return self.home / "store.db"

    def store(self, host: str) -> str:
        return f"sqlite:{self.home}"

    def on_host(self, host: str) -> list[str]:
        return ["setpriv", f"--bounding-set={DROP}", f"--inh-caps={DROP}"]

    def recorder(self) -> list[str]:
        return python("chaos.recorder_sqlite")

    def recorder_arguments(self) -> list[str]:
        return [str(self.database)]

    async def heal(self) -> None:
        self.fill(0)
        self.forbid(False)

    def fill(self, left: int) -> None:
        """Fills the disk but for so many bytes; 0 empties it again."""
        filler = self.disk / "filler"
        filler.unlink(missing_ok=True)
        if left == 0:
            return
        facts = os.statvfs(self.disk)
        size = facts.f_bavail * facts.f_bsize - left
        with filler.open("wb") as file:
            try:
                os.posix_fallocate(file.fileno(), 0, max(size, 1))
            except OSError as fault:
                raise ChaosError("another has just taken the room") from fault

    def forbid(self, on: bool) -> None:
        """Takes from everybody the right to write the store, or gives it back."""
        mode = 0o444 if on else 0o644
        if not self.database.exists():
            return
        self.database.chmod(mode)  # first, since files made beside it have its rights
        for path in self.home.iterdir():
            with suppress(FileNotFoundError):  # the last one to close the store has just removed it
                path.chmod(mode)
        self.home.chmod(0o555 if on else 0o755)

    def putter(self) -> list[str]:
        return [*self.on_host(""), *python("chaos.putter_sqlite", str(self.database))]

    async def put_document(self, text: bytes) -> None:
        """Puts a document past all that `init` looks at."""
        try:
            put_key(self.database, f"{PREFIX}document", text)
        except sqlite3.Error as fault:
            raise ChaosError(f"the document could not be put: {fault}") from fault
