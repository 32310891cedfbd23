"""A session of the program's command `review`, which keeps versions beside the present data."""
from tools.program import MOST_COMMANDS, Program, ProgramFailed


class Review(Program):
    """A session of `review`. It is closed at the end of a `with` block."""

    word = "review"
    has_versions = False

    def __enter__(self) -> "Review":
        return self

    def _start_again(self) -> None:
        """Starts anew where there are no versions: they would be lost."""
        if self.has_versions:
            raise ProgramFailed(f"a review takes {MOST_COMMANDS:,} submissions and requests at the most")
        super()._start_again()

    def freeze(self, name: str) -> None:
        """Freezes the present data as a version."""
        self._command(f"FREEZE {name}\n".encode())
        self._flush()
        reply = self._line()
        if not reply.startswith(f"frozen {name} "):
            raise ProgramFailed(f"the program answered FREEZE {name} with: {reply}")
        self.has_versions = True

    def recalculation(self, name: str, year: int) -> list[str] | None:
        """The table of what a version gave and of what holds now, or None where there is none."""
        return self._table(f"RECALC {name} {year}")

    def trend(self, year: int) -> list[str] | None:
        """The table of the uncertainty of the trend from the base year, or None where there is none."""
        return self._table(f"TREND {year}")
