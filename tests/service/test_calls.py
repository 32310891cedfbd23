"""The built program as a service, of which a call of the system fails."""
import collections
import itertools
import pathlib
import tempfile
import unittest
from collections.abc import Sequence

from tests.service.serving import GAS, Service, get, post
from tests.service.test_service import ACCEPTED, NO_TABLE
from tests.tracing import calls_in, failing, telling, traced

LINKS = 3
# How many seconds pass at least before a system that is short of something is asked again.
PAUSE = 0.1


class Traced(unittest.TestCase):
    def setUp(self) -> None:
        folder = tempfile.TemporaryDirectory()
        self.addCleanup(folder.cleanup)
        self.told = pathlib.Path(folder.name) / "told"


@traced
class TimeOuts(Traced):
    """A link sets one for its read, one for its write, and one for what comes after its reply."""

    def replies(self, under: Sequence[str]) -> list[bytes]:
        """What links get one after the other. The service has served them all when it ends."""
        with Service(LINKS, under=under) as service:
            replies = [service.exchange(get("cells", 1990)) for _ in range(LINKS)]
            self.assertEqual(service.status(), 0)
        return replies

    def test_one_that_cannot_be_set_ends_its_link_alone(self) -> None:
        self.assertEqual(self.replies(telling("setsockopt", self.told)), [NO_TABLE] * LINKS)
        calls = [call for _, call in calls_in(self.told)]
        ends: collections.Counter[int] = collections.Counter()
        for number, call in enumerate(calls, 1):
            if "TIMEO" in call:
                replies = self.replies(failing("setsockopt", "ENOMEM", number))
                ended = [link for link, found in enumerate(replies) if found != NO_TABLE]
                self.assertIn([replies[link] for link in ended], ([], [b""]), call)
                ends.update(ended)
        self.assertEqual(ends, {link: 2 for link in range(LINKS)})


@traced
class Accepts(Traced):
    """The first call takes the connection by which the test sees that the program listens."""

    def test_a_shortage_is_waited_for(self) -> None:
        for error in ("EMFILE", "ENFILE", "ENOBUFS", "ENOMEM"):
            with self.subTest(error):
                begun = self.served(error)
                pauses = [later - earlier for earlier, later in itertools.pairwise(begun[1:])]
                self.assertGreaterEqual(min(pauses), PAUSE)

    def test_a_call_that_took_no_link_is_made_again(self) -> None:
        for error in ("ECONNABORTED", "EINTR"):
            with self.subTest(error):
                self.served(error)

    def served(self, error: str) -> list[float]:
        """When each call began of a service of which three fail. A client is served after them."""
        with Service(1, under=failing("accept4", error, "2..4", self.told)) as service:
            self.assertEqual(service.exchange(post("a", GAS)), ACCEPTED)
            self.assertEqual(service.status(), 0)
        calls = calls_in(self.told)
        self.assertEqual(["INJECTED" in call for _, call in calls], [False, True, True, True, False])
        return [when for when, _ in calls]

    def test_another_failure_ends_the_service(self) -> None:
        with Service(1, under=failing("accept4", "EPERM", 2)) as service:
            self.assertEqual(service.status(), 7)


if __name__ == "__main__":
    unittest.main()
