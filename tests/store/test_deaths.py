"""The built program with a store is killed at random moments; `bench/deaths` does the same more often."""
import pathlib
import tempfile
import unittest

from tests.store.deaths import Deaths


class Killed(unittest.TestCase):
    def test_what_was_acknowledged_is_kept(self) -> None:
        with tempfile.TemporaryDirectory() as room:
            deaths = Deaths(pathlib.Path(room), seed=1)
            deaths.happen(30)
        self.assertGreater(deaths.acknowledged, 0)


if __name__ == "__main__":
    unittest.main()
