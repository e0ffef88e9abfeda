"""Tests what orders.py refuses, in a second."""

import tempfile
import unittest
from pathlib import Path
from unittest import mock

from shared.crates import Unfit
from write import orders


class OrdersTest(unittest.TestCase):
    def refused(self, crates):
        """What is said where these crates have the laws of all types."""
        with tempfile.TemporaryDirectory() as root, mock.patch.object(orders, "MODULES", {"all": ("all", crates)}):
            with self.assertRaises(Unfit) as caught:
                orders.main(Path(root))
        return str(caught.exception)

    def test_a_crate_that_is_not_there(self):
        crates = [it for _, named in orders.MODULES.values() for it in named]
        self.assertIn("there is no folder", self.refused(crates))

    def test_a_crate_that_has_no_laws(self):
        self.assertIn("no place is said for what is of weedle_parts", self.refused(["weedle_types", "weedle_idl"]))
