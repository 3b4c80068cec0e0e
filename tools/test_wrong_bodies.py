#!/usr/bin/env python3
"""Tests of wrong_bodies.py, without a prover: what it reads, how it judges what a check says, and which crates it tries when."""
import unittest

from body_tests.calls import Calls, Turns
from body_tests.edits import Places, Rounds
from body_tests.keeping import Keeping, Recording
from body_tests.verdicts import Tries, Verdicts

if __name__ == "__main__":
    unittest.main()
