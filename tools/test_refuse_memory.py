#!/usr/bin/env python3
"""Tests of refuse_memory.py: which requests are refused, and what is said about a test."""
import concurrent.futures
import os
import sys
import unittest
from unittest import mock

sys.path.insert(0, os.path.dirname(os.path.abspath(__file__)))
import refuse_memory


def told(passes, count, before=0, more=1):
    """Returns what is said about a test of this number of requests, more where one is refused, and which were refused."""
    refused = []

    def run(program, test, library, number):
        refused.append(number)
        return passes(number), count + (more if number else 0)

    with mock.patch.object(refuse_memory, "run", run), concurrent.futures.ThreadPoolExecutor(1) as pool:
        return refuse_memory.swept("", "", "", pool, before), refused


class Sweeps(unittest.TestCase):
    def test_each_request_is_refused_once(self):
        self.assertEqual(told(lambda number: True, 3), ((3, ""), [0, 1, 2, 3]))

    def test_those_of_the_beginning_are_not(self):
        self.assertEqual(told(lambda number: True, 5, 3), ((2, ""), [0, 4, 5]))

    def test_wrong_ends_are_told(self):
        (count, fault), _ = told(lambda number: number != 2, 3)
        self.assertEqual(count, 3)
        self.assertIn("[2]", fault)

    def test_a_test_that_fails_by_itself_is_not_swept(self):
        self.assertEqual(told(lambda number: False, 3)[1], [0])

    def test_a_test_that_makes_no_request_is_a_fault(self):
        self.assertTrue(told(lambda number: True, 3, 3)[0][1])

    def test_a_library_that_refuses_nothing_is_seen(self):
        self.assertTrue(told(lambda number: True, 3, more=0)[0][1])

    def test_too_many_are_not_swept(self):
        (count, fault), refused = told(lambda number: True, refuse_memory.MOST + 1)
        self.assertTrue(fault and count == 0 and refused == [0])

    def test_the_beginning_is_that_of_the_module(self):
        with mock.patch.object(refuse_memory, "run", lambda *words: (True, 7)):
            tests = ["a::begins", "a::b", "c::d"]
            counts = [refuse_memory.count_before("", test, tests, "") for test in tests]
        self.assertEqual(counts, [0, 7, 0])


if __name__ == "__main__":
    unittest.main()
