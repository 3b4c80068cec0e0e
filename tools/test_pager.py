#!/usr/bin/env python3
"""Tests of programs on a pseudo terminal, the pager and minus_report: test_pager.py PROGRAM [MINUS_SHOW]

PROGRAM is the built crates/minus_pager/out/minus_pager. It is put beside copies of bin/minus and bin/minus-run, and run
by a shell with job control. What comes out is played on a screen of cells; MINUS_SHOW (or the one in
crates/minus_show/out) says which page the library defines for the same text, keys and prompt. minus_report is the one in crates/minus_report/out.
"""
import os
import signal
import sys
import unittest

import programs
from pager_tests.ends import EndTests
from pager_tests.keys import KeyTests
from pager_tests.launching import InstallTests, LauncherTests
from pager_tests.long_texts import LongTextTests
from pager_tests.options import OptionTests
from pager_tests.reading_on import ReadingOnTests
from pager_tests.reports import ReportTests
from pager_tests.searches import SearchTests
from pager_tests.texts import TextTests

if __name__ == '__main__':
    if len(sys.argv) < 2 or sys.argv[1].startswith('-'):
        sys.exit(__doc__)
    programs.PAGER = os.path.abspath(sys.argv.pop(1))
    if len(sys.argv) > 1 and os.path.isfile(sys.argv[1]):
        programs.SHOW = os.path.abspath(sys.argv.pop(1))
    # (what is ignored here, under nohup or in the background, no shell below could trap)
    for number in (signal.SIGHUP, signal.SIGINT, signal.SIGQUIT):
        if signal.getsignal(number) == signal.SIG_IGN:
            signal.signal(number, signal.SIG_DFL)
    unittest.main(verbosity=1)
