"""The programs under test, as rt builds them; a caller may set others."""
import os

TOP = os.path.dirname(os.path.dirname(os.path.abspath(__file__)))


def built(name):
    return os.path.join(TOP, 'crates', name, 'out', name)


PAGER, SHOW, REPORT = built('minus_pager'), built('minus_show'), built('minus_report')
