#!/usr/bin/env python3
"""test_page: tries the page alone, opened from the disk: the viewer's own tests over it, and its answers beside
those of the program.

    tests/test_page.py [TEST ..]

It makes the page, and wants Chromium and chromedriver; Firefox is tried too where it is installed. FRAMEDBG names
another program. With another kit than the one it was tried with, a page that can't be made is told and passed over.
"""
import folders

import browser
import passed_over
from test_page_alone import *  # noqa: F401, F403
from test_page_blame import *  # noqa: F401, F403
from test_page_viewer import *  # noqa: F401, F403

if __name__ == "__main__":
    if browser.is_installed():
        passed_over.run_tests("test_page")
    else:
        passed_over.note("test_page", "Chromium and chromedriver aren't installed")
