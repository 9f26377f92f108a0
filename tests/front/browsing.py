"""A book that is open in Debian's chromium, for tests."""
from __future__ import annotations

import os
import shutil
import subprocess
import sys
import tempfile
import time
import unittest
from pathlib import Path

try:
    from selenium import webdriver
    from selenium.webdriver.common.by import By
except ImportError:
    webdriver = None

TOP = Path(__file__).resolve().parents[2]
sys.path.append(str(TOP / 'python/tests'))
TEXT = '# %% [markdown]\n# # Title\n\n# %% First\nx = np.arange(3)\nprint(x)\n\n# %%\nprint(x.sum())\n'
WORDS = ('--headless=new', '--no-sandbox', '--disable-gpu', '--disable-dev-shm-usage', '--window-size=1000,900')
HARMLESS = ('409', '500', 'ERR_CONNECTION', 'ERR_INCOMPLETE')     # conflicts and ends that a test makes itself

has_browser = unittest.skipUnless(webdriver and shutil.which('chromedriver'),
                                  'needs chromium, chromium-driver and python3-selenium')


class Browsing(unittest.TestCase):
    """One browser for all tests of a class, and for each test a book behind an `ndnote live` of its own."""
    text = TEXT
    outputs = ['[0 1 2]', '3']

    @classmethod
    def setUpClass(cls):
        options = webdriver.ChromeOptions()
        for word in WORDS:
            options.add_argument(word)
        options.set_capability('goog:loggingPrefs', {'browser': 'ALL'})
        service = webdriver.chrome.service.Service(shutil.which('chromedriver'))
        cls.page = webdriver.Chrome(service=service, options=options)
        cls.addClassCleanup(cls.page.quit)

    def setUp(self):
        folder = tempfile.TemporaryDirectory()
        self.addCleanup(folder.cleanup)
        self.book = Path(folder.name) / 'book.py'
        self.book.write_text(self.text)
        self.bring_files()
        self.open()

    def bring_files(self):
        """Writes what the book reads."""

    def open(self):
        """Opens the book, and waits until the page has all texts; gives the seconds that this took."""
        began = time.monotonic()
        self.process = subprocess.Popen(
            [sys.executable, '-m', 'ndnote', 'live', str(self.book), '--no-browser'], stdout=subprocess.PIPE, text=True,
            env={**os.environ, 'PYTHONPATH': str(TOP / 'python')})
        self.addCleanup(self.end)
        self.url = self.process.stdout.readline().strip()
        self.page.get(self.url)
        self.wait(lambda: self.texts() == self.outputs)
        return time.monotonic() - began

    def end(self):
        self.process.kill()
        self.process.wait()
        self.process.stdout.close()

    def tearDown(self):
        said = [line['message'] for line in self.page.get_log('browser')]
        self.assertEqual([line for line in said if not any(word in line for word in HARMLESS)], [])
        self.page.get('about:blank')

    def wait(self, condition, seconds=40):
        end = time.time() + seconds
        while not condition():
            self.assertLess(time.time(), end, 'nothing happened')
            time.sleep(0.03)

    def texts(self):
        return self.page.execute_script(
            "return [...document.querySelectorAll('pre.text')].map(pre => pre.textContent.trim())")

    def state(self):
        return self.page.execute_script("return document.getElementById('state').textContent")

    def sections(self):
        return self.page.find_elements(By.CSS_SELECTOR, 'section.code')

    def said(self, at):
        """All that a cell shows below its source."""
        find = "return document.querySelectorAll('section.code .out')[arguments[0]].innerText"
        return self.page.execute_script(find, at)

    def type(self, at, text, *keys):
        area = self.sections()[at].find_element(By.TAG_NAME, 'textarea')
        self.page.execute_script(
            "const [a, t] = arguments; a.focus(); a.value = t; a.dispatchEvent(new Event('input'))", area, text)
        if keys:
            area.send_keys(*keys)

    def press(self, at, title):
        tool = self.sections()[at].find_element(By.CSS_SELECTOR, f'.tools button[title^="{title}"]')
        self.page.execute_script('arguments[0].click()', tool)

    def program(self):
        """The number of the program's process: the one child of the server."""
        tasks = Path(f'/proc/{self.process.pid}/task').iterdir()
        return int(''.join((task / 'children').read_text() for task in tasks).split()[0])
