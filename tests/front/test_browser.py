"""The live page in a browser: typing, stepping numbers, moving cells, conflicts, stopping, and refusals in words."""
import unittest

from browsing import Browsing, has_browser
from programs import WithAllWords
from sessions import SLOW_IN_PLACE

try:
    from selenium.webdriver.common.by import By
    from selenium.webdriver.common.keys import Keys
except ImportError:
    pass


@has_browser
class Browsers(Browsing):
    def test_an_edit_shows_at_once_and_is_saved(self):
        self.type(0, 'x = np.arange(5)\nprint(x)', Keys.CONTROL, Keys.ENTER)
        self.wait(lambda: self.texts() == ['[0 1 2 3 4]', '10'])
        self.assertIn('arange(5)', self.book.read_text())
        self.assertIn('2 outputs changed', self.state())

    def test_blank_lines_before_a_source_stay(self):
        self.book.write_text(self.book.read_text().replace('x = np', '\n\nx = np'))
        self.wait(lambda: self.value(0) == '\n\nx = np.arange(3)\nprint(x)')
        self.page.refresh()
        self.wait(lambda: self.texts() == self.outputs)
        self.assertEqual(self.value(0), '\n\nx = np.arange(3)\nprint(x)')
        self.type(0, '\n\nx = np.arange(4)\nprint(x)', Keys.CONTROL, Keys.ENTER)
        self.wait(lambda: self.texts() == ['[0 1 2 3]', '6'])
        self.assertEqual(self.page.find_elements(By.CSS_SELECTOR, '.conflict'), [])

    def value(self, at):
        return self.sections()[at].find_element(By.TAG_NAME, 'textarea').get_property('value')

    def test_an_arrow_key_steps_a_number(self):
        area = self.sections()[0].find_element(By.TAG_NAME, 'textarea')
        self.page.execute_script('const a = arguments[0]; a.focus(); a.selectionStart = a.selectionEnd = 14', area)
        area.send_keys(Keys.ALT, Keys.ARROW_UP)
        self.wait(lambda: self.texts() == ['[0 1 2 3]', '6'])

    def test_cells_come_go_and_move(self):
        self.press(0, 'A cell below')
        self.wait(lambda: len(self.sections()) == 3)
        self.type(1, 'x *= 2', Keys.CONTROL, Keys.ENTER)
        self.wait(lambda: self.texts() == ['[0 1 2]', '6'])
        self.press(1, 'Move down')
        self.wait(lambda: self.texts() == ['[0 1 2]', '3'])
        self.press(2, 'Remove')
        self.wait(lambda: len(self.sections()) == 2)

    def test_an_edit_elsewhere_is_shown_and_not_overwritten(self):
        self.book.write_text(self.book.read_text().replace('arange(3)', 'arange(4)'))
        self.wait(lambda: self.texts() == ['[0 1 2 3]', '6'])
        self.type(0, 'x = 1')
        self.book.write_text(self.book.read_text().replace('arange(4)', 'arange(5)'))
        self.wait(lambda: self.page.find_elements(By.CSS_SELECTOR, '.conflict'))
        self.assertIn('arange(5)', self.book.read_text())
        self.page.find_elements(By.CSS_SELECTOR, '.conflict button')[0].click()
        self.wait(lambda: 'x = 1\n' in self.book.read_text())

    def test_a_refusal_says_what_the_operands_were(self):
        self.type(1, 'print(x + np.arange(2))', Keys.CONTROL, Keys.ENTER)
        self.wait(lambda: 'np.arange(2) is int64' in self.said(1))
        self.assertIn('x is int64 · 3', self.said(1))
        self.assertIn('the shapes do not broadcast together', self.said(1).lower())
        self.assertIn('book.py:9 · Ufunc.ShapeMismatch', self.said(1))

    def test_a_long_text_is_cut_plainly(self):
        self.type(1, 'print(np.arange(200000))\nprint(5)', Keys.CONTROL, Keys.ENTER)
        self.wait(lambda: 'cut by ndnote' in self.said(1))
        self.assertIn('199998 199999]', self.said(1))
        self.assertIn('did not run', self.said(1))
        self.assertEqual(self.page.find_elements(By.CSS_SELECTOR, '.refusal'), [])

    def test_pictures_follow(self):
        self.type(0, 'x = np.arange(600).reshape(20, 30) > 3\nprint(x.sum())', Keys.CONTROL, Keys.ENTER)
        find = "return document.querySelector('img.mask')?.src"
        self.wait(lambda: self.page.execute_script(find))
        before = self.page.execute_script(find)
        self.type(0, 'x = np.arange(600).reshape(20, 30) > 300\nprint(x.sum())', Keys.CONTROL, Keys.ENTER)
        self.wait(lambda: self.page.execute_script(find) not in (None, before))


@has_browser
class BrowsersWithAllWords(WithAllWords, Browsing):
    """Over a program that tells which cells ran, and which cell runs."""
    text = '# %% First\nx = np.arange(3)\nprint(x)\n\n# %%\ny = 7\nprint(y)\n\n# %%\nprint(x.sum())\n'
    outputs = ['[0 1 2]', '7', '3']

    def classes(self, name):
        """Whether each cell bears a mark."""
        find = "return [...document.querySelectorAll('section.code')].map(one => one.classList.contains(arguments[0]))"
        return self.page.execute_script(find, name)

    def put_out(self):
        """Takes the marks of earlier flashes away."""
        self.page.execute_script("document.querySelectorAll('.flash').forEach(one => one.classList.remove('flash'))")

    def test_the_cells_that_ran_flash(self):
        self.wait(lambda: 'ran' in self.state())
        self.put_out()
        self.type(0, 'x = np.arange(4)\nprint(x)', Keys.CONTROL, Keys.ENTER)
        self.wait(lambda: self.texts() == ['[0 1 2 3]', '7', '6'] and self.classes('flash') == [True, False, True])
        self.wait(lambda: '2 outputs changed · 2 cells ran · ' in self.state())
        self.put_out()
        self.type(1, 'y = 8 - 1\nprint(y)', Keys.CONTROL, Keys.ENTER)
        self.wait(lambda: '0 outputs changed · 1 cell ran · ' in self.state())
        self.wait(lambda: self.classes('flash') == [False, True, False])

    def test_the_cell_that_runs_bears_a_mark(self):
        self.type(0, SLOW_IN_PLACE, Keys.CONTROL, Keys.ENTER)
        self.wait(lambda: self.classes('running') == [True, False, False])
        self.wait(lambda: 'running · First · ' in self.state())
        self.page.find_element(By.CSS_SELECTOR, '#state button').click()
        self.wait(lambda: 'Stopped' in self.said(0) and not any(self.classes('running')))


if __name__ == '__main__':
    unittest.main()
