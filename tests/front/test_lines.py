"""Lines to readers in a browser: by focus and by mouse, through views of one array, and after edits."""
import unittest

from browsing import Browsing, has_browser
from programs import WithAllWords

try:
    from selenium.webdriver.common.by import By
    from selenium.webdriver.common.keys import Keys
except ImportError:
    pass

MADE, WRITTEN, VIEW, READ, OTHER = range(5)
DRAWN = """return [...document.querySelectorAll('.links .link[data-cell]')].map(line => {
  const cells = [...document.querySelectorAll('section.code')];
  const at = cells.indexOf(document.getElementById('c' + line.dataset.cell));
  const kinds = [...line.classList].filter(kind => ['from', 'to', 'memory'].includes(kind)).join(' ');
  return [at, kinds, (line.querySelector('text')?.textContent ?? '').replace(/^[↑↓] /, '')];
}).sort((one, other) => one[0] - other[0])"""
TOLD = "return [...document.querySelectorAll('section.code')].every(cell => linked.has(idOf(cell)))"


@has_browser
class Lines(WithAllWords, Browsing):
    text = ('# %% Made\nx = np.arange(4)\n\n# %% Written\nx[1:] = 5\n\n# %% View\ny = x[2:]\n\n# %% Read\nprint(y[0])\n'
            '\n# %%\nz = 7\nprint(z)\n')
    outputs = ['5', '7']

    def setUp(self):
        super().setUp()
        self.wait(lambda: self.page.execute_script(TOLD))

    def lines(self):
        """The cells at the ends of the lines, which of them read or are read, and the labels."""
        return [tuple(line) for line in self.page.execute_script(DRAWN)]

    def area(self, at):
        return self.sections()[at].find_element(By.TAG_NAME, 'textarea')

    def focus(self, at):
        self.page.execute_script('arguments[0].focus()', self.area(at))

    def point(self, at):
        """Moves the mouse to a cell, or away from all."""
        find = 'const { left, top } = arguments[0].getBoundingClientRect(); return [left + 40, top + 40]'
        x, y = (2, 2) if at is None else self.page.execute_script(find, self.sections()[at])
        self.page.execute_cdp_cmd('Input.dispatchMouseEvent', {'type': 'mouseMoved', 'x': x, 'y': y})

    def test_the_cell_that_has_the_focus_shows_its_lines(self):
        self.assertEqual(self.lines(), [])
        self.focus(READ)
        self.wait(lambda: self.lines() == [(WRITTEN, 'from memory', 'through memory'), (VIEW, 'from', 'y')])
        self.wait(lambda: 'reads y from View' in self.area(READ).get_property('ariaDescription'))
        self.focus(VIEW)
        self.wait(lambda: (MADE, 'from', 'x') in self.lines() and (READ, 'to', 'y') in self.lines())
        self.focus(OTHER)
        self.wait(lambda: self.lines() == [])

    def test_keys_lead_to_lines(self):
        self.focus(VIEW)
        self.area(VIEW).send_keys(Keys.SHIFT, Keys.ENTER)
        self.wait(lambda: self.lines() == [(WRITTEN, 'from memory', 'through memory'), (VIEW, 'from', 'y')])
        self.area(READ).send_keys(Keys.ESCAPE)
        self.wait(lambda: self.lines() == [])

    def test_readers_through_memory(self):
        self.focus(WRITTEN)
        self.wait(lambda: (READ, 'to memory', 'through memory') in self.lines())
        self.assertIn((MADE, 'from', 'x'), self.lines())

    def test_the_cell_under_the_mouse_shows_its_lines(self):
        self.point(READ)
        self.wait(lambda: (VIEW, 'from', 'y') in self.lines())
        self.point(OTHER)
        self.wait(lambda: self.lines() == [])
        self.point(READ)
        self.wait(lambda: (VIEW, 'from', 'y') in self.lines())
        self.point(None)
        self.wait(lambda: self.lines() == [])

    def test_lines_follow_an_edit(self):
        self.focus(READ)
        self.wait(lambda: len(self.lines()) == 2)
        self.type(READ, 'print(z9, y[1])', Keys.CONTROL, Keys.ENTER)
        self.wait(lambda: self.page.execute_script("return document.querySelector('.refusal')"))
        self.type(OTHER, 'z = 8\nprint(y[0])', Keys.CONTROL, Keys.ENTER)
        self.wait(lambda: self.lines() == [(WRITTEN, 'from memory', 'through memory'), (VIEW, 'from', 'y')])
        self.press(WRITTEN, 'Remove')
        self.wait(lambda: len(self.sections()) == 4)
        self.wait(lambda: (VIEW - 1, 'from', 'y') in self.lines()
                  and (MADE, 'from memory', 'through memory') in self.lines())

    def test_lines_are_there_after_the_page_is_loaded_anew(self):
        self.page.refresh()
        self.wait(lambda: self.texts() == self.outputs)
        self.focus(READ)
        self.wait(lambda: self.lines() == [(WRITTEN, 'from memory', 'through memory'), (VIEW, 'from', 'y')])

    def test_inputs_and_markup_of_names_are_texts(self):
        self.type(OTHER, "z = np.load('a.npy')", Keys.CONTROL, Keys.ENTER)
        find = "return [...document.querySelectorAll('.links text')].map(text => text.textContent)"
        self.wait(lambda: self.page.execute_script(find) == ['reads a.npy'])
        self.page.execute_script("const cells = [[idOf(main.firstElementChild), ['<img src=x>'], false]];"
                                 "tellLinks({ [idOf(active)]: { cells, inputs: [] } })")
        self.wait(lambda: self.page.execute_script(find) == ['<img src=x>'])
        self.assertEqual(self.page.find_elements(By.CSS_SELECTOR, '.links img'), [])
        self.page.execute_script("const cells = Array(900).fill([idOf(main.firstElementChild), ['n'], false]);"
                                 "tellLinks({ [idOf(active)]: { cells, inputs: [] } })")
        self.wait(lambda: len(self.lines()) == 40 and self.page.execute_script(find)[-1] == 'reads 860 cells more')
        self.assertEqual(self.page.find_elements(By.CSS_SELECTOR, '[style], [onclick], [onload]'), [])


if __name__ == '__main__':
    unittest.main()
