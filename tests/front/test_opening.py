"""Opening a book that reads the largest file in a browser: what it takes until all texts are there."""
import os
import sys
import unittest
from pathlib import Path

from browsing import TOP, Browsing, has_browser

sys.path.append(str(TOP / 'tools'))

import opening  # noqa: E402

TURNS = 5
MOST_SECONDS = 1        # of the processor, in which nothing else that runs has a part
TICKS = os.sysconf('SC_CLK_TCK')


def processor_seconds(process):
    """What a process has taken until now."""
    words = Path(f'/proc/{process}/stat').read_text().rpartition(') ')[2].split()
    return sum(map(int, words[11:15])) / TICKS


@has_browser
class Opening(Browsing):
    text = ''.join(f'# %%\n{cell}\n\n' for cell in opening.CELLS)
    outputs = [opening.SHOWN, str((opening.COUNT - 1) // 1000 * 1000)]

    def bring_files(self):
        self.book.with_name('x.npy').write_bytes(opening.npy())

    def test_the_texts_are_there_at_once(self):
        clock, processor = [], []
        for _ in range(TURNS):
            self.page.get('about:blank')
            self.end()
            clock.append(self.open())
            processor.append(sum(map(processor_seconds, (self.process.pid, self.program()))))
        print(f'front: a book with {opening.BYTES:,} bytes is open after {min(clock):.2f} s, '
              f'{min(processor):.2f} s of the processor', flush=True)
        self.assertLess(min(processor), MOST_SECONDS, processor)


if __name__ == '__main__':
    unittest.main()
