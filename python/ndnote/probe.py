"""Questions about values that are asked by trying cells, which changes nothing."""
from __future__ import annotations

from typing import Iterable, Optional, Sequence

from .engine import Notebook, Part, Refusal, Refused, Trial
from .values import Known, Value


class Probe:
    """Asks about the values behind a place of a notebook, and behind lines that stand there as if they were a cell."""

    def __init__(self, notebook: Notebook, place: int, lines: Sequence[str] = (), stopped: Optional[Refusal] = None
                 ) -> None:
        self.notebook = notebook
        self.place = place
        self.lines = list(lines)
        self.stopped = stopped      # why no more lines than these were carried out

    def run(self, lines: Iterable[str]) -> Trial:
        """What more lines give, each of which is a statement. Refusals count these lines from 1."""
        trial = self.notebook.try_cell(self.place, '\n'.join([*self.lines, *lines]))
        if not trial.refusal:
            return trial
        return trial._replace(refusal=trial.refusal._replace(line=trial.refusal.line - len(self.lines)))

    def behind(self, lines: Sequence[str]) -> 'Probe':
        """A probe behind more lines, up to the first that is refused."""
        stopped = self.run(lines).refusal
        done = lines[:stopped.line - 1] if stopped else lines
        return Probe(self.notebook, self.place, [*self.lines, *done], stopped)

    def value(self, name: str) -> Value:
        """What a name is bound to; behind lines a number or a row."""
        if not self.lines:
            return self.notebook.value(self.place - 1, name)
        trial = self.run([f"np.save('is', {name})", f"np.save('scalar', {name}.astype(np.int8))"])
        if trial.refusal and trial.refusal.fault == 'Stmt.NeedsType':       # a Python integer beyond int64
            trial = self.run([f"np.save('is', np.uint64({name}))"])
        if 'is' not in trial.files:
            raise Refused(trial.refusal.fault)
        saved = Value.of_npy(trial.files['is'])
        if saved.type.is_structure:
            return saved._replace(kind='row')
        kind = 'scalar' if 'scalar' in trial.files else 'bool' if saved.type.is_mask else 'int'
        return Value(kind, saved.type if kind == 'scalar' else None, number=saved.elements()[0])


    def part(self, name: str, index: Sequence[Part]) -> Value:
        """The elements of an array that an index chooses, where no lines stand before."""
        return self.notebook.part(self.place - 1, name, index)


def behind_cell(notebook: Notebook, at: int) -> Probe:
    """What asks about the values after a cell."""
    return Probe(notebook, at + 1)


def known(probe: Probe, names: Sequence[str]) -> dict[str, Known]:
    """What those of the names are that are bound where a probe stands."""
    has_word = not probe.lines and 'type' in probe.notebook.words
    return known_by_word(probe, names) if has_word else known_by_files(probe, names)


def known_by_word(probe: Probe, names: Sequence[str]) -> dict[str, Known]:
    found = {}
    for name in names:
        try:
            found[name] = probe.notebook.type(probe.place - 1, name)
        except Refused:                         # for want of memory, or not bound
            pass
    return found


def known_by_files(probe: Probe, names: Sequence[str]) -> dict[str, Known]:
    """By the headers of files without elements."""
    found, left = {}, list(names)
    while left:                                 # a number or a row refuses, and the next run goes on behind it
        files = probe.run(f"np.save('{at}', {name}[None][:0])" for at, name in enumerate(left)).files
        for at, data in files.items():
            header = Value.of_npy(data)
            found[left[int(at)]] = header.known._replace(shape=header.shape[1:])
        count = len(files)
        if count < len(left):
            try:
                found[left[count]] = probe.value(left[count]).known
            except Refused:                     # for want of memory, or not bound
                pass
        left = left[count + 1:]
    return {name: found[name] for name in names if name in found}
