"""Refusals in sentences for people, each with what to do. The program's own words stay beside them."""
from __future__ import annotations

import re
from typing import NamedTuple, Optional


class Words(NamedTuple):
    """What is wrong, without a capital and a full stop; and what helps, as a sentence of its own."""
    wrong: str
    help: str


FLAT = 'Give it zeros, ones or numbers of a single type; a structure is one field at a time, as x[\'field\'].'
BROADCAST = 'Lengths are compared from the last axis: they must be equal, or one of them 1. A new axis is x[:, None].'
WRITE_NPY = 'Write it with np.save of an array of integers or Booleans.'
LAYOUT = 'Correct the layout beside the file: format, itemsize, shape, strides and offset.'
FORMAT = 'Correct the format in the layout beside the file; offsets count its bytes from 0.'

FAULTS: dict[str, Words] = {
    'Parse.BadToken': Words('`{token}` is no token of the language',
                            'Numbers are whole and decimal, without underscores; a name has letters, digits and _.'),
    'Parse.Unexpected': Words('`{token}` does not continue the statement',
                              'A line is an assignment, an op=, del, print(..), np.save(..) or import numpy as np.'),
    'Parse.TooDeep': Words('this is nested too deep: 64 levels at most', 'Bind a part of it to a name first.'),
    'Parse.TooManyStatements': Words('a cell has at most 1,000 statements', 'Cut it into two cells.'),
    'Parse.UnknownCall': Words('`{token}` is no function or attribute of this language',
                               'There are arange, zeros, ones, full, array, broadcast_to, minimum, maximum, abs, '
                               'load, save and np.int8 to np.uint64; arrays have .T, .transpose, .reshape, .copy, '
                               '.astype, .view and reductions as .sum and .max.'),
    'Parse.LeftOut': Words('Python has `{token}` here, and the language of notebooks leaves it out',
                           'There are no loops, functions, and/or/not, chained comparisons or texts; masks choose.'),
    'Format.UnknownCode': Words('at {0} the format has no code of an integer, a Boolean or a flat structure', FORMAT),
    'Format.Unclosed': Words('at {0} the format ends inside a structure', FORMAT),
    'Format.NoName': Words('at {0} the format has no name for a field', FORMAT),
    'Format.DoubleName': Words('at {0} the format has a name that another field has', FORMAT),
    'Format.CountNotHere': Words('at {0} the format has a count, which only pads may have', FORMAT),
    'Format.LargerThanItem': Words('the fields of the format need more bytes than an item has', LAYOUT),
    'Format.TooManyFields': Words('the format has more than 256 fields', FORMAT),
    'Format.BadItemSize': Words('an item of that size is not possible for the format', LAYOUT),
    'Npy.BadMagic': Words('the file is no NPY file', WRITE_NPY),
    'Npy.BadVersion': Words('the NPY file is of a version other than 1.0, 2.0 and 3.0', WRITE_NPY),
    'Npy.Truncated': Words('the NPY file ends before its last element', 'Copy it anew: a part of it is missing.'),
    'Npy.NotText': Words('the header of the NPY file is no text, at byte {0}', WRITE_NPY),
    'Npy.BadHeader': Words('the header of the NPY file cannot be read, at byte {0}', WRITE_NPY),
    'Npy.BadKeys': Words('the header of the NPY file has a wrong key, or lacks one', WRITE_NPY),
    'Npy.BadDescr': Words('the elements of the NPY file are no integers, Booleans or flat structures of them',
                          'Convert them in NumPy first, as by np.round(x * 1000).astype(np.int32).'),
    'Npy.TooLarge': Words('the array of the NPY file has over 16,777,216 elements, or 128 MiB, or 32 axes',
                          'Save it in parts.'),
    'View.OutOfBlock': Words('the array reaches outside its bytes', LAYOUT),
    'View.TooManyAxes': Words('an array has at most 32 axes', 'Reshape it to fewer.'),
    'View.TooManyElements': Words('an array has at most 16,777,216 elements and 128 MiB', 'Work on parts of it.'),
    'View.AxesDiffer': Words('the buffer has not as many strides as lengths', LAYOUT),
    'View.ItemSizes': Words('the last axis cannot be cut into items of that size',
                            'Its bytes must lie side by side and divide by the new size. Try .copy() or .astype(..).'),
    'Index.OutOfBounds': Words('index {1} is outside axis {0}, which has length {2}',
                               'Positions go from 0 to the length less 1, and from -1 back to minus the length.'),
    'Index.TooManyIndices': Words('there are more indexes than axes', 'Leave one out, or add an axis by None.'),
    'Index.ZeroStep': Words('a step is 0', 'Give a step of 1, -1 or more.'),
    'Index.NotAnIndex': Words('this value is no index',
                              'An index has whole numbers, slices, ..., None, lists, and integer or Boolean arrays.'),
    'Index.TwoEllipses': Words('an index has more than one `...`', 'Write : for each axis of one of them.'),
    'Index.NoField': Words('no field is called {0}', 'The names stand in the dtype; a table has one for each column.'),
    'Index.MaskShape': Words('the mask has another length along axis {0} than the array',
                             'Make the mask of the array that it chooses from, or of one with its shape.'),
    'Index.IndexShapes': Words('the index arrays do not broadcast together', BROADCAST),
    'Shape.BadAxes': Words('these are not the axes of the array', 'Name each axis once, from 0 to the last.'),
    'Shape.ShapeMismatch': Words('the shape does not broadcast to that one', BROADCAST),
    'Shape.TwoUnknown': Words('more than one length is -1', 'Only one length can be found from the others.'),
    'Shape.SizeMismatch': Words('the new shape has another number of elements',
                                'The product of the lengths must stay; one of them may be -1.'),
    'Ufunc.FloatResult': Words('NumPy would give floats here, and notebooks have none',
                               'Divide by // after scaling up, name an integer dtype, or convert by .astype(..).'),
    'Ufunc.IntOutOfRange': Words('{0} does not fit the type of the array beside it',
                                 'Convert the array first: x.astype(np.int64).'),
    'Ufunc.BoolOp': Words('Booleans have no such operator', 'Use & | ^ ~, or .astype(np.int64) to count.'),
    'Ufunc.KindCast': Words('the result cannot be written into the type of the target in place',
                            'Write x = x + y in place of x += y, or convert the right side by .astype(..).'),
    'Ufunc.NegativePower': Words('an integer is raised to a negative power', 'Powers are 0 or more.'),
    'Ufunc.ShapeMismatch': Words('the shapes do not broadcast together', BROADCAST),
    'Ufunc.ReadOnly': Words('the array is read-only: np.broadcast_to stretched it', 'Write to a .copy() of it.'),
    'Ufunc.NotNumbers': Words('structures are no numbers', FLAT),
    'Reduce.EmptyReduce': Words('there is no element to choose the least or the greatest from',
                                'Look first whether anything is there, as by mask.any().'),
    'Reduce.NoAxis': Words('the array has no such axis', 'Axes go from 0, and from -1 back.'),
    'Reduce.NotNumbers': Words('structures cannot be reduced', FLAT),
    'Stmt.NoName': Words('no name `{0}` is bound here', 'Bind it in this cell or in one above.'),
    'Stmt.NoInput': Words('there is no input `{0}`', 'Put a file of that name beside the book, or give NAME=PATH.'),
    'Stmt.IntTooBig': Words('an integer is outside -2**63 to 2**64 - 1', 'Arrays wrap; Python numbers are refused.'),
    'Stmt.ZeroDivide': Words('a number is divided by zero', 'Look at the divisor, or use an array, which gives 0.'),
    'Stmt.NegativeShift': Words('a number is shifted by a negative count', 'Shift the other way.'),
    'Stmt.NeedsType': Words('these numbers fit no int64, so they need a dtype', 'Name one: dtype=np.uint64.'),
    'Stmt.RaggedList': Words('the nested lists have other lengths', 'Give each row the same number of items.'),
    'Stmt.NotAnArray': Words('only an array has this', 'A number becomes one by np.array(..).'),
    'Stmt.TextTooLong': Words('a cell prints at most a mebibyte', 'Print a part, as x[:10], or save it by np.save.'),
    'Stmt.BadArgument': Words('an argument is of a wrong sort',
                              'Axes and lengths are whole Python numbers; names of files have A-Z a-z 0-9 _ . -.'),
    'Stmt.BadType': Words('this is no dtype of integers or Booleans',
                          'Types are np.int8 to np.uint64, np.bool_, texts as \'<i4\', and lists of (name, type).'),
    'NoCell': Words('there is no cell {0}: the notebook has {1}', 'Cells are counted from 0.'),
    'TooManyCells': Words('a notebook has at most 10,000 cells', 'Put two cells into one.'),
    'CellTooLong': Words('a cell has at most 65,536 bytes', 'Cut it into two cells, or put data into a file.'),
    'BadInputName': Words('a name of an input has 1 to 64 of A-Z a-z 0-9 _ . -', 'Give the file another name.'),
    'InputTooLarge': Words('an input has at most 64 MiB', 'Cut the file into parts.'),
    'NoInputNamed': Words('there is no input `{0}` to drop', 'It was never set, or dropped before.'),
    'NoName': Words('no name `{0}` is bound after that cell', 'Ask for one of its names.'),
    'NoSave': Words('the cell saved no file `{0}`', 'Ask for one of its saves.'),
    'OutOfMemory': Words('there was not enough memory, and everything is as it was before',
                         'Make arrays smaller, or give more by --memory.'),
    'bad command': Words('the program does not know this command', 'It may be older than this client.'),
}
NAMED = ('NoName', 'NoInput', 'NoField', 'NoInputNamed', 'NoSave')     # their argument is a name, spaces and all


def words(fault: str, token: str = '') -> Words:
    """'Index.OutOfBounds 0 5 3' as sentences; `token` is what a fault of the grammar points at."""
    name, _, rest = fault.partition(' ')
    found = FAULTS.get(name) or FAULTS.get(fault)
    if not found:
        return Words('the program refused this', '')
    arguments = [rest] if name.split('.')[-1] in NAMED else rest.split(' ')
    try:
        return Words(found.wrong.format(*arguments, token=token or 'the end of the statement'), found.help)
    except IndexError:
        return found


def column(fault: str, line: str) -> Optional[int]:
    """The place in a line's text that a fault points at, from 0, or None: the program counts bytes from 1."""
    name, _, rest = fault.partition(' ')
    if not name.startswith('Parse.') or not rest.isdigit():
        return None
    return len(line.encode('utf-8', 'replace')[:int(rest) - 1].decode('utf-8', 'ignore'))


def told(fault: str, line: str) -> Words:
    """The sentences for a fault in a line of source, where a fault of the grammar has its token."""
    at = column(fault, line)
    match = re.compile(r'\w[\w.]*|\S').match(line, at) if at is not None else None
    return words(fault, match.group() if match else '')
