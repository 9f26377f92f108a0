"""Runs a book as NumPy does, from the folder of the book: python3 under_numpy.py BOOK. It prints the same text and
saves the same bytes as `ndnote run BOOK --save .`, where no cell is refused."""
import json
import os
import runpy
import sys

os.environ.setdefault('NPY_PROMOTION_STATE', 'weak')    # before NumPy 2: numbers take the type of the array beside them
import numpy as np


def buffer(name: str) -> np.ndarray:
    """The elements that a layout finds in the bytes of a file, as `buffer` of a book."""
    with open(name + '.json', encoding='utf-8') as file:
        layout = json.load(file)
    with open(name, 'rb') as file:
        memory = bytearray(file.read())
    return np.ndarray(layout['shape'], layout['format'], memory, layout.get('offset', 0), layout['strides'])


np.set_printoptions(linewidth=10 ** 9, threshold=sys.maxsize)      # a book's lines are not broken or shortened
runpy.run_path(sys.argv[1], {'buffer': buffer})
