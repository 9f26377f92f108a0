"""Notebooks of integer arrays from Python: a thin client of the proved program `ndnote`."""
from .engine import Notebook, Refusal, Refused, RefusedAmong, Result, Trial
from .process import Died
from .reads import BlockRead, NameRead, Reads
from .values import Known, Type, Value

__all__ = ['BlockRead', 'Died', 'Known', 'NameRead', 'Notebook', 'Reads', 'Refusal', 'Refused', 'RefusedAmong',
           'Result', 'Trial', 'Type', 'Value']
