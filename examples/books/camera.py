# %% [markdown]
# # A frame as the camera sent it
# `frame.raw` is the memory of a camera: 16 bytes of its own, then rows of 128 pixels that are padded to 144 bytes, from
# the bottom to the top. `frame.raw.json` says so, in the words of Python's buffers (PEP 3118), and
# `buffer('frame.raw')` is an array over these bytes. NumPy has no `buffer`: `python3 under_numpy.py camera.py` defines
# it and runs this book.

# %% The frame
import numpy as np

frame = buffer('frame.raw')
print(frame.min(), frame.max())

# %% Without the dark level
dark = 12
signal = np.maximum(frame, dark) - dark
print(signal.max())

# %% Pixels that are burnt out
burnt = frame >= 250
print(burnt.sum(), burnt.any(axis=1).sum())

# %% Stretched to all levels
wide = signal.astype(np.int32)
bright = (wide * 255 // wide.max()).astype(np.uint8)
print(bright.min(), bright.max())

# %% Two by two pixels as one
half = (wide.reshape(48, 2, 64, 2).sum(axis=3).sum(axis=1) // 4).astype(np.uint8)
print(half.sum())

# %% Edges from left to right
step = 24
slope = wide[:, 1:] - wide[:, :-1]
edge = np.abs(slope) > step
print(edge.sum())

# %% How bright the rows are
rows = wide.sum(axis=1)
print(rows.argmax(), rows.max())

# %% Saved for other programs
np.save('half.npy', half)
np.save('edge.npy', edge)
