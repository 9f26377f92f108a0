# %% [markdown]
# # Three days of a weather station
# A logger writes a record each ten minutes for three masts: `station.npy`, a table with the gaps of the logger's C
# structure and temperatures in tenths of a degree, highest byte first. In the second night one bit of mast 2 was stuck.
# Here it is **mended in place**: the table is one array, and a column of it is a view.

# %% The table
import numpy as np

log = np.load('station.npy')
print(log[:3])

# %% Temperatures that no mast has seen
limit = 600
temp = log['temp']
stuck = temp > limit
print(stuck.sum(), temp[stuck].min(), temp[stuck].max())

# %% Which mast, and when
masts = log['mast'][stuck]
when = log['min'][stuck]
print(masts.min(), masts.max(), when.min(), when.max())

# %% Mended in place: the bit is worth 2048
temp[stuck] -= 2048
log['ok'][stuck] = False
print(temp.min(), temp.max())

# %% The columns follow, since they are views
day = log['temp'].reshape(432, 3)
print(day.max(axis=0), day.min(axis=0))

# %% A table of the masts
table = np.zeros(3, dtype=[('mast', np.uint8), ('mean', np.int16), ('rain', np.uint32), ('mended', np.int64)])
table['mast'] = np.arange(3) + 1
table['mean'] = day.sum(axis=0) // 432
table['rain'] = log['rain'].reshape(432, 3).sum(axis=0)
table['mended'] = (~log['ok']).reshape(432, 3).sum(axis=0)
print(table)

# %% Saved for other programs
np.save('station_mended.npy', log)
np.save('masts.npy', table)
