"""Draws the data of the books, with NumPy: cells, counts, a weather station's table and a camera's frame."""
import json

import numpy as np

random = np.random.default_rng(7)


def cells() -> np.ndarray:
    """A microscope's picture: bright ellipses over an uneven background, with noise."""
    height, width = 160, 240
    y, x = np.mgrid[:height, :width]
    light = 26 + 14 * np.exp(-((x - 150) / 160) ** 2 - ((y - 60) / 110) ** 2)
    for _ in range(26):
        cy, cx, turn = random.uniform(8, height - 8), random.uniform(8, width - 8), random.uniform(0, np.pi)
        a, b, bright = random.uniform(5, 13), random.uniform(4, 8), random.uniform(70, 190)
        u = (x - cx) * np.cos(turn) + (y - cy) * np.sin(turn)
        v = (y - cy) * np.cos(turn) - (x - cx) * np.sin(turn)
        r = (u / a) ** 2 + (v / b) ** 2
        light += bright * np.exp(-r ** 2) + bright * 0.35 * np.exp(-((u + a / 4) ** 2 + v ** 2) / 6)
    light += random.normal(0, 4, light.shape)
    return light.clip(0, 255).astype(np.uint8)


def counts() -> np.ndarray:
    """A week of three detectors, a row for each minute: days and nights, sparks, and an hour without detector 1."""
    minutes = np.arange(7 * 1440)
    day = np.exp(-((minutes % 1440 - 820) / 260) ** 2) + 0.3 * np.exp(-((minutes % 1440 - 480) / 90) ** 2)
    week = np.where(minutes // 1440 >= 5, 0.55, 1.0)
    rates = np.stack([14 + 90 * day * week, 9 + 60 * np.roll(day, 25) * week, 20 + 40 * day], axis=1)
    drawn = random.poisson(rates)
    drawn[random.integers(0, len(drawn), 14), random.integers(0, 3, 14)] += random.integers(300, 700, 14)
    drawn[4380:4520, 1] = 0
    return drawn.astype(np.uint16)


def station() -> np.ndarray:
    """Three masts, a record each ten minutes: the structure of a C program, and a bit that is stuck for a night."""
    record = np.dtype([('min', '<u4'), ('mast', 'u1'), ('temp', '>i2'), ('rain', '<u2'), ('ok', '?')], align=True)
    log = np.zeros(432 * 3, dtype=record)
    log['min'] = np.repeat(np.arange(432) * 10, 3)
    log['mast'] = np.tile([1, 2, 3], 432)
    day = 2 * np.pi * (log['min'] / 1440 - 0.4)
    log['temp'] = 80 + 75 * np.sin(day) - 9 * log['mast'] + random.normal(0, 4, len(log))
    wet = (log['min'] > 2300) & (log['min'] < 2900)
    log['rain'] = random.poisson(np.where(wet, 6, 0.05))
    log['ok'] = True
    stuck = (log['mast'] == 2) & (log['min'] >= 1300) & (log['min'] < 1900)
    log['temp'][stuck] += 2048
    return log


def frame() -> tuple:
    """A lamp over a tiled wall, as the memory of a camera, and the layout of the pixels in it."""
    height, width, stride, front = 96, 128, 144, 16
    y, x = np.mgrid[:height, :width]
    tiles = 46 + 26 * ((x // 16 + y // 16) % 2)
    lamp = 240 * np.exp(-(((x - 84) / 26) ** 2 + ((y - 34) / 24) ** 2))
    light = (tiles * (0.45 + 0.55 * y / height) + lamp + random.normal(0, 3, tiles.shape) + 12).clip(0, 255)
    memory = random.integers(0, 256, front + height * stride).astype(np.uint8)
    rows = memory[front:].reshape(height, stride)
    rows[::-1, :width] = light.astype(np.uint8)
    layout = {'format': 'B', 'itemsize': 1, 'shape': [height, width], 'strides': [-stride, 1],
              'offset': front + (height - 1) * stride}
    return memory, layout


np.save('cells.npy', cells())
np.save('counts.npy', counts())
np.save('station.npy', station())
memory, layout = frame()
memory.tofile('frame.raw')
with open('frame.raw.json', 'w', encoding='utf-8') as file:
    file.write(json.dumps(layout) + '\n')
