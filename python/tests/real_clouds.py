"""Clouds of real coordinates, of the kinds that people have: as functions of a count and of a generator of numbers."""
import numpy as np


def uniform(count, random):
    return random.uniform(size=(count, 3))


def sphere(count, random):
    points = random.normal(size=(count, 3))
    return points / np.linalg.norm(points, axis=1)[:, None] * 7 + [1e4, -2e4, 30]


def terrain(count, random):
    """Hills of 20 m on a square kilometre, at coordinates as a survey has them."""
    x, y = random.uniform(size=(2, count)) * 1000
    return np.column_stack([x + 5e5, y + 4e6, 20 * np.sin(x / 50) * np.cos(y / 70)])


def wing(count, random):
    """Layers of 1e-4 around a long thin ellipse, as a mesh of a boundary layer has them."""
    turn = random.uniform(0, 2 * np.pi, count)
    around = np.column_stack([np.cos(turn), 0.1 * np.sin(turn), random.uniform(size=count)])
    return around * (1 + random.exponential(1e-4, size=count))[:, None]


def clusters(count, random):
    middles = random.uniform(size=(10, 3)) * 10
    return middles[random.integers(0, 10, count)] + random.normal(size=(count, 3)) * 0.01


def tails(count, random):
    """Heavy tails: most points lie together, and a few very far."""
    return random.standard_t(1.2, size=(count, 3))


KINDS = {'uniform': uniform, 'sphere': sphere, 'terrain': terrain, 'wing': wing, 'clusters': clusters, 'tails': tails}


def each(count, seeds=(1,)):
    """Of each seed and kind the name, the cloud and the generator, to draw more by."""
    for seed in seeds:
        for name, made in KINDS.items():
            random = np.random.default_rng(seed)
            yield f'{name} of seed {seed}', made(count, random), random
