"""A protein to its pockets: what atom centres enclose and a probe cannot leave, and its picture."""
import sys

import numpy as np

import hanskup

i = np.arange(400) + 0.5  # atom centres spread evenly over a sphere
height, turn = 1 - i / 200, np.pi * (1 + 5 ** 0.5) * i
ring = np.sqrt(1 - height ** 2)
shell = 9 * np.column_stack([ring * np.cos(turn), ring * np.sin(turn), height])
sets = {'closed shell': shell, 'open shell': shell[height <= 0.7],
        'two shells': np.concatenate([shell, shell + [30, 0, 0]])}
voids = {name: hanskup.delaunay(atoms).alpha(1.8).voids() for name, atoms in sets.items()}
counts = {name: len(np.unique(found.numbers)) for name, found in voids.items()}
print(counts)
if __name__ == '__main__' and len(sys.argv) > 1:
    from matplotlib import pyplot
    atoms, (cells, numbers) = sets['two shells'], voids['two shells']
    pyplot.figure(figsize=(6, 3)).add_subplot(aspect='equal')
    pyplot.scatter(*atoms[abs(atoms[:, 1]) < 1][:, [0, 2]].T, s=120, color='lightgray')  # a slice of the atoms
    pyplot.scatter(*atoms[cells].mean(axis=1)[:, [0, 2]].T, s=3, c=numbers, cmap='cool')  # middles of cells
    pyplot.savefig(sys.argv[1], bbox_inches='tight')
