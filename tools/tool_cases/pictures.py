"""Cases of the pictures of tools/draw, by their pixels; its page has cases of its own."""
import os
import re
import subprocess

from tool_cases import CASES, PROGRAM, expect, is_built, refused, tool

CUBE = os.path.join(CASES, '04-cube.shape')
# Colours of pictures whatever their shade: blue triangles, red ones.
BLUE, RED = (0.24, 0.49, 0.65), (0.82, 0.29, 0.36)


def share_of(name, colour):
    """Which share of a picture has a colour, in light and in shade."""
    import numpy as np
    from matplotlib import image
    pixels = image.imread(name)[..., :3].reshape(-1, 3)
    lengths = np.linalg.norm(pixels, axis=1)
    along = pixels @ np.array(colour) / np.linalg.norm(colour)
    return float(((along > 0.995 * lengths) & (lengths > 0.2) & (np.ptp(pixels, axis=1) > 0.1)).mean())


def pictures(work):
    status, out, err = tool('draw', CUBE, os.path.join(work, 'cube.png'))
    names = out.decode().split()
    expect(f'a picture for each radius: {err}', status == 0 and len(names) == 4 and all(map(os.path.exists, names)))
    expect('the boundary is blue', share_of(names[3], BLUE) > 0.1 and share_of(names[3], RED) < 0.001)
    expect('where no cell is admitted the singular triangles are drawn, red', share_of(names[2], RED) > 0.1)
    name = os.path.join(work, 'faces.png')
    status, out, err = tool('draw', CUBE, name, '--what', 'faces', '--radius', '3')
    expect(f'faces with their kinds: {err}', status == 0 and share_of(name, BLUE) > 0.1)
    status, out, err = tool('draw', CUBE, name, '--what', 'hull')
    expect(f'the hull: {err}', status == 0 and share_of(name, BLUE) > 0.1)
    status, out, err = tool('draw', CUBE, name, '--what', 'points')
    expect(f'the points alone: {err}', status == 0 and share_of(name, BLUE) < 0.01)
    for suffix, mark in (('svg', b'<svg'), ('pdf', b'%PDF')):
        name = os.path.join(work, f'one.{suffix}')
        status, out, err = tool('draw', CUBE, name, '--radius', '3')
        expect(f'one radius as {suffix}: {err}', status == 0 and mark in open(name, 'rb').read())
    name, part = os.path.join(work, 'part.png'), os.path.join(CASES, '01-tetrahedron.boundary_48')
    status, out, err = tool('draw', part, name)
    expect(f'a picture of a surface: {err}', status == 0 and share_of(name, BLUE) > 0.05)
    refused('a radius of a surface', 'draw', part, name, '--radius', '3', said='--radius')
    refused('a suffix that is no picture', 'draw', CUBE, os.path.join(work, 'one.txt'), said='one.txt')
    refused('a radius that is not there', 'draw', CUBE, name, '--radius', '9', said='9')
    refused('a report that is cut', 'draw', '-', name, given=open(CUBE, 'rb').read()[:300], said='line')


def of_clouds(work):
    """A picture of a cloud by one command: at a radius, or at one that is found, both in the units of the cloud."""
    if not is_built():
        return
    cloud = os.path.join(work, 'scan.xyz')
    with open(cloud, 'wb') as file:
        file.write(tool('example-surface')[1])
    for words, radius in ((('--radius', '0.3'), '0.3'), ((), None), (('--what', 'points'), None)):
        name = os.path.join(work, 'scan.svg')
        status, out, err = tool('draw', cloud, name, *words)
        text = open(name, encoding='utf-8').read() if status == 0 else ''
        said = re.findall(r'<!-- (.*?) -->', text)[-1:]
        expect(f'a picture of a cloud, {words}: {err}', status == 0 and out.decode().strip() == name and
               err.count('3000 points') == 1)
        wanted = f'radius {radius}' if radius else 'radius 0.' if not words else '3000 points'
        expect(f'its title is in units of the cloud: {said}', said and said[0].startswith(wanted))
    report, placing = os.path.join(work, 'scan.out'), os.path.join(work, 'scan.json')
    edits = tool('points', cloud, '--radius', '0.3', '--radius', '0.5', '--placing', placing)[1]
    with open(report, 'wb') as file:
        subprocess.run([PROGRAM, 'shape'], input=edits, stdout=file, check=True)
    status, out, err = tool('draw', report, os.path.join(work, 'scan.png'), '--placing', placing)
    names = [os.path.basename(name) for name in out.decode().split()]
    expect(f'pictures are named by their radii: {names}, {err}', names == ['scan-0.3.png', 'scan-0.5.png'])
    refused('a radius that is none', 'draw', cloud, os.path.join(work, 'x.png'), '--radius', 'wide', said='wide')


def run(work):
    pictures(work)
    of_clouds(work)
