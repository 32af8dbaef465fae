"""A reader's walk through the README: its commands as they stand, its lines of Python, links, and its length."""
import glob
import os
import re
import subprocess
import sys

from tool_cases import TOP, expect, is_built, skip, surfaces, volume_of

README = os.path.join(TOP, 'README.md')


def read(name):
    with open(name, encoding='utf-8') as file:
        return file.read()


def blocks(text):
    """The commands of the README, a list of lines for each indented block."""
    found = re.findall(r'(?:^    \S.*\n)+', text, re.M)
    return [[line.strip() for line in block.splitlines()] for block in found]


def fenced(text, language):
    return re.findall(rf'^```{language}\n(.*?)^```$', text, re.S | re.M)


def a_place_like_this(work):
    """A folder with links to all that is here, where files may be written."""
    place = os.path.join(work, 'walk')
    os.makedirs(place)
    for name in os.listdir(TOP):
        if not name.startswith('.'):
            os.symlink(os.path.join(TOP, name), os.path.join(place, name))
    return place


def walk(work, text):
    if not is_built():
        return
    place = a_place_like_this(work)
    for block in blocks(text):
        for line in block:
            words = ['bash', '-c', f'set -o pipefail; {line}']
            done = subprocess.run(words, cwd=place, capture_output=True, timeout=600, check=False)
            expect(f'`{line}`: {done.returncode}, {done.stderr.decode()!r}', done.returncode == 0)
            if line.startswith('./delaunay mesh <'):
                stored = read(os.path.join(TOP, 'examples/cube.txt'))
                expect(f'`{line}` writes what is stored', done.stdout.decode() == stored)
    volume, mesh = volume_of(os.path.join(place, 'surface.ply'))
    low, high = mesh.points.min(axis=0), mesh.points.max(axis=0)
    expect(f'the surface lies where the cloud does: {low}, {high}', low[0] > 5.7 and high[0] < 9.3 and volume > 0)
    expect('the page is there', 'type="range"' in read(os.path.join(place, 'page.html')))
    volume, mesh = volume_of(os.path.join(place, 'part.stl'))
    expect(f'the part encloses {volume}', volume > 0)
    triangles = surfaces.joined(mesh.points, mesh.cells_dict['triangle'].tolist())
    expect('the part is manifold', surfaces.is_manifold(triangles))
    expect('the filtration is there', os.path.getsize(os.path.join(place, 'scan.tree')) > 100000)
    from_python(place, text)


def from_python(place, text):
    if not glob.glob(os.path.join(TOP, 'python/hanskup/*.so')):
        skip('python/build has not built the library for Python')
        return
    world = {**os.environ, 'PYTHONPATH': os.path.join(TOP, 'python')}
    for code in fenced(text, 'python'):
        done = subprocess.run([sys.executable, '-c', code], cwd=place, env=world, capture_output=True, timeout=600,
                              check=False)
        expect(f'the lines of Python: {done.stderr.decode()}', done.returncode == 0)
        told = re.findall(r'# -> (.*)$', code, re.M)
        expect(f'they print what stands behind them: {done.stdout.decode()}, {told}',
               told and done.stdout.decode().splitlines() == told)


def slug(heading):
    """The anchor of a heading, as GitHub makes it."""
    return re.sub(r'[^\w\- ]', '', heading.strip().lower()).replace(' ', '-')


def links():
    """Each relative link of a document leads to a file that is there, and to a heading that it has."""
    documents = [name for name in glob.glob(os.path.join(TOP, '**/*.md'), recursive=True) if '/out/' not in name]
    for name in documents:
        told = os.path.relpath(name, TOP)
        for link in re.findall(r'\]\(([^)\s]+)\)', re.sub(r'^```.*?^```$', '', read(name), flags=re.S | re.M)):
            if re.match(r'[a-z]+:', link):
                continue
            path, _, anchor = link.partition('#')
            target = os.path.normpath(os.path.join(os.path.dirname(name), path)) if path else name
            expect(f'{told}: {link} is there', os.path.exists(target))
            if anchor and target.endswith('.md') and os.path.exists(target):
                heads = [slug(head) for head in re.findall(r'^#+ (.*)$', read(target), re.M)]
                expect(f'{told}: {link} is a heading', anchor in heads)


def made(*words):
    return subprocess.run([os.path.join(TOP, 'tools/make'), *words], capture_output=True, check=False)


def run(work):
    text = read(README)
    lines = text.splitlines()
    expect(f'the README has at most 110 lines: {len(lines)}', len(lines) <= 110)
    expect('its lines have at most 120 columns', all(len(line) <= 120 for line in lines))
    helped = subprocess.run([os.path.join(TOP, 'delaunay'), '--help'], capture_output=True, check=False).stdout.decode()
    first = '\n'.join(lines[:40])
    for word in ('Linux', 'licence', 'floats', 'scans', 'use something else if', 'pip install', '# ->', 'build it'):
        expect(f'the first screen tells of {word}', word.lower() in first.lower())
    for row in re.findall(r'^\| (`[a-z]+.*?) \|', text, re.M):
        for word in re.findall(r'`([a-z]+)', row):
            expect(f'{word} is in ./delaunay --help', f'\n  {word} ' in helped)
    for name in ('README.md', 'docs/SPEED.md'):
        expect(f'each figure of {name} is there', 'FILL' not in read(os.path.join(TOP, name)))
    words = [word for word in read(os.path.join(TOP, 'docs/SPEED.md')).split() if re.search(r'[A-Za-z]', word)]
    expect(f'docs/SPEED.md has at most 900 words, figures aside: {len(words)}', len(words) <= 900)
    checked = made('decisions', '--check')
    expect(f'each decision has a number: {checked.stdout.decode()}', checked.returncode == 0)
    expect('the owners are those of crates.txt', made('owners').stdout.decode() == read(f'{TOP}/.github/CODEOWNERS'))
    links()
    walk(work, text)
