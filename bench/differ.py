#!/usr/bin/env python3
"""Holds the searches and the bundles of nudging against an independent program, on small random inputs.

    differ.py PROGRAM ORACLE scenes COUNT [SEED]     connectors of random scenes, read from diagrams
    differ.py PROGRAM ORACLE tasks COUNT [SEED]      random tasks, most with ends along one line and costs that tie
    differ.py PROGRAM ORACLE phases COUNT [SEED]     bundles of both phases of random scenes, and of any paths

PROGRAM is the measuring program, ORACLE the folder of the independent one. Each difference is printed, with its
input; the last line counts. The status is 1 where there is a difference.
"""
import os
import random
import subprocess
import sys
import tempfile
from collections import Counter

PROGRAM, ORACLE, WHAT, COUNT = os.path.abspath(sys.argv[1]), sys.argv[2], sys.argv[3], int(sys.argv[4])
SEED = int(sys.argv[5]) if len(sys.argv) > 5 else 1
sys.path.insert(0, ORACLE)

import nudge  # noqa: E402
import random_scenes  # noqa: E402
import walks  # noqa: E402
from geom import DIRS, has_inside, move  # noqa: E402
from lines import Graph  # noqa: E402
from scene import Choice, Edge, Floor, Node, Pin, Scene, Solid, Task  # noqa: E402

BATCH = 250


def run(*words):
    done = subprocess.run([PROGRAM, *words], capture_output=True, text=True)
    if done.returncode:
        sys.exit('%s ended with %d: %s' % (' '.join(words[:2]), done.returncode, done.stderr))
    return done.stdout.splitlines()


def text_of(number, route):
    """A route as the program prints it."""
    if route is None:
        return '%d none' % number
    points = ' '.join('%d,%d' % p for p in route.points)
    return '%d %d %d %d %s' % (number, route.start, route.end, route.cost, points)


def row_scene(rng):
    """Boxes in one row or column, whose pins lie on one line, with costs that tie."""
    across = rng.random() < 0.5
    buffer, penalty = 1, rng.choice([1, 1, 2, 3, 4])
    nodes, at = [], 0
    for number in range(1, rng.randint(2, 5) + 1):
        half_w, half_h = rng.choice([0, 0, 1, 2]), rng.choice([0, 0, 1, 2])
        long = half_w if across else half_h
        at += long + buffer
        pins = tuple(Pin(1, rng.choice([0, 0, rng.randint(-half_w, half_w)]),
                         rng.choice([0, 0, rng.randint(-half_h, half_h)]),
                         tuple(d for d in DIRS if rng.random() < 0.6) or (rng.randrange(4),),
                         rng.choice([0, 0, 0, 1, 2, 3]))
                     for _ in range(rng.randint(0, 3)))
        x, y = (at, 0) if across else (0, at)
        nodes.append(Node(number, x, y, half_w, half_h, rng.random() < 0.05, pins))
        at += long + buffer + rng.choice([0, 0, 1, 2])
    edges = []
    for number in range(1, rng.randint(1, 4) + 1):
        source, target = rng.sample(nodes, 2)
        via = tuple((rng.randint(-3, at + 1), rng.choice([0, 0, -2, 2])) if across
                    else (rng.choice([0, 0, -2, 2]), rng.randint(-3, at + 1))
                    for _ in range(rng.choice([0, 0, 0, 1, 2])))
        edges.append(Edge(number, source.id, target.id, 1 if source.pins else 0,
                          1 if target.pins else 0, via, None, rng.randint(1, 4)))
    return Scene(tuple(nodes), tuple(edges), penalty, buffer, 1, len(edges) + 1)


def scene_of(seed):
    rng = random.Random(seed)
    kind = rng.random()
    if kind < 0.55:
        return random_scenes.tiny_scene(rng)
    if kind < 0.85:
        return row_scene(rng)
    return random_scenes.busy_scene(rng)


def scenes(seen):
    for begin in range(SEED, SEED + COUNT, BATCH):
        batch = range(begin, min(begin + BATCH, SEED + COUNT))
        with tempfile.TemporaryDirectory() as folder:
            want, files = [], []
            for seed in batch:
                scene = scene_of(seed)
                name = '%s/%d.gml' % (folder, seed)
                with open(name, 'wb') as file:
                    file.write(random_scenes.diagram_of(scene))
                files.append(name)
                want.append((seed, None, name, scene))
                for number, route in walks.answers(scene):
                    want.append((seed, number, text_of(number, route), scene))
                    seen['connectors'] += 1
                    seen['without a route'] += route is None
            got = run('answers', *files)
            hold(seen, want, got, lambda it: random_scenes.diagram_of(it).decode())


def hold(seen, want, got, shown):
    if len(want) != len(got):
        sys.exit('%d lines, and %d are wanted' % (len(got), len(want)))
    for (seed, number, line, source), mine in zip(want, got):
        if line != mine:
            seen['DIFFERENT'] += 1
            print('seed %d, number %s:\n  oracle  %s\n  program %s\n%s' % (seed, number, line, mine, shown(source)))


def choices_of(rng, node, solids, line, cost):
    """Some choices of a node: pins along the line, or near it, with ports that lie in none of its solids."""
    found, ports = [], {}
    for _ in range(rng.randint(1, 5)):
        pin = line(rng.randint(0, 6)) if rng.random() < 0.8 else (rng.randint(-1, 6), rng.randint(-1, 6))
        if found and rng.random() < 0.3:
            pin = rng.choice(found).pin
        d = rng.randrange(4)
        port = ports.setdefault((pin, d), move(pin, d, rng.choice([1, 1, 1, 2, 3])))
        if any(s.node == node and has_inside(s.rect, port) for s in solids):
            continue
        found.append(Choice(node, pin, d, port, cost()))
    return found


def task_of(seed):
    rng = random.Random(seed)
    flat, fixed = rng.random() < 0.5, rng.randint(0, 4)

    def line(at):
        return (at, fixed) if flat else (fixed, at)

    most = rng.choice([0, 0, 1, 2, 4])

    def cost():
        return rng.randint(0, most)

    solids = []
    for _ in range(rng.choice([0, 1, 1, 2, 2, 3, 4])):
        left, top = rng.randint(-2, 6), rng.randint(-2, 6)
        solids.append(Solid(rng.choice([1, 2, 3, 3, 4]),
                            (left, top, left + rng.randint(1, 4), top + rng.randint(1, 4))))
    starts = choices_of(rng, 1, solids, line, cost)
    ends = choices_of(rng, 2, solids, line, cost)
    via = []
    for _ in range(rng.choice([0, 0, 0, 1, 1, 2, 3, 4])):
        kind = rng.random()
        if kind < 0.25 and starts + ends:
            via.append(rng.choice(starts + ends).port)
        elif kind < 0.35 and via:
            via.append(rng.choice(via))
        elif kind < 0.8:
            via.append(line(rng.randint(-1, 7)))
        else:
            via.append((rng.randint(-1, 7), rng.randint(-1, 7)))
    return solids, Task(starts, ends, via, rng.choice([0, 1, 1, 2, 2, 3, 5]))


def numbers_of(solids, task):
    words = [len(solids)]
    for solid in solids:
        words += [solid.node, *solid.rect]
    for choices in (task.starts, task.ends):
        words.append(len(choices))
        for c in choices:
            words += [c.node, *c.pin, c.dir, *c.port, c.cost]
    words.append(len(task.via))
    for p in task.via:
        words += p
    return words + [task.penalty]


def answer_of(solids, task):
    anchors = [c.port for c in task.starts + task.ends] + task.via
    return walks.find_first(Graph(Floor(solids, anchors)), solids, task)


def tasks(seen):
    for begin in range(SEED, SEED + COUNT, BATCH):
        batch = range(begin, min(begin + BATCH, SEED + COUNT))
        want, words = [], [len(batch)]
        for number, seed in enumerate(batch):
            solids, task = task_of(seed)
            words += numbers_of(solids, task)
            route = answer_of(solids, task)
            want.append((seed, number, text_of(number, route), (solids, task)))
            seen['tasks'] += 1
            seen['without a route'] += route is None
        hold(seen, want, run_on(words, 'tasks'), str)


def run_on(words, verb):
    with tempfile.NamedTemporaryFile('w', suffix='.txt') as file:
        file.write(' '.join(map(str, words)))
        file.flush()
        return run(verb, file.name)


def phase_numbers(solids, paths, way, wanted):
    words = [way, wanted, len(solids)]
    for solid in solids:
        words += [solid.node, *solid.rect]
    words.append(len(paths))
    for path in paths:
        words += [path.edge, path.weight, *path.source_port, *path.target_port, len(path.via)]
        for p in path.via:
            words += p
        words.append(path.count())
        for run in path.runs():
            words += [run.place, run.way, run.heading, run.at, run.lo, run.hi]
    return words


def phase_lines(solids, paths, way, wanted):
    lines = []
    for bundle, members in nudge.bundles_of(solids, paths, way, wanted):
        items = [' %d.%d:%d,%d,%d,%d' % (path.edge, k, item.want, item.lo, item.hi, item.weight)
                 for (path, k), item in zip(members, bundle.items)]
        rules = [' %d%s%d' % (r.left, 's' if r.spaced else 'j', r.right) for r in bundle.rules]
        lines.append('bundle %d%s |%s' % (bundle.wanted, ''.join(items), ''.join(rules)))
    return lines


def stair(rng, edge):
    """A path of any shape: stairs, bends to either side, doublings back at checkpoints, runs of length 0."""
    points, headings, via = [(rng.randint(0, 12), rng.randint(0, 12))], [rng.randrange(4)], []
    points.append(move(points[-1], headings[0], rng.randint(2, 5)))
    forward = rng.choice([(1, 3), (0, 3), (0, 1), (1, 2)])
    for _ in range(rng.randint(1, 7)):
        kind, last = rng.random(), headings[-1]
        turns = [(last + 1) % 4, (last + 3) % 4]
        if kind < 0.1:
            via.append(points[-1])
            d = (last + 2) % 4
        elif kind < 0.7:
            d = next((t for t in turns if t in forward), turns[0])
        else:
            d = rng.choice(turns)
        headings.append(d)
        points.append(move(points[-1], d, rng.choice([0, 1, 1, 2, 2, 3, 4])))
    points[-1] = move(points[-1], headings[-1], 2)
    for _ in range(rng.choice([0, 0, 0, 1, 2])):
        k = rng.randrange(1, len(points))
        via.append(move(points[k - 1], headings[k - 1], rng.randint(0, nudge.distance(points[k - 1], points[k]))))
    source = move(points[0], headings[0], rng.randint(1, nudge.distance(points[0], points[1])))
    target = move(points[-1], (headings[-1] + 2) % 4, rng.randint(1, nudge.distance(points[-2], points[-1])))
    path = nudge.Path(edge, points, source, target, via, rng.randint(1, 4))
    path.headings = headings
    return path


def stairs(rng):
    """Some such paths, solids, and what is wanted between runs."""
    paths = [stair(rng, edge) for edge in range(1, rng.randint(1, 5) + 1)]
    solids = []
    for node in range(1, rng.choice([0, 0, 1, 2, 3]) + 1):
        left, top = rng.randint(-2, 14), rng.randint(-2, 14)
        solids.append(Solid(node, (left, top, left + rng.randint(1, 4), top + rng.randint(1, 4))))
    return solids, paths, rng.choice([0, 1, 2, 3, 5])


def phase_input(seed):
    """Solids, paths and the wanted distance: of a scene's first routes, or of any paths."""
    rng = random.Random(seed)
    if seed % 2:
        return stairs(rng)
    scene = (random_scenes.busy_scene if seed % 4 else random_scenes.tiny_scene)(rng)
    return scene.solids(), nudge.paths_of(scene, walks.answers(scene)), scene.nudge


def phases(seen):
    made, seed = 0, SEED
    while made < COUNT:
        want, words, number = [], [0], 0
        while made < COUNT and number < 2 * BATCH:
            solids, paths, wanted = phase_input(seed)
            seed += 1
            try:
                for way in (0, 1) if paths else ():
                    lines = phase_lines(solids, paths, way, wanted)
                    words += phase_numbers(solids, paths, way, wanted)
                    want += [(seed - 1, number, line, (solids, way))
                             for line in ['phase %d' % number, *lines]]
                    seen['phases'] += 1
                    seen['bundles'] += len(lines)
                    seen['rules with the wanted distance'] += ''.join(line.split('|')[1] for line in lines).count('s')
                    seen['rules of one route'] += ''.join(line.split('|')[1] for line in lines).count('j')
                    number, made = number + 1, made + 1
                    if way == 0:
                        nudge.phase(solids, paths, way, wanted)
            except AssertionError:
                seen['paths that may not stand where they do'] += 1
        words[0] = number
        hold(seen, want, run_on(words, 'phases'), str)


if __name__ == '__main__':
    seen = Counter()
    {'scenes': scenes, 'tasks': tasks, 'phases': phases}[WHAT](seen)
    for name in sorted(seen):
        print('  %s: %d' % (name, seen[name]))
    print('%s %d from seed %d: %d different' % (WHAT, COUNT, SEED, seen['DIFFERENT']))
    sys.exit(1 if seen['DIFFERENT'] else 0)
