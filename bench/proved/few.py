#!/usr/bin/env python3
"""Prints a program that builds graphs nine times each, for the kit to prove and build: few.py FLOOR ..

A FLOOR is what the measuring program's `floor` prints. Of each the first 256 solids and the first 256 anchors are
taken, which stand in the program as numbers; with `--floor` those of one FLOOR are printed for the plain program. Put
what is printed into a copy of the repository as `crates/graph_bench/src/main.rt`, and beside it `src/small.rt`,
`specs/Small.antt`, `proofs/Sound.antt` and `proofs/small` of `floor_tests`, with `graph_bench` for `floor_tests` in
them and in `specs/Lib.antt` and `proofs/Lib.antt`, which name those files alone. With the line `graph_bench: plane_geom
sweep_lines line_arena visibility_graph` in `crates.txt` run `rt run` there.
"""
import sys

HEAD = '''//! Measures building graphs of floors of numbers: a program that is proved to be safe and to end.
#![tactic(auto)]

use crate::small::{Sides, small_floor};
use std::io;
use std::time::CpuClock;
use sweep_lines::all_lines;
use visibility_graph::Graph;

mod small;
'''
BUILD = '''
fn build(rt: &HostRuntime, rects: &[Sides], anchors: &[(i64, i64)]) -> io::Result<()> {
    let floor = small_floor(rt.alloc(), rects, anchors)?;
    for _ in 0..9 {
        let start = rt.thread_cpu_time()?;
        let lines = all_lines(rt.alloc(), &floor)?;
        let swept = rt.thread_cpu_time()?.saturating_sub(start).as_nanos() / 1000;
        let start = rt.thread_cpu_time()?;
        let graph = Graph::build(rt.alloc(), &floor)?;
        let built = rt.thread_cpu_time()?.saturating_sub(start).as_nanos() / 1000;
        println!(rt; "build lines={} places={} sweep_us={} build_us={}",
            lines.len(), graph.arena().places(), swept, built)?;
    }
    Ok(())
}
'''


def few(name):
    """The first solids and anchors of a floor, as tuples."""
    with open(name) as file:
        numbers = [int(word) for word in file.read().split()]
    begin = 2 + 4 * numbers[0]
    rects = list(zip(*[iter(numbers[1:begin - 1])] * 4))
    anchors = list(zip(*[iter(numbers[begin:])] * 2))
    return rects[:256], anchors[:256]


def rows(values):
    return ''.join(f'    ({", ".join(map(str, value))}),\n' for value in values)


def program(names):
    text, calls = HEAD, ''
    for number, name in enumerate(names):
        rects, anchors = few(name)
        text += f'\nconst RECTS_{number}: [Sides; {len(rects)}] = [\n{rows(rects)}];\n'
        text += f'\nconst ANCHORS_{number}: [(i64, i64); {len(anchors)}] = [\n{rows(anchors)}];\n'
        calls += f'    build(&rt, &RECTS_{number}, &ANCHORS_{number})?;\n'
    return f'{text}{BUILD}\nfn main(rt: HostRuntime) -> io::Result<()> {{\n{calls}    Ok(())\n}}\n'


if sys.argv[1:2] == ['--floor']:
    for values in few(sys.argv[2]):
        print(len(values))
        for value in values:
            print(*value)
else:
    print(program(sys.argv[1:]), end='')
