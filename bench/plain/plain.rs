//! A plain program with vectors: the same two sweeps, and crossings linked along their lines.
//!
//! `plain FLOOR TURNS` reads a floor as the measuring program's `floor` prints it, and prints for each turn the lines,
//! the crossings, and the thread's processor time of the sweeps and of all, in microseconds. No hash map is made: lines
//! stand by rising coordinate in vectors, a crossing has links of 32 bits, and is found by its lines alone.

use std::collections::BTreeSet;

const START: i64 = -2_000_000_000;
const END: i64 = 2_000_000_000;
const NONE: u32 = u32::MAX;

#[derive(Clone, Copy)]
struct Rect {
    left: i64,
    top: i64,
    right: i64,
    bottom: i64,
}

/// A rectangle seen along one axis: across from `near` to `far`, along from `lo` to `hi`.
#[derive(Clone, Copy)]
struct Bar {
    near: i64,
    far: i64,
    lo: i64,
    hi: i64,
}

#[derive(Clone, Copy)]
struct Line {
    at: i64,
    lo: i64,
    hi: i64,
}

#[derive(Clone, Copy)]
enum Kind {
    End(usize),
    Anchor(i64),
    Begin(usize),
}

fn sweep(bars: &[Bar], anchors: &[(i64, i64)]) -> Vec<Line> {
    let mut marks: Vec<(i64, Kind)> = Vec::with_capacity(2 * bars.len() + anchors.len());
    for (number, bar) in bars.iter().enumerate() {
        marks.push((bar.near, Kind::Begin(number)));
        marks.push((bar.far, Kind::End(number)));
    }
    marks.extend(anchors.iter().map(|&(at, along)| (at, Kind::Anchor(along))));
    marks.sort_by_key(|mark| mark.0);
    let mut open: BTreeSet<(i64, usize)> = BTreeSet::new();
    let mut lines = Vec::new();
    let mut rest = marks.as_slice();
    while let Some(&(at, _)) = rest.first() {
        let (here, later) = rest.split_at(rest.partition_point(|mark| mark.0 <= at));
        for (_, kind) in here {
            if let Kind::End(number) = *kind {
                open.remove(&(bars[number].lo, number));
            }
        }
        let mut lo = START;
        for &(_, number) in &open {
            push_if_kept(at, lo, bars[number].lo, bars, here, &mut lines);
            lo = lo.max(bars[number].hi);
        }
        push_if_kept(at, lo, END, bars, here, &mut lines);
        for (_, kind) in here {
            if let Kind::Begin(number) = *kind {
                open.insert((bars[number].lo, number));
            }
        }
        rest = later;
    }
    lines
}

fn push_if_kept(at: i64, lo: i64, hi: i64, bars: &[Bar], here: &[(i64, Kind)], lines: &mut Vec<Line>) {
    let keeps = |kind: &Kind| match *kind {
        Kind::Anchor(along) => lo <= along && along <= hi,
        Kind::Begin(number) | Kind::End(number) => {
            lo < hi && bars[number].lo <= hi && lo <= bars[number].hi
        }
    };
    if lo <= hi && here.iter().any(|(_, kind)| keeps(kind)) {
        lines.push(Line { at, lo, hi });
    }
}

/// A crossing, with the next one in each direction: East, South, West, North.
struct Crossing {
    point: (i64, i64),
    lines: (u32, u32),
    next: [u32; 4],
}

fn crossings(vertical: &[Line], horizontal: &[Line]) -> Vec<Crossing> {
    let mut found: Vec<Crossing> = Vec::new();
    let mut lowest = vec![NONE; vertical.len()];
    for (h, line) in horizontal.iter().enumerate() {
        let begin = vertical.partition_point(|other| other.at < line.lo);
        let mut west = NONE;
        for (v, other) in vertical.iter().enumerate().skip(begin) {
            if other.at > line.hi {
                break;
            }
            if other.lo > line.at || line.at > other.hi {
                continue;
            }
            let (id, north) = (found.len() as u32, lowest[v]);
            if west != NONE {
                found[west as usize].next[0] = id;
            }
            if north != NONE {
                found[north as usize].next[1] = id;
            }
            found.push(Crossing {
                point: (other.at, line.at),
                lines: (v as u32, h as u32),
                next: [NONE, NONE, west, north],
            });
            lowest[v] = id;
            west = id;
        }
    }
    found
}

/// The thread's processor time, in nanoseconds.
fn clock() -> u64 {
    #[repr(C)]
    struct Time {
        seconds: i64,
        nanos: i64,
    }
    unsafe extern "C" {
        fn clock_gettime(id: i32, time: *mut Time) -> i32;
    }
    let mut time = Time { seconds: 0, nanos: 0 };
    unsafe { clock_gettime(3, &mut time) };
    time.seconds as u64 * 1_000_000_000 + time.nanos as u64
}

fn main() {
    let words: Vec<String> = std::env::args().collect();
    let text = std::fs::read_to_string(&words[1]).unwrap();
    let turns: usize = words[2].parse().unwrap();
    let mut numbers = text.split_whitespace().map(|word| word.parse::<i64>().unwrap());
    let mut take = || numbers.next().unwrap();
    let count = take();
    let solids: Vec<Rect> = (0..count)
        .map(|_| Rect { left: take(), top: take(), right: take(), bottom: take() })
        .collect();
    let count = take();
    let anchors: Vec<(i64, i64)> = (0..count).map(|_| (take(), take())).collect();
    for _ in 0..turns {
        let start = clock();
        let tall: Vec<Bar> = solids
            .iter()
            .map(|r| Bar { near: r.left, far: r.right, lo: r.top, hi: r.bottom })
            .collect();
        let vertical = sweep(&tall, &anchors);
        let wide: Vec<Bar> = solids
            .iter()
            .map(|r| Bar { near: r.top, far: r.bottom, lo: r.left, hi: r.right })
            .collect();
        let turned: Vec<(i64, i64)> = anchors.iter().map(|&(x, y)| (y, x)).collect();
        let horizontal = sweep(&wide, &turned);
        let swept = clock() - start;
        let found = crossings(&vertical, &horizontal);
        let built = clock() - start;
        // What is read here is not left out by the compiler.
        let links = found.iter().flat_map(|c| c.next).filter(|&next| next != NONE).count();
        let sum = found.iter().fold(0, |sum: i64, c| sum.wrapping_add(c.point.0 ^ c.point.1 ^ c.lines.0 as i64 ^ c.lines.1 as i64));
        println!(
            "plain lines={} crossings={} links={} sum={} sweep_us={} build_us={}",
            vertical.len() + horizontal.len(),
            found.len(),
            links,
            sum & 1,
            swept / 1000,
            built / 1000
        );
    }
}
