// Compares the calculator with an independent implementation on random images.
// usage: compare [--seed N] [--images N]
mod graph;
mod images;
mod runs;

use graph::Scope;
use images::{Random, Size};
use runs::{Line, Measure, SECTION};

#[repr(C)]
#[derive(Clone, Copy, PartialEq, Debug)]
struct RawLine {
    kind: u8,
    a: u16,
    b: u16,
}

extern "C" {
    fn naglveth_cycles(image: *const u8, image_length: usize, work: *mut u64, work_length: usize, trail: *mut RawLine, trail_length: usize, bound: *mut u64) -> u8;
    fn naglveth_stack(image: *const u8, image_length: usize, work: *mut u16, work_length: usize, trail: *mut RawLine, trail_length: usize, bound: *mut u16) -> u8;
}

// What the tables hold before a call.
const UNTOUCHED: RawLine = RawLine { kind: 9, a: 99, b: 999 };
const UNTOUCHED_COST: u64 = 7777;

struct Answer {
    status: u8,
    bound: u64,
    work: Vec<u64>,
    trail: Vec<RawLine>,
}

// The calculator, under one measure, with tables of these lengths.
fn calculate(m: Measure, image: &[u8], work: usize, trail: usize) -> Answer {
    let mut lines = vec![UNTOUCHED; trail];
    if m == Measure::Cycles {
        let mut costs = vec![UNTOUCHED_COST; work];
        let mut bound = 0;
        let status = unsafe { naglveth_cycles(image.as_ptr(), image.len(), costs.as_mut_ptr(), work, lines.as_mut_ptr(), trail, &mut bound) };
        Answer { status, bound, work: costs, trail: lines }
    } else {
        let mut costs = vec![UNTOUCHED_COST as u16; work];
        let mut bound = 0;
        let status = unsafe { naglveth_stack(image.as_ptr(), image.len(), costs.as_mut_ptr(), work, lines.as_mut_ptr(), trail, &mut bound) };
        Answer { status, bound: bound as u64, work: costs.into_iter().map(u64::from).collect(), trail: lines }
    }
}

// The refusal that comes before any search, by the plain words.
fn early(image: &[u8], work: usize, trail: usize) -> Result<Vec<Scope>, u8> {
    let graph = graph::open(image)?;
    if work < 128 {
        return Err(41);
    }
    if let Some(rule) = graph::broken(&graph) {
        return Err(rule);
    }
    if trail < SECTION * graph.len() {
        return Err(42);
    }
    Ok(graph)
}

fn untouched(a: &Answer) -> bool {
    a.work.iter().all(|c| *c == UNTOUCHED_COST) && a.trail.iter().all(|l| *l == UNTOUCHED)
}

// Does the calculator answer as the plain words say? None where there are too many walks to look at.
fn agrees(m: Measure, image: &[u8], work: usize, trail: usize) -> Option<Result<u8, String>> {
    let answer = calculate(m, image, work, trail);
    let graph = match early(image, work, trail) {
        Ok(graph) => graph,
        Err(number) if answer.status != number => return Some(Err(format!("refused {} in place of {number}", answer.status))),
        Err(_) if !untouched(&answer) => return Some(Err("a refusal changed a table".into())),
        Err(number) => return Some(Ok(number)),
    };
    let bounds = runs::bounds(m, &graph)?;
    let status = if bounds[0].is_some() { 0 } else { 43 };
    if answer.status != status {
        return Some(Err(format!("status {} in place of {status}", answer.status)));
    }
    if status == 0 && Some(answer.bound) != bounds[0] {
        return Some(Err(format!("bound {} in place of {:?}", answer.bound, bounds[0])));
    }
    for i in 0..graph.len() {
        if answer.work[i] != bounds[i].unwrap_or(0) {
            return Some(Err(format!("place {i} has {} in place of {:?}", answer.work[i], bounds[i])));
        }
        let lines: Vec<Line> = answer.trail[SECTION * i..SECTION * (i + 1)].iter().map(|l| (l.kind, l.a, l.b)).collect();
        if let Err(why) = runs::section_right(m, &graph, i, &lines, &bounds) {
            return Some(Err(format!("section {i}: {why}")));
        }
    }
    if answer.trail[SECTION * graph.len()..].iter().any(|l| *l != UNTOUCHED) {
        return Some(Err("a line behind the sections changed".into()));
    }
    Some(Ok(status))
}

fn one_image(r: &mut Random) -> Vec<u8> {
    let size = match r.within(0, 9) {
        0 => Size { scopes: 16, nodes: 32, edges: 96, passes: 40 },
        1 | 2 => Size { scopes: 16, nodes: 12, edges: 30, passes: 9 },
        _ => Size { scopes: 4, nodes: 6, edges: 12, passes: 6 },
    };
    let mut graph = images::graph(r, size);
    if r.one_in(4) {
        images::spoil(r, &mut graph);
    }
    let mixed = r.one_in(2);
    let mut image = images::image(r, &graph, mixed);
    if r.one_in(5) {
        images::damage(r, &mut image);
    }
    image
}

fn number(arguments: &[String], name: &str, otherwise: u64) -> u64 {
    let at = arguments.iter().position(|a| a == name);
    at.and_then(|i| arguments.get(i + 1)).and_then(|v| v.parse().ok()).unwrap_or(otherwise)
}

fn main() {
    let arguments: Vec<String> = std::env::args().collect();
    let seed = number(&arguments, "--seed", 1);
    let wanted = number(&arguments, "--images", 20_000);
    println!("seed {seed}");
    let mut r = Random::new(seed);
    let (mut agreed, mut differed, mut skipped) = (0u64, 0u64, 0u64);
    let mut by_status = [0u64; 256];
    while agreed + differed < 2 * wanted {
        let image = one_image(&mut r);
        let work = if r.one_in(30) { r.within(0, 127) as usize } else { 128 };
        let trail = if r.one_in(30) { r.within(0, 5295) as usize } else { 5296 + r.within(0, 9) as usize };
        for m in [Measure::Cycles, Measure::Stack] {
            match agrees(m, &image, work, trail) {
                None => skipped += 1,
                Some(Ok(status)) => {
                    agreed += 1;
                    by_status[status as usize] += 1;
                }
                Some(Err(why)) => {
                    differed += 1;
                    println!("differs: {why}\n  image {image:02X?}");
                }
            }
        }
    }
    for (status, count) in by_status.iter().enumerate().filter(|(_, c)| **c > 0) {
        if status == 0 {
            println!("bounds       {count}");
        } else {
            println!("refused {status:<4} {count}");
        }
    }
    println!("{skipped} answers were passed over: too many walks to look at one by one");
    println!("{agreed} answers to {} images agreed, {differed} differed", (agreed + differed) / 2);
    if differed > 0 {
        std::process::exit(1);
    }
}
