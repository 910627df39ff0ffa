// The runs of a graph that keeps the rules, by enumeration of the walks, and the check of a trail. Independent of the
// calculator: no edge is ever taken away, every walk is looked at and judged by the words of the facts.
use crate::graph::{Constraint, Edge, Fact, Node, Scope, Target};
use std::collections::HashMap;

pub const SECTION: usize = 331;

#[derive(Clone, Copy, PartialEq)]
pub enum Measure {
    Cycles,
    Stack,
}

impl Measure {
    pub fn of(self, weight: u64, stack: u64) -> u64 {
        if self == Measure::Cycles { weight } else { stack }
    }

    pub fn join(self, a: u64, b: u64) -> u64 {
        if self == Measure::Cycles { a.saturating_add(b) } else { a.max(b) }
    }
}

pub struct Walk {
    executed: u64,
    leaves: bool,
    cost: u64,
}

// More walks than that are not looked at.
pub const MOST_WALKS: usize = 200_000;

// What an edge costs, with the called scope's run before it; none where that scope has no run.
pub fn edge_cost(m: Measure, s: &Scope, e: &Edge, bounds: &[Option<u64>]) -> Option<u64> {
    match s.nodes[e.from as usize] {
        Node::Block { time, stack } => Some(m.of((time as i64 + e.effect as i64) as u64, stack as u64)),
        Node::Call { scope } => Some(m.join(bounds[scope as usize]?, m.of(e.effect as u64, 0))),
    }
}

fn walks(m: Measure, s: &Scope, bounds: &[Option<u64>]) -> Option<Vec<Walk>> {
    let mut found = Vec::new();
    let mut open: Vec<(u8, u64, u64)> = Vec::new();
    if !s.nodes.is_empty() {
        open.push((0, 1, 0));
    }
    while let Some((at, executed, cost)) = open.pop() {
        for e in s.edges.iter().filter(|e| e.from == at) {
            let Some(c) = edge_cost(m, s, e, bounds) else { continue };
            let cost = m.join(cost, c);
            match e.to {
                Target::To(n) => open.push((n, executed | 1 << n, cost)),
                Target::Again => found.push(Walk { executed, leaves: false, cost }),
                Target::Leave => found.push(Walk { executed, leaves: true, cost }),
            }
        }
        if found.len() + open.len() > MOST_WALKS {
            return None;
        }
    }
    Some(found)
}

fn meets(executed: u64, facts: &[&Fact]) -> bool {
    let has = |n: u8| executed >> n & 1 == 1;
    facts.iter().all(|f| match f.constraint {
        Constraint::Bar(n) => !has(n),
        Constraint::Must(n) => has(n),
        Constraint::Pair(n, m) => !(has(n) && has(m)),
    })
}

fn in_force(s: &Scope, pass: u32) -> u8 {
    let mut mask = 0;
    for (i, f) in s.facts.iter().enumerate() {
        if f.first as u32 <= pass && pass <= f.last as u32 {
            mask |= 1 << i;
        }
    }
    mask
}

// The costliest pass that goes on, and the costliest that leaves.
fn best_passes(s: &Scope, all: &[Walk], mask: u8) -> (Option<u64>, Option<u64>) {
    let facts: Vec<&Fact> = s.facts.iter().enumerate().filter(|(i, _)| mask >> i & 1 == 1).map(|(_, f)| f).collect();
    let best = |leaves: bool| all.iter().filter(|w| w.leaves == leaves && meets(w.executed, &facts)).map(|w| w.cost).max();
    (best(false), best(true))
}

fn scope_bound(m: Measure, s: &Scope, bounds: &[Option<u64>]) -> Option<Option<u64>> {
    let all = walks(m, s, bounds)?;
    let mut known: HashMap<u8, (Option<u64>, Option<u64>)> = HashMap::new();
    let mut front = Some(0);
    let mut bound: Option<u64> = None;
    for pass in 1..=s.most as u32 {
        let mask = in_force(s, pass);
        let (again, leave) = *known.entry(mask).or_insert_with(|| best_passes(s, &all, mask));
        if pass >= s.least as u32 {
            if let (Some(f), Some(l)) = (front, leave) {
                bound = bound.max(Some(m.join(f, l)));
            }
        }
        front = match (front, again) {
            (Some(f), Some(a)) => Some(m.join(f, a)),
            _ => None,
        };
        if front.is_none() {
            break;
        }
    }
    Some(bound)
}

// The bound of each scope, called scopes first; none at all where there are too many walks to look at.
pub fn bounds(m: Measure, graph: &[Scope]) -> Option<Vec<Option<u64>>> {
    let mut done = vec![false; graph.len()];
    let mut found = vec![None; graph.len()];
    for _ in 0..graph.len() {
        for (i, s) in graph.iter().enumerate() {
            let ready = s.nodes.iter().all(|n| !matches!(n, Node::Call { scope } if !done[*scope as usize]));
            if !done[i] && ready {
                found[i] = scope_bound(m, s, &found)?;
                done[i] = true;
            }
        }
    }
    Some(found)
}

pub type Line = (u8, u16, u16);

// Is the section of the scope that of a run which costs the bound, by the words of the trail?
pub fn section_right(m: Measure, graph: &[Scope], i: usize, lines: &[Line], bounds: &[Option<u64>]) -> Result<(), String> {
    let s = &graph[i];
    let Some(bound) = bounds[i] else {
        return if lines.iter().all(|l| *l == (0, 0, 0)) { Ok(()) } else { Err("a section without a run is not blank".into()) };
    };
    let (1, passes, groups) = lines[0] else { return Err("the first line".into()) };
    let passes = passes as u32;
    if passes < s.least as u32 || passes > s.most as u32 {
        return Err(format!("{passes} passes"));
    }
    let (mut at, mut pass, mut cost) = (1, 1u32, 0);
    for _ in 0..groups {
        let (2, first, last) = lines[at] else { return Err(format!("line {at} is no group")) };
        let (first, last) = (first as u32, last as u32);
        let end = group_end(s, pass, passes);
        if first != pass || last != end {
            return Err(format!("group {first}-{last} in place of {pass}-{end}"));
        }
        at += 1;
        let (once, next) = walk_right(m, s, lines, at, first, last, last == passes, bounds)?;
        at = next;
        for _ in first..=last {
            cost = m.join(cost, once);
        }
        pass = last + 1;
    }
    if pass != passes + 1 {
        return Err("the groups do not make up the passes".into());
    }
    if lines[at..].iter().any(|l| *l != (0, 0, 0)) {
        return Err("the rest is not blank".into());
    }
    if cost != bound {
        return Err(format!("it costs {cost}, and the bound is {bound}"));
    }
    Ok(())
}

// Where the group that begins with this pass ends: the last pass by itself, else its range up to the last but one.
fn group_end(s: &Scope, pass: u32, passes: u32) -> u32 {
    if pass == passes {
        return pass;
    }
    let mut end = pass;
    while end + 1 < passes && in_force(s, end + 1) == in_force(s, pass) {
        end += 1;
    }
    end
}

fn walk_right(m: Measure, s: &Scope, lines: &[Line], mut at: usize, first: u32, last: u32, leaves: bool, bounds: &[Option<u64>]) -> Result<(u64, usize), String> {
    let (mut node, mut executed, mut cost) = (0u8, 1u64, 0);
    loop {
        let (3, e, called) = lines[at] else { return Err(format!("line {at} is no edge")) };
        at += 1;
        let edge = s.edges.get(e as usize).ok_or("an edge that does not exist")?;
        if edge.from != node {
            return Err(format!("edge {e} does not start at node {node}"));
        }
        let right = match s.nodes[node as usize] {
            Node::Block { .. } => 0,
            Node::Call { scope } => scope as u16 + 1,
        };
        if called != right {
            return Err("the called scope".into());
        }
        cost = m.join(cost, edge_cost(m, s, edge, bounds).ok_or("a called scope without a run")?);
        match edge.to {
            Target::To(n) => {
                node = n;
                executed |= 1 << n;
            }
            end => {
                if (end == Target::Leave) != leaves {
                    return Err("the wrong ending".into());
                }
                break;
            }
        }
    }
    for pass in [first, last] {
        let mask = in_force(s, pass);
        let facts: Vec<&Fact> = s.facts.iter().enumerate().filter(|(i, _)| mask >> i & 1 == 1).map(|(_, f)| f).collect();
        if !meets(executed, &facts) {
            return Err(format!("pass {pass} breaks a fact"));
        }
    }
    Ok((cost, at))
}
