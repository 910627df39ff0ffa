// Random images: right ones, ones that break a rule, and damaged ones.
use crate::graph::{Constraint, Edge, Fact, Node, Scope, Target};

// A small generator of random numbers (xorshift), so that a seed gives the same images everywhere.
pub struct Random(u64);

impl Random {
    pub fn new(seed: u64) -> Random {
        Random(seed.wrapping_mul(0x9E37_79B9_7F4A_7C15) | 1)
    }

    pub fn next(&mut self) -> u64 {
        self.0 ^= self.0 << 13;
        self.0 ^= self.0 >> 7;
        self.0 ^= self.0 << 17;
        self.0.wrapping_mul(0x2545_F491_4F6C_DD1D)
    }

    // A number from a to b.
    pub fn within(&mut self, a: u64, b: u64) -> u64 {
        a + (self.next() >> 11) % (b - a + 1)
    }

    pub fn one_in(&mut self, n: u64) -> bool {
        self.within(1, n) == 1
    }
}

// How large a graph is made.
#[derive(Clone, Copy)]
pub struct Size {
    pub scopes: u64,
    pub nodes: u64,
    pub edges: u64,
    pub passes: u64,
}

pub fn graph(r: &mut Random, size: Size) -> Vec<Scope> {
    let count = r.within(1, size.scopes);
    (0..count).map(|i| scope(r, size, i, count)).collect()
}

fn scope(r: &mut Random, size: Size, number: u64, count: u64) -> Scope {
    let most = if r.one_in(12) { r.within(1, 65_535) } else { r.within(1, size.passes) };
    let least = if r.one_in(3) { r.within(1, most) } else { 1 };
    let mut s = Scope { least: least as u16, most: most as u16, ..Scope::default() };
    let fewest = if r.one_in(40) { 0 } else { 1 };
    let nodes = r.within(fewest, size.nodes);
    for _ in 0..nodes {
        // calls lead to scopes of greater number, so that there is no ring
        s.nodes.push(if number + 1 < count && r.one_in(4) {
            Node::Call { scope: r.within(number + 1, count - 1) as u8 }
        } else {
            let longest = if r.one_in(9) { 1_000_000 } else { 20 };
            Node::Block { time: r.within(0, longest) as u32, stack: r.within(0, 65_535) as u16 }
        });
    }
    if nodes > 0 {
        if !r.one_in(6) {
            chain(&mut s);
        }
        let more = size.edges.saturating_sub(s.edges.len() as u64).max(1);
        for _ in 0..r.within(1, more) {
            let e = edge(r, &s, nodes);
            s.edges.push(e);
        }
        let facts = if r.one_in(2) { r.within(0, 4) } else { r.within(0, 1) };
        for _ in 0..facts {
            let f = fact(r, nodes, most);
            s.facts.push(f);
        }
    }
    s
}

// A way through all nodes, and from the last one on to both endings.
fn chain(s: &mut Scope) {
    let last = s.nodes.len() as u8 - 1;
    for n in 0..last {
        s.edges.push(Edge { from: n, to: Target::To(n + 1), effect: 0 });
    }
    s.edges.push(Edge { from: last, to: Target::Again, effect: 0 });
    s.edges.push(Edge { from: last, to: Target::Leave, effect: 0 });
}

fn edge(r: &mut Random, s: &Scope, nodes: u64) -> Edge {
    let from = r.within(0, nodes - 1);
    let to = match r.within(0, 5) {
        0 => Target::Again,
        1 => Target::Leave,
        _ if from + 1 < nodes => Target::To(r.within(from + 1, (from + 3).min(nodes - 1)) as u8),
        _ => if r.one_in(2) { Target::Again } else { Target::Leave },
    };
    let low = match s.nodes[from as usize] {
        Node::Block { time, .. } => time as i64,
        Node::Call { .. } => 0,
    };
    let effect = if r.one_in(3) { -(r.within(0, low.min(8) as u64) as i64) } else { r.within(0, 6) as i64 };
    Edge { from: from as u8, to, effect: effect as i32 }
}

fn fact(r: &mut Random, nodes: u64, most: u64) -> Fact {
    let n = r.within(0, nodes - 1) as u8;
    let m = r.within(0, nodes - 1) as u8;
    let constraint = match r.within(0, 2) {
        0 => Constraint::Bar(n),
        1 => Constraint::Must(n),
        _ if n != m => Constraint::Pair(n, m),
        _ => Constraint::Bar(n),
    };
    let first = r.within(1, most.min(8));
    Fact { constraint, first: first as u16, last: r.within(first, most) as u16 }
}

// One figure of the graph put out of its limits, or a part too many.
pub fn spoil(r: &mut Random, g: &mut Vec<Scope>) {
    let count = g.len() as u64;
    let at = r.within(0, count - 1) as usize;
    let wild = r.next();
    let s = &mut g[at];
    match r.within(0, 13) {
        12 => s.nodes.push(Node::Call { scope: (wild % count) as u8 }),
        13 => s.edges.push(Edge { from: (s.nodes.len() as u8).saturating_sub(1), to: Target::To(0), effect: 0 }),
        0 => s.least = 0,
        1 => s.most = s.least.wrapping_sub(1),
        2 => s.nodes.push(Node::Block { time: 1_000_001 + (wild % 9) as u32, stack: 0 }),
        3 => s.nodes.push(Node::Call { scope: (wild % 40) as u8 }),
        4 => s.edges.push(Edge { from: (wild % 40) as u8, to: Target::To((wild >> 8 & 31) as u8), effect: 0 }),
        5 => s.edges.push(Edge { from: 0, to: Target::Leave, effect: -1_000_001 + (wild % 2) as i32 }),
        6 => s.edges.push(Edge { from: 0, to: Target::Again, effect: 1_000_000 + (wild % 2) as i32 }),
        7 => s.facts.push(Fact { constraint: Constraint::Pair((wild & 3) as u8, (wild >> 2 & 3) as u8), first: (wild >> 4 & 1) as u16, last: 1 }),
        8 => s.facts.push(Fact { constraint: Constraint::Must(0), first: 1, last: s.most.wrapping_add(1) }),
        9 => (0..33).for_each(|_| s.nodes.push(Node::Block { time: 1, stack: 1 })),
        10 => (0..97).for_each(|_| s.edges.push(Edge { from: 0, to: Target::Leave, effect: 0 })),
        _ => (0..17).for_each(|_| g.push(Scope { least: 1, most: 1, ..Scope::default() })),
    }
}

// The image of a graph: the records in order, or those of several scopes mixed.
pub fn image(r: &mut Random, g: &[Scope], mixed: bool) -> Vec<u8> {
    let mut lists: Vec<Vec<Vec<u8>>> = Vec::new();
    let mut bytes = Vec::new();
    for (i, s) in g.iter().enumerate() {
        let mut record = vec![6, 1];
        record.extend(s.least.to_be_bytes());
        record.extend(s.most.to_be_bytes());
        bytes.extend(record);
        lists.push(s.nodes.iter().map(|n| node_record(i as u8, n)).collect());
        lists.push(s.edges.iter().map(|e| edge_record(i as u8, e)).collect());
        lists.push(s.facts.iter().map(|f| fact_record(i as u8, f)).collect());
    }
    for list in &mut lists {
        list.reverse();
    }
    let mut next = 0;
    while let Some(any) = lists.iter().position(|l| !l.is_empty()) {
        let pick = if mixed { r.within(0, lists.len() as u64 - 1) as usize } else { next.max(any) };
        match lists[pick].pop() {
            Some(record) => bytes.extend(record),
            None => next = any,
        }
    }
    let mut whole = vec![1];
    whole.extend((bytes.len() as u32 + 5).to_be_bytes());
    whole.extend(bytes);
    whole
}

fn node_record(scope: u8, n: &Node) -> Vec<u8> {
    match n {
        Node::Block { time, stack } => {
            let mut b = vec![9, 2, scope];
            b.extend(time.to_be_bytes());
            b.extend(stack.to_be_bytes());
            b
        }
        Node::Call { scope: called } => vec![4, 3, scope, *called],
    }
}

fn edge_record(scope: u8, e: &Edge) -> Vec<u8> {
    let to = match e.to {
        Target::To(n) => n,
        Target::Again => 254,
        Target::Leave => 255,
    };
    let mut b = vec![9, 4, scope, e.from, to];
    b.extend(e.effect.to_be_bytes());
    b
}

fn fact_record(scope: u8, f: &Fact) -> Vec<u8> {
    let mut b = match f.constraint {
        Constraint::Bar(n) => vec![8, 5, scope, n],
        Constraint::Must(n) => vec![8, 6, scope, n],
        Constraint::Pair(n, m) => vec![9, 7, scope, n, m],
    };
    b.extend(f.first.to_be_bytes());
    b.extend(f.last.to_be_bytes());
    b
}

// Some bytes changed, or the end cut off; with the stated length put right or not.
pub fn damage(r: &mut Random, bytes: &mut Vec<u8>) {
    if r.one_in(3) {
        let keep = r.within(0, bytes.len() as u64) as usize;
        bytes.truncate(keep);
    }
    if !bytes.is_empty() {
        for _ in 0..r.within(0, 3) {
            let at = r.within(0, bytes.len() as u64 - 1) as usize;
            bytes[at] = if r.one_in(2) { bytes[at].wrapping_add(1) } else { r.next() as u8 };
        }
    }
    if r.one_in(9) {
        bytes.truncate(r.within(0, 6) as usize);
    }
    if bytes.len() >= 5 && r.one_in(2) {
        let length = (bytes.len() as u32).to_be_bytes();
        bytes[1..5].copy_from_slice(&length);
        bytes[0] = 1;
    }
}
