// Scope graphs by the plain words: opening an image, and the rules. Independent of the calculator.

#[derive(Clone, Copy, Debug, PartialEq)]
pub enum Node {
    Block { time: u32, stack: u16 },
    Call { scope: u8 },
}

#[derive(Clone, Copy, Debug, PartialEq)]
pub enum Target {
    To(u8),
    Again,
    Leave,
}

#[derive(Clone, Copy, Debug)]
pub struct Edge {
    pub from: u8,
    pub to: Target,
    pub effect: i32,
}

#[derive(Clone, Copy, Debug)]
pub enum Constraint {
    Bar(u8),
    Must(u8),
    Pair(u8, u8),
}

#[derive(Clone, Copy, Debug)]
pub struct Fact {
    pub constraint: Constraint,
    pub first: u16,
    pub last: u16,
}

#[derive(Clone, Debug, Default)]
pub struct Scope {
    pub least: u16,
    pub most: u16,
    pub nodes: Vec<Node>,
    pub edges: Vec<Edge>,
    pub facts: Vec<Fact>,
}

// The graph of an image, or the number with which opening refuses it.
pub fn open(bytes: &[u8]) -> Result<Vec<Scope>, u8> {
    if bytes.len() < 5 {
        return Err(11);
    }
    if bytes[0] != 1 {
        return Err(12);
    }
    let stated = u32::from_be_bytes([bytes[1], bytes[2], bytes[3], bytes[4]]) as usize;
    if stated != bytes.len() || bytes.len() > 19109 {
        return Err(13);
    }
    let mut graph: Vec<Scope> = Vec::new();
    let mut rest = &bytes[5..];
    while !rest.is_empty() {
        if rest.len() < 2 {
            return Err(14);
        }
        let (length, kind) = (rest[0] as usize, rest[1]);
        let right = match kind {
            1 => 6,
            2 | 4 | 7 => 9,
            3 => 4,
            5 | 6 => 8,
            _ => return Err(15),
        };
        if length != right || length > rest.len() {
            return Err(14);
        }
        add(&mut graph, kind, &rest[2..length])?;
        rest = &rest[length..];
    }
    Ok(graph)
}

fn two(b: &[u8], at: usize) -> u16 {
    u16::from_be_bytes([b[at], b[at + 1]])
}

fn add(graph: &mut Vec<Scope>, kind: u8, b: &[u8]) -> Result<(), u8> {
    if kind == 1 {
        graph.push(Scope { least: two(b, 0), most: two(b, 2), ..Scope::default() });
        return Ok(());
    }
    let scope = graph.get_mut(b[0] as usize).ok_or(16)?;
    match kind {
        2 => scope.nodes.push(Node::Block { time: u32::from_be_bytes([b[1], b[2], b[3], b[4]]), stack: two(b, 5) }),
        3 => scope.nodes.push(Node::Call { scope: b[1] }),
        4 => scope.edges.push(Edge {
            from: b[1],
            to: match b[2] {
                254 => Target::Again,
                255 => Target::Leave,
                n => Target::To(n),
            },
            effect: i32::from_be_bytes([b[3], b[4], b[5], b[6]]),
        }),
        5 => scope.facts.push(Fact { constraint: Constraint::Bar(b[1]), first: two(b, 2), last: two(b, 4) }),
        6 => scope.facts.push(Fact { constraint: Constraint::Must(b[1]), first: two(b, 2), last: two(b, 4) }),
        _ => scope.facts.push(Fact { constraint: Constraint::Pair(b[1], b[2]), first: two(b, 3), last: two(b, 5) }),
    }
    Ok(())
}

// The smallest broken rule, tried number by number over the whole graph.
pub fn broken(graph: &[Scope]) -> Option<u8> {
    (21..=29).find(|rule| breaks(graph, *rule))
}

fn breaks(graph: &[Scope], rule: u8) -> bool {
    match rule {
        21 => graph.is_empty(),
        22 => graph.len() > 16 || graph.iter().any(|s| s.nodes.len() > 32 || s.edges.len() > 96 || s.facts.len() > 4),
        23 => graph.iter().any(|s| s.least == 0 || s.least > s.most),
        24 => graph.iter().any(|s| {
            s.nodes.iter().any(|n| matches!(n, Node::Block { time, .. } if *time > 1_000_000))
                || s.edges.iter().any(|e| e.effect < -1_000_000 || e.effect > 1_000_000)
        }),
        25 => graph.iter().any(|s| names_missing(graph, s)),
        26 => graph.iter().any(|s| s.edges.iter().any(|e| matches!(e.to, Target::To(n) if n <= e.from))),
        27 => graph.iter().any(|s| {
            s.edges.iter().any(|e| match s.nodes.get(e.from as usize) {
                Some(Node::Block { time, .. }) => (*time as i64) + (e.effect as i64) < 0,
                Some(Node::Call { .. }) => e.effect < 0,
                None => false,
            })
        }),
        28 => (0..graph.len()).any(|i| reaches(graph, i, i)),
        _ => graph.iter().any(|s| {
            s.facts.iter().any(|f| {
                f.first == 0
                    || f.first > f.last
                    || f.last > s.most
                    || matches!(f.constraint, Constraint::Pair(n, m) if n == m)
            })
        }),
    }
}

fn names_missing(graph: &[Scope], s: &Scope) -> bool {
    let absent = |n: u8| n as usize >= s.nodes.len();
    s.nodes.iter().any(|n| matches!(n, Node::Call { scope } if *scope as usize >= graph.len()))
        || s.edges.iter().any(|e| absent(e.from) || matches!(e.to, Target::To(n) if absent(n)))
        || s.facts.iter().any(|f| match f.constraint {
            Constraint::Bar(n) | Constraint::Must(n) => absent(n),
            Constraint::Pair(n, m) => absent(n) || absent(m),
        })
}

// Does scope `from` reach scope `to` through one call or more?
fn reaches(graph: &[Scope], from: usize, to: usize) -> bool {
    let mut seen = vec![false; graph.len()];
    let mut open = vec![from];
    while let Some(i) = open.pop() {
        for n in &graph[i].nodes {
            if let Node::Call { scope } = n {
                let t = *scope as usize;
                if t == to {
                    return true;
                }
                if t < graph.len() && !seen[t] {
                    seen[t] = true;
                    open.push(t);
                }
            }
        }
    }
    false
}
