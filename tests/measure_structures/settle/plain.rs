//! The same work as in program/src, by hand: sweeps over the dirty sites, each of which is judged, linked anew to
//! what it reads, and fired where it is due; over a slab of edges and a bit set of levels.

const NONE: u32 = u32::MAX;
const SITES: u32 = 1000;
const ROUNDS: u32 = 20_000;

#[derive(Clone, Copy)]
struct Edge {
    slot: u32,
    site: u32,
    next: u32,
    before: u32,
    site_next: u32,
}

struct Graph {
    edges: Vec<Edge>,
    firsts: Vec<u32>,
    site_firsts: Vec<u32>,
    free: u32,
}

impl Graph {
    fn new(slots: u32, sites: u32) -> Graph {
        Graph {
            edges: Vec::new(),
            firsts: vec![NONE; slots as usize],
            site_firsts: vec![NONE; sites as usize],
            free: NONE,
        }
    }

    fn take_free(&mut self) -> u32 {
        if self.free == NONE {
            self.edges.push(Edge { slot: NONE, site: NONE, next: NONE, before: NONE, site_next: NONE });
            return self.edges.len() as u32 - 1;
        }
        let free = self.free;
        self.free = self.edges[free as usize].site_next;
        free
    }

    fn relink(&mut self, site: u32, slots: &[u32]) {
        loop {
            let first = self.site_firsts[site as usize];
            if first == NONE {
                break;
            }
            let edge = self.edges[first as usize];
            if edge.before == NONE {
                self.firsts[edge.slot as usize] = edge.next;
            } else {
                self.edges[edge.before as usize].next = edge.next;
            }
            if edge.next != NONE {
                self.edges[edge.next as usize].before = edge.before;
            }
            self.site_firsts[site as usize] = edge.site_next;
            self.edges[first as usize].site_next = self.free;
            self.free = first;
        }
        for slot in slots {
            let free = self.take_free();
            let next = self.firsts[*slot as usize];
            self.edges[free as usize] = Edge {
                slot: *slot,
                site,
                next,
                before: NONE,
                site_next: self.site_firsts[site as usize],
            };
            if next != NONE {
                self.edges[next as usize].before = free;
            }
            self.firsts[*slot as usize] = free;
            self.site_firsts[site as usize] = free;
        }
    }
}

struct Bits {
    levels: [Vec<u64>; 4],
}

impl Bits {
    fn new(range: usize) -> Bits {
        let mut words = range;
        Bits {
            levels: std::array::from_fn(|_| {
                words = words / 64 + 1;
                vec![0; words]
            }),
        }
    }

    fn set(&mut self, mut at: usize) {
        for level in &mut self.levels {
            level[at / 64] |= 1 << (at % 64);
            at /= 64;
        }
    }

    fn clear(&mut self, mut at: usize) {
        for level in &mut self.levels {
            level[at / 64] &= !(1 << (at % 64));
            if level[at / 64] != 0 {
                return;
            }
            at /= 64;
        }
    }

    fn next_from(&self, mut from: usize) -> Option<usize> {
        for height in 0..4 {
            let word = *self.levels[height].get(from / 64)? & (u64::MAX << (from % 64));
            if word != 0 {
                let mut at = from / 64 * 64 + word.trailing_zeros() as usize;
                for lower in (0..height).rev() {
                    at = at * 64 + self.levels[lower][at].trailing_zeros() as usize;
                }
                return Some(at);
            }
            from = from / 64 + 1;
        }
        None
    }
}

struct Links {
    graph: Graph,
    dirty: Bits,
    relinked: Bits,
}

impl Links {
    fn touch(&mut self, slot: u32) {
        let mut at = self.graph.firsts[slot as usize];
        while at != NONE {
            let edge = &self.graph.edges[at as usize];
            self.dirty.set(edge.site as usize);
            at = edge.next;
        }
    }
}

struct Relays {
    lit: Vec<bool>,
    marks: Vec<bool>,
    fan: bool,
    list: Vec<u32>,
}

impl Relays {
    fn source(&self, site: u32) -> u32 {
        if self.fan && site > 1 { 1 } else { site }
    }

    fn judge(&self, site: u32) -> (bool, bool) {
        (self.lit[self.source(site) as usize], self.marks[site as usize])
    }

    fn reads(&mut self, site: u32) -> &[u32] {
        self.list.clear();
        let source = self.source(site);
        if !self.list.contains(&source) {
            self.list.push(source);
        }
        &self.list
    }

    fn fire(&mut self, site: u32, verdict: bool, changed: &mut Vec<u32>) {
        let target = if site as usize + 1 < self.lit.len() { site + 1 } else { 0 };
        self.marks[site as usize] = verdict;
        self.lit[target as usize] = verdict;
        changed.push(target);
    }
}

/// How many firings there were, and how many sweeps; none where one sweep more than the turns fires.
fn settle(sites: &mut Relays, links: &mut Links, turns: u32) -> Option<(u64, u32)> {
    let mut changed = Vec::new();
    let mut fired = 0;
    let mut done = 0;
    loop {
        let before = fired;
        let mut from = 0;
        while let Some(site) = links.dirty.next_from(from) {
            links.dirty.clear(site);
            let (test, mark) = sites.judge(site as u32);
            links.graph.relink(site as u32, sites.reads(site as u32));
            links.relinked.set(site);
            if test != mark {
                if done == turns {
                    return None;
                }
                changed.clear();
                sites.fire(site as u32, test, &mut changed);
                for slot in &changed {
                    links.touch(*slot);
                }
                fired += 1;
            }
            from = site + 1;
        }
        if fired == before {
            return Some((fired, done));
        }
        done += 1;
    }
}

fn main() {
    let fan = std::env::args().any(|word| word == "fan");
    let count = SITES as usize;
    let mut row = Relays { lit: vec![false; count], marks: vec![false; count], fan, list: Vec::new() };
    let mut links = Links {
        graph: Graph::new(SITES, SITES),
        dirty: Bits::new(count),
        relinked: Bits::new(count),
    };
    for site in 0..count {
        links.dirty.set(site);
    }
    settle(&mut row, &mut links, 256);
    let mut fired = 0;
    let mut turns = 0;
    for round in 0..ROUNDS {
        row.lit[0] = round % 2 == 0;
        links.touch(0);
        if let Some((more, sweeps)) = settle(&mut row, &mut links, 256) {
            fired += more;
            turns += sweeps as u64;
        }
    }
    println!("{fired} {turns}");
}
