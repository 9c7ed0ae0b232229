//! The same work as the Rattle program beside this one, with a slab of edges, a bit set of two
//! levels and a small list, as one would write them in plain Rust.

const ROW: u32 = 8;
const RANGE: u32 = 4_000_000;
const WALKS: u32 = 200;
const NONE: u32 = u32::MAX;

struct Random(u64);

impl Random {
    fn below(&mut self, bound: u32) -> u32 {
        self.0 = self
            .0
            .wrapping_mul(6_364_136_223_846_793_005)
            .wrapping_add(1_442_695_040_888_963_407);
        (self.0 >> 33) as u32 % bound
    }
}

#[derive(Clone, Copy)]
struct Edge {
    slot: u32,
    site: u32,
    next: u32,
    before: u32,
    site_next: u32,
}

struct Graph {
    edges: Vec<Edge>,
    firsts: Vec<u32>,
    site_firsts: Vec<u32>,
    free: u32,
}

impl Graph {
    fn new(slots: u32, sites: u32, edges: u32) -> Graph {
        let mut graph = Graph {
            edges: Vec::new(),
            firsts: vec![NONE; slots as usize],
            site_firsts: vec![NONE; sites as usize],
            free: NONE,
        };
        for number in 0..edges {
            graph.edges.push(Edge {
                slot: NONE,
                site: NONE,
                next: NONE,
                before: NONE,
                site_next: graph.free,
            });
            graph.free = number;
        }
        graph
    }

    fn relink(&mut self, site: u32, slots: &[u32]) {
        loop {
            let first = self.site_firsts[site as usize];
            if first == NONE {
                break;
            }
            let edge = self.edges[first as usize];
            if edge.before == NONE {
                self.firsts[edge.slot as usize] = edge.next;
            } else {
                self.edges[edge.before as usize].next = edge.next;
            }
            if edge.next != NONE {
                self.edges[edge.next as usize].before = edge.before;
            }
            self.site_firsts[site as usize] = edge.site_next;
            self.edges[first as usize].site_next = self.free;
            self.free = first;
        }
        for slot in slots {
            let free = self.free;
            self.free = self.edges[free as usize].site_next;
            let next = self.firsts[*slot as usize];
            self.edges[free as usize] = Edge {
                slot: *slot,
                site,
                next,
                before: NONE,
                site_next: self.site_firsts[site as usize],
            };
            if next != NONE {
                self.edges[next as usize].before = free;
            }
            self.firsts[*slot as usize] = free;
            self.site_firsts[site as usize] = free;
        }
    }
}

struct Bits {
    levels: [Vec<u64>; 4],
}

impl Bits {
    fn new(range: usize) -> Bits {
        let mut words = range;
        Bits {
            levels: std::array::from_fn(|_| {
                words = words / 64 + 1;
                vec![0; words]
            }),
        }
    }

    fn set(&mut self, mut at: usize) {
        for level in &mut self.levels {
            level[at / 64] |= 1 << (at % 64);
            at /= 64;
        }
    }

    fn clear(&mut self, mut at: usize) {
        for level in &mut self.levels {
            level[at / 64] &= !(1 << (at % 64));
            if level[at / 64] != 0 {
                return;
            }
            at /= 64;
        }
    }

    fn next_from(&self, mut from: usize) -> Option<usize> {
        for height in 0..4 {
            let word = *self.levels[height].get(from / 64)? & (u64::MAX << (from % 64));
            if word != 0 {
                let mut at = from / 64 * 64 + word.trailing_zeros() as usize;
                for lower in (0..height).rev() {
                    at = at * 64 + self.levels[lower][at].trailing_zeros() as usize;
                }
                return Some(at);
            }
            from = from / 64 + 1;
        }
        None
    }
}

fn relink_all(graph: &mut Graph, list: &mut Vec<u32>, random: &mut Random) {
    let slots = graph.firsts.len() as u32;
    for site in 0..graph.site_firsts.len() as u32 {
        list.clear();
        for _ in 0..ROW {
            let slot = random.below(slots);
            if !list.contains(&slot) {
                list.push(slot);
            }
        }
        graph.relink(site, list);
    }
}

fn read_all(graph: &Graph) -> u64 {
    let mut total = 0u64;
    for slot in 0..graph.firsts.len() as u32 {
        let mut at = graph.firsts[slot as usize];
        while at != NONE {
            let edge = &graph.edges[at as usize];
            total = total.wrapping_add((edge.site ^ slot) as u64);
            at = edge.next;
        }
    }
    total
}

fn relink_often(sites: u32, rounds: u32) -> u64 {
    let mut random = Random(7);
    let mut graph = Graph::new(sites / 2, sites, sites * ROW + ROW);
    let mut list = Vec::with_capacity(ROW as usize);
    let mut total = 0u64;
    for _ in 0..rounds {
        relink_all(&mut graph, &mut list, &mut random);
        total = total.wrapping_add(read_all(&graph));
    }
    total
}

fn walk(dirty: &mut Bits, random: &mut Random) -> u64 {
    let mut sum = 0u64;
    for _ in 0..300_000u32 {
        dirty.set(random.below(RANGE) as usize);
    }
    let mut from = 0;
    for _ in 0..300_000u32 {
        let Some(site) = dirty.next_from(from) else {
            break;
        };
        sum = sum.wrapping_add(site as u64);
        dirty.clear(site);
        from = site;
    }
    sum
}

fn walk_often() -> u64 {
    let mut random = Random(7);
    let mut dirty = Bits::new(RANGE as usize);
    let mut total = 0u64;
    for _ in 0..WALKS {
        total = total.wrapping_add(walk(&mut dirty, &mut random));
    }
    total
}

fn main() {
    let total = match std::env::args().nth(1).as_deref() {
        Some("large") => relink_often(200_000, 10),
        Some("small") => relink_often(10_000, 600),
        _ => walk_often(),
    };
    println!("{total}");
}
