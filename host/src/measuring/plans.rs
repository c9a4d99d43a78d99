//! Plans and tapes to measure on.

use crate::commands::Tab;
use crate::plain;
use crate::testing::plans::{beside, Grid};
use crate::testing::random::Random;
use crate::testing::second::{Map, Plan};

/// How many plans a row rotates: too many for the processor's branch predictor to learn by heart. With eight, small
/// plans come out faster than large ones for that reason alone.
const PLANS: usize = 128;

/// The words of a table.
pub type Words = Vec<u16>;

/// The plans of one capacity that rows rotate, as tables and tapes.
pub struct Plans {
    pub capacity: usize,
    /// One grid, numbered row by row.
    pub grid: Vec<Words>,
    /// The same grid, numbered at random.
    pub scattered: Vec<Words>,
    pub random: Vec<Words>,
    /// Grids of 64 tabs beside each other, numbered at random.
    pub pieces: Vec<Words>,
    /// All tabs in one gap.
    pub one_gap: Vec<Words>,
    /// The scattered grids with each tab a tie by itself.
    pub untied: Vec<Words>,
    /// The canonical tapes of the scattered grids.
    pub tapes: Vec<Vec<u8>>,
}

impl Plans {
    pub fn new(random: &mut Random, capacity: usize) -> Plans {
        let grid_plan = grid(capacity);
        let scattered = rotation(|| renamed(random, &grid_plan));
        let randoms = rotation(|| random_plan(random, capacity));
        let many = (1..capacity / 64).fold(grid(64), |plan, _| beside(&plan, &grid(64), capacity));
        let pieces = rotation(|| renamed(random, &many));
        let gaps = rotation(|| one_gap(random, capacity));
        Plans {
            capacity,
            grid: words(&[grid_plan]),
            random: words(&randoms),
            pieces: words(&pieces),
            one_gap: words(&gaps),
            untied: scattered.iter().map(|plan| untied(plan).to_words()).collect(),
            tapes: scattered.iter().map(Plan::tape).collect(),
            scattered: words(&scattered),
        }
    }
}

fn rotation(plan: impl FnMut() -> Plan) -> Vec<Plan> {
    std::iter::repeat_with(plan).take(PLANS).collect()
}

fn words(plans: &[Plan]) -> Vec<Words> {
    plans.iter().map(Plan::to_words).collect()
}

/// As square as it can be with all tabs in it, so that plans of each size are equally full.
fn grid(capacity: usize) -> Plan {
    let side = ((capacity / 4) as f64).sqrt() as usize + 2;
    let plan = Grid::new(side, side, capacity).plan;
    assert_eq!(plan.tie.len(), capacity);
    plan
}

/// The same plan with its tabs renamed at random, over all numbers up to the capacity.
fn renamed(random: &mut Random, plan: &Plan) -> Plan {
    let mut names: Vec<Tab> = (1..=plan.capacity as Tab).collect();
    random.shuffle(&mut names);
    let renamed = |map: &Map| map.iter().map(|(a, b)| (names[*a as usize - 1], names[*b as usize - 1])).collect();
    Plan { capacity: plan.capacity, tie: renamed(&plan.tie), cell: renamed(&plan.cell) }
}

fn random_plan(random: &mut Random, capacity: usize) -> Plan {
    let shuffled = |random: &mut Random| -> Map {
        let mut to: Vec<Tab> = (1..=capacity as Tab).collect();
        random.shuffle(&mut to);
        (1..=capacity as Tab).zip(to).collect()
    };
    Plan { capacity, tie: shuffled(random), cell: shuffled(random) }
}

/// All tabs in one tie and in one gap, in a random order.
fn one_gap(random: &mut Random, capacity: usize) -> Plan {
    let mut order: Vec<Tab> = (1..=capacity as Tab).collect();
    random.shuffle(&mut order);
    let next = order.iter().cycle().skip(1);
    Plan {
        capacity,
        tie: order.iter().copied().zip(next.copied()).collect(),
        cell: (1..=capacity as Tab).map(|t| (t, t)).collect(),
    }
}

fn untied(plan: &Plan) -> Plan {
    Plan { capacity: plan.capacity, tie: plan.tie.keys().map(|&t| (t, t)).collect(), cell: plan.cell.clone() }
}

/// Two cells with `ties` ties of two tabs between them, and the ring through all of these.
pub fn dipole(ties: usize, capacity: usize) -> (Words, Vec<u16>) {
    let mut plan = Plan::empty(capacity);
    let n = ties as Tab;
    for i in 0..n {
        let (inner, outer) = (2 * i + 1, 2 * i + 2);
        plan.tie.extend([(inner, outer), (outer, inner)]);
        plan.cell.insert(inner, 2 * ((i + 1) % n) + 1);
        plan.cell.insert(outer, 2 * ((i + n - 1) % n) + 2);
    }
    let table = plan.to_words();
    let inner_first: Vec<u16> = (1..=2 * n as u16).collect();
    let outer_first: Vec<u16> = inner_first.chunks(2).flat_map(|pair| [pair[1], pair[0]]).collect();
    for ring in [&inner_first, &outer_first] {
        for way in [ring.clone(), ring.chunks(2).rev().flatten().copied().collect()] {
            if plain::ring_cut(&mut table.clone(), &way) == 0 {
                return (table, way);
            }
        }
    }
    panic!("no ring through the dipole");
}

/// A table, and two of its tabs.
pub struct TwoTabs<'a> {
    pub table: &'a Words,
    pub first: u32,
    pub middle: u32,
}

impl TwoTabs<'_> {
    fn new(table: &Words) -> TwoTabs<'_> {
        let present: Vec<u32> = table.chunks(4).zip(1..).filter(|(row, _)| row[0] != 0).map(|(_, tab)| tab).collect();
        TwoTabs { table, first: present[0], middle: present[present.len() / 2] }
    }
}

pub fn two_tabs(tables: &[Words]) -> Vec<TwoTabs<'_>> {
    tables.iter().map(TwoTabs::new).collect()
}
