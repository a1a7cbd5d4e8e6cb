//! Generates jobs and scripts for the register stage.
//!
//! `generate KIND SEED COUNT` writes COUNT inputs to standard output, each
//! after its length as a u32. The kinds are described in `oracle/GENERATOR.md`.
//! An input depends on its kind, the seed and its place in the batch alone, so
//! a longer batch starts with the shorter one of the same seed.

use std::io::{self, BufWriter, Write};

const INFINITE: u32 = 0x7F80_0000;
const LARGEST: u32 = 0x7F7F_FFFF;

/// SplitMix64: small, and good enough to choose inputs.
struct Rng(u64);

impl Rng {
    fn next(&mut self) -> u64 {
        self.0 = self.0.wrapping_add(0x9E37_79B9_7F4A_7C15);
        let mut z = self.0;
        z = (z ^ (z >> 30)).wrapping_mul(0xBF58_476D_1CE4_E5B9);
        z = (z ^ (z >> 27)).wrapping_mul(0x94D0_49BB_1331_11EB);
        z ^ (z >> 31)
    }

    /// A number below `n`, or 0 where there is none.
    fn below(&mut self, n: usize) -> usize {
        if n == 0 {
            0
        } else {
            (self.next() % n as u64) as usize
        }
    }

    /// A number from `low` to `high`, both included.
    fn between(&mut self, low: usize, high: usize) -> usize {
        low + self.below(high - low + 1)
    }

    fn chance(&mut self, percent: usize) -> bool {
        self.below(100) < percent
    }

    fn pick<T: Copy>(&mut self, items: &[T]) -> T {
        items[self.below(items.len())]
    }

    fn shuffle<T>(&mut self, items: &mut [T]) {
        for i in (1..items.len()).rev() {
            items.swap(i, self.below(i + 1));
        }
    }
}

// ---------------------------------------------------------------------------
// The job and how it is written
// ---------------------------------------------------------------------------

#[derive(Clone, Copy)]
struct Segment {
    from: u32,
    to: u32,
    value: u16,
}

/// A fixed reservation: with a value a use, with an end a def.
#[derive(Clone, Copy, Default)]
struct Reservation {
    unit: Option<u8>,
    from: Option<u32>,
    to: Option<u32>,
    value: Option<u16>,
    stray_bits: u8,
}

#[derive(Clone, Default)]
struct VirtReg {
    class: Option<u8>,
    set: Option<u16>,
    spill: Option<u32>,
    size: Option<u32>,
    hints: Option<Vec<(u8, u32)>>,
    segments: Option<Vec<Segment>>,
    stray_bits: u8,
}

#[derive(Clone, Default)]
struct Job {
    registers: Vec<u64>,
    classes: Vec<Vec<u8>>,
    fixed: Vec<Reservation>,
    virt_regs: Vec<VirtReg>,
    probe: Option<(u32, u32)>,
    budget: Option<u32>,
    /// Header bits that stand although their table is empty, or that have no
    /// meaning.
    extra_bits: u8,
}

/// What a written field is, for the damages that aim at fields.
#[derive(Clone, Copy, PartialEq)]
enum Field {
    Map,
    Count,
    Point,
    Weight,
    Number,
}

#[derive(Clone, Copy)]
struct Mark {
    field: Field,
    at: usize,
    length: usize,
}

#[derive(Default)]
struct Written {
    bytes: Vec<u8>,
    marks: Vec<Mark>,
}

impl Written {
    fn put(&mut self, field: Field, bytes: &[u8]) {
        self.marks.push(Mark {
            field,
            at: self.bytes.len(),
            length: bytes.len(),
        });
        self.bytes.extend_from_slice(bytes);
    }

    fn map(&mut self, bits: u8) {
        self.put(Field::Map, &[bits]);
    }

    fn segment(&mut self, segment: Segment) {
        self.put(Field::Point, &segment.from.to_le_bytes());
        self.put(Field::Point, &segment.to.to_le_bytes());
        self.put(Field::Number, &segment.value.to_le_bytes());
    }

    fn reservation(&mut self, r: &Reservation) {
        let bits = r.unit.is_some() as u8
            | (r.from.is_some() as u8) << 1
            | (r.to.is_some() as u8) << 2
            | (r.value.is_some() as u8) << 3;
        self.map(bits | r.stray_bits);
        if let Some(unit) = r.unit {
            self.put(Field::Number, &[unit]);
        }
        for point in [r.from, r.to].into_iter().flatten() {
            self.put(Field::Point, &point.to_le_bytes());
        }
        if let Some(value) = r.value {
            self.put(Field::Number, &value.to_le_bytes());
        }
    }

    fn virt_reg(&mut self, v: &VirtReg) {
        let bits = v.class.is_some() as u8
            | (v.set.is_some() as u8) << 1
            | (v.spill.is_some() as u8) << 2
            | (v.size.is_some() as u8) << 3
            | (v.hints.is_some() as u8) << 4
            | (v.segments.is_some() as u8) << 5;
        self.map(bits | v.stray_bits);
        if let Some(class) = v.class {
            self.put(Field::Number, &[class]);
        }
        if let Some(set) = v.set {
            self.put(Field::Number, &set.to_le_bytes());
        }
        if let Some(spill) = v.spill {
            self.put(Field::Weight, &spill.to_le_bytes());
        }
        if let Some(size) = v.size {
            self.put(Field::Number, &size.to_le_bytes());
        }
        if let Some(hints) = &v.hints {
            self.put(Field::Count, &[hints.len() as u8]);
            for (register, weight) in hints {
                self.put(Field::Number, &[*register]);
                self.put(Field::Weight, &weight.to_le_bytes());
            }
        }
        if let Some(segments) = &v.segments {
            self.put(Field::Count, &(segments.len() as u16).to_le_bytes());
            segments.iter().for_each(|s| self.segment(*s));
        }
    }

    fn job(job: &Job) -> Written {
        let mut out = Written::default();
        let bits = !job.registers.is_empty() as u8
            | (!job.classes.is_empty() as u8) << 1
            | (!job.fixed.is_empty() as u8) << 2
            | (!job.virt_regs.is_empty() as u8) << 3
            | (job.probe.is_some() as u8) << 4
            | (job.budget.is_some() as u8) << 5
            | job.extra_bits;
        out.map(bits);
        if bits & 1 != 0 {
            out.put(Field::Count, &[job.registers.len() as u8]);
            job.registers
                .iter()
                .for_each(|r| out.put(Field::Number, &r.to_le_bytes()));
        }
        if bits & 2 != 0 {
            out.put(Field::Count, &[job.classes.len() as u8]);
            for class in &job.classes {
                out.put(Field::Count, &[class.len() as u8]);
                class.iter().for_each(|r| out.put(Field::Number, &[*r]));
            }
        }
        if bits & 4 != 0 {
            out.put(Field::Count, &(job.fixed.len() as u16).to_le_bytes());
            job.fixed.iter().for_each(|r| out.reservation(r));
        }
        if bits & 8 != 0 {
            out.put(Field::Count, &(job.virt_regs.len() as u16).to_le_bytes());
            job.virt_regs.iter().for_each(|v| out.virt_reg(v));
        }
        if let Some((from, to)) = job.probe {
            out.put(Field::Point, &from.to_le_bytes());
            out.put(Field::Point, &to.to_le_bytes());
        }
        if let Some(budget) = job.budget {
            out.put(Field::Number, &budget.to_le_bytes());
        }
        out
    }
}

// ---------------------------------------------------------------------------
// Valid jobs
// ---------------------------------------------------------------------------

/// The greatest counts of a valid job of a kind.
struct Shape {
    registers: usize,
    /// Units from which all registers are made, so that they share some.
    units: usize,
    classes: usize,
    virt_regs: usize,
    fixed: usize,
    segments: usize,
    hints: usize,
    /// Instructions over which the points are spread: few, so that all collide.
    instructions: usize,
}

const SMALL: Shape = Shape {
    registers: 4,
    units: 6,
    classes: 3,
    virt_regs: 8,
    fixed: 8,
    segments: 3,
    hints: 4,
    instructions: 10,
};

const TINY: Shape = Shape {
    registers: 2,
    units: 3,
    classes: 2,
    virt_regs: 4,
    fixed: 3,
    segments: 2,
    hints: 2,
    instructions: 4,
};

/// Points of a job: `count` instructions from a first one.
#[derive(Clone, Copy)]
struct Points {
    first: u32,
    count: usize,
}

impl Points {
    /// A point of one of the three slots in use.
    fn any(&self, rng: &mut Rng) -> u32 {
        self.first + 4 * rng.below(self.count) as u32 + rng.pick(&[0, 0, 1, 2])
    }

    fn range(&self, rng: &mut Rng) -> (u32, u32) {
        let (a, b) = (self.any(rng), self.any(rng));
        if a == b {
            // The slot after Normal is no point; the one after Early is.
            let step = if a % 4 == 2 { 2 } else { 1 };
            return (a, a + step);
        }
        (a.min(b), a.max(b))
    }

    /// A few instructions of these, so that not every live range meets all
    /// others.
    fn window(&self, rng: &mut Rng) -> Points {
        let count = rng.between(1, self.count.div_ceil(3));
        Points {
            first: self.first + 4 * rng.below(self.count - count + 1) as u32,
            count,
        }
    }

    /// Between 1 and `most` ranges, sorted and disjoint, some of them touching.
    fn ranges(&self, rng: &mut Rng, most: usize) -> Vec<(u32, u32)> {
        let mut points: Vec<u32> = (0..2 * rng.between(1, most))
            .map(|_| self.any(rng))
            .collect();
        points.sort();
        points.dedup();
        let mut ranges: Vec<(u32, u32)> = points.chunks_exact(2).map(|p| (p[0], p[1])).collect();
        for i in 1..ranges.len() {
            if rng.chance(25) {
                ranges[i].0 = ranges[i - 1].1;
            }
        }
        if ranges.is_empty() {
            let first = self.first;
            ranges.push((first, first + 4));
        }
        ranges
    }

    fn past_end(&self) -> u32 {
        self.first + 4 * self.count as u32
    }
}

/// The hint weights of a job.
#[derive(Clone, Copy)]
enum Palette {
    /// All kinds of weights, zeros and roundings among them.
    Mixed,
    /// One weight, so that sums are often equal.
    Equal,
    /// Weights whose sums are often infinite.
    Heavy,
}

fn hint_weight(rng: &mut Rng, palette: Palette) -> u32 {
    let plain = [
        0.5f32,
        1.0,
        1.0,
        1.0,
        2.0,
        2.0,
        2.5,
        3.0,
        4.0,
        0.1,
        0.2,
        0.3,
        16_777_216.0,
    ];
    match palette {
        Palette::Equal => 1f32.to_bits(),
        Palette::Heavy if rng.chance(60) => LARGEST - rng.below(2) as u32,
        _ => match rng.below(20) {
            0 | 1 => 0,
            2 => LARGEST,
            3 => rng.pick(&[1, 0x007F_FFFF, 0x0080_0000, 0x3F80_0001, LARGEST - 1]),
            _ => rng.pick(&plain).to_bits(),
        },
    }
}

fn spill_weight(rng: &mut Rng, infinite: usize) -> u32 {
    if rng.chance(infinite) {
        return INFINITE;
    }
    match rng.below(12) {
        0 | 1 => 0,
        2 => rng.pick(&[1, LARGEST, 0x3F80_0001]),
        _ => rng
            .pick(&[0.5f32, 1.0, 1.0, 1.0, 2.0, 2.0, 3.0, 4.0])
            .to_bits(),
    }
}

/// Leaves a field out where it has its default, mostly.
fn unless_default<T: PartialEq>(rng: &mut Rng, value: T, default: T) -> Option<T> {
    if value == default && rng.chance(70) {
        None
    } else {
        Some(value)
    }
}

/// Registers with 1 to 4 of the given units, no two with the same ones.
fn registers(rng: &mut Rng, count: usize, units: &[u8]) -> Vec<u64> {
    let mut registers: Vec<u64> = Vec::new();
    // Registers that share no unit leave a second place to go to, which
    // eviction by preference needs.
    let apart = rng.chance(40);
    for _ in 0..4 * count {
        let size = if apart || rng.chance(30) {
            1
        } else {
            rng.between(1, 4)
        };
        let map = (0..size).fold(0, |map, _| map | 1u64 << rng.pick(units));
        if registers.len() < count && !registers.contains(&map) {
            registers.push(map);
        }
    }
    registers
}

/// A random order of some of the registers; now and then none.
fn class(rng: &mut Rng, registers: usize) -> Vec<u8> {
    let mut all: Vec<u8> = (0..registers as u8).collect();
    rng.shuffle(&mut all);
    match rng.below(10) {
        0 => all.truncate(rng.below(registers + 1)),
        1..=4 => all.truncate(rng.between(1, registers.max(1))),
        _ => {}
    }
    all
}

/// Up to `most` reservations of one unit, sorted and disjoint.
fn unit_reservations(rng: &mut Rng, unit: u8, points: Points, most: usize) -> Vec<Reservation> {
    let mut out = Vec::new();
    // Wider than a point, as the walk may pass the last one.
    let mut at = points.first as u64 + 4 * rng.below(3) as u64;
    for _ in 0..rng.between(0, most) {
        let boundary = at.next_multiple_of(4);
        if boundary + 4 >= points.past_end() as u64 {
            break;
        }
        let unit = unless_default(rng, unit, 0);
        if rng.chance(70) {
            let from = unless_default(rng, boundary as u32, 0);
            out.push(Reservation {
                unit,
                from,
                value: Some(value(rng)),
                ..Default::default()
            });
            at = boundary + 2;
        } else {
            let from = if at % 4 == 3 { boundary } else { at };
            let from = unless_default(rng, from as u32, 0);
            let to = Some(boundary as u32 + 4);
            out.push(Reservation {
                unit,
                from,
                to,
                ..Default::default()
            });
            at = boundary + 4;
        }
        at += rng.pick(&[0, 0, 1, 4, 8]);
    }
    out
}

/// Few values, so that those of segments and fixed uses are often equal.
fn value(rng: &mut Rng) -> u16 {
    if rng.chance(2) {
        u16::MAX
    } else {
        rng.below(3) as u16
    }
}

/// Reservations of several units, those of each unit in its order.
fn fixed_reservations(
    rng: &mut Rng,
    units: &[u8],
    points: Points,
    most: usize,
) -> Vec<Reservation> {
    let mut by_unit: Vec<Vec<Reservation>> = Vec::new();
    let mut left = most;
    for &unit in units {
        let some = unit_reservations(rng, unit, points, left.min(4));
        left -= some.len();
        by_unit.push(some);
    }
    let mut out = Vec::new();
    while by_unit.iter().any(|some| !some.is_empty()) {
        let unit = rng.below(by_unit.len());
        if !by_unit[unit].is_empty() {
            out.push(by_unit[unit].remove(0));
        }
    }
    out
}

/// Does a range start or end strictly inside a fixed use of this value?
fn cuts_use(fixed: &[Reservation], (from, to): (u32, u32), value: u16) -> bool {
    fixed.iter().any(|r| {
        let inside = r.from.unwrap_or(0) + 1;
        r.value == Some(value) && (from == inside || to == inside)
    })
}

/// A value for a segment: often that of a fixed use inside it. One that cuts
/// a use is nearly always replaced.
fn segment_value(rng: &mut Rng, fixed: &[Reservation], range: (u32, u32)) -> u16 {
    let inside: Vec<u16> = fixed
        .iter()
        .filter(|r| (range.0..range.1).contains(&r.from.unwrap_or(0)))
        .filter_map(|r| r.value)
        .collect();
    let chosen = if !inside.is_empty() && rng.chance(80) {
        rng.pick(&inside)
    } else {
        value(rng)
    };
    if cuts_use(fixed, range, chosen) && !rng.chance(4) {
        9
    } else {
        chosen
    }
}

/// What the virtual registers of a job have in common.
struct Setting<'a> {
    shape: &'a Shape,
    points: Points,
    classes: usize,
    registers: usize,
    fixed: &'a [Reservation],
    palette: Palette,
    /// Chance of a short live range, in percent.
    short: usize,
    /// Chance of an infinite spill weight, in percent.
    infinite: usize,
    /// The class of each set met so far: numbers of one set share it.
    set_classes: Vec<(u16, u8)>,
}

impl<'a> Setting<'a> {
    fn new(
        rng: &mut Rng,
        shape: &'a Shape,
        points: Points,
        (classes, registers): (usize, usize),
        fixed: &'a [Reservation],
    ) -> Self {
        let palettes = [
            Palette::Mixed,
            Palette::Mixed,
            Palette::Equal,
            Palette::Heavy,
        ];
        Setting {
            shape,
            points,
            classes,
            registers,
            fixed,
            palette: rng.pick(&palettes),
            short: rng.pick(&[0, 60, 90]),
            infinite: rng.pick(&[0, 0, 10, 30]),
            set_classes: Vec::new(),
        }
    }

    fn virt_regs(&mut self, rng: &mut Rng) -> Vec<VirtReg> {
        let none = rng.chance(2);
        let count = if none {
            0
        } else {
            rng.between(1, self.shape.virt_regs)
        };
        (0..count)
            .map(|number| self.virt_reg(rng, number))
            .collect()
    }

    fn class_of(&mut self, rng: &mut Rng, set: u16) -> u8 {
        if let Some((_, class)) = self.set_classes.iter().find(|(s, _)| *s == set) {
            return *class;
        }
        let class = rng.below(self.classes) as u8;
        self.set_classes.push((set, class));
        class
    }

    fn hints(&self, rng: &mut Rng) -> Option<Vec<(u8, u32)>> {
        if self.registers == 0 || rng.chance(40) {
            return None;
        }
        let count = rng.between(1, self.shape.hints);
        Some(
            (0..count)
                .map(|_| {
                    (
                        rng.below(self.registers) as u8,
                        hint_weight(rng, self.palette),
                    )
                })
                .collect(),
        )
    }

    fn virt_reg(&mut self, rng: &mut Rng, number: usize) -> VirtReg {
        let set = if rng.chance(30) {
            Some(rng.below(4) as u16)
        } else {
            None
        };
        let class = self.class_of(rng, set.unwrap_or(number as u16));
        let spill = spill_weight(rng, self.infinite);
        let size = match rng.below(20) {
            0 => rng.pick(&[(1 << 27) - 2, (1 << 27) - 1, 1 << 27, u32::MAX]),
            _ => rng.below(4) as u32,
        };
        let points = if rng.chance(self.short) {
            self.points.window(rng)
        } else {
            self.points
        };
        let ranges = points.ranges(rng, self.shape.segments);
        let segments = ranges
            .into_iter()
            .map(|(from, to)| Segment {
                from,
                to,
                value: segment_value(rng, self.fixed, (from, to)),
            })
            .collect();
        VirtReg {
            class: unless_default(rng, class, 0),
            set,
            spill: unless_default(rng, spill, 0),
            size: unless_default(rng, size, 0),
            hints: self.hints(rng),
            segments: Some(segments),
            stray_bits: 0,
        }
    }
}

/// Units for a job's registers: mostly the first ones, else any of the 64.
fn unit_pool(rng: &mut Rng, most: usize) -> Vec<u8> {
    let mut units: Vec<u8> = (0..64).collect();
    if rng.chance(15) {
        rng.shuffle(&mut units);
    }
    units.truncate(rng.between(1, most).max(rng.between(1, most)));
    units
}

/// Points from 0, or now and then the last ones there are.
fn job_points(rng: &mut Rng, shape: &Shape) -> Points {
    let count = rng.between(2, shape.instructions);
    let first = if rng.chance(3) {
        (u32::MAX - 3) - 4 * (count as u32 - 1)
    } else {
        0
    };
    // The end of a def must be a point too, so the last instruction is spared.
    if first == 0 {
        Points { first, count }
    } else {
        Points {
            first,
            count: count - 1,
        }
    }
}

fn job_budget(rng: &mut Rng) -> Option<u32> {
    match rng.below(10) {
        0 | 1 => Some(rng.below(8) as u32),
        2 => Some(rng.pick(&[10, 20, 1_000, 100_000, u32::MAX])),
        _ => None,
    }
}

fn valid(rng: &mut Rng, shape: &Shape) -> Job {
    let units = unit_pool(rng, shape.units);
    let register_count = match rng.below(50) {
        0 => 0,
        1..=15 => rng.between(1, shape.registers),
        _ => shape.registers,
    };
    let registers = registers(rng, register_count, &units);
    let class_count = rng.between(1, shape.classes);
    let classes: Vec<Vec<u8>> = (0..class_count)
        .map(|_| class(rng, registers.len()))
        .collect();
    let points = job_points(rng, shape);
    let fixed = match rng.chance(70) {
        true => fixed_reservations(rng, &units, points, shape.fixed),
        false => Vec::new(),
    };
    let counts = (classes.len(), registers.len());
    let virt_regs = Setting::new(rng, shape, points, counts, &fixed).virt_regs(rng);
    let probe = if rng.chance(40) {
        Some(points.range(rng))
    } else {
        None
    };
    let extra_bits = if rng.chance(10) {
        rng.below(16) as u8
    } else {
        0
    };
    let budget = job_budget(rng);
    Job {
        registers,
        classes,
        fixed,
        virt_regs,
        probe,
        budget,
        extra_bits,
    }
}

// ---------------------------------------------------------------------------
// Large jobs
// ---------------------------------------------------------------------------

/// 512 virtual registers of one segment each over registers of which some
/// pairs share a unit: long chains of evictions, as in a large function.
fn large(rng: &mut Rng) -> Job {
    let register_count = rng.pick(&[8, 16, 24, 32]);
    let mut registers: Vec<u64> = (0..register_count).map(|r| 1u64 << r).collect();
    for r in 0..register_count / 4 {
        registers.push(0b11 << (2 * r));
    }
    let class_of = |keep: fn(usize) -> bool, rng: &mut Rng| {
        let mut class: Vec<u8> = (0..registers.len())
            .filter(|r| keep(*r))
            .map(|r| r as u8)
            .collect();
        rng.shuffle(&mut class);
        class
    };
    let singles: Vec<u8> = (0..register_count as u8).collect();
    let classes = vec![
        singles,
        class_of(|r| r % 2 == 0, rng),
        class_of(|_| true, rng),
    ];
    let instructions = rng.pick(&[200, 400, 800]);
    let points = Points {
        first: 0,
        count: instructions,
    };
    let units: Vec<u8> = (0..register_count as u8).collect();
    let fixed = large_fixed(rng, &units, points);
    let virt_regs = (0..512)
        .map(|number| large_virt_reg(rng, number, points, &fixed, registers.len()))
        .collect();
    Job {
        registers,
        classes,
        fixed,
        virt_regs,
        ..Default::default()
    }
}

/// Fixed uses and defs here and there, one or two calls' worth for each unit.
fn large_fixed(rng: &mut Rng, units: &[u8], points: Points) -> Vec<Reservation> {
    let mut fixed = Vec::new();
    for &unit in units {
        let mut at = 4 * rng.below(points.count / 4) as u32;
        while at + 8 < points.past_end() && fixed.len() < 500 {
            let unit = Some(unit);
            let from = Some(at);
            if rng.chance(60) {
                let value = Some(rng.below(64) as u16);
                fixed.push(Reservation {
                    unit,
                    from,
                    value,
                    ..Default::default()
                });
            } else {
                fixed.push(Reservation {
                    unit,
                    from,
                    to: Some(at + 4),
                    ..Default::default()
                });
            }
            at += 4 * rng.between(1, points.count / 2) as u32;
        }
    }
    fixed
}

fn large_hints(rng: &mut Rng, registers: usize) -> Option<Vec<(u8, u32)>> {
    if !rng.chance(40) {
        return None;
    }
    let count = rng.between(1, 3);
    let hint = |_| {
        let register = rng.below(registers) as u8;
        (register, (0.5 * rng.between(1, 40) as f32).to_bits())
    };
    Some((0..count).map(hint).collect())
}

fn large_virt_reg(
    rng: &mut Rng,
    number: usize,
    points: Points,
    fixed: &[Reservation],
    registers: usize,
) -> VirtReg {
    let instructions = match rng.below(10) {
        0 => rng.between(1, points.count / 2),
        1..=4 => rng.between(1, 40),
        _ => rng.between(1, 12),
    };
    let start = rng.below(points.count - instructions) as u32;
    let range = (
        4 * start + rng.pick(&[0, 2]),
        4 * (start + instructions as u32),
    );
    let value = match rng.chance(50) {
        true => segment_value(rng, fixed, range),
        false => rng.below(64) as u16,
    };
    let hints = large_hints(rng, registers);
    // The first three numbers' own sets are those that each class shares.
    let class = if number < 3 {
        number as u8
    } else {
        rng.pick(&[0, 0, 1, 2])
    };
    let set = if rng.chance(20) {
        Some(class as u16)
    } else {
        None
    };
    let short = instructions == 1 && rng.chance(20);
    let spill = if short {
        INFINITE
    } else {
        (rng.between(1, 400) as f32 / instructions as f32).to_bits()
    };
    VirtReg {
        class: unless_default(rng, class, 0),
        set,
        spill: Some(spill),
        size: Some(instructions as u32),
        hints,
        segments: Some(vec![Segment {
            from: range.0,
            to: range.1,
            value,
        }]),
        stray_bits: 0,
    }
}

// ---------------------------------------------------------------------------
// Jobs at the limits
// ---------------------------------------------------------------------------

/// A job of one register, one class and nothing else.
fn bare() -> Job {
    Job {
        registers: vec![1],
        classes: vec![vec![0]],
        ..Default::default()
    }
}

/// Virtual registers that share `segments` segments as evenly as can be.
fn spread_segments(count: usize, segments: usize) -> Vec<VirtReg> {
    (0..count)
        .map(|v| {
            let own = segments / count + (v < segments % count) as usize;
            let segments = (0..own)
                .map(|s| 8 * s as u32)
                .map(|at| Segment {
                    from: at,
                    to: at + 4,
                    value: v as u16,
                })
                .collect();
            VirtReg {
                segments: Some(segments),
                size: Some(v as u32 / 3),
                ..Default::default()
            }
        })
        .collect()
}

fn spread_hints(rng: &mut Rng, virt_regs: &mut [VirtReg], hints: usize, registers: usize) {
    let count = virt_regs.len();
    for (v, virt_reg) in virt_regs.iter_mut().enumerate() {
        let own = hints / count + (v < hints % count) as usize;
        let some = (0..own)
            .map(|_| (rng.below(registers) as u8, hint_weight(rng, Palette::Mixed)))
            .collect();
        virt_reg.hints = if own == 0 { None } else { Some(some) };
    }
}

fn spread_fixed(count: usize, units: usize) -> Vec<Reservation> {
    (0..count)
        .map(|i| {
            let at = 12 * (i / units) as u32;
            let is_use = i % 3 != 0;
            Reservation {
                unit: Some((i % units) as u8),
                from: Some(at),
                to: if is_use { None } else { Some(at + 4) },
                value: if is_use { Some((i % 5) as u16) } else { None },
                stray_bits: 0,
            }
        })
        .collect()
}

/// Every table at its limit at once: the longest job without a refusal.
fn everything(rng: &mut Rng) -> Job {
    let registers: Vec<u64> = (0..64)
        .map(|r| 1u64 << r | 1u64 << ((r + 1) % 64))
        .collect();
    let classes = (0..16)
        .map(|_| {
            let mut c: Vec<u8> = (0..64).collect();
            rng.shuffle(&mut c);
            c
        })
        .collect();
    let mut virt_regs = spread_segments(512, 512);
    spread_hints(rng, &mut virt_regs, 1024, 64);
    for (v, virt_reg) in virt_regs.iter_mut().enumerate() {
        virt_reg.class = Some((v % 16) as u8);
        virt_reg.set = Some(v as u16);
        virt_reg.spill = Some(spill_weight(rng, 0));
    }
    let fixed = spread_fixed(512, 64);
    Job {
        registers,
        classes,
        fixed,
        virt_regs,
        probe: Some((4, 8)),
        budget: Some(5_000),
        extra_bits: 0,
    }
}

const LIMITS: usize = 22;

/// The limit with number `which`, met exactly, or passed by `over` of 1.
fn limit(rng: &mut Rng, which: usize, over: usize) -> Job {
    let mut job = bare();
    match which {
        0 => {
            job.registers = (0..64 + over)
                .map(|r| if r < 64 { 1u64 << r } else { 3 })
                .collect()
        }
        1 => job.registers = vec![[0xF, 0x1F][over] << rng.below(60), 1 << rng.below(4)],
        2 => job.registers = vec![[1u64 << 63, 0][over]],
        3 => job.classes = vec![vec![0]; 16 + over],
        4 => {
            job.registers = (0..64).map(|r| 1u64 << r).collect();
            job.classes = vec![(0..64 + over as u8).map(|r| r % 64).collect(); 16];
        }
        5 => {
            job.registers = (0..64).map(|r| 1u64 << r).collect();
            job.classes = vec![vec![63 + over as u8]];
        }
        6 => job.fixed = spread_fixed(512 + over, rng.pick(&[1, 3, 64])),
        7 => {
            job.fixed = vec![Reservation {
                unit: Some(63 + over as u8),
                value: Some(0),
                ..Default::default()
            }]
        }
        8 => job.virt_regs = spread_segments(512 + over, 512 + over),
        _ => limit_of_virt_regs(rng, which, over, &mut job),
    }
    job
}

fn limit_of_virt_regs(rng: &mut Rng, which: usize, over: usize, job: &mut Job) {
    job.virt_regs = spread_segments(2, 2);
    match which {
        9 => job.virt_regs = spread_segments(rng.pick(&[1, 2, 8, 100, 511]), 512 + over),
        10 => {
            // Only the second one goes above, so that the first table stands.
            spread_hints(rng, &mut job.virt_regs, 64, 1);
            job.virt_regs[1].hints = Some(vec![(0, hint_weight(rng, Palette::Mixed)); 64 + over]);
        }
        11 => {
            job.virt_regs = spread_segments(17, 17);
            spread_hints(rng, &mut job.virt_regs, 1024 + over, 1);
        }
        12 => {
            job.virt_regs = spread_segments(16, 16);
            spread_hints(rng, &mut job.virt_regs, 1024, 1);
            let mut one_more = spread_segments(1, 1);
            spread_hints(rng, &mut one_more, over, 1);
            job.virt_regs.append(&mut one_more);
        }
        13 => job.virt_regs[1].set = Some(511 + over as u16),
        14 => {
            job.classes = vec![vec![0]; 16];
            job.virt_regs[1].class = Some(15 + over as u8);
        }
        15 => {
            job.registers = (0..64).map(|r| 1u64 << r).collect();
            job.virt_regs[0].hints =
                Some(vec![(63 + over as u8, hint_weight(rng, Palette::Mixed))]);
        }
        16 => limit_of_sizes(rng, job),
        17 => limit_of_points(rng, over, job),
        18 => job.virt_regs[0].hints = Some(vec![(0, LARGEST + over as u32)]),
        19 => {
            job.virt_regs[0].spill = Some(INFINITE + over as u32);
            job.virt_regs[1].size = Some(9);
        }
        20 => job.budget = Some([u32::MAX, 0][over]),
        _ => *job = everything(rng),
    }
}

/// Sizes on both sides of the greatest one that the queue tells apart.
fn limit_of_sizes(rng: &mut Rng, job: &mut Job) {
    job.virt_regs = spread_segments(4, 4);
    for virt_reg in &mut job.virt_regs {
        virt_reg.size = Some(rng.pick(&[
            (1 << 27) - 2,
            (1 << 27) - 1,
            1 << 27,
            (1 << 27) + 1,
            u32::MAX,
        ]));
        virt_reg.spill = Some(spill_weight(rng, 0));
    }
    if rng.chance(50) {
        spread_hints(rng, &mut job.virt_regs, 2, 1);
    }
}

/// The last points: 2^32 - 4 at Boundary to 2^32 - 2 at Normal.
fn limit_of_points(rng: &mut Rng, over: usize, job: &mut Job) {
    let last = u32::MAX - 1 + over as u32;
    job.probe = Some((last - 2, last));
    job.virt_regs[0].segments = Some(vec![Segment {
        from: last - 2 - over as u32,
        to: last,
        value: 1,
    }]);
    let value = Some(rng.below(3) as u16);
    job.fixed = vec![Reservation {
        from: Some(u32::MAX - 3 + over as u32),
        value,
        ..Default::default()
    }];
    match rng.below(3) {
        0 => job.fixed.clear(),
        1 => job.probe = None,
        _ => {}
    }
}

fn limits(rng: &mut Rng, index: usize) -> Vec<u8> {
    let which = index % (LIMITS + 4);
    let over = index / (LIMITS + 4) % 2;
    if which < LIMITS {
        return Written::job(&limit(rng, which, over)).bytes;
    }
    // The length of a job is tested ahead of all its fields.
    let mut bytes = match which - LIMITS {
        0 => Written::job(&everything(rng)).bytes,
        1 => Written::job(&valid(rng, &SMALL)).bytes,
        2 => Vec::new(),
        _ => (0..100).map(|_| rng.below(256) as u8).collect(),
    };
    bytes.resize(32_767 + rng.below(2) + over, 0);
    if over == 1 && rng.chance(50) {
        bytes.resize(32_769 + rng.below(1_000), 0);
    }
    bytes
}

// ---------------------------------------------------------------------------
// Damaged jobs
// ---------------------------------------------------------------------------

fn a_virt_reg<'a>(rng: &mut Rng, job: &'a mut Job) -> Option<&'a mut VirtReg> {
    let at = rng.below(job.virt_regs.len());
    job.virt_regs.get_mut(at)
}

fn a_segment<'a>(rng: &mut Rng, job: &'a mut Job) -> Option<&'a mut Segment> {
    let segments = a_virt_reg(rng, job)?.segments.as_mut()?;
    let at = rng.below(segments.len());
    segments.get_mut(at)
}

fn a_reservation<'a>(rng: &mut Rng, job: &'a mut Job) -> Option<&'a mut Reservation> {
    let at = rng.below(job.fixed.len());
    job.fixed.get_mut(at)
}

/// A hint of a virtual register, which gets one if it has none.
fn a_hint<'a>(rng: &mut Rng, job: &'a mut Job) -> Option<&'a mut (u8, u32)> {
    let hints = a_virt_reg(rng, job)?
        .hints
        .get_or_insert_with(|| vec![(0, 0)]);
    let at = rng.below(hints.len());
    hints.get_mut(at)
}

fn bad_weight(rng: &mut Rng) -> u32 {
    rng.pick(&[
        0x8000_0000,
        0xBF80_0000,
        0x7F80_0001,
        0x7FC0_0000,
        0xFFFF_FFFF,
        0xFF80_0000,
        INFINITE,
    ])
}

/// Numbers just above the limits, and the greatest.
fn unknown(rng: &mut Rng, known: usize) -> u8 {
    rng.pick(&[known, known + 1, 64, 65, 255]).clamp(known, 255) as u8
}

/// Bits of a map byte without a meaning (3), or the wrong ones of a reservation.
fn damage_map(rng: &mut Rng, job: &mut Job) -> Option<()> {
    match rng.below(4) {
        0 => job.extra_bits |= rng.pick(&[0x40, 0x80, 0xC0]),
        1 => a_reservation(rng, job)?.stray_bits = rng.pick(&[0x10, 0x20, 0x40, 0x80]),
        2 => a_virt_reg(rng, job)?.stray_bits = rng.pick(&[0x40, 0x80]),
        _ => {
            let both = rng.chance(50);
            let r = a_reservation(rng, job)?;
            (r.to, r.value) = if both {
                (Some(r.from?.wrapping_add(4)), Some(1))
            } else {
                (None, None)
            };
        }
    }
    Some(())
}

/// Too many units (4), and what is empty (5).
fn damage_sizes(rng: &mut Rng, job: &mut Job) -> Option<()> {
    match rng.below(8) {
        0 => *job.registers.last_mut()? = 0,
        1 => *job.registers.last_mut()? = 0x1F << rng.below(59),
        2 => a_virt_reg(rng, job)?.hints = Some(Vec::new()),
        3 => a_virt_reg(rng, job)?.segments = None,
        4 => a_virt_reg(rng, job)?.segments = Some(Vec::new()),
        5 => {
            let less = rng.pick(&[0, 0, 1, 4]);
            let segment = a_segment(rng, job)?;
            segment.to = segment.from.saturating_sub(less);
        }
        6 => {
            let r = a_reservation(rng, job)?;
            (r.to, r.value) = (r.from, None);
        }
        _ => {
            job.probe = job
                .probe
                .map(|(from, to)| if from % 2 == 0 { (to, from) } else { (to, to) })
        }
    }
    Some(())
}

/// Points with slot 3, uses off Boundary, defs that end off it (6).
fn damage_points(rng: &mut Rng, job: &mut Job) -> Option<()> {
    let slot = rng.pick(&[1, 2, 3]);
    match rng.below(6) {
        0 => a_segment(rng, job)?.to |= 3,
        1 => a_segment(rng, job)?.from |= 3,
        2 => job.probe = job.probe.map(|(from, to)| (from, to | 3)),
        3 => {
            job.probe = job
                .probe
                .map(|(from, to)| (from | 3, to.max(from | 3).saturating_add(1)))
        }
        _ => {
            let r = a_reservation(rng, job)?;
            match &mut r.to {
                Some(to) => *to = (*to & !3) + slot,
                None => r.from = Some((r.from.unwrap_or(0) & !3) + slot),
            }
        }
    }
    Some(())
}

/// Segments or reservations that come before the previous one ends (7).
fn damage_order(rng: &mut Rng, job: &mut Job) -> Option<()> {
    if rng.chance(50) {
        let segments = a_virt_reg(rng, job)?.segments.as_mut()?;
        let again = *segments.last()?;
        if segments.len() > 1 && rng.chance(60) {
            segments.swap(0, 1)
        } else {
            segments.push(again)
        }
    } else if job.fixed.len() > 1 && rng.chance(50) {
        let at = rng.below(job.fixed.len() - 1);
        job.fixed.swap(at, at + 1);
    } else {
        let again = *a_reservation(rng, job)?;
        job.fixed.push(again);
    }
    Some(())
}

/// Numbers that name nothing (8) and weights that are none (9).
fn damage_numbers(rng: &mut Rng, job: &mut Job) -> Option<()> {
    let (registers, classes) = (job.registers.len(), job.classes.len());
    match rng.below(9) {
        0 => job.classes.last_mut()?.push(unknown(rng, registers)),
        1 => job.registers.truncate(registers.checked_sub(1)?),
        2 => a_virt_reg(rng, job)?.class = Some(unknown(rng, classes)),
        3 => a_reservation(rng, job)?.unit = Some(unknown(rng, 64)),
        4 => a_virt_reg(rng, job)?.set = Some(rng.pick(&[512, 513, 1_024, u16::MAX])),
        5 => a_hint(rng, job)?.0 = unknown(rng, registers),
        6 => a_virt_reg(rng, job)?.spill = Some(bad_weight(rng)),
        _ => a_hint(rng, job)?.1 = bad_weight(rng),
    }
    Some(())
}

/// What is tested after the fields: twins (10), mixed sets (11), cut uses (12).
fn damage_whole(rng: &mut Rng, job: &mut Job) -> Option<()> {
    match rng.below(5) {
        0 => {
            let twin = *job.registers.first()?;
            job.registers.push(twin);
        }
        1 => {
            let class = job.classes.last_mut()?;
            let twice = *class.first()?;
            class.push(twice);
        }
        2 => {
            job.classes.push(Vec::new());
            let other = (job.classes.len() - 1) as u8;
            let last = job.virt_regs.len().checked_sub(2)?;
            job.virt_regs[last + 1].class = Some(other);
            // An absent set is the virtual register's own number.
            let set = job.virt_regs[last].set.unwrap_or(last as u16);
            job.virt_regs[last + 1].set = Some(set);
        }
        _ => {
            let uses: Vec<Reservation> = job
                .fixed
                .iter()
                .filter(|r| r.value.is_some())
                .copied()
                .collect();
            let cut = *uses.get(rng.below(uses.len()))?;
            let at = cut.from.unwrap_or(0).checked_add(1)?;
            let range = if rng.chance(50) {
                (at, at.checked_add(7)?)
            } else {
                (at - 1, at)
            };
            let segment = Segment {
                from: range.0,
                to: range.1,
                value: cut.value?,
            };
            a_virt_reg(rng, job)?.segments = Some(vec![segment]);
        }
    }
    Some(())
}

/// Several things wrong with one field: its lowest number counts.
fn damage_one_field(rng: &mut Rng, job: &mut Job) -> Option<()> {
    let odd = |rng: &mut Rng| rng.pick(&[0, 1, 3, 4, 7, 8, u32::MAX, u32::MAX - 3]);
    match rng.below(3) {
        0 => {
            let (from, to) = (odd(rng), odd(rng));
            let segment = a_segment(rng, job)?;
            (segment.from, segment.to) = (from, to);
        }
        1 => {
            let (from, to, unit) = (odd(rng), odd(rng), unknown(rng, 63));
            let stray_bits = rng.pick(&[0, 0, 0x10]);
            let r = a_reservation(rng, job)?;
            *r = Reservation {
                unit: Some(unit),
                from: Some(from),
                to: r.to.map(|_| to),
                value: r.value,
                stray_bits,
            };
        }
        _ => *a_hint(rng, job)? = (unknown(rng, 0), bad_weight(rng)),
    }
    Some(())
}

fn damage_job(rng: &mut Rng, job: &mut Job) {
    let damage = rng.pick(&[
        damage_map,
        damage_sizes,
        damage_points,
        damage_order,
        damage_numbers,
        damage_whole,
        damage_whole,
        damage_one_field,
    ]);
    // A job without the damaged part stays as it is: the next may have it.
    let _ = damage(rng, job);
}

fn a_mark(rng: &mut Rng, written: &Written, field: Field) -> Option<Mark> {
    let marks: Vec<Mark> = written
        .marks
        .iter()
        .filter(|m| m.field == field)
        .copied()
        .collect();
    if marks.is_empty() {
        None
    } else {
        Some(rng.pick(&marks))
    }
}

fn change_count(rng: &mut Rng, written: &mut Written) -> Option<()> {
    let mark = a_mark(rng, written, Field::Count)?;
    let low = written.bytes[mark.at];
    let (limit, limit_high) = if mark.length == 1 {
        (rng.pick(&[17, 65]), 0)
    } else {
        (1, 2)
    };
    (
        written.bytes[mark.at],
        written.bytes[mark.at + mark.length - 1],
    ) = match rng.below(5) {
        0 => (
            low.wrapping_add(1),
            written.bytes[mark.at + mark.length - 1],
        ),
        1 => (
            low.saturating_sub(1),
            written.bytes[mark.at + mark.length - 1],
        ),
        2 => (0, 0),
        3 => (255, 255),
        _ => (limit, limit_high),
    };
    if mark.length == 1 && rng.chance(50) {
        written.bytes[mark.at] = limit;
    }
    Some(())
}

/// Changes to the written bytes, from whole fields down to single bits.
fn damage_bytes(rng: &mut Rng, written: &mut Written) -> Option<()> {
    let length = written.bytes.len();
    match rng.below(9) {
        0 | 1 => written.bytes.truncate(rng.below(length)),
        2 => written
            .bytes
            .extend((0..rng.between(1, 3)).map(|_| rng.below(256) as u8)),
        3 | 4 => change_count(rng, written)?,
        5 => {
            let mark = a_mark(rng, written, Field::Map)?;
            written.bytes[mark.at] ^= 1 << rng.below(8);
        }
        6 => {
            let mark = a_mark(rng, written, Field::Point)?;
            written.bytes[mark.at] ^= rng.pick(&[1, 2, 3, 4, 8]);
        }
        7 => {
            let field = rng.pick(&[Field::Weight, Field::Number]);
            let mark = a_mark(rng, written, field)?;
            written.bytes[mark.at + mark.length - 1] ^= rng.pick(&[0x80, 0x40, 0x7F, 0xFF]);
        }
        _ => {
            let at = rng.below(length);
            written.bytes[at] = rng.below(256) as u8;
        }
    }
    Some(())
}

fn damaged(rng: &mut Rng) -> Vec<u8> {
    if rng.chance(1) {
        return (0..rng.below(30)).map(|_| rng.below(256) as u8).collect();
    }
    let shape = if rng.chance(30) { &TINY } else { &SMALL };
    let mut job = valid(rng, shape);
    let both = rng.chance(15);
    let in_job = rng.chance(65);
    if in_job || both {
        // Two damages show which of two refusals comes first.
        (0..rng.pick(&[1, 1, 1, 2, 3])).for_each(|_| damage_job(rng, &mut job));
    }
    let mut written = Written::job(&job);
    if !in_job || both {
        let _ = damage_bytes(rng, &mut written);
    }
    written.bytes
}

// ---------------------------------------------------------------------------
// Scripts
// ---------------------------------------------------------------------------

/// A register that a direct placement of this number may name: from its class
/// or from a hint of a member of its set.
fn nameable(rng: &mut Rng, job: &Job, number: usize) -> Option<u8> {
    let virt_reg = job.virt_regs.get(number)?;
    let set_of = |v: usize| job.virt_regs[v].set.unwrap_or(v as u16);
    let mut names: Vec<u8> = job
        .classes
        .get(virt_reg.class.unwrap_or(0) as usize)?
        .clone();
    for v in (0..job.virt_regs.len()).filter(|v| set_of(*v) == set_of(number)) {
        names.extend(
            job.virt_regs[v]
                .hints
                .iter()
                .flatten()
                .map(|(register, _)| *register),
        );
    }
    if names.is_empty() {
        None
    } else {
        Some(rng.pick(&names))
    }
}

/// Which numbers hold a register, as far as the calls so far tell: a guess,
/// so that most placements and evictions find the standing they need.
type Guess = Vec<bool>;

/// A number, mostly one that is guessed to hold a register or not, as asked.
fn a_number(rng: &mut Rng, guess: &Guess, holds: bool) -> usize {
    if rng.chance(3) {
        return rng.pick(&[guess.len(), 511, 512, 65_535]);
    }
    let fit: Vec<usize> = (0..guess.len()).filter(|v| guess[*v] == holds).collect();
    if fit.is_empty() || rng.chance(15) {
        rng.below(guess.len())
    } else {
        rng.pick(&fit)
    }
}

fn call_place(rng: &mut Rng, job: &Job, guess: &mut Guess, out: &mut Vec<u8>) {
    let number = a_number(rng, guess, false);
    if let Some(holds) = guess.get_mut(number) {
        *holds = true;
    }
    let register = match nameable(rng, job, number) {
        Some(register) if !rng.chance(4) => register,
        _ => rng.pick(&[0, 1, 3, job.registers.len() as u8, 64, 255]),
    };
    let weight = if rng.chance(4) {
        bad_weight(rng)
    } else {
        hint_weight(rng, Palette::Mixed)
    };
    out.push(1);
    out.extend((number as u16).to_le_bytes());
    out.push(register);
    out.extend(weight.to_le_bytes());
}

fn call_evict(rng: &mut Rng, guess: &mut Guess, out: &mut Vec<u8>) {
    let number = a_number(rng, guess, true);
    if let Some(holds) = guess.get_mut(number) {
        *holds = false;
    }
    out.push(2);
    out.extend((number as u16).to_le_bytes());
}

fn call_run(rng: &mut Rng, guess: &mut Guess, out: &mut Vec<u8>) {
    let budget = match rng.below(4) {
        0 => rng.pick(&[1_000, 100_000, u32::MAX]),
        _ => rng.below(8) as u32,
    };
    // Each dequeue places one, as long as there is one to place.
    for holds in guess
        .iter_mut()
        .filter(|holds| !**holds)
        .take(budget as usize)
    {
        *holds = true;
    }
    out.push(3);
    out.extend(budget.to_le_bytes());
}

/// A point of the job, so that questions meet its segments and reservations.
fn a_point(rng: &mut Rng, job: &Job, points: Points) -> u32 {
    let mut known: Vec<u32> = job.fixed.iter().map(|r| r.from.unwrap_or(0)).collect();
    for virt_reg in &job.virt_regs {
        known.extend(
            virt_reg
                .segments
                .iter()
                .flatten()
                .flat_map(|s| [s.from, s.to]),
        );
    }
    if known.is_empty() || rng.chance(50) {
        points.any(rng)
    } else {
        rng.pick(&known)
    }
}

fn call_check(rng: &mut Rng, job: &Job, points: Points, out: &mut Vec<u8>) {
    let known = job.registers.len();
    let register = if known == 0 || rng.chance(3) {
        unknown(rng, known)
    } else {
        rng.below(known) as u8
    };
    let count = if rng.chance(4) { 0 } else { rng.between(1, 3) };
    let mut ends: Vec<u32> = (0..2 * count).map(|_| a_point(rng, job, points)).collect();
    if !rng.chance(3) {
        ends.sort();
    }
    // A long segment meets fixed uses past the end of an entry with an index.
    if let Some(last) = ends.last_mut().filter(|_| rng.chance(40)) {
        *last = (*last).max(points.past_end());
    }
    out.push(rng.pick(&[4, 5]));
    out.push(register);
    out.push(count as u8);
    for pair in ends.chunks_exact_mut(2) {
        // Equal points are an empty range, a question that is refused.
        if pair[0] == pair[1] && pair[0] % 4 < 2 && !rng.chance(5) {
            pair[1] += 1;
        }
        if rng.chance(2) {
            pair[1] |= 3;
        }
        out.extend(pair[0].to_le_bytes());
        out.extend(pair[1].to_le_bytes());
        out.extend(value(rng).to_le_bytes());
    }
}

fn call_spare(rng: &mut Rng, job: &Job, points: Points, out: &mut Vec<u8>) {
    let units = job.registers.iter().fold(0, |all, r| all | r);
    let own: Vec<u8> = (0..64).filter(|u| units >> u & 1 == 1).collect();
    let unit = if own.is_empty() || rng.chance(5) {
        rng.pick(&[0, 7, 63, 64, 255])
    } else {
        rng.pick(&own)
    };
    let (mut from, mut to) = points.range(rng);
    match rng.below(40) {
        0 => from |= 3,
        1 => to |= 3,
        2 => (from, to) = (to, from),
        _ => {}
    }
    out.push(6);
    out.push(unit);
    out.extend(from.to_le_bytes());
    out.extend(to.to_le_bytes());
}

/// Ends the calls in a way that no transcript accepts: a cut or an unknown kind.
fn spoil(rng: &mut Rng, calls: &mut Vec<u8>) {
    if rng.chance(50) {
        calls.push(rng.pick(&[0, 7, 8, 255]));
    } else {
        calls.truncate(calls.len() - 1);
    }
}

/// Gives a job fixed uses inside the segment of its first virtual register
/// and past it, for checks that walk over them; the first call places it. No
/// sheet shows that walk.
fn line_up_uses(rng: &mut Rng, job: &mut Job, calls: &mut Vec<u8>) {
    calls.extend([1, 0, 0, 0, 0, 0, 0, 0]);
    (job.registers, job.classes) = (vec![1, 2], vec![vec![0, 1]]);
    let to = rng.pick(&[6, 10, 14]);
    job.fixed.clear();
    for from in [0, 4, 8, 12, 16]
        .into_iter()
        .filter(|_| rng.chance(70))
        .collect::<Vec<u32>>()
    {
        let value = if from < to { 1 } else { rng.below(3) as u16 };
        job.fixed.push(Reservation {
            from: Some(from),
            value: Some(value),
            ..Default::default()
        });
    }
    job.virt_regs.truncate(3);
    job.virt_regs
        .resize(job.virt_regs.len().max(1), VirtReg::default());
    for v in &mut job.virt_regs {
        (v.class, v.hints) = (None, None);
        v.segments.iter_mut().flatten().for_each(|s| s.value = 9);
    }
    job.virt_regs[0].segments = Some(vec![Segment {
        from: 0,
        to,
        value: 1,
    }]);
}

fn script(rng: &mut Rng, shape: &Shape) -> Vec<u8> {
    let mut job = valid(rng, shape);
    let mut calls = Vec::new();
    match rng.below(100) {
        0 | 1 => damage_job(rng, &mut job),
        2..=21 => line_up_uses(rng, &mut job, &mut calls),
        _ => {}
    }
    let points = Points {
        first: 0,
        count: shape.instructions,
    };
    let mut guess = vec![false; job.virt_regs.len()];
    for _ in 0..rng.between(1, 12) {
        match rng.below(20) {
            0..=6 if guess.contains(&false) => call_place(rng, &job, &mut guess, &mut calls),
            2..=10 if guess.contains(&true) => call_evict(rng, &mut guess, &mut calls),
            0..=9 => call_place(rng, &job, &mut guess, &mut calls),
            10 => call_evict(rng, &mut guess, &mut calls),
            11..=14 => call_run(rng, &mut guess, &mut calls),
            15..=17 => call_check(rng, &job, points, &mut calls),
            _ => call_spare(rng, &job, points, &mut calls),
        }
    }
    if rng.chance(3) {
        spoil(rng, &mut calls);
    }
    let bytes = Written::job(&job).bytes;
    let mut out = (bytes.len() as u32).to_le_bytes().to_vec();
    out.extend(bytes);
    out.extend(calls);
    out
}

// ---------------------------------------------------------------------------
// The command
// ---------------------------------------------------------------------------

const KINDS: [&str; 7] = [
    "small",
    "tiny",
    "limits",
    "large",
    "damaged",
    "scripts",
    "tiny-scripts",
];

fn input(kind: usize, seed: u64, index: usize) -> Vec<u8> {
    // Three draws set kinds, seeds and places far apart from each other.
    let mut state = Rng(seed);
    state.0 = state.next() ^ kind as u64;
    state.0 = state.next() ^ index as u64;
    let rng = &mut Rng(state.next());
    match kind {
        0 => Written::job(&valid(rng, &SMALL)).bytes,
        1 => Written::job(&valid(rng, &TINY)).bytes,
        2 => limits(rng, index),
        3 => Written::job(&large(rng)).bytes,
        4 => damaged(rng),
        5 => script(rng, &SMALL),
        _ => script(rng, &TINY),
    }
}

fn arguments() -> Option<(usize, u64, usize)> {
    let words: Vec<String> = std::env::args().skip(1).collect();
    let [kind, seed, count] = words.as_slice() else {
        return None;
    };
    let kind = KINDS.iter().position(|k| k == kind)?;
    Some((kind, seed.parse().ok()?, count.parse().ok()?))
}

fn main() -> io::Result<()> {
    let Some((kind, seed, count)) = arguments() else {
        eprintln!(
            "usage: generate KIND SEED COUNT, where KIND is one of {}",
            KINDS.join(", ")
        );
        std::process::exit(2);
    };
    let mut out = BufWriter::new(io::stdout().lock());
    for index in 0..count {
        let bytes = input(kind, seed, index);
        out.write_all(&(bytes.len() as u32).to_le_bytes())?;
        out.write_all(&bytes)?;
    }
    out.flush()
}
