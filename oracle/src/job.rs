//! The job: its bytes, its limits and its refusals, written from document 01.

/// The number of a refusal.
#[derive(Clone, Copy, PartialEq, Eq, Debug)]
pub struct Refusal(pub u8);

pub type Answer<T> = Result<T, Refusal>;

pub const SHORT_JOB: u8 = 1;
pub const TAIL: u8 = 2;
pub const UNFIT_MAP: u8 = 3;
pub const OVER_LIMIT: u8 = 4;
pub const EMPTY: u8 = 5;
pub const BAD_POINT: u8 = 6;
pub const UNSORTED: u8 = 7;
pub const UNKNOWN_NUMBER: u8 = 8;
pub const BAD_WEIGHT: u8 = 9;
pub const TWIN: u8 = 10;
pub const MIXED_SET: u8 = 11;
pub const CUT_USE: u8 = 12;
pub const WRONG_STANDING: u8 = 13;
pub const INTERFERENCE: u8 = 14;

const JOB_BYTES: usize = 32_768;
pub const UNITS: usize = 64;
const REGISTERS: usize = 64;
const UNITS_PER_REGISTER: u32 = 4;
const CLASSES: usize = 16;
const CLASS_REGISTERS: usize = 64;
const VIRTUAL_REGISTERS: usize = 512;
const SETS: u16 = 512;
const SEGMENTS: usize = 512;
const RESERVATIONS: usize = 512;
const HINTS_EACH: usize = 64;
const HINTS: usize = 1_024;
const DEFAULT_BUDGET: u32 = 100_000;

/// Bits of positive infinity; above them are NaNs and all that carry a sign.
const INFINITY: u32 = 0x7F80_0000;

/// The length of a fixed use: from Boundary to Normal of one instruction.
const USE_LENGTH: u64 = 2;

#[derive(Clone, Copy, PartialEq, Eq)]
pub enum Reserved {
    Use { value: u16 },
    Def,
}

#[derive(Clone, Copy)]
pub struct Reservation {
    pub unit: u8,
    pub from: u32,
    pub to: u32,
    pub kind: Reserved,
}

#[derive(Clone, Copy)]
pub struct Hint {
    pub register: u8,
    pub weight: f32,
}

#[derive(Clone, Copy, Debug)]
pub struct Segment {
    pub from: u32,
    pub to: u32,
    pub value: u16,
}

pub struct VirtualRegister {
    pub class: u8,
    pub set: u16,
    pub spill_weight: f32,
    pub size: u32,
    pub hints: Vec<Hint>,
    pub segments: Vec<Segment>,
}

pub struct Job {
    /// The units of each register.
    pub registers: Vec<u64>,
    pub classes: Vec<Vec<u8>>,
    pub reservations: Vec<Reservation>,
    pub virtual_registers: Vec<VirtualRegister>,
    pub probe: Option<(u32, u32)>,
    pub budget: u32,
}

/// Refuses with a number if a condition holds.
pub fn refuse_if(condition: bool, number: u8) -> Answer<()> {
    if condition {
        Err(Refusal(number))
    } else {
        Ok(())
    }
}

/// Tests a range: 5 where it is empty, then 6 where a point has slot 3.
pub fn test_range(from: u32, to: u32) -> Answer<()> {
    refuse_if(from >= to, EMPTY)?;
    refuse_if(from & 3 == 3 || to & 3 == 3, BAD_POINT)
}

/// Tests a segment, which may not start before `previous_end`.
pub fn test_segment(segment: Segment, previous_end: u32) -> Answer<()> {
    test_range(segment.from, segment.to)?;
    refuse_if(segment.from < previous_end, UNSORTED)
}

/// A spill weight, which may be infinite.
fn spill_weight(bits: u32) -> Answer<f32> {
    refuse_if(bits > INFINITY, BAD_WEIGHT)?;
    Ok(f32::from_bits(bits))
}

/// The weight of a hint or of a direct placement, which is finite.
pub fn finite_weight(bits: u32) -> Answer<f32> {
    refuse_if(bits >= INFINITY, BAD_WEIGHT)?;
    Ok(f32::from_bits(bits))
}

/// Reads fields from bytes; a field that they end inside is refused 1.
pub struct Reader<'a> {
    bytes: &'a [u8],
}

impl<'a> Reader<'a> {
    pub fn new(bytes: &'a [u8]) -> Self {
        Self { bytes }
    }

    pub fn is_at_end(&self) -> bool {
        self.bytes.is_empty()
    }

    /// Takes the next bytes.
    pub fn take(&mut self, count: usize) -> Answer<&'a [u8]> {
        refuse_if(self.bytes.len() < count, SHORT_JOB)?;
        let (taken, rest) = self.bytes.split_at(count);
        self.bytes = rest;
        Ok(taken)
    }

    fn number(&mut self, bytes: usize) -> Answer<u64> {
        let taken = self.take(bytes)?;
        Ok(taken
            .iter()
            .rev()
            .fold(0, |number, &byte| number << 8 | u64::from(byte)))
    }

    pub fn u8(&mut self) -> Answer<u8> {
        Ok(self.number(1)? as u8)
    }

    pub fn u16(&mut self) -> Answer<u16> {
        Ok(self.number(2)? as u16)
    }

    pub fn u32(&mut self) -> Answer<u32> {
        Ok(self.number(4)? as u32)
    }

    fn u64(&mut self) -> Answer<u64> {
        self.number(8)
    }

    pub fn segment(&mut self) -> Answer<Segment> {
        let mut field = Reader::new(self.take(10)?);
        Ok(Segment {
            from: field.u32()?,
            to: field.u32()?,
            value: field.u16()?,
        })
    }
}

/// Loads a job: its length, its fields in byte order, then 2, 10, 11, 12.
pub fn load(bytes: &[u8]) -> Answer<Job> {
    refuse_if(bytes.len() > JOB_BYTES, OVER_LIMIT)?;
    let mut reader = Reader::new(bytes);
    let job = read_job(&mut reader)?;
    refuse_if(!reader.is_at_end(), TAIL)?;
    refuse_if(has_twins(&job), TWIN)?;
    refuse_if(has_mixed_set(&job), MIXED_SET)?;
    refuse_if(has_cut_use(&job), CUT_USE)?;
    Ok(job)
}

fn read_job(reader: &mut Reader) -> Answer<Job> {
    let map = reader.u8()?;
    refuse_if(map >> 6 != 0, UNFIT_MAP)?;
    let mut job = Job {
        registers: Vec::new(),
        classes: Vec::new(),
        reservations: Vec::new(),
        virtual_registers: Vec::new(),
        probe: None,
        budget: DEFAULT_BUDGET,
    };
    if map & 1 != 0 {
        job.registers = read_registers(reader)?;
    }
    if map & 2 != 0 {
        job.classes = read_classes(reader, job.registers.len())?;
    }
    if map & 4 != 0 {
        job.reservations = read_reservations(reader)?;
    }
    if map & 8 != 0 {
        job.virtual_registers = read_virtual_registers(reader, &job)?;
    }
    if map & 16 != 0 {
        job.probe = Some(read_probe(reader)?);
    }
    if map & 32 != 0 {
        job.budget = reader.u32()?;
    }
    Ok(job)
}

fn read_registers(reader: &mut Reader) -> Answer<Vec<u64>> {
    let count = usize::from(reader.u8()?);
    refuse_if(count > REGISTERS, OVER_LIMIT)?;
    let mut registers = Vec::new();
    for _ in 0..count {
        let units = reader.u64()?;
        refuse_if(units.count_ones() > UNITS_PER_REGISTER, OVER_LIMIT)?;
        refuse_if(units == 0, EMPTY)?;
        registers.push(units);
    }
    Ok(registers)
}

fn read_classes(reader: &mut Reader, registers: usize) -> Answer<Vec<Vec<u8>>> {
    let count = usize::from(reader.u8()?);
    refuse_if(count > CLASSES, OVER_LIMIT)?;
    let mut classes = Vec::new();
    for _ in 0..count {
        let length = usize::from(reader.u8()?);
        refuse_if(length > CLASS_REGISTERS, OVER_LIMIT)?;
        let mut class = Vec::new();
        for _ in 0..length {
            let register = reader.u8()?;
            refuse_if(usize::from(register) >= registers, UNKNOWN_NUMBER)?;
            class.push(register);
        }
        classes.push(class);
    }
    Ok(classes)
}

fn read_reservations(reader: &mut Reader) -> Answer<Vec<Reservation>> {
    let count = usize::from(reader.u16()?);
    refuse_if(count > RESERVATIONS, OVER_LIMIT)?;
    let mut reservations: Vec<Reservation> = Vec::new();
    for _ in 0..count {
        let reservation = read_reservation(reader, &reservations)?;
        reservations.push(reservation);
    }
    Ok(reservations)
}

/// Reads a reservation, which with its map is one field.
fn read_reservation(reader: &mut Reader, earlier: &[Reservation]) -> Answer<Reservation> {
    let map = reader.u8()?;
    let unit = if map & 1 != 0 { reader.u8()? } else { 0 };
    let from = if map & 2 != 0 { reader.u32()? } else { 0 };
    let end = if map & 4 != 0 { reader.u32()? } else { 0 };
    let value = if map & 8 != 0 { reader.u16()? } else { 0 };
    refuse_if(map >> 4 != 0, UNFIT_MAP)?;

    // The end of a use is a number without a width, so that it is never below
    // its start; a start at Boundary keeps it within 32 bits.
    let (to, kind) = match (map & 4 != 0, map & 8 != 0) {
        (false, true) => (u64::from(from) + USE_LENGTH, Reserved::Use { value }),
        (true, false) => (u64::from(end), Reserved::Def),
        _ => return Err(Refusal(UNFIT_MAP)),
    };
    refuse_if(u64::from(from) >= to, EMPTY)?;
    let at_boundary = match kind {
        Reserved::Use { .. } => from & 3 == 0,
        Reserved::Def => from & 3 != 3 && to & 3 == 0,
    };
    refuse_if(!at_boundary, BAD_POINT)?;
    let previous = earlier.iter().rfind(|other| other.unit == unit);
    let previous_end = previous.map_or(0, |previous| previous.to);
    refuse_if(from < previous_end, UNSORTED)?;
    refuse_if(usize::from(unit) >= UNITS, UNKNOWN_NUMBER)?;
    Ok(Reservation {
        unit,
        from,
        to: to as u32,
        kind,
    })
}

fn read_virtual_registers(reader: &mut Reader, job: &Job) -> Answer<Vec<VirtualRegister>> {
    let count = usize::from(reader.u16()?);
    refuse_if(count > VIRTUAL_REGISTERS, OVER_LIMIT)?;
    let mut table: Vec<VirtualRegister> = Vec::new();
    let mut hints_left = HINTS;
    let mut segments_left = SEGMENTS;
    for number in 0..count {
        let read = read_virtual_register(reader, job, number as u16, hints_left, segments_left)?;
        hints_left -= read.hints.len();
        segments_left -= read.segments.len();
        table.push(read);
    }
    Ok(table)
}

fn read_virtual_register(
    reader: &mut Reader,
    job: &Job,
    number: u16,
    hints_left: usize,
    segments_left: usize,
) -> Answer<VirtualRegister> {
    let map = reader.u8()?;
    refuse_if(map >> 6 != 0, UNFIT_MAP)?;
    refuse_if(map & 32 == 0, EMPTY)?;
    let class = if map & 1 != 0 { reader.u8()? } else { 0 };
    refuse_if(usize::from(class) >= job.classes.len(), UNKNOWN_NUMBER)?;
    let set = if map & 2 != 0 { reader.u16()? } else { number };
    refuse_if(set >= SETS, UNKNOWN_NUMBER)?;
    let spill_weight = if map & 4 != 0 {
        spill_weight(reader.u32()?)?
    } else {
        0.0
    };
    let size = if map & 8 != 0 { reader.u32()? } else { 0 };
    let hints = if map & 16 != 0 {
        read_hints(reader, job, hints_left)?
    } else {
        Vec::new()
    };
    let segments = read_segments(reader, segments_left)?;
    Ok(VirtualRegister {
        class,
        set,
        spill_weight,
        size,
        hints,
        segments,
    })
}

fn read_hints(reader: &mut Reader, job: &Job, left: usize) -> Answer<Vec<Hint>> {
    let count = usize::from(reader.u8()?);
    refuse_if(count > HINTS_EACH || count > left, OVER_LIMIT)?;
    refuse_if(count == 0, EMPTY)?;
    let mut hints = Vec::new();
    for _ in 0..count {
        let mut field = Reader::new(reader.take(5)?);
        let register = field.u8()?;
        refuse_if(usize::from(register) >= job.registers.len(), UNKNOWN_NUMBER)?;
        hints.push(Hint {
            register,
            weight: finite_weight(field.u32()?)?,
        });
    }
    Ok(hints)
}

fn read_segments(reader: &mut Reader, left: usize) -> Answer<Vec<Segment>> {
    let count = usize::from(reader.u16()?);
    refuse_if(count > left, OVER_LIMIT)?;
    refuse_if(count == 0, EMPTY)?;
    let mut segments = Vec::new();
    let mut previous_end = 0;
    for _ in 0..count {
        let segment = reader.segment()?;
        test_segment(segment, previous_end)?;
        previous_end = segment.to;
        segments.push(segment);
    }
    Ok(segments)
}

fn read_probe(reader: &mut Reader) -> Answer<(u32, u32)> {
    let mut field = Reader::new(reader.take(8)?);
    let (from, to) = (field.u32()?, field.u32()?);
    test_range(from, to)?;
    Ok((from, to))
}

/// Whether an element stands twice in a list.
fn has_repeat<T: PartialEq>(list: &[T]) -> bool {
    list.iter()
        .enumerate()
        .any(|(index, element)| list[..index].contains(element))
}

/// Whether two registers have the same units, or a class a register twice.
fn has_twins(job: &Job) -> bool {
    has_repeat(&job.registers) || job.classes.iter().any(|class| has_repeat(class))
}

/// Whether two virtual registers of one set differ in class.
fn has_mixed_set(job: &Job) -> bool {
    let mut class_of_set = [None; SETS as usize];
    job.virtual_registers.iter().any(|register| {
        let class = class_of_set[usize::from(register.set)].get_or_insert(register.class);
        *class != register.class
    })
}

/// Whether a segment starts or ends strictly inside a fixed use of its value.
fn has_cut_use(job: &Job) -> bool {
    let cuts = |segment: &Segment, reservation: &Reservation| {
        let inside = |point| reservation.from < point && point < reservation.to;
        reservation.kind
            == (Reserved::Use {
                value: segment.value,
            })
            && (inside(segment.from) || inside(segment.to))
    };
    let mut segments = job
        .virtual_registers
        .iter()
        .flat_map(|register| &register.segments);
    segments.any(|segment| {
        job.reservations
            .iter()
            .any(|reservation| cuts(segment, reservation))
    })
}
