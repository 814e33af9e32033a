// The same work in plain Rust: the same elements, the same calls, the same checks in the same places.
use std::slice::from_raw_parts;

#[derive(Clone, Copy, PartialEq, Eq)]
enum Refusal {
    TooLong = 1,
    BadForm,
    BadNumber,
    BadParameters,
    NoElement,
    RowFull,
    LogFull,
    LogEmpty,
    NoPlace,
    ShortMemory = 11,
    Stray,
    WrongCarrier,
}

trait ExchangeMap {
    type Elem: Copy;
    fn belongs(&self, x: Self::Elem) -> bool;
    fn kind(&self, x: Self::Elem) -> u8;
    fn code(&self, x: Self::Elem) -> u32;
    fn is_code(&self, n: u32) -> bool;
    fn element(&self, n: u32) -> Self::Elem;
    fn cross(&self, left: Self::Elem, right: Self::Elem) -> (Self::Elem, Self::Elem);
    fn uncross(&self, left: Self::Elem, right: Self::Elem) -> (Self::Elem, Self::Elem);
}

#[derive(Clone, Copy)]
struct Holder {
    capacity: u8,
    balls: u8,
}

struct Capacity;

impl ExchangeMap for Capacity {
    type Elem = Holder;

    fn belongs(&self, x: Holder) -> bool {
        x.balls.max(1) <= x.capacity
    }

    fn kind(&self, x: Holder) -> u8 {
        if self.belongs(x) { x.capacity } else { 0 }
    }

    fn code(&self, x: Holder) -> u32 {
        if self.belongs(x) {
            256 * u32::from(x.capacity) + u32::from(x.balls)
        } else {
            u32::MAX
        }
    }

    fn is_code(&self, n: u32) -> bool {
        let capacity = n / 256;
        (1..=255).contains(&capacity) && n % 256 <= capacity
    }

    fn element(&self, n: u32) -> Holder {
        if self.is_code(n) {
            Holder {
                capacity: (n / 256) as u8,
                balls: (n % 256) as u8,
            }
        } else {
            Holder {
                capacity: 1,
                balls: 0,
            }
        }
    }

    fn cross(&self, left: Holder, right: Holder) -> (Holder, Holder) {
        if !self.belongs(left) || !self.belongs(right) {
            return (left, right);
        }
        let sum = u16::from(right.balls) + u16::from(left.balls);
        let p = sum.saturating_sub(u16::from(right.capacity));
        let q = sum.saturating_sub(u16::from(left.capacity));
        let new_left = Holder {
            capacity: right.capacity,
            balls: (u16::from(left.balls) + q - p) as u8,
        };
        let new_right = Holder {
            capacity: left.capacity,
            balls: (u16::from(right.balls) + p - q) as u8,
        };
        (new_left, new_right)
    }

    fn uncross(&self, left: Holder, right: Holder) -> (Holder, Holder) {
        self.cross(left, right)
    }
}

type Images = [u8; 8];

struct Permutations;

fn is_permutation(x: Images) -> bool {
    (0..8).all(|v| x.contains(&v))
}

fn product(x: Images, y: Images) -> Images {
    x.map(|i| y[usize::from(i)])
}

fn inverse(x: Images) -> Images {
    let mut z = [0; 8];
    for (i, v) in x.iter().enumerate() {
        z[usize::from(*v)] = i as u8;
    }
    z
}

fn images(n: u32) -> Images {
    let mut left = n;
    let mut x = [0; 8];
    for v in &mut x {
        *v = (left % 8) as u8;
        left /= 8;
    }
    x
}

impl ExchangeMap for Permutations {
    type Elem = Images;

    fn belongs(&self, x: Images) -> bool {
        is_permutation(x)
    }

    fn kind(&self, _x: Images) -> u8 {
        0
    }

    fn code(&self, x: Images) -> u32 {
        if self.belongs(x) {
            x.iter().rev().fold(0, |n, v| 8 * n + u32::from(*v))
        } else {
            u32::MAX
        }
    }

    fn is_code(&self, n: u32) -> bool {
        n < 16_777_216 && self.belongs(images(n))
    }

    fn element(&self, n: u32) -> Images {
        if self.is_code(n) {
            images(n)
        } else {
            [0, 1, 2, 3, 4, 5, 6, 7]
        }
    }

    fn cross(&self, left: Images, right: Images) -> (Images, Images) {
        if !self.belongs(left) || !self.belongs(right) {
            return (left, right);
        }
        (right, product(product(inverse(right), left), right))
    }

    fn uncross(&self, left: Images, right: Images) -> (Images, Images) {
        if !self.belongs(left) || !self.belongs(right) {
            return (left, right);
        }
        (product(product(left, right), inverse(left)), left)
    }
}

struct Line {
    slope: u32,
    shift: u32,
    inverse: u32,
}

impl Line {
    fn at(&self, m: u32, x: u32) -> u32 {
        (self.slope * x + self.shift) % m
    }

    fn back(&self, m: u32, y: u32) -> u32 {
        self.inverse * ((y + (m - self.shift)) % m) % m
    }
}

struct Affine {
    modulus: u32,
    f: Line,
    g: Line,
}

fn inverse_modulo(a: u32, m: u32) -> Result<u32, Refusal> {
    let (mut r0, mut r1) = (m, a);
    let (mut t0, mut t1) = (0, 1 % m);
    while r1 != 0 {
        let q = r0 / r1;
        (r0, r1) = (r1, r0 % r1);
        (t0, t1) = (t1, (t0 + (m - q * t1 % m)) % m);
    }
    if r0 == 1 {
        Ok(t0)
    } else {
        Err(Refusal::BadParameters)
    }
}

impl Affine {
    fn new(m: u32, a: u32, b: u32, c: u32, d: u32) -> Result<Affine, Refusal> {
        if !(1..=65_535).contains(&m) || a >= m || b >= m || c >= m || d >= m {
            return Err(Refusal::BadParameters);
        }
        let f = Line {
            slope: a,
            shift: b,
            inverse: inverse_modulo(a, m)?,
        };
        let g = Line {
            slope: c,
            shift: d,
            inverse: inverse_modulo(c, m)?,
        };
        if (a * d + b) % m != (c * b + d) % m {
            return Err(Refusal::BadParameters);
        }
        Ok(Affine { modulus: m, f, g })
    }
}

impl ExchangeMap for Affine {
    type Elem = u32;

    fn belongs(&self, x: u32) -> bool {
        x < self.modulus
    }

    fn kind(&self, _x: u32) -> u8 {
        0
    }

    fn code(&self, x: u32) -> u32 {
        if self.belongs(x) { x } else { u32::MAX }
    }

    fn is_code(&self, n: u32) -> bool {
        self.belongs(n)
    }

    fn element(&self, n: u32) -> u32 {
        if self.belongs(n) { n } else { 0 }
    }

    fn cross(&self, left: u32, right: u32) -> (u32, u32) {
        if !self.belongs(left) || !self.belongs(right) {
            return (left, right);
        }
        let m = self.modulus;
        (self.f.at(m, right), self.g.at(m, left))
    }

    fn uncross(&self, left: u32, right: u32) -> (u32, u32) {
        if !self.belongs(left) || !self.belongs(right) {
            return (left, right);
        }
        let m = self.modulus;
        (self.g.back(m, right), self.f.back(m, left))
    }
}

#[derive(Clone, Copy)]
struct Soliton {
    kind: u8,
    phase: u16,
}

struct Phases {
    modulus: u16,
}

impl Phases {
    fn new(m: u32) -> Result<Phases, Refusal> {
        match u16::try_from(m) {
            Ok(modulus) if modulus >= 1 => Ok(Phases { modulus }),
            _ => Err(Refusal::BadParameters),
        }
    }

    fn gained(&self, phase: u16, t: u16) -> u16 {
        ((u32::from(phase) + u32::from(t)) % u32::from(self.modulus)) as u16
    }

    fn lost(&self, phase: u16, t: u16) -> u16 {
        self.gained(phase, self.modulus - t % self.modulus)
    }
}

impl ExchangeMap for Phases {
    type Elem = Soliton;

    fn belongs(&self, x: Soliton) -> bool {
        x.kind > 0 && x.phase < self.modulus
    }

    fn kind(&self, x: Soliton) -> u8 {
        if self.belongs(x) { x.kind } else { 0 }
    }

    fn code(&self, x: Soliton) -> u32 {
        if self.belongs(x) {
            65_536 * u32::from(x.kind) + u32::from(x.phase)
        } else {
            u32::MAX
        }
    }

    fn is_code(&self, n: u32) -> bool {
        (65_536..16_777_216).contains(&n) && n % 65_536 < u32::from(self.modulus)
    }

    fn element(&self, n: u32) -> Soliton {
        if self.is_code(n) {
            Soliton {
                kind: (n / 65_536) as u8,
                phase: (n % 65_536) as u16,
            }
        } else {
            Soliton { kind: 1, phase: 0 }
        }
    }

    fn cross(&self, left: Soliton, right: Soliton) -> (Soliton, Soliton) {
        let least = left.kind.min(right.kind);
        if left.kind == right.kind || least == 0 || left.phase.max(right.phase) >= self.modulus {
            return (left, right);
        }
        let t = 2 * u16::from(least);
        let new_left = Soliton {
            kind: right.kind,
            phase: self.gained(right.phase, t),
        };
        let new_right = Soliton {
            kind: left.kind,
            phase: self.lost(left.phase, t),
        };
        (new_left, new_right)
    }

    fn uncross(&self, left: Soliton, right: Soliton) -> (Soliton, Soliton) {
        self.cross(left, right)
    }
}

fn sweep_row<M: ExchangeMap>(map: &M, row: &mut [M::Elem], carrier: M::Elem) -> M::Elem {
    row.iter_mut().fold(carrier, |moving, place| {
        let (left, right) = map.cross(moving, *place);
        *place = left;
        right
    })
}

fn unsweep_row<M: ExchangeMap>(map: &M, row: &mut [M::Elem], carrier: M::Elem) -> M::Elem {
    row.iter_mut().rev().fold(carrier, |moving, place| {
        let (former, back) = map.uncross(*place, moving);
        *place = back;
        former
    })
}

fn all_belong<M: ExchangeMap>(map: &M, values: &[M::Elem]) -> bool {
    values.iter().all(|x| map.belongs(*x))
}

struct Bench {
    boxes: usize,
    sweeps: usize,
}

impl Bench {
    fn suffices(&self, row: usize, incoming: usize, outgoing: usize) -> bool {
        row >= self.boxes && incoming == outgoing && incoming >= self.sweeps
    }

    fn put<M: ExchangeMap>(
        &mut self,
        map: &M,
        row: &mut [M::Elem],
        x: M::Elem,
    ) -> Result<(), Refusal> {
        if self.boxes >= 1_024 || self.boxes >= row.len() {
            return Err(Refusal::RowFull);
        }
        if !map.belongs(x) {
            return Err(Refusal::NoElement);
        }
        row[self.boxes] = x;
        self.boxes += 1;
        Ok(())
    }

    fn sweep<M: ExchangeMap>(
        &mut self,
        map: &M,
        row: &mut [M::Elem],
        incoming: &mut [M::Elem],
        outgoing: &mut [M::Elem],
        carrier: M::Elem,
    ) -> Result<u32, Refusal> {
        if !self.suffices(row.len(), incoming.len(), outgoing.len()) {
            return Err(Refusal::ShortMemory);
        }
        if self.sweeps == incoming.len() {
            return Err(Refusal::LogFull);
        }
        let boxes = &mut row[..self.boxes];
        if !all_belong(map, boxes) {
            return Err(Refusal::Stray);
        }
        if !map.belongs(carrier) {
            return Err(Refusal::NoElement);
        }
        let gone = sweep_row(map, boxes, carrier);
        incoming[self.sweeps] = carrier;
        outgoing[self.sweeps] = gone;
        self.sweeps += 1;
        Ok(map.code(gone))
    }

    fn take_back<M: ExchangeMap>(
        &mut self,
        map: &M,
        row: &mut [M::Elem],
        incoming: &mut [M::Elem],
        outgoing: &mut [M::Elem],
    ) -> Result<u32, Refusal> {
        if !self.suffices(row.len(), incoming.len(), outgoing.len()) {
            return Err(Refusal::ShortMemory);
        }
        if self.sweeps == 0 {
            return Err(Refusal::LogEmpty);
        }
        let boxes = &mut row[..self.boxes];
        let (came, went) = (incoming[self.sweeps - 1], outgoing[self.sweeps - 1]);
        if !map.belongs(came) || !map.belongs(went) || !all_belong(map, boxes) {
            return Err(Refusal::Stray);
        }
        let back = unsweep_row(map, boxes, went);
        let code = map.code(back);
        if code != map.code(came) {
            sweep_row(map, boxes, back);
            return Err(Refusal::WrongCarrier);
        }
        self.sweeps -= 1;
        Ok(code)
    }

    fn exchange_by<M: ExchangeMap>(
        &self,
        map: &M,
        forth: bool,
        row: &[M::Elem],
        incoming: &mut [M::Elem],
        outgoing: &mut [M::Elem],
        place: usize,
    ) -> Result<(u32, u32), Refusal> {
        if !self.suffices(row.len(), incoming.len(), outgoing.len()) {
            return Err(Refusal::ShortMemory);
        }
        if place >= self.sweeps.saturating_sub(1) {
            return Err(Refusal::NoPlace);
        }
        if !all_belong(map, &incoming[place..place + 2])
            || !all_belong(map, &outgoing[place..place + 2])
        {
            return Err(Refusal::Stray);
        }
        let (older, newer) = exchange_entry(map, forth, incoming, place);
        exchange_entry(map, forth, outgoing, place);
        Ok((map.code(older), map.code(newer)))
    }

    fn raise<M: ExchangeMap>(
        &self,
        map: &M,
        row: &[M::Elem],
        incoming: &mut [M::Elem],
        outgoing: &mut [M::Elem],
        kind: u32,
    ) -> Result<(), Refusal> {
        if !self.suffices(row.len(), incoming.len(), outgoing.len()) {
            return Err(Refusal::ShortMemory);
        }
        let incoming = &mut incoming[..self.sweeps];
        let outgoing = &mut outgoing[..self.sweeps];
        let place = incoming
            .iter()
            .rposition(|x| u32::from(map.kind(*x)) == kind)
            .ok_or(Refusal::NoPlace)?;
        if !all_belong(map, incoming) || !all_belong(map, outgoing) {
            return Err(Refusal::Stray);
        }
        for i in place..self.sweeps - 1 {
            exchange_entry(map, true, incoming, i);
            exchange_entry(map, true, outgoing, i);
        }
        Ok(())
    }
}

// One half of the log exchanged at a place; the new carriers, the older first.
fn exchange_entry<M: ExchangeMap>(
    map: &M,
    forth: bool,
    half: &mut [M::Elem],
    place: usize,
) -> (M::Elem, M::Elem) {
    let (left, right) = if forth {
        map.cross(half[place + 1], half[place])
    } else {
        map.uncross(half[place + 1], half[place])
    };
    half[place] = right;
    half[place + 1] = left;
    (right, left)
}

fn mix(sum: u32, answer: u32) -> u32 {
    sum.wrapping_mul(31).wrapping_add(answer)
}

fn mix_code(sum: u32, answer: Result<u32, Refusal>) -> u32 {
    match answer {
        Ok(code) => mix(sum, code),
        Err(refusal) => mix(sum, refusal as u32),
    }
}

fn mix_codes(sum: u32, answer: Result<(u32, u32), Refusal>) -> u32 {
    match answer {
        Ok((older, newer)) => mix(mix(sum, older), newer),
        Err(refusal) => mix(sum, refusal as u32),
    }
}

#[derive(Clone, Copy)]
enum Work {
    Sweeps,
    Exchanges,
    Raises,
}

fn measured<M: ExchangeMap>(
    map: &M,
    work: Work,
    codes: &[u32],
    carriers: &[u32],
    rounds: u32,
) -> u32 {
    let decoded = |codes: &[u32]| codes.iter().map(|n| map.element(*n)).collect::<Vec<_>>();
    let mut row = decoded(codes);
    let mut incoming = decoded(carriers);
    let mut outgoing = decoded(carriers);
    let carriers = decoded(carriers);
    let (row, incoming, outgoing) = (&mut row[..], &mut incoming[..], &mut outgoing[..]);
    let mut bench = Bench {
        boxes: 0,
        sweeps: 0,
    };
    for code in codes {
        let _ = bench.put(map, row, map.element(*code));
    }
    let mut sum = 0;
    if !matches!(work, Work::Sweeps) {
        for carrier in &carriers {
            sum = mix_code(sum, bench.sweep(map, row, incoming, outgoing, *carrier));
        }
    }
    for _ in 0..rounds {
        match work {
            Work::Sweeps => {
                for carrier in &carriers {
                    sum = mix_code(sum, bench.sweep(map, row, incoming, outgoing, *carrier));
                }
                for _ in &carriers {
                    sum = mix_code(sum, bench.take_back(map, row, incoming, outgoing));
                }
            }
            Work::Exchanges => {
                for place in 0..carriers.len() {
                    let answer = bench.exchange_by(map, true, row, incoming, outgoing, place);
                    sum = mix_codes(sum, answer);
                }
                for place in (0..carriers.len()).rev() {
                    let answer = bench.exchange_by(map, false, row, incoming, outgoing, place);
                    sum = mix_codes(sum, answer);
                }
            }
            Work::Raises => {
                for carrier in &carriers {
                    let kind = u32::from(map.kind(*carrier));
                    let answer = bench.raise(map, row, incoming, outgoing, kind);
                    sum = mix(sum, answer.err().map_or(0, |refusal| refusal as u32));
                }
            }
        }
    }
    mix(sum, bench.sweeps as u32)
}

#[derive(Clone, Copy)]
enum MapName {
    Cap,
    Perm,
    Aff {
        m: u32,
        a: u32,
        b: u32,
        c: u32,
        d: u32,
    },
    Phase {
        m: u32,
    },
}

impl MapName {
    fn parameters_hold(self) -> bool {
        match self {
            MapName::Cap | MapName::Perm => true,
            MapName::Aff { m, a, b, c, d } => Affine::new(m, a, b, c, d).is_ok(),
            MapName::Phase { m } => Phases::new(m).is_ok(),
        }
    }

    fn is_code(self, n: u32) -> bool {
        match self {
            MapName::Cap => Capacity.is_code(n),
            MapName::Perm => Permutations.is_code(n),
            MapName::Aff { m, a, b, c, d } => {
                Affine::new(m, a, b, c, d).is_ok_and(|map| map.is_code(n))
            }
            MapName::Phase { m } => Phases::new(m).is_ok_and(|map| map.is_code(n)),
        }
    }
}

#[derive(Clone, Copy)]
#[allow(dead_code)]
struct Heading {
    right: bool,
    map: MapName,
}

#[allow(dead_code)]
enum Command {
    Sweep(u32),
    Exchange(u32),
    ExchangeBack(u32),
    Raise(u32),
    TakeBack,
    Print,
}

#[allow(dead_code)]
struct RowFile {
    heading: Heading,
    codes: Vec<u32>,
    commands: Vec<Command>,
}

struct Fault {
    line: u32,
    refusal: Refusal,
}

#[derive(Clone, Copy)]
enum Stage {
    Map,
    Row(Heading),
    Commands(Heading),
}

fn until(bytes: &[u8], mark: u8) -> usize {
    bytes.iter().position(|b| *b == mark).unwrap_or(bytes.len())
}

fn next_field(fields: &[u8]) -> Option<(&[u8], &[u8])> {
    let [_, rest @ ..] = fields else {
        return None;
    };
    Some(rest.split_at(until(rest, b'\t')))
}

fn count_fields(fields: &[u8]) -> usize {
    let mut rest = fields;
    let mut count = 0;
    while let Some((_, next)) = next_field(rest) {
        rest = next;
        count += 1;
    }
    count
}

fn number(field: &[u8]) -> Result<u32, Refusal> {
    let [first, rest @ ..] = field else {
        return Err(Refusal::BadNumber);
    };
    match *first {
        b'0' if rest.is_empty() => Ok(0),
        b'1'..=b'9' => more_digits(*first - b'0', rest),
        _ => Err(Refusal::BadNumber),
    }
}

fn more_digits(first: u8, rest: &[u8]) -> Result<u32, Refusal> {
    let mut value = u64::from(first);
    for b in rest {
        if !b.is_ascii_digit() {
            return Err(Refusal::BadNumber);
        }
        value = value * 10 + u64::from(*b - b'0');
        if value > u64::from(u32::MAX) {
            return Err(Refusal::BadNumber);
        }
    }
    Ok(value as u32)
}

fn numbers<const N: usize>(fields: &[u8]) -> Result<[u32; N], Refusal> {
    if count_fields(fields) != N {
        return Err(Refusal::BadForm);
    }
    let mut values = [0; N];
    let mut rest = fields;
    let mut count = 0;
    while let Some((field, next)) = next_field(rest) {
        values[count] = number(field)?;
        rest = next;
        count += 1;
    }
    Ok(values)
}

fn map_name(name: &[u8], fields: &[u8]) -> Result<MapName, Refusal> {
    match name {
        b"cap" => numbers::<0>(fields).map(|[]| MapName::Cap),
        b"perm" => numbers::<0>(fields).map(|[]| MapName::Perm),
        b"aff" => numbers::<5>(fields).map(|[m, a, b, c, d]| MapName::Aff { m, a, b, c, d }),
        b"phase" => numbers::<1>(fields).map(|[m]| MapName::Phase { m }),
        _ => Err(Refusal::BadForm),
    }
}

fn heading(fields: &[u8]) -> Result<Heading, Refusal> {
    let (word, fields) = next_field(fields).ok_or(Refusal::BadForm)?;
    let right = match word {
        b"L" => false,
        b"R" => true,
        _ => return Err(Refusal::BadForm),
    };
    let (name, fields) = next_field(fields).ok_or(Refusal::BadForm)?;
    let map = map_name(name, fields)?;
    if !map.parameters_hold() {
        return Err(Refusal::BadParameters);
    }
    Ok(Heading { right, map })
}

fn command(heading: Heading, letter: u8, fields: &[u8]) -> Result<Command, Refusal> {
    match letter {
        b'S' => {
            let [code] = numbers::<1>(fields)?;
            if !heading.map.is_code(code) {
                return Err(Refusal::NoElement);
            }
            Ok(Command::Sweep(code))
        }
        b'X' => numbers::<1>(fields).map(|[place]| Command::Exchange(place)),
        b'Y' => numbers::<1>(fields).map(|[place]| Command::ExchangeBack(place)),
        b'N' => numbers::<1>(fields).map(|[kind]| Command::Raise(kind)),
        b'B' => numbers::<0>(fields).map(|[]| Command::TakeBack),
        b'P' => numbers::<0>(fields).map(|[]| Command::Print),
        _ => Err(Refusal::BadForm),
    }
}

fn count_numbers(fields: &[u8]) -> Result<usize, Refusal> {
    let mut rest = fields;
    let mut count = 0;
    while let Some((field, next)) = next_field(rest) {
        number(field)?;
        rest = next;
        count += 1;
    }
    Ok(count)
}

fn row_codes(heading: Heading, fields: &[u8]) -> Result<Vec<u32>, Refusal> {
    if count_numbers(fields)? > 1_024 {
        return Err(Refusal::RowFull);
    }
    let mut codes = Vec::new();
    let mut rest = fields;
    while let Some((field, next)) = next_field(rest) {
        let code = number(field)?;
        if !heading.map.is_code(code) {
            return Err(Refusal::NoElement);
        }
        codes.push(code);
        rest = next;
    }
    Ok(codes)
}

struct Reader {
    stage: Stage,
    codes: Vec<u32>,
    commands: Vec<Command>,
}

impl Reader {
    fn read_line(&mut self, bytes: &[u8]) -> Result<(), Refusal> {
        let (first, fields) = bytes.split_at(until(bytes, b'\t'));
        match (self.stage, first) {
            (Stage::Map, b"map") => self.stage = Stage::Row(heading(fields)?),
            (Stage::Row(heading), b"row") => {
                self.codes = row_codes(heading, fields)?;
                self.stage = Stage::Commands(heading);
            }
            (Stage::Commands(heading), [letter]) => {
                self.commands.push(command(heading, *letter, fields)?);
            }
            _ => return Err(Refusal::BadForm),
        }
        Ok(())
    }
}

fn read(text: &[u8]) -> Result<RowFile, Fault> {
    if text.len() > 32_768 {
        return Err(Fault {
            line: 0,
            refusal: Refusal::TooLong,
        });
    }
    let mut reader = Reader {
        stage: Stage::Map,
        codes: Vec::new(),
        commands: Vec::new(),
    };
    let mut line = 0;
    let mut rest = text;
    while !rest.is_empty() {
        line += 1;
        let length = until(rest, b'\n');
        let fault = |refusal| Fault { line, refusal };
        if length == rest.len() {
            return Err(fault(Refusal::BadForm));
        }
        reader.read_line(&rest[..length]).map_err(fault)?;
        rest = &rest[length + 1..];
    }
    match reader.stage {
        Stage::Commands(heading) => Ok(RowFile {
            heading,
            codes: reader.codes,
            commands: reader.commands,
        }),
        _ => Err(Fault {
            line: line + 1,
            refusal: Refusal::BadForm,
        }),
    }
}

fn capacity(_parameters: &[u32]) -> Option<Capacity> {
    Some(Capacity)
}

fn permutations(_parameters: &[u32]) -> Option<Permutations> {
    Some(Permutations)
}

fn affine(parameters: &[u32]) -> Option<Affine> {
    let [m, a, b, c, d] = parameters else {
        return None;
    };
    Affine::new(*m, *a, *b, *c, *d).ok()
}

fn phases(parameters: &[u32]) -> Option<Phases> {
    let [m] = parameters else {
        return None;
    };
    Phases::new(*m).ok()
}

// Each entry has the arguments of its counterpart on the other side.
macro_rules! entries {
    ($($name:ident: $made:expr, $work:ident;)*) => {$(
        #[unsafe(no_mangle)]
        #[inline(never)]
        pub unsafe extern "C" fn $name(
            parameters: *const u32,
            parameter_count: usize,
            codes: *const u32,
            code_count: usize,
            carriers: *const u32,
            carrier_count: usize,
            rounds: u32,
        ) -> u32 {
            let (parameters, codes, carriers) = unsafe {
                (
                    from_raw_parts(parameters, parameter_count),
                    from_raw_parts(codes, code_count),
                    from_raw_parts(carriers, carrier_count),
                )
            };
            let made = $made(parameters);
            made.map_or(u32::MAX, |map| measured(&map, Work::$work, codes, carriers, rounds))
        }
    )*};
}

entries! {
    rust_cap_sweeps: capacity, Sweeps;
    rust_cap_exchanges: capacity, Exchanges;
    rust_cap_raises: capacity, Raises;
    rust_perm_sweeps: permutations, Sweeps;
    rust_perm_exchanges: permutations, Exchanges;
    rust_aff_sweeps: affine, Sweeps;
    rust_aff_exchanges: affine, Exchanges;
    rust_phase_sweeps: phases, Sweeps;
    rust_phase_exchanges: phases, Exchanges;
    rust_phase_raises: phases, Raises;
}

#[unsafe(no_mangle)]
#[inline(never)]
pub unsafe extern "C" fn rust_read(text: *const u8, length: usize, rounds: u32) -> u32 {
    let text = unsafe { from_raw_parts(text, length) };
    let mut sum = 0;
    for _ in 0..rounds {
        sum = match read(text) {
            Ok(file) => file
                .codes
                .iter()
                .fold(mix(sum, file.commands.len() as u32), |sum, code| {
                    mix(sum, *code)
                }),
            Err(fault) => mix(mix(sum, fault.line), fault.refusal as u32),
        };
    }
    sum
}
