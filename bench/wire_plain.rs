//! A plain codec of the wire format, written from the table of the format in docs/PROTOCOL.md and not from the crate,
//! with cases for both. `wire_differ.sh` and `wire_times.sh` build and run it.
use std::io::{Read, Write as _};

#[derive(Clone, Copy)]
pub struct Limits {
    version: u8,
    nodes: u8,
    slots: u8,
    objects: u16,
}
#[derive(Clone, Copy)]
pub enum Value {
    Num(u64),
    Text { len: u8, bytes: [u8; 32] },
}
#[derive(Clone, Copy)]
pub struct Stream {
    node: u8,
    slot: u8,
}
#[derive(Clone, Copy)]
pub struct Stamp {
    ver: u64,
    driver: u8,
}
#[derive(Clone, Copy)]
pub struct Place {
    owner: u8,
    replicas: u8,
}
#[derive(Clone, Copy, PartialEq)]
pub enum Want {
    Own,
    Read,
    Leave,
}
#[derive(Clone, Copy)]
pub struct Proposal {
    stamp: Stamp,
    requester: u8,
    base: Stamp,
    place: Place,
    want: Want,
}
#[derive(Clone, Copy)]
pub struct Write {
    obj: u16,
    ver: u64,
    value: Value,
}
#[derive(Clone, Copy)]
pub struct Content {
    ver: u64,
    value: Value,
}
pub struct Writes {
    count: usize,
    items: [Write; 8],
}
pub struct Inv {
    stream: Stream,
    number: u32,
    done: u32,
    followers: u8,
    writes: Writes,
}
#[derive(Clone, Copy)]
pub enum Cause {
    Plain(u8),
    Proposed(Stamp),
    Held(u8),
    NotValid(u8),
    Kept(u8),
}
pub enum Body {
    RInv(Inv),
    RAck(Stream, u32),
    RVal(Stream, u32),
    OReq(u16, Want),
    OInv(u16, Proposal),
    OAck(u16, Proposal, Option<Content>),
    ONack(u16, Stamp, Cause),
    OVal(u16, Stamp, Place),
    Recovered,
}
pub struct Packet {
    number: u32,
    from: u8,
    to: u8,
    epoch: u32,
    body: Body,
}
pub enum Fault {
    Short(u64),
    Tag(u64, u8),
    Field(u64),
    Extra(u64),
}

struct Reader<'a> {
    bytes: &'a [u8],
    at: usize,
    limits: Limits,
}

impl<'a> Reader<'a> {
    fn take<const N: usize>(&mut self) -> Result<[u8; N], Fault> {
        let Some(field) = self.bytes[self.at..].first_chunk::<N>() else {
            return Err(Fault::Short(self.bytes.len() as u64));
        };
        self.at += N;
        Ok(*field)
    }
    fn u8(&mut self) -> Result<u8, Fault> {
        Ok(self.take::<1>()?[0])
    }
    fn u16(&mut self) -> Result<u16, Fault> {
        Ok(u16::from_be_bytes(self.take()?))
    }
    fn u32(&mut self) -> Result<u32, Fault> {
        Ok(u32::from_be_bytes(self.take()?))
    }
    fn u64(&mut self) -> Result<u64, Fault> {
        Ok(u64::from_be_bytes(self.take()?))
    }
    fn bad<T>(&self, width: usize) -> Result<T, Fault> {
        Err(Fault::Field((self.at - width) as u64))
    }
    fn below(&mut self, limit: u8) -> Result<u8, Fault> {
        let byte = self.u8()?;
        if byte < limit { Ok(byte) } else { self.bad(1) }
    }
    fn node(&mut self) -> Result<u8, Fault> {
        self.below(self.limits.nodes)
    }
    fn slot(&mut self) -> Result<u8, Fault> {
        self.below(self.limits.slots)
    }
    fn object(&mut self) -> Result<u16, Fault> {
        let obj = self.u16()?;
        if obj < self.limits.objects { Ok(obj) } else { self.bad(2) }
    }
    fn set(&mut self) -> Result<u8, Fault> {
        let bits = self.u8()?;
        if u32::from(bits) >> self.limits.nodes == 0 { Ok(bits) } else { self.bad(1) }
    }
    fn stream(&mut self) -> Result<Stream, Fault> {
        Ok(Stream { node: self.node()?, slot: self.slot()? })
    }
    fn stamp(&mut self) -> Result<Stamp, Fault> {
        Ok(Stamp { ver: self.u64()?, driver: self.node()? })
    }
    fn place(&mut self, leaver: Option<u8>) -> Result<Place, Fault> {
        let owner = self.node()?;
        if leaver == Some(owner) {
            return self.bad(1);
        }
        let replicas = self.set()?;
        let needed = 1 << owner | leaver.map_or(0, |node| 1 << node);
        if replicas & needed == needed { Ok(Place { owner, replicas }) } else { self.bad(1) }
    }
    fn want(&mut self, tag: u8) -> Result<Want, Fault> {
        if tag < 20 {
            return Ok(Want::Own);
        }
        match self.u8()? {
            1 => Ok(Want::Read),
            2 => Ok(Want::Leave),
            _ => self.bad(1),
        }
    }
    fn proposal(&mut self, want: Want) -> Result<Proposal, Fault> {
        let stamp = self.stamp()?;
        let requester = self.node()?;
        let base = self.stamp()?;
        let place = self.place((want == Want::Leave).then_some(requester))?;
        Ok(Proposal { stamp, requester, base, place, want })
    }
    fn value(&mut self) -> Result<Value, Fault> {
        if self.limits.version == 1 {
            return Ok(Value::Num(self.u64()?));
        }
        let len = self.below(33)?;
        if len == 0 {
            return Ok(Value::Num(self.u64()?));
        }
        let rest = &self.bytes[self.at..];
        let Some(text) = rest.get(..usize::from(len)) else {
            return Err(Fault::Short(self.bytes.len() as u64));
        };
        if !text.iter().all(|byte| (33..=126).contains(byte)) {
            return self.bad(0);
        }
        let mut bytes = [0; 32];
        bytes[..text.len()].copy_from_slice(text);
        self.at += text.len();
        Ok(Value::Text { len, bytes })
    }
    fn writes(&mut self) -> Result<Writes, Fault> {
        let count = usize::from(self.u8()?);
        if !(1..=8).contains(&count) {
            return self.bad(1);
        }
        let none = Write { obj: 0, ver: 0, value: Value::Num(0) };
        let mut writes = Writes { count, items: [none; 8] };
        for place in 0..count {
            let obj = self.object()?;
            if writes.items[..place].iter().any(|write| write.obj == obj) {
                return self.bad(2);
            }
            writes.items[place] = Write { obj, ver: self.u64()?, value: self.value()? };
        }
        Ok(writes)
    }
    fn inv(&mut self) -> Result<Inv, Fault> {
        let stream = self.stream()?;
        let number = self.u32()?;
        if number == u32::MAX {
            return self.bad(4);
        }
        let done = self.u32()?;
        if done > number {
            return self.bad(4);
        }
        let followers = self.set()?;
        let writes = self.writes()?;
        Ok(Inv { stream, number, done, followers, writes })
    }
    fn content(&mut self) -> Result<Option<Content>, Fault> {
        match self.below(2)? {
            0 => Ok(None),
            _ => Ok(Some(Content { ver: self.u64()?, value: self.value()? })),
        }
    }
    fn cause(&mut self) -> Result<Cause, Fault> {
        Ok(match self.below(18)? {
            3 => Cause::Proposed(self.stamp()?),
            8 => Cause::Held(self.slot()?),
            9 => Cause::NotValid(self.below(3)?),
            10 => Cause::Kept(self.slot()?),
            plain => Cause::Plain(plain),
        })
    }
    fn body(&mut self) -> Result<Body, Fault> {
        let tag = self.u8()?;
        Ok(match tag {
            1 => Body::RInv(self.inv()?),
            2 => Body::RAck(self.stream()?, self.u32()?),
            3 => Body::RVal(self.stream()?, self.u32()?),
            4 | 20 => Body::OReq(self.object()?, self.want(tag)?),
            5 | 21 => {
                let obj = self.object()?;
                let want = self.want(tag)?;
                Body::OInv(obj, self.proposal(want)?)
            }
            6 | 22 => {
                let obj = self.object()?;
                let want = self.want(tag)?;
                Body::OAck(obj, self.proposal(want)?, self.content()?)
            }
            7 => Body::ONack(self.object()?, self.stamp()?, self.cause()?),
            8 => Body::OVal(self.object()?, self.stamp()?, self.place(None)?),
            9 => Body::Recovered,
            byte => return Err(Fault::Tag((self.at - 1) as u64, byte)),
        })
    }
}

pub fn decode(bytes: &[u8], limits: &Limits) -> Result<Packet, Fault> {
    let mut reader = Reader { bytes, at: 0, limits: *limits };
    if reader.u8()? != limits.version {
        return Err(Fault::Field(0));
    }
    let number = reader.u32()?;
    let from = reader.node()?;
    let to = reader.node()?;
    let epoch = reader.u32()?;
    if epoch == 0 {
        return reader.bad(4);
    }
    let body = reader.body()?;
    if reader.at < bytes.len() {
        return Err(Fault::Extra(reader.at as u64));
    }
    Ok(Packet { number, from, to, epoch, body })
}

struct Writer<'a> {
    out: &'a mut Vec<u8>,
    version: u8,
}

impl Writer<'_> {
    fn u8(&mut self, byte: u8) {
        self.out.push(byte);
    }
    fn u16(&mut self, n: u16) {
        self.out.extend_from_slice(&n.to_be_bytes());
    }
    fn u32(&mut self, n: u32) {
        self.out.extend_from_slice(&n.to_be_bytes());
    }
    fn u64(&mut self, n: u64) {
        self.out.extend_from_slice(&n.to_be_bytes());
    }
    fn stream(&mut self, s: &Stream) {
        self.u8(s.node);
        self.u8(s.slot);
    }
    fn stamp(&mut self, s: &Stamp) {
        self.u64(s.ver);
        self.u8(s.driver);
    }
    fn place(&mut self, p: &Place) {
        self.u8(p.owner);
        self.u8(p.replicas);
    }
    fn value(&mut self, value: &Value) {
        match value {
            Value::Num(n) => {
                if self.version == 2 {
                    self.u8(0);
                }
                self.u64(*n);
            }
            Value::Text { len, bytes } => {
                self.u8(*len);
                self.out.extend_from_slice(&bytes[..usize::from(*len)]);
            }
        }
    }
    fn object(&mut self, tag: u8, obj: u16, want: Want) {
        self.u8(if want == Want::Own { tag } else { tag + 16 });
        self.u16(obj);
        match want {
            Want::Own => {}
            Want::Read => self.u8(1),
            Want::Leave => self.u8(2),
        }
    }
    fn proposal(&mut self, p: &Proposal) {
        self.stamp(&p.stamp);
        self.u8(p.requester);
        self.stamp(&p.base);
        self.place(&p.place);
    }
    fn cause(&mut self, cause: &Cause) {
        match cause {
            Cause::Plain(byte) => self.u8(*byte),
            Cause::Proposed(stamp) => {
                self.u8(3);
                self.stamp(stamp);
            }
            Cause::Held(slot) => self.out.extend_from_slice(&[8, *slot]),
            Cause::NotValid(state) => self.out.extend_from_slice(&[9, *state]),
            Cause::Kept(slot) => self.out.extend_from_slice(&[10, *slot]),
        }
    }
    fn inv(&mut self, r: &Inv) {
        self.u8(1);
        self.stream(&r.stream);
        self.u32(r.number);
        self.u32(r.done);
        self.u8(r.followers);
        self.u8(r.writes.count as u8);
        for write in &r.writes.items[..r.writes.count] {
            self.u16(write.obj);
            self.u64(write.ver);
            self.value(&write.value);
        }
    }
    fn body(&mut self, body: &Body) {
        match body {
            Body::RInv(r) => self.inv(r),
            Body::RAck(stream, n) => {
                self.u8(2);
                self.stream(stream);
                self.u32(*n);
            }
            Body::RVal(stream, n) => {
                self.u8(3);
                self.stream(stream);
                self.u32(*n);
            }
            Body::OReq(obj, want) => self.object(4, *obj, *want),
            Body::OInv(obj, p) => {
                self.object(5, *obj, p.want);
                self.proposal(p);
            }
            Body::OAck(obj, p, content) => {
                self.object(6, *obj, p.want);
                self.proposal(p);
                match content {
                    None => self.u8(0),
                    Some(content) => {
                        self.u8(1);
                        self.u64(content.ver);
                        self.value(&content.value);
                    }
                }
            }
            Body::ONack(obj, stamp, cause) => {
                self.object(7, *obj, Want::Own);
                self.stamp(stamp);
                self.cause(cause);
            }
            Body::OVal(obj, stamp, place) => {
                self.object(8, *obj, Want::Own);
                self.stamp(stamp);
                self.place(place);
            }
            Body::Recovered => self.u8(9),
        }
    }
}

pub fn encode_into(p: &Packet, version: u8, out: &mut Vec<u8>) {
    let mut w = Writer { out, version };
    w.u8(version);
    w.u32(p.number);
    w.u8(p.from);
    w.u8(p.to);
    w.u32(p.epoch);
    w.body(&p.body);
}

// ---- cases

const KINDS: [Limits; 4] = [
    Limits { version: 1, nodes: 2, slots: 1, objects: 1 },
    Limits { version: 1, nodes: 8, slots: 8, objects: 256 },
    Limits { version: 2, nodes: 8, slots: 8, objects: 256 },
    Limits { version: 2, nodes: 3, slots: 2, objects: 5 },
];

struct Random(u64);

impl Random {
    fn next(&mut self) -> u64 {
        self.0 ^= self.0 << 13;
        self.0 ^= self.0 >> 7;
        self.0 ^= self.0 << 17;
        self.0
    }
    fn below(&mut self, limit: u64) -> u64 {
        (self.next() >> 16) % limit
    }
    fn stamp(&mut self, l: &Limits) -> Stamp {
        Stamp { ver: self.next(), driver: self.below(l.nodes.into()) as u8 }
    }
    fn stream(&mut self, l: &Limits) -> Stream {
        Stream { node: self.below(l.nodes.into()) as u8, slot: self.below(l.slots.into()) as u8 }
    }
    fn value(&mut self, l: &Limits) -> Value {
        if l.version == 1 || self.below(2) == 0 {
            return Value::Num(self.next());
        }
        let len = 1 + self.below(32) as u8;
        let mut bytes = [0; 32];
        bytes[..usize::from(len)].fill_with(|| 33 + self.below(94) as u8);
        Value::Text { len, bytes }
    }
    fn place(&mut self, l: &Limits, leaver: Option<u8>) -> Option<Place> {
        let owner = self.below(l.nodes.into()) as u8;
        let bits = self.below(1 << l.nodes) as u8 | 1 << owner | leaver.map_or(0, |node| 1 << node);
        (leaver != Some(owner)).then_some(Place { owner, replicas: bits })
    }
    fn proposal(&mut self, l: &Limits) -> Proposal {
        let want = [Want::Own, Want::Read, Want::Leave][self.below(3) as usize];
        let requester = self.below(l.nodes.into()) as u8;
        let leaver = (want == Want::Leave).then_some(requester);
        loop {
            if let Some(place) = self.place(l, leaver) {
                return Proposal { stamp: self.stamp(l), requester, base: self.stamp(l), place, want };
            }
        }
    }
    fn writes(&mut self, l: &Limits) -> Writes {
        let none = Write { obj: 0, ver: 0, value: Value::Num(0) };
        let mut writes = Writes { count: 0, items: [none; 8] };
        let most = 1 + self.below(8.min(l.objects.into())) as usize;
        while writes.count < most {
            let obj = self.below(l.objects.into()) as u16;
            if writes.items[..writes.count].iter().all(|write| write.obj != obj) {
                writes.items[writes.count] = Write { obj, ver: self.next(), value: self.value(l) };
                writes.count += 1;
            }
        }
        writes
    }
    fn cause(&mut self, l: &Limits) -> Cause {
        match self.below(18) as u8 {
            3 => Cause::Proposed(self.stamp(l)),
            8 => Cause::Held(self.below(l.slots.into()) as u8),
            9 => Cause::NotValid(self.below(3) as u8),
            10 => Cause::Kept(self.below(l.slots.into()) as u8),
            plain => Cause::Plain(plain),
        }
    }
    fn packet(&mut self, l: &Limits) -> Packet {
        let obj = self.below(l.objects.into()) as u16;
        let body = match self.below(12) {
            0..=3 => {
                let number = self.below(u64::from(u32::MAX)) as u32;
                let done = self.below(u64::from(number) + 1) as u32;
                let followers = self.below(1 << l.nodes) as u8;
                Body::RInv(Inv { stream: self.stream(l), number, done, followers, writes: self.writes(l) })
            }
            4 => Body::RAck(self.stream(l), self.next() as u32),
            5 => Body::RVal(self.stream(l), self.next() as u32),
            6 => Body::OReq(obj, [Want::Own, Want::Read, Want::Leave][self.below(3) as usize]),
            7 => Body::OInv(obj, self.proposal(l)),
            8 => {
                let content = (self.below(2) == 0).then(|| Content { ver: self.next(), value: self.value(l) });
                Body::OAck(obj, self.proposal(l), content)
            }
            9 => Body::ONack(obj, self.stamp(l), self.cause(l)),
            10 => Body::OVal(obj, self.stamp(l), self.place(l, None).unwrap()),
            _ => Body::Recovered,
        };
        Packet {
            number: self.next() as u32,
            from: self.below(l.nodes.into()) as u8,
            to: self.below(l.nodes.into()) as u8,
            epoch: 1 + self.below(u64::from(u32::MAX)) as u32,
            body,
        }
    }
    // Bytes of no packet, but for the first of them, which mostly are right.
    fn bytes(&mut self, kind: usize) -> Vec<u8> {
        let mut bytes: Vec<u8> = (0..self.below(90)).map(|_| self.below(if self.0 & 1 == 0 { 4 } else { 256 }) as u8).collect();
        if self.below(8) != 0 {
            for (place, byte) in [(0, KINDS[kind].version), (5, 0), (6, 0), (11, 1 + self.below(9) as u8)] {
                if let Some(old) = bytes.get_mut(place) {
                    *old = byte;
                }
            }
        }
        bytes
    }
    fn injured(&mut self, kind: usize) -> Vec<u8> {
        let mut bytes = Vec::new();
        encode_into(&self.packet(&KINDS[kind]), KINDS[kind].version, &mut bytes);
        let place = self.below(bytes.len() as u64) as usize;
        bytes[place] = if self.below(2) == 0 { self.below(24) as u8 } else { self.below(256) as u8 };
        bytes
    }
}

fn write_case(out: &mut Vec<u8>, kind: usize, bytes: &[u8]) {
    out.push(kind as u8);
    out.extend_from_slice(&(bytes.len() as u16).to_be_bytes());
    out.extend_from_slice(bytes);
}

fn each_case(cases: &[u8], mut f: impl FnMut(usize, &[u8])) {
    let mut rest = cases;
    while let [kind, high, low, behind @ ..] = rest {
        let (bytes, others) = behind.split_at(usize::from(u16::from_be_bytes([*high, *low])));
        f(usize::from(*kind), bytes);
        rest = others;
    }
}

// ---- a number of all fields of a packet, in the order of its bytes

struct Sum(u64);

impl Sum {
    fn add(&mut self, n: impl Into<u64>) {
        self.0 = (self.0 ^ n.into()).wrapping_mul(0x100_0000_01b3);
    }
    fn stamp(&mut self, s: &Stamp) {
        self.add(s.ver);
        self.add(s.driver);
    }
    fn value(&mut self, value: &Value) {
        match value {
            Value::Num(n) => {
                self.add(0u8);
                self.add(*n);
            }
            Value::Text { len, bytes } => {
                self.add(*len);
                for byte in &bytes[..usize::from(*len)] {
                    self.add(*byte);
                }
            }
        }
    }
    fn place(&mut self, p: &Place) {
        self.add(p.owner);
        self.add(p.replicas);
    }
    fn proposal(&mut self, p: &Proposal) {
        self.add(p.want as u8);
        self.stamp(&p.stamp);
        self.add(p.requester);
        self.stamp(&p.base);
        self.place(&p.place);
    }
    fn stream(&mut self, s: &Stream, n: u32) {
        self.add(s.node);
        self.add(s.slot);
        self.add(n);
    }
    fn cause(&mut self, cause: &Cause) {
        match cause {
            Cause::Plain(byte) => self.add(*byte),
            Cause::Proposed(stamp) => {
                self.add(3u8);
                self.stamp(stamp);
            }
            Cause::Held(n) => self.add(8u16 + u16::from(*n) * 256),
            Cause::NotValid(n) => self.add(9u16 + u16::from(*n) * 256),
            Cause::Kept(n) => self.add(10u16 + u16::from(*n) * 256),
        }
    }
    fn body(&mut self, body: &Body) {
        match body {
            Body::RInv(r) => {
                self.add(1u8);
                self.stream(&r.stream, r.number);
                self.add(r.done);
                self.add(r.followers);
                for write in &r.writes.items[..r.writes.count] {
                    self.add(write.obj);
                    self.add(write.ver);
                    self.value(&write.value);
                }
            }
            Body::RAck(stream, n) => {
                self.add(2u8);
                self.stream(stream, *n);
            }
            Body::RVal(stream, n) => {
                self.add(3u8);
                self.stream(stream, *n);
            }
            Body::OReq(obj, want) => {
                self.add(4u8);
                self.add(*obj);
                self.add(*want as u8);
            }
            Body::OInv(obj, p) => {
                self.add(5u8);
                self.add(*obj);
                self.proposal(p);
            }
            Body::OAck(obj, p, content) => {
                self.add(6u8);
                self.add(*obj);
                self.proposal(p);
                if let Some(content) = content {
                    self.add(content.ver);
                    self.value(&content.value);
                }
            }
            Body::ONack(obj, stamp, cause) => {
                self.add(7u8);
                self.add(*obj);
                self.stamp(stamp);
                self.cause(cause);
            }
            Body::OVal(obj, stamp, place) => {
                self.add(8u8);
                self.add(*obj);
                self.stamp(stamp);
                self.place(place);
            }
            Body::Recovered => self.add(9u8),
        }
    }
    fn packet(&mut self, p: &Packet) {
        self.add(p.number);
        self.add(p.from);
        self.add(p.to);
        self.add(p.epoch);
        self.body(&p.body);
    }
}

// What came of a case, as two numbers.
fn told(read: Result<Packet, Fault>) -> (u64, u64) {
    match read {
        Ok(packet) => {
            let mut sum = Sum(7);
            sum.packet(&packet);
            (0, sum.0)
        }
        Err(Fault::Short(at)) => (1, at),
        Err(Fault::Tag(at, byte)) => (2, at * 256 + u64::from(byte)),
        Err(Fault::Field(at)) => (3, at),
        Err(Fault::Extra(at)) => (4, at),
    }
}

// A number for each BLOCK cases.
const BLOCK: u64 = 50;

fn answers(cases: &[u8]) -> Vec<u8> {
    let mut out = Vec::new();
    let (mut sum, mut count) = (Sum(7), 0);
    each_case(cases, |kind, bytes| {
        let (tag, number) = told(decode(bytes, &KINDS[kind]));
        sum.add(tag);
        sum.add(number);
        count += 1;
        if count % BLOCK == 0 {
            out.extend_from_slice(&sum.0.to_be_bytes());
            sum = Sum(7);
        }
    });
    out.extend_from_slice(&sum.0.to_be_bytes());
    out
}

fn stdin() -> Vec<u8> {
    let mut bytes = Vec::new();
    std::io::stdin().read_to_end(&mut bytes).unwrap();
    bytes
}

fn main() {
    let words: Vec<String> = std::env::args().skip(1).collect();
    let number = |place: usize| words[place].parse::<u64>().unwrap();
    let mut out = Vec::new();
    match words[0].as_str() {
        "random" | "injured" | "packets" => {
            let mut random = Random(number(1));
            for case in 0..number(2) as usize {
                let kind = if words[0] == "packets" { 2 } else { case % 4 };
                let mut bytes = Vec::new();
                match words[0].as_str() {
                    "random" => bytes = random.bytes(kind),
                    "injured" => bytes = random.injured(kind),
                    _ => encode_into(&random.packet(&KINDS[kind]), KINDS[kind].version, &mut bytes),
                }
                write_case(&mut out, kind, &bytes);
            }
        }
        "answer" => out = answers(&stdin()),
        "decode" => {
            let cases = stdin();
            let mut sum = 0u64;
            for _ in 0..number(1) {
                each_case(&cases, |kind, bytes| {
                    if let Ok(packet) = decode(bytes, &KINDS[kind]) {
                        sum = sum.wrapping_add(packet.number.into());
                    }
                });
            }
            writeln!(out, "{sum}").unwrap();
        }
        _ => {
            let mut packets = Vec::new();
            each_case(&stdin(), |kind, bytes| packets.extend(decode(bytes, &KINDS[kind]).ok()));
            let mut bytes = Vec::with_capacity(packets.len() * 368);
            let mut sum = 0u64;
            for _ in 0..number(1) {
                bytes.clear();
                for packet in &packets {
                    encode_into(packet, 2, &mut bytes);
                }
                sum = sum.wrapping_add(bytes.len() as u64);
            }
            writeln!(out, "{sum}").unwrap();
        }
    }
    std::io::stdout().write_all(&out).unwrap();
}
