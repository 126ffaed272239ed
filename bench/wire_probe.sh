#!/bin/sh
# Makes a program outside the repository, in the folder given, that runs zeus_wire on cases. `wire_differ.sh` and
# `wire_times.sh` use it. The program meets the conditions of the calls that it makes, and promises nothing itself.
set -eu
top=$(CDPATH='' cd "$(dirname "$0")/.." && pwd)
folder=$1
mkdir -p "$folder/crates/wire_probe/src" "$folder/crates/wire_probe/specs" "$folder/crates/wire_probe/proofs"
crates='zeus_base zeus_txn zeus_packet zeus_model zeus_io zeus_wire'
for crate in $crates; do
    mkdir -p "$folder/crates/$crate"
    for part in src specs proofs; do
        if [ -d "$top/crates/$crate/$part" ]; then cp -r "$top/crates/$crate/$part" "$folder/crates/$crate/"; fi
    done
done
for crate in $crates; do
    grep "^$crate:" "$top/crates.txt"
done >"$folder/crates.txt"
echo 'wire_probe: zeus_base zeus_packet zeus_io zeus_wire' >>"$folder/crates.txt"
: >"$folder/crates/wire_probe/specs/Lib.antt"
: >"$folder/crates/wire_probe/proofs/Lib.antt"
cat >"$folder/crates/wire_probe/src/main.rt" <<'END'
//! Runs the codec on cases: a byte for the limits, two for the length, and the bytes.
#![tactic(auto)]

ghost use Rattle.zeus_wire.specs.Ranges.{AreLimits};

use std::alloc::Global;
use std::env;
use std::process::ExitCode;
use zeus_base::{Stamp, Stream, Value, push_copy};
use zeus_io::{StdSink, StdSource, read_all, write_all};
use zeus_packet::{Body, Cause, Limits, Packet, Place, Proposal, State, Want, fits};
use zeus_wire::{WireFault, decode, encode_into, largest, longest};

fn limits(kind: u8) -> Limits
    ensures { AreLimits result }
{
    let (version, nodes, slots, objects) = match kind {
        0 => (1, 2, 1, 1),
        1 => (1, 8, 8, 256),
        2 => (2, 8, 8, 256),
        _ => (2, 3, 2, 5),
    };
    Limits { version, nodes, slots, objects }
}

fn add(sum: u64, n: u64) -> u64 {
    (sum ^ n).wrapping_mul(0x100_0000_01b3)
}

fn add_stamp(sum: u64, s: &Stamp) -> u64 {
    add(add(sum, s.ver), u64::from(s.driver.0))
}

fn add_stream(sum: u64, s: &Stream, n: u32) -> u64 {
    add(add(add(sum, u64::from(s.node.0)), u64::from(s.slot.0)), u64::from(n))
}

fn add_value(sum: u64, value: &Value) -> u64 {
    match value {
        Value::Num(n) => add(add(sum, 0), *n),
        Value::Text(text) => {
            let mut all = add(sum, text.as_bytes().len() as u64);
            for byte in text.as_bytes() {
                all = add(all, u64::from(*byte));
            }
            all
        }
    }
}

fn add_place(sum: u64, p: &Place) -> u64 {
    add(add(sum, u64::from(p.owner.0)), u64::from(p.replicas.bits))
}

fn want_number(want: Want) -> u64 {
    match want {
        Want::Own => 0,
        Want::Read => 1,
        Want::Leave => 2,
    }
}

fn add_proposal(sum: u64, p: &Proposal) -> u64 {
    let all = add_stamp(add(sum, want_number(p.want)), &p.stamp);
    let all = add_stamp(add(all, u64::from(p.requester.0)), &p.base);
    add_place(all, &p.base_place)
}

fn cause_number(cause: &Cause) -> u64 {
    match cause {
        Cause::OwnStream => 0,
        Cause::Window => 1,
        Cause::NotDirectory => 2,
        Cause::Proposed(_) => 3,
        Cause::Owns => 4,
        Cause::NoSource => 5,
        Cause::WornOut => 6,
        Cause::NoCopy => 7,
        Cause::Held(slot) => 8 + u64::from(slot.0) * 256,
        Cause::NotValid(State::Valid) => 9,
        Cause::NotValid(State::Invalid) => 265,
        Cause::NotValid(State::Write) => 521,
        Cause::Kept(slot) => 10 + u64::from(slot.0) * 256,
        Cause::NotArbiter => 11,
        Cause::NotCollector => 12,
        Cause::OwnPlace => 13,
        Cause::HasCopy => 14,
        Cause::NotReader => 15,
        Cause::Degree => 16,
        Cause::IsSource => 17,
    }
}

fn add_cause(sum: u64, cause: &Cause) -> u64 {
    let all = add(sum, cause_number(cause));
    match cause {
        Cause::Proposed(stamp) => add_stamp(all, stamp),
        _ => all,
    }
}

fn add_body(sum: u64, body: &Body) -> u64 {
    match body {
        Body::RInv(r) => {
            let all = add_stream(add(sum, 1), &r.stream, r.number);
            let mut all = add(add(all, u64::from(r.done)), u64::from(r.followers.bits));
            for write in r.writes.as_slice() {
                all = add_value(add(add(all, u64::from(write.obj.0)), write.ver), &write.value);
            }
            all
        }
        Body::RAck(stream, n) => add_stream(add(sum, 2), stream, *n),
        Body::RVal(stream, n) => add_stream(add(sum, 3), stream, *n),
        Body::OReq(obj, want) => add(add(add(sum, 4), u64::from(obj.0)), want_number(*want)),
        Body::OInv(obj, p) => add_proposal(add(add(sum, 5), u64::from(obj.0)), p),
        Body::OAck(obj, p, content) => {
            let all = add_proposal(add(add(sum, 6), u64::from(obj.0)), p);
            match content {
                None => all,
                Some(content) => add_value(add(all, content.ver), &content.value),
            }
        }
        Body::ONack(obj, stamp, cause) => add_cause(add_stamp(add(add(sum, 7), u64::from(obj.0)), stamp), cause),
        Body::OVal(obj, stamp, place) => add_place(add_stamp(add(add(sum, 8), u64::from(obj.0)), stamp), place),
        Body::Recovered => add(sum, 9),
    }
}

fn add_packet(p: &Packet) -> u64 {
    let all = add(add(7, u64::from(p.number)), u64::from(p.letter.from.0));
    let all = add(add(all, u64::from(p.letter.to.0)), u64::from(p.letter.epoch));
    add_body(all, &p.letter.body)
}

fn told(read: Result<Packet, WireFault>) -> (u64, u64) {
    match read {
        Ok(packet) => (0, add_packet(&packet)),
        Err(WireFault::Short { at }) => (1, at),
        Err(WireFault::BadTag { at, byte }) => (2, at.wrapping_mul(256).wrapping_add(u64::from(byte))),
        Err(WireFault::BadField { at }) => (3, at),
        Err(WireFault::Extra { at }) => (4, at),
    }
}

/// The first case: its limits, its bytes, and the cases behind it.
fn next_case(cases: &[u8]) -> Option<(u8, &[u8], &[u8])> {
    let (head, behind) = cases.split_first_chunk::<3>()?;
    let len = usize::from(u16::from_be_bytes([head[1], head[2]]));
    if behind.len() < len {
        return None;
    }
    let (bytes, rest) = behind.split_at(len);
    Some((head[0], bytes, rest))
}

/// A number for each BLOCK cases.
const BLOCK: u64 = 50;

fn answers(alloc: Global, cases: &[u8]) -> Vec<u8> {
    let mut out = Vec::new(alloc);
    let mut sum: u64 = 7;
    let mut count: u64 = 0;
    let mut left = cases;
    for _ in 0..cases.len() {
        let Some((kind, bytes, rest)) = next_case(left) else {
            break;
        };
        left = rest;
        let (tag, number) = told(decode(alloc, bytes, &limits(kind)));
        sum = add(add(sum, tag), number);
        count = count.wrapping_add(1);
        if count % BLOCK == 0 {
            let _ = out.extend_from_slice(&sum.to_be_bytes());
            sum = 7;
        }
    }
    let _ = out.extend_from_slice(&sum.to_be_bytes());
    out
}

fn decode_all(alloc: Global, cases: &[u8]) -> u64 {
    let mut sum: u64 = 0;
    let mut left = cases;
    for _ in 0..cases.len() {
        let Some((kind, bytes, rest)) = next_case(left) else {
            break;
        };
        left = rest;
        if let Ok(packet) = decode(alloc, bytes, &limits(kind)) {
            sum = sum.wrapping_add(u64::from(packet.number));
        }
    }
    sum
}

fn keep(packets: &mut Vec<Packet>, packet: &Packet) {
    if packets.reserve(1).is_ok() {
        push_copy(packets, packet);
    }
}

fn read_packets(alloc: Global, cases: &[u8]) -> Vec<Packet> {
    let mut packets = Vec::new(alloc);
    let mut left = cases;
    for _ in 0..cases.len() {
        let Some((kind, bytes, rest)) = next_case(left) else {
            break;
        };
        left = rest;
        if let Ok(packet) = decode(alloc, bytes, &limits(kind)) {
            keep(&mut packets, &packet);
        }
    }
    packets
}

fn encode_all(packets: &[Packet], out: &mut Vec<u8>) {
    out.clear();
    for packet in packets {
        if fits(&packet.letter, &largest(2)) && out.capacity().saturating_sub(out.len()) >= longest(2) {
            encode_into(packet, 2, out);
        }
    }
}

fn fits_all(packets: &[Packet]) -> u64 {
    let mut count: u64 = 0;
    for packet in packets {
        if fits(&packet.letter, &largest(2)) {
            count = count.wrapping_add(1);
        }
    }
    count
}

fn fits_rounds(alloc: Global, cases: &[u8], rounds: u64) -> u64 {
    let packets = read_packets(alloc, cases);
    let mut sum: u64 = 0;
    for _ in 0..rounds {
        sum = sum.wrapping_add(fits_all(&packets));
    }
    sum
}

fn decode_rounds(alloc: Global, cases: &[u8], rounds: u64) -> u64 {
    let mut sum: u64 = 0;
    for _ in 0..rounds {
        sum = sum.wrapping_add(decode_all(alloc, cases));
    }
    sum
}

fn encode_rounds(alloc: Global, cases: &[u8], rounds: u64) -> u64 {
    let packets = read_packets(alloc, cases);
    let mut out = Vec::new(alloc);
    let _ = out.reserve(packets.len().saturating_mul(368));
    let mut sum: u64 = 0;
    for _ in 0..rounds {
        encode_all(&packets, &mut out);
        sum = sum.wrapping_add(out.len() as u64);
    }
    sum
}

fn main(rt: HostRuntime) -> ExitCode {
    let alloc = rt.alloc();
    let mut sink = StdSink::new(rt.stdout());
    let mut source = StdSource::new(rt.stdin());
    let mut words = Vec::new(alloc);
    if let Ok(all) = env::args(&rt) {
        for word in all {
            let _ = words.push(word);
        }
    }
    let Ok(cases) = read_all(alloc, &mut source, 1 << 30) else {
        return ExitCode::from(1);
    };
    let rounds: u64 = words.get(2).and_then(|word| word.parse().ok()).unwrap_or(1);
    let task = words.get(1).map_or("", |word| word.as_str());
    let out = if task == "answer" {
        answers(alloc, &cases)
    } else {
        let sum = if task == "decode" {
            decode_rounds(alloc, &cases, rounds)
        } else if task == "fits" {
            fits_rounds(alloc, &cases, rounds)
        } else {
            encode_rounds(alloc, &cases, rounds)
        };
        let mut line = Vec::new(alloc);
        if let Ok(text) = format!(in alloc; "{sum}\n") {
            let _ = line.extend_from_slice(text.as_bytes());
        }
        line
    };
    let _ = write_all(&mut sink, &out);
    ExitCode::from(0)
}
END
