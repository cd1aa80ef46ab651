//! The measuring stick: the same job in ordinary Rust, with serde_json, maps in nodes, and IndexMap for groups.
mod access;
mod fields;
mod output;
mod publish;
mod refused;
mod topics;
mod tree;
mod world;

use crate::access::read_acl;
use crate::fields::read;
use crate::output::print;
use crate::refused::{Refused, R};
use crate::tree::Node;
use crate::world::{Copy, Outcome, World};
use std::collections::{BTreeMap, BTreeSet};
use std::io::{self, BufRead, BufWriter, Read, Write};

fn option(args: &[String], name: &str) -> Option<String> {
    let at = args.iter().position(|a| a == name)?;
    args.get(at + 1).cloned()
}

fn begin(args: &[String]) -> World {
    let access = option(args, "--acl-file").map(|file| {
        let mut text = String::new();
        std::fs::File::open(file)
            .unwrap()
            .read_to_string(&mut text)
            .unwrap();
        read_acl(&text).unwrap()
    });
    World {
        moment: 0,
        acl: access,
        sessions: BTreeMap::new(),
        subs: Node::new(),
        retained: Node::new(),
        by_deadline: BTreeSet::new(),
        ends: BTreeSet::new(),
        kept: 0,
        count: 0,
        max_retained: option(args, "--max-retained").map(|n| n.parse().unwrap()),
        max_queued: option(args, "--max-queued").map_or(1000, |n| n.parse().unwrap()),
    }
}

fn is_blank(line: &[u8]) -> bool {
    line.iter().all(|b| matches!(b, b' ' | b'\t' | b'\r'))
}

fn answer(world: &mut World, line: &[u8], copies: &mut Vec<Copy>) -> R<Outcome> {
    if line.len() > 1_048_576 {
        return Err(Refused(1, 0));
    }
    read(line, |fields| world.apply(fields, copies))
}

fn main() {
    let args: Vec<String> = std::env::args().collect();
    let mut world = begin(&args);
    let stdin = io::stdin();
    let mut input = io::BufReader::with_capacity(1 << 16, stdin.lock());
    let mut out = BufWriter::with_capacity(1 << 16, io::stdout());
    let (mut number, mut refused, mut line) = (0u64, false, Vec::new());
    let mut copies = vec![];
    loop {
        line.clear();
        if input.read_until(b'\n', &mut line).unwrap() == 0 {
            break;
        }
        number += 1;
        if line.last() == Some(&b'\n') {
            line.pop();
        }
        if line.len() <= 1_048_576 && is_blank(&line) {
            continue;
        }
        copies.clear();
        let outcome = answer(&mut world, &line, &mut copies);
        refused |= outcome.is_err();
        print(&mut out, number, &copies, &outcome).unwrap();
    }
    out.flush().unwrap();
    std::process::exit(if refused { 1 } else { 0 })
}
