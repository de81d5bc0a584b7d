//! Reads of the watched member and what the others answer.

use super::group::{Mail, World};
use crate::batch::Keys;
use crate::call::{Call, Known, KnownList};

/// Opens a read and lets members answer it, or answers an open one again.
pub(super) fn event(world: &mut World) {
    let open = world.watched_replica().reads();
    let enough = open.len() >= 14 && world.rng.often(700);
    if open.is_empty() || (world.rng.often(400) && !enough) {
        open_one(world);
    } else {
        let (read, length) = world.rng.pick(&open);
        answer_from_somebody(world, read, length);
    }
}

fn open_one(world: &mut World) {
    let used_again = world.reads_opened > 0 && world.rng.often(60);
    let read = if used_again {
        world.rng.below(world.reads_opened)
    } else {
        world.reads_opened += 1;
        world.reads_opened - 1
    };
    let length = if world.rng.often(30) { 0 } else { world.rng.between(1, 8) };
    let keys: Vec<u64> = (0..length).map(|_| world.key()).collect();
    let watched = world.habits.watched;
    world.deliver(watched, Call::OpenRead { read, keys: Keys::from_slice(&keys) });
    if world.habits.honest_replies {
        post_honest_answers(world, read, &keys);
    }
}

/// Every member, self too now and then, tells what it knows at this moment.
fn post_honest_answers(world: &mut World, read: u64, keys: &[u64]) {
    let watched = world.habits.watched;
    for peer in 0..world.habits.group {
        if peer == watched && world.rng.often(500) {
            continue;
        }
        let replica = world.members[usize::from(peer)].replica();
        let known: Vec<Known> = keys.iter().map(|key| replica.knowledge(*key)).collect();
        let from_leader = replica.leads() && replica.bal_prepared() > 0 && world.rng.often(300);
        let known = KnownList::from_slice(&known);
        let call = Call::ReadReply { peer, read, known, from_leader };
        world.mail.push(Mail { from: peer, to: watched, call });
    }
}

/// Small slots and values from nowhere, so that every case of the merge meets every other.
fn answer_from_somebody(world: &mut World, read: u64, length: usize) {
    let rng = &mut *world.rng;
    let length = if rng.often(40) { rng.index(9) } else { length };
    let values = rng.pick(&[1, 2, 3]);
    let known: Vec<Known> = (0..length)
        .map(|_| match rng.below(4) {
            0 => Known::Nothing,
            1 => Known::Slot(rng.below(4)),
            _ => Known::Value(rng.below(4), rng.below(values)),
        })
        .collect();
    let peer = rng.below(world.habits.group.into()) as u8;
    let from_leader = rng.often(60);
    let read = if rng.often(30) { rng.below(1000) } else { read };
    let known = KnownList::from_slice(&known);
    let watched = world.habits.watched;
    world.deliver(watched, Call::ReadReply { peer, read, known, from_leader });
}
