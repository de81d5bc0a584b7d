//! Schedules of an honest group, which a seed fixes.

use super::rng::Rng;
use crate::action::{ALL, Action, Kind};
use crate::honest::{Event, Group, Player};

/// How a group behaves: rates in a thousand, drawn once for each schedule.
struct Pace {
    step_up: u64,
    offer: u64,
    repeat: u64,
    /// How often the newest of what a member gave comes first.
    newest: u64,
}

/// Lets so many events happen, at most; stops where `goes_on` says so. The schedule is what happened.
pub fn honest_run<P: Player>(
    seed: u64,
    group: &mut Group<P>,
    events: usize,
    mut goes_on: impl FnMut(&Group<P>) -> bool,
) -> Vec<Event> {
    let mut rng = Rng::new(seed);
    let pace = Pace {
        step_up: rng.pick(&[20, 50, 120]),
        offer: rng.pick(&[20, 80, 150]),
        repeat: rng.pick(&[0, 30, 150]),
        newest: rng.pick(&[0, 400, 800]),
    };
    let mut run = Vec::new();
    while run.len() < events && goes_on(group) {
        let event = next(&mut rng, &pace, group, &run);
        group.happens(event).expect("it can happen");
        run.push(event);
    }
    run
}

fn next<P: Player>(rng: &mut Rng, pace: &Pace, group: &Group<P>, run: &[Event]) -> Event {
    let members = group.members.len();
    if rng.often(pace.offer) {
        let leads = |member: &usize| leads_prepared(&group.members[*member]);
        let leaders: Vec<usize> = (0..members).filter(leads).collect();
        if !leaders.is_empty() {
            return Event::IsOffered(rng.pick(&leaders), run.len() as u64 + 1);
        }
    }
    let waiting = if rng.often(pace.step_up) { Vec::new() } else { waiting(group) };
    let repeated = rng.often(pace.repeat);
    let open: Vec<Event> =
        waiting.into_iter().filter(|event| run.contains(event) == repeated).collect();
    if open.is_empty() {
        return Event::StepsUp(rng.index(members));
    }
    let event = rng.pick(&open);
    let newest = open.iter().rfind(|other| giver(**other) == giver(event));
    if rng.often(pace.newest) { *newest.unwrap_or(&event) } else { event }
}

/// Who gave what is heard or finished.
fn giver(event: Event) -> usize {
    match event {
        Event::StepsUp(member) | Event::IsOffered(member, _) => member,
        Event::Finishes(member, ..) | Event::Hears(_, member, ..) => member,
    }
}

fn leads_prepared<P: Player>(member: &P) -> bool {
    member.shown().leads() && member.shown().bal_prepared() > 0
}

/// All that can be heard or finished, of each member the newest last.
fn waiting<P: Player>(group: &Group<P>) -> Vec<Event> {
    let mut events = Vec::new();
    for (from, given) in group.given.iter().enumerate() {
        for &Action { kind, member, slot, ballot, .. } in given {
            match kind {
                Kind::PrepareBal | Kind::AcceptData | Kind::CommitSlot | Kind::Execute => {
                    events.push(Event::Finishes(from, kind, slot, ballot));
                }
                Kind::Heartbeat | Kind::StatusUp | Kind::StatusDown | Kind::ReadAnswer => {}
                _ => events.extend(
                    (0..group.members.len())
                        .filter(|&to| to != from && [ALL, to as u64].contains(&member))
                        .map(|to| Event::Hears(to, from, kind, slot, ballot)),
                ),
            }
        }
    }
    events
}
