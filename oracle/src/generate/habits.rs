//! How an episode's group behaves: drawn once, for each new replica of a trace.

use super::Profile;
use super::rng::Rng;
use crate::refuse;

/// Rates are in a thousand.
pub struct Habits {
    pub group: u8,
    pub watched: u8,
    pub start: u64,
    pub options: u64,
    /// Records of the watched member until a new replica is made.
    pub records: u64,
    pub loss: u64,
    /// Prepares are lost beside: then members first hear of a leader by its Accepts.
    pub prepare_loss: u64,
    pub repeat: u64,
    pub overtake: u64,
    /// How heavy log completions weigh beside messages.
    pub log_pace: u64,
    pub log_missing: u64,
    pub log_repeat: u64,
    pub log_overtake: u64,
    /// How heavy each free event weighs beside messages and log completions.
    pub timeouts: u64,
    pub offers: u64,
    pub executions: u64,
    pub reads: u64,
    pub notices: u64,
    pub cuts: u64,
    /// Different keys in the episode; above 256 the table overflows.
    pub keys: u64,
    pub keys_are_large: bool,
    pub full_batches: bool,
    /// Read replies hold what members know, or small numbers from nowhere.
    pub honest_replies: bool,
    pub spoiled: u64,
    pub wild: u64,
}

const STARTS: [u64; 8] = [0, 0, 0, 1, 7, 1000, (1 << 32) - 1, 1 << 32];

impl Habits {
    /// In `mix` one strict group in ten is a base group, so that a trace has replicas of both kinds.
    pub fn draw(rng: &mut Rng, profile: Profile, strict: bool) -> Self {
        let strict = strict && !(profile == Profile::Mix && rng.often(100));
        let profile = match profile {
            Profile::Mix => rng.pick(&[Profile::Group, Profile::Fuzz, Profile::Reads]),
            single => single,
        };
        let mut habits = Habits::of_a_group(rng);
        match profile {
            Profile::Fuzz => habits.spoil(rng),
            Profile::Reads => habits.read_much(rng),
            Profile::Writes => habits.only_write(),
            Profile::Group | Profile::Mix => {}
        }
        if strict {
            habits.contend(rng);
        }
        habits
    }

    pub fn is_strict(&self) -> bool {
        refuse::is_strict(self.options)
    }

    /// No record is spoiled, and no call comes from nowhere.
    pub fn is_honest(&self) -> bool {
        self.spoiled == 0 && self.wild == 0
    }

    /// A strict group: members step up against each other, with logs of several lengths, and replies
    /// and completions that come late. In a storm nobody is prepared for long.
    fn contend(&mut self, rng: &mut Rng) {
        let storm = rng.often(200);
        self.options |= 4;
        self.timeouts = if storm { rng.pick(&[6, 20]) } else { rng.pick(&[0, 1, 2]) };
        self.offers = rng.pick(&[30, 100, 200]);
        self.log_pace = rng.pick(&[250, 250, 60]);
        self.log_missing = rng.pick(&[0, 0, 10]);
        self.log_overtake = rng.pick(&[0, 100, 500]);
        self.log_repeat = rng.pick(&[0, 30, 150]);
        self.repeat = rng.pick(&[0, 40, 200]);
        self.loss = rng.pick(&[0, 0, 10, 40]);
        self.prepare_loss = rng.pick(&[0, 0, 0, 300]);
        self.cuts = rng.pick(&[0, 4, 10]);
        self.executions = rng.pick(&[20, 100, 300]);
        self.notices = rng.pick(&[5, 40]);
        self.wild = self.wild.min(1500);
    }

    fn of_a_group(rng: &mut Rng) -> Self {
        let group = rng.pick(&[1, 3, 3, 3, 5, 5, 7, 9]);
        // A quiet network lets the window fill; a bad one brings many leaders.
        let bad = rng.pick(&[0, 0, 1, 4, 15]);
        let disallow = if group > 1 && rng.often(80) { 2 } else { 0 };
        Habits {
            group,
            watched: rng.below(group.into()) as u8,
            start: if rng.often(150) { rng.below(1 << 32) } else { rng.pick(&STARTS) },
            options: rng.below(2) + disallow,
            records: rng.pick(&[80, 300, 700, 1200]) + rng.below(100),
            loss: bad * 10,
            prepare_loss: rng.pick(&[0, 0, 0, 500]),
            repeat: rng.pick(&[0, 20, 80]),
            overtake: rng.pick(&[0, 50, 300]),
            log_pace: rng.pick(&[250, 250, 60]),
            log_missing: bad * 3,
            log_repeat: rng.pick(&[0, 10, 60]),
            log_overtake: rng.pick(&[0, 30, 300]),
            timeouts: rng.pick(&[0, 1, 3, 8]),
            offers: rng.pick(&[8, 30, 100]),
            executions: rng.pick(&[0, 30, 150]),
            reads: rng.pick(&[0, 2, 10]),
            notices: rng.pick(&[0, 15, 40]),
            cuts: rng.pick(&[0, 0, 4]),
            keys: rng.pick(&[3, 30, 250, 600, 600]),
            keys_are_large: rng.often(300),
            full_batches: rng.often(500),
            honest_replies: rng.often(600),
            spoiled: 0,
            wild: 0,
        }
    }

    fn spoil(&mut self, rng: &mut Rng) {
        self.records = rng.pick(&[60, 150, 400]) + rng.below(60);
        self.spoiled = rng.pick(&[30, 120, 350]);
        // With the last, the group is hardly heard beside calls from nowhere.
        self.wild = rng.pick(&[0, 80, 400, 6000]);
        self.timeouts += 4;
        self.reads = rng.pick(&[2, 20]);
    }

    /// No reads, and no more keys than the table holds.
    fn only_write(&mut self) {
        self.reads = 0;
        self.keys = self.keys.min(250);
    }

    fn read_much(&mut self, rng: &mut Rng) {
        self.records = rng.pick(&[120, 300]) + rng.below(60);
        self.reads = rng.pick(&[150, 500]);
        self.timeouts += 2;
        self.keys = rng.pick(&[3, 30]);
        self.honest_replies = rng.often(250);
    }
}
