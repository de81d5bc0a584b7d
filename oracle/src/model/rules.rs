//! Which of the strict rules of 02, Wish 6, a replica keeps: the strict kind all of them, the base
//! kind none. To show what a rule is for, a test leaves it out (`tests/rules_..`).

#[derive(Debug, Clone, Copy, PartialEq, Eq)]
pub struct Rules {
    /// (a): "a prepare .. completion replies or counts only if its ballot is the slot's ballot".
    pub prepares_at_the_slots_ballot: bool,
    /// (a), the same of an accept completion.
    pub accepts_at_the_slots_ballot: bool,
    /// (a): "and for an accept entry also the voted ballot".
    pub accepts_at_the_votes_ballot: bool,
    /// (b): "A leader entering Accept, by quorum or by offer, records the vote as its own."
    pub own_votes: bool,
    /// (c): when a member counts.
    pub counting: Counting,
    /// (c): a step-up clears the notes of what it prepares, so that they are of this lead.
    pub fresh_notes: bool,
    /// (d): "Prepare and Accept on a Committed or Executed slot keep its status".
    pub committed_stays: bool,
}

/// 02's way of counting a member, and what is left of it without one of its words.
#[derive(Debug, Clone, Copy, PartialEq, Eq)]
pub enum Counting {
    AsAsked,
    /// Without "slot e exists at the leader".
    SlotNeedNotExist,
    /// Without "has been noted from that member".
    NotesNotNeeded,
    /// With the leader's own endprep for e, whoever replies.
    ToTheLeadersEnd,
    /// 01: "a member counts on its reply for its own endprep slot".
    AsIn01,
}

impl Rules {
    pub const STRICT: Rules = Rules {
        prepares_at_the_slots_ballot: true,
        accepts_at_the_slots_ballot: true,
        accepts_at_the_votes_ballot: true,
        own_votes: true,
        counting: Counting::AsAsked,
        fresh_notes: true,
        committed_stays: true,
    };

    pub const BASE: Rules = Rules {
        prepares_at_the_slots_ballot: false,
        accepts_at_the_slots_ballot: false,
        accepts_at_the_votes_ballot: false,
        own_votes: false,
        counting: Counting::AsIn01,
        fresh_notes: false,
        committed_stays: false,
    };
}
