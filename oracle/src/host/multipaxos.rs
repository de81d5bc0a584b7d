//! Plays the source's `multipaxos/mod.rs`: its types, its small methods, and the four files.

use std::collections::HashMap;
use std::time::SystemTime;

use super::executor;
use crate::guard::WindowFull;
use crate::server::{
    ApiReply, ApiRequest, ClientId, Command, CommandId, CommandResult, ControlHub, ExternalApi,
    Heartbeater, LeaseManager, LeaseMsg, LogActionId, LogResult, ReplicaId, RequestId,
    StateMachine, StorageHub, TransportHub,
};
use crate::utils::{Bitmap, Stopwatch, SummersetError};

include!(concat!(env!("OUT_DIR"), "/mods.rs"));

/// 01: "Window of 64 slots from `start_slot`".
pub(crate) const WINDOW: usize = 64;

pub(crate) type Ballot = u64;
pub(crate) type ReqBatch = Vec<(ClientId, ApiRequest)>;

/// Only asked for by statistics, which are off.
pub(crate) trait GetSize {
    fn get_size(&self) -> usize;
}

impl GetSize for ReqBatch {
    fn get_size(&self) -> usize {
        must_not_be_reached!("bandwidth statistics")
    }
}

#[derive(Debug, Clone)]
pub(crate) struct ReplicaConfig {
    pub(crate) urgent_commit_notice: bool,
    pub(crate) disallow_step_up: bool,
    pub(crate) disable_hb_timer: bool,
    pub(crate) logger_sync: bool,
    pub(crate) enable_leader_leases: bool,
    pub(crate) record_breakdown: bool,
    pub(crate) record_size_recv: bool,
    pub(crate) record_node_cnts: bool,
}

#[derive(Debug, Clone, Copy, PartialEq, Eq, PartialOrd, Ord)]
pub(crate) enum Status {
    Null = 0,
    Preparing = 1,
    Accepting = 2,
    Committed = 3,
    Executed = 4,
}

#[derive(Debug, Clone, PartialEq)]
pub(crate) struct LeaderBookkeeping {
    pub(crate) trigger_slot: usize,
    pub(crate) endprep_slot: usize,
    pub(crate) prepare_acks: Bitmap,
    pub(crate) prepare_max_bal: Ballot,
    pub(crate) accept_acks: Bitmap,
}

#[derive(Debug, Clone, PartialEq)]
pub(crate) struct ReplicaBookkeeping {
    pub(crate) source: ReplicaId,
    pub(crate) trigger_slot: usize,
    pub(crate) endprep_slot: usize,
}

#[derive(Debug, Clone, PartialEq)]
pub(crate) struct Instance {
    pub(crate) bal: Ballot,
    pub(crate) status: Status,
    pub(crate) reqs: ReqBatch,
    pub(crate) voted: (Ballot, ReqBatch),
    pub(crate) leader_bk: Option<LeaderBookkeeping>,
    pub(crate) replica_bk: Option<ReplicaBookkeeping>,
    pub(crate) external: bool,
    pub(crate) wal_offset: usize,
}

/// A reply's knowledge of one key: nothing, a slot alone, or a slot with a value.
pub(crate) type Knowledge = Option<(usize, Option<String>)>;

#[derive(Debug, Clone, PartialEq)]
pub(crate) struct QuorumReadBookkeeping {
    pub(crate) reads: ReqBatch,
    pub(crate) rq_acks: Bitmap,
    pub(crate) max_replies: Vec<Knowledge>,
}

#[derive(Debug, Clone)]
pub(crate) enum WalEntry {
    PrepareBal { slot: usize, ballot: Ballot },
    AcceptData { slot: usize, ballot: Ballot, reqs: ReqBatch },
    CommitSlot { slot: usize },
}

#[derive(Debug, Clone)]
pub(crate) enum PeerMsg {
    Prepare {
        trigger_slot: usize,
        ballot: Ballot,
    },
    PrepareReply {
        slot: usize,
        trigger_slot: usize,
        endprep_slot: usize,
        ballot: Ballot,
        voted: Option<(Ballot, ReqBatch)>,
        accept_bar: usize,
    },
    Accept {
        slot: usize,
        ballot: Ballot,
        reqs: ReqBatch,
    },
    AcceptReply {
        slot: usize,
        ballot: Ballot,
        reply_ts: Option<SystemTime>,
    },
    /// The source dispatches on it; its handler is not part of the voting core.
    #[allow(dead_code)]
    ReadQuery {
        reads: ReqBatch,
    },
    ReadQueryReply {
        rq_id: (ClientId, RequestId),
        replies: Vec<Knowledge>,
        from_leader: bool,
    },
    Heartbeat {
        ballot: Ballot,
        commit_bar: usize,
        exec_bar: usize,
        snap_bar: usize,
    },
    CommitNotice {
        ballot: Ballot,
        commit_bar: usize,
    },
}

#[derive(Debug, Clone)]
pub struct MultiPaxosReplica {
    pub(crate) id: ReplicaId,
    pub(crate) population: u8,
    pub(crate) quorum_cnt: u8,
    pub(crate) config: ReplicaConfig,
    pub(crate) control_hub: ControlHub,
    pub(crate) external_api: ExternalApi,
    pub(crate) state_machine: StateMachine,
    pub(crate) storage_hub: StorageHub,
    pub(crate) transport_hub: TransportHub,
    pub(crate) lease_manager: LeaseManager,
    pub(crate) heartbeater: Heartbeater,
    pub(crate) leader: Option<ReplicaId>,
    pub(crate) insts: Vec<Instance>,
    pub(crate) start_slot: usize,
    pub(crate) snap_bar: usize,
    pub(crate) bal_prep_sent: Ballot,
    pub(crate) bal_prepared: Ballot,
    pub(crate) bal_max_seen: Ballot,
    pub(crate) accept_bar: usize,
    pub(crate) commit_bar: usize,
    pub(crate) exec_bar: usize,
    pub(crate) peer_exec_bar: HashMap<ReplicaId, usize>,
    pub(crate) peer_accept_bar: HashMap<ReplicaId, usize>,
    pub(crate) peer_accept_max: usize,
    pub(crate) wal_offset: usize,
    pub(crate) highest_slot: HashMap<String, usize>,
    pub(crate) quorum_reads: HashMap<(ClientId, RequestId), QuorumReadBookkeeping>,
    pub(crate) bw_accumulators: HashMap<ReplicaId, usize>,
    pub(crate) bd_stopwatch: Option<Stopwatch>,
    pub(crate) node_cnts_stats: HashMap<ReplicaId, u64>,
}

impl MultiPaxosReplica {
    pub(crate) fn is_leader(&self) -> bool {
        self.leader == Some(self.id)
    }

    fn is_stable_leader(&self) -> bool {
        must_not_be_reached!("a leader's lease")
    }

    /// The source's null instance; 01's window has no 65th.
    pub(crate) fn null_instance(&self) -> Instance {
        if self.insts.len() >= WINDOW {
            WindowFull::unwind();
        }
        Instance {
            bal: 0,
            status: Status::Null,
            reqs: Vec::new(),
            voted: (0, Vec::new()),
            leader_bk: None,
            replica_bk: None,
            external: false,
            wal_offset: 0,
        }
    }

    /// 01: "(floor(bal_max_seen/256)+1)*256 + id + 1".
    fn make_greater_ballot(&self, base: Ballot) -> Ballot {
        (base / 256 + 1) * 256 + Ballot::from(self.id) + 1
    }

    pub(crate) fn make_log_action_id(slot: usize, entry_type: Status) -> LogActionId {
        (slot, entry_type)
    }

    fn split_log_action_id(id: LogActionId) -> (usize, Status) {
        id
    }

    fn make_command_id(slot: usize, place: usize) -> CommandId {
        (slot, place)
    }

    fn make_ro_command_id(_client: ClientId, _request: RequestId) -> CommandId {
        must_not_be_reached!("a command run at once")
    }

    async fn handle_cmd_result(
        &mut self,
        _id: CommandId,
        _result: CommandResult,
    ) -> Result<(), SummersetError> {
        must_not_be_reached!("the source's own execution result")
    }

    async fn ensure_lease_revoked(&mut self, _peer: ReplicaId) -> Result<(), SummersetError> {
        must_not_be_reached!("a lease to revoke")
    }

    /// The doors of the four files, which open to this module alone.
    pub(crate) fn receive(&mut self, peer: ReplicaId, msg: PeerMsg) -> Result<(), SummersetError> {
        executor::run(self.handle_msg_recv(peer, msg))
    }

    pub(crate) fn time_out(&mut self, source: ReplicaId) -> Result<(), SummersetError> {
        executor::run(self.become_a_leader(source))
    }

    pub(crate) fn log_done(
        &mut self,
        slot: usize,
        entry_type: Status,
        now_size: usize,
    ) -> Result<(), SummersetError> {
        let result = LogResult::Append { now_size };
        executor::run(self.handle_log_result(Self::make_log_action_id(slot, entry_type), result))
    }

    pub(crate) fn note_keys(&mut self, slot: usize, reqs: &ReqBatch) {
        Self::refresh_highest_slot(slot, reqs, &mut self.highest_slot);
    }
}
