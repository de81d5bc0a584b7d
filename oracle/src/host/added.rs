//! 01's forms for what the four files lack: the fresh replica, offer, executed, opening a read.

use std::collections::HashMap;

use super::multipaxos::{
    LeaderBookkeeping, MultiPaxosReplica, PeerMsg, QuorumReadBookkeeping, ReplicaConfig, ReqBatch,
    Status, WalEntry,
};
use crate::server::{
    ApiRequest, Command, ControlHub, ExternalApi, Heartbeater, LeaseManager, LogAction, ReplicaId,
    StateMachine, StorageHub, TransportHub,
};
use crate::utils::{Bitmap, SummersetError};

impl ReplicaConfig {
    /// 01's two options; leases, timers and statistics off.
    fn new(urgent: bool, disallow: bool) -> Self {
        ReplicaConfig {
            urgent_commit_notice: urgent,
            disallow_step_up: disallow,
            disable_hb_timer: true,
            logger_sync: false,
            enable_leader_leases: false,
            record_breakdown: false,
            record_size_recv: false,
            record_node_cnts: false,
        }
    }
}

impl MultiPaxosReplica {
    /// 01, "Fresh": no leader, ballots and wal_offset 0, all bars at start, no slots.
    pub(crate) fn fresh(
        id: ReplicaId,
        population: u8,
        start: usize,
        urgent: bool,
        disallow: bool,
    ) -> Self {
        let others = (0..population).filter(|&member| member != id);
        MultiPaxosReplica {
            id,
            population,
            quorum_cnt: population / 2 + 1,
            config: ReplicaConfig::new(urgent, disallow),
            control_hub: ControlHub,
            external_api: ExternalApi,
            state_machine: StateMachine,
            storage_hub: StorageHub,
            transport_hub: TransportHub,
            lease_manager: LeaseManager,
            heartbeater: Heartbeater,
            leader: None,
            insts: Vec::new(),
            start_slot: start,
            snap_bar: start,
            bal_prep_sent: 0,
            bal_prepared: 0,
            bal_max_seen: 0,
            accept_bar: start,
            commit_bar: start,
            exec_bar: start,
            peer_exec_bar: HashMap::new(),
            peer_accept_bar: others.map(|member| (member, usize::MAX)).collect(),
            peer_accept_max: usize::MAX,
            wal_offset: 0,
            highest_slot: HashMap::new(),
            quorum_reads: HashMap::new(),
            bw_accumulators: HashMap::new(),
            bd_stopwatch: None,
            node_cnts_stats: HashMap::new(),
        }
    }

    pub(crate) fn log_end(&self) -> usize {
        self.start_slot + self.insts.len()
    }

    /// 01, "Offer": a slot in Accepting at bal_prepared, external, `voted` not set.
    pub(crate) fn offer(&mut self, reqs: ReqBatch) -> Result<(), SummersetError> {
        let (slot, ballot) = (self.log_end(), self.bal_prepared);
        let mut instance = self.null_instance();
        instance.bal = ballot;
        instance.status = Status::Accepting;
        instance.reqs.clone_from(&reqs);
        instance.external = true;
        instance.leader_bk = Some(LeaderBookkeeping {
            trigger_slot: 0,
            endprep_slot: 0,
            prepare_acks: Bitmap::new(self.population, false),
            prepare_max_bal: 0,
            accept_acks: Bitmap::new(self.population, false),
        });
        self.insts.push(instance);
        self.note_keys(slot, &reqs);
        let entry = WalEntry::AcceptData { slot, ballot, reqs: reqs.clone() };
        self.storage_hub.submit_action(
            Self::make_log_action_id(slot, Status::Accepting),
            LogAction::Append { entry, sync: self.config.logger_sync },
        )?;
        self.transport_hub.bcast_msg(PeerMsg::Accept { slot, ballot, reqs }, None)
    }

    /// 01, "Executed": ignored below start; a Committed slot becomes Executed; the bar moves.
    pub(crate) fn executed(&mut self, slot: usize) {
        if slot < self.start_slot {
            return;
        }
        let instance = &mut self.insts[slot - self.start_slot];
        if instance.status == Status::Committed {
            instance.status = Status::Executed;
        }
        while self.exec_bar < self.commit_bar
            && self.insts[self.exec_bar - self.start_slot].status == Status::Executed
        {
            self.exec_bar += 1;
        }
    }

    /// 01: a read "opens with no acknowledgements and with nothing known per key".
    pub(crate) fn open_read(&mut self, read: u64, keys: &[u64]) {
        let get = |(place, key): (usize, &u64)| {
            let cmd = Command::Get { key: key.to_string() };
            (read, ApiRequest::Req { id: place as u64, cmd })
        };
        let bookkeeping = QuorumReadBookkeeping {
            reads: keys.iter().enumerate().map(get).collect(),
            rq_acks: Bitmap::new(self.population, false),
            max_replies: vec![None; keys.len()],
        };
        self.quorum_reads.insert(Self::read_name(read), bookkeeping);
    }

    /// The source names a read by the client and request id of its first key.
    pub(crate) fn read_name(read: u64) -> (u64, u64) {
        (read, 0)
    }
}
