//! Hubs that list what they are given, and the types that `server/mod.rs` names.
// The source names cases and fields that lie outside the voting core: they are never read here.
#![allow(dead_code)]

use super::manager::CtrlMsg;
use super::multipaxos::{PeerMsg, Status, WalEntry};
use super::recorder::{Given, record};
use super::utils::{Bitmap, SummersetError};

pub(crate) type ReplicaId = u8;
pub(crate) type ClientId = u64;
pub(crate) type RequestId = u64;

/// The whole slot number with the entry's type: the source's packed number would fold slots.
pub(crate) type LogActionId = (usize, Status);
/// The slot, and the command's place in its batch.
pub(crate) type CommandId = (usize, usize);

#[derive(Debug, Clone, PartialEq, Eq)]
pub(crate) enum Command {
    Get { key: String },
    Put { key: String, value: String },
}

#[derive(Debug, Clone, PartialEq, Eq)]
pub(crate) enum CommandResult {
    Get { value: Option<String> },
    Put,
}

#[derive(Debug, Clone, PartialEq, Eq)]
pub(crate) enum ApiRequest {
    Req { id: RequestId, cmd: Command },
    Leave,
}

#[derive(Debug, Clone)]
pub(crate) enum ApiReply {
    Normal { id: RequestId, result: Option<CommandResult> },
    ReadRetry { id: RequestId, leader: Option<ReplicaId> },
}

impl ApiReply {
    pub(crate) fn normal(id: RequestId, result: Option<CommandResult>) -> Self {
        ApiReply::Normal { id, result }
    }

    pub(crate) fn rq_retry(id: RequestId, _cmd: Command, leader: Option<ReplicaId>) -> Self {
        ApiReply::ReadRetry { id, leader }
    }
}

#[derive(Debug, Clone)]
pub(crate) enum LogAction<Entry> {
    Append { entry: Entry, sync: bool },
}

#[derive(Debug, Clone)]
pub(crate) enum LogResult<Entry> {
    Append { now_size: usize },
    Read { entry: Option<Entry> },
}

#[derive(Debug, Clone)]
pub(crate) struct StorageHub;

impl StorageHub {
    pub(crate) fn submit_action(
        &mut self,
        id: LogActionId,
        action: LogAction<WalEntry>,
    ) -> Result<(), SummersetError> {
        let LogAction::Append { entry, .. } = action;
        record(Given::Entry(id, entry));
        Ok(())
    }
}

#[derive(Debug, Clone)]
pub(crate) struct TransportHub;

impl TransportHub {
    pub(crate) fn send_msg(&mut self, msg: PeerMsg, peer: ReplicaId) -> Result<(), SummersetError> {
        record(Given::Message(msg, peer));
        Ok(())
    }

    pub(crate) fn bcast_msg(
        &mut self,
        msg: PeerMsg,
        target: Option<Bitmap>,
    ) -> Result<(), SummersetError> {
        assert_eq!(target, None, "the voting core sends to one or to all");
        record(Given::Broadcast(msg));
        Ok(())
    }

    pub(crate) fn bcast_lease_msg(
        &mut self,
        _lease: u64,
        _ballot: u64,
        _msg: LeaseMsg,
        _target: Option<Bitmap>,
    ) -> Result<(), SummersetError> {
        must_not_be_reached!("a lease message")
    }
}

#[derive(Debug, Clone)]
pub(crate) struct ControlHub;

impl ControlHub {
    pub(crate) fn send_ctrl(&mut self, msg: CtrlMsg) -> Result<(), SummersetError> {
        let CtrlMsg::LeaderStatus { step_up } = msg;
        record(Given::Status { step_up });
        Ok(())
    }
}

#[derive(Debug, Clone)]
pub(crate) struct StateMachine;

impl StateMachine {
    pub(crate) fn submit_cmd(&mut self, id: CommandId, cmd: Command) -> Result<(), SummersetError> {
        record(Given::Command(id, cmd));
        Ok(())
    }

    pub(crate) async fn do_sync_cmd(
        &mut self,
        _id: CommandId,
        _cmd: Command,
    ) -> Result<(Vec<(CommandId, CommandResult)>, CommandResult), SummersetError> {
        must_not_be_reached!("a command run at once")
    }
}

#[derive(Debug, Clone)]
pub(crate) struct ExternalApi;

impl ExternalApi {
    pub(crate) fn send_reply(
        &mut self,
        reply: ApiReply,
        client: ClientId,
    ) -> Result<(), SummersetError> {
        record(Given::Reply(reply, client));
        Ok(())
    }
}

/// Timers are off: only the two counters' resets are reached.
#[derive(Debug, Clone)]
pub(crate) struct Heartbeater;

impl Heartbeater {
    pub(crate) fn clear_reply_cnts(
        &mut self,
        _peer: Option<ReplicaId>,
    ) -> Result<(), SummersetError> {
        Ok(())
    }

    pub(crate) fn update_bcast_cnts(&mut self) -> Result<(), SummersetError> {
        Ok(())
    }

    pub(crate) fn kickoff_hear_timer(
        &mut self,
        _peer: Option<ReplicaId>,
    ) -> Result<(), SummersetError> {
        must_not_be_reached!("a timer")
    }

    pub(crate) fn update_heard_cnt(&mut self, _peer: ReplicaId) -> Result<(), SummersetError> {
        must_not_be_reached!("a heartbeat from another member")
    }
}

#[derive(Debug, Clone)]
pub(crate) enum LeaseMsg {
    Promise,
}

#[derive(Debug, Clone)]
pub(crate) enum LeaseNotice {
    DoRevoke { peers: Option<Bitmap> },
    NewGrants { peers: Option<Bitmap>, accept_bar: Option<usize> },
}

/// Leases are off.
#[derive(Debug, Clone)]
pub(crate) struct LeaseManager;

impl LeaseManager {
    pub(crate) fn add_notice(
        &mut self,
        _lease: u64,
        _notice: LeaseNotice,
    ) -> Result<(), SummersetError> {
        must_not_be_reached!("a lease notice")
    }

    pub(crate) fn attempt_refresh(
        &mut self,
        _peers: Option<&Bitmap>,
    ) -> Result<Bitmap, SummersetError> {
        must_not_be_reached!("a lease refresh")
    }
}
