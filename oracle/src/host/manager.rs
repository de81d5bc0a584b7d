//! Control messages, as `manager/mod.rs` names them.

#[derive(Debug, Clone)]
pub(crate) enum CtrlMsg {
    LeaderStatus { step_up: bool },
}
