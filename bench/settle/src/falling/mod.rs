//! Limits and negations of networks.

mod gap;

pub mod limits {
    pub use super::Limits;
}

pub use gap::gap_level;

use crate::event_graph::*;
use crate::itv_base::*;
use crate::shim::Global;

#[derive(Debug, Clone, Copy, PartialEq, Eq)]
pub enum View {
    Plain,
    Negated,
}

#[derive(Debug, Clone, Copy, PartialEq, Eq)]
pub struct Limits {
    pub cap: i64,
    pub far: i64,
    pub lowest: i64,
    pub width: i64,
}

pub fn limits_of(net: &Network) -> Limits {
    let ends = net.constraints.iter().flat_map(|constraint| &constraint.causes).flat_map(|cause| [cause.range.low, cause.range.high]);
    let width = ends.flatten().map(i64::abs).max().unwrap_or(0);
    let far = i64::from(net.events) * (width + 1);
    Limits { cap: 2 * far, far, lowest: -far, width }
}

pub fn negation_of(_: Global, net: &Network) -> Result<Network, NoMemory> {
    let negated = |cause: &Cause| Cause {
        event: cause.event,
        range: Range { low: cause.range.high.map(|high| -high), high: cause.range.low.map(|low| -low) },
    };
    let kind = |kind: RuleKind| match kind {
        RuleKind::Lin => RuleKind::Lin,
        RuleKind::Late => RuleKind::Early,
        RuleKind::Early => RuleKind::Late,
    };
    let constraints = net.constraints.iter().map(|constraint| Constraint {
        kind: kind(constraint.kind),
        target: constraint.target,
        causes: constraint.causes.iter().map(negated).collect(),
    });
    Ok(Network { events: net.events, constraints: constraints.collect() })
}
