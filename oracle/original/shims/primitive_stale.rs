//! Shim of primitive_stale.rs: only named by primitives.rs.

/// Names that primitives.rs exports from files that are not at hand, and that
/// none of the files built here uses. Each becomes an empty type.
macro_rules! names {
    ($($name:ident),* $(,)?) => {
        $(#[allow(non_camel_case_types)] pub struct $name;)*
    };
}
pub(crate) use names;

names! { stale_chains, ClusterRecord, StaleChainWalk, StaleEnd, StaleSummary }
