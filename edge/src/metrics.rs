//! What watches an edge asks by HTTP: /metrics and /healthz.
use crate::{shared::Shared, stats};
use edge_common::http::{FAULT, NOT_FOUND, OK, UNAVAILABLE};

pub fn page(path: &str, shared: &Shared) -> (&'static str, String) {
    match path {
        "/metrics" => stats::metrics(shared).map_or((FAULT, String::new()), |text| (OK, text)),
        "/healthz" if shared.is_stale() => (UNAVAILABLE, "stale\n".into()),
        "/healthz" if !shared.is_following() => (UNAVAILABLE, "not following\n".into()),
        "/healthz" => (OK, "following\n".into()),
        _ => (NOT_FOUND, String::new()),
    }
}
