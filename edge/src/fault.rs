//! Why the stream ended, by what is to be done.
use crate::pq::Fault;
use std::fmt;

#[derive(Debug)]
pub enum End {
    /// There is no connection, or PostgreSQL can't serve it for a while: it is tried again, and what is held stays
    /// until then.
    Broken(String),
    /// Changes are missing, or can't be understood: what is held goes at once.
    Lost(String),
    /// What an edge needs isn't there, and it can't mend that: the edge ends.
    Refused(String),
    /// The edge ends.
    Over,
}

impl fmt::Display for End {
    fn fmt(&self, f: &mut fmt::Formatter<'_>) -> fmt::Result {
        match self {
            End::Broken(why) => write!(f, "waits for PostgreSQL: {why}"),
            End::Lost(why) => write!(f, "begins anew: {why}"),
            End::Refused(why) => write!(f, "can't go on: {why}"),
            End::Over => f.write_str("ends"),
        }
    }
}

impl From<Fault> for End {
    /// By PostgreSQL's code. A fault of a kind that isn't known here may mean that changes are missing.
    fn from(fault: Fault) -> End {
        let why = fault.to_string();
        // A refused connection's has its code.
        let why = if why.contains(&*fault.state) { why } else { format!("{why} ({})", fault.state) };
        match (fault.state.get(..2).unwrap_or_default(), &*fault.state) {
            // A role that may not, a password that is wrong, a database that is gone, a type without an order.
            (_, "42501" | "42883" | "57P04" | "3D000") | ("28", _) => End::Refused(why),
            // No connection, no room, a server that is ended or cancels; a slot that a process still has.
            ("" | "08" | "53" | "57", _) | (_, "55006") => End::Broken(why),
            _ => End::Lost(why),
        }
    }
}

#[cfg(test)]
mod tests {
    use super::*;

    #[test]
    fn a_fault_s_code_tells_what_is_done() {
        let of = |state: &str| {
            let mut fault = Fault::from(String::from("why"));
            fault.state = state.into();
            End::from(fault).to_string()
        };
        for state in ["08006", "53300", "57P01", "57014", "55006"] {
            assert_eq!(of(state), format!("waits for PostgreSQL: why ({state})"));
        }
        for state in ["42501", "28P01", "3D000", "57P04"] {
            assert_eq!(of(state), format!("can't go on: why ({state})"));
        }
        for state in ["42704", "55000", "XX000"] {
            assert_eq!(of(state), format!("begins anew: why ({state})"));
        }
        assert_eq!(of(""), "waits for PostgreSQL: why");
        let mut fault = Fault::from(String::from("FATAL:  28P01: why"));
        fault.state = "28P01".into();
        assert_eq!(End::from(fault).to_string(), "can't go on: FATAL:  28P01: why");
    }
}
