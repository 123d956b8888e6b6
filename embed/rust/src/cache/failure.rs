//! Why a load has failed, for those who waited for it.
use std::any::Any;
use std::error::Error;
use std::sync::Arc;

/// Why a load has failed, where its loader says so.
pub(super) type Cause = Arc<dyn Error + Send + Sync>;

/// What those are told who wait for a load that has failed.
#[derive(Clone)]
pub(super) enum Failure {
    Unsaid,
    Said(Cause),
    /// What its loader was told, of any type: for those who ask for that type.
    Shared(Arc<dyn Any + Send + Sync>),
}

impl Failure {
    /// The cause, where the loader says it.
    pub fn said(self) -> Option<Cause> {
        match self {
            Failure::Said(cause) => Some(cause),
            Failure::Unsaid | Failure::Shared(_) => None,
        }
    }

    /// What the loader was told, where that is of this type.
    pub fn shared<E: Send + Sync + 'static>(self) -> Option<Arc<E>> {
        match self {
            Failure::Shared(why) => why.downcast().ok(),
            Failure::Unsaid | Failure::Said(_) => None,
        }
    }
}
