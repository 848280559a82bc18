//! Stands for the profile of conjugate gradients: it measures nothing and runs what it is given.

pub struct CgProfileSnapshot;

pub fn cg_profile_snapshot() -> CgProfileSnapshot {
    CgProfileSnapshot
}

pub(super) struct CgProfileSession;

impl CgProfileSession {
    pub fn new() -> Self {
        Self
    }

    pub fn measure<T>(&mut self, _preconditioner: bool, work: impl FnOnce() -> T) -> T {
        work()
    }

    pub fn iteration(&mut self) {}
}
