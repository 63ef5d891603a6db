//! The processor core: the benchmark stays on one, where the system allows it.

/// Cores as bits, as sched_getaffinity gives them.
pub type Cores = [u64; 16];

#[cfg(target_os = "linux")]
mod system {
    use super::Cores;
    extern "C" {
        fn sched_getaffinity(process: i32, size: usize, cores: *mut u64) -> i32;
        fn sched_setaffinity(process: i32, size: usize, cores: *const u64) -> i32;
    }

    pub fn allowed() -> Option<Cores> {
        let mut cores = Cores::default();
        (unsafe { sched_getaffinity(0, size_of::<Cores>(), cores.as_mut_ptr()) } >= 0).then_some(cores)
    }

    pub fn allow(cores: &Cores) -> bool {
        unsafe { sched_setaffinity(0, size_of::<Cores>(), cores.as_ptr()) == 0 }
    }
}

#[cfg(not(target_os = "linux"))]
mod system {
    pub fn allowed() -> Option<super::Cores> {
        None
    }

    pub fn allow(_: &super::Cores) -> bool {
        false
    }
}

/// The cores that the process had before it was pinned.
pub struct Pinned {
    before: Cores,
    pub core: usize,
}

/// Pins the process to the last core that it may use.
pub fn to_one_core() -> Option<Pinned> {
    let before = system::allowed()?;
    let core = (0..before.len() * 64).rev().find(|i| before[i / 64] >> (i % 64) & 1 == 1)?;
    let mut one = Cores::default();
    one[core / 64] = 1 << (core % 64);
    system::allow(&one).then_some(Pinned { before, core })
}

impl Drop for Pinned {
    fn drop(&mut self) {
        system::allow(&self.before);
    }
}
