//! Interrupts a thread during some of its calls, with a timer that sends the signal SIGURG. The interrupted thread sleeps for a
//! microsecond. On a busy machine, it sleeps repeatedly, at most `PATIENT` times, until other threads have made calls.
//! If the signal arrives between two calls, it has no effect, and the timer is started again.

#[cfg(all(target_os = "linux", any(target_arch = "x86_64", target_arch = "aarch64")))]
mod timer {
    use std::cell::Cell;
    use std::ptr::null;
    use std::sync::atomic::{compiler_fence, AtomicBool, Ordering::Relaxed, Ordering::SeqCst};

    use crate::area::Area;
    use crate::words::{AGAIN, MANY, PATIENT, STOPS};

    const URGENT: i32 = 23; // SIGURG
    const MONOTONIC: usize = 1;
    const TO_THREAD: i32 = 4; // SIGEV_THREAD_ID
    const IS_X86: bool = cfg!(target_arch = "x86_64");
    const CREATE: i64 = if IS_X86 { 222 } else { 107 };
    const SET: i64 = if IS_X86 { 223 } else { 110 };
    const DELETE: i64 = if IS_X86 { 226 } else { 111 };
    const THREAD: i64 = if IS_X86 { 186 } else { 178 };

    extern "C" {
        fn syscall(number: i64, ...) -> i64;
        fn signal(number: i32, handler: usize) -> usize;
        fn usleep(microseconds: u32) -> i32;
    }

    /// The `sigevent` of C, for a timer.
    #[repr(C)]
    struct Event {
        value: usize,
        signal: i32,
        notify: i32,
        thread: i32,
        rest: [i32; 11],
    }

    thread_local! {
        /// The current thread's run.
        static RUN: Cell<*const Area> = const { Cell::new(null()) };
        /// Whether the current thread is in a call to the set.
        static IS_IN_CALL: AtomicBool = const { AtomicBool::new(false) };
        /// Whether the last signal arrived between two calls.
        static IS_MISSED: AtomicBool = const { AtomicBool::new(false) };
    }

    /// Makes a call to the set. A signal interrupts the thread only during `in_call`.
    pub fn in_call<R>(call: impl FnOnce() -> R) -> R {
        IS_IN_CALL.with(|it| it.store(true, Relaxed));
        compiler_fence(SeqCst);
        let reply = call();
        compiler_fence(SeqCst);
        IS_IN_CALL.with(|it| it.store(false, Relaxed));
        reply
    }

    pub struct Stops(i32);

    impl Stops {
        pub fn of_this_thread(area: &Area) -> Option<Stops> {
            RUN.with(|run| run.set(area));
            let mut timer = -1i32;
            // SAFETY: the system calls have Linux's numbers, the event outlives the call, and the handler only sleeps.
            unsafe {
                let thread = syscall(THREAD) as i32;
                let event = Event { value: 0, signal: URGENT, notify: TO_THREAD, thread, rest: [0; 11] };
                signal(URGENT, stop as extern "C" fn(i32) as usize);
                if syscall(CREATE, MONOTONIC, &event as *const Event, &mut timer as *mut i32) != 0 {
                    return None;
                }
            }
            Some(Stops(timer))
        }

        /// Returns how often the timer is started during `calls` calls: `STOPS` times or, after a signal between two
        /// calls, once per `AGAIN` calls if that is more.
        pub fn starts(&self, calls: u32) -> u32 {
            if IS_MISSED.with(|it| it.load(Relaxed)) {
                STOPS.max(calls / AGAIN)
            } else {
                STOPS
            }
        }

        /// Starts the timer: the current thread receives a signal after `nanoseconds` nanoseconds.
        pub fn after(&self, nanoseconds: u32) {
            IS_MISSED.with(|it| it.store(false, Relaxed));
            let once = [0i64, 0, 0, i64::from(nanoseconds)];
            // SAFETY: the array has the layout of an `itimerspec`.
            unsafe { syscall(SET, self.0 as usize, 0usize, once.as_ptr(), 0usize) };
        }
    }

    impl Drop for Stops {
        fn drop(&mut self) {
            // SAFETY: the timer belongs to the current thread.
            unsafe { syscall(DELETE, self.0 as usize) };
            IS_IN_CALL.with(|it| it.store(false, Relaxed)); // (a call could have panicked)
            RUN.with(|run| run.set(null()));
        }
    }

    extern "C" fn stop(_: i32) {
        if !IS_IN_CALL.with(|it| it.load(Relaxed)) {
            return IS_MISSED.with(|it| it.store(true, Relaxed));
        }
        // SAFETY: the area outlives the `Stops` of its threads, and a signal handler may read atomic numbers.
        let area = unsafe { RUN.with(Cell::get).as_ref() };
        let seen = area.map_or(0, Area::moment);
        let looks = if area.map_or(false, Area::interrupts_longer) { PATIENT } else { 1 };
        for _ in 0..looks {
            // SAFETY: a signal handler may call `usleep`.
            unsafe { usleep(1) };
            if area.map_or(true, |it| it.moment().wrapping_sub(seen) >= MANY) {
                break;
            }
        }
    }
}

#[cfg(not(all(target_os = "linux", any(target_arch = "x86_64", target_arch = "aarch64"))))]
mod timer {
    pub struct Stops;

    impl Stops {
        pub fn of_this_thread(_: &crate::area::Area) -> Option<Stops> {
            None
        }

        pub fn starts(&self, _: u32) -> u32 {
            0
        }

        pub fn after(&self, _: u32) {}
    }

    pub fn in_call<R>(call: impl FnOnce() -> R) -> R {
        call()
    }
}

pub use timer::{in_call, Stops};
