//! What is said when a call of ours touches memory that it wasn't lent, or doesn't end: the call, instead of the system's word alone.
use std::sync::atomic::{AtomicPtr, AtomicU64, AtomicUsize, Ordering};
use std::time::Duration;

/// A call that can say what it is, with what is wrong about it.
pub trait Saying {
    fn say(&self, wrong: &str) -> String;
}

/// The call that runs, and how to have it said.
static CALL: AtomicPtr<()> = AtomicPtr::new(std::ptr::null_mut());
static SAY: AtomicUsize = AtomicUsize::new(0);
/// How many calls there were.
static CALLS: AtomicU64 = AtomicU64::new(0);

/// How long a call may take.
const LONGEST: Duration = Duration::from_secs(90);

extern "C" {
    fn signal(number: i32, handler: usize) -> usize;
    fn _exit(code: i32) -> !;
}

/// The signals of memory that can't be touched, and of an instruction that stops a program.
const SIGNALS: [i32; 4] = [11, 7, 4, 8];

fn say_at<T: Saying>(at: *const (), wrong: &str) -> String {
    unsafe { &*at.cast::<T>() }.say(wrong)
}

/// Says what is wrong about the call that runs, if one does, and ends.
fn stop(wrong: &str, more: &str) -> ! {
    let (at, say) = (CALL.load(Ordering::Relaxed), SAY.load(Ordering::Relaxed));
    if !at.is_null() {
        let say: fn(*const (), &str) -> String = unsafe { std::mem::transmute(say) };
        println!("\nsmallest of {}\n1 differ", say(at, wrong));
    }
    eprintln!("{more}");
    unsafe { _exit(1) }
}

extern "C" fn faulted(number: i32) {
    let more = format!("a call was stopped by signal {number}: it touched memory that it wasn't lent");
    stop("touches memory that it wasn't lent", &more)
}

/// Says from now on what was running when memory is touched that can't be, or when a call doesn't end.
pub fn watch() {
    for number in SIGNALS {
        unsafe { signal(number, faulted as *const () as usize) };
    }
    std::thread::spawn(|| loop {
        let before = CALLS.load(Ordering::Relaxed);
        std::thread::sleep(LONGEST);
        if CALLS.load(Ordering::Relaxed) == before && !CALL.load(Ordering::Relaxed).is_null() {
            stop("doesn't end", &format!("a call was given up after {} seconds", LONGEST.as_secs()))
        }
    });
}

/// Runs a call of ours.
pub fn during<T: Saying, R>(call: &T, run: impl FnOnce() -> R) -> R {
    CALL.store((call as *const T).cast_mut().cast(), Ordering::Relaxed);
    SAY.store(say_at::<T> as *const () as usize, Ordering::Relaxed);
    CALLS.fetch_add(1, Ordering::Relaxed);
    let answer = run();
    CALL.store(std::ptr::null_mut(), Ordering::Relaxed);
    answer
}
