//! What is told on standard error while work takes long; where it takes no more than a second, nothing.
use super::memory::share_the_heap;
use super::{output, standard};
use std::io::{self, Cursor, IsTerminal, Write};
use std::sync::{Arc, Condvar, Mutex, MutexGuard};
use std::thread::{self, JoinHandle};
use std::time::{Duration, Instant};

/// So long nothing is told.
const PATIENCE: Duration = Duration::from_secs(1);

/// So often it is told anew.
const OFTEN: Duration = Duration::from_millis(200);

/// What the teller needs, which writes a line from its own stack.
const STACK: usize = 64 << 10;

/// Told by a thread of its own, since a call of the library takes as long as it takes. On a terminal it is one line, which is rewritten and in the end
/// wiped; elsewhere a line for each stage.
pub struct Progress {
    shared: Arc<Shared>,
    teller: Option<JoinHandle<()>>,
}

struct Shared {
    state: Mutex<State>,
    ended: Condvar,
}

/// What is being done, how much of it is done, and of what.
struct State {
    stage: &'static str,
    done: usize,
    unit: &'static str,
    /// Nothing is told where it would stand among what is printed.
    quiet: bool,
    ended: bool,
    /// The stage that was told last.
    told: &'static str,
}

impl Progress {
    pub fn new() -> Progress {
        let state = State { stage: "", done: 0, unit: "", quiet: false, ended: false, told: "" };
        let shared = Arc::new(Shared { state: Mutex::new(state), ended: Condvar::new() });
        let told = Arc::clone(&shared);
        share_the_heap();
        // where no thread is to be had, nothing is told
        let teller = thread::Builder::new().stack_size(STACK).spawn(move || told.tell()).ok();
        Progress { shared, teller }
    }

    /// The next stage begins.
    pub fn stage(&self, stage: &'static str, unit: &'static str) {
        let mut state = self.shared.lock();
        (state.stage, state.unit, state.done) = (stage, unit, 0);
    }

    /// How far the stage is.
    pub fn done(&self, done: usize) {
        self.shared.lock().done = done;
    }

    /// Tells lines that stay.
    pub fn note(&self, lines: &str) {
        let mut state = self.shared.lock();
        state.wipe();
        output::tell(lines);
    }

    /// Rows follow on standard output. Unless they go to a file nothing more is told: it would be written over them, or over what a pager shows of them.
    pub fn before_printing(&self) {
        let to_file = standard::output().and_then(|output| output.metadata()).is_ok_and(|output| output.is_file());
        let mut state = self.shared.lock();
        state.wipe();
        state.quiet = !to_file;
    }
}

impl Drop for Progress {
    fn drop(&mut self) {
        self.shared.lock().ended = true;
        self.shared.ended.notify_all();
        // it does nothing that could fail
        let _ = self.teller.take().map(JoinHandle::join);
        self.shared.lock().wipe();
    }
}

impl Shared {
    fn lock(&self) -> MutexGuard<'_, State> {
        self.state.lock().expect("no thread fails while it holds the state")
    }

    /// Tells what is being done from the first second on until it is done.
    fn tell(&self) {
        let start = Instant::now();
        let mut pause = PATIENCE;
        let mut state = self.lock();
        while !state.ended {
            let waited = self.ended.wait_timeout_while(state, pause, |state| !state.ended);
            state = waited.expect("no thread fails while it holds the state").0;
            if !state.ended && !state.quiet && start.elapsed() >= PATIENCE {
                state.show(start.elapsed());
            }
            pause = OFTEN;
        }
    }
}

impl State {
    fn show(&mut self, elapsed: Duration) {
        let terminal = io::stderr().is_terminal();
        if !terminal && self.told == self.stage {
            return;
        }
        self.told = self.stage;
        // no memory of the heap, which may be all gone
        let mut line = Cursor::new([0; 128]);
        let (wiped, end) = if terminal { (WIPED, "") } else { ("", "\n") };
        let seconds = elapsed.as_secs();
        let _ = write!(line, "{wiped}... {}: {} {}, after {seconds} s{end}", self.stage, self.done, self.unit);
        let length = line.position() as usize;
        // where nobody takes it, nothing is lost
        let _ = io::stderr().write_all(&line.get_ref()[..length]);
    }

    /// Leaves no line on a terminal.
    fn wipe(&mut self) {
        if !self.told.is_empty() && io::stderr().is_terminal() {
            let _ = write!(io::stderr(), "{WIPED}");
        }
        self.told = "";
    }
}

/// Back to the line's start, and nothing after it.
const WIPED: &str = "\r\x1b[K";
