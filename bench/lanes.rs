//! The lanes of a phase on threads, for the plain program: the lines of a phase are kept by lane until it ends, and
//! what they answer is written in the order of the lines.
//!
//! A thread is started for each lane that has lines. Where the environment has STANDING_THREADS each lane has one
//! thread for the whole run, which waits for its lines of each phase.

use crate::commands::{Output, Text};
use crate::trace::Cause;
use std::sync::mpsc::{Receiver, SyncSender, sync_channel};
use std::thread::Scope;
use std::{env, io, mem, thread};

/// What the lines of the lanes act on.
pub trait Job: Sync {
    type Act: Copy + Send;
    type Answer: Copy + Send;

    /// Whether a line with this act answers something.
    fn answers(act: Self::Act) -> bool;

    /// Makes the act of a line, on the lane's thread.
    fn make(&self, lane: usize, act: Self::Act) -> Option<Self::Answer>;

    fn write(out: &mut Text, number: u64, answer: Self::Answer);
}

/// The lines of a lane in a phase, and what they answered once they are made.
pub struct Script<J: Job> {
    acts: Vec<J::Act>,
    /// How many of the acts answer something.
    asked: usize,
    answers: Vec<J::Answer>,
}

impl<J: Job> Script<J> {
    fn empty() -> Script<J> {
        Script { acts: Vec::new(), asked: 0, answers: Vec::new() }
    }

    fn has_lines(&self) -> bool {
        !self.acts.is_empty()
    }

    fn make(&mut self, lane: usize, job: &J) {
        for act in self.acts.drain(..) {
            if let Some(answer) = job.make(lane, act) {
                self.answers.push(answer);
            }
        }
    }
}

/// A line that prints something once its phase is made.
struct Waiting {
    number: u32,
    prints: Prints,
}

enum Prints {
    /// The next answer of the lane of that number.
    Answer(u8),
    Refusal(Cause),
}

/// Has each lane's lines made on a thread of its own.
type Threads<'a, J> = Box<dyn FnMut(&mut [Script<J>]) + 'a>;

/// The phase that is open.
pub struct Lanes<'a, J: Job> {
    threads: Threads<'a, J>,
    /// By the lanes' numbers.
    scripts: Vec<Script<J>>,
    /// In the order of the lines, from the first on that answers something.
    waiting: Vec<Waiting>,
}

impl<'a, J: Job> Lanes<'a, J> {
    fn new(lanes: usize, threads: Threads<'a, J>) -> Lanes<'a, J> {
        let scripts = (0..lanes).map(|_| Script::empty()).collect();
        Lanes { threads, scripts, waiting: Vec::new() }
    }

    pub fn has_lines(&self, lane: usize) -> bool {
        self.scripts[lane].has_lines()
    }

    pub fn keep(&mut self, number: u64, lane: usize, act: J::Act) {
        let script = &mut self.scripts[lane];
        script.acts.push(act);
        if J::answers(act) {
            script.asked += 1;
            self.waiting.push(Waiting { number: number as u32, prints: Prints::Answer(lane as u8) });
        }
    }

    pub fn refuse(&mut self, out: &mut Text, number: u64, cause: Cause) {
        if self.waiting.is_empty() {
            out.refuse(number, cause);
        } else {
            self.waiting.push(Waiting { number: number as u32, prints: Prints::Refusal(cause) });
        }
    }

    /// Makes the lines of the phase, and writes what waits for them.
    pub fn make_phase(&mut self, out: &mut Output) -> io::Result<()> {
        for script in &mut self.scripts {
            // No lane's thread has to find memory then.
            script.answers.reserve(mem::take(&mut script.asked));
        }
        (self.threads)(&mut self.scripts);
        let mut answers: Vec<_> = self.scripts.iter_mut().map(|script| script.answers.drain(..)).collect();
        for Waiting { number, prints } in self.waiting.drain(..) {
            match prints {
                Prints::Answer(lane) => {
                    let answer = answers[usize::from(lane)].next().expect("a line that answers has its answer");
                    J::write(&mut out.held, number.into(), answer);
                }
                Prints::Refusal(cause) => out.held.refuse(number.into(), cause),
            }
            out.hand_on_much()?;
        }
        Ok(())
    }
}

/// Starts a thread for each lane that has lines.
fn start_threads<J: Job>(job: &J, scripts: &mut [Script<J>]) {
    thread::scope(|scope| {
        for (lane, script) in scripts.iter_mut().enumerate().filter(|(_, script)| script.has_lines()) {
            scope.spawn(move || script.make(lane, job));
        }
    });
}

/// Starts a thread for each lane, and gives it the lane's lines of each phase.
fn stand_threads<'scope, J: Job>(
    scope: &'scope Scope<'scope, '_>,
    job: &'scope J,
    lanes: usize,
) -> impl FnMut(&mut [Script<J>]) {
    let stand = |lane| -> (SyncSender<Script<J>>, Receiver<Script<J>>) {
        let (give, given) = sync_channel::<Script<J>>(1);
        let (give_back, made) = sync_channel(1);
        scope.spawn(move || {
            for mut script in given {
                script.make(lane, job);
                give_back.send(script).expect("each script is awaited");
            }
        });
        (give, made)
    };
    let threads: Vec<_> = (0..lanes).map(stand).collect();
    move |scripts| {
        let mut busy: Vec<_> = scripts.iter_mut().zip(&threads).filter(|(script, _)| script.has_lines()).collect();
        for (script, (give, _)) in &mut busy {
            give.send(mem::replace(*script, Script::empty())).expect("the lane's thread stands");
        }
        for (script, (_, made)) in busy {
            *script = made.recv().expect("the lane's thread stands");
        }
    }
}

/// Has a program follow a trace whose phases are made on threads.
pub fn on_threads<J: Job, R>(job: &J, lanes: usize, follow: impl FnOnce(Lanes<'_, J>) -> R) -> R {
    if env::var_os("STANDING_THREADS").is_some() {
        thread::scope(|scope| follow(Lanes::new(lanes, Box::new(stand_threads(scope, job, lanes)))))
    } else {
        follow(Lanes::new(lanes, Box::new(|scripts: &mut [Script<J>]| start_threads(job, scripts))))
    }
}
