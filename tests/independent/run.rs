//! Runs a program on a job.

use std::fs::File;
use std::io::{Read, Seek, SeekFrom, Write};
use std::process::{Child, Command, ExitStatus, Stdio};
use std::sync::atomic::{AtomicUsize, Ordering};
use std::sync::{Arc, Mutex};
use std::time::{Duration, Instant};

const LONGEST_RUN: Duration = Duration::from_secs(60);

/// What a run left: its standard output, and its status unless it was ended.
pub struct Outcome {
    pub print: Vec<u8>,
    pub status: Option<ExitStatus>,
}

/// A program, a file that takes its jobs, and a watch that ends a run that takes
/// too long.
pub struct Runner<'a> {
    program: &'a str,
    input: File,
    running: Arc<Mutex<Option<(Child, Instant)>>>,
}

impl Runner<'_> {
    pub fn new(program: &str) -> Runner<'_> {
        let input = unnamed_file();
        let running = Arc::new(Mutex::new(None::<(Child, Instant)>));
        let watched = Arc::clone(&running);
        std::thread::spawn(move || loop {
            std::thread::sleep(Duration::from_secs(1));
            if let Some((child, since)) = watched.lock().unwrap().as_mut() {
                if since.elapsed() > LONGEST_RUN {
                    // It may have ended by itself just now.
                    let _ = child.kill();
                }
            }
        });
        Runner { program, input, running }
    }

    pub fn run(&mut self, job: &[u8]) -> Outcome {
        self.input.set_len(0).expect("the job's file can be cut");
        self.input.seek(SeekFrom::Start(0)).expect("the job's file can be rewound");
        self.input.write_all(job).expect("the job's file can be written");
        self.run_again().0
    }

    /// The last job once more, and how long it took.
    pub fn run_again(&mut self) -> (Outcome, Duration) {
        self.input.seek(SeekFrom::Start(0)).expect("the job's file can be rewound");
        let input = self.input.try_clone().expect("the job's file can be shared");
        let since = Instant::now();
        let mut child = Command::new(self.program)
            .stdin(input)
            .stdout(Stdio::piped())
            .stderr(Stdio::null())
            .spawn()
            .expect("the program can be started");
        let mut output = child.stdout.take().expect("its output is piped");
        *self.running.lock().unwrap() = Some((child, since));
        let mut print = Vec::new();
        output.read_to_end(&mut print).expect("its output can be read");
        let (mut child, _) = self.running.lock().unwrap().take().expect("it was put there");
        let status = child.wait().expect("it was started");
        let taken = since.elapsed();
        let ended = taken > LONGEST_RUN;
        (Outcome { print, status: (!ended).then_some(status) }, taken)
    }
}

/// A file of no name, gone when it is closed.
fn unnamed_file() -> File {
    static MADE: AtomicUsize = AtomicUsize::new(0);
    let name = format!("trial-{}-{}", std::process::id(), MADE.fetch_add(1, Ordering::Relaxed));
    let path = std::env::temp_dir().join(name);
    let file = File::options()
        .read(true)
        .write(true)
        .create_new(true)
        .open(&path)
        .expect("a file for the job can be made");
    std::fs::remove_file(path).expect("it can be removed");
    file
}
