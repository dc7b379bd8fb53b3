//! The programs that carry datagrams from port 41001 to port 42002, each of a loopback address of its own.

use crate::cores::Cores;
use std::fmt;
use std::fs;
use std::io::{BufRead, BufReader, Read, Write};
use std::net::Ipv4Addr;
use std::path::Path;
use std::process::{Child, ChildStdout, Command, Stdio};
use std::thread;
use std::time::{Duration, Instant};

pub struct Programs<'a> {
    pub router: &'a Path,
    /// The router once more, or another build of it.
    pub twin: &'a Path,
    pub plain: &'a Path,
    pub forward: &'a Path,
    /// Where configurations are written.
    pub room: &'a Path,
}

/// A kind of program; links are those to other ASes.
#[derive(Clone, Copy, PartialEq, Eq)]
pub enum Kind {
    /// The router.
    Router { links: u16, processors: u16 },
    /// The router once more: how far two of the same come apart in a run, or two builds.
    Twin { links: u16, processors: u16 },
    /// The same in plain Rust.
    Plain { links: u16, processors: u16 },
    /// C by recvfrom and sendto.
    One,
    /// C by recvmmsg and sendmmsg.
    Many,
    /// C by three threads, which hand each datagram on.
    Three,
}

impl fmt::Display for Kind {
    fn fmt(&self, f: &mut fmt::Formatter) -> fmt::Result {
        match self {
            Kind::Router { links, processors } => write!(f, "router, {links} links, {processors}"),
            Kind::Twin { links, processors } => {
                write!(f, "router again, {links} links, {processors}")
            }
            Kind::Plain { links, processors } => write!(f, "rust, {links} links, {processors}"),
            Kind::One => write!(f, "c, recvfrom and sendto"),
            Kind::Many => write!(f, "c, recvmmsg and sendmmsg"),
            Kind::Three => write!(f, "c, three threads"),
        }
    }
}

/// A program that runs.
pub struct Contender {
    kind: Kind,
    child: Child,
    output: BufReader<ChildStdout>,
}

fn configuration(host: Ipv4Addr, links: u16, processors: u16) -> String {
    let mut text = format!(
        "version = 1\nisd_as = \"1-ff00:0:110\"\nkey = \"2b7e151628aed2a6abf7158809cf4f3c\"\n\
         internal = \"{host}:41000\"\nhost_port = 30041\nprocessors = {processors}\n\
         capacity = 1024\nbuffers = 2048\nseed = 0\n"
    );
    for id in 1..=links {
        let (local, remote) = (41000 + id, 42000 + id);
        text.push_str(&format!(
            "[[link]]\nid = {id}\nkind = \"core\"\nlocal = \"{host}:{local}\"\nremote = \"{host}:{remote}\"\n"
        ));
    }
    text
}

fn command(programs: &Programs, kind: Kind, host: Ipv4Addr) -> Command {
    match kind {
        Kind::Router { links, processors } | Kind::Twin { links, processors } => {
            let is_twin = matches!(kind, Kind::Twin { .. });
            let path = programs.room.join(format!("{host}.toml"));
            fs::write(&path, configuration(host, links, processors))
                .expect("room for a configuration");
            let mut command = Command::new(if is_twin {
                programs.twin
            } else {
                programs.router
            });
            command.arg("run").arg("--config").arg(path);
            command
        }
        Kind::Plain { links, processors } => {
            let mut command = Command::new(programs.plain);
            command.args([host.to_string(), links.to_string(), processors.to_string()]);
            command
        }
        Kind::One | Kind::Many | Kind::Three => {
            let mut command = Command::new(programs.forward);
            let how = match kind {
                Kind::Many => "many",
                Kind::Three => "three",
                _ => "one",
            };
            command.args([how, &host.to_string(), "41001", "41002", "42002"]);
            command
        }
    }
}

impl Contender {
    /// Starts it at a loopback address, and waits until it is ready.
    pub fn start(programs: &Programs, kind: Kind, host: Ipv4Addr, cores: &Cores) -> Contender {
        let mut command = command(programs, kind, host);
        cores.keep_program(&mut command);
        let mut child = command
            .stdin(Stdio::piped())
            .stdout(Stdio::piped())
            .spawn()
            .expect("a program that starts");
        let output = BufReader::new(child.stdout.take().expect("an output"));
        let mut contender = Contender {
            kind,
            child,
            output,
        };
        let mut line = String::new();
        contender.output.read_line(&mut line).expect("a line");
        assert_eq!(line, "ready\n", "{kind}");
        contender
    }

    /// The processor time of all its threads so far, in nanoseconds.
    pub fn spent(&self) -> u64 {
        let tasks = fs::read_dir(format!("/proc/{}/task", self.child.id())).expect("tasks");
        let of_task = |path: &Path| {
            let text = fs::read_to_string(path.join("schedstat")).expect("a thread's times");
            let spent = text.split(' ').next().map(str::parse::<u64>);
            spent.expect("a time").expect("a number")
        };
        tasks.flatten().map(|task| of_task(&task.path())).sum()
    }

    /// Its share of a core while nothing comes, in percent.
    pub fn idle_share(&self, length: Duration) -> f64 {
        thread::sleep(Duration::from_millis(500));
        let (start, before) = (Instant::now(), self.spent());
        thread::sleep(length);
        (self.spent() - before) as f64 * 100.0 / start.elapsed().as_nanos() as f64
    }

    /// Ends it. The router's report has to account for each datagram that was read.
    pub fn end(mut self) {
        if !matches!(self.kind, Kind::Router { .. } | Kind::Twin { .. }) {
            return;
        }
        let mut commands = self.child.stdin.take().expect("an input");
        commands.write_all(b"end\n").expect("an end");
        let mut report = String::new();
        self.output.read_to_string(&mut report).expect("a report");
        assert!(self.child.wait().expect("an end").success());
        let mut received = 0;
        let mut gone = 0;
        for line in report.lines() {
            let words: Vec<&str> = line.split(' ').collect();
            let count: u64 = words[words.len() - 1].parse().expect("a count");
            match words[0] {
                "received" => received = count,
                "sent" | "answered" | "dropped" => gone += count,
                _ => {}
            }
        }
        assert_eq!(received, gone, "the report doesn't add up:\n{report}");
    }
}

/// It is killed where it didn't end: no panic leaves a program behind, which would keep its ports.
impl Drop for Contender {
    fn drop(&mut self) {
        let _ = self.child.kill();
        let _ = self.child.wait();
    }
}
