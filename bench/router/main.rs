//! Times the router over loopback beside plain Rust and C. `bench ROUTER PLAIN FORWARD ROOM`: the programs, and a
//! directory for configurations. Each round starts all of them for each size of datagram, floods them by short turns,
//! since what else the machine does changes within seconds, and then sends at a steady pace to each; then each is left
//! alone. Medians of all turns and rounds are printed, and of a flood the least and the most too. The environment may
//! have ROUNDS, SECONDS, how long each of these takes in a round, FLOOD, how many datagrams a flood has a second, ONLY, a
//! part of the names of those that are timed, and TWIN, another build of the router to run beside it.

#[path = "../decision/cipher.rs"]
#[allow(dead_code)]
mod cipher;
mod contender;
mod cores;
mod datagrams;
mod load;
mod options;

use contender::{Contender, Kind, Programs};
use cores::Cores;
use load::{Flooded, Load, Paced};
use std::env;
use std::net::Ipv4Addr;
use std::path::PathBuf;
use std::time::Duration;

/// Datagrams a second of the steady pace.
const PACE: u64 = 20_000;

/// Datagrams a second that a flood offers, unless it is told otherwise.
const FLOOD: u64 = 600_000;

const SIZES: [usize; 2] = [200, 1400];

/// How long one turn of a flood counts.
const TURN: Duration = Duration::from_millis(125);

/// How many processors the router and plain Rust have.
const PROCESSORS: [u16; 3] = [1, 2, 4];

const fn router(processors: u16) -> Kind {
    Kind::Router {
        links: 2,
        processors,
    }
}

const fn plain(processors: u16) -> Kind {
    Kind::Plain {
        links: 2,
        processors,
    }
}

/// The router with two processors, once more, or another build of it.
const TWIN: Kind = Kind::Twin {
    links: 2,
    processors: 2,
};

/// What is compared stands side by side, and so runs one after the other.
const CONTENDERS: [Kind; 10] = [
    router(1),
    plain(1),
    TWIN,
    router(2),
    plain(2),
    router(4),
    plain(4),
    Kind::One,
    Kind::Many,
    Kind::Three,
];

const IDLE: [Kind; 4] = [
    router(1),
    Kind::Router {
        links: 32,
        processors: 16,
    },
    plain(1),
    Kind::Plain {
        links: 32,
        processors: 16,
    },
];

/// A loopback address for each contender.
fn hosts() -> impl Iterator<Item = Ipv4Addr> {
    (1..=u8::MAX).map(|number| Ipv4Addr::new(127, 0, 0, number))
}

/// What one contender came to: in each turn of the floods, and in each round at the steady pace.
#[derive(Default)]
struct Figures {
    /// Datagrams a second when flooded.
    flooded: Vec<f64>,
    /// Of a hundred that were sent then, how many came through.
    share: Vec<f64>,
    /// Nanoseconds of processor time a datagram then.
    busy: Vec<f64>,
    /// Nanoseconds of processor time a datagram, at the steady pace.
    nanos: Vec<f64>,
    /// Microseconds from sender to receiver.
    middle: Vec<f64>,
    late: Vec<f64>,
    /// Of a thousand datagrams at the steady pace, how many didn't come.
    lost: Vec<f64>,
}

impl Figures {
    fn add_flood(&mut self, flooded: Flooded) {
        self.flooded.push(flooded.rate());
        self.share.push(flooded.share());
        self.busy.push(flooded.nanos());
    }

    fn add_pace(&mut self, paced: Paced) {
        self.nanos.push(paced.nanos);
        self.middle.push(paced.middle);
        self.late.push(paced.late);
        self.lost.push(paced.lost);
    }
}

/// The middle one; not a number where there is none.
fn median(figures: &[f64]) -> f64 {
    let mut sorted = figures.to_vec();
    sorted.sort_by(f64::total_cmp);
    sorted.get(sorted.len() / 2).copied().unwrap_or(f64::NAN)
}

fn number(name: &str, usual: u64) -> u64 {
    let word = env::var(name).ok();
    word.and_then(|word| word.parse().ok()).unwrap_or(usual)
}

fn main() {
    let words: Vec<PathBuf> = env::args().skip(1).map(PathBuf::from).collect();
    let [own, rust, forward, room] = words.as_slice() else {
        panic!("bench ROUTER PLAIN FORWARD ROOM");
    };
    let twin = env::var_os("TWIN").map_or_else(|| own.clone(), PathBuf::from);
    let programs = Programs {
        router: own,
        twin: &twin,
        plain: rust,
        forward,
        room,
    };
    let rounds = number("ROUNDS", 7);
    let length = Duration::from_secs(number("SECONDS", 2));
    let flood = number("FLOOD", FLOOD);
    let only = env::var("ONLY").unwrap_or_default();
    let is_timed = |kind: &Kind| kind.to_string().contains(&only);
    assert!(rounds > 0 && flood > 0, "ROUNDS or FLOOD is 0");
    assert!(
        CONTENDERS.iter().chain(&IDLE).any(is_timed),
        "no row's name has {only:?}"
    );

    let cores = Cores::new();
    eprintln!(
        "sender and reader {}",
        if cores.are_apart() {
            "have a core each"
        } else {
            "share the cores with the programs"
        }
    );
    let mut figures: Vec<[Figures; 2]> = CONTENDERS.iter().map(|_| Default::default()).collect();
    let mut idle: Vec<Vec<f64>> = IDLE.iter().map(|_| vec![]).collect();
    for round in 1..=rounds {
        eprintln!("round {round} of {rounds}");
        for (at, size) in SIZES.iter().enumerate() {
            let contenders = CONTENDERS.iter().zip(&mut figures).zip(hosts());
            let timed = contenders.filter(|((kind, _), _)| is_timed(kind));
            let mut turns: Vec<_> = timed
                .map(|((kind, figures), host)| {
                    let contender = Contender::start(&programs, *kind, host, &cores);
                    let load = Load::new(host, *size, cores);
                    (contender, load, &mut figures[at])
                })
                .collect();
            // what comes first in one turn, or in one round, comes last in the next
            for _ in 0..length.as_millis() / TURN.as_millis() {
                for (contender, load, figures) in &mut turns {
                    figures.add_flood(load.flood(flood, TURN, || contender.spent()));
                }
                turns.reverse();
            }
            if round % 2 == 0 {
                turns.reverse();
            }
            for (contender, load, figures) in turns {
                let paced = load.pace(PACE, length, || contender.spent());
                contender.end();
                figures.add_pace(paced);
            }
        }
        for (kind, shares) in IDLE
            .iter()
            .zip(&mut idle)
            .filter(|(kind, _)| is_timed(kind))
        {
            let contender = Contender::start(&programs, *kind, Ipv4Addr::LOCALHOST, &cores);
            shares.push(contender.idle_share(length));
            contender.end();
        }
    }

    let timed: Vec<_> = CONTENDERS
        .iter()
        .zip(&figures)
        .filter(|(kind, _)| is_timed(kind))
        .collect();
    for (at, size) in SIZES.iter().enumerate().filter(|_| !timed.is_empty()) {
        let columns = [
            "thousand/s",
            "least",
            "most",
            "came of 100",
            "us in a flood",
            "us at 20,000/s",
            "p50 us",
            "p99 us",
            "lost of 1000",
        ];
        print!("{:<28}", format!("{size} bytes"));
        println!("{}", columns.map(|name| format!("{name:>15}")).concat());
        for (kind, figures) in &timed {
            let of = &figures[at];
            let row = [
                median(&of.flooded) / 1000.0,
                of.flooded.iter().copied().fold(f64::NAN, f64::min) / 1000.0,
                of.flooded.iter().copied().fold(f64::NAN, f64::max) / 1000.0,
                median(&of.share),
                median(&of.busy) / 1000.0,
                median(&of.nanos) / 1000.0,
                median(&of.middle),
                median(&of.late),
                median(&of.lost),
            ];
            println!(
                "{:<28}{}",
                kind.to_string(),
                row.map(|figure| format!("{figure:>15.1}")).concat()
            );
        }
    }
    let left_idle = IDLE.iter().zip(&idle);
    let left_idle: Vec<_> = left_idle.filter(|(kind, _)| is_timed(kind)).collect();
    if !left_idle.is_empty() {
        println!("{:<28}{:>16}", "idle", "% of a core");
    }
    for (kind, shares) in left_idle {
        println!("{:<28}{:>16.1}", kind.to_string(), median(shares));
    }
    // ONLY may have left out a side of a ratio
    let of = |kind: Kind, at: usize| {
        let own = timed.iter().find(|(timed, _)| **timed == kind)?;
        Some(&own.1[at])
    };
    for (at, size) in SIZES.iter().enumerate() {
        for processors in PROCESSORS {
            let sides = of(router(processors), at).zip(of(plain(processors), at));
            let ratio = sides.map(|(own, rust)| median(&ratios(&own.flooded, &rust.flooded)));
            print_or_skip(&format!("run/rust {size} {processors}"), ratio, 2);
        }
        let sides = of(TWIN, at).zip(of(router(2), at));
        let ratio = sides.map(|(again, own)| median(&ratios(&again.flooded, &own.flooded)));
        print_or_skip(&format!("run/run {size} 2"), ratio, 2);
        let best = PROCESSORS
            .iter()
            .filter_map(|it| of(router(*it), at))
            .max_by(|a, b| median(&a.flooded).total_cmp(&median(&b.flooded)));
        let sides = best.zip(of(Kind::One, at));
        let ratio = sides.map(|(own, c)| median(&ratios(&own.flooded, &c.flooded)));
        print_or_skip(&format!("run/c {size}"), ratio, 2);
        for (name, kind) in [
            ("", router(1)),
            ("rust ", plain(1)),
            ("three threads ", Kind::Three),
        ] {
            let sides = of(kind, at).zip(of(Kind::One, at));
            let ratio = sides.map(|(own, c)| median(&ratios(&own.nanos, &c.nanos)));
            print_or_skip(&format!("{name}time/c {size}"), ratio, 2);
            let ratio = sides.map(|(own, c)| median(&ratios(&own.middle, &c.middle)));
            print_or_skip(&format!("{name}median/c {size}"), ratio, 2);
        }
    }
    print_or_skip("idle", is_timed(&router(1)).then(|| median(&idle[0])), 1);
}

/// What one side came to over the other, in each turn or round.
fn ratios(over: &[f64], under: &[f64]) -> Vec<f64> {
    over.iter().zip(under).map(|(a, b)| a / b).collect()
}

/// Prints a figure of the last lines, or that it wasn't measured.
fn print_or_skip(name: &str, figure: Option<f64>, digits: usize) {
    match figure {
        Some(figure) => println!("{name} {figure:.digits$}"),
        None => println!("{name} not measured: ONLY leaves out a row that it needs"),
    }
}
