//! The torn photo, shown: a store of photos in two halves, over the shared table. Re-encodes replace both halves, now and then one is
//! given up; pages show photos while they do, registered or pinned; a vacuum removes what no page needs. No page may show half of one
//! coding and half of another, and none may find a half gone.
//!
//!     cargo run --release --offline --example tiles -- [--seconds N] [--threads N] [--fault NAME] [--trace FILE]
//!
//! It ends with 0 where nothing was found in that time, and with 1 as soon as something is: with a fault that is what has to happen.

use sockhurdle::{Refusal, Shared, Snapshot, Transaction, Txid, batch};
use std::fmt;
use std::process::exit;
use std::sync::Mutex;
use std::sync::atomic::{AtomicBool, AtomicU64, Ordering::Relaxed};
use std::thread;
use std::time::{Duration, Instant};

const PHOTOS: usize = 16;
const PHOTOS_A_PAGE: usize = 4;
/// One re-encode in so many is given up.
const GIVEN_UP: u64 = 5;

/// What a host may do wrong.
#[derive(Clone, Copy, PartialEq, Eq)]
enum Fault {
    None,
    /// Pages take a snapshot that nothing holds safe.
    PlainSnapshot,
    /// The vacuum removes by the clock that it sampled, not by the line.
    VacuumAtTheSample,
    /// The vacuum takes a transaction that was given up for one that replaced the version.
    AbortedEnder,
    /// What a transaction did is taken back after its end, not before.
    EndBeforeUndo,
    /// A page takes another snapshot for the second half.
    TwoSnapshots,
}

const FAULTS: [(&str, Fault); 5] = [
    ("plain-snapshot", Fault::PlainSnapshot),
    ("vacuum-at-the-sample", Fault::VacuumAtTheSample),
    ("aborted-ender", Fault::AbortedEnder),
    ("end-before-undo", Fault::EndBeforeUndo),
    ("two-snapshots", Fault::TwoSnapshots),
];

/// Who replaced a version, or means to.
#[derive(Clone, Copy)]
struct Ender {
    id: Txid,
    given_up: bool,
}

/// One coding of a half.
struct Version {
    maker: Txid,
    ender: Option<Ender>,
    coding: u64,
}

impl Version {
    /// Whether a page shows it: its maker's work is settled for that page, and nobody's who replaced it.
    fn is_shown(&self, settled: &dyn Fn(Txid) -> bool) -> bool {
        let replaced = |by: Ender| !by.given_up && settled(by.id);
        settled(self.maker) && !self.ender.is_some_and(replaced)
    }
}

#[derive(Default)]
struct Photo {
    halves: [Mutex<Vec<Version>>; 2],
    /// Held by the one re-encode that works on the photo.
    encoded: Mutex<()>,
}

/// What must not be.
enum Broken {
    Torn { photo: usize, codings: [u64; 2] },
    Gone { photo: usize, half: usize },
    Twice { photo: usize, half: usize },
}

impl fmt::Display for Broken {
    fn fmt(&self, f: &mut fmt::Formatter<'_>) -> fmt::Result {
        let half = |half: &usize| ["top", "bottom"][*half];
        match self {
            Broken::Torn { photo, codings } => {
                let [top, bottom] = codings;
                write!(
                    f,
                    "torn: photo {photo} has its top from {top}, its bottom from {bottom}"
                )
            }
            Broken::Gone { photo, half: at } => {
                write!(f, "gone: photo {photo} has no {}", half(at))
            }
            Broken::Twice { photo, half: at } => {
                write!(f, "twice: photo {photo} has two at its {}", half(at))
            }
        }
    }
}

/// A small random source.
struct Random(u64);

impl Random {
    fn below(&mut self, bound: u64) -> u64 {
        self.0 ^= self.0 << 13;
        self.0 ^= self.0 >> 7;
        self.0 ^= self.0 << 17;
        self.0 % bound
    }

    fn photo(&mut self) -> usize {
        self.below(PHOTOS as u64) as usize
    }

    /// Lets others work, at times.
    fn pause(&mut self) {
        if self.below(16) == 0 {
            thread::sleep(Duration::from_micros(50));
        }
    }
}

#[derive(Default)]
struct Counts {
    pages: AtomicU64,
    encodes: AtomicU64,
    given_up: AtomicU64,
    vacuums: AtomicU64,
    removed: AtomicU64,
}

struct Store {
    shared: Shared,
    photos: [Photo; PHOTOS],
    fault: Fault,
    counts: Counts,
    stop: AtomicBool,
    found: Mutex<Option<(Instant, String)>>,
}

fn locked<T>(mutex: &Mutex<T>) -> std::sync::MutexGuard<'_, T> {
    mutex.lock().expect("nobody panics with a half")
}

impl Store {
    /// Every photo with a first coding, the one of transaction 1.
    fn new(shared: Shared, fault: Fault) -> Result<Store, Refusal> {
        let first = shared.begin()?;
        let photos: [Photo; PHOTOS] = Default::default();
        for half in photos.iter().flat_map(|photo| &photo.halves) {
            let (maker, coding) = (first.id(), first.id().0);
            locked(half).push(Version {
                maker,
                ender: None,
                coding,
            });
        }
        first.finish()?;
        Ok(Store {
            shared,
            photos,
            fault,
            counts: Counts::default(),
            stop: AtomicBool::new(false),
            found: Mutex::new(None),
        })
    }

    fn find(&self, what: String) {
        let mut found = locked(&self.found);
        found.get_or_insert((Instant::now(), what));
        self.stop.store(true, Relaxed);
    }

    /// The coding of the one version that is shown.
    fn read(
        &self,
        photo: usize,
        half: usize,
        settled: &dyn Fn(Txid) -> bool,
    ) -> Result<u64, Broken> {
        let versions = locked(&self.photos[photo].halves[half]);
        let mut shown = versions.iter().filter(|version| version.is_shown(settled));
        let first = shown.next().ok_or(Broken::Gone { photo, half })?;
        match shown.next() {
            None => Ok(first.coding),
            Some(_) => Err(Broken::Twice { photo, half }),
        }
    }

    fn show(
        &self,
        photo: usize,
        random: &mut Random,
        settled: &dyn Fn(Txid) -> bool,
    ) -> Result<(), Broken> {
        let top = self.read(photo, 0, settled)?;
        random.pause();
        let bottom = if self.fault == Fault::TwoSnapshots {
            let other = self.shared.snapshot();
            self.read(photo, 1, &|id| other.settled(id) == Ok(true))?
        } else {
            self.read(photo, 1, settled)?
        };
        if top != bottom {
            let codings = [top, bottom];
            return Err(Broken::Torn { photo, codings });
        }
        Ok(())
    }

    /// A page of some photos, by one snapshot.
    fn page(&self, who: &str, random: &mut Random, settled: &dyn Fn(Txid) -> bool) {
        for _ in 0..PHOTOS_A_PAGE {
            let photo = random.photo();
            if let Err(broken) = self.show(photo, random, settled) {
                self.find(format!("{broken}, on a {who} page"));
            }
        }
        self.counts.pages.fetch_add(1, Relaxed);
    }

    fn pages(&self, registered: bool, random: &mut Random) -> Result<(), Refusal> {
        let mut room = Snapshot::room();
        while !self.stop.load(Relaxed) {
            if self.fault == Fault::PlainSnapshot {
                self.shared.snapshot_into(&mut room);
                self.page("plain", random, &|id| room.settled(id) == Ok(true));
            } else if registered {
                let mut page = self.shared.begin()?;
                let seen = page.snapshot();
                self.page("registered", random, &|id| seen.settled(id) == Ok(true));
            } else {
                let seen = self.shared.pin()?;
                self.page("pinned", random, &|id| seen.settled(id) == Ok(true));
            }
        }
        Ok(())
    }

    /// Takes back what a transaction did to a photo.
    fn take_back(&self, photo: usize, id: Txid) {
        for half in &self.photos[photo].halves {
            let mut versions = locked(half);
            versions.retain(|version| version.maker != id);
            let enders = versions
                .iter_mut()
                .filter_map(|version| version.ender.as_mut());
            for ender in enders.filter(|ender| ender.id == id) {
                ender.given_up = true;
            }
        }
    }

    /// Writes a half anew, and marks what it replaces: what nobody has replaced, or one who was given up.
    fn write(&self, photo: usize, half: usize, id: Txid) {
        let mut versions = locked(&self.photos[photo].halves[half]);
        let alive = |version: &&mut Version| version.ender.is_none_or(|by| by.given_up);
        for old in versions.iter_mut().filter(alive) {
            old.ender = Some(Ender {
                id,
                given_up: false,
            });
        }
        versions.push(Version {
            maker: id,
            ender: None,
            coding: id.0,
        });
    }

    fn encode(&self, photo: usize, random: &mut Random) -> Result<(), Refusal> {
        let _mine = locked(&self.photos[photo].encoded);
        let mut encode = self.shared.begin()?;
        let id = encode.id();
        if self.fault != Fault::EndBeforeUndo {
            encode.on_abort(move |id| self.take_back(photo, id));
        }
        // it reads what it codes anew
        let seen = encode.snapshot();
        if let Err(broken) = self.show(photo, random, &|id| seen.settled(id) == Ok(true)) {
            self.find(format!("{broken}, in a re-encode"));
        }
        self.write(photo, 0, id);
        random.pause();
        if random.below(GIVEN_UP) == 0 {
            self.give_up(encode, photo, random);
            return Ok(());
        }
        self.write(photo, 1, id);
        random.pause();
        encode.finish()?;
        self.counts.encodes.fetch_add(1, Relaxed);
        Ok(())
    }

    fn give_up(&self, encode: Transaction, photo: usize, random: &mut Random) {
        let id = encode.id();
        encode.abort();
        if self.fault == Fault::EndBeforeUndo {
            random.pause();
            self.take_back(photo, id);
        }
        self.counts.given_up.fetch_add(1, Relaxed);
    }

    fn encodes(&self, random: &mut Random) -> Result<(), Refusal> {
        while !self.stop.load(Relaxed) {
            self.encode(random.photo(), random)?;
        }
        Ok(())
    }

    /// A version as the vacuum is told it: one whose ender was given up is alive.
    fn told(&self, version: &Version) -> sockhurdle::Version {
        let ends = |by: &Ender| !by.given_up || self.fault == Fault::AbortedEnder;
        let ender = version.ender.filter(ends).map(|by| by.id);
        sockhurdle::Version::new(version.maker, ender)
    }

    /// Removes what may go by a line, as the batch decides.
    fn remove(&self, line: u64) -> Result<usize, Refusal> {
        let halves = self.photos.iter().flat_map(|photo| &photo.halves);
        let removed = halves.map(|half| {
            let mut versions = locked(half);
            let told: Vec<_> = versions.iter().map(|version| self.told(version)).collect();
            let mut may_go = vec![0; told.len()];
            batch(line, &told, &mut may_go)?;
            let before = versions.len();
            let mut decided = may_go.into_iter();
            versions.retain(|_| decided.next() == Some(0));
            Ok(before - versions.len())
        });
        removed.sum()
    }

    fn vacuum(&self) -> Result<(), Refusal> {
        let (line, _) = self.shared.vacuum();
        let line = match self.fault {
            Fault::VacuumAtTheSample => self.shared.clock(),
            _ => line,
        };
        let removed = self.remove(line)?;
        self.counts.vacuums.fetch_add(1, Relaxed);
        self.counts.removed.fetch_add(removed as u64, Relaxed);
        Ok(())
    }

    fn vacuums(&self) -> Result<(), Refusal> {
        while !self.stop.load(Relaxed) {
            self.vacuum()?;
            thread::sleep(Duration::from_micros(200));
        }
        Ok(())
    }

    /// So many threads, until the time is over or something was found.
    fn run(&self, threads: u64, seconds: f64) {
        let end = Instant::now() + Duration::from_secs_f64(seconds);
        let done = |done: Result<(), Refusal>| {
            if let Err(refusal) = done {
                self.find(format!("refused: {refusal}"));
            }
        };
        thread::scope(|scope| {
            scope.spawn(|| done(self.vacuums()));
            for who in 1..threads {
                let mut random = Random(who.wrapping_mul(0x9e37_79b9_7f4a_7c15));
                // of three threads one re-encodes, one has registered pages, one pinned ones
                scope.spawn(move || match who % 3 {
                    0 => done(self.encodes(&mut random)),
                    kind => done(self.pages(kind == 1, &mut random)),
                });
            }
            while !self.stop.load(Relaxed) && Instant::now() < end {
                thread::sleep(Duration::from_millis(1));
            }
            self.stop.store(true, Relaxed);
        });
    }
}

struct Wanted {
    seconds: f64,
    threads: u64,
    fault: Fault,
    trace: Option<String>,
}

fn wanted() -> Option<Wanted> {
    let mut wanted = Wanted {
        seconds: 5.0,
        threads: 13,
        fault: Fault::None,
        trace: None,
    };
    let mut words = std::env::args().skip(1);
    while let Some(word) = words.next() {
        let value = words.next()?;
        match word.as_str() {
            "--seconds" => wanted.seconds = value.parse().ok()?,
            "--threads" => wanted.threads = value.parse().ok().filter(|threads| *threads >= 4)?,
            "--fault" => wanted.fault = FAULTS.iter().find(|(name, _)| *name == value)?.1,
            "--trace" => wanted.trace = Some(value),
            _ => return None,
        }
    }
    Some(wanted)
}

fn report(store: &Store, begun: Instant) {
    let seconds = begun.elapsed().as_secs_f64();
    let count = |count: &AtomicU64| count.load(Relaxed);
    let counts = &store.counts;
    let pages = count(&counts.pages);
    println!("pages: {pages}, {:.0} a second", pages as f64 / seconds);
    println!(
        "re-encodes: {}, and {} given up",
        count(&counts.encodes),
        count(&counts.given_up)
    );
    println!(
        "versions removed: {}, in {} vacuums",
        count(&counts.removed),
        count(&counts.vacuums)
    );
}

fn main() -> Result<(), Refusal> {
    let Some(wanted) = wanted() else {
        eprintln!(
            "usage: tiles [--seconds N] [--threads N, 4 at least] [--fault NAME] [--trace FILE]"
        );
        FAULTS
            .iter()
            .for_each(|(name, _)| eprintln!("  fault: {name}"));
        exit(2);
    };
    let shared = Shared::fresh();
    if wanted.trace.is_some() {
        shared.record();
    }
    let store = Store::new(shared, wanted.fault)?;
    let begun = Instant::now();
    store.run(wanted.threads, wanted.seconds);
    report(&store, begun);
    if let (Some(file), Some(trace)) = (wanted.trace, store.shared.trace()) {
        std::fs::write(&file, trace).unwrap_or_else(|error| eprintln!("{file}: {error}"));
    }
    if let Some((at, what)) = &*locked(&store.found) {
        let after = (*at - begun).as_secs_f64();
        println!("FOUND after {after:.3} s: {what}");
        exit(1);
    }
    // all have left: of each half the last coding stays, and nothing else
    store
        .vacuum()
        .expect("the versions of the store are in order");
    let halves = store.photos.iter().flat_map(|photo| &photo.halves);
    let left: usize = halves.map(|half| locked(half).len()).sum();
    println!(
        "torn: 0, gone: 0, versions left: {left} of {} halves",
        2 * PHOTOS
    );
    exit(i32::from(left != 2 * PHOTOS));
}
