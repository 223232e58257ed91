//! Every order in which a re-encode, a page and a vacuum may take the lock, one after the other: what threads may do, without threads.
//! In none is a photo torn or a half gone, and with a fault of the host in some.

use sockhurdle::{Pin, Shared, Snapshot, Transaction, Txid};

#[derive(Clone, Copy, PartialEq, Eq)]
enum Host {
    Right,
    PlainSnapshot,
    VacuumAtTheSample,
    AbortedEnder,
    EndBeforeUndo,
}

struct Ender {
    id: Txid,
    given_up: bool,
}

struct Version {
    maker: Txid,
    ender: Option<Ender>,
}

/// What the page has open.
enum Page<'a> {
    Closed,
    Registered(Transaction<'a>),
    Pinned(Pin<'a>),
    Plain(Snapshot),
}

#[derive(Clone, Copy)]
struct Case {
    host: Host,
    commits: bool,
    registered: bool,
}

struct World<'a> {
    shared: &'a Shared,
    case: Case,
    halves: [Vec<Version>; 2],
    encode: Option<Transaction<'a>>,
    new: Txid,
    page: Page<'a>,
    top: u64,
    line: u64,
}

type Seen = Result<(), &'static str>;

impl<'a> World<'a> {
    /// A photo that transaction 1 has made.
    fn of(shared: &'a Shared, case: Case) -> Self {
        let first = shared.begin().unwrap();
        let maker = first.id();
        first.commit();
        let half = || vec![Version { maker, ender: None }];
        World {
            shared,
            case,
            halves: [half(), half()],
            encode: None,
            new: Txid(0),
            page: Page::Closed,
            top: 0,
            line: 1,
        }
    }

    fn settled(&self, id: Txid) -> bool {
        let settled = match &self.page {
            Page::Closed => unreachable!("a closed page reads nothing"),
            Page::Registered(page) => page.seen().unwrap().settled(id),
            Page::Pinned(page) => page.settled(id),
            Page::Plain(seen) => seen.settled(id),
        };
        settled.unwrap()
    }

    fn read(&self, half: usize) -> Result<u64, &'static str> {
        let replaced = |by: &Ender| !by.given_up && self.settled(by.id);
        let shown = |version: &&Version| {
            self.settled(version.maker) && !version.ender.as_ref().is_some_and(replaced)
        };
        let mut shown = self.halves[half].iter().filter(shown);
        match (shown.next(), shown.next()) {
            (Some(version), None) => Ok(version.maker.0),
            (None, _) => Err("gone"),
            _ => Err("twice"),
        }
    }

    fn write(&mut self, half: usize) {
        let id = self.new;
        for version in &mut self.halves[half] {
            let given_up = false;
            version.ender = Some(Ender { id, given_up });
        }
        let made = Version {
            maker: id,
            ender: None,
        };
        self.halves[half].push(made);
    }

    fn take_back(&mut self) {
        for half in &mut self.halves {
            half.retain(|version| version.maker != self.new);
            let enders = half.iter_mut().filter_map(|version| version.ender.as_mut());
            enders.for_each(|ender| ender.given_up = true);
        }
    }

    fn end(&mut self) {
        self.encode.take().expect("it has begun").commit();
    }

    fn open(&mut self) {
        self.page = if self.case.host == Host::PlainSnapshot {
            Page::Plain(self.shared.snapshot())
        } else if self.case.registered {
            let mut page = self.shared.begin().unwrap();
            page.snapshot();
            Page::Registered(page)
        } else {
            Page::Pinned(self.shared.pin().unwrap())
        };
    }

    fn remove(&mut self) {
        let (line, told) = (self.line, self.case.host == Host::AbortedEnder);
        for half in &mut self.halves {
            half.retain(|version| match &version.ender {
                Some(by) if !by.given_up || told => by.id.0 >= line,
                _ => true,
            });
        }
    }

    fn encode_step(&mut self, at: usize) {
        let late = self.case.host == Host::EndBeforeUndo;
        match (at, self.case.commits) {
            (0, _) => {
                let encode = self.shared.begin().unwrap();
                self.new = encode.id();
                self.encode = Some(encode);
            }
            (1, _) => self.write(0),
            (2, true) => self.write(1),
            (3, true) => {
                let encode = self.encode.take().expect("it has begun");
                encode.finish().unwrap();
            }
            // given up: taken back, then ended; or the other way round
            (2, false) if late => self.end(),
            (3, false) if late => self.take_back(),
            (2, false) => self.take_back(),
            _ => self.end(),
        }
    }

    fn page_step(&mut self, at: usize) -> Seen {
        match at {
            0 => self.open(),
            1 => self.top = self.read(0)?,
            2 if self.read(1)? != self.top => return Err("torn"),
            2 => {}
            _ => self.page = Page::Closed,
        }
        Ok(())
    }

    fn vacuum_step(&mut self, at: usize) {
        if at % 2 == 1 {
            return self.remove();
        }
        self.line = self.shared.vacuum().0;
        if self.case.host == Host::VacuumAtTheSample {
            self.line = self.shared.clock();
        }
    }
}

/// Calls `visit` with every order of three times four steps.
fn orders(left: [usize; 3], order: &mut Vec<usize>, visit: &mut impl FnMut(&[usize])) {
    if left == [0; 3] {
        return visit(order);
    }
    for who in (0..3).filter(|who| left[*who] > 0) {
        let mut rest = left;
        rest[who] -= 1;
        order.push(who);
        orders(rest, order, visit);
        order.pop();
    }
}

fn run(order: &[usize], case: Case) -> Seen {
    let shared = Shared::fresh();
    let mut world = World::of(&shared, case);
    let mut done = [0; 3];
    for &who in order {
        let at = done[who];
        done[who] += 1;
        match who {
            0 => world.encode_step(at),
            1 => world.page_step(at)?,
            _ => world.vacuum_step(at),
        }
    }
    Ok(())
}

/// How many orders there are, and in how many something is torn, gone or there twice.
fn broken(case: Case) -> (usize, usize) {
    let (mut all, mut broken) = (0, 0);
    orders([4; 3], &mut Vec::new(), &mut |order| {
        all += 1;
        broken += usize::from(run(order, case).is_err());
    });
    (all, broken)
}

#[test]
fn in_no_order_is_a_photo_torn_or_gone() {
    let host = Host::Right;
    for (commits, registered) in [(true, true), (true, false), (false, true), (false, false)] {
        let case = Case {
            host,
            commits,
            registered,
        };
        // 12! / (4! 4! 4!)
        assert_eq!(broken(case), (34_650, 0), "{commits} {registered}");
    }
}

#[test]
fn with_a_fault_there_is_such_an_order() {
    let faults = [
        (Host::PlainSnapshot, true),
        (Host::VacuumAtTheSample, true),
        (Host::AbortedEnder, false),
        (Host::EndBeforeUndo, false),
    ];
    for (host, commits) in faults {
        for registered in [true, false] {
            let case = Case {
                host,
                commits,
                registered,
            };
            assert!(broken(case).1 > 0);
        }
    }
}
