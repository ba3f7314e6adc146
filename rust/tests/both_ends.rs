//! A camera and a receiver over a link that loses, delays and copies packets, feedback too: what
//! the camera then knows of its packets is what happened to them.

#![cfg(feature = "alloc")]

#[path = "common/random.rs"]
mod random;

use ccfb::{Mark, Packet, Report, Reporter, SentPackets, Status, Store, Time};
use random::Random;

const CAMERA: u32 = 0x0000_ca01;
const LINKS: u64 = 200;
const PACKETS: usize = 1_500;
const FIRST_NUMBER: u16 = 65_000;
const OVERLAP: u16 = 40;
/// What the clock moves on by between two packets: about 10 ms.
const STEP: u32 = 655;

/// What the link did with a packet.
#[derive(Clone, Copy, Default)]
struct Outcome {
    /// When the first copy arrived.
    arrived: Option<u32>,
    congested: bool,
    /// A report since the arrival has named it, and the camera took that in.
    reported: bool,
    /// A report that the camera took in has named it.
    named: bool,
}

struct Link {
    random: Random,
    camera: SentPackets<1>,
    store: Store<1>,
    reporter: Reporter,
    outcomes: Vec<Outcome>,
    /// Packets on the way, by index, and feedback on the way.
    media: Vec<usize>,
    feedback: Vec<Feedback>,
}

/// A feedback packet, with the numbers that it names by index and whether they had arrived.
#[derive(Clone)]
struct Feedback {
    octets: Vec<u8>,
    named: Vec<(usize, bool)>,
}

fn number_of(index: usize) -> u16 {
    FIRST_NUMBER.wrapping_add(index as u16)
}

impl Link {
    fn new(seed: u64) -> Link {
        Link {
            random: Random(seed),
            camera: SentPackets::new(),
            store: Store::new(),
            reporter: Reporter::new(OVERLAP),
            outcomes: Vec::new(),
            media: Vec::new(),
            feedback: Vec::new(),
        }
    }

    fn send(&mut self) {
        let index = self.outcomes.len();
        self.camera.register(CAMERA, number_of(index)).expect("a new number");
        self.outcomes.push(Outcome::default());
        if !self.random.one_in(20) {
            self.media.push(index);
        }
    }

    /// Some of the packets on the way arrive, in any order; some stay on the way as a copy.
    fn arrive(&mut self, now: u32) {
        while !self.media.is_empty() && !self.random.one_in(3) {
            let at = self.random.below(self.media.len() as u64) as usize;
            let index =
                if self.random.one_in(9) { self.media[at] } else { self.media.swap_remove(at) };
            let mark = if self.random.one_in(10) { Mark::Ce } else { Mark::Ect1 };
            if self.store.arrive(CAMERA, number_of(index), mark, Time::At(now)).is_ok() {
                let outcome = &mut self.outcomes[index];
                outcome.arrived.get_or_insert(now);
                outcome.congested |= mark == Mark::Ce;
            }
        }
    }

    fn report(&mut self, now: u32) {
        let requests = self.reporter.requests(self.store.streams());
        let mut out = vec![0; requests.room()];
        let report = Report { own: 1, rts: now, limit: 100 };
        for octets in self.store.write(report, &requests, &mut out).expect("room") {
            let packet = Packet::read(octets).expect("written");
            let numbers = packet.blocks().flat_map(|block| block.metrics());
            let indices = numbers.map(|(n, _)| usize::from(n.wrapping_sub(FIRST_NUMBER)));
            let named = indices.map(|i| (i, self.outcomes[i].arrived.is_some())).collect();
            self.feedback.push(Feedback { octets: octets.to_vec(), named });
        }
        self.reporter.reported(&requests);
    }

    /// Some of the feedback on the way comes, in any order, or is lost, or comes and will again.
    fn take_in(&mut self) {
        while !self.feedback.is_empty() && !self.random.one_in(3) {
            let at = self.random.below(self.feedback.len() as u64) as usize;
            let again = self.random.one_in(9).then(|| self.feedback[at].clone());
            let feedback = self.feedback.swap_remove(at);
            self.feedback.extend(again);
            if self.random.one_in(9) {
                continue; // lost
            }
            self.camera.take_in(&feedback.octets).expect("written");
            for (index, arrived) in feedback.named {
                self.outcomes[index].named = true;
                self.outcomes[index].reported |= arrived;
            }
        }
    }

    /// What the camera knows of a packet is true, and it knows what was reported.
    fn check(&self, index: usize) {
        let outcome = self.outcomes[index];
        let status = self.camera.status(CAMERA, number_of(index)).expect("registered");
        assert_eq!(status.is_received(), outcome.reported, "{index}: {status}");
        assert_eq!(status == Status::NotReported, !outcome.named, "{index}: {status}");
        assert!(status.mark() != Some(Mark::Ce) || outcome.congested, "{index}: {status}");
        if let Some(time) = status.time() {
            let arrived = outcome.arrived.expect("received only what arrived");
            assert!(time.wrapping_sub(arrived) < 64, "{index}: {status}, not {arrived}");
        }
    }
}

#[test]
fn the_camera_knows_what_happened() {
    for seed in 0..LINKS {
        let mut link = Link::new(seed);
        let mut now = link.random.below(1 << 32) as u32;
        for _ in 0..PACKETS {
            now = now.wrapping_add(STEP);
            link.send();
            link.arrive(now);
            if link.random.one_in(10) {
                link.report(now);
            }
            if link.random.one_in(5) {
                link.take_in();
            }
        }
        (0..PACKETS).for_each(|index| link.check(index));
        let received = link.outcomes.iter().filter(|outcome| outcome.reported).count();
        assert!(received > PACKETS / 2, "{received} received");
    }
}
