//! Feedback on the wire: a camera and a receiver over UDP, on this machine and by its real clock.
//! The camera sends RTP, of which some is lost; the receiver reports after every 20 packets; the
//! camera takes in the reports, and prints what became of its packets. Reports are sent alone, as
//! reduced-size RTCP allows.
//!
//! The standard library does not tell the ECN field of a datagram: here it counts as not-ECT.
//! examples/wire.c, beside this crate, takes it and the time of arrival from the kernel.

use ccfb::{ntp_time, Datagram, Mark, Refusal, Report, Reporter, RtcpPacket};
use ccfb::{SentPackets, Status, Store, Time};
use std::error::Error;
use std::io::{self, ErrorKind};
use std::net::{Ipv4Addr, UdpSocket};
use std::thread::sleep;
use std::time::{Duration, SystemTime};

const RECEIVER: u32 = 0x0000_00f1;
const CAMERA: u32 = 0x0000_ca01;
const FIRST_NUMBER: u16 = 65_500;
const PACKETS: u16 = 60;
const PACKETS_OF_A_REPORT: u16 = 20;
/// Numbers of the last report that each report repeats.
const OVERLAP: u16 = 8;
/// Octets of a feedback packet, within every usual path's MTU.
const LIMIT: usize = 1_200;
const DATAGRAM: usize = 1_500;
const RTP_HEADER: usize = 12;

struct Receiver {
    socket: UdpSocket,
    store: Store<4>,
    reporter: Reporter,
}

impl Receiver {
    /// Records every packet that has come.
    fn receive_all(&mut self) -> io::Result<()> {
        let mut datagram = [0; DATAGRAM];
        while let Some(len) = received(&self.socket, &mut datagram)? {
            if let Some((ssrc, number)) = rtp(&datagram[..len]) {
                let now = Time::from(SystemTime::now());
                match self.store.arrive(ssrc, number, Mark::NotEct, now) {
                    Ok(kind) => self.reporter.arrived(ssrc, number, kind),
                    Err(refusal) => eprintln!("stream {ssrc:08x}, number {number}: {refusal}"),
                }
            }
        }
        Ok(())
    }

    /// Reports what is new. What was not sent is reported the next time.
    fn report(&mut self) -> Result<(), Box<dyn Error>> {
        let requests = self.reporter.requests(self.store.streams());
        let report = Report { own: RECEIVER, rts: ntp_time(SystemTime::now()), limit: LIMIT };
        let mut out = vec![0; requests.room()];
        for packet in self.store.write(report, &requests, &mut out)? {
            self.socket.send(packet)?;
        }
        self.reporter.reported(&requests);
        Ok(())
    }
}

/// The SSRC and the sequence number of an RTP packet. RTCP on the same port is told by its second
/// octet (RFC 5761).
fn rtp(datagram: &[u8]) -> Option<(u32, u16)> {
    let header = datagram.get(..RTP_HEADER)?;
    if header[0] >> 6 != 2 || (192..=223).contains(&header[1]) {
        return None;
    }
    let ssrc = u32::from_be_bytes([header[8], header[9], header[10], header[11]]);
    Some((ssrc, u16::from_be_bytes([header[2], header[3]])))
}

/// The length of the next datagram, if one has come.
fn received(socket: &UdpSocket, datagram: &mut [u8]) -> io::Result<Option<usize>> {
    match socket.recv(datagram) {
        Ok(len) => Ok(Some(len)),
        Err(error) if error.kind() == ErrorKind::WouldBlock => Ok(None),
        Err(error) => Err(error),
    }
}

struct Camera {
    socket: UdpSocket,
    sent: SentPackets<1>,
    next: u16,
}

impl Camera {
    /// Sends the next packet, or loses it on the way.
    fn send(&mut self, lost: bool) -> Result<(), Box<dyn Error>> {
        let mut packet = [0; RTP_HEADER + 1_000];
        packet[..2].copy_from_slice(&[0x80, 96]); // version 2, payload type 96
        packet[2..4].copy_from_slice(&self.next.to_be_bytes());
        packet[8..12].copy_from_slice(&CAMERA.to_be_bytes());
        self.sent.register(CAMERA, self.next)?;
        if !lost {
            self.socket.send(&packet)?;
        }
        self.next = self.next.wrapping_add(1);
        Ok(())
    }

    /// Takes in the feedback of every datagram that has come, and skips other RTCP packets.
    fn take_in_all(&mut self) -> io::Result<()> {
        let mut datagram = [0; DATAGRAM];
        while let Some(len) = received(&self.socket, &mut datagram)? {
            match Datagram::read(&datagram[..len]) {
                Ok(datagram) => self.take_in(datagram),
                Err(refusal) => eprintln!("camera: {refusal}"),
            }
        }
        Ok(())
    }

    fn take_in(&mut self, datagram: Datagram) {
        for packet in datagram.packets().filter(RtcpPacket::is_ccfb) {
            if let Err(refusal) = self.sent.take_in(packet.octets()) {
                eprintln!("camera: {refusal}");
            }
        }
    }

    /// Prints what is known of the packets that were sent since the start.
    fn print_sent(&self) -> Result<(), Refusal> {
        let count = self.next.wrapping_sub(FIRST_NUMBER);
        let numbers = (0..count).map(|i| FIRST_NUMBER.wrapping_add(i));
        let known: Vec<_> =
            numbers.map(|n| self.sent.status(CAMERA, n)).collect::<Result<_, _>>()?;
        let received = known.iter().filter(|status| status.is_received()).count();
        let missing = known.iter().filter(|status| **status == Status::Missing).count();
        let others = known.len() - received - missing;
        println!("{count} sent: {received} received, {missing} missing, {others} not reported");
        Ok(())
    }
}

fn main() -> Result<(), Box<dyn Error>> {
    let ours = UdpSocket::bind((Ipv4Addr::LOCALHOST, 0))?;
    let theirs = UdpSocket::bind((Ipv4Addr::LOCALHOST, 0))?;
    ours.connect(theirs.local_addr()?)?;
    theirs.connect(ours.local_addr()?)?;
    ours.set_nonblocking(true)?;
    theirs.set_nonblocking(true)?;
    let mut camera = Camera { socket: ours, sent: SentPackets::new(), next: FIRST_NUMBER };
    let mut receiver =
        Receiver { socket: theirs, store: Store::new(), reporter: Reporter::new(OVERLAP) };

    for i in 0..PACKETS {
        camera.send(i % 30 == 25)?;
        sleep(Duration::from_millis(1));
        receiver.receive_all()?;
        if (i + 1) % PACKETS_OF_A_REPORT == 0 {
            receiver.report()?;
            camera.take_in_all()?;
            camera.print_sent()?;
        }
    }
    Ok(())
}
