//! Scenes of an allocation that waits: the memory is filled, more is asked for
//! than is free, something comes in between, and pages are given back.

use super::driver::*;
use super::Generator;
use crate::address::MacAddress;
use crate::chip::{control, interrupt, rcr, tcr};
use crate::memory::{Layout, PacketNumber};
use crate::wire::Check;

/// What gives pages back.
#[derive(Clone, Copy)]
enum Giver {
    Release,
    RemoveAndRelease,
    Send,
}

/// RX is empty more often than TX, and both more often than no packet is idle.
const GIVERS: [Giver; 5] = [
    Giver::Release,
    Giver::RemoveAndRelease,
    Giver::RemoveAndRelease,
    Giver::Send,
    Giver::Send,
];

impl Generator {
    /// A request for more than is free, until it is granted or dropped; a few
    /// are left to the scenes that follow.
    pub fn wait_for_pages(&mut self) {
        let giver = self.random.pick(&GIVERS);
        self.prepare(giver);
        let left = self.random.pick(&[0, 1, 1, 2, 3, 5]);
        self.take_all_but(left);
        if self.random.one_in(3) {
            self.watch_result();
        }
        self.ask(giver);
        for _ in 0..self.random.pick(&[0, 0, 1, 1, 2, 3]) {
            self.meet_something();
        }
        match self.random.between(0, 23) {
            0 => self.drop_by_40h(),
            1 => self.drop_by_reset(),
            2..=3 => {}
            _ => {
                self.give_until_granted(giver);
                self.use_grant();
            }
        }
        if !self.random.one_in(3) {
            self.tidy();
        }
    }

    fn waiting(&self) -> Option<usize> {
        self.chip().registers.waiting
    }

    fn free_pages(&self) -> usize {
        self.chip().packets.free_pages()
    }

    /// Makes sure that there is a packet to give back.
    fn prepare(&mut self, giver: Giver) {
        match giver {
            Giver::Release => {
                if self.pick_idle().is_none() {
                    self.allocate();
                }
            }
            Giver::RemoveAndRelease => {
                if self.chip().rx.is_empty() {
                    let pages = self.random.pick(&[1, 1, 1, 2]);
                    self.make_room(pages);
                    self.admit(pages);
                    self.broadcast(pages);
                }
            }
            Giver::Send => self.prepare_send(),
        }
    }

    /// A frame of one page or two, stored if they are free and not reserved.
    pub fn broadcast(&mut self, pages: usize) {
        let now = self.chip().registers.rcr;
        if now & rcr::RXEN == 0 {
            self.put_rcr(now & !rcr::SOFT_RESET | rcr::RXEN);
        }
        let shortest = match (pages, self.chip().registers.control & control::RECEIVE_BAD) {
            (2.., _) => 256,
            (_, 0) => 64,
            _ => 18,
        };
        let length = shortest + self.random.between(0, 6);
        if !self.bench.gathered.is_empty() {
            self.say(&[6]); // stray bytes would shift the destination
        }
        self.gather(MacAddress::BROADCAST, length, Check::Right);
        self.say(&[6, 0]);
    }

    /// Reserves so little that a frame of so many pages is stored, if they are
    /// free.
    pub fn admit(&mut self, pages: usize) {
        let reserved = usize::from(self.chip().registers.reserved);
        let free = self.free_pages();
        if (pages..pages + reserved).contains(&free) {
            let fewer = self.random.between(0, free - pages);
            self.put(RESERVED, fewer as u16);
        }
    }

    /// Makes sure that the TX head can be sent.
    fn prepare_send(&mut self) {
        if self.chip().tx.is_empty() && self.steady_packet().is_some() {
            self.command(ENQUEUE);
        }
        self.repair_head();
        if self.chip().registers.tcr & tcr::TXENA == 0 {
            self.enable_tx();
        }
    }

    /// Sends the TX head, under the control bit that releases a good one or not.
    fn send_head(&mut self, outcome: u8, releases: bool) {
        self.prepare_send();
        let now = self.chip().registers.control & control::AUTO_RELEASE != 0;
        if now != releases {
            self.set_control_bit(control::AUTO_RELEASE, releases);
        }
        let collisions = match outcome {
            1 => 16,
            _ => self.random.pick(&[0, 0, 1, 2]),
        };
        self.say(&[7, outcome, collisions, 0]);
    }

    /// Allocates until no more than so many pages are free; some of it is queued
    /// to be sent.
    fn take_all_but(&mut self, left: usize) {
        while self.free_pages() > left {
            let most = (self.free_pages() - left).min(8);
            let pages = self.random.pick(&[1, 2, 4, 8, 8]).min(most);
            self.command(ALLOCATE + pages as u8 - 1);
            let granted = self.chip().registers.result;
            if let (Some(packet), true) = (granted, self.random.one_in(3)) {
                self.select_packet(packet.get());
                self.load_words(2, &[12]);
                self.command(ENQUEUE);
            }
        }
    }

    /// Asks for what is free and the pages that will be given back, for fewer,
    /// or for more.
    fn ask(&mut self, giver: Giver) {
        let given = self.pages_to_come(giver);
        let more = match self.random.between(0, 6) {
            0..=2 => given,
            3..=4 => self.random.between(1, given),
            _ => given + self.random.between(1, 2),
        };
        let pages = (self.free_pages() + more).min(8);
        self.command(ALLOCATE + pages as u8 - 1);
        self.look_at_request();
    }

    /// A request for a page where none is free, and something given back.
    pub fn ask_for_one_more(&mut self) {
        let giver = self.random.pick(&GIVERS);
        self.command(ALLOCATE);
        self.look_at_request();
        if self.random.one_in(2) {
            self.meet_frame();
        }
        self.give_until_granted(giver);
    }

    /// How many pages the next packet gives back, 1 where that is not known.
    fn pages_to_come(&mut self, giver: Giver) -> usize {
        let packet = match giver {
            Giver::Release => self.pick_idle(),
            Giver::RemoveAndRelease => self.chip().rx.head(),
            Giver::Send => self.chip().tx.head(),
        };
        packet.map_or(1, |packet| self.chip().packets.page_count(packet))
    }

    /// A mask under which the line goes up in the very step that grants.
    fn watch_result(&mut self) {
        self.select(INTERRUPT.0);
        self.write_byte(INTERRUPT.1 + 1, interrupt::ALLOCATION);
    }

    /// Something that mostly leaves the request waiting.
    fn meet_something(&mut self) {
        match self.random.between(0, 20) {
            0..=4 => self.meet_frame(),
            5..=6 => self.release_too_few(),
            7..=8 => {
                let outcome = self.random.pick(&[1, 2, 5]);
                let releases = self.random.one_in(2);
                self.send_head(outcome, releases);
            }
            9..=10 => self.send_head(0, false),
            11..=13 => self.ask_again(),
            14..=15 => self.command(EMPTY_TX),
            16 => self.command(REMOVE_RX),
            17 => self.trouble_queues(),
            18 => self.odd_command(),
            19 => self.ask_for_part(),
            _ => self.odd_record(),
        }
        if self.random.one_in(2) {
            self.look_at_request();
        }
    }

    /// A frame, for which there mostly is room if any page is free: it overtakes
    /// the request.
    fn meet_frame(&mut self) {
        if !self.random.one_in(4) {
            self.admit(1);
        }
        self.broadcast(1);
        if self.chip().registers.rx_overrun && self.random.one_in(2) {
            self.acknowledge_overrun();
        }
    }

    /// An idle packet with fewer pages than the request lacks, if there is one.
    fn release_too_few(&mut self) {
        let lacking = self
            .waiting()
            .unwrap_or(0)
            .saturating_sub(self.free_pages());
        let few = self.pick_packet(|now, packet| {
            !now.chip().is_queued(packet) && now.chip().packets.page_count(packet) < lacking
        });
        if let Some(packet) = few {
            self.release(packet);
        }
    }

    /// "A new allocate command replaces a waiting one", be it granted or not.
    fn ask_again(&mut self) {
        let pages = self.random.between(1, 8) as u8;
        self.command(ALLOCATE + pages - 1);
    }

    /// Gives pages back until the request has them, or a few times.
    fn give_until_granted(&mut self, first: Giver) {
        let mut giver = first;
        for _ in 0..6 {
            if self.waiting().is_none() {
                return;
            }
            self.give(giver);
            self.look_at_request();
            if self.random.one_in(2) {
                giver = self.random.pick(&GIVERS);
            }
        }
    }

    fn give(&mut self, giver: Giver) {
        match giver {
            Giver::Release => {
                if let Some(packet) = self.pick_idle() {
                    self.release(packet);
                }
            }
            Giver::RemoveAndRelease => self.command(RELEASE_RX),
            Giver::Send => self.send_head(0, true),
        }
    }

    /// The result, and mostly the status and the free pages too.
    fn look_at_request(&mut self) {
        self.select(PACKET.0);
        if self.random.one_in(2) {
            self.read_byte(PACKET.1 + 1);
        } else {
            self.read_word(PACKET.1);
        }
        if !self.random.one_in(3) {
            self.read_byte(INTERRUPT.1);
        }
        if self.random.one_in(2) {
            self.select(MIR.0);
            self.read_word(MIR.1);
        }
    }

    /// Loads the packet in the result and enqueues it; then some sends, until its
    /// own has come.
    fn use_grant(&mut self) {
        let idle = |packet: &PacketNumber| {
            let chip = self.chip();
            chip.packets.is_allocated(*packet) && !chip.is_queued(*packet)
        };
        let Some(packet) = self.chip().registers.result.filter(idle) else {
            return;
        };
        self.load_and_enqueue(packet);
        let turns = self.random.pick(&[0, 1, 3]);
        for _ in 0..turns {
            if !self.chip().tx.contains(packet) {
                return;
            }
            let releases = self.random.one_in(2);
            self.send_head(0, releases);
        }
    }

    fn drop_by_40h(&mut self) {
        self.free_all();
        self.release_in_vain();
    }

    fn drop_by_reset(&mut self) {
        self.soft_reset();
        self.release_in_vain();
    }

    /// A frame's packet is given back: a request that was not dropped would be
    /// granted now.
    fn release_in_vain(&mut self) {
        self.admit(1);
        self.broadcast(1);
        if self.random.one_in(2) {
            self.command(RELEASE_RX);
        } else {
            self.command(REMOVE_RX);
            self.give(Giver::Release);
        }
        self.look_at_request();
    }
}
