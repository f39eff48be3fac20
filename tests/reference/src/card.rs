//! The objects in an accepted lent state.

use crate::accept;
use crate::answer::Refusal;
use crate::layout::*;
use crate::record::{Completion, Kind, Piece, ReceiveRecord};

/// An accepted state. Every number that an object names is in its table.
pub struct Card<'a> {
    bytes: &'a mut [u8; STATE_BYTES],
}

#[derive(Clone, Copy, Debug, PartialEq, Eq)]
pub struct Region {
    pub access: u8,
    pub variant: u8,
    pub domain: u8,
    /// Whether it lies over pages; else it is of adjacent bytes.
    pub paged: bool,
    /// Of its first byte: in the memory, or in its first page.
    pub start: u64,
    pub length: u64,
    pub virt: u64,
}

#[derive(Clone, Copy, Debug, PartialEq, Eq)]
pub struct Pair {
    pub domain: u8,
    pub signal: u8,
    pub send_queue: u8,
    pub receive_queue: u8,
    pub state: u8,
    pub destination: u8,
    /// The access flags: which rights of the regions its peer may use.
    pub access: u8,
}

impl<'a> Card<'a> {
    /// Makes the test of answer 15.
    pub fn open(state: &'a mut [u8]) -> Result<Card<'a>, Refusal> {
        let bytes: &mut [u8; STATE_BYTES] = state.try_into().map_err(|_| Refusal::BadState)?;
        accept::check(bytes).map_err(|_| Refusal::BadState)?;
        Ok(Card { bytes })
    }

    pub fn memory_length(&self) -> u64 {
        get64(self.bytes, MEMORY_LENGTH)
    }

    // ---- domains

    pub fn domain(&self, number: u32) -> Result<usize, Refusal> {
        live(number, DOMAINS, |n| self.bytes[DOMAIN_FLAGS + n] == 1)
    }

    pub fn free_domain(&self) -> Option<usize> {
        self.bytes[DOMAIN_FLAGS..][..DOMAINS].iter().position(|&flag| flag == 0)
    }

    pub fn set_domain(&mut self, number: usize, live: bool) {
        self.bytes[DOMAIN_FLAGS + number] = live.into();
    }

    // ---- completion queues

    fn live_queue(&self, number: usize) -> bool {
        self.bytes[QUEUE_FLAGS + number] == 1
    }

    pub fn queue(&self, number: u32) -> Result<usize, Refusal> {
        live(number, QUEUES, |n| self.live_queue(n))
    }

    pub fn free_queue(&self) -> Option<usize> {
        (0..QUEUES).find(|&n| !self.live_queue(n))
    }

    /// Makes an empty queue.
    pub fn create_queue(&mut self, number: usize, places: u8) {
        self.set_head(number, places, 0, 0);
        self.bytes[QUEUE_FLAGS + number] = 1;
    }

    pub fn drop_queue(&mut self, number: usize) {
        self.bytes[QUEUE_FLAGS + number] = 0;
    }

    fn set_head(&mut self, number: usize, places: u8, first: u8, count: u8) {
        let row = queue_row(number);
        self.bytes[row + QUEUE_PLACES] = places;
        self.bytes[row + QUEUE_FIRST] = first;
        self.bytes[row + QUEUE_COUNT] = count;
        self.bytes[row + QUEUE_ZERO] = 0;
    }

    /// Places, first place and count.
    fn head(&self, number: usize) -> (u8, u8, u8) {
        let row = queue_row(number);
        (self.bytes[row + QUEUE_PLACES], self.bytes[row + QUEUE_FIRST], self.bytes[row + QUEUE_COUNT])
    }

    pub fn places(&self, number: usize) -> usize {
        self.head(number).0.into()
    }

    pub fn unread(&self, number: usize) -> usize {
        self.head(number).2.into()
    }

    pub fn free_places(&self, number: usize) -> usize {
        self.places(number) - self.unread(number)
    }

    /// Unread completion `index`, the oldest first.
    pub fn completion(&self, number: usize, index: usize) -> Completion {
        let (_, first, _) = self.head(number);
        Completion::read(self.bytes, completion_row(number, usize::from(first) + index))
    }

    /// The queue has a free place.
    pub fn put_completion(&mut self, number: usize, completion: &Completion) {
        let (places, first, count) = self.head(number);
        completion.write(self.bytes, completion_row(number, usize::from(first + count)));
        self.set_head(number, places, first, count + 1);
    }

    /// The queue has an unread completion.
    pub fn drop_completion(&mut self, number: usize) {
        let (places, first, count) = self.head(number);
        self.set_head(number, places, (first + 1) % MOST_PLACES as u8, count - 1);
    }

    // ---- regions

    pub fn live_region(&self, number: usize) -> bool {
        self.bytes[REGION_FLAGS + number] == 1
    }

    pub fn region_number(&self, number: u32) -> Result<usize, Refusal> {
        live(number, REGIONS, |n| self.live_region(n))
    }

    /// Whether the slot's last variant was handed out and dropped.
    fn retired(&self, number: usize) -> bool {
        !self.live_region(number) && self.region(number).variant == LAST_VARIANT
    }

    fn vacant(&self, number: usize) -> bool {
        !self.live_region(number) && !self.retired(number)
    }

    /// Of a vacant slot.
    pub fn next_variant(&self, number: usize) -> u8 {
        self.region(number).variant + 1
    }

    pub fn free_region(&self) -> Option<usize> {
        (0..REGIONS).find(|&n| self.vacant(n))
    }

    /// What the slot holds, live or not: its variant always has a meaning.
    pub fn region(&self, number: usize) -> Region {
        let row = region_row(number);
        Region {
            access: self.bytes[row + REGION_ACCESS],
            variant: self.bytes[row + REGION_VARIANT],
            domain: self.bytes[row + REGION_DOMAIN],
            paged: self.bytes[row + REGION_KIND] == PAGED,
            start: get64(self.bytes, row + REGION_START),
            length: get64(self.bytes, row + REGION_LENGTH),
            virt: get64(self.bytes, row + REGION_VIRT),
        }
    }

    /// Makes a live region.
    pub fn create_region(&mut self, number: usize, region: &Region) {
        let row = region_row(number);
        self.bytes[REGION_FLAGS + number] = 1;
        self.bytes[row + REGION_ACCESS] = region.access;
        self.bytes[row + REGION_VARIANT] = region.variant;
        self.bytes[row + REGION_DOMAIN] = region.domain;
        self.bytes[row + REGION_KIND] = if region.paged { PAGED } else { ADJACENT };
        put64(self.bytes, row + REGION_START, region.start);
        put64(self.bytes, row + REGION_LENGTH, region.length);
        put64(self.bytes, row + REGION_VIRT, region.virt);
    }

    /// The first byte of one of a region's pages.
    pub fn page(&self, number: usize, place: usize) -> u64 {
        PAGE_BYTES * u64::from(get16(self.bytes, page_row(number, place)))
    }

    /// Stores the first bytes of a region's pages; they lie in the memory.
    pub fn put_pages(&mut self, number: usize, pages: &[u64]) {
        for (place, page) in pages.iter().enumerate() {
            put16(self.bytes, page_row(number, place), (page / PAGE_BYTES) as u16);
        }
    }

    /// The memory byte that an address of a region is, and how many bytes from there on are those of the next addresses, up to `most`.
    pub fn byte_of(&self, number: usize, address: u64, most: usize) -> (usize, usize) {
        let region = self.region(number);
        let offset = region.start + (address - region.virt);
        if !region.paged {
            return (offset as usize, most);
        }
        let in_page = offset % PAGE_BYTES;
        let page = self.page(number, (offset / PAGE_BYTES) as usize);
        ((page + in_page) as usize, most.min((PAGE_BYTES - in_page) as usize))
    }

    pub fn drop_region(&mut self, number: usize) {
        self.bytes[REGION_FLAGS + number] = 0;
    }

    // ---- queue pairs

    pub fn live_pair(&self, number: usize) -> bool {
        self.bytes[PAIR_FLAGS + number] == 1
    }

    pub fn pair_number(&self, number: u32) -> Result<usize, Refusal> {
        live(number, PAIRS, |n| self.live_pair(n))
    }

    pub fn free_pair(&self) -> Option<usize> {
        (0..PAIRS).find(|&n| !self.live_pair(n))
    }

    pub fn pair(&self, number: usize) -> Pair {
        let row = pair_row(number);
        Pair {
            domain: self.bytes[row + PAIR_DOMAIN],
            signal: self.bytes[row + PAIR_SIGNAL],
            send_queue: self.bytes[row + PAIR_SEND_QUEUE],
            receive_queue: self.bytes[row + PAIR_RECEIVE_QUEUE],
            state: self.bytes[row + PAIR_STATE],
            destination: self.bytes[row + PAIR_DESTINATION],
            access: self.bytes[row + PAIR_ACCESS],
        }
    }

    fn set_pair(&mut self, number: usize, pair: &Pair) {
        let row = pair_row(number);
        self.bytes[row + PAIR_DOMAIN] = pair.domain;
        self.bytes[row + PAIR_SIGNAL] = pair.signal;
        self.bytes[row + PAIR_SEND_QUEUE] = pair.send_queue;
        self.bytes[row + PAIR_RECEIVE_QUEUE] = pair.receive_queue;
        self.bytes[row + PAIR_STATE] = pair.state;
        self.bytes[row + PAIR_DESTINATION] = pair.destination;
        self.bytes[row + PAIR_ACCESS] = pair.access;
        self.bytes[row + PAIR_ZERO] = 0;
    }

    /// Makes a live pair without waiting receives and queued sends.
    pub fn create_pair(&mut self, number: usize, pair: &Pair) {
        self.set_pair(number, pair);
        self.set_waiting(number, 0, 0);
        self.set_sends(number, 0, 0);
        self.bytes[PAIR_FLAGS + number] = 1;
    }

    pub fn drop_pair(&mut self, number: usize) {
        self.bytes[PAIR_FLAGS + number] = 0;
    }

    pub fn set_pair_state(&mut self, number: usize, state: u8) {
        let pair = Pair { state, ..self.pair(number) };
        self.set_pair(number, &pair);
    }

    pub fn set_access(&mut self, number: usize, access: u8) {
        let pair = Pair { access, ..self.pair(number) };
        self.set_pair(number, &pair);
    }

    pub fn set_destination(&mut self, number: usize, destination: u8) {
        let pair = Pair { destination, ..self.pair(number) };
        self.set_pair(number, &pair);
    }

    // ---- waiting receives

    /// First place and count.
    fn waiting_head(&self, number: usize) -> (u8, u8) {
        let row = waiting_row(number);
        (self.bytes[row + WAITING_FIRST], self.bytes[row + WAITING_COUNT])
    }

    fn set_waiting(&mut self, number: usize, first: u8, count: u8) {
        let row = waiting_row(number);
        self.bytes[row + WAITING_FIRST] = first;
        self.bytes[row + WAITING_COUNT] = count;
    }

    pub fn waiting(&self, number: usize) -> usize {
        self.waiting_head(number).1.into()
    }

    /// Waiting receive `index`, the oldest first.
    pub fn receive(&self, number: usize, index: usize) -> ReceiveRecord {
        let (first, _) = self.waiting_head(number);
        let row = receive_row(number, usize::from(first) + index);
        ReceiveRecord {
            wr_id: get64(self.bytes, row),
            count: get32(self.bytes, row + RECEIVE_COUNT) as usize,
            pieces: RECEIVE_PIECES.map(|at| Piece::read(self.bytes, row + at)),
        }
    }

    /// Fewer than four receives wait.
    pub fn put_receive(&mut self, number: usize, receive: &ReceiveRecord) {
        let (first, count) = self.waiting_head(number);
        let row = receive_row(number, usize::from(first + count));
        put64(self.bytes, row, receive.wr_id);
        put32(self.bytes, row + RECEIVE_COUNT, receive.count as u32);
        for (piece, at) in receive.pieces.iter().zip(RECEIVE_PIECES) {
            piece.write(self.bytes, row + at);
        }
        self.set_waiting(number, first, count + 1);
    }

    /// A receive waits.
    pub fn drop_receive(&mut self, number: usize) {
        let (first, count) = self.waiting_head(number);
        self.set_waiting(number, (first + 1) % MOST_WAITING as u8, count - 1);
    }

    pub fn drop_receives(&mut self, number: usize) {
        let (first, _) = self.waiting_head(number);
        self.set_waiting(number, first, 0);
    }

    // ---- queued sends

    /// The pair that the next turn visits first.
    pub fn turn(&self) -> usize {
        self.bytes[TURN].into()
    }

    pub fn set_turn(&mut self, number: usize) {
        self.bytes[TURN] = number as u8;
    }

    /// First place and count.
    fn sends_head(&self, number: usize) -> (u8, u8) {
        let row = sends_row(number);
        (self.bytes[row + SENDS_FIRST], self.bytes[row + SENDS_COUNT])
    }

    fn set_sends(&mut self, number: usize, first: u8, count: u8) {
        let row = sends_row(number);
        self.bytes[row + SENDS_FIRST] = first;
        self.bytes[row + SENDS_COUNT] = count;
    }

    pub fn queued(&self, number: usize) -> usize {
        self.sends_head(number).1.into()
    }

    /// Queued send `index`, the oldest first: its kind, and its record.
    pub fn queued_send(&self, number: usize, index: usize) -> (Kind, &[u8; RECORD_ROW]) {
        let place = usize::from(self.sends_head(number).0) + index;
        let row = record_row(number, place);
        (Kind::read(self.bytes, kind_row(number, place)), self.bytes[row..row + RECORD_ROW].try_into().unwrap())
    }

    /// Fewer than eight sends are queued.
    pub fn put_send(&mut self, number: usize, kind: Kind, record: &[u8]) {
        let (first, count) = self.sends_head(number);
        let place = usize::from(first + count);
        kind.write(self.bytes, kind_row(number, place));
        self.bytes[record_row(number, place)..][..record.len()].copy_from_slice(record);
        self.set_sends(number, first, count + 1);
    }

    /// A send is queued.
    pub fn drop_send(&mut self, number: usize) {
        let (first, count) = self.sends_head(number);
        self.set_sends(number, (first + 1) % MOST_QUEUED as u8, count - 1);
    }

    pub fn drop_sends(&mut self, number: usize) {
        let (first, _) = self.sends_head(number);
        self.set_sends(number, first, 0);
    }
}

/// The number as an index, if it is in its table and live.
fn live(number: u32, count: usize, is_live: impl Fn(usize) -> bool) -> Result<usize, Refusal> {
    let number = number as usize;
    if number < count && is_live(number) {
        Ok(number)
    } else {
        Err(Refusal::NotLive)
    }
}
