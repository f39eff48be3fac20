//! What the two queries report, written and read by one layout each. Offsets count from the ack byte.

use crate::answer::Refusal;
use crate::layout::*;

/// The length of each ack, with its ack byte.
pub const DEVICE_ACK_BYTES: usize = 129;
pub const PORT_ACK_BYTES: usize = 33;

const FLAGS: usize = 1;
const MR_SIZE: usize = 9;
const PAGE_SIZES: usize = 17;
const VERSION: usize = 25;
const LIMITS: usize = 29;
const DELAY: usize = 69;

const GID_TABLE: usize = 1;
const MESSAGE_SIZE: usize = 5;

/// The device's attributes by the draft's names.
#[derive(Clone, Copy, Debug, PartialEq, Eq)]
pub struct Device {
    pub device_cap_flags: u64,
    pub max_mr_size: u64,
    pub page_size_cap: u64,
    pub hw_ver: u32,
    /// max_qp_wr, max_send_sge, max_recv_sge, max_sge_rd, max_cqe, max_mr, max_pd, max_qp_rd_atom, max_qp_init_rd_atom, max_ah.
    pub limits: [u32; 10],
    pub local_ca_ack_delay: u8,
}

impl Device {
    /// A card over a memory of this length.
    pub fn of(memory_length: u64) -> Device {
        let limits = [MOST_WAITING, MOST_PIECES, MOST_RECEIVE_PIECES, MOST_PIECES, MOST_PLACES, REGIONS, DOMAINS, 1, 1, 0];
        Device {
            device_cap_flags: 0,
            max_mr_size: memory_length,
            page_size_cap: 4096,
            hw_ver: 1,
            limits: limits.map(|limit| limit as u32),
            local_ca_ack_delay: 0,
        }
    }

    /// The ack has the bytes for it; later ones stay.
    pub fn write(&self, ack: &mut [u8]) {
        ack[..DEVICE_ACK_BYTES].fill(0);
        put64(ack, FLAGS, self.device_cap_flags);
        put64(ack, MR_SIZE, self.max_mr_size);
        put64(ack, PAGE_SIZES, self.page_size_cap);
        put32(ack, VERSION, self.hw_ver);
        for (n, limit) in self.limits.iter().enumerate() {
            put32(ack, LIMITS + 4 * n, *limit);
        }
        ack[DELAY] = self.local_ca_ack_delay;
    }

    pub fn read(ack: &[u8]) -> Result<Device, Refusal> {
        check(ack, DEVICE_ACK_BYTES)?;
        let mut limits = [0; 10];
        for (n, limit) in limits.iter_mut().enumerate() {
            *limit = get32(ack, LIMITS + 4 * n);
        }
        Ok(Device {
            device_cap_flags: get64(ack, FLAGS),
            max_mr_size: get64(ack, MR_SIZE),
            page_size_cap: get64(ack, PAGE_SIZES),
            hw_ver: get32(ack, VERSION),
            limits,
            local_ca_ack_delay: ack[DELAY],
        })
    }
}

/// The port's attributes by the draft's names.
#[derive(Clone, Copy, Debug, PartialEq, Eq)]
pub struct Port {
    pub gid_tbl_len: u32,
    pub max_msg_sz: u32,
}

impl Port {
    pub const CARD: Port = Port { gid_tbl_len: 0, max_msg_sz: MOST_MESSAGE as u32 };

    /// The ack has the bytes for it; later ones stay.
    pub fn write(&self, ack: &mut [u8]) {
        ack[..PORT_ACK_BYTES].fill(0);
        put32(ack, GID_TABLE, self.gid_tbl_len);
        put32(ack, MESSAGE_SIZE, self.max_msg_sz);
    }

    pub fn read(ack: &[u8]) -> Result<Port, Refusal> {
        check(ack, PORT_ACK_BYTES)?;
        Ok(Port { gid_tbl_len: get32(ack, GID_TABLE), max_msg_sz: get32(ack, MESSAGE_SIZE) })
    }
}

/// Whether an ack can be read: long enough, and its ack byte 0.
fn check(ack: &[u8], length: usize) -> Result<(), Refusal> {
    if ack.len() < length {
        return Err(Refusal::RecordLength);
    }
    if ack[0] != 0 {
        return Err(Refusal::BadField);
    }
    Ok(())
}
