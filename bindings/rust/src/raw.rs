//! The functions of `include/volume.h`.

use std::ffi::c_void;

pub const OK: u8 = 0;
pub const TOO_SMALL: u8 = 92;
pub const NO_MORE: u8 = 93;

#[repr(C)]
pub struct Handle {
    at: *mut c_void,
    live: bool,
}

impl Handle {
    pub const EMPTY: Handle = Handle {
        at: std::ptr::null_mut(),
        live: false,
    };
}

// The library reads the fields.
#[allow(dead_code)]
#[repr(C)]
#[derive(Clone, Copy)]
pub struct Change {
    pub block: u32,
    pub offset: u16,
    pub group: u8,
    pub length: u8,
    pub bytes: [u8; 64],
}

#[repr(C)]
#[derive(Default)]
pub struct Readiness {
    pub can_read: bool,
    pub can_write: bool,
}

#[repr(C)]
#[derive(Default)]
pub struct Points {
    pub complete: u64,
    pub durable: u64,
    pub start: u64,
    pub last: u64,
}

#[repr(C)]
#[derive(Default)]
pub struct SegmentState {
    pub complete_point: u64,
    pub records: u64,
    pub volume_epoch: u32,
    pub membership_epoch: u32,
    pub configuration: u32,
    pub is_whole: u32,
}

extern "C" {
    pub fn volume_next_message(
        handle: *mut Handle,
        out: *mut u8,
        length: usize,
        needed: *mut usize,
    ) -> u8;
    pub fn volume_fault_name(number: u8, out: *mut u8, length: usize, needed: *mut usize) -> u8;
    pub fn volume_close(handle: *mut Handle);
    pub fn volume_plan_read(
        text: *const u8,
        text_length: usize,
        out: *mut Handle,
        line: *mut u8,
        line_length: usize,
        needed: *mut usize,
    ) -> u8;
    pub fn volume_segment_new(plan: *mut Handle, group: u8, member: u8, out: *mut Handle) -> u8;
    pub fn volume_segment_resume(
        plan: *mut Handle,
        group: u8,
        member: u8,
        bytes: *const u8,
        length: usize,
        out: *mut Handle,
    ) -> u8;
    pub fn volume_segment_take(segment: *mut Handle, bytes: *const u8, length: usize) -> u8;
    pub fn volume_segment_take_frame(
        segment: *mut Handle,
        frame: *const u8,
        length: usize,
        taken: *mut usize,
    ) -> u8;
    pub fn volume_segment_hydrate(segment: *mut Handle) -> u8;
    pub fn volume_segment_offer(segment: *mut Handle, lsn: u64) -> u8;
    pub fn volume_segment_page(
        segment: *mut Handle,
        block: u32,
        point: u64,
        page: *mut u8,
        length: usize,
    ) -> u8;
    pub fn volume_segment_scl(segment: *mut Handle, scl: *mut u64) -> u8;
    pub fn volume_segment_state(segment: *mut Handle, state: *mut SegmentState) -> u8;
    pub fn volume_segment_snapshot(segment: *mut Handle, out: *mut Handle) -> u8;
    pub fn volume_snapshot_read(
        snapshot: *mut Handle,
        out: *mut u8,
        length: usize,
        written: *mut usize,
    ) -> u8;
    pub fn volume_writer_first(plan: *mut Handle, out: *mut Handle) -> u8;
    pub fn volume_recovery_new(
        plan: *mut Handle,
        view: *const u8,
        length: usize,
        out: *mut Handle,
    ) -> u8;
    pub fn volume_client_take(client: *mut Handle, bytes: *const u8, length: usize) -> u8;
    pub fn volume_recovery_cut(recovery: *mut Handle) -> u8;
    pub fn volume_recovery_open(recovery: *mut Handle) -> u8;
    pub fn volume_writer_issue(writer: *mut Handle, given: *const Change, count: usize) -> u8;
    pub fn volume_writer_resend(writer: *mut Handle, lsn: u64) -> u8;
    pub fn volume_writer_read(writer: *mut Handle, group: u8, block: u32) -> u8;
    pub fn volume_writer_points(writer: *mut Handle, points: *mut Points) -> u8;
    pub fn volume_writer_group_point(writer: *mut Handle, group: u8, point: *mut u64) -> u8;
    pub fn volume_writer_acknowledged(writer: *mut Handle, lsn: u64, acknowledged: *mut bool)
        -> u8;
    pub fn volume_authority_new(plan: *mut Handle, out: *mut Handle) -> u8;
    pub fn volume_authority_resume(
        plan: *mut Handle,
        bytes: *const u8,
        length: usize,
        out: *mut Handle,
    ) -> u8;
    pub fn volume_authority_assign(authority: *mut Handle) -> u8;
    pub fn volume_authority_advance(authority: *mut Handle, group: u8, configuration: u32) -> u8;
    pub fn volume_authority_may_advance(
        authority: *mut Handle,
        group: u8,
        configuration: u32,
        whole: *const u8,
        length: usize,
        readiness: *mut Readiness,
    ) -> u8;
    pub fn volume_authority_refresh(authority: *mut Handle, volume: u32) -> u8;
    pub fn volume_authority_grow(authority: *mut Handle) -> u8;
    pub fn volume_authority_snapshot(
        authority: *mut Handle,
        out: *mut u8,
        length: usize,
        needed: *mut usize,
    ) -> u8;
}
