//! A quorum log volume: segments of protection groups, the writer, a recovery and the authority, as state machines
//! without threads, sockets or a disk. The engine carries the messages, which are bytes, and keeps the state on its own
//! disk.
//!
//! This crate is a thin, safe layer over `include/volume.h`. `scripts/build_library` makes the library behind the
//! header only over its proof; this layer isn't proved.
//! `docs/EMBEDDING.md` says which calls an engine makes in which order, and what it owes: the plan is the same
//! everywhere, messages aren't forged, a message is logged before its answers leave, and there is one authority.
//!
//! ```no_run
//! # fn main() -> Result<(), Box<dyn std::error::Error>> {
//! let mut plan = volume::Plan::read(&std::fs::read("plan.json")?)?;
//! let mut writer = volume::Writer::first(&mut plan)?;
//! let mut segment = volume::Segment::new(&mut plan, 0, 3)?;
//! writer.issue(&[volume::Change::new(0, 7, 0, b"page bytes")?])?;
//! let commit = writer.points()?.last;
//! for write in writer.messages() {
//!     segment.take(&write?)?; // on each node of the group, in its own process
//! }
//! for ack in segment.messages() {
//!     writer.take(&ack?)?; // after the message that was taken is in the node's log
//! }
//! assert!(!writer.is_acknowledged(commit)?); // one segment is no write quorum
//! # Ok(())
//! # }
//! ```

use std::fmt;

mod raw;

/// Why a call was refused. A refused call changes nothing.
#[derive(Clone, Copy, PartialEq, Eq, Hash)]
pub struct Fault(u8);

impl Fault {
    /// Memory ran out. The same call may be made again.
    pub const NO_MEMORY: Fault = Fault(9);

    /// Returns the number, as `docs/FAULTS.md` lists it.
    pub fn number(self) -> u8 {
        self.0
    }

    /// Returns the name, as `docs/FAULTS.md` has it.
    pub fn name(self) -> String {
        let named = filled(|out, length, needed| unsafe {
            raw::volume_fault_name(self.0, out, length, needed)
        });
        String::from_utf8(named.unwrap_or_default()).unwrap_or_default()
    }
}

impl fmt::Display for Fault {
    fn fmt(&self, f: &mut fmt::Formatter<'_>) -> fmt::Result {
        write!(f, "{} {}", self.0, self.name())
    }
}

impl fmt::Debug for Fault {
    fn fmt(&self, f: &mut fmt::Formatter<'_>) -> fmt::Result {
        write!(f, "Fault({self})")
    }
}

impl std::error::Error for Fault {}

/// The fault of a plan, and a line that names it and its place.
#[derive(Clone, Debug, PartialEq, Eq)]
pub struct PlanFault {
    /// The fault.
    pub fault: Fault,
    /// The line that `plan_tool check` prints for it.
    pub line: String,
}

impl fmt::Display for PlanFault {
    fn fmt(&self, f: &mut fmt::Formatter<'_>) -> fmt::Result {
        f.write_str(&self.line)
    }
}

impl std::error::Error for PlanFault {}

fn checked(status: u8) -> Result<(), Fault> {
    match status {
        raw::OK => Ok(()),
        number => Err(Fault(number)),
    }
}

/// Calls with an empty buffer, and again with one of the length that the call needs.
fn filled(mut call: impl FnMut(*mut u8, usize, *mut usize) -> u8) -> Result<Vec<u8>, Fault> {
    let mut bytes = Vec::new();
    loop {
        let mut needed = 0;
        match call(bytes.as_mut_ptr(), bytes.len(), &mut needed) {
            raw::TOO_SMALL => bytes.resize(needed, 0),
            status => {
                checked(status)?;
                bytes.truncate(needed);
                return Ok(bytes);
            }
        }
    }
}

/// A handle of the library, which is closed when it is dropped.
struct Handle(raw::Handle);

// The library's actors may move between threads, and `&mut` lets only one thread use a handle at a time.
unsafe impl Send for Handle {}

impl Handle {
    /// Makes a handle: the call fills an empty one.
    fn made(call: impl FnOnce(*mut raw::Handle) -> u8) -> Result<Handle, Fault> {
        let mut handle = Handle(raw::Handle::EMPTY);
        checked(call(&mut handle.0))?;
        Ok(handle)
    }

    fn messages(&mut self) -> Messages<'_> {
        Messages(self)
    }
}

impl Drop for Handle {
    fn drop(&mut self) {
        unsafe { raw::volume_close(&mut self.0) }
    }
}

/// The messages that an actor made, oldest first. Each is handed out once. Those that aren't taken stay with the actor,
/// which refuses calls that make messages until all are taken.
pub struct Messages<'a>(&'a mut Handle);

impl Iterator for Messages<'_> {
    /// The bytes of a message, in the layout of `docs/WIRE.md`.
    type Item = Result<Vec<u8>, Fault>;

    fn next(&mut self) -> Option<Self::Item> {
        let handle = &mut self.0 .0;
        match filled(|out, length, needed| unsafe {
            raw::volume_next_message(handle, out, length, needed)
        }) {
            Err(Fault(raw::NO_MORE)) => None,
            other => Some(other),
        }
    }
}

/// A plan without a fault.
pub struct Plan(Handle);

impl Plan {
    /// Reads a plan and checks it.
    ///
    /// # Errors
    /// The plan's first fault with its line, or memory ran out.
    pub fn read(text: &[u8]) -> Result<Plan, PlanFault> {
        let mut line = [0u8; 256];
        let mut needed = 0;
        let made = Handle::made(|out| unsafe {
            raw::volume_plan_read(
                text.as_ptr(),
                text.len(),
                out,
                line.as_mut_ptr(),
                line.len(),
                &mut needed,
            )
        });
        made.map(Plan).map_err(|fault| PlanFault {
            fault,
            line: String::from_utf8_lossy(&line[..needed.min(line.len())]).into_owned(),
        })
    }
}

/// Returns a frame: messages for one node in one buffer, each after its length in 4 bytes. A message must be shorter
/// than 4 GiB.
pub fn frame<M: AsRef<[u8]>>(messages: impl IntoIterator<Item = M>) -> Vec<u8> {
    let mut frame = Vec::new();
    for message in messages {
        let message = message.as_ref();
        let length = u32::try_from(message.len()).expect("a message below 4 GiB");
        frame.extend_from_slice(&length.to_be_bytes());
        frame.extend_from_slice(message);
    }
    frame
}

/// The state of a segment.
#[derive(Clone, Copy, Debug, PartialEq, Eq)]
pub struct SegmentState {
    /// The segment complete point: the greatest LSN up to which it holds all records of its group.
    pub complete_point: u64,
    /// How many records it holds.
    pub records: u64,
    /// The volume epoch that it has promised.
    pub volume_epoch: u32,
    /// The membership epoch of the last step that it took; 0 before the first step of a member that isn't whole.
    pub membership_epoch: u32,
    /// The configuration of that step.
    pub configuration: u32,
    /// Whether it is whole.
    pub is_whole: bool,
}

/// The segment of a member of a protection group, on one node.
pub struct Segment(Handle);

impl Segment {
    /// Makes the segment of a member as it is when the volume is born. Call it once in the life of a node.
    ///
    /// # Errors
    /// 82 where the plan names no such member.
    pub fn new(plan: &mut Plan, group: u8, member: u8) -> Result<Segment, Fault> {
        let plan = &mut plan.0 .0;
        Handle::made(|out| unsafe { raw::volume_segment_new(plan, group, member, out) })
            .map(Segment)
    }

    /// Makes a segment from a snapshot after a restart. Then pass it each message that was logged after the snapshot,
    /// in order, and drop the answers.
    ///
    /// # Errors
    /// 1, 2 or 3 where the bytes aren't a snapshot's; 82 where the plan names no such member.
    pub fn resume(
        plan: &mut Plan,
        group: u8,
        member: u8,
        snapshot: &[u8],
    ) -> Result<Segment, Fault> {
        let plan = &mut plan.0 .0;
        Handle::made(|out| unsafe {
            raw::volume_segment_resume(plan, group, member, snapshot.as_ptr(), snapshot.len(), out)
        })
        .map(Segment)
    }

    /// Takes a message. Log it before you send the answers. Don't log a message that is refused.
    ///
    /// # Errors
    /// 1, 2 or 3 where the bytes aren't a message's; the segment's refusal; 91 while there are messages to hand out.
    pub fn take(&mut self, message: &[u8]) -> Result<(), Fault> {
        checked(unsafe {
            raw::volume_segment_take(&mut self.0 .0, message.as_ptr(), message.len())
        })
    }

    /// Takes the messages of a frame in order, up to the first that is refused. Returns how many bytes were taken, and
    /// the refusal. Log these bytes before you send the answers. The refused message begins after them; to skip it,
    /// hand out the answers, and then pass the bytes after it. Of consecutive Acks with the same label only the last is
    /// handed out.
    ///
    /// # Errors
    /// Those of [`Segment::take`]; 1 also where the frame ends within a message.
    pub fn take_frame(&mut self, frame: &[u8]) -> (usize, Result<(), Fault>) {
        let mut taken = 0;
        let status = unsafe {
            raw::volume_segment_take_frame(&mut self.0 .0, frame.as_ptr(), frame.len(), &mut taken)
        };
        (taken, checked(status))
    }

    /// Becomes whole from the copies that it took. Save a snapshot before it takes another message.
    ///
    /// # Errors
    /// 56 where it is whole; 57 where the copies aren't those of a read quorum; 55 where they hold too many records.
    pub fn hydrate(&mut self) -> Result<(), Fault> {
        checked(unsafe { raw::volume_segment_hydrate(&mut self.0 .0) })
    }

    /// Makes a Gossip of the record with this LSN for the other nodes of the group.
    ///
    /// # Errors
    /// 54 before the segment is whole; 53 where it has promised a later volume epoch; 58 where it holds no such record.
    pub fn offer(&mut self, lsn: u64) -> Result<(), Fault> {
        checked(unsafe { raw::volume_segment_offer(&mut self.0 .0, lsn) })
    }

    /// Returns a block's 512 bytes after all records up to `point`.
    ///
    /// # Errors
    /// 54 before the segment is whole; 60 if the member keeps no pages; 61 if it isn't complete up to `point`.
    pub fn page(&mut self, block: u32, point: u64) -> Result<[u8; 512], Fault> {
        let mut page = [0; 512];
        checked(unsafe {
            raw::volume_segment_page(&mut self.0 .0, block, point, page.as_mut_ptr(), page.len())
        })?;
        Ok(page)
    }

    /// Returns the segment complete point: the greatest LSN up to which it holds all records of its group.
    ///
    /// # Errors
    /// None of a segment's own.
    pub fn scl(&mut self) -> Result<u64, Fault> {
        let mut scl = 0;
        checked(unsafe { raw::volume_segment_scl(&mut self.0 .0, &mut scl) })?;
        Ok(scl)
    }

    /// Returns the segment's state.
    ///
    /// # Errors
    /// None of a segment's own.
    pub fn state(&mut self) -> Result<SegmentState, Fault> {
        let mut state = raw::SegmentState::default();
        checked(unsafe { raw::volume_segment_state(&mut self.0 .0, &mut state) })?;
        Ok(SegmentState {
            complete_point: state.complete_point,
            records: state.records,
            volume_epoch: state.volume_epoch,
            membership_epoch: state.membership_epoch,
            configuration: state.configuration,
            is_whole: state.is_whole == 1,
        })
    }

    /// Takes a snapshot: the state that survives a restart. It takes some 8 bytes of memory for each record.
    ///
    /// # Errors
    /// 91 while there are messages to hand out; memory ran out.
    pub fn snapshot(&mut self) -> Result<Snapshot, Fault> {
        let handle = &mut self.0 .0;
        Handle::made(|out| unsafe { raw::volume_segment_snapshot(handle, out) }).map(Snapshot)
    }

    /// Hands out the messages that the segment made.
    pub fn messages(&mut self) -> Messages<'_> {
        self.0.messages()
    }
}

/// A snapshot of a segment, to be read piece by piece. It stays as it is whatever the segment does meanwhile, and may be
/// read in another thread.
pub struct Snapshot(Handle);

impl Snapshot {
    /// Writes the next bytes to the front of a buffer, of the records as many as fit whole. Returns their number; 0 where
    /// all were written before.
    ///
    /// # Errors
    /// 92 where the buffer is too short for the next record: 109 bytes suffice.
    pub fn read(&mut self, out: &mut [u8]) -> Result<usize, Fault> {
        let mut written = 0;
        let status = unsafe {
            raw::volume_snapshot_read(&mut self.0 .0, out.as_mut_ptr(), out.len(), &mut written)
        };
        match status {
            raw::NO_MORE => Ok(0),
            status => checked(status).map(|()| written),
        }
    }

    /// Returns all bytes that are left.
    ///
    /// # Errors
    /// None of a snapshot's own.
    pub fn into_bytes(mut self) -> Result<Vec<u8>, Fault> {
        let mut bytes = Vec::new();
        let mut piece = [0; 4096];
        loop {
            match self.read(&mut piece)? {
                0 => return Ok(bytes),
                written => bytes.extend_from_slice(&piece[..written]),
            }
        }
    }
}

/// A recovery: it reads a read quorum of each group, cuts the log that it finds, installs it, and opens as a writer.
pub struct Recovery(Handle);

impl Recovery {
    /// Makes a recovery from a View of the authority. Its Fences are handed out by [`Recovery::messages`].
    ///
    /// # Errors
    /// 1, 2 or 3 where the bytes aren't a message's; 81 where they aren't a View's; 41 where its places aren't the
    /// plan's.
    pub fn new(plan: &mut Plan, view: &[u8]) -> Result<Recovery, Fault> {
        let plan = &mut plan.0 .0;
        Handle::made(|out| unsafe {
            raw::volume_recovery_new(plan, view.as_ptr(), view.len(), out)
        })
        .map(Recovery)
    }

    /// Takes a message that is for it: a View, Report or Ack.
    ///
    /// # Errors
    /// 1, 2 or 3 where the bytes aren't a message's; 81 where it isn't for this client; 41 where a View's places aren't
    /// the plan's; 91 while there are messages to hand out.
    pub fn take(&mut self, message: &[u8]) -> Result<(), Fault> {
        checked(unsafe { raw::volume_client_take(&mut self.0 .0, message.as_ptr(), message.len()) })
    }

    /// Finds the log in the reports and cuts it, and makes its Installs.
    ///
    /// # Errors
    /// 74 until the senders of the reports are a read quorum of each group; 75 after the cut; 73 where no LSNs are
    /// left.
    pub fn cut(&mut self) -> Result<(), Fault> {
        checked(unsafe { raw::volume_recovery_cut(&mut self.0 .0) })
    }

    /// Opens: returns the writer that the recovery becomes.
    ///
    /// # Errors
    /// The recovery comes back with 74 before the cut, and until a write quorum of each group has acknowledged its
    /// install.
    pub fn open(mut self) -> Result<Writer, (Recovery, Fault)> {
        match checked(unsafe { raw::volume_recovery_open(&mut self.0 .0) }) {
            Ok(()) => Ok(Writer(self.0)),
            Err(fault) => Err((self, fault)),
        }
    }

    /// Hands out the messages that the recovery made.
    pub fn messages(&mut self) -> Messages<'_> {
        self.0.messages()
    }
}

/// A change of a block: 1 to 64 bytes from an offset on.
#[derive(Clone, Copy)]
#[repr(transparent)]
pub struct Change(raw::Change);

impl Change {
    /// Makes the change of `bytes` in a block of a group from `offset` on.
    ///
    /// # Errors
    /// 72 if `bytes` hasn't 1 to 64 bytes. [`Writer::issue`] checks the rest.
    pub fn new(group: u8, block: u32, offset: u16, bytes: &[u8]) -> Result<Change, Fault> {
        if bytes.is_empty() || bytes.len() > 64 {
            return Err(Fault(72));
        }
        let mut place = [0; 64];
        place[..bytes.len()].copy_from_slice(bytes);
        Ok(Change(raw::Change {
            block,
            offset,
            group,
            length: bytes.len() as u8,
            bytes: place,
        }))
    }
}

/// The points of a writer's log.
#[derive(Clone, Copy, Debug, PartialEq, Eq)]
pub struct Points {
    /// The greatest LSN up to which each record is acknowledged by a write quorum of its group.
    pub complete: u64,
    /// The greatest consistency point up to `complete`. A commit at or below it is durable.
    pub durable: u64,
    /// The LSN after which the writer's own records begin.
    pub start: u64,
    /// The greatest LSN of the log: after an issue that of the commit.
    pub last: u64,
}

/// What the whole members of a group can do after an advance.
#[derive(Clone, Copy, Debug, PartialEq, Eq)]
pub struct Readiness {
    /// Whether they satisfy the configuration's read expression.
    pub can_read: bool,
    /// Whether they satisfy its write expression. If not, commits wait until more members have hydrated.
    pub can_write: bool,
}

/// The writer of a volume epoch.
pub struct Writer(Handle);

impl Writer {
    /// Makes a new volume's first writer. Call it once in the life of the volume.
    ///
    /// # Errors
    /// Memory ran out.
    pub fn first(plan: &mut Plan) -> Result<Writer, Fault> {
        let plan = &mut plan.0 .0;
        Handle::made(|out| unsafe { raw::volume_writer_first(plan, out) }).map(Writer)
    }

    /// Issues a transaction of 1 to 32 changes: a record for each, all or none. Send each Write that it makes to all
    /// members of its group.
    ///
    /// # Errors
    /// 72 where it isn't a transaction of good changes; 77 where a group hasn't joined; 73 where no LSNs are left; 71
    /// where the log would run further ahead of the durable point than the plan allows; 91 while there are messages to
    /// hand out.
    pub fn issue(&mut self, changes: &[Change]) -> Result<(), Fault> {
        let given = changes.as_ptr().cast::<raw::Change>();
        checked(unsafe { raw::volume_writer_issue(&mut self.0 .0, given, changes.len()) })
    }

    /// Takes a message that is for it: a View, Ack or Page.
    ///
    /// # Errors
    /// Those of [`Recovery::take`].
    pub fn take(&mut self, message: &[u8]) -> Result<(), Fault> {
        checked(unsafe { raw::volume_client_take(&mut self.0 .0, message.as_ptr(), message.len()) })
    }

    /// Makes a record's Write again, for members that may not have got it.
    ///
    /// # Errors
    /// 76 where the log has no record with this LSN.
    pub fn resend(&mut self, lsn: u64) -> Result<(), Fault> {
        checked(unsafe { raw::volume_writer_resend(&mut self.0 .0, lsn) })
    }

    /// Makes a PageAsk for a block as of the durable point. Send it to a full member of the group.
    ///
    /// # Errors
    /// 42 where the writer knows no such group.
    pub fn read(&mut self, group: u8, block: u32) -> Result<(), Fault> {
        checked(unsafe { raw::volume_writer_read(&mut self.0 .0, group, block) })
    }

    /// Returns the points of the log.
    ///
    /// # Errors
    /// None of an open writer's own.
    pub fn points(&mut self) -> Result<Points, Fault> {
        let mut points = raw::Points::default();
        checked(unsafe { raw::volume_writer_points(&mut self.0 .0, &mut points) })?;
        let raw::Points {
            complete,
            durable,
            start,
            last,
        } = points;
        Ok(Points {
            complete,
            durable,
            start,
            last,
        })
    }

    /// Returns the LSN up to which a group's records are acknowledged by a write quorum.
    ///
    /// # Errors
    /// 42 where the writer knows no such group.
    pub fn group_point(&mut self, group: u8) -> Result<u64, Fault> {
        let mut point = 0;
        checked(unsafe { raw::volume_writer_group_point(&mut self.0 .0, group, &mut point) })?;
        Ok(point)
    }

    /// Returns whether the commit at an LSN is durable, so that no recovery loses it.
    ///
    /// # Errors
    /// None of an open writer's own.
    pub fn is_acknowledged(&mut self, lsn: u64) -> Result<bool, Fault> {
        let mut acknowledged = false;
        checked(unsafe {
            raw::volume_writer_acknowledged(&mut self.0 .0, lsn, &mut acknowledged)
        })?;
        Ok(acknowledged)
    }

    /// Hands out the messages that the writer made.
    pub fn messages(&mut self) -> Messages<'_> {
        self.0.messages()
    }
}

/// The authority of a volume: it assigns volume epochs and advances groups along the plan's configurations.
pub struct Authority(Handle);

impl Authority {
    /// Makes the authority of a new volume. A volume has one; call it once in the life of the volume.
    ///
    /// # Errors
    /// Memory ran out.
    pub fn new(plan: &mut Plan) -> Result<Authority, Fault> {
        let plan = &mut plan.0 .0;
        Handle::made(|out| unsafe { raw::volume_authority_new(plan, out) }).map(Authority)
    }

    /// Makes an authority from a snapshot.
    ///
    /// # Errors
    /// 1, 2 or 3 where the bytes aren't a snapshot's; 42 where they are of another plan's groups.
    pub fn resume(plan: &mut Plan, snapshot: &[u8]) -> Result<Authority, Fault> {
        let plan = &mut plan.0 .0;
        Handle::made(|out| unsafe {
            raw::volume_authority_resume(plan, snapshot.as_ptr(), snapshot.len(), out)
        })
        .map(Authority)
    }

    /// Assigns the next volume epoch, and makes the View for its recovery. Save a snapshot before you send the View.
    ///
    /// # Errors
    /// 43 where no volume epoch is left.
    pub fn assign(&mut self) -> Result<(), Fault> {
        checked(unsafe { raw::volume_authority_assign(&mut self.0 .0) })
    }

    /// Advances a group to a child of its configuration, and makes the StepTo for the nodes of the group. Save a
    /// snapshot before you send it.
    ///
    /// # Errors
    /// 42 where no such group has joined; 41 where the group's configuration has no such child.
    pub fn advance(&mut self, group: u8, configuration: u32) -> Result<(), Fault> {
        checked(unsafe { raw::volume_authority_advance(&mut self.0 .0, group, configuration) })
    }

    /// Returns what the whole members of a group, whose numbers are in `whole`, can do after an advance to a
    /// configuration. Advance only if they can read: a recovery needs the reports of a read quorum, and only whole
    /// members report.
    ///
    /// # Errors
    /// Those of [`Authority::advance`].
    pub fn may_advance(
        &mut self,
        group: u8,
        configuration: u32,
        whole: &[u8],
    ) -> Result<Readiness, Fault> {
        let mut found = raw::Readiness::default();
        checked(unsafe {
            raw::volume_authority_may_advance(
                &mut self.0 .0,
                group,
                configuration,
                whole.as_ptr(),
                whole.len(),
                &mut found,
            )
        })?;
        Ok(Readiness {
            can_read: found.can_read,
            can_write: found.can_write,
        })
    }

    /// Makes a View of the groups' places for the client of the last volume epoch.
    ///
    /// # Errors
    /// 40 for any other volume epoch.
    pub fn refresh(&mut self, volume: u32) -> Result<(), Fault> {
        checked(unsafe { raw::volume_authority_refresh(&mut self.0 .0, volume) })
    }

    /// Lets the plan's next group join. Save a snapshot before you send the next View.
    ///
    /// # Errors
    /// 44 where every group of the plan has joined.
    pub fn grow(&mut self) -> Result<(), Fault> {
        checked(unsafe { raw::volume_authority_grow(&mut self.0 .0) })
    }

    /// Returns a snapshot for [`Authority::resume`].
    ///
    /// # Errors
    /// Memory ran out.
    pub fn snapshot(&mut self) -> Result<Vec<u8>, Fault> {
        let handle = &mut self.0 .0;
        filled(|out, length, needed| unsafe {
            raw::volume_authority_snapshot(handle, out, length, needed)
        })
    }

    /// Hands out the messages that the authority made.
    pub fn messages(&mut self) -> Messages<'_> {
        self.0.messages()
    }
}
