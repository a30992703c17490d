//! A writer that fails, and a member that is replaced; the test hands each message from call to call.

use volume::{Authority, Change, Fault, Plan, PlanFault, Recovery, Segment, Snapshot, Writer};

const SIX_COPIES: &str = include_str!("../../../examples/six_copies.json");
const MEMBER_REPLACED: &str = include_str!("../../../examples/member_replaced.json");

type Message = Vec<u8>;

fn plan(text: &str) -> Plan {
    Plan::read(text.as_bytes()).expect("a plan without a fault")
}

fn segments(plan: &mut Plan, count: u8) -> Vec<Segment> {
    (0..count)
        .map(|member| Segment::new(plan, 0, member).expect("a member of the plan"))
        .collect()
}

fn all(messages: volume::Messages<'_>) -> Vec<Message> {
    messages.map(|message| message.expect("memory")).collect()
}

/// Delivers messages to a segment and returns its answers.
fn deliver(segment: &mut Segment, messages: &[Message]) -> Vec<Message> {
    let mut answers = Vec::new();
    for message in messages {
        segment
            .take(message)
            .expect("a message that the segment takes");
        answers.extend(all(segment.messages()));
    }
    answers
}

fn issue(writer: &mut Writer, block: u32, bytes: &[u8]) -> (u64, Vec<Message>) {
    writer
        .issue(&[Change::new(0, block, 0, bytes).unwrap()])
        .expect("a transaction");
    let writes = all(writer.messages());
    (writer.points().unwrap().last, writes)
}

/// Commits a transaction on these members.
fn commit(
    writer: &mut Writer,
    segments: &mut [Segment],
    members: &[usize],
    block: u32,
    bytes: &[u8],
) -> u64 {
    let (lsn, writes) = issue(writer, block, bytes);
    for &member in members {
        for ack in deliver(&mut segments[member], &writes) {
            writer.take(&ack).unwrap();
        }
    }
    lsn
}

/// Recovers with these members, which all report and install.
fn recover(
    plan: &mut Plan,
    authority: &mut Authority,
    segments: &mut [Segment],
    members: &[usize],
) -> Writer {
    authority.assign().unwrap();
    let view = all(authority.messages()).remove(0);
    let mut recovery = Recovery::new(plan, &view).unwrap();
    let fences = all(recovery.messages());
    for &member in members {
        for report in deliver(&mut segments[member], &fences) {
            recovery.take(&report).unwrap();
        }
    }
    recovery.cut().unwrap();
    let installs = all(recovery.messages());
    for &member in members {
        for ack in deliver(&mut segments[member], &installs) {
            recovery.take(&ack).unwrap();
        }
    }
    recovery
        .open()
        .map_err(|(_, fault)| fault)
        .expect("a write quorum has acknowledged")
}

#[test]
fn a_failed_writers_commits_stand() {
    let mut plan = plan(SIX_COPIES);
    let mut segments = segments(&mut plan, 6);
    let mut authority = Authority::new(&mut plan).unwrap();
    let mut first = Writer::first(&mut plan).unwrap();

    let kept = commit(&mut first, &mut segments, &[0, 1, 2, 3], 7, b"kept");
    assert!(first.is_acknowledged(kept).unwrap());
    let lost = commit(&mut first, &mut segments, &[0, 1], 7, b"lost");
    assert!(!first.is_acknowledged(lost).unwrap());

    // The writer fails. Members 0 and 1, which alone have the second transaction, are away.
    let mut second = recover(&mut plan, &mut authority, &mut segments, &[2, 3, 4, 5]);
    assert!(second.is_acknowledged(kept).unwrap());
    assert!(second.points().unwrap().start > lost);

    // The old writer can't write any more.
    let (_, writes) = issue(&mut first, 8, b"late");
    assert_eq!(
        segments[4].take(&writes[0]).unwrap_err().name(),
        "StaleVolume"
    );

    let next = commit(&mut second, &mut segments, &[2, 3, 4, 5], 8, b"next");
    assert!(second.is_acknowledged(next).unwrap());
    let page = segments[5].page(7, next).unwrap();
    assert_eq!(&page[..5], b"kept\0");
}

#[test]
fn a_member_is_replaced_while_the_writer_writes() {
    let mut plan = plan(MEMBER_REPLACED);
    let mut segments = segments(&mut plan, 7);
    let mut authority = Authority::new(&mut plan).unwrap();
    let mut writer = Writer::first(&mut plan).unwrap();
    let before = commit(&mut writer, &mut segments, &[0, 1, 2, 3], 1, b"one");

    let ready = authority.may_advance(0, 1, &[0, 1, 2, 3, 4, 5]).unwrap();
    assert!(ready.can_read && ready.can_write);
    authority.advance(0, 1).unwrap();
    let steps = all(authority.messages());
    for segment in &mut segments[..6] {
        assert_eq!(deliver(segment, &steps), Vec::<Message>::new());
    }
    let asks = deliver(&mut segments[6], &steps);
    for member in 0..4 {
        let copies = deliver(&mut segments[member], &asks);
        deliver(&mut segments[6], &copies);
    }
    segments[6].hydrate().unwrap();
    assert_eq!(segments[6].scl().unwrap(), before);

    authority.refresh(1).unwrap();
    for view in all(authority.messages()) {
        writer.take(&view).unwrap();
    }
    let after = commit(&mut writer, &mut segments, &[0, 1, 2, 3], 1, b"two");
    assert!(writer.is_acknowledged(after).unwrap());
}

/// What is left of a snapshot, in pieces of a record at most.
fn in_pieces(snapshot: &mut Snapshot) -> Vec<u8> {
    let mut bytes = Vec::new();
    let mut piece = [0; 109];
    loop {
        match snapshot.read(&mut piece).unwrap() {
            0 => return bytes,
            written => bytes.extend_from_slice(&piece[..written]),
        }
    }
}

fn all_of(segment: &mut Segment) -> Vec<u8> {
    segment.snapshot().unwrap().into_bytes().unwrap()
}

#[test]
fn a_segment_resumes_from_its_snapshot_and_its_log() {
    let mut plan = plan(SIX_COPIES);
    let mut segments = segments(&mut plan, 6);
    let mut writer = Writer::first(&mut plan).unwrap();
    commit(&mut writer, &mut segments, &[0, 1, 2, 3], 1, b"one");
    let mut snapshot = segments[0].snapshot().unwrap();
    let (_, logged) = issue(&mut writer, 1, b"two");
    deliver(&mut segments[0], &logged);
    let saved = in_pieces(&mut snapshot);

    let mut resumed = Segment::resume(&mut plan, 0, 0, &saved).unwrap();
    deliver(&mut resumed, &logged);
    assert_eq!(all_of(&mut resumed), all_of(&mut segments[0]));

    let spoilt = Segment::resume(&mut plan, 0, 0, &saved[..saved.len() - 1]);
    assert_eq!(spoilt.err().map(Fault::number), Some(1));
}

#[test]
fn refusals_say_what_is_wrong() {
    let line = match Plan::read(b"{\"format\":1}") {
        Err(PlanFault { fault, line }) => (fault.number(), line),
        Ok(_) => panic!("no plan"),
    };
    assert_eq!(line, (13, "input: 13 Malformed".to_string()));
    let mut plan = plan(SIX_COPIES);
    assert_eq!(
        Segment::new(&mut plan, 0, 6)
            .err()
            .map(|fault| fault.to_string()),
        Some("82 NoActor".to_string())
    );
    let mut writer = Writer::first(&mut plan).unwrap();
    assert_eq!(writer.take(b"").unwrap_err().number(), 1);
    assert_eq!(Change::new(0, 0, 0, b"").err().map(Fault::number), Some(72));
}

/// A frame of Writes is answered by one Ack: the last of those that its messages would get one by one.
#[test]
fn a_frame_is_taken_like_its_messages() {
    let mut plan = plan(SIX_COPIES);
    let mut writer = Writer::first(&mut plan).unwrap();
    let mut segments = segments(&mut plan, 2);
    let change = |block| Change::new(0, block, 0, b"in a frame").unwrap();
    writer.issue(&[change(0), change(1), change(2)]).unwrap();
    let writes = all(writer.messages());
    let singly = deliver(&mut segments[0], &writes);
    let frame = volume::frame(&writes);
    assert_eq!(segments[1].take_frame(&frame), (frame.len(), Ok(())));
    let framed = all(segments[1].messages());
    assert_eq!((singly.len(), framed.len()), (3, 1));
    assert_eq!(framed[0][12..], singly[2][12..]);
    let state = segments[1].state().unwrap();
    assert_eq!(state, segments[0].state().unwrap());
    assert_eq!((state.complete_point, state.records, state.is_whole), (3, 3, true));
    let (taken, refused) = segments[1].take_frame(&frame[..frame.len() - 1]);
    assert_eq!((taken, refused.unwrap_err().name()), (4 + writes[0].len() + 4 + writes[1].len(), "Short".to_string()));
}
