//! An engine over the Rust binding: seven nodes with a disk each, a writer that fails, a recovery, and a member that is
//! replaced. Its transport, in memory, loses, repeats and reorders messages.
//!
//!     engine PLAN
//!
//! PLAN is `examples/member_replaced.json`. The last line is "engine: good".

use volume::{Authority, Change, Fault, Messages, Plan, Recovery, Segment, Writer};

type Message = Vec<u8>;

const ACK: u8 = 8;
const ANSWERS: [u8; 3] = [4, ACK, 12]; // Report, Ack and Page are for the client, all others for the nodes
const COPY_ASK: [u8; 7] = [1, 9, 0, 0, 0, 0, 2]; // the fresh member's, at membership epoch 2
const FRESH: usize = 6; // the member that comes in the place of member 5

fn all(messages: Messages<'_>) -> Result<Vec<Message>, Fault> {
    messages.collect()
}

/// A recovery or a writer: takes a message, and returns the messages that it makes.
trait Client {
    fn react(&mut self, message: &[u8]) -> Result<Vec<Message>, Fault>;
}

impl Client for Recovery {
    fn react(&mut self, message: &[u8]) -> Result<Vec<Message>, Fault> {
        self.take(message)?;
        all(self.messages())
    }
}

impl Client for Writer {
    fn react(&mut self, message: &[u8]) -> Result<Vec<Message>, Fault> {
        self.take(message)?;
        all(self.messages())
    }
}

/// A node: its segment, and its disk with a snapshot and the messages that it took after it.
struct Node {
    segment: Segment,
    snapshot: Message,
    log: Vec<Message>,
    acknowledged: u32, // the volume epoch of its last acknowledgement
}

impl Node {
    fn new(mut segment: Segment) -> Result<Node, Fault> {
        let snapshot = segment.snapshot()?.into_bytes()?;
        Ok(Node { segment, snapshot, log: Vec::new(), acknowledged: 0 })
    }

    /// Takes a message, logs it and returns the answers.
    fn react(&mut self, message: &[u8]) -> Result<Vec<Message>, Fault> {
        self.segment.take(message)?;
        self.log.push(message.to_vec());
        all(self.segment.messages())
    }

    /// Restarts from the disk.
    fn restart(&mut self, plan: &mut Plan, member: u8) -> Result<(), Fault> {
        self.segment = Segment::resume(plan, 0, member, &self.snapshot)?;
        let log = std::mem::take(&mut self.log);
        log.iter().try_for_each(|message| self.react(message).map(drop))
    }
}

struct Engine {
    plan: Plan,
    authority: Authority,
    nodes: Vec<Node>,
    wire: Vec<(Option<usize>, Message)>, // to a node, or to the client
    kept: Vec<Message>,                  // what is sent again
    random: u64,
    lost: usize,
}

impl Engine {
    fn new(mut plan: Plan) -> Result<Engine, Fault> {
        let nodes = (0..7).map(|member| Node::new(Segment::new(&mut plan, 0, member)?));
        let nodes = nodes.collect::<Result<_, _>>()?;
        let authority = Authority::new(&mut plan)?;
        let (wire, kept) = (Vec::new(), Vec::new());
        Ok(Engine { plan, authority, nodes, wire, kept, random: 88_172_645_463_325_252, lost: 0 })
    }

    fn random(&mut self, bound: usize) -> usize {
        self.random ^= self.random << 13;
        self.random ^= self.random >> 7;
        self.random ^= self.random << 17;
        (self.random % bound as u64) as usize
    }

    /// Puts messages on the wire: to the client, or to all nodes but the sender.
    fn send(&mut self, messages: &[Message], from: Option<usize>) {
        for message in messages {
            if ANSWERS.contains(&message[1]) {
                self.wire.push((None, message.clone()));
            } else {
                let others = (0..self.nodes.len()).filter(|&member| Some(member) != from);
                self.wire.extend(others.map(|member| (Some(member), message.clone())));
            }
        }
    }

    fn deliver(&mut self, client: &mut impl Client, to: Option<usize>, message: &[u8]) -> Result<(), Fault> {
        let answers = match to {
            Some(member) => self.nodes[member].react(message)?,
            None => client.react(message)?,
        };
        if to.is_none() && message[1] == ACK {
            let volume_epoch = u32::from_be_bytes([message[3], message[4], message[5], message[6]]);
            self.nodes[usize::from(message[11])].acknowledged = volume_epoch;
        }
        self.send(&answers, to);
        Ok(())
    }

    /// Delivers all messages in random order. One in eight is lost, and one in eight is repeated. Ignores refusals.
    fn pump(&mut self, client: &mut impl Client) {
        while !self.wire.is_empty() {
            let at = self.random(self.wire.len());
            let (to, message) = self.wire.swap_remove(at);
            let fate = self.random(8);
            if fate == 0 || self.deliver(client, to, &message).is_err() {
                self.lost += 1;
            }
            if fate == 1 {
                self.wire.push((to, message));
            }
        }
    }

    /// Sends the kept messages again, and delivers all.
    fn again(&mut self, client: &mut impl Client) {
        self.send(&self.kept.clone(), None);
        self.pump(client);
    }

    /// Commits a change and waits until it is durable.
    fn commit(&mut self, writer: &mut Writer, block: u32, bytes: &[u8]) -> Result<(), Fault> {
        writer.issue(&[Change::new(0, block, 0, bytes)?])?;
        self.send(&all(writer.messages())?, None);
        let last = writer.points()?.last;
        self.pump(writer);
        while !writer.is_acknowledged(last)? {
            let missing = writer.group_point(0)? + 1;
            self.resend(writer, missing)?;
        }
        Ok(())
    }

    /// Sends the records again from an LSN on.
    fn resend(&mut self, writer: &mut Writer, first: u64) -> Result<(), Fault> {
        for lsn in first..=writer.points()?.last {
            if writer.resend(lsn).is_ok() {
                self.send(&all(writer.messages())?, None);
            }
        }
        self.again(writer);
        Ok(())
    }

    /// The writer fails. A recovery finds what it acknowledged, and becomes the next writer.
    fn recover(&mut self) -> Result<Writer, Fault> {
        self.authority.assign()?;
        let _to_disk = self.authority.snapshot()?; // before the View leaves
        let views = all(self.authority.messages())?;
        let mut recovery = Recovery::new(&mut self.plan, &views[0])?;
        self.kept = all(recovery.messages())?;
        while recovery.cut().is_err() {
            self.again(&mut recovery);
        }
        self.kept = all(recovery.messages())?;
        let mut writer = loop {
            self.again(&mut recovery);
            match recovery.open() {
                Ok(writer) => break writer,
                Err((same, _)) => recovery = same,
            }
        };
        while self.nodes[..6].iter().any(|node| node.acknowledged < 2) {
            self.again(&mut writer); // a member without the Installs doesn't count in the next step
        }
        Ok(writer)
    }

    /// Advances the group to a configuration, and tells the nodes and the writer.
    fn advance(&mut self, writer: &mut Writer, configuration: u32) -> Result<(), Fault> {
        self.authority.advance(0, configuration)?;
        let _to_disk = self.authority.snapshot()?; // before the StepTo leaves
        self.kept = all(self.authority.messages())?;
        self.again(writer);
        self.authority.refresh(2)?;
        let views = all(self.authority.messages())?;
        views.iter().try_for_each(|view| writer.take(view))
    }

    /// Replaces member 5 by the new member, through a configuration that has both.
    fn replace(&mut self, writer: &mut Writer) -> Result<(), Fault> {
        self.advance(writer, 1)?;
        self.kept.push(COPY_ASK.to_vec());
        while self.nodes[FRESH].segment.hydrate().is_err() {
            self.again(writer);
        }
        self.nodes[FRESH].snapshot = self.nodes[FRESH].segment.snapshot()?.into_bytes()?;
        self.nodes[FRESH].log.clear();
        self.advance(writer, 2)
    }
}

fn main() -> Result<(), Box<dyn std::error::Error>> {
    let path = std::env::args().nth(1).ok_or("engine PLAN")?;
    let mut plan = Plan::read(&std::fs::read(path)?)?;
    let mut first = Writer::first(&mut plan)?;
    let mut engine = Engine::new(plan)?;
    for block in 0..6 {
        engine.commit(&mut first, block.into(), b"the first writer")?;
        engine.nodes[usize::from(block)].restart(&mut engine.plan, block)?;
    }
    println!("written: durable {}", first.points()?.durable);
    let mut second = engine.recover()?;
    println!("recovered: {:?}", second.points()?);
    engine.commit(&mut second, 1, b"the second writer")?;
    engine.replace(&mut second)?;
    engine.commit(&mut second, 2, b"after the step")?;
    let durable = second.points()?.durable;
    while engine.nodes[FRESH].segment.scl()? < durable {
        let missing = engine.nodes[FRESH].segment.scl()? + 1;
        engine.resend(&mut second, missing)?;
    }
    engine.nodes[FRESH].restart(&mut engine.plan, FRESH as u8)?;
    for (block, text) in [(0, "the first writer"), (1, "the second writer"), (2, "after the step")] {
        let page = engine.nodes[FRESH].segment.page(block, durable)?;
        assert!(page.starts_with(text.as_bytes()), "block {block}");
    }
    println!("replaced: member {FRESH} has all, and {} messages were lost", engine.lost);
    println!("engine: good");
    Ok(())
}
