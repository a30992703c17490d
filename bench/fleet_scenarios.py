"""A program that prints the results of a fleet's calls: see refusals.py."""

FLEETS = r"""//! What the calls of a fleet give.

ghost use Rattle.std.specs.Prelude.{◌≡◌, ◌<◌, vec_len};
ghost use Rattle.std.specs.Arc.{arc_value};
ghost use Rattle.plan.specs.CheckedModel.{checked_model};
ghost use Rattle.journal.specs.Tokens.{ids_of};
ghost use Rattle.node_fleet.specs.Bases.{passes_of, IsBaseOf};

use crate::ScenarioOutput;
use crate::texts::{LONG, REPLACED, SIX};
use node_fleet::{Base, Fleet, FleetSite, Journal, Pass, Receipt, Row, StepGate};
use plan::{CheckedPlan, check_plan, read_plan};
use segment_core::NodeAction;
use std::alloc::{AllocError, Global};
use std::marker::Brand;
use std::sync::{Arc, Wait};
use std::thread;
use std::thread::{JoinHandle, Scope, Threads};
use volume_model::Fault;
use wire::Messages;
use world::{AuthorityAction, ClientAction, Event, Outcome, run};
use writer_core::Change;

/// Sees nothing of what nodes answer.
#[derive(Drop)]
struct Blind;

impl StepGate for Blind {
    fn prepared(&self, _answers: &Messages) {}
}

/// A call that concerns group 0.
#[derive(Clone, Copy)]
enum Call {
    /// A message is delivered to a member.
    Deliver(u8, u64),
    /// A member does something of itself.
    Node(u8, NodeAction),
    /// The authority acts.
    Authority(AuthorityAction),
    /// The first client gives these bytes their records.
    Issue(&'static str),
    /// A client takes a message.
    Take(u32, u64),
    /// A client cuts.
    Cut(u32),
}

/// Three bytes reach four of six members, and their acknowledgements the writer.
const WRITTEN: [Call; 17] = [
    Call::Issue("abc"),
    Call::Deliver(0, 1),
    Call::Deliver(1, 1),
    Call::Deliver(2, 1),
    Call::Deliver(3, 1),
    Call::Deliver(0, 2),
    Call::Deliver(1, 2),
    Call::Deliver(2, 2),
    Call::Deliver(3, 2),
    Call::Deliver(0, 3),
    Call::Deliver(1, 3),
    Call::Deliver(2, 3),
    Call::Deliver(3, 3),
    Call::Take(1, 12),
    Call::Take(1, 13),
    Call::Take(1, 14),
    Call::Take(1, 15),
];

/// A member joins and becomes whole while an old write is still under way, and a recovery reads and cuts.
const JOINED: [Call; 32] = [
    Call::Issue("a"),
    Call::Authority(AuthorityAction::Advance {
        group: 0,
        configuration: 1,
    }),
    Call::Deliver(0, 2),
    Call::Deliver(1, 2),
    Call::Deliver(2, 2),
    Call::Deliver(6, 2),
    Call::Deliver(0, 3),
    Call::Deliver(1, 3),
    Call::Deliver(2, 3),
    Call::Deliver(6, 4),
    Call::Deliver(6, 5),
    Call::Deliver(6, 6),
    Call::Node(6, NodeAction::Hydrate),
    Call::Deliver(3, 1),
    Call::Deliver(4, 1),
    Call::Deliver(5, 1),
    Call::Deliver(3, 2),
    Call::Node(3, NodeAction::Offer { lsn: 1 }),
    Call::Deliver(0, 10),
    Call::Take(1, 7),
    Call::Take(1, 8),
    Call::Take(1, 9),
    Call::Take(1, 11),
    Call::Authority(AuthorityAction::Assign),
    Call::Take(2, 12),
    Call::Deliver(1, 13),
    Call::Deliver(2, 13),
    Call::Deliver(6, 13),
    Call::Take(2, 14),
    Call::Take(2, 15),
    Call::Take(2, 16),
    Call::Cut(2),
];

/// Changes of these bytes, one a byte, from the first byte of block 0 on.
fn changes(alloc: Global, bytes: &str) -> Result<Vec<Change>, Fault> {
    let mut changes = Vec::with_capacity(alloc, bytes.len())?;
    for (offset, byte) in bytes.bytes().enumerate() {
        let offset = u16::try_from(offset).unwrap_or(0);
        changes.push(Change::new(alloc, 0, 0, offset, &[byte])?)?;
    }
    Ok(changes)
}

/// What a client is asked to do, where it issues these changes or none.
fn action(call: Call, changes: &[Change]) -> ClientAction<'_> {
    match call {
        Call::Issue(_) => ClientAction::Issue(changes),
        Call::Take(_, message) => ClientAction::Take { message },
        _ => ClientAction::Cut,
    }
}

/// The changes that a call issues.
fn issued(alloc: Global, call: Call) -> Result<Vec<Change>, Fault> {
    match call {
        Call::Issue(bytes) => changes(alloc, bytes),
        _ => Ok(Vec::new(alloc)),
    }
}

/// Makes a call by a pass.
fn made<'a, L: FleetSite, R: Wait>(
    rt: &R,
    fleet: &Fleet<'a, L>,
    pass: &mut Pass<'a, L>,
    call: Call,
    changes: &[Change],
) -> Result<Receipt, Fault> {
    match call {
        Call::Deliver(member, message) => fleet.deliver(rt, pass, 0, member, message, &Blind),
        Call::Node(member, action) => fleet.node_step(rt, pass, 0, member, action),
        Call::Authority(action) => fleet.advance(rt, pass, action),
        Call::Issue(_) => fleet.client_step(rt, pass, 1, action(call, changes)),
        Call::Take(volume, _) | Call::Cut(volume) => fleet.client_step(rt, pass, volume, action(call, changes)),
    }
}

/// Makes all calls, the passes in turn, each that answers want of memory once more.
fn make_all<'a, L: FleetSite, R: Wait>(
    rt: &R,
    alloc: Global,
    fleet: &Fleet<'a, L>,
    passes: &mut [Pass<'a, L>],
    calls: &[Call],
    output: &mut String,
) -> Result<(), Fault> {
    let count = passes.len();
    if count == 0 {
        return Ok(());
    }
    for (i, call) in calls.iter().enumerate() {
        let changes = issued(alloc, *call)?;
        let pass = &mut passes[i % count];
        let first = made(rt, fleet, pass, *call, &changes);
        let answer = match first {
            Err(Fault::NoMemory) => made(rt, fleet, pass, *call, &changes),
            answer => answer,
        };
        match answer {
            Ok(receipt) => {
                let (number, first, count, durable) = (receipt.number, receipt.first_message, receipt.made, receipt.durable);
                write!(output, "step {number} {first} {count} {durable};")?
            }
            Err(fault) => write!(output, "{fault};")?,
        }
    }
    Ok(())
}

/// What is said of how a run ends.
fn of_outcome(outcome: &Outcome, output: &mut String) -> Result<(), AllocError> {
    for result in outcome.results.iter() {
        match result {
            Ok(made) => write!(output, "{made};")?,
            Err(fault) => write!(output, "{fault};")?,
        }
    }
    for writer in outcome.writers.iter() {
        let (volume, start, length, durable) = (writer.volume, writer.start, writer.log.len(), writer.durable);
        write!(output, "writer {volume} {start} {length} {durable};")?;
    }
    for find in outcome.finds.iter() {
        let (volume, cut, length) = (find.volume, find.found.cut, find.found.log.len());
        write!(output, "find {volume} {cut} {length};")?;
    }
    Ok(())
}

/// What is said of how events run.
fn of_events(
    alloc: Global,
    plan: &Arc<CheckedPlan>,
    events: &[Event],
    output: &mut String,
) -> Result<(), AllocError> {
    let first = run(alloc, plan, events);
    let outcome = match first {
        Err(_) => run(alloc, plan, events),
        outcome => outcome,
    };
    match outcome {
        Ok(outcome) => of_outcome(&outcome, output),
        Err(fault) => write!(output, "{fault};"),
    }
}

/// What is said of a closed journal.
fn of_journal<L: FleetSite>(
    alloc: Global,
    journal: &Journal<'_, L>,
    plan: &Arc<CheckedPlan>,
    output: &mut String,
) -> Result<(), AllocError> {
    write!(output, "steps {};", journal.len())?;
    let first = journal.events(alloc);
    let events = match first {
        Err(_) => journal.events(alloc),
        events => events,
    };
    match events {
        Ok(events) => of_events(alloc, plan, events.as_slice(), output),
        Err(fault) => write!(output, "{fault};"),
    }
}

/// What a fleet's calls give.
fn drive<L: FleetSite, R: Wait>(
    rt: &R,
    alloc: Global,
    row: &mut Row,
    base: Base,
    plan: Arc<CheckedPlan>,
    calls: &[Call],
    output: &mut String,
) -> Result<(), Fault>
    requires plan { checked_model (arc_value plan) ≡ L.plan }
    requires cells { ids_of row.old ≡ L.cells }
    requires slots { L.slots ≡ 2 }
    requires base { IsBaseOf L.plan L.board L.history L.mail L.name L.parts base }
    requires passes { 0 < passes_of base }
{
    let copy = plan.clone()?;
    let (fleet, mut passes) = Fleet::<L>::new(alloc, row, base, copy, 2)?;
    make_all(rt, alloc, &fleet, passes.as_mut_slice(), calls, output)?;
    let journal = fleet.close(passes);
    Ok(of_journal(alloc, &journal, &plan, output)?)
}

/// What a fleet's calls over a plan give.
fn over<R: Wait>(
    rt: &R,
    alloc: Global,
    text: &str,
    passes: usize,
    calls: &[Call],
    output: &mut String,
) -> Result<(), Fault>
    requires { 0 < passes }
{
    let Ok(plan) = read_plan(alloc, text.as_bytes()) else {
        return Err(Fault::NoMemory);
    };
    let Ok(plan) = check_plan(alloc, plan) else {
        return Err(Fault::NoMemory);
    };
    let plan = Arc::new(alloc, plan)?;
    let mut row = Row::new(alloc, calls.len())?;
    let base = Base::new(alloc, &plan, passes)?;
    drive::<Brand, R>(rt, alloc, &mut row, base, plan, calls, output)
}

/// What the calls give by so many passes.
fn calls<R: Wait>(rt: &R, alloc: Global, passes: usize) -> ScenarioOutput
    requires { 0 < passes }
{
    let mut output = String::with_capacity(alloc, 16_384)?;
    let first = over(rt, alloc, SIX, passes, WRITTEN.as_slice(), &mut output);
    let second = over(rt, alloc, REPLACED, passes, JOINED.as_slice(), &mut output);
    match (first, second) {
        (Ok(()), Ok(())) => Ok(output),
        (_, _) => Err(AllocError),
    }
}

/// The event of a call.
fn event(alloc: Global, call: Call) -> Result<Event, Fault> {
    Ok(match call {
        Call::Deliver(member, message) => Event::Deliver { group: 0, member, message },
        Call::Node(member, action) => Event::of_node(0, member, action),
        Call::Authority(action) => Event::of_authority(action),
        Call::Issue(bytes) => Event::Issue { volume: 1, changes: changes(alloc, bytes)? },
        Call::Take(volume, _) | Call::Cut(volume) => Event::of_client(alloc, volume, action(call, &[]))?,
    })
}

/// A member that isn't whole answers no fence, loses its copies at a restart, and becomes whole.
const MADE_WHOLE: [Call; 20] = [
    Call::Authority(AuthorityAction::Advance {
        group: 0,
        configuration: 1,
    }),
    Call::Deliver(6, 1),
    Call::Deliver(0, 1),
    Call::Deliver(1, 1),
    Call::Deliver(2, 1),
    Call::Authority(AuthorityAction::Assign),
    Call::Authority(AuthorityAction::Refresh { volume: 1 }),
    Call::Take(2, 3),
    Call::Deliver(6, 4),
    Call::Deliver(0, 2),
    Call::Deliver(6, 5),
    Call::Node(6, NodeAction::Restart),
    Call::Deliver(1, 2),
    Call::Deliver(2, 2),
    Call::Deliver(6, 6),
    Call::Deliver(6, 7),
    Call::Node(6, NodeAction::Hydrate),
    Call::Deliver(6, 5),
    Call::Node(6, NodeAction::Hydrate),
    Call::Deliver(6, 4),
];

/// 600 records that two members hold, and copies of three pieces each for a third, with its hydration.
fn long_log(alloc: Global) -> Result<Vec<Call>, AllocError> {
    let mut calls = Vec::new(alloc);
    for _ in 0..20 {
        calls.push(Call::Issue("abcdefghijklmnopqrstuvwxyzabcd"))?;
    }
    for message in 1..601 {
        calls.push(Call::Deliver(0, message))?;
        calls.push(Call::Deliver(1, message))?;
    }
    calls.push(Call::Authority(AuthorityAction::Advance { group: 0, configuration: 1 }))?;
    for (member, message) in [(0, 1801), (1, 1801), (3, 1801), (0, 1802), (1, 1802)] {
        calls.push(Call::Deliver(member, message))?;
    }
    for message in 1803..1809 {
        calls.push(Call::Deliver(3, message))?;
    }
    calls.push(Call::Node(3, NodeAction::Hydrate))?;
    Ok(calls)
}

/// The calls with a restart of a member behind `at` of them.
fn restarted(alloc: Global, calls: &[Call], at: usize, member: u8) -> Result<Vec<Call>, AllocError> {
    let mut all = Vec::with_capacity(alloc, calls.len() + 1)?;
    for (place, call) in calls.iter().enumerate() {
        if place == at {
            all.push(Call::Node(member, NodeAction::Restart))?;
        }
        all.push(*call)?;
    }
    Ok(all)
}

/// What a fleet's calls answer by one pass, a line each.
fn answers<R: Wait>(rt: &R, alloc: Global, text: &str, calls: &[Call]) -> Result<String, Fault> {
    let mut output = String::new(alloc);
    over(rt, alloc, text, 1, calls, &mut output)?;
    Ok(output)
}

/// What a run of the calls' events answers, in the form of the output of a fleet's calls: of each step its number in the journal, the number
/// of its first message, how many it made and the durable point, which the run doesn't have, so that it is taken from that output.
fn is_as_run(alloc: Global, text: &str, calls: &[Call], output: &str) -> Result<bool, Fault> {
    let Ok(plan) = read_plan(alloc, text.as_bytes()) else {
        return Err(Fault::NoMemory);
    };
    let Ok(plan) = check_plan(alloc, plan) else {
        return Err(Fault::NoMemory);
    };
    let plan = Arc::new(alloc, plan)?;
    let mut events = Vec::with_capacity(alloc, calls.len())?;
    for call in calls {
        events.push(event(alloc, *call)?)?;
    }
    let outcome = run(alloc, &plan, events.as_slice())?;
    let (mut steps, mut messages) = (0_u64, 1_u64);
    let mut lines = output.split(';');
    for result in outcome.results.iter() {
        let line = lines.next().unwrap_or("");
        match result {
            Ok(made) => {
                steps += 1;
                let due = format!(in alloc; "step {steps} {messages} {made} ")?;
                messages += u64::from(*made);
                if !line.starts_with(due.as_str()) {
                    return Ok(false);
                }
            }
            Err(fault) => {
                let due = format!(in alloc; "{fault}")?;
                if line != due.as_str() {
                    return Ok(false);
                }
            }
        }
    }
    Ok(true)
}

/// Restarts a member behind `first` calls, behind one more, and so on up to `last`, and compares what a fleet answers with a run of the same events.
fn restarts<R: Wait>(
    rt: &R,
    alloc: Global,
    text: &str,
    calls: &[Call],
    (first, last): (usize, usize),
    member: u8,
    counts: &mut (usize, usize),
) -> Result<(), Fault> {
    for at in first..last + 1 {
        let all = restarted(alloc, calls, at, member)?;
        let output = answers(rt, alloc, text, all.as_slice())?;
        counts.0 += 1;
        if !is_as_run(alloc, text, all.as_slice(), output.as_str())? {
            counts.1 += 1;
        }
    }
    Ok(())
}

/// Restarts between the lines of a script in which a member becomes whole, and between the pieces of its copies.
fn all_restarts<R: Wait>(rt: &R, alloc: Global) -> Result<String, Fault> {
    let mut counts = (0, 0);
    restarts(rt, alloc, REPLACED, MADE_WHOLE.as_slice(), (10, 18), 6, &mut counts)?;
    let calls = long_log(alloc)?;
    restarts(rt, alloc, LONG, calls.as_slice(), (1227, 1232), 3, &mut counts)?;
    let (scripts, wrong) = counts;
    Ok(format!(in alloc; "{scripts} scripts with a restart, {wrong} answered otherwise than by a run")?)
}

/// A thread's part: a pass, and the messages that it takes as the first client.
#[derive(Drop)]
struct Taker<'f, 'a, L: FleetSite> {
    fleet: &'f Fleet<'a, L>,
    pass: Pass<'a, L>,
    messages: [u64; 2],
}

/// What a thread leaves: its pass, and of each step its number and durable point, zeros where it was refused.
#[derive(Drop)]
struct Taken<'a, L: FleetSite> {
    pass: Pass<'a, L>,
    steps: [(usize, u64); 2],
}

impl<'f, 'a, L: FleetSite> Taker<'f, 'a, L> {
    /// Takes the messages.
    fn work<R: Wait>(self, rt: &R) -> Taken<'a, L> {
        let Taker { fleet, mut pass, messages } = self;
        let mut steps = [(0, 0); 2];
        for (place, message) in messages.iter().enumerate() {
            let action = ClientAction::Take { message: *message };
            if let Ok(receipt) = fleet.client_step(rt, &mut pass, 1, action) {
                if place < 2 {
                    steps[place] = (receipt.number, receipt.durable);
                }
            }
        }
        Taken { pass, steps }
    }
}

/// Starts a thread for each part, and takes what they leave.
fn take_in<'s, 'f: 's, 'a: 's, E, L: FleetSite + Send + Sync + 's, R: Threads + Wait + Sync>(
    scope: &Scope<'s, E>,
    rt: &'f R,
    alloc: Global,
    takers: Vec<Taker<'f, 'a, L>>,
) -> Result<Vec<Taken<'a, L>>, AllocError> {
    let mut threads: Vec<JoinHandle<Taken<'a, L>>> = Vec::with_capacity(alloc, takers.len())?;
    for taker in takers {
        threads.push(scope.spawn(move || taker.work(rt))?)?;
    }
    let mut all = Vec::with_capacity(alloc, threads.len())?;
    for thread in threads {
        all.push(thread.join(rt))?;
    }
    Ok(all)
}

/// Has the passes take the acknowledgements of the third record on threads of their own.
fn take_on_threads<'f, 'a, L: FleetSite + Send + Sync, R: Threads + Wait + Sync>(
    rt: &'f R,
    alloc: Global,
    fleet: &'f Fleet<'a, L>,
    passes: Vec<Pass<'a, L>>,
) -> Result<Vec<Taken<'a, L>>, AllocError> {
    let mut takers = Vec::with_capacity(alloc, passes.len())?;
    for pass in passes {
        let first = 12 + takers.len() as u64;
        let second = if first == 12 { 15 } else { 0 };
        takers.push(Taker { fleet, pass, messages: [first, second] })?;
    }
    thread::scope(thread::scope_env(), rt, move |scope| take_in(scope, rt, alloc, takers))
}

/// Three passes write three bytes, and take the four acknowledgements of the last one on threads. Of these steps the one with the greatest
/// number shows the durable point 3 and the others 0, and once the threads have ended each pass reads 3.
fn drive_threads<L: FleetSite + Send + Sync, R: Threads + Wait + Sync>(
    rt: &R,
    alloc: Global,
    row: &mut Row,
    base: Base,
    plan: Arc<CheckedPlan>,
    output: &mut String,
) -> Result<(), Fault>
    requires plan { checked_model (arc_value plan) ≡ L.plan }
    requires cells { ids_of row.old ≡ L.cells }
    requires slots { L.slots ≡ 2 }
    requires base { IsBaseOf L.plan L.board L.history L.mail L.name L.parts base }
    requires passes { 0 < passes_of base }
{
    let copy = plan.clone()?;
    let (fleet, mut passes) = Fleet::<L>::new(alloc, row, base, copy, 2)?;
    let new = match passes.first_mut() {
        Some(pass) => fleet.durable(pass),
        None => 1,
    };
    let mut steps = String::new(alloc);
    make_all(rt, alloc, &fleet, passes.as_mut_slice(), &WRITTEN[..13], &mut steps)?;
    let taken = take_on_threads(rt, alloc, &fleet, passes)?;
    let mut last = (0, 0);
    let (mut count, mut sum, mut read) = (0, 0, 0);
    let mut passes = Vec::new(alloc);
    for one in taken {
        let Taken { mut pass, steps } = one;
        for step in steps.iter() {
            if step.0 > 0 {
                count += 1;
                sum += step.1;
            }
            if step.0 > last.0 {
                last = *step;
            }
        }
        read += fleet.durable(&mut pass);
        passes.push(pass)?;
    }
    let (number, durable) = last;
    write!(output, "a new fleet reads {new}; {count} steps on threads, durable {sum} in all and {durable} of step {number}, {read} read by three")?;
    let _ = fleet.close(passes);
    Ok(())
}

/// Returns the output of passes on threads.
fn on_threads<R: Threads + Wait + Sync>(rt: &R, alloc: Global) -> Result<String, Fault> {
    let Ok(plan) = read_plan(alloc, SIX.as_bytes()) else {
        return Err(Fault::NoMemory);
    };
    let Ok(plan) = check_plan(alloc, plan) else {
        return Err(Fault::NoMemory);
    };
    let plan = Arc::new(alloc, plan)?;
    let mut row = Row::new(alloc, 17)?;
    let base = Base::new(alloc, &plan, 3)?;
    let mut output = String::new(alloc);
    drive_threads::<Brand, R>(rt, alloc, &mut row, base, plan, &mut output)?;
    Ok(output)
}

/// Returns the output, unless memory ran out.
fn whole(output: Result<String, Fault>) -> ScenarioOutput {
    match output {
        Ok(output) => Ok(output),
        Err(_) => Err(AllocError),
    }
}

/// Returns the output of the scenario with this name.
pub fn output_of<R: Threads + Wait + Sync>(rt: &R, alloc: Global, name: &str) -> ScenarioOutput {
    match name {
        "threads" => whole(on_threads(rt, alloc)),
        "one pass" => calls(rt, alloc, 1),
        "restarts" => whole(all_restarts(rt, alloc)),
        _ => calls(rt, alloc, 3),
    }
}
"""

SITE = """-- The fleet's site is what the arguments of the call are.
use Rattle.std.specs.Arc.{arc_value}
use Rattle.board.specs.Seats.{board_table}
use Rattle.plan.specs.CheckedModel.{checked_model}
use Rattle.journal.specs.Fronts.{book_of}
use Rattle.journal.specs.Tokens.{ids_of}
use Rattle.node_fleet.specs.Bases.{mail_in, passes_of}
use Rattle.fleet_scenarios.proofs.scenarios.over.Given as goal

abbrev pub ghosts-drive-L-Ledger : goal.ghosts-drive-L-Ledger
ghosts-drive-L-Ledger g a = record { name = a.base.blank.name; parts = passes_of a.base }

abbrev pub ghosts-drive-L-Site : goal.ghosts-drive-L-Site
ghosts-drive-L-Site g a = record { plan = checked_model (arc_value a.plan); cells = ids_of a.row.now; board = board_table a.base.board; history = book_of a.base.opened; slots = 2 }

abbrev pub ghosts-drive-L-FleetSite : goal.ghosts-drive-L-FleetSite
ghosts-drive-L-FleetSite g a = record { mail = mail_in a.base }
"""
