"""A program that prints the answers of the cores' calls over plans: see refusals.py."""

CORES = r"""//! What the cores answer over plans.

ghost use Rattle.std.specs.Prelude.{◌≡◌, ◌<◌, ◌≤◌, IfOk, Ok, length, map};
ghost use Rattle.plan.specs.LentClaims.{all_lent};
ghost use Rattle.plan.specs.Plan.{plan_data};
ghost use Rattle.plan.specs.PlanClaims.{claims_in};
ghost use Rattle.plan.specs.PlanText.{plan_of};
ghost use Rattle.plan.specs.Taped.{HasClaims};
ghost use Rattle.cert_search.specs.Answers.{rule_in, AreAnswersOf};

use crate::ScenarioOutput;
use crate::texts::PLANS;
use cert_search::{Gate, search_all, search_one};
use plan::{
    CheckedPlan, Configuration, ClaimRef, NamedClaim, Plan, PlanFault, TapedPlan, check_plan, claims,
    lent_claims,
};
use json::Scratch;
use quorum_checker::{Claim, FaultAt, check};
use quorum_expr::{Expr, MemberSet, copy_in, dual_in, holds, valid};
use refutation::Certificate;
use std::alloc::{AllocError, Global};
use std::sync::Wait;
use std::thread::Threads;
use volume_model::Fault;

/// How many nodes are tried for a claim at most.
const BUDGET: u64 = 100_000;

/// Which calls are made over the plans.
#[derive(Clone, Copy)]
enum Part {
    /// `TapedPlan::parse` and `plan`, and `plan::read_plan`.
    Reading,
    /// `lent_claims` and `claims`.
    Claims,
    /// `check`, of claims that are lent and of such that aren't, and `check_plan`.
    Checking,
    /// `copy_in` of expressions and of certificates, and `dual_in`.
    Copying,
    /// `search_one`, and `search_all` by so many workers.
    Searching(u8),
    /// `TapedPlan::write` and `plan::write_plan`.
    Writing,
}

/// Sees nothing.
#[derive(Drop)]
struct Blind;

impl Gate for Blind {
    fn started(&self, _claim: usize) {}

    fn finished(&self, _claim: usize) {}
}

/// The plan of a tape, read once more where memory ran out; so all calls below.
fn planned(alloc: Global, text: &TapedPlan<'_>) -> Result<Plan, PlanFault>
    ensures { IfOk result (λ plan. plan_of text.now ≡ Ok (plan_data plan)) }
{
    match text.plan(alloc) {
        Ok(plan) => Ok(plan),
        Err(fault) => {
            if fault.kind() != Fault::NoMemory {
                return Err(fault);
            }
            text.plan(alloc)
        }
    }
}

/// The plan of a text, by a tape that is made here.
fn read_once(alloc: Global, text: &[u8]) -> Result<Plan, PlanFault>
    ensures { IfOk result (λ plan. plan_of text.now ≡ Ok (plan_data plan)) }
{
    let mut scratch = Scratch::new(alloc);
    match TapedPlan::parse(alloc, text, &mut scratch) {
        Ok(taped) => planned(alloc, &taped),
        Err(fault) => Err(fault),
    }
}

fn read(alloc: Global, text: &[u8]) -> Result<Plan, PlanFault>
    ensures { IfOk result (λ plan. plan_of text.now ≡ Ok (plan_data plan)) }
{
    match read_once(alloc, text) {
        Ok(plan) => Ok(plan),
        Err(fault) => {
            if fault.kind() != Fault::NoMemory {
                return Err(fault);
            }
            read_once(alloc, text)
        }
    }
}

/// The same by `plan` itself.
fn read_by_plan(alloc: Global, text: &[u8]) -> Result<Plan, PlanFault> {
    match plan::read_plan(alloc, text) {
        Ok(plan) => Ok(plan),
        Err(fault) => {
            if fault.kind() != Fault::NoMemory {
                return Err(fault);
            }
            plan::read_plan(alloc, text)
        }
    }
}

fn lent<'p>(alloc: Global, plan: &'p Plan) -> Result<Vec<ClaimRef<'p>>, PlanFault>
    ensures { IfOk result (λ v. claims_in (plan_data plan.entry.now) ≡ Ok (all_lent v.items)) }
{
    match lent_claims(alloc, plan) {
        Ok(list) => Ok(list),
        Err(fault) => {
            if fault.kind() != Fault::NoMemory {
                return Err(fault);
            }
            lent_claims(alloc, plan)
        }
    }
}

fn listed(alloc: Global, plan: &Plan) -> Result<Vec<NamedClaim>, PlanFault> {
    match claims(alloc, plan) {
        Ok(list) => Ok(list),
        Err(fault) => {
            if fault.kind() != Fault::NoMemory {
                return Err(fault);
            }
            claims(alloc, plan)
        }
    }
}

fn checked(alloc: Global, plan: Plan) -> Result<CheckedPlan, PlanFault> {
    match check_plan(alloc, plan) {
        Ok(checked) => Ok(checked),
        Err(refused) => {
            if refused.0.kind() != Fault::NoMemory {
                return Err(refused.0);
            }
            match check_plan(alloc, refused.1) {
                Ok(checked) => Ok(checked),
                Err(again) => Err(again.0),
            }
        }
    }
}

fn refuted(
    alloc: Global,
    claim: &Claim<Global>,
    certificate: &Certificate<Global>,
) -> Result<(), FaultAt> {
    match check(alloc, claim, certificate) {
        Ok(()) => Ok(()),
        Err(at) => {
            if at.fault != Fault::NoMemory {
                return Err(at);
            }
            check(alloc, claim, certificate)
        }
    }
}

fn refuted_lent(
    alloc: Global,
    claim: &ClaimRef<'_>,
    certificate: &Certificate<Global>,
) -> Result<(), FaultAt> {
    match claim.check(alloc, certificate) {
        Ok(()) => Ok(()),
        Err(at) => {
            if at.fault != Fault::NoMemory {
                return Err(at);
            }
            claim.check(alloc, certificate)
        }
    }
}

fn claim_of(alloc: Global, lent: &ClaimRef<'_>) -> Result<Claim<Global>, Fault> {
    match lent.claim_in(alloc) {
        Ok(claim) => Ok(claim),
        Err(_) => lent.claim_in(alloc),
    }
}

fn certificate_copied(
    alloc: Global,
    certificate: &Certificate<Global>,
) -> Result<Certificate<Global>, Fault> {
    match certificate.copy_in(alloc) {
        Ok(copy) => Ok(copy),
        Err(_) => certificate.copy_in(alloc),
    }
}

fn expression_copied(alloc: Global, expr: &Expr<Global>) -> Result<Expr<Global>, Fault> {
    match copy_in(expr, alloc) {
        Ok(copy) => Ok(copy),
        Err(_) => copy_in(expr, alloc),
    }
}

fn searched<H: Threads + Wait + Sync>(
    rt: &H,
    alloc: Global,
    plan: &Plan,
    workers: u8,
) -> Result<Vec<Option<Certificate<Global>>>, Fault>
    requires { (0 < workers) × (workers ≤ 16) }
    ensures { IfOk result (λ v. AreAnswersOf 100000 (claims_in (plan_data plan.now)) (map rule_in v.items)) }
{
    let workers = usize::from(workers);
    match search_all(rt, alloc, plan, workers, BUDGET, &Blind) {
        Ok(found) => Ok(found),
        Err(fault) => {
            if fault != Fault::NoMemory {
                return Err(fault);
            }
            search_all(rt, alloc, plan, workers, BUDGET, &Blind)
        }
    }
}

fn searched_one(
    alloc: Global,
    claim: &Claim<Global>,
) -> Result<Option<Certificate<Global>>, Fault> {
    match search_one(alloc, claim, BUDGET) {
        Ok(found) => Ok(found),
        Err(_) => search_one(alloc, claim, BUDGET),
    }
}

fn written_once(
    alloc: Global,
    text: &[u8],
    certificates: &[Option<Certificate<Global>>],
) -> Result<Vec<u8>, PlanFault>
    requires { HasClaims text.now (length certificates.now) }
{
    let mut scratch = Scratch::new(alloc);
    let text = TapedPlan::parse(alloc, text, &mut scratch)?;
    match text.write(alloc, certificates) {
        Ok(line) => Ok(line),
        Err(_) => Ok(text.write(alloc, certificates)?),
    }
}

fn written(
    alloc: Global,
    text: &[u8],
    certificates: &[Option<Certificate<Global>>],
) -> Result<Vec<u8>, PlanFault>
    requires { HasClaims text.now (length certificates.now) }
{
    match written_once(alloc, text, certificates) {
        Ok(line) => Ok(line),
        Err(_) => written_once(alloc, text, certificates),
    }
}

fn written_from_text(
    alloc: Global,
    text: &[u8],
    certificates: &[Option<Certificate<Global>>],
) -> Result<Vec<u8>, PlanFault>
    requires { HasClaims text.now (length certificates.now) }
{
    match plan::write_plan(alloc, text, certificates) {
        Ok(line) => Ok(line),
        Err(_) => plan::write_plan(alloc, text, certificates),
    }
}

/// Adds in which of the sets of the first members an expression holds, and what is wrong with it.
fn of_expression(
    expr: &Expr<Global>,
    members: MemberSet,
    output: &mut String,
) -> Result<(), AllocError> {
    match valid(expr) {
        Ok(()) => output.push_str("valid ")?,
        Err(fault) => write!(output, "{fault} ")?,
    }
    let mut first = MemberSet::empty();
    for member in 0..64u8 {
        if members.contains(member) {
            first = first.with(member);
            output.push_str(if holds(expr, first) { "+" } else { "-" })?;
        }
    }
    output.push_str(";")
}

/// Adds what a configuration says.
fn of_configuration(this: &Configuration, output: &mut String) -> Result<(), AllocError> {
    let (members, full) = (this.members.len(), this.full.len());
    let (meets, step) = (this.meets.is_some(), this.step.is_some());
    write!(output, "{members} {full} {meets} {step} ")?;
    match this.parent {
        Some(parent) => write!(output, "{parent};")?,
        None => output.push_str("root;")?,
    }
    of_expression(&this.read, this.members, output)?;
    of_expression(&this.write, this.members, output)
}

/// Adds what a plan says.
fn of_plan(plan: &Plan, output: &mut String) -> Result<(), AllocError> {
    let (lal, born, groups) = (plan.lal, plan.born, plan.groups.len());
    write!(output, "plan {lal} {born} {groups};")?;
    for group in &plan.groups {
        for this in &group.configurations {
            of_configuration(this, output)?;
        }
    }
    Ok(())
}

/// Adds how long a text is, and a sum of its bytes by their places.
fn of_bytes(text: &[u8], output: &mut String) -> Result<(), AllocError> {
    let mut sum = 0u64;
    for byte in text {
        sum = sum.wrapping_mul(31).wrapping_add(u64::from(*byte));
    }
    let length = text.len();
    write!(output, "text {length} {sum};")
}

/// Adds whether a certificate refutes a claim.
fn of_verdict(verdict: Result<(), FaultAt>, output: &mut String) -> Result<(), AllocError> {
    match verdict {
        Ok(()) => output.push_str("refuted;"),
        Err(fault) => write!(output, "{fault};"),
    }
}

/// `read_plan`
fn reading(alloc: Global, text: &[u8], output: &mut String) -> Result<(), AllocError> {
    match read(alloc, text) {
        Ok(plan) => of_plan(&plan, output)?,
        Err(fault) => write!(output, "{fault};")?,
    }
    match read_by_plan(alloc, text) {
        Ok(plan) => of_plan(&plan, output),
        Err(fault) => write!(output, "{fault};"),
    }
}

/// Adds the sides of a claim.
fn of_claim(claim: &Claim<Global>, members: MemberSet, output: &mut String) -> Result<(), AllocError> {
    let clear = claim.clear.len();
    write!(output, "claim {clear} ")?;
    of_expression(&claim.left, members, output)?;
    of_expression(&claim.right, members, output)
}

/// Adds a claim that is lent, and the same in memory of its own.
fn of_lent(alloc: Global, lent: &ClaimRef<'_>, output: &mut String) -> Result<(), AllocError> {
    let (group, configuration, step) = (lent.group, lent.configuration, lent.parent.is_some());
    write!(output, "{group} {configuration} {step} ")?;
    match claim_of(alloc, lent) {
        Ok(claim) => of_claim(&claim, lent.this.members, output),
        Err(fault) => write!(output, "{fault};"),
    }
}

/// Adds a claim that isn't lent.
fn of_named(named: &NamedClaim, output: &mut String) -> Result<(), AllocError> {
    let (group, configuration, step) = (named.group, named.configuration, named.step);
    write!(output, "{group} {configuration} {step} ")?;
    of_claim(&named.claim, MemberSet::empty().complement(), output)
}

/// `lent_claims`
fn lending(alloc: Global, plan: &Plan, output: &mut String) -> Result<(), AllocError> {
    match lent(alloc, plan) {
        Ok(list) => {
            for claim in &list {
                of_lent(alloc, claim, output)?;
            }
            Ok(())
        }
        Err(fault) => write!(output, "{fault};"),
    }
}

/// `claims`
fn listing(alloc: Global, plan: &Plan, output: &mut String) -> Result<(), AllocError> {
    match listed(alloc, plan) {
        Ok(list) => {
            for claim in &list {
                of_named(claim, output)?;
            }
            Ok(())
        }
        Err(fault) => write!(output, "{fault};"),
    }
}

/// The certificate of a claim that the plan has.
fn certificate_of<'p>(lent: &ClaimRef<'p>) -> Option<&'p Certificate<Global>> {
    match lent.parent {
        Some(_) => lent.this.step.as_ref(),
        None => lent.this.meets.as_ref(),
    }
}

/// `check`, of a claim that is lent and of one that isn't.
fn checking_claim(
    alloc: Global,
    lent: &ClaimRef<'_>,
    certificate: &Certificate<Global>,
    output: &mut String,
) -> Result<(), AllocError> {
    of_verdict(refuted_lent(alloc, lent, certificate), output)?;
    match claim_of(alloc, lent) {
        Ok(claim) => of_verdict(refuted(alloc, &claim, certificate), output),
        Err(fault) => write!(output, "{fault};"),
    }
}

/// `copy_in`, of a certificate and of the expressions of its claim's configuration, whose copies are checked.
fn copying_claim(
    alloc: Global,
    lent: &ClaimRef<'_>,
    certificate: &Certificate<Global>,
    output: &mut String,
) -> Result<(), AllocError> {
    for expr in [&lent.this.read, &lent.this.write] {
        match expression_copied(alloc, expr) {
            Ok(copy) => of_expression(&copy, lent.this.members, output)?,
            Err(fault) => write!(output, "{fault};")?,
        }
    }
    match certificate_copied(alloc, certificate) {
        Ok(copy) => of_verdict(refuted_lent(alloc, lent, &copy), output),
        Err(fault) => write!(output, "{fault};"),
    }
}

/// Makes a call for each claim that has a certificate.
fn each_certified(
    alloc: Global,
    plan: &Plan,
    copies: bool,
    output: &mut String,
) -> Result<(), AllocError> {
    match lent(alloc, plan) {
        Ok(list) => {
            for claim in &list {
                match certificate_of(claim) {
                    Some(certificate) if copies => copying_claim(alloc, claim, certificate, output)?,
                    Some(certificate) => checking_claim(alloc, claim, certificate, output)?,
                    None => output.push_str("none;")?,
                }
            }
            Ok(())
        }
        Err(fault) => write!(output, "{fault};"),
    }
}

/// `check_plan`
fn checking_plan(alloc: Global, plan: Plan, output: &mut String) -> Result<(), AllocError> {
    match checked(alloc, plan) {
        Ok(_) => output.push_str("yes;"),
        Err(fault) => write!(output, "{fault};"),
    }
}

/// Adds what was found of a claim, and whether it refutes it.
fn of_found(
    alloc: Global,
    claim: &ClaimRef<'_>,
    found: Option<&Certificate<Global>>,
    output: &mut String,
) -> Result<(), AllocError> {
    match found {
        Some(certificate) => of_verdict(refuted_lent(alloc, claim, certificate), output),
        None => output.push_str("unfound;"),
    }
}

/// `search_one`
fn searching_one(
    alloc: Global,
    lent: &ClaimRef<'_>,
    output: &mut String,
) -> Result<(), AllocError> {
    let Ok(claim) = claim_of(alloc, lent) else {
        return output.push_str("no claim;");
    };
    match searched_one(alloc, &claim) {
        Ok(found) => of_found(alloc, lent, found.as_ref(), output),
        Err(fault) => write!(output, "{fault};"),
    }
}

/// `search_all`, and `search_one` where one worker searches.
fn searching<H: Threads + Wait + Sync>(
    rt: &H,
    alloc: Global,
    plan: &Plan,
    workers: u8,
    output: &mut String,
) -> Result<(), AllocError>
    requires { (0 < workers) × (workers ≤ 16) }
{
    let Ok(list) = lent(alloc, plan) else {
        return output.push_str("no claims;");
    };
    match searched(rt, alloc, plan, workers) {
        Ok(found) => {
            for (claim, found) in list.iter().zip(found.iter()) {
                of_found(alloc, claim, found.as_ref(), output)?;
            }
        }
        Err(fault) => write!(output, "{fault};")?,
    }
    if workers == 1 {
        for claim in &list {
            searching_one(alloc, claim, output)?;
        }
    }
    Ok(())
}

/// Adds the text of a plan that is written with certificates, by both ways.
fn of_written(
    alloc: Global,
    text: &[u8],
    found: &[Option<Certificate<Global>>],
    output: &mut String,
) -> Result<(), AllocError>
    requires { HasClaims text.now (length found.now) }
{
    match written(alloc, text, found) {
        Ok(line) => of_bytes(line.as_slice(), output)?,
        Err(fault) => write!(output, "{fault};")?,
    }
    match written_from_text(alloc, text, found) {
        Ok(line) => of_bytes(line.as_slice(), output),
        Err(fault) => write!(output, "{fault};"),
    }
}

/// `write_plan`, with the certificates that are found.
fn writing<H: Threads + Wait + Sync>(
    rt: &H,
    alloc: Global,
    text: &[u8],
    output: &mut String,
) -> Result<(), AllocError> {
    let Ok(plan) = read(alloc, text) else {
        return output.push_str("no plan;");
    };
    let Ok(_list) = lent(alloc, &plan) else {
        return output.push_str("no claims;");
    };
    match searched(rt, alloc, &plan, 1) {
        Ok(found) => of_written(alloc, text, found.as_slice(), output),
        Err(fault) => write!(output, "{fault};"),
    }
}

/// The calls over a plan.
fn over_plan<H: Threads + Wait + Sync>(
    rt: &H,
    alloc: Global,
    part: Part,
    plan: Plan,
    output: &mut String,
) -> Result<(), AllocError> {
    match part {
        Part::Claims => {
            lending(alloc, &plan, output)?;
            listing(alloc, &plan, output)
        }
        Part::Checking => {
            each_certified(alloc, &plan, false, output)?;
            checking_plan(alloc, plan, output)
        }
        Part::Copying => each_certified(alloc, &plan, true, output),
        Part::Searching(workers) => searching(rt, alloc, &plan, workers.clamp(1, 16), output),
        Part::Reading | Part::Writing => Ok(()),
    }
}

/// The calls over a plan's text.
fn over_text<H: Threads + Wait + Sync>(
    rt: &H,
    alloc: Global,
    part: Part,
    text: &[u8],
    output: &mut String,
) -> Result<(), AllocError> {
    match part {
        Part::Reading => reading(alloc, text, output),
        Part::Writing => writing(rt, alloc, text, output),
        _ => match read(alloc, text) {
            Ok(plan) => over_plan(rt, alloc, part, plan, output),
            Err(fault) => write!(output, "{fault};"),
        },
    }
}

/// What the cores answer over the plans.
fn cores<H: Threads + Wait + Sync>(rt: &H, alloc: Global, part: Part) -> ScenarioOutput {
    let mut output = String::with_capacity(alloc, 65_536)?;
    for text in PLANS {
        over_text(rt, alloc, part, text.as_bytes(), &mut output)?;
    }
    Ok(output)
}

/// Returns the output of the scenario with this name.
pub fn output_of<H: Threads + Wait + Sync>(rt: &H, alloc: Global, name: &str) -> ScenarioOutput {
    let part = match name {
        "reading" => Part::Reading,
        "claims" => Part::Claims,
        "checking" => Part::Checking,
        "copying" => Part::Copying,
        "searching" => Part::Searching(1),
        "searching by three" => Part::Searching(3),
        _ => Part::Writing,
    };
    cores(rt, alloc, part)
}
"""
