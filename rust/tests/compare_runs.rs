//! Openings and call lists of every kind of host through both builds, and through the functions that a host
//! links. The Rattle side's log is also checked by itself against demand 3, now and then.

#![cfg(feature = "rattle_drive")]

use jidlekuvo_reference::check::{demand_3, log};
use jidlekuvo_reference::compare::hits::{wanted_of_runs, Hits};
use jidlekuvo_reference::compare::markers::{self, OF_LISTS};
use jidlekuvo_reference::compare::smaller::smallest_call_list;
use jidlekuvo_reference::compare::threads::in_threads;
use jidlekuvo_reference::compare::ties::{too_few, Ties};
use jidlekuvo_reference::compare::{rattle, settings, Failure};
use jidlekuvo_reference::drive::{decode, drive_shown, RECORD, TOO_SHORT};
use jidlekuvo_reference::generate::{inputs, Random};
use jidlekuvo_reference::verdict::judge;

fn buffer(length: usize) -> Vec<u8> {
    vec![0x3C; length]
}

/// The bytes of the records that answer an input.
fn length_of(input: &[u8]) -> usize {
    decode(input).map_or(0, |(_, parts)| (parts.len() + 1) * RECORD)
}

/// What the Rattle side writes into a buffer so long and the ties that the calls met, or where the two builds
/// differ.
fn alike(input: &[u8], length: usize) -> Result<(Vec<u8>, Ties), String> {
    let (mut ours, mut theirs) = (buffer(length), buffer(length));
    let mut ties = Ties::default();
    let wanted = drive_shown(input, &mut ours, |run, reply| ties.look(run, reply));
    let written = rattle::drive(input, &mut theirs);
    if wanted == written && ours == theirs {
        return Ok((theirs, ties));
    }
    let at = (0..length / RECORD).find(|n| ours[n * RECORD..][..RECORD] != theirs[n * RECORD..][..RECORD]);
    let told = |out: &[u8]| at.map(|n| out[n * RECORD..][..RECORD].to_vec());
    Err(format!(
        "record {at:?} (0 is the opening): Rust {:?}, Rattle {:?}; answers {wanted}, {written}",
        told(&ours),
        told(&theirs)
    ))
}

fn compared(input: &[u8], length: usize) -> Result<(Vec<u8>, Ties), Failure> {
    alike(input, length).map_err(|_| {
        let smallest = smallest_call_list(input, |tried| alike(tried, length).is_err());
        Failure::new(alike(&smallest, length).err().unwrap_or_default(), &smallest)
    })
}

/// The functions that a host links, each call given the run that the one before left, answer as both builds do.
#[cfg(feature = "rattle_host")]
fn host_agrees(input: &[u8], records: &[u8]) -> Result<(), Failure> {
    use jidlekuvo_reference::compare::host::{difference, LINKED};
    if difference(LINKED, input, records).is_none() {
        return Ok(());
    }
    let again = |tried: &[u8]| {
        let mut ours = buffer(length_of(tried));
        rattle::drive(tried, &mut ours);
        difference(LINKED, tried, &ours)
    };
    let smallest = smallest_call_list(input, |tried| again(tried).is_some());
    Err(Failure::new(again(&smallest).unwrap_or_default(), &smallest))
}

#[cfg(not(feature = "rattle_host"))]
fn host_agrees(_: &[u8], _: &[u8]) -> Result<(), Failure> {
    Ok(())
}

/// A buffer that is too short: 36, and it stays as it was.
fn refused_for(input: &[u8], length: usize) -> Result<(), Failure> {
    let mut out = buffer(length);
    if rattle::drive(input, &mut out) == TOO_SHORT && out == buffer(length) {
        return Ok(());
    }
    Err(Failure::new(format!("no 36 for a buffer of {length} bytes"), input))
}

/// An exact fit or a few bytes over; and now and then both, one byte too few, and any length below. Gives the Rattle
/// side's records and the ties.
fn buffers_compared(random: &mut Random, input: &[u8]) -> Result<(Vec<u8>, Ties), Failure> {
    let length = length_of(input);
    let over = random.pick(&[0, 5]);
    let (mut records, ties) = compared(input, length + over)?;
    records.truncate(length);
    if length > 0 && random.one_in(30) {
        compared(input, length + 5 - over)?;
        refused_for(input, length - 1)?;
        refused_for(input, random.below(length))?;
    }
    Ok((records, ties))
}

/// Demand 3 on what the Rattle side answered.
fn demand_3_holds(input: &[u8], records: &[u8], hits: &mut Hits) -> Result<(), Failure> {
    let Some(log) = log::from_records(input, records) else { return Ok(()) };
    hits.log(&log);
    if log.answer.is_err() || log.calls.len() > 60 {
        markers::count(&markers::of_refusal(&log), hits);
        return Ok(());
    }
    let plan = judge(&log.opening.plan).map_err(|_| Failure::new("opened a refused plan", input))?;
    let judged = demand_3::judged(&plan, &log);
    hits.host_side(&log, judged.host);
    markers::count(&markers::of_log(&plan, &log, &judged), hits);
    match judged.breaches.first() {
        Some(breach) => Err(Failure::new(breach.told(), input)),
        None => Ok(()),
    }
}

#[test]
fn call_lists_agree() {
    let case = |random: &mut Random, hits: &mut Hits| {
        let input = inputs::call_list(random);
        let (records, ties) = buffers_compared(random, &input)?;
        host_agrees(&input, &records)?;
        ties.count_of_an_opening(hits).map_err(|what| Failure::new(what, &input))?;
        demand_3_holds(&input, &records, hits)
    };
    let cases = settings::cases(50_000);
    let hits = in_threads(settings::seed(), cases, case).unwrap_or_else(|what| panic!("{what}"));
    hits.print(&format!("{cases} call lists agree"));
    let missing = hits.missing(&wanted_of_runs());
    assert!(settings::is_by_hand() || missing.is_empty(), "never hit: {missing:?}");
    let few = [too_few(&hits, cases), markers::too_few(&hits, OF_LISTS, cases, 250)].concat();
    assert!(settings::is_by_hand() || few.is_empty(), "too few: {few:?}");
}
