//! Where nodes stand in both builds: questions after the opening and after every call of a list. The
//! Rattle side's answers are also checked by themselves.

#![cfg(feature = "rattle_drive")]

use jidlekuvo_reference::check::{expected, log, places};
use jidlekuvo_reference::compare::hits::Hits;
use jidlekuvo_reference::compare::smaller::smallest_call_list;
use jidlekuvo_reference::compare::threads::in_threads;
use jidlekuvo_reference::compare::{rattle, settings, Failure};
use jidlekuvo_reference::drive::{decode, drive, RECORD};
use jidlekuvo_reference::generate::questions::{list_to_ask, with_questions};
use jidlekuvo_reference::generate::Random;

const SEVERAL_PATHS: &str = "several paths in one call";

/// The Rattle side's records, or where the two builds differ.
fn alike(input: &[u8]) -> Result<Vec<u8>, String> {
    let length = decode(input).map_or(0, |(_, parts)| (parts.len() + 1) * RECORD);
    let (mut ours, mut theirs) = (vec![0; length], vec![0; length]);
    let wanted = drive(input, &mut ours);
    let written = rattle::drive(input, &mut theirs);
    if wanted == written && ours == theirs {
        return Ok(theirs);
    }
    let differ = |(n, (our, their)): (usize, (&[u8], &[u8]))| {
        (our != their).then(|| (n, our.to_vec(), their.to_vec()))
    };
    let pairs = ours.chunks_exact(RECORD).zip(theirs.chunks_exact(RECORD));
    Err(format!(
        "record, Rust, Rattle: {:?}; answers {wanted}, {written}",
        pairs.enumerate().find_map(differ)
    ))
}

fn checked(input: &[u8]) -> Result<(Vec<u8>, Vec<&'static str>), String> {
    let records = alike(input)?;
    let seen = places::check(input, &records)?;
    Ok((records, seen))
}

/// Whether some call of the list loaded more than one path.
fn has_several_paths(input: &[u8], records: &[u8]) -> Result<bool, String> {
    match log::from_records(input, records) {
        Some(log) => Ok(expected::check(&log)? > 1),
        None => Ok(false),
    }
}

#[test]
fn places_agree() {
    let case = |random: &mut Random, hits: &mut Hits| {
        let list = list_to_ask(random);
        let input = with_questions(&list);
        let (records, seen) = checked(&input).map_err(|_| {
            let smallest = smallest_call_list(&list, |tried| checked(&with_questions(tried)).is_err());
            let input = with_questions(&smallest);
            Failure::new(checked(&input).err().unwrap_or_default(), &input)
        })?;
        seen.into_iter().for_each(|what| hits.hit(what));
        if random.one_in(10)
            && has_several_paths(&input, &records).map_err(|what| Failure::new(what, &input))?
        {
            hits.hit(SEVERAL_PATHS);
        }
        Ok(())
    };
    let cases = settings::cases(20_000);
    let hits = in_threads(settings::seed(), cases, case).unwrap_or_else(|what| panic!("{what}"));
    hits.print(&format!("{cases} lists with questions agree"));
    let wanted = [
        places::USED_AGAIN,
        places::SEVERAL_GAPS,
        places::ABSENT,
        places::REFUSED,
        places::KEPT_OVER_43,
        places::KEPT_OVER_44,
        places::LOADED_BEFORE,
        places::MARKER_LEFT,
        SEVERAL_PATHS,
    ];
    let missing = hits.missing(&wanted.map(String::from));
    assert!(settings::is_by_hand() || missing.is_empty(), "never hit: {missing:?}");
}
