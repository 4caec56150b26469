//! Bytes that the proved build copies in each row, by caller and size, as counted by the library that `rust/copies` loads
//! before the C library (counting_memcpy.rs).

use crate::batches::Turn;
use crate::cases::{Case, Work};
use crate::programs::{rattle_program, Input};
use crate::{files, runs};
use std::collections::BTreeMap;
use std::ffi::{c_char, c_void};
use std::io::{Error, Result};
use std::path::Path;
use std::process::{Command, Stdio};

/// How often each size was copied from each place of the program's file.
type Counts = BTreeMap<(usize, usize), f64>;
type Take = unsafe extern "C" fn(*mut [usize; 3], usize) -> usize;

const ROOM: usize = 1 << 14;
/// How many callers are named below a row.
const NAMED: usize = 8;

extern "C" {
    fn dlsym(handle: *mut c_void, name: *const c_char) -> *mut c_void;
}

/// The counting library's function, where that library is loaded.
fn taking() -> Option<Take> {
    // SAFETY: the only function of this name is the counting library's, which has this type.
    unsafe {
        let found = dlsym(std::ptr::null_mut(), c"jidlekuvo_take_copies".as_ptr());
        (!found.is_null()).then(|| std::mem::transmute::<*mut c_void, Take>(found))
    }
}

/// What a turn copies.
fn of_turn(turn: &mut Turn, take: Take) -> Counts {
    let mut taken = vec![[0; 3]; ROOM];
    // SAFETY: there is room for all.
    unsafe { take(taken.as_mut_ptr(), ROOM) };
    turn();
    let count = unsafe { take(taken.as_mut_ptr(), ROOM) };
    taken[..count].iter().map(|&[caller, size, calls]| ((caller, size), calls as f64)).collect()
}

/// One less the other, for each unit.
fn difference(mut whole: Counts, part: Counts, units: f64) -> Counts {
    for (place, calls) in part {
        *whole.entry(place).or_default() -= calls;
    }
    whole.values_mut().for_each(|calls| *calls /= units);
    whole
}

fn of_work(work: &mut Work, units: f64, take: Take) -> Counts {
    let whole = of_turn(&mut work.whole, take);
    let part = work.part.as_mut().map(|turn| of_turn(turn, take)).unwrap_or_default();
    difference(whole, part, units)
}

/// What the program *timetable* copies for so many positions.
fn of_program(positions: usize) -> Result<Counts> {
    let (input, told) = (Input::of_positions(positions)?, Input::path_of("copies"));
    let mut program = rattle_program().ok_or_else(|| Error::other("the program timetable is not there"))?;
    program.env("JIDLEKUVO_COPIES", &told).stdin(input.open()?).stdout(Stdio::null()).status()?;
    let text = std::fs::read_to_string(&told)?;
    std::fs::remove_file(&told)?;
    let numbers =
        |line: &str| line.split(' ').map(|word| word.parse().expect("a number")).collect::<Vec<usize>>();
    Ok(text.lines().map(numbers).map(|line| ((line[0], line[1]), line[2] as f64)).collect())
}

/// The functions of a program's file in order of their offsets, as `nm` tells them.
struct Names(Vec<(usize, String)>);

impl Names {
    fn of(program: &Path) -> Result<Names> {
        let listed = Command::new("nm").args(["-n", "--defined-only"]).arg(program).output()?;
        let text = String::from_utf8_lossy(&listed.stdout).into_owned();
        let name = |line: &str| {
            let mut words = line.splitn(3, ' ');
            let offset = usize::from_str_radix(words.next()?, 16).ok()?;
            Some((offset, words.nth(1)?.to_string()))
        };
        Ok(Names(text.lines().filter_map(name).collect()))
    }

    fn at(&self, offset: usize) -> &str {
        let after = self.0.partition_point(|(start, _)| *start < offset);
        self.0[..after].last().map_or("?", |(_, name)| name)
    }
}

/// Prints a row with the functions that copy most, and gives it as a row of Markdown.
fn told(name: &str, counts: &Counts, names: &Names) -> String {
    let mut by_function: BTreeMap<(&str, usize), f64> = BTreeMap::new();
    for (&(caller, size), calls) in counts {
        *by_function.entry((names.at(caller), size)).or_default() += calls;
    }
    let calls: f64 = counts.values().sum();
    let bytes: f64 = counts.iter().map(|((_, size), calls)| *size as f64 * calls).sum();
    println!("{name:<60} {bytes:>11.0} bytes in {calls:>7.1} calls");
    let mut largest: Vec<_> = by_function.into_iter().filter(|(_, calls)| *calls != 0.0).collect();
    largest.sort_by(|a, b| (b.0 .1 as f64 * b.1).total_cmp(&(a.0 .1 as f64 * a.1)));
    for ((function, size), calls) in largest.iter().take(NAMED) {
        println!("    {:>9.0} = {calls:>6.1} x {size:>6}  {function}", *size as f64 * calls);
    }
    format!("| {name} | {bytes:.0} | {calls:.0} |")
}

/// Every row that is timed, then a position of the program *timetable*.
pub fn print() -> Result<()> {
    let take = taking().ok_or_else(|| Error::other("memcpy is not counted: run rust/copies"))?;
    let own = Names::of(&std::env::current_exe()?)?;
    let mut table = vec![];
    let for_a_host = |case: Case| Case { name: format!("{}, for a host", case.name), ..case };
    let held = runs::held().into_iter().map(for_a_host);
    for Case { name, units, rattle, .. } in files::cases().into_iter().chain(runs::cases()).chain(held) {
        let Some(mut work) = rattle else { continue };
        table.push(told(&name, &of_work(&mut work, units, take), &own));
    }
    let program = rattle_program().ok_or_else(|| Error::other("the program timetable is not there"))?;
    let names = Names::of(Path::new(program.get_program()))?;
    let counts = difference(of_program(2_000)?, of_program(1_000)?, 1_000.0);
    table.push(told("timetable of T, a position", &counts, &names));
    println!("\n| copied by the proved build | bytes | calls |\n|---|---|---|\n{}", table.join("\n"));
    Ok(())
}
