#!/bin/bash
# Prints how many instructions `races` takes for 2,000 events of 64 processes, in runs of several shapes: what it takes to make
# the events is taken off. It works on a copy of the repository, to which it adds a small program; needs rt and valgrind.
set -e
top=$(cd "$(dirname "$0")/.." && pwd)
copy=$(mktemp -d)
trap 'rm -rf "$copy"' EXIT
mkdir "$copy/crates"
cp -r "$top/crates/pfc_base" "$top/crates/pfc_hb" "$copy/crates"
cp "$top/HANDLES" "$copy"
cd "$copy"
git init -q .
grep -E '^(pfc_base|pfc_hb):' "$top/crates.txt" > crates.txt
echo "raced: pfc_base pfc_hb" >> crates.txt
mkdir -p crates/raced/{src,specs,proofs/events_of}
cd crates/raced
touch specs/Lib.antt proofs/Lib.antt
cat > src/main.rt <<'PROGRAM'
#![tactic(auto)]
ghost use Rattle.std.specs.Prelude.{◌<◌, ◌≤◌, length, IfOk};

use pfc_base::Memory;
use pfc_hb::{Access, Accesses, Event, Numbers, Path, Spot, Thing, Things, races};
use std::alloc::Global;
use std::env;
use std::process::ExitCode;

const EVENTS: u32 = 2000;

/// What an event touches: a variable and a semaphore, each where it is below 10,000, whom it wakes, in how many more variables the
/// same part and in one more a part of its own, and how many semaphores.
#[derive(Clone, Copy)]
struct Touched {
    write: bool,
    variable: u32,
    thing: u32,
    wakes: u32,
    more: u32,
    things: u32,
}

const NONE: u32 = 10000;

/// The part of its variable that the event at a place touches.
fn push_steps(steps: &mut Vec<i32>, shape: usize, at: u32) -> Result<(), Memory>
    requires { at < 2000 }
{
    match shape {
        11 => steps.push(at as i32)?,
        12 => {
            steps.push(1)?;
            steps.push(at as i32)?;
        }
        13 => steps.push((at % 8) as i32)?,
        14 => {
            steps.push(at as i32)?;
            steps.push(1)?;
        }
        15 => steps.push((at % 1000) as i32)?,
        16 => {
            steps.push(1)?;
            if at % 2 == 0 {
                steps.push(at as i32)?;
            }
        }
        17 => {
            steps.push(1)?;
            steps.push((at % 2) as i32)?;
            if at % 2 == 0 {
                steps.push(at as i32)?;
            }
        }
        18 | 19 => push_turn(steps, at, at / 2 % 2 == 0)?,
        20 => push_turn(steps, at, at % 2 == 0)?,
        21 => {
            if at % 3 > 0 {
                push_turn(steps, at, at % 3 == 1)?;
            }
        }
        24 => {
            if at % 2 == 0 {
                steps.push(at as i32)?;
            }
        }
        25 => push_deep(steps, at, 20)?,
        26 => push_deep(steps, at, at % 20)?,
        _ => {}
    }
    Ok(())
}

/// One element of an array, or an element of that.
fn push_turn(steps: &mut Vec<i32>, at: u32, short: bool) -> Result<(), Memory>
    requires { at < 2000 }
{
    steps.push(1)?;
    if !short {
        steps.push(at as i32)?;
    }
    Ok(())
}

/// A part of an array of so many dimensions, every second time half as deep.
fn push_deep(steps: &mut Vec<i32>, at: u32, depth: u32) -> Result<(), Memory>
    requires { at < 2000 }
{
    for _step in 0..if at % 2 == 0 { depth / 2 } else { depth } {
        steps.push(1)?;
    }
    if at % 2 == 1 && depth == 20 {
        steps.push(at as i32)?;
    }
    Ok(())
}

/// What the event at a place touches in the run of a shape.
fn share_of(shape: usize, at: u32) -> Touched
    requires { at < 2000 }
{
    let process = at % 64;
    let nothing = Touched {
        write: true,
        variable: NONE,
        thing: NONE,
        wakes: NONE,
        more: 0,
        things: 1,
    };
    match shape {
        1 => Touched { variable: process, ..nothing },
        2 => Touched { variable: 0, ..nothing },
        3 => Touched { thing: process, ..nothing },
        4 => Touched { thing: process, variable: process, ..nothing },
        5 => Touched { thing: process, variable: 0, ..nothing },
        6 => Touched { thing: 0, variable: process % 7, ..nothing },
        7 => {
            if at / 64 % 4 == 0 {
                Touched { thing: process % 8, ..nothing }
            } else {
                Touched { variable: at * 37 % 41, write: at % 3 == 0, ..nothing }
            }
        }
        8 => Touched { variable: process, wakes: (process + 1) % 64, ..nothing },
        10 => Touched { variable: at, ..nothing },
        11 | 12 | 14 | 16 | 17 => Touched { variable: 0, ..nothing },
        13 => Touched { variable: at / 8, ..nothing },
        15 | 20 => Touched { variable: 0, write: at % 3 == 0, ..nothing },
        18 | 19 => Touched { variable: at % 2, write: shape == 18 || at % 3 == 0, ..nothing },
        21 | 25 | 26 => Touched { variable: 0, ..nothing },
        22 | 23 | 24 => Touched { variable: 0, more: shape as u32 - 21, ..nothing },
        27 => Touched { variable: 0, thing: at, ..nothing },
        28 => Touched { variable: 0, thing: process * 8, things: 8, ..nothing },
        _ => {
            if at % 5 == 0 {
                Touched { thing: at * 7 % 16, ..nothing }
            } else {
                Touched { variable: at * 37 % 41, write: at % 3 == 0, ..nothing }
            }
        }
    }
}

fn access_of(
    alloc: Global,
    shape: usize,
    at: u32,
    variable: u32,
    write: bool,
) -> Result<Access, Memory>
    requires { at < 2000 }
{
    let mut steps = Vec::new(alloc);
    push_steps(&mut steps, shape, at)?;
    let spot = Spot {
        activation: 0,
        variable,
        path: Path::from_vec(steps),
    };
    Ok(Access { spot, write })
}

fn event_of(alloc: Global, shape: usize, at: u32) -> Result<Event, Memory>
    requires { at < 2000 }
{
    let touched = share_of(shape, at);
    let mut wakes = Vec::new(alloc);
    let mut things = Vec::new(alloc);
    let mut accesses = Vec::new(alloc);
    if touched.wakes < NONE {
        wakes.push(touched.wakes)?;
    }
    if touched.thing < NONE {
        for thing in 0..touched.things.min(8) {
            things.push(Thing::Semaphore(touched.thing + thing))?;
        }
    }
    if touched.variable < NONE {
        accesses.push(access_of(alloc, shape, at, touched.variable, touched.write)?)?;
        for variable in 0..touched.more.min(8) {
            accesses.push(access_of(alloc, shape, at, variable + 1, touched.write)?)?;
        }
        if touched.more == 1 {
            accesses.push(access_of(alloc, shape, at, at + 10, touched.write)?)?;
        }
    }
    Ok(Event {
        process: at % 64,
        line: 1,
        joins: false,
        wakes: Numbers::from_vec(wakes),
        things: Things::from_vec(things),
        accesses: Accesses::from_vec(accesses),
    })
}

fn events_of(alloc: Global, shape: usize) -> Result<Vec<Event>, Memory>
    ensures { IfOk result (λ events. length events.items ≤ 2000) }
{
    let mut events = Vec::new(alloc);
    for at in 0..EVENTS {
        events.push(event_of(alloc, shape, at)?)?;
    }
    Ok(events)
}

fn count(alloc: Global, shape: usize, all: bool) -> Result<usize, Memory> {
    let events = events_of(alloc, shape)?;
    if all {
        let found = races(alloc, &events)?;
        return Ok(found.len());
    }
    Ok(0)
}

/// One word for each shape counted from 1, and a word more to make the events alone, an even number of words
fn main(rt: HostRuntime) -> ExitCode {
    let Ok(args) = env::args(&rt) else {
        return ExitCode::from(14);
    };
    let words: Vec<String> = match args.collect(rt.alloc()) {
        Ok(words) => words,
        Err(_) => return ExitCode::from(8),
    };
    match count(rt.alloc(), words.len() / 2, words.len() % 2 == 0) {
        Ok(found) => ExitCode::from((found % 256) as u8),
        Err(Memory) => ExitCode::from(8),
    }
}
PROGRAM
cat > proofs/events_of/Invariants.antt <<'PROOF'
use Rattle.std.proofs.Common.{◌≡◌, length}
use Rattle.raced.proofs.events_of.Given as goal

abbrev pub invariant-loop-at : goal.invariant-loop-at
invariant-loop-at l = length l.events.items ≡ l.at
PROOF
rt fmt > /dev/null
rt run > build.log 2>&1 || { [ -x out/raced ] || { grep -v ': proved' build.log | tail -40; exit 1; }; }
collected() {
    valgrind --tool=callgrind --callgrind-out-file=counts ./out/raced "$@" > valgrind.log 2>&1 || true
    awk '/Collected/ { print $4 }' valgrind.log
}
words=(a)
while read -r shape; do
    words+=(a)
    made=$(collected "${words[@]}")
    all=$(collected "${words[@]:1}")
    echo "$shape: $((all - made)) instructions"
    words+=(a)
done <<'SHAPES'
each process writes a variable of its own
all write one variable
each process waits at a semaphore of its own
each process writes a variable of its own and waits at a semaphore of its own
all write one variable and wait at semaphores of their own
all wait at one semaphore and write one of seven variables
turns at eight semaphores, between them three accesses of 41 variables
each process writes its variable and wakes the next process
random accesses of 41 variables, one event in five at 16 semaphores
each event writes another variable
each event writes another element of one array
each event writes another element of one element of an array
each event writes another field of one of 250 records
each event writes the same field of another element of an array
reads and writes of the elements of one array, 1,000 in turn
turns of a write of one element of an array and of a write of another of that element's elements
turns of a write of one element of an element and of a write of another part of the element beside it
the turns of a write of one element of an array and of a write of another of that element's elements in each of two arrays
the same of reads and writes
reads and writes of one element of an array and of another of that element's elements
turns of a write of an array, of one of its elements and of another of that element's elements
each event writes two variables and another one of its own
each event writes three variables
each event writes four arrays, or another element of each
turns of a write of a part at 10 steps and of another part of that at 21 steps
writes of parts at up to 20 steps that hold one another
all write one variable and wait at 2,000 semaphores of their own
all write one variable and wait at eight semaphores of their process
SHAPES
