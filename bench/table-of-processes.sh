#!/bin/bash
# Prints how many instructions one action costs in the table of processes alone, with 1, 4, 64 and
# 1,024 processes: settling, the fair pick, beginning, resting and counting the action; and a wait
# at a semaphore with its end, where nobody else waits there and where 1,022 others do.
# It works on a copy of the repository, to which it adds a small program; needs rt and valgrind.
set -e
top=$(cd "$(dirname "$0")/.." && pwd)
copy=$(mktemp -d)
trap 'rm -rf "$copy"' EXIT
cp -r "$top/crates" "$top/crates.txt" "$copy"
cd "$copy"
git init -q .
echo "turns: pfc_base pfc_state pfc_world pfc_sched rand_pcg" >> crates.txt
mkdir -p crates/turns/{src,specs,proofs/{turn_all,create_all,block_all,wait_all}}
cd crates/turns
touch specs/Lib.antt proofs/Lib.antt
cat > src/main.rt <<'PROGRAM'
#![tactic(auto)]
ghost use Rattle.std.specs.Prelude.{◌≡◌, None};
ghost use Rattle.pfc_world.specs.Tickets.{IsNew};

use pfc_sched::{Pick, Picker, Policy};
use pfc_world::{After, State, Why, World};
use std::env;
use std::process::ExitCode;

const ACTIONS: u64 = 2_000_000;
const LAST: u64 = 3_000_000;

fn turn_all(world: &mut World)
    requires { world.old.acting ≡ None }
{
    let mut picker = Picker::new(Policy::Fair { seed: 1 });
    for _i in 0..ACTIONS {
        let _ = world.settle();
        if let Pick::Process(p) = picker.pick(world) {
            if p < world.processes() && world.state(p) == State::Ready && world.done() < LAST && world.now() < LAST {
                let r = world.begin(p);
                world.rest(r);
                world.tick();
            }
        }
    }
}

fn create_all(world: &mut World)
    requires none { world.old.acting ≡ None }
    ensures none { world.new.acting ≡ None }
{
    for p in 1..world.processes() {
        if p < world.processes() {
            let _ = world.create(p);
        }
    }
}

fn start_all(world: &mut World)
    requires none { world.old.acting ≡ None }
    ensures none { world.new.acting ≡ None }
{
    if world.processes() > 0 && world.state(0) == State::Ready && world.done() < LAST && world.now() < LAST {
        world.tick();
        let main = world.begin(0);
        match world.coend(main) {
            After::Goes(r) => world.rest(r),
            After::Waits => {}
        }
    }
}

fn block_all(world: &mut World, first: u32)
    requires none { world.old.acting ≡ None }
    ensures none { world.new.acting ≡ None }
{
    for p in first..world.processes() {
        if p < world.processes() && world.state(p) == State::Ready && world.done() < LAST && world.now() < LAST {
            world.tick();
            let r = world.begin(p);
            world.block(r, Why::Semaphore(0));
        }
    }
}

fn wait_all(world: &mut World)
    requires { world.old.acting ≡ None }
{
    let p = 1;
    for _i in 0..ACTIONS {
        if p < world.processes() && world.state(p) == State::Ready && world.done() < LAST && world.now() < LAST {
            world.tick();
            let r = world.begin(p);
            world.block(r, Why::Semaphore(0));
            world.wake(p);
        }
    }
}

/// The tests of the two loops alone: whether they all held an odd number of times.
fn test_all(world: &World) -> bool {
    let mut odd = false;
    for i in 0..ACTIONS {
        let p = (i % 64) as u32;
        if p < world.processes() && world.state(p) == State::Ready && world.done() < LAST && world.now() < LAST {
            odd = !odd;
        }
    }
    odd
}

fn main(rt: HostRuntime) -> ExitCode {
    let Ok(args) = env::args(&rt) else {
        return ExitCode::from(14);
    };
    let words: Vec<String> = match args.collect(rt.alloc()) {
        Ok(words) => words,
        Err(_) => return ExitCode::from(8),
    };
    let case = words.len();
    let n = match case {
        2 => 1,
        3 => 4,
        4 => 64,
        5 => 1024,
        6 => 2,
        8 => 64,
        _ => 1024,
    };
    let Ok(mut world) = World::with_processes(rt.alloc(), n, 4, n) else {
        return ExitCode::from(8);
    };
    if case > 2 {
        create_all(&mut world);
        start_all(&mut world);
    }
    if case < 6 {
        turn_all(&mut world);
    } else if case == 8 {
        return ExitCode::from(u8::from(test_all(&world)));
    } else {
        block_all(&mut world, 2);
        wait_all(&mut world);
    }
    ExitCode::from(0)
}
PROGRAM
for loop in turn_all:i create_all:p block_all:p wait_all:i; do
    function=${loop%:*}
    variable=${loop#*:}
    cat > proofs/$function/Invariants.antt <<PROOF
use Rattle.std.proofs.Common.{◌≡◌, None}
use Rattle.turns.proofs.$function.Given as goal

abbrev pub invariant-loop-$variable : goal.invariant-loop-$variable
invariant-loop-$variable l = l.world.acting ≡ None
PROOF
done
rt run > build.log 2>&1 || { grep -v ': proved' build.log | tail -40; exit 1; }
counted() {
    valgrind --tool=callgrind --callgrind-out-file=counts ./out/turns "${@:2}" > valgrind.log 2>&1
    awk -v what="$1" '/Collected/ { printf "%s: %d instructions\n", what, $4 / 2000000 }' valgrind.log
}
counted "the tests of the program that is measured, which the others hold too" a a a a a a a
counted "an action with 1 process" a
counted "an action with 4 processes, 3 of them ready" a a
counted "an action with 64 processes, 63 of them ready" a a a
counted "an action with 1024 processes, 1023 of them ready" a a a a
counted "a wait and its end, alone at its semaphore" a a a a a
counted "a wait and its end, with 1022 others at its semaphore" a a a a a a
