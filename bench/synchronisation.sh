#!/bin/bash
# Prints how many instructions a pair of actions of two processes costs by the rules of synchronisation: a `wait` and
# a `signal`, the two sides of a message, a call of a monitor and its return, a call of an entry and its `accept`;
# and what the same actions cost in the table alone: where nobody waits, where one process waits and is woken, where it
# waits twice, as a caller does, and where a partner is looked for as well, as for a message. There are 64 processes.
# Then, with 64 and with 1,002, where all but three wait: a `resume` and a new `delay` at one condition, where all ranks
# are equal and where they are drawn; two that sleep and wake, where the others sleep; and the two that look for a
# partner, where the others wait at channels of their own. Last, a turn of a scan of all who are barred at one resource.
# It works on a copy of the repository, to which it adds a small program; needs rt and valgrind.
set -e
top=$(cd "$(dirname "$0")/.." && pwd)
copy=$(mktemp -d)
trap 'rm -rf "$copy"' EXIT
cp -r "$top/crates" "$top/crates.txt" "$copy"
cd "$copy"
git init -q .
echo "pairs: pfc_base pfc_state pfc_world pfc_pass pfc_monitor pfc_meet" >> crates.txt
mkdir -p crates/pairs/{src,specs,proofs/{create_all,repeat,delay_all,send_all,sleep_all,bar_all}}
cd crates/pairs
touch specs/Lib.antt proofs/Lib.antt
cat > src/main.rt <<'PROGRAM'
#![tactic(auto)]
ghost use Rattle.std.specs.Prelude.{◌≡◌, None, Some, MatchOption};
ghost use Rattle.pfc_world.specs.Tickets.{IsNew};

use pfc_meet::{Accepted, Called, Uncalled, accept, call_entry, end_accept};
use pfc_monitor::{Monitors, delay, enter, leave, resume};
use pfc_pass::{Passed, Semaphores, receive, sem_signal, sem_wait, send};
use pfc_world::{After, Arm, Running, State, Why, World};
use std::env;
use std::process::ExitCode;

const PAIRS: u64 = 100_000;
const LAST: u64 = 3_000_000;

/// The next action is that of process p, where it is ready.
fn next_action(world: &mut World, p: u32) -> Option<Running>
    requires { world.old.acting ≡ None }
    ensures acts { MatchOption result (world.new.acting ≡ None) (λ r. world.new.acting ≡ Some r.number) }
    ensures fresh { MatchOption result (world.new.acting ≡ None) (λ r. IsNew world.new.rows world.new.done) }
{
    if p >= world.processes() || world.done() >= LAST || world.now() >= LAST {
        return None;
    }
    world.tick();
    match world.state(p) {
        State::Ready => Some(world.begin(p)),
        _ => None,
    }
}

fn create_all(world: &mut World)
    requires { world.old.acting ≡ None }
    ensures { world.new.acting ≡ None }
{
    for p in 1..world.processes() {
        if p < world.processes() {
            let _ = world.create(p);
        }
    }
}

fn start_all(world: &mut World)
    requires { world.old.acting ≡ None }
    ensures { world.new.acting ≡ None }
{
    if let Some(main) = next_action(world, 0) {
        match world.coend(main) {
            After::Goes(r) => world.rest(r),
            After::Waits => {}
        }
    }
}

/// The wait of process 1 is over, where it waits.
fn free(world: &mut World)
    requires { world.old.acting ≡ None }
    ensures { world.new.acting ≡ None }
{
    if 1 < world.processes() {
        if let State::Waiting(_why) = world.state(1) {
            world.wake(1);
        }
    }
}

/// Two actions that rest.
fn two_rests(world: &mut World)
    requires { world.old.acting ≡ None }
    ensures { world.new.acting ≡ None }
{
    if let Some(r) = next_action(world, 1) {
        world.rest(r);
    }
    if let Some(r) = next_action(world, 1) {
        world.rest(r);
    }
}

/// An action that waits, and one that ends the wait.
fn wait_and_wake(world: &mut World)
    requires { world.old.acting ≡ None }
    ensures { world.new.acting ≡ None }
{
    if let Some(r) = next_action(world, 1) {
        world.block(r, Why::Semaphore(0));
    }
    if let Some(r) = next_action(world, 2) {
        world.rest(r);
        free(world);
    }
}

/// An action that waits, one that ends the wait and begins another, and the end of that.
fn wait_twice(world: &mut World)
    requires { world.old.acting ≡ None }
    ensures { world.new.acting ≡ None }
{
    wait_and_wake(world);
    if let Some(r) = next_action(world, 1) {
        world.block(r, Why::Meeting(2));
    }
    free(world);
}

/// An action that waits to send, and one that ends the wait; both look for who waits on the other side.
fn look_and_wake(world: &mut World)
    requires { world.old.acting ≡ None }
    ensures { world.new.acting ≡ None }
{
    if let Some(r) = next_action(world, 1) {
        match world.first_open_to(Arm::Receive(0)) {
            Some(_receiver) => world.rest(r),
            None => world.block(r, Why::Send(0)),
        }
    }
    if let Some(r) = next_action(world, 2) {
        if let Some(sender) = world.first_open_to(Arm::Send(0)) {
            world.wake(sender.process);
        }
        world.rest(r);
    }
}

fn wait_and_signal(world: &mut World, sems: &mut Semaphores)
    requires { world.old.acting ≡ None }
    ensures { world.new.acting ≡ None }
{
    if !sems.has(0) {
        return;
    }
    if let Some(r) = next_action(world, 1) {
        let waited = sem_wait(world, sems, r, 0);
        match waited {
            After::Goes(r) => world.rest(r),
            After::Waits => {}
        }
    }
    if let Some(r) = next_action(world, 2) {
        world.rest(r);
        let _ = sem_signal(world, sems, 0);
    }
}

fn message(world: &mut World)
    requires { world.old.acting ≡ None }
    ensures { world.new.acting ≡ None }
{
    if let Some(r) = next_action(world, 1) {
        let sent = send(world, r, 0);
        match sent {
            Passed::Met { r, partner: _partner, alternative: _alternative } => world.rest(r),
            Passed::Waits => {}
        }
    }
    if let Some(r) = next_action(world, 2) {
        let received = receive(world, r, 0);
        match received {
            Passed::Met { r, partner: _partner, alternative: _alternative } => world.rest(r),
            Passed::Waits => {}
        }
    }
}

fn enter_and_leave(world: &mut World, mons: &mut Monitors)
    requires { world.old.acting ≡ None }
    ensures { world.new.acting ≡ None }
{
    if !mons.has(0) {
        return;
    }
    if let Some(r) = next_action(world, 1) {
        let entered = enter(world, mons, r, 0);
        match entered {
            After::Goes(r) => world.rest(r),
            After::Waits => {}
        }
    }
    if let Some(r) = next_action(world, 1) {
        world.rest(r);
        if let Some(holder) = mons.holder(0) {
            let _ = leave(world, mons, holder, 0);
        }
    }
}

fn call_and_accept(world: &mut World)
    requires { world.old.acting ≡ None }
    ensures { world.new.acting ≡ None }
{
    if let Some(r) = next_action(world, 1) {
        if 2 < world.processes() {
            let called = call_entry(world, r, 2, 0);
            match called {
                Ok(_) => {}
                Err(Uncalled { r }) => world.rest(r),
            }
        } else {
            world.rest(r);
        }
    }
    if let Some(r) = next_action(world, 2) {
        let accepted = accept(world, r, 0);
        match accepted {
            Accepted::Met { r, caller: _caller } => world.rest(r),
            Accepted::Waits => {}
        }
    }
    free(world);
}

/// A process enters the monitor.
fn enter_alone(world: &mut World, mons: &mut Monitors, p: u32)
    requires { world.old.acting ≡ None }
    ensures { world.new.acting ≡ None }
{
    if !mons.has(0) {
        return;
    }
    if let Some(r) = next_action(world, p) {
        let entered = enter(world, mons, r, 0);
        match entered {
            After::Goes(r) => world.rest(r),
            After::Waits => {}
        }
    }
}

/// 0, or a rank that is drawn and rises with the actions, so that a new one comes anywhere among those that wait.
fn rank_of(world: &World, drawn: bool) -> i32 {
    if !drawn {
        return 0;
    }
    let actions = world.done() % 1_000_000;
    let word = (actions as u32).wrapping_mul(2_654_435_769) / 65_536;
    let risen = if world.processes() > 64 { actions * 16 } else { actions * 256 };
    i32::try_from(risen + u64::from(word)).unwrap_or(0)
}

/// The holder of the monitor waits at its condition.
fn delay_holder(world: &mut World, mons: &mut Monitors, drawn: bool)
    requires { world.old.acting ≡ None }
    ensures { world.new.acting ≡ None }
{
    if !mons.has_condition(0) {
        return;
    }
    let m = mons.monitor_of(0);
    if let Some(p) = mons.holder(m) {
        if let Some(r) = next_action(world, p) {
            if mons.holder(m) == Some(r.number()) {
                let rank = rank_of(world, drawn);
                let _ = delay(world, mons, r, 0, rank);
            } else {
                world.rest(r);
            }
        }
    }
}

/// The holder of the monitor resumes the first that waits at its condition, which waits there anew.
fn resume_and_delay(world: &mut World, mons: &mut Monitors, drawn: bool)
    requires { world.old.acting ≡ None }
    ensures { world.new.acting ≡ None }
{
    if !mons.has_condition(0) {
        return;
    }
    let m = mons.monitor_of(0);
    if let Some(r) = next_action(world, 1) {
        if mons.holder(m) == Some(r.number()) {
            let resumed = resume(world, mons, r, 0);
            match resumed {
                After::Goes(r) => world.rest(r),
                After::Waits => {}
            }
        } else {
            world.rest(r);
        }
    }
    delay_holder(world, mons, drawn);
}

/// All but the first three wait at the condition, and process 1 holds its monitor.
fn delay_all(world: &mut World, mons: &mut Monitors, drawn: bool)
    requires { world.old.acting ≡ None }
    ensures { world.new.acting ≡ None }
{
    for p in 3..1002 {
        enter_alone(world, mons, p);
        delay_holder(world, mons, drawn);
    }
    enter_alone(world, mons, 1);
}

/// All but the first three wait to send, each to a channel of its own.
fn send_all(world: &mut World)
    requires { world.old.acting ≡ None }
    ensures { world.new.acting ≡ None }
{
    for p in 3..1002 {
        if let Some(r) = next_action(world, p) {
            world.block(r, Why::Send(p));
        }
    }
}

/// An action that sleeps until a drawn moment that does not come, and one that ends the wait.
fn sleep_and_wake(world: &mut World)
    requires { world.old.acting ≡ None }
    ensures { world.new.acting ≡ None }
{
    sleep(world, 1);
    if let Some(r) = next_action(world, 2) {
        world.rest(r);
        free(world);
    }
}

fn sleep(world: &mut World, p: u32)
    requires { world.old.acting ≡ None }
    ensures { world.new.acting ≡ None }
{
    if let Some(r) = next_action(world, p) {
        let moment = LAST + world.done() % 1_000 * 761 % 1_000;
        world.block(r, Why::Sleep(moment));
    }
}

/// All but the first three sleep.
fn sleep_all(world: &mut World)
    requires { world.old.acting ≡ None }
    ensures { world.new.acting ≡ None }
{
    for p in 3..1002 {
        sleep(world, p);
    }
}

/// All but the first three are barred at one resource.
fn bar_all(world: &mut World)
    requires { world.old.acting ≡ None }
    ensures { world.new.acting ≡ None }
{
    for p in 3..1002 {
        if let Some(r) = next_action(world, p) {
            let why = Why::Barred { resource: 0, procedure: 0 };
            world.block(r, why);
        }
    }
}

/// A turn of a scan past a ticket: the ticket of who is barred next, or None behind the last.
fn turn_of_scan(world: &mut World, after: Option<u64>) -> Option<u64> {
    match world.next_barred(0, after) {
        Some(p) => world.ticket(p),
        None => None,
    }
}

/// Scans of all who are barred, one behind the other.
fn scan_all(world: &mut World) {
    let mut after = None;
    for _i in 0..PAIRS {
        after = turn_of_scan(world, after);
    }
}

fn pair(world: &mut World, sems: &mut Semaphores, mons: &mut Monitors, case: u32)
    requires { world.old.acting ≡ None }
    ensures { world.new.acting ≡ None }
{
    match case {
        2 => two_rests(world),
        3 => wait_and_wake(world),
        4 => wait_twice(world),
        5 => wait_and_signal(world, sems),
        6 => message(world),
        7 => enter_and_leave(world, mons),
        8 => call_and_accept(world),
        9 | 11 => look_and_wake(world),
        10 | 12 => resume_and_delay(world, mons, false),
        13 | 14 => resume_and_delay(world, mons, true),
        15 | 16 => sleep_and_wake(world),
        _ => {}
    }
}

fn repeat(world: &mut World, sems: &mut Semaphores, mons: &mut Monitors, case: u32)
    requires { world.old.acting ≡ None }
{
    for _i in 0..PAIRS {
        pair(world, sems, mons, case);
    }
}

fn main(rt: HostRuntime) -> ExitCode {
    let Ok(args) = env::args(&rt) else {
        return ExitCode::from(14);
    };
    let words: Vec<String> = match args.collect(rt.alloc()) {
        Ok(words) => words,
        Err(_) => return ExitCode::from(8),
    };
    let case = match words.get(1) {
        Some(word) => word.parse::<u32>().unwrap_or(0),
        None => 0,
    };
    let n = match case {
        10 | 11 | 13 | 15 | 17 => 1_002,
        _ => 64,
    };
    let Ok(mut world) = World::with_processes(rt.alloc(), n, 4, n) else {
        return ExitCode::from(8);
    };
    let Ok(mut sems) = Semaphores::new(rt.alloc(), 1) else {
        return ExitCode::from(8);
    };
    let Ok(mut mons) = Monitors::new(rt.alloc(), 1, &[0]) else {
        return ExitCode::from(8);
    };
    create_all(&mut world);
    start_all(&mut world);
    match case {
        10 | 12 => delay_all(&mut world, &mut mons, false),
        13 | 14 => delay_all(&mut world, &mut mons, true),
        11 => send_all(&mut world),
        15 | 16 => sleep_all(&mut world),
        17 | 18 => bar_all(&mut world),
        _ => {}
    }
    match case {
        17 | 18 => scan_all(&mut world),
        _ => repeat(&mut world, &mut sems, &mut mons, case),
    }
    ExitCode::from(0)
}
PROGRAM
for loop in create_all:p repeat:i delay_all:p send_all:p sleep_all:p bar_all:p; do
    function=${loop%:*}
    variable=${loop#*:}
    cat > proofs/$function/Invariants.antt <<PROOF
use Rattle.std.proofs.Common.{◌≡◌, None}
use Rattle.pairs.proofs.$function.Given as goal

abbrev pub invariant-loop-$variable : goal.invariant-loop-$variable
invariant-loop-$variable l = l.world.acting ≡ None
PROOF
done
rt run > build.log 2>&1 || { grep -v ': proved' build.log | tail -40; exit 1; }
counted() {
    valgrind --tool=callgrind --callgrind-out-file=counts ./out/pairs "${@:2}" > valgrind.log 2>&1
    awk -v what="$1" '/Collected/ { printf "%s: %d instructions\n", what, $4 / 100000 }' valgrind.log
}
counted "the table alone: two actions that rest" 2
counted "the table alone: an action that waits, and one that wakes it" 3
counted "the table alone: the same, and a second wait of the first" 4
counted "the table alone: two actions that look for a partner, one that waits and one that wakes it" 9
counted "a wait and a signal that ends it" 5
counted "a message, where the sender waits" 6
counted "a call of a free monitor and its return" 7
counted "a call of an entry, its accept and the end of the meeting" 8
counted "a resume and a new delay with equal ranks, where 60 wait at one condition" 12
counted "a resume and a new delay with equal ranks, where 1,000 wait at one condition" 10
counted "a resume and a new delay with drawn ranks, where 60 wait at one condition" 14
counted "a resume and a new delay with drawn ranks, where 1,000 wait at one condition" 13
counted "two actions, one that sleeps and one that wakes it, where 60 sleep" 16
counted "two actions, one that sleeps and one that wakes it, where 1,000 sleep" 15
counted "two actions that look for a partner, one that waits and one that wakes it, where 1,000 wait at channels of their own" 11
counted "a turn of a scan, where 60 are barred" 18
counted "a turn of a scan, where 1,000 are barred" 17
