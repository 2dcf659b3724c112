//! What the library asks of a thread: stack for a call, and nothing kept between calls.

use std::thread;

use firnolvag::{Method, Queue, STACK, Table, check, route, row, sound, table, table_by};

use crate::calls::{Case, Room};
use crate::plan::Plan;
use crate::plans;
use crate::random::Random;

/// What this test and the start of a thread take themselves.
const OWN_STACK: usize = 128 * 1024;

#[test]
fn a_small_stack_is_enough_for_every_call() {
    let random = &mut Random::of_test("stack", 14);
    let files: Vec<Vec<u8>> = plans::at_the_bounds(random).iter().map(Plan::file).collect();
    let count = files.len();
    let small = thread::Builder::new().stack_size(STACK + OWN_STACK);
    small.spawn(move || files.iter().for_each(|file| make_every_call(file))).unwrap().join().unwrap();
    println!("stack: every call with {count} plans at the bounds, in a thread of {} bytes", STACK + OWN_STACK);
}

fn make_every_call(file: &[u8]) {
    let stations = sound(file).unwrap().stations;
    let table = table(file).unwrap();
    for method in [Method::Plain, Method::Reuse, Method::Prune] {
        for queue in [Queue::Heap, Queue::Shelf] {
            assert_eq!(table_by(file, method, queue).unwrap().costs(), table.costs());
            row(file, stations - 1, method, queue).unwrap();
        }
    }
    let first = table.row(0);
    assert_eq!(route(file, 0, stations - 1).ok().map(|route| route.cost), first.cost(stations - 1));
    check(file, 0, first.costs(), first.predecessors()).unwrap();
}

#[test]
fn calls_in_several_threads_do_not_disturb_each_other() {
    let threads: Vec<_> = (0..4).map(|number| thread::spawn(move || try_many(number))).collect();
    threads.into_iter().for_each(|thread| thread.join().unwrap());
}

/// Tries tables of one thread's own plans.
fn try_many(number: u64) {
    let random = &mut Random::of_test("threads", 15 + number);
    for _ in 0..200 {
        let case = Case::of(plans::random_plan(random, 40, 400).file());
        let cells = usize::from(case.stations()).pow(2);
        case.try_table(None, Room { costs: cells, predecessors: cells, facts: 5 });
    }
}

#[test]
fn what_is_answered_may_pass_between_threads() {
    fn passes<T: Send + Sync + 'static>() {}
    passes::<Table>();
    passes::<firnolvag::WorkedRow>();
    passes::<firnolvag::Route>();
    passes::<firnolvag::Refusal>();
}
