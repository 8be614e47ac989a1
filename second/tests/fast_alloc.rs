//! A compiler with its scratch made allocates nothing, and neither does the evaluation by sets.

use second::fast::Compiler;
use second::generate::{job, made, Family};
use second::job::{Answer, Job, Lent, Node};
use second::known;
use std::alloc::{GlobalAlloc, Layout, System};
use std::cell::Cell;

thread_local! {
    /// Of this thread alone: the test's harness allocates beside it.
    static ALLOCATED: Cell<usize> = const { Cell::new(0) };
}

struct Counting;

// SAFETY: all calls go on to the system allocator unchanged.
unsafe impl GlobalAlloc for Counting {
    unsafe fn alloc(&self, layout: Layout) -> *mut u8 {
        let _ = ALLOCATED.try_with(|count| count.set(count.get() + 1));
        System.alloc(layout)
    }

    unsafe fn dealloc(&self, memory: *mut u8, layout: Layout) {
        System.dealloc(memory, layout)
    }
}

#[global_allocator]
static COUNTING: Counting = Counting;

#[test]
fn compile_allocates_nothing() {
    let mut compiler = Compiler::new();
    let mut lent = Lent {
        nodes: vec![Node::default(); 10_000],
        records: vec![0; 80],
        rows: vec![0; 65_536],
    };
    let mut full = Job {
        inputs: 12,
        outputs: 8,
        cell_inputs: 12,
        cell_outputs: 8,
        order: (0..12).chain(128..136).collect(),
        sheet: vec![],
    };
    let mut state = 12345u32;
    for records in 0..=256 {
        full.sheet.clear();
        for record in 0..records {
            state = state.wrapping_mul(1_664_525).wrapping_add(1_013_904_223);
            let one = (state >> 24) as u8;
            let value = ((record * 1021) % 4096) as u16;
            let [a, b] = value.to_le_bytes();
            full.sheet.extend([0xff, 0x0f, a, b, !one, one, 0, 0]);
        }
        let before = ALLOCATED.get();
        let answer = compiler.compile(&full, &mut lent);
        assert_eq!(ALLOCATED.get(), before);
        assert!(matches!(answer, Answer::Accepted(_)));
    }
    // Outputs above inputs, accepted and refused, and stop records.
    for family in [
        Family::LimitNamed,
        Family::DependentAbove,
        Family::LimitStop,
    ] {
        for index in 0..50 {
            let given = job(family, 1, index);
            let before = ALLOCATED.get();
            let answer = compiler.compile(&given, &mut lent);
            assert_eq!(ALLOCATED.get(), before);
            let above = family == Family::DependentAbove;
            assert_eq!(answer == Answer::Refused(6), above, "{given:?}");
        }
    }
}

#[test]
fn sets_allocate_nothing() {
    for index in 0..64 {
        let (records, rows) = made(1, index);
        let before = ALLOCATED.get();
        for known in [0xFFFF, 0x5A5, 0] {
            assert!(known::sets(&records, &rows, known, 0x333).is_ok());
            assert_eq!(known::sets(&records[1..], &rows, known, 0x333), Err(12));
        }
        assert_eq!(ALLOCATED.get(), before);
    }
}
