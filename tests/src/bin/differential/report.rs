//! What is printed at the end, and what has to have occurred.

use crate::kinds::{
    CORRUPT_KINDS, INSPECTION_KINDS, INVALID_KINDS, LISTED_KINDS, LOOKUP_KINDS, READ_KINDS,
    SEED_KINDS, STRING_KINDS, WHOLE_KINDS,
};
use crate::stop;
use crate::tester::Tester;

pub fn report(tester: &Tester) {
    let counts = tester.counts.iter().enumerate();
    let counts: Vec<String> = counts.map(|(n, count)| format!("{n}:{count}")).collect();
    println!("answers by refusal number: {}", counts.join(" "));
    println!("served by operation: {:?}", tester.served);
    println!(
        "allocations by the walk: {}, of them round the end: {}",
        tester.walks, tester.wraps
    );
    println!(
        "NULL for heap, metadata, request, source, page, blocks, output, list, whole outputs, output: {:?}",
        tester.nulls
    );
    report_kinds("reads by the call", &READ_KINDS, &tester.read_calls);
    report_kinds("reads as requests", &READ_KINDS, &tester.read_requests);
    report_kinds("strings", &STRING_KINDS, &tester.strings);
    report_kinds("refused with 13", &CORRUPT_KINDS, &tester.corrupt);
    report_kinds("inspections", &INSPECTION_KINDS, &tester.inspections);
    report_kinds("slots listed", &LISTED_KINDS, &tester.listed);
    report_kinds("openings", &SEED_KINDS, &tester.seeds);
    report_kinds("lookups", &LOOKUP_KINDS, &tester.lookups);
    println!("votes by the replica named: {:?}", tester.named);
    report_kinds("whole votes", &WHOLE_KINDS, &tester.wholes);
    report_kinds("refused with 15", &INVALID_KINDS, &tester.invalids);
    println!(
        "inspections where nobody else wrote: {}, made again with other bytes elsewhere: {}",
        tester.clean, tester.changed
    );
    println!(
        "malformed, operation 7 and a count for operation 4: {:?}",
        tester.malformed
    );
    println!(
        "allocations of nothing, served and at capacity, and of 16,385: {:?}",
        tester.edge_sizes
    );
    require_coverage(tester);
    println!(
        "differential: {} calls, seed {}, no difference",
        tester.calls, tester.seed
    );
}

fn report_kinds(what: &str, kinds: &[&str], counts: &[u64]) {
    for (kind, count) in kinds.iter().zip(counts) {
        println!("{what} {kind}: {count}");
    }
}

/// Every refusal number, operation, walk, NULL, kind of read, of string, of
/// refusal with 13, of inspection, of listed slot, of seeds, of lookup, of whole
/// vote and of refusal with 15, replica that can be named, and size at an edge has
/// to occur.
fn require_coverage(tester: &Tester) {
    let seen = [
        &tester.counts[..],
        &tester.served,
        &tester.nulls,
        &tester.read_calls,
        &tester.read_requests,
        &tester.malformed,
        &tester.edge_sizes,
        &tester.strings,
        &tester.corrupt,
        &tester.inspections,
        &tester.listed,
        &tester.seeds,
        &tester.lookups,
        &tester.named,
        &tester.wholes,
        &tester.invalids,
        &[tester.clean, tester.changed],
        &[tester.walks, tester.wraps],
    ];
    if seen.concat().contains(&0) {
        stop("differential: something above did not occur");
    }
}
