//! Runs each call on the second implementation and on the library, side by
//! side, and compares the answers and every byte of every buffer.

use crate::differences::{Call, Name};
use crate::kinds::{
    self, BUFFERS, CORRUPT, CORRUPT_METADATA, INSPECTIONS, INVALIDS, KINDS, LISTED, LOOKUPS, NAMED,
    OPERATIONS, REFUSALS, SEEDS, STRINGS, WHOLES,
};
use crate::lookups::{Asked, Found};
use crate::twin::{Lent, Twin};
use poheldu_tests::capi::{self, Empty};
use poheldu_tests::reference::{self, Answer, Part, Verdict};

/// Makes the calls, counts them, and stops the program at a difference.
pub struct Tester {
    pub seed: u64,
    pub calls: u64,
    /// Answers by refusal number.
    pub counts: [u64; REFUSALS],
    /// Served requests by operation.
    pub served: [u64; OPERATIONS],
    /// Reads by their own call, of each kind.
    pub read_calls: [u64; KINDS],
    /// Reads as requests, of each kind.
    pub read_requests: [u64; KINDS],
    /// Requests refused for one thing alone: operation 7, a count for operation 4.
    pub malformed: [u64; 2],
    /// Allocations of nothing, served and refused at capacity, and of 16,385 bytes.
    pub edge_sizes: [u64; 3],
    /// Served copies of strings, of each kind.
    pub strings: [u64; STRINGS],
    /// Requests refused with 13, of each kind.
    pub corrupt: [u64; CORRUPT],
    /// Inspections, of each kind.
    pub inspections: [u64; INSPECTIONS],
    /// Slots listed in short lists, of each kind.
    pub listed: [u64; LISTED],
    /// Openings of right lengths, of each kind of seeds.
    pub seeds: [u64; SEEDS],
    /// Lookups of slots, of each kind.
    pub lookups: [u64; LOOKUPS],
    /// Served votes by the replica that they name.
    pub named: [u64; NAMED],
    /// Whole votes that are served or without agreement, of each kind.
    pub wholes: [u64; WHOLES],
    /// Whole votes refused with 15, of each kind.
    pub invalids: [u64; INVALIDS],
    /// Inspections in runs from an opening in which nobody else wrote.
    pub clean: u64,
    /// Inspections that list something, made again with other bytes in live slots
    /// and outside slots.
    pub changed: u64,
    /// Allocations that took a slot that was not drawn.
    pub walks: u64,
    /// Walks that went past the last slot.
    pub wraps: u64,
    /// Empty buffers passed as NULL: heap, metadata, request, source, page,
    /// blocks, output, list, whole outputs, whole output.
    pub nulls: [u64; BUFFERS],
    before: Vec<u8>,
}

impl Tester {
    pub fn new(seed: u64) -> Tester {
        Tester {
            seed,
            calls: 0,
            counts: [0; REFUSALS],
            served: [0; OPERATIONS],
            read_calls: [0; KINDS],
            read_requests: [0; KINDS],
            malformed: [0; 2],
            edge_sizes: [0; 3],
            strings: [0; STRINGS],
            corrupt: [0; CORRUPT],
            inspections: [0; INSPECTIONS],
            listed: [0; LISTED],
            seeds: [0; SEEDS],
            lookups: [0; LOOKUPS],
            named: [0; NAMED],
            wholes: [0; WHOLES],
            invalids: [0; INVALIDS],
            clean: 0,
            changed: 0,
            walks: 0,
            wraps: 0,
            nulls: [0; BUFFERS],
            before: Vec::new(),
        }
    }

    pub fn open(
        &mut self,
        heap: &mut Twin,
        metadata: &mut Twin,
        z: u32,
        w: u32,
        pattern: u32,
    ) -> Answer {
        let empty = self.next_call(metadata.bytes());
        self.count_nulls(empty, &[(0, heap.shown), (1, metadata.shown)]);
        let (heap_a, heap_b) = heap.parts();
        let (metadata_a, metadata_b) = metadata.parts();
        let expected = reference::open(heap_a, metadata_a, z, w, pattern);
        let answer = capi::open_with(empty, heap_b, metadata_b, z, w, pattern);
        let name = Name::Open {
            heap_len: heap.shown,
            z,
            w,
            pattern,
        };
        let call = Call {
            name,
            buffers: &[("metadata before", &self.before)],
        };
        self.check(&call, expected, answer);
        self.check_bytes(&call, &[("heap", heap), ("metadata", metadata)]);
        self.counts[answer.number as usize] += 1;
        self.count_seeds(answer.number, z, w);
        answer
    }

    pub fn serve(&mut self, heap: &mut Twin, metadata: &mut Twin, lent: &mut Lent) -> Answer {
        let empty = self.next_call(metadata.bytes());
        self.count_nulls(empty, &[(0, heap.shown), (1, metadata.shown)]);
        let [request, source, page] = lent.named().map(|(_, twin)| twin.shown);
        self.count_nulls(empty, &[(2, request), (3, source), (4, page)]);
        let (expected, answer) = serve_both(empty, heap, metadata, lent);
        let heap_len = heap.shown;
        let call = Call {
            name: Name::Serve { heap_len },
            buffers: &[
                ("metadata before", &self.before),
                ("request", lent.request.bytes()),
                ("source", lent.source.bytes()),
                ("page", lent.page.bytes()),
            ],
        };
        self.check(&call, expected, answer);
        self.check_bytes(&call, &[("heap", heap), ("metadata", metadata)]);
        self.check_bytes(&call, &lent.named());
        self.counts[answer.number as usize] += 1;
        if answer.number == 0 {
            let operation = lent.request.bytes()[0];
            self.count_served(operation, heap, metadata, answer.value);
        }
        self.count_request(heap, metadata, lent, answer);
        if answer.number == CORRUPT_METADATA {
            self.count_corrupt(heap, metadata, lent);
        }
        answer
    }

    pub fn read(
        &mut self,
        heap: &mut Twin,
        metadata: &mut Twin,
        offset: u32,
        count: u32,
        page: &mut Twin,
    ) -> Part {
        let empty = self.next_call(metadata.bytes());
        self.count_nulls(
            empty,
            &[(0, heap.shown), (1, metadata.shown), (4, page.shown)],
        );
        let (heap_a, heap_b) = heap.parts();
        let (metadata_a, metadata_b) = metadata.parts();
        let (page_a, page_b) = page.parts();
        let expected = reference::read(heap_a, metadata_a, offset, count, page_a);
        let part = capi::read_with(empty, heap_b, metadata_b, offset, count, page_b);
        let name = Name::Read {
            heap_len: heap.shown,
            offset,
            count,
        };
        let call = Call {
            name,
            buffers: &[("metadata before", &self.before), ("page", page.bytes())],
        };
        self.check(&call, expected, part);
        self.check_part(&call, part, heap, page);
        let twins = [("heap", &*heap), ("metadata", metadata), ("page", page)];
        self.check_bytes(&call, &twins);
        self.counts[part.number as usize] += 1;
        self.read_calls[kinds::read_kind(part, count)] += 1;
        part
    }

    pub fn inspect(
        &mut self,
        heap: &mut Twin,
        metadata: &mut Twin,
        list: &mut Twin<u32>,
    ) -> Answer {
        let empty = self.next_call(metadata.bytes());
        let (heap_len, list_len) = (heap.shown, list.shown);
        self.count_nulls(empty, &[(0, heap_len), (1, metadata.shown), (7, list_len)]);
        let (heap_a, heap_b) = heap.parts();
        let (metadata_a, metadata_b) = metadata.parts();
        let (list_a, list_b) = list.parts();
        let expected = reference::inspect(heap_a, metadata_a, list_a);
        let answer = capi::inspect_with(empty, heap_b, metadata_b, list_b);
        let call = Call {
            name: Name::Inspect { heap_len, list_len },
            buffers: &[("metadata", &self.before), ("heap", heap.bytes())],
        };
        self.check(&call, expected, answer);
        self.check_bytes(&call, &[("heap", heap), ("metadata", metadata)]);
        self.check_twin(&call, "list", list);
        self.counts[answer.number as usize] += 1;
        self.count_inspection(heap.bytes(), metadata.bytes(), list.items(), answer);
        answer
    }

    pub fn vote(
        &mut self,
        blocks: &mut Twin,
        replicas: usize,
        block_len: usize,
        output: &mut Twin,
    ) -> Verdict {
        let empty = self.next_call(&[]);
        self.count_nulls(empty, &[(5, blocks.shown), (6, output.shown)]);
        let (blocks_a, blocks_b) = blocks.parts();
        let (output_a, output_b) = output.parts();
        let expected = reference::vote(blocks_a, replicas, block_len, output_a);
        let verdict = capi::vote_with(empty, blocks_b, replicas, block_len, output_b);
        let name = Name::Vote {
            replicas,
            block_len,
            output_len: output.shown,
        };
        let call = Call {
            name,
            buffers: &[("blocks", blocks.bytes())],
        };
        self.check(&call, expected, verdict);
        self.check_bytes(&call, &[("blocks", blocks), ("output", output)]);
        self.counts[verdict.number as usize] += 1;
        if verdict.number == 0 {
            self.named[verdict.replica as usize] += 1;
        }
        verdict
    }

    pub fn vote_whole(
        &mut self,
        outputs: &mut Twin,
        replicas: usize,
        length: usize,
        output: &mut Twin,
    ) -> Verdict {
        let empty = self.next_call(&[]);
        self.count_nulls(empty, &[(8, outputs.shown), (9, output.shown)]);
        let (outputs_a, outputs_b) = outputs.parts();
        let (output_a, output_b) = output.parts();
        let expected = reference::vote_whole(outputs_a, replicas, length, output_a);
        let verdict = capi::vote_whole_with(empty, outputs_b, replicas, length, output_b);
        let name = Name::WholeVote {
            replicas,
            length,
            output_len: output.shown,
        };
        let call = Call {
            name,
            buffers: &[("outputs", outputs.bytes())],
        };
        self.check(&call, expected, verdict);
        self.check_bytes(&call, &[("outputs", outputs), ("output", output)]);
        self.counts[verdict.number as usize] += 1;
        self.count_whole(outputs.bytes(), replicas, length, output.bytes(), verdict);
        verdict
    }

    pub fn metadata_length(&mut self, heap_len: usize) -> usize {
        self.next_call(&[]);
        let expected = reference::metadata_length(heap_len);
        let length = capi::metadata_length(heap_len);
        let call = Call {
            name: Name::MetadataLength(heap_len),
            buffers: &[],
        };
        self.check(&call, expected, length);
        length
    }

    /// The four lookups of slots, as one call.
    pub fn look_up(&mut self, heap: &Twin, metadata: &mut Twin, asked: Asked) {
        let empty = self.next_call(metadata.bytes());
        self.count_nulls(empty, &[(1, metadata.shown)]);
        let heap_len = heap.shown;
        let (metadata_a, metadata_b) = metadata.parts();
        let expected = Found::by_reference(heap_len, metadata_a, asked);
        let found = Found::by_library(empty, heap_len, metadata_b, asked);
        let kinds = expected.kinds(asked.offset);
        let call = Call {
            name: Name::LookUp {
                heap_len,
                class: asked.class,
                number: asked.number,
                offset: asked.offset,
            },
            buffers: &[("metadata before", &self.before)],
        };
        self.check(&call, expected, found);
        self.check_bytes(&call, &[("metadata", metadata)]);
        for (count, is_kind) in self.lookups.iter_mut().zip(kinds) {
            *count += u64::from(is_kind);
        }
    }

    /// Counts the call and says how it passes empty buffers.
    fn next_call(&mut self, metadata: &[u8]) -> Empty {
        self.calls += 1;
        self.before.clear();
        self.before.extend_from_slice(metadata);
        if self.calls.is_multiple_of(2) {
            Empty::Null
        } else {
            Empty::Dangling
        }
    }
}

/// One request by both: the second implementation's answer, and the library's.
fn serve_both(
    empty: Empty,
    heap: &mut Twin,
    metadata: &mut Twin,
    lent: &mut Lent,
) -> (Answer, Answer) {
    let (heap_a, heap_b) = heap.parts();
    let (metadata_a, metadata_b) = metadata.parts();
    let (request_a, request_b) = lent.request.parts();
    let (source_a, source_b) = lent.source.parts();
    let (page_a, page_b) = lent.page.parts();
    (
        reference::serve(heap_a, metadata_a, request_a, source_a, page_a),
        capi::serve_with(empty, heap_b, metadata_b, request_b, source_b, page_b),
    )
}
