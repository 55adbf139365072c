//! Document 01's own run and sentences: calls with the answers that the document states, not those that the model works out.
//!
//!   Claim      a sentence, and calls that show it with the answers that it states
//!   CLAIMS     each claim of the document; a claim starts with an opening
//!   script_of  a claim's calls, as a script
//!   WORDS_OF_STEP_5, AFTER_STEP_5   the line that sets the table after step 5 of the document's run, and the answer that shows it
//!
//! `show words` is asked where the document states the table. Where a name is refused, the number is request E3's, and the default page size is
//! request E7's. Not here: the sentences of the requests (request_e2.rs, request_e3.rs).

/// A sentence of a document, and calls that show it: a call with its answer.
pub struct Claim {
    pub says: &'static str,
    pub calls: &'static [(&'static str, &'static str)],
}

pub fn script_of(claim: &Claim) -> Vec<String> {
    claim.calls.iter().map(|(call, _)| call.to_string()).collect()
}

pub const WORDS_OF_STEP_5: &str =
    "words 0 96 1 96 416 1 512 100 2 612 412 5 1024 700 3 1724 324 6 2048 10 1 2058 502 4 0 0 0 0 0 0 0 0 0 0 0 0";
pub const AFTER_STEP_5: &str =
    "words: 0 96 1 96 416 1 512 100 2 612 412 5 1024 700 3 1724 324 6 2048 10 1 2058 502 4 0 0 0 0 0 0 0 0 0 0 0 0";
const AFTER_STEP_12: &str = "words: 0 96 1 96 416 1 512 100 2 612 412 5 0 0 0 0 0 0 0 0 0 0 0 0 0 0 0 0 0 0 0 0 0 0 0 0";

pub const CLAIMS: &[Claim] = &[
    Claim {
        says: "the run with P = 512, M = 5,120, C = 12",
        calls: &[
            ("open 512 5120 12", "done; end 0; 0 entries"),
            ("allocate metadata 96", "at 0; end 512; 2 entries"),
            ("allocate raw 100", "at 512; end 1024; 4 entries"),
            ("allocate metadata 416", "at 96; end 1024; 4 entries"),
            ("allocate raw 700", "at 1024; end 2048; 6 entries"),
            ("allocate metadata 10", "at 2048; end 2560; 8 entries"),
            ("show words", AFTER_STEP_5),
            ("release 1024 700", "done; end 2560; 7 entries"),
            ("allocate raw 512", "at 1024; end 2560; 8 entries"),
            ("extend 1024 512 512", "done; end 2560; 7 entries"),
            ("shorten 1024 1024 600", "refused 9; end 2560; 7 entries"),
            ("shorten 1024 1024 300", "done; end 2560; 8 entries"),
            ("release 2048 10", "done; end 2048; 6 entries"),
            ("release 1024 724", "done; end 1024; 4 entries"),
            ("show words", AFTER_STEP_12),
        ],
    },
    Claim {
        says: "steps 11 and 12 exchanged end there too, by way of E = 2,560",
        calls: &[
            ("open 512 5120 12", "done; end 0; 0 entries"),
            ("state 512 5120 2560 8", "set"),
            ("words 0 96 1 96 416 1 512 100 2 612 412 5 1024 724 3 1748 300 6 2048 10 1 2058 502 4 0 0 0 0 0 0 0 0 0 0 0 0", "set"),
            ("fresh", "done"),
            ("release 1024 724", "done; end 2560; 7 entries"),
            ("release 2048 10", "done; end 1024; 4 entries"),
            ("show words", AFTER_STEP_12),
        ],
    },
    Claim {
        says: "size 511 is small and 512 large",
        calls: &[
            ("open 512 5120 12", "done; end 0; 0 entries"),
            ("allocate raw 511", "at 0; end 512; 2 entries"),
            ("allocate raw 512", "at 512; end 1024; 3 entries"),
            ("list raw 4", "1 sections: 511+1"),
            ("list large 4", "0 sections:"),
        ],
    },
    Claim {
        says: "P = 511 is refused, P = 2^30 accepted, 2^30 + 1 refused",
        calls: &[
            ("open 511 5120 12", "refused 1; end 0; 0 entries"),
            ("open 1073741824 4611686018427387904 12", "done; end 0; 0 entries"),
            ("open 1073741825 4611686018427387904 12", "refused 1; end 0; 0 entries"),
        ],
    },
    Claim {
        says: "a refused opening gives a state that every call which takes a state refuses with 2",
        calls: &[
            ("open 512 5120 3", "refused 1; end 0; 0 entries"),
            ("allocate metadata 1", "refused 2; end 0; 0 entries"),
            ("release 0 1", "refused 2; end 0; 0 entries"),
            ("extend 0 0 0", "refused 2; end 0; 0 entries"),
            ("shorten 0 0 0", "refused 2; end 0; 0 entries"),
            ("list 9 0", "refused 2"),
        ],
    },
    Claim {
        says: "C is 4 to 1,024",
        calls: &[
            ("open 512 5120 3", "refused 1; end 0; 0 entries"),
            ("open 512 5120 4", "done; end 0; 0 entries"),
            ("open 512 5120 1024", "done; end 0; 0 entries"),
            ("open 512 5120 1025", "refused 1; end 0; 0 entries"),
            ("open 512 5120 2048", "refused 1; end 0; 0 entries"),
        ],
    },
    Claim {
        says: "P <= M <= 2^62",
        calls: &[
            ("open 512 511 4", "refused 1; end 0; 0 entries"),
            ("open 512 512 4", "done; end 0; 0 entries"),
            ("open 512 4611686018427387904 4", "done; end 0; 0 entries"),
            ("open 512 4611686018427387905 4", "refused 1; end 0; 0 entries"),
        ],
    },
    Claim {
        says: "after step 1, extending (0, 96) by 415 is done",
        calls: &[
            ("open 512 5120 12", "done; end 0; 0 entries"),
            ("allocate metadata 96", "at 0; end 512; 2 entries"),
            ("extend 0 96 415", "done; end 512; 2 entries"),
        ],
    },
    Claim {
        says: "after step 1, extending (0, 96) by 416 is refused 8",
        calls: &[
            ("open 512 5120 12", "done; end 0; 0 entries"),
            ("allocate metadata 96", "at 0; end 512; 2 entries"),
            ("extend 0 96 416", "refused 8; end 512; 2 entries"),
        ],
    },
    Claim {
        says: "M = 5,000 allows E = 4,608 and no more",
        calls: &[
            ("open 512 5000 12", "done; end 0; 0 entries"),
            ("allocate raw 4609", "refused 5; end 0; 0 entries"),
            ("allocate raw 4608", "at 0; end 4608; 1 entries"),
            ("allocate raw 1", "refused 5; end 4608; 1 entries"),
            ("extend 0 4608 1", "refused 5; end 4608; 1 entries"),
        ],
    },
    Claim {
        says: "the default opening has P = 65,536 and M = 2^62",
        calls: &[
            ("default 12", "done; end 0; 0 entries"),
            ("allocate raw 4611686018427387904", "at 0; end 4611686018427387904; 1 entries"),
            ("allocate raw 1", "refused 5; end 4611686018427387904; 1 entries"),
            ("default 12", "done; end 0; 0 entries"),
            ("allocate raw 1", "at 0; end 65536; 2 entries"),
            ("allocate raw 65535", "at 1; end 65536; 2 entries"),
            ("allocate raw 65536", "at 65536; end 131072; 3 entries"),
        ],
    },
    Claim {
        says: "extend or shorten naming size 0, or by 0, is 4",
        calls: &[
            ("open 512 5120 12", "done; end 0; 0 entries"),
            ("extend 0 0 1", "refused 4; end 0; 0 entries"),
            ("shorten 0 0 1", "refused 4; end 0; 0 entries"),
            ("extend 0 1 0", "refused 4; end 0; 0 entries"),
            ("shorten 0 1 0", "refused 4; end 0; 0 entries"),
        ],
    },
    Claim {
        says: "5 comes before 6",
        calls: &[
            ("open 512 1024 4", "done; end 0; 0 entries"),
            ("allocate metadata 500", "at 0; end 512; 2 entries"),
            ("allocate raw 500", "at 512; end 1024; 4 entries"),
            ("allocate raw 500", "refused 5; end 1024; 4 entries"),
            ("open 512 1536 4", "done; end 0; 0 entries"),
            ("allocate metadata 500", "at 0; end 512; 2 entries"),
            ("allocate raw 500", "at 512; end 1024; 4 entries"),
            ("allocate raw 500", "refused 6; end 1024; 4 entries"),
        ],
    },
    Claim {
        says: "a small piece that ends at a page's border has no room behind it",
        calls: &[
            ("open 512 5120 12", "done; end 0; 0 entries"),
            ("allocate metadata 10", "at 0; end 512; 2 entries"),
            ("allocate metadata 502", "at 10; end 512; 2 entries"),
            ("allocate metadata 1", "at 512; end 1024; 4 entries"),
            ("release 10 502", "done; end 1024; 4 entries"),
            ("allocate metadata 502", "at 10; end 1024; 4 entries"),
            ("extend 10 502 1", "refused 8; end 1024; 4 entries"),
        ],
    },
    Claim {
        says: "a large piece with a part page behind it gets 8 beyond that page and never grows the file",
        calls: &[
            ("open 512 5120 12", "done; end 0; 0 entries"),
            ("allocate raw 700", "at 0; end 1024; 2 entries"),
            ("extend 0 700 325", "refused 8; end 1024; 2 entries"),
            ("extend 0 700 324", "done; end 1024; 1 entries"),
            ("extend 0 1024 1", "done; end 1536; 2 entries"),
        ],
    },
    Claim {
        says: "among fitting entries the smallest, then the lowest",
        calls: &[
            ("open 512 51200 12", "done; end 0; 0 entries"),
            ("allocate raw 1536", "at 0; end 1536; 1 entries"),
            ("allocate metadata 1", "at 1536; end 2048; 3 entries"),
            ("allocate raw 1024", "at 2048; end 3072; 4 entries"),
            ("allocate raw 511", "at 3072; end 3584; 6 entries"),
            ("allocate raw 1024", "at 3584; end 4608; 7 entries"),
            ("allocate metadata 511", "at 1537; end 4608; 7 entries"),
            ("allocate metadata 1", "at 4608; end 5120; 9 entries"),
            ("release 0 1536", "done; end 5120; 9 entries"),
            ("release 2048 1024", "done; end 5120; 9 entries"),
            ("release 3584 1024", "done; end 5120; 9 entries"),
            ("allocate raw 512", "at 2048; end 5120; 10 entries"),
            ("allocate raw 1000", "at 3584; end 5120; 11 entries"),
            ("allocate raw 1000", "at 0; end 5120; 12 entries"),
        ],
    },
    Claim {
        says: "sizes up to 2^64 - 1 are legal questions",
        calls: &[
            ("open 1000 5000 12", "done; end 0; 0 entries"),
            ("allocate raw 1200", "at 0; end 2000; 2 entries"),
            ("allocate raw 18446744073709551615", "refused 5; end 2000; 2 entries"),
            ("release 0 18446744073709551615", "refused 16; end 2000; 2 entries"),
            ("extend 0 1200 18446744073709551615", "refused 8; end 2000; 2 entries"),
            ("shorten 0 1200 18446744073709551615", "refused 9; end 2000; 2 entries"),
        ],
    },
];

#[cfg(test)]
pub mod tests {
    use super::*;
    use crate::script::Machine;

    /// The model answers each call of the claims as they state.
    pub fn hold(claims: &[Claim]) {
        for claim in claims {
            let mut machine = Machine::default();
            for (call, answer) in claim.calls {
                assert_eq!(machine.answer(call).as_deref(), Some(*answer), "{}: {call}", claim.says);
            }
        }
    }

    #[test]
    fn the_model_answers_as_the_document_says() {
        hold(CLAIMS);
    }
}
