//! Request E2's sentences: calls with the answers that they state, the summary worked out by hand.
//!
//!   CLAIMS     each claim with its calls and answers; a claim starts with an opening
//!
//! `show summary` gives number, bytes and largest of metadata, raw and large, the 19 counts, and the signed number.

use crate::document::{Claim, WORDS_OF_STEP_5};

const NOTHING: &str = "summary: 0 0 0 0 0 0 0 0 0 0 0 0 0 0 0 0 0 0 0 0 0 0 0 0 0 0 0 0 0";
const AFTER_STEP_5: &str = "summary: 1 502 502 1 412 412 1 324 324 0 0 3 0 0 0 0 0 0 0 0 0 0 0 0 0 0 0 0 512";
const WITHOUT_STEP_5: &str = "summary: 0 0 0 1 412 412 1 324 324 0 0 2 0 0 0 0 0 0 0 0 0 0 0 0 0 0 0 0 -512";

/// All but the signed number after document 01's step 12.
macro_rules! after_step_12 {
    ($moved:literal) => {
        concat!("summary: 0 0 0 1 412 412 0 0 0 0 0 1 0 0 0 0 0 0 0 0 0 0 0 0 0 0 0 0 ", $moved)
    };
}

pub const CLAIMS: &[Claim] = &[
    Claim {
        says: "for each manager the number of free sections, their bytes and the largest one, and by how much the call moved the end",
        calls: &[
            ("open 512 5120 12", "done; end 0; 0 entries"),
            ("state 512 5120 2048 6", "set"),
            ("words 0 96 1 96 416 1 512 100 2 612 412 5 1024 700 3 1724 324 6 0 0 0 0 0 0 0 0 0 0 0 0 0 0 0 0 0 0", "set"),
            ("fresh", "done"),
            ("allocate metadata 10", "at 2048; end 2560; 8 entries"),
            ("show summary", AFTER_STEP_5),
            ("release 2048 10", "done; end 2048; 6 entries"),
            ("show summary", WITHOUT_STEP_5),
        ],
    },
    Claim {
        says: "the count of sections under 10 bytes and in each of eighteen decades, 10 to 99 first",
        calls: &[
            ("open 512 5120 12", "done; end 0; 0 entries"),
            ("allocate metadata 503", "at 0; end 512; 2 entries"),
            ("allocate raw 502", "at 512; end 1024; 4 entries"),
            ("allocate metadata 413", "at 1024; end 1536; 6 entries"),
            ("allocate raw 412", "at 1536; end 2048; 8 entries"),
            ("show summary", "summary: 2 108 99 2 110 100 0 0 0 1 2 1 0 0 0 0 0 0 0 0 0 0 0 0 0 0 0 0 512"),
        ],
    },
    Claim {
        says: "10^18 upward last",
        calls: &[
            ("open 512 4611686018427387904 4", "done; end 0; 0 entries"),
            ("allocate raw 1000000000000000512", "at 0; end 1000000000000000512; 1 entries"),
            ("allocate raw 512", "at 1000000000000000512; end 1000000000000001024; 2 entries"),
            ("shorten 0 1000000000000000512 1000000000000000000", "done; end 1000000000000001024; 3 entries"),
            ("show summary", "summary: 0 0 0 0 0 0 1 1000000000000000000 1000000000000000000 0 0 0 0 0 0 0 0 0 0 0 0 0 0 0 0 0 0 1 0"),
            ("extend 0 512 1", "done; end 1000000000000001024; 3 entries"),
            ("show summary", "summary: 0 0 0 0 0 0 1 999999999999999999 999999999999999999 0 0 0 0 0 0 0 0 0 0 0 0 0 0 0 0 0 1 0 0"),
        ],
    },
    Claim {
        says: "a refused call leaves it unchanged",
        calls: &[
            ("open 512 5120 4", "done; end 0; 0 entries"),
            ("allocate raw 500", "at 0; end 512; 2 entries"),
            ("allocate raw 0", "refused 4; end 512; 2 entries"),
            ("release 0 499", "refused 16; end 512; 2 entries"),
            ("extend 0 500 12", "refused 8; end 512; 2 entries"),
            ("shorten 0 500 500", "refused 9; end 512; 2 entries"),
            ("show summary", "summary: 0 0 0 1 12 12 0 0 0 0 1 0 0 0 0 0 0 0 0 0 0 0 0 0 0 0 0 0 512"),
            ("open 511 5120 4", "refused 1; end 0; 0 entries"),
            ("show summary", "summary: 0 0 0 1 12 12 0 0 0 0 1 0 0 0 0 0 0 0 0 0 0 0 0 0 0 0 0 0 512"),
        ],
    },
    Claim {
        says: "one that disagrees with the table at entry is refused as 2; the signed number alone may be any; listing doesn't take it",
        calls: &[
            ("open 512 5120 4", "done; end 0; 0 entries"),
            ("allocate raw 500", "at 0; end 512; 2 entries"),
            ("summary 0 0 0 1 12 12 0 0 0 1 1 0 0 0 0 0 0 0 0 0 0 0 0 0 0 0 0 0 512", "set"),
            ("release 0 500", "refused 2; end 512; 2 entries"),
            ("show summary", "summary: 0 0 0 1 12 12 0 0 0 1 1 0 0 0 0 0 0 0 0 0 0 0 0 0 0 0 0 0 512"),
            ("list raw 2", "1 sections: 500+12"),
            ("summary 0 0 0 1 12 12 0 0 0 0 1 0 0 0 0 0 0 0 0 0 0 0 0 0 0 0 0 0 -5", "set"),
            ("allocate raw 12", "at 500; end 512; 2 entries"),
            ("show summary", NOTHING),
        ],
    },
    Claim {
        says: "an accepted opening sets all to 0 whatever it held",
        calls: &[
            ("open 512 5120 4", "done; end 0; 0 entries"),
            ("summary 1 2 3 4 5 6 7 8 9 10 11 12 13 14 15 16 17 18 19 20 21 22 23 24 25 26 27 28 -29", "set"),
            ("default 4", "done; end 0; 0 entries"),
            ("show summary", NOTHING),
        ],
    },
    Claim {
        says: "the signed number alone may depend on the order",
        calls: &[
            ("open 512 5120 12", "done; end 0; 0 entries"),
            ("state 512 5120 2560 8", "set"),
            (WORDS_OF_STEP_5, "set"),
            ("fresh", "done"),
            ("release 2048 10", "done; end 2048; 6 entries"),
            ("release 1024 700", "done; end 1024; 4 entries"),
            ("show summary", after_step_12!("-1024")),
            ("state 512 5120 2560 8", "set"),
            (WORDS_OF_STEP_5, "set"),
            ("fresh", "done"),
            ("release 1024 700", "done; end 2560; 7 entries"),
            ("release 2048 10", "done; end 1024; 4 entries"),
            ("show summary", after_step_12!("-1536")),
        ],
    },
    Claim {
        says: "who kept a table and no summary works it out afresh, where state and table are sound",
        calls: &[
            ("open 512 5120 12", "done; end 0; 0 entries"),
            ("state 512 5120 2560 8", "set"),
            (WORDS_OF_STEP_5, "set"),
            ("release 2048 10", "refused 2; end 2560; 8 entries"),
            ("state 512 5120 2560 7", "set"),
            ("fresh", "refused 2"),
            ("show summary", NOTHING),
            ("state 512 5120 2560 8", "set"),
            ("fresh", "done"),
            ("show summary", "summary: 1 502 502 1 412 412 1 324 324 0 0 3 0 0 0 0 0 0 0 0 0 0 0 0 0 0 0 0 0"),
            ("release 2048 10", "done; end 2048; 6 entries"),
            ("show summary", WITHOUT_STEP_5),
        ],
    },
];

#[cfg(test)]
mod tests {
    #[test]
    fn the_model_answers_as_the_request_says() {
        crate::document::tests::hold(super::CLAIMS);
    }
}
