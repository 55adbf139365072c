//! Request E3's sentences: names with what is wrong with them, worked out by hand.
//!
//!   CLAIMS     each claim with its calls and answers; a claim starts with an opening
//!
//! Most names are of document 01's table after step 5, which has an entry of each kind and ends with a free one:
//!
//!   bytes   0       96            512      612           1024          1724        2048      2058         2560
//!   kind    | 1     | 1           | 2      | 5           | 3           | 6         | 1       | 4          |

use crate::document::{Claim, AFTER_STEP_5, WORDS_OF_STEP_5};

const SUMMARY_OF_STEP_5: &str = "summary: 1 502 502 1 412 412 1 324 324 0 0 3 0 0 0 0 0 0 0 0 0 0 0 0 0 0 0 0 0";

/// Calls on the table after step 5 with the numbers by which they are refused. None of them changes anything.
macro_rules! refused_at_step_5 {
    ($($call:literal => $why:literal,)+) => {
        &[
            ("open 512 5120 12", "done; end 0; 0 entries"),
            ("state 512 5120 2560 8", "set"),
            (WORDS_OF_STEP_5, "set"),
            ("fresh", "done"),
            $(($call, concat!("refused ", $why, "; end 2560; 8 entries")),)+
            ("show words", AFTER_STEP_5),
            ("show summary", SUMMARY_OF_STEP_5),
        ]
    };
}

pub const CLAIMS: &[Claim] = &[
    Claim {
        says: "13 the address is at or beyond E",
        calls: refused_at_step_5![
            "release 2560 502" => 13,
            "release 2560 0" => 13,
            "release 2561 1" => 13,
            "release 18446744073709551615 18446744073709551615" => 13,
            "extend 2560 1 1" => 13,
            "extend 18446744073709551615 1 1" => 13,
            "shorten 2560 512 1" => 13,
            "shorten 18446744073709551615 1 1" => 13,
            "release 2559 1" => 14,
        ],
    },
    Claim {
        says: "14 it lies in free space",
        calls: refused_at_step_5![
            "release 612 412" => 14,
            "release 1023 1" => 14,
            "release 1724 324" => 14,
            "release 2047 1" => 14,
            "release 2058 502" => 14,
            "release 2059 0" => 14,
            "extend 612 412 1" => 14,
            "extend 1023 1 1" => 14,
            "shorten 1724 324 1" => 14,
            "shorten 2047 2 1" => 14,
        ],
    },
    Claim {
        says: "15 it lies inside a live piece and isn't its start",
        calls: refused_at_step_5![
            "release 1 95" => 15,
            "release 95 1" => 15,
            "release 513 100" => 15,
            "release 611 413" => 15,
            "release 1025 0" => 15,
            "extend 97 416 1" => 15,
            "extend 1723 1 1" => 15,
            "shorten 1025 699 1" => 15,
            "shorten 2057 2 1" => 15,
        ],
    },
    Claim {
        says: "16 it is a live piece's start and the size differs",
        calls: refused_at_step_5![
            "release 0 95" => 16,
            "release 0 97" => 16,
            "release 0 512" => 16,
            "release 512 512" => 16,
            "release 1024 18446744073709551615" => 16,
            "extend 1024 699 1" => 16,
            "extend 1024 701 1" => 16,
            "shorten 2048 9 1" => 16,
            "shorten 2048 11 1" => 16,
        ],
    },
    Claim {
        says: "size 0 at a live piece's start is 16 in a release; extend and shorten answer 4 before",
        calls: refused_at_step_5![
            "release 0 0" => 16,
            "release 1024 0" => 16,
            "extend 0 0 1" => 4,
            "shorten 1024 0 1" => 4,
        ],
    },
    Claim {
        says: "a live piece may end at E: its last byte lies inside it, and E beyond the end",
        calls: &[
            ("open 512 5120 4", "done; end 0; 0 entries"),
            ("allocate raw 512", "at 0; end 512; 1 entries"),
            ("release 511 1", "refused 15; end 512; 1 entries"),
            ("release 512 1", "refused 13; end 512; 1 entries"),
            ("extend 511 1 1", "refused 15; end 512; 1 entries"),
            ("extend 512 1 1", "refused 13; end 512; 1 entries"),
            ("shorten 511 1 1", "refused 15; end 512; 1 entries"),
            ("shorten 512 1 1", "refused 13; end 512; 1 entries"),
        ],
    },
    Claim {
        says: "E = 0 makes every name 13",
        calls: &[
            ("open 512 5120 4", "done; end 0; 0 entries"),
            ("release 0 0", "refused 13; end 0; 0 entries"),
            ("release 0 1", "refused 13; end 0; 0 entries"),
            ("release 18446744073709551615 1", "refused 13; end 0; 0 entries"),
            ("extend 0 1 1", "refused 13; end 0; 0 entries"),
            ("shorten 0 512 1", "refused 13; end 0; 0 entries"),
        ],
    },
    Claim {
        says: "the second release of a piece is 13 where E was cut, and 14 where it was not",
        calls: &[
            ("open 512 5120 12", "done; end 0; 0 entries"),
            ("state 512 5120 2560 8", "set"),
            (WORDS_OF_STEP_5, "set"),
            ("fresh", "done"),
            ("release 1024 700", "done; end 2560; 7 entries"),
            ("release 1024 700", "refused 14; end 2560; 7 entries"),
            ("release 2048 10", "done; end 1024; 4 entries"),
            ("release 2048 10", "refused 13; end 1024; 4 entries"),
            ("release 1024 700", "refused 13; end 1024; 4 entries"),
        ],
    },
    Claim {
        says: "a live piece's name is none of them",
        calls: &[
            ("open 512 5120 12", "done; end 0; 0 entries"),
            ("state 512 5120 2560 8", "set"),
            (WORDS_OF_STEP_5, "set"),
            ("fresh", "done"),
            ("extend 96 416 1", "refused 8; end 2560; 8 entries"),
            ("shorten 96 416 416", "refused 9; end 2560; 8 entries"),
            ("extend 1024 700 324", "done; end 2560; 7 entries"),
            ("extend 1024 700 324", "refused 16; end 2560; 7 entries"),
            ("shorten 1024 1024 324", "done; end 2560; 8 entries"),
            ("shorten 1024 1024 324", "refused 16; end 2560; 8 entries"),
            ("release 1024 700", "done; end 2560; 7 entries"),
        ],
    },
    Claim {
        says: "2 comes before them, of state and table or of the summary",
        calls: &[
            ("open 512 5120 12", "done; end 0; 0 entries"),
            ("state 512 5120 2560 8", "set"),
            (WORDS_OF_STEP_5, "set"),
            ("release 2560 1", "refused 2; end 2560; 8 entries"),
            ("release 612 412", "refused 2; end 2560; 8 entries"),
            ("extend 1 95 1", "refused 2; end 2560; 8 entries"),
            ("shorten 0 95 1", "refused 2; end 2560; 8 entries"),
            ("fresh", "done"),
            ("state 512 5120 2559 8", "set"),
            ("release 2560 1", "refused 2; end 2559; 8 entries"),
            ("release 612 412", "refused 2; end 2559; 8 entries"),
            ("extend 1 95 1", "refused 2; end 2559; 8 entries"),
            ("shorten 0 95 1", "refused 2; end 2559; 8 entries"),
        ],
    },
    Claim {
        says: "4 comes before them",
        calls: refused_at_step_5![
            "extend 2560 0 1" => 4,
            "extend 612 412 0" => 4,
            "extend 1 0 1" => 4,
            "extend 0 95 0" => 4,
            "shorten 2560 1 0" => 4,
            "shorten 612 0 1" => 4,
            "shorten 1 95 0" => 4,
            "shorten 0 0 1" => 4,
        ],
    },
    Claim {
        says: "8 and 9 come after them",
        calls: refused_at_step_5![
            "extend 2560 1 18446744073709551615" => 13,
            "extend 612 412 18446744073709551615" => 14,
            "extend 1 95 18446744073709551615" => 15,
            "extend 0 95 18446744073709551615" => 16,
            "shorten 2560 1 1" => 13,
            "shorten 612 412 412" => 14,
            "shorten 1 95 95" => 15,
            "shorten 0 95 95" => 16,
        ],
    },
    Claim {
        says: "5 and 6 come after them",
        calls: &[
            ("open 512 512 4", "done; end 0; 0 entries"),
            ("allocate raw 512", "at 0; end 512; 1 entries"),
            ("extend 0 512 1", "refused 5; end 512; 1 entries"),
            ("extend 0 511 1", "refused 16; end 512; 1 entries"),
            ("extend 512 1 1", "refused 13; end 512; 1 entries"),
            ("open 512 512 4", "done; end 0; 0 entries"),
            ("allocate raw 10", "at 0; end 512; 2 entries"),
            ("allocate raw 10", "at 10; end 512; 3 entries"),
            ("allocate raw 10", "at 20; end 512; 4 entries"),
            ("shorten 0 10 1", "refused 6; end 512; 4 entries"),
            ("shorten 0 11 1", "refused 16; end 512; 4 entries"),
            ("shorten 1 10 1", "refused 15; end 512; 4 entries"),
            ("shorten 30 10 1", "refused 14; end 512; 4 entries"),
        ],
    },
];

#[cfg(test)]
mod tests {
    #[test]
    fn the_model_answers_as_the_request_says() {
        crate::document::tests::hold(super::CLAIMS);
    }
}
