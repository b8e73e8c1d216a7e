//! Trees drawn by hand after 01, "The counterexample that is written", as the listing prints their nodes.

/// b: from the root to u, here the root itself, once; port, frame and @seq twice. The ends of branches alone are marked.
pub const B: &str = "0 - 203 -/1 0 202 1/2 0 3 -/3 2 202 3/4 2 4 -/5 4 202 5/6 4 7 6/7 0 3 -/8 7 202 8/9 7 4 -/10 9 202 10/11 9 7 6";

/// d: "one separate branch for each key path", so each copy has two frames.
pub const D: &str = "0 - 203 -/1 0 202 1/2 0 3 -/3 2 202 3/4 2 4 -/5 4 202 5/6 4 5 -/7 6 202 7/8 2 4 -/9 8 202 9/10 8 7 10/\
                     11 0 3 -/12 11 202 12/13 11 4 -/14 13 202 14/15 13 5 -/16 15 202 7/17 11 4 -/18 17 202 18/19 17 7 10";

/// i: "each any-path drawn as one filler element".
pub const I: &str = "0 - 203 -/1 0 202 1/2 0 201 -/3 2 202 3/4 2 4 -/5 4 202 5/6 4 7 6/7 0 201 -/8 7 202 8/9 7 4 -/10 9 202 10/11 9 7 6";

/// j: the marked stamps are elements, so their filler attributes have one value.
pub const J: &str = "0 - 203 -/1 0 202 1/2 0 4 -/3 2 202 3/4 2 5 -/5 4 202 5/6 0 4 -/7 6 202 7/8 6 5 -/9 8 202 5";

/// k: the frames lie on the way to the mark and are not marked: the same tree as b's.
pub const K: &str = B;

/// m: q is the port, drawn once; the target is a marked attribute.
pub const M: &str = "0 - 203 -/1 0 202 1/2 0 3 -/3 2 202 3/4 2 6 4/5 2 6 4";
