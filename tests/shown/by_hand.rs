//! Answers written by hand: the reference is held to them, and the programs.
use crate::reference::decide::{counterexample, verdict, Pattern, Verdict};
use crate::reference::examples::{bench_profile_of, key, question};
use crate::reference::paths::ROOT;
use crate::reference::records::*;
use crate::reference::shown::{shown, Showing};
use crate::runner::Runner;

const BENCH: &str = "element 2 run\nelement 3 port\nelement 4 frame\nelement 5 stamp\nattribute 6 id\nattribute 7 seq\n";

const PROOF_OF_A: &str = "\
0  (., (port.frame, {@seq}))  key 0 of the profile
1  (port, (frame, {@seq}))    context target, from 0
";

const TREE_OF_B: &str = "   0 root                  context
   2   port
   4     frame             first
   6       @seq = 6        equal by @seq
   7   port
   9     frame             second
  11       @seq = 6        equal by @seq
";

const ALL_OF_B: &str = "   0 root                  context
   1   @any = 1
   2   port
   3     @any = 3
   4     frame             first
   5       @any = 5
   6       @seq = 6        equal by @seq
   7   port
   8     @any = 8
   9     frame             second
  10       @any = 10
  11       @seq = 6        equal by @seq
";

/// Two ports, then their frames, then the frames' attributes: a branch stands together all the same.
const TREE_BY_LEVELS: &str = "   0 root                  context
   1   port
   3     frame             first
   5       @seq = 1        equal by @seq
   2   port
   4     frame             second
   6       @seq = 1        equal by @seq
";

const GRAPH_OF_B: &str = "\
below: 0 2
below: 0 7
below: 2 4
below: 4 6
below: 7 9
below: 9 11
equal by @seq: 6 11
node 0: 0 root\\ncontext
node 11: 11 @seq = 6\\nequal by @seq
node 2: 2 port
node 4: 4 frame\\nfirst
node 6: 6 @seq = 6\\nequal by @seq
node 7: 7 port
node 9: 9 frame\\nsecond
";

/// (text, what `make profile` prints) where nothing is made.
const NOT_MADE: [(&str, &str); 24] = [
    ("\n", "line 1: no edition, element, attribute or key line\n"),
    ("edition 2\n\n", "line 2: no edition, element, attribute or key line\n"),
    ("edition\n", "line 1: no edition, element, attribute or key line\n"),
    ("edition 2 \n", "line 1: no edition, element, attribute or key line\n"),
    ("edition 02\n", "line 1: no edition, element, attribute or key line\n"),
    ("edition 256\n", "line 1: no edition, element, attribute or key line\n"),
    ("edition 255\n", "refused 3 1 0\n"),
    ("edition 0\n", "refused 3 1 0\n"),
    ("edition 2\nedition 2", "refused 2 1 1\n"),
    ("element 3 port\r\n", "refused 3 1 0\n"),
    ("element 3  port\n", "line 1: no edition, element, attribute or key line\n"),
    ("element 3 two words\n", "line 1: no edition, element, attribute or key line\n"),
    ("element 3 \n", "line 1: no edition, element, attribute or key line\n"),
    ("Element 3 port\n", "line 1: no edition, element, attribute or key line\n"),
    ("text 3 port\n", "line 1: no edition, element, attribute or key line\n"),
    ("element 3 port\n(port, (., {.}))\r\n", "line 2: refused 17 2 0\n"),
    ("element 3 port\n(prot, (., {.}))\n", "line 2: refused 18 2 0\n"),
    ("element 3 port\n(_*._*, (., {.}))\n", "line 2: refused 4 2 0\n"),
    ("element 3 port\n(port, (., {}))\n", "line 2: refused 5 2 0\n"),
    ("element 3 port\n(#, (port, {.}))\n", "line 2: refused 6 2 0\n"),
    ("element 3 port\nelement 3 frame\nno line\n", "refused 3 1 1\n"),
    ("element 3 port\nelement 3 frame\n(prot, (., {.}))\n", "refused 3 1 1\n"),
    ("element 3 port\n(port, (., {.}))\nelement 4 frame\n", "refused 2 1 2\n"),
    ("element 3 port\n(port, (., {.}))\n(port, (., {.}))\n", "refused 15 1 2\n"),
];

/// Row, its keys, the question, and what `advise` prints. The bench labels stand in each profile.
const ADVICE: [(&[&str], &str, &str); 7] = [
    (&["(port,(frame,{@seq}))"], "(e,(port.frame,{@seq}))", "(port, (frame, {@seq}))\n"),
    (&["(e,(port.frame,{@seq}))"], "(port,(frame,{@seq}))", "implied\n"),
    (&[], "(port,(@id,{e}))", "nothing near\n"),
    (&["(e,(port.frame,{stamp,@seq}))"], "(e,(port.frame,{stamp}))", "(., (port.frame, {stamp, @seq}))\n"),
    (
        &["(_*,(port.frame,{@seq}))", "(_*.port,(frame,{@id}))"],
        "(_*,(_*.port.frame,{@id}))",
        "(_*.port, (frame, {@id}))\n",
    ),
    (
        &["(port.frame,(stamp,{@seq}))", "(e,(port.frame.stamp,{@id,@seq}))"],
        "(e,(port.frame.stamp,{@seq}))",
        "(port.frame, (stamp, {@seq}))\n(., (port.frame.stamp, {@id, @seq}))\n",
    ),
    (&["(_*,(frame,{@seq}))"], "(port._*,(_*.frame,{@seq}))", "(port._*, (frame, {@seq}))\n"),
];

fn is(runner: &mut Runner, showing: Showing, inputs: &[&[u8]], wanted: &str) {
    let text = wanted.as_bytes().to_vec();
    let owned: Vec<Vec<u8>> = inputs.iter().map(|input| input.to_vec()).collect();
    let said = shown(showing, &owned);
    assert_eq!(String::from_utf8_lossy(&said.text), wanted, "the reference of {:?}", showing);
    let found = runner.hold(showing, inputs);
    runner.demand(found.text == text, "as written by hand");
    runner.count("answers by hand");
}

fn tree_of(profile: &[u8], asked: &str) -> Vec<u8> {
    let profile = read_profile(profile).expect("a profile by hand");
    let pattern = Pattern::of(&key(asked));
    match verdict(&pattern, &profile) {
        Verdict::NotImplied { u } => write_tree(&counterexample(&pattern, u, &profile), WIDE_NODE_KIND),
        Verdict::Implied => panic!("{} is implied", asked),
    }
}

pub fn ask(runner: &mut Runner) {
    let (a, b) = ("(e,(port.frame,{@seq}))", "(port,(frame,{@seq}))");
    let (upper, lower) = (bench_profile_of(FIRST_EDITION, &[a]), bench_profile_of(SECOND_EDITION, &[b]));
    is(runner, Showing::Profile, &[&[]], "");
    is(runner, Showing::Profile, &[&upper], &format!("{}(., (port.frame, {{@seq}}))\n", BENCH));
    is(runner, Showing::Profile, &[&lower], &format!("edition 2\n{}(port, (frame, {{@seq}}))\n", BENCH));
    let line = |rule: u8, first: u16, asked: &str| Line { rule, first, second: NONE, key: key(asked) };
    let proof_of_a = write_proof(&[line(0, 0, a), line(7, 0, b)]);
    is(runner, Showing::Proof, &[&upper, &question(b), &proof_of_a], PROOF_OF_A);
    is(runner, Showing::Proof, &[&upper, &question(a), &proof_of_a], "refused 10 3 1\n");
    let below = bench_profile_of(FIRST_EDITION, &[b]);
    let tree = tree_of(&below, a);
    for (showing, wanted) in [(Showing::Tree, TREE_OF_B), (Showing::All, ALL_OF_B), (Showing::Dot, GRAPH_OF_B)] {
        is(runner, showing, &[&below, &question(a), &tree], wanted);
        is(runner, showing, &[&below, &question(b), &tree], "kept\n");
        is(runner, showing, &[&below, &question(b), &[]], "refused 8 3 0\n");
    }
    let levels = [(NONE, ROOT, 0), (0, 3, 0), (0, 3, 0), (1, 4, 0), (2, 4, 0), (3, 7, 1), (4, 7, 1)];
    let levels: Vec<Node> = levels.iter().map(|&(parent, label, value)| Node { parent, label, value }).collect();
    is(runner, Showing::Tree, &[&below, &question(a), &write_tree(&levels, NODE_KIND)], TREE_BY_LEVELS);
    for (text, wanted) in NOT_MADE {
        is(runner, Showing::Made, &[text.as_bytes()], wanted);
    }
    for (keys, asked, wanted) in ADVICE {
        is(runner, Showing::Advice, &[&bench_profile_of(FIRST_EDITION, keys), &question(asked)], wanted);
    }
    words(runner);
}

/// Wrong words, and a file that is not there: one line each.
fn words(runner: &mut Runner) {
    runner.put("profile", &[]);
    let _ = std::fs::remove_file(runner.file("missing"));
    let wrong_words: [(&[&str], &[&str]); 8] = [
        (&["show"], &[]),
        (&["show", "profile"], &[]),
        (&["show", "profile"], &["profile", "profile"]),
        (&["show", "nothing"], &["profile"]),
        (&["show", "tree"], &["profile"]),
        (&["make", "profile"], &["profile"]),
        (&["make"], &[]),
        (&["advise"], &["profile"]),
    ];
    for (words, files) in wrong_words {
        let said = String::from_utf8_lossy(&runner.program(words, files)).to_string();
        assert!(said.starts_with("usage: ") && said.ends_with('\n') && said.lines().count() == 1, "{:?} {:?}: {}", words, files, said);
    }
    let missing = format!("unreadable {}\n", runner.file("missing").display());
    let unreadable: [(&[&str], &[&str]); 6] = [
        (&["show", "profile"], &["missing"]),
        (&["show", "proof"], &["profile", "missing", "profile"]),
        (&["show", "tree"], &["profile", "profile", "missing"]),
        (&["show", "dot"], &["missing", "profile", "profile"]),
        (&["make", "profile"], &["missing", "out"]),
        (&["advise"], &["profile", "missing"]),
    ];
    for (words, files) in unreadable {
        let said = String::from_utf8_lossy(&runner.program(words, files)).to_string();
        assert_eq!(said, missing, "{:?} {:?}", words, files);
    }
    let said = runner.program(&["make", "profile"], &["profile", "missing/out"]);
    assert_eq!(String::from_utf8_lossy(&said), "unwritable\n", "make into a folder that is not there");
}
