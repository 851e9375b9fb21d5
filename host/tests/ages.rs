//! The greatest ages of a list: what they are for the examples at the limits of request A.3, and what the summary says of them.

mod examples;
mod shown;

use examples::example;
use lcc::ages::Ages;
use shown::{parted, shown, Shown};

/// The examples just beyond the limits, with the ages of their names.
const BEYOND: [(&str, usize, usize); 3] =
    [("limits-68-65", 68, 65), ("limits-65-68", 65, 68), ("limits-67-67", 67, 67)];

/// The greatest ages of a script, and its summary.
fn played(text: &str) -> (Ages, String) {
    let Shown { longest, summary, .. } = shown(text);
    (longest, summary)
}

const UP: &str = "on 0 050101010101\nsettle 204\nsend 0\nsend 0\n";

/// What follows on node 0, which is Permitted with alias 263, and the greatest ages then.
const LISTS: [(&str, usize, usize); 12] = [
    ("", 0, 0),
    ("foreign RID 111\ntick 7\ndeliver 0\ntick 100\n", 7, 0),
    ("foreign RID 111\ntick 90\n", 90, 0),
    // A power-on drops what stood in the inbox, and what waited.
    ("foreign RID 111\ntick 50\non 0 050101010101\ntick 60\n", 50, 0),
    ("release 0\ntick 50\non 0 050101010101\ntick 60\n", 0, 50),
    // A later CID does not renew the age of the reply.
    ("foreign CID 7 263\ndeliver 0\ntick 30\nforeign CID 6 263\ndeliver 0\ntick 31\nsend 0\ntick 9\n", 0, 61),
    // An AMR that takes the place of a reply has an age of its own.
    ("foreign CID 7 263\ndeliver 0\ntick 70\nrelease 0\ntick 69\nsend 0\ntick 5\n", 0, 70),
    ("foreign CID 7 263\ndeliver 0\ntick 70\nforeign RID 263\ndeliver 0\ntick 71\n", 0, 71),
    // Two replies, one after the other.
    ("foreign CID 7 263\ndeliver 0\ntick 50\nsend 0\nforeign CID 7 263\ndeliver 0\ntick 45\n", 0, 50),
    // Neither an AMD nor the host's frame nor the RID that reserves has an age.
    ("foreign AME 111\ndeliver 0\nmessage 0 15B4 01\ntick 300\n", 0, 0),
    ("on 1 050101010102\nsend 1\nsend 1\nsend 1\nsend 1\ndeliver all\ntick 400\n", 0, 0),
    // A node that rests has an inbox too.
    ("release 0\nsend 0\nforeign RID 111\ntick 42\n", 42, 0),
];

#[test]
fn the_greatest_ages_are_counted() {
    for (list, stood, waited) in LISTS {
        assert_eq!(played(&format!("{UP}{list}")).0, Ages { stood, waited }, "{list}");
    }
}

/// They break the sums of A.3 that their first lines name, by one; and two nodes use one alias by their last command.
#[test]
fn examples_have_the_ages_of_their_names() {
    for (name, stood, waited) in BEYOND {
        let (longest, summary) = played(&example(name));
        assert_eq!(longest, Ages { stood, waited }, "{name}");
        let words = "2 use 1 alias: TWO USE ONE.\nNo collisions.\nNodes came to use one alias:\n  \
                     nodes 0, 1 use alias 263 at tick 402 (command 420)\n420 commands, 0 of them refused; ";
        assert!(
            summary.contains(words) && summary.contains("\nlate from tick 242 on"),
            "{summary}"
        );
    }
}

/// Node 0 is delivered the other's RID and gives the alias up: that the two used it stays in the summary, and is over.
#[test]
fn what_was_shared_is_told_also_when_it_is_over() {
    let (_, summary) = played(&format!("{}\ndeliver 0\nsend 0\n", example("limits-68-65")));
    let over = summary.contains("; one uses an alias.\n");
    let told = summary.contains("\n  nodes 0, 1 use alias 263 at tick 402 (command 420)\n");
    assert!(over && told, "{summary}");
}

/// Lists after which node 0 is Permitted, and the last lines of their summaries.
const WORDS: [(&str, &str); 7] = [
    (
        "",
        " for more than 40 ticks\n\
         An inbox frame stood for 0 ticks at most, a reply RID or AMR waited for 0 at most.\n",
    ),
    (
        "foreign CID 7 263\ntick\ndeliver 0\ntick 40\n",
        " for more than 40 ticks\n\
         An inbox frame stood for 1 tick at most, a reply RID or AMR waited for 40 at most.\n",
    ),
    (
        "foreign CID 7 263\ntick 67\ndeliver 0\ntick 66\n",
        "\nAn inbox frame stood for 67 ticks at most, a reply RID or AMR waited for 66 at most.\n\
         By request A.3 aliases are single all the same: 2 x 67 + 66 = 200 and 67 + 2 x 66 = 199 are not above 200.\n",
    ),
    (
        "release 0\ntick 100\n",
        "\nAn inbox frame stood for 0 ticks at most, a reply RID or AMR waited for 100 at most.\n\
         By request A.3 aliases are single all the same: 2 x 0 + 100 = 100 and 0 + 2 x 100 = 200 are not above 200.\n",
    ),
    (
        "foreign RID 111\ntick 101\n",
        "\nAn inbox frame stood for 101 ticks at most, a reply RID or AMR waited for 0 at most.\n\
         By request A.3 single aliases are not promised: 2 x 101 + 0 = 202 is above 200, 101 + 2 x 0 = 101 is not.\n",
    ),
    (
        "release 0\ntick 101\n",
        "\nAn inbox frame stood for 0 ticks at most, a reply RID or AMR waited for 101 at most.\n\
         By request A.3 single aliases are not promised: 0 + 2 x 101 = 202 is above 200, 2 x 0 + 101 = 101 is not.\n",
    ),
    (
        "foreign CID 7 263\ntick 67\ndeliver 0\ntick 67\n",
        "\nAn inbox frame stood for 67 ticks at most, a reply RID or AMR waited for 67 at most.\n\
         By request A.3 single aliases are not promised: 2 x 67 + 67 = 201 and 67 + 2 x 67 = 201 are above 200.\n",
    ),
];

#[test]
fn the_summary_says_what_follows() {
    for (list, words) in WORDS {
        let (_, summary) = played(&format!("{UP}{list}"));
        assert!(parted(&summary).0.ends_with(words), "{list}: {summary}");
        assert!(!summary.contains("came to use"), "{list}: {summary}");
    }
}
