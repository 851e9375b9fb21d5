//! Random scripts by name, drawn from a seed, with link orders and turns or without. Not every test has a use for all of it.
#![allow(dead_code)]

/// A generator of random numbers; the same seed gives the same ones.
pub struct Random(u64);

impl Random {
    pub fn new(seed: u64) -> Random {
        Random(seed.wrapping_mul(0x9E37_79B9_7F4A_7C15) | 1)
    }

    pub fn below(&mut self, bound: u64) -> u64 {
        self.0 ^= self.0 << 13;
        self.0 ^= self.0 >> 7;
        self.0 ^= self.0 << 17;
        (self.0 >> 16) % bound
    }

    fn pick<'a>(&mut self, from: &[&'a str]) -> &'a str {
        from[self.below(from.len() as u64) as usize]
    }

    fn one_in(&mut self, many: u64) -> bool {
        self.below(many) == 0
    }
}

/// Link orders, accepted ones and refused ones; and such as are refused whatever the card holds.
pub const LINKS: [&str; 10] = [
    "link 0 active",
    "link 0 passive",
    "link 0 off",
    "link 1 0",
    "LINK 1 Passive",
    "link 1 2",
    "link 2 off",
    "link 007 1",
    "link 0 3",
    "link 24 off",
];
pub const REFUSED_LINKS: [&str; 4] = ["link 24 active", "link 255 3", "link 0 3", "link 1 255"];

/// Turns, one by one and of `settle`.
pub const TURNS: [&str; 6] =
    ["turn", "turn", "TURN", "settle 1 turns", "settle 7 Turns", "settle 50 turns"];

/// All lines that have no byte.
pub fn beside() -> Vec<&'static str> {
    [&LINKS[..], &TURNS].concat()
}

/// A script by name of up to 40 lines. Few nodes, Node IDs and aliases, so that much collides.
pub fn script(random: &mut Random) -> String {
    script_of(random, line)
}

/// Such a script in which every third line is one of these.
pub fn script_with(lines: &[&str], random: &mut Random) -> String {
    script_of(
        random,
        |random| {
            if random.one_in(3) {
                random.pick(lines).into()
            } else {
                line(random)
            }
        },
    )
}

/// A script that in two of three cases goes on from nodes that are up, with a reply RID or an AMR due at one of them; half of them
/// with link orders, and a quarter with turns.
pub fn list(seed: u64) -> String {
    let up = "on 0 050101010101\non 1 050101010102\nsettle 206\n";
    let before = match seed % 3 {
        0 => String::new(),
        1 => format!("{up}foreign CID 7 263\ndeliver all\n"),
        _ => format!("{up}release 1\n"),
    };
    let random = &mut Random::new(seed);
    before
        + &match seed % 4 {
            0 => script(random),
            2 => script_with(&TURNS, random),
            _ => script_with(&LINKS, random),
        }
}

/// Two nodes that contest one alias, one that uses it and one that tests it, with random delays: while the CIDs stand, while the
/// reply waits, and while the reply stands or an AMR waits.
pub fn contest(seed: u64) -> String {
    let random = &mut Random::new(seed);
    let mut delay = || 30 + random.below(60);
    let (first, second, third) = (delay(), delay(), delay());
    let answer = if seed.is_multiple_of(2) { "send 0" } else { "release 0" };
    format!(
        "on 0 050101010101\nsettle 204\nsend 0\nsend 0\non 1 050101011100\nsend 1\nsend 1\nsend 1\nsend 1\n\
         tick {first}\ndeliver all\ntick {second}\n{answer}\ntick {third}\nsend 1\nsend all\ndeliver all\nsettle 2\n"
    )
}

/// All 24 nodes, up or still in test, of which some are left to wait: all or one of them send and are delivered, with long delays.
pub fn crowd(seed: u64) -> String {
    let random = &mut Random::new(seed);
    let mut text = pairs_on(24, 0x0501_0101_0200);
    text += random.pick(&["settle 210\n", "settle 30\n"]);
    for _ in 0..12 {
        let index = random.below(24);
        text += &match random.below(6) {
            0 => format!("release {index}\n"),
            1 => format!("send {index}\n"),
            2 => format!("deliver {index}\n"),
            3 => "deliver all\nsend all\n".into(),
            4 => format!("foreign CID 7 {}\n", random.pick(&["362", "363", "36A"])),
            _ => format!("tick {}\n", 20 + random.below(50)),
        };
    }
    text
}

/// Some nodes up to all, up or still in test, that send by turns: many have messages due, some are left out, and inboxes become full.
pub fn by_turns(seed: u64) -> String {
    let random = &mut Random::new(seed);
    let nodes = 2 * (1 + random.below(12));
    let mut text = pairs_on(nodes, 0x0501_0101_0200);
    text += random.pick(&["settle 300 turns\n", "settle 30 turns\n", "settle 210\n", ""]);
    for _ in 0..40 {
        let index = random.below(nodes);
        text += &match random.below(8) {
            0 => format!("on {index} 0501010103{index:02X}\n"),
            1 => format!("release {index}\nforeign AME 111\n"),
            2 => format!("send {index}\nfail {index}\n"),
            3 => "deliver all\n".into(),
            4 => format!("settle {} turns\n", 1 + random.below(20)),
            5 => "turn\n".repeat(1 + random.below(20) as usize),
            _ => (0..nodes)
                .step_by(1 + index as usize)
                .map(|i| format!("message {i} 05B4\n"))
                .collect(),
        };
    }
    text
}

/// Pairs of nodes that start with one alias and are delivered nothing, so that each pair comes to use it, one after another.
pub fn neglect(seed: u64) -> String {
    let random = &mut Random::new(seed);
    let nodes = 2 * (1 + random.below(4));
    let mut text = pairs_on(nodes, 0x0501_0101_0100);
    text += "send all\nsend all\nsend all\nsend all\ntick 201\n";
    for index in 0..nodes {
        text += &format!("send {index}\n");
        text += random.pick(&["", "tick\n", "tick 3\n", "fail 0\ntick\nfail 1\ntick 20\n"]);
    }
    text
}

/// The power-ons of so many nodes, from this Node ID on. Those of a pair are 4,095 apart, so that both nodes start with one alias.
fn pairs_on(nodes: u64, first: u64) -> String {
    let id = |index| first + index / 2 + index % 2 * 4_095;
    (0..nodes).map(|index| format!("on {index} {:012X}\n", id(index))).collect()
}

fn script_of(random: &mut Random, line: impl Fn(&mut Random) -> String) -> String {
    let lines = random.below(40);
    let mut text = String::new();
    for _ in 0..lines {
        text += &line(random);
        text += random.pick(&["\n", "\n", "\r\n", "   # a comment\n", "\n\n"]);
    }
    if random.one_in(8) {
        text += random.pick(&[
            "bytes FF 01 02\n",
            "bytes 01 00\nbytes 05.01\n",
            "bytes 0B",
            "bytes 0A",
            "bytes 0A 00 05 01 01 01 01 01 01 00 00 00 00 00\n",
            "bytes 06\n",
        ]);
    }
    text
}

fn line(random: &mut Random) -> String {
    let index = index(random);
    match random.below(13) {
        0 if random.one_in(2) => warm(random),
        0 | 1 => format!("on {index} {}", id(random)),
        2 | 3 => format!("send {}", random.pick(&["0", "1", "2", "all", "ALL", "23", "24"])),
        4 | 5 => format!("deliver {}", random.pick(&["0", "1", "2", "all", "3", "255"])),
        6 => random.pick(&["tick", "tick 1", "Tick 3", "tick 60", "tick 201"]).into(),
        7 if random.one_in(9) => "settle 206".into(),
        7 => format!("settle {}", 1 + random.below(30)),
        8 | 9 => format!("foreign {}", frame(random)),
        10 => match random.below(3) {
            0 => format!("fail {index}"),
            1 => format!("release {index}"),
            _ => format!(
                "bytes {}",
                random.pick(&["05", "02 00", "05.05", "0400 09 01", "010005010101010105"])
            ),
        },
        11 => log(random),
        _ if random.one_in(2) => format!("message {index} {}{}", field(random), data(random)),
        _ => format!("enquiry {index}{}{}", asked(random), length(random)),
    }
}

fn index(random: &mut Random) -> String {
    random.pick(&["0", "1", "2", "3", "0", "1", "23", "24", "255", "007"]).into()
}

/// Three with one first alias, and two with another.
fn id(random: &mut Random) -> String {
    let ids = [
        "05.01.01.01.01.00",
        "0501.0101.10FF",
        "05.01.01.01.20.FE",
        "050101010101",
        "05.01.01.01.01.01",
        "050101011100",
        "00.00.00.00.00.00",
    ];
    random.pick(&ids).into()
}

fn alias(random: &mut Random) -> String {
    random.pick(&["262", "263", "4F8", "efb", "0", "FFF", "1"]).into()
}

fn field(random: &mut Random) -> String {
    random.pick(&["15B4", "5B4", "0", "7FFF", "05b4"]).into()
}

fn asked(random: &mut Random) -> String {
    if random.one_in(2) {
        String::new()
    } else {
        format!(" {}", id(random))
    }
}

fn data(random: &mut Random) -> String {
    let data = [
        "",
        "",
        " 01",
        " 0102",
        " 01.02.03",
        " 01 02",
        " 0000",
        " 01010000000201",
        " 0101000000000201",
        " 0102030405060708",
    ];
    let data = random.pick(&data).to_string();
    data + &length(random)
}

fn length(random: &mut Random) -> String {
    if random.one_in(6) {
        format!(" length {}", random.pick(&["0", "1", "5", "6", "8", "9", "255"]))
    } else {
        String::new()
    }
}

/// An end of a foreign frame that is extended or remote.
fn bit_28(random: &mut Random) -> &'static str {
    random.pick(&["", "", "", " bit28 0", " BIT28 0", " bit28 1"])
}

fn frame(random: &mut Random) -> String {
    let alias = alias(random);
    let data = data(random);
    let bit = bit_28(random);
    let header =
        random.pick(&["17050263", "00700263", "195B4262", "FFFFFFFF", "10704263", "00000000"]);
    match random.below(11) {
        0 => format!("CID {} {alias}{bit}{}", 1 + random.below(7), length(random)),
        1 => format!("CID {} {alias} 0f{}{data}{bit}", 1 + random.below(7), random.below(10)),
        2 => format!("{} {alias}{data}{bit}", random.pick(&["RID", "amd", "AME", "AMR"])),
        3 => format!("{} {alias} {}{bit}", random.pick(&["AMD", "AME", "AMR"]), id(random)),
        4 => format!("error {} {alias}{data}{bit}", random.below(4)),
        5 => format!("message {} {alias}{data}{bit}", field(random)),
        6 => format!("remote {header}{data}{bit}"),
        7 => format!("short {}{data}", random.pick(&["123", "7FF", "FFF", "00000123", "00001000"])),
        8 => format!("kind {} {header}{data}", random.below(256)),
        9 => text(random),
        _ => format!("{header}{data}{bit}"),
    }
}

/// A frame as GridConnect text.
fn text(random: &mut Random) -> String {
    let header =
        random.pick(&["17050263", "00700263", "195B4262", "10702fff", "1FFFFFFF", "00000000"]);
    let data = random.pick(&["", "01", "0102", "abCD", "050101010101", "0101000000000201"]);
    format!(":X{header}N{data};")
}

/// A power-on by command 0A, accepted or refused.
pub fn warm(random: &mut Random) -> String {
    format!("warm {} {} {}", index(random), id(random), state(random))
}

/// A state and a flag, most often 1: those of the Node IDs above after steps of their generators, such as bring alias 1, and others.
fn state(random: &mut Random) -> String {
    let states = [
        "220FA69D5AA8",
        "220FA67D48AA",
        "050101010101",
        "0501010110ff",
        "0",
        "FFFFFFFFFFFF",
        "262",
        "1001",
        "000000000263",
        "80000000000",
    ];
    let flags = ["", "", "", "", " flag 1", " flag 0", " Flag 0", " flag 2", " flag 255"];
    format!("{}{}", random.pick(&states), random.pick(&flags))
}

/// Nodes that come up, most of them warm, and meet frames with the aliases that they test.
pub fn by_warm_starts(seed: u64) -> String {
    let random = &mut Random::new(seed);
    let mut text = String::new();
    for _ in 0..30 {
        text += &match random.below(8) {
            0..=2 => warm(random),
            3 => format!("on {} {}", index(random), id(random)),
            4 => format!("foreign RID {}\ndeliver all", random.pick(&["262", "263", "EFB", "1"])),
            5 => format!("fail {}", random.below(4)),
            6 => format!("settle {}", 1 + random.below(5)),
            _ if random.one_in(2) => "settle 206".into(),
            _ => format!("release {}\nsend all", random.below(4)),
        };
        text += "\n";
    }
    text
}

/// A line of a viewer's log.
fn log(random: &mut Random) -> String {
    let between = random.pick(&["", " ", "  "]);
    let texts: Vec<String> = (0..1 + random.below(3)).map(|_| text(random)).collect();
    texts.join(between)
}
