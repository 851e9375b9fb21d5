//! The greatest ages of a list: how long an inbox frame stood, and how long a reply RID or AMR waited; and what follows of them.

use crate::words;

/// A list is kept while no age in it is above this.
pub const KEPT: usize = 40;

/// By request A.3 aliases are single while neither of its two sums is above this.
const MOST_SUM: usize = 200;

/// In ticks; 0 where there was no such frame.
#[derive(Clone, Copy, Debug, Default, PartialEq, Eq)]
pub struct Ages {
    /// Of inbox frames.
    pub stood: usize,
    /// Of reply RIDs and AMRs.
    pub waited: usize,
}

impl Ages {
    pub fn are_kept(&self) -> bool {
        self.stood.max(self.waited) <= KEPT
    }

    /// Whether request A.3 promises that aliases are single.
    pub fn keep_aliases_single(&self) -> bool {
        self.sums().iter().all(|(_, sum)| *sum <= MOST_SUM)
    }

    /// The two sums of request A.3, as they are written and what they are.
    fn sums(&self) -> [(String, usize); 2] {
        let Ages { stood, waited } = *self;
        [
            (format!("2 x {stood} + {waited}"), 2 * stood + waited),
            (format!("{stood} + 2 x {waited}"), stood + 2 * waited),
        ]
    }

    pub fn words(&self) -> String {
        let stood = words::count(self.stood, "tick", "ticks");
        format!(
            "An inbox frame stood for {stood} at most, a reply RID or AMR waited for {} at most.",
            self.waited
        )
    }

    /// What request A.3 says of a list that is late.
    pub fn promise(&self) -> String {
        let (above, within): (Vec<_>, Vec<_>) =
            self.sums().into_iter().partition(|(_, sum)| *sum > MOST_SUM);
        let written = |sums: &[(String, usize)]| {
            let sums = sums.iter().map(|(sum, number)| format!("{sum} = {number}"));
            sums.collect::<Vec<_>>().join(" and ")
        };
        let (high, low) = (written(&above), written(&within));
        let (then, sums) = match above.len() {
            0 => ("aliases are single all the same", format!("{low} are not above {MOST_SUM}")),
            1 => (
                "single aliases are not promised",
                format!("{high} is above {MOST_SUM}, {low} is not"),
            ),
            _ => ("single aliases are not promised", format!("{high} are above {MOST_SUM}")),
        };
        format!("By request A.3 {then}: {sums}.")
    }
}
