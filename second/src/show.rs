//! A plan as it is shown: by channels and slots, by cells, or for a spreadsheet.

use crate::site::Site;

/// How a plan is shown; by channels and slots in pieces of a width.
#[derive(Clone, Copy, Debug)]
pub enum Form {
    Grid(usize),
    Cells,
    Sheet,
}

/// A site and a table of its size.
struct Plan<'a> {
    site: &'a Site,
    table: &'a [u8],
}

/// `show`, in a form.
pub fn shown(site: &Site, table: &[u8], form: Form) -> String {
    let plan = Plan { site, table };
    match form {
        Form::Grid(width) => plan.grid(width),
        Form::Cells => (1..=site.count()).map(|cell| plan.cell_lines(cell)).collect(),
        Form::Sheet => plan.sheet(),
    }
}

impl Plan<'_> {
    fn sends(&self, cell: usize, position: usize) -> bool {
        self.table[(cell - 1) * self.site.positions() + position] == 1
    }

    fn senders(&self, position: usize) -> Vec<usize> {
        (1..=self.site.count()).filter(|&cell| self.sends(cell, position)).collect()
    }

    /// Whether a cell meets another there that it clashes with.
    fn clashes(&self, cell: usize, position: usize) -> bool {
        self.senders(position).iter().any(|&other| self.site.clash(cell, other))
    }

    fn any_clash(&self, position: usize) -> bool {
        self.senders(position).iter().any(|&cell| self.clashes(cell, position))
    }

    fn names(&self, position: usize) -> String {
        let names: Vec<String> = self.senders(position).iter().map(usize::to_string).collect();
        names.join("+")
    }

    fn place(&self, position: usize) -> String {
        let mut text = self.names(position);
        if self.any_clash(position) {
            text.push('!');
        }
        if !self.site.is_open(position) {
            text.push('#');
        }
        if text.is_empty() {
            text.push('.');
        }
        text
    }

    /// What stands below a slot: its number, and its place in each channel.
    fn column(&self, slot: usize) -> Vec<String> {
        let channels = self.site.channels as usize;
        let places = (0..channels).map(|channel| self.place(slot * channels + channel));
        std::iter::once((slot + 1).to_string()).chain(places).collect()
    }

    fn grid(&self, width: usize) -> String {
        let columns: Vec<Vec<String>> = (0..self.site.slots as usize).map(|slot| self.column(slot)).collect();
        let wide = |column: &[String]| 2 + column.iter().map(String::len).max().unwrap_or(0);
        let mut text = String::from(". nobody sends   ! two cells clash   # blocked\n");
        let mut left = &columns[..];
        while !left.is_empty() {
            let mut many = 1;
            while many < left.len() && 10 + left[..=many].iter().map(|column| wide(column)).sum::<usize>() <= width {
                many += 1;
            }
            text += "\n";
            for line in 0..=self.site.channels as usize {
                let head = if line == 0 { String::from("slot") } else { format!("channel {line}") };
                text += &format!("{head:<10}");
                for column in &left[..many] {
                    text += &format!("{:>1$}", column[line], wide(column));
                }
                text += "\n";
            }
            left = &left[many..];
        }
        text
    }

    fn sheet(&self) -> String {
        let mut text = String::from("slot,channel,cells,marks\r\n");
        let channels = self.site.channels as usize;
        for position in 0..self.site.positions() {
            let marks = match (self.any_clash(position), !self.site.is_open(position)) {
                (true, true) => "clash and blocked",
                (true, false) => "clash",
                (false, true) => "blocked",
                (false, false) => "",
            };
            let (slot, channel) = (position / channels + 1, position % channels + 1);
            text += &format!("{slot},{channel},{},{marks}\r\n", self.names(position));
        }
        text
    }

    /// Where a cell sends, and there where it clashes and where that is blocked.
    fn cell_lines(&self, cell: usize) -> String {
        let mut text = match self.runs(|position| self.sends(cell, position)) {
            runs if runs.is_empty() => format!("cell {cell} sends nowhere\n"),
            runs => format!("cell {cell}: {runs}\n"),
        };
        let clashing = self.runs(|position| self.sends(cell, position) && self.clashes(cell, position));
        let barred = self.runs(|position| self.sends(cell, position) && !self.site.is_open(position));
        for (name, runs) in [("clashes", clashing), ("blocked", barred)] {
            if !runs.is_empty() {
                text += &format!("  {name}: {runs}\n");
            }
        }
        text
    }

    /// `slots 1-3 all channels, slot 4 channel 1`: slots one after the other with the same channels are one run.
    fn runs(&self, held: impl Fn(usize) -> bool) -> String {
        let channels = self.site.channels as usize;
        let sets: Vec<Vec<usize>> = (0..self.site.slots as usize)
            .map(|slot| (0..channels).filter(|channel| held(slot * channels + channel)).map(|c| c + 1).collect())
            .collect();
        let mut runs = Vec::new();
        let mut start = 0;
        for slot in 1..=sets.len() {
            if slot == sets.len() || sets[slot] != sets[start] {
                if !sets[start].is_empty() {
                    runs.push(format!("slot{}{}", span(start + 1, slot, "s "), channels_told(channels, &sets[start])));
                }
                start = slot;
            }
        }
        runs.join(", ")
    }
}

/// ` 4` for one number, and `s 1-3` with this s for more.
fn span(first: usize, last: usize, many: &str) -> String {
    if first == last {
        format!(" {first}")
    } else {
        format!("{many}{first}-{last}")
    }
}

/// The channels of a run; of a site with one channel nothing is said.
fn channels_told(channels: usize, set: &[usize]) -> String {
    if channels == 1 {
        return String::new();
    }
    if set.len() == channels {
        return String::from(" all channels");
    }
    let mut parts: Vec<(usize, usize)> = Vec::new();
    for &channel in set {
        match parts.last_mut() {
            Some((_, last)) if *last + 1 == channel => *last = channel,
            _ => parts.push((channel, channel)),
        }
    }
    let parts: Vec<String> =
        parts.iter().map(|&(a, b)| if a == b { a.to_string() } else { format!("{a}-{b}") }).collect();
    format!(" channel{} {}", if set.len() == 1 { "" } else { "s" }, parts.join("+"))
}

#[cfg(test)]
mod tests {
    use super::*;
    use crate::site::set_of;

    /// Two cells of which the first reaches the second, both sending in both slots of the one channel; the second slot is blocked.
    fn marked() -> (Site, [u8; 4]) {
        let site = Site::sized(2, 2, 1).with_reach(1, 2, true).unwrap();
        (Site { blocked: set_of([1].into_iter()), ..site }, [1; 4])
    }

    #[test]
    fn marks() {
        let (site, table) = marked();
        let grid = shown(&site, &table, Form::Grid(80));
        assert!(grid.ends_with("\nslot           1      2\nchannel 1   1+2!  1+2!#\n"), "{grid}");
        let sheet = shown(&site, &table, Form::Sheet);
        assert_eq!(sheet, "slot,channel,cells,marks\r\n1,1,1+2,clash\r\n2,1,1+2,clash and blocked\r\n");
        let cells = shown(&site, &table, Form::Cells);
        assert!(cells.starts_with("cell 1: slots 1-2\n  clashes: slots 1-2\n  blocked: slot 2\ncell 2: "));
    }

    /// No line is wider than asked, but where one slot alone is.
    #[test]
    fn pieces() {
        let site = Site::sized(1, 40, 2);
        let table = [1; 80];
        for width in [0, 12, 13, 20, 80] {
            let grid = shown(&site, &table, Form::Grid(width));
            let most = grid.lines().skip(1).map(str::len).max().unwrap();
            assert!(most <= width.max(14), "{most} at {width}");
            assert_eq!(
                grid.lines()
                    .filter(|line| line.starts_with("channel 2"))
                    .map(|line| line[10..].split_whitespace().count())
                    .sum::<usize>(),
                40
            );
        }
    }

    #[test]
    fn runs_joined() {
        let site = Site::sized(1, 4, 8);
        let mut table = [0; 32];
        for position in [0, 1, 2, 4, 8, 9, 10, 12, 22, 23, 24, 25, 26, 27, 28, 29, 30, 31] {
            table[position] = 1;
        }
        let text = shown(&site, &table, Form::Cells);
        assert_eq!(text, "cell 1: slots 1-2 channels 1-3+5, slot 3 channels 7-8, slot 4 all channels\n");
    }
}
