//! A site and its plan as a picture (SVG): above the range map and the loads, below the slot map. Its unit is a tenth of a
//! millimetre, and its width 1,900. Cells are numbered from 1; slots, channels and positions are counted from 0.

use crate::heaviest::{cells_of, heaviest};
use crate::site::Site;

/// The style, before what depends on the site: HEIGHT is the height in millimetres, GRID the distance of the lines in a
/// band, LONG the length of the tunnel.
const HEAD: &str = include_str!("picture_head.txt");

/// What the lines above mean.
const KEY: &str = include_str!("picture_key.txt");

/// What the marks below mean; Y is where they stand, and TEXT where their words do.
const END: &str = include_str!("picture_end.txt");

const LEFT: usize = 150;
const TOP: usize = 790;

struct Picture<'a> {
    site: &'a Site,
    table: &'a [u8],
    cells: usize,
    slots: usize,
    channels: usize,
}

/// `picture`
pub fn picture(site: &Site, table: &[u8]) -> String {
    let (cells, slots, channels) = (site.count(), site.slots as usize, site.channels as usize);
    let drawn = Picture { site, table, cells, slots, channels };
    [drawn.head(), drawn.lines(), drawn.circles(), drawn.loads(), drawn.slot_numbers(), drawn.bands(), drawn.end()]
        .concat()
}

fn many(count: usize, word: &str) -> String {
    format!("{count} {word}{}", if count == 1 { "" } else { "s" })
}

impl Picture<'_> {
    fn slot_width(&self) -> usize {
        (1664 / self.slots).min(416)
    }

    fn channel_height(&self) -> usize {
        (1536 / (self.cells * self.channels)).min(48)
    }

    fn band(&self, cell: usize) -> usize {
        TOP + (cell - 1) * (self.channels * self.channel_height() + 12)
    }

    fn height(&self) -> usize {
        (self.band(self.cells + 1) + 50) / 10
    }

    /// How many slots there are to a number.
    fn every(&self) -> usize {
        if self.slots > 32 {
            8
        } else {
            1
        }
    }

    fn step(&self) -> usize {
        (1720 / self.cells).min(860)
    }

    fn middle(&self, cell: usize) -> usize {
        100 + (cell - 1) * self.step() + self.step() / 2
    }

    fn blocked(&self) -> usize {
        (0..self.site.positions()).filter(|&position| !self.site.is_open(position)).count()
    }

    fn head(&self) -> String {
        let head = (HEAD.to_owned() + KEY)
            .replace("HEIGHT", &self.height().to_string())
            .replace("GRID", &(self.every() * self.slot_width()).to_string())
            .replace("LONG", &(self.cells * self.step()).to_string())
            .replace("CELLS", &many(self.cells, "cell"));
        let (rule, blocked, all) = (self.site.rule, self.blocked(), self.site.positions());
        format!("{head}<text class=\"end\" x=\"1870\" y=\"90\">rule {rule}, {blocked} of {all} channel-slots blocked</text>\n")
    }

    fn line(&self, a: usize, b: usize) -> String {
        let (from, to) = (self.middle(a), self.middle(b));
        let (forth, back) = (self.site.reaches(a, b), self.site.reaches(b, a));
        let apart = a.abs_diff(b);
        let bend = 20 + 200 * apart / (1 + apart + self.cells / 8);
        let line = |class: &str, ends: usize, y: usize| {
            format!("<path class=\"{class}\" d=\"M{from} {ends}Q{} {y} {to} {ends}\"/>\n", (from + to) / 2)
        };
        match (forth, back) {
            (true, true) if a < b => line("arc", 226, 226 - bend),
            (true, false) => line("arrow", 276, 276 + bend),
            (false, false) if a < b && self.site.clash(a, b) => line("third", 226, 226 - bend),
            _ => String::new(),
        }
    }

    fn lines(&self) -> String {
        (1..=self.cells).flat_map(|a| (1..=self.cells).map(move |b| self.line(a, b))).collect()
    }

    fn circles(&self) -> String {
        let heavy: Vec<usize> =
            heaviest(self.site).map_or_else(|_| Vec::new(), |found| cells_of(found.cells).collect());
        let circle = |cell: usize| {
            let x = self.middle(cell);
            let (class, word) = if self.site.load(cell) > 0 { ("cell", "on") } else { ("spare", "off") };
            let ring = format!("<circle class=\"heavy\" cx=\"{x}\" cy=\"250\" r=\"27\"/>\n");
            format!(
                "<circle class=\"{class}\" cx=\"{x}\" cy=\"250\" r=\"21\"/>\n<text class=\"{word}\" x=\"{x}\" y=\"259\">{cell}</text>\n{}",
                if heavy.contains(&cell) { ring } else { String::new() }
            )
        };
        (1..=self.cells).map(circle).collect()
    }

    /// What the cells before a cell that clash with it send.
    fn before(&self, cell: usize) -> u64 {
        (1..cell).filter(|&other| self.site.clash(other, cell)).map(|other| self.site.load(other)).sum()
    }

    fn loads(&self) -> String {
        let room = self.site.room();
        let demands = (1..=self.cells)
            .filter(|&cell| self.site.load(cell) > 0)
            .map(|cell| self.site.load(cell) + self.before(cell));
        let scale = demands.max().unwrap_or(0).max(room).max(1);
        let high = |amount: u64| amount * 150 / scale;
        let mut text = String::new();
        for cell in 1..=self.cells {
            let (x, load, before) = (self.middle(cell), self.site.load(cell), self.before(cell));
            let (low, top) = (high(before), high(load + before));
            if load > 0 && before > 0 {
                text += &format!("<path class=\"before\" d=\"M{} 620h30v-{low}h-30z\"/>\n", x - 15);
            }
            if load > 0 {
                text += &format!("<path class=\"load\" d=\"M{} {}h30v-{}h-30z\"/>\n", x - 15, 620 - low, top - low);
            }
            if load > 0 && load + before > room {
                text += &format!("<text class=\"over\" x=\"{x}\" y=\"{}\">!</text>\n", 612 - top);
            }
            text += &format!("<text class=\"tiny\" x=\"{x}\" y=\"644\">{load}</text>\n");
        }
        let (y, long) = (620 - high(room), self.cells * self.step());
        text + &format!(
            "<path class=\"room\" d=\"M100 {y}h{long}\"/>\n<text class=\"small end\" x=\"92\" y=\"{}\">{room}</text>\n",
            y + 7
        )
    }

    fn slot_numbers(&self) -> String {
        let number = |slot: usize| {
            let x = LEFT + slot * self.slot_width() + self.slot_width() / 2;
            format!("<text class=\"tiny\" x=\"{x}\" y=\"780\">{}</text>\n", slot + 1)
        };
        (0..self.slots).filter(|slot| (slot + 1) % self.every() == 0).map(number).collect()
    }

    fn sends(&self, cell: usize, position: usize) -> bool {
        self.table[(cell - 1) * self.site.positions() + position] == 1
    }

    /// The marks of a place, of the four kinds: blocked, keeps clear, sends, sends and must not.
    fn marks(&self, cell: usize, position: usize) -> [bool; 4] {
        let blocked = !self.site.is_open(position);
        let met = (1..=self.cells).any(|other| self.site.clash(cell, other) && self.sends(other, position));
        let sends = self.sends(cell, position);
        [blocked, !sends && !blocked && met, sends, sends && (blocked || met)]
    }

    fn mark(&self, kind: usize, slot: usize, slots: usize, y: usize) -> String {
        let (x, wide, high) = (LEFT + slot * self.slot_width(), slots * self.slot_width(), self.channel_height());
        match kind {
            0 => format!("<path class=\"blocked\" d=\"M{x} {y}h{wide}v{high}h-{wide}z\"/>\n"),
            1 => format!("<path class=\"clear\" d=\"M{x} {y}h{wide}v{high}h-{wide}z\"/>\n"),
            2 => format!("<rect x=\"{x}\" y=\"{y}\" width=\"{wide}\" height=\"{high}\"/>\n"),
            _ => format!("<path class=\"wrong\" d=\"M{x} {y} h{wide} v{high} h-{wide} z\"/>\n"),
        }
    }

    fn channel(&self, cell: usize, channel: usize) -> String {
        let y = self.band(cell) + channel * self.channel_height();
        let places: Vec<[bool; 4]> =
            (0..self.slots).map(|slot| self.marks(cell, slot * self.channels + channel)).collect();
        let mut text = String::new();
        for kind in 0..4 {
            let mut slot = 0;
            while slot < self.slots {
                let long = places[slot..].iter().take_while(|place| place[kind]).count();
                if long > 0 {
                    text += &self.mark(kind, slot, long, y);
                }
                slot += long.max(1);
            }
        }
        if self.channel_height() > 7 {
            text += &self.frame("edge", y, self.channel_height());
        }
        text
    }

    fn frame(&self, class: &str, y: usize, high: usize) -> String {
        let wide = self.slots * self.slot_width();
        format!("<path class=\"{class}\" d=\"M{LEFT} {y}h{wide}v{high}h-{wide}z\"/>\n")
    }

    fn bands(&self) -> String {
        let band = |cell: usize| {
            let (y, high) = (self.band(cell), self.channels * self.channel_height());
            let channels: String = (0..self.channels).map(|channel| self.channel(cell, channel)).collect();
            let name = format!("<text class=\"end\" x=\"140\" y=\"{}\">cell {cell}</text>\n", y + high / 2 + 9);
            channels + &self.frame("grid", y, high) + &name
        };
        (1..=self.cells).map(band).collect()
    }

    fn end(&self) -> String {
        let y = self.height() * 10 - 36;
        END.replace("SLOTS", &many(self.slots, "slot"))
            .replace("CHANNELS", &many(self.channels, "channel"))
            .replace("TEXT", &(y + 19).to_string())
            .replace('Y', &y.to_string())
    }
}

#[cfg(test)]
mod tests {
    use super::picture;
    use crate::site::{site_of, RULE_2};

    /// Cells 1 and 2 reach each other, 3 reaches 2; one slot is blocked, and 2 sends there, where 1 sends too.
    #[test]
    fn a_picture_has_its_marks() {
        let mut site = site_of(2, 1, &[1, 1, 0], &[(1, 2), (2, 1), (3, 2)]);
        site.blocked[0] = 2;
        let text = picture(&site, &[1, 0, 1, 1, 0, 0]);
        let count = |what: &str| text.matches(what).count();
        assert!(text.starts_with("<svg ") && text.ends_with("</svg>\n"));
        assert_eq!(count("<rect x=\"150\" y=\"790\" width=\"416\""), 1);
        assert_eq!(count("<rect x=\"150\" y=\"850\" width=\"832\""), 1);
        assert_eq!((count("<rect "), count("<path class=\"wrong\" d=")), (2, 2));
        assert_eq!(
            (count("<path class=\"arc\" "), count("<path class=\"arrow\" "), count("<path class=\"third\" d=")),
            (1, 1, 0)
        );
        assert_eq!((count("<text class=\"over\" x=\"1655\""), count("<text class=\"over\"")), (1, 2));
        assert!(text.contains("rule 1, 1 of 2 channel-slots blocked"));
        site.rule = RULE_2;
        assert_eq!(picture(&site, &[0; 6]).matches("<path class=\"third\" d=").count(), 1);
    }
}
