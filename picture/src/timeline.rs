//! The timeline of an evening: for each axis a strip with its sheets above, its
//! holds below, and between the two a band for each pair that joins them.

use crate::drawing::{width_of, Anchor, Area, Drawing, Shape, Text};
use crate::evening::Evening;
use second::rules::{Entry, Pair, Stream};

const WIDTH: f64 = 900.0;
/// Where the first and the last instant stand.
const LEFT: f64 = 92.0;
const RIGHT: f64 = 876.0;
/// Milliseconds from one rule of the time axis to the next.
const STEP: u32 = 1000;

const STRIPS_TOP: f64 = 128.0;
const BAR: f64 = 24.0;
const GAP: f64 = 52.0;
const STRIP: f64 = BAR + GAP + BAR;
const MARGIN: f64 = 9.0;
const NEXT_STRIP: f64 = STRIP + 4.0 * MARGIN;

const INK: &str = "#1a1a1a";
const GREY: &str = "#595959";
const PALE: &str = "#8c8c8c";
const RULE: &str = "#dcdcdc";
const GROUND: &str = "#f5f5f2";
const WHITE: &str = "#ffffff";
/// Told apart by those who do not see all colours: blue, orange, green.
const SHEET: &str = "#0a5a9c";
const HOLD: &str = "#a84a00";
const PAIR: &str = "#bfe3d6";
const PAIR_EDGE: &str = "#00694c";

const SMALL: f64 = 11.0;
const PLAIN: f64 = 12.0;

pub fn drawn(evening: &Evening) -> Drawing {
    let mut timeline = Timeline::of(evening);
    timeline.heading();
    timeline.legend();
    timeline.strips();
    timeline.time_axis();
    timeline.bands();
    timeline.bars();
    timeline.unpaired();
    let high = timeline.promises();
    let high = timeline.sentences(high);
    Drawing {
        wide: WIDTH,
        high,
        title: TITLE.to_string(),
        described: described(evening),
        shapes: timeline.shapes,
    }
}

const TITLE: &str = "An evening at the dome: which sheet was in force during which hold";

/// What a pair says to a fitter.
fn sentence(pair: &Pair) -> String {
    let Pair {
        start,
        end,
        a_key,
        a_value,
        b_value,
        ..
    } = pair;
    format!("{start} to {end} ms: sheet {a_value} for axis {a_key} during hold {b_value}")
}

/// The picture for those who have it read to them.
fn described(evening: &Evening) -> String {
    let pairs: Vec<String> = evening.pairs.iter().map(sentence).collect();
    format!(
        "A timeline in milliseconds with a strip for each axis. Above stand the sheets in force, \
         below the holds, and a band joins each sheet with each hold that it met on its axis. \
         The pairs are: {}.",
        pairs.join("; ")
    )
}

fn name_of(stream: Stream, entry: &Entry) -> String {
    match stream {
        Stream::A => format!("sheet {}", entry.value),
        Stream::B => format!("hold {}", entry.value),
    }
}

const STREAMS: [Stream; 2] = [Stream::A, Stream::B];

struct Timeline<'a> {
    evening: &'a Evening,
    keys: Vec<u32>,
    /// The last instant of the time axis.
    until: u32,
    shapes: Vec<Shape>,
}

impl Timeline<'_> {
    fn of(evening: &Evening) -> Timeline<'_> {
        Timeline {
            evening,
            keys: evening.keys(),
            until: evening.last_end().max(1).next_multiple_of(STEP),
            shapes: Vec::new(),
        }
    }

    fn x(&self, time: u32) -> f64 {
        LEFT + (RIGHT - LEFT) * f64::from(time) / f64::from(self.until)
    }

    /// The top of a strip, or of what comes below the last one.
    fn strip(&self, number: usize) -> f64 {
        STRIPS_TOP + 2.0 * MARGIN + NEXT_STRIP * number as f64
    }

    fn strip_of(&self, key: u32) -> f64 {
        self.strip(self.keys.partition_point(|known| *known < key))
    }

    fn bar(&self, stream: Stream, entry: &Entry) -> Area {
        let top = match stream {
            Stream::A => self.strip_of(entry.key),
            Stream::B => self.strip_of(entry.key) + BAR + GAP,
        };
        Area {
            left: self.x(entry.start),
            top,
            right: self.x(entry.end),
            bottom: top + BAR,
        }
    }

    /// From the sheet's bar down to the hold's, for as long as the pair holds.
    fn band(&self, pair: &Pair) -> Area {
        let sheet = self.evening.entries[0][pair.a_ordinal as usize];
        let hold = self.evening.entries[1][pair.b_ordinal as usize];
        Area {
            left: self.x(pair.start),
            top: self.bar(Stream::A, &sheet).bottom,
            right: self.x(pair.end),
            bottom: self.bar(Stream::B, &hold).top,
        }
    }

    fn say(
        &mut self,
        (x, y): (f64, f64),
        size: f64,
        colour: &'static str,
        said: &str,
    ) -> &mut Text {
        self.shapes.push(Shape::Text(Text {
            x,
            y,
            size,
            bold: false,
            colour,
            anchor: Anchor::Start,
            said: said.to_string(),
        }));
        match self.shapes.last_mut() {
            Some(Shape::Text(text)) => text,
            _ => unreachable!("a text was put last"),
        }
    }

    fn heading(&mut self) {
        self.say((24.0, 34.0), 18.0, INK, TITLE).bold = true;
        let notes = self.evening.notes.join(", ");
        let said = format!("{notes}; times are milliseconds since the doors closed");
        self.say((24.0, 56.0), 13.0, GREY, &said);
    }

    fn legend(&mut self) {
        let mut x = 24.0;
        for (colour, said) in [
            (SHEET, "journal A: sheet in force"),
            (HOLD, "journal B: axis held"),
            (PAIR, "pair: same time, same axis"),
        ] {
            let swatch = Area {
                left: x,
                top: 74.0,
                right: x + 22.0,
                bottom: 88.0,
            };
            self.shapes.push(Shape::Area("legend", swatch, colour, 2.0));
            self.say((x + 28.0, 85.5), PLAIN, INK, said);
            x += 28.0 + width_of(said, PLAIN) + 18.0;
        }
        self.shapes.push(Shape::Flag((x + 5.0, 85.0), PALE));
        let said = "mark: nothing earlier follows";
        self.say((x + 16.0, 85.5), PLAIN, INK, said);
    }

    fn strips(&mut self) {
        for number in 0..self.keys.len() {
            let top = self.strip(number);
            let ground = Area {
                left: 12.0,
                top: top - MARGIN,
                right: WIDTH - 12.0,
                bottom: top + STRIP + MARGIN,
            };
            self.shapes.push(Shape::Area("strip", ground, GROUND, 6.0));
            let axis = format!("axis {}", self.keys[number]);
            let middle = top + STRIP / 2.0 + 5.0;
            self.say((24.0, middle), 14.0, INK, &axis).bold = true;
            self.say((24.0, top + 16.0), SMALL, SHEET, "sheets");
            self.say((24.0, top + BAR + GAP + 16.0), SMALL, HOLD, "holds");
        }
    }

    fn time_axis(&mut self) {
        let bottom = self.strip(self.keys.len()) - 3.0 * MARGIN;
        for time in (0..=self.until).step_by(STEP as usize) {
            let x = self.x(time);
            self.shapes
                .push(Shape::Line((x, STRIPS_TOP), (x, bottom), RULE));
            let said = time.to_string();
            self.say((x, STRIPS_TOP - 6.0), SMALL, GREY, &said).anchor = Anchor::Middle;
        }
        self.say((24.0, STRIPS_TOP - 6.0), SMALL, GREY, "ms");
    }

    fn bands(&mut self) {
        for (number, pair) in (1..).zip(&self.evening.pairs) {
            let band = self.band(pair);
            self.shapes.push(Shape::Area("pair", band, PAIR, 0.0));
            for x in [band.left, band.right] {
                self.shapes
                    .push(Shape::Line((x, band.top), (x, band.bottom), PAIR_EDGE));
            }
            self.number((band.middle(), band.top + 18.0), number);
            let times = format!("{}–{}", pair.start, pair.end);
            let y = band.top + 43.0;
            if width_of(&times, SMALL) < band.wide() {
                self.say((band.middle(), y), SMALL, INK, &times).anchor = Anchor::Middle;
            } else {
                self.say((band.right + 5.0, y), SMALL, INK, &times);
            }
        }
    }

    /// The place of a pair among those printed.
    fn number(&mut self, (x, y): (f64, f64), number: u32) {
        self.shapes.push(Shape::Disc((x, y), 9.0, PAIR_EDGE));
        let text = self.say((x, y + 4.0), SMALL, WHITE, &number.to_string());
        text.anchor = Anchor::Middle;
        text.bold = true;
    }

    fn bars(&mut self) {
        for (stream, colour) in STREAMS.into_iter().zip([SHEET, HOLD]) {
            for entry in &self.evening.entries[stream as usize] {
                let bar = self.bar(stream, entry);
                let shows = ["sheet", "hold"][stream as usize];
                self.shapes.push(Shape::Area(shows, bar, colour, 2.0));
                // Told apart from a bar that it touches.
                let (top, bottom) = ((bar.right, bar.top), (bar.right, bar.bottom));
                self.shapes.push(Shape::Line(top, bottom, WHITE));
                let name = name_of(stream, entry);
                let long = format!("{name}, {}–{}", entry.start, entry.end);
                let fits = width_of(&long, SMALL) + 8.0 < bar.wide();
                let said = if fits { long } else { name };
                self.say((bar.middle(), bar.top + 16.0), SMALL, WHITE, &said)
                    .anchor = Anchor::Middle;
            }
        }
    }

    /// A hold that pairs with nothing has that said above it.
    fn unpaired(&mut self) {
        let evening = self.evening;
        for (ordinal, hold) in (0..).zip(&evening.entries[1]) {
            if evening.pairs.iter().any(|pair| pair.b_ordinal == ordinal) {
                continue;
            }
            let bar = self.bar(Stream::B, hold);
            let (start, end) = (hold.start, hold.end);
            let name = name_of(Stream::B, hold);
            let said = format!("{name}, {start}–{end}, meets no sheet: no pair");
            let text = self.say((bar.middle(), bar.top - 8.0), SMALL, GREY, &said);
            text.anchor = Anchor::Middle;
            // No rule of the time axis goes through it.
            let room = text.area();
            let below = self.shapes.len() - 1;
            self.shapes
                .insert(below, Shape::Area("ground", room, GROUND, 0.0));
        }
    }

    /// The marks of each journal at their times, and its close at the end.
    /// Answers where that ends.
    fn promises(&mut self) -> f64 {
        let top = self.strip(self.keys.len()) + 2.0;
        for stream in STREAMS {
            let y = top + 20.0 * f64::from(stream as u8);
            self.shapes.push(Shape::Line((LEFT, y), (RIGHT, y), RULE));
            self.say((24.0, y + 4.0), SMALL, GREY, &format!("journal {stream:?}"));
            for (_, time) in self.evening.marks.iter().filter(|mark| mark.0 == stream) {
                let x = self.x(*time);
                self.shapes.push(Shape::Flag((x, y), PALE));
                let said = format!("mark {time}");
                self.say((x - 9.0, y - 4.0), SMALL, GREY, &said).anchor = Anchor::End;
            }
            if self.evening.closes.contains(&stream) {
                self.shapes
                    .push(Shape::Line((RIGHT, y - 7.0), (RIGHT, y + 7.0), GREY));
                self.say((RIGHT - 5.0, y - 4.0), SMALL, GREY, "close")
                    .anchor = Anchor::End;
            }
        }
        top + 20.0
    }

    /// Each pair in words, in the order in which they are printed. Answers where
    /// that ends.
    fn sentences(&mut self, top: f64) -> f64 {
        let rows = self.evening.pairs.len().div_ceil(2);
        for (number, pair) in self.evening.pairs.iter().enumerate() {
            let x = 33.0 + 440.0 * (number / rows) as f64;
            let y = top + 38.0 + 24.0 * (number % rows) as f64;
            self.number((x, y), number as u32 + 1);
            self.say((x + 16.0, y + 4.5), 13.0, INK, &sentence(pair));
        }
        top + 38.0 + 24.0 * rows as f64
    }
}

#[cfg(test)]
mod tests {
    use super::*;
    use crate::EVENING;

    fn evening() -> Evening {
        Evening::told(EVENING).unwrap()
    }

    fn areas(drawing: &Drawing, shown: &str) -> Vec<Area> {
        let area_of = |shape: &Shape| match shape {
            Shape::Area(shows, area, ..) if *shows == shown => Some(*area),
            _ => None,
        };
        drawing.shapes.iter().filter_map(area_of).collect()
    }

    fn texts(drawing: &Drawing) -> Vec<&Text> {
        let text_of = |shape| match shape {
            &Shape::Text(ref text) => Some(text),
            _ => None,
        };
        drawing.shapes.iter().filter_map(text_of).collect()
    }

    fn overlap(x: &Area, y: &Area) -> bool {
        x.left < y.right && y.left < x.right && x.top < y.bottom && y.top < x.bottom
    }

    #[test]
    fn one_bar_an_entry_and_one_band_a_pair() {
        let evening = evening();
        let drawing = drawn(&evening);
        let svg = drawing.svg();
        let counts = [
            ("sheet", evening.entries[0].len()),
            ("hold", evening.entries[1].len()),
            ("pair", evening.pairs.len()),
            ("strip", evening.keys().len()),
        ];
        for (shown, count) in counts {
            assert_eq!(areas(&drawing, shown).len(), count, "{shown}");
            let class = format!("<rect class=\"{shown}\"");
            assert_eq!(svg.matches(&class).count(), count, "{shown}");
        }
    }

    #[test]
    fn a_band_joins_its_two_bars_for_as_long_as_the_pair_holds() {
        let evening = evening();
        let timeline = Timeline::of(&evening);
        let drawing = drawn(&evening);
        let (sheets, holds) = (areas(&drawing, "sheet"), areas(&drawing, "hold"));
        for (pair, band) in evening.pairs.iter().zip(areas(&drawing, "pair")) {
            let sheet = sheets[pair.a_ordinal as usize];
            let hold = holds[pair.b_ordinal as usize];
            assert_eq!((band.top, band.bottom), (sheet.bottom, hold.top));
            assert_eq!(band.left, sheet.left.max(hold.left));
            assert_eq!(band.right, sheet.right.min(hold.right));
            assert_eq!(band.left, timeline.x(pair.start));
            assert_eq!(band.right, timeline.x(pair.end));
        }
    }

    #[test]
    fn later_stands_further_right_and_no_two_bars_overlap() {
        let evening = evening();
        let timeline = Timeline::of(&evening);
        assert_eq!((timeline.x(0), timeline.x(timeline.until)), (LEFT, RIGHT));
        assert!((0..timeline.until).all(|time| timeline.x(time) < timeline.x(time + 1)));
        let drawing = drawn(&evening);
        let bars = [areas(&drawing, "sheet"), areas(&drawing, "hold")].concat();
        for (number, bar) in bars.iter().enumerate() {
            assert!(bar.left < bar.right);
            assert!(!bars[..number].iter().any(|other| overlap(bar, other)));
        }
    }

    #[test]
    fn no_two_texts_overlap_and_each_has_its_room() {
        let drawing = drawn(&evening());
        let whole = Area {
            left: 0.0,
            top: 0.0,
            right: drawing.wide,
            bottom: drawing.high,
        };
        let inside = |area: &Area, room: &Area| {
            room.left <= area.left
                && area.right <= room.right
                && room.top <= area.top
                && area.bottom <= room.bottom
        };
        let bars = [areas(&drawing, "sheet"), areas(&drawing, "hold")].concat();
        let texts = texts(&drawing);
        assert!(texts.len() > 30);
        for (number, text) in texts.iter().enumerate() {
            let area = text.area();
            assert!(inside(&area, &whole), "{text:?}");
            for other in &texts[..number] {
                assert!(!overlap(&area, &other.area()), "{text:?}, {other:?}");
            }
            // It stands in a bar or beside it, not across its edge.
            for bar in bars.iter().filter(|bar| overlap(&area, bar)) {
                assert!(inside(&area, bar), "{text:?}, {bar:?}");
            }
        }
    }

    #[test]
    fn the_bands_and_sentences_are_those_of_the_pairs_printed() {
        let text = String::from_utf8(EVENING.to_vec()).unwrap();
        let moved = text.replace("entry B 500 1500 1 1", "entry B 500 1500 3 1");
        assert_ne!(moved, text);
        let evening = Evening::told(moved.as_bytes()).unwrap();
        let drawing = drawn(&evening);
        assert_eq!(areas(&drawing, "pair").len(), 5);
        let said = |words: &str| texts(&drawing).iter().any(|text| text.said == words);
        assert!(said("3000 to 4000 ms: sheet 101 for axis 1 during hold 2"));
        assert!(!said("500 to 1500 ms: sheet 101 for axis 1 during hold 1"));
        assert!(said("hold 1, 500–1500, meets no sheet: no pair"));
    }

    #[test]
    fn it_is_told_to_those_who_have_it_read_to_them() {
        let evening = evening();
        let svg = drawn(&evening).svg();
        assert!(svg.contains("role=\"img\" aria-labelledby=\"title desc\""));
        assert_eq!(svg.matches("<title id=\"title\">").count(), 1);
        let (_, described) = svg.split_once("<desc id=\"desc\">").unwrap();
        let (described, _) = described.split_once("</desc>").unwrap();
        assert!(evening
            .pairs
            .iter()
            .all(|pair| described.contains(&sentence(pair))));
    }
}
