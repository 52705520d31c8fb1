//! A bundle: many feeds in one file, each behind a head of three unsigned 32-bit
//! numbers, little-endian: the rule it is joined by (0 equal, 1 near, 2 every),
//! the width (0 unless near), and how many bytes the feed has.

use crate::joinfeed::printed_by;
use crate::rules::Rule;

/// The bundle of some feeds, each with its rule.
pub fn bundle_of<'a>(feeds: impl IntoIterator<Item = (Rule, &'a [u8])>) -> Vec<u8> {
    let mut bundle = Vec::new();
    for (rule, feed) in feeds {
        let [rule, width] = numbers_of(rule);
        for number in [rule, width, feed.len() as u32] {
            bundle.extend(number.to_le_bytes());
        }
        bundle.extend(feed);
    }
    bundle
}

fn numbers_of(rule: Rule) -> [u32; 2] {
    match rule {
        Rule::Equal => [0, 0],
        Rule::Near(width) => [1, width],
        Rule::Every => [2, 0],
    }
}

fn rule_of(numbers: [u32; 2]) -> Option<Rule> {
    match numbers {
        [0, 0] => Some(Rule::Equal),
        [1, width] => Some(Rule::Near(width)),
        [2, 0] => Some(Rule::Every),
        _ => None,
    }
}

/// The feeds of a bundle, each with its rule, or what is wrong with the first
/// bad one.
pub fn feeds_of(bundle: &[u8]) -> Result<Vec<(Rule, &[u8])>, String> {
    let mut feeds = Vec::new();
    let mut rest = bundle;
    while !rest.is_empty() {
        let number = feeds.len();
        let cut = || {
            format!("the bundle ends inside its feed number {number}; give all that `second make` wrote")
        };
        let mut head = [0; 3];
        for place in &mut head {
            let (bytes, after) = rest.split_first_chunk().ok_or_else(cut)?;
            *place = u32::from_le_bytes(*bytes);
            rest = after;
        }
        let [rule, width, length] = head;
        let rule = rule_of([rule, width]).ok_or_else(|| {
            format!("feed number {number} of the bundle has the rule {rule} and the width {width}; write 0 0 for equal keys, 1 and a width for near ones, 2 0 for every couple")
        })?;
        let (feed, after) = rest.split_at_checked(length as usize).ok_or_else(cut)?;
        feeds.push((rule, feed));
        rest = after;
    }
    Ok(feeds)
}

/// What is printed of each feed of a bundle, joined by its rule, one after the
/// other.
pub fn printed_of_all(bundle: &[u8]) -> Result<String, String> {
    let feeds = feeds_of(bundle)?.into_iter();
    Ok(feeds.map(|(rule, feed)| printed_by(rule, feed)).collect())
}

#[cfg(test)]
mod tests {
    use super::*;
    use crate::text::feed_of_text;

    const FEEDS: [(Rule, &[u8]); 4] = [
        (Rule::Near(258), &[7, 8, 9]),
        (Rule::Equal, &[]),
        (Rule::Every, &[0; 300]),
        (Rule::Near(u32::MAX), &[1]),
    ];

    #[test]
    fn a_bundle_gives_its_feeds_and_their_rules_back() {
        let bundle = bundle_of(FEEDS);
        let first = [1, 0, 0, 0, 2, 1, 0, 0, 3, 0, 0, 0, 7, 8, 9];
        let second = [0; 12];
        assert_eq!(bundle[..27], [&first[..], &second].concat());
        assert_eq!(feeds_of(&bundle).unwrap(), FEEDS);
        assert_eq!(feeds_of(&[]).unwrap(), []);
    }

    #[test]
    fn a_cut_bundle_is_told_by_the_feed_it_ends_in() {
        let bundle = bundle_of([(Rule::Equal, &[7][..]), (Rule::Every, &[8, 9])]);
        for cut in [14, 16, 20, 24, 25, 26] {
            let told = feeds_of(&bundle[..cut]).unwrap_err();
            assert!(told.contains("feed number 1;"), "{told}");
        }
        assert_eq!(feeds_of(&bundle[..13]).unwrap().len(), 1);
    }

    #[test]
    fn an_unknown_rule_is_told() {
        for (rule, width) in [(3, 0), (0, 1), (2, 7)] {
            let mut bundle = bundle_of([(Rule::Equal, &[][..])]);
            bundle[0] = rule;
            bundle[4] = width;
            let told = feeds_of(&bundle).unwrap_err();
            let begin =
                format!("feed number 0 of the bundle has the rule {rule} and the width {width};");
            assert!(told.starts_with(&begin), "{told}");
        }
    }

    #[test]
    fn each_feed_is_joined_by_its_own_rule() {
        let feed = feed_of_text(b"entry A 0 9 5 1\nentry B 0 9 7 3\nclose A\nclose B").unwrap();
        let rules = [Rule::Equal, Rule::Near(1), Rule::Near(2), Rule::Every];
        let bundle = bundle_of(rules.map(|rule| (rule, feed.as_slice())));
        let (none, pair) = ("done 4 0\n", "0 9 0 0 5 7 1 3\ndone 4 1\n");
        assert_eq!(
            printed_of_all(&bundle).unwrap(),
            [none, none, pair, pair].concat()
        );
    }
}
