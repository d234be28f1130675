//! Courses of offers and questions from begun buckets on, with keys that share 0 to
//! 256 leading bits with the base key.

use super::both::Both;
use super::layout::BUCKETS;
use crate::generator::Generator;
use crate::tally::say;
use reference::bucket_offers::{BucketOffers, SPREADS};
use reference::buckets::Effect;
use reference::key::shared_bits;
use reference::met_buckets::MetBuckets;
use reference::node::LONGEST_LIST;

const COURSES: u64 = 800;
const OFFERS: usize = 260;

/// At the start of a course a question follows each offer, so that few nodes are
/// held; later, one of three.
const START: usize = 8;

/// What was met over all courses.
struct Course {
    met: MetBuckets,
    /// How many targets were asked for.
    targets: usize,
    /// The buckets to which a key was added.
    reached: [bool; BUCKETS],
    /// How many courses had memory longer than buckets take.
    longer: usize,
}

impl Course {
    /// Asks for a target with an output that is longer than any list, and now and
    /// then with the exact length, with one byte less and with none.
    fn question(&mut self, both: &mut Both, made: &mut BucketOffers, random: &mut Generator) {
        let target = made.target();
        let long = LONGEST_LIST + random.below(60);
        let asked = both.nearest(&target, long, &mut self.met);
        let list = asked.expect("whole buckets, and output enough");
        self.targets += 1;
        if random.below(4) > 0 {
            return;
        }
        for length in [list.len(), list.len().saturating_sub(1), 0] {
            let asked = both.nearest(&target, length, &mut self.met);
            let enough = length >= list.len();
            assert_eq!(asked.as_ref(), if enough { Ok(&list) } else { Err(&10) });
        }
    }

    fn run(&mut self, number: u64) {
        let mut made = BucketOffers::new(70_000 + number, SPREADS[number as usize % 4]);
        let mut random = Generator::new(80_000 + number);
        let base = *made.base();
        let behind = random.pick(&[0, 0, 1, 7, 300]);
        self.longer += usize::from(behind > 0);
        let mut both = Both::begun(&base, behind, random.byte());
        self.question(&mut both, &mut made, &mut random);
        for turn in 0..OFFERS {
            let node = made.offer();
            if both.offer(&node, &mut self.met) == Ok(Effect::Added) {
                self.reached[shared_bits(&base, &node.key)] = true;
            }
            if turn < START || random.below(3) == 0 {
                self.question(&mut both, &mut made, &mut random);
            }
        }
    }
}

#[test]
fn courses_agree_with_the_reference() {
    let mut course = Course {
        met: MetBuckets::default(),
        targets: 0,
        reached: [false; BUCKETS],
        longer: 0,
    };
    for number in 0..COURSES {
        course.run(number);
    }

    let Course {
        met,
        targets,
        reached,
        longer,
    } = course;
    let mut text = format!(
        "buckets: {} offers, {} questions for {targets} targets in {COURSES} courses, {longer} of \
         them in longer memory\n",
        met.offers(),
        met.questions()
    );
    for (case, count) in met.counts() {
        text += &format!("  {case}: {count}\n");
        // Memory that is not whole is met elsewhere.
        let here = !case.contains("refused with 20");
        assert!(!here || *count >= 100, "{case}: only {count}");
    }
    say(&text);
    assert!(met.offers() >= 200_000 && targets >= 60_000);
    assert!(reached.iter().all(|reached| *reached));
    assert!(longer >= 100);
}
