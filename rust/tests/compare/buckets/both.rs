//! Buckets in the memory of the library and in that of the second program, and one
//! call by both.

use super::layout::BYTES;
use crate::nodes::to_parts;
use crate::output::Output;
use crate::writers::answered;
use banavoge::raw::buckets as library;
use reference::buckets::{self as second, Effect};
use reference::key::Key;
use reference::met_buckets::MetBuckets;
use reference::node::Node;

/// The same buckets twice. They are equal to the byte after every call.
#[derive(Clone)]
pub struct Both {
    library: Output,
    second: Output,
}

impl Both {
    /// Buckets begun in memory with so many bytes behind them.
    pub fn begun(base: &Key, behind: usize, salt: u8) -> Both {
        let mut both = Both::in_memory(Output::new(BYTES + behind, salt));
        assert_eq!(both.begin(base), Ok(()));
        both
    }

    /// What stands in these bytes, buckets or not.
    pub fn holding(bytes: &[u8], salt: u8) -> Both {
        Both::in_memory(Output::holding(bytes, salt))
    }

    /// What stands in this memory, buckets or not.
    pub fn in_memory(memory: Output) -> Both {
        Both {
            library: memory.clone(),
            second: memory,
        }
    }

    /// The bytes of the memory.
    pub fn bytes(&mut self) -> &[u8] {
        self.library.lent()
    }

    /// Begins buckets, and fails where the two differ.
    pub fn begin(&mut self, base: &Key) -> Result<(), u8> {
        let expected = second::begin(self.second.lent(), base);
        let answer = library::begin(self.library.lent(), base);
        assert_eq!(answered(answer), expected.map(|()| 0), "begin");
        self.same_memory("begin");
        expected
    }

    /// Offers a node, and fails where the two differ. Answers what the second
    /// program answers.
    pub fn offer(&mut self, node: &Node, met: &mut MetBuckets) -> Result<Effect, u8> {
        let expected = met.offer(self.second.lent(), node);
        let answer = library::offer(self.library.lent(), &to_parts(node));
        let kept = expected.map(|effect| usize::from(effect.kept()));
        assert_eq!(answered(answer), kept, "offer of {node:02x?}: {expected:?}");
        self.same_memory("offer");
        expected
    }

    /// Asks for the nodes nearest to a target, into an output of so many bytes that
    /// is filled beforehand, and fails where the two differ. Answers the list that was
    /// written, or the refusal.
    pub fn nearest(
        &mut self,
        target: &Key,
        length: usize,
        met: &mut MetBuckets,
    ) -> Result<Vec<u8>, u8> {
        let before = Output::new(length, target[0] ^ target[31]);
        let (mut out, mut expected_out) = (before.clone(), before.clone());
        let expected = met.nearest(self.second.lent(), target, expected_out.lent());
        let answer = library::nearest(self.library.lent(), target, out.lent());
        assert_eq!(answered(answer), expected, "question for {target:02x?}");
        assert!(
            out == expected_out,
            "question for {target:02x?}: the output differs first at {}",
            out.first_difference(&expected_out)
        );
        assert!(expected.is_ok() || out == before, "the output was changed");
        self.same_memory("question");
        expected.map(|count| out.lent()[..count].to_vec())
    }

    fn same_memory(&self, what: &str) {
        assert!(
            self.library == self.second,
            "{what}: the memory differs first at {}",
            self.library.first_difference(&self.second)
        );
    }
}
