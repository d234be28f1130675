//! Buckets: nodes over the whole key space.

use crate::answer::accepted;
use crate::{raw, Key, Node, Nodes, Refusal, LONGEST_NODE_LIST};
use std::fmt;

/// Nodes kept over the whole key space, in 256 buckets by a base key, each of up
/// to 8 nodes.
///
/// A key's bucket is the number of leading bits it shares with the base key. The
/// base key is never held. A bucket that is full takes no new key, no node is ever
/// put out, and there is no call that removes: a full bucket holds the same keys for
/// good. A held node is replaced where its key is offered again.
///
/// Buckets own their memory, which only the library's calls change, so they always
/// keep their rules: 20 is given only where buckets are made from bytes.
///
/// ```
/// use banavoge::{Buckets, Key, Node, Transport};
/// use std::net::Ipv4Addr;
///
/// let ending = |last| {
///     let mut key = Key([0; 32]);
///     key.0[31] = last;
///     Node {
///         transport: Transport::Udp,
///         ip: Ipv4Addr::LOCALHOST.into(),
///         port: 33_445,
///         key,
///     }
/// };
///
/// let base = Key([0; 32]);
/// let mut buckets = Buckets::begin(&base);
/// for last in [1, 5, 9, 12, 200] {
///     assert!(buckets.offer(&ending(last)));
/// }
/// assert!(!buckets.offer(&ending(0)), "the base key");
///
/// let nearest = buckets.nearest(&base);
/// assert_eq!(nearest, [ending(1), ending(5), ending(9), ending(12)]);
/// let nearest = buckets.nearest(&ending(8).key);
/// assert_eq!(nearest, [ending(9), ending(12), ending(1), ending(5)]);
///
/// // 128 to 255 are one bucket: it has room for seven more, and then for no other.
/// for last in 128..135 {
///     assert!(buckets.offer(&ending(last)));
/// }
/// assert!(!buckets.offer(&ending(135)));
///
/// // A held key has its node replaced.
/// let moved = Node { port: 443, ..ending(200) };
/// assert!(buckets.offer(&moved));
/// assert_eq!(buckets.nearest(&moved.key)[0], moved);
/// ```
#[derive(Clone)]
pub struct Buckets {
    memory: Box<[u8]>,
}

impl Buckets {
    /// How many buckets there are; they are numbered 0 to 255.
    pub const COUNT: usize = 256;

    /// How many nodes a bucket holds at most.
    pub const BUCKET_SIZE: usize = 8;

    /// How many bytes buckets take.
    pub const BYTES: usize = 106_784;

    /// Begins empty buckets for a base key.
    pub fn begin(base: &Key) -> Buckets {
        let mut memory = vec![0; Buckets::BYTES].into_boxed_slice();
        accepted(raw::buckets::begin(&mut memory, &base.0))
            .expect("the memory is as long as buckets");
        Buckets { memory }
    }

    /// The buckets that stand at the front of bytes that were kept, tested in full.
    /// Refused with 20; fewer than [`Buckets::BYTES`] bytes are no buckets, and
    /// bytes behind them are left out.
    ///
    /// ```
    /// use banavoge::{Buckets, Key, Refusal};
    ///
    /// let buckets = Buckets::begin(&Key([0; 32]));
    /// let again = Buckets::from_bytes(buckets.as_bytes())?;
    /// assert_eq!(again.as_bytes(), buckets.as_bytes());
    ///
    /// let short = &buckets.as_bytes()[..Buckets::BYTES - 1];
    /// assert_eq!(Buckets::from_bytes(short).err(), Some(Refusal::BucketsNotWhole));
    /// # Ok::<(), Refusal>(())
    /// ```
    pub fn from_bytes(bytes: &[u8]) -> Result<Buckets, Refusal> {
        // Every call on buckets tests them in full; this one changes nothing, and
        // no answer is longer than this output.
        let mut out = [0; LONGEST_NODE_LIST];
        accepted(raw::buckets::nearest(bytes, &[0; 32], &mut out))?;
        let memory = bytes[..Buckets::BYTES].into();
        Ok(Buckets { memory })
    }

    /// The bytes of the buckets, to be kept. Their layout is drawn in
    /// docs/ARCHITECTURE.md.
    pub fn as_bytes(&self) -> &[u8] {
        &self.memory
    }

    /// Offers a node and answers whether it is kept. A key that is held has its node
    /// replaced. Else the node is put in where the bucket of its key has room. The
    /// base key is not kept.
    pub fn offer(&mut self, node: &Node) -> bool {
        accepted(raw::buckets::offer(&mut self.memory, &node.parts()))
            .expect("buckets that keep their rules refuse no node of known family")
            == 1
    }

    /// The 4 nearest to a target of all held nodes, or all where they are fewer,
    /// nearest first. The target may be any key, the base key or a held one too.
    pub fn nearest(&self, target: &Key) -> Vec<Node> {
        let mut out = [0; LONGEST_NODE_LIST];
        let count = self
            .write_nearest(target, &mut out)
            .expect("the output is as long as the longest list");
        Nodes::new(&out[..count])
            .collect::<Result<_, _>>()
            .expect("the library writes a node list")
    }

    /// Writes the nodes of [`nearest`](Buckets::nearest), packed, at the front of
    /// `out` as a node list, and answers how many bytes it has, which may be 0; the
    /// bytes behind it stay. Refused with 10; [`LONGEST_NODE_LIST`] is always enough.
    ///
    /// ```
    /// use banavoge::{Buckets, Key, Node, Refusal, Transport, LONGEST_NODE_LIST};
    /// use std::net::Ipv6Addr;
    ///
    /// let node = Node {
    ///     transport: Transport::Tcp,
    ///     ip: Ipv6Addr::LOCALHOST.into(),
    ///     port: 443,
    ///     key: Key([1; 32]),
    /// };
    /// let mut buckets = Buckets::begin(&Key([0; 32]));
    /// let mut out = [0; LONGEST_NODE_LIST];
    /// assert_eq!(buckets.write_nearest(&node.key, &mut out), Ok(0));
    ///
    /// buckets.offer(&node);
    /// assert_eq!(buckets.write_nearest(&node.key, &mut out), Ok(51));
    /// assert_eq!(Node::read(&out), Ok((node, 51)));
    ///
    /// let short = buckets.write_nearest(&node.key, &mut out[..50]);
    /// assert_eq!(short, Err(Refusal::OutputTooShort));
    /// ```
    pub fn write_nearest(&self, target: &Key, out: &mut [u8]) -> Result<usize, Refusal> {
        accepted(raw::buckets::nearest(&self.memory, &target.0, out))
    }
}

impl fmt::Debug for Buckets {
    fn fmt(&self, f: &mut fmt::Formatter<'_>) -> fmt::Result {
        f.debug_struct("Buckets").finish_non_exhaustive()
    }
}
