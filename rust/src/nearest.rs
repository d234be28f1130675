//! Nearest lists.

use crate::answer::accepted;
use crate::raw::{self, node::Parts};
use crate::{Key, Node, Refusal};
use std::fmt;
use std::iter::FusedIterator;

/// The nodes whose keys are nearest to a target, nearest first, and no key
/// twice. A list holds at most as many nodes as its size says.
///
/// It owns its memory, which only the library's calls change, so it always
/// keeps its rules; what those calls refuse of a broken list, 12 and 14, is
/// refused where a list is made.
///
/// ```
/// use banavoge::{Key, NearestList, Node, Refusal, Transport};
/// use std::net::Ipv4Addr;
///
/// let ending = |last| {
///     let mut key = Key([0; 32]);
///     key.0[31] = last;
///     Node {
///         transport: Transport::Udp,
///         ip: Ipv4Addr::LOCALHOST.into(),
///         port: 33_445,
///         key,
///     }
/// };
///
/// let mut list = NearestList::begin(&Key([0; 32]), 2)?;
/// assert!(list.offer(&ending(5)));
/// assert!(list.offer(&ending(3)));
/// assert!(!list.offer(&ending(9)));
/// assert!(list.nodes().eq([ending(3), ending(5)]));
///
/// list.remove(&ending(3).key)?;
/// assert!(list.nodes().eq([ending(5)]));
/// assert_eq!(list.remove(&ending(3).key), Err(Refusal::KeyNotHeld));
/// # Ok::<(), Refusal>(())
/// ```
#[derive(Clone)]
pub struct NearestList {
    memory: [u8; NearestList::BYTES],
}

impl NearestList {
    /// How many bytes a list takes.
    pub const BYTES: usize = 850;

    /// The largest size; the smallest is 1.
    pub const LARGEST_SIZE: usize = 16;

    /// The size of the empty list that is given.
    pub const DEFAULT_SIZE: usize = 8;

    /// The empty list of size 8 for a target.
    pub fn empty(target: &Key) -> NearestList {
        NearestList::begin(target, NearestList::DEFAULT_SIZE).expect("8 is a size of a list")
    }

    /// Begins the empty list of a size for a target. Refused with 12 where the
    /// size is not 1 to 16; the list that document 01 hands back beside this
    /// refusal is [`NearestList::empty`].
    pub fn begin(target: &Key, size: usize) -> Result<NearestList, Refusal> {
        let mut memory = [0; NearestList::BYTES];
        accepted(raw::nearest::begin(&mut memory, &target.0, size))?;
        Ok(NearestList { memory })
    }

    /// The list that stands at the front of bytes that were kept, tested in
    /// full. Refused with 12 or 14; fewer than [`NearestList::BYTES`] bytes are
    /// 14, or 12 where the first of them is no size, and bytes behind the list
    /// are left out.
    ///
    /// ```
    /// use banavoge::{Key, NearestList, Refusal};
    ///
    /// let list = NearestList::empty(&Key([0; 32]));
    /// let again = NearestList::from_bytes(list.as_bytes())?;
    /// assert!(again.nodes().eq(list.nodes()));
    ///
    /// let short = &list.as_bytes()[..NearestList::BYTES - 1];
    /// assert_eq!(NearestList::from_bytes(short).err(), Some(Refusal::ListNotWhole));
    /// # Ok::<(), Refusal>(())
    /// ```
    pub fn from_bytes(bytes: &[u8]) -> Result<NearestList, Refusal> {
        // Every call on a list tests it in full; this one changes nothing.
        accepted(raw::nearest::node(bytes, 0, &mut Parts::default()))?;
        let memory = bytes
            .first_chunk()
            .expect("the library has found a whole list");
        Ok(NearestList { memory: *memory })
    }

    /// The bytes of the list, to be kept. Their layout is drawn in
    /// docs/ARCHITECTURE.md.
    pub const fn as_bytes(&self) -> &[u8] {
        &self.memory
    }

    /// Offers a node and answers whether it is kept. A key that is held has its
    /// node replaced. Else the node is put in where the list has room or where
    /// it is nearer than the furthest, which then gives way.
    pub fn offer(&mut self, node: &Node) -> bool {
        accepted(raw::nearest::offer(&mut self.memory, &node.parts()))
            .expect("a list that keeps its rules refuses no node of known family")
            == 1
    }

    /// Takes out the node of a key. Refused with 13 where the key is not held.
    pub fn remove(&mut self, key: &Key) -> Result<(), Refusal> {
        accepted(raw::nearest::remove(&mut self.memory, &key.0)).map(|_| ())
    }

    /// The node held at an index, the nearest at 0; `None` where the list holds
    /// no more.
    pub fn get(&self, index: usize) -> Option<Node> {
        let mut parts = Parts::default();
        let shown = accepted(raw::nearest::node(&self.memory, index, &mut parts))
            .expect("a list that keeps its rules shows its nodes");
        (shown == 1).then(|| Node::of_parts(&parts))
    }

    /// The nodes held, nearest first.
    pub const fn nodes(&self) -> HeldNodes<'_> {
        HeldNodes {
            list: self,
            index: 0,
        }
    }
}

impl fmt::Debug for NearestList {
    fn fmt(&self, f: &mut fmt::Formatter<'_>) -> fmt::Result {
        f.debug_list().entries(self.nodes()).finish()
    }
}

impl<'a> IntoIterator for &'a NearestList {
    type Item = Node;
    type IntoIter = HeldNodes<'a>;

    fn into_iter(self) -> HeldNodes<'a> {
        self.nodes()
    }
}

/// The nodes that a nearest list holds, nearest first:
/// see [`NearestList::nodes`].
#[derive(Debug, Clone)]
pub struct HeldNodes<'a> {
    list: &'a NearestList,
    index: usize,
}

impl Iterator for HeldNodes<'_> {
    type Item = Node;

    fn next(&mut self) -> Option<Node> {
        let node = self.list.get(self.index)?;
        self.index += 1;
        Some(node)
    }
}

impl FusedIterator for HeldNodes<'_> {}
