//! Lists of packed nodes.

use crate::answer::accepted;
use crate::raw::{self, node::Parts};
use crate::{Node, Refusal, LONGEST_NODE};
use std::iter::FusedIterator;

/// The most bytes that a node list has: those of four nodes over IPv6.
pub const LONGEST_NODE_LIST: usize = 4 * LONGEST_NODE;

/// A walker through a lent node list: 0 to 4 packed nodes with no byte over.
///
/// As an iterator it shows each node in turn, and where the list goes wrong it
/// shows the refusal, 15, 16 or 17, and ends.
///
/// ```
/// use banavoge::{Key, Node, Nodes, Refusal, Transport, LONGEST_NODE};
/// use std::net::Ipv6Addr;
///
/// let node = Node {
///     transport: Transport::Tcp,
///     ip: Ipv6Addr::LOCALHOST.into(),
///     port: 443,
///     key: Key([0x11; 32]),
/// };
/// let mut list = [0; 2 * LONGEST_NODE];
/// let count = node.write(&mut list)?;
/// node.write(&mut list[count..])?;
///
/// let nodes: Vec<Node> = Nodes::new(&list).collect::<Result<_, _>>()?;
/// assert_eq!(nodes, [node, node]);
///
/// let mut cut = Nodes::new(&list[..101]);
/// assert_eq!(cut.next(), Some(Ok(node)));
/// assert_eq!(cut.next(), Some(Err(Refusal::NodeCutShort)));
/// assert_eq!(cut.next(), None);
/// # Ok::<(), Refusal>(())
/// ```
#[derive(Debug, Clone, PartialEq, Eq)]
pub struct Nodes<'a> {
    list: &'a [u8],
    place: usize,
    shown: usize,
    /// Whether the iterator has shown a refusal.
    refused: bool,
}

impl<'a> Nodes<'a> {
    /// A walker at the start of a list.
    pub const fn new(list: &'a [u8]) -> Nodes<'a> {
        Nodes {
            list,
            place: 0,
            shown: 0,
            refused: false,
        }
    }

    /// Shows the next node, or `None` at the end. The end and a refusal leave
    /// the walker as it was, so a further step answers the same.
    pub fn step(&mut self) -> Result<Option<Node>, Refusal> {
        let mut parts = Parts::default();
        let mut next = 0;
        let answer = raw::node::step(self.list, self.place, self.shown, &mut parts, &mut next);
        if accepted(answer)? == 0 {
            return Ok(None);
        }
        self.place = next;
        self.shown += 1;
        Ok(Some(Node::of_parts(&parts)))
    }

    /// Where in the list the next node starts.
    pub const fn place(&self) -> usize {
        self.place
    }

    /// How many nodes were shown.
    pub const fn shown(&self) -> usize {
        self.shown
    }
}

impl Iterator for Nodes<'_> {
    type Item = Result<Node, Refusal>;

    fn next(&mut self) -> Option<Result<Node, Refusal>> {
        if self.refused {
            return None;
        }
        let shown = self.step().transpose();
        self.refused = matches!(shown, Some(Err(_)));
        shown
    }
}

impl FusedIterator for Nodes<'_> {}
