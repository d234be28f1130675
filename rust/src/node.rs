//! Packed nodes.

use crate::answer::accepted;
use crate::raw::{self, node::Parts};
use crate::{Key, Refusal};
use std::net::{IpAddr, SocketAddr};

/// The most bytes that a packed node has: one over IPv6. One over IPv4 has 39.
pub const LONGEST_NODE: usize = 51;

/// How a node is reached.
#[derive(Debug, Clone, Copy, PartialEq, Eq, Hash)]
pub enum Transport {
    /// By UDP: family 2 over IPv4, 10 over IPv6.
    Udp,
    /// By TCP: family 130 over IPv4, 138 over IPv6.
    Tcp,
}

/// A node: a key, and where it is reached.
///
/// Packed it is a family byte, the address, a 2-byte port and the key. The
/// family byte tells the transport and the version of the address.
///
/// ```
/// use banavoge::{Key, Node, Refusal, Transport, LONGEST_NODE};
/// use std::net::Ipv4Addr;
///
/// let node = Node {
///     transport: Transport::Udp,
///     ip: Ipv4Addr::LOCALHOST.into(),
///     port: 33_445,
///     key: Key([0x11; 32]),
/// };
/// let mut out = [0; LONGEST_NODE];
/// assert_eq!(node.write(&mut out), Ok(39));
/// assert_eq!(out[..7], [2, 127, 0, 0, 1, 0x82, 0xa5]);
///
/// assert_eq!(Node::read(&out), Ok((node, 39)));
/// assert_eq!(Node::read(&out[..38]), Err(Refusal::NodeCutShort));
/// ```
#[derive(Debug, Clone, Copy, PartialEq, Eq, Hash)]
pub struct Node {
    /// How it is reached.
    pub transport: Transport,
    /// Its address.
    pub ip: IpAddr,
    /// Its port, which may be 0.
    pub port: u16,
    /// Its key.
    pub key: Key,
}

impl Node {
    /// Reads the node at the front of `bytes`, which more may follow. Answers
    /// the node and how many bytes it has. Refused with 15 or 16.
    pub fn read(bytes: &[u8]) -> Result<(Node, usize), Refusal> {
        let mut parts = Parts::default();
        let mut count = 0;
        accepted(raw::node::read(bytes, 0, &mut parts, &mut count))?;
        Ok((Node::of_parts(&parts), count))
    }

    /// Writes the packed node at the front of `out` and answers how many bytes
    /// it has; the bytes behind it stay. Refused with 10.
    pub fn write(&self, out: &mut [u8]) -> Result<usize, Refusal> {
        accepted(raw::node::write(&self.parts(), out))
    }

    /// Its address and port together.
    pub const fn socket_address(&self) -> SocketAddr {
        SocketAddr::new(self.ip, self.port)
    }

    /// The node in the library's parts. The address bytes that IPv4 does not
    /// use are 0.
    pub(crate) fn parts(&self) -> Parts {
        let mut address = [0; 16];
        match self.ip {
            IpAddr::V4(ip) => address[..4].copy_from_slice(&ip.octets()),
            IpAddr::V6(ip) => address = ip.octets(),
        }
        Parts {
            family: family(self.transport, self.ip),
            address,
            port: self.port,
            key: self.key.0,
        }
    }

    /// The node of parts that the library has shown, so of a known family.
    pub(crate) fn of_parts(parts: &Parts) -> Node {
        let [a, b, c, d, ..] = parts.address;
        let (transport, ip) = match parts.family {
            UDP_IPV4 => (Transport::Udp, [a, b, c, d].into()),
            UDP_IPV6 => (Transport::Udp, parts.address.into()),
            TCP_IPV4 => (Transport::Tcp, [a, b, c, d].into()),
            TCP_IPV6 => (Transport::Tcp, parts.address.into()),
            family => unreachable!("family {family} in a node that is shown"),
        };
        Node {
            transport,
            ip,
            port: parts.port,
            key: Key(parts.key),
        }
    }
}

const UDP_IPV4: u8 = 2;
const UDP_IPV6: u8 = 10;
const TCP_IPV4: u8 = 130;
const TCP_IPV6: u8 = 138;

fn family(transport: Transport, ip: IpAddr) -> u8 {
    match (transport, ip) {
        (Transport::Udp, IpAddr::V4(_)) => UDP_IPV4,
        (Transport::Udp, IpAddr::V6(_)) => UDP_IPV6,
        (Transport::Tcp, IpAddr::V4(_)) => TCP_IPV4,
        (Transport::Tcp, IpAddr::V6(_)) => TCP_IPV6,
    }
}
