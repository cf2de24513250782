//! What a router installs. The text of a row is the program's line.

use crate::sys;
use std::fmt;
use std::net::Ipv4Addr;

/// A router by its router ID, or a transit network by the address of its designated router.
#[derive(Clone, Copy, Debug, PartialEq, Eq, Hash, PartialOrd, Ord)]
pub enum Node {
    Router(Ipv4Addr),
    Network(Ipv4Addr),
}

impl Node {
    pub(crate) fn numbers(self) -> (u32, u32) {
        match self {
            Node::Router(id) => (sys::ROUTER, id.into()),
            Node::Network(address) => (sys::NETWORK, address.into()),
        }
    }

    fn of(kind: u32, number: u32) -> Node {
        match kind {
            sys::NETWORK => Node::Network(number.into()),
            _ => Node::Router(number.into()),
        }
    }
}

impl fmt::Display for Node {
    fn fmt(&self, to: &mut fmt::Formatter<'_>) -> fmt::Result {
        match self {
            Node::Router(id) => write!(to, "{id}"),
            Node::Network(address) => write!(to, "net:{address}"),
        }
    }
}

/// The far node of the link that a packet goes over, and its link data at the near end.
#[derive(Clone, Copy, Debug, PartialEq, Eq)]
pub struct Hop {
    pub node: Node,
    pub link_data: Ipv4Addr,
}

impl From<sys::Hop> for Hop {
    fn from(hop: sys::Hop) -> Hop {
        Hop {
            node: Node::of(hop.kind, hop.number),
            link_data: hop.link_data.into(),
        }
    }
}

impl fmt::Display for Hop {
    fn fmt(&self, to: &mut fmt::Formatter<'_>) -> fmt::Result {
        write!(to, "{}/{}", self.node, self.link_data)
    }
}

/// How a row's two hops were chosen.
#[derive(Clone, Copy, Debug, PartialEq, Eq)]
pub enum Tag {
    Sole,
    Head,
    Top,
    Below,
    Above,
    Unordered,
    Carried,
    /// one of a later library
    Other(u32),
}

impl Tag {
    fn of(number: u32) -> Tag {
        match number {
            0 => Tag::Sole,
            1 => Tag::Head,
            2 => Tag::Top,
            3 => Tag::Below,
            4 => Tag::Above,
            5 => Tag::Unordered,
            6 => Tag::Carried,
            _ => Tag::Other(number),
        }
    }
}

impl fmt::Display for Tag {
    fn fmt(&self, to: &mut fmt::Formatter<'_>) -> fmt::Result {
        to.write_str(match self {
            Tag::Sole => "sole",
            Tag::Head => "head",
            Tag::Top => "top",
            Tag::Below => "below",
            Tag::Above => "above",
            Tag::Unordered => "unordered",
            Tag::Carried => "carried",
            Tag::Other(_) => "?",
        })
    }
}

/// Which color repairs the failure of an element of the primary, if there is such an element.
#[derive(Clone, Copy, Debug, PartialEq, Eq)]
pub enum Repair {
    NoElement,
    Blue,
    Red,
    NoColor,
}

impl Repair {
    fn of(number: u8) -> Repair {
        match number {
            0 => Repair::NoElement,
            1 => Repair::Blue,
            2 => Repair::Red,
            3 => Repair::NoColor,
            _ => unreachable!("mrt.h has no color {number}"),
        }
    }
}

impl fmt::Display for Repair {
    fn fmt(&self, to: &mut fmt::Formatter<'_>) -> fmt::Result {
        to.write_str(match self {
            Repair::NoElement => "",
            Repair::Blue => "b",
            Repair::Red => "r",
            Repair::NoColor => "-",
        })
    }
}

/// What a router installs for another node of its island.
#[derive(Clone, Copy, Debug, PartialEq, Eq)]
pub struct Row {
    pub node: Node,
    pub tag: Tag,
    pub blue: Hop,
    pub red: Hop,
    pub primary: Hop,
    /// after the primary's link, the node that it leads to, and, where that is a network, the link and the router beyond
    pub repairs: [Repair; 4],
}

impl From<&sys::Row> for Row {
    fn from(row: &sys::Row) -> Row {
        let repairs = [
            row.repair_link,
            row.repair_node,
            row.repair_second_link,
            row.repair_second_node,
        ];
        Row {
            node: Node::of(row.kind, row.number),
            tag: Tag::of(row.tag),
            blue: row.blue.into(),
            red: row.red.into(),
            primary: row.primary.into(),
            repairs: repairs.map(Repair::of),
        }
    }
}

impl fmt::Display for Row {
    fn fmt(&self, to: &mut fmt::Formatter<'_>) -> fmt::Result {
        let Row {
            node,
            tag,
            blue,
            red,
            primary,
            repairs: [link, next, second_link, second],
        } = self;
        write!(to, "{node} {tag} blue {blue} red {red} primary {primary} repair {link}{next}{second_link}{second}")
    }
}

/// What a router installs for a prefix at two routers: where it sends on each color; None where the prefix is attached to it.
#[derive(Clone, Copy, Debug, PartialEq, Eq)]
pub struct ProxyRow {
    pub blue: Option<Hop>,
    pub red: Option<Hop>,
}

impl From<&sys::ProxyRow> for ProxyRow {
    fn from(row: &sys::ProxyRow) -> ProxyRow {
        let [blue, red] =
            [row.blue, row.red].map(|hop| (hop.kind != sys::ATTACHED).then(|| hop.into()));
        ProxyRow { blue, red }
    }
}

impl fmt::Display for ProxyRow {
    fn fmt(&self, to: &mut fmt::Formatter<'_>) -> fmt::Result {
        let [blue, red] = [self.blue, self.red]
            .map(|hop| hop.map_or("attached".to_owned(), |hop| hop.to_string()));
        write!(to, "blue {blue} red {red}")
    }
}
