// What the accepted calls of a run say of the open nodes: where the properties of the last one start, and the names of each.
use crate::model::Call;
use std::collections::HashSet;

type Names = HashSet<Vec<u8>>;

// An open node: the names of its properties, those that were refused 14 in it, and those of the sibling before it.
#[derive(Default)]
struct Node {
    names: Names,
    refused: Names,
    sibling: Names,
}

pub struct History {
    open: Vec<Node>,
    // the names of the node that was ended last, since the last begin
    ended: Names,
    pub start: u64,
}

// The name of the property that a call writes, if it does.
pub fn property_of(call: &Call) -> Option<&[u8]> {
    match call {
        Call::Property(name, _) => Some(name),
        Call::PropertyPhandle(_) => Some(b"phandle"),
        _ => None,
    }
}

impl History {
    // After an opening, with the used length.
    pub fn new(used: u64) -> History {
        History { open: Vec::new(), ended: Names::new(), start: used }
    }

    // After a call, with its answer and the used length.
    pub fn call(&mut self, call: &Call, number: u32, used: u64) {
        match call {
            Call::BeginNode(_) if number == 0 => {
                let sibling = std::mem::take(&mut self.ended);
                self.open.push(Node { sibling, ..Node::default() });
                self.start = used;
            }
            Call::EndNode(_) if number == 0 => self.ended = self.open.pop().map(|node| node.names).unwrap_or_default(),
            _ => {
                if let (Some(name), Some(node)) = (property_of(call), self.open.last_mut()) {
                    match number {
                        0 => node.names.insert(name.to_vec()),
                        14 => node.refused.insert(name.to_vec()),
                        _ => false,
                    };
                }
            }
        }
    }

    // Whether the open node has a property of this name.
    pub fn has(&self, name: &[u8]) -> bool {
        self.open.last().is_some_and(|node| node.names.contains(name))
    }

    // Where else the name of an accepted property stands.
    pub fn corners(&self, name: &[u8]) -> Vec<&'static str> {
        let Some((node, around)) = self.open.split_last() else { return Vec::new() };
        let all = [
            (around.iter().any(|one| one.names.contains(name)), "in-child"),
            (node.sibling.contains(name), "next-sibling"),
            (node.refused.contains(name), "after-refusal"),
        ];
        all.iter().filter(|one| one.0).map(|one| one.1).collect()
    }
}
