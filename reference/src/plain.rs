//! The plain tree of a word. Instead of gluing step by step, all operands'
//! nodes are put down first; the tree is their quotient by the smallest
//! equivalence that holds the glued pairs and is closed under parents.

use crate::tree::Tree;
use crate::word::{latest, latest_two, Sign};

/// The marks of a pending operand: numbers of nodes in the sketch.
#[derive(Clone, Copy)]
struct Marks {
    source: usize,
    destination: usize,
}

/// All nodes that the operand signs make, and the pairs to be glued.
#[derive(Default)]
struct Sketch {
    parents: Vec<Option<usize>>,
    labels: Vec<Option<u16>>,
    glued: Vec<(usize, usize)>,
}

/// The plain tree of an accepted word, `None` for empty.
pub fn plain_tree(signs: &[Sign]) -> Option<Tree> {
    let mut sketch = Sketch::default();
    let mut pending = Vec::new();
    for &sign in signs {
        // Every operand ends up in the one that is left, and empty in any
        // operand gives empty: the first sign 0 decides.
        let result = sketch.work_off(sign, &mut pending)?;
        pending.push(result);
    }
    sketch.quotient(latest(&mut pending))
}

impl Sketch {
    fn work_off(&mut self, sign: Sign, pending: &mut Vec<Marks>) -> Option<Marks> {
        let result = match sign {
            Sign::Empty => return None,
            Sign::Itself => self.single(None),
            Sign::Label(label) => self.single(Some(label)),
            Sign::Child => self.edge(),
            Sign::Parent => inverted(self.edge()),
            Sign::Composition => {
                let (first, second) = latest_two(pending);
                self.glued.push((first.destination, second.source));
                marks(first.source, second.destination)
            }
            Sign::Intersection => {
                let (first, second) = latest_two(pending);
                self.glued.push((first.source, second.source));
                self.glued.push((first.destination, second.destination));
                first
            }
            Sign::FirstProjection => {
                let Marks { source, .. } = latest(pending);
                marks(source, source)
            }
            Sign::SecondProjection => {
                let Marks { destination, .. } = latest(pending);
                marks(destination, destination)
            }
            Sign::Inverse => inverted(latest(pending)),
        };
        Some(result)
    }

    fn node(&mut self, parent: Option<usize>, label: Option<u16>) -> usize {
        self.parents.push(parent);
        self.labels.push(label);
        self.parents.len() - 1
    }

    fn single(&mut self, label: Option<u16>) -> Marks {
        let node = self.node(None, label);
        marks(node, node)
    }

    fn edge(&mut self) -> Marks {
        let top = self.node(None, None);
        marks(top, self.node(Some(top), None))
    }

    fn quotient(&self, ends: Marks) -> Option<Tree> {
        let mut classes = Classes::of_single_nodes(&self.parents);
        for &(one, other) in &self.glued {
            classes.glue(one, other);
        }
        let labels = self.class_labels(&classes)?;
        let top = classes.top_above(ends.source)?;
        let order = classes.classes_downwards(top);
        let mut number = vec![0; self.parents.len()];
        for (new, &class) in order.iter().enumerate() {
            number[class] = new;
        }
        let parent = |&class: &usize| classes.parent(class).map_or(0, |parent| number[parent]);
        Some(Tree {
            parents: order.iter().map(parent).collect(),
            labels: order.iter().map(|&class| labels[class]).collect(),
            source: number[classes.leader(ends.source)],
            destination: number[classes.leader(ends.destination)],
        })
    }

    /// The label of each class, at its leader; `None` if one class holds two
    /// different labels. Wildcard glued to a label is that label.
    fn class_labels(&self, classes: &Classes) -> Option<Vec<Option<u16>>> {
        let mut labels = vec![None; self.labels.len()];
        for (node, &label) in self.labels.iter().enumerate() {
            let of_class: &mut Option<u16> = &mut labels[classes.leader(node)];
            if label.is_some() && of_class.is_some() && label != *of_class {
                return None;
            }
            *of_class = of_class.or(label);
        }
        Some(labels)
    }
}

fn marks(source: usize, destination: usize) -> Marks {
    Marks {
        source,
        destination,
    }
}

fn inverted(ends: Marks) -> Marks {
    marks(ends.destination, ends.source)
}

/// An equivalence of nodes that is closed under parents. A class goes by its
/// leader; only at leaders does the entry in `parents` speak for the class.
struct Classes {
    next: Vec<usize>,
    parents: Vec<Option<usize>>,
}

impl Classes {
    fn of_single_nodes(parents: &[Option<usize>]) -> Classes {
        Classes {
            next: (0..parents.len()).collect(),
            parents: parents.to_vec(),
        }
    }

    fn leader(&self, node: usize) -> usize {
        let mut leader = node;
        while self.next[leader] != leader {
            leader = self.next[leader];
        }
        leader
    }

    /// The class above a leader's class.
    fn parent(&self, leader: usize) -> Option<usize> {
        self.parents[leader].map(|parent| self.leader(parent))
    }

    /// Makes two nodes equivalent, and so their parents, level by level.
    fn glue(&mut self, one: usize, other: usize) {
        let mut due = Some((one, other));
        while let Some((one, other)) = due.take() {
            let (one, other) = (self.leader(one), self.leader(other));
            if one != other {
                self.next[other] = one;
                match (self.parents[one], self.parents[other]) {
                    (Some(above_one), Some(above_other)) => due = Some((above_one, above_other)),
                    (above_one, above_other) => self.parents[one] = above_one.or(above_other),
                }
            }
        }
    }

    /// The class without a parent that lies above or at a node. The sketch of
    /// an accepted word hangs together, so if the way up has no end (two
    /// nodes at different depths were glued) no class has an end above it.
    fn top_above(&self, node: usize) -> Option<usize> {
        let mut class = self.leader(node);
        for _ in 0..self.next.len() {
            match self.parent(class) {
                Some(parent) => class = parent,
                None => return Some(class),
            }
        }
        None
    }

    /// All classes, a parent before its children.
    fn classes_downwards(&self, top: usize) -> Vec<usize> {
        let mut below = vec![Vec::new(); self.next.len()];
        for class in (0..self.next.len()).filter(|&node| self.next[node] == node) {
            if let Some(parent) = self.parent(class) {
                below[parent].push(class);
            }
        }
        let mut order = vec![top];
        let mut at = 0;
        while at < order.len() {
            order.extend(&below[order[at]]);
            at += 1;
        }
        order
    }
}
