//! Where addresses stand across the picture.

use crate::clusters::Cluster;
use crate::frame::Span;
use crate::widths;

/// The width of a digit of a label, and the room between two labels.
const DIGIT: f64 = 6.1;
const BETWEEN_LABELS: f64 = 5.0;

/// A cluster on the axis.
#[derive(Clone, Debug, PartialEq)]
pub struct Stretch {
    pub cluster: Cluster,
    pub left: f64,
    /// The width of a byte.
    pub byte: f64,
}

impl Stretch {
    /// Where an address of the cluster begins.
    fn across(&self, address: u32) -> f64 {
        self.left + f64::from(address - self.cluster.start) * self.byte
    }

    pub fn right(&self) -> f64 {
        self.across(self.cluster.end)
    }

    /// The label of an address of the cluster.
    fn label(&self, address: u32) -> Label {
        let middle = self.across(address) + self.byte / 2.0;
        Label { address, middle }
    }

    /// The labels of the multiples of the least power of two for which they
    /// have room.
    fn round_labels(&self) -> impl Iterator<Item = Label> + '_ {
        let room = label_width(self.cluster.end) + BETWEEN_LABELS;
        let mut step = 1;
        while f64::from(step) * self.byte < room && step < self.cluster.end {
            step *= 2;
        }
        let first = self.cluster.start.next_multiple_of(step);
        let addresses = (first..self.cluster.end).step_by(step as usize);
        addresses.map(|address| self.label(address))
    }
}

/// Where a span stands: its left side, its width and that of each byte.
#[derive(Clone, Copy, Debug, PartialEq)]
pub struct Place {
    pub left: f64,
    pub width: f64,
    pub byte: f64,
}

/// An address that is written at the axis, and the middle of its byte.
#[derive(Clone, Copy, Debug, PartialEq)]
pub struct Label {
    pub address: u32,
    pub middle: f64,
}

impl Label {
    /// Whether there is too little room for both labels.
    fn is_in_the_way_of(&self, other: &Label) -> bool {
        let half = (label_width(self.address) + label_width(other.address)) / 2.0;
        (self.middle - other.middle).abs() < half + BETWEEN_LABELS
    }
}

fn label_width(address: u32) -> f64 {
    DIGIT * address.to_string().len() as f64
}

/// The axis: clusters from left to right with gaps between them.
#[derive(Clone, Debug, PartialEq)]
pub struct Axis {
    pub stretches: Vec<Stretch>,
    pub gap: f64,
}

impl Axis {
    /// An axis for clusters, from a place on, with so much room at most.
    pub fn new(clusters: &[Cluster], left: f64, room: f64) -> Axis {
        let (gap, widths) = widths::fitting(clusters, room);
        let mut stretches = vec![];
        let mut left = left;
        for (cluster, width) in clusters.iter().zip(widths) {
            stretches.push(Stretch {
                cluster: *cluster,
                left,
                byte: width / f64::from(cluster.length()),
            });
            left += width + gap;
        }
        Axis { stretches, gap }
    }

    /// Where the axis ends; nowhere if it has no address.
    pub fn right(&self) -> Option<f64> {
        self.stretches.last().map(Stretch::right)
    }

    /// Where a span of a cluster stands; nowhere if it has no address.
    pub fn place(&self, span: Span) -> Option<Place> {
        let mut stretches = self.stretches.iter();
        let stretch = stretches.find(|stretch| stretch.cluster.has(span) && span.length > 0)?;
        Some(Place {
            left: stretch.across(span.start),
            width: f64::from(span.length) * stretch.byte,
            byte: stretch.byte,
        })
    }

    /// The addresses to write: the first of each cluster, and round ones, as
    /// far as there is room.
    pub fn labels(&self) -> Vec<Label> {
        let stretches = self.stretches.iter();
        let firsts = stretches
            .clone()
            .map(|stretch| stretch.label(stretch.cluster.start));
        let mut labels: Vec<Label> = vec![];
        for label in firsts.chain(stretches.flat_map(Stretch::round_labels)) {
            if !labels.iter().any(|other| other.is_in_the_way_of(&label)) {
                labels.push(label);
            }
        }
        labels
    }
}

#[cfg(test)]
mod tests {
    use super::*;

    fn cluster(start: u32, length: u32) -> Cluster {
        Cluster {
            start,
            end: start + length,
            touched: true,
        }
    }

    #[test]
    fn clusters_stand_in_their_order_with_gaps() {
        let axis = Axis::new(&[cluster(64, 9), cluster(100, 1)], 100.0, 500.0);
        let sides: Vec<_> = axis
            .stretches
            .iter()
            .map(|one| (one.left, one.right()))
            .collect();
        assert_eq!(
            sides,
            [(100.0, 460.0), (460.0 + axis.gap, 500.0 + axis.gap)]
        );
        assert_eq!(axis.right(), Some(500.0 + axis.gap));
    }

    #[test]
    fn spans_have_places() {
        let axis = Axis::new(&[cluster(64, 9), cluster(100, 1)], 100.0, 500.0);
        let place = |start, length| axis.place(Span { start, length });
        let found = |left, width| {
            let byte = 40.0;
            Some(Place { left, width, byte })
        };
        assert_eq!(place(64, 9), found(100.0, 360.0));
        assert_eq!(place(65, 2), found(140.0, 80.0));
        assert_eq!(place(100, 1), found(460.0 + axis.gap, 40.0));
        assert_eq!(place(64, 0), None);
        assert_eq!(place(72, 2), None);
        assert_eq!(place(99, 1), None);
    }

    #[test]
    fn an_axis_may_be_empty() {
        let axis = Axis::new(&[], 100.0, 400.0);
        assert_eq!((axis.right(), axis.labels()), (None, vec![]));
    }

    /// The addresses that are written, in the order in which they are chosen.
    fn written(clusters: &[Cluster]) -> Vec<u32> {
        let labels = Axis::new(clusters, 0.0, 400.0).labels();
        labels.iter().map(|label| label.address).collect()
    }

    #[test]
    fn round_addresses_are_written_where_they_fit() {
        assert_eq!(written(&[cluster(6, 5)]), [6, 7, 8, 9, 10]);
        let of_4 = [10003, 10008, 10012, 10016, 10020, 10024];
        assert_eq!(written(&[cluster(10003, 24)]), of_4);
        let of_512 = [10, 9000, 512, 1024, 1536, 2048, 2560, 3072, 3584];
        assert_eq!(written(&[cluster(10, 4096), cluster(9000, 1)]), of_512);
    }

    #[test]
    fn labels_have_room() {
        let many: Vec<Cluster> = (0..64).map(|place| cluster(place * 100, 1)).collect();
        let labels = Axis::new(&many, 0.0, 400.0).labels();
        let mut pairs = labels.windows(2);
        assert!(pairs.all(|pair| !pair[0].is_in_the_way_of(&pair[1])));
        assert!(labels.len() > 10);
    }
}
