//! Clusters of addresses: the axis is cut where no frame names an address.

use crate::frame::Span;

/// Two spans are in one cluster if no more addresses are between them.
const JOINED: u32 = 4;

/// The most clusters; if there were more, spans further apart are joined too.
const MOST: usize = 64;

/// A span that a frame names, and whether its bytes are touched or were only
/// asked for.
#[derive(Clone, Copy, Debug, PartialEq, Eq)]
pub struct Named {
    pub span: Span,
    pub touched: bool,
}

/// Neighbouring addresses, from `start` up to and without `end`, and whether
/// one of them is touched.
#[derive(Clone, Copy, Debug, PartialEq, Eq)]
pub struct Cluster {
    pub start: u32,
    pub end: u32,
    pub touched: bool,
}

impl Cluster {
    pub fn length(&self) -> u32 {
        self.end - self.start
    }

    /// Whether all of a span is in the cluster.
    pub fn has(&self, span: Span) -> bool {
        self.start <= span.start && span.end() <= self.end
    }
}

/// The clusters of spans, ascending, and not too many of them.
pub fn clusters(named: &[Named]) -> Vec<Cluster> {
    let mut joined = JOINED;
    loop {
        let clusters = clusters_apart(named, joined);
        if clusters.len() <= MOST {
            return clusters;
        }
        joined *= 2;
    }
}

/// The clusters with more than so many addresses between them.
fn clusters_apart(named: &[Named], joined: u32) -> Vec<Cluster> {
    let mut named: Vec<&Named> = named.iter().filter(|one| one.span.length > 0).collect();
    named.sort_by_key(|one| one.span.start);
    let mut clusters: Vec<Cluster> = vec![];
    for Named { span, touched } in named {
        match clusters.last_mut() {
            Some(last) if span.start <= last.end + joined => {
                last.end = last.end.max(span.end());
                last.touched |= touched;
            }
            _ => clusters.push(Cluster {
                start: span.start,
                end: span.end(),
                touched: *touched,
            }),
        }
    }
    clusters
}

#[cfg(test)]
mod tests {
    use super::*;

    fn named(start: u32, length: u32, touched: bool) -> Named {
        let span = Span { start, length };
        Named { span, touched }
    }

    fn cluster(start: u32, end: u32, touched: bool) -> Cluster {
        Cluster {
            start,
            end,
            touched,
        }
    }

    #[test]
    fn spans_that_are_close_are_in_one_cluster() {
        let spans = [named(64, 9, true), named(77, 1, true), named(60, 2, true)];
        assert_eq!(clusters(&spans), [cluster(60, 78, true)]);
    }

    #[test]
    fn spans_that_are_apart_are_not() {
        let spans = [named(78, 1, true), named(64, 9, true)];
        assert_eq!(
            clusters(&spans),
            [cluster(64, 73, true), cluster(78, 79, true)]
        );
    }

    #[test]
    fn a_span_inside_another_adds_nothing() {
        let spans = [named(0, 4096, true), named(7, 1, false)];
        assert_eq!(clusters(&spans), [cluster(0, 4096, true)]);
    }

    #[test]
    fn a_cluster_is_touched_if_one_span_is() {
        let spans = [
            named(8, 1, false),
            named(9, 1, true),
            named(65535, 4096, false),
        ];
        assert_eq!(
            clusters(&spans),
            [cluster(8, 10, true), cluster(65535, 69631, false)]
        );
    }

    #[test]
    fn spans_without_addresses_make_none() {
        assert_eq!(clusters(&[named(64, 0, true)]), []);
    }

    #[test]
    fn there_are_not_too_many() {
        let apart: Vec<Named> = (0..64).map(|place| named(place * 6, 1, true)).collect();
        assert_eq!(clusters(&apart).len(), 64);
        let apart: Vec<Named> = (0..65).map(|place| named(place * 6, 1, true)).collect();
        assert_eq!(clusters(&apart), [cluster(0, 385, true)]);
        let apart: Vec<Named> = (0..1000)
            .map(|place| named(place * place / 16, 1, true))
            .collect();
        assert!(clusters(&apart).len() <= 64);
    }
}
