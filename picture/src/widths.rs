//! How wide clusters are.

use crate::clusters::Cluster;

/// The width of a byte with a value in it in the smallest runs, and in others
/// if there is room.
const BYTE: [f64; 2] = [40.0, 15.0];

/// The widths of a byte that are tried if there is none.
const SMALLER: [f64; 3] = [8.0, 6.0, 4.0];

/// The least width of a cluster that is too long for its bytes to have theirs.
const LONG: f64 = 80.0;

/// The most width of a cluster that is not touched.
const UNTOUCHED: f64 = 36.0;

/// The widest gap between two clusters, and the part of the room that all gaps
/// may take.
const GAP: f64 = 16.0;
const GAPS: f64 = 0.25;

/// The width of clusters with gaps that lets a value be written into every
/// byte that is touched.
pub fn wanted(clusters: &[Cluster]) -> f64 {
    let gaps = clusters.len().saturating_sub(1) as f64;
    wanted_widths(clusters, BYTE[1]).iter().sum::<f64>() + GAP * gaps
}

/// The width of the gap between any two clusters, and of each cluster, so that
/// they fit the room.
pub fn fitting(clusters: &[Cluster], room: f64) -> (f64, Vec<f64>) {
    let gaps = clusters.len().saturating_sub(1) as f64;
    let gap = (room * GAPS / gaps).min(GAP);
    (gap, widths(clusters, room - gap * gaps))
}

/// The widths of clusters that fit the room. A byte is as wide in one as in
/// another, but in those that are too long: they are cut off at one width.
fn widths(clusters: &[Cluster], room: f64) -> Vec<f64> {
    let mut byte = widest_byte(clusters, room);
    for smaller in SMALLER {
        if level(&wanted_widths(clusters, byte), room) >= LONG {
            break;
        }
        byte = smaller;
    }
    let wanted = wanted_widths(clusters, byte);
    let most = level(&wanted, room);
    wanted.iter().map(|width| width.min(most)).collect()
}

/// The width of a byte with which the clusters that are touched take all the
/// room that others leave, within bounds.
fn widest_byte(clusters: &[Cluster], room: f64) -> f64 {
    let (touched, others): (Vec<Cluster>, Vec<Cluster>) =
        clusters.iter().partition(|cluster| cluster.touched);
    let bytes: u32 = touched.iter().map(Cluster::length).sum();
    let room = room - wanted_widths(&others, BYTE[0]).iter().sum::<f64>();
    (room / f64::from(bytes.max(1))).clamp(BYTE[1], BYTE[0])
}

/// The width that each cluster wants if a byte has this one.
fn wanted_widths(clusters: &[Cluster], byte: f64) -> Vec<f64> {
    let width = |cluster: &Cluster| {
        let most = if cluster.touched {
            f64::INFINITY
        } else {
            UNTOUCHED
        };
        (f64::from(cluster.length()) * byte).min(most)
    };
    clusters.iter().map(width).collect()
}

/// The width at which the wider ones are to be cut off so that all fit.
fn level(wanted: &[f64], room: f64) -> f64 {
    let mut wanted = wanted.to_vec();
    wanted.sort_by(f64::total_cmp);
    let mut left = room;
    for (place, width) in wanted.iter().enumerate() {
        let share = left / (wanted.len() - place) as f64;
        if *width > share {
            return share;
        }
        left -= width;
    }
    f64::INFINITY
}

#[cfg(test)]
mod tests {
    use super::*;

    fn cluster(start: u32, length: u32) -> Cluster {
        Cluster {
            start,
            end: start + length,
            touched: true,
        }
    }

    fn untouched(start: u32, length: u32) -> Cluster {
        Cluster {
            touched: false,
            ..cluster(start, length)
        }
    }

    #[test]
    fn bytes_of_small_runs_are_wide() {
        assert_eq!(widths(&[cluster(64, 9)], 500.0), [360.0]);
        assert_eq!(widths(&[cluster(64, 25)], 500.0), [500.0]);
        let two = [cluster(64, 9), cluster(16000, 4)];
        assert_eq!(widths(&two, 260.0), [180.0, 80.0]);
    }

    #[test]
    fn a_long_cluster_leaves_short_ones_their_width() {
        let clusters = [cluster(0, 4096), cluster(8192, 4), cluster(12288, 1)];
        assert_eq!(widths(&clusters, 500.0), [425.0, 60.0, 15.0]);
    }

    #[test]
    fn many_clusters_leave_a_long_one_its_width() {
        let mut clusters: Vec<Cluster> = (0..40).map(|place| cluster(place * 10, 1)).collect();
        clusters.push(cluster(1000, 4096));
        let widths = widths(&clusters, 380.0);
        assert_eq!((widths[0], widths[40]), (6.0, 140.0));
    }

    #[test]
    fn what_is_not_touched_is_small() {
        let clusters = [cluster(0, 4), untouched(500, 1), untouched(60000, 4096)];
        assert_eq!(widths(&clusters, 500.0), [160.0, UNTOUCHED, UNTOUCHED]);
        assert_eq!(widths(&[untouched(0, 2)], 500.0), [UNTOUCHED]);
        assert_eq!(wanted(&clusters), 60.0 + GAP + 15.0 + GAP + UNTOUCHED);
    }

    #[test]
    fn everything_fits_the_room() {
        for count in 1..=64 {
            for length in [1, 2, 9, 100, 1023] {
                let clusters = (0..count).map(|place| cluster(place * 1024, length));
                let clusters: Vec<Cluster> = clusters.collect();
                let (gap, widths) = fitting(&clusters, 500.0);
                let total = widths.iter().sum::<f64>() + gap * f64::from(count - 1);
                assert!(total < 500.1 && gap > 0.0);
                assert!(widths.iter().all(|width| *width > 0.0));
            }
        }
    }

    #[test]
    fn nothing_takes_no_room() {
        assert_eq!(fitting(&[], 500.0).1, []);
        assert_eq!(wanted(&[]), 0.0);
    }
}
