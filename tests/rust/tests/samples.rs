//! What the samples of a month do to its ledger: each taken one counts once, where the plain reading has it; those in no zone touch
//! no zone; the sum runs in sample order; one value alone is the mean.
use thawweasel_tests::kept::{good, keep, lens_month, shown, tables};
use thawweasel_tests::ledger::{Lent, Month};
use thawweasel_tests::{months, read, Random, Trials};

/// The taken samples in each zone, those on a boundary and those off the sheet, by the plain reading of each point.
struct Places {
    zones: Vec<Vec<u32>>,
    boundary: Vec<u32>,
    off: Vec<u32>,
}

/// Reads the point of every taken sample of a month on an accepted sheet.
fn places(m: &Month) -> Places {
    let mut places = Places { zones: vec![vec![]; m.sheet.zones as usize], boundary: vec![], off: vec![] };
    for sample in (0..m.kinds.len()).filter(|&sample| m.kinds[sample] > 0) {
        let list = match read(&m.sheet, m.points[2 * sample], m.points[2 * sample + 1]) {
            [1 | 2, ..] => &mut places.boundary,
            [3, zone, _] => &mut places.zones[zone as usize],
            refused => {
                assert_eq!(refused, [0, 20, 0], "sample {sample} of a month {}", shown(m));
                &mut places.off
            }
        };
        list.push(sample as u32);
    }
    places
}

/// The counts of a zone are those of its samples, and the mean of one sample alone is its value.
fn zone_counts(m: &Month, after: &Lent, zone: usize, samples: &[u32]) {
    let below = samples.iter().filter(|&&sample| m.kinds[sample as usize] == 2).count();
    assert_eq!(after.results[3 * zone..][..2], [samples.len() as u32, below as u32], "zone {zone} of a month {}", shown(m));
    if let [sample] = samples {
        assert_eq!(after.means[zone], m.values[*sample as usize].to_bits(), "zone {zone} of a month {}", shown(m));
    }
}

#[test]
fn every_taken_sample_counts_once_where_the_plain_reading_has_it() {
    let (mut r, trials) = (Random::new("places of samples", 43), Trials::new(1_000));
    let (mut one, mut several, mut boundary, mut off) = (0, 0, 0, 0);
    for _ in 0..trials.count {
        let m = good(&mut r);
        let (said, after) = keep(&m);
        let places = places(&m);
        assert_eq!(after.boundary[..said[2] as usize], places.boundary, "a month {}", shown(&m));
        assert_eq!(after.off[..said[3] as usize], places.off, "a month {}", shown(&m));
        places.zones.iter().enumerate().for_each(|(zone, samples)| zone_counts(&m, &after, zone, samples));
        let counted: u32 = after.results[..3 * places.zones.len()].chunks(3).map(|zone| zone[0]).sum();
        let taken = m.kinds.iter().filter(|&&kind| kind > 0).count();
        assert_eq!((counted + said[2] + said[3]) as usize, taken, "a month {}", shown(&m));
        one += places.zones.iter().filter(|samples| samples.len() == 1).count();
        several += places.zones.iter().filter(|samples| samples.len() > 1).count();
        (boundary, off) = (boundary + places.boundary.len(), off + places.off.len());
    }
    trials.enough(&[("zones of one value", one), ("zones of several values", several)]);
    trials.enough(&[("samples on a boundary", boundary), ("samples off the sheet", off)]);
}

/// A month without these samples.
fn without(m: &Month, samples: &[u32]) -> Month {
    let stays = |sample: &usize| !samples.contains(&(*sample as u32));
    let rest: Vec<usize> = (0..m.kinds.len()).filter(stays).collect();
    let points = rest.iter().flat_map(|&sample| [m.points[2 * sample], m.points[2 * sample + 1]]).collect();
    let kinds = rest.iter().map(|&sample| m.kinds[sample]).collect();
    let values = rest.iter().map(|&sample| m.values[sample]).collect();
    Month { points, kinds, values, ..m.clone() }
}

#[test]
fn samples_in_no_zone_touch_no_zone() {
    let (mut r, trials) = (Random::new("samples in no zone", 44), Trials::new(1_000));
    let (mut moved, mut removed) = (0, 0);
    for _ in 0..trials.count {
        let m = good(&mut r);
        let (said, after) = keep(&m);
        let outside = [&after.boundary[..said[2] as usize], &after.off[..said[3] as usize]].concat();
        let mut other = m.clone();
        for &sample in &outside {
            (other.kinds[sample as usize], other.values[sample as usize]) = (r.one(&[1, 2]), months::value(&mut r));
            moved += 1;
        }
        assert_eq!(keep(&other), (said, after.clone()), "other values in no zone, a month {}", shown(&m));
        outside.iter().for_each(|&sample| other.kinds[sample as usize] = 0);
        let untaken: Vec<u32> = (0..m.kinds.len() as u32).filter(|&sample| other.kinds[sample as usize] == 0).collect();
        for fewer in [other, without(&m, &outside), without(&m, &untaken)] {
            let (said, left) = keep(&fewer);
            assert_eq!(said, [0, 0, 0, 0], "a month {}", shown(&fewer));
            assert_eq!((&left.results, &left.means), (&after.results, &after.means), "a month {}", shown(&fewer));
            removed += outside.len();
        }
    }
    trials.enough(&[("samples in no zone given other values", moved), ("samples in no zone left out or not taken", removed)]);
}

#[test]
fn the_sum_runs_in_sample_order() {
    let zone_1 = [(2, 0, 1, 0.1), (2, 1, 2, 0.2), (2, 0, 1, 0.3)];
    let others = [(5, 0, 1, 9.0), (1, 5, 2, 1.0 / 3.0), (3, -2, 0, f64::NAN), (1, 1, 2, 7.0)];
    let mut m = lens_month(&[zone_1[0], others[0], others[1], zone_1[1], others[2], others[3], zone_1[2]]);
    m.permits[2] = 0.2;
    let before = tables(m.room);
    let (said, after) = keep(&m);
    assert_eq!(said, [0, 0, 1, 1]);
    assert_eq!((after.boundary[0], after.off[0]), (5, 1));
    assert_eq!(after.results[..9], [0, 0, 0, 3, 1, 2, 1, 1, 1]);
    assert_eq!(after.means[..3], [before.means[0], 0x3FC9_9999_9999_999B, 0x3FD5_5555_5555_5555]);
    m.permits[2] = f64::from_bits(0x3FC9_9999_9999_999B);
    assert_eq!(keep(&m).1.results[5], 1, "a mean equal to its limit is within it");
    m.kinds.reverse();
    m.values.reverse();
    m.points = m.points.chunks(2).rev().flatten().copied().collect();
    assert_eq!(keep(&m).1.means[1], 0x3FC9_9999_9999_9999, "the same samples the other way round");
}

#[test]
fn one_value_alone_is_the_mean_bit_for_bit() {
    let mut r = Random::new("months of one value", 45);
    let (least, normal, most) = (f64::from_bits(1), f64::MIN_POSITIVE, 1_000_f64);
    let mut values = vec![1.0, 0.1, least, normal.next_down(), normal, most.next_down(), most];
    values.extend((0..Trials::new(1_000).count).map(|_| months::value(&mut r)));
    for &value in &values {
        let kind = r.one(&[1, 2]);
        let mut m = lens_month(&[(5, 0, 1, 7.0), (2, 0, kind, value), (1, 1, 2, 900.0), (2, 1, 0, f64::NAN)]);
        m.permits[3] = 1_000.0;
        let (said, after) = keep(&m);
        assert_eq!((said, &after.results[3..5], after.means[1]), ([0, 0, 1, 1], &[1, kind - 1][..], value.to_bits()));
    }
    println!("  months of one value: {}", values.len());
}
