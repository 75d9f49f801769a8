//! Refusal 13 and the zone that it names, against the closure of the steps from below to above.
use thawweasel_tests::{circles::Steps, faults, lent, open, paper, read, sheets, sheets::Sheet, Random, Trials};

/// Opens a sheet with nothing wrong but circles, reads a point of it, and compares both with the closure of its steps.
fn compare(s: &Sheet, (x, y): (i32, i32), steps: &Steps) {
    let lent = lent(s.need());
    let mut index = lent.clone();
    let said = open(s, &mut index);
    match steps.named() {
        None => assert_eq!(said, [0, 0], "{s:?}"),
        Some(z) => {
            assert_eq!((said, &index), ([13, z], &lent), "{s:?}");
            assert_eq!(read(s, x, y), [0, 13, z], "{s:?}");
        }
    }
    assert_eq!(paper::open(s, &lent).0, said, "by brute force, {s:?}");
}

/// The number of zones in the circle that a zone is on: those that steps lead to from it and back.
fn length(steps: &Steps, z: u32, zones: u32) -> usize {
    (0..zones).filter(|&w| steps.lead(z, w) && steps.lead(w, z)).count()
}

#[test]
fn the_lowest_zone_on_a_circle_is_named() {
    let (mut r, trials) = (Random::new("circles", 23), Trials::new(4_000));
    let (mut none, mut moved, mut same, mut several, mut long, mut between) = (0, 0, 0, 0, 0, 0);
    for call in 0..trials.count {
        let s = if call % 4 == 0 { faults::misnamed(&mut r, 2) } else { sheets::circling(&mut r) };
        let steps = Steps::of(&s.edges, s.zones);
        compare(&s, sheets::point(&mut r, &s), &steps);
        let circles = steps.on_circles();
        let (Some(now), Some(before)) = (steps.named(), steps.named_before()) else {
            none += 1;
            continue;
        };
        if now == before { same += 1 } else { moved += 1 }
        several += circles.iter().any(|&z| !steps.lead(z, now) || !steps.lead(now, z)) as usize;
        long += (length(&steps, now, s.zones) > 2) as usize;
        between += (0..s.zones).any(|z| {
            !steps.lead(z, z) && circles.iter().any(|&c| steps.lead(c, z)) && circles.iter().any(|&c| steps.lead(z, c))
        }) as usize;
    }
    trials.enough(&[
        ("no circle", none), ("another zone named than before P4", moved), ("the same zone", same),
        ("several circles", several), ("a circle of three zones or more", long), ("a zone between circles", between),
    ]);
}

#[test]
fn the_cases_of_both_papers() {
    let circle = sheets::circle();
    let steps = Steps::of(&circle.edges, circle.zones);
    assert_eq!((steps.named(), steps.named_before()), (Some(1), Some(1)), "the circle of document 01");
    compare(&circle, (1, 0), &steps);
    let beneath = sheets::two_fans(&[0, 1, 3, 4, 5, 6, 2], &[0, 6, 5, 2]);
    let steps = Steps::of(&beneath.edges, beneath.zones);
    assert_eq!((steps.named(), steps.named_before()), (Some(5), Some(2)), "a circle between 5 and 6 beneath zone 2");
    compare(&beneath, (1, 0), &steps);
}

#[test]
fn a_circle_above_as_many_zones_as_the_limits_allow() {
    let s = sheets::circle_at_the_top(4_096);
    assert_eq!((s.vertices.len() / 2, s.edges.len() / 4, s.zones), (4_096, 8_186, 4_091));
    let steps = Steps::of(&s.edges, s.zones);
    assert_eq!((steps.named(), steps.named_before()), (Some(4_089), Some(4_088)));
    compare(&s, (7, 7), &steps);
}
