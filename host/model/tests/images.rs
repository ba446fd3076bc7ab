//! The chosen images reach every refusal.

use model::build::MOST_SMALL;
use model::images::{images, refusals};
use std::collections::BTreeSet;

#[test]
fn every_refusal() {
    let images = images();
    let reached: BTreeSet<_> = images.iter().flat_map(refusals).collect();
    assert_eq!(reached, (1..=21).collect());
    assert!(images.iter().all(|image| image.bytes.len() <= MOST_SMALL));
    let names: BTreeSet<_> = images.iter().map(|image| &image.name).collect();
    assert_eq!(names.len(), images.len());
}

/// Its child differs from a listed number in bit 0 alone.
const READ_ALL_THE_SAME: &str = "refusal-12-treechild";

/// Its key at fault ascends, outside the range, which has a number of its own: 21.
const OUTSIDE_THE_RANGE: &str = "refusal-11-keylow";

/// Its version is one of 32 bits, and its sentinel stands where those have none: 5.
const OTHER_VERSION: &str = "refusal-3-version";

/// An image named for a refusal leads to it.
#[test]
fn refusals_by_name() {
    for image in images() {
        let Some((_, rest)) = image.name.split_once("refusal-") else {
            continue;
        };
        let (number, _) = rest.split_once('-').expect("a number and a word");
        let number = match &image.name[..] {
            OUTSIDE_THE_RANGE => 21,
            OTHER_VERSION => 5,
            _ => number.parse().expect("a number"),
        };
        let refused = refusals(&image).contains(&number);
        assert_eq!(refused, image.name != READ_ALL_THE_SAME, "{}", image.name);
    }
}

#[test]
fn the_same_each_time() {
    let bytes = |images: Vec<model::images::Image>| {
        images
            .into_iter()
            .map(|image| image.bytes)
            .collect::<Vec<_>>()
    };
    assert_eq!(bytes(images()), bytes(images()));
}
