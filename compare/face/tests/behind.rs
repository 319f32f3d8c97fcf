//! What the benchmark measures as the reference behind the same boundary answers as the reference does.

use face::behind::Behind;
use face::differences::first_difference;
use face::Reference;

#[test]
fn the_reference_behind_the_boundary_is_alike_with_the_reference() {
    let (_, difference) = first_difference(&Behind, &Reference, 1, 500_000);
    if let Some(difference) = difference {
        panic!("{difference}");
    }
}
