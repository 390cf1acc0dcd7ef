//! Distances in whole metres between places given in centimetres.

#[derive(Clone, Copy)]
pub struct Place {
    pub easting: i32,
    pub northing: i32,
}

/// The nearest whole metre, a half going up.
pub fn metres(here: Place, there: Place) -> u32 {
    let east = i64::from(here.easting) - i64::from(there.easting);
    let north = i64::from(here.northing) - i64::from(there.northing);
    let squares_of_half_a_metre = (east * east + north * north) / 2_500;
    // Exact: the numbers are far below 2^52, where the rounded root of m * m - 1 stays below m.
    let half_metres = (squares_of_half_a_metre as f64).sqrt() as u32;
    (half_metres + 1) / 2
}
