//! Circuits near edges that random hours hardly meet, to search on from.

use crate::circuit::{Circuit, DECILES, POINT};

/// A plain point: fi, yi, hi, Es fs and hs, clat, clck.
const PLAIN: [f32; POINT] = [
    3.0, 4.5, 9.0, 20.0, 45.0, 80.0, 110.0, 200.0, 300.0, 2.0, 4.0, 6.0, 110.0, 0.7, 12.0,
];
/// gcd, gcdkm, amind, ssn.
const PATH: [f32; 4] = [0.5, 3185.0, 3.0, 100.0];

/// Numbers put into the plain point, by their places.
const POINTS: [&[(usize, f32)]; 22] = [
    &[],
    &[(1, 0.0)],
    // frequencies so low that the criticals can be 0.2 apart exactly
    &[(0, 0.01), (1, 0.21), (2, 0.45)],
    &[(0, 0.0), (1, 0.2), (2, 0.45)],
    &[(0, -1.0), (1, 1e-9), (2, 0.2)],
    // an F2 as thin as its limit
    &[(5, -0.0), (8, 112.0)],
    &[(5, 0.0), (8, 112.0)],
    // F1 that is no number, or above F2
    &[(1, f32::NAN), (7, 320.0)],
    &[(1, f32::NAN)],
    &[(7, 310.0), (4, 10.0)],
    // heights of few kilometres
    &[
        (3, 0.2),
        (4, 0.5),
        (5, 0.7),
        (6, 1.1),
        (7, 2.0),
        (8, 3.0),
        (12, 1.0),
    ],
    &[
        (0, 0.01),
        (1, 0.02),
        (2, 0.03),
        (3, 0.2),
        (4, 0.5),
        (5, 0.7),
        (6, 1.1),
        (7, 2.0),
        (8, 3.0),
    ],
    &[
        (0, 0.01),
        (1, 0.0),
        (2, 0.03),
        (3, 0.2),
        (4, 0.5),
        (5, 0.7),
        (6, 1.1),
        (7, 2.0),
        (8, 3.0),
    ],
    // F1 as a line, through the E nose and beside it
    &[(1, 5.0), (4, 90.0), (7, 240.0), (5, 60.0)],
    &[(1, 3.3), (4, 100.0), (7, 230.0), (5, 75.0)],
    &[(1, 3.25), (4, 140.0), (7, 250.0), (5, 100.0)],
    // heights that fall
    &[(8, 90.0)],
    &[(3, -20.0)],
    &[(3, -20.0), (1, 0.0)],
    &[(6, 60.0), (8, 65.0)],
    // all zeros
    &[
        (0, 0.0),
        (1, 0.0),
        (2, 0.0),
        (3, 0.0),
        (5, 0.0),
        (6, 0.0),
        (8, 0.0),
    ],
    // sporadic E at a thousand hops
    &[(12, 0.001)],
];

/// Paths put in place of the plain one.
const PATHS: [[f32; 4]; 8] = [
    PATH,
    [0.5, 3185.0, 45.0, 100.0],
    [6.28, 40000.0, 0.0, 100.0],
    [6.28, 40000.0, 85.0, 100.0],
    [6.28, 40000.0, 89.9, 100.0],
    [0.03, 200.0, 60.0, 100.0],
    [0.0, 0.0, 0.0, 100.0],
    [0.3, 1999.9999, 20.0, 100.0],
];

/// Paths and local times at the edge of a refusal, and whether there are deciles.
const REFUSED: [([f32; 4], f32, bool); 8] = [
    ([0.5, -0.00006, 3.0, 100.0], 12.0, false),
    ([6.3, 40100.0, 3.0, 100.0], 12.0, false),
    ([0.5, 3185.0, 90.0, 100.0], 12.0, false),
    ([0.5, 3185.0, 3.0, 100.0], -2.2, true),
    ([0.5, 3185.0, 3.0, 100.0], f32::NAN, true),
    ([6.28, 40000.0, 45.0, 100.0], -3.0, true),
    ([6.28, 40000.0, 80.0, 100.0], -3.0, true),
    ([6.28, 40000.0, 89.0, 100.0], -3.0, true),
];

/// A point whose F2 swings in the rounds.
const SWINGING: &[(usize, f32)] = &[
    (0, 0.06),
    (1, 0.0),
    (2, 0.03164453),
    (3, 250000.0),
    (5, 1000.0),
    (6, 212560.0),
    (8, 300000.0),
];

/// A point whose F1 swings in the rounds: a vast E, whose critical frequency is below
/// zero lest it be too near, and an F1 under 0.125 MHz, so that a change can be 0.1.
const FAINT: &[(usize, f32)] = &[
    (0, -0.15079916),
    (1, 0.08),
    (2, 0.48),
    (3, 40000.0),
    (4, 500.0),
    (5, 100.0),
    (6, 34070.0),
    (7, 35070.0),
    (8, 37070.0),
];

type Edge = (u32, [f32; 4], bool, &'static [&'static [(usize, f32)]]);

/// Circuits at edges of their own: shape, path, whether there are deciles, and the
/// numbers put into the points.
const EDGES: &[Edge] = &[
    // a tie of roundings about 1 km, of F1 forced above E
    (
        0,
        PATH,
        false,
        &[&[
            (0, 1.0),
            (1, 5.0),
            (2, 13.0),
            (4, 1.0),
            (5, 5.368709e8),
            (6, 7.5),
            (7, 5e7),
            (8, 2.6843546e8),
        ]],
    ),
    // such a tie below E
    (0, PATH, false, &[&[(3, 1.0), (6, 1.677722e7)]]),
    // F1 and F2 as far apart as the 0.00001 that counts as none
    (
        0,
        [0.0, 0.0, 3.0, 100.0],
        false,
        &[&[
            (3, 10.0),
            (4, -1.0),
            (5, 1e-5),
            (6, -3.0),
            (7, -1.0),
            (8, 2e-5),
        ]],
    ),
    // a height rounded to the first one, below an infinite density
    (
        0,
        PATH,
        false,
        &[&[
            (1, 0.0),
            (2, 2e19),
            (3, -2.3765),
            (5, 0.0039),
            (6, 68.0),
            (8, 70.004),
        ]],
    ),
    // F2 of the end slots 0.01 apart and a place
    (
        0,
        PATH,
        false,
        &[
            &[(0, 0.005), (1, 0.0), (2, 0.02)],
            &[(0, 0.005), (1, 0.0), (2, 0.010000001)],
            &[(0, 0.005), (1, 0.0), (2, 0.02)],
            &[(0, 0.005), (1, 0.0), (2, 0.020000001)],
            &[(0, 0.004), (1, 0.0), (2, 0.02)],
        ],
    ),
    // a thickness over a height that is infinite but for its half
    (
        0,
        PATH,
        false,
        &[&[(3, 10.0), (4, 4.0), (6, -10.0), (7, 1e-38)]],
    ),
    // heights of a few subnormal places
    (
        1,
        [0.0, 0.0, 3.0, 100.0],
        false,
        &[&[
            (1, 0.0),
            (3, 0.0),
            (4, 0.0),
            (5, 1e-43),
            (6, -3.0),
            (7, 0.0),
            (8, 2e-43),
        ]],
    ),
    // an F1 of -0 thickness, as thin as it may be
    (0, PATH, false, &[&[(4, -0.0), (7, 109.0)]]),
    // the time block at its edge, with too many hops of sporadic E
    (
        0,
        [6.28, 40000.0, 45.0, 100.0],
        true,
        &[&[(12, 0.001), (14, -2.2)]],
    ),
    // a density met at the peak below infinite heights
    (
        1,
        PATH,
        false,
        &[&[
            (0, 3.2319481),
            (1, 0.0),
            (2, 2.0),
            (3, 2e38),
            (4, 0.0),
            (5, 1.0),
            (6, 2e38),
            (7, -0.0),
        ]],
    ),
    // such a peak two steps below one
    (
        0,
        PATH,
        false,
        &[&[
            (3, 191.77283),
            (4, f32::NEG_INFINITY),
            (6, 119.51256),
            (7, f32::NEG_INFINITY),
        ]],
    ),
    // falling heights of F2 above an E that is NaN
    (
        0,
        PATH,
        false,
        &[&[
            (0, 0.0033),
            (1, 0.0),
            (2, 9.200138),
            (3, f32::NAN),
            (4, 0.0),
            (5, -79.99918),
            (6, 100.0),
            (7, 0.0),
            (8, 75.000244),
        ]],
    ),
    (
        0,
        PATH,
        false,
        &[&[
            (0, 0.0033),
            (1, 0.0),
            (2, 9.200138),
            (3, f32::NAN),
            (4, 0.0),
            (5, -79.9997),
            (6, 100.0),
            (7, 0.0),
            (8, 59.642834),
        ]],
    ),
    // an exponent at its limit where no factor of F1 is made
    (
        1,
        PATH,
        false,
        &[
            &[
                (0, 2.0),
                (1, 24.0),
                (2, 25.0),
                (4, 100.0),
                (5, 100.0),
                (6, 500.0),
                (7, 990.0),
                (8, 1000.0),
            ],
            &[
                (0, 2.0),
                (1, 24.0),
                (2, 25.0),
                (4, 100.0),
                (5, 100.0),
                (6, 500.0),
                (7, 990.0),
                (8, 1000.0),
            ],
            &[
                (0, 20.0),
                (1, 20.3),
                (2, 25.0),
                (3, 5.0),
                (4, -0.01),
                (5, 100.0),
                (6, 168.14703),
                (8, 1000.0),
            ],
        ],
    ),
    // heights whose double is infinite
    (0, PATH, false, &[&[(1, 8.539698), (5, 1e38), (8, 3e38)]]),
    // a limit of -10 at the cusp of E and F2
    (
        1,
        PATH,
        false,
        &[&[
            (0, -0.10644913),
            (1, 0.0),
            (2, 1.4206),
            (3, 8.0),
            (4, 0.0),
            (5, -10.0),
            (6, 160.0),
            (7, 0.0),
        ]],
    ),
    // and at that of F1 and F2
    (
        1,
        PATH,
        false,
        &[
            &[
                (0, 2.0202968),
                (1, 19.0),
                (2, 20.0),
                (4, 100.0),
                (5, 100.0),
                (6, 500.0),
                (7, 1900.0),
                (8, 2000.0),
            ],
            &[
                (0, 2.0),
                (1, 19.0),
                (2, 20.0),
                (4, 100.0),
                (5, 100.0),
                (6, 500.0),
                (7, 1900.0),
                (8, 2000.0),
            ],
            &[(1, 20.0), (2, 20.3), (3, 8.0), (5, -10.0), (6, 160.0)],
            &[(1, 20.0), (2, 20.3), (3, 8.0), (5, -10.0), (6, 160.0)],
            &[(1, 20.0), (2, 20.3), (3, 8.0), (5, -10.0), (6, 160.0)],
        ],
    ),
    // zero times infinity in the factor of F1
    (
        0,
        PATH,
        false,
        &[
            &[
                (0, 2.0),
                (1, 19.0),
                (2, 20.0),
                (4, 100.0),
                (5, 99.48577),
                (6, 500.0),
                (7, 1900.0),
                (8, 2000.0),
            ],
            &[
                (0, 1.9717224),
                (1, 19.0),
                (2, 20.0),
                (4, 100.0),
                (5, 100.0),
                (6, 500.0),
                (7, 1900.0),
                (8, 2000.0),
            ],
            &[
                (0, 20.0),
                (1, 20.267311),
                (2, 20.95),
                (4, 0.01),
                (5, 100.0),
                (8, 400.0),
            ],
            &[
                (0, 20.0),
                (1, 20.3),
                (2, 20.95),
                (4, 0.01),
                (5, 100.0),
                (8, 400.0),
            ],
            &[
                (0, 20.0),
                (1, 20.3),
                (2, 20.95),
                (4, 0.01),
                (5, 100.0),
                (8, 400.0),
            ],
        ],
    ),
    // a density met at a peak with a lower one and a greater one above it
    (
        1,
        PATH,
        false,
        &[&[
            (0, 1.0004227),
            (1, 0.0),
            (2, 10.0),
            (3, 19.35),
            (4, 0.0),
            (5, 192.0),
            (7, 0.0),
            (8, 319.0),
        ]],
    ),
    // an F1 at -0 km, its density met
    (
        1,
        PATH,
        false,
        &[&[
            (0, -3.0),
            (1, 0.7465537),
            (2, 9.3),
            (3, 0.0),
            (4, 0.0),
            (5, 9.0),
            (6, -1.0),
            (7, -0.0),
            (8, 10.0),
        ]],
    ),
    // a read at a height of the profile, where products pass the range
    (
        0,
        PATH,
        false,
        &[&[(0, 1e18), (1, 0.0), (2, 1.5e19), (5, 1000.0), (8, 1153.399)]],
    ),
    // a change of F1 just above 0.1
    (0, PATH, false, &[&[(1, 3.564912)]]),
    // a MUF of F1 that is NaN in the first round
    (
        0,
        [0.5, 3185.0, 0.0, 100.0],
        false,
        &[&[
            (2, 8.907939),
            (4, 50.0),
            (6, -300.0),
            (7, -100.0),
            (8, 0.2128694),
        ]],
    ),
    // a change of F2 in the rounds of exactly 0.1, and of a place more: the densities
    // of a vast E are so near the one sought that the rounds swing
    (0, [6.28, 39547.53, 0.0, 100.0], false, &[SWINGING]),
    (0, [6.28, 39547.54, 0.0, 100.0], false, &[SWINGING]),
    // and so of F1
    (0, [0.5, 4010.5645, 0.0, 100.0], false, &[FAINT]),
    (0, [0.5, 4010.5637, 0.0, 100.0], false, &[FAINT]),
    // falling heights of F2 above an E that is NaN: F2's lowest height is rounded, so
    // that its density is not zero but 2^-22 of the greatest, which row 10 meets, being
    // at 2^-11 of F2's frequency; all forty reads are on the first of the falling steps
    (
        0,
        PATH,
        false,
        &[&[
            (0, 0.01),
            (1, 0.0),
            (2, 20.2752),
            (3, f32::NAN),
            (4, 0.0),
            (5, -39.815),
            (6, 0.0),
            (7, 0.0),
            (8, 30.585028),
        ]],
    ),
    // a true height above the profile: F2's greatest density is some 3,000 of the least
    // numbers, three more than that of the height below, and one more than the one
    // sought; a product of two of them and 0.25 km is rounded up to one
    (
        0,
        [0.5, 0.74, 3.0, 100.0],
        false,
        &[&[
            (0, 0.0),
            (1, 0.0),
            (2, 2.0707423e-21),
            (3, 1.0),
            (4, 0.0),
            (5, 8.05),
            (6, 72.0),
            (7, 0.0),
            (8, 83.05),
        ]],
    ),
    // an F1 whose virtual height is the true one, 2e38 km: E is so faint that the sum
    // of the weights, a place below 2, becomes 2
    (
        0,
        PATH,
        false,
        &[&[
            (0, 0.59),
            (1, 3000.0),
            (2, 9000.0),
            (3, 1.0),
            (4, 1.0384594e34),
            (5, 1.0384594e34),
            (6, 72.0),
            (7, 2e38),
            (8, 3e38),
        ]],
    ),
    // a fall of more than 1.7e38 km at the cusp of F1 and F2: row 21 is above F1's
    // frequency, row 22 below it
    (
        0,
        PATH,
        false,
        &[&[(1, 29.2), (2, 30.0), (4, 50.0), (5, 3.2999e38), (8, 3.3e38)]],
    ),
];

/// Every point on every path in either shape, some points at refusals, and those at
/// edges of their own.
pub fn circuits() -> Vec<Circuit> {
    let mut all = Vec::new();
    for (path, clck, deciles) in REFUSED {
        for at in [0, 10, 11] {
            let mut circuit = circuit(POINTS[at], path, 1);
            circuit.points[0][14] = clck.to_bits();
            circuit.deciles[0] = if deciles { 1.0f32.to_bits() } else { 0 };
            all.push(circuit);
        }
    }
    for put in POINTS {
        for path in PATHS {
            all.extend((0..2).map(|shape| circuit(put, path, shape)));
        }
    }
    for &(shape, path, deciles, points) in EDGES {
        let mut edge = circuit(&[], path, shape);
        edge.points = points.iter().map(|put| point(put)).collect();
        edge.km = points.len() as u32;
        edge.deciles[0] = if deciles { 1.0f32.to_bits() } else { 0 };
        all.push(edge);
    }
    all
}

/// The plain point with some numbers put into it.
fn point(put: &[(usize, f32)]) -> [u32; POINT] {
    let mut point = PLAIN;
    for (at, x) in put {
        point[*at] = *x;
    }
    point.map(f32::to_bits)
}

fn circuit(put: &[(usize, f32)], path: [f32; 4], shape: u32) -> Circuit {
    Circuit {
        km: 1,
        shape,
        numbers: path.map(f32::to_bits),
        points: vec![point(put)],
        deciles: vec![0; DECILES],
    }
}
