//! The measure: its exact order, and what is made of it.

mod common;

use common::sizes::{fraction, is_near, quotient_bits, shows};
use compare::gen::{Random, ONE_FRACTION, OTHER_ORDER};
use compare::model::measure::{badness, determinant, edge_sum, score, Corners};
use compare::model::{PageRow, Quality, Shown};
use compare::rivals::whole_part_order;

const ONE: Corners = [[41, 95, 126], [47, 31, 63], [90, 35, 65], [92, 78, 64]];
const OTHER: Corners = [[28, 86, 62], [47, 31, 63], [90, 35, 65], [92, 65, 37]];

fn any_corners(random: &mut Random) -> Corners {
    let most = random.pick(&[1, 2, 4, 16, 128, 255]);
    [[0; 3]; 4].map(|place| place.map(|_: u8| random.within(0..=most) as u8))
}

/// The largest tetrahedron: over corners of the box.
const LARGEST: Corners = [[0, 0, 0], [255, 255, 0], [255, 0, 255], [0, 255, 255]];

/// |D| is 1 and S large, upright and inverted.
const NEARLY_FLAT: [Corners; 3] = [
    [[5, 1, 252], [0, 0, 255], [218, 212, 24], [239, 232, 2]],
    [[205, 223, 17], [0, 5, 181], [216, 240, 0], [24, 0, 209]],
    [[4, 172, 247], [0, 175, 251], [187, 25, 36], [218, 0, 0]],
];

/// Every row over corners of the box, and some that are nearly flat.
fn extremes() -> impl Iterator<Item = Corners> {
    let corner = |bits: usize| [0, 1, 2].map(|axis| 255 * (bits >> axis & 1) as u8);
    let over_corners =
        (0..8usize.pow(4)).map(move |bits| [9, 6, 3, 0].map(|at| corner(bits >> at)));
    over_corners.chain(NEARLY_FLAT)
}

fn size_of(shown: Shown) -> f64 {
    shown.signed().abs()
}

#[test]
fn different_fractions_may_share_an_f64() {
    let [one, other] = [ONE, OTHER].map(Quality::of);
    assert_ne!(one, other);
    assert_eq!(size_of(Shown::of(one)), 0.1795533769218966);
    assert_eq!(size_of(Shown::of(other)), 0.1795533769218966);
}

/// The fractions of two rows, and the bits of their f64.
fn fractions_and_bits(rows: [Corners; 2]) -> [([u64; 2], u64); 2] {
    rows.map(Quality::of).map(|quality| {
        let bits = Shown::of(quality).signed().to_bits();
        shows(bits, quality);
        (fraction(quality), bits)
    })
}

#[test]
fn two_fractions_may_be_shown_in_the_other_order() {
    let [worse, better] = OTHER_ORDER.map(Quality::of);
    assert!(worse < better);
    let shown = fractions_and_bits(OTHER_ORDER);
    assert_eq!(
        shown,
        [
            (
                [4_987_729_458_862_848, 49_106_302_018_864_875],
                4_591_983_313_956_732_078
            ),
            (
                [3_120_877_172_106_288, 30_726_353_191_612_931],
                4_591_983_313_956_732_077
            ),
        ]
    );
    assert!(shown[0].1 > shown[1].1);
}

#[test]
fn one_fraction_may_be_shown_as_two_f64() {
    let [one, other] = ONE_FRACTION.map(Quality::of);
    assert_eq!(one, other);
    let shown = fractions_and_bits(ONE_FRACTION);
    assert_eq!(
        shown,
        [
            (
                [17_628_427_008, 25_440_718_553_531],
                4_559_530_298_286_893_923
            ),
            (
                [12_851_123_288_832, 18_546_283_825_524_099],
                4_559_530_298_286_893_922
            ),
        ]
    );
    assert_ne!(shown[0].1, shown[1].1);
}

#[test]
fn the_exact_order_is_that_of_whole_parts_and_remainders() {
    let mut random = Random::of_case(14, 0);
    let parts = |q: Quality| (q.numerator.unsigned_abs() as u64, q.denominator as u64);
    let mut pairs: Vec<[Corners; 2]> = (0..20_000)
        .map(|_| [any_corners(&mut random), any_corners(&mut random)])
        .collect();
    pairs.extend([[ONE, OTHER], OTHER_ORDER, ONE_FRACTION]);
    for [x, y] in pairs.into_iter().map(|pair| pair.map(Quality::of)) {
        let ((n, d), (o, e)) = (parts(x), parts(y));
        let sizes = whole_part_order(n, d, o, e);
        let signs = x.numerator.signum().cmp(&y.numerator.signum());
        let expected = match x.numerator.signum() {
            -1 => signs.then(sizes.reverse()),
            _ => signs.then(sizes),
        };
        assert_eq!(x.cmp(&y), expected);
    }
}

#[test]
fn numbers_stay_below_their_bounds() {
    let mut random = Random::of_case(15, 0);
    let bound = 1728 * 255i128.pow(6);
    let most_badness = 4 * 255u64.pow(6);
    assert!(bound < 1 << 59 && most_badness < (1 << 63) / 6_000);
    assert_eq!(determinant(LARGEST).abs(), 33_162_750);
    assert_eq!(edge_sum(LARGEST), 780_300);
    let drawn = (0..20_000).map(|_| any_corners(&mut random));
    for corners in drawn.chain(extremes()) {
        assert!(determinant(corners).abs() <= 33_162_750 && edge_sum(corners) <= 780_300);
        let quality = Quality::of(corners);
        assert!(quality.numerator.abs() <= bound);
        assert!(quality.denominator > 0 && quality.denominator <= bound);
        assert!(quality.numerator.abs() <= quality.denominator);
        assert!(badness(corners).is_none_or(|badness| badness <= most_badness));
    }
}

#[test]
fn what_is_shown_is_near_the_fraction() {
    let mut random = Random::of_case(18, 0);
    let drawn = (0..20_000).map(|_| any_corners(&mut random));
    for quality in drawn.chain(extremes()).map(Quality::of) {
        let bits = Shown::of(quality).signed().to_bits();
        shows(bits, quality);
        let [t, u] = fraction(quality);
        if t > 0 {
            assert_eq!(bits << 1, quotient_bits(t, u) << 1);
        }
    }
}

/// Eight last places are over 2^-50 of a size.
#[test]
fn what_is_eight_last_places_away_is_not_near() {
    let mut random = Random::of_case(19, 0);
    let drawn = (0..2_000).map(|_| any_corners(&mut random));
    let qualities = drawn.chain(extremes()).map(Quality::of);
    for [t, u] in qualities.map(fraction).filter(|[t, _]| *t > 0) {
        let bits = quotient_bits(t, u);
        assert!(is_near(bits, t, u));
        assert!(!is_near(bits - 8, t, u));
        assert!(!is_near(bits + 8, t, u));
    }
    assert!(!is_near(quotient_bits(1, 1 << 50), 1 << 40, 1 << 41));
}

#[test]
fn nearly_flat_rows_have_the_smallest_numerator() {
    for corners in NEARLY_FLAT {
        let [t, u] = fraction(Quality::of(corners));
        assert_eq!(determinant(corners).abs(), 1);
        assert!(t == 432 && u > 1 << 53, "{t}/{u}");
    }
}

#[test]
fn score_and_badness_are_what_their_inequalities_say() {
    let mut random = Random::of_case(16, 0);
    for _ in 0..5_000 {
        let corners = any_corners(&mut random);
        let Quality {
            numerator,
            denominator,
        } = Quality::of(corners);
        let n = i128::from(score(corners));
        let holds = |n: i128| n * n * n * denominator <= 1_000_000_000 * numerator;
        match badness(corners) {
            Some(bad) => {
                let bad = i128::from(bad);
                assert!(numerator > 0 && holds(n) && (n == 1000 || !holds(n + 1)));
                assert!(bad * numerator >= denominator && (bad - 1) * numerator < denominator);
            }
            None => assert!(numerator <= 0 && n == 0),
        }
    }
}

#[test]
fn an_even_rearrangement_keeps_d_and_an_odd_one_turns_it() {
    let mut random = Random::of_case(17, 0);
    for _ in 0..1_000 {
        let [p, q, r, s] = any_corners(&mut random);
        let d = determinant([p, q, r, s]);
        assert_eq!(determinant([q, r, p, s]), d);
        assert_eq!(determinant([q, p, s, r]), d);
        assert_eq!(determinant([q, p, r, s]), -d);
        assert_eq!(edge_sum([q, p, r, s]), edge_sum([p, q, r, s]));
    }
}

#[test]
fn four_points_in_one_place_are_flat() {
    let corners = [[9, 9, 9]; 4];
    assert_eq!(Quality::of(corners), Quality::ZERO);
    assert_eq!(Shown::of(Quality::of(corners)), Shown::Flat);
    let page = PageRow {
        before: Shown::Flat.signed(),
        after: Shown::Inverted(0.5).signed(),
    };
    assert_eq!(page.before.to_bits(), 0);
    assert_eq!(page.after, -0.5);
}
