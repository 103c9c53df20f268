use super::{Elementary, cos, exp, exp_m1, exp2, ln, log1pmx, powf, sin};

/// Answers that a second writing of the formulas gave.
#[test]
fn bits_are_those_of_the_formulas() {
    type Row = (fn(f64) -> f64, f64, u64);
    let rows: [Row; 15] = [
        (exp, 1.0, 0x4005_bf0a_8b14_576a),
        (exp, -0.3, 0x3fe7_b4c8_69c3_7c05),
        (exp, 709.0, 0x7fdd_422d_2be5_dc9b),
        (exp, -745.0, 1),
        (exp2, 0.3, 0x3ff3_b2c4_7bff_8329),
        (exp2, -1074.5, 1),
        (exp_m1, 0.25, 0x3fd2_2d78_f0fa_061a),
        (exp_m1, -0.75, 0xbfe0_e25f_8a08_1941),
        (ln, 3.0, 0x3ff1_93ea_7aad_030b),
        (ln, 1e-310, 0xc086_4e69_394d_9508),
        (sin, 100.0, 0xbfe0_3425_b78c_4db8),
        (sin, -2.0, 0xbfed_18f6_ead1_b446),
        (cos, 1e9, 0x3fea_cff8_b6d6_2e44),
        (cos, -5.0, 0x3fd2_2785_706b_4ada),
        (log1pmx, 0.025, 0xbf34_251a_df1e_54a5),
    ];
    for (i, (function, x, bits)) in rows.into_iter().enumerate() {
        assert_eq!(function(x).to_bits(), bits, "row {i}, argument {x:?}");
    }
    assert_eq!(powf(2.5, -1.5).to_bits(), 0x3fd0_30dc_4ea0_3a72);
}

#[test]
fn limits() {
    assert_eq!(exp(0.0), 1.0);
    assert!(exp(709.782712893384).is_finite());
    assert_eq!(exp(709.782712893384_f64.next_up()), f64::INFINITY);
    assert_eq!(exp(-1e300).to_bits(), 0);
    assert_eq!(exp2(1024.0), f64::INFINITY);
    assert!(exp2(1024.0_f64.next_down()).is_finite());
    assert_eq!(exp2(-1e300).to_bits(), 0);
    assert_eq!(ln(-0.0), f64::NEG_INFINITY);
    assert!(ln(-1.0).is_nan());
    assert_eq!(powf(f64::NAN, -0.0), 1.0);
    assert!(powf(-2.0, 2.0).is_nan());
    assert!(sin(1073741824.0).is_nan() && cos(f64::NEG_INFINITY).is_nan());
    assert!(sin(1073741823.0).abs() <= 1.0);
}

#[test]
fn sine_is_whole_at_quarter_turns() {
    let quarter = core::f64::consts::FRAC_PI_2;
    let sines = [-3.0, -1.0, 1.0, 3.0].map(|k| sin(k * quarter));
    assert_eq!(sines, [1.0, -1.0, 1.0, -1.0]);
    let cosines = [-4.0, -2.0, 0.0, 2.0].map(|k| cos(k * quarter));
    assert_eq!(cosines, [1.0, -1.0, 1.0, -1.0]);
}

#[test]
fn cut_and_rest() {
    assert_eq!(Elementary::trunc(-2.5), -2.0);
    assert_eq!(Elementary::fract(-2.5), -0.5);
    assert_eq!(Elementary::sqrt(2.25), 1.5);
}
