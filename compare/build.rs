//! The build script of `source` and of `platform`: takes the items in scope out of the source.

/// The items in scope, by file. The rest of each file is left out.
const ITEMS: [(&str, &[&str]); 6] = [
    (
        "utils.rs",
        &[
            "LN_SQRT_TAU",
            "SQRT_PI",
            "SQRT_FRAC_2_PI",
            "pow2",
            "mul_exp",
        ],
    ),
    ("xsf/specfun.rs", &["SPECFUN_INF"]),
    ("xsf/specfun/gamma.rs", &["gamma2"]),
    ("xsf/cephes/polevl.rs", &["polevl"]),
    ("xsf/cephes/gamma.rs", &["GAMMA_A", "lgam_stirling_corr"]),
    (
        "xsf/par_cyl.rs",
        &[
            "dvsa",
            "dvla",
            "vvla",
            "vvla_qe",
            "vvsa",
            "pbdv_impl",
            "pbvv_impl",
            "LARGE_V",
            "alloc_buf",
            "U_POLY",
            "V_POLY",
            "uv_poly",
            "ln_gamma_ratio",
            "pbdv_elementary",
            "pb_maclaurin",
        ],
    ),
];

/// Of the text of all items at commit d94dfeb5a7.
const CHECKSUM: u64 = 0xbe7b_46e3_927e_1f7c;

fn main() {
    extract::write_items(&ITEMS, CHECKSUM);
}
