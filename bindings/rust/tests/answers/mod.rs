//! A hundred symbols of the original crate: `qrcode-core` 2.2.0, built as it is, printed them in a
//! program that links it. The tests of `crates/qrcode_tests` have the same rows.

/// What the original crate draws of an input.
pub struct Answer {
    /// The kind of the input.
    pub kind: usize,
    /// The length of the input.
    pub count: usize,
    /// The index of the level.
    pub level: usize,
    /// Whether a Micro symbol is asked for.
    pub micro: bool,
    /// How many modules the symbol has; 1 where the data are too long, 2 where no Micro version has
    /// the level.
    pub modules: usize,
    /// The FNV-1a hash of the modules, a byte for each; 0 where there is no symbol.
    pub hash: u32,
}

/// A row: kind, length, level, whether Micro, modules, payload bits (which the C library does not
/// return), hash.
type Row = (usize, usize, usize, bool, usize, usize, u32);

/// The hundred symbols.
pub fn answers() -> impl Iterator<Item = Answer> {
    ROWS.iter().map(|&(kind, count, level, micro, modules, _payload, hash)| Answer {
        kind,
        count,
        level,
        micro,
        modules,
        hash,
    })
}

#[rustfmt::skip]
const ROWS: [Row; 100] = [
    (0, 41, 0, false, 441, 151, 0xeced_6fbb),
    (0, 3058, 0, false, 14641, 10210, 0xe49f_6242),
    (1, 395, 0, false, 3249, 2188, 0x0e2b_dcf1),
    (1, 3184, 0, false, 24649, 17529, 0xf8b7_0957),
    (3, 974, 0, false, 8649, 6345, 0x7025_ec1d),
    (5, 54, 0, false, 1089, 444, 0x77ec_91a5),
    (5, 1528, 0, false, 16641, 12244, 0x6009_9ffe),
    (0, 11, 0, true, 225, 44, 0xc965_523b),
    (0, 36, 0, false, 441, 134, 0xe2a2_caf9),
    (1, 3, 0, true, 169, 21, 0x7447_57ed),
    (1, 28, 0, false, 625, 167, 0x3a0a_f2f7),
    (1, 60, 0, true, 1, 0, 0),
    (2, 20, 0, false, 625, 172, 0x036a_a6b8),
    (2, 60, 0, true, 1, 0, 0),
    (3, 12, 0, false, 441, 90, 0x6d22_d59b),
    (3, 36, 0, true, 1, 0, 0),
    (4, 4, 0, false, 441, 28, 0x4fe0_9b89),
    (4, 28, 0, true, 1, 0, 0),
    (4, 3391, 0, false, 1, 0, 0),
    (5, 20, 0, true, 1, 0, 0),
    (5, 225, 0, false, 2809, 1812, 0x855f_5fe2),
    (6, 12, 0, true, 225, 72, 0x1fa4_7f81),
    (6, 37, 0, false, 625, 217, 0x8400_7367),
    (7, 4, 0, true, 225, 38, 0x0971_5841),
    (7, 29, 0, false, 625, 244, 0xab35_9fcb),
    (7, 60, 0, true, 1, 0, 0),
    (0, 1500, 1, false, 8649, 5016, 0xf436_0477),
    (1, 62, 1, false, 1089, 354, 0x30b0_f1fb),
    (1, 1732, 1, false, 16641, 9543, 0x1e29_3c9c),
    (3, 353, 1, false, 4761, 2330, 0x089c_2167),
    (3, 2446, 1, false, 27225, 15915, 0x35cd_8b2d),
    (5, 712, 1, false, 11025, 5716, 0xc466_4a38),
    (0, 5, 1, false, 441, 31, 0xa7ff_fa85),
    (0, 29, 1, true, 289, 106, 0x060c_e240),
    (0, 4388, 1, false, 25921, 14645, 0xbb2d_1343),
    (1, 21, 1, true, 1, 0, 0),
    (1, 262, 1, false, 2809, 1454, 0xe65f_34a2),
    (2, 13, 1, true, 289, 112, 0x850d_8694),
    (2, 38, 1, false, 841, 316, 0x615e_7003),
    (3, 5, 1, true, 225, 45, 0xa482_d136),
    (3, 30, 1, false, 625, 207, 0xeff5_242d),
    (3, 60, 1, true, 1, 0, 0),
    (4, 22, 1, false, 625, 151, 0xe915_e35b),
    (4, 60, 1, true, 1, 0, 0),
    (5, 14, 1, false, 441, 124, 0x3afe_40e9),
    (5, 38, 1, true, 1, 0, 0),
    (6, 6, 1, false, 441, 46, 0x0e51_cb33),
    (6, 30, 1, true, 1, 0, 0),
    (6, 5385, 1, false, 1, 0, 0),
    (7, 22, 1, true, 1, 0, 0),
    (7, 299, 1, false, 4761, 2412, 0x9267_daf3),
    (0, 490, 2, false, 4761, 1650, 0xeca3_da49),
    (0, 3417, 2, false, 27225, 11408, 0xe925_0e09),
    (1, 743, 2, false, 11025, 4102, 0xac82_7a81),
    (3, 90, 2, false, 1681, 597, 0x4d73_5d0c),
    (3, 1207, 2, false, 19881, 7883, 0x0fc3_346e),
    (5, 292, 2, false, 5929, 2356, 0x4360_c8b6),
    (5, 1580, 2, false, 31329, 12660, 0xb504_6f90),
    (0, 23, 2, false, 441, 91, 0xcdee_8f73),
    (0, 60, 2, true, 1, 0, 0),
    (1, 15, 2, false, 441, 96, 0x192b_dfd3),
    (1, 39, 2, true, 1, 0, 0),
    (2, 7, 2, false, 441, 68, 0xe286_69e5),
    (2, 31, 2, true, 1, 0, 0),
    (2, 6382, 2, false, 1, 0, 0),
    (3, 23, 2, true, 1, 0, 0),
    (3, 336, 2, false, 5929, 2198, 0x0518_7e65),
    (4, 15, 2, true, 289, 80, 0x7f8d_eb13),
    (4, 40, 2, false, 1089, 291, 0x6b9e_c960),
    (5, 7, 2, true, 289, 64, 0xd185_f096),
    (5, 32, 2, false, 841, 268, 0xf533_351f),
    (5, 60, 2, true, 1, 0, 0),
    (6, 24, 2, false, 625, 145, 0xa0bf_51d5),
    (6, 60, 2, true, 1, 0, 0),
    (7, 16, 2, false, 625, 140, 0x8941_df63),
    (7, 40, 2, true, 1, 0, 0),
    (0, 139, 3, false, 1681, 478, 0x7021_b6b1),
    (0, 1783, 3, false, 19881, 5962, 0x63dc_575e),
    (1, 321, 3, false, 5929, 1781, 0xf79a_8ad8),
    (1, 1775, 3, false, 31329, 9780, 0x3a76_ab55),
    (3, 630, 3, false, 12769, 4109, 0x781c_0bd7),
    (5, 85, 3, false, 2809, 692, 0x4802_8751),
    (5, 898, 3, false, 22201, 7204, 0x7214_5ef2),
    (0, 16, 3, true, 2, 0, 0),
    (0, 77, 3, false, 1089, 271, 0x3710_297a),
    (1, 8, 3, true, 2, 0, 0),
    (1, 33, 3, false, 841, 195, 0x6cf9_3fcc),
    (2, 0, 3, true, 2, 0, 0),
    (2, 25, 3, false, 1089, 212, 0x94f3_07bc),
    (2, 60, 3, true, 2, 0, 0),
    (3, 17, 3, false, 841, 136, 0xf910_af49),
    (3, 60, 3, true, 2, 0, 0),
    (4, 9, 3, false, 441, 44, 0x2b0b_c273),
    (4, 33, 3, true, 2, 0, 0),
    (5, 1, 3, false, 441, 20, 0x4ace_ea53),
    (5, 25, 3, true, 2, 0, 0),
    (5, 400, 3, false, 10201, 3220, 0x3c70_91f4),
    (6, 17, 3, true, 2, 0, 0),
    (6, 114, 3, false, 2401, 640, 0x7b28_9c4b),
    (7, 9, 3, true, 2, 0, 0),
];
