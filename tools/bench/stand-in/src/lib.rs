//! The calls of `qrcode-core` 2.2.0 that tools/bench/main.rs makes, by their signatures alone, so that the
//! gate can compile it without the original crate. Nothing here is ever run.

/// What a call of the original returns.
pub type QrResult<T> = Result<T, ()>;

#[derive(Clone, Copy)]
pub enum EcLevel {
    L,
    M,
    Q,
    H,
}

#[derive(Clone, Copy, PartialEq, Eq)]
pub enum Color {
    Light,
    Dark,
}

#[derive(Clone, Copy)]
pub struct Version;

pub mod bits {
    use crate::{EcLevel, QrResult, Version};

    pub struct Bits;

    impl Bits {
        pub fn version(&self) -> Version {
            unimplemented!()
        }

        pub fn into_bytes(self) -> Vec<u8> {
            unimplemented!()
        }
    }

    pub fn encode_auto(_data: &[u8], _level: EcLevel) -> QrResult<Bits> {
        unimplemented!()
    }

    pub fn encode_auto_micro(_data: &[u8], _level: EcLevel) -> QrResult<Bits> {
        unimplemented!()
    }
}

pub mod ec {
    use crate::{EcLevel, QrResult, Version};

    pub fn construct_codewords(
        _bits: &[u8],
        _version: Version,
        _level: EcLevel,
    ) -> QrResult<(Vec<u8>, Vec<u8>)> {
        unimplemented!()
    }
}

pub mod canvas {
    use crate::{Color, EcLevel, Version};

    pub struct Canvas;

    impl Canvas {
        pub fn new(_version: Version, _level: EcLevel) -> Self {
            unimplemented!()
        }

        pub fn draw_all_functional_patterns(&mut self) {}

        pub fn draw_data(&mut self, _data: &[u8], _correction: &[u8]) {}

        pub fn apply_best_mask(&self) -> Self {
            unimplemented!()
        }

        pub fn into_colors(self) -> Vec<Color> {
            unimplemented!()
        }
    }
}
