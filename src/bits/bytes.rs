// Made by `make package` of crates/fixed_bits/src/bytes.rt, which is proved: changes go there.

//! The bytes of each word. A signed word has the bytes of the unsigned word with the same bits.

use crate::bits::bit_word::BitWord;
use crate::word::Word;

impl BitWord for u8 {
    type Bytes = [u8; 1];

    fn to_be_bytes(self) -> [u8; 1] {
        u8::to_be_bytes(self)
    }

    fn to_le_bytes(self) -> [u8; 1] {
        u8::to_le_bytes(self)
    }

    fn from_be_bytes(bytes: [u8; 1]) -> u8 {
        u8::from_be_bytes(bytes)
    }

    fn from_le_bytes(bytes: [u8; 1]) -> u8 {
        u8::from_le_bytes(bytes)
    }
}

impl BitWord for u16 {
    type Bytes = [u8; 2];

    fn to_be_bytes(self) -> [u8; 2] {
        u16::to_be_bytes(self)
    }

    fn to_le_bytes(self) -> [u8; 2] {
        u16::to_le_bytes(self)
    }

    fn from_be_bytes(bytes: [u8; 2]) -> u16 {
        u16::from_be_bytes(bytes)
    }

    fn from_le_bytes(bytes: [u8; 2]) -> u16 {
        u16::from_le_bytes(bytes)
    }
}

impl BitWord for u32 {
    type Bytes = [u8; 4];

    fn to_be_bytes(self) -> [u8; 4] {
        u32::to_be_bytes(self)
    }

    fn to_le_bytes(self) -> [u8; 4] {
        u32::to_le_bytes(self)
    }

    fn from_be_bytes(bytes: [u8; 4]) -> u32 {
        u32::from_be_bytes(bytes)
    }

    fn from_le_bytes(bytes: [u8; 4]) -> u32 {
        u32::from_le_bytes(bytes)
    }
}

impl BitWord for u64 {
    type Bytes = [u8; 8];

    fn to_be_bytes(self) -> [u8; 8] {
        u64::to_be_bytes(self)
    }

    fn to_le_bytes(self) -> [u8; 8] {
        u64::to_le_bytes(self)
    }

    fn from_be_bytes(bytes: [u8; 8]) -> u64 {
        u64::from_be_bytes(bytes)
    }

    fn from_le_bytes(bytes: [u8; 8]) -> u64 {
        u64::from_le_bytes(bytes)
    }
}

impl BitWord for i8 {
    type Bytes = [u8; 1];

    fn to_be_bytes(self) -> [u8; 1] {
        BitWord::to_be_bytes(self.to_unsigned())
    }

    fn to_le_bytes(self) -> [u8; 1] {
        BitWord::to_le_bytes(self.to_unsigned())
    }

    fn from_be_bytes(bytes: [u8; 1]) -> i8 {
        i8::from_unsigned(<u8 as BitWord>::from_be_bytes(bytes))
    }

    fn from_le_bytes(bytes: [u8; 1]) -> i8 {
        i8::from_unsigned(<u8 as BitWord>::from_le_bytes(bytes))
    }
}

impl BitWord for i16 {
    type Bytes = [u8; 2];

    fn to_be_bytes(self) -> [u8; 2] {
        BitWord::to_be_bytes(self.to_unsigned())
    }

    fn to_le_bytes(self) -> [u8; 2] {
        BitWord::to_le_bytes(self.to_unsigned())
    }

    fn from_be_bytes(bytes: [u8; 2]) -> i16 {
        i16::from_unsigned(<u16 as BitWord>::from_be_bytes(bytes))
    }

    fn from_le_bytes(bytes: [u8; 2]) -> i16 {
        i16::from_unsigned(<u16 as BitWord>::from_le_bytes(bytes))
    }
}

impl BitWord for i32 {
    type Bytes = [u8; 4];

    fn to_be_bytes(self) -> [u8; 4] {
        BitWord::to_be_bytes(self.to_unsigned())
    }

    fn to_le_bytes(self) -> [u8; 4] {
        BitWord::to_le_bytes(self.to_unsigned())
    }

    fn from_be_bytes(bytes: [u8; 4]) -> i32 {
        i32::from_unsigned(<u32 as BitWord>::from_be_bytes(bytes))
    }

    fn from_le_bytes(bytes: [u8; 4]) -> i32 {
        i32::from_unsigned(<u32 as BitWord>::from_le_bytes(bytes))
    }
}

impl BitWord for i64 {
    type Bytes = [u8; 8];

    fn to_be_bytes(self) -> [u8; 8] {
        BitWord::to_be_bytes(self.to_unsigned())
    }

    fn to_le_bytes(self) -> [u8; 8] {
        BitWord::to_le_bytes(self.to_unsigned())
    }

    fn from_be_bytes(bytes: [u8; 8]) -> i64 {
        i64::from_unsigned(<u64 as BitWord>::from_be_bytes(bytes))
    }

    fn from_le_bytes(bytes: [u8; 8]) -> i64 {
        i64::from_unsigned(<u64 as BitWord>::from_le_bytes(bytes))
    }
}
