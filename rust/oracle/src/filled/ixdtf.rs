//! The parser's time record, which `from_time_record` reads. The parser is not at hand; `text.rs` stands in for it.

pub mod records {
    pub struct TimeRecord {
        pub hour: u8,
        pub minute: u8,
        pub second: u8,
        pub fraction: Option<Fraction>,
    }

    pub struct Fraction {
        pub nanoseconds: Option<u32>,
    }

    impl Fraction {
        pub fn to_nanoseconds(&self) -> Option<u32> {
            self.nanoseconds
        }
    }
}
