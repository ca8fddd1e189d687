//! As much of the kit's jiff as the repository calls.
pub mod civil {
    pub struct Error;
    #[derive(Clone, Copy)]
    pub struct Date(jiff_core::civil::Date);
    impl Date {
        pub fn new(year: i16, month: i8, day: i8) -> Result<Date, Error> {
            if month < 1 || month > 12 || day < 1 || day as u8 > jiff_core::civil::days_in_month(year, month as u8) {
                return Err(Error);
            }
            Ok(Date(jiff_core::civil::Date { year, month: month as u8, day: day as u8 }))
        }
        pub fn to_plain(self) -> jiff_core::civil::Date { self.0 }
    }
}
