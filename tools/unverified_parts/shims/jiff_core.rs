//! As much of the kit's jiff_core as the repository calls.
pub mod civil {
    #[derive(Clone, Copy, Debug, PartialEq, Eq)]
    pub struct Date { pub year: i16, pub month: u8, pub day: u8 }
    pub fn is_leap_year(year: i16) -> bool { year % 4 == 0 && (year % 100 != 0 || year % 400 == 0) }
    pub fn days_in_month(year: i16, month: u8) -> u8 {
        match month { 2 => if is_leap_year(year) { 29 } else { 28 }, 4 | 6 | 9 | 11 => 30, _ => 31 }
    }
    pub fn days_in_year(year: i16) -> u16 { if is_leap_year(year) { 366 } else { 365 } }
    impl Date {
        pub fn constrain(year: i16, month: u8, day: u8) -> Date { Date { year, month, day: day.min(days_in_month(year, month)) } }
        pub fn to_unix_epoch_day(self) -> i32 {
            let y = self.year as i64 - (self.month <= 2) as i64;
            let era = y.div_euclid(400);
            let yoe = y.rem_euclid(400);
            let m = self.month as i64;
            let doy = (153 * (m + if m > 2 { -3 } else { 9 }) + 2) / 5 + self.day as i64 - 1;
            let doe = yoe * 365 + yoe / 4 - yoe / 100 + doy;
            (era * 146097 + doe - 719468) as i32
        }
        pub fn from_days_since_min(days: u32) -> Date {
            let z = days as i64 - 4_371_587 + 719468;
            let era = z.div_euclid(146097);
            let doe = z.rem_euclid(146097);
            let yoe = (doe - doe / 1460 + doe / 36524 - doe / 146096) / 365;
            let y = yoe + era * 400;
            let doy = doe - (365 * yoe + yoe / 4 - yoe / 100);
            let mp = (5 * doy + 2) / 153;
            let day = (doy - (153 * mp + 2) / 5 + 1) as u8;
            let month = (if mp < 10 { mp + 3 } else { mp - 9 }) as u8;
            Date { year: (y + (month <= 2) as i64) as i16, month, day }
        }
    }
}
