//! Numbers and dates as the parameter file spells them.

const MAX_WHOLE_DIGITS: usize = 4;
const MAX_FRACTION_DIGITS: usize = 10;
const MAX_INTEGER_DIGITS: usize = 9;

const POWERS_OF_TEN: [i64; MAX_FRACTION_DIGITS + 1] =
    [1, 10, 100, 1_000, 10_000, 100_000, 1_000_000, 10_000_000, 100_000_000, 1_000_000_000, 10_000_000_000];

/// A decimal as it is spelled: all its digits as one number, and how many stand after the point.
#[derive(Clone, Copy, Debug, PartialEq, Eq)]
pub struct Decimal {
    digits: i64,
    places: usize,
}

impl Decimal {
    /// The value in units of 10^-`places`, unless a digit beyond those places is not 0.
    pub fn scaled(self, places: usize) -> Option<i64> {
        if self.places <= places {
            return Some(self.digits * POWERS_OF_TEN[places - self.places]);
        }
        let unit = POWERS_OF_TEN[self.places - places];
        (self.digits % unit == 0).then_some(self.digits / unit)
    }

    /// The value in units of 10^-`places`, if it has no more places and is from `low` to `high`.
    pub fn within(self, places: usize, low: i64, high: i64) -> Option<i64> {
        self.scaled(places).filter(|&value| low <= value && value <= high)
    }
}

/// Up to `most` digits at the front of the text: their value and their number.
#[inline]
fn leading_digits(text: &[u8], most: usize) -> (i64, usize) {
    let mut value = 0;
    let mut count = 0;
    for byte in text.iter().take(most) {
        let digit = byte.wrapping_sub(b'0');
        if digit > 9 {
            break;
        }
        value = value * 10 + i64::from(digit);
        count += 1;
    }
    (value, count)
}

/// The longest decimal at the front of the text, and its length: an optional minus, one to four digits,
/// and optionally a point with one to ten digits.
#[inline]
pub fn leading_decimal(text: &[u8]) -> Option<(Decimal, usize)> {
    let negative = text.first() == Some(&b'-');
    let mut length = usize::from(negative);
    let (mut digits, whole) = leading_digits(&text[length..], MAX_WHOLE_DIGITS);
    if whole == 0 {
        return None;
    }
    length += whole;
    let mut places = 0;
    if text.get(length) == Some(&b'.') {
        let (fraction, count) = leading_digits(&text[length + 1..], MAX_FRACTION_DIGITS);
        if count > 0 {
            digits = digits * POWERS_OF_TEN[count] + fraction;
            places = count;
            length += 1 + count;
        }
    }
    let digits = if negative { -digits } else { digits };
    Some((Decimal { digits, places }, length))
}

/// A cell that is a decimal and nothing else.
pub fn decimal(cell: &[u8]) -> Option<Decimal> {
    leading_decimal(cell).filter(|&(_, length)| length == cell.len()).map(|(value, _)| value)
}

/// A cell that is one to nine digits and nothing else; zeros in front are allowed.
pub fn integer(cell: &[u8]) -> Option<u32> {
    let (value, count) = leading_digits(cell, MAX_INTEGER_DIGITS);
    (count > 0 && count == cell.len()).then_some(value as u32)
}

/// A stock's number as it is spelled: an integer that does not begin with 0.
pub fn stock(cell: &[u8]) -> Option<u32> {
    integer(cell).filter(|_| cell[0] != b'0')
}

/// A day, a month and a year as they are spelled; not necessarily a date of the calendar.
#[derive(Clone, Copy, Debug, PartialEq, Eq)]
pub struct Date {
    pub day: u32,
    pub month: u32,
    pub year: u32,
}

impl Date {
    /// Is it a date of the calendar from 2000 to 2099?
    pub fn is_real(self) -> bool {
        (2000..=2099).contains(&self.year)
            && (1..=12).contains(&self.month)
            && (1..=self.days_in_month()).contains(&self.day)
    }

    /// Every fourth year from 2000 to 2099 is a leap year, 2000 among them.
    fn days_in_month(self) -> u32 {
        match self.month {
            2 if self.year.is_multiple_of(4) => 29,
            2 => 28,
            4 | 6 | 9 | 11 => 30,
            _ => 31,
        }
    }
}

/// A cell of the form day/month/year: one or two digits, one or two digits, four digits.
pub fn date(cell: &[u8]) -> Option<Date> {
    let mut parts = cell.split(|&byte| byte == b'/');
    let (day, month, year) = (parts.next()?, parts.next()?, parts.next()?);
    if parts.next().is_some() || day.len() > 2 || month.len() > 2 || year.len() != 4 {
        return None;
    }
    Some(Date { day: integer(day)?, month: integer(month)?, year: integer(year)? })
}

#[cfg(test)]
mod tests {
    use super::*;

    fn scaled(cell: &str, places: usize) -> Option<i64> {
        decimal(cell.as_bytes()).and_then(|value| value.scaled(places))
    }

    #[test]
    fn every_spelling_of_a_decimal_has_its_worth() {
        assert_eq!(scaled("0.75", 4), Some(7_500));
        assert_eq!(scaled("0000.7500000000", 4), Some(7_500));
        assert_eq!(scaled("-0.004567", 8), Some(-456_700));
        assert_eq!(scaled("-0", 4), Some(0));
        assert_eq!(scaled("-0000.0000000000", 4), Some(0));
        assert_eq!(scaled("9999.9999999999", 10), Some(99_999_999_999_999));
        assert_eq!(scaled("4", 8), Some(400_000_000));
        assert_eq!(scaled("0.1234567800", 8), Some(12_345_678));
    }

    #[test]
    fn a_digit_beyond_the_places_is_seen() {
        assert_eq!(scaled("0.123456789", 8), None);
        assert_eq!(scaled("-0.00001", 4), None);
        assert_eq!(scaled("0.0000000001", 8), None);
    }

    #[test]
    fn what_is_no_decimal_is_refused() {
        for cell in [
            "", "-", ".", ".5", "5.", "-.5", "--1", "+1", "12345", "0.12345678901", "1e3", " 1", "1 ", "1.2.3", "1.-2",
            "0x1", "1\r",
        ] {
            assert_eq!(decimal(cell.as_bytes()), None, "{cell:?}");
        }
    }

    #[test]
    fn an_integer_is_one_to_nine_digits() {
        assert_eq!(integer(b"0"), Some(0));
        assert_eq!(integer(b"007"), Some(7));
        assert_eq!(integer(b"999999999"), Some(999_999_999));
        for cell in ["", "-1", "+1", "1.0", "1234567890", "0000000001", "1 ", "x"] {
            assert_eq!(integer(cell.as_bytes()), None, "{cell:?}");
        }
    }

    #[test]
    fn a_stock_does_not_begin_with_0() {
        assert_eq!(stock(b"700"), Some(700));
        assert_eq!(stock(b"0"), None);
        assert_eq!(stock(b"0700"), None);
        assert_eq!(stock(b""), None);
    }

    #[test]
    fn dates_have_a_form_and_a_calendar() {
        assert_eq!(date(b"2/5/2023"), Some(Date { day: 2, month: 5, year: 2023 }));
        assert_eq!(date(b"02/05/2023"), date(b"2/5/2023"));
        for cell in [
            "", "2/5", "2/5/23", "2/5/02023", "002/5/2023", "2/005/2023", "/5/2023", "2//2023", "2/5/2023/",
            "2-5-2023", "-2/5/2023",
        ] {
            assert_eq!(date(cell.as_bytes()), None, "{cell:?}");
        }
        let real = |cell: &str| date(cell.as_bytes()).unwrap().is_real();
        for cell in ["29/2/2024", "29/2/2000", "1/1/2000", "31/12/2099", "30/4/2023", "28/2/2023"] {
            assert!(real(cell), "{cell}");
        }
        for cell in [
            "29/2/2023", "30/2/2024", "31/4/2023", "31/6/2023", "31/9/2023", "31/11/2023", "32/1/2023", "0/1/2023",
            "1/0/2023", "1/13/2023", "31/12/1999", "1/1/2100", "0/0/0000",
        ] {
            assert!(!real(cell), "{cell}");
        }
    }
}
