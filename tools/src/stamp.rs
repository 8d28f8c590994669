//! Times as an entry holds them (sections 7.4.5 to 7.4.10).

use crate::library::Stamp;
use std::time::{SystemTime, UNIX_EPOCH};

/// OffsetValid set, offset 0: UTC.
const UTC: u8 = 0x80;

pub fn now() -> Stamp {
    let since = SystemTime::now().duration_since(UNIX_EPOCH);
    let since = since.unwrap_or_default();
    let (year, month, day) = civil(since.as_secs() / 86_400);
    let second = since.as_secs() % 86_400;
    let clock = [second / 3600, second / 60 % 60, second % 60].map(|part| part as u32);
    // Outside 1980 to 2107 an entry holds no time; the nearest it does hold.
    let year = year.clamp(1980, 2107);
    stamp([year, month, day], clock, since.subsec_millis() / 10, UTC)
}

fn stamp([year, month, day]: [u32; 3], [hour, minute, second]: [u32; 3], hundredths: u32, offset: u8) -> Stamp {
    let value = (year - 1980) << 25 | month << 21 | day << 16 | hour << 11 | minute << 5 | (second / 2);
    let [a, b, c, d] = value.to_le_bytes();
    [a, b, c, d, (second % 2 * 100 + hundredths) as u8, offset]
}

/// Year, month and day of a day counted from 1970-01-01.
fn civil(days: u64) -> (u32, u32, u32) {
    let mut left = days as u32;
    let mut year = 1970;
    while left >= 365 + u32::from(is_leap(year)) {
        left -= 365 + u32::from(is_leap(year));
        year += 1;
    }
    let mut month = 1;
    while left >= days_of(year, month) {
        left -= days_of(year, month);
        month += 1;
    }
    (year, month, left + 1)
}

fn is_leap(year: u32) -> bool {
    year % 4 == 0 && (year % 100 != 0 || year % 400 == 0)
}

fn days_of(year: u32, month: u32) -> u32 {
    match month {
        2 => 28 + u32::from(is_leap(year)),
        4 | 6 | 9 | 11 => 30,
        _ => 31,
    }
}

/// Reads `2026-11-16T12:30:05[.25][Z|+01:00|-03:30]`; without a zone it is UTC.
pub fn parse(text: &str) -> Option<Stamp> {
    let (date, rest) = text.split_once('T')?;
    let zone_at = rest.find(['Z', '+', '-']).unwrap_or(rest.len());
    let (clock, zone) = rest.split_at(zone_at);
    let (clock, hundredths) = match clock.split_once('.') {
        Some((clock, hundredths)) => (clock, digits(hundredths, 2)?),
        None => (clock, 0),
    };
    let [year, month, day] = numbers(date, '-', [4, 2, 2])?;
    let [hour, minute, second] = numbers(clock, ':', [2, 2, 2])?;
    let good = (1980..=2107).contains(&year)
        && (1..=12).contains(&month)
        && (1..=days_of(year, month)).contains(&day)
        && hour < 24
        && minute < 60
        && second < 60;
    let offset = parse_zone(zone)?;
    good.then(|| stamp([year, month, day], [hour, minute, second], hundredths, offset))
}

/// Numbers of so many digits each, with a mark between.
fn numbers<const N: usize>(text: &str, between: char, lengths: [usize; N]) -> Option<[u32; N]> {
    let parts: Vec<&str> = text.split(between).collect();
    let parts: [&str; N] = parts.try_into().ok()?;
    let numbers: Option<Vec<u32>> = parts.iter().zip(lengths).map(|(part, length)| digits(part, length)).collect();
    numbers?.try_into().ok()
}

fn digits(text: &str, length: usize) -> Option<u32> {
    let good = text.len() == length && text.bytes().all(|byte| byte.is_ascii_digit());
    good.then(|| text.parse().ok()).flatten()
}

/// Section 7.4.10: quarters of an hour in seven bits, from -64 to 63.
fn parse_zone(zone: &str) -> Option<u8> {
    if zone.is_empty() || zone == "Z" {
        return Some(UTC);
    }
    let [hours, minutes] = numbers(zone.strip_prefix(['+', '-'])?, ':', [2, 2])?;
    let quarters = (hours * 4 + minutes / 15) as i32 * if zone.starts_with('-') { -1 } else { 1 };
    let good = minutes < 60 && minutes % 15 == 0 && (-64..=63).contains(&quarters);
    good.then_some(UTC | (quarters as u8 & 0x7f))
}

/// A stamp as text; without OffsetValid it has no zone.
pub fn show(stamp: &Stamp) -> String {
    let value = u32::from_le_bytes([stamp[0], stamp[1], stamp[2], stamp[3]]);
    let second = (value & 31) * 2 + u32::from(stamp[4]) / 100;
    let zone = match stamp[5] {
        offset if offset & UTC == 0 => String::new(),
        UTC => "Z".into(),
        offset => {
            // The low seven bits are a signed count of quarter hours.
            let minutes = i32::from((offset << 1) as i8 >> 1) * 15;
            let sign = if minutes < 0 { '-' } else { '+' };
            format!("{sign}{:02}:{:02}", minutes.abs() / 60, minutes.abs() % 60)
        }
    };
    format!(
        "{}-{:02}-{:02}T{:02}:{:02}:{second:02}{zone}",
        1980 + (value >> 25),
        value >> 21 & 15,
        value >> 16 & 31,
        value >> 11 & 31,
        value >> 5 & 63
    )
}

#[cfg(test)]
mod tests {
    use super::*;

    #[test]
    fn times_are_shown_as_they_were_read() {
        for text in [
            "1980-01-01T00:00:00Z",
            "2024-02-29T23:59:59Z",
            "2107-12-31T12:30:05+01:00",
            "2026-11-16T04:08:53-03:30",
            "2026-11-16T04:08:53+15:45",
            "2026-11-16T04:08:53-16:00",
        ] {
            assert_eq!(show(&parse(text).expect(text)), text);
        }
        assert_eq!(parse("2026-11-16T04:08:53.25"), parse("2026-11-16T04:08:53.25Z"));
        assert_eq!(parse("2026-11-16T04:08:53.25").map(|stamp| stamp[4]), Some(125));
    }

    #[test]
    fn what_no_entry_can_hold_is_refused() {
        for text in [
            "1979-12-31T00:00:00Z",
            "2108-01-01T00:00:00Z",
            "2026-02-29T00:00:00Z",
            "2026-13-01T00:00:00Z",
            "2026-01-01T24:00:00Z",
            "2026-01-01T00:00:00+01:07",
            "2026-01-01T00:00:00+01:60",
            "2026-01-01T00:00:00+16:00",
            "2026-01-01T00:00:00-16:15",
            "2026-01-01T00:00:00+-1:00",
            "2026-01-01T00:00:00Z01:00",
            "2026-01-01T00:00:00+99999999:00",
            "2026-01-01T00:00:00.+5",
            "2026-+1-01T00:00:00Z",
            "2026-01-01",
            "2026-01-01T00:00",
            "",
        ] {
            assert_eq!(parse(text), None, "{text}");
        }
    }

    #[test]
    fn days_since_1970() {
        assert_eq!(civil(0), (1970, 1, 1));
        assert_eq!(civil(19_782), (2024, 2, 29));
        assert_eq!(civil(20_773), (2026, 11, 16));
    }
}
