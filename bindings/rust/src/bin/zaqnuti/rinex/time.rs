//! GPS time, and conversion of dates to it.

/// Seconds in a day and in a week.
const DAY: i64 = 86_400;
const WEEK: i64 = 604_800;
/// The first day of GPS time, 1980-01-06, in days since 1970-01-01.
const FIRST_DAY: i64 = 3_657;

/// Leap seconds: year, month, and GPS time minus UTC from then on.
const LEAPS: [(i64, i64, i64); 18] = [
    (1981, 7, 1),
    (1982, 7, 2),
    (1983, 7, 3),
    (1985, 7, 4),
    (1988, 1, 5),
    (1990, 1, 6),
    (1991, 1, 7),
    (1992, 7, 8),
    (1993, 7, 9),
    (1994, 7, 10),
    (1996, 1, 11),
    (1997, 7, 12),
    (1999, 1, 13),
    (2006, 1, 14),
    (2009, 1, 15),
    (2012, 7, 16),
    (2015, 7, 17),
    (2017, 1, 18),
];

/// The time system of a date.
#[derive(Clone, Copy, Debug, PartialEq)]
pub enum Scale {
    /// GPS time; Galileo and QZSS agree with it.
    Gps,
    /// UTC, used for GLONASS.
    Utc,
    /// BeiDou time, 14 s behind GPS time.
    Beidou,
}

/// GPS time as whole seconds since the start of week 0 and a fraction.
#[derive(Clone, Copy, Debug, PartialEq)]
pub struct Moment {
    seconds: i64,
    rest: f64,
}

/// Returns the number of days since 1970-01-01.
fn day(year: i64, month: i64, day: i64) -> i64 {
    // Counting years from March puts the leap day at the end.
    let year = if month <= 2 { year - 1 } else { year };
    let (era, of_era) = (year.div_euclid(400), year.rem_euclid(400));
    let of_year = (153 * ((month + 9) % 12) + 2) / 5 + day - 1;
    era * 146_097 + of_era * 365 + of_era / 4 - of_era / 100 + of_year - 719_468
}

impl Moment {
    /// Adds seconds to a whole second since the start of week 0.
    pub fn new(seconds: i64, rest: f64) -> Self {
        let whole = rest.floor();
        let (seconds, rest) = (seconds + whole as i64, rest - whole);
        Self { seconds, rest }
    }

    /// Returns a second of a GPS week.
    pub fn of_week(week: i64, second: f64) -> Self {
        Self::new(week * WEEK, second)
    }

    /// Converts year, month, day, hour, minute and second; nothing if there is no such date.
    pub fn of_date(date: [i64; 5], second: f64, scale: Scale) -> Option<Self> {
        let [year, month, mday, hour, minute] = date;
        let fits = (1980..=2200).contains(&year)
            && (1..=12).contains(&month)
            && (1..=31).contains(&mday)
            && (0..=23).contains(&hour)
            && (0..=59).contains(&minute)
            && (0.0..61.0).contains(&second);
        if !fits {
            return None;
        }
        let next = day(year + month / 12, month % 12 + 1, 1);
        let today = day(year, month, mday);
        if today >= next {
            return None;
        }
        let seconds = (today - FIRST_DAY) * DAY + hour * 3600 + minute * 60;
        let ahead = match scale {
            Scale::Gps => 0,
            Scale::Beidou => 14,
            Scale::Utc => leap(today),
        };
        Some(Self::new(seconds + ahead, second))
    }

    /// Returns the seconds since the start of week 0.
    pub fn seconds(self) -> f64 {
        self.seconds as f64 + self.rest
    }

    /// Returns the seconds since another time.
    pub fn since(self, other: Self) -> f64 {
        (self.seconds - other.seconds) as f64 + (self.rest - other.rest)
    }

    /// Returns the time some seconds later.
    pub fn plus(self, seconds: f64) -> Self {
        Self::new(self.seconds, self.rest + seconds)
    }

    /// Returns the GPS week and the time of week in units of 100 ns, RINEX's resolution.
    pub fn ticks(self) -> (i64, i64) {
        let ticks = self.seconds * 10_000_000 + (self.rest * 1e7).round() as i64;
        let week = WEEK * 10_000_000;
        (ticks.div_euclid(week), ticks.rem_euclid(week))
    }

    /// Returns the GPS week.
    pub fn week(self) -> i64 {
        self.seconds.div_euclid(WEEK)
    }

    /// Returns the time of week in s.
    pub fn second_of_week(self) -> f64 {
        self.seconds.rem_euclid(WEEK) as f64 + self.rest
    }

    /// Moves the time by whole weeks to be nearest to another: week numbers in navigation files
    /// may have rolled over.
    pub fn near(self, other: Self) -> Self {
        let weeks = (other.since(self) / WEEK as f64).round() as i64;
        Self::new(self.seconds + weeks * WEEK, self.rest)
    }
}

/// Returns GPS time minus UTC on a day, given as days since 1970-01-01.
fn leap(today: i64) -> i64 {
    let begun = |(year, month, _): &&(i64, i64, i64)| day(*year, *month, 1) <= today;
    LEAPS
        .iter()
        .rev()
        .find(begun)
        .map_or(0, |(_, _, ahead)| *ahead)
}

#[cfg(test)]
mod tests {
    use super::*;

    fn date(year: i64, month: i64, mday: i64, scale: Scale) -> Option<Moment> {
        Moment::of_date([year, month, mday, 0, 0], 0.0, scale)
    }

    #[test]
    fn weeks_begin_where_gps_time_says() {
        let first = date(1980, 1, 6, Scale::Gps).unwrap();
        assert_eq!(first.ticks(), (0, 0));
        // The recording of GEONET begins on a Saturday.
        let hour = date(2005, 4, 2, Scale::Gps).unwrap();
        assert_eq!(hour.ticks(), (1316, 518_400 * 10_000_000));
        // Ten-bit week numbers rolled over on these days.
        assert_eq!(date(1999, 8, 22, Scale::Gps).unwrap().ticks(), (1024, 0));
        assert_eq!(date(2019, 4, 7, Scale::Gps).unwrap().ticks(), (2048, 0));
    }

    #[test]
    fn other_clocks_are_behind() {
        let gps = date(2009, 4, 1, Scale::Gps).unwrap();
        assert_eq!(date(2009, 4, 1, Scale::Utc).unwrap().since(gps), 15.0);
        assert_eq!(date(2009, 4, 1, Scale::Beidou).unwrap().since(gps), 14.0);
        let day = |y, m, d| {
            let (utc, gps) = (date(y, m, d, Scale::Utc), date(y, m, d, Scale::Gps));
            utc.unwrap().since(gps.unwrap())
        };
        assert_eq!(day(2016, 12, 31), 17.0);
        assert_eq!(day(2017, 1, 1), 18.0);
        assert_eq!(day(1980, 2, 1), 0.0);
    }

    #[test]
    fn dates_that_are_none_are_told() {
        for (year, month, mday) in [(2005, 2, 29), (2005, 13, 1), (2005, 4, 31), (1900, 2, 28)] {
            assert!(date(year, month, mday, Scale::Gps).is_none());
        }
        assert!(date(2004, 2, 29, Scale::Gps).is_some());
        assert!(date(2000, 2, 29, Scale::Gps).is_some());
        assert!(date(2100, 2, 29, Scale::Gps).is_none());
        assert!(Moment::of_date([2005, 4, 2, 24, 0], 0.0, Scale::Gps).is_none());
    }

    #[test]
    fn differences_hold_over_a_weeks_end() {
        let a = Moment::of_date([2005, 4, 2, 23, 59], 59.5, Scale::Gps).unwrap();
        let b = a.plus(1.0);
        assert_eq!(b.ticks(), (1317, 5_000_000));
        assert_eq!(b.since(a), 1.0);
        assert_eq!(a.since(b), -1.0);
        let counted_by_ten_bits = Moment::of_week(1316 - 1024, 518_400.0);
        assert_eq!(
            counted_by_ten_bits.near(a).ticks(),
            (1316, 518_400 * 10_000_000)
        );
    }
}
