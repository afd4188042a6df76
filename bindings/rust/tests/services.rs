//! The services under the reference's names: known answers, and each number that a caller can meet.

mod common;

use common::{carriers, observations, text, AT};
use zaqnuti::differential::{
    build, Base, BaseEpoch, BaseRange, Corrections, SatelliteState, Signal,
};
use zaqnuti::forms::{directory_of, signals_of, Directory, Signals};
use zaqnuti::frames::north_east_down;
use zaqnuti::math::{self, Cholesky};
use zaqnuti::mileage::{predicted_error, Epoch, Mileage, Moved};
use zaqnuti::robust::{centre_scale, elevation_sigma, geometry, step, Clocks, Row};
use zaqnuti::smooth::{smooth, Anchor, Link};
use zaqnuti::time::{GpsTime, NANOS_PER_WEEK};
use zaqnuti::trip::{Drive, Report, Trip};
use zaqnuti::{differential, line, smooth as track, tdcp, wire, wls, Ecef, Refusal, Vec3, TEXT};

fn near(a: f64, b: f64, within: f64) -> bool {
    (a - b).abs() <= within
}

#[test]
fn refusals_have_document_01s_numbers() {
    assert_eq!(Refusal::ALL.len(), 21);
    for (i, &refusal) in Refusal::ALL.iter().enumerate() {
        assert_eq!(usize::from(refusal.number()), i + 1);
        assert_eq!(Refusal::of(refusal.number()), Some(refusal));
        assert!(refusal.to_string().ends_with(&format!("({})", i + 1)));
    }
    assert_eq!(Refusal::of(0), None);
    assert_eq!(Refusal::of(13), Some(Refusal::BadTime));
    assert_eq!(Refusal::of(22), None);
}

#[test]
fn a_fix() {
    let set = wls::Settings::default();
    let guess = Ecef::new(-2.70e6, -4.26e6, 3.88e6);
    let sky = observations(20);
    let found = wls::solve_full(&sky, guess, &set).unwrap();
    assert!(near(found.position.x, AT.x, 1e-3));
    assert!(near(found.position.y, AT.y, 1e-3));
    assert!(near(found.position.z, AT.z, 1e-3));
    assert_eq!(found.used, 20);
    assert!(found.chi < 1e-3 && found.pdop > 0.0);
    assert_eq!(wls::solve(&sky, guess, &set), Ok(found.position));
}

#[test]
fn a_fix_refuses() {
    let guess = AT;
    let why = |sky: &[wls::Observation], change: fn(&mut wls::Settings)| {
        let mut set = wls::Settings::default();
        change(&mut set);
        let whole = wls::solve_full(sky, guess, &set).unwrap_err();
        assert_eq!(wls::solve(sky, guess, &set), Err(whole));
        whole
    };
    assert!(wls::solve(&observations(64), guess, &wls::Settings::default()).is_ok());
    assert_eq!(why(&observations(65), |_| {}), Refusal::TooMany);
    assert_eq!(
        why(&observations(1000), |s| s.iterations = 0),
        Refusal::TooMany
    );
    assert_eq!(
        why(&observations(64), |s| s.iterations = 0),
        Refusal::SettingOutOfRange
    );
    assert_eq!(
        why(&observations(64), |s| s.iterations = usize::MAX),
        Refusal::SettingOutOfRange
    );
    assert_eq!(
        why(&observations(64), |s| s.huber = f64::NAN),
        Refusal::SettingOutOfRange
    );
    let mut sky = observations(20);
    sky[7].elevation = 90.5;
    assert_eq!(why(&sky, |_| {}), Refusal::RecordOutOfRange);
    assert_eq!(why(&observations(9), |_| {}), Refusal::TooFewRows);
    assert_eq!(why(&[], |_| {}), Refusal::TooFewRows);
    let mut sky = observations(40);
    sky[6].constellation = 0;
    assert_eq!(why(&sky, |_| {}), Refusal::TooManySlots);
    let mut sky = observations(12);
    let first = sky[0].satellite;
    sky.iter_mut().for_each(|o| {
        o.satellite = first;
        o.constellation = 1;
    });
    assert_eq!(why(&sky, |_| {}), Refusal::FitFailed);
}

#[test]
fn a_displacement() {
    let set = tdcp::Settings {
        screen: 1e3,
        ..tdcp::Settings::default()
    };
    let moved = Ecef::new(AT.x + 3.0, AT.y - 2.0, AT.z + 0.5);
    let (before, mut after) = (carriers(20, AT), carriers(20, moved));
    after[3].adr += 1e5;
    let d = tdcp::delta_position(&before, &after, 1.0, AT, &set).unwrap();
    assert!(
        near(d.delta.x, 3.0, 1e-3) && near(d.delta.y, -2.0, 1e-3) && near(d.delta.z, 0.5, 1e-3)
    );
    assert_eq!((d.used, d.screened), (19, 1));
    let none = tdcp::Settings {
        iterations: 0,
        agreement: f64::NAN,
        ..set
    };
    let d = tdcp::delta_position(&before, &after, 1.0, AT, &none).unwrap();
    assert_eq!(d.delta, Vec3::default());
}

#[test]
fn a_displacement_refuses() {
    let set = tdcp::Settings::default();
    let why = |p: &[tdcp::Carrier], c: &[tdcp::Carrier], dt, set: &tdcp::Settings| {
        tdcp::delta_position(p, c, dt, AT, set).unwrap_err()
    };
    let (few, all, many) = (carriers(5, AT), carriers(64, AT), carriers(65, AT));
    assert_eq!(why(&many, &all, 1.0, &set), Refusal::TooMany);
    assert_eq!(why(&all, &many, 1.0, &set), Refusal::TooMany);
    let bad = tdcp::Settings {
        mask: f64::INFINITY,
        ..set
    };
    assert_eq!(why(&all, &all, 0.0, &bad), Refusal::SettingOutOfRange);
    let mut odd = all.clone();
    odd[9].rate = f64::NAN;
    assert_eq!(why(&odd, &all, 0.0, &set), Refusal::RecordOutOfRange);
    assert_eq!(why(&all, &all, 0.0, &set), Refusal::BadInterval);
    assert_eq!(why(&all, &all, 604_800.5, &set), Refusal::BadInterval);
    assert_eq!(why(&few, &all, 1.0, &set), Refusal::TooFewPairs);
    assert_eq!(why(&carriers(9, AT), &all, 1.0, &set), Refusal::TooFewRows);
    let mut seven = all.clone();
    seven[6].constellation = 0;
    assert_eq!(why(&seven, &seven, 1.0, &set), Refusal::TooManySlots);
}

#[test]
fn a_satellite_on_the_receiver() {
    let here = AT.coordinates();
    assert_eq!(geometry(here, AT), Err(Refusal::OnReceiver));
    let sky = observations(20);
    let on = |mut sky: Vec<wls::Observation>, mask| {
        sky[3].satellite = here;
        sky[3].elevation = 5.0;
        let set = wls::Settings {
            mask,
            ..wls::Settings::default()
        };
        wls::solve(&sky, AT, &set).err()
    };
    assert_eq!(on(sky.clone(), 5.0), Some(Refusal::OnReceiver));
    assert_eq!(on(sky, 6.0), None);
    let moved = |then: usize, now: usize| {
        let (mut previous, mut current) = (carriers(20, AT), carriers(20, AT));
        if let Some(c) = previous.get_mut(then) {
            c.satellite = here;
        }
        if let Some(c) = current.get_mut(now) {
            c.satellite = here;
        }
        let set = tdcp::Settings::default();
        tdcp::delta_position(&previous, &current, 1.0, AT, &set).err()
    };
    assert_eq!(moved(20, 20), None);
    assert_eq!(moved(3, 20), Some(Refusal::OnReceiver));
    assert_eq!(moved(20, 3), Some(Refusal::OnReceiver));
}

#[test]
fn a_city_displacement() {
    let set = tdcp::Settings {
        screen: 1e3,
        ..tdcp::Settings::default()
    };
    let moved = Ecef::new(AT.x + 3.0, AT.y - 2.0, AT.z + 0.5);
    let sky = |at| {
        let mut all = carriers(30, at);
        for (k, c) in all.iter_mut().enumerate() {
            (c.constellation, c.band) = match k % 5 {
                0..=2 => (1, 1575),
                3 => (6, 1575),
                _ => (3, 1602),
            };
        }
        all
    };
    let certified = |all: Vec<tdcp::Carrier>| -> Vec<_> {
        all.into_iter().filter(|c| c.band == 1575).collect()
    };
    let (before, after) = (sky(AT), sky(moved));
    let city = tdcp::city_displacement(&before, &after, 1.0, 1575, AT, &set).unwrap();
    let (p, c) = (certified(before.clone()), certified(after.clone()));
    assert_eq!(city, tdcp::delta_position(&p, &c, 1.0, AT, &set).unwrap());
    assert_eq!(city.used + city.screened, 24);
    let why = |p: &[tdcp::Carrier], c: &[tdcp::Carrier], band| {
        tdcp::city_displacement(p, c, 1.0, band, AT, &set).unwrap_err()
    };
    assert_eq!(why(&before, &after, 1176), Refusal::TooFewPairs);
    // One of the two is there, and the screen drops it.
    let mut gps = after.clone();
    for (k, c) in gps.iter_mut().enumerate() {
        if c.constellation == 6 {
            c.adr += 1e5 * (k + 1) as f64;
        }
    }
    assert_eq!(why(&before, &gps, 1575), Refusal::NotCertified);
    // A carrier that is taken out is tested all the same.
    let mut odd = after;
    odd[4].rate = f64::NAN;
    assert_eq!(why(&before, &odd, 1575), Refusal::RecordOutOfRange);
}

#[test]
fn a_rated_displacement() {
    let set = tdcp::Settings {
        screen: 1e3,
        ..tdcp::Settings::default()
    };
    let rated = |p: &[tdcp::Carrier], c: &[tdcp::Carrier], set: &tdcp::Settings| {
        tdcp::delta_position_rated(p, c, 1.0, AT, set)
    };
    let moved = Ecef::new(AT.x + 3.0, AT.y - 2.0, AT.z + 0.5);
    let (before, after) = (carriers(30, AT), carriers(30, moved));
    let well = rated(&before, &after, &set).unwrap();
    let plain = tdcp::delta_position(&before, &after, 1.0, AT, &set).unwrap();
    assert_eq!(well.moved, plain);
    assert!(well.chi < 1.0 && well.pdop > 0.0 && well.pdop < 5.0);
    assert_eq!(well.predicted_error(), well.pdop * 0.01);
    assert_eq!(Moved::from(well).displacement, plain.delta);
    // A slip raises chi and leaves the dilution as it is.
    let mut slipped = after.clone();
    slipped[7].adr += 0.45;
    let slip = rated(&before, &slipped, &set).unwrap();
    assert!(slip.chi > 1.0 && slip.pdop == well.pdop);
    assert_eq!(slip.predicted_error(), slip.pdop * slip.chi * 0.01);
    // Where the displacement is refused, so is the rated one, by the same.
    let few = rated(&before[..5], &after, &set).unwrap_err();
    assert_eq!(few, Refusal::TooFewPairs);
    // Six equal pairs have no dilution, with zero rounds too.
    let six = vec![before[0]; 6];
    let none = tdcp::Settings {
        iterations: 0,
        ..set
    };
    assert_eq!(
        tdcp::delta_position(&six, &six, 1.0, AT, &none)
            .unwrap()
            .used,
        6
    );
    assert_eq!(rated(&six, &six, &none).unwrap_err(), Refusal::FitFailed);
    // A sigma of zero leaves no chi, where no round asks for it.
    let sigma = tdcp::Settings {
        sigma_a: 0.0,
        sigma_b: 0.0,
        ..none
    };
    assert!(tdcp::delta_position(&before, &after, 1.0, AT, &sigma).is_ok());
    assert_eq!(
        rated(&before, &after, &sigma).unwrap_err(),
        Refusal::QualityNotFinite
    );
}

#[test]
fn a_rated_city_displacement() {
    let set = tdcp::Settings {
        screen: 1e3,
        ..tdcp::Settings::default()
    };
    let moved = Ecef::new(AT.x + 3.0, AT.y - 2.0, AT.z + 0.5);
    let sky = |at| {
        let mut all = carriers(30, at);
        for (k, c) in all.iter_mut().enumerate() {
            (c.constellation, c.band) = match k % 5 {
                0..=2 => (1, 1575),
                3 => (6, 1575),
                _ => (3, 1602),
            };
        }
        all
    };
    let (before, after) = (sky(AT), sky(moved));
    let rated = tdcp::city_displacement_rated(&before, &after, 1.0, 1575, AT, &set).unwrap();
    let certified = |all: &[tdcp::Carrier]| -> Vec<_> {
        all.iter().copied().filter(|c| c.band == 1575).collect()
    };
    let (p, c) = (certified(&before), certified(&after));
    assert_eq!(
        rated,
        tdcp::delta_position_rated(&p, &c, 1.0, AT, &set).unwrap()
    );
    assert_eq!(
        rated.moved,
        tdcp::city_displacement(&before, &after, 1.0, 1575, AT, &set).unwrap()
    );
    let why = tdcp::city_displacement_rated(&before, &after, 1.0, 1176, AT, &set);
    assert_eq!(why.unwrap_err(), Refusal::TooFewPairs);
    let gps = |all: &[tdcp::Carrier]| -> Vec<_> {
        all.iter()
            .copied()
            .filter(|c| c.constellation == 1)
            .collect()
    };
    let why = tdcp::city_displacement_rated(&gps(&before), &gps(&after), 1.0, 1575, AT, &set);
    assert_eq!(why.unwrap_err(), Refusal::NotCertified);
}

#[test]
fn times() {
    let at = |week, tow| GpsTime::new(week, tow).unwrap();
    let (before, now) = (at(1316, 604_799.5), at(1317, 0.5));
    assert_eq!(before.nanos(), 1317 * NANOS_PER_WEEK - 500_000_000);
    assert_eq!(now.nanos_since(before), Ok(1_000_000_000));
    assert_eq!(before.nanos_since(now), Ok(-1_000_000_000));
    assert_eq!(now.seconds_since(before), Ok(1.0));
    assert_eq!(GpsTime::new(0, -0.0), Ok(GpsTime::ZERO));
    // The last time of the last week is rounded to the start of a week that is none.
    let last = at(15_000, 604_800f64.next_down());
    assert_eq!(last, GpsTime::from_nanos(15_001 * NANOS_PER_WEEK));
    assert_eq!(
        last.nanos_since(GpsTime::ZERO),
        Ok(9_072_604_800_000_000_000)
    );
    let bad = Err(Refusal::BadTime);
    assert_eq!(GpsTime::new(15_001, 0.0), bad);
    for tow in [
        604_800.0,
        -5e-324,
        f64::NAN,
        f64::INFINITY,
        f64::NEG_INFINITY,
    ] {
        assert_eq!(GpsTime::new(0, tow), bad, "{tow}");
    }
    let past = GpsTime::from_nanos(last.nanos() + 1);
    assert_eq!(past.nanos_since(last), Err(Refusal::BadTime));
    assert_eq!(last.seconds_since(past), Err(Refusal::BadTime));
}

#[test]
fn directions() {
    let along = |x, y, z| {
        let ned = north_east_down(Ecef::new(x, y, z), Vec3::new(1.0, 2.0, 3.0))?;
        Ok([ned.n, ned.e, ned.d])
    };
    let (a, b) = (6_378_137.0, 6_356_752.314_245_179);
    assert_eq!(along(a, 0.0, 0.0), Ok([3.0, 2.0, -1.0]));
    assert_eq!(along(0.0, a, 0.0), Ok([3.0, -1.0, -2.0]));
    // On the axis the longitude is 0.
    assert_eq!(along(0.0, 0.0, b), Ok([-1.0, 2.0, -3.0]));
    assert_eq!(along(0.0, -9e-10, -b), Ok([1.0, 2.0, 3.0]));
    // In Berlin its length is unchanged.
    let [n, e, d] = along(3_782_970.0, 902_155.0, 5_038_376.0).unwrap();
    assert!(near(n * n + e * e + d * d, 14.0, 1e-12));
    let none = Err(Refusal::NotTurned);
    assert_eq!(along(1e9f64.next_up(), 0.0, 0.0), none);
    assert_eq!(along(f64::NAN, 0.0, 0.0), none);
    assert_eq!(along(42_697.672_707_179_97, 0.0, 0.0), none);
    let far = north_east_down(AT, Vec3::new(0.0, f64::INFINITY, 0.0));
    assert_eq!(far.unwrap_err(), Refusal::NotTurned);
}

#[test]
fn a_displacement_between_times() {
    let set = tdcp::Settings {
        screen: 1e3,
        ..tdcp::Settings::default()
    };
    let moved = Ecef::new(AT.x + 3.0, AT.y - 2.0, AT.z + 0.5);
    let (p, c) = (carriers(20, AT), carriers(20, moved));
    let between = |p: &[tdcp::Carrier], before, now, set: &tdcp::Settings| {
        tdcp::delta_position_between(p, &c, before, now, AT, set)
    };
    let (before, now) = (
        GpsTime::new(1316, 604_799.75).unwrap(),
        GpsTime::new(1317, 0.75).unwrap(),
    );
    let d = between(&p, before, now, &set).unwrap();
    assert_eq!(Ok(d), tdcp::delta_position(&p, &c, 1.0, AT, &set));
    // 13 comes after 4 and before 5.
    let past = GpsTime::from_nanos(u64::MAX);
    let odd = tdcp::Settings {
        huber: f64::NAN,
        ..set
    };
    let mut damaged = p.clone();
    damaged[2].elevation = 91.0;
    let many = carriers(65, AT);
    let why = |p: &[tdcp::Carrier], before, now, set: &tdcp::Settings| {
        between(p, before, now, set).unwrap_err()
    };
    assert_eq!(why(&many, past, past, &odd), Refusal::TooMany);
    assert_eq!(why(&damaged, past, past, &odd), Refusal::SettingOutOfRange);
    assert_eq!(why(&damaged, past, past, &set), Refusal::RecordOutOfRange);
    assert_eq!(why(&p[..3], past, past, &set), Refusal::BadTime);
    assert_eq!(why(&p[..3], before, past, &set), Refusal::BadTime);
    assert_eq!(why(&p[..3], now, before, &set), Refusal::BadInterval);
    assert_eq!(why(&p[..3], now, now, &set), Refusal::BadInterval);
    assert_eq!(why(&p[..3], before, now, &set), Refusal::TooFewPairs);
}

#[test]
fn a_trip() {
    let mut trip = Trip::start(1000).unwrap();
    assert_eq!(trip.words(), [1000, 0, 0, 0, 0, 0]);
    assert_eq!(trip.report(), Ok(Report::default()));
    // A difference of 0 is reached by the first epoch.
    trip.add(Vec3::new(3.0, 4.0, 0.0), 5).unwrap();
    assert_eq!(trip.words(), [1000, 1, 5000, 5, 0, 1]);
    trip.add(Vec3::new(0.0, 0.0, 1.0), 3).unwrap();
    trip.add(Vec3::new(2.0, 0.0, 0.0), 0).unwrap();
    trip.add(Vec3::new(0.0, -2.0, 0.0), 0).unwrap();
    // 2,000 mm are reached by the second epoch and again by the fourth.
    assert_eq!(trip.words(), [1000, 4, 10_000, 8, 2000, 2]);
    let report = trip.report().unwrap();
    assert_eq!([report.carrier, report.odometer], [10_000, 8000]);
    assert_eq!([report.greatest, report.reached], [2000, 2]);
    assert_eq!(trip.fuel(850), Ok(85_000));
    // The double below 0.001 has no whole millimetre.
    let mut short = Trip::start(1).unwrap();
    short
        .add(Vec3::new(0.001f64.next_down(), 0.0, 0.0), 0)
        .unwrap();
    assert_eq!(short.words()[2], 0);
    assert_eq!(short.fuel(1), Err(Refusal::NoDistance));
    short.add(Vec3::new(0.001, 0.0, 0.0), 0).unwrap();
    assert_eq!(short.words()[2], 1);
    assert_eq!(short.fuel(u32::MAX), Ok(4_294_967_295_000_000));
}

#[test]
fn a_trip_refuses() {
    let bad = Err(Refusal::BadTrip);
    assert_eq!(Trip::start(0), Err(Refusal::BadTrip));
    let step = Vec3::new(1.0, 0.0, 0.0);
    let mut full = Trip::from_words([1, 65_535, 65_535_000_000, 4_294_836_225, 9, u64::MAX]);
    let kept = full;
    assert_eq!(full.add(step, 1), bad);
    assert_eq!(full, kept);
    assert_eq!(full.report().unwrap().odometer, 4_294_836_225_000_000);
    // Nothing is asked of the fifth and sixth words.
    assert_eq!(full.report().unwrap().reached, u64::MAX);
    let mut trip = Trip::start(65_535).unwrap();
    for x in [
        f64::NAN,
        f64::INFINITY,
        -f64::INFINITY,
        1000f64.next_up(),
        1e200,
    ] {
        assert_eq!(trip.add(Vec3::new(0.0, x, 0.0), 65_535), bad, "{x}");
    }
    assert_eq!(trip.words(), [65_535, 0, 0, 0, 0, 0]);
    trip.add(Vec3::new(0.0, 0.0, -1000.0), 65_535).unwrap();
    assert_eq!(trip.words(), [65_535, 1, 1_000_000, 65_535, 0, 1]);
    // One above each limit; 17 comes after 16.
    for words in [
        [0, 1, 0, 0, 0, 1],
        [65_536, 1, 0, 0, 0, 1],
        [1, 65_536, 0, 0, 0, 1],
        [1, 1, 1_000_001, 0, 0, 1],
        [1, 1, 0, 65_536, 0, 1],
        [u64::MAX; 6],
    ] {
        let mut trip = Trip::from_words(words);
        assert_eq!(trip.add(step, 1), bad, "{words:?}");
        assert_eq!(trip.words(), words);
        assert_eq!(trip.report(), Err(Refusal::BadTrip), "{words:?}");
        assert_eq!(trip.fuel(1), Err(Refusal::BadTrip), "{words:?}");
    }
}

#[test]
fn a_mileage() {
    let moved = |x: f64, pdop: f64| {
        Ok(Moved {
            displacement: Vec3::new(x, 0.0, 0.0),
            chi: 1.0,
            pdop,
        })
    };
    let mut mileage = Mileage::start(0.2).unwrap();
    let bits = 0.2f64.to_bits();
    assert_eq!(mileage.words(), [bits, 0, 0, 0, 0, 0, 0, 0, 0, 0]);
    assert_eq!(mileage.distance(), Err(Refusal::NoDistance));
    // It stands, until the next epoch has a pulse.
    let epoch = |moved, pulses| Epoch { moved, pulses };
    mileage.add(&epoch(moved(0.005, 2.0), 0)).unwrap();
    assert_eq!(mileage.words(), [bits, 1, 0, 0, 0, 0, 0, 0, 0, 5]);
    assert_eq!(mileage.report().unwrap().standing, 5);
    mileage.add(&epoch(moved(10.0, 2.0), 40)).unwrap();
    assert_eq!(mileage.words(), [bits, 2, 0, 0, 10_005, 40, 0, 40, 1, 0]);
    // A refused epoch keeps its pulses, and so does one at the limit of 0.2 m.
    let rest = [
        epoch(Err(Refusal::TooFewPairs), 30),
        epoch(moved(99.0, 20.0), 10),
        epoch(moved(0.001, 2.0), 0),
        epoch(moved(0.001, 2.0), 0),
        epoch(moved(0.001, 2.0), 0),
    ];
    assert_eq!(mileage.extend(rest), Ok(5));
    let report = mileage.report().unwrap();
    assert_eq!([report.epochs, report.refused, report.aside], [7, 1, 1]);
    assert_eq!([report.counted, report.covered], [10_006, 40]);
    assert_eq!([report.standing, report.pulses], [2, 80]);
    assert_eq!(mileage.distance(), Ok(20_012));
    assert_eq!(mileage.fuel(1), Ok(49));
    assert_eq!(predicted_error(1.0, 20.0), 0.2);
    assert_eq!(predicted_error(3.0, 2.0), 2.0 * 3.0 * 0.01);
    assert!(predicted_error(-1.0, 2.0).is_nan() && predicted_error(1.0, f64::NAN).is_nan());
}

#[test]
fn a_mileage_refuses() {
    for limit in [
        f64::NAN,
        f64::INFINITY,
        1e9f64.next_up(),
        (-1e9f64).next_down(),
    ] {
        assert_eq!(
            Mileage::start(limit),
            Err(Refusal::SettingOutOfRange),
            "{limit}"
        );
    }
    let bits = 1e9f64.to_bits();
    let moved = Ok(Moved {
        displacement: Vec3::new(1000f64.next_up(), 0.0, 0.0),
        chi: 1.0,
        pdop: 1.0,
    });
    let mut mileage = Mileage::start(1e9).unwrap();
    assert_eq!(
        mileage.add(&Epoch { moved, pulses: 1 }),
        Err(Refusal::BadTrip)
    );
    assert_eq!(mileage.words(), [bits, 0, 0, 0, 0, 0, 0, 0, 0, 0]);
    // One above each bound; 17 comes after 16.
    let epoch = Epoch {
        moved: Err(Refusal::FitFailed),
        pulses: 1,
    };
    for words in [
        [bits + 1, 1, 0, 0, 0, 0, 0, 0, 0, 0],
        [bits, 65_536, 0, 0, 0, 0, 0, 0, 0, 0],
        [bits, 65_535, 0, 0, 0, 0, 0, 0, 0, 0],
        [bits, 2, 2, 1, 0, 0, 0, 0, 0, 0],
        [bits, 2, u64::MAX, 2, 0, 0, 0, 0, 0, 0],
        [bits, 2, 0, 0, 1_000_000, 0, 1_000_000, 0, 0, 1],
        [bits, 2, 0, 0, 0, 0, 0, 131_071, 0, 0],
        [bits, 2, 0, 0, 0, 5, 0, 4, 0, 0],
        [bits, 2, 0, 0, 0, 0, 0, 0, 2, 0],
        [u64::MAX; 10],
    ] {
        let mut mileage = Mileage::from_words(words);
        assert_eq!(mileage.add(&epoch), Err(Refusal::BadTrip), "{words:?}");
        assert_eq!(mileage.words(), words);
        if words[1] != 65_535 {
            assert_eq!(mileage.report(), Err(Refusal::BadTrip), "{words:?}");
            assert_eq!(mileage.distance(), Err(Refusal::BadTrip), "{words:?}");
            assert_eq!(mileage.fuel(1), Err(Refusal::BadTrip), "{words:?}");
        }
    }
    // 65,535,000,000 mm with one pulse counted of 4,294,836,225, and the longest distance that 63 bits hold.
    let far = Mileage::from_words([
        bits,
        65_535,
        0,
        0,
        65_535_000_000,
        1,
        0,
        4_294_836_225,
        1,
        0,
    ]);
    assert_eq!(far.distance(), Err(Refusal::BadTrip));
    assert_eq!(far.fuel(1), Err(Refusal::BadTrip));
    let none = Mileage::from_words([bits, 2, 0, 0, 0, 3, 0, 3, 1, 0]);
    assert_eq!(none.distance(), Ok(0));
    assert_eq!(none.fuel(1), Err(Refusal::NoDistance));
}

#[test]
fn carrier_records() {
    let mut epoch = carriers(64, AT);
    // NaNs of either sign, quiet and signalling, and the ends of each field.
    epoch[0].adr = f64::from_bits(0x7FF0_0000_0000_0001);
    epoch[1].satellite =
        [0xFFF8_0000_0000_0002, 0xFFF0_0000_0000_0003, 1 << 63].map(f64::from_bits);
    epoch[2].rate = f64::from_bits(u64::MAX);
    (epoch[3].constellation, epoch[3].svid) = (u8::MAX, u16::MAX);
    (epoch[4].band, epoch[4].state) = (u32::MAX, i32::MIN);
    for n in 0..=64 {
        let sent = wire::write(&epoch[..n]).unwrap();
        assert_eq!(sent.len(), n * wire::RECORD);
        let received = wire::read(&sent).unwrap();
        assert_eq!(received.len(), n);
        assert_eq!(wire::write(&received).unwrap(), sent);
        let bits = |c: &tdcp::Carrier| [c.adr, c.satellite[0], c.rate].map(f64::to_bits);
        assert!(received.iter().map(bits).eq(epoch[..n].iter().map(bits)));
    }
    let many = carriers(65, AT);
    assert_eq!(wire::write(&many), Err(Refusal::TooMany));
    assert_eq!(wire::read(&[0; 65 * 59]), Err(Refusal::TooMany));
    assert_eq!(wire::read(&[0; 65 * 59 + 1]), Err(Refusal::BrokenRecords));
    assert_eq!(wire::read(&[0; 58]), Err(Refusal::BrokenRecords));
}

#[test]
fn a_displacement_of_records() {
    let set = tdcp::Settings {
        screen: 1e3,
        ..tdcp::Settings::default()
    };
    let moved = Ecef::new(AT.x + 3.0, AT.y - 2.0, AT.z + 0.5);
    let (p, c) = (carriers(20, AT), carriers(20, moved));
    let [before, now] = [&p, &c].map(|e| wire::write(e).unwrap());
    let of = |p: &[u8], c: &[u8], dt, set| wire::delta_position(p, c, dt, AT, set);
    let d = of(&before, &now, 1.0, &set).unwrap();
    assert_eq!(Ok(d), tdcp::delta_position(&p, &c, 1.0, AT, &set));
    // 21 of either slice comes before 2, and 2 before 3.
    let odd = tdcp::Settings {
        iterations: usize::MAX,
        ..set
    };
    let many = vec![0; 65 * wire::RECORD];
    let why = |p: &[u8], c: &[u8], dt, set| of(p, c, dt, set).unwrap_err();
    assert_eq!(why(&many, &now[1..], 0.0, &odd), Refusal::BrokenRecords);
    assert_eq!(why(&before[1..], &many, 0.0, &odd), Refusal::BrokenRecords);
    assert_eq!(why(&before, &many, 0.0, &odd), Refusal::TooMany);
    assert_eq!(why(&before, &now, 0.0, &odd), Refusal::SettingOutOfRange);
    assert_eq!(why(&before, &now, 0.0, &set), Refusal::BadInterval);
    assert_eq!(why(&[], &now, 1.0, &set), Refusal::TooFewPairs);
}

#[test]
fn settings_during_a_trip() {
    let morning = tdcp::Settings {
        screen: 1e3,
        ..tdcp::Settings::default()
    };
    let noon = tdcp::Settings {
        mask: 40.0,
        iterations: 7,
        ..morning
    };
    let moved = Ecef::new(AT.x + 3.0, AT.y - 2.0, AT.z + 0.5);
    let (p, c) = (carriers(40, AT), carriers(40, moved));
    let mut drive = Drive::begin(&morning, 1000).unwrap();
    assert_eq!(drive.in_force(), morning);
    let before = drive.travel(&p, &c, 1.0, AT, 4).unwrap();
    assert_eq!(Ok(before), tdcp::delta_position(&p, &c, 1.0, AT, &morning));
    drive.change(&noon).unwrap();
    assert_eq!(drive.in_force(), noon);
    let after = drive.travel(&p, &c, 1.0, AT, 3).unwrap();
    assert_eq!(Ok(after), tdcp::delta_position(&p, &c, 1.0, AT, &noon));
    assert!(after.used < before.used);
    // The trip is that of the two displacements.
    let mut plain = Trip::start(1000).unwrap();
    plain.add(before.delta, 4).unwrap();
    plain.add(after.delta, 3).unwrap();
    assert_eq!(drive.trip(), plain);
    // What is refused leaves trip and settings.
    let kept = drive;
    let odd = tdcp::Settings {
        huber: f64::INFINITY,
        ..noon
    };
    let long = tdcp::Settings {
        iterations: 51,
        ..noon
    };
    for set in [odd, long] {
        assert_eq!(drive.change(&set), Err(Refusal::SettingOutOfRange));
        assert_eq!(Drive::begin(&set, 0), Err(Refusal::SettingOutOfRange));
    }
    assert_eq!(Drive::begin(&noon, 0), Err(Refusal::BadTrip));
    let few = drive.travel(&p[..5], &c, 1.0, AT, 9);
    assert_eq!(few, Err(Refusal::TooFewPairs));
    assert_eq!(drive, kept);
    // The numbers of settings and displacement come before 16; those in force are tested in a displacement only.
    let bad = Trip::from_words([0; 6]);
    let mut broken = Drive::from_parts(bad, odd);
    let why = broken.travel(&p, &c, 1.0, AT, 9);
    assert_eq!(why, Err(Refusal::SettingOutOfRange));
    assert_eq!(broken.change(&odd), Err(Refusal::SettingOutOfRange));
    assert_eq!(broken.change(&noon), Err(Refusal::BadTrip));
    let mut broken = Drive::from_parts(bad, noon);
    let why = broken.travel(&p, &c, f64::NAN, AT, 9);
    assert_eq!(why, Err(Refusal::BadInterval));
    let why = broken.travel(&p, &c, 1.0, AT, 9);
    assert_eq!(why, Err(Refusal::BadTrip));
    assert_eq!(broken, Drive::from_parts(bad, noon));
    let mut full = Drive::from_parts(Trip::from_words([1, 65_535, 0, 0, 0, 1]), odd);
    full.change(&noon).unwrap();
    let why = full.travel(&p, &c, 1.0, AT, 9);
    assert_eq!(why, Err(Refusal::BadTrip));
}

/// The example of docs/SCOPE.md, without its LF.
const EXAMPLE: &str = "S,3FF0000000000000,0000000000000000,0000000000000000,0000000000000000,3FE0000000000000,3FF0000000000000,0000000000000000,3FF8000000000000,4024000000000000,4";

#[test]
fn a_text() {
    let set = tdcp::Settings::default();
    let moved = Ecef::new(AT.x + 0.1, AT.y - 0.2, AT.z + 0.05);
    let (before, after) = (carriers(20, AT), carriers(20, moved));
    let d = tdcp::delta_position(&before, &after, 1.0, AT, &set).unwrap();
    let [x, y, z] = [d.delta.x, d.delta.y, d.delta.z].map(f64::to_bits);
    let expected = format!("A,{},{},{x:016X},{y:016X},{z:016X}\n", d.used, d.screened);
    let found = line::answer(&text(&before, &after, &set));
    assert_eq!(found.as_bytes(), expected.as_bytes());

    let drive = include_bytes!("../../../examples/drive/01.txt");
    let found = line::answer(drive);
    let found = std::str::from_utf8(found.as_bytes()).unwrap();
    let moved = found.strip_prefix("A,13,0,").unwrap().trim_end().split(',');
    let metres = moved.map(|f| f64::from_bits(u64::from_str_radix(f, 16).unwrap()));
    let truth = include_str!("../../../examples/drive/truth");
    let truth = truth.lines().next().unwrap().strip_prefix("01 ").unwrap();
    let truth = truth.split(' ').map(|f| f.parse::<f64>().unwrap());
    assert!(metres.zip(truth).filter(|&(a, b)| near(a, b, 0.05)).count() == 3);
}

#[test]
fn a_text_refused() {
    let why = |text: &[u8]| line::answer(text).as_bytes().to_vec();
    let example = format!("{EXAMPLE}\n");
    assert_eq!(why(example.as_bytes()), b"R,7\n");
    assert_eq!(why(EXAMPLE.as_bytes()), b"R,1\n");
    assert_eq!(why(b""), b"R,1\n");
    assert_eq!(why(&[b'\n'; TEXT + 1]), b"R,1\n");
    let set = tdcp::Settings::default();
    let (all, many) = (carriers(64, AT), carriers(65, AT));
    assert_eq!(why(&text(&all, &many, &set)), b"R,2\n");
}

/// A base epoch whose range to satellite 0 is `error` metres too long, and its states.
fn epoch(tow: f64, error: f64, n: usize) -> (BaseEpoch, Vec<SatelliteState>) {
    let (mut ranges, mut states) = (Vec::new(), Vec::new());
    for (i, o) in observations(n).iter().enumerate() {
        let (constellation, svid, band) = (1, o.svid, 1);
        ranges.push(BaseRange {
            constellation,
            svid,
            band,
            pseudorange: geometry(o.satellite, AT).expect("it is seen").1
                + 250.0
                + if i == 0 { error } else { 0.0 },
        });
        states.push(SatelliteState {
            constellation,
            svid,
            band,
            position: o.satellite,
            velocity: [0.0; 3],
            clock: 0.0,
            modelled: 0.0,
        });
    }
    (BaseEpoch { tow, ranges }, states)
}

#[test]
fn corrections() {
    let set = differential::Settings::default();
    let place = AT.coordinates();
    let (first, states) = epoch(0.0, 2.0, 8);
    let (second, _) = epoch(30.0, 4.0, 8);
    let base = Base {
        position: place,
        epochs: vec![first, second],
    };
    let c = build(&base, place, |_| Some(states.clone()), &set).unwrap();
    assert_eq!((c.samples(), c.satellites()), (16, 8));
    assert!(near(c.at(1, 0, 1, 15.0).unwrap(), 3.0, 1e-6));
    assert!(near(c.at(1, 0, 1, 0.0).unwrap(), 2.0, 1e-6));
    assert_eq!(c.at(1, 0, 1, 31.0), Err(Refusal::NoCorrection));
    assert_eq!(c.at(1, 0, 1, f64::NAN), Err(Refusal::NoCorrection));
    assert_eq!(c.at(1, 0, 1, 2e9), Err(Refusal::RecordOutOfRange));
    let ask = |svid, tow| Signal {
        constellation: 1,
        svid,
        band: 1,
        tow,
    };
    let asked = [
        ask(0, 15.0),
        ask(99, 15.0),
        ask(7, 30.0),
        ask(0, 2e9),
        ask(0, f64::NAN),
    ];
    let each = c.at_each(&asked).unwrap();
    for (s, x) in asked.iter().zip(&each) {
        assert_eq!(*x, c.at(s.constellation, s.svid, s.band, s.tow));
    }
    assert_eq!(each[1], Err(Refusal::NoCorrection));
    assert_eq!(each[3], Err(Refusal::RecordOutOfRange));
    assert_eq!(c.at_each(&[]), Ok(Vec::new()));
    let none = build(&base, place, |_| None, &set).unwrap();
    assert_eq!(none.samples(), 0);
}

#[test]
fn corrections_forget() {
    let set = differential::Settings::default();
    let place = AT.coordinates();
    let mut c = Corrections::with_capacity(24, &set);
    let (_, states) = epoch(0.0, 0.0, 8);
    let add = |c: &mut Corrections, tow: f64| {
        c.add(&epoch(tow, tow / 30.0, 8).0, Some(&states), place, place)
    };
    for tow in [0.0, 30.0, 60.0] {
        assert_eq!(add(&mut c, tow), Ok(()));
    }
    assert_eq!(add(&mut c, 90.0), Err(Refusal::TableFull));
    let before = [45.0, 60.0, 50.5].map(|t| c.at(1, 0, 1, t));
    assert_eq!(c.forget(f64::NAN), Err(Refusal::BadDropTime));
    assert_eq!(c.forget(f64::INFINITY), Err(Refusal::BadDropTime));
    assert_eq!(c.samples(), 24);
    assert_eq!(c.forget(45.0), Ok(()));
    assert_eq!((c.samples(), c.satellites()), (16, 8));
    assert_eq!([45.0, 60.0, 50.5].map(|t| c.at(1, 0, 1, t)), before);
    assert_eq!(c.at(1, 0, 1, 15.0), Err(Refusal::NoCorrection));
    assert_eq!(add(&mut c, 90.0), Ok(()));
    assert_eq!([45.0, 60.0, 50.5].map(|t| c.at(1, 0, 1, t)), before);
    assert_eq!(add(&mut c, 120.0), Err(Refusal::TableFull));
    assert_eq!(c.forget(1e300), Ok(()));
    assert_eq!(c.samples(), 8);
}

#[test]
fn corrections_in_both_forms() {
    let signals = Signals {
        constellation: vec![1, 1, 1, 6],
        svid: vec![8, 8, 8, 3],
        band: vec![1, 1, 5, 256],
    };
    let (time, metres) = ([10.0, 20.0, 10.0, -0.0], [0.5, 0.75, -2.0, 0.0]);
    let directory = directory_of(&signals, &time, &metres).unwrap();
    let expected = Directory {
        constellation: vec![1, 1, 6],
        svid: vec![8, 8, 3],
        band: vec![1, 5, 256],
        first: vec![0, 2, 3],
        count: vec![2, 1, 1],
    };
    assert_eq!(directory, expected);
    assert_eq!(signals_of(&directory, &time, &metres), Ok(signals.clone()));
    let none = directory_of(&Signals::default(), &[], &[]);
    assert_eq!(none, Ok(Directory::default()));
    assert_eq!(
        signals_of(&Directory::default(), &[], &[]),
        Ok(Signals::default())
    );
    // A column too short, samples out of order, a correction out of range.
    assert_eq!(
        directory_of(&signals, &time, &metres[..3]),
        Err(Refusal::TooMany)
    );
    let late = [20.0, 10.0, 10.0, 0.0];
    assert_eq!(
        directory_of(&signals, &late, &metres),
        Err(Refusal::RecordOutOfRange)
    );
    assert_eq!(
        directory_of(&signals, &time, &[0.5, 0.75, f64::NAN, 0.0]),
        Err(Refusal::RecordOutOfRange)
    );
    // Another time than the directory's order, a gap at the end, a satellite named twice.
    assert_eq!(
        signals_of(&directory, &late, &metres),
        Err(Refusal::RecordOutOfRange)
    );
    let mut gap = directory.clone();
    gap.count[0] = 1;
    gap.first = vec![0, 1, 2];
    assert_eq!(
        signals_of(&gap, &time, &metres),
        Err(Refusal::RecordOutOfRange)
    );
    let mut twice = directory;
    twice.band[1] = 1;
    assert_eq!(
        signals_of(&twice, &time, &metres),
        Err(Refusal::RecordOutOfRange)
    );
}

#[test]
fn corrections_refuse() {
    let set = differential::Settings::default();
    let place = AT.coordinates();
    let mut c = Corrections::with_capacity(12, &set);
    let (e, states) = epoch(0.0, 0.0, 8);
    assert_eq!(c.add(&e, Some(&states), place, place), Ok(()));
    assert_eq!(
        c.add(&e, Some(&states), place, place),
        Err(Refusal::TableFull)
    );
    assert_eq!(c.add(&e, None, place, place), Ok(()));
    assert_eq!(c.samples(), 8);
    let (long, many) = epoch(0.0, 0.0, 65);
    assert_eq!(
        c.add(&long, Some(&states), place, place),
        Err(Refusal::TooMany)
    );
    assert_eq!(c.add(&e, Some(&many), place, place), Err(Refusal::TooMany));
    let mut late = e.clone();
    late.tow = f64::INFINITY;
    assert_eq!(
        c.add(&late, None, place, place),
        Err(Refusal::RecordOutOfRange)
    );
    let odd = differential::Settings {
        max_correction: f64::NAN,
        ..set
    };
    let mut c = Corrections::new(&odd);
    assert_eq!(
        c.add(&e, None, place, place),
        Err(Refusal::SettingOutOfRange)
    );
}

#[test]
fn a_track() {
    let set = track::Settings::default();
    let at = |index, x| Anchor {
        index,
        position: Vec3::new(x, 0.0, 0.0),
        sigma: Vec3::new(5.0, 5.0, 8.0),
    };
    let by = |index, x| Link {
        index,
        delta: Vec3::new(x, 0.0, 0.0),
        sigma: Vec3::new(0.01, 0.01, 0.02),
    };
    let points = smooth(
        3,
        &[at(0, 0.0), at(2, 2.0)],
        &[by(1, 1.0), by(0, 1.0)],
        &set,
    )
    .unwrap();
    assert_eq!(points.len(), 3);
    assert!(near(points[1].x, 1.0, 1e-9));
    let why = |n, anchors: &[Anchor], links: &[Link], set: &track::Settings| {
        smooth(n, anchors, links, set).unwrap_err()
    };
    assert_eq!(why(usize::MAX, &[at(0, 0.0)], &[], &set), Refusal::TooMany);
    assert_eq!(why(1, &[at(0, 0.0); 1025], &[], &set), Refusal::TooMany);
    assert!(smooth(1, &[at(0, 0.0); 1024], &[], &set).is_ok());
    let bad = track::Settings {
        iterations: 51,
        ..set
    };
    assert_eq!(why(1, &[], &[], &bad), Refusal::SettingOutOfRange);
    assert_eq!(why(1, &[at(9, 2e9)], &[], &set), Refusal::RecordOutOfRange);
    assert_eq!(why(0, &[at(0, 0.0)], &[], &set), Refusal::BadTrack);
    assert_eq!(why(1, &[], &[], &set), Refusal::BadTrack);
    assert_eq!(
        why(2, &[at(0, 0.0)], &[by(usize::MAX, 1.0)], &set),
        Refusal::BadTrack
    );
    assert_eq!(why(2, &[at(0, 0.0)], &[], &set), Refusal::FitFailed);
}

#[test]
fn the_pieces() {
    assert_eq!(centre_scale(&[]), Ok((0.0, 1.0)));
    assert_eq!(
        centre_scale(&[3.0, 1.0, 2.0, 4.0]),
        Ok((3.0, 1.4826 + 1e-6))
    );
    assert!(centre_scale(&[1.0; 64]).is_ok());
    assert_eq!(centre_scale(&[1.0; 65]), Err(Refusal::TooMany));
    assert_eq!(centre_scale(&[1.0; 1000]), Err(Refusal::TooMany));

    let clocks = Clocks::assign([6, 1, 6, 9, 7].into_iter());
    assert_eq!([6, 1, 9, 7].map(|c| clocks.slot(c)), [3, 4, 5, 5]);
    assert_eq!((clocks.count(), clocks.unknowns()), (3, 6));
    assert_eq!(Clocks::default().slot(1), usize::MAX);

    let mut identity = [[0.0; 9]; 9];
    (0..9).for_each(|i| identity[i][i] = 1.0);
    let factor = Cholesky::new(&identity).unwrap();
    assert_eq!(factor.lower(), &identity);
    assert_eq!(factor.solve(&[2.0; 9]), [2.0; 9]);
    assert_eq!(Cholesky::new(&[[0.0; 9]; 9]), Err(Refusal::FitFailed));

    let row = |i: usize| Row {
        unit: std::array::from_fn(|k| (i * (k + 2) % (5 + 2 * k)) as f64 / 9.0),
        clock: 3,
        residual: i as f64,
        sigma: 1.0,
    };
    let rows: Vec<Row> = (0..65).map(row).collect();
    assert!(step(&rows[..64], 4, 1.5)
        .unwrap()
        .iter()
        .all(|x| x.is_finite()));
    assert_eq!(step(&rows, 4, 1.5), Err(Refusal::TooMany));
    assert_eq!(step(&rows[..8], 10, 1.5), Err(Refusal::RecordOutOfRange));
    assert_eq!(
        step(
            &[Row {
                clock: 9,
                ..rows[0]
            }],
            4,
            1.5
        ),
        Err(Refusal::RecordOutOfRange)
    );
    assert_eq!(step(&[], 4, 1.5), Err(Refusal::FitFailed));

    assert!(near(elevation_sigma(90.0, 1.0, 2.0), 3.0, 1e-9));
    assert_eq!(math::sqrt(2.0).to_bits(), 0x3FF6A09E667F3BCD);
    assert_eq!(math::sqrt(4.0), 2.0);
    assert!(math::before((-0.0f64).to_bits(), 0.0f64.to_bits()));
    assert_eq!(math::pattern(-f64::NAN), 0x7FF8000000000000);
    assert_eq!(
        (math::square(3.0), math::hypot(3.0, 4.0), math::abs(-2.0)),
        (9.0, 5.0, 2.0)
    );
    assert_eq!(math::max(f64::NAN, 1.0), 1.0);
    assert!(math::travel_sine(0.01).is_nan() && math::travel_cosine(0.0) == 1.0);
    assert!(near(math::elevation_sine(math::radians(30.0)), 0.5, 1e-12));
}

/// Calls run side by side give what they give alone.
#[test]
fn threads() {
    let set = wls::Settings::default();
    let sky = observations(64);
    let alone = wls::solve_full(&sky, AT, &set).unwrap();
    std::thread::scope(|scope| {
        for _ in 0..4 {
            scope.spawn(|| {
                for _ in 0..200 {
                    assert_eq!(wls::solve_full(&sky, AT, &set), Ok(alone));
                }
            });
        }
    });
}
