//! How far a receiver moved between two epochs of carrier phases: `cargo run --example displacement`.

use zaqnuti::tdcp::{delta_position, delta_position_between, Carrier, Settings};
use zaqnuti::time::GpsTime;
use zaqnuti::{Ecef, Refusal};

/// GPS over a station in Japan that stands still, 2005-04-02: svid, carrier in metres with the
/// satellite's clock and the delays removed, satellite at transmission, elevation, range rate.
type Seen = (u16, f64, [f64; 3], f64, f64);

const AT_0_S: [Seen; 8] = [
    (
        3,
        10670902.8595,
        [-24595184.3409, -10320589.5824, 1244218.6742],
        9.7076,
        523.0703,
    ),
    (
        7,
        -172322.1098,
        [10026487.6901, 18601864.0690, 16597421.8539],
        16.1755,
        -486.0847,
    ),
    (
        8,
        3414794.9918,
        [-683949.7926, 26351230.7650, 79787.4804],
        20.0771,
        469.9015,
    ),
    (
        11,
        1530559.3591,
        [-14822915.6595, 8930208.3680, 20079386.0967],
        69.4716,
        204.4422,
    ),
    (
        19,
        6983136.4300,
        [-23358517.4998, -5407967.0045, 11505396.1790],
        31.7452,
        377.2273,
    ),
    (
        20,
        -1119453.1766,
        [-23036169.0859, 13172079.7389, 766984.1650],
        45.3946,
        -512.0204,
    ),
    (
        24,
        -434512.5769,
        [-4410870.9394, 25703724.4991, 4806330.1948],
        34.8016,
        -424.6083,
    ),
    (
        28,
        -1022706.7203,
        [-2383676.5779, 17483698.3984, 19982740.5748],
        47.2315,
        -410.9072,
    ),
];

const AT_30_S: [Seen; 8] = [
    (
        3,
        10699147.3296,
        [-24595169.6068, -10332578.4027, 1151890.2702],
        9.5624,
        523.6595,
    ),
    (
        7,
        -174364.2447,
        [9968998.0205, 18580402.4659, 16657076.4539],
        16.3293,
        -486.2937,
    ),
    (
        8,
        3441460.0763,
        [-692717.6235, 26351720.7446, -16652.0015],
        19.9352,
        471.5250,
    ),
    (
        11,
        1549264.3208,
        [-14837010.3040, 8853752.5973, 20103371.4909],
        69.2833,
        206.3201,
    ),
    (
        19,
        7007012.7694,
        [-23391018.9750, -5437403.4416, 11424432.3600],
        31.6030,
        378.2940,
    ),
    (
        20,
        -1122232.9772,
        [-23037585.5171, 13163117.7662, 862296.7776],
        45.6290,
        -509.5355,
    ),
    (
        24,
        -434678.4062,
        [-4418297.9855, 25685818.1622, 4899815.0556],
        34.9773,
        -422.6873,
    ),
    (
        28,
        -1022449.8655,
        [-2450535.3896, 17517541.8337, 19943544.4509],
        47.4114,
        -408.2052,
    ),
];

fn carrier((svid, adr, satellite, elevation, rate): Seen) -> Carrier {
    Carrier {
        constellation: 1,
        svid,
        band: 1575,
        adr,
        state: 1,
        satellite,
        elevation,
        rate,
    }
}

fn main() -> Result<(), Refusal> {
    let (previous, current) = (AT_0_S.map(carrier), AT_30_S.map(carrier));
    // Some kilometres off would do.
    let at = Ecef::new(-3976219.5, 3382372.6, 3652513.0);
    let moved = delta_position(&previous, &current, 30.0, at, &Settings::geodetic())?;
    let d = moved.delta;
    println!("{:.3} {:.3} {:.3} m", d.x, d.y, d.z);
    println!("{} pairs used, {} screened", moved.used, moved.screened);
    // The same by the times of both epochs, as a receiver reports them.
    let (before, now) = (
        GpsTime::new(1316, 518_400.0)?,
        GpsTime::new(1316, 518_430.0)?,
    );
    let set = Settings::geodetic();
    let again = delta_position_between(&previous, &current, before, now, at, &set)?;
    println!(
        "{} s apart: the same is {}",
        now.seconds_since(before)?,
        again == moved
    );
    Ok(())
}
