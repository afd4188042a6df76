//! The entry points of the static library; `include/zaqnuti.h` documents each.
//!
//! A column is a pointer and a length in elements. Memory that a call writes must not overlap its other arguments.

extern "C" {
    /// Returns the library's version: 10000 major + 100 minor + patch.
    pub fn zaqnuti_version() -> u32;
    /// Writes the time of a week and a time of week, in nanoseconds.
    pub fn zaqnuti_time(week: u32, tow: f64, nanos: *mut u64) -> u8;
    /// Writes the nanoseconds between two times.
    pub fn zaqnuti_nanos_since(later: u64, earlier: u64, nanos: *mut i64) -> u8;
    /// Writes the seconds between two times.
    pub fn zaqnuti_seconds_since(later: u64, earlier: u64, seconds: *mut f64) -> u8;
    /// Starts a trip.
    pub fn zaqnuti_trip_start(per_km: u16, trip: *mut [u64; 6]) -> u8;
    /// Adds an epoch to a trip.
    pub fn zaqnuti_trip_add(trip: *mut [u64; 6], delta: *const [f64; 3], pulses: u16) -> u8;
    /// Writes the report of a trip.
    pub fn zaqnuti_trip_report(trip: *const [u64; 6], report: *mut [u64; 4]) -> u8;
    /// Writes a trip's fuel per kilometre.
    pub fn zaqnuti_trip_fuel(trip: *const [u64; 6], millilitres: u32, per_km: *mut u64) -> u8;
    /// Starts a mileage.
    pub fn zaqnuti_mileage_start(limit: f64, mileage: *mut [u64; 10]) -> u8;
    /// Adds an epoch to a mileage.
    pub fn zaqnuti_mileage_add(
        mileage: *mut [u64; 10],
        refused_by: u8,
        delta: *const [f64; 3],
        quality: *const [f64; 2],
        pulses: u16,
    ) -> u8;
    /// Writes the report of a mileage.
    pub fn zaqnuti_mileage_report(mileage: *const [u64; 10], report: *mut [u64; 7]) -> u8;
    /// Writes the distance of a mileage.
    pub fn zaqnuti_mileage_distance(mileage: *const [u64; 10], millimetres: *mut u64) -> u8;
    /// Writes a mileage's fuel per kilometre.
    pub fn zaqnuti_mileage_fuel(
        mileage: *const [u64; 10],
        millilitres: u32,
        per_km: *mut u64,
    ) -> u8;
    /// Writes a displacement as north, east and down at a place.
    pub fn zaqnuti_north_east_down(
        position: *const [f64; 3],
        displacement: *const [f64; 3],
        ned: *mut [f64; 3],
    ) -> u8;
    /// Starts a trip with settings in force.
    pub fn zaqnuti_trip_begin(
        settings: *const [f64; 5],
        rounds: usize,
        per_km: u16,
        trip: *mut [u64; 6],
        in_force: *mut [f64; 5],
        in_force_rounds: *mut usize,
    ) -> u8;
    /// Changes the settings during a trip.
    pub fn zaqnuti_trip_settings(
        trip: *const [u64; 6],
        settings: *const [f64; 5],
        rounds: usize,
        in_force: *mut [f64; 5],
        in_force_rounds: *mut usize,
    ) -> u8;
    /// Computes a displacement under the settings in force and adds it to a trip.
    pub fn zaqnuti_trip_displacement(
        trip: *mut [u64; 6],
        in_force: *const [f64; 5],
        in_force_rounds: usize,
        previous_constellation: *const u8,
        previous_constellation_length: usize,
        previous_svid: *const u16,
        previous_svid_length: usize,
        previous_band: *const u32,
        previous_band_length: usize,
        previous_state: *const i32,
        previous_state_length: usize,
        previous_floats: *const f64,
        previous_floats_length: usize,
        previous_count: usize,
        current_constellation: *const u8,
        current_constellation_length: usize,
        current_svid: *const u16,
        current_svid_length: usize,
        current_band: *const u32,
        current_band_length: usize,
        current_state: *const i32,
        current_state_length: usize,
        current_floats: *const f64,
        current_floats_length: usize,
        current_count: usize,
        dt: f64,
        receiver: *const [f64; 3],
        pulses: u16,
        delta: *mut [f64; 3],
        counts: *mut [usize; 2],
    ) -> u8;
    /// Computes the receiver's position from one epoch, with the quality of the fit.
    pub fn zaqnuti_fix(
        constellation: *const u8,
        constellation_length: usize,
        floats: *const f64,
        floats_length: usize,
        count: usize,
        guess: *const [f64; 3],
        settings: *const [f64; 4],
        rounds: usize,
        solution: *mut [f64; 5],
        used: *mut usize,
    ) -> u8;
    /// Computes the receiver's position alone.
    pub fn zaqnuti_position(
        constellation: *const u8,
        constellation_length: usize,
        floats: *const f64,
        floats_length: usize,
        count: usize,
        guess: *const [f64; 3],
        settings: *const [f64; 4],
        rounds: usize,
        position: *mut [f64; 3],
    ) -> u8;
    /// Computes the displacement between two carrier epochs.
    pub fn zaqnuti_displacement(
        previous_constellation: *const u8,
        previous_constellation_length: usize,
        previous_svid: *const u16,
        previous_svid_length: usize,
        previous_band: *const u32,
        previous_band_length: usize,
        previous_state: *const i32,
        previous_state_length: usize,
        previous_floats: *const f64,
        previous_floats_length: usize,
        previous_count: usize,
        current_constellation: *const u8,
        current_constellation_length: usize,
        current_svid: *const u16,
        current_svid_length: usize,
        current_band: *const u32,
        current_band_length: usize,
        current_state: *const i32,
        current_state_length: usize,
        current_floats: *const f64,
        current_floats_length: usize,
        current_count: usize,
        dt: f64,
        receiver: *const [f64; 3],
        settings: *const [f64; 5],
        rounds: usize,
        delta: *mut [f64; 3],
        counts: *mut [usize; 2],
    ) -> u8;
    /// Computes the displacement between two carrier epochs of known times.
    pub fn zaqnuti_displacement_between(
        previous_constellation: *const u8,
        previous_constellation_length: usize,
        previous_svid: *const u16,
        previous_svid_length: usize,
        previous_band: *const u32,
        previous_band_length: usize,
        previous_state: *const i32,
        previous_state_length: usize,
        previous_floats: *const f64,
        previous_floats_length: usize,
        previous_count: usize,
        current_constellation: *const u8,
        current_constellation_length: usize,
        current_svid: *const u16,
        current_svid_length: usize,
        current_band: *const u32,
        current_band_length: usize,
        current_state: *const i32,
        current_state_length: usize,
        current_floats: *const f64,
        current_floats_length: usize,
        current_count: usize,
        previous_time: u64,
        current_time: u64,
        receiver: *const [f64; 3],
        settings: *const [f64; 5],
        rounds: usize,
        delta: *mut [f64; 3],
        counts: *mut [usize; 2],
    ) -> u8;
    /// Computes the displacement by GPS and Galileo on one band.
    pub fn zaqnuti_city_displacement(
        previous_constellation: *const u8,
        previous_constellation_length: usize,
        previous_svid: *const u16,
        previous_svid_length: usize,
        previous_band: *const u32,
        previous_band_length: usize,
        previous_state: *const i32,
        previous_state_length: usize,
        previous_floats: *const f64,
        previous_floats_length: usize,
        previous_count: usize,
        current_constellation: *const u8,
        current_constellation_length: usize,
        current_svid: *const u16,
        current_svid_length: usize,
        current_band: *const u32,
        current_band_length: usize,
        current_state: *const i32,
        current_state_length: usize,
        current_floats: *const f64,
        current_floats_length: usize,
        current_count: usize,
        dt: f64,
        band: u32,
        receiver: *const [f64; 3],
        settings: *const [f64; 5],
        rounds: usize,
        delta: *mut [f64; 3],
        counts: *mut [usize; 2],
    ) -> u8;
    /// Computes the displacement with the quality of its fit.
    pub fn zaqnuti_displacement_rated(
        previous_constellation: *const u8,
        previous_constellation_length: usize,
        previous_svid: *const u16,
        previous_svid_length: usize,
        previous_band: *const u32,
        previous_band_length: usize,
        previous_state: *const i32,
        previous_state_length: usize,
        previous_floats: *const f64,
        previous_floats_length: usize,
        previous_count: usize,
        current_constellation: *const u8,
        current_constellation_length: usize,
        current_svid: *const u16,
        current_svid_length: usize,
        current_band: *const u32,
        current_band_length: usize,
        current_state: *const i32,
        current_state_length: usize,
        current_floats: *const f64,
        current_floats_length: usize,
        current_count: usize,
        dt: f64,
        receiver: *const [f64; 3],
        settings: *const [f64; 5],
        rounds: usize,
        delta: *mut [f64; 3],
        quality: *mut [f64; 2],
        counts: *mut [usize; 2],
    ) -> u8;
    /// Computes the displacement by GPS and Galileo on one band, with the quality of its fit.
    pub fn zaqnuti_city_displacement_rated(
        previous_constellation: *const u8,
        previous_constellation_length: usize,
        previous_svid: *const u16,
        previous_svid_length: usize,
        previous_band: *const u32,
        previous_band_length: usize,
        previous_state: *const i32,
        previous_state_length: usize,
        previous_floats: *const f64,
        previous_floats_length: usize,
        previous_count: usize,
        current_constellation: *const u8,
        current_constellation_length: usize,
        current_svid: *const u16,
        current_svid_length: usize,
        current_band: *const u32,
        current_band_length: usize,
        current_state: *const i32,
        current_state_length: usize,
        current_floats: *const f64,
        current_floats_length: usize,
        current_count: usize,
        dt: f64,
        band: u32,
        receiver: *const [f64; 3],
        settings: *const [f64; 5],
        rounds: usize,
        delta: *mut [f64; 3],
        quality: *mut [f64; 2],
        counts: *mut [usize; 2],
    ) -> u8;
    /// Answers a text in the line form.
    pub fn zaqnuti_line(
        text: *const u8,
        text_length: usize,
        line: *mut u8,
        line_length: usize,
        written: *mut usize,
    ) -> u8;
    /// Writes carrier records as bytes.
    pub fn zaqnuti_write_records(
        constellation: *const u8,
        constellation_length: usize,
        svid: *const u16,
        svid_length: usize,
        band: *const u32,
        band_length: usize,
        state: *const i32,
        state_length: usize,
        floats: *const u64,
        floats_length: usize,
        count: usize,
        bytes: *mut u8,
        bytes_length: usize,
    ) -> u8;
    /// Reads carrier records from bytes.
    pub fn zaqnuti_read_records(
        bytes: *const u8,
        bytes_length: usize,
        constellation: *mut u8,
        constellation_length: usize,
        svid: *mut u16,
        svid_length: usize,
        band: *mut u32,
        band_length: usize,
        state: *mut i32,
        state_length: usize,
        floats: *mut u64,
        floats_length: usize,
        count: *mut usize,
    ) -> u8;
    /// Computes the displacement between two slices of carrier records.
    pub fn zaqnuti_displacement_records(
        previous: *const u8,
        previous_length: usize,
        current: *const u8,
        current_length: usize,
        dt: f64,
        x: f64,
        y: f64,
        z: f64,
        screen: f64,
        sigma_a: f64,
        sigma_b: f64,
        huber: f64,
        mask: f64,
        rounds: u32,
        result: *mut u8,
        result_length: usize,
    ) -> u8;
    /// Adds a base epoch to a table of corrections.
    pub fn zaqnuti_add_epoch(
        dc: *mut u8,
        dc_length: usize,
        dv: *mut u16,
        dv_length: usize,
        db: *mut u32,
        db_length: usize,
        df: *mut usize,
        df_length: usize,
        dn: *mut usize,
        dn_length: usize,
        blocks: *mut usize,
        ts: *mut f64,
        ts_length: usize,
        xs: *mut f64,
        xs_length: usize,
        n: *mut usize,
        time: f64,
        k: usize,
        rc: *const u8,
        rc_length: usize,
        rv: *const u16,
        rv_length: usize,
        rb: *const u32,
        rb_length: usize,
        rp: *const f64,
        rp_length: usize,
        present: bool,
        m: usize,
        sc: *const u8,
        sc_length: usize,
        sv: *const u16,
        sv_length: usize,
        sb: *const u32,
        sb_length: usize,
        sf: *const f64,
        sf_length: usize,
        base: *const [f64; 3],
        rover: *const [f64; 3],
        gap: f64,
        max: f64,
        on: *const [bool; 8],
    ) -> u8;
    /// Queries a table for one correction.
    pub fn zaqnuti_query(
        dc: *const u8,
        dc_length: usize,
        dv: *const u16,
        dv_length: usize,
        db: *const u32,
        db_length: usize,
        df: *const usize,
        df_length: usize,
        dn: *const usize,
        dn_length: usize,
        m: usize,
        ts: *const f64,
        ts_length: usize,
        xs: *const f64,
        xs_length: usize,
        n: usize,
        gap: f64,
        c: u8,
        v: u16,
        b: u32,
        t: f64,
        metres: *mut f64,
    ) -> u8;
    /// Queries a table, checked once, for many corrections.
    pub fn zaqnuti_queries(
        dc: *const u8,
        dc_length: usize,
        dv: *const u16,
        dv_length: usize,
        db: *const u32,
        db_length: usize,
        df: *const usize,
        df_length: usize,
        dn: *const usize,
        dn_length: usize,
        m: usize,
        ts: *const f64,
        ts_length: usize,
        xs: *const f64,
        xs_length: usize,
        n: usize,
        gap: f64,
        c: *const u8,
        c_length: usize,
        v: *const u16,
        v_length: usize,
        b: *const u32,
        b_length: usize,
        t: *const f64,
        t_length: usize,
        count: usize,
        numbers: *mut u8,
        numbers_length: usize,
        metres: *mut f64,
        metres_length: usize,
    ) -> u8;
    /// Drops the samples before a time, keeping the last of each signal.
    pub fn zaqnuti_forget(
        dc: *const u8,
        dc_length: usize,
        dv: *const u16,
        dv_length: usize,
        db: *const u32,
        db_length: usize,
        df: *mut usize,
        df_length: usize,
        dn: *mut usize,
        dn_length: usize,
        m: usize,
        ts: *mut f64,
        ts_length: usize,
        xs: *mut f64,
        xs_length: usize,
        n: *mut usize,
        time: f64,
    ) -> u8;
    /// Widens the bands of a table that was written with 8 bits for each.
    pub fn zaqnuti_widen_bands(
        narrow: *const u8,
        narrow_length: usize,
        n: usize,
        wide: *mut u32,
        wide_length: usize,
    ) -> u8;
    /// Writes the directory of a table that has a signal for each sample.
    pub fn zaqnuti_directory_of(
        cs: *const u8,
        cs_length: usize,
        vs: *const u16,
        vs_length: usize,
        bs: *const u32,
        bs_length: usize,
        ts: *const f64,
        ts_length: usize,
        xs: *const f64,
        xs_length: usize,
        n: usize,
        dc: *mut u8,
        dc_length: usize,
        dv: *mut u16,
        dv_length: usize,
        db: *mut u32,
        db_length: usize,
        df: *mut usize,
        df_length: usize,
        dn: *mut usize,
        dn_length: usize,
        m: *mut usize,
    ) -> u8;
    /// Writes the signals of the samples of a table that has a directory.
    pub fn zaqnuti_signals_of(
        dc: *const u8,
        dc_length: usize,
        dv: *const u16,
        dv_length: usize,
        db: *const u32,
        db_length: usize,
        df: *const usize,
        df_length: usize,
        dn: *const usize,
        dn_length: usize,
        m: usize,
        ts: *const f64,
        ts_length: usize,
        xs: *const f64,
        xs_length: usize,
        n: usize,
        cs: *mut u8,
        cs_length: usize,
        vs: *mut u16,
        vs_length: usize,
        bs: *mut u32,
        bs_length: usize,
    ) -> u8;
    /// Computes the smoothed track.
    pub fn zaqnuti_smooth(
        n: usize,
        anchors: usize,
        links: usize,
        ai: *const usize,
        ai_length: usize,
        av: *const f64,
        av_length: usize,
        ag: *const f64,
        ag_length: usize,
        li: *const usize,
        li_length: usize,
        lv: *const f64,
        lv_length: usize,
        lg: *const f64,
        lg_length: usize,
        huber: f64,
        iterations: usize,
        result: *mut f64,
        result_length: usize,
        work: *mut f64,
        work_length: usize,
    ) -> u8;
    /// Computes one round of the robust least squares.
    pub fn zaqnuti_round(
        units: *const f64,
        units_length: usize,
        clocks: *const usize,
        clocks_length: usize,
        residuals: *const u64,
        residuals_length: usize,
        sigmas: *const f64,
        sigmas_length: usize,
        rows: usize,
        unknowns: usize,
        huber: f64,
        dx: *mut [f64; 9],
    ) -> u8;
    /// Computes centre and scale of residuals, given by their bits.
    pub fn zaqnuti_centre(residuals: *const u64, residuals_length: usize, out: *mut [f64; 2])
        -> u8;
    /// Returns the one-sigma of an elevation in degrees.
    pub fn zaqnuti_elevation_sigma(elevation: f64, a: f64, b: f64) -> f64;
    /// Computes the unit vector from the satellite to the receiver, and the range.
    pub fn zaqnuti_geometry(
        satellite: *const [f64; 3],
        receiver: *const [f64; 3],
        out: *mut [f64; 4],
    ) -> u8;
    /// Computes the Cholesky factor of nine rows of nine.
    pub fn zaqnuti_factor(a: *const [[f64; 9]; 9], l: *mut [[f64; 9]; 9]) -> u8;
    /// Solves `l lᵀ x = b`.
    pub fn zaqnuti_solve(l: *const [[f64; 9]; 9], b: *const [f64; 9], x: *mut [f64; 9]);
    /// Writes clocks without a constellation.
    pub fn zaqnuti_clocks_new(slot: *mut [usize; 8], count: *mut usize);
    /// Adds a constellation.
    pub fn zaqnuti_clocks_given(slot: *mut [usize; 8], count: *mut usize, constellation: u8);
    /// Returns the slot of a constellation.
    pub fn zaqnuti_clocks_slot(slot: *const [usize; 8], constellation: u8) -> usize;
    /// Returns the number of unknowns: three coordinates and the clocks.
    pub fn zaqnuti_clocks_unknowns(slot: *const [usize; 8], count: usize) -> usize;
    /// Returns the square root, correctly rounded.
    pub fn zaqnuti_sqrt(x: f64) -> f64;
    /// Checks that a comes before b or is b, in IEEE 754's totalOrder.
    pub fn zaqnuti_before(a: u64, b: u64) -> bool;
    /// Returns the bits of x, 7FF8000000000000 for every NaN.
    pub fn zaqnuti_pattern(x: f64) -> u64;
    /// Returns x times x.
    pub fn zaqnuti_square(x: f64) -> f64;
    /// Returns the root of a·a + b·b.
    pub fn zaqnuti_hypot(a: f64, b: f64) -> f64;
    /// Returns the sine of a travel angle.
    pub fn zaqnuti_travel_sine(t: f64) -> f64;
    /// Returns the cosine of a travel angle.
    pub fn zaqnuti_travel_cosine(t: f64) -> f64;
    /// Converts degrees to radians.
    pub fn zaqnuti_radians(x: f64) -> f64;
    /// Returns the sine of an elevation in radians.
    pub fn zaqnuti_elevation_sine(t: f64) -> f64;
    /// Returns x with its sign bit clear.
    pub fn zaqnuti_abs(x: f64) -> f64;
    /// Returns the larger of a and b.
    pub fn zaqnuti_max(a: f64, b: f64) -> f64;
}
