//! The columns of a carrier, which `displacement`, `trip`, `plot` and `encode` read.

use zaqnuti::tdcp::Carrier;

use crate::csv::{Column, Table};
use crate::fault::Run;

/// The columns of a carrier.
pub struct Columns {
    constellation: Column,
    svid: Column,
    band: Option<Column>,
    phase: Phase,
    state: Option<Column>,
    pub place: [Column; 3],
    elevation: Column,
    rate: Column,
}

/// Where the accumulated delta range comes from.
enum Phase {
    Adr(Column),
    Measured {
        carrier: Column,
        clock: Option<Column>,
        modelled: Option<Column>,
        ionosphere: Option<Column>,
    },
}

impl Phase {
    fn of(table: &Table) -> Run<Self> {
        match (table.optional("adr"), table.optional("carrier")) {
            (None, Some(carrier)) => Ok(Self::Measured {
                carrier,
                clock: table.optional("clock"),
                modelled: table.optional("modelled"),
                ionosphere: table.optional("ionosphere"),
            }),
            _ => table.column("adr").map(Self::Adr),
        }
    }

    fn read(&self, table: &Table) -> Run<f64> {
        match *self {
            Self::Adr(adr) => table.float(adr),
            Self::Measured {
                carrier,
                clock,
                modelled,
                ionosphere,
            } => {
                let (carrier, clock) = (table.float(carrier)?, table.float_or_0(clock)?);
                let modelled = table.float_or_0(modelled)?;
                // A carrier is ahead by as much as a code is behind, and modelled has it as behind.
                let ionosphere = table.float_or_0(ionosphere)?;
                Ok(carrier + clock - modelled + 2.0 * ionosphere)
            }
        }
    }
}

impl Columns {
    /// Returns those of a table.
    pub fn of(table: &Table) -> Run<Self> {
        Ok(Self {
            constellation: table.column("constellation")?,
            svid: table.column("svid")?,
            band: table.optional("band"),
            phase: Phase::of(table)?,
            state: table.optional("state"),
            place: table.columns(["x", "y", "z"])?,
            elevation: table.column("elevation")?,
            rate: table.column("rate")?,
        })
    }

    /// Reads the carrier of a row that must have one.
    pub fn read(&self, table: &Table) -> Run<Carrier> {
        Ok(Carrier {
            constellation: table.whole(self.constellation)?,
            svid: table.whole(self.svid)?,
            band: table.whole_or(self.band, 0)?,
            adr: self.phase.read(table)?,
            state: table.whole_or(self.state, 1)?,
            satellite: table.floats(self.place)?,
            elevation: table.float(self.elevation)?,
            rate: table.float(self.rate)?,
        })
    }

    /// Reads the carrier of a row, none where its satellite fields are all empty.
    pub fn read_any(&self, table: &Table) -> Run<Option<Carrier>> {
        match table.field(self.constellation).is_empty() && self.is_bare(table) {
            true => Ok(None),
            false => self.read(table).map(Some),
        }
    }

    fn is_bare(&self, table: &Table) -> bool {
        let phase = match self.phase {
            Phase::Adr(column) => column,
            Phase::Measured { carrier, .. } => carrier,
        };
        let [x, y, z] = self.place;
        let rest = [self.svid, phase, x, y, z, self.elevation, self.rate];
        rest.iter().all(|&column| table.field(column).is_empty())
    }
}
