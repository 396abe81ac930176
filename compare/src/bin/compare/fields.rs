//! The fields of a snapshot by their offsets: for naming a byte and for choosing one to damage.

use crate::rng::Rng;
use second::table::*;

/// A run of equal elements, each with named fields of one byte or eight.
struct Region {
    name: &'static str,
    start: usize,
    count: usize,
    width: usize,
    fields: &'static [(&'static str, usize)],
}

const REGIONS: [Region; 8] = [
    Region { name: "counts", start: 0, count: 1, width: 2, fields: &[("machines", 1), ("entries", 1)] },
    Region {
        name: "terms",
        start: TERMS_AT,
        count: ENTRIES,
        width: TERM_BYTES,
        fields: &[("case", 1), ("periods", 1), ("payments", 1), ("coupon", 8), ("yield", 8)],
    },
    Region {
        name: "jobs",
        start: JOBS_AT,
        count: ENTRIES,
        width: JOB_BYTES,
        fields: &[("state", 1), ("replica", 1), ("moving", 1), ("holder", 1), ("thief", 1), ("price", 8)],
    },
    Region {
        name: "machines",
        start: MACHINES_AT,
        count: MACHINES,
        width: MACHINE_BYTES,
        fields: &[
            ("alive", 1),
            ("reserved job", 1),
            ("reserved replica", 1),
            ("reserved thief", 1),
            ("running job", 1),
            ("running replica", 1),
            ("waits", 1),
        ],
    },
    Region { name: "told", start: TOLD_AT, count: MACHINES * MACHINES, width: 1, fields: &[("flag", 1)] },
    Region { name: "pools", start: POOLS_AT, count: MACHINES * ENTRIES, width: 1, fields: &[("replica", 1)] },
    Region {
        name: "counts",
        start: IN_FLIGHT_AT,
        count: 1,
        width: 2,
        fields: &[("messages in flight", 1), ("open jobs", 1)],
    },
    Region {
        name: "messages",
        start: MESSAGES_AT,
        count: MESSAGES,
        width: MESSAGE_BYTES,
        fields: &[
            ("kind", 1),
            ("from", 1),
            ("to", 1),
            ("job", 1),
            ("replica", 1),
            ("thief", 1),
            ("price", 8),
        ],
    },
];

/// A field's name and place.
pub struct Field {
    pub name: &'static str,
    pub at: usize,
    pub width: usize,
}

/// Any field, each region as likely as any other. Where `used` says so, of an element that is in use.
pub fn any(rng: &mut Rng, table: &[u8], used: bool) -> Field {
    let region = &REGIONS[rng.below(REGIONS.len())];
    let (machines, entries) = (usize::from(table[0]), usize::from(table[1]));
    let element = match (used, region.name) {
        (true, "terms" | "jobs") => rng.below(entries),
        (true, "machines") => rng.below(machines),
        (true, "told") => 16 * rng.below(machines) + rng.below(machines),
        (true, "pools") => 64 * rng.below(machines) + rng.below(entries),
        (true, "messages") => rng.below(usize::from(table[IN_FLIGHT_AT])),
        _ => rng.below(region.count),
    };
    let number = rng.below(region.fields.len());
    let inside: usize = region.fields[..number].iter().map(|field| field.1).sum();
    let (name, width) = region.fields[number];
    Field { name, at: region.start + element % region.count * region.width + inside, width }
}

/// The name of a byte, as "jobs 3 replica".
pub fn name(offset: usize) -> String {
    let Some(region) = REGIONS.iter().rfind(|region| region.start <= offset) else { return String::new() };
    let mut inside = (offset - region.start) % region.width;
    for (field, width) in region.fields {
        if inside < *width {
            return format!("{} {} {field}", region.name, (offset - region.start) / region.width);
        }
        inside -= width;
    }
    String::new()
}
