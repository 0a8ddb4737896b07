//! The fixed names of items and events, for the plain program.

pub const ZONE_ITEMS: [&str; 8] = [
    "nr_free_pages",
    "nr_zone_inactive_anon",
    "nr_zone_active_anon",
    "nr_zone_inactive_file",
    "nr_zone_active_file",
    "nr_zone_unevictable",
    "nr_zone_write_pending",
    "nr_mlock",
];

pub const NODE_ITEMS: [&str; 8] = [
    "nr_inactive_anon",
    "nr_active_anon",
    "nr_inactive_file",
    "nr_active_file",
    "nr_unevictable",
    "nr_anon_pages",
    "nr_file_pages",
    "nr_dirty",
];

pub const EVENTS: [&str; 8] = [
    "pgpgin",
    "pgpgout",
    "pswpin",
    "pswpout",
    "pgfree",
    "pgactivate",
    "pgdeactivate",
    "pgfault",
];
