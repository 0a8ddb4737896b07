//! The four reports, for the plain program: the lines after `line N: report KIND`.

use crate::commands::Text;
use crate::counters::Counters;
use crate::names::EVENTS;
use crate::trace::{KINDS, MARKS};

/// Writes the report of this kind. They stand in the order of `trace::REPORTS`.
pub fn write<C: Counters>(out: &mut Text, world: &C, kind: usize) {
    [vmstat, zoneinfo, totals, counters][kind](out, world);
}

/// What the system shows of each item and event.
fn vmstat<C: Counters>(out: &mut Text, world: &C) {
    let header = world.limits().header;
    for (class, is_node) in [(0, false), (header.positions(), true)] {
        for (position, name) in header.names(is_node).iter().enumerate() {
            unsigned(out, name, world.system_value(class + position));
        }
    }
    for (event, name) in EVENTS.into_iter().enumerate() {
        let count = world.events_online(event);
        // These two are counted in sectors of 512 bytes and shown in KiB.
        let is_halved = matches!(name, "pgpgin" | "pgpgout");
        unsigned(out, name, if is_halved { count / 2 } else { count });
    }
}

/// The zones, then the nodes, each with what its CPUs hold.
fn zoneinfo<C: Counters>(out: &mut Text, world: &C) {
    let header = world.limits().header;
    let present = world.present_cpus();
    for (place, zone) in header.zones.iter().enumerate() {
        node(out, zone.node);
        out.text(b"zone ");
        out.text(KINDS[zone.kind].as_bytes());
        out.text(b"\n");
        unsigned(out, "  pages free", world.value(place << header.shift()));
        for (name, pages) in MARKS.into_iter().zip(zone.marks) {
            out.text(b"  ");
            unsigned(out, name, pages);
        }
        unsigned(out, "  managed", zone.managed);
        unsigned(out, "  drift mark", world.mark(place));
        out.text(b"  protection");
        for pages in world.limits().reserves[place] {
            out.text(b" ");
            out.number(pages);
        }
        out.text(b"\n");
        items(out, world, place, &present);
    }
    for (n, &number) in header.nodes.iter().enumerate() {
        node(out, number);
        out.text(b"all zones\n");
        items(out, world, header.zones.len() + n, &present);
    }
}

fn node(out: &mut Text, number: u64) {
    out.text(b"Node ");
    out.number(number);
    out.text(b", ");
}

/// The items of a place, and what each CPU holds of them.
fn items<C: Counters>(out: &mut Text, world: &C, place: usize, present: &[(usize, bool)]) {
    let header = world.limits().header;
    let names = header.names(header.is_node(place));
    let first = place << header.shift();
    for (position, name) in names.iter().enumerate() {
        out.text(b"  ");
        unsigned(out, name, world.value(first + position));
    }
    for &(cpu, is_dead) in present {
        out.text(b"  cpu ");
        out.number(cpu as u64);
        out.text(if is_dead { b" dead threshold " } else { b" threshold " });
        out.number(world.threshold(place, cpu));
        out.text(b" differentials");
        for position in 0..names.len() {
            out.text(b" ");
            out.signed(world.differential(first + position, cpu));
        }
        out.text(b"\n");
    }
}

/// What each counter adds up to, with what all CPUs hold of it.
fn totals<C: Counters>(out: &mut Text, world: &C) {
    let header = world.limits().header;
    for place in 0..header.places() {
        for position in 0..header.names(header.is_node(place)).len() {
            let counter = (place << header.shift()) + position;
            signed(out, header.words_of(counter), world.total(counter));
        }
    }
    for (event, name) in EVENTS.into_iter().enumerate() {
        out.text(b"event ");
        unsigned(out, name, world.events_of_all(event));
    }
    for (counter, declared) in header.counters.iter().enumerate() {
        out.text(b"counter ");
        signed(out, declared.name.as_bytes(), world.sum(counter));
    }
}

/// The percpu counters: their shared parts, and the local parts of the CPUs that are online or dead.
fn counters<C: Counters>(out: &mut Text, world: &C) {
    let header = world.limits().header;
    let present = world.present_cpus();
    for (counter, declared) in header.counters.iter().enumerate() {
        out.text(declared.name.as_bytes());
        out.text(b" batch ");
        out.number(declared.batch);
        out.text(b" count ");
        out.signed(world.rough(counter));
        out.text(b" locals");
        let mut sum = world.rough(counter);
        for &(cpu, _) in &present {
            let local = world.local(counter, cpu);
            sum += local;
            out.text(b" ");
            out.signed(local);
        }
        signed(out, b" sum", sum);
    }
}

fn unsigned(out: &mut Text, name: &str, n: u64) {
    out.text(name.as_bytes());
    out.text(b" ");
    out.number(n);
    out.text(b"\n");
}

fn signed(out: &mut Text, words: &[u8], n: i64) {
    out.text(words);
    out.text(b" ");
    out.signed(n);
    out.text(b"\n");
}
