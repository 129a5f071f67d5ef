//! Writes the blob of examples/pond-station.calls, through geirovund.rs:
//!
//!     make archive
//!     rustc --edition 2021 --crate-type rlib -L native=build --out-dir build build/geirovund.rs
//!     rustc --edition 2021 -L build --extern geirovund -o build/pond-station examples/pond-station.rs
//!     build/pond-station build/pond-station.dtb
use geirovund::{Buffers, FdtReserveEntry, FdtWriter, Result};
use std::process::ExitCode;

const USAGE: &str = "usage: pond-station FILE";

// The bus with the sensors.
fn board_bus(fdt: &mut FdtWriter) -> Result<()> {
    let bus = fdt.begin_node("i2c@10002000")?;
    fdt.property_string("compatible", "geirovund,board-bus")?;
    fdt.property_array_u32("reg", &[0x10002000, 0x100])?;
    fdt.property_u32("#address-cells", 1)?;
    fdt.property_u32("#size-cells", 0)?;

    let pan = fdt.begin_node("evaporation-pan@20")?;
    fdt.property_string("compatible", "geirovund,evaporation-pan")?;
    fdt.property_u32("reg", 0x20)?;
    fdt.property_u32("clock", 1)?; // the phandle of the clock
    fdt.property("serial-number", &[0x47, 0x52, 0x56, 0x00, 0x14, 0x07])?;
    fdt.end_node(pan)?;

    let level = fdt.begin_node("water-level@21")?;
    fdt.property_string("compatible", "geirovund,water-level")?;
    fdt.property_u32("reg", 0x21)?;
    fdt.property_array_u32("range-mm", &[0, 2500])?;
    fdt.end_node(level)?;

    let temperature = fdt.begin_node("temperature@22")?;
    fdt.property_string_list("compatible", ["geirovund,temperature-2", "geirovund,temperature"])?;
    fdt.property_u32("reg", 0x22)?;
    fdt.property_string_list("places", ["air", "water"])?;
    fdt.end_node(temperature)?;

    fdt.end_node(bus)
}

// The clock and the console.
fn devices(fdt: &mut FdtWriter) -> Result<()> {
    let clock = fdt.begin_node("clock@10001000")?;
    fdt.property_phandle(1)?;
    fdt.property_string("compatible", "geirovund,clock")?;
    fdt.property_array_u32("reg", &[0x10001000, 0x100])?;
    fdt.property_u32("utc-offset", 60)?; // minutes that local time is ahead of UTC
    fdt.end_node(clock)?;

    let serial = fdt.begin_node("serial@10000000")?;
    fdt.property_string_list("compatible", ["ns16550a", "ns16550"])?;
    fdt.property_array_u32("reg", &[0x10000000, 0x100])?;
    fdt.property_u64("clock-frequency", 3686400)?;
    fdt.property_null("wakeup-source")?;
    fdt.end_node(serial)
}

// The whole blob, in the front of the lent buffer.
fn station(lent: Buffers<'_>) -> Result<&[u8]> {
    let watchdog = FdtReserveEntry::new(0x80000000, 0x1000)?;
    let last_season = FdtReserveEntry::new(0x83f00000, 0x100000)?;
    let mut fdt = FdtWriter::new_with_mem_reserv(lent, &[watchdog, last_season])?;
    fdt.set_boot_cpuid_phys(0);

    let root = fdt.begin_node("")?;
    fdt.property_string("compatible", "geirovund,pond-station")?;
    fdt.property_string("model", "Pond station 14, north basin")?;
    fdt.property_u32("#address-cells", 1)?;
    fdt.property_u32("#size-cells", 1)?;

    let chosen = fdt.begin_node("chosen")?;
    fdt.property_string("bootargs", "console=ttyS0,115200")?;
    fdt.property_string("stdout-path", "/serial@10000000")?;
    fdt.end_node(chosen)?;

    let memory = fdt.begin_node("memory@80000000")?;
    fdt.property_string("device_type", "memory")?;
    fdt.property_array_u32("reg", &[0x80000000, 0x4000000])?;
    fdt.end_node(memory)?;

    devices(&mut fdt)?;
    board_bus(&mut fdt)?;
    fdt.end_node(root)?;
    fdt.finish()
}

// Writes the bytes to NAME.new and renames that, so that the file is whole or as it was.
fn save(name: &str, bytes: &[u8]) -> std::io::Result<()> {
    let beside = format!("{name}.new");
    let saved = std::fs::write(&beside, bytes).and_then(|()| std::fs::rename(&beside, name));
    if saved.is_err() {
        let _ = std::fs::remove_file(&beside);
    }
    saved
}

// Builds the blob and saves it; says why not otherwise.
fn write(name: &str) -> std::result::Result<(), String> {
    let (mut blob, mut strings, mut phandles) = ([0; 4096], [0; 512], [0; 16]);
    let lent = Buffers { blob: &mut blob, strings: &mut strings, phandles: &mut phandles };
    let dtb = station(lent).map_err(|error| format!("refused: {error}"))?;
    save(name, dtb).map_err(|error| format!("{name} cannot be written: {error}"))
}

fn main() -> ExitCode {
    let arguments: Vec<String> = std::env::args().skip(1).collect();
    let name = match &arguments[..] {
        [help] if help == "-h" || help == "--help" => {
            println!("{USAGE}\n\nWrites the devicetree blob of a pond station to FILE.");
            return ExitCode::SUCCESS;
        }
        [name] if !name.is_empty() && !name.starts_with('-') => name,
        _ => {
            eprintln!("pond-station: {USAGE}");
            return ExitCode::from(2);
        }
    };
    match write(name) {
        Ok(()) => ExitCode::SUCCESS,
        Err(why) => {
            eprintln!("pond-station: {why}");
            ExitCode::FAILURE
        }
    }
}
