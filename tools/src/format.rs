//! Makes a new volume.

use crate::boot;
use crate::directory::{BITMAP, ENTRY, LABEL, UPCASE};
use crate::failure::{usage, Failure, Outcome};
use crate::limits::{MAX_BYTES, MAX_CLUSTERS, MAX_CLUSTER_SHIFT, MIN_FAT_OFFSET};
use crate::upcase::{self, Upcase};
use exfat::bytes::{put32, put64, set_bit, FAT_END};
use exfat::Geometry;
use std::fs;
use std::io::Write;
use std::path::Path;

/// The standard's smallest volume (section 3.1.5).
const MIN_BYTES: u64 = 1 << 20;
const LABEL_UNITS: usize = 11;

pub struct Wish {
    pub size: u64,
    pub sector: u64,
    pub cluster: u64,
    pub fats: u32,
    pub label: Vec<u16>,
    pub serial: u32,
}

/// The bytes of a fresh volume, and its geometry.
pub fn volume(wish: &Wish) -> Outcome<(Vec<u8>, Geometry)> {
    let table = Upcase::recommended().bytes();
    let g = geometry(wish, table.len() as u64)?;
    if wish.label.len() > LABEL_UNITS {
        return usage(format!("a label has at most {LABEL_UNITS} units of UTF-16"));
    }
    let mut bytes = vec![0; wish.size as usize];
    boot::write(&mut bytes, &g, wish.serial);

    let last_bitmap = g.bitmap(g.number_of_fats - 1);
    let upcase = last_bitmap.end..g.root_cluster;
    let mut streams: Vec<_> = (0..g.number_of_fats).map(|fat| g.bitmap(fat)).collect();
    streams.extend([upcase.clone(), g.root_cluster..g.root_cluster + 1]);
    for fat in 0..g.number_of_fats {
        // Section 4.1: the media type, and an entry without meaning.
        put32(&mut bytes, g.fat_entry(fat, 0), 0xffff_fff8);
        put32(&mut bytes, g.fat_entry(fat, 1), FAT_END);
        for stream in &streams {
            for cluster in stream.clone() {
                let next = if cluster + 1 == stream.end { FAT_END } else { cluster + 1 };
                put32(&mut bytes, g.fat_entry(fat, cluster), next);
                let bitmap = g.cluster_offset(g.bitmap_first(fat));
                set_bit(&mut bytes[bitmap..], cluster);
            }
        }
    }
    let at = g.cluster_offset(upcase.start);
    bytes[at..at + table.len()].copy_from_slice(&table);
    let entries = root(&g, &wish.label, upcase.start, &table);
    let at = g.cluster_offset(g.root_cluster);
    bytes[at..at + entries.len()].copy_from_slice(&entries);
    Ok((bytes, g))
}

/// The root's first entries: the label where there is one, each FAT's bitmap,
/// the up-case table.
fn root(g: &Geometry, label: &[u16], upcase: u32, table: &[u8]) -> Vec<u8> {
    let mut entries = Vec::new();
    if !label.is_empty() {
        let mut entry = [0; ENTRY];
        entry[..2].copy_from_slice(&[LABEL, label.len() as u8]);
        for (place, unit) in entry[2..].chunks_exact_mut(2).zip(label) {
            place.copy_from_slice(&unit.to_le_bytes());
        }
        entries.extend(entry);
    }
    for fat in 0..g.number_of_fats {
        let mut entry = [0; ENTRY];
        entry[..2].copy_from_slice(&[BITMAP, fat as u8]);
        put32(&mut entry, 20, g.bitmap_first(fat));
        put64(&mut entry, 24, g.bitmap_bytes() as u64);
        entries.extend(entry);
    }
    let mut entry = [0; ENTRY];
    entry[0] = UPCASE;
    put32(&mut entry, 4, upcase::checksum(table));
    put32(&mut entry, 20, upcase);
    put64(&mut entry, 24, table.len() as u64);
    entries.extend(entry);
    entries
}

/// As many clusters as fit behind the boot regions and the shortest FATs; the
/// bitmaps, the up-case table and the root come first in the heap.
fn geometry(wish: &Wish, table: u64) -> Outcome<Geometry> {
    let Wish { size, sector, cluster, fats, .. } = *wish;
    if !sector.is_power_of_two() || !(512..=4096).contains(&sector) {
        return usage(format!("--sector {sector} is not 512, 1024, 2048 or 4096"));
    }
    if !cluster.is_power_of_two() || cluster < sector || cluster > 1 << MAX_CLUSTER_SHIFT {
        return usage(format!("--cluster {cluster} is no power of two from the sector size to 32768"));
    }
    if !(1..=2).contains(&fats) {
        return usage(format!("--fats {fats} is not 1 or 2"));
    }
    if !(MIN_BYTES..=MAX_BYTES).contains(&size) || size % sector != 0 {
        return usage(format!("--size {size} is no number of sectors from {MIN_BYTES} to {MAX_BYTES} bytes"));
    }
    let (sectors, per_cluster) = (size / sector, cluster / sector);
    let fat_length = |count: u64| (4 * (count + 2)).div_ceil(sector);
    let heap_offset = |count: u64| u64::from(MIN_FAT_OFFSET) + fat_length(count) * u64::from(fats);
    let fits = |count: &u64| heap_offset(*count) + count * per_cluster <= sectors;
    let most = (sectors / per_cluster).min(u64::from(MAX_CLUSTERS));
    let count = (1..=most).rev().find(fits).unwrap_or(0);
    let mut g = Geometry {
        sector_shift: sector.trailing_zeros(),
        cluster_shift: per_cluster.trailing_zeros(),
        fat_offset: MIN_FAT_OFFSET,
        fat_length: fat_length(count) as u32,
        number_of_fats: fats,
        cluster_heap_offset: heap_offset(count) as u32,
        cluster_count: count as u32,
        bitmap_0: 2,
        ..Geometry::default()
    };
    let mut next = g.bitmap(0).end;
    if fats == 2 {
        g.bitmap_1 = next;
        next = g.bitmap(1).end;
    }
    g.root_cluster = next + g.clusters_for(table) as u32;
    if !g.heap().contains(&g.root_cluster) {
        return usage("too few clusters for the bitmaps, the up-case table and the root");
    }
    Ok(g)
}

/// Writes a new file beside the image and renames it, so that an image is
/// there whole or as it was.
pub fn store(path: &str, bytes: &[u8], replace: bool) -> Outcome<()> {
    match fs::metadata(path) {
        Ok(there) if !there.is_file() => return usage(format!("{path}: not a regular file")),
        Ok(_) if !replace => return usage(format!("{path}: is there already; --force replaces it")),
        _ => {}
    }
    let new = format!("{path}.new-{}", std::process::id());
    let told = |error| Failure::Image(format!("{path}: cannot write: {error}"));
    let write = || -> std::io::Result<()> {
        let mut file = fs::File::create_new(&new)?;
        file.write_all(bytes)?;
        file.sync_all()?;
        fs::rename(&new, path)?;
        let folder = Path::new(path).parent().filter(|folder| !folder.as_os_str().is_empty());
        fs::File::open(folder.unwrap_or(Path::new(".")))?.sync_all()
    };
    write().map_err(|error| {
        // The error told is the first; a file half written is of no use.
        let _ = fs::remove_file(&new);
        told(error)
    })
}

#[cfg(test)]
mod tests {
    use super::*;

    fn wish(size: u64, sector: u64, cluster: u64, fats: u32) -> Wish {
        Wish { size, sector, cluster, fats, label: Vec::new(), serial: 1 }
    }

    #[test]
    fn the_most_clusters_that_a_volume_holds() {
        let (_, g) = volume(&wish(MAX_BYTES, 512, 512, 1)).ok().expect("a volume");
        assert_eq!(g.cluster_count, 32_490);
    }

    #[test]
    fn every_size_is_read_back() {
        for sector in [512, 1024, 2048, 4096] {
            for cluster in [512, 1024, 2048, 4096, 8192, 16_384, 32_768] {
                for fats in [1, 2] {
                    for size in [MIN_BYTES, MIN_BYTES + 4096] {
                        let made = volume(&wish(size, sector, cluster, fats));
                        if cluster < sector {
                            assert!(made.is_err());
                            continue;
                        }
                        let (bytes, g) = made.ok().expect("a volume");
                        let (mut read, length) = boot::read(&bytes).ok().expect("a boot region");
                        (read.bitmap_0, read.bitmap_1) = (g.bitmap_0, g.bitmap_1);
                        assert_eq!((read, length as u64), (g, size));
                    }
                }
            }
        }
    }
}
