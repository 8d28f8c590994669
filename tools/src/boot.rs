//! The boot regions (section 3 of the standard), written and read.

use crate::failure::{image, Outcome};
use crate::limits::over_limits;
use exfat::boot::{checksum, seal, CHECKSUM_SECTOR, REGION};
use exfat::bytes::{put32, put64, u32_at, u64_at};
use exfat::Geometry;

/// Lays both boot regions, the second like the first.
pub fn write(volume: &mut [u8], g: &Geometry, serial: u32) {
    let sector = g.sector_size();
    let mut region = vec![0; REGION * sector];
    region[..11].copy_from_slice(b"\xeb\x76\x90EXFAT   ");
    put64(&mut region, 72, (volume.len() / sector) as u64);
    put32(&mut region, 80, g.fat_offset);
    put32(&mut region, 84, g.fat_length);
    put32(&mut region, 88, g.cluster_heap_offset);
    put32(&mut region, 92, g.cluster_count);
    put32(&mut region, 96, g.root_cluster);
    put32(&mut region, 100, serial);
    region[105] = 1; // revision 1.00
    region[108] = g.sector_shift as u8;
    region[109] = g.cluster_shift as u8;
    region[110] = g.number_of_fats as u8;
    region[111] = 0x80;
    // PercentInUse is not kept: the calls leave the boot sector alone.
    region[112] = 0xff;
    // Boot code: halt.
    region[120..510].fill(0xf4);
    region[510..512].copy_from_slice(&[0x55, 0xaa]);
    for index in 1..=8 {
        put32(&mut region, (index + 1) * sector - 4, 0xaa55_0000);
    }
    seal(&mut region);
    volume[..REGION * sector].copy_from_slice(&region);
    volume[REGION * sector..2 * REGION * sector].copy_from_slice(&region);
}

/// Reads the main boot region of an image: the geometry, whose bitmaps are
/// not known yet, and the volume's length in bytes.
pub fn read(image_bytes: &[u8]) -> Outcome<(Geometry, usize)> {
    if image_bytes.len() < 512 {
        return image(format!("{} bytes are too few for a boot sector", image_bytes.len()));
    }
    let boot = &image_bytes[..512];
    if &boot[3..11] != b"EXFAT   " {
        return image("the boot sector does not name the file system EXFAT");
    }
    if boot[510..] != [0x55, 0xaa] {
        return image("the boot sector does not end with the signature 55 AA");
    }
    if boot[11..64].iter().any(|byte| *byte != 0) {
        return image("the boot sector's bytes 11 to 63 are not zero");
    }
    if boot[105] != 1 || boot[104] > 99 {
        return image(format!("file system revision {}.{:02} is not in 1.00..1.99", boot[105], boot[104]));
    }
    let g = Geometry {
        sector_shift: u32::from(boot[108]),
        cluster_shift: u32::from(boot[109]),
        fat_offset: u32_at(boot, 80),
        fat_length: u32_at(boot, 84),
        number_of_fats: u32::from(boot[110]),
        active_fat: u32::from(boot[106] & 1),
        cluster_heap_offset: u32_at(boot, 88),
        cluster_count: u32_at(boot, 92),
        root_cluster: u32_at(boot, 96),
        ..Geometry::default()
    };
    if !(9..=12).contains(&g.sector_shift) {
        return image(format!("BytesPerSectorShift {} is not in 9..12", g.sector_shift));
    }
    let sector = g.sector_size();
    if image_bytes.len() < REGION * sector {
        return image(format!("{} bytes are too few for a boot region", image_bytes.len()));
    }
    let sum = checksum(&image_bytes[..CHECKSUM_SECTOR * sector]);
    let stored = &image_bytes[CHECKSUM_SECTOR * sector..REGION * sector];
    if stored.chunks_exact(4).any(|word| u32_at(word, 0) != sum) {
        return image("the boot region's checksum is wrong");
    }
    let length = u64_at(boot, 72).saturating_mul(sector as u64);
    if let Some(limit) = over_limits(&g, length) {
        return image(format!("over the limits: {limit}"));
    }
    if length > image_bytes.len() as u64 {
        return image(format!("the image is cut off: it has {} bytes of the volume's {length}", image_bytes.len()));
    }
    if !g.heap().contains(&g.root_cluster) {
        return image(format!("the root's first cluster {} is not in the heap", g.root_cluster));
    }
    Ok((g, length as usize))
}

#[cfg(test)]
mod tests {
    use super::*;

    #[test]
    fn a_region_is_read_back() {
        let g = Geometry {
            sector_shift: 9,
            fat_offset: 24,
            fat_length: 1,
            number_of_fats: 1,
            cluster_heap_offset: 32,
            cluster_count: 16,
            root_cluster: 3,
            ..Geometry::default()
        };
        let mut volume = vec![0; 48 * 512];
        write(&mut volume, &g, 7);
        let read_back = |bytes: &[u8]| read(bytes).ok();
        assert_eq!(read_back(&volume), Some((g, 48 * 512)));
        assert_eq!(read_back(&volume[..47 * 512]), None);
        for at in [3, 20, 80, 105, 108, 510, 600, 11 * 512] {
            let mut bad = volume.clone();
            bad[at] ^= 1;
            assert_eq!(read_back(&bad), None, "byte {at}");
        }
        // VolumeFlags and PercentInUse may change.
        volume[107] = 1;
        volume[112] = 50;
        assert!(read_back(&volume).is_some());
    }
}
