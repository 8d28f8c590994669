/*
 * exfat.h: a proved exFAT volume writer, which reads files back too, as a static library.
 *
 * The volume is one byte slice that the caller lends; no call keeps anything between calls, allocates memory or calls the
 * system. Every call takes any bytes and any numbers: it tests everything itself and returns. Every call answers a number, but
 * for exfat_read, whose number is a call of its own.
 *
 * A slice is a pointer and then a length: in bytes for a volume, a map, data and zeros, in words for a list, in units of 16 bits
 * for a name. An array is a pointer.
 * What the caller has to keep: each pointer leads to as many elements as its length or its array says, is aligned for them and
 * is not null, at length 0 too; nothing else changes a slice or an array during the call; and what a call writes (a volume that
 * is not const, `list`, `out`) overlaps no other argument.
 *
 * What the library needs: an x86-64 with Linux's calling convention and its SSE2 registers; the C functions memmove and memset;
 * and stack, at most 1,560 bytes in exfat_write, the deepest call, besides what these two take. It uses the red zone of 128
 * bytes below the stack pointer, and keeps no data of its own.
 *
 * Arguments that the calls share
 *
 *   vol         The volume: boot region, FATs and cluster heap, at most 16,777,216 bytes.
 *   map         The system map, only read: one bit for each cluster, laid out like the allocation bitmap, so exactly
 *               ceil(C / 8) bytes for C clusters. The clusters in it are never taken and never freed. It has to hold every
 *               bitmap; a caller will put the up-case table and the root directory in it as well.
 *   geometry    EXFAT_GEOMETRY_WORDS words: BytesPerSectorShift, SectorsPerClusterShift, FatOffset, FatLength, NumberOfFats,
 *               ActiveFat (0 or 1), ClusterHeapOffset, ClusterCount, FirstClusterOfRootDirectory, first cluster of the first
 *               FAT's bitmap, first cluster of the second FAT's bitmap (not looked at with one FAT). Offsets and FatLength are
 *               in sectors.
 *   allocation  A stream's record, 4 words: first cluster, last cluster, count of clusters, NoFatChain (0 is clear, any other
 *               value set). Set, the clusters first..last follow each other (a run) and the FAT is not looked at; clear, the FAT
 *               links them (a chain). With count 0 the stream is empty, whatever the other words say. Where a call gives a
 *               record back, as given too, NoFatChain is 0 or 1: any other word comes back as 1.
 *   slot        The place of a file's entry set in the root directory, counted in entries of 32 bytes from 0: what
 *               exfat_new_file gave, or found by reading the root.
 *   stamp       6 bytes: a time as the entry holds it (4 bytes, low byte first), its 10 ms increment, its UTC offset. They are
 *               stored as given. `stamps` is three of them: created, modified, accessed.
 *   zeros       Bytes that are all 0, one or more, only read: the part of a file that is shown as 0 is a part of them. They are
 *               tested whole in each call that takes them, so as many as a cluster has, or fewer, are best.
 *   hint        The cluster at which a search starts where nothing else says so: the one that the call before gave back, or 2.
 *   out         8 words that the call stores, all of them: what it gives, then zeros.
 *
 * Words that the calls share
 *
 *   usable      A cluster that is not marked in the active FAT's bitmap, not in the system map and not bad (0xFFFFFFF7) in the
 *               active FAT. Only such clusters are taken.
 *   sound       A file entry set that lies before the first entry of type 0 and inside the root: type 0x85, SecondaryCount 2 to
 *               18 and right for NameLength, which is not 0; the right checksum; then a 0xC0 with AllocationPossible set, then
 *               0xC1 entries with flag bits 0 and 1 clear; ValidDataLength at most DataLength; with DataLength 0 the first
 *               cluster 0 and NoFatChain clear, else the first cluster in the heap, no more clusters than C, and a run that
 *               ends in the heap. Names, hash and stamps are not looked at.
 *
 * Numbers (enum exfat_number has them by name)
 *
 *   0   done
 *   1   the geometry, the volume's length or the map breaks the limits
 *   2   the hint, the near cluster, the root cluster or a cluster of the record is outside 2..C+1
 *   3   a chain meets a FAT value that is neither a cluster nor the end
 *   4   a chain goes on after C clusters
 *   5   the record's count or last cluster is not that of its stream, or a file's chain has another count of clusters than its
 *       length takes
 *   6   a cluster of the record, the root or the file is not marked in the bitmap
 *   7   too few clusters
 *   8   offset and data length add up to more than 2^64 - 1
 *   9   a system cluster among those to be freed or among the file's, or a bitmap cluster in the root
 *   10  no sound file entry at the slot
 *   11  the entry is a directory's
 *   12  the name is refused
 *   13  an attribute outside 0x27 (ReadOnly 0x01, Hidden 0x02, System 0x04, Archive 0x20)
 *   14  the list is shorter than the record's count
 *   15  the zero slice is empty or holds a byte other than 0
 *
 * Every call tests 1 first, then the hint where it has one. A refused call (a number that is not 0) leaves every slice that it
 * was lent as it was.
 */
#ifndef EXFAT_H
#define EXFAT_H

#include <stddef.h>
#include <stdint.h>

#ifdef __cplusplus
extern "C" {
#endif

#define EXFAT_GEOMETRY_WORDS 11
#define EXFAT_ALLOCATION_WORDS 4
#define EXFAT_OUT_WORDS 8

enum exfat_number {
    EXFAT_DONE = 0,
    EXFAT_LIMITS = 1,
    EXFAT_OUTSIDE_HEAP = 2,
    EXFAT_BAD_FAT_VALUE = 3,
    EXFAT_ENDLESS_CHAIN = 4,
    EXFAT_OTHER_COUNT = 5,
    EXFAT_NOT_MARKED = 6,
    EXFAT_TOO_FEW_CLUSTERS = 7,
    EXFAT_END_TOO_LARGE = 8,
    EXFAT_SYSTEM_CLUSTER = 9,
    EXFAT_NO_FILE = 10,
    EXFAT_IS_DIRECTORY = 11,
    EXFAT_NAME_REFUSED = 12,
    EXFAT_ATTRIBUTE_REFUSED = 13,
    EXFAT_LIST_TOO_SHORT = 14,
    EXFAT_ZEROS_REFUSED = 15
};

/*
 * How many clusters the active FAT's bitmap leaves unmarked.
 *
 * Numbers: 1.
 * out[0] is the count; refused, 0.
 */
uint32_t exfat_free_count(const uint8_t *vol, size_t vol_len, const uint8_t *map, size_t map_len,
                          const uint32_t geometry[EXFAT_GEOMETRY_WORDS], uint32_t out[EXFAT_OUT_WORDS]);

/*
 * Writes the clusters of a record, in stream order, to the front of a list; the list's further words stay.
 *
 * Numbers: 1, 14, then the record's: for a run 5, then 2 or 6 of its earliest cluster that is wrong; for a chain 2, 3 or 4, 5, 6.
 * Refused, the whole list stays.
 */
uint32_t exfat_clusters(const uint8_t *vol, size_t vol_len, const uint8_t *map, size_t map_len,
                        const uint32_t geometry[EXFAT_GEOMETRY_WORDS], const uint32_t allocation[EXFAT_ALLOCATION_WORDS],
                        uint32_t *list, size_t list_len);

/*
 * Takes `count` clusters as a new stream: the lowest run of usable clusters from the start on, else the lowest of all, else
 * usable clusters one by one, from the start to the end of the heap and then from 2, linked in the FAT. The start is `near`
 * where has_near is not 0, else the hint. Count 0 gives the empty record.
 *
 * Numbers: 1; 2 for the hint; 7 above the free count; 2 for near; 7 for too few usable clusters.
 * out[0..3] is the record (first, last, count, NoFatChain as 0 or 1), out[4] the new hint; refused, the empty record (four
 * zeros) and the hint as given.
 */
uint32_t exfat_allocate(uint8_t *vol, size_t vol_len, const uint8_t *map, size_t map_len,
                        const uint32_t geometry[EXFAT_GEOMETRY_WORDS], uint32_t count, uint32_t has_near, uint32_t near,
                        uint32_t hint, uint32_t out[EXFAT_OUT_WORDS]);

/*
 * Adds `more` clusters to a record. A run stays one where the clusters behind it are usable; else it is linked in the FAT, and
 * the new clusters are sought from last + 1 on as for allocate. `more` 0 changes nothing; an empty record is an allocation
 * without near.
 *
 * Numbers: 1; 2 for the hint; 7 where count and more are above C or more is above the free count; the record's, as for
 * exfat_clusters; 7 for too few usable clusters.
 * out as for exfat_allocate; refused or with `more` 0, the record and the hint as given (NoFatChain as 0 or 1).
 */
uint32_t exfat_extend(uint8_t *vol, size_t vol_len, const uint8_t *map, size_t map_len,
                      const uint32_t geometry[EXFAT_GEOMETRY_WORDS], const uint32_t allocation[EXFAT_ALLOCATION_WORDS],
                      uint32_t more, uint32_t hint, uint32_t out[EXFAT_OUT_WORDS]);

/*
 * Cuts a record to its first `keep` clusters and frees the others: each gets FAT entry 0 and is unmarked. A chain whose kept
 * numbers rise by one becomes a run, a single kept cluster included. `keep` at or above the count changes nothing, and the
 * record is not looked at.
 *
 * Numbers: 1; 2 for the hint; the record's, as for exfat_clusters; 9 for a system cluster among those to be freed.
 * out[0..3] is the record that is left (empty: four zeros), out[4] the hint as given; refused or with nothing to cut, the record
 * and the hint as given (NoFatChain as 0 or 1).
 */
uint32_t exfat_shrink(uint8_t *vol, size_t vol_len, const uint8_t *map, size_t map_len,
                      const uint32_t geometry[EXFAT_GEOMETRY_WORDS], const uint32_t allocation[EXFAT_ALLOCATION_WORDS],
                      uint32_t keep, uint32_t hint, uint32_t out[EXFAT_OUT_WORDS]);

/*
 * Makes an empty file in the root directory. Its entry set goes to the lowest sequence of unused entries that holds it; the root
 * grows by one zeroed cluster at a time until there is one. The name is 1 to 255 units of UTF-16, none below 32 and none of
 * " * / : < > ? \ |, and not "." or ".."; the caller gives its hash and sees to it that no other file has the same name.
 *
 * Numbers: 1; 2 for the hint; the root's 2, 3, 4, 6, 9; 12; 13; 7.
 * out[0] is the slot of the new set, out[1] the hint, new where the root grew; refused, 0 and the hint as given.
 */
uint32_t exfat_new_file(uint8_t *vol, size_t vol_len, const uint8_t *map, size_t map_len,
                        const uint32_t geometry[EXFAT_GEOMETRY_WORDS], const uint16_t *name, size_t name_len,
                        uint16_t attributes, uint16_t hash, const uint8_t stamps[18], uint32_t hint,
                        uint32_t out[EXFAT_OUT_WORDS]);

/*
 * Writes data to a file from an offset on and makes it longer as needed. What lies between the file's valid length and the
 * offset is zeroed. The modified and accessed stamps become the one given, attribute 0x20 is set, the stream's flags byte is
 * written whole (1, or 3 for a run: its other bits go) and the checksum made anew; empty data does no more than that.
 *
 * Numbers: 1; 2 for the hint; the root's 2, 3, 4, 6, 9; 10; 11; the file's 3 or 4, 5, 6, 9; and with data 8, then 7.
 * out[0] is the hint, new where the file got clusters; refused, the hint as given.
 */
uint32_t exfat_write(uint8_t *vol, size_t vol_len, const uint8_t *map, size_t map_len,
                     const uint32_t geometry[EXFAT_GEOMETRY_WORDS], uint32_t slot, uint64_t offset, const uint8_t *src,
                     size_t src_len, const uint8_t stamp[6], uint32_t hint, uint32_t out[EXFAT_OUT_WORDS]);

/*
 * Sets a file's length. Shorter, the clusters past the new end are freed, the valid length becomes at most the length, and a
 * chain whose kept numbers rise by one becomes a run, also where no cluster is freed; an equal length leaves a chain a chain.
 * Longer, clusters are added and the valid length stays: the bytes from it to the end of its cluster are zeroed, but none past
 * the new length (length and valid length 700, set to 900: 700..899), and further clusters keep the bytes that they have; a
 * reader shows 0 from the valid length on. Stamps, attribute, flags byte and checksum as for exfat_write.
 *
 * Numbers: 1; 2 for the hint; the root's 2, 3, 4, 6, 9; 10; 11; the file's 3 or 4, 5, 6, 9; 7.
 * out[0] is the hint, new where the file got clusters; refused, the hint as given.
 */
uint32_t exfat_set_length(uint8_t *vol, size_t vol_len, const uint8_t *map, size_t map_len,
                          const uint32_t geometry[EXFAT_GEOMETRY_WORDS], uint32_t slot, uint64_t length, const uint8_t stamp[6],
                          uint32_t hint, uint32_t out[EXFAT_OUT_WORDS]);

/*
 * Removes a file: bit 0x80 of the type of each of its entries is cleared, every other byte of them stays; its clusters are freed
 * (FAT entry 0, unmarked) and keep their bytes.
 *
 * Numbers: 1; 2 for the hint; the root's 2, 3, 4, 6, 9; 10; 11; the file's 3 or 4, 5, 6, 9.
 * out[0] is the hint as given.
 */
uint32_t exfat_remove(uint8_t *vol, size_t vol_len, const uint8_t *map, size_t map_len,
                      const uint32_t geometry[EXFAT_GEOMETRY_WORDS], uint32_t slot, uint32_t hint,
                      uint32_t out[EXFAT_OUT_WORDS]);

/*
 * The number of a read of a file: whether exfat_read gives its bytes. No offset changes it. Nothing is written.
 *
 * Numbers: 1; 15; the root's 2, 3, 4, 6, 9; 10; 11; the file's 3 or 4, 5, 6, 9.
 */
uint32_t exfat_read_number(const uint8_t *vol, size_t vol_len, const uint8_t *map, size_t map_len,
                           const uint32_t geometry[EXFAT_GEOMETRY_WORDS], const uint8_t *zeros, size_t zeros_len,
                           uint32_t slot);

/*
 * Where a file's bytes lie from an offset on, so that they need not be copied: the longest part that lies in one piece. Below the
 * valid length it is a part of the volume, through clusters that follow each other (a run's, or a chain's where its numbers rise
 * by one) and not past the valid length. From there to the length, where the file shows 0, it is the first bytes of `zeros`, as
 * many as there are or as the file still has. At the length and past it the part is empty. Parts fetched one after another, from
 * offset 0 and each where the one before ended, until one is empty, are what the file holds. Nothing is written.
 *
 * Numbers: it answers none; refused where exfat_read_number, given the same, is not 0.
 * out[0] is 0 for a part of the volume and 1 for one of the zeros, out[1] its first byte in that slice, out[2] its length in
 * bytes; refused or empty, three zeros. A part is memory that the caller lent: it shows the file as long as the volume is not
 * changed. Each call tests the zeros whole and walks the file's chain whole, so take a part as long as it comes.
 */
void exfat_read(const uint8_t *vol, size_t vol_len, const uint8_t *map, size_t map_len,
                const uint32_t geometry[EXFAT_GEOMETRY_WORDS], const uint8_t *zeros, size_t zeros_len, uint32_t slot,
                uint64_t offset, uint32_t out[EXFAT_OUT_WORDS]);

/* A part of the volume or of the zeros, as a pointer; where it is empty the pointer is that of the volume. */
struct exfat_part {
    const uint8_t *start;
    size_t length;
};

/* exfat_read, and the pointer made of what it gives. This is C, outside of what is proved. */
static inline struct exfat_part exfat_read_part(const uint8_t *vol, size_t vol_len, const uint8_t *map, size_t map_len,
                                                const uint32_t geometry[EXFAT_GEOMETRY_WORDS], const uint8_t *zeros,
                                                size_t zeros_len, uint32_t slot, uint64_t offset)
{
    uint32_t out[EXFAT_OUT_WORDS];
    struct exfat_part part;

    exfat_read(vol, vol_len, map, map_len, geometry, zeros, zeros_len, slot, offset, out);
    part.start = (out[0] ? zeros : vol) + out[1];
    part.length = out[2];
    return part;
}

#ifdef __cplusplus
}
#endif

#endif
