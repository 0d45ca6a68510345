//! The C loop over a store's tables.
use library::store::Lent;

extern "C" {
    fn read_points(
        reference_count: *const u16,
        location: *const u16,
        index_starts: *const u16,
        index_ends: *const u16,
        capacity: usize,
        in_use: usize,
    ) -> u64;
    fn read_labels(
        labels: *const u8,
        label_attributes: *const u16,
        label_count: *const u16,
        label_starts: *const u16,
        label_ends: *const u16,
        attributes: *const u8,
        attribute_count: *const u32,
        attribute_starts: *const u16,
        attribute_ends: *const u16,
        capacity: usize,
        labels_in_use: usize,
        slots_in_use: usize,
    ) -> u64;
}

/// Reads the tables of a well-formed store.
pub fn read(m: &Lent) -> u64 {
    let (capacity, in_use) = (m.words[2] as usize, m.words[10] as usize);
    let points = unsafe {
        read_points(
            m.reference_count.as_ptr(),
            m.location.as_ptr(),
            m.index_starts.as_ptr(),
            m.index_ends.as_ptr(),
            capacity,
            in_use,
        )
    };
    if m.words[5] == 0 {
        return points;
    }
    let labels = unsafe {
        read_labels(
            m.labels.as_ptr(),
            m.label_attributes.as_ptr(),
            m.label_count.as_ptr(),
            m.label_starts.as_ptr(),
            m.label_ends.as_ptr(),
            m.attributes.as_ptr(),
            m.attribute_count.as_ptr(),
            m.attribute_starts.as_ptr(),
            m.attribute_ends.as_ptr(),
            capacity,
            m.words[12] as usize,
            m.words[14] as usize,
        )
    };
    points + labels
}
