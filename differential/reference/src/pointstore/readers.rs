//! The store's private fields, for comparing.
use super::VectorizedPointStore;
use crate::common::intervalstoremanager::IntervalStoreManager;
use crate::types::Location;
use std::hash::Hash;

impl<L, Label, Attributes> VectorizedPointStore<L, Label, Attributes>
where
    L: Location,
    Label: Copy + Sync + Into<Attributes>,
    Attributes: Copy + Sync + Hash + Eq + Send,
{
    pub fn floats(&self) -> &[f32] {
        &self.store
    }

    pub fn window(&self) -> &[f32] {
        &self.last_known_shingle
    }

    pub fn places(&self) -> &[L] {
        &self.location
    }

    pub fn table_length(&self) -> usize {
        self.reference_count.len()
    }

    pub fn free_start(&self) -> usize {
        self.start_free_region
    }

    pub fn sequence(&self) -> usize {
        self.next_sequence_index
    }

    /// A point's count: 255 stands for 255 and what the hash map has besides.
    pub fn point_count(&self, index: usize) -> usize {
        self.reference_count[index] as usize + self.hash_reference_counts.get(&index).unwrap_or(&0)
    }

    pub fn labels_given(&self) -> usize {
        self.label_count.len()
    }

    pub fn label_count(&self, label: usize) -> usize {
        self.label_count[label] as usize + self.hash_label_counts.get(&label).unwrap_or(&0)
    }

    /// A label's code and slot, as they stand.
    pub fn label_entry(&self, label: usize) -> (Label, usize) {
        self.labels[&label]
    }

    pub fn classes(&self) -> &[Attributes] {
        &self.attributes
    }

    pub fn slot_count(&self, slot: usize) -> usize {
        self.attribute_count[slot] as usize + self.hash_attribute_counts.get(&slot).unwrap_or(&0)
    }

    pub fn index_manager(&self) -> &IntervalStoreManager<usize> {
        &self.index_manager
    }

    pub fn label_manager(&self) -> &IntervalStoreManager<usize> {
        &self.label_manager
    }

    pub fn attribute_manager(&self) -> &IntervalStoreManager<usize> {
        &self.attribute_manager
    }

    /// Sets the sequence, as if so many points had been added: the one writer here.
    pub fn at_sequence(&mut self, sequence: usize) {
        self.next_sequence_index = sequence;
    }
}
