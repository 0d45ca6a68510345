//! A store on both sides, after the same calls. Dimensions 16, shingle size 4, internal shingling; no rotation but where it is said.
use library::hold::LentHold;
use library::store::{Added, Lent, Opening};
use reference::pointstore::PointStore;
use reference::reasons::{Code, BUILT_IN};
use reference::Store;

pub const DIMENSIONS: usize = 16;
pub const BASE: usize = 4;

#[derive(Clone)]
pub struct Sides {
    pub lent: Lent,
    pub rust: Store,
    /// Index and label index of each live point, oldest first.
    pub live: Vec<(usize, usize)>,
    added: usize,
}

pub fn opening(capacity: usize, labels: bool) -> Opening {
    Opening {
        dimensions: DIMENSIONS,
        shingle_size: DIMENSIONS / BASE,
        capacity,
        initial_capacity: capacity,
        internal_shingling: 1,
        internal_rotation: 0,
        store_labels: labels as usize,
        ..Opening::default()
    }
}

pub fn rotating(capacity: usize, labels: bool) -> Opening {
    Opening {
        internal_rotation: 1,
        ..opening(capacity, labels)
    }
}

pub fn rust_opened(o: Opening) -> Store {
    let (shingling, rotation) = (o.internal_shingling == 1, o.internal_rotation == 1);
    let labels = o.store_labels == 1;
    Store::new(
        o.dimensions,
        o.shingle_size,
        o.capacity,
        o.initial_capacity,
        shingling,
        rotation,
        labels,
        false,
    )
    .expect("opening has no error")
}

pub fn lent(capacity: usize, labels: bool) -> Lent {
    let tables = if labels { capacity } else { 0 };
    Lent {
        words: vec![0; 39],
        store: vec![0; capacity * DIMENSIONS],
        last_known_shingle: vec![0; DIMENSIONS],
        reference_count: vec![0; capacity],
        location: vec![0; capacity],
        index_starts: vec![0; capacity],
        index_ends: vec![0; capacity],
        labels: vec![0; tables],
        label_attributes: vec![0; tables],
        label_count: vec![0; tables],
        label_starts: vec![0; tables],
        label_ends: vec![0; tables],
        attributes: vec![0; tables],
        attribute_count: vec![0; tables],
        attribute_starts: vec![0; tables],
        attribute_ends: vec![0; tables],
    }
}

/// A hold of this width, after the adds of `Sides::filled` at as many live points.
pub fn filled_hold(capacity: usize, labels: bool, width: usize) -> LentHold {
    let mut hold = LentHold {
        store: lent(capacity, labels),
        held_indices: vec![0; capacity],
        held_labels: vec![0; if labels { capacity } else { 0 }],
    };
    hold.store.words.resize(41, 0);
    assert_eq!(hold.open(opening(capacity, labels), width), 0, "opening");
    let mut held = 0;
    for k in 0.. {
        assert_eq!(hold.number(&mut held), 0, "the number held");
        if held == width as u64 {
            break;
        }
        assert_eq!(
            hold.add(&words(&point(k)), k % 24, &mut nothing_added()),
            0,
            "a hold add"
        );
    }
    hold
}

/// The k-th point: readings of a slow wave.
pub fn point(k: usize) -> [f32; BASE] {
    std::array::from_fn(|i| 40.0 + (k as f32 * 0.1 + i as f32).sin())
}

pub fn words(point: &[f32]) -> Vec<u32> {
    point.iter().map(|x| x.to_bits()).collect()
}

pub fn nothing_added() -> Added {
    Added {
        kept: 0,
        index: 0,
        label_index: 0,
        joined: 0,
        place: 0,
        free_indices: 0,
    }
}

impl Sides {
    pub fn opened(o: Opening) -> Self {
        let mut memory = lent(o.capacity, o.store_labels == 1);
        assert_eq!(memory.open(o), 0, "opening");
        Sides {
            lent: memory,
            rust: rust_opened(o),
            live: Vec::new(),
            added: 0,
        }
    }

    pub fn add(&mut self) {
        let (point, code) = (point(self.added), self.added % 24);
        let mut a = nothing_added();
        let value = self.lent.add(&words(&point), code, &mut a);
        let (index, label_index, _) = self.rust.add(&point, Code::of(code, &BUILT_IN)).expect("an add");
        assert_eq!(value, 0, "an add");
        self.added += 1;
        if a.kept == 1 {
            assert_eq!((a.index, a.label_index), (index as u64, label_index as u64));
            self.live.push((index, label_index));
        }
    }

    pub fn dec(&mut self, place: usize) {
        let (index, label) = self.live.remove(place);
        assert_eq!(self.lent.dec(index, label), 0, "a dec");
        self.rust.dec(index, label).expect("a dec");
    }

    /// With so many live points.
    pub fn filled(o: Opening, live: usize) -> Self {
        let mut sides = Sides::opened(o);
        while sides.live.len() < live {
            sides.add();
        }
        sides
    }

    /// Full, and then every second point gone.
    pub fn fragmented(o: Opening) -> Self {
        let mut sides = Sides::filled(o, o.capacity);
        for place in (0..o.capacity / 2).rev() {
            sides.dec(2 * place);
        }
        sides
    }
}
