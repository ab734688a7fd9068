//! Generates heaps of classes and objects alone, with the class rows first or last and objects of random classes or of one.

use crate::heap::{Heap, Record, Rng, OBJECTS_AFTER};
use phd_host::row::kind;

/// Where the class rows are.
#[derive(Clone, Copy, PartialEq)]
pub enum Order {
    ClassesFirst,
    ClassesLast,
}

/// The classes of the objects: each at random any of the heap's, or all the same.
#[derive(Clone, Copy, PartialEq)]
pub enum ClassChoice {
    Random,
    One,
}

impl Heap {
    /// Generates `n` rows, of which `classes` are class rows. Heaps that differ only in `choice` have the same references, and
    /// texts of the same length: all names have the same length, and so have all instance sizes.
    pub fn of_objects(n: usize, classes: usize, order: Order, choice: ClassChoice) -> Heap {
        let mut heap = Heap::empty(n);
        let mut rng = Rng::new();
        if order == Order::ClassesFirst {
            heap.equal_classes(classes, &mut rng);
        }
        for i in 0..n - classes {
            let random = rng.below(classes as u64) as usize;
            let class = match choice {
                ClassChoice::Random => random,
                ClassChoice::One => classes / 2,
            };
            let object = Record {
                kind: kind::OBJECT,
                class: Heap::class_address(class),
                count: rng.below(4),
                size: 0,
                length: 0,
                primitive: 0,
            };
            heap.record(OBJECTS_AFTER + 32 * i as u64, &object, &mut rng);
        }
        if order == Order::ClassesLast {
            heap.equal_classes(classes, &mut rng);
        }
        heap
    }

    /// Appends `n` classes with names of the same length.
    fn equal_classes(&mut self, n: usize, rng: &mut Rng) {
        for i in 0..n {
            self.class(i, &format!("com/example/part{:02}/C{i:06}", i % 40), rng);
        }
    }
}
