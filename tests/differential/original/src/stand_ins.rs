//! What is missing from the original files, or cannot say what a deck says. Document 01: "`Subsumers::subsumers_of` is a
//! class's row, `is_unsatisfiable` its flag, the injected class for (y, r) is q. Differential runs use these stand-ins,
//! the sub-role rows as hierarchy".
use crate::{ClassId, InternalOntology, RoleId};
use std::hash::{BuildHasher, BuildHasherDefault, Hasher};
use std::ops::{Deref, DerefMut};

/// hashbrown's map: std's, which is built on hashbrown, with a quick hasher.
#[derive(Clone, Debug)]
pub struct HashMap<K, V, S = BuildHasherDefault<Mixer>>(std::collections::HashMap<K, V, S>);

impl<K, V> HashMap<K, V> {
    pub fn new() -> Self {
        Self::default()
    }
}

impl<K, V, S: BuildHasher + Default> Default for HashMap<K, V, S> {
    fn default() -> Self {
        Self(std::collections::HashMap::default())
    }
}

impl<K, V, S> Deref for HashMap<K, V, S> {
    type Target = std::collections::HashMap<K, V, S>;
    fn deref(&self) -> &Self::Target {
        &self.0
    }
}

impl<K, V, S> DerefMut for HashMap<K, V, S> {
    fn deref_mut(&mut self) -> &mut Self::Target {
        &mut self.0
    }
}

/// Multiplies and turns, word by word.
#[derive(Default, Clone)]
pub struct Mixer(u64);

impl Mixer {
    fn add(&mut self, word: u64) {
        self.0 = (self.0.rotate_left(5) ^ word).wrapping_mul(0x517c_c1b7_2722_0a95);
    }
}

impl Hasher for Mixer {
    fn finish(&self) -> u64 {
        self.0.rotate_left(26)
    }
    fn write(&mut self, bytes: &[u8]) {
        for part in bytes.chunks(8) {
            let mut word = [0; 8];
            word[..part.len()].copy_from_slice(part);
            self.add(u64::from_le_bytes(word));
        }
    }
    fn write_u32(&mut self, word: u32) {
        self.add(u64::from(word));
    }
    fn write_usize(&mut self, word: usize) {
        self.add(word as u64);
    }
}

/// The rows and flags of a deck's classes.
#[derive(Default)]
pub struct Subsumers {
    pub rows: Vec<Vec<ClassId>>,
    pub unsatisfiable: Vec<bool>,
}

impl Subsumers {
    pub fn subsumers_of(&self, c: ClassId) -> Vec<ClassId> {
        self.rows[c.index() as usize].clone()
    }
    pub fn is_unsatisfiable(&self, c: ClassId) -> bool {
        self.unsatisfiable[c.index() as usize]
    }
}

type Facts = Vec<(ClassId, RoleId, ClassId)>;

/// Only `build_model` asks for it, and no run calls that.
pub fn saturate_with_exists_facts(_: &InternalOntology) -> (Subsumers, Facts, ()) {
    unreachable!()
}

pub mod residual_absorbability {
    pub const SYNTHETIC_CLASS_IRI_PREFIX: &str = "urn:rustdl-";
}

/// The real classes, the roles, and the injected class for (y, r), which `model.rs` asks for by an IRI.
#[derive(Default, Clone, Debug)]
pub struct Vocabulary {
    pub classes: u32,
    pub roles: u32,
    pub injected: HashMap<(u32, u32), u32>,
}

impl Vocabulary {
    pub fn class_id(&self, iri: &str) -> Option<ClassId> {
        let (y, r) = iri.strip_prefix("urn:rustdl-verify-aug:")?.split_once(':')?;
        let pair = (y.parse().ok()?, r.parse().ok()?);
        self.injected.get(&pair).map(|q| ClassId::new(*q))
    }
    pub fn class_iri(&self, _: ClassId) -> &str {
        ""
    }
    pub fn intern_class(&mut self, _: &str) -> ClassId {
        unreachable!()
    }
    pub fn num_classes(&self) -> usize {
        self.classes as usize
    }
    pub fn num_roles(&self) -> usize {
        self.roles as usize
    }
    pub fn classes(&self) -> impl Iterator<Item = (ClassId, &str)> + '_ {
        (0..self.classes).map(|k| (ClassId::new(k), ""))
    }
}

/// The sub-role rows of a deck, as they stand.
#[derive(Clone, Debug)]
pub struct RoleHierarchy {
    pub rows: Vec<Vec<RoleId>>,
}

impl RoleHierarchy {
    pub fn sub_roles(&self, r: RoleId) -> &[RoleId] {
        &self.rows[r.index() as usize]
    }
    pub fn super_roles(&self, _: RoleId) -> &[RoleId] {
        unreachable!()
    }
    pub fn num_roles(&self) -> usize {
        self.rows.len()
    }
}

/// Only `build_model` builds hierarchies.
#[derive(Default)]
pub struct RoleHierarchyBuilder;

impl RoleHierarchyBuilder {
    pub fn with_roles(_: u32) -> Self {
        unreachable!()
    }
    pub fn add_sub_role(&mut self, _: RoleId, _: RoleId) {
        unreachable!()
    }
    pub fn build(self) -> RoleHierarchy {
        unreachable!()
    }
}
