//! The original on a deck: its parts as the original's own types, a run phase by phase, and every answer in words.
use crate::answer::{Answer, Bounds};
use crate::parts::Parts;
use original::eval::{AxiomVerdict, Judgement, check_axiom, eval_concept};
use original::model::FiniteModel;
use original::{
    Axiom, ClassId, ConceptExpr, ConceptId, Element, HashMap, IndividualId, InternalOntology, Interpretation, Role,
    RoleHierarchy, RoleId, SubRolePath, Subsumers, UnresolvedReason, Verdict, Vocabulary,
};

pub struct Case {
    pub ontology: InternalOntology,
    subsumers: Subsumers,
    facts: Vec<(ClassId, RoleId, ClassId)>,
    ranges: HashMap<RoleId, Vec<ClassId>>,
    hierarchy: RoleHierarchy,
    own: RoleHierarchy,
    classes: usize,
    dropped: u32,
}

/// A structure as the original left it.
pub struct Built {
    pub model: FiniteModel,
    pub reasons: Vec<UnresolvedReason>,
    /// The last phase that ran, if it tripped a bound.
    pub tripped_in: Option<u32>,
}

impl Built {
    /// The words of the tripped bound.
    pub fn trip(&self) -> Option<[u32; 3]> {
        self.reasons.iter().map(reason_words).find(|words| words[0] == 3)
    }
}

fn classes(numbers: &[u32]) -> Vec<ClassId> {
    numbers.iter().map(|k| ClassId::new(*k)).collect()
}

fn concept_ids(numbers: &[u32]) -> Vec<ConceptId> {
    numbers.iter().map(|c| ConceptId::new(*c)).collect()
}

fn role(word: u32) -> Role {
    let id = RoleId::new(word / 2);
    if word % 2 == 1 { Role::inverse(id) } else { Role::named(id) }
}

fn roles(words: &[u32]) -> Vec<Role> {
    words.iter().map(|word| role(*word)).collect()
}

fn individuals(numbers: &[u32]) -> Vec<IndividualId> {
    numbers.iter().map(|i| IndividualId::new(*i)).collect()
}

pub fn hierarchy(parts: &Parts) -> RoleHierarchy {
    let row = |[start, count, ..]: &[u32; 4]| parts.list(*start, *count).iter().map(|s| RoleId::new(*s)).collect();
    RoleHierarchy { rows: parts.roles.iter().map(row).collect() }
}

fn concept(parts: &Parts, [tag, x, y, z]: [u32; 4]) -> ConceptExpr {
    let id = ConceptId::new;
    match tag {
        0 => ConceptExpr::Top,
        1 => ConceptExpr::Bot,
        2 => ConceptExpr::Atomic(ClassId::new(x)),
        3 => ConceptExpr::Nominal(IndividualId::new(x)),
        4 => ConceptExpr::SelfRestriction(role(x)),
        5 => ConceptExpr::Not(id(x)),
        6 => ConceptExpr::And(concept_ids(parts.list(x, y)).into()),
        7 => ConceptExpr::Or(concept_ids(parts.list(x, y)).into()),
        8 => ConceptExpr::Some(role(x), id(y)),
        9 => ConceptExpr::All(role(x), id(y)),
        10 => ConceptExpr::Min(x, role(y), id(z)),
        _ => ConceptExpr::Max(x, role(y), id(z)),
    }
}

fn axiom(parts: &Parts, [tag, x, y, z]: [u32; 4]) -> Axiom {
    let (id, individual, list) = (ConceptId::new, IndividualId::new, |start, count| parts.list(start, count));
    match tag {
        0 => Axiom::SubClassOf { sub: id(x), sup: id(y) },
        1 => Axiom::EquivalentClasses(concept_ids(list(x, y))),
        2 => Axiom::DisjointClasses(concept_ids(list(x, y))),
        3 => Axiom::DisjointUnion { class: ClassId::new(x), members: concept_ids(list(y, z)) },
        4 => Axiom::SubObjectPropertyOf { sub: SubRolePath::Role(role(x)), sup: role(y) },
        5 => Axiom::SubObjectPropertyOf { sub: SubRolePath::Chain(roles(list(x, y))), sup: role(z) },
        6 => Axiom::EquivalentObjectProperties(roles(list(x, y))),
        7 => Axiom::DisjointObjectProperties(roles(list(x, y))),
        8 => Axiom::InverseObjectProperties(role(x), role(y)),
        9 => Axiom::ObjectPropertyDomain { role: role(x), domain: id(y) },
        10 => Axiom::ObjectPropertyRange { role: role(x), range: id(y) },
        11 => Axiom::TransitiveRole(role(x)),
        12 => Axiom::SymmetricRole(role(x)),
        13 => Axiom::AsymmetricRole(role(x)),
        14 => Axiom::ReflexiveRole(role(x)),
        15 => Axiom::IrreflexiveRole(role(x)),
        16 => Axiom::FunctionalRole(role(x)),
        17 => Axiom::InverseFunctionalRole(role(x)),
        18 => Axiom::ClassAssertion { class: id(x), individual: individual(y) },
        19 => Axiom::ObjectPropertyAssertion { role: role(x), subject: individual(y), object: individual(z) },
        20 => Axiom::NegativeObjectPropertyAssertion { role: role(x), subject: individual(y), object: individual(z) },
        21 => Axiom::SameIndividual(individuals(list(x, y))),
        22 => Axiom::DifferentIndividuals(individuals(list(x, y))),
        23 => Axiom::DeclareClass(ClassId::new(x)),
        24 => Axiom::DeclareObjectProperty(RoleId::new(x)),
        _ => Axiom::DeclareNamedIndividual(individual(x)),
    }
}

impl Case {
    pub fn new(parts: &Parts) -> Self {
        let mut ontology = InternalOntology::new();
        ontology.vocabulary =
            Vocabulary { classes: parts.real, roles: parts.roles.len() as u32, ..Vocabulary::default() };
        for [y, r, q] in &parts.injected {
            ontology.vocabulary.injected.insert((*y, *r), *q);
        }
        for record in &parts.concepts {
            ontology.concepts.push_unmerged(concept(parts, *record));
        }
        ontology.axioms = parts.axioms.iter().map(|record| axiom(parts, *record)).collect();
        let mut ranges = HashMap::new();
        for (r, [_, _, start, count]) in parts.roles.iter().enumerate() {
            if *count > 0 {
                ranges.insert(RoleId::new(r as u32), classes(parts.list(*start, *count)));
            }
        }
        Self {
            ontology,
            subsumers: Subsumers {
                rows: (0..parts.classes.len()).map(|k| classes(parts.row(k))).collect(),
                unsatisfiable: parts.classes.iter().map(|class| class[0] == 1).collect(),
            },
            facts: parts.facts.iter().map(|[x, r, y]| (ClassId::new(*x), RoleId::new(*r), ClassId::new(*y))).collect(),
            ranges,
            hierarchy: hierarchy(parts),
            own: RoleHierarchy { rows: (0..parts.roles.len() as u32).map(|r| vec![RoleId::new(r)]).collect() },
            classes: parts.classes.len(),
            dropped: parts.dropped,
        }
    }

    /// Document 01, section 3: "`last phase` stops after it; a tripped bound skips what follows."
    pub fn build(&self, bounds: Bounds, last_phase: u32) -> Built {
        let bounds = original::Bounds {
            max_elements: bounds.elements as usize,
            max_edges: bounds.edges as usize,
            max_rounds: bounds.rounds as usize,
        };
        let (o, s) = (&self.ontology, &self.subsumers);
        let mut model = FiniteModel::seed(o, s, &self.facts).with_hierarchy(self.hierarchy.clone());
        let (mut reasons, mut tripped_in) = (Vec::new(), None);
        for phase in 2..=last_phase {
            reasons.extend(match phase {
                2 => model.expand(o, s, &self.facts, &self.ranges, &bounds),
                3 => model.expand_from_axioms(o, s, &self.ranges, &bounds),
                _ => model.close_chains_and_transitivity(o, &bounds),
            });
            if matches!(reasons.last(), Some(UnresolvedReason::BoundTripped { .. })) {
                tripped_in = Some(phase);
                break;
            }
        }
        if self.dropped > 0 {
            reasons.push(UnresolvedReason::AxiomsDroppedAtConversion { count: u64::from(self.dropped) });
        }
        Built { model, reasons, tripped_in }
    }

    /// How many elements and edges there are after a phase.
    pub fn size(&self, bounds: Bounds, last_phase: u32) -> [u32; 2] {
        let model = self.build(bounds, last_phase).model;
        let elements = model.domain_size() as u32;
        [elements, edges(&model.with_hierarchy(self.own.clone())).len() as u32]
    }

    pub fn verdicts(&self, interp: &impl Interpretation) -> Vec<[u32; 4]> {
        let judged = |(k, axiom)| verdict_words(check_axiom(&self.ontology.concepts, interp, k, axiom), k);
        self.ontology.axioms.iter().enumerate().map(judged).collect()
    }

    /// The judgement of every concept at every element.
    pub fn judgements(&self, interp: &impl Interpretation) -> Vec<[u32; 4]> {
        let concepts = 0..self.ontology.concepts.len() as u32;
        let at = |c, e| judgement_words(eval_concept(&self.ontology.concepts, interp, e, ConceptId::new(c)));
        concepts.flat_map(|c| interp.elements().map(move |e| at(c, e))).collect()
    }

    /// What the original answers. Whether an axiom fails or is unresolved, the outcome takes from the original's `verify`.
    pub fn answer(&self, built: Built) -> Answer {
        let verdicts = self.verdicts(&built.model);
        let elements = built.model.domain_size() as u32;
        let labels = self.labels(&built.model);
        let model = built.model.with_hierarchy(self.own.clone());
        let edges = edges(&model);
        let (verdict, _) = original::verify::verify(model.with_hierarchy(self.hierarchy.clone()), &self.ontology, None);
        Answer {
            outcome: match verdict {
                Verdict::Violated { .. } => 1,
                Verdict::Unresolved { .. } => 2,
                Verdict::Verified { .. } => 2 * u32::from(!built.reasons.is_empty()),
            },
            elements,
            labels,
            edges,
            reasons: built.reasons.iter().map(reason_words).collect(),
            verdicts,
        }
    }

    fn labels(&self, model: &FiniteModel) -> Vec<u64> {
        let mut words = Vec::new();
        for e in model.elements() {
            let at = words.len();
            words.resize(at + self.classes.div_ceil(64), 0u64);
            for k in 0..self.classes {
                if model.in_concept(e, ClassId::new(k as u32)) {
                    words[at + k / 64] |= 1 << (k % 64);
                }
            }
        }
        words
    }

    /// The edges oldest first: with a bound of k edges the run ends with the edge that makes k + 1.
    pub fn edges_in_order(&self, bounds: Bounds, last_phase: u32, count: usize) -> Vec<[u32; 3]> {
        let mut order: Vec<[u32; 3]> = Vec::new();
        for k in 0..count {
            let built = self.build(Bounds { edges: k as u32, ..bounds }, last_phase);
            let here = edges(&built.model.with_hierarchy(self.own.clone()));
            order.extend(here.into_iter().filter(|edge| !order.contains(edge)).collect::<Vec<_>>());
        }
        order
    }
}

/// The edges of each role's own bucket, in a model whose hierarchy gives each role itself only.
fn edges(model: &FiniteModel) -> Vec<[u32; 3]> {
    let of = |r: u32| model.edges(RoleId::new(r)).into_iter().map(move |(x, y)| [r, x.index(), y.index()]);
    (0..model.num_roles() as u32).flat_map(of).collect()
}

fn reason_words(reason: &UnresolvedReason) -> [u32; 3] {
    match reason {
        UnresolvedReason::LabelNotClosed { class, role } => [1, class.index(), role.index()],
        UnresolvedReason::RunDelta { class } => [2, class.index(), 0],
        UnresolvedReason::BoundTripped { bound, limit } => {
            let bounds = ["max_elements", "max_edges", "max_rounds"];
            let which = bounds.iter().position(|name| name == bound).unwrap();
            [3, which as u32, limit.unwrap() as u32]
        }
        UnresolvedReason::AxiomsDroppedAtConversion { count } => [4, *count as u32, 0],
        other => unreachable!("{other:?}"),
    }
}

fn judgement_words(judgement: Judgement) -> [u32; 4] {
    match judgement {
        Judgement::False => [0, 0, 0, 0],
        Judgement::True => [1, 0, 0, 0],
        Judgement::Unresolved(name) => [2, concept_tag(name), 0, 0],
    }
}

/// The concept tags of the original's names.
fn concept_tag(name: &str) -> u32 {
    match name {
        "Nominal" => 3,
        "SelfRestriction" => 4,
        "Not" => 5,
        "Or" => 7,
        "Some(Inverse)" => 8,
        "All" => 9,
        "Min" => 10,
        "Max" => 11,
        _ => unreachable!("{name}"),
    }
}

/// Tag and word 2 of an axiom that the original does not handle, by its name there.
const UNHANDLED: [(&str, u32, u32); 21] = [
    ("DisjointUnion", 3, 0),
    ("SubObjectPropertyOf(Role, Inverse)", 4, 1),
    ("SubObjectPropertyOf(Chain, len != 2)", 5, 2),
    ("SubObjectPropertyOf(Chain, Inverse)", 5, 1),
    ("EquivalentObjectProperties(Inverse)", 6, 1),
    ("DisjointObjectProperties", 7, 0),
    ("InverseObjectProperties(Inverse)", 8, 1),
    ("ObjectPropertyDomain(Inverse)", 9, 1),
    ("ObjectPropertyRange(Inverse)", 10, 1),
    ("TransitiveRole(Inverse)", 11, 1),
    ("SymmetricRole(Inverse)", 12, 1),
    ("AsymmetricRole", 13, 0),
    ("ReflexiveRole", 14, 0),
    ("IrreflexiveRole", 15, 0),
    ("FunctionalRole", 16, 0),
    ("InverseFunctionalRole", 17, 0),
    ("ClassAssertion", 18, 0),
    ("ObjectPropertyAssertion", 19, 0),
    ("NegativeObjectPropertyAssertion", 20, 0),
    ("SameIndividual", 21, 0),
    ("DifferentIndividuals", 22, 0),
];

fn verdict_words(verdict: AxiomVerdict, index: usize) -> [u32; 4] {
    match verdict {
        AxiomVerdict::Holds => [0; 4],
        AxiomVerdict::Fails { witness, .. } => {
            let at = |k: usize| witness.get(k).map_or(u32::MAX, |e| e.index());
            [1, at(0), at(1), at(2)]
        }
        AxiomVerdict::Unresolved(UnresolvedReason::UnhandledAxiom { axiom_index, variant }) => {
            let (_, tag, part) = UNHANDLED.iter().find(|(name, ..)| *name == variant).unwrap();
            assert_eq!(axiom_index, index);
            [2, *tag, *part, 0]
        }
        AxiomVerdict::Unresolved(UnresolvedReason::UnhandledConcept { axiom_index, variant }) => {
            assert_eq!(axiom_index, index);
            [3, concept_tag(variant), 0, 0]
        }
        AxiomVerdict::Unresolved(UnresolvedReason::GuardedRoleHasEdges { role }) => [4, role.index(), 0, 0],
        AxiomVerdict::Unresolved(other) => unreachable!("{other:?}"),
    }
}

/// A lent structure, for the original's evaluator.
pub struct Given<'a> {
    pub width: usize,
    pub labels: &'a [u64],
    pub elements: u32,
    pub edges: &'a [[u32; 3]],
    pub hierarchy: RoleHierarchy,
}

impl Interpretation for Given<'_> {
    fn domain_size(&self) -> usize {
        self.elements as usize
    }
    fn elements(&self) -> impl Iterator<Item = Element> + '_ {
        (0..self.elements).map(Element::new)
    }
    fn in_concept(&self, e: Element, c: ClassId) -> bool {
        let (e, k) = (e.index() as usize, c.index() as usize);
        self.labels[e * self.width + k / 64] >> (k % 64) & 1 == 1
    }
    fn successors(&self, e: Element, r: RoleId) -> Vec<Element> {
        let subs = self.hierarchy.sub_roles(r);
        let here = self.edges.iter().filter(|[s, x, _]| *x == e.index() && subs.contains(&RoleId::new(*s)));
        let mut found: Vec<Element> = here.map(|[_, _, y]| Element::new(*y)).collect();
        found.sort_unstable();
        found.dedup();
        found
    }
    fn has_edge(&self, from: Element, r: RoleId, to: Element) -> bool {
        self.edges(r).contains(&(from, to))
    }
    fn edges(&self, r: RoleId) -> Vec<(Element, Element)> {
        let subs = self.hierarchy.sub_roles(r);
        let here = self.edges.iter().filter(|[s, ..]| subs.contains(&RoleId::new(*s)));
        let mut pairs: Vec<(Element, Element)> = here.map(|[_, x, y]| (Element::new(*x), Element::new(*y))).collect();
        pairs.sort_unstable();
        pairs.dedup();
        pairs
    }
    fn num_roles(&self) -> usize {
        self.hierarchy.num_roles()
    }
}
