
impl ConceptPool {
    /// Document 01: "a pool filled with the deck's concepts number by number, equal ones not merged".
    pub fn push_unmerged(&mut self, expr: ConceptExpr) {
        self.by_id.push(expr);
    }
}
