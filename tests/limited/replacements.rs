//! What the instrumented copy changes in the original texts: calls of `limits` at the Rust's own calls and pushes, and
//! options 4 and 8, which the original has not.

use source::{Replacement, once};

/// The replacements of a module, in their order.
pub fn of(module: &str) -> &'static [Replacement] {
    match module {
        "ir" => &IR,
        "normalize" => &NORMALIZE,
        "clause" => &CLAUSE,
        _ => &[],
    }
}

const IR: [Replacement; 2] = [
    // A record that the pool does not hold yet.
    once(
        "        let id =
            ConceptId(u32::try_from(self.by_id.len())",
        "        crate::limits::intern(self.by_id.len(), &expr);
        let id =
            ConceptId(u32::try_from(self.by_id.len())",
    ),
    // A Min 0 record, which `min` never makes.
    once(
        "    pub fn max(&mut self, n: u32, r: Role, c: ConceptId) -> ConceptId {",
        "    pub fn min_zero(&mut self, r: Role, c: ConceptId) -> ConceptId {
        self.intern_raw(ConceptExpr::Min(0, r, c))
    }

    pub fn max(&mut self, n: u32, r: Role, c: ConceptId) -> ConceptId {",
    ),
];

const NORMALIZE: [Replacement; 3] = [
    once(
        "pub fn to_nnf(cid: ConceptId, pool: &mut ConceptPool) -> ConceptId {",
        "pub fn to_nnf(cid: ConceptId, pool: &mut ConceptPool) -> ConceptId {
    crate::limits::visit();",
    ),
    once(
        "fn push_negation_in(cid: ConceptId, pool: &mut ConceptPool) -> ConceptId {",
        "fn push_negation_in(cid: ConceptId, pool: &mut ConceptPool) -> ConceptId {
    crate::limits::visit();",
    ),
    once(
        "        out.push(nnf_axiom(ax, pool));
    }",
        "        crate::limits::axiom(out.len());
        out.push(nnf_axiom(ax, pool));
    }
    crate::limits::normalised(pool, &out);",
    ),
];

const CLAUSE: [Replacement; 30] = [
    // The options.
    once(
        r#"std::env::var_os("RUSTDL_WEDGE_BODY_DECOMPOSE").is_none_or(|v| v != "0")"#,
        "crate::limits::options().decompose",
    ),
    once(
        r#"std::env::var_os("RUSTDL_CARD_DISJUNCT_ATOMS")
                .is_none_or(|v| v != "0" && !v.is_empty()),"#,
        "crate::limits::options().card_disjunct_atoms,
            awaited: std::collections::VecDeque::new(),",
    ),
    // Option 4: the filler of an at-most and the fresh class that names it wait from when the class is taken; once an
    // axiom is clausified, the filler is put below its name, and so with those that join on the way.
    once(
        "    card_disjunct_atoms: bool,
}",
        "    card_disjunct_atoms: bool,
    awaited: std::collections::VecDeque<(ConceptId, ClassId)>,
}",
    ),
    once(
        "            ConceptExpr::Max(n, role, inner) => {
                let (n, role, inner) = (*n, self.canon_role(*role), *inner);
                let qual = self.cardinality_qualifier(inner);",
        "            ConceptExpr::Max(n, role, inner) => {
                let (n, role, inner) = (*n, self.canon_role(*role), *inner);
                let qual = self.limit_qualifier(inner);",
    ),
    once(
        "                let qual = self.cardinality_qualifier(inner);
                Some(Atom::AtMost(role, qual, n, var))",
        "                let qual = self.limit_qualifier(inner);
                Some(Atom::AtMost(role, qual, n, var))",
    ),
    once(
        "            ConceptExpr::Top => None,
            _ => self.atomic_name_of(filler),
        }
    }",
        "            ConceptExpr::Top => None,
            _ => self.atomic_name_of(filler),
        }
    }

    fn limit_qualifier(&mut self, filler: ConceptId) -> Option<ClassId> {
        match self.pool.get(filler) {
            ConceptExpr::Top => None,
            _ => self.name_of(filler, crate::limits::options().equal_names),
        }
    }

    fn settle(&mut self) {
        while let Some((filler, name)) = self.awaited.pop_front() {
            crate::limits::settling(true);
            let name = self.pool.atomic(name);
            self.clausify_gci(filler, name);
        }
        crate::limits::settling(false);
    }",
    ),
    once(
        "        let q = self.fresh_class();
        self.emit_head(vec![Atom::Class(q, X)], c, X);",
        "        let q = self.fresh_class();
        if awaits {
            crate::limits::awaits();
            self.awaited.push_back((c, q));
        }
        self.emit_head(vec![Atom::Class(q, X)], c, X);",
    ),
    // Option 8: the step again, until the id is no key. The map has no ring: an entry leads to no older key.
    once(
        "    fn canon_role(&self, r: Role) -> Role {
        match self.inverse_canon.get(&r.role_id()) {
            None => r,
            Some(&canon) => {
                if r.is_inverse() {
                    canon.flip()
                } else {
                    canon
                }
            }
        }
    }",
        "    fn canon_role(&self, mut r: Role) -> Role {
        let mut steps = 0;
        while let Some(&canon) = self.inverse_canon.get(&r.role_id()) {
            r = if r.is_inverse() {
                canon.flip()
            } else {
                canon
            };
            steps += 1;
            if !crate::limits::options().follow_roles {
                break;
            }
        }
        crate::limits::followed(steps);
        r
    }",
    ),
    // Visits, fresh ids, deferrals.
    once(
        "fn encode_antecedent(&mut self, c: ConceptId, var: Var) -> Option<Vec<Vec<Atom>>> {",
        "fn encode_antecedent(&mut self, c: ConceptId, var: Var) -> Option<Vec<Vec<Atom>>> {
        crate::limits::visit();",
    ),
    once(
        "fn emit_head(&mut self, body: Vec<Atom>, head_concept: ConceptId, var: Var) {",
        "fn emit_head(&mut self, body: Vec<Atom>, head_concept: ConceptId, var: Var) {
        crate::limits::visit();",
    ),
    once(
        "fn head_atom_for(&mut self, c: ConceptId, var: Var) -> Option<Atom> {",
        "fn head_atom_for(&mut self, c: ConceptId, var: Var) -> Option<Atom> {
        crate::limits::visit();",
    ),
    once(
        "fn atomic_name_of(&mut self, c: ConceptId) -> Option<ClassId> {",
        "fn atomic_name_of(&mut self, c: ConceptId) -> Option<ClassId> {
        self.name_of(c, false)
    }

    fn name_of(&mut self, c: ConceptId, awaits: bool) -> Option<ClassId> {
        crate::limits::visit();",
    ),
    once(
        "let id = ClassId::new(self.next_fresh);",
        "crate::limits::fresh();
        let id = ClassId::new(self.next_fresh);",
    ),
    once(
        "self.deferred += 1;",
        "crate::limits::defer(kind);
        self.deferred += 1;",
    ),
    // Bodies and heads in hand: And and Some of an antecedent, disjoint pairs, covering, All and Not, Or, counted loops.
    once(
        "combined.extend_from_slice(b);",
        "crate::limits::in_hand(combined.len() + b.len());
                            combined.extend_from_slice(b);",
    ),
    once(
        "body.extend(alt);",
        "crate::limits::in_hand(body.len() + alt.len());
                    body.extend(alt);",
    ),
    Replacement {
        find: "body.extend_from_slice(b);",
        times: 2,
        put: "crate::limits::in_hand(body.len() + b.len());
                                body.extend_from_slice(b);",
    },
    once(
        "head.push(Atom::Class(cid, X));",
        "crate::limits::in_hand(head.len() + 1);
                        head.push(Atom::Class(cid, X));",
    ),
    once(
        "b.push(Atom::Role(role, var, y));",
        "crate::limits::in_hand(b.len() + 1);
                b.push(Atom::Role(role, var, y));",
    ),
    once(
        "b.push(Atom::Class(a, var));",
        "crate::limits::in_hand(b.len() + 1);
                    b.push(Atom::Class(a, var));",
    ),
    once(
        "b.push(Atom::Role(role, var, var));",
        "crate::limits::in_hand(b.len() + 1);
                    b.push(Atom::Role(role, var, var));",
    ),
    once(
        "head.push(atom);",
        "crate::limits::in_hand(head.len() + 1);
                        head.push(atom);",
    ),
    once(
        "body.push(Atom::Role(role, v, fresh));",
        "crate::limits::in_hand(body.len() + 1);
            body.push(Atom::Role(role, v, fresh));",
    ),
    // The clause and atom tables.
    Replacement {
        find: "self.clauses.push(DlClause {",
        times: 20,
        put: "crate::limits::push(&mut self.clauses, DlClause {",
    },
    once(
        "cz.clauses.push(new);",
        "crate::limits::push(&mut cz.clauses, new);",
    ),
    once(
        "cz.clauses.extend(new);",
        "for clause in new {
        crate::limits::push(&mut cz.clauses, clause);
    }",
    ),
    once(
        "    c.clauses = out;",
        "    crate::limits::finished(&out);
    c.clauses = out;",
    ),
    // The axiom under way, and the stages.
    once(
        "        dkey_classes,
    );
    for ax in &normalized {
        c.clausify_axiom(ax);
    }",
        "        dkey_classes,
    );
    for (index, ax) in normalized.iter().enumerate() {
        crate::limits::axiom(index);
        c.clausify_axiom(ax);
        c.settle();
    }
    crate::limits::passed(crate::limits::Pass::Axioms, &c.clauses);",
    ),
    once(
        "        apply_reflexive_roles(&mut c, &reflexive);
        add_counted_self_loops(&mut c, &reflexive);
    }
    // Last,",
        "        apply_reflexive_roles(&mut c, &reflexive);
    }
    crate::limits::passed(crate::limits::Pass::Reflexive, &c.clauses);
    if !reflexive.is_empty() {
        add_counted_self_loops(&mut c, &reflexive);
    }
    crate::limits::passed(crate::limits::Pass::Loops, &c.clauses);
    // Last,",
    ),
    once(
        "    stats.decomposed = decomposed;",
        "    stats.decomposed = decomposed;
    crate::limits::passed(crate::limits::Pass::Last, &c.clauses);",
    ),
];
