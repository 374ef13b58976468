//! The symbols of one case, and random types, terms and formulas over them.

use super::expr::*;
use super::rng::Rng;
use super::spelling;
use crate::kinds::*;
use std::collections::HashSet;

pub struct Constant {
    pub ty: Expr,
    pub name: Vec<u8>,
    /// Kept for the closing of branches: no random formula uses it.
    pub reserved: bool,
}

pub struct Function {
    /// Result first.
    pub types: Vec<Expr>,
    pub parameters: u32,
    pub name: Vec<u8>,
}

pub struct World {
    pub rng: Rng,
    pub given: Vec<Vec<u8>>,
    pub constants: Vec<Constant>,
    pub functions: Vec<Function>,
    /// In percent: terms that are choices. 0 in some worlds, so that there are cases without any.
    pub choices: usize,
    /// Letters a to z only, or all that names may have.
    wide_names: bool,
    /// By characters, not by bytes.
    taken: HashSet<String>,
    given_taken: HashSet<String>,
}

/// Where a formula is made: the types of the variables bound around it and the number of type variables.
#[derive(Clone, Default)]
pub struct Scope {
    pub bound: Vec<Expr>,
    pub variables: u32,
}

impl Scope {
    pub fn polymorphic(variables: u32) -> Scope {
        Scope {
            bound: Vec::new(),
            variables,
        }
    }
}

impl World {
    pub fn new(mut rng: Rng) -> World {
        let wide_names = rng.chance(40);
        let choices = *rng.pick(&[0, 0, 10, 20, 35]);
        let mut world = World {
            rng,
            given: Vec::new(),
            constants: Vec::new(),
            functions: Vec::new(),
            choices,
            wide_names,
            taken: HashSet::new(),
            given_taken: HashSet::new(),
        };
        for _ in 0..world.rng.range(1, 3) {
            world.new_given();
        }
        for _ in 0..world.rng.below(4) {
            let ty = world.closed_type(2);
            world.new_constant(ty);
        }
        for _ in 0..world.rng.below(4) {
            world.new_function();
        }
        world
    }

    /// One given type, no other symbols.
    pub fn bare() -> World {
        let mut world = World {
            rng: Rng::new(0),
            given: Vec::new(),
            constants: Vec::new(),
            functions: Vec::new(),
            choices: 0,
            wide_names: false,
            taken: HashSet::new(),
            given_taken: HashSet::new(),
        };
        world.new_given();
        world
    }

    pub fn new_given(&mut self) -> u32 {
        let name = self.name(true);
        self.given.push(name);
        self.given.len() as u32 - 1
    }

    pub fn new_constant(&mut self, ty: Expr) -> u32 {
        let name = self.name(false);
        self.constants.push(Constant {
            ty,
            name,
            reserved: false,
        });
        self.constants.len() as u32 - 1
    }

    pub fn new_reserved(&mut self, ty: Expr) -> u32 {
        let symbol = self.new_constant(ty);
        self.constants[symbol as usize].reserved = true;
        symbol
    }

    pub fn new_function(&mut self) -> u32 {
        let parameters = *self.rng.pick(&[0, 0, 1, 1, 1, 2, 2, 3, 4]);
        let arguments = self.rng.below(5);
        let types = (0..=arguments).map(|_| self.ty(parameters, 2)).collect();
        self.add_function(types, parameters)
    }

    pub fn add_function(&mut self, types: Vec<Expr>, parameters: u32) -> u32 {
        let name = self.name(false);
        self.functions.push(Function {
            types,
            parameters,
            name,
        });
        self.functions.len() as u32 - 1
    }

    /// A right name not taken yet; a constant's may be that of a given type, in its spelling or another.
    fn name(&mut self, of_given: bool) -> Vec<u8> {
        if !of_given && self.rng.chance(10) {
            let mut shared = self.rng.pick(&self.given).clone();
            if self.rng.chance(50) {
                shared = spelling::respelled(&mut self.rng, &shared);
            }
            if self.taken.insert(spelling::characters(&shared)) {
                return shared;
            }
        }
        loop {
            let name = random_name(&mut self.rng, self.wide_names);
            let taken = match of_given {
                true => &mut self.given_taken,
                false => &mut self.taken,
            };
            if taken.insert(spelling::characters(&name)) {
                return name;
            }
        }
    }

    pub fn type_of(&self, term: &Expr) -> Expr {
        match term.kind() {
            CONSTANT => self.constants[term.number() as usize].ty.clone(),
            BOUND | APPLICATION => term.child(0),
            POWERSET | CHOICE => term.child(1),
            _ => term.child(2),
        }
    }

    pub fn closed_type(&mut self, depth: usize) -> Expr {
        self.ty(0, depth)
    }

    /// A type with variables below the count.
    pub fn ty(&mut self, variables: u32, depth: usize) -> Expr {
        match self.rng.below(10) {
            0..=1 if depth > 0 => set_type(self.ty(variables, depth - 1)),
            2 if depth > 0 => {
                let left = self.ty(variables, depth - 1);
                pair_type(left, self.ty(variables, depth - 1))
            }
            3..=7 if variables > 0 => type_variable(self.rng.below(variables as usize) as u32),
            _ => given(self.rng.below(self.given.len()) as u32),
        }
    }

    /// A term of the type; closed if nothing is bound in the scope.
    pub fn term(&mut self, ty: &Expr, scope: &Scope, depth: usize) -> Expr {
        let bound_here: Vec<usize> = (0..scope.bound.len())
            .filter(|&i| scope.bound[scope.bound.len() - 1 - i] == *ty && i < 64)
            .collect();
        if !bound_here.is_empty() && self.rng.chance(70) {
            return bound(*self.rng.pick(&bound_here) as u32, ty.clone());
        }
        if depth > 0 && self.rng.chance(self.choices) {
            return choice(
                self.term(&set_type(ty.clone()), scope, depth - 1),
                ty.clone(),
            );
        }
        if depth > 0 && self.rng.chance(45) {
            if let Some(term) = self.compound(ty, scope, depth - 1) {
                return term;
            }
        }
        if depth > 0 && self.rng.chance(35) {
            if let Some(term) = self.applied(ty, scope, depth - 1) {
                return term;
            }
        }
        if ty.variables() == 0 {
            return constant(self.constant_of(ty));
        }
        // Only a function has values of a type with variables.
        let function = self.any_function();
        application(function, vec![ty.clone(), ty.clone()], vec![])
    }

    fn constant_of(&mut self, ty: &Expr) -> u32 {
        let fitting: Vec<u32> = (0..self.constants.len() as u32)
            .filter(|&c| {
                let constant = &self.constants[c as usize];
                !constant.reserved && constant.ty == *ty
            })
            .collect();
        if fitting.is_empty() || (fitting.len() < 3 && self.rng.chance(15)) {
            return self.new_constant(ty.clone());
        }
        *self.rng.pick(&fitting)
    }

    /// A function without arguments that has every type as its value's.
    fn any_function(&mut self) -> u32 {
        let types = vec![type_variable(0)];
        let found = (self.functions.iter()).position(|f| f.parameters == 1 && f.types == types);
        match found {
            Some(function) => function as u32,
            None => self.add_function(types, 1),
        }
    }

    fn compound(&mut self, ty: &Expr, scope: &Scope, depth: usize) -> Option<Expr> {
        match ty.kind() {
            PAIR_TYPE => {
                let left = self.term(&ty.child(0), scope, depth);
                let right = self.term(&ty.child(1), scope, depth);
                Some(pair(left, right, ty.clone()))
            }
            SET_TYPE if ty.child(0).is(PAIR_TYPE) => {
                let sides = ty.child(0);
                let left = self.term(&set_type(sides.child(0)), scope, depth);
                let right = self.term(&set_type(sides.child(1)), scope, depth);
                Some(product(left, right, ty.clone()))
            }
            SET_TYPE if ty.child(0).is(SET_TYPE) => {
                let of = self.term(&ty.child(0), scope, depth);
                Some(powerset(of, ty.clone()))
            }
            _ => None,
        }
    }

    fn applied(&mut self, ty: &Expr, scope: &Scope, depth: usize) -> Option<Expr> {
        if self.functions.is_empty() {
            return None;
        }
        let function = self.rng.below(self.functions.len());
        let (signature, parameters) = {
            let f = &self.functions[function];
            (f.types.clone(), f.parameters)
        };
        let mut found: Vec<Option<Expr>> = vec![None; 4];
        if !matches_type(&signature[0], ty, &mut found) {
            return None;
        }
        let put: Vec<Expr> = (0..parameters as usize)
            .map(|i| match found[i].take() {
                Some(ty) => ty,
                None => self.ty(scope.variables, 1),
            })
            .collect();
        let mut arguments = Vec::new();
        for argument in &signature[1..] {
            let ty = argument.put_types(&put);
            if ty.weight() > 40 {
                return None;
            }
            arguments.push(self.term(&ty, scope, depth.min(1)));
        }
        let types = std::iter::once(ty.clone()).chain(put).collect();
        Some(application(function as u32, types, arguments))
    }

    pub fn formula(&mut self, scope: &mut Scope, depth: usize) -> Expr {
        if depth == 0 {
            return self.atom(scope);
        }
        if scope.bound.is_empty() && self.rng.below(300) == 0 {
            return self.many_binders(scope, depth - 1);
        }
        match self.rng.below(20) {
            0..=3 => {
                let left = self.formula(scope, depth - 1);
                and(left, self.formula(scope, depth - 1))
            }
            4..=7 => {
                let left = self.formula(scope, depth - 1);
                implies(left, self.formula(scope, depth - 1))
            }
            8..=12 => not(self.formula(scope, depth - 1)),
            13..=16 => {
                let ty = self.quantified_type(scope);
                scope.bound.push(ty.clone());
                let body = self.formula(scope, depth - 1);
                scope.bound.pop();
                all(ty, body)
            }
            _ => self.atom(scope),
        }
    }

    /// Where choices are wanted often a set's type, so that they are made of the variable.
    pub fn quantified_type(&mut self, scope: &Scope) -> Expr {
        let ty = self.ty(scope.variables, 1);
        match self.rng.chance(2 * self.choices) {
            true => set_type(ty),
            false => ty,
        }
    }

    /// Up to more quantifiers than there are indices.
    fn many_binders(&mut self, scope: &mut Scope, depth: usize) -> Expr {
        let count = *self.rng.pick(&[5, 20, 62, 63, 64, 65, 66]);
        let types: Vec<Expr> = (0..count).map(|_| self.ty(scope.variables, 0)).collect();
        scope.bound.extend(types.iter().cloned());
        let body = self.formula(scope, depth);
        scope.bound.truncate(scope.bound.len() - count);
        types.into_iter().rev().fold(body, |body, ty| all(ty, body))
    }

    fn atom(&mut self, scope: &Scope) -> Expr {
        match self.rng.below(12) {
            0 => bottom(),
            1 => top(),
            2..=6 => {
                let ty = self.atom_type(scope);
                let left = self.term(&ty, scope, 1);
                match self.rng.chance(20) {
                    true => equal(left.clone(), left),
                    false => equal(left, self.term(&ty, scope, 2)),
                }
            }
            _ => {
                let ty = self.atom_type(scope);
                let left = self.term(&ty, scope, 1);
                member(left, self.term(&set_type(ty), scope, 2))
            }
        }
    }

    /// Often the type of a variable in scope, so that it is used.
    fn atom_type(&mut self, scope: &Scope) -> Expr {
        if !scope.bound.is_empty() && self.rng.chance(75) {
            // Among many binders, often one of the outermost.
            let among = match self.rng.chance(30) {
                true => &scope.bound[..scope.bound.len().min(3)],
                false => &scope.bound[..],
            };
            let ty = self.rng.pick(among).clone();
            return match ty.is(SET_TYPE) && self.rng.chance(self.choices) {
                true => ty.child(0),
                false => ty,
            };
        }
        self.ty(scope.variables, 2)
    }

    pub fn closed_formula(&mut self, depth: usize) -> Expr {
        self.formula(&mut Scope::default(), depth)
    }

    /// A kind 22 formula over some type variables.
    pub fn polymorphic(&mut self, depth: usize) -> Expr {
        let count = self.rng.range(1, 4) as u32;
        let body = self.formula(&mut Scope::polymorphic(count), depth);
        all_types(count, body)
    }
}

/// Whether the type is the pattern with types put in; finds them.
fn matches_type(pattern: &Expr, ty: &Expr, found: &mut [Option<Expr>]) -> bool {
    if pattern.is(TYPE_VARIABLE) {
        let place = &mut found[pattern.number() as usize];
        return match place {
            Some(before) => before == ty,
            None => {
                *place = Some(ty.clone());
                true
            }
        };
    }
    pattern.kind() == ty.kind()
        && pattern.number() == ty.number()
        && (pattern.children().iter().zip(ty.children())).all(|(p, t)| matches_type(p, t, found))
}

fn random_name(rng: &mut Rng, wide: bool) -> Vec<u8> {
    if !wide {
        return (0..rng.range(1, 3))
            .map(|_| b'a' + rng.below(26) as u8)
            .collect();
    }
    let most = *rng.pick(&[1, 4, 8, 9, 16, 17, 31, 32, 32]);
    let mut name = Vec::new();
    loop {
        let before = name.len();
        match rng.below(10) {
            0 if !name.is_empty() => name.push(b'0' + rng.below(10) as u8),
            1 if !name.is_empty() => name.push(b'_'),
            2..=3 => {
                let second = 0x80 + rng.below(64) as u8;
                if second != 0x97 && second != 0xB7 {
                    name.extend([0xC3, second]);
                }
            }
            4..=5 => name.extend(spelling::random_accent(rng).marked().bytes()),
            6 => name.push(b'A' + rng.below(26) as u8),
            _ => name.push(b'a' + rng.below(26) as u8),
        }
        if name.len() > most {
            name.truncate(before);
            if !name.is_empty() {
                return name;
            }
        }
        if name.len() == most {
            return name;
        }
    }
}
