//! What sendai.rs and util.rs name of cspuz_core and cspuz_rs, as far as they need it to be built and run.
//! The solver records the constraints that `solve_sendai` adds and solves nothing.

pub mod cspuz_core {
    pub mod custom_constraints {
        pub trait SimpleCustomConstraint {
            fn initialize_sat(&mut self, num_inputs: usize);
            fn notify(&mut self, index: usize, value: bool);
            fn find_inconsistency(&mut self) -> Option<Vec<(usize, bool)>>;
            fn undo(&mut self);

            fn lazy_propagation(&self) -> bool {
                false
            }
        }

        /// In the solver this makes a propagator; here it hands the constraint on.
        pub trait PropagatorGenerator {
            fn generate<'a>(self: Box<Self>) -> Box<dyn SimpleCustomConstraint + 'a>
            where
                Self: 'a;
        }

        impl<T: SimpleCustomConstraint> PropagatorGenerator for T {
            fn generate<'a>(self: Box<Self>) -> Box<dyn SimpleCustomConstraint + 'a>
            where
                Self: 'a,
            {
                self
            }
        }
    }
}

pub mod cspuz_rs {
    pub mod solver {
        use crate::stubs::cspuz_core::custom_constraints::{
            PropagatorGenerator, SimpleCustomConstraint,
        };
        use std::cell::RefCell;

        /// A variable of the solver, by its number.
        #[derive(Clone, Copy, Debug, PartialEq, Eq, Hash)]
        pub struct BoolVar(pub usize);

        /// A rectangle of variables.
        #[derive(Clone)]
        pub struct BoolVarArray2D {
            width: usize,
            vars: Vec<BoolVar>,
        }

        impl BoolVarArray2D {
            pub fn at(&self, place: (usize, usize)) -> BoolVar {
                self.vars[place.0 * self.width + place.1]
            }
        }

        impl IntoIterator for BoolVarArray2D {
            type Item = BoolVar;
            type IntoIter = std::vec::IntoIter<BoolVar>;

            fn into_iter(self) -> Self::IntoIter {
                self.vars.into_iter()
            }
        }

        /// What a run of `solve_sendai` handed to its solver, in order.
        #[derive(Default)]
        pub struct Record {
            pub given: Vec<BoolVar>,
            pub constraints: Vec<(Box<dyn SimpleCustomConstraint>, Vec<BoolVar>)>,
            /// Whether the construction came to its end.
            pub solved: bool,
        }

        thread_local! {
            static RECORD: RefCell<Record> = RefCell::new(Record::default());
        }

        /// Takes the record of the last construction and leaves an empty one.
        pub fn take_record() -> Record {
            RECORD.with(|r| std::mem::take(&mut *r.borrow_mut()))
        }

        pub struct Solver {
            vars: usize,
        }

        pub struct IrrefutableFacts;

        impl IrrefutableFacts {
            pub fn get(
                &self,
                _: &super::graph::BoolInnerGridEdges,
            ) -> super::graph::BoolInnerGridEdgesIrrefutableFacts {
                super::graph::BoolInnerGridEdgesIrrefutableFacts
            }
        }

        impl Solver {
            pub fn new() -> Solver {
                take_record();
                Solver { vars: 0 }
            }

            pub fn bool_var_2d(&mut self, (height, width): (usize, usize)) -> BoolVarArray2D {
                let first = self.vars;
                self.vars += height * width;
                let vars = (first..self.vars).map(BoolVar).collect();
                BoolVarArray2D { width, vars }
            }

            pub fn add_answer_key_bool(&mut self, _: &BoolVarArray2D) {}

            pub fn add_expr(&mut self, var: BoolVar) {
                RECORD.with(|r| r.borrow_mut().given.push(var));
            }

            pub fn add_custom_constraint(
                &mut self,
                constraint: Box<dyn PropagatorGenerator>,
                inputs: Vec<BoolVar>,
            ) {
                let mut constraint = constraint.generate();
                constraint.initialize_sat(inputs.len());
                RECORD.with(|r| r.borrow_mut().constraints.push((constraint, inputs)));
            }

            pub fn irrefutable_facts(self) -> Option<IrrefutableFacts> {
                RECORD.with(|r| r.borrow_mut().solved = true);
                Some(IrrefutableFacts)
            }
        }
    }

    pub mod graph {
        use super::solver::{BoolVarArray2D, Solver};

        /// `horizontal[y][x]` lies under cell (y, x) and `vertical[y][x]` right of it.
        #[derive(Clone)]
        pub struct InnerGridEdges<T> {
            pub horizontal: T,
            pub vertical: T,
        }

        impl InnerGridEdges<Vec<Vec<bool>>> {
            /// The size in cells, as `serialize_problem` reads it.
            pub fn base_shape(&self) -> (usize, usize) {
                (self.vertical.len(), self.vertical[0].len() + 1)
            }
        }

        pub type BoolInnerGridEdges = InnerGridEdges<BoolVarArray2D>;

        pub struct BoolInnerGridEdgesIrrefutableFacts;

        impl BoolInnerGridEdges {
            pub fn new(solver: &mut Solver, (height, width): (usize, usize)) -> BoolInnerGridEdges {
                InnerGridEdges {
                    horizontal: solver.bool_var_2d((height - 1, width)),
                    vertical: solver.bool_var_2d((height, width - 1)),
                }
            }
        }

        pub struct RoomPartition {
            pub rooms: Vec<Vec<(usize, usize)>>,
            pub index_in_room: Vec<Vec<usize>>,
        }

        /// Rooms by SPEC 1.7, numbered by first cell in row order; their cells are in row order.
        pub fn borders_to_room_partition(borders: &InnerGridEdges<Vec<Vec<bool>>>) -> RoomPartition {
            let (height, width) = borders.base_shape();
            let mut room_of = vec![vec![None; width]; height];
            let mut count = 0;
            for start in 0..height * width {
                let mut found = vec![(start / width, start % width)];
                if room_of[start / width][start % width].is_some() {
                    continue;
                }
                while let Some((y, x)) = found.pop() {
                    if room_of[y][x].replace(count).is_some() {
                        continue;
                    }
                    if y > 0 && !borders.horizontal[y - 1][x] {
                        found.push((y - 1, x));
                    }
                    if y + 1 < height && !borders.horizontal[y][x] {
                        found.push((y + 1, x));
                    }
                    if x > 0 && !borders.vertical[y][x - 1] {
                        found.push((y, x - 1));
                    }
                    if x + 1 < width && !borders.vertical[y][x] {
                        found.push((y, x + 1));
                    }
                }
                count += 1;
            }
            let mut rooms: Vec<Vec<(usize, usize)>> = vec![vec![]; count];
            let mut index_in_room = vec![vec![0; width]; height];
            for y in 0..height {
                for x in 0..width {
                    let room = &mut rooms[room_of[y][x].unwrap()];
                    index_in_room[y][x] = room.len();
                    room.push((y, x));
                }
            }
            RoomPartition {
                rooms,
                index_in_room,
            }
        }
    }

    /// Types alone: puzzles are never read from or written to URLs here.
    pub mod serializer {
        use super::graph::InnerGridEdges;
        use std::marker::PhantomData;

        pub trait Combinator<T> {}

        pub struct Choice<T>(PhantomData<T>);
        impl<T> Choice<T> {
            pub fn new(_: Vec<Box<dyn Combinator<T>>>) -> Choice<T> {
                Choice(PhantomData)
            }
        }
        impl<T> Combinator<T> for Choice<T> {}

        pub struct HexInt;
        impl Combinator<i32> for HexInt {}

        pub struct Optionalize<C>(PhantomData<C>);
        impl<C> Optionalize<C> {
            pub fn new(_: C) -> Optionalize<C> {
                Optionalize(PhantomData)
            }
        }
        impl<T, C: Combinator<T>> Combinator<Option<T>> for Optionalize<C> {}

        pub struct Spaces<T>(PhantomData<T>);
        impl<T> Spaces<T> {
            pub fn new(_: T, _: char) -> Spaces<T> {
                Spaces(PhantomData)
            }
        }
        impl<T> Combinator<T> for Spaces<T> {}

        pub struct Dict<T>(PhantomData<T>);
        impl<T> Dict<T> {
            pub fn new(_: T, _: &str) -> Dict<T> {
                Dict(PhantomData)
            }
        }
        impl<T> Combinator<T> for Dict<T> {}

        pub struct RoomsWithValues<C>(PhantomData<C>);
        impl<C> RoomsWithValues<C> {
            pub fn new(_: C) -> RoomsWithValues<C> {
                RoomsWithValues(PhantomData)
            }
        }
        impl<T, C: Combinator<T>> Combinator<(InnerGridEdges<Vec<Vec<bool>>>, Vec<T>)>
            for RoomsWithValues<C>
        {
        }

        pub struct Size<C>(PhantomData<C>);
        impl<C> Size<C> {
            pub fn new(_: C) -> Size<C> {
                Size(PhantomData)
            }
        }
        impl<T, C: Combinator<T>> Combinator<T> for Size<C> {}

        pub struct Context;
        impl Context {
            pub fn sized(_: usize, _: usize) -> Context {
                Context
            }
        }

        pub fn problem_to_url_with_context_pzprxs<T>(
            _: impl Combinator<T>,
            _: &str,
            _: T,
            _: &Context,
        ) -> Option<String> {
            None
        }

        pub fn url_to_problem<T>(_: impl Combinator<T>, _: &[&str], _: &str) -> Option<T> {
            None
        }
    }
}
