//! Recipes of one outline and size, to be compiled, run quietly and run recalled.

use crate::side::Side;
use compare::caught::{striking, Caught};
use compare::chance::Chance;
use compare::layout;
use compare::parts::{CODE, STACK};
use compare::recipes::Shape;
use second::expression::Expression;
use second::Answer;
use std::hint::black_box;

/// An outline by its name; recalled runs are of recipes like it that catch what strikes them.
pub struct Outline {
    pub name: &'static str,
    quiet: Shape,
    recalled: Caught,
}

pub const OUTLINES: [Outline; 4] = [
    Outline { name: "deep blocks", quiet: Shape::DeepBlocks, recalled: Caught::Depths },
    Outline { name: "wide adds", quiet: Shape::WideAdds, recalled: Caught::Adds },
    Outline { name: "catch chain", quiet: Shape::CatchChain, recalled: Caught::Chain },
    Outline { name: "mixed", quiet: Shape::Working, recalled: Caught::Mixed },
];

/// Nodes of all recipes of an outline and size: as many small ones as make up for the large ones, so that no branch is learnt by
/// heart where the recipes are small.
const NODES: usize = 8192;
/// Recalls that strike in a recalled run: one for so many nodes at least.
const NODES_BY_RECALL: usize = 16;

pub struct Set {
    pub nodes: usize,
    tables: Vec<Vec<u8>>,
    pub quiet: Runs,
    pub recalled: Runs,
}

/// Codes with their schedules, and what they come to.
pub struct Runs {
    runs: Vec<(Vec<u8>, Vec<u8>)>,
    answers: Vec<Answer>,
    /// That strike, of all runs.
    pub recalls: usize,
}

impl Set {
    pub fn new(outline: &Outline, nodes: usize) -> Set {
        let chance = &mut Chance::new(nodes as u64);
        let recipes: Vec<_> = (0..NODES / nodes).map(|_| outline.quiet.recipe(nodes, chance)).collect();
        let tables: Vec<_> = recipes.iter().map(|recipe| layout::table(recipe, chance)).collect();
        let caught: Vec<_> = (0..NODES / nodes).map(|_| outline.recalled.recipe(nodes, chance)).collect();
        let set =
            Set { nodes, tables, quiet: Runs::quiet(&recipes), recalled: Runs::recalled(&caught, chance) };
        let strikes = set.recalled.by_run();
        let enough = strikes * NODES_BY_RECALL as f64 >= nodes as f64;
        assert!(enough, "{} of {nodes} nodes: only {strikes} recalls strike in a run", outline.name);
        set
    }

    /// Compiles each table once.
    pub fn compile(&self, side: &Side) {
        let mut code = [0; CODE];
        for table in &self.tables {
            let _ = black_box(side.compile(black_box(table), black_box(&mut code)));
        }
    }

    pub fn nodes_compiled(&self) -> usize {
        self.nodes * self.tables.len()
    }
}

impl Runs {
    fn quiet(recipes: &[Expression]) -> Runs {
        Runs::new(recipes.iter().map(|recipe| (bytes(recipe), vec![])).collect(), 0)
    }

    fn recalled(recipes: &[Expression], chance: &mut Chance) -> Runs {
        let mut recalls = 0;
        let runs = recipes.iter().map(|recipe| {
            let striking = striking(&second::code::compile(recipe), chance);
            recalls += striking.recalls;
            (bytes(recipe), striking.schedule)
        });
        Runs::new(runs.collect(), recalls)
    }

    fn new(runs: Vec<(Vec<u8>, Vec<u8>)>, recalls: usize) -> Runs {
        let stack = &mut [0; STACK];
        let answers = runs.iter().map(|(code, schedule)| second::run(1, code, schedule, stack)).collect();
        Runs { runs, answers, recalls }
    }

    /// Runs each once.
    pub fn run(&self, side: &Side) {
        let mut stack = [0; STACK];
        for (code, schedule) in &self.runs {
            let _ = black_box(side.run(black_box(code), black_box(schedule), black_box(&mut stack)));
        }
    }

    /// That a side answers what the second program does: a recall that did not strike would show in the steps.
    pub fn check(&self, side: &Side) {
        let stack = &mut [0; STACK];
        for ((code, schedule), wanted) in self.runs.iter().zip(&self.answers) {
            let given = side.run(code, schedule, stack);
            let same = (given.kind, given.number, given.steps, given.reached)
                == (wanted.kind, wanted.number, wanted.steps, wanted.reached);
            assert!(same, "wanted {wanted:?}, given {given:?}");
        }
    }

    pub fn steps(&self) -> usize {
        self.answers.iter().map(|answer| answer.steps as usize).sum()
    }

    /// The recalls that strike in a run, on the mean.
    pub fn by_run(&self) -> f64 {
        self.recalls as f64 / self.runs.len() as f64
    }
}

fn bytes(recipe: &Expression) -> Vec<u8> {
    second::code::compile(recipe).into_iter().flat_map(|instruction| instruction.bytes()).collect()
}
