//! A recipe written together with its memory: a place is declared where the recipe first needs it.

use super::tables::{Place, PolicyTable, RecipeTable};
use super::Plan;
use crate::machine::Tag;

pub struct Stage {
    pub table: RecipeTable,
    pub policy: PolicyTable,
    variables: Vec<Place>,
    cells: Vec<Place>,
}

impl Stage {
    pub fn new(policy: PolicyTable) -> Stage {
        Stage {
            table: RecipeTable::new(0, 0),
            policy,
            variables: Vec::new(),
            cells: Vec::new(),
        }
    }

    /// A new variable.
    pub fn variable(&mut self, value: i32, tag: Tag) -> u16 {
        self.variables.push(Place { value, tag });
        (self.variables.len() - 1) as u16
    }

    /// A new variable and an expression that reads it.
    pub fn reading(&mut self, value: i32, tag: Tag) -> u16 {
        let variable = self.variable(value, tag);
        self.table.variable(variable)
    }

    /// A new cell; its index.
    pub fn cell(&mut self, value: i32, tag: Tag) -> i32 {
        self.cells.push(Place { value, tag });
        (self.cells.len() - 1) as i32
    }

    pub fn variable_count(&self) -> usize {
        self.variables.len()
    }

    pub fn cell_count(&self) -> usize {
        self.cells.len()
    }

    /// The plan, with the last statement written as the one to begin.
    pub fn finish(mut self) -> Plan {
        self.table.variables = self.variables.len() as u16;
        self.table.cells = self.cells.len() as u16;
        let mut memory = self.variables;
        memory.extend(self.cells);
        Plan::new(self.table, self.policy, memory)
    }
}
