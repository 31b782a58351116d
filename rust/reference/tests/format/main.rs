//! The tables of `docs/FORMAT.md` are what the independent checker does and what the header says.
//!
//! A row that is missing, there twice or changed fails. The page's last section says what each table is compared with.

mod bodies;
mod calls;
mod codes;
mod definitions;
mod formulas;
mod header;
mod images;
mod instances;
mod letters;
mod limits;
mod operations;
mod page;
mod records;
mod rules;
mod shapes;
