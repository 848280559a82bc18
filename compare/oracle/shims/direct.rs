//! Stands for the direct solver, which the twelve files declare and never call.
