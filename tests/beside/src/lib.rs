//! Nothing is here: tests/ holds entries of the library and the second solver side by side.
