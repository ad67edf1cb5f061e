// Stand-in for a file that is not among those given.
pub mod syntax_kinds;
