//! Stand-in for a module that is not among those given. Nothing read here visits a tree.
