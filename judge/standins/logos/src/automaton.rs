//! All rules at once: first as a graph with free steps, then as a table.

use std::collections::{BTreeSet, HashMap};

use crate::{charset::CharSet, regex::Regex};

/// A node of the graph. Free steps go to `free`; `step` takes a character.
#[derive(Default)]
struct Node {
    free: Vec<usize>,
    step: Option<(CharSet, usize)>,
    accepts: Option<usize>,
}

#[derive(Default)]
struct Graph(Vec<Node>);

impl Graph {
    fn node(&mut self) -> usize {
        self.0.push(Node::default());
        self.0.len() - 1
    }

    /// Adds what `regex` takes from `from` on and gives the node where it ends.
    fn add(&mut self, regex: &Regex, from: usize) -> usize {
        match regex {
            Regex::One(set) => {
                let start = self.node();
                let end = self.node();
                self.0[from].free.push(start);
                self.0[start].step = Some((set.clone(), end));
                end
            }
            Regex::Sequence(parts) => parts.iter().fold(from, |at, part| self.add(part, at)),
            Regex::Either(branches) => {
                let end = self.node();
                for branch in branches {
                    let last = self.add(branch, from);
                    self.0[last].free.push(end);
                }
                end
            }
            Regex::Repeat { inner, needed, many } => {
                let start = self.node();
                self.0[from].free.push(start);
                let last = self.add(inner, start);
                let end = self.node();
                self.0[last].free.push(end);
                if !needed {
                    self.0[start].free.push(end);
                }
                if *many {
                    self.0[last].free.push(start);
                }
                end
            }
        }
    }

    /// The nodes that free steps reach.
    fn spread(&self, nodes: impl IntoIterator<Item = usize>) -> BTreeSet<usize> {
        let mut reached = BTreeSet::new();
        let mut open: Vec<usize> = nodes.into_iter().collect();
        while let Some(node) = open.pop() {
            if reached.insert(node) {
                open.extend(&self.0[node].free);
            }
        }
        reached
    }
}

const DEAD: usize = usize::MAX;

/// The table. Characters that no rule tells apart share one class.
pub struct Automaton {
    /// The first character of each class.
    classes: Vec<u32>,
    ascii: [usize; 128],
    /// `next[state * classes + class]`, or `DEAD`.
    next: Vec<usize>,
    accepts: Vec<Option<usize>>,
}

impl Automaton {
    /// `rules` come with whether each is a token. At equal length a token wins over a regex;
    /// two rules of one sort that take the same text stop the program.
    pub fn new(rules: &[(Regex, bool)]) -> Self {
        let mut graph = Graph::default();
        let root = graph.node();
        for (number, (regex, _)) in rules.iter().enumerate() {
            let end = graph.add(regex, root);
            graph.0[end].accepts = Some(number);
        }

        let classes = classes(&graph);
        let mut sets = vec![graph.spread([root])];
        let mut numbers = HashMap::from([(sets[0].clone(), 0)]);
        let mut next = Vec::new();
        let mut accepts = Vec::new();
        let mut state = 0;
        while let Some(set) = sets.get(state).cloned() {
            accepts.push(winner(&graph, &set, rules));
            for &class in &classes {
                let steps = set.iter().filter_map(|&node| graph.0[node].step.as_ref());
                let taken = steps.filter(|(chars, _)| chars.contains(class)).map(|&(_, to)| to);
                let target = graph.spread(taken);
                if target.is_empty() {
                    next.push(DEAD);
                    continue;
                }
                next.push(*numbers.entry(target).or_insert_with_key(|target| {
                    sets.push(target.clone());
                    sets.len() - 1
                }));
            }
            state += 1;
        }

        let ascii = std::array::from_fn(|c| class_of(&classes, c as u32));
        Self { classes, ascii, next, accepts }
    }

    /// The rule that takes most from the start of `text`, and how many bytes it takes.
    pub fn longest(&self, text: &str) -> Option<(usize, usize)> {
        let mut state = 0;
        let mut best = None;
        for (at, c) in text.char_indices() {
            let class = match self.ascii.get(c as usize) {
                Some(&class) => class,
                None => class_of(&self.classes, c as u32),
            };
            state = self.next[state * self.classes.len() + class];
            if state == DEAD {
                break;
            }
            if let Some(rule) = self.accepts[state] {
                best = Some((rule, at + c.len_utf8()));
            }
        }
        best
    }
}

/// The characters at which some rule's sets begin or have just ended.
fn classes(graph: &Graph) -> Vec<u32> {
    let sets = graph.0.iter().filter_map(|node| node.step.as_ref());
    let bounds = sets.flat_map(|(set, _)| set.ranges()).flat_map(|&(low, high)| [low, high + 1]);
    let starts: BTreeSet<u32> = bounds.chain([0]).filter(|&c| c <= char::MAX as u32).collect();
    starts.into_iter().collect()
}

fn class_of(classes: &[u32], c: u32) -> usize {
    classes.partition_point(|&start| start <= c) - 1
}

fn winner(graph: &Graph, set: &BTreeSet<usize>, rules: &[(Regex, bool)]) -> Option<usize> {
    let accepting: Vec<usize> = set.iter().filter_map(|&node| graph.0[node].accepts).collect();
    let (tokens, regexes): (Vec<usize>, Vec<usize>) =
        accepting.into_iter().partition(|&rule| rules[rule].1);
    assert!(tokens.len() < 2 && regexes.len() < 2, "two rules take the same text");
    tokens.first().or(regexes.first()).copied()
}

#[cfg(test)]
mod tests {
    use super::Automaton;
    use crate::regex;

    fn longest(patterns: &[&str], text: &str) -> Option<(usize, usize)> {
        let rules: Vec<_> = patterns.iter().map(|p| (regex::parse(p), false)).collect();
        Automaton::new(&rules).longest(text)
    }

    #[test]
    fn forms() {
        for (pattern, text, length) in [
            ("ab|c", "abc", 2),
            ("(a|b)*c?", "abac", 4),
            ("a(?:bc)+", "abcbcb", 5),
            ("[a-c_-]+", "a-_cd", 4),
            ("[^a-c]+", "é\nxa", 4),
            (".+", "a\nb", 1),
            ("(?s:.)+", "a\nb", 3),
            ("(?s:(a|.))+", "a\nb", 3),
            ("[^\\r\\n]*?(\\r\\n|\\n)?", "ab\r\nc", 4),
            ("\\S+", "a\u{200b}\u{2028}", 4),
            ("\\.\\*\\|", ".*|", 3),
        ] {
            assert_eq!(longest(&[pattern], text), Some((0, length)), "{pattern} on {text:?}");
        }
        assert_eq!(longest(&["a+b", "ac"], "aac"), None);
    }

    #[test]
    fn falls_back_to_the_last_match() {
        let rules = ["[0-9]+(?:e[+-]?[0-9]+)?", "[0-9]+e[+-][^0-9]"];
        assert_eq!(longest(&rules, "1e+"), Some((0, 1)));
        assert_eq!(longest(&rules, "1e+x"), Some((1, 4)));
        assert_eq!(longest(&rules, "1e+5"), Some((0, 4)));
    }

    #[test]
    fn tokens_win_at_equal_length() {
        let rules = [(regex::parse("[a-z]+"), false), (regex::literal("if"), true)];
        let automaton = Automaton::new(&rules);
        assert_eq!(automaton.longest("if"), Some((1, 2)));
        assert_eq!(automaton.longest("iff"), Some((0, 3)));
        assert_eq!(automaton.longest("i"), Some((0, 1)));
    }
}
