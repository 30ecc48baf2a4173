// Plain Rust that does the work of `hosed run` on admissions, also those that are bound to a
// number, releases and lists of a customer's VPNs, to measure against: it decides by the same
// rules, gives the same replies and proves nothing. The rows of all nodes over
// all links are made once, before the first command; those over safe links are made for each plan.
// usage: rustc -O -o planner planner.rs; planner run < TEXT
use std::cmp::Reverse;
use std::collections::{BTreeMap, BinaryHeap, HashMap};
use std::io::{Read, Write};

struct Link {
    capacity: u64,
    cost: u64,
}

#[derive(Default)]
struct Network {
    names: Vec<String>,
    places: HashMap<String, usize>,
    links: Vec<Link>,
    /// For each node its links, each with the node at the other end.
    ways: Vec<Vec<(usize, usize)>>,
}

/// The distances of all nodes from a root; the greatest number where there is no way.
type Distances = Vec<u64>;

/// Nodes, each with its rate.
type Hose = Vec<(usize, u64)>;

/// What is reserved on links.
type Amounts = Vec<(usize, u64)>;

impl Network {
    fn read<'a>(lines: &mut impl Iterator<Item = &'a str>) -> Network {
        let mut network = Network::default();
        for line in lines {
            let words: Vec<_> = line.split_whitespace().collect();
            match words[0] {
                "node" => {
                    network.places.insert(words[1].into(), network.names.len());
                    network.names.push(words[1].into());
                    network.ways.push(vec![]);
                }
                "link" => {
                    let (a, b) = (network.places[words[1]], network.places[words[2]]);
                    let cost = words.get(5).unwrap_or(&words[4]).parse().unwrap();
                    network.ways[a].push((network.links.len(), b));
                    network.ways[b].push((network.links.len(), a));
                    let capacity = words[3].parse().unwrap();
                    network.links.push(Link { capacity, cost });
                }
                _ => break,
            }
        }
        network
    }

    fn distances(&self, allowed: &[bool], root: usize) -> Distances {
        let mut distances = vec![u64::MAX; self.names.len()];
        let mut queue = BinaryHeap::new();
        distances[root] = 0;
        queue.push(Reverse((0, root)));
        while let Some(Reverse((near, node))) = queue.pop() {
            if near > distances[node] {
                continue;
            }
            for &(link, other) in &self.ways[node] {
                let far = near + self.links[link].cost;
                if allowed[link] && far < distances[other] {
                    distances[other] = far;
                    queue.push(Reverse((far, other)));
                }
            }
        }
        distances
    }

    /// What the hose reserves and costs from its root, by the distances that `of` gives.
    fn plan(
        &self,
        allowed: &[bool],
        hose: &Hose,
        of: impl Fn(usize) -> std::rc::Rc<Distances>,
    ) -> Option<(Amounts, u64)> {
        let rows: Vec<_> = hose.iter().map(|&(node, _)| of(node)).collect();
        let weight = |node: usize| {
            rows.iter().zip(hose).try_fold(0, |sum, (row, &(_, rate))| {
                (row[node] < u64::MAX).then(|| sum + rate * row[node])
            })
        };
        let (cost, root) =
            (0..self.names.len()).filter_map(|node| Some((weight(node)?, node))).min()?;
        let distances = of(root);
        let total: u64 = hose.iter().map(|end| end.1).sum();
        let mut sums = BTreeMap::new();
        for &(end, rate) in hose {
            let mut node = end;
            while node != root {
                let tight = |&(link, other): &(usize, usize)| {
                    allowed[link]
                        && distances[other].checked_add(self.links[link].cost)
                            == Some(distances[node])
                };
                let (link, other) = self.ways[node].iter().copied().filter(tight).min().unwrap();
                *sums.entry(link).or_insert(0) += rate;
                node = other;
            }
        }
        Some((sums.into_iter().map(|(link, sum)| (link, sum.min(total - sum))).collect(), cost))
    }
}

fn main() {
    let mut text = String::new();
    std::io::stdin().read_to_string(&mut text).unwrap();
    let mut lines = text.lines();
    let network = Network::read(&mut lines);
    let all = vec![true; network.links.len()];
    let table: Vec<_> =
        (0..network.names.len()).map(|root| network.distances(&all, root).into()).collect();
    let kept = |node: usize| std::rc::Rc::clone(&table[node]);
    let mut loads = vec![0; network.links.len()];
    let mut live: HashMap<u64, (String, Amounts)> = HashMap::new();
    let mut epoch = 0;
    let mut out = std::io::BufWriter::new(std::io::stdout());
    for line in lines {
        let words: Vec<_> = line.split_whitespace().collect();
        if words[1] == "release" {
            let id: u64 = words[2].parse().unwrap();
            if live.get(&id).is_none_or(|vpn| vpn.0 != words[0]) {
                writeln!(out, "no vpn {id} at {epoch}").unwrap();
                continue;
            }
            for (link, amount) in live.remove(&id).unwrap().1 {
                loads[link] -= amount;
            }
            epoch += 1;
            writeln!(out, "released {id} at {epoch}").unwrap();
            continue;
        }
        let own = || {
            let own = live.iter().filter(|vpn| vpn.1.0 == words[0]).map(|vpn| *vpn.0);
            own.collect::<std::collections::BTreeSet<_>>()
        };
        if words[1] == "vpns" {
            write!(out, "vpns").unwrap();
            for id in own() {
                write!(out, " {id}").unwrap();
            }
            writeln!(out, " at {epoch}").unwrap();
            continue;
        }
        let is_bound = words[1] == "admit-after";
        if is_bound {
            let newest = own().last().copied().unwrap_or(0);
            if newest != words[2].parse::<u64>().unwrap() {
                writeln!(out, "newest {newest} at {epoch}").unwrap();
                continue;
            }
        }
        let end = |word: &&str| {
            let (name, rate) = word.split_once(':').unwrap();
            (network.places[name], rate.parse().unwrap())
        };
        let mut hose: Hose = words[2 + usize::from(is_bound)..].iter().map(end).collect();
        hose.sort_unstable();
        let free = |link: usize| network.links[link].capacity - loads[link];
        let mut plan = network
            .plan(&all, &hose, kept)
            .filter(|plan| plan.0.iter().all(|&(link, amount)| amount <= free(link)));
        if plan.is_none() {
            let half = hose.iter().map(|end| end.1).sum::<u64>() / 2;
            let safe: Vec<_> = (0..all.len()).map(|link| half <= free(link)).collect();
            plan = network.plan(&safe, &hose, |node| network.distances(&safe, node).into());
            if plan.is_none() {
                let from = network.distances(&safe, hose[0].0);
                write!(out, "refused at {epoch} side").unwrap();
                for (name, _) in network.names.iter().zip(from).filter(|it| it.1 < u64::MAX) {
                    write!(out, " {name}").unwrap();
                }
                writeln!(out).unwrap();
                continue;
            }
        }
        let (amounts, cost) = plan.unwrap();
        epoch += 1;
        write!(out, "admitted {epoch} cost {cost} at {epoch} links").unwrap();
        for &(link, amount) in &amounts {
            loads[link] += amount;
            write!(out, " {link}:{amount}").unwrap();
        }
        writeln!(out).unwrap();
        live.insert(epoch, (words[0].into(), amounts));
    }
}
