//! A random configuration for the generator.

use crate::random::Random;

const HIGHEST_CODE: usize = 16_383;

/// Few links and destinations, so that their events meet; or as many as the tables hold.
struct Size {
    sets: (usize, usize),
    most_links: usize,
    most_destinations: usize,
    full: bool,
}

const USUAL: Size = Size { sets: (2, 5), most_links: 12, most_destinations: 20, full: false };
const FULL: Size = Size { sets: (6, 8), most_links: 32, most_destinations: 64, full: true };

struct Arrangement {
    /// Our own code, then those of the adjacent points, then the other destinations.
    codes: Vec<usize>,
    sets: Vec<usize>,
    lines: Vec<String>,
}

pub fn random_configuration(random: &mut Random, full: bool) -> String {
    let size = if full { FULL } else { USUAL };
    let set_count = random.between(size.sets.0, size.sets.1);
    let room = size.most_destinations - set_count;
    let others = random.between(if full { room } else { 1 }, room);
    let mut arrangement = Arrangement {
        codes: random.distinct(1 + set_count + others, HIGHEST_CODE),
        sets: random.distinct(set_count, 7),
        lines: Vec::new(),
    };
    if random.one_in(3) {
        let edge = random.pick(&[0, HIGHEST_CODE]).expect("two edges");
        arrangement.use_code(random, edge);
    }
    arrangement.add_links(random, &size);
    arrangement.add_routes(random, &size);
    random.shuffle(&mut arrangement.lines);
    arrangement.text(random)
}

impl Arrangement {
    /// Put a code of the edge in the place of some other one.
    fn use_code(&mut self, random: &mut Random, code: usize) {
        if !self.codes.contains(&code) {
            let place = random.below(self.codes.len());
            self.codes[place] = code;
        }
    }

    fn add_links(&mut self, random: &mut Random, size: &Size) {
        let fewest = if size.full { size.most_links } else { self.sets.len() };
        // With few links many a set has one alone, whose far end is reached by another set or not at all.
        let most = if random.one_in(3) { size.most_links.min(fewest + 2) } else { size.most_links };
        let count = random.between(fewest, most);
        let mut numbers = random.distinct(count, 31).into_iter();
        for (place, links) in self.links_of_sets(random, count).into_iter().enumerate() {
            for slc in random.distinct(links, 15) {
                let number = numbers.next().expect("enough numbers");
                self.lines.push(format!("link\t{number}\t{}\t{slc}\n", self.sets[place]));
            }
        }
    }

    /// How many links each set has: at most 8, and now and then none at all.
    fn links_of_sets(&self, random: &mut Random, count: usize) -> Vec<usize> {
        let mut links = vec![0; self.sets.len()];
        for place in 0..count {
            let with_room: Vec<usize> = (0..links.len()).filter(|set| links[*set] < 8).collect();
            let set = if place < links.len() { Some(place) } else { random.pick(&with_room) };
            links[set.expect("a set with room")] += 1;
        }
        if random.one_in(8) {
            links[0] = 0;
        }
        links
    }

    fn add_routes(&mut self, random: &mut Random, size: &Size) {
        for place in 1..self.codes.len() {
            let own_set = place - 1;
            let adjacent = own_set < self.sets.len();
            if adjacent && !size.full && random.one_in(10) {
                continue; // an adjacent point without a route line
            }
            let most = self.sets.len().min(4);
            // A failed link's far end mostly has another route, and many a destination hasn't.
            let count = match random.below(4) {
                0 if adjacent => most,
                0 => 1,
                _ => random.between(1, most),
            };
            let mut by = random.distinct(count, self.sets.len() - 1);
            if adjacent {
                by.retain(|set| *set != own_set);
                by.insert(0, own_set);
            }
            self.add_routes_to(random, self.codes[place], &by);
        }
    }

    /// Routes in order of rank, with gaps in the ranks now and then.
    fn add_routes_to(&mut self, random: &mut Random, code: usize, by: &[usize]) {
        let count = by.len().min(4);
        let mut ranks = random.distinct(count, 3);
        ranks.sort_unstable();
        for (set, rank) in by.iter().zip(ranks) {
            self.lines.push(format!("route\t{code}\t{}\t{rank}\n", self.sets[*set]));
        }
    }

    fn text(&self, random: &mut Random) -> String {
        let mut text = format!("node\t{}\t{}\n", self.codes[0], random.below(4));
        for (place, set) in self.sets.iter().enumerate() {
            text += &format!("set\t{set}\t{}\n", self.codes[place + 1]);
        }
        text + &self.lines.concat()
    }
}

/// One fault, or what may be one, at some place of a configuration.
pub fn spoil(random: &mut Random, text: &mut String) {
    let at = random.below(text.len());
    match random.below(8) {
        0 => drop(text.remove(at)),
        1 => text.insert(at, other_character(random)),
        2 => text.replace_range(at..=at, &other_character(random).to_string()),
        3 => spoil_number(random, text),
        4 => text.truncate(at),
        5 => *text = text.repeat(2),
        6 => *text += &"#".repeat(16_384 - text.len() + random.below(2)),
        _ => shuffle_lines(random, text),
    }
}

fn other_character(random: &mut Random) -> char {
    random.pick(&['\t', '\n', '\r', ' ', '0', '1', '7', '9', '-', 'n', 'x', '\0']).expect("some characters")
}

fn spoil_number(random: &mut Random, text: &mut String) {
    let numbers: Vec<usize> = text.match_indices('\t').map(|(tab, _)| tab + 1).collect();
    let from = random.pick(&numbers).expect("some numbers");
    let digits = text[from..].bytes().take_while(u8::is_ascii_digit).count();
    let others = [
        "0", "1", "3", "4", "7", "8", "15", "16", "31", "32", "16383", "16384", "65536", "007", "",
        "18446744073709551616", "36893488147419103232",
    ];
    text.replace_range(from..from + digits, random.pick(&others).expect("some numbers"));
}

fn shuffle_lines(random: &mut Random, text: &mut String) {
    let mut lines: Vec<&str> = text.split_inclusive('\n').collect();
    random.shuffle(&mut lines[1..]);
    *text = lines.concat();
}
