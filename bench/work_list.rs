//! The facts of the generated classes (`programs_of` in sources.sh) by a bare work list over the maps of std. The rules
//! are those of docs/ANALYSIS.md at depth 1, for the statements that these classes have.
//!
//! usage: work_list facts CLASSES     prints the number of facts
//!        work_list terms CLASSES     makes the terms of the program alone, and prints their number
//!
//! Each `new` makes a cog and each class has one method, so a sign is a place, and a kind is main or a sign. Results
//! are numbers, so no kind gives an atom.
use std::collections::{HashMap, HashSet};

type Place = u32;

/// Main, or the method of the class that is made at a place.
type Kind = Option<Place>;

#[derive(Clone, Copy, PartialEq, Eq, Hash)]
enum Atom {
    Object(Place),
    Future(Place, Kind),
}

/// A slot or a field, by its index.
#[derive(Clone, Copy, PartialEq, Eq, Hash)]
enum Read {
    Slot(u32),
    Field(u32),
}

/// A kind is live; or a slot of it, or a field of the objects with its sign, holds an atom.
#[derive(Clone, Copy, PartialEq, Eq, Hash)]
enum Fact {
    Live(Kind),
    Holds(Kind, Read, Atom),
}

/// What a variable lets in: nothing, futures, or the objects of all classes that implement the one interface.
#[derive(Clone, Copy, PartialEq, Eq)]
enum Accepts {
    Nothing,
    Futures,
    Stages,
}

enum Term {
    Assign { target: u32, value: Read },
    Make { place: Place, class: u32, target: u32, argument: Option<Read> },
    Send { place: Place, target: u32, receiver: Read, argument: Option<Read> },
    Get { future: u32 },
    Return { value: Read },
}

struct Body {
    slots: Vec<Accepts>,
    terms: Vec<Term>,
}

/// The bodies of the classes, and last that of main. Each class implements the interface, and its one field is of it.
fn bodies_of(classes: u32) -> Vec<Body> {
    let method = |class: u32| Body {
        slots: vec![Accepts::Nothing, Accepts::Nothing, Accepts::Futures],
        terms: vec![
            Term::Assign { target: 1, value: Read::Slot(0) },
            Term::Send { place: 2 * class, target: 2, receiver: Read::Field(0), argument: Some(Read::Slot(1)) },
            Term::Get { future: 2 },
            Term::Return { value: Read::Slot(1) },
        ],
    };
    let mut bodies: Vec<Body> = (0..classes).map(method).collect();
    let mut main = Body { slots: vec![Accepts::Stages; classes as usize], terms: Vec::new() };
    for class in 0..classes {
        let argument = class.checked_sub(1).map(Read::Slot);
        main.terms.push(Term::Make { place: 2 * class + 1, class, target: class, argument });
    }
    main.slots.extend([Accepts::Futures, Accepts::Nothing]);
    let receiver = Read::Slot(classes - 1);
    main.terms.push(Term::Send { place: 2 * classes, target: classes, receiver, argument: None });
    main.terms.push(Term::Get { future: classes });
    bodies.push(main);
    bodies
}

struct WorkList<'a> {
    bodies: &'a [Body],
    /// the class that is made at a place
    classes: HashMap<Place, u32>,
    /// the terms of a body that read a slot or a field
    readers: HashMap<(u32, Read), Vec<u32>>,
    known: HashSet<Fact>,
    facts: Vec<Fact>,
    held: HashMap<(Kind, Read), Vec<Atom>>,
}

impl<'a> WorkList<'a> {
    fn new(bodies: &'a [Body]) -> Self {
        let (mut classes, mut readers) = (HashMap::new(), HashMap::<_, Vec<u32>>::new());
        for (body, its) in bodies.iter().enumerate() {
            for (index, term) in its.terms.iter().enumerate() {
                let reads = match *term {
                    Term::Assign { value, .. } | Term::Return { value } => [Some(value), None],
                    Term::Make { argument, .. } => [argument, None],
                    Term::Send { receiver, argument, .. } => [Some(receiver), argument],
                    Term::Get { future } => [Some(Read::Slot(future)), None],
                };
                for read in reads.into_iter().flatten() {
                    readers.entry((body as u32, read)).or_default().push(index as u32);
                }
                if let Term::Make { place, class, .. } = *term {
                    classes.insert(place, class);
                }
            }
        }
        WorkList { bodies, classes, readers, known: HashSet::new(), facts: Vec::new(), held: HashMap::new() }
    }

    fn body_of(&self, kind: Kind) -> u32 {
        kind.map_or(self.bodies.len() as u32 - 1, |sign| self.classes[&sign])
    }

    fn add(&mut self, fact: Fact) {
        if self.known.insert(fact) {
            self.facts.push(fact);
            if let Fact::Holds(kind, read, atom) = fact {
                self.held.entry((kind, read)).or_default().push(atom);
            }
        }
    }

    /// Adds that a slot or the field holds an atom, if its type lets it in.
    fn store(&mut self, kind: Kind, read: Read, atom: Atom) {
        let accepts = match read {
            Read::Slot(slot) => self.bodies[self.body_of(kind) as usize].slots[slot as usize],
            Read::Field(_) => Accepts::Stages,
        };
        if accepts == (if matches!(atom, Atom::Object(_)) { Accepts::Stages } else { Accepts::Futures }) {
            self.add(Fact::Holds(kind, read, atom));
        }
    }

    fn atoms(&self, kind: Kind, read: Option<Read>) -> Vec<Atom> {
        read.and_then(|it| self.held.get(&(kind, it)).cloned()).unwrap_or_default()
    }

    /// Adds what a term of a live kind asks for, by the facts that are there.
    fn ask(&mut self, kind: Kind, term: &Term) {
        match *term {
            Term::Assign { target, value } => {
                self.atoms(kind, Some(value)).into_iter().for_each(|it| self.store(kind, Read::Slot(target), it));
            }
            Term::Make { place, target, argument, .. } => {
                self.store(kind, Read::Slot(target), Atom::Object(place));
                self.atoms(kind, argument).into_iter().for_each(|it| self.store(Some(place), Read::Field(0), it));
            }
            Term::Send { place, target, receiver, argument } => {
                for atom in self.atoms(kind, Some(receiver)) {
                    let Atom::Object(sign) = atom else { continue };
                    self.add(Fact::Live(Some(sign)));
                    self.store(kind, Read::Slot(target), Atom::Future(place, Some(sign)));
                    self.atoms(kind, argument).into_iter().for_each(|it| self.store(Some(sign), Read::Slot(0), it));
                }
            }
            Term::Get { .. } | Term::Return { .. } => {}
        }
    }

    fn handle(&mut self, fact: Fact) {
        let bodies = self.bodies;
        match fact {
            Fact::Live(kind) => bodies[self.body_of(kind) as usize].terms.iter().for_each(|term| self.ask(kind, term)),
            Fact::Holds(kind, read, _) if self.known.contains(&Fact::Live(kind)) => {
                let body = self.body_of(kind);
                for index in self.readers.get(&(body, read)).cloned().unwrap_or_default() {
                    self.ask(kind, &bodies[body as usize].terms[index as usize]);
                }
            }
            Fact::Holds(..) => {}
        }
    }
}

fn main() {
    let words: Vec<String> = std::env::args().collect();
    let bodies = bodies_of(words[2].parse().expect("the number of classes"));
    if words[1] == "terms" {
        println!("{}", bodies.iter().map(|body| body.terms.len()).sum::<usize>());
        return;
    }
    let mut list = WorkList::new(&bodies);
    list.add(Fact::Live(None));
    let mut next = 0;
    while next < list.facts.len() {
        list.handle(list.facts[next]);
        next += 1;
    }
    println!("{}", list.facts.len());
}
