// Polyhedra of half-edges that are cut in place, written as the crates `exact_geom` and `half_poly` are, in plain Rust with i128: what a
// box, a brush of 126 faces and one cut more of it cost. The words are: box, bowl or copies, and how often.
use std::hint::black_box;

type Point = [i64; 3];
type Plane = [Point; 3];
type Space = (Point, i64);

#[derive(Clone, Copy, PartialEq)]
enum Sign {
    Behind,
    On,
    Front,
}

#[derive(Clone, Copy)]
struct Vertex([i128; 4]);

#[derive(Clone, Copy)]
struct Edge {
    origin: usize,
    twin: usize,
    next: usize,
    face: usize,
}

#[derive(Clone, Copy)]
struct Face {
    plane: Plane,
    tag: u32,
}

// Values in slots; those that were taken out are used again.
#[derive(Clone)]
struct Slots<T> {
    slots: Vec<Option<T>>,
    free: Vec<usize>,
}

impl<T: Copy> Slots<T> {
    fn new() -> Slots<T> {
        Slots { slots: Vec::new(), free: Vec::new() }
    }

    fn put(&mut self, value: T) -> usize {
        match self.free.pop() {
            Some(place) => {
                self.slots[place] = Some(value);
                place
            }
            None => {
                self.slots.push(Some(value));
                self.slots.len() - 1
            }
        }
    }

    fn take(&mut self, place: usize) {
        self.slots[place] = None;
        self.free.push(place);
    }

    fn at(&self, place: usize) -> T {
        self.slots[place].unwrap()
    }

    fn all(&self) -> impl Iterator<Item = (usize, T)> + '_ {
        self.slots.iter().enumerate().filter_map(|(place, slot)| slot.map(|value| (place, value)))
    }
}

#[derive(Clone)]
struct Poly {
    vertices: Slots<Vertex>,
    edges: Slots<Edge>,
    faces: Slots<Face>,
    order: Vec<usize>,
    named: Vec<usize>,
    loops: Vec<Vec<usize>>,
}

fn less(a: Point, b: Point) -> Point {
    [a[0] - b[0], a[1] - b[1], a[2] - b[2]]
}

fn cross(a: Point, b: Point) -> Point {
    [a[1] * b[2] - a[2] * b[1], a[2] * b[0] - a[0] * b[2], a[0] * b[1] - a[1] * b[0]]
}

fn space(p: &Plane) -> Space {
    let n = cross(less(p[0], p[1]), less(p[2], p[1]));
    (n, n[0] * p[1][0] + n[1] * p[1][1] + n[2] * p[1][2])
}

fn side(plane: &Plane, v: &Vertex) -> Sign {
    let (n, d) = space(plane);
    let Vertex([x, y, z, w]) = *v;
    let s = n[0] as i128 * x + n[1] as i128 * y + n[2] as i128 * z - d as i128 * w;
    if s < 0 { Sign::Behind } else if s == 0 { Sign::On } else { Sign::Front }
}

fn gcd(mut a: u128, mut b: u128) -> u128 {
    while b != 0 {
        (a, b) = (b, a % b);
    }
    a
}

fn meet(a: &Plane, b: &Plane, c: &Plane) -> Vertex {
    let ((f, df), (g, dg), (h, dh)) = (space(a), space(b), space(c));
    let (gh, hf, fg) = (cross(g, h), cross(h, f), cross(f, g));
    let w = f[0] as i128 * gh[0] as i128 + f[1] as i128 * gh[1] as i128 + f[2] as i128 * gh[2] as i128;
    let part = |i: usize| df as i128 * gh[i] as i128 + dg as i128 * hf[i] as i128 + dh as i128 * fg[i] as i128;
    let (x, y, z) = (part(0), part(1), part(2));
    let size = gcd(gcd(gcd(x.unsigned_abs(), y.unsigned_abs()), z.unsigned_abs()), w.unsigned_abs()) as i128;
    let d = if w < 0 { -size } else { size };
    Vertex([x / d, y / d, z / d, w / d])
}

impl Poly {
    // The cube from -4352 to 4352.
    fn cube() -> Poly {
        const R: i64 = 4352;
        let walls: [Plane; 6] = [
            [[R, 1, 0], [R, 0, 0], [R, 0, 1]],
            [[-R, 0, 1], [-R, 0, 0], [-R, 1, 0]],
            [[0, R, 1], [0, R, 0], [1, R, 0]],
            [[1, -R, 0], [0, -R, 0], [0, -R, 1]],
            [[1, 0, R], [0, 0, R], [0, 1, R]],
            [[0, 1, -R], [0, 0, -R], [1, 0, -R]],
        ];
        let origins = [0, 1, 3, 2, 4, 6, 7, 5, 0, 4, 5, 1, 2, 3, 7, 6, 0, 2, 6, 4, 1, 5, 7, 3];
        let twins = [11, 23, 12, 16, 18, 14, 21, 9, 19, 7, 20, 0, 2, 22, 5, 17, 3, 15, 4, 8, 10, 6, 13, 1];
        let (mut vertices, mut edges, mut faces) = (Slots::new(), Slots::new(), Slots::new());
        for k in 0..8 {
            vertices.put(meet(&walls[k / 4], &walls[2 + k / 2 % 2], &walls[4 + k % 2]));
        }
        for k in 0..24 {
            edges.put(Edge { origin: origins[k], twin: twins[k], next: k / 4 * 4 + (k + 1) % 4, face: k / 4 });
        }
        for (k, plane) in walls.into_iter().enumerate() {
            faces.put(Face { plane, tag: 0xFFFF_FFFA + k as u32 });
        }
        Poly::of(vertices, edges, faces, (0..6).collect())
    }

    // The polyhedron of these arenas: its vertices by the first three faces of each, and its loops.
    fn of(vertices: Slots<Vertex>, edges: Slots<Edge>, faces: Slots<Face>, order: Vec<usize>) -> Poly {
        let mut numbers = vec![0; faces.slots.len()];
        for (number, face) in order.iter().enumerate() {
            numbers[*face] = number;
        }
        let mut names = vec![[order.len(); 3]; vertices.slots.len()];
        for (_, edge) in edges.all() {
            let (name, number) = (&mut names[edge.origin], numbers[edge.face]);
            if number < name[0] {
                *name = [number, name[0], name[1]];
            } else if number != name[0] && number < name[1] {
                *name = [name[0], number, name[1]];
            } else if number != name[0] && number != name[1] && number < name[2] {
                name[2] = number;
            }
        }
        let mut corners: Vec<([usize; 3], usize)> = vertices.all().map(|(place, _)| (names[place], place)).collect();
        corners.sort();
        let named: Vec<usize> = corners.into_iter().map(|(_, place)| place).collect();
        let loops = loops_of(&vertices, &edges, &faces, &order, &named);
        Poly { vertices, edges, faces, order, named, loops }
    }

    #[inline(never)]
    fn cut(&mut self, plane: &Plane, tag: u32) -> bool {
        let mut signs = Vec::new();
        for slot in &self.vertices.slots {
            signs.push(slot.map_or(Sign::On, |vertex| side(plane, &vertex)));
        }
        if !signs.contains(&Sign::Front) || !signs.contains(&Sign::Behind) {
            return false;
        }
        *self = halved(self, plane, tag, &signs);
        true
    }
}

fn loops_of(vertices: &Slots<Vertex>, edges: &Slots<Edge>, faces: &Slots<Face>, order: &[usize], named: &[usize]) -> Vec<Vec<usize>> {
    let mut numbers = vec![0; vertices.slots.len()];
    for (number, vertex) in named.iter().enumerate() {
        numbers[*vertex] = number;
    }
    let mut firsts: Vec<Option<usize>> = vec![None; faces.slots.len()];
    for (place, edge) in edges.all() {
        let less = firsts[edge.face].is_none_or(|other| numbers[edge.origin] < numbers[edges.at(other).origin]);
        if less {
            firsts[edge.face] = Some(place);
        }
    }
    let mut loops = Vec::new();
    for face in order {
        let (mut found, first) = (Vec::new(), firsts[*face].unwrap());
        let mut at = first;
        loop {
            found.push(numbers[edges.at(at).origin]);
            at = edges.at(at).next;
            if at == first {
                break;
            }
        }
        loops.push(found);
    }
    loops
}

#[derive(Clone, Copy)]
struct Pair {
    inner: usize,
    outer: usize,
    start: usize,
    end: usize,
    next: usize,
}

// What a plane leaves, where some vertices are behind it and some in front.
fn halved(old: &Poly, plane: &Plane, tag: u32, signs: &[Sign]) -> Poly {
    let (mut vertices, mut edges, mut faces) = (old.vertices.clone(), old.edges.clone(), old.faces.clone());
    let count = old.faces.slots.len();
    let (mut leave, mut enter, mut begin) = (vec![None; count], vec![None; count], vec![None; count]);
    let way = |edge: &Edge| (signs[edge.origin], signs[old.edges.at(edge.twin).origin]);
    for (place, edge) in old.edges.all() {
        let (from, to) = way(&edge);
        if from == Sign::Behind && to != Sign::Behind {
            leave[edge.face] = Some(place);
        }
        if from != Sign::Behind && to == Sign::Behind {
            enter[edge.face] = Some(place);
        }
        if from == Sign::Behind {
            begin[edge.face] = Some(place);
        }
    }
    let mut begins = vec![None; old.edges.slots.len()];
    for (place, edge) in old.edges.all() {
        if way(&edge) == (Sign::Front, Sign::Behind) {
            let (own, other) = (old.faces.at(edge.face), old.faces.at(old.edges.at(edge.twin).face));
            begins[place] = Some(vertices.put(meet(plane, &own.plane, &other.plane)));
        }
    }
    let wall = faces.put(Face { plane: *plane, tag });
    let begin_at = |place: usize| begins[place].unwrap_or(old.edges.at(place).origin);
    let mut pairs: Vec<Option<Pair>> = vec![None; count];
    let mut from = vec![None; vertices.slots.len()];
    for face in 0..count {
        if let (Some(out), Some(next)) = (leave[face], enter[face]) {
            let (start, end) = (begin_at(old.edges.at(out).twin), begin_at(next));
            if start != end {
                let unlinked = Edge { origin: start, twin: next, next, face: wall };
                let (inner, outer) = (edges.put(unlinked), edges.put(unlinked));
                pairs[face] = Some(Pair { inner, outer, start, end, next });
                from[end] = Some(outer);
            }
        }
    }
    for (place, edge) in old.edges.all() {
        let (first, last) = way(&edge);
        if first != Sign::Behind && last != Sign::Behind {
            edges.take(place);
            continue;
        }
        let next = if last == Sign::Behind {
            edge.next
        } else {
            pairs[edge.face].map_or_else(|| enter[edge.face].unwrap_or(edge.next), |pair| pair.inner)
        };
        edges.slots[place] = Some(Edge { origin: begin_at(place), next, ..edge });
    }
    for (face, pair) in pairs.iter().enumerate() {
        if let Some(pair) = pair {
            edges.slots[pair.inner] = Some(Edge { origin: pair.start, twin: pair.outer, next: pair.next, face });
            edges.slots[pair.outer] = Some(Edge { origin: pair.end, twin: pair.inner, next: from[pair.start].unwrap_or(pair.inner), face: wall });
        }
    }
    for (place, _) in old.vertices.all() {
        if signs[place] == Sign::Front {
            vertices.take(place);
        }
    }
    let mut order = Vec::new();
    for face in &old.order {
        if begin[*face].is_some() {
            order.push(*face);
        } else {
            faces.take(*face);
        }
    }
    order.push(wall);
    // Vertices of the plane that no half-edge begins at any more.
    let mut used = vec![false; vertices.slots.len()];
    for (_, edge) in edges.all() {
        used[edge.origin] = true;
    }
    for place in 0..used.len() {
        if !used[place] && vertices.slots[place].is_some() {
            vertices.take(place);
        }
    }
    Poly::of(vertices, edges, faces, order)
}

fn box_sides(a: Point, b: Point) -> Vec<Plane> {
    let up = |p: Point, k: usize| {
        let mut q = p;
        q[k] += 1;
        q
    };
    let ([ax, ay, az], [bx, by, bz]) = ([up(a, 0), up(a, 1), up(a, 2)], [up(b, 0), up(b, 1), up(b, 2)]);
    vec![[a, ay, az], [a, az, ax], [a, ax, ay], [b, by, bx], [b, bx, bz], [b, bz, by]]
}

fn bowl_sides() -> Vec<Plane> {
    let mut sides = Vec::new();
    for i in -5_i64..=5 {
        for j in -5_i64..=5 {
            let z: i64 = -64 * (i * i + j * j);
            sides.push([[0, 0, z], [4, 0, z + i], [0, 4, z + j]]);
        }
    }
    sides
}

#[inline(never)]
fn built(sides: &[Plane]) -> Poly {
    let mut poly = Poly::cube();
    for (tag, plane) in sides.iter().enumerate() {
        poly.cut(plane, tag as u32);
    }
    poly
}

#[inline(never)]
fn copied_and_cut(poly: &Poly, plane: &Plane) -> Poly {
    let mut copy = poly.clone();
    copy.cut(plane, 121);
    copy
}

fn main() {
    let words: Vec<String> = std::env::args().collect();
    let times: u32 = words[2].parse().unwrap();
    let sides = match words[1].as_str() {
        "box" => box_sides([-64, -64, -16], [64, 64, 16]),
        _ => bowl_sides(),
    };
    let level: Plane = [[0, 0, 2000], [0, 1, 2000], [1, 0, 2000]];
    let mut poly = built(black_box(&sides));
    for _ in 0..times {
        poly = match words[1].as_str() {
            "copies" => {
                black_box(copied_and_cut(black_box(&poly), black_box(&level)));
                poly
            }
            _ => built(black_box(&sides)),
        };
    }
    let loops: usize = poly.loops.iter().map(Vec::len).sum();
    println!("{} faces, {} vertices, {} edges, {} steps of loops, last tag {}", poly.order.len(), poly.named.len(),
        poly.edges.all().count() / 2, loops, poly.faces.at(*poly.order.last().unwrap()).tag);
}
