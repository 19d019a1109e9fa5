// How many sides and meets one core makes in a second, in plain Rust with i128.
use std::time::Instant;

#[derive(Clone, Copy)]
struct Point {
    x: i32,
    y: i32,
    z: i32,
}

#[derive(Clone, Copy)]
struct Plane {
    p: [Point; 3],
}

#[derive(Clone, Copy)]
struct Vertex {
    x: i128,
    y: i128,
    z: i128,
    w: i128,
}

fn cross(a: [i64; 3], b: [i64; 3]) -> [i64; 3] {
    [a[1] * b[2] - a[2] * b[1], a[2] * b[0] - a[0] * b[2], a[0] * b[1] - a[1] * b[0]]
}

fn less(a: Point, b: Point) -> [i64; 3] {
    [a.x as i64 - b.x as i64, a.y as i64 - b.y as i64, a.z as i64 - b.z as i64]
}

fn numbers(plane: &Plane) -> ([i64; 3], i64) {
    let [p0, p1, p2] = plane.p;
    let n = cross(less(p0, p1), less(p2, p1));
    (n, n[0] * p1.x as i64 + n[1] * p1.y as i64 + n[2] * p1.z as i64)
}

fn side(plane: &Plane, v: &Vertex) -> i64 {
    let (n, d) = numbers(plane);
    let s = n[0] as i128 * v.x + n[1] as i128 * v.y + n[2] as i128 * v.z - d as i128 * v.w;
    if s < 0 { 0 } else if s == 0 { 1 } else { 2 }
}

fn gcd(mut a: u128, mut b: u128) -> u128 {
    while b != 0 {
        (a, b) = (b, a % b);
    }
    a
}

fn meet(a: &Plane, b: &Plane, c: &Plane) -> Option<Vertex> {
    let ((f, df), (g, dg), (h, dh)) = (numbers(a), numbers(b), numbers(c));
    let (gh, hf, fg) = (cross(g, h), cross(h, f), cross(f, g));
    let w = f[0] as i128 * gh[0] as i128 + f[1] as i128 * gh[1] as i128 + f[2] as i128 * gh[2] as i128;
    if w == 0 {
        return None;
    }
    let part = |i: usize| df as i128 * gh[i] as i128 + dg as i128 * hf[i] as i128 + dh as i128 * fg[i] as i128;
    let (x, y, z) = (part(0), part(1), part(2));
    let size = gcd(gcd(gcd(x.unsigned_abs(), y.unsigned_abs()), z.unsigned_abs()), w.unsigned_abs()) as i128;
    let d = if w < 0 { -size } else { size };
    Some(Vertex { x: x / d, y: y / d, z: z / d, w: w / d })
}

fn planes(count: usize) -> Vec<Plane> {
    let mut state: u64 = 12345;
    let mut coordinate = || {
        state = state.wrapping_mul(6364136223846793005).wrapping_add(1442695040888963407);
        ((state >> 33) % 8705) as i32 - 4352
    };
    let mut planes = Vec::new();
    while planes.len() < count {
        let mut point = || Point { x: coordinate(), y: coordinate(), z: coordinate() };
        let plane = Plane { p: [point(), point(), point()] };
        if numbers(&plane).0 != [0, 0, 0] {
            planes.push(plane);
        }
    }
    planes
}

fn main() {
    let planes = planes(64);
    for _ in 0..3 {
        let mut vertices = Vec::new();
        let (mut meets, start) = (0u64, Instant::now());
        for i in 0..64 {
            for j in 0..i {
                for k in 0..j {
                    if let Some(v) = meet(&planes[i], &planes[j], &planes[k]) {
                        vertices.push(v);
                    }
                    meets += 1;
                }
            }
        }
        let time = start.elapsed().as_micros() as u64;
        println!("meets {meets} in {time} microseconds");
        let (mut sides, mut signs, start) = (0u64, 0i64, Instant::now());
        for v in &vertices {
            for p in &planes {
                signs += side(p, v);
                sides += 1;
            }
        }
        let time = start.elapsed().as_micros() as u64;
        println!("sides {sides} in {time} microseconds, signs {signs}");
    }
}
