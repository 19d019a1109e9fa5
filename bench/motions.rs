// Faces that motions carry with their texture locked, written as the crates `orient48` and `uv_lock` are, in plain Rust with i128.
// The word is how often all 48 orientations are taken.
use std::hint::black_box;

type Point = [i32; 3];

#[derive(Clone, Copy)]
struct Motion {
    orient: u8,
    shift: [i32; 3],
}

#[derive(Clone, Copy)]
struct Face {
    plane: [Point; 3],
    axis: [[i64; 3]; 2],
    off: [i64; 2],
    scale: [i64; 2],
}

const PLACES: [[usize; 3]; 6] = [[0, 1, 2], [0, 2, 1], [1, 0, 2], [1, 2, 0], [2, 0, 1], [2, 1, 0]];
const UNIT: i128 = 1_000_000_000_000;
const LIMIT: i128 = 1_000_000 * UNIT;

fn apply(orient: u8, v: [i64; 3]) -> [i64; 3] {
    let places = PLACES[orient as usize / 8];
    let part = |i: usize| if orient >> i & 1 == 1 { -v[places[i]] } else { v[places[i]] };
    [part(0), part(1), part(2)]
}

fn is_flip(orient: u8) -> bool {
    let odd = [false, true, true, false, false, true][orient as usize / 8];
    odd ^ ((orient & 7).count_ones() % 2 == 1)
}

fn is_in_range(p: &Point) -> bool {
    p.iter().all(|part| part.unsigned_abs() <= 4352)
}

fn is_flat(p: &[Point; 3]) -> bool {
    let less = |a: &Point, b: &Point| [a[0] as i64 - b[0] as i64, a[1] as i64 - b[1] as i64, a[2] as i64 - b[2] as i64];
    let (a, b) = (less(&p[0], &p[1]), less(&p[2], &p[1]));
    [a[1] * b[2] - a[2] * b[1], a[2] * b[0] - a[0] * b[2], a[0] * b[1] - a[1] * b[0]] == [0, 0, 0]
}

#[inline(never)]
fn plane(m: &Motion, plane: &[Point; 3]) -> Option<[Point; 3]> {
    let point = |p: &Point| {
        let [x, y, z] = apply(m.orient, [p[0] as i64, p[1] as i64, p[2] as i64]);
        [(x + m.shift[0] as i64) as i32, (y + m.shift[1] as i64) as i32, (z + m.shift[2] as i64) as i32]
    };
    let moved = [point(&plane[0]), point(&plane[1]), point(&plane[2])];
    let moved = if is_flip(m.orient) { [moved[2], moved[1], moved[0]] } else { moved };
    if moved.iter().all(is_in_range) && !is_flat(&moved) { Some(moved) } else { None }
}

fn locked_offset(off: i64, scale: i64, axis: &[i64; 3], shift: &[i32; 3]) -> Option<i64> {
    let scale = if scale == 0 { 1_000_000_000 } else { scale as i128 };
    let along = |k: usize| shift[k] as i128 * axis[k] as i128;
    let product = off as i128 * scale - UNIT * (along(0) + along(1) + along(2));
    if product % scale != 0 {
        return None;
    }
    let count = product / scale;
    if count.abs() < LIMIT { Some(count as i64) } else { None }
}

#[inline(never)]
fn carry(f: &Face, m: &Motion) -> Option<Face> {
    let axis = [apply(m.orient, f.axis[0]), apply(m.orient, f.axis[1])];
    let u = locked_offset(f.off[0], f.scale[0], &axis[0], &m.shift)?;
    let v = locked_offset(f.off[1], f.scale[1], &axis[1], &m.shift)?;
    Some(Face { axis, off: [u, v], ..*f })
}

fn main() {
    let times: u32 = std::env::args().nth(1).unwrap().parse().unwrap();
    let face = Face {
        plane: [[64, 64, 16], [64, 65, 16], [65, 64, 16]],
        axis: [[1_000_000_000, 0, 0], [0, -1_000_000_000, 0]],
        off: [5_250_000_000_000, -3_000_000_000_000],
        scale: [500_000_000, 1_000_000_000],
    };
    let mut sum = 0i64;
    for _ in 0..times {
        for orient in 0..48 {
            let motion = black_box(Motion { orient, shift: [16, -8, 24] });
            if let (Some(carried), Some(moved)) = (carry(black_box(&face), &motion), plane(&motion, black_box(&face.plane))) {
                sum = sum.wrapping_add(carried.off[0] ^ carried.off[1] ^ moved[1][0] as i64 ^ carried.axis[1][2]);
            }
        }
    }
    println!("{sum}");
}
