use twillharbor::{Refusal, Size, StartPointStrategy::Inside, retrace};

fn main() -> Result<(), Refusal> {
    let points = [4.0, 0.0, 0.0, 1.0, 4.0, 1.0, 8.0, 1.0]; // (4,0) | (0,1)(4,1)(8,1)
    let path = retrace(&points, &[1, 3], Size { width: 8, height: 0 }, Inside)?;
    for pair in path.pairs() {
        let (from, to) = (pair.from, pair.to);
        println!("({},{}) to ({},{}): {:?}", from.x, from.y, to.x, to.y, pair.kind);
    }
    Ok(())
}
