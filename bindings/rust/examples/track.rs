//! A track through rough fixes and good displacements: `cargo run --example track`.

use zaqnuti::smooth::{smooth, Anchor, Link, Settings};
use zaqnuti::{Refusal, Vec3};

/// A van drives 10 m to the east each second; its fixes are some metres off.
const FIXES: [(f64, f64); 8] = [
    (1.9, -2.2),
    (8.3, 1.4),
    (21.5, 0.9),
    (29.2, -1.1),
    (40.4, 2.6),
    // A wall throws one back.
    (71.0, 25.0),
    (60.8, -0.7),
    (69.1, 0.3),
];

fn main() -> Result<(), Refusal> {
    let anchor = |(index, &(x, y))| Anchor {
        index,
        position: Vec3::new(x, y, 0.0),
        sigma: Vec3::new(2.0, 2.0, 2.0),
    };
    let anchors: Vec<Anchor> = FIXES.iter().enumerate().map(anchor).collect();
    // The displacement from 3 to 4 s is missing, as under a bridge: the sigma says how far it may be.
    let link = |index| Link {
        index,
        delta: Vec3::new(10.0, 0.0, 0.0),
        sigma: match index {
            3 => Vec3::new(5.0, 5.0, 5.0),
            _ => Vec3::new(0.03, 0.03, 0.03),
        },
    };
    let links: Vec<Link> = (0..FIXES.len() - 1).map(link).collect();
    let track = smooth(FIXES.len(), &anchors, &links, &Settings::default())?;
    for (second, (p, fix)) in track.iter().zip(FIXES).enumerate() {
        println!(
            "{second} s: {:.2} {:.2} m, fix {:.1} {:.1}",
            p.x, p.y, fix.0, fix.1
        );
    }
    Ok(())
}
