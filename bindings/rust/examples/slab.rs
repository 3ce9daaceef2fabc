//! A slab waveguide and its levels, as bindings/c/example.c has it: setup, rows, changes, refusals.

use yonaduvi::{Axis, Error, Lattice, Number, Store};

// 16 cells of 20 nm, silicon between silica, absorbers of 4 cells at both ends.
fn slab() -> Lattice {
    let mut lattice = Lattice {
        steps: [20.0; 3],
        k0: 0.004053667940115862,
        shift: 0.1,
        axes: [Axis::Wall, Axis::UNIT, Axis::UNIT],
        coarsest: 6,
        ..Lattice::uniform([16, 1, 1])
    };
    lattice.absorb(0, 4, Number::new(1.0, 3.0), 2);
    for component in 0..3 {
        for i in 0..16 {
            let silicon = (6..10).contains(&i);
            lattice.permittivities[component * 16 + i] = Number::real(if silicon { 12.11 } else { 2.085 });
        }
    }
    lattice
}

fn listing(store: &Store) {
    println!("levels {}", store.levels());
    for level in 0..store.levels() {
        let [nx, ny, nz] = store.cells(level).unwrap_or_default();
        println!("{level} {nx} {ny} {nz} {}", store.weights(level));
    }
}

fn operator_row(store: &Store, level: usize, edge: usize) {
    println!("operator of level {level}, row {edge}");
    for (column, value) in store.operator(level, edge) {
        println!("  {column} {:.12} {:.12}", value.re, value.im);
    }
}

fn main() -> Result<(), Error> {
    let mut store = Store::setup(slab())?;
    listing(&store);
    operator_row(&store, 3, 4);

    println!("weights of edge 8 of level 0");
    for (column, value) in store.forward(0, 8) {
        println!("  {column} {:.12} {:.12}", value.re, value.im);
    }

    println!("edge 24 becomes 11.9 + 0.01 i");
    store.change(24, Number::new(11.9, 0.01))?;
    operator_row(&store, 3, 4);

    for (edge, value) in [(48, Number::ONE), (24, Number::ZERO)] {
        if let Err(error) = store.change(edge, value) {
            println!("refused {} {}", error.number, error.place);
        }
    }
    let broken = Lattice { k0: f64::NAN, ..slab() };
    if let Err(error) = Store::setup(broken) {
        println!("refused {} {}", error.number, error.place);
    }
    Ok(())
}
