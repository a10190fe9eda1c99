//! The parts in the order of `src/main.rt`, each over its file of steps in the folder where this runs, answered by the reference.
mod cases;
mod differences;
mod fits;
mod networks;
mod references;
mod trees;

use cases::steps;

fn main() {
    differences::run(steps("differences"));
    networks::run(steps("networks"));
    trees::run(steps("trees"));
    references::run(steps("references"));
    fits::run(steps("fits"));
}
