//! What is a step smaller than a case's parts, the boldest step first.

use model::layout::{Layout, LAYOUTS};
use model::pool::{State, Tile};
use model::screen::Screen;
use model::Vertex;

/// The numbers that lie a step from `number` towards 0.
pub fn nearer_zero(number: i32) -> Vec<i32> {
    let mut nearer = vec![0, number / 2, number - number.signum()];
    nearer.retain(|&other| other != number);
    nearer.dedup();
    nearer
}

/// The numbers that lie a step below `number`.
pub fn lower(number: u32) -> Vec<u32> {
    let mut lower = vec![0, number / 2, number.saturating_sub(1)];
    lower.retain(|&other| other < number);
    lower.dedup();
    lower
}

/// `items` with one of them replaced by each of the `smaller` ones of it.
pub fn each<T: Clone>(items: &[T], smaller: impl Fn(&T) -> Vec<T>) -> Vec<Vec<T>> {
    let replaced = |place: usize, by: T| {
        let mut other = items.to_vec();
        other[place] = by;
        other
    };
    let with_smaller = |(place, item)| smaller(item).into_iter().map(move |by| replaced(place, by)).collect::<Vec<_>>();
    items.iter().enumerate().flat_map(with_smaller).collect()
}

/// `items` with a run of them left out: half, a quarter and so on, down to one.
pub fn fewer<T: Clone>(items: &[T]) -> Vec<Vec<T>> {
    let mut all = Vec::new();
    let mut run = items.len().div_ceil(2);
    while run > 0 {
        for start in (0..items.len()).step_by(run) {
            let end = items.len().min(start + run);
            all.push([&items[..start], &items[end..]].concat());
        }
        run /= 2;
    }
    all
}

/// The screens with half the width or half the height.
pub fn screens(screen: Screen) -> Vec<Screen> {
    let Screen { width, height, .. } = screen;
    let mut all = vec![Screen { width: width.div_ceil(2), ..screen }, Screen { height: height.div_ceil(2), ..screen }];
    all.retain(|&smaller| smaller != screen);
    all
}

/// The layouts before this one.
pub fn layouts(layout: Layout) -> Vec<Layout> {
    LAYOUTS.into_iter().filter(|&smaller| smaller < layout).collect()
}

/// The smaller shapes: fewer vertices, and coordinates nearer to 0.
pub fn shapes(shape: &[Vertex]) -> Vec<Vec<Vertex>> {
    let mut all: Vec<_> = fewer(shape).into_iter().filter(|shape| !shape.is_empty()).collect();
    all.extend(each(shape, |&[x, y]| {
        let along_x = nearer_zero(x).into_iter().map(|x| [x, y]);
        let along_y = nearer_zero(y).into_iter().map(|y| [x, y]);
        along_x.chain(along_y).collect()
    }));
    all
}

/// States of a pool of the same size with fewer lists and marks, shorter ones, or plainer numbers; of a large pool, only the
/// boldest.
pub fn states(state: &State) -> Vec<State> {
    let used: Vec<usize> = (0..state.tiles.len()).filter(|&tile| state.tiles[tile] != Tile::default()).collect();
    let mut all = vec![State::opened(state.layout, state.screen, state.blocks)];
    let mut in_order = state.clone();
    in_order.free.make_contiguous().sort_unstable();
    all.push(in_order);
    for kept in fewer(&used).into_iter().take(40) {
        let mut emptier = state.clone();
        for &tile in used.iter().filter(|tile| !kept.contains(tile)) {
            emptier.free.extend(std::mem::take(&mut emptier.tiles[tile]).blocks);
        }
        all.push(emptier);
    }
    for &tile in used.iter().take(10) {
        let Tile { blocks, entries, mark } = &state.tiles[tile];
        let half = blocks.len() / 2;
        if half > 0 {
            let mut shorter = state.clone();
            let (blocks, rest) = blocks.split_at(half);
            let entries = entries[..half * state.layout.ids_of_block()].to_vec();
            shorter.tiles[tile] = Tile { blocks: blocks.to_vec(), entries, mark: *mark };
            shorter.free.extend(rest);
            all.push(shorter);
        }
        let mut plainer = state.clone();
        plainer.tiles[tile].entries.fill(0);
        all.push(plainer);
        let mut unmarked = state.clone();
        unmarked.tiles[tile].mark = entries.len() as u32;
        all.push(unmarked);
    }
    all.retain(|other| other != state);
    all
}

/// Opened pools with fewer blocks, a smaller screen or a layout before this one, where this is one.
pub fn pools(state: &State) -> Vec<State> {
    let &State { layout, screen, blocks, .. } = state;
    if *state != State::opened(layout, screen, blocks) {
        return Vec::new();
    }
    let mut all: Vec<_> = lower(blocks).into_iter().map(|blocks| State::opened(layout, screen, blocks)).collect();
    all.extend(screens(screen).into_iter().map(|screen| State::opened(layout, screen, blocks)));
    all.extend(layouts(layout).into_iter().map(|layout| State::opened(layout, screen, blocks)));
    all
}
