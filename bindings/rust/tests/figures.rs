//! Request (x): the figures are what is counted over the blocks, in any order.
use bulmegart::figures::*;
use bulmegart::Refusal::*;

fn block(levels: &[(usize, i32)]) -> [i32; 16] {
    let mut all = [0; 16];
    for &(place, level) in levels {
        all[place] = level;
    }
    all
}

fn at(figures: &Figures, place: usize) -> (u32, u64, u32) {
    let p = figures.at_place(place).unwrap();
    (p.blocks, p.sum, p.greatest)
}

#[test]
fn in_any_order() {
    let blocks = [(block(&[(0, 5), (3, -1)]), 0), (block(&[(0, -9)]), 7), (block(&[(3, 1)]), 0)];
    let orders = [[0, 1, 2], [0, 2, 1], [1, 0, 2], [1, 2, 0], [2, 0, 1], [2, 1, 0]];
    let all = orders.map(|order| {
        let mut figures = Figures::begin_figures(2).unwrap();
        for k in order {
            figures.add_block(2, &blocks[k].0, blocks[k].1).unwrap();
            figures.add_refusal(k as u32 + 1).unwrap();
        }
        figures
    });
    assert!(all.iter().all(|f| *f == all[0]));
    assert_eq!((at(&all[0], 0), at(&all[0], 3), all[0].accepted(), all[0].past()), ((2, 14, 9), (2, 2, 1), 3, 7));
    assert_eq!([1, 2, 3, 4].map(|n| all[0].tally_of(n).unwrap()), [1, 1, 1, 0]);
}

#[test]
fn refusals_change_nothing() {
    assert_eq!([0, 1, 6].map(|log2| Figures::begin_figures(log2)), [Err(BadParameter), Err(BadParameter), Err(BadParameter)]);
    let mut figures = Figures::begin_figures(2).unwrap();
    for _ in 0..4096 {
        figures.add_block(2, &block(&[(5, -4_194_304)]), 65_535).unwrap();
    }
    let before = figures.clone();
    assert_eq!((at(&figures, 5), figures.past()), ((4096, 17_179_869_184, 4_194_304), 268_431_360));
    assert_eq!(figures.add_block(2, &block(&[]), 0), Err(FiguresFull));
    assert_eq!(figures.add_block(3, &[0; 64], 0), Err(BadParameter));
    assert_eq!(figures.add_block(2, &[0; 15], 0), Err(BadParameter));
    assert_eq!([0, 25, u32::MAX].map(|n| figures.add_refusal(n)), [Err(BadParameter); 3]);
    assert_eq!([16, usize::MAX].map(|p| figures.at_place(p)), [Err(BadParameter); 2]);
    assert_eq!([0, 25].map(|n| figures.tally_of(n)), [Err(BadParameter); 2]);
    assert_eq!(figures, before);
    assert_eq!(figures.merge_figures(&Figures::begin_figures(2).unwrap()), Ok(()));
    assert_eq!(figures, before);
    assert_eq!(figures.merge_figures(&Figures::begin_figures(3).unwrap()), Err(BadParameter));
    let mut one = Figures::begin_figures(2).unwrap();
    one.add_block(2, &block(&[(5, i32::MIN)]), 0).unwrap();
    assert_eq!(at(&one, 5), (1, 2_147_483_648, 2_147_483_648));
    assert_eq!(figures.merge_figures(&one), Err(FiguresFull));
    assert_eq!(figures, before);
}

#[test]
fn two_benches() {
    let (mut left, mut right, mut both) = (Figures::begin_figures(2).unwrap(), Figures::begin_figures(2).unwrap(), Figures::begin_figures(2).unwrap());
    for k in 0..100 {
        let b = block(&[(k % 16, k as i32 - 50)]);
        if k % 3 == 0 { &mut left } else { &mut right }.add_block(2, &b, k as u32).unwrap();
        both.add_block(2, &b, k as u32).unwrap();
        left.add_refusal(24).unwrap();
        both.add_refusal(24).unwrap();
    }
    left.merge_figures(&right).unwrap();
    assert_eq!(left, both);
}

#[test]
fn a_tally_stops() {
    let mut figures = Figures::begin_figures(5).unwrap();
    for _ in 0..65_540 {
        figures.add_refusal(7).unwrap();
    }
    assert_eq!(figures.tally_of(7), Ok(65_535));
}
