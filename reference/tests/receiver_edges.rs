//! Windows that lie exactly on the edge: equal energies, energies that differ
//! by 1, the least energy of a good level, and energies that are 5 to 4. Other tests
//! hardly ever meet one.

use crate::common::doubtful;
use crate::common::receiver::{BREAK, CARRIER_LOST, DOUBT, NO_STOP_BIT, WINDOW};
use crate::common::states::{steps, HELD};
use crate::common::weighed::{Weighed, LEAST_GOOD};
use crate::common::{sines, BANDS};

/// A window with I and Q of space, then of mark.
struct Case {
    band: u8,
    sums: [i64; 4],
    window: [i16; WINDOW],
}

/// Found with a reduced basis of the lattice of all windows. The rows are the
/// same for each band: equal and least good; space more by 1; mark more by 1;
/// mark least good; space least good; equal and 14 less than least good, as no
/// number between is a sum of two squares; equal and far above.
const CASES: [Case; 7 * BANDS.len()] = [
    Case {
        band: 1,
        sums: [180_000_000, 0, 180_000_000, 0],
        window: [
            5_305, 3_520, -104, -3_444, -4_672, -3_278, -256, 2_574, 3_693, 2_701, 448, -1_635,
            -2_450, -1_814, -419, 741, 1_064, 668, 148, 29, 346, 635, 352, -592, -1_659, -1_986,
            -1_034, 908, 2_762, 3_264, 1_826, -970,
        ],
    },
    Case {
        band: 1,
        sums: [1, 180_000_000, 0, 180_000_000],
        window: [
            -320, 3_468, 5_178, 3_950, 650, -2_751, -4_362, -3_462, -810, 1_936, 3_254, 2_634, 741,
            -1_133, -1_952, -1_514, -432, 431, 578, 193, -122, 91, 742, 1_223, 877, -388, -1_904,
            -2_607, -1_752, 445, 2_810, 3_838,
        ],
    },
    Case {
        band: 1,
        sums: [180_000_000, 0, 180_000_000, 1],
        window: [
            5_307, 3_520, -106, -3_442, -4_671, -3_278, -257, 2_572, 3_695, 2_701, 447, -1_639,
            -2_451, -1_810, -422, 737, 1_066, 671, 146, 28, 349, 636, 353, -592, -1_660, -1_985,
            -1_035, 909, 2_761, 3_263, 1_825, -969,
        ],
    },
    Case {
        band: 1,
        sums: [0, 50_000_000, 0, 180_000_000],
        window: [
            -849, 1_857, 3_343, 2_803, 680, -1_662, -2_822, -2_216, -386, 1_448, 2_167, 1_461, -36,
            -1_262, -1_446, -590, 567, 1_139, 717, -338, -1_176, -1_088, -38, 1_255, 1_819, 1_108,
            -544, -2_092, -2_439, -1_194, 993, 2_783,
        ],
    },
    Case {
        band: 1,
        sums: [-180_000_000, 0, 30_000_000, 0],
        window: [
            -2_297, -976, 694, 1_864, 2_043, 1_277, 46, -1_040, -1_548, -1_371, -702, 133, 849,
            1_241, 1_216, 760, -23, -895, -1_517, -1_555, -857, 366, 1_590, 2_166, 1_691, 277,
            -1_436, -2_548, -2_399, -963, 1_080, 2_661,
        ],
    },
    Case {
        band: 1,
        sums: [155_439_219, 90_767_005, 90_767_005, -155_439_219],
        window: [
            4_938, 2_310, -1_269, -3_719, -3_845, -1_901, 689, 2_385, 2_423, 1_176, -287, -1_010,
            -790, -160, 117, -265, -922, -1_064, -212, 1_336, 2_559, 2_389, 545, -2_116, -3_986,
            -3_689, -1_067, 2_564, 5_084, 4_828, 1_695, -2_675,
        ],
    },
    Case {
        band: 1,
        sums: [324_000_000, 432_000_000, -540_000_000, 0],
        window: [
            -1_065, 1_222, 3_474, 4_110, 2_304, -1_294, -4_723, -5_818, -3_591, 1_013, 5_475,
            7_127, 4_770, -469, -5_711, -7_907, -5_694, -221, 5_444, 8_091, 6_223, 930, -4_757,
            -7_658, -6_258, -1_515, 3_773, 6_664, 5_750, 1_849, -2_633, -5_205,
        ],
    },
    Case {
        band: 2,
        sums: [180_000_000, 0, 180_000_000, 0],
        window: [
            5_164, 981, -4_567, -2_491, 3_393, 3_443, -1_922, -3_719, 457, 3_372, 700, -2_572,
            -1_367, 1_576, 1_471, -683, -1_100, 130, 458, -49, 191, 438, -586, -1_158, 527, 1_965,
            48, -2_578, -1_065, 2_751, 2_327, -2_330,
        ],
    },
    Case {
        band: 2,
        sums: [1, 180_000_000, 0, 180_000_000],
        window: [
            84, 5_368, 1_799, -4_422, -3_212, 2_967, 3_937, -1_315, -3_923, -175, 3_276, 1_226,
            -2_247, -1_678, 1_143, 1_525, -275, -919, -134, 127, -14, 543, 642, -830, -1_544, 563,
            2_427, 275, -2_982, -1_537, 2_966, 2_959,
        ],
    },
    Case {
        band: 2,
        sums: [180_000_000, 0, 180_000_000, 1],
        window: [
            5_164, 980, -4_567, -2_492, 3_395, 3_441, -1_921, -3_725, 457, 3_372, 701, -2_568,
            -1_364, 1_577, 1_470, -684, -1_096, 126, 461, -48, 192, 441, -585, -1_157, 525, 1_963,
            45, -2_578, -1_065, 2_751, 2_328, -2_329,
        ],
    },
    Case {
        band: 2,
        sums: [0, 50_000_000, 0, 180_000_000],
        window: [
            -539, 3_299, 1_524, -2_630, -2_203, 1_773, 2_515, -891, -2_470, 138, 2_166, 381,
            -1_730, -632, 1_310, 649, -1_021, -532, 920, 408, -1_020, -400, 1_240, 586, -1_457,
            -1_000, 1_547, 1_586, -1_388, -2_234, 916, 2_795,
        ],
    },
    Case {
        band: 2,
        sums: [-180_000_000, 0, 30_000_000, 0],
        window: [
            -2_085, 448, 2_103, 529, -1_655, -1_245, 880, 1_540, 15, -1_371, -786, 807, 1_244, -3,
            -1_266, -815, 841, 1_418, -78, -1_639, -837, 1_386, 1_658, -704, -2_175, -275, 2_240,
            1_328, -1_794, -2_211, 922, 2_716,
        ],
    },
    Case {
        band: 2,
        sums: [155_439_219, 90_767_005, 90_767_005, -155_439_219],
        window: [
            4_623, -312, -4_219, -1_121, 3_255, 1_988, -2_038, -2_211, 894, 1_855, -92, -1_135,
            -179, 342, -92, 211, 775, -307, -1_607, -163, 2_281, 1_131, -2_520, -2_395, 2_134,
            3_649, -1_088, -4_563, -486, 4_858, 2_328, -4_374,
        ],
    },
    Case {
        band: 2,
        sums: [324_000_000, 432_000_000, -540_000_000, 0],
        window: [
            -1_288, 2_753, 2_829, -2_357, -4_403, 1_102, 5_568, 864, -5_946, -3_199, 5_316, 5_440,
            -3_673, -7_108, 1_248, 7_836, 1_556, -7_431, -4_245, 5_930, 6_331, -3_594, -7_453, 859,
            7_448, 1_780, -6_383, -3_856, 4_548, 5_047, -2_363, -5_240,
        ],
    },
    Case {
        band: 3,
        sums: [180_000_000, 0, 180_000_000, 0],
        window: [
            5_014, 3_655, 626, -2_528, -4_276, -3_893, -1_725, 1_031, 2_989, 3_320, 2_073, 84,
            -1_572, -2_156, -1_606, -474, 493, 812, 515, 47, -104, 240, 801, 1_033, 533, -632,
            -1_872, -2_386, -1_646, 203, 2_314, 3_542,
        ],
    },
    Case {
        band: 3,
        sums: [1, 180_000_000, 0, 180_000_000],
        window: [
            -112, 3_562, 5_379, 4_571, 1_698, -1_725, -4_029, -4_239, -2_492, 142, 2_306, 3_057,
            2_295, 700, -775, -1_438, -1_213, -556, -64, -49, -349, -492, -68, 888, 1_843, 2_070,
            1_125, -770, -2_734, -3_641, -2_770, -298,
        ],
    },
    Case {
        band: 3,
        sums: [180_000_000, 0, 180_000_000, 1],
        window: [
            5_015, 3_655, 626, -2_527, -4_280, -3_892, -1_721, 1_029, 2_989, 3_319, 2_074, 85,
            -1_573, -2_153, -1_605, -475, 493, 813, 516, 48, -103, 239, 801, 1_033, 534, -633,
            -1_874, -2_385, -1_645, 201, 2_312, 3_543,
        ],
    },
    Case {
        band: 3,
        sums: [0, 50_000_000, 0, 180_000_000],
        window: [
            466, 2_640, 3_522, 2_793, 914, -1_195, -2_588, -2_736, -1_739, -174, 1_217, 1_906,
            1_767, 1_039, 136, -598, -1_009, -1_122, -1_020, -743, -268, 403, 1_144, 1_660, 1_629,
            873, -454, -1_839, -2_612, -2_281, -828, 1_196,
        ],
    },
    Case {
        band: 3,
        sums: [-180_000_000, 0, 30_000_000, 0],
        window: [
            -2_134, -2_176, -1_064, 509, 1_651, 1_759, 870, -426, -1_335, -1_343, -509, 612, 1_288,
            1_084, 126, -978, -1_512, -1_084, 110, 1_376, 1_927, 1_358, -88, -1_641, -2_389,
            -1_842, -213, 1_655, 2_733, 2_387, 734, -1_379,
        ],
    },
    Case {
        band: 3,
        sums: [155_439_219, 90_767_005, 90_767_005, -155_439_219],
        window: [
            2_444, 1_367, -452, -2_146, -2_867, -2_218, -478, 1_515, 2_796, 2_742, 1_379, -606,
            -2_249, -2_779, -1_986, -311, 1_399, 2_331, 2_119, 960, -504, -1_554, -1_759, -1_154,
            -154, 702, 1_047, 853, 375, -54, -228, -178,
        ],
    },
    Case {
        band: 3,
        sums: [324_000_000, 432_000_000, 324_000_000, -432_000_000],
        window: [
            5_448, 4_145, 563, -3_721, -6_566, -6_381, -3_022, 2_033, 6_349, 7_755, 5_441, 448,
            -4_825, -7_820, -7_076, -2_985, 2_431, 6_546, 7_436, 4_817, 113, -4_329, -6_436,
            -5_418, -2_040, 1_869, 4_435, 4_654, 2_789, 63, -2_098, -2_829,
        ],
    },
    Case {
        band: 4,
        sums: [180_000_000, 0, 180_000_000, 0],
        window: [
            5_124, 1_846, -3_390, -4_446, -393, 3_781, 3_333, -782, -3_548, -2_052, 1_451, 2_792,
            903, -1_514, -1_746, -154, 1_004, 704, -29, -108, 47, -380, -905, -290, 1_258, 1_741,
            -64, -2_370, -2_133, 962, 3_426, 1_935,
        ],
    },
    Case {
        band: 4,
        sums: [1, 180_000_000, 0, 180_000_000],
        window: [
            -256, 4_917, 4_180, -1_296, -4_913, -2_671, 2_376, 4_229, 1_154, -2_783, -3_070, 32,
            2_492, 1_749, -640, -1_634, -606, 562, 478, -66, 144, 642, 85, -1_266, -1_401, 570,
            2_492, 1_554, -1_746, -3_474, -1_010, 3_170,
        ],
    },
    Case {
        band: 4,
        sums: [180_000_000, 0, 180_000_000, 1],
        window: [
            5_123, 1_847, -3_386, -4_449, -393, 3_781, 3_334, -782, -3_548, -2_048, 1_453, 2_792,
            902, -1_514, -1_746, -154, 1_004, 706, -27, -111, 47, -381, -906, -293, 1_256, 1_740,
            -62, -2_374, -2_135, 966, 3_424, 1_933,
        ],
    },
    Case {
        band: 4,
        sums: [0, 50_000_000, 0, 180_000_000],
        window: [
            413, 3_283, 2_360, -1_107, -3_118, -1_579, 1_521, 2_678, 887, -1_598, -2_102, -419,
            1_386, 1_534, 250, -979, -1_135, -385, 527, 1_006, 749, -187, -1_177, -1_212, 83,
            1_614, 1_618, -287, -2_203, -1_819, 786, 2_797,
        ],
    },
    Case {
        band: 4,
        sums: [-180_000_000, 0, 30_000_000, 0],
        window: [
            -2_031, -1_547, 787, 1_947, 592, -1_367, -1_411, 348, 1_483, 565, -1_043, -1_126, 374,
            1_329, 383, -1_167, -1_131, 548, 1_610, 494, -1_444, -1_587, 431, 2_071, 1_091, -1_423,
            -2_268, -217, 2_247, 1_971, -829, -2_701,
        ],
    },
    Case {
        band: 4,
        sums: [155_439_219, 90_767_005, 90_767_005, -155_439_219],
        window: [
            2_425, 343, -2_289, -2_308, 440, 2_760, 1_858, -1_257, -2_917, -1_153, 1_938, 2_724,
            333, -2_359, -2_226, 439, 2_438, 1_529, -1_018, -2_183, -795, 1_294, 1_678, 187,
            -1_235, -1_067, 170, 891, 497, -207, -371, -127,
        ],
    },
    Case {
        band: 4,
        sums: [324_000_000, -432_000_000, -540_000_000, 0],
        window: [
            -1_276, -3_319, -1_438, 2_915, 4_438, 496, -4_764, -4_778, 1_207, 6_362, 4_170, -3_327,
            -7_307, -2_673, 5_419, 7_337, 553, -7_037, -6_398, 1_780, 7_831, 4_657, -3_868, -7_658,
            -2_469, 5_303, 6_564, 280, -5_828, -4_834, 1_460, 5_403,
        ],
    },
];

impl Case {
    fn energies(&self) -> (i64, i64) {
        let [space_i, space_q, mark_i, mark_q] = self.sums.map(|sum| sum * sum);
        (space_i + space_q, mark_i + mark_q)
    }
}

/// These, those at the edge of doubt, and silence.
fn windows() -> impl Iterator<Item = Weighed> {
    let cases = CASES.iter().map(|case| (case.band, case.window));
    let silent = BANDS.into_iter().map(|band| (band, [0; WINDOW]));
    let weighed = cases.chain(silent);
    let weighed = weighed.map(|(band, window)| Weighed::new(band, window));
    weighed.chain(doubtful::all())
}

#[test]
fn the_sums_are_those_of_the_windows() {
    for case in &CASES {
        let weighed = |weight: &dyn Fn(usize) -> i16| -> i64 {
            let pairs = case.window.iter().enumerate();
            let products = pairs.map(|(j, &x)| i64::from(x) * i64::from(weight(j)));
            products.sum()
        };
        let [space, mark] = steps(case.band);
        let sums = [
            weighed(&|j| sines().c(j * space)),
            weighed(&|j| sines().s(j * space)),
            weighed(&|j| sines().c(j * mark)),
            weighed(&|j| sines().s(j * mark)),
        ];
        assert_eq!(sums, case.sums);
        let (space, mark) = case.energies();
        let weighed = Weighed::new(case.band, case.window);
        assert_eq!([weighed.space, weighed.mark], [space, mark].map(i128::from));
    }
}

#[test]
fn each_band_has_each_edge() {
    for (band, cases) in BANDS.into_iter().zip(CASES.chunks(7)) {
        assert!(cases.iter().all(|case| case.band == band), "band {band}");
        let found: Vec<_> = cases
            .iter()
            .map(|case| {
                let (space, mark) = case.energies();
                (space - mark, i128::from(space.max(mark)) - LEAST_GOOD)
            })
            .collect();
        assert_eq!(found[..3], [(0, 0), (1, 1), (-1, 1)]);
        assert_eq!((found[3].1, found[4].1), (0, 0));
        assert!(found[3].0 < 0 && found[4].0 > 0);
        assert_eq!(found[5], (0, -14));
        assert_eq!(found[6].0, 0);
    }
}

/// How far five times the smaller energy is above four times the larger, row by row.
/// Only above 0 there is a doubt.
const ABOVE: [i128; doubtful::ENERGIES.len()] = [0, 4, -4, 5, 1, -3, 2, -2, 0, 185, 1];

#[test]
fn each_band_has_each_edge_of_doubt() {
    for (row, [larger, smaller]) in doubtful::ENERGIES.into_iter().enumerate() {
        assert_eq!(5 * smaller - 4 * larger, ABOVE[row], "row {row}");
        let doubtful = doubtful::DOUBTFUL.contains(&row);
        assert_eq!(doubtful, ABOVE[row] > 0, "row {row}");
        let good = row != doubtful::BELOW;
        for band in BANDS {
            let found = [0, 1].map(|bit| doubtful::edge(band, bit, row));
            let energies = found.map(|edge| [edge.space, edge.mark]);
            let expected = [[larger, smaller], [smaller, larger]];
            assert_eq!(energies, expected, "band {band}, row {row}");
            for edge in found {
                let decided = (edge.is_good(), edge.is_doubtful());
                assert_eq!(decided, (good, doubtful), "band {band}, row {row}");
            }
        }
    }
    for tie in BANDS.map(doubtful::tie) {
        assert_eq!(tie.space, tie.mark);
        assert_eq!((tie.is_good(), tie.is_doubtful()), (true, true));
    }
}

/// Only a full run and space above mark end the search, in doubt or not.
#[test]
fn searching() {
    for window in windows() {
        for run in 0..=32 {
            let found = window.is_good() && run >= 31 && window.space > window.mark;
            let expected = if found { [1, 16, 0, 0] } else { [0; 4] };
            let told = window.read(run, [0; 4]);
            assert_eq!(told, (expected, vec![]), "run {run}, {window:?}");
        }
    }
}

/// Nothing is decided before the wait is over.
#[test]
fn waiting() {
    for window in windows() {
        for wait in 2..=32 {
            for slot in u8::from(wait > 16)..=9 {
                let told = window.read(5, [1, wait, slot, 0]);
                assert_eq!(told, ([1, wait - 1, slot, 0], vec![]), "{window:?}");
            }
        }
    }
}

/// A start bit is in no doubt.
#[test]
fn start() {
    for window in windows() {
        for run in [0, 31, 32] {
            let begun = window.is_good() && window.space > window.mark;
            let expected = if begun { [1, 32, 1, 0] } else { [0; 4] };
            let told = window.read(run, [1, 1, 0, 0]);
            assert_eq!(told, (expected, vec![]), "{window:?}");
        }
    }
}

/// A tie is a doubt here.
#[test]
fn data() {
    for window in windows() {
        for slot in 1..=8 {
            let place = 1 << (slot - 1);
            for byte in [0, place - 1, place / 2] {
                let expected = if !window.is_good() {
                    ([0; 4], vec![CARRIER_LOST])
                } else if window.is_doubtful() {
                    ([0; 4], vec![DOUBT])
                } else if window.mark > window.space {
                    ([1, 32, slot + 1, byte + place], vec![])
                } else {
                    ([1, 32, slot + 1, byte], vec![])
                };
                for run in [0, 31, 32] {
                    let told = window.read(run, [1, 1, slot, byte]);
                    assert_eq!(told, expected, "slot {slot}, {byte}, {window:?}");
                }
            }
        }
    }
}

/// A doubt is neither a missing stop bit nor a break, whatever the byte, and no break
/// is held behind it.
#[test]
fn stop() {
    for window in windows() {
        for byte in 0..=255 {
            let (stage, event) = if !window.is_good() {
                ([0; 4], CARRIER_LOST)
            } else if window.is_doubtful() {
                ([0; 4], DOUBT)
            } else if window.mark > window.space {
                ([0; 4], u16::from(byte))
            } else if byte == 0 {
                (HELD, BREAK)
            } else {
                ([0; 4], NO_STOP_BIT)
            };
            let told = window.read(31, [1, 1, 9, byte]);
            assert_eq!(told, (stage, vec![event]), "{byte}, {window:?}");
        }
    }
}

/// Only a full run and mark at least space end a break. A tie ends it, and so does any
/// other doubt with mark the larger.
#[test]
fn holding() {
    for window in windows() {
        for run in 0..=32 {
            let ended = window.is_good() && run >= 31 && window.mark >= window.space;
            let expected = if ended { [0; 4] } else { HELD };
            let told = window.read(run, HELD);
            assert_eq!(told, (expected, vec![]), "run {run}, {window:?}");
        }
    }
}

/// 0 against 0 is not doubtful, and has no good level.
#[test]
fn silence() {
    for band in BANDS {
        let silence = Weighed::new(band, [0; WINDOW]);
        assert_eq!([silence.space, silence.mark], [0; 2], "band {band}");
        assert!(!silence.is_doubtful(), "band {band}");
        for slot in 1..=9 {
            for run in 0..=32 {
                let told = silence.read(run, [1, 1, slot, 0]);
                assert_eq!(told, ([0; 4], vec![CARRIER_LOST]), "slot {slot}");
            }
        }
    }
}
