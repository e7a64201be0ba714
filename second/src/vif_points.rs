//! Points for the units worked by hand, with literal values: each word and what it writes.

use crate::model::Model;
use crate::refusals;
use crate::state_block::{unit_word, UnitBlock, MPG, RESET_UNIT, UNPACK};
use crate::vif_cases::{code_words, Case, Standing, INTERRUPT, REFUSED};
use crate::vif_generate::{code_word, plain_case, stcycl};

/// A field that a write leaves as it was.
const KEPT: Option<u32> = None;

/// A quadword of data memory that is written, and its four fields afterwards.
type Write = (usize, [Option<u32>; 4]);

/// A word given to the unit, the answer to it, and what it writes in order.
struct Step {
    word: u32,
    answer: u32,
    writes: Vec<Write>,
    /// The word of code memory that is written, and its value.
    code: Option<(usize, u32)>,
}

/// Words given to a unit. A refused word is the last one.
pub struct Point {
    name: &'static str,
    model: Model,
    unit: UnitBlock,
    /// The number of the first word in its quadword.
    number: u32,
    steps: Vec<Step>,
    /// ROW afterwards.
    row: [u32; 4],
}

impl Point {
    fn from(name: &'static str, unit: UnitBlock) -> Point {
        Point {
            name,
            model: Model::Vif1,
            unit,
            number: 0,
            steps: Vec::new(),
            row: [0; 4],
        }
    }

    /// VIF1 after reset is given words that are taken and write nothing.
    fn new(name: &'static str, words: &[u32]) -> Point {
        Point::from(name, RESET_UNIT).then(words)
    }

    fn on_vif0(mut self) -> Point {
        self.model = Model::Vif0;
        self
    }

    fn starting_at(mut self, number: u32) -> Point {
        self.number = number;
        self
    }

    fn then(mut self, words: &[u32]) -> Point {
        for &word in words {
            self = self.step(word, 0, &[]);
        }
        self
    }

    fn step(mut self, word: u32, answer: u32, writes: &[Write]) -> Point {
        self.steps.push(Step {
            word,
            answer,
            writes: writes.to_vec(),
            code: None,
        });
        self
    }

    /// A word that is stored as this word of code memory.
    fn stored(self, word: u32, at: usize) -> Point {
        self.stored_with(word, at, 0)
    }

    /// The same with an answer.
    fn stored_with(mut self, word: u32, at: usize, answer: u32) -> Point {
        self = self.step(word, answer, &[]);
        if let Some(step) = self.steps.last_mut() {
            step.code = Some((at, word));
        }
        self
    }

    fn row(mut self, row: [u32; 4]) -> Point {
        self.row = row;
        self
    }

    fn refused(self, word: u32, refusal: u32) -> Point {
        self.step(word, REFUSED + refusal, &[])
    }

    /// The refusal of the last word; none where it is taken.
    pub fn refusal(&self) -> Option<u32> {
        self.steps.last()?.answer.checked_sub(REFUSED)
    }

    pub fn words(&self) -> usize {
        self.steps.len()
    }

    /// How many words come before the first that writes.
    pub fn quiet_words(&self) -> usize {
        let writes = |step: &Step| !step.writes.is_empty() || step.code.is_some();
        self.steps.iter().position(writes).unwrap_or(self.words())
    }

    /// The case of the point, each word in a group of its own; NOPs fill up the last quadword.
    pub fn case(&self) -> Case {
        let mut case = plain_case(self.model, self.unit, 0, self.number);
        case.words = self.steps.iter().map(|step| step.word).collect();
        let end = (self.number as usize + self.words()).next_multiple_of(4);
        case.words.resize(end - self.number as usize, 0);
        case.groups = vec![1; self.steps.len()];
        case
    }

    /// Gives the words one by one, with the unit written and read back between, and tests what
    /// each leaves.
    fn check(&self) -> Result<(), String> {
        let case = self.case();
        let mut standing = Standing::new(&case);
        let mut data = standing.data.clone();
        let mut code = code_words(&standing.code);
        for (at, step) in self.steps.iter().enumerate() {
            let before = standing.blocks();
            let answer = standing.take(case.given(at));
            step.write(&mut data, &mut code);
            let kept = answer < REFUSED || standing.blocks() == before;
            let same = standing.data == data && code_words(&standing.code) == code;
            if answer != step.answer || !same || !kept {
                return Err(format!("point {}: word {at}, answer {answer}", self.name));
            }
            standing.restore();
        }
        let unit = standing.both.map(|(unit, _)| unit);
        let row_right = unit.is_some_and(|unit| unit.registers.row == self.row);
        let ended = unit.is_some_and(|unit| unit.waiting.is_none());
        let waits = matches!(self.refusal(), Some(refusals::RANGE | refusals::ALIGNMENT));
        if row_right && ended != waits {
            return Ok(());
        }
        Err(format!("point {}: the unit afterwards", self.name))
    }
}

impl Step {
    fn write(&self, data: &mut [u32], code: &mut [u32]) {
        for (quadword, fields) in &self.writes {
            let to = &mut data[4 * quadword..4 * quadword + 4];
            for (to, field) in to.iter_mut().zip(fields) {
                *to = field.unwrap_or(*to);
            }
        }
        if let Some((at, word)) = self.code {
            code[at] = word;
        }
    }
}

/// The points under a name; none for another name.
pub fn named(name: &str) -> Option<Vec<Point>> {
    match name {
        "mask" => Some(mask_points()),
        "filling" => Some(filling_points()),
        "vif0" => Some(vif0_points()),
        "upload" => Some(upload_points()),
        _ => None,
    }
}

pub fn all() -> Vec<Point> {
    let mut points = mask_points();
    points.extend(filling_points());
    points.extend(vif0_points());
    points.extend(upload_points());
    points
}

/// Tests our own unit on all points; hands back how many there are.
pub fn check() -> Result<usize, String> {
    let points = all();
    points.iter().try_for_each(Point::check)?;
    Ok(points.len())
}

fn stmod(mode: u32) -> u32 {
    code_word(0x05, 0, mode)
}

fn stmask(mask: u32) -> [u32; 2] {
    [code_word(0x20, 0, 0), mask]
}

fn strow([x, y, z, w]: [u32; 4]) -> [u32; 5] {
    [code_word(0x30, 0, 0), x, y, z, w]
}

fn stcol([x, y, z, w]: [u32; 4]) -> [u32; 5] {
    [code_word(0x31, 0, 0), x, y, z, w]
}

/// ROW under a mask.
fn mask_points() -> Vec<Point> {
    let (masked, unmasked) = (code_word(0x71, 2, 4), code_word(0x61, 2, 4));
    vec![
        two_vectors(
            "MODE 2, codes 0 to 3",
            [stmod(2), masked],
            [Some(13), Some(20), Some(7), KEPT],
            [Some(18), Some(20), Some(7), KEPT],
        )
        .row([18, 20, 30, 40]),
        two_vectors(
            "MODE 2, M clear",
            [stmod(2), unmasked],
            [13, 23, 33, 43].map(Some),
            [18, 28, 38, 48].map(Some),
        )
        .row([18, 28, 38, 48]),
        two_vectors(
            "MODE 1, codes 0 to 3",
            [stmod(1), masked],
            [Some(13), Some(20), Some(7), KEPT],
            [Some(15), Some(20), Some(7), KEPT],
        )
        .row([10, 20, 30, 40]),
        kept_then_replaced(),
    ]
}

/// S-16 at quadword 4 whose two vectors, 3 and 5, come in one word; row 0 of the mask has all
/// four codes.
fn two_vectors(
    name: &'static str,
    [stmod, unpack]: [u32; 2],
    first: [Option<u32>; 4],
    second: [Option<u32>; 4],
) -> Point {
    Point::new(name, &[stcycl(1, 1), stmod])
        .then(&stmask(0xE4))
        .then(&strow([10, 20, 30, 40]))
        .then(&stcol([7, 8, 9, 11]))
        .then(&[unpack])
        .step(0x0005_0003, 0, &[(4, first), (5, second)])
}

/// Row 0 of the mask keeps ROW of X, Y and Z and replaces that of W, row 1 does the opposite.
fn kept_then_replaced() -> Point {
    Point::new("MODE 2, ROW kept, then replaced", &[stcycl(2, 2), stmod(2)])
        .then(&stmask(0x4039))
        .then(&strow([0x100, 0x200, 0x300, 0x400]))
        .then(&stcol([0xC0, 0xC1, 0xC2, 0xC3]))
        .then(&[code_word(0x72, 3, 1_022)])
        .step(
            // 1, -2 and 3; the last byte is dropped.
            0x7F03_FE01,
            0,
            &[
                (1_022, [Some(0x100), Some(0xC0), KEPT, Some(0x401)]),
                (1_023, [0xFE, 0x1FE, 0x2FE, 0x401].map(Some)),
                (0, [Some(0xFE), Some(0xC0), KEPT, Some(0x404)]),
            ],
        )
        .row([0xFE, 0x1FE, 0x2FE, 0x404])
}

/// Filling write.
fn filling_points() -> Vec<Point> {
    vec![
        round_the_end(),
        trailing_with_interrupt(),
        without_payload(),
        fill_under_mode_2(),
        three_elements(),
        five_bits(),
        most_without_payload(),
        most_after_a_vector(),
        waits_inside_a_cycle(),
        Point::from("more due than vectors", waiting(2, 3, 4)).refused(1, refusals::RANGE),
        Point::from("waiting beside CL 0", waiting(0, 3, 1)).refused(1, refusals::RANGE),
        Point::from("waiting beside WL 0", waiting(2, 0, 1)).refused(1, refusals::RANGE),
        Point::new("WL 0", &[stcycl(5, 0)]).refused(code_word(0x60, 4, 0), refusals::CYCLE),
        Point::new("CL 0, WL 0", &[]).refused(code_word(0x60, 4, 0), refusals::CYCLE),
    ]
}

/// S-32, NUM 0: 256 fills in the code's own step.
fn most_without_payload() -> Point {
    let writes: Vec<Write> = (900..1_156).map(|at| (at % 1_024, [Some(0); 4])).collect();
    Point::new("CL 0, NUM 0", &[stcycl(0, 255)]).step(code_word(0x60, 0, 900), 0, &writes)
}

/// S-32, NUM 0: a vector and 254 fills, then the second vector.
fn most_after_a_vector() -> Point {
    let writes: Vec<Write> = (0..255).map(|at| (at, [Some(5); 4])).collect();
    Point::new("CL 1, WL 255", &[stcycl(1, 255), code_word(0x60, 0, 0)])
        .step(5, 0, &writes)
        .step(6, 0, &[(255, [Some(6); 4])])
}

/// A unit in which an S-32 of four writes at quadword 20 waits.
fn waiting(cl: u32, wl: u32, due: u32) -> UnitBlock {
    let mut unit = RESET_UNIT;
    for (at, word) in [
        (unit_word::CL, cl),
        (unit_word::WL, wl),
        (unit_word::WAITING, UNPACK),
        (unit_word::DUE, due),
        (unit_word::ADDRESS, 20),
        (unit_word::COUNT, 4),
    ] {
        unit[at] = word;
    }
    unit
}

/// The first of three vectors has been taken.
fn waits_inside_a_cycle() -> Point {
    Point::from("waiting beside CL 2, WL 3", waiting(2, 3, 2))
        .step(2, 0, &[(21, [Some(2); 4]), (22, [Some(2); 4])])
        .step(3, 0, &[(23, [Some(3); 4])])
}

/// S-32, NUM 4, from the quadword before the last: vectors 1 and 2, a fill that goes round the end, vector 3.
fn fill_round(name: &'static str, last: usize) -> Point {
    let first = code_word(0x60, 4, last as u32 - 1);
    Point::new(name, &[stcycl(2, 3), first])
        .step(1, 0, &[(last - 1, [Some(1); 4])])
        .step(2, 0, &[(last, [Some(2); 4]), (0, [Some(2); 4])])
        .step(3, 0, &[(1, [Some(3); 4])])
}

fn round_the_end() -> Point {
    fill_round("CL 2, WL 3", 1_023)
}

/// V4-8 in MODE 1, NUM 4: one vector and three fills, which are without MODE.
fn trailing_with_interrupt() -> Point {
    let fields = [0xFFFF_FF80, 0x7F, u32::MAX, 4].map(Some);
    Point::new("fills after the last vector", &[stcycl(1, 4), stmod(1)])
        .then(&strow([1, 2, 3, 4]))
        .then(&[1 << 31 | code_word(0x6E, 4, 10)])
        .step(
            0x04FF_7F80,
            INTERRUPT,
            &[
                (10, [0xFFFF_FF81, 0x81, 2, 8].map(Some)),
                (11, fields),
                (12, fields),
                (13, fields),
            ],
        )
        .row([1, 2, 3, 4])
}

/// V3-8 in MODE 2, NUM 4: four fills in the code's own step. Row 0 of the mask has code 0, row 1
/// the codes 1, 2, 3 and 0, row 2 code 1. Then a NOP.
fn without_payload() -> Point {
    Point::new("CL 0", &[stcycl(0, 3), stmod(2)])
        .then(&stmask(0x0055_3900))
        .then(&strow([10, 20, 30, 40]))
        .then(&stcol([7, 8, 9, 11]))
        .step(
            1 << 31 | code_word(0x7A, 4, 1_022),
            INTERRUPT,
            &[
                (1_022, [Some(0); 4]),
                (1_023, [Some(10), Some(8), KEPT, Some(0)]),
                (0, [10, 20, 30, 40].map(Some)),
                (1, [Some(0); 4]),
            ],
        )
        .then(&[0])
        .row([10, 20, 30, 40])
}

/// S-16 in MODE 2, NUM 4: vectors 3 and 5, each with a fill after it. Row 0 of the mask has code
/// 1 for Z, else 0; row 1, which the fills read, has the codes 1, 0, 2 and 3.
fn fill_under_mode_2() -> Point {
    Point::new("fill in MODE 2", &[stcycl(1, 2), stmod(2)])
        .then(&stmask(0xE110))
        .then(&strow([10, 20, 30, 40]))
        .then(&stcol([7, 8, 9, 11]))
        .then(&[code_word(0x71, 4, 8)])
        .step(
            0x0005_0003,
            0,
            &[
                (8, [13, 23, 30, 43].map(Some)),
                (9, [Some(13), Some(3), Some(8), KEPT]),
                (10, [18, 28, 30, 48].map(Some)),
                (11, [Some(18), Some(5), Some(8), KEPT]),
            ],
        )
        .row([18, 28, 30, 48])
}

/// V3-16, NUM 3: a vector in one word and a half, its fill, and another vector.
fn three_elements() -> Point {
    let first = [1, 2, 3, 0].map(Some);
    Point::new("V3-16", &[stcycl(1, 2), code_word(0x69, 3, 100)])
        .then(&[0x0002_0001])
        .step(0x0004_0003, 0, &[(100, first), (101, first)])
        .step(0x0006_0005, 0, &[(102, [4, 5, 6, 0].map(Some))])
}

/// V4-5, NUM 2: the halfword above the vector is dropped.
fn five_bits() -> Point {
    let fields = [0xF8, 0, 0x08, 0x80].map(Some);
    Point::new("V4-5", &[stcycl(1, 5), code_word(0x6F, 2, 500)]).step(
        0x1234_841F,
        0,
        &[(500, fields), (501, fields)],
    )
}

/// The small unit.
fn vif0_points() -> Vec<Point> {
    let cycle = stcycl(1, 1);
    let (s_32, bit_15) = (code_word(0x60, 1, 0), 0x8000);
    let mut points = vec![
        vectors_round_the_end(),
        fills_round_the_end(),
        filled_without_payload(),
        address_above_the_end(),
        mpg_round_the_end(),
        mpg_address_above_the_end(),
        waiting_above_the_end(),
        mpg_waiting_above_the_end(),
        Point::new("bit 15", &[cycle]).refused(s_32 | bit_15, refusals::TOPS),
        Point::new("bit 15, CL 0", &[stcycl(0, 1)]).refused(s_32 | bit_15, refusals::TOPS),
        Point::new("22 before 26", &[stcycl(1, 0)]).refused(s_32 | bit_15, refusals::CYCLE),
        Point::new("21 before 26", &[cycle]).refused(code_word(0x63, 1, bit_15), refusals::FORMAT),
        Point::new("21 before 22 and 26", &[stcycl(1, 0)])
            .refused(code_word(0x7B, 1, bit_15), refusals::FORMAT),
        Point::from("address 1,024", waiting_unpack(1_024)).refused(1, refusals::RANGE),
        Point::from("MPG address 2,048", waiting_mpg(2_048)).refused(1, refusals::RANGE),
    ];
    for command in [0x02, 0x03, 0x06, 0x11, 0x13, 0x15, 0x50, 0x51] {
        let missing = Point::new("a code that is missing", &[cycle]);
        points.push(missing.refused(code_word(command, 0, 1), refusals::COMMAND));
    }
    let taken = [(0x00, 0), (0x04, 7), (0x05, 1), (0x07, 9), (0x10, 0)];
    let taken = taken.map(|(command, imm)| code_word(command, 0, imm));
    points.push(Point::new("codes that are there", &taken));
    points.into_iter().map(Point::on_vif0).collect()
}

/// V4-32, NUM 2, at quadword 255.
fn vectors_round_the_end() -> Point {
    Point::new("255 and 0", &[stcycl(1, 1), code_word(0x6C, 2, 255)])
        .then(&[1, 2, 3])
        .step(4, 0, &[(255, [1, 2, 3, 4].map(Some))])
        .then(&[5, 6, 7])
        .step(8, 0, &[(0, [5, 6, 7, 8].map(Some))])
}

fn fills_round_the_end() -> Point {
    fill_round("fill at 0", 255)
}

/// S-32, NUM 0: each of the 256 quadwords in the code's own step.
fn filled_without_payload() -> Point {
    let writes: Vec<Write> = (900..1_156).map(|at| (at % 256, [Some(0); 4])).collect();
    Point::new("CL 0, NUM 0", &[stcycl(0, 255)]).step(code_word(0x60, 0, 900), 0, &writes)
}

/// S-16, NUM 2, CL 4: quadwords 1,021 and 1,025 are 253 and 1.
fn address_above_the_end() -> Point {
    Point::new("address 1,021", &[stcycl(4, 1), code_word(0x61, 2, 1_021)]).step(
        0x0006_0005,
        0,
        &[(253, [Some(5); 4]), (1, [Some(6); 4])],
    )
}

fn mpg_round_the_end() -> Point {
    Point::new("MPG at 511", &[0, code_word(0x4A, 2, 511)])
        .stored(0x11, 1_022)
        .stored(0x22, 1_023)
        .stored(0x33, 0)
        .stored(0x44, 1)
}

/// Instruction 65,535 is 511, and the next is 0.
fn mpg_address_above_the_end() -> Point {
    Point::new("MPG at 65,535", &[0, code_word(0x4A, 2, 0xFFFF)])
        .stored(0x11, 1_022)
        .stored(0x22, 1_023)
        .stored(0x33, 0)
        .stored(0x44, 1)
}

/// A unit in which an S-32 of two writes waits with both words due.
fn waiting_unpack(address: u32) -> UnitBlock {
    let mut unit = waiting(1, 1, 2);
    unit[unit_word::ADDRESS] = address;
    unit[unit_word::COUNT] = 2;
    unit
}

fn waiting_above_the_end() -> Point {
    Point::from("waiting at 1,023", waiting_unpack(1_023))
        .step(1, 0, &[(255, [Some(1); 4])])
        .step(2, 0, &[(0, [Some(2); 4])])
}

/// A unit in which an MPG of two instructions waits with two words due.
fn waiting_mpg(address: u32) -> UnitBlock {
    let mut unit = waiting_unpack(address);
    unit[unit_word::WAITING] = MPG;
    unit
}

fn mpg_waiting_above_the_end() -> Point {
    Point::from("MPG waiting at 1,535", waiting_mpg(1_535))
        .stored(0x11, 0)
        .stored(0x22, 1)
}

/// Code uploads on each word, on both units.
fn upload_points() -> Vec<Point> {
    let mut points = Vec::new();
    for make in [|point: Point| point, Point::on_vif0] {
        for number in 0..4 {
            points.push(make(upload_from(number)));
            points.extend([1, 2, 3].map(|due| make(upload_goes_on(number, due))));
            points.push(make(upload_saved(number)));
        }
    }
    points
}

/// MPG with its bit 31 set in the word with this number; its payload begins at the next.
fn upload_from(number: u32) -> Point {
    let code = [1 << 31 | code_word(0x4A, 1, 5)];
    let point = Point::new("MPG in each word", &code).starting_at(number);
    if number % 2 == 0 {
        return point.refused(0x11, refusals::ALIGNMENT);
    }
    point.stored(0x11, 10).stored_with(0x22, 11, INTERRUPT)
}

/// An MPG of two instructions of which so many words are due goes on from any word.
fn upload_goes_on(number: u32, due: u32) -> Point {
    let mut unit = waiting_mpg(6);
    unit[unit_word::DUE] = due;
    let point = Point::from("MPG goes on", unit).starting_at(number);
    (0..due).fold(point, |point, i| {
        point.stored(0x100 + i, (16 - due + i) as usize)
    })
}

/// An MPG of two instructions of which no word has been taken.
fn upload_saved(number: u32) -> Point {
    let mut unit = waiting_mpg(6);
    unit[unit_word::DUE] = 4;
    let point = Point::from("MPG begins", unit).starting_at(number);
    if number % 2 == 1 {
        return point.refused(0x11, refusals::ALIGNMENT);
    }
    (0..4).fold(point, |point, i| point.stored(0x100 + i as u32, 12 + i))
}

#[cfg(test)]
mod tests {
    use super::*;

    #[test]
    fn row_under_a_mask() {
        for point in mask_points() {
            assert_eq!(point.check(), Ok(()));
        }
    }

    #[test]
    fn filling_write() {
        for point in filling_points() {
            assert_eq!(point.check(), Ok(()));
        }
    }

    #[test]
    fn small_unit() {
        for point in vif0_points() {
            assert_eq!(point.check(), Ok(()));
        }
    }

    #[test]
    fn code_uploads() {
        for point in upload_points() {
            assert_eq!(point.check(), Ok(()));
        }
    }

    #[test]
    fn wrong_values_are_found() {
        let changes: [fn(&mut Point); 3] = [
            |point| point.row[1] += 1,
            |point| point.steps.iter_mut().for_each(|step| step.answer += 1),
            |point| {
                let quiet = point.quiet_words();
                match point.steps.get_mut(quiet) {
                    Some(Step {
                        code: Some((at, _)),
                        ..
                    }) => *at ^= 2,
                    Some(step) => step.writes[0].1[0] = Some(0x0BAD_0BAD),
                    None => point.row = [1; 4],
                }
            },
        ];
        for change in changes {
            for mut point in all() {
                change(&mut point);
                assert!(point.check().is_err());
            }
        }
    }
}
