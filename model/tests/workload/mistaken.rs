//! A small separate generator, which may make a mistake.

use model::checked_writer::written;
use model::gen::workload_calls::WorkloadCall;
use model::runfile::{distance, read_setup};
use model::setup::Setup;
use model::step_record::{Step, CLOCK, WRITE};
use model::unchecked_writer::{record, write};

use crate::rule::Rule;

mistakes! {
    // The draws.
    OtherMultiplier,
    /// 1,013,904,222.
    OtherIncrement,
    /// Keeps a number modulo 2 to the 31st.
    OtherModulus,
    /// Draws the seed itself first.
    SeedFirst,
    /// Draws the upper half of the number.
    UpperHalf,
    /// Draws only what the step's kind uses.
    OnlyUsed,
    /// Takes one draw for all fields of a step.
    OneDraw,
    /// Starts from the seed again at each step.
    SeedAgain,

    // The fields.
    /// Draw mod 9, without the 1.
    KindFrom0,
    /// 1 + draw mod 8, so that no client restarts.
    KindOf8,
    /// 1 + draw mod 11, so that there are saves and returns.
    KindOf11,
    ObjectBeforeClient,
    PlaceBeforeObject,
    AmountFirst,
    /// Takes the remainder by the object count for the client, too.
    ClientOfObjects,
    PlaceOf63,
    PlaceOf65,
    AmountOf4,
    AmountOf6,
    /// From 1 to 5.
    AmountFrom1,

    // What becomes of the amount.
    /// The total before the amount is added, as the clock.
    OldTotal,
    /// The amount alone as the clock.
    TotalStartsAgain,
    /// Adds the amount of a write, too.
    WritesAddToTotal,
    /// Adds the amount of every step.
    AllAddToTotal,
    /// The total as the value of a write.
    WriteHasTotal,
    /// What was drawn for a field that the kind does not use.
    UnusedKept,

    // How many steps are wanted.
    MostIs3999,
    MostIs4001,
    /// Takes the count's lower 16 bits.
    CountIn16Bits,
    /// Asks about the count before the setup.
    CountFirst,
}

use Mistake::*;

impl Mistake {
    /// Returns whether it changes no step, only how many there may be.
    pub fn is_of_the_count(self) -> bool {
        matches!(self, MostIs3999 | MostIs4001 | CountIn16Bits | CountFirst)
    }
}

impl Rule<Mistake> {
    pub fn steps(self, seed: u32, setup: &Setup, count: usize) -> Vec<Step> {
        let mut load = Load { rule: self, seed: seed.into(), last: seed.into(), total: 0 };
        (0..count).map(|_| load.step(setup)).collect()
    }

    /// Returns the file of the call. Steps past the limit are written without a
    /// question.
    pub fn file(self, call: &WorkloadCall) -> Result<Vec<u8>, u8> {
        let count = self.number(call.count, CountIn16Bits, call.count & 0xffff) as usize;
        let most = self.number(self.number(4_000, MostIs3999, 3_999), MostIs4001, 4_001);
        if self.has(CountFirst) && count > most {
            return Err(10);
        }
        let right = Some(&call.setup).filter(|setup| setup.len() == 48);
        let setup = right.and_then(|setup| read_setup(setup).ok()).ok_or(7)?;
        if count > most {
            return Err(10);
        }
        let steps = self.steps(call.seed, &setup, count);
        if count > 4_000 && call.note.len() + distance(count) <= call.room {
            return Ok(write(&call.note, &setup, &steps));
        }
        let records: Vec<u8> = steps.iter().flat_map(record).collect();
        written(&call.note, &call.setup, &records, call.room)
    }
}

/// The five fields that are drawn, by their index in the right order.
const KIND: usize = 0;
const CLIENT: usize = 1;
const OBJECT: usize = 2;
const PLACE: usize = 3;
const AMOUNT: usize = 4;

/// The kinds that use each field; the kind itself is always drawn.
const USERS: [&[u32]; 5] = [&[], &[2, 3, 9], &[2, 3, 4], &[5, 6, 7], &[1, 4]];

impl Rule<Mistake> {
    fn order(self) -> [usize; 5] {
        match self.0 {
            Some(ObjectBeforeClient) => [KIND, OBJECT, CLIENT, PLACE, AMOUNT],
            Some(PlaceBeforeObject) => [KIND, CLIENT, PLACE, OBJECT, AMOUNT],
            Some(AmountFirst) => [AMOUNT, KIND, CLIENT, OBJECT, PLACE],
            _ => [KIND, CLIENT, OBJECT, PLACE, AMOUNT],
        }
    }

    /// Returns the least value of a field, and the number by which the
    /// remainder is taken.
    fn range(self, field: usize, setup: &Setup) -> (u32, u32) {
        let (clients, objects) = (setup.clients.into(), setup.objects.into());
        match field {
            KIND => (self.number(1, KindFrom0, 0), self.number(self.number(9, KindOf8, 8), KindOf11, 11)),
            CLIENT => (0, self.number(clients, ClientOfObjects, objects)),
            OBJECT => (0, objects),
            PLACE => (0, self.number(self.number(64, PlaceOf63, 63), PlaceOf65, 65)),
            _ => (self.number(0, AmountFrom1, 1), self.number(self.number(5, AmountOf4, 4), AmountOf6, 6)),
        }
    }
}

struct Load {
    rule: Rule<Mistake>,
    seed: u64,
    last: u64,
    total: u32,
}

impl Load {
    fn draw(&mut self) -> u64 {
        let rule = self.rule;
        let multiplier = rule.number(1_664_525, OtherMultiplier, 1_103_515_245);
        let increment = rule.number(1_013_904_223, OtherIncrement, 1_013_904_222);
        let next = (multiplier * self.last + increment) % rule.number(1 << 32, OtherModulus, 1 << 31);
        let drawn = rule.number(next, SeedFirst, self.last);
        self.last = next;
        rule.number(drawn, UpperHalf, drawn >> 16)
    }

    fn fields(&mut self, setup: &Setup) -> [u32; 5] {
        let mut fields = [0; 5];
        self.last = self.rule.number(self.last, SeedAgain, self.seed);
        let mut drawn = 0;
        for field in self.rule.order() {
            let used = field == KIND || USERS[field].contains(&fields[KIND]);
            if self.rule.has(OnlyUsed) && !used {
                continue;
            }
            if field == KIND || !self.rule.has(OneDraw) {
                drawn = self.draw();
            }
            let (least, by) = self.rule.range(field, setup);
            fields[field] = least + (drawn % u64::from(by)) as u32;
        }
        fields
    }

    fn step(&mut self, setup: &Setup) -> Step {
        let rule = self.rule;
        let [kind, client, object, place, amount] = self.fields(setup);
        let [kind, client, object, place] = [kind, client, object, place].map(|field| field as u8);
        let old = rule.number(self.total, TotalStartsAgain, 0);
        if kind == CLOCK || rule.has(AllAddToTotal) || rule.has(WritesAddToTotal) && kind == WRITE {
            self.total = old + amount;
        }
        let clock = rule.number(self.total, OldTotal, old);
        let value = rule.number(amount, WriteHasTotal, self.total).into();
        let full = Step { kind, client, object, place, clock, value };
        rule.number(full.used_fields(), UnusedKept, full)
    }
}
