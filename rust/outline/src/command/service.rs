//! Who serves: the proved calls (feature `proved`), else the independent ones.

#[cfg(feature = "proved")]
mod linked {
    use hidokpalu::calls;
    pub use hidokpalu::calls::{open_service, serve_check, serve_handover};
    use hidokpalu::Crossing;
    use reference::bill::Tariff;
    use reference::handover::Across;
    use reference::service::Run;
    use reference::trim::Answer;

    pub const SERVER: &str = "proved service";
    pub const BILLER: &str = "proved billing";

    pub fn serve_trim(service: &[u32], caller: usize, image: &[u8], out: &mut [u8]) -> Answer {
        let mut length = 0;
        let code = calls::serve_trim(service, caller, image, out, &mut length);
        Answer { code, length }
    }

    pub fn serve_bill(
        service: &mut [u32],
        caller: usize,
        image: &[u8],
        tariff: &Tariff,
        answer: &mut [u32],
    ) -> u16 {
        let Tariff { start, step, taken, interference, least } = *tariff;
        let tariff = hidokpalu::Tariff { start, step, taken, interference, least };
        calls::serve_bill(service, caller, image, &tariff, answer)
    }

    pub fn serve_replay(
        service: &[u32],
        caller: usize,
        run: &Run,
        table: &mut [u8],
        answer: &mut [usize],
    ) -> u16 {
        let run = hidokpalu::Run { image: run.image, trace: run.trace, given: run.given };
        calls::serve_replay(service, caller, &run, table, answer)
    }

    pub fn serve_replay_handover(
        service: &[u32],
        caller: usize,
        run: &Across,
        table: &mut [u8],
        answer: &mut [usize],
    ) -> u16 {
        let Across { old, new, points, traces } = *run;
        let (first, second, given) = (traces.first, traces.second, traces.given);
        let run = Crossing { old, new, points, first, second, given };
        calls::serve_replay_handover(service, caller, &run, table, answer)
    }
}

#[cfg(not(feature = "proved"))]
mod linked {
    pub use reference::service::{
        open_service, serve_bill, serve_check, serve_handover, serve_replay, serve_replay_handover,
        serve_trim,
    };

    pub const SERVER: &str = "independent service";
    pub const BILLER: &str = "independent billing";
}

pub use linked::{
    open_service, serve_bill, serve_check, serve_handover, serve_replay, serve_replay_handover,
    serve_trim, BILLER, SERVER,
};

use reference::bill::{Bill, Tariff, ANSWER};
use reference::service::{Right, CALLERS, SERVICE};

/// The bill of an image for a caller.
pub fn bill_for(service: &mut [u32], caller: usize, image: &[u8], tariff: &Tariff) -> Bill {
    let mut answer = [0; ANSWER];
    let code = serve_bill(service, caller, image, tariff, &mut answer);
    let [cents, billed, first, second, third, fourth] = answer;
    Bill { code, cents, billed, threads: [first, second, third, fourth] }
}

/// A service whose caller 1 alone may do something: bill, and so many images are billed for it already.
pub fn one_biller(billed: u32) -> [u32; SERVICE] {
    let mut service = [0; SERVICE];
    open_service(&[Right::Bill as u8], &mut service);
    service[CALLERS] = billed;
    service
}
