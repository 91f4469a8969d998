//! Small runs of which every one of a kind is tried.

use super::started;
use crate::chains::{steps, GeneratedRestart, GeneratedRun, COMMANDS};
use crate::compare::{Comparison, Disagreement};
use crate::exhaustive::each_byte_at_each_value;
use crate::models::{self, BORDERS};
use crate::simulator::channel::{CCW_LENGTH, FLAGS_ZERO};
use crate::simulator::model::Model;
use crate::simulator::pack::{TrackAddress, LAST_HEAD};
use crate::simulator::{encode, sample};

pub fn compare_all(comparison: &mut Comparison) -> Result<(), Disagreement> {
    each_byte(comparison, "sample, one byte set", &run_of_sample())?;
    each_byte(
        comparison,
        "two heads, one byte set",
        &restarted_over_heads(),
    )?;
    each_code_and_flags_byte(comparison)?;
    each_limit(comparison)?;
    each_few_steps(comparison)?;
    each_search_in_vain(comparison)?;
    each_range_outside(comparison)?;
    each_other_model(comparison)?;
    each_cylinder(comparison)?;
    each_border_track(comparison)
}

/// Each command with a data range behind its area, from the chain and behind a restart.
fn each_range_outside(comparison: &mut Comparison) -> Result<(), Disagreement> {
    for (model, command) in Model::ALL
        .iter()
        .flat_map(|model| COMMANDS.map(|command| (model, command)))
    {
        for restarted in [false, true] {
            let mut run = started(run_of_sample(), restarted);
            run.model = model.number();
            run.chain.truncate(CCW_LENGTH);
            run.chain.extend(encode::ccw(command, 0xFFFF, 0, 5));
            comparison.run("each command out of range", run)?;
        }
    }
    Ok(())
}

/// The sample, from the chain and behind a restart, and where other questions refuse too.
fn each_other_model(comparison: &mut Comparison) -> Result<(), Disagreement> {
    for model in models::others() {
        for restarted in [false, true] {
            let mut run = started(run_of_sample(), restarted);
            run.model = model;
            comparison.run("no model", run.clone())?;
            run.image.pop();
            run.faults.pop();
            comparison.run("no model, image and list torn", run)?;
        }
    }
    Ok(())
}

/// A seek to each cylinder of a pack larger than that of any model, its home address then read, from the
/// chain and behind a restart; the image has the track, where the pack has it.
fn each_cylinder(comparison: &mut Comparison) -> Result<(), Disagreement> {
    let [.., behind] = BORDERS;
    for &model in Model::ALL {
        for cylinder in 0..=behind + 1 {
            let track = TrackAddress {
                cylinder,
                head: LAST_HEAD,
            };
            let mut run = on_track(model, track);
            run.chain[CCW_LENGTH..].copy_from_slice(&encode::ccw(0x1A, 0, 0, 5));
            run.faults.clear();
            if !track.on_pack(model) {
                run.image.clear();
            }
            for restarted in [false, true] {
                comparison.run("each cylinder", started(run.clone(), restarted))?;
            }
        }
    }
    Ok(())
}

/// Each track at the end of a pack: in the image, with a faulted record that cuts the run, and sought though
/// the image does not have it; from the chain and behind a restart.
fn each_border_track(comparison: &mut Comparison) -> Result<(), Disagreement> {
    for (model, track) in models::border_tracks() {
        let run = on_track(model, track);
        let sought = GeneratedRun {
            image: Vec::new(),
            faults: Vec::new(),
            ..run.clone()
        };
        for restarted in [false, true] {
            comparison.run("each border track", started(run.clone(), restarted))?;
            let sought = started(sought.clone(), restarted);
            comparison.run("each border track sought", sought)?;
        }
    }
    Ok(())
}

/// The sample's seek to this track and one read behind it.
fn on_track(model: Model, track: TrackAddress) -> GeneratedRun {
    let mut run = sample::on_track(track).into_run();
    run.model = model.number();
    run.chain.truncate(CCW_LENGTH);
    run.chain.extend(encode::ccw(0x06, 0, 0, 4));
    run
}

/// Document 01's sample.
fn run_of_sample() -> GeneratedRun {
    GeneratedRun {
        storage: vec![0xEE; 16],
        ..sample::run()
    }
}

/// The restart, with a mask, of the first cut over two heads.
fn restarted_over_heads() -> GeneratedRun {
    let program = [
        encode::ccw(0x07, 0x2000, 0x40, 6),
        encode::ccw(0x1F, 0x2006, 0x40, 1),
        encode::ccw(0x23, 0x2007, 0x40, 1),
        encode::ccw(0x31, 0x2008, 0x40, 5),
        encode::ccw(0x08, 0x1018, 0, 0),
        encode::ccw(0x92, 0, 0x50, 8),
        encode::ccw(0x08, 0x0020, 0, 0),
        [0; CCW_LENGTH],
    ];
    GeneratedRun {
        restart: Some(GeneratedRestart {
            program: program.concat(),
            arguments: vec![0, 0, 0, 0, 0, 17, 0xC9, 0x7F, 0, 0, 0, 17, 1, 0, 0, 0],
        }),
        ..sample::over_two_heads().into_run()
    }
}

/// Each byte of each area that is only read at each value.
fn each_byte(
    comparison: &mut Comparison,
    kind: &'static str,
    run: &GeneratedRun,
) -> Result<(), Disagreement> {
    type Area = fn(&mut GeneratedRun) -> Option<&mut Vec<u8>>;
    const AREAS: [Area; 6] = [
        |run| Some(&mut run.chain),
        |run| Some(&mut run.arguments),
        |run| Some(&mut run.image),
        |run| Some(&mut run.faults),
        |run| run.restart.as_mut().map(|restart| &mut restart.program),
        |run| run.restart.as_mut().map(|restart| &mut restart.arguments),
    ];
    for area in AREAS {
        let mut run = run.clone();
        let Some(bytes) = area(&mut run) else {
            continue;
        };
        for changed in each_byte_at_each_value(&bytes.clone()) {
            let mut run = run.clone();
            *area(&mut run).expect("the area is there") = changed;
            comparison.run_on_any(kind, run)?;
        }
    }
    Ok(())
}

/// One CCW behind a seek, with each command code and each flags byte of high or of low bits.
fn each_code_and_flags_byte(comparison: &mut Comparison) -> Result<(), Disagreement> {
    let of_high_bits = (0..=255).filter(|flags| flags & FLAGS_ZERO == 0);
    let flags = of_high_bits.chain(1..=FLAGS_ZERO);
    for (code, flags) in flags.flat_map(|flags| (0..=255).map(move |code| (code, flags))) {
        let mut run = run_of_sample();
        run.chain.truncate(CCW_LENGTH);
        run.chain.extend(encode::ccw(code, 0, flags, 5));
        run.chain.extend(encode::ccw(0x03, 8, 0, 2));
        comparison.run_on_any("each code and flags byte", run)?;
    }
    Ok(())
}

/// The sample with each limit up to its end and one more, and those refused; its fault cuts it in
/// the fourth command, without it there is a fifth.
fn each_limit(comparison: &mut Comparison) -> Result<(), Disagreement> {
    for limit in [0, 1, 2, 3, 4, 5, 6, 4_096, 4_097, 1 << 32, usize::MAX] {
        let mut run = run_of_sample();
        run.limit = limit;
        comparison.run_on_any("sample, each limit", run.clone())?;
        run.faults.clear();
        comparison.run_on_any("sample, each limit", run)?;
    }
    Ok(())
}

/// Every sequence of three steps over R0 alone, of five over R0 and R1, and of five over three heads,
/// the second with R0 alone, the fourth not in the image.
fn each_few_steps(comparison: &mut Comparison) -> Result<(), Disagreement> {
    for steps in steps::every(3, &steps::FEW) {
        let run = steps::stepped(0, &[0], &steps);
        comparison.run_on_any("each three steps, R0 alone", run)?;
    }
    for steps in steps::every(5, &steps::FEW) {
        let run = steps::stepped(0, &[1], &steps);
        comparison.run_on_any("each five steps, R0 and R1", run)?;
    }
    for steps in steps::every(5, &steps::FEW_OVER_HEADS) {
        let run = steps::stepped(0, &[1, 0, 1], &steps);
        comparison.run_on_any("each five steps over heads", run)?;
    }
    Ok(())
}

/// Every sequence of eight searches in vain over three heads, the second with R0 alone.
fn each_search_in_vain(comparison: &mut Comparison) -> Result<(), Disagreement> {
    for steps in steps::every(8, &steps::IN_VAIN) {
        let run = steps::stepped(0, &[1, 0, 1], &steps);
        for restarted in [false, true] {
            let run = started(run.clone(), restarted);
            comparison.run_on_any("each eight searches in vain", run)?;
        }
    }
    Ok(())
}
