//! What the host call returns and leaves in its area.

use second::forecast::forecast;
use second::host::host;
use second::reader::read;
use second::{damage, random, text, writer};

const P5: &str = "router 1 2 3\ndistance 0 1 4\ndistance 0 2 5\ndistance 1 2 9\nprefix 198.51.100.0/24
route 0 as 65001 med 0 id 2\nroute 0 as 65002 med 5 id 1\nroute 1 as 65002 med 0 id 2\nroute 1 as 65001 med 5 id 1";

fn p5() -> Vec<u8> {
    text::make_from_sheet(P5).expect("the notation is sound").bytes
}

#[test]
fn p5_is_open_at_three_routers() {
    let mut area = [0xee; 300];
    assert_eq!(host(&p5(), 0, &mut area), 3);
    assert_eq!(area[..12], [0, 1, 0, 0, 0, 3, 0, 2, 0, 1, 0, 0]);
    assert!(area[12..].iter().all(|&byte| byte == 0xee));
}

#[test]
fn none_is_65535() {
    let mut area = [0; 256];
    let bytes = text::make_from_sheet("router 1 2\nprefix 0.0.0.0/0").expect("the notation is sound").bytes;
    assert_eq!(host(&bytes, 0, &mut area), 0);
    assert_eq!(area[..10], [255, 255, 255, 255, 255, 255, 255, 255, 0, 0]);
}

#[test]
fn refusals_come_in_order_and_leave_the_area() {
    let mut bad = p5();
    bad[0] = 9;
    for (bytes, prefix, room, wanted) in [
        (&p5(), 0, 255, 101),
        (&bad, 9, 255, 101),
        (&bad, 9, 256, 103),
        (&p5(), 1, 256, 112),
        (&p5(), u64::MAX, 256, 112),
    ] {
        let mut area = vec![0xee; room];
        assert_eq!(host(bytes, prefix, &mut area), wanted);
        assert!(area.iter().all(|&byte| byte == 0xee));
    }
}

#[test]
fn it_answers_as_the_forecast_does() {
    for seed in 0..500 {
        let kind = ["open", "mixed-open"][seed as usize % 2];
        let whole = writer::write(&random::random(seed, kind).expect("a kind"));
        let bytes = damage::damage(&whole, seed);
        for bytes in [whole, bytes] {
            let mut area = [0xee; 256];
            let returned = host(&bytes, 0, &mut area);
            match read(&bytes) {
                Err(refusal) => assert_eq!(returned, 100 + refusal.number as u32),
                Ok(snapshot) if snapshot.prefixes.is_empty() => assert_eq!(returned, 112),
                Ok(snapshot) => assert_eq!(returned, forecast(&snapshot, 0).open() as u32),
            }
        }
    }
}
