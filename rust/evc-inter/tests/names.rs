//! The names that the header has too: the same values, and the lengths that the calls need.

use evc_inter::*;

/// The value behind a name of the header: a #define's, or an enum's.
fn value(name: &str) -> u64 {
    let header = include_str!("../../../include/evc_inter.h");
    let text = header.lines().find_map(|line| {
        let line = line.trim();
        match line.strip_prefix("#define ") {
            Some(define) => define.strip_prefix(name)?.strip_prefix(' '),
            None => line.strip_prefix(name)?.strip_prefix(" = "),
        }
    });
    let text = text.unwrap_or_else(|| panic!("the header has no {name}"));
    let text = text.split("/*").next().unwrap().trim();
    let text = text.trim_end_matches([',', 'u']);
    let number = |text: &str| match text.strip_prefix("0x") {
        Some(digits) => u64::from_str_radix(digits, 16),
        None => text.parse(),
    };
    let number = |text| number(text).unwrap_or_else(|_| panic!("{name} is {text}"));
    match text.split_once(" << ") {
        Some((one, bit)) => number(one) << number(bit),
        None => number(text),
    }
}

#[test]
fn values() {
    let flags = [
        ("EVC_AVAIL_UP", AVAIL_UP),
        ("EVC_AVAIL_LE", AVAIL_LE),
        ("EVC_AVAIL_RI", AVAIL_RI),
        ("EVC_AVAIL_UP_LE", AVAIL_UP_LE),
        ("EVC_AVAIL_UP_RI", AVAIL_UP_RI),
        ("EVC_AVAIL_LO_LE", AVAIL_LO_LE),
        ("EVC_AVAIL_LO_RI", AVAIL_LO_RI),
        ("EVC_AVAIL_RI_UP", AVAIL_RI_UP),
    ];
    for (name, flag) in flags {
        assert_eq!(value(name), flag.into(), "{name}");
    }
    for (name, ours) in [
        ("EVC_SCU_CODED", SCU_CODED.into()),
        ("EVC_SCU_INTRA", SCU_INTRA.into()),
        ("EVC_SCU_SLICE", SCU_SLICE.into()),
        ("EVC_MOTION_LEN", MOTION_LEN as u64),
        ("EVC_MAX_SIDE", MAX_SIDE.into()),
        ("EVC_MAX_POC", MAX_POC.into()),
        ("EVC_MAX_SAMPLE", MAX_SAMPLE.into()),
        ("EVC_MAX_SLICE_NUM", MAX_SLICE_NUM.into()),
        ("EVC_CU_Y", CU_OFFSET[0] as u64),
        ("EVC_CU_U", CU_OFFSET[1] as u64),
        ("EVC_CU_V", CU_OFFSET[2] as u64),
        ("EVC_CU_LEN", CU_LEN as u64),
        ("EVC_NOT_MOVED", Moved::Not as u64),
        ("EVC_MOVED_LOW", Moved::Low as u64),
        ("EVC_MOVED_HIGH", Moved::High as u64),
        ("EVC_TRACE_HEADER_LEN", TRACE_HEADER_LEN as u64),
        ("EVC_TRACE_RECORD_LEN", TRACE_RECORD_LEN as u64),
    ] {
        assert_eq!(value(name), ours, "{name}");
    }
}

/// The lengths are what a call needs and no more, and sides are refused as the call refuses.
#[test]
fn lengths() {
    for (w, h) in [
        (4, 4),
        (4, 12),
        (20, 8),
        (72, 4),
        (1920, 1080),
        (8128, 8128),
    ] {
        let (words, numbers) = (map_scu_len(w, h).unwrap(), map_mv_len(w, h).unwrap());
        let (map_scu, map_mv) = (vec![SCU_CODED; words], vec![0; numbers]);
        let call = |map_mv, map_scu| evc_camera_motion(w, h, map_mv, map_scu);
        assert_eq!(call(&map_mv, &map_scu), Ok(CameraMotion::Still));
        assert_eq!(call(&map_mv[1..], &map_scu), Err(Refusal::Buffer));
        assert_eq!(call(&map_mv, &map_scu[1..]), Err(Refusal::Buffer));
    }
    for (w, h) in [(0, 4), (4, 0), (6, 4), (4, 8132), (u32::MAX, 4)] {
        assert_eq!(map_scu_len(w, h), Err(Refusal::Picture));
        assert_eq!(map_mv_len(w, h), Err(Refusal::Picture));
        assert_eq!(unit_at(w, h, 0, 0), None);
    }
}

/// Each sample of a picture is in the unit that the direct vectors of a block there come from.
#[test]
fn units() {
    let (pic_w, pic_h) = (20, 12);
    for y in 0..pic_h {
        for x in 0..pic_w {
            let unit = unit_at(pic_w, pic_h, x, y).unwrap();
            let mut col_mv = vec![0; map_mv_len(pic_w, pic_h).unwrap()];
            col_mv[MOTION_LEN * unit] = 7;
            let block = EvcBlock {
                pic_w,
                pic_h,
                x: x / 4 * 4,
                y: y / 4 * 4,
                w: 4,
                h: 4,
            };
            let [mv0, _] = evc_get_mv_dir(block, 8, 0, 8, 0, Some(&col_mv)).unwrap();
            assert_eq!(mv0, EvcMv { x: 7, y: 0 }, "{x}, {y}");
        }
    }
    let last = unit_at(MAX_SIDE, MAX_SIDE, MAX_SIDE - 1, MAX_SIDE - 1);
    assert_eq!(last, Some(2032 * 2032 - 1));
    for (x, y) in [(20, 0), (0, 12), (u32::MAX, 0), (0, u32::MAX)] {
        assert_eq!(unit_at(pic_w, pic_h, x, y), None);
    }
}
